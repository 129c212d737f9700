//! Where the elements of a state stand in its bytes, written from docs/LAYOUT.md
//! alone.

use model::{ListKind, Settings, Shape, BUCKETS, DESTINATIONS, ENTRIES_PER_PORT};

/// A table: where it starts and how wide an element is.
#[derive(Debug, Clone, Copy)]
pub struct Table {
    pub start: usize,
    pub width: usize,
}

impl Table {
    /// Element `i`, big-endian.
    pub fn get(self, memory: &[u8], i: usize) -> u32 {
        let at = self.start + i * self.width;
        memory[at..at + self.width]
            .iter()
            .fold(0, |number, &byte| number << 8 | u32::from(byte))
    }

    pub fn set(self, memory: &mut [u8], i: usize, number: u32) {
        let at = self.start + i * self.width;
        let bytes = number.to_be_bytes();
        memory[at..at + self.width].copy_from_slice(&bytes[4 - self.width..]);
    }
}

/// The settings, in this order: ports, queues, nodes, beat, slots, credit,
/// edition, packets. They and the map stand at one place in every state.
pub const SETTING: Table = Table { start: 0, width: 2 };
pub const SETTINGS: usize = 8;
/// The settings' bytes.
pub const SETTINGS_END: usize = 2 * SETTINGS;
pub const MAPPED: Table = Table {
    start: SETTINGS_END,
    width: 1,
};

/// The tables of a state of so many ports, queues a port and nodes a port.
#[derive(Debug, Clone, Copy)]
pub struct Tables {
    pub ports: usize,
    pub queues: usize,
    pub nodes: usize,
    pub last: Table,
    /// The ports' marks.
    pub halted: Table,
    pub arrival: Table,
    pub outward: Table,
    /// Of each port's waits.
    pub buckets: Table,
    pub head: Table,
    pub tail: Table,
    pub count: Table,
    pub next: Table,
    pub length: Table,
    pub stamp: Table,
    pub queue: Table,
    pub dest: Table,
    pub poisoned: Table,
    pub transaction: Table,
    pub price: Table,
    /// Where the last one ends.
    pub size: usize,
}

impl Tables {
    /// Of settings in their rows.
    pub fn of(settings: &Settings) -> Tables {
        Tables::sized(settings.shape(), settings.nodes)
    }

    /// Of a shape and so many nodes a port.
    pub fn sized(shape: Shape, nodes: u32) -> Tables {
        let [ports, queues, nodes] = [shape.ports, shape.queues, nodes].map(|n| n as usize);
        let credits = ports * (queues - 1);
        let lists = ports * (2 * queues + 2);
        let all_nodes = ports * nodes;
        let mut end = MAPPED.start + DESTINATIONS as usize;
        // Each starts where the one before it ends.
        let mut table = |width: usize, elements: usize| {
            let start = end;
            end += width * elements;
            Table { start, width }
        };
        let mut tables = Tables {
            ports,
            queues,
            nodes,
            last: table(1, ports),
            halted: table(1, ports),
            arrival: table(2, credits),
            outward: table(2, credits),
            buckets: table(4, ports * BUCKETS),
            head: table(2, lists),
            tail: table(2, lists),
            count: table(4, lists),
            next: table(2, all_nodes),
            length: table(2, all_nodes),
            stamp: table(4, all_nodes),
            queue: table(1, all_nodes),
            dest: table(1, all_nodes),
            poisoned: table(1, all_nodes),
            transaction: table(1, all_nodes),
            price: table(1, all_nodes),
            size: 0,
        };
        tables.size = end;
        tables
    }

    /// All of them, in the memory's order.
    pub fn in_order(&self) -> [Table; 18] {
        [
            SETTING,
            MAPPED,
            self.last,
            self.halted,
            self.arrival,
            self.outward,
            self.buckets,
            self.head,
            self.tail,
            self.count,
            self.next,
            self.length,
            self.stamp,
            self.queue,
            self.dest,
            self.poisoned,
            self.transaction,
            self.price,
        ]
    }

    /// A port's bucket.
    pub fn bucket(&self, port: usize, bucket: usize) -> usize {
        port * BUCKETS + bucket
    }

    /// How many credit cells there are, of arrival and of outward credit each.
    pub fn credits(&self) -> usize {
        self.ports * (self.queues - 1)
    }

    /// The number of the credit cell of a queue above 0.
    pub fn credit_cell(&self, port: usize, queue: usize) -> usize {
        port * (self.queues - 1) + queue - 1
    }

    pub fn lists_per_port(&self) -> usize {
        2 * self.queues + 2
    }

    pub fn lists(&self) -> usize {
        self.ports * self.lists_per_port()
    }

    /// The number of a list.
    pub fn list(&self, kind: ListKind) -> usize {
        let base = |port: u32| port as usize * self.lists_per_port();
        match kind {
            ListKind::Free { port } => base(port),
            ListKind::Ingress { port } => base(port) + 1,
            ListKind::Egress { port, queue } => base(port) + 2 + queue as usize,
            ListKind::Prefetch { port, queue } => base(port) + 2 + self.queues + queue as usize,
        }
    }

    /// How many nodes all ports have.
    pub fn all_nodes(&self) -> usize {
        self.ports * self.nodes
    }

    /// The element of an entry id in the tables of nodes. An id past its port's
    /// nodes is no node's, and has that of another port's node or none.
    pub fn slot(&self, entry: u32) -> usize {
        let (port, index) = parts(entry);
        port * self.nodes + index
    }

    /// The same; none if the id is no node's.
    pub fn node_slot(&self, entry: u32) -> Option<usize> {
        let (port, index) = parts(entry);
        (port < self.ports && index < self.nodes).then(|| self.slot(entry))
    }

    /// A list's nodes along its links, of bytes that are a state; of others as
    /// many as can be followed, and no more than there are nodes.
    pub fn nodes_of(&self, memory: &[u8], list: usize) -> Vec<u32> {
        let count = self.count.get(memory, list) as usize;
        let mut entry = self.head.get(memory, list);
        let mut met = Vec::new();
        while met.len() < count.min(self.all_nodes()) {
            let slot = match self.node_slot(entry) {
                Some(slot) => slot,
                None => break,
            };
            met.push(entry);
            entry = self.next.get(memory, slot);
        }
        met
    }

    /// Makes a list of these nodes.
    pub fn set_nodes(&self, memory: &mut [u8], list: usize, of: &[u32]) {
        self.count.set(memory, list, of.len() as u32);
        if let (Some(head), Some(tail)) = (of.first(), of.last()) {
            self.head.set(memory, list, *head);
            self.tail.set(memory, list, *tail);
        }
        for pair in of.windows(2) {
            self.next.set(memory, self.slot(pair[0]), pair[1]);
        }
    }
}

/// An entry id's port and index.
fn parts(entry: u32) -> (usize, usize) {
    let (port, index) = (entry / ENTRIES_PER_PORT, entry % ENTRIES_PER_PORT);
    (port as usize, index as usize)
}

#[cfg(test)]
mod tests {
    use model::size;

    use super::*;
    use crate::writer;

    /// Rows of the table of starts in docs/LAYOUT.md.
    #[test]
    fn starts_are_the_published_ones() {
        for (shape, nodes, wanted) in [
            (
                Shape::TEN_BYTES,
                1,
                [
                    0, 16, 4112, 4116, 4120, 4304, 4488, 5016, 5416, 5816, 6616, 6624, 6632, 6648,
                    6652, 6656, 6660, 6664, 6668,
                ],
            ),
            (
                Shape::wide(4, 24),
                256,
                [
                    0, 16, 4112, 4116, 4120, 4304, 4488, 5016, 5416, 5816, 6616, 8664, 10712,
                    14808, 15832, 16856, 17880, 18904, 19928,
                ],
            ),
            (
                Shape::wide(2, 2),
                2,
                [
                    0, 16, 4112, 4114, 4116, 4120, 4124, 4388, 4412, 4436, 4484, 4492, 4500, 4516,
                    4520, 4524, 4528, 4532, 4536,
                ],
            ),
            (
                Shape::wide(32, 64),
                2048,
                [
                    0, 16, 4112, 4144, 4176, 8208, 12240, 16464, 24784, 33104, 49744, 180816,
                    311888, 574032, 639568, 705104, 770640, 836176, 901712,
                ],
            ),
        ] {
            let tables = Tables::sized(shape, nodes);
            let starts = tables.in_order().map(|table| table.start);
            assert_eq!(starts, wanted[..18]);
            assert_eq!(tables.size, wanted[18]);
            let settings = Settings::of(shape, nodes, 64, 1, 0);
            assert_eq!(tables.size, size(&settings));
        }
    }

    #[test]
    fn nodes_have_their_elements_and_other_ids_none() {
        let ten = |nodes| Tables::sized(Shape::TEN_BYTES, nodes);
        for (entry, nodes, wanted) in [(0, 1, 0), (2049, 3, 4), (6146, 3, 11), (8191, 2048, 8191)] {
            assert_eq!(ten(nodes).slot(entry), wanted);
            assert_eq!(ten(nodes).node_slot(entry), Some(wanted));
        }
        for (entry, nodes) in [(1, 1), (2051, 3), (8192, 2048), (65_535, 2048)] {
            assert_eq!(ten(nodes).node_slot(entry), None);
        }
        // Past port 0's nodes, where port 1's begin.
        assert_eq!(ten(3).slot(3), ten(3).slot(2048));
        let most = Tables::sized(Shape::wide(32, 64), 2048);
        assert_eq!(most.node_slot(65_535), Some(65_535));
        assert_eq!(most.node_slot(65_536), None);
    }

    #[test]
    fn lists_that_are_set_are_read_back() {
        let settings = Settings::ten_bytes(3, 64, 1, 0);
        let tables = Tables::of(&settings);
        let mut memory = writer::starting(settings);
        let whole = memory.clone();
        for of in [vec![], vec![2049], vec![4098, 1], vec![4098, 1, 2048]] {
            tables.set_nodes(&mut memory, 7, &of);
            assert_eq!(tables.nodes_of(&memory, 7), of);
        }
        memory.copy_from_slice(&whole);
        assert_eq!(tables.nodes_of(&memory, 150), [6144, 6145, 6146]);
        tables.set_nodes(&mut memory, 150, &[6144, 6145, 6146]);
        assert_eq!(memory, whole);
        // Links that turn in a circle, and one that leads nowhere.
        tables.set_nodes(&mut memory, 150, &[6144, 6145, 6144]);
        tables.count.set(&mut memory, 150, u32::MAX);
        assert_eq!(tables.nodes_of(&memory, 150).len(), 12);
        tables.head.set(&mut memory, 150, 8192);
        assert_eq!(tables.nodes_of(&memory, 150), []);
    }
}
