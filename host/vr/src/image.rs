//! A reader of an image's bytes. It reads any bytes: what is not there is none.

use std::fmt;

use crate::layout::Table::{self, *};
use crate::layout::{Shape, BUCKETS, NODES, PORTS, QUEUES, ROWS, TABLES};

/// The step between the entry ids of two ports.
const IDS_PER_PORT: usize = 2048;

/// An entry id of a node: port × 2048 + index.
#[derive(Debug, Clone, Copy, PartialEq, Eq)]
pub struct Entry(pub u32);

impl Entry {
    pub fn port(self) -> usize {
        self.0 as usize / IDS_PER_PORT
    }

    pub fn index(self) -> usize {
        self.0 as usize % IDS_PER_PORT
    }
}

impl fmt::Display for Entry {
    fn fmt(&self, f: &mut fmt::Formatter<'_>) -> fmt::Result {
        let (port, index) = (self.port(), self.index());
        write!(f, "node {index} of port {port} (entry id {})", self.0)
    }
}

/// The four kinds of list.
#[derive(Debug, Clone, Copy, PartialEq, Eq)]
pub enum Kind {
    Free,
    Ingress,
    Egress,
    Prefetch,
}

impl Kind {
    pub fn name(self) -> &'static str {
        match self {
            Kind::Free => "free",
            Kind::Ingress => "ingress",
            Kind::Egress => "egress",
            Kind::Prefetch => "prefetch",
        }
    }
}

/// A list: its kind, port and, for the last two kinds, queue.
#[derive(Debug, Clone, Copy, PartialEq, Eq)]
pub struct List {
    pub kind: Kind,
    pub port: usize,
    pub queue: Option<usize>,
}

impl List {
    /// The list of a number.
    pub fn numbered(shape: Shape, number: usize) -> List {
        let port = number / shape.lists_per_port();
        let (kind, queue) = match number % shape.lists_per_port() {
            0 => (Kind::Free, None),
            1 => (Kind::Ingress, None),
            column if column < 2 + shape.queues => (Kind::Egress, Some(column - 2)),
            column => (Kind::Prefetch, Some(column - 2 - shape.queues)),
        };
        List { kind, port, queue }
    }
}

impl fmt::Display for List {
    fn fmt(&self, f: &mut fmt::Formatter<'_>) -> fmt::Result {
        write!(f, "{} list of port {}", self.kind.name(), self.port)?;
        match self.queue {
            Some(queue) => write!(f, ", queue {queue}"),
            None => Ok(()),
        }
    }
}

/// What is recorded for a node.
#[derive(Debug, Clone, Copy, PartialEq, Eq)]
pub struct Record {
    pub length: Option<u32>,
    pub queue: Option<u32>,
    pub destination: Option<u32>,
    pub timestamp: Option<u32>,
    pub poisoned: Option<u32>,
    pub transaction: Option<u32>,
    pub price: Option<u32>,
}

/// The bytes of an image, being read.
#[derive(Debug, Clone, Copy)]
pub struct Image<'m> {
    pub bytes: &'m [u8],
    pub shape: Shape,
    /// Where each table starts.
    starts: [usize; TABLES.len()],
}

impl<'m> Image<'m> {
    /// Where the tables stand follows from ports, queues and nodes, whatever the
    /// edition is: one that is damaged hides nothing.
    pub fn new(bytes: &'m [u8]) -> Image<'m> {
        let plain = Image::shaped(bytes, Shape::default());
        let known = |i| plain.count(i).map_or(0, |n| n as usize);
        let shape = Shape {
            ports: known(PORTS),
            queues: known(QUEUES),
            nodes: known(NODES),
        };
        match shape.ports * shape.queues {
            0 => plain,
            _ => Image::shaped(bytes, shape),
        }
    }

    fn shaped(bytes: &'m [u8], shape: Shape) -> Image<'m> {
        Image {
            bytes,
            shape,
            starts: TABLES.map(|table| shape.start(table)),
        }
    }

    /// Element `i` of a table, big-endian; none where there is no such element
    /// or the bytes end before it does.
    pub fn get(&self, table: Table, i: usize) -> Option<u32> {
        if i >= self.shape.elements(table) {
            return None;
        }
        let at = self.starts[table as usize] + i * table.width();
        let element = self.bytes.get(at..at + table.width())?;
        let digit = |number, &byte| number << 8 | u32::from(byte);
        Some(element.iter().fold(0, digit))
    }

    pub fn setting(&self, i: usize) -> Option<u32> {
        self.get(Setting, i)
    }

    /// A setting from which places follow; none where it is in no edition's row.
    pub fn count(&self, i: usize) -> Option<u32> {
        self.setting(i).filter(|&n| (ROWS[i].has)(n))
    }

    /// The bytes that a state of these settings takes; none where ports, queues
    /// or nodes are in no edition's rows.
    pub fn needed(&self) -> Option<usize> {
        (self.shape.nodes > 0 && self.shape.ports > 0).then(|| self.shape.size())
    }

    /// The element of a node in the tables of nodes; none if the id is no node's.
    pub fn slot(&self, entry: Entry) -> Option<usize> {
        let Shape { ports, nodes, .. } = self.shape;
        let is_node = entry.port() < ports && entry.index() < nodes;
        is_node.then(|| entry.port() * nodes + entry.index())
    }

    /// The entry id of a node, by its element.
    pub fn entry_at(&self, slot: usize) -> Entry {
        let Shape { nodes, .. } = self.shape;
        Entry((slot / nodes * IDS_PER_PORT + slot % nodes) as u32)
    }

    /// What is recorded for a node, by its element.
    pub fn record(&self, slot: usize) -> Record {
        let of = |table| self.get(table, slot);
        Record {
            length: of(Length),
            queue: of(Queue),
            destination: of(Dest),
            timestamp: of(Stamp),
            poisoned: of(Poisoned),
            transaction: of(Transaction),
            price: of(Price),
        }
    }

    /// The length that is recorded for a node.
    pub fn length(&self, entry: Entry) -> Option<u32> {
        self.get(Length, self.slot(entry)?)
    }

    /// A credit of a port and a queue above 0.
    pub fn credit(&self, table: Table, port: usize, queue: usize) -> Option<u32> {
        let cell = port * (self.shape.queues.saturating_sub(1)) + queue.checked_sub(1)?;
        self.get(table, cell)
    }

    /// What a bucket of a port counts.
    pub fn bucket(&self, port: usize, bucket: usize) -> Option<u32> {
        let element = port * BUCKETS + bucket;
        self.get(Buckets, element).filter(|_| bucket < BUCKETS)
    }
}

/// The price of a packet: none in queue 0, else a unit for each beat begun.
pub fn price(queue: u32, length: u32, beat: u32) -> u32 {
    let beat = beat.max(1);
    match queue {
        0 => 0,
        _ => (length + beat - 1) / beat,
    }
}

#[cfg(test)]
mod tests {
    use super::*;

    #[test]
    fn lists_are_numbered_port_by_port() {
        let shape = Shape {
            ports: 4,
            queues: 24,
            nodes: 1,
        };
        let said = |number| List::numbered(shape, number).to_string();
        assert_eq!(said(0), "free list of port 0");
        assert_eq!(said(51), "ingress list of port 1");
        assert_eq!(said(2 + 23), "egress list of port 0, queue 23");
        assert_eq!(said(2 + 24), "prefetch list of port 0, queue 0");
        assert_eq!(said(199), "prefetch list of port 3, queue 23");
        assert_eq!(shape.lists(), 200);
        let last = List::numbered(Shape::MOST, Shape::MOST.lists() - 1);
        assert_eq!(last.to_string(), "prefetch list of port 31, queue 63");
    }

    #[test]
    fn prices_are_the_papers() {
        for (length, paid) in [(12, 1), (64, 1), (65, 2), (76, 2), (8191, 128)] {
            assert_eq!(price(1, length, 64), paid);
            assert_eq!(price(0, length, 64), 0);
        }
    }

    #[test]
    fn any_bytes_are_read_as_far_as_they_go() {
        let bytes = [0, 8, 0, 16, 0, 2, 0, 64, 0, 1, 0, 16, 0, 1, 0, 0, 3, 2, 1];
        for end in 0..=bytes.len() {
            let image = Image::new(&bytes[..end]);
            let there = [8, 16, 2, 64, 1, 16, 1, 0].iter().enumerate();
            for (i, &number) in there {
                assert_eq!(image.setting(i), (2 * i + 2 <= end).then_some(number));
            }
            assert_eq!(image.get(Mapped, 2), (end == 19).then_some(1));
            assert_eq!(image.get(Mapped, 3), None);
            // Ports, queues and nodes say it; the edition comes behind them.
            assert_eq!(image.needed(), (end >= 6).then_some(8048));
            assert_eq!(image.get(Price, 7), None);
        }
    }

    /// Ports, queues, nodes and edition, the others as they should be.
    fn image(settings: [u8; 4]) -> Vec<u8> {
        let [ports, queues, nodes, edition] = settings;
        let mut memory = vec![0; 8100];
        let bytes = [
            0, ports, 0, queues, 0, nodes, 0, 64, 0, 1, 0, 16, 0, edition,
        ];
        memory[..bytes.len()].copy_from_slice(&bytes);
        memory
    }

    #[test]
    fn without_ports_or_queues_nothing_but_the_map_has_a_place() {
        for settings in [
            [1, 24, 2, 0],
            [33, 24, 2, 0],
            [4, 1, 2, 0],
            [4, 65, 2, 0],
            [1, 24, 2, 1],
            [33, 24, 2, 1],
            [4, 1, 2, 1],
            [4, 65, 2, 1],
        ] {
            let memory = image(settings);
            let image = Image::new(&memory);
            assert_eq!(image.get(Mapped, 4095), Some(0));
            assert_eq!(image.get(Last, 0), None);
            assert_eq!(image.shape.lists(), 0);
            assert_eq!(image.needed(), None);
        }
    }

    #[test]
    fn counts_are_the_images_own() {
        for (settings, needed) in [
            ([4, 24, 2, 0], 6720),
            ([4, 24, 2, 1], 6720),
            ([2, 2, 1, 1], 4510),
            ([8, 16, 2, 1], 8048),
            ([32, 64, 1, 1], 50_160),
            // Whatever the edition, also where it has other rows or is none.
            ([8, 16, 2, 0], 8048),
            ([5, 24, 2, 0], 7372),
            ([4, 23, 2, 0], 6640),
            ([8, 16, 2, 2], 8048),
        ] {
            let memory = image(settings);
            let image = Image::new(&memory);
            assert_eq!(image.needed(), Some(needed));
            assert_eq!(image.shape.ports, settings[0].into());
            assert_eq!(image.shape.queues, settings[1].into());
        }
    }
}
