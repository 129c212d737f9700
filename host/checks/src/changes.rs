//! Damage: bytes of a state changed, at random, and aimed at each rule.

use model::{price, ListKind, Settings, DESTINATIONS};
use traffic::Random;

use crate::tables::{Tables, MAPPED, SETTING};

/// One byte set anew.
#[derive(Debug, Clone, Copy, PartialEq, Eq)]
pub struct Change {
    pub at: usize,
    pub to: u8,
}

pub fn apply(memory: &[u8], changes: &[Change]) -> Vec<u8> {
    let mut damaged = memory.to_vec();
    for change in changes {
        damaged[change.at] = change.to;
    }
    damaged
}

/// Changes that make a difference to the bytes of a state of these settings.
pub fn changes(random: &mut Random, memory: &[u8], settings: &Settings) -> Vec<Change> {
    let mut damaged = Damaged {
        memory: memory.to_vec(),
        tables: Tables::of(settings),
        settings: *settings,
    };
    let mut times = random.pick(&[1, 1, 1, 1, 2, 2, 3, 5]);
    while times > 0 || damaged.memory == memory {
        match random.one_in(2) {
            true => damaged.bytes(random),
            false => AIMED[random.below(AIMED.len() as u32) as usize](&mut damaged, random),
        }
        times = times.max(1) - 1;
    }
    let differs = |&at: &usize| memory[at] != damaged.memory[at];
    let to = |at| Change {
        at,
        to: damaged.memory[at],
    };
    (0..memory.len()).filter(differs).map(to).collect()
}

/// A memory that is being damaged.
struct Damaged {
    memory: Vec<u8>,
    tables: Tables,
    /// Before the damage.
    settings: Settings,
}

/// A way to damage one.
type Aim = fn(&mut Damaged, &mut Random);

/// Together they break each rule in each way; (g) and (f) most, since that
/// needs bytes that keep all the rules before.
const AIMED: [Aim; 25] = [
    Damaged::setting,
    Damaged::setting,
    Damaged::last_served,
    Damaged::map_entry,
    Damaged::prefetch_count,
    Damaged::no_node,
    Damaged::node_again,
    Damaged::node_again,
    Damaged::tail,
    Damaged::dropped,
    Damaged::moved,
    Damaged::moved,
    Damaged::moved,
    Damaged::swapped,
    Damaged::renamed,
    Damaged::record,
    Damaged::record,
    Damaged::record,
    Damaged::free_priced,
    Damaged::queue,
    Damaged::length,
    Damaged::arrival,
    Damaged::all_credit,
    Damaged::mark,
    Damaged::mark,
];

impl Damaged {
    /// Where to do damage: any byte, or one of a table, so that the small tables
    /// get their share.
    fn place(&self, random: &mut Random) -> usize {
        let size = self.tables.size;
        let starts = self.tables.in_order().map(|table| table.start);
        let (from, to) = if random.one_in(3) {
            (0, size)
        } else {
            let table = random.below(starts.len() as u32) as usize;
            (
                starts[table],
                starts.get(table + 1).map_or(size, |&end| end),
            )
        };
        from + random.below((to - from) as u32) as usize
    }

    /// Where a number of two bytes begins: the tables that have such start at even
    /// places.
    fn number_at(&self, at: usize) -> usize {
        (at - at % 2).min(self.memory.len() - 2)
    }

    /// Flips, swaps, steps and copies.
    fn bytes(&mut self, random: &mut Random) {
        let (at, other) = (self.place(random), self.place(random));
        let old = self.memory[at];
        self.memory[at] = match random.below(8) {
            0 | 1 => old ^ 1 << random.below(8),
            2 => random.word() as u8,
            3 => {
                self.memory.swap(at, other);
                self.memory[at]
            }
            4 => old.wrapping_add(1),
            5 => old.wrapping_sub(1),
            6 => random.pick(&[0, 1, 0x80, 0xFF]),
            _ => {
                // Two bytes over two others: a number from elsewhere.
                let (at, other) = (self.number_at(at), self.number_at(other));
                self.memory.copy_within(other..other + 2, at);
                return;
            }
        };
    }

    /// A number near another, or anything of two bytes.
    fn near(random: &mut Random, old: u32) -> u32 {
        let any = random.word() as u32 & 0xFFFF;
        random.pick(&[
            old + 1,
            old.wrapping_sub(1) & 0xFFFF,
            0,
            0xFFFF,
            old * 2,
            any,
        ])
    }

    /// Any but credit, of which every number is in its row.
    fn setting(&mut self, random: &mut Random) {
        let i = random.pick(&[0, 1, 2, 3, 4, 6, 7]);
        let old = SETTING.get(&self.memory, i);
        let new = Damaged::near(random, old);
        SETTING.set(&mut self.memory, i, new);
    }

    fn last_served(&mut self, random: &mut Random) {
        let Settings { ports, queues, .. } = self.settings;
        let port = random.below(ports) as usize;
        let any = random.among(queues, 255);
        let queue = random.pick(&[queues, any]);
        self.tables.last.set(&mut self.memory, port, queue);
    }

    fn map_entry(&mut self, random: &mut Random) {
        let ports = self.settings.ports;
        let (low, any) = (random.below(ports), random.below(DESTINATIONS));
        let id = random.pick(&[low, any, DESTINATIONS - 1]) as usize;
        let any = random.among(ports, 255);
        let port = random.pick(&[ports, any]);
        MAPPED.set(&mut self.memory, id, port);
    }

    /// More than there are slots, whatever the links say.
    fn prefetch_count(&mut self, random: &mut Random) {
        let Settings { ports, queues, .. } = self.settings;
        let kind = ListKind::Prefetch {
            port: random.below(ports),
            queue: random.below(queues),
        };
        let list = self.tables.list(kind);
        let slots = SETTING.get(&self.memory, 4);
        let count = slots + random.pick(&[0, 1, 1, 2, 65_536, 1 << 31]);
        self.tables.count.set(&mut self.memory, list, count);
    }

    /// A list of at least so many nodes, if there is one, and its nodes.
    fn list(&self, random: &mut Random, least: u32) -> (usize, Vec<u32>) {
        let long = |list: &usize| self.tables.count.get(&self.memory, *list) >= least;
        let lists: Vec<usize> = (0..self.tables.lists()).filter(long).collect();
        let list = match lists.is_empty() {
            true => random.below(self.tables.lists() as u32) as usize,
            false => random.pick(&lists),
        };
        (list, self.tables.nodes_of(&self.memory, list))
    }

    /// Another id at position `at` of a list: in its head, or in the link of the
    /// node before.
    fn put_id(&mut self, list: usize, of: &[u32], at: usize, id: u32) {
        match at.checked_sub(1) {
            None => self.tables.head.set(&mut self.memory, list, id),
            Some(before) => {
                let slot = self.tables.slot(of[before]);
                self.tables.next.set(&mut self.memory, slot, id);
            }
        }
    }

    fn no_node(&mut self, random: &mut Random) {
        let (list, of) = self.list(random, 1);
        if of.is_empty() {
            return;
        }
        let at = random.below(of.len() as u32) as usize;
        let Settings { ports, nodes, .. } = self.settings;
        let past = random.below(ports) * 2048 + random.among(nodes, 2048);
        let behind = ports * 2048;
        let far = random.among(behind.min(65_535), 65_535);
        // Two bytes say it.
        let id = random.pick(&[past, past, behind, far]).min(65_535);
        self.put_id(list, &of, at, id);
    }

    /// A node once more: of the same list or of another.
    fn node_again(&mut self, random: &mut Random) {
        let (list, of) = self.list(random, 2);
        let others = match random.one_in(2) {
            true => of.clone(),
            false => self.list(random, 1).1,
        };
        if of.is_empty() || others.is_empty() {
            return;
        }
        let at = random.below(of.len() as u32) as usize;
        self.put_id(list, &of, at, random.pick(&others));
    }

    fn tail(&mut self, random: &mut Random) {
        let (list, of) = self.list(random, 1);
        let old = self.tables.tail.get(&self.memory, list);
        let near = Damaged::near(random, old);
        let new = random.pick(&[near, of.first().copied().unwrap_or(near)]);
        self.tables.tail.set(&mut self.memory, list, new);
    }

    /// A node taken out of its list, which hangs together without it.
    fn taken(&mut self, random: &mut Random) -> Option<u32> {
        let (list, mut of) = self.list(random, 1);
        if of.is_empty() {
            return None;
        }
        let node = of.remove(random.below(of.len() as u32) as usize);
        self.tables.set_nodes(&mut self.memory, list, &of);
        Some(node)
    }

    fn dropped(&mut self, random: &mut Random) {
        for _ in 0..random.among(1, 2) {
            self.taken(random);
        }
    }

    /// A node in another list, of each kind as often, with links that are right.
    fn moved(&mut self, random: &mut Random) {
        let Settings { ports, queues, .. } = self.settings;
        let (port, queue) = (random.below(ports), random.below(queues));
        let list = self.tables.list(random.pick(&[
            ListKind::Free { port },
            ListKind::Ingress { port },
            ListKind::Egress { port, queue },
            ListKind::Prefetch { port, queue },
        ]));
        if let Some(node) = self.taken(random) {
            let mut of = self.tables.nodes_of(&self.memory, list);
            of.insert(random.below(of.len() as u32 + 1) as usize, node);
            self.tables.set_nodes(&mut self.memory, list, &of);
        }
    }

    /// Two whole lists changed for each other: every node still stands once.
    fn swapped(&mut self, random: &mut Random) {
        let tables = self.tables;
        let (one, of_one) = self.list(random, 1);
        let other = match random.below(3) {
            // Of the same column, or egress for prefetch.
            0 => (one + tables.lists_per_port()) % tables.lists(),
            1 => (one + tables.queues) % tables.lists(),
            _ => self.list(random, 1).0,
        };
        let of_other = tables.nodes_of(&self.memory, other);
        tables.set_nodes(&mut self.memory, one, &of_other);
        tables.set_nodes(&mut self.memory, other, &of_one);
    }

    /// The first free node of a port, taken over by the free list of the port
    /// before it, under an id of that port that is past its nodes: no node's id,
    /// though it leads to the same element.
    fn renamed(&mut self, random: &mut Random) {
        let (tables, nodes) = (self.tables, self.settings.nodes);
        let port = random.among(1, self.settings.ports - 1);
        let from = tables.list(ListKind::Free { port });
        let to = tables.list(ListKind::Free { port: port - 1 });
        let mut of = tables.nodes_of(&self.memory, from);
        let index = of.first().map_or(0, |&head| head % 2048);
        if of.is_empty() || nodes + index >= 2048 {
            return;
        }
        of.remove(0);
        tables.set_nodes(&mut self.memory, from, &of);
        let mut others = tables.nodes_of(&self.memory, to);
        others.insert(0, (port - 1) * 2048 + nodes + index);
        tables.set_nodes(&mut self.memory, to, &others);
    }

    /// A node that isn't free, of an ingress list if there is one: there rule (e)
    /// says nothing of it. Its slot.
    fn packet(&self, random: &mut Random, ingress: bool) -> Option<usize> {
        let recorded = |list: &usize| match list % self.tables.lists_per_port() {
            0 => false,
            column => column == 1 || !ingress,
        };
        let nodes: Vec<u32> = (0..self.tables.lists())
            .filter(recorded)
            .flat_map(|list| self.tables.nodes_of(&self.memory, list))
            .collect();
        (!nodes.is_empty()).then(|| self.tables.slot(random.pick(&nodes)))
    }

    /// A price for a packet of queue 0, which is free.
    fn free_priced(&mut self, random: &mut Random) {
        if let Some(slot) = self.packet(random, true) {
            self.tables.queue.set(&mut self.memory, slot, 0);
            let price = random.pick(&[1, 2, 255]);
            self.tables.price.set(&mut self.memory, slot, price);
        }
    }

    /// A field out of its range; often the queue, for which a packet has to be in
    /// ingress.
    fn record(&mut self, random: &mut Random) {
        let field = random.pick(&[0, 1, 2, 2, 3, 4, 5, 5]);
        let slot = match self.packet(random, field == 2) {
            Some(slot) => slot,
            None => return,
        };
        let t = self.tables;
        let paid = t.price.get(&self.memory, slot);
        let shape = self.settings.shape();
        // Beyond the field; as many ports as there are may be within it.
        let ids = 1 << shape.port_bits();
        let (table, number) = match field {
            0 => (t.length, random.pick(&[0, 1, shape.shortest() - 1])),
            1 => (t.length, random.pick(&[8192, 65_535, 8192 + 64])),
            2 => (t.queue, random.pick(&[shape.queues, 64, 255])),
            3 => (t.dest, random.pick(&[ids, 255, ids + 1, shape.ports])),
            4 => (t.poisoned, random.pick(&[2, 255, 3])),
            _ => (t.price, random.pick(&[paid + 1, paid.max(1) - 1, 255])),
        };
        table.set(&mut self.memory, slot, number);
    }

    /// A packet's price made that of its length and queue.
    fn priced(&mut self, slot: usize) {
        let t = self.tables;
        let [length, queue] = [t.length, t.queue].map(|table| table.get(&self.memory, slot));
        let beat = SETTING.get(&self.memory, 3).max(1);
        let price = price(length, queue, beat);
        t.price.set(&mut self.memory, slot, price);
    }

    /// Another queue for a packet, at the right price mostly.
    fn queue(&mut self, random: &mut Random) {
        let ingress = random.one_in(2);
        if let Some(slot) = self.packet(random, ingress) {
            let queue = random.below(self.settings.queues);
            self.tables.queue.set(&mut self.memory, slot, queue);
            if !random.one_in(4) {
                self.priced(slot);
            }
        }
    }

    /// Another length for a packet, at its price.
    fn length(&mut self, random: &mut Random) {
        if let Some(slot) = self.packet(random, false) {
            let length = random.among(self.settings.shape().shortest(), 8191);
            self.tables.length.set(&mut self.memory, slot, length);
            self.priced(slot);
        }
    }

    /// Another arrival credit, of the last cells as well.
    fn arrival(&mut self, random: &mut Random) {
        let cells = self.tables.credits() as u32;
        let any = random.below(cells);
        let cell = random.pick(&[0, cells - 1, any]) as usize;
        let old = self.tables.arrival.get(&self.memory, cell);
        let new = Damaged::near(random, old);
        self.tables.arrival.set(&mut self.memory, cell, new);
    }

    /// Another K.
    fn all_credit(&mut self, random: &mut Random) {
        let old = SETTING.get(&self.memory, 5);
        let new = Damaged::near(random, old);
        SETTING.set(&mut self.memory, 5, new);
    }

    /// Another mark: none that there is mostly, with those near one that there is
    /// often.
    fn mark(&mut self, random: &mut Random) {
        let port = random.below(self.settings.ports) as usize;
        let any = random.among(1, 255);
        let mark = random.pick(&[1, 6, 7, 8, 9, 17, 18, 19, any, any, any, any]);
        self.tables.halted.set(&mut self.memory, port, mark);
    }
}
