//! The first rule of soundness that bytes break and the first item that shows
//! it, read off any bytes by docs/LAYOUT.md and docs/FINDINGS.md alone: no
//! ledger is made, and nothing is shared with the proved library. With the
//! reader of ledgers it shares only where elements stand.

use std::cmp::Ordering;

use model::{
    price, ListKind, Settings, Shape, DESTINATIONS, LONGEST, MOST_NODES, MOST_PORTS, MOST_QUEUES,
};

use crate::reader::settings;
use crate::tables::{Table, Tables, MAPPED, SETTING, SETTINGS, SETTINGS_END};

/// A broken rule.
#[derive(Debug, Clone, Copy, PartialEq, Eq)]
pub struct Finding {
    /// `a` to `g`, or `i`.
    pub rule: char,
    pub item: u64,
    /// In which way, one of `WAYS`.
    pub way: &'static str,
}

impl Finding {
    /// As the C interface tells it: 1 is (a).
    pub fn number(&self) -> u32 {
        self.rule as u32 - 'a' as u32 + 1
    }
}

/// Every way in which a rule can be found broken. The setting of credit is
/// none: two bytes hold nothing that isn't in its row.
pub const WAYS: [(char, &str); 31] = [
    ('a', "ports"),
    ('a', "queues"),
    ('a', "nodes"),
    ('a', "beat"),
    ('a', "slots"),
    ('a', "edition"),
    ('a', "packets"),
    ('a', "too short for settings"),
    ('a', "too short for the state"),
    ('b', "last served queue"),
    ('b', "map entry"),
    ('b', "too many prefetched"),
    ('c', "an id that is no node"),
    ('c', "a node twice in a list"),
    ('c', "a node of an earlier list"),
    ('c', "another tail"),
    ('c', "a node in no list"),
    ('d', "in a free list"),
    ('d', "in an ingress list"),
    ('e', "in an egress list"),
    ('e', "in a prefetch list"),
    ('f', "length too small"),
    ('f', "length too great"),
    ('f', "queue"),
    ('f', "destination"),
    ('f', "poisoned flag"),
    ('f', "price"),
    ('f', "price in queue 0"),
    ('g', "too little"),
    ('g', "too much"),
    ('i', "mark"),
];

/// An item, and in which way it breaks the rule.
type Breach = (u64, &'static str);

/// A rule's first breach in an image.
type Find<'m> = fn(&Image<'m>) -> Option<Breach>;

/// The finding of any bytes; none if they are a switch state.
pub fn first(memory: &[u8]) -> Option<Finding> {
    let (rule, (item, way)) = match Image::open(memory) {
        Err(breach) => ('a', breach),
        Ok(image) => image.first()?,
    };
    Some(Finding { rule, item, way })
}

/// Bytes that keep rule (a): every element of every table can be read.
struct Image<'m> {
    memory: &'m [u8],
    tables: Tables,
    settings: Settings,
}

/// The settings' names and rows, in the memory's order. The ten-byte header asks
/// for just its ports and queues, and alone has packets; any other edition asks for
/// those of the wide ones.
fn in_its_row(setting: usize, number: u32, edition: u32) -> Result<(), &'static str> {
    let Shape { ports, queues, .. } = Shape::TEN_BYTES;
    let (name, fits) = match setting {
        0 if edition == 0 => ("ports", number == ports),
        0 => ("ports", (2..=MOST_PORTS).contains(&number)),
        1 if edition == 0 => ("queues", number == queues),
        1 => ("queues", (2..=MOST_QUEUES).contains(&number)),
        2 => ("nodes", (1..=MOST_NODES).contains(&number)),
        3 => ("beat", [64, 128, 256, 512].contains(&number)),
        4 => ("slots", (1..=8).contains(&number)),
        5 => ("credit", number <= 65_535),
        6 => ("edition", number <= 1),
        _ if edition == 0 => ("packets", number <= 1),
        _ => ("packets", number == 0),
    };
    fits.then_some(()).ok_or(name)
}

impl<'m> Image<'m> {
    /// Rule (a). Behind the settings' numbers comes that the memory is too short,
    /// for the settings too.
    fn open(memory: &'m [u8]) -> Result<Image<'m>, Breach> {
        if memory.len() < SETTINGS_END {
            return Err((SETTINGS as u64, "too short for settings"));
        }
        let settings = settings(memory);
        for i in 0..SETTINGS {
            in_its_row(i, SETTING.get(memory, i), settings.edition)
                .map_err(|name| (i as u64, name))?;
        }
        let tables = Tables::of(&settings);
        if memory.len() < tables.size {
            return Err((SETTINGS as u64, "too short for the state"));
        }
        Ok(Image {
            memory,
            tables,
            settings,
        })
    }

    /// Rules (b) to (g), and (i): each is asked where those before it are kept.
    fn first(&self) -> Option<(char, Breach)> {
        let rules: [(char, Find<'m>); 7] = [
            ('b', Self::ranges),
            ('c', Self::once),
            ('d', |image| image.each_node(Self::own_port)),
            ('e', |image| image.each_node(Self::own_queue)),
            ('f', |image| image.each_node(Self::record)),
            ('g', Self::paid),
            ('i', Self::marks),
        ];
        let broken = |(rule, find): (char, Find<'m>)| Some((rule, find(self)?));
        rules.into_iter().find_map(broken)
    }

    fn get(&self, table: Table, i: usize) -> u32 {
        table.get(self.memory, i)
    }

    /// Rule (b): last served queues, then map entries, then prefetch lists, port
    /// by port and queue by queue. Credits are in range in any two bytes.
    fn ranges(&self) -> Option<Breach> {
        let Settings { ports, queues, .. } = self.settings;
        for port in 0..ports {
            if self.get(self.tables.last, port as usize) >= queues {
                return Some((port.into(), "last served queue"));
            }
        }
        for id in 0..DESTINATIONS {
            if self.get(MAPPED, id as usize) >= ports {
                return Some(((ports + id).into(), "map entry"));
            }
        }
        for (port, queue) in (0..ports).flat_map(|p| (0..queues).map(move |q| (p, q))) {
            let list = self.tables.list(ListKind::Prefetch { port, queue });
            if self.get(self.tables.count, list) > self.settings.slots {
                let item = ports + DESTINATIONS + port * queues + queue;
                return Some((item.into(), "too many prefetched"));
            }
        }
        None
    }

    /// Rule (c), a list: of each node it is noted in which list it was met.
    fn list_once(&self, list: usize, met: &mut [Option<usize>]) -> Result<(), &'static str> {
        let mut entry = self.get(self.tables.head, list);
        let mut last = None;
        for _ in 0..self.get(self.tables.count, list) {
            let slot = self
                .tables
                .node_slot(entry)
                .ok_or("an id that is no node")?;
            match met[slot].replace(list) {
                None => {}
                Some(before) if before == list => return Err("a node twice in a list"),
                Some(_) => return Err("a node of an earlier list"),
            }
            last = Some(entry);
            entry = self.get(self.tables.next, slot);
        }
        let tail = self.get(self.tables.tail, list);
        // An empty list's tail is not read.
        match last.map_or(true, |last| last == tail) {
            true => Ok(()),
            false => Err("another tail"),
        }
    }

    /// Rule (c): the first list that is wrong; behind the lists' numbers, the
    /// first node that stands in none.
    fn once(&self) -> Option<Breach> {
        let mut met = vec![None; self.tables.all_nodes()];
        for list in 0..self.tables.lists() {
            if let Err(way) = self.list_once(list, &mut met) {
                return Some((list as u64, way));
            }
        }
        let slot = met.iter().position(Option::is_none)?;
        Some(((self.tables.lists() + slot) as u64, "a node in no list"))
    }

    /// Every node with its list and its slot, list by list and from the head:
    /// read where rule (c) is kept.
    fn nodes(&self) -> Vec<(usize, u32, usize)> {
        let mut nodes = Vec::new();
        for list in 0..self.tables.lists() {
            let mut entry = self.get(self.tables.head, list);
            for _ in 0..self.get(self.tables.count, list) {
                if let Some(slot) = self.tables.node_slot(entry) {
                    nodes.push((list, entry, slot));
                    entry = self.get(self.tables.next, slot);
                }
            }
        }
        nodes
    }

    /// Rules (d) to (f): the entry id of the first node that fails the test of
    /// its list's port and column, its id and its slot.
    fn each_node(
        &self,
        test: fn(&Self, usize, usize, u32, usize) -> Result<(), &'static str>,
    ) -> Option<Breach> {
        self.nodes().into_iter().find_map(|(list, entry, slot)| {
            let per_port = self.tables.lists_per_port();
            let (port, column) = (list / per_port, list % per_port);
            let way = test(self, port, column, entry, slot).err()?;
            Some((entry.into(), way))
        })
    }

    /// Rule (d), of free and ingress lists.
    fn own_port(
        &self,
        port: usize,
        column: usize,
        entry: u32,
        _: usize,
    ) -> Result<(), &'static str> {
        match (entry as usize / 2048 == port, column) {
            (false, 0) => Err("in a free list"),
            (false, 1) => Err("in an ingress list"),
            _ => Ok(()),
        }
    }

    /// Rule (e), of egress and prefetch lists.
    fn own_queue(&self, _: usize, column: usize, _: u32, slot: usize) -> Result<(), &'static str> {
        let queues = self.tables.queues;
        let queue = self.get(self.tables.queue, slot) as usize;
        match column {
            0 | 1 => Ok(()),
            _ if column < 2 + queues && queue != column - 2 => Err("in an egress list"),
            _ if column >= 2 + queues && queue != column - 2 - queues => Err("in a prefetch list"),
            _ => Ok(()),
        }
    }

    /// Rule (f), of all but free lists.
    fn record(&self, _: usize, column: usize, _: u32, slot: usize) -> Result<(), &'static str> {
        let shape = self.settings.shape();
        let field = |table: Table| self.get(table, slot);
        let (length, queue) = (field(self.tables.length), field(self.tables.queue));
        let paid = field(self.tables.price);
        match column {
            0 => Ok(()),
            _ if length < shape.shortest() => Err("length too small"),
            _ if length > LONGEST => Err("length too great"),
            _ if queue >= shape.queues => Err("queue"),
            // As wide as the header's field.
            _ if field(self.tables.dest) >> shape.port_bits() > 0 => Err("destination"),
            _ if field(self.tables.poisoned) > 1 => Err("poisoned flag"),
            _ if paid == price(length, queue, self.settings.beat) => Ok(()),
            _ if queue == 0 => Err("price in queue 0"),
            _ => Err("price"),
        }
    }

    /// Rule (g): the first credit that is not K together with the prices of its
    /// port's nodes of its queue that aren't free.
    fn paid(&self) -> Option<Breach> {
        let Tables { ports, queues, .. } = self.tables;
        let mut owed = vec![vec![0; queues]; ports];
        for (list, entry, slot) in self.nodes() {
            if list % self.tables.lists_per_port() != 0 {
                let queue = self.get(self.tables.queue, slot) as usize;
                owed[entry as usize / 2048][queue] += self.get(self.tables.price, slot);
            }
        }
        for (port, queue) in (0..ports).flat_map(|p| (1..queues).map(move |q| (p, q))) {
            let cell = self.tables.credit_cell(port, queue);
            let both = self.get(self.tables.arrival, cell) + owed[port][queue];
            match both.cmp(&self.settings.credit) {
                Ordering::Less => return Some((cell as u64, "too little")),
                Ordering::Greater => return Some((cell as u64, "too much")),
                Ordering::Equal => {}
            }
        }
        None
    }

    /// Rule (i): the first port whose mark is none.
    fn marks(&self) -> Option<Breach> {
        let mark = |port: usize| self.get(self.tables.halted, port);
        let wrong = |&port: &usize| ![0, 7, 8, 18].contains(&mark(port));
        let port = (0..self.tables.ports).find(wrong)?;
        Some((port as u64, "mark"))
    }
}
