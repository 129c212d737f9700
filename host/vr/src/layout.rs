//! The settings' rows, and where the tables of a state stand, written from
//! docs/FINDINGS.md and docs/LAYOUT.md alone.

/// The bytes of the settings.
pub const SETTINGS_BYTES: usize = 16;
/// Entries of the map, one for each destination id.
pub const IDS: usize = 4096;
/// Buckets of a port, in which its timed turns count how long packets waited.
pub const BUCKETS: usize = 33;

/// A setting's name and row, in words and as a test.
pub struct Row {
    pub name: &'static str,
    pub row: &'static str,
    pub has: fn(u32) -> bool,
}

/// The settings in the memory's order, with the rows that they have in every
/// edition but that of ten-byte headers.
pub const ROWS: [Row; 8] = [
    Row {
        name: "ports",
        row: "2 to 32",
        has: |n| (2..=32).contains(&n),
    },
    Row {
        name: "queues",
        row: "2 to 64",
        has: |n| (2..=64).contains(&n),
    },
    Row {
        name: "nodes",
        row: "1 to 2048",
        has: |n| (1..=2048).contains(&n),
    },
    Row {
        name: "beat",
        row: "64, 128, 256 or 512",
        has: |n| [64, 128, 256, 512].contains(&n),
    },
    Row {
        name: "slots",
        row: "1 to 8",
        has: |n| (1..=8).contains(&n),
    },
    Row {
        name: "credit",
        row: "0 to 65535",
        has: |n| n <= 65_535,
    },
    Row {
        name: "edition",
        row: "0 or 1",
        has: |n| n <= 1,
    },
    Row {
        name: "packets",
        row: "0",
        has: |n| n == 0,
    },
];

/// Ports, queues and packets, with the rows that they have with ten-byte headers.
const TEN_BYTES_ROWS: [Row; 3] = [
    Row {
        name: "ports",
        row: "4 in edition 0",
        has: |n| n == 4,
    },
    Row {
        name: "queues",
        row: "24 in edition 0",
        has: |n| n == 24,
    },
    Row {
        name: "packets",
        row: "0 or 1 in edition 0",
        has: |n| n <= 1,
    },
];

/// The row of a setting in an edition.
pub fn row(setting: usize, edition: u32) -> &'static Row {
    let of_others = &ROWS[setting];
    let own = TEN_BYTES_ROWS.iter().find(|row| row.name == of_others.name);
    own.filter(|_| edition == TEN_BYTES).unwrap_or(of_others)
}

pub const PORTS: usize = 0;
pub const QUEUES: usize = 1;
pub const NODES: usize = 2;
pub const BEAT: usize = 3;
pub const SLOTS: usize = 4;
pub const CREDIT: usize = 5;
pub const EDITION: usize = 6;
pub const PACKETS: usize = 7;

/// What the setting packets is of a state that keeps packets.
pub const KEPT: u32 = 1;
/// The ports of such a state, each of which has a packet memory.
pub const MEMORIES: usize = 4;
/// The bytes of a packet memory for each node.
pub const SLOT_BYTES: usize = 8192;

/// The marks that a port can have: none, or the refusal that halted it.
pub const MARKS: [u32; 4] = [0, 7, 8, 18];

/// The edition of ten-byte headers.
pub const TEN_BYTES: u32 = 0;

/// The tables, in the memory's order.
#[derive(Debug, Clone, Copy, PartialEq, Eq)]
pub enum Table {
    Setting,
    Mapped,
    Last,
    Halted,
    Arrival,
    Outward,
    Buckets,
    Head,
    Tail,
    Count,
    Next,
    Length,
    Stamp,
    Queue,
    Dest,
    Poisoned,
    Transaction,
    Price,
}

use Table::*;

pub const TABLES: [Table; 18] = [
    Setting,
    Mapped,
    Last,
    Halted,
    Arrival,
    Outward,
    Buckets,
    Head,
    Tail,
    Count,
    Next,
    Length,
    Stamp,
    Queue,
    Dest,
    Poisoned,
    Transaction,
    Price,
];

impl Table {
    /// Bytes of an element.
    pub fn width(self) -> usize {
        match self {
            Buckets | Count | Stamp => 4,
            Setting | Arrival | Outward | Head | Tail | Next | Length => 2,
            Mapped | Last | Halted | Queue | Dest | Poisoned | Transaction | Price => 1,
        }
    }
}

/// How many ports, queues a port and nodes a port; 0 of what is not known.
#[derive(Debug, Clone, Copy, Default, PartialEq, Eq)]
pub struct Shape {
    pub ports: usize,
    pub queues: usize,
    pub nodes: usize,
}

impl Shape {
    /// The largest that a state can have.
    pub const MOST: Shape = Shape {
        ports: 32,
        queues: 64,
        nodes: 2048,
    };

    /// Lists of one port.
    pub fn lists_per_port(self) -> usize {
        2 * self.queues + 2
    }

    pub fn lists(self) -> usize {
        self.ports * self.lists_per_port()
    }

    pub fn all_nodes(self) -> usize {
        self.ports * self.nodes
    }

    /// Credit cells of one kind: queue 0 has none.
    pub fn cells(self) -> usize {
        self.ports * self.queues.saturating_sub(1)
    }

    /// Elements of a table.
    pub fn elements(self, table: Table) -> usize {
        match table {
            Setting => ROWS.len(),
            Mapped => IDS,
            Last | Halted => self.ports,
            Arrival | Outward => self.cells(),
            Buckets => self.ports * BUCKETS,
            Head | Tail | Count => self.lists(),
            _ => self.all_nodes(),
        }
    }

    /// Where a table starts: where the one before it ends.
    pub fn start(self, table: Table) -> usize {
        let before = TABLES.iter().take_while(|&&t| t != table);
        before.map(|&t| t.width() * self.elements(t)).sum()
    }

    /// The bytes that a state takes.
    pub fn size(self) -> usize {
        let bytes = |&t: &Table| t.width() * self.elements(t);
        TABLES.iter().map(bytes).sum()
    }
}

/// The bytes of a state by the build before the wide headers, which had six
/// settings, a map of four, four ports and 24 queues.
pub fn size_before_wide(nodes: usize) -> usize {
    1988 + 52 * nodes
}

/// The bytes of a state by the build before the buckets, which had all the other
/// tables.
pub fn size_before_buckets(shape: Shape) -> usize {
    shape.size() - Buckets.width() * shape.elements(Buckets)
}

/// The bytes of a state by the build before the marks, which had no buckets
/// either.
pub fn size_before_marks(shape: Shape) -> usize {
    size_before_buckets(shape) - shape.ports
}

#[cfg(test)]
mod tests {
    use super::*;

    /// As rule (a) has them in docs/FINDINGS.md: `nodes (1 to 2,048)`. Behind
    /// ports, queues and packets the row of ten-byte headers is told too.
    #[test]
    fn rows_are_the_published_ones() {
        let page = include_str!("../../../docs/FINDINGS.md");
        let rule = page.lines().find(|line| line.starts_with("| (a) | "));
        let rule = rule.unwrap().replace(',', "");
        for Row { name, row, .. } in ROWS.iter().chain(&TEN_BYTES_ROWS) {
            let told = in_brackets(&rule, name);
            assert!(told.contains(&row.replace(',', "")), "{name}: {told}");
        }
    }

    /// What stands in brackets behind a name.
    fn in_brackets<'t>(text: &'t str, name: &str) -> &'t str {
        let (_, rest) = text.split_once(&format!("{name} (")).expect(name);
        rest.split_once(')').expect(name).0
    }

    #[test]
    fn rows_hold_what_they_say() {
        let last = |setting, edition| {
            let has = |&n: &u32| (row(setting, edition).has)(n);
            ((0..70_000).find(has), (0..70_000).rev().find(has))
        };
        assert_eq!(last(PORTS, TEN_BYTES), (Some(4), Some(4)));
        assert_eq!(last(QUEUES, TEN_BYTES), (Some(24), Some(24)));
        assert_eq!(last(PACKETS, TEN_BYTES), (Some(0), Some(1)));
        // Also where the edition itself is none.
        for edition in [1, 2, 65_535] {
            assert_eq!(last(PORTS, edition), (Some(2), Some(32)));
            assert_eq!(last(QUEUES, edition), (Some(2), Some(64)));
            assert_eq!(last(PACKETS, edition), (Some(0), Some(0)));
        }
        for edition in [0, 1] {
            assert_eq!(last(NODES, edition), (Some(1), Some(2048)));
            assert_eq!(last(BEAT, edition), (Some(64), Some(512)));
            assert_eq!(last(SLOTS, edition), (Some(1), Some(8)));
            assert_eq!(last(CREDIT, edition), (Some(0), Some(65_535)));
            assert_eq!(last(EDITION, edition), (Some(0), Some(1)));
        }
    }

    /// The library's number, which shares no code with this one.
    #[test]
    fn slots_are_the_librarys() {
        assert_eq!(SLOT_BYTES, ventorupo::SLOT_BYTES);
    }

    /// The rows of the table of starts in docs/LAYOUT.md, as numbers.
    fn published() -> Vec<Vec<usize>> {
        let layout = include_str!("../../../docs/LAYOUT.md");
        let numbers = |line: &str| {
            let cells = line.trim_matches('|').split('|');
            cells.map(|cell| cell.trim().parse().ok()).collect()
        };
        let row = |line: &str| -> Option<Vec<usize>> { numbers(line) };
        layout
            .lines()
            .filter(|line| line.starts_with('|'))
            .filter_map(row)
            .collect()
    }

    /// A row begins with ports, queues and N, or with N alone if there are four
    /// ports and 24 queues; then come the starts, and the size.
    #[test]
    fn starts_are_the_published_ones() {
        let rows = published();
        assert!(rows.len() >= 7);
        for row in rows {
            let (counts, starts) = row.split_at(row.len() - TABLES.len() - 1);
            let (ports, queues, nodes) = match *counts {
                [nodes] => (4, 24, nodes),
                [ports, queues, nodes] => (ports, queues, nodes),
                _ => panic!("{row:?}"),
            };
            let shape = Shape {
                ports,
                queues,
                nodes,
            };
            let mut wanted: Vec<usize> = TABLES.iter().map(|&t| shape.start(t)).collect();
            wanted.push(shape.size());
            assert_eq!(starts, wanted);
        }
    }

    /// It was less by two settings and 4,092 entries of the map.
    #[test]
    fn older_sizes_are_the_papers() {
        for (nodes, size) in [(1, 2040), (2, 2092), (256, 15_300), (2048, 108_484)] {
            assert_eq!(size_before_wide(nodes), size);
            let shape = Shape {
                ports: 4,
                queues: 24,
                nodes,
            };
            assert_eq!(size_before_marks(shape) - size, 2 * 2 + 4096 - 4);
            assert_eq!(size_before_buckets(shape), 6088 + 52 * nodes);
        }
    }

    #[test]
    fn sizes_are_the_formulas() {
        for ports in 2..=32 {
            for queues in [2, 3, 24, 63, 64] {
                for nodes in [1, 2, 2048] {
                    let shape = Shape {
                        ports,
                        queues,
                        nodes,
                    };
                    let ends = 4 * ports * (queues - 1) + 8 * ports * (2 + 2 * queues);
                    let size = 16 + 4096 + 2 * ports + 132 * ports + ends + 13 * ports * nodes;
                    assert_eq!(shape.size(), size);
                    assert!(size <= Shape::MOST.size());
                }
            }
        }
        assert_eq!(Shape::MOST.size(), 901_712);
    }
}
