//! Readers of what a dump says, as JSON and as a table, for the tests alone.

use std::collections::BTreeMap;

use crate::reading::Json;

/// What a dump says of a node: kind 0 to 3, port, queue or 0, position, and
/// the record in the order of the table, of a node that isn't free.
#[derive(Debug, Clone, PartialEq, Eq)]
pub struct Stands {
    pub kind: u8,
    pub port: u64,
    pub queue: u64,
    pub position: u64,
    pub record: Vec<u64>,
}

/// By entry id; a node that is there twice is an error.
pub type Nodes = BTreeMap<u64, Stands>;

fn put(nodes: &mut Nodes, entry: u64, stands: Stands) {
    assert_eq!(nodes.insert(entry, stands), None, "{entry} twice");
}

fn kind_of(name: &str) -> u8 {
    let names = ["free", "ingress", "egress", "prefetch"];
    names.iter().position(|&its| its == name).unwrap() as u8
}

const FIELDS: [&str; 7] = [
    "length",
    "queue",
    "destination_id",
    "timestamp",
    "poisoned",
    "transaction_id",
    "price",
];

/// The nodes of a dump in JSON.
pub fn nodes_of_json(dump: &Json) -> Nodes {
    let mut nodes = Nodes::new();
    for list in dump.of("lists").elements() {
        let kind = kind_of(list.of("kind").text());
        let queue = match list.of("queue") {
            Json::Null => 0,
            queue => queue.number(),
        };
        for (position, node) in list.of("nodes").elements().iter().enumerate() {
            let fields: &[&str] = if kind == 0 { &[] } else { &FIELDS };
            let stands = Stands {
                kind,
                port: list.of("port").number(),
                queue,
                position: position as u64,
                record: fields.iter().map(|name| node.of(name).number()).collect(),
            };
            put(&mut nodes, node.of("entry_id").number(), stands);
        }
    }
    nodes
}

/// The nodes of a dump as a table.
// Not every test needs it.
#[allow(dead_code)]
pub fn nodes_of_table(dump: &str) -> Nodes {
    let mut nodes = Nodes::new();
    let mut list = Stands {
        kind: 0,
        port: 0,
        queue: 0,
        position: 0,
        record: Vec::new(),
    };
    // Behind the credits, from the first port's own line on.
    let start = dump.find("\nport 0\n").unwrap();
    for line in dump[start..].lines() {
        if let Some(row) = line.strip_prefix("    ") {
            put_row(&mut nodes, &mut list, row);
        } else if let Some(heading) = line.strip_prefix("  ") {
            begin(&mut list, heading);
        } else if let Some(port) = line.strip_prefix("port ") {
            list.port = port.parse().unwrap();
        } else {
            assert_eq!(line, "");
        }
    }
    nodes
}

/// A list's heading: `egress, queue 5: 2 nodes`. Before the lists may stand what
/// the port's mark says, and its waits.
fn begin(list: &mut Stands, heading: &str) {
    let others = ["halted by ", "mark ", "waits: "];
    if others.iter().any(|other| heading.starts_with(other)) {
        return;
    }
    let (name, _) = heading.split_once(':').unwrap();
    if name == "empty lists" {
        return;
    }
    let (kind, queue) = name.split_once(", queue ").unwrap_or((name, "0"));
    list.kind = kind_of(kind);
    list.queue = queue.parse().unwrap();
    list.position = 0;
}

/// A packet's line, or a line of a free list's entry ids, or more waits.
fn put_row(nodes: &mut Nodes, list: &mut Stands, row: &str) {
    if row.starts_with("bucket ") {
        return;
    }
    if list.kind > 0 {
        if row.trim_start().starts_with("position") {
            return;
        }
        let cells: Vec<u64> = row
            .split_whitespace()
            .map(|cell| cell.parse().unwrap())
            .collect();
        let (position, entry) = (cells[0], cells[1]);
        assert_eq!((cells[2], cells[3]), (entry / 2048, entry % 2048));
        let record = cells[4..].to_vec();
        return put(
            nodes,
            entry,
            Stands {
                position,
                record,
                ..list.clone()
            },
        );
    }
    for run in row.trim_end_matches(',').split(", ") {
        let (first, last) = run.split_once(" to ").unwrap_or((run, run));
        let (first, last): (u64, u64) = (first.parse().unwrap(), last.parse().unwrap());
        for entry in first..=last {
            put(nodes, entry, list.clone());
            list.position += 1;
        }
    }
}

/// A list's port, kind 0 to 3, and queue or 0.
pub type Place = (u64, u8, u64);

/// What a dump says that is stored of a list: count, head and tail, as far as
/// they could be read. Of empty lists, and of those behind the image's end, the
/// table says nothing, so they are left out.
pub type Stored = BTreeMap<Place, [Option<u64>; 3]>;

/// What is stored of the lists, of a dump in JSON.
pub fn stored_of_json(dump: &Json) -> Stored {
    let mut stored = Stored::new();
    for list in dump.of("lists").elements() {
        let of = |name| match list.of(name) {
            Json::Null => None,
            number => Some(number.number()),
        };
        let numbers = ["count", "head", "tail"].map(of);
        if numbers[0] != Some(0) && numbers[1].is_some() {
            let kind = kind_of(list.of("kind").text());
            let place = (list.of("port").number(), kind, of("queue").unwrap_or(0));
            assert_eq!(stored.insert(place, numbers), None);
        }
    }
    stored
}

/// The same of a dump as a table.
pub fn stored_of_table(dump: &str) -> Stored {
    let mut stored = Stored::new();
    let mut port = 0;
    let start = dump.find("\nport 0\n").unwrap_or(dump.len());
    let lists = dump[start..].lines();
    for line in lists.take_while(|line| !line.starts_with("in no list")) {
        if let Some(number) = line.strip_prefix("port ") {
            port = number.parse().unwrap();
        } else if let Some((name, numbers)) = heading(line) {
            let (kind, queue) = name.split_once(", queue ").unwrap_or((name, "0"));
            let place = (port, kind_of(kind), queue.parse().unwrap());
            assert_eq!(stored.insert(place, numbers), None);
        }
    }
    stored
}

/// A list's heading: `  free: 9 by its count, 1 read; head 2048, tail 2049`.
fn heading(line: &str) -> Option<(&str, [Option<u64>; 3])> {
    let (name, said) = line.strip_prefix("  ")?.split_once(": ")?;
    let (many, ends) = said.split_once("; head ")?;
    let (head, tail) = ends.split_once(", tail ")?;
    let count = many.split(' ').next()?;
    Some((name, [count, head, tail].map(|number| number.parse().ok())))
}

/// By port and bucket, how many packets a bucket counts; empty ones are left out.
pub type Counts = BTreeMap<(u64, u64), u64>;

/// The buckets of a dump in JSON.
// Not every test needs it.
#[allow(dead_code)]
pub fn buckets_of_json(dump: &Json) -> Counts {
    let mut counts = Counts::new();
    for (port, buckets) in (0..).zip(dump.of("buckets").elements()) {
        assert_eq!(buckets.elements().len(), 33);
        for (bucket, count) in (0..).zip(buckets.elements()) {
            match count {
                Json::Null | Json::Number(0) => {}
                count => drop(counts.insert((port, bucket), count.number())),
            }
        }
    }
    counts
}

/// The same of a dump as a table.
// Not every test needs it.
#[allow(dead_code)]
pub fn buckets_of_table(dump: &str) -> Counts {
    let mut counts = Counts::new();
    let mut port = 0;
    let start = dump.find("\nport 0\n").unwrap_or(dump.len());
    for line in dump[start..].lines() {
        if let Some(number) = line.strip_prefix("port ") {
            port = number.parse().unwrap();
        } else if line.starts_with("  waits: ") || line.starts_with("    bucket ") {
            for part in line.split("bucket ").skip(1) {
                let (bucket, count) = counted(part);
                assert_eq!(counts.insert((port, bucket), count), None);
            }
        }
    }
    counts
}

/// What stands behind `bucket`: `3 (waits 4 to 7) 2, `.
fn counted(part: &str) -> (u64, u64) {
    let (bucket, said) = part.split_once(" (wait").unwrap();
    let (_, count) = said.split_once(") ").unwrap();
    let count = count.trim_end_matches([',', ' ']);
    let digits = count.trim_end_matches(" or more");
    assert_eq!(digits == "4294967295", count != digits, "{part}");
    (bucket.parse().unwrap(), digits.parse().unwrap())
}
