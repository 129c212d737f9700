//! An image as a table that a person can read.

use crate::buckets::{named_range, Packets, Waits};
use crate::hex;
use crate::image::{Entry, Image, Kind};
use crate::layout::Table;
use crate::lists::Walk;
use crate::packets::{Memories, HEADER_BYTES};
use crate::view::{counted, map_by_port, number, View};
use crate::words::marked;

/// A line of ids or of buckets gets no longer than about this.
const WIDE: usize = 96;
/// So many ports' credits stand beside each other, and so many last served
/// queues: what a page is wide.
const CREDITS_ACROSS: usize = 4;
const SERVED_ACROSS: usize = 16;

pub fn table(view: &View) -> String {
    let mut text = format!("{}\n\n", view.top());
    text += &format!("settings: {}\n", view.settings());
    text += &format!("bytes: {} there, {} needed\n", view.there, needed(view));
    text += &format!("{}\n{}", view.hint_line(), map(&view.image));
    for section in [served(&view.image), credits(&view.image), lists(view)] {
        text += &section;
    }
    if let Some(why) = view.stops() {
        text += &format!("\nreading stops: {why}\n");
    }
    text
}

fn needed(view: &View) -> String {
    let bytes = view.image.needed();
    bytes.map_or_else(|| "-".into(), |bytes| bytes.to_string())
}

/// Rows of cells, each column as wide as its widest cell.
pub fn columns(indent: &str, rows: &[Vec<String>]) -> String {
    let columns = rows.iter().map(Vec::len).max().unwrap_or(0);
    let width = |c: usize| {
        rows.iter()
            .filter_map(|row| row.get(c))
            .map(String::len)
            .max()
    };
    let widths: Vec<usize> = (0..columns).map(|c| width(c).unwrap_or(0)).collect();
    let cell = |(cell, &width): (&String, &usize)| format!("{cell:>width$}");
    let line = |row: &Vec<String>| -> String {
        let cells: Vec<String> = row.iter().zip(&widths).map(cell).collect();
        format!("{indent}{}\n", cells.join("  "))
    };
    rows.iter().map(line).collect()
}

/// A row: its name, then its cells.
fn row(name: &str, cells: impl Iterator<Item = String>) -> Vec<String> {
    std::iter::once(name.to_string()).chain(cells).collect()
}

/// A line for each port that ids are mapped to, or several.
fn map(image: &Image) -> String {
    let mut text = String::from("port  destination ids\n");
    for (port, ids) in map_by_port(image) {
        let mut name = number(port);
        for line in runs(&ids) {
            text += &format!("{name:>4}  {line}\n");
            name.clear();
        }
    }
    text
}

/// The ports, so many at a time.
fn ports(image: &Image, across: usize) -> Vec<Vec<usize>> {
    let all: Vec<usize> = (0..image.shape.ports).collect();
    all.chunks(across).map(<[usize]>::to_vec).collect()
}

fn served(image: &Image) -> String {
    let some = |ports: Vec<usize>| {
        let names = row("port", ports.iter().map(usize::to_string));
        let last = |&port: &usize| number(image.get(Table::Last, port));
        let served = row("last served queue", ports.iter().map(last));
        format!("\n{}", columns("", &[names, served]))
    };
    ports(image, SERVED_ACROSS).into_iter().map(some).collect()
}

fn credits(image: &Image) -> String {
    let some = |ports: Vec<usize>| format!("\n{}", credits_of(image, &ports));
    ports(image, CREDITS_ACROSS).into_iter().map(some).collect()
}

/// The credits of some ports, a line for each queue.
fn credits_of(image: &Image, ports: &[usize]) -> String {
    let twice = |port: &usize| [*port; 2].map(|port| format!("port {port}"));
    let kinds = |_: &usize| ["arrival", "outward"].map(String::from);
    let mut rows = vec![
        row("credit", ports.iter().flat_map(twice)),
        row("queue", ports.iter().flat_map(kinds)),
    ];
    for queue in 1..image.shape.queues {
        let both = |&port: &usize| {
            [Table::Arrival, Table::Outward].map(|table| number(image.credit(table, port, queue)))
        };
        rows.push(row(&queue.to_string(), ports.iter().flat_map(both)));
    }
    columns("", &rows)
}

fn lists(view: &View) -> String {
    let mut text = String::new();
    for port in 0..view.image.shape.ports {
        text += &port_lists(view, port);
    }
    let nowhere = view.lists.nowhere(&view.image);
    if !nowhere.is_empty() {
        text += &format!(
            "\nin no list that was read, by entry id:\n{}",
            entries("  ", &nowhere)
        );
    }
    text
}

fn port_lists(view: &View, port: usize) -> String {
    let all = view.lists.walks.iter();
    let walks: Vec<&Walk> = all.filter(|walk| walk.list.port == port).collect();
    if walks.is_empty() {
        return String::new();
    }
    let of_count = |count| walks.iter().filter(|walk| walk.count == count).count();
    let (empty, cut) = (of_count(Some(0)), of_count(None));
    let mut text = format!("\nport {port}\n");
    if let Some(mark) = view.image.get(Table::Halted, port).filter(|&mark| mark > 0) {
        text += &format!("  {}\n", marked(mark));
    }
    text += &waits(&Waits::of(&view.image, port));
    for walk in &walks {
        // Of an empty list nothing is said, and of others what can be read.
        if walk.count != Some(0) && walk.head.is_some() {
            text += &list(view, walk);
        }
    }
    text += &format!("  empty lists: {empty}\n");
    if cut > 0 {
        text += &format!("  lists cut off: {cut}\n");
    }
    text
}

/// The buckets that count something, over as many lines as needed.
fn waits(waits: &Waits) -> String {
    let filled = waits.filled();
    if filled.is_empty() {
        return String::new();
    }
    let mut lines = vec![format!("waits: {};", waits.in_words())];
    for (i, &(bucket, count)) in filled.iter().enumerate() {
        let (waits, packets) = (named_range(bucket), Packets::in_bucket(count));
        let part = format!("bucket {bucket} ({waits}) {packets}");
        push_part(&mut lines, part, i + 1 == filled.len());
    }
    format!("  {}\n", lines.join("\n    "))
}

fn list(view: &View, walk: &Walk) -> String {
    let queue = walk
        .list
        .queue
        .map_or_else(String::new, |queue| format!(", queue {queue}"));
    let mut text = format!(
        "  {}{queue}: {}; head {}, tail {}\n",
        walk.list.kind.name(),
        how_many(walk),
        number(walk.head),
        number(walk.tail)
    );
    text += &match walk.list.kind {
        Kind::Free => entries("    ", &walk.nodes),
        _ => packets(view, walk),
    };
    // Of one that is cut off, the heading has said so.
    let flaw = walk.flaw.filter(|_| walk.count.is_some());
    if let Some(flaw) = flaw {
        let what = flaw.words(&view.image, walk.list);
        let start = if flaw.stops() { "reading stops: " } else { "" };
        text += &format!("    {start}{what}\n");
    }
    text
}

/// How many nodes a list has, and how many were read if these are not all.
fn how_many(walk: &Walk) -> String {
    let read = walk.nodes.len();
    match walk.count {
        None => "cut off".into(),
        Some(count) if count as usize == read => counted(read as u64, "node"),
        Some(count) => format!("{count} by its count, {read} read"),
    }
}

/// A line for each packet, below a line of names.
fn packets(view: &View, walk: &Walk) -> String {
    let names = [
        "position",
        "entry id",
        "owner",
        "node",
        "length",
        "queue",
        "destination id",
        "timestamp",
        "poisoned",
        "transaction id",
        "price",
    ];
    if walk.nodes.is_empty() {
        return String::new();
    }
    let mut rows = vec![names.map(String::from).to_vec()];
    for (position, &entry) in walk.nodes.iter().enumerate() {
        rows.push(packet(&view.image, position, entry));
    }
    let rows = columns("    ", &rows);
    match &view.packets {
        Some(memories) => beside(&rows, &first_bytes(&view.image, memories, walk)),
        None => rows,
    }
}

/// Of each packet of a list its first bytes, below their name: the header, and apart
/// from it some of the data.
fn first_bytes(image: &Image, memories: &Memories, walk: &Walk) -> Vec<String> {
    let digits = |bytes: &[u8]| {
        let parts = bytes.chunks(HEADER_BYTES).map(hex::text);
        parts.collect::<Vec<String>>().join(" ")
    };
    let of = |&entry: &Entry| {
        let bytes = memories.first_bytes(entry, image.length(entry));
        bytes.map_or_else(|| "-".into(), digits)
    };
    row("first bytes", walk.nodes.iter().map(of))
}

/// Lines with a word more at the end of each.
fn beside(lines: &str, words: &[String]) -> String {
    let pairs = lines.lines().zip(words);
    pairs
        .map(|(line, word)| format!("{line}  {word}\n"))
        .collect()
}

fn packet(image: &Image, position: usize, entry: Entry) -> Vec<String> {
    let whose = [position, entry.0 as usize, entry.port(), entry.index()];
    let slot = image.slot(entry).unwrap_or(usize::MAX);
    let record = image.record(slot);
    let fields = [
        record.length,
        record.queue,
        record.destination,
        record.timestamp,
        record.poisoned,
        record.transaction,
        record.price,
    ];
    let whose = whose.iter().map(usize::to_string);
    whose.chain(fields.map(number)).collect()
}

/// Entry ids in their order, over as many lines as needed.
fn entries(indent: &str, nodes: &[Entry]) -> String {
    let ids: Vec<u32> = nodes.iter().map(|entry| entry.0).collect();
    let lines = runs(&ids).into_iter();
    lines.map(|line| format!("{indent}{line}\n")).collect()
}

/// Ids in their order, those that count up joined, in lines.
pub fn runs(ids: &[u32]) -> Vec<String> {
    let mut runs: Vec<(u32, u32)> = Vec::new();
    for &id in ids {
        match runs.last_mut() {
            Some((_, last)) if *last + 1 == id => *last = id,
            _ => runs.push((id, id)),
        }
    }
    let mut lines = Vec::new();
    for (i, &(first, last)) in runs.iter().enumerate() {
        push_run(&mut lines, first, last, i + 1 == runs.len());
    }
    lines
}

fn push_run(lines: &mut Vec<String>, first: u32, last: u32, ends: bool) {
    let run = match last - first {
        0 => first.to_string(),
        1 => format!("{first}, {last}"),
        _ => format!("{first} to {last}"),
    };
    push_part(lines, run, ends);
}

/// A part more, with a comma behind it unless it ends the lines.
fn push_part(lines: &mut Vec<String>, part: String, ends: bool) {
    let comma = if ends { "" } else { "," };
    match lines.last_mut() {
        Some(line) if line.len() + part.len() < WIDE => *line += &format!(" {part}{comma}"),
        _ => lines.push(part + comma),
    }
}
