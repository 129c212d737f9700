//! An image as JSON: a program may listen. What could not be read is null.

use ventorupo::{Form, Header};

use crate::buckets::Waits;
use crate::header::{told, Shown};
use crate::hex;
use crate::image::{Entry, Image, Kind};
use crate::layout::{Table, IDS, ROWS};
use crate::lists::Walk;
use crate::view::View;

pub fn json(view: &View) -> String {
    let image = &view.image;
    let ports = image.shape.ports;
    let mapped = (0..IDS).map(|id| number(image.get(Table::Mapped, id)));
    let last = (0..ports).map(|port| number(image.get(Table::Last, port)));
    let marks = (0..ports).map(|port| number(image.get(Table::Halted, port)));
    let buckets = Waits::of_all(image);
    let buckets = buckets
        .iter()
        .map(|waits| row(waits.counts.iter().copied().map(number)));
    let walks = view.lists.walks.iter().map(|walk| list(view, walk));
    let nowhere = view.lists.nowhere(image);
    let needed = image.needed();
    let members = [
        ("sound", view.finding.is_none().to_string()),
        ("finding", finding(view)),
        ("stops", text(view.stops())),
        ("hint", text(view.hint())),
        ("bytes", view.there.to_string()),
        (
            "needed",
            needed.map_or_else(null, |needed| needed.to_string()),
        ),
        ("settings", settings(image)),
        ("map", block(mapped)),
        ("last_served", row(last)),
        ("marks", row(marks)),
        ("buckets", lines(buckets)),
        ("credits", lines(credits(image))),
        ("lists", lines(walks)),
        (
            "in_no_list",
            row(nowhere.iter().map(|entry| entry.0.to_string())),
        ),
    ];
    members_of(&members)
}

/// A header: its fields as far as there are any, and its refusal.
pub fn header(shown: &Shown) -> String {
    let form = shown.form;
    let (refused, words) = match &shown.refused {
        Some((refusal, words)) => (refusal.number().to_string(), Some(words.clone())),
        None => (null(), None),
    };
    let its = |header: &Header| fields(form, header);
    let members = [
        ("edition", form.edition.to_string()),
        ("ports", form.ports.to_string()),
        ("queues", form.queues.to_string()),
        ("bytes", shown.there.to_string()),
        ("refused", refused),
        ("words", text(words)),
        ("fields", shown.fields.as_ref().map_or_else(null, its)),
    ];
    members_of(&members)
}

fn fields(form: Form, header: &Header) -> String {
    let numbers = told(form).zip(header.numbers());
    let members: Vec<(&str, String)> = numbers
        .map(|((_, name, _), number)| (name, number.to_string()))
        .collect();
    object(&members)
}

/// An object of a line for each member: a whole text.
fn members_of(members: &[(&str, String)]) -> String {
    let member = |(name, value): &(&str, String)| format!("  \"{name}\": {value}");
    let members: Vec<String> = members.iter().map(member).collect();
    format!("{{\n{}\n}}\n", members.join(",\n"))
}

fn null() -> String {
    "null".into()
}

fn number(read: Option<u32>) -> String {
    read.map_or_else(null, |number| number.to_string())
}

/// A string or null.
fn text(said: Option<String>) -> String {
    let escape = |c: char| match c {
        '"' | '\\' => format!("\\{c}"),
        c if c < ' ' => format!("\\u{:04x}", c as u32),
        c => c.to_string(),
    };
    let quote = |said: String| format!("\"{}\"", said.chars().map(escape).collect::<String>());
    said.map_or_else(null, quote)
}

/// An array in one line.
fn row(elements: impl Iterator<Item = String>) -> String {
    format!("[{}]", elements.collect::<Vec<String>>().join(", "))
}

/// A long array of numbers, some of them in each line.
fn block(elements: impl Iterator<Item = String>) -> String {
    let elements: Vec<String> = elements.collect();
    lines(elements.chunks(64).map(|some| some.join(", ")))
}

/// An array of a line each.
fn lines(elements: impl Iterator<Item = String>) -> String {
    let elements: Vec<String> = elements.map(|element| format!("    {element}")).collect();
    if elements.is_empty() {
        "[]".into()
    } else {
        format!("[\n{}\n  ]", elements.join(",\n"))
    }
}

/// An object in one line.
fn object(members: &[(&str, String)]) -> String {
    let member = |(name, value): &(&str, String)| format!("\"{name}\": {value}");
    let members: Vec<String> = members.iter().map(member).collect();
    format!("{{{}}}", members.join(", "))
}

fn finding(view: &View) -> String {
    view.finding.map_or_else(null, |finding| {
        object(&[
            ("rule", text(Some(finding.rule.letter().to_string()))),
            ("item", finding.item.to_string()),
            ("words", text(view.found())),
        ])
    })
}

fn settings(image: &Image) -> String {
    let named = ROWS.iter().enumerate();
    let members: Vec<(&str, String)> = named
        .map(|(i, row)| (row.name, number(image.setting(i))))
        .collect();
    object(&members)
}

fn credits<'a>(image: &'a Image) -> impl Iterator<Item = String> + 'a {
    let cell = move |port: usize, queue: usize| {
        object(&[
            ("port", port.to_string()),
            ("queue", queue.to_string()),
            ("arrival", number(image.credit(Table::Arrival, port, queue))),
            ("outward", number(image.credit(Table::Outward, port, queue))),
        ])
    };
    let queues = image.shape.queues;
    (0..image.shape.ports).flat_map(move |port| (1..queues).map(move |queue| cell(port, queue)))
}

fn list(view: &View, walk: &Walk) -> String {
    let list = walk.list;
    let free = list.kind == Kind::Free;
    let nodes = walk.nodes.iter().map(|&entry| node(view, entry, free));
    let wrong = walk.flaw.map(|flaw| flaw.words(&view.image, list));
    object(&[
        ("port", list.port.to_string()),
        ("kind", text(Some(list.kind.name().into()))),
        (
            "queue",
            list.queue.map_or_else(null, |queue| queue.to_string()),
        ),
        ("head", number(walk.head)),
        ("tail", number(walk.tail)),
        ("count", number(walk.count)),
        ("wrong", text(wrong)),
        ("nodes", row(nodes)),
    ])
}

/// A node; of a free one nothing is recorded. The first bytes of its packet are told
/// where packet memories are given.
fn node(view: &View, entry: Entry, free: bool) -> String {
    let id = ("entry_id", entry.0.to_string());
    let slot = match view.image.slot(entry) {
        Some(slot) if !free => slot,
        _ => return object(&[id]),
    };
    let record = view.image.record(slot);
    let mut members = vec![
        id,
        ("length", number(record.length)),
        ("queue", number(record.queue)),
        ("destination_id", number(record.destination)),
        ("timestamp", number(record.timestamp)),
        ("poisoned", number(record.poisoned)),
        ("transaction_id", number(record.transaction)),
        ("price", number(record.price)),
    ];
    members.extend(view.packets.as_ref().map(|memories| {
        let bytes = memories.first_bytes(entry, record.length);
        ("first_bytes", text(bytes.map(hex::text)))
    }));
    object(&members)
}

#[cfg(test)]
mod tests {
    use super::*;

    /// No words of vr need it so far; should they once, a reader is not misled.
    #[test]
    fn what_json_asks_for_is_escaped() {
        let said = "a \"b\" \\ c\n\u{1f}, é".to_string();
        let wanted = "\"a \\\"b\\\" \\\\ c\\u000a\\u001f, é\"";
        assert_eq!(text(Some(said)), wanted);
        assert_eq!(text(None), "null");
    }
}
