//! A finding in words: the rule's letter, the item, and what its bytes say.

use crate::fields::{bits, largest, least};
use crate::image::{price, Entry, Image, Kind, Record};
use crate::layout::{
    row, Row, Table, BEAT, CREDIT, EDITION, IDS, MARKS, PORTS, QUEUES, ROWS, SETTINGS_BYTES, SLOTS,
};
use crate::lists::{Lists, Spot};
use crate::view::counted;

use ventorupo::{Finding, Form, Halt, Rule};

/// What was found, in words.
pub fn words(image: &Image, lists: &Lists, finding: Finding) -> String {
    let Finding { rule, item } = finding;
    let said = usize::try_from(item).ok();
    let said = said.and_then(|item| item_words(image, lists, rule, item));
    let said = said.unwrap_or_else(|| format!("item {item}, {UNSEEN}"));
    format!("({}) {said}", rule.letter())
}

/// Should library and reader ever disagree.
pub const UNSEEN: &str = "in which vr's own reader sees nothing wrong: please report this image";

/// None where the bytes do not show what the finding says.
fn item_words(image: &Image, lists: &Lists, rule: Rule, item: usize) -> Option<String> {
    let entry = Entry(u32::try_from(item).ok()?);
    match rule {
        Rule::A if item == ROWS.len() => too_short(image),
        Rule::A => setting(image, item),
        // The others speak of tables, whose places must be known.
        _ if image.needed().is_none() => None,
        Rule::B => range(image, item),
        Rule::C => once(image, lists, item),
        Rule::D => own_port(image, lists, entry),
        Rule::E => own_queue(image, lists, entry),
        Rule::F => record(image, lists, entry),
        Rule::G => paid(image, lists, item),
        Rule::I => mark(image, item),
        _ => None,
    }
}

fn too_short(image: &Image) -> Option<String> {
    let there = image.bytes.len();
    let short = format!(
        "the image is too short: it has {}",
        counted(there as u64, "byte")
    );
    if there < SETTINGS_BYTES {
        return Some(format!("{short}, the settings alone take {SETTINGS_BYTES}"));
    }
    let needed = image.needed().filter(|&needed| there < needed)?;
    let (ports, queues) = (image.shape.ports, image.shape.queues);
    let nodes = counted(image.shape.nodes as u64, "node");
    Some(format!(
        "{short}, a state of {ports} ports, {queues} queues and {nodes} a port takes {needed}"
    ))
}

fn setting(image: &Image, item: usize) -> Option<String> {
    if item >= ROWS.len() {
        return None;
    }
    let Row { name, row, has } = row(item, image.setting(EDITION)?);
    let number = image.setting(item).filter(|&number| !has(number))?;
    Some(format!(
        "setting {name}: {number} is not in its row ({row})"
    ))
}

fn range(image: &Image, item: usize) -> Option<String> {
    let ports = image.shape.ports;
    match item {
        port if port < ports => last_served(image, port),
        id if id < ports + IDS => mapped(image, id - ports),
        list => prefetch_count(image, list - ports - IDS),
    }
}

fn last_served(image: &Image, port: usize) -> Option<String> {
    let queues = image.shape.queues;
    let last = image.get(Table::Last, port)?;
    let wrong = last as usize >= queues;
    wrong.then(|| format!("port {port}: last served queue {last} is none of {queues}"))
}

fn mapped(image: &Image, id: usize) -> Option<String> {
    let ports = image.shape.ports;
    let port = image.get(Table::Mapped, id)?;
    let wrong = port as usize >= ports;
    wrong.then(|| format!("destination id {id}: mapped port {port} is none of {ports}"))
}

fn prefetch_count(image: &Image, number: usize) -> Option<String> {
    let queues = image.shape.queues;
    let (port, queue) = (number / queues.max(1), number % queues.max(1));
    let list = port * image.shape.lists_per_port() + 2 + queues + queue;
    let (count, slots) = (image.get(Table::Count, list)?, image.setting(SLOTS)?);
    let wrong = count > slots;
    wrong.then(|| {
        format!("port {port}, queue {queue}: the prefetch list has {count} nodes, its slots are {slots}")
    })
}

fn once(image: &Image, lists: &Lists, item: usize) -> Option<String> {
    match lists.walks.get(item) {
        Some(walk) => {
            let what = walk.flaw?.words(image, walk.list);
            Some(format!("{}: {what}", walk.list))
        }
        None => {
            let spot = lists.spots.get(item - lists.walks.len())?;
            let node = image.entry_at(item - lists.walks.len());
            spot.is_none().then(|| format!("{node} stands in no list"))
        }
    }
}

fn own_port(image: &Image, lists: &Lists, entry: Entry) -> Option<String> {
    let spot = lists.spot(image, entry)?;
    let own = [Kind::Free, Kind::Ingress].contains(&spot.list.kind);
    let wrong = own && entry.port() != spot.list.port;
    wrong.then(|| {
        format!(
            "{entry} stands at {spot}, which is for port {}'s nodes",
            spot.list.port
        )
    })
}

fn own_queue(image: &Image, lists: &Lists, entry: Entry) -> Option<String> {
    let spot = lists.spot(image, entry)?;
    let queue = image.get(Table::Queue, image.slot(entry)?)?;
    let wrong = queue as usize != spot.list.queue?;
    wrong.then(|| format!("{entry} stands at {spot}, but its recorded queue is {queue}"))
}

fn record(image: &Image, lists: &Lists, entry: Entry) -> Option<String> {
    let taken = |spot: &Spot| spot.list.kind != Kind::Free;
    let spot = lists.spot(image, entry).filter(taken)?;
    let record = image.record(image.slot(entry)?);
    let why = out_of_range(image, record).or_else(|| wrong_price(image, record))?;
    Some(format!("{entry} at {spot}: {why}"))
}

/// The form of the image's headers.
pub fn form(image: &Image) -> Option<Form> {
    Some(Form {
        edition: image.setting(EDITION)?,
        ports: image.setting(PORTS)?,
        queues: image.setting(QUEUES)?,
    })
}

/// The first field that is out of range.
fn out_of_range(image: &Image, record: Record) -> Option<String> {
    let (length, queue) = (record.length?, record.queue?);
    let (destination, poisoned) = (record.destination?, record.poisoned?);
    let form = form(image)?;
    let (queues, least) = (form.queues, least(form));
    let last = largest(bits(form.ports));
    if length < least {
        Some(format!("length {length} is under {least}"))
    } else if length > 8191 {
        Some(format!("length {length} is above 8191"))
    } else if queue >= queues {
        Some(format!("queue {queue} is none of {queues}"))
    } else if destination > last {
        Some(format!("destination id {destination} is above {last}"))
    } else if poisoned > 1 {
        Some(format!("poisoned flag {poisoned} is above 1"))
    } else {
        None
    }
}

fn wrong_price(image: &Image, record: Record) -> Option<String> {
    let (length, queue, said) = (record.length?, record.queue?, record.price?);
    let beat = image.setting(BEAT)?;
    let due = price(queue, length, beat);
    let why = match queue {
        0 => "queue 0 is free".to_string(),
        _ => format!("length {length} at beat {beat} costs {due}"),
    };
    (said != due).then(|| format!("price {said} is wrong, {why}"))
}

fn paid(image: &Image, lists: &Lists, cell: usize) -> Option<String> {
    let queues = image.shape.queues.checked_sub(1).filter(|&n| n > 0)?;
    let (port, queue) = (cell / queues, cell % queues + 1);
    let credit = image.get(Table::Arrival, cell)?;
    let prices = outstanding(image, lists, port, queue);
    let (both, all) = (u64::from(credit) + prices, image.setting(CREDIT)?);
    let wrong = both != u64::from(all);
    wrong.then(|| {
        format!("port {port}, queue {queue}: arrival credit {credit} and prices outstanding {prices} are {both} together, not {all}")
    })
}

fn mark(image: &Image, port: usize) -> Option<String> {
    let mark = image.get(Table::Halted, port)?;
    let wrong = !MARKS.contains(&mark);
    wrong.then(|| format!("port {port}: {}", marked(mark)))
}

/// What a mark above 0 says of its port.
pub fn marked(mark: u32) -> String {
    match Halt::from_number(mark) {
        Some(why) => format!("halted by {mark} ({why})"),
        None => format!("mark {mark} is none of 0, 7, 8 and 18"),
    }
}

/// The prices of a port's nodes of a queue that aren't free.
fn outstanding(image: &Image, lists: &Lists, port: usize, queue: usize) -> u64 {
    let of_queue = |record: &Record| record.queue == Some(queue as u32);
    lists
        .taken()
        .filter(|entry| entry.port() == port)
        .filter_map(|entry| image.slot(entry))
        .map(|slot| image.record(slot))
        .filter(of_queue)
        .filter_map(|record| record.price.map(u64::from))
        .sum()
}
