//! What a repair keeps and drops, told.

use crate::buckets::{ports, Packets, Waits};
use crate::image::{Image, Kind};
use crate::layout::{Table, IDS};
use crate::lists::Walk;
use crate::view::{counted, map_by_port, number, View};
use crate::words::marked;

/// What is told of a repair: the image as it was, and as it is now.
pub fn told(before: &View, after: &Image) -> String {
    let was = match before.found() {
        Some(found) => format!("was: {found}"),
        None => "was: a sound state; a repair empties that too".into(),
    };
    let mut lines = vec![was, format!("kept: {}", before.settings())];
    lines.push(format!("kept: map, {}", map(after)));
    lines.extend(map_entries(&before.image, after));
    let past = before.there.saturating_sub(after.shape.size() as u64);
    if past > 0 {
        lines.push(format!("kept: {} past the state", counted(past, "byte")));
    }
    lines.push(packets(before));
    lines.push(outward(&before.image));
    lines.extend(marks(&before.image));
    lines.extend(waits(&before.image));
    lines.push(
        "as after setup: free lists, arrival credits, last served queues, marks, buckets".into(),
    );
    lines.join("\n") + "\n"
}

fn map(image: &Image) -> String {
    let ids = |(port, ids): (Option<u32>, Vec<u32>)| {
        let many = counted(ids.len() as u64, "id");
        format!("{many} to port {}", number(port))
    };
    let ports: Vec<String> = map_by_port(image).into_iter().map(ids).collect();
    ports.join(", ")
}

/// The map entries that could not be kept.
fn map_entries(before: &Image, after: &Image) -> Option<String> {
    let mapped = |image: &Image, id| image.get(Table::Mapped, id);
    let changed = |&id: &usize| mapped(before, id) != mapped(after, id);
    let ids: Vec<usize> = (0..IDS).filter(changed).collect();
    let first = *ids.first()?;
    let which = match ids.len() {
        1 => format!("map entry {first}"),
        many => format!("{many} map entries, the first {first}"),
    };
    let (was, ports) = (number(mapped(before, first)), after.shape.ports);
    Some(format!(
        "dropped: {which}, whose port {was} is none of {ports}"
    ))
}

fn packets(before: &View) -> String {
    let of = |kind: Kind| {
        let count = |walk: &Walk| (walk.list.kind == kind).then_some(walk.nodes.len());
        before.lists.walks.iter().filter_map(count).sum::<usize>()
    };
    let [ingress, egress, prefetch] = [Kind::Ingress, Kind::Egress, Kind::Prefetch].map(of);
    let all = counted((ingress + egress + prefetch) as u64, "packet");
    let stuck = |walk: &&Walk| walk.flaw.map_or(false, |flaw| flaw.stops());
    let more = match before.lists.walks.iter().filter(stuck).count() {
        0 => String::new(),
        lists => format!(
            ", and what could not be read in {}",
            counted(lists as u64, "list")
        ),
    };
    format!("dropped: {all} (ingress {ingress}, egress {egress}, prefetch {prefetch}){more}")
}

fn outward(before: &Image) -> String {
    let cells = 0..before.shape.cells();
    let credits = cells.filter_map(|cell| before.get(Table::Outward, cell));
    let some: Vec<u32> = credits.filter(|&credit| credit > 0).collect();
    let beats: u64 = some.iter().map(|&credit| u64::from(credit)).sum();
    let queues = counted(some.len() as u64, "queue");
    format!("dropped: outward credit {beats} (of {queues})")
}

/// The marks that are lifted.
fn marks(before: &Image) -> Option<String> {
    let mark = |port: usize| before.get(Table::Halted, port).filter(|&mark| mark > 0);
    let of_port = |port: usize| Some((port, mark(port)?));
    let marks: Vec<(usize, u32)> = (0..before.shape.ports).filter_map(of_port).collect();
    let (port, mark) = *marks.first()?;
    let which = match marks.len() {
        1 => "the mark".to_string(),
        many => format!("{many} marks, the first"),
    };
    Some(format!("dropped: {which} of port {port}, {}", marked(mark)))
}

/// The waits that are forgotten.
fn waits(before: &Image) -> Option<String> {
    let all = Waits::of_all(before);
    let some: Vec<&Waits> = all.iter().filter(|waits| waits.any()).collect();
    let packets = some.iter().map(|waits| waits.packets());
    let packets = packets.reduce(Packets::with)?.in_words();
    Some(format!(
        "dropped: the waits of {packets} ({})",
        ports(&some)
    ))
}
