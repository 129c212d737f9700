//! Damaged images: whatever the bytes, explain, dump and waits end without a panic,
//! and vr's own reader sees what the library found.

mod common;
#[path = "common/dumps.rs"]
mod dumps;
#[path = "common/images.rs"]
mod images;
#[path = "common/reading.rs"]
mod reading;
#[path = "common/xml.rs"]
mod xml;

use std::collections::BTreeMap;
use std::ops::Range;

use common::{on, vr, Folder};
use dumps::{buckets_of_json, buckets_of_table, nodes_of_json, stored_of_json, stored_of_table};
use images::{busy, busy_of, in_every_shape, largest, roomy, small};
use reading::Json;
use traffic::{Random, SHAPES};
use ventorupo::{Finding, Rule, Settings};
use vr::json::json;
use vr::layout::{Shape, Table, TABLES};
use vr::svg::picture;
use vr::table::table;
use vr::view::View;
use vr::waits::Drawing;
use vr::words::UNSEEN;
use xml::Element;

/// The tables of a state.
fn shape(settings: Settings) -> Shape {
    Shape {
        ports: settings.ports as usize,
        queues: settings.queues as usize,
        nodes: settings.nodes as usize,
    }
}

/// The bytes of a table.
fn bytes_of(shape: Shape, table: Table) -> Range<usize> {
    let behind = TABLES.get(table as usize + 1);
    let end = behind.map_or(shape.size(), |&behind| shape.start(behind));
    shape.start(table)..end
}

/// Change a byte of a table, often to one that nearly fits.
fn damage(memory: &mut [u8], settings: Settings, random: &mut Random) {
    let table = match random.below(20) {
        0 => Table::Setting,
        1..=3 => return change_over(memory, settings, random),
        _ => random.pick(&TABLES[1..]),
    };
    let Range { start, end } = bytes_of(shape(settings), table);
    let at = random.among(start as u32, end as u32 - 1) as usize;
    memory[at] = match random.below(4) {
        0 => random.below(256) as u8,
        1 => memory[at] ^ 1 << random.below(8),
        2 => memory[at].wrapping_add(1),
        _ => memory[random.among(at as u32, end as u32 - 1) as usize],
    };
}

/// Let two nodes change places: lists hang together as before, with other nodes.
fn change_over(memory: &mut [u8], settings: Settings, random: &mut Random) {
    let nodes = settings.nodes;
    let mut node = || (random.below(settings.ports), random.below(nodes));
    let (one, other) = (node(), node());
    let id = |(port, index): (u32, u32)| (port * 2048 + index) as u16;
    let [one_id, other_id] = [one, other].map(id);
    let shape = shape(settings);
    let next = bytes_of(shape, Table::Next);
    let links = bytes_of(shape, Table::Head).start..bytes_of(shape, Table::Tail).end;
    for link in links.chain(next.clone()).step_by(2) {
        let said = u16::from_be_bytes([memory[link], memory[link + 1]]);
        let says = match said {
            _ if said == one_id => other_id,
            _ if said == other_id => one_id,
            _ => said,
        };
        memory[link..link + 2].copy_from_slice(&says.to_be_bytes());
    }
    let behind = |(port, index): (u32, u32)| next.start + 2 * (port * nodes + index) as usize;
    for byte in 0..2 {
        memory.swap(behind(one) + byte, behind(other) + byte);
    }
}

/// Explain, dump and waits, in this process; answers the rule found.
fn looked_at(memory: &[u8]) -> Option<Rule> {
    let view = View::new(memory, memory.len() as u64, ventorupo::find(memory));
    let said = vr::explain(&view);
    assert!(!said.text.contains(UNSEEN), "{}", said.text);
    assert_eq!(said.status, view.finding.is_some() as u8);
    let top = said.text.lines().next().unwrap();
    let table = table(&view);
    assert!(table.starts_with(&format!("{top}\n\n")));
    let drawing = Drawing::of(&view);
    assert!(drawing.text().starts_with(&format!("{top}\n")));
    assert_eq!(Element::read(&picture(&drawing)).name, "svg");
    let dump = Json::read(&json(&view));
    assert_eq!(stored_of_table(&table), stored_of_json(&dump));
    assert_eq!(buckets_of_table(&table), buckets_of_json(&dump));
    let flaws = view
        .lists
        .walks
        .iter()
        .filter(|walk| walk.flaw.is_some())
        .count();
    match view.finding {
        None => {
            assert_eq!((flaws, view.stops()), (0, None));
            assert_eq!(view.lists.nowhere(&view.image), []);
            assert_eq!(*dump.of("sound"), Json::Truth(true));
            assert_eq!(nodes_of_json(&dump).len(), view.image.shape.all_nodes());
        }
        Some(_) => assert_eq!(dump.of("finding").of("words").text(), top),
    }
    view.finding.map(|finding| finding.rule)
}

#[test]
fn damaged_states() {
    let mut random = Random::new(11);
    let mut rules: BTreeMap<Option<Rule>, u32> = BTreeMap::new();
    for run in 0..30 {
        let nodes = random.pick(&[1, 2, 3, 16, 40]);
        let settings = in_every_shape(nodes)[run as usize % SHAPES.len()];
        let state = busy_of(settings, random.pick(&[0, 30, 100]), run).into_memory();
        // The larger ones take their time.
        let images = if settings.ports > 16 { 15 } else { 60 };
        for _ in 0..images {
            let mut memory = state.clone();
            for _ in 0..random.among(1, 3) {
                damage(&mut memory, settings, &mut random);
            }
            *rules.entry(looked_at(&memory)).or_default() += 1;
        }
    }
    // Every rule is met, and the damage that hits what nothing reads.
    assert_eq!(rules.len(), 9, "{rules:?}");
    assert!(rules.values().all(|&times| times > 20), "{rules:?}");
}

#[test]
fn any_bytes_behind_good_settings() {
    let mut random = Random::new(12);
    let tables = [
        Table::Mapped,
        Table::Last,
        Table::Halted,
        Table::Arrival,
        Table::Buckets,
        Table::Head,
        Table::Count,
        Table::Next,
    ];
    let sizes = [1, 2, 16, 256, 2048].map(roomy);
    let others = [
        largest(2),
        Settings::wide(5, 33)
            .nodes(16)
            .beat(128)
            .slots(3)
            .credit(65_535),
    ];
    for settings in sizes.into_iter().chain(others) {
        let state = busy_of(settings, 10, 1).into_memory();
        for _ in 0..40 {
            let mut memory = state.clone();
            let kept = shape(settings).start(random.pick(&tables));
            let width = random.pick(&[1, 4, 256]);
            for byte in &mut memory[kept..] {
                *byte = random.below(width) as u8;
            }
            let some = [usize::MAX, 17, 4100, 5000, 6000];
            memory.truncate(random.pick(&some).min(memory.len()));
            looked_at(&memory);
        }
    }
}

/// Any four bytes are a bucket: no rule speaks of them.
#[test]
fn any_buckets_are_sound() {
    let mut random = Random::new(15);
    for settings in in_every_shape(3) {
        let mut memory = busy_of(settings, 50, 4).into_memory();
        for at in bytes_of(shape(settings), Table::Buckets) {
            memory[at] = random.below(256) as u8;
        }
        assert_eq!(looked_at(&memory), None);
    }
}

#[test]
fn any_bytes_at_all() {
    let mut random = Random::new(13);
    for _ in 0..300 {
        let len = random.below(8000) as usize;
        let memory: Vec<u8> = (0..len).map(|_| random.below(256) as u8).collect();
        assert!(looked_at(&memory).is_some());
    }
}

/// Of a finding that the bytes do not show, vr says so: never a wrong reason.
#[test]
fn findings_that_are_not_there() {
    let sound = small();
    for memory in [&sound[..], &[], &sound[..6719], &[0; 8000]] {
        for &rule in Rule::ALL {
            for item in (0..300).chain([4096, 4097, 4198, 6145, 65_536, u64::MAX]) {
                let view = View::new(memory, 0, Some(Finding { rule, item }));
                let seen = !vr::explain(&view).text.contains(UNSEEN);
                // Too short, or zero settings: that alone is so.
                let so = match memory.len() {
                    6720 => false,
                    8000 => rule == Rule::A && item < 5,
                    _ => rule == Rule::A && item == 8,
                };
                assert_eq!(seen, so, "{rule:?} {item}");
            }
        }
    }
}

/// Some of them by the program itself.
#[test]
fn damaged_files() {
    let folder = Folder::new("damage-files");
    let mut random = Random::new(14);
    let state = busy(16, 60, 5).into_memory();
    for _ in 0..40 {
        let mut memory = state.clone();
        damage(&mut memory, roomy(16), &mut random);
        let status = ventorupo::find(&memory).is_some() as i32;
        let file = folder.file("image", &memory);
        for said in [
            on("explain", &file),
            on("dump", &file),
            on("waits", &file),
            vr(&["dump".as_ref(), file.as_os_str(), "--json".as_ref()]),
        ] {
            assert_eq!((said.status, said.err.as_str()), (Some(status), ""));
        }
    }
}
