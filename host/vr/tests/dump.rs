//! `vr dump`: exact for a small image, the audit's places for others, and what
//! can be read of broken ones.

mod common;
#[path = "common/dumps.rs"]
mod dumps;
#[path = "common/images.rs"]
mod images;
#[path = "common/reading.rs"]
mod reading;

use std::ffi::OsStr;
use std::fs;
use std::path::Path;

use common::{on, vr, Folder, Said};
use dumps::{
    buckets_of_json, buckets_of_table, nodes_of_json, nodes_of_table, stored_of_json,
    stored_of_table, Nodes, Stands, Stored,
};
use images::{
    at, bucket, busy, busy_of, changed, in_every_shape, largest, roomy, small, switch, wide,
    Change, SMALL,
};
use reading::Json;
use ventorupo::Settings;
use vr::view::View;

fn json(file: &Path) -> Said {
    vr(&[OsStr::new("dump"), file.as_os_str(), OsStr::new("--json")])
}

fn expected(name: &str) -> String {
    let path = Path::new(env!("CARGO_MANIFEST_DIR"))
        .join("tests/expected")
        .join(name);
    fs::read_to_string(path).unwrap()
}

#[test]
fn a_small_image_exactly() {
    let folder = Folder::new("dump-small");
    let file = folder.file("image", &small());
    let (table, json) = (on("dump", &file), json(&file));
    assert_eq!(table.out, expected("small.txt"));
    assert_eq!(json.out, expected("small.json"));
    for said in [table, json] {
        assert_eq!((said.status, said.err.as_str()), (Some(0), ""));
    }
}

#[test]
fn a_wide_image_exactly() {
    let folder = Folder::new("dump-wide");
    let file = folder.file("image", &wide());
    let (table, json) = (on("dump", &file), json(&file));
    assert_eq!(table.out, expected("wide.txt"));
    assert_eq!(json.out, expected("wide.json"));
    for said in [table, json] {
        assert_eq!((said.status, said.err.as_str()), (Some(0), ""));
    }
}

#[test]
fn a_broken_image_exactly() {
    let folder = Folder::new("dump-broken");
    let file = folder.file("image", &broken());
    let (table, json) = (on("dump", &file), json(&file));
    assert_eq!(table.out, expected("broken.txt"));
    assert_eq!(json.out, expected("broken.json"));
    for said in [table, json] {
        assert_eq!((said.status, said.err.as_str()), (Some(1), ""));
    }
}

/// A list that loops, one with an id that is no node, a wrong tail, and a node nowhere.
fn broken() -> Vec<u8> {
    changed(&[
        (at::NEXT + 2 * 2, 2, 2048),
        (at::COUNT + 4 * 50, 4, 9),
        (at::HEAD + 2 * 57, 2, 4711),
        (at::TAIL + 2 * 81, 2, 1),
    ])
}

/// The audit's blocks as places by entry id.
fn audited(memory: &[u8], nodes: usize) -> Nodes {
    let mut room = vec![0xA7; 8 * nodes];
    ventorupo::audit(memory, &mut room).unwrap();
    let two = |block: &[u8], at: usize| u64::from(block[at]) << 8 | u64::from(block[at + 1]);
    let stands = |block: &[u8]| Stands {
        kind: block[2],
        port: block[3].into(),
        queue: block[4].into(),
        position: two(block, 6),
        record: Vec::new(),
    };
    let blocks = room.chunks(8);
    blocks.map(|block| (two(block, 0), stands(block))).collect()
}

fn without_records(nodes: &Nodes) -> Nodes {
    let bare = |stands: &Stands| Stands {
        record: Vec::new(),
        ..stands.clone()
    };
    nodes
        .iter()
        .map(|(&entry, stands)| (entry, bare(stands)))
        .collect()
}

/// Table and JSON agree with the audit on places, and with each other on records.
fn agrees_with_the_audit(folder: &Folder, memory: &[u8], settings: Settings) {
    let nodes = (settings.ports * settings.nodes) as usize;
    let file = folder.file("image", memory);
    let (table, json) = (on("dump", &file), json(&file));
    assert_eq!((table.status, json.status), (Some(0), Some(0)));
    let listed = nodes_of_table(&table.out);
    let json = Json::read(&json.out);
    assert_eq!(listed, nodes_of_json(&json));
    assert_eq!(stored_of_table(&table.out), stored_of_json(&json));
    assert_eq!(without_records(&listed), audited(memory, nodes));
    assert_eq!(listed.len(), nodes);
}

#[test]
fn places_are_the_audits() {
    let folder = Folder::new("dump-audit");
    for nodes in [1, 2, 16, 256, 2048] {
        for percent in [0, 50, 100] {
            let seed = u64::from(1000 * nodes + percent);
            let (settings, switch) = (roomy(nodes), busy(nodes, percent, seed));
            agrees_with_the_audit(&folder, switch.memory(), settings);
        }
        let settings = SMALL.nodes(nodes);
        agrees_with_the_audit(&folder, switch(settings).memory(), settings);
    }
    agrees_with_the_audit(&folder, &small(), SMALL);
}

#[test]
fn places_are_the_audits_in_every_shape() {
    let folder = Folder::new("dump-shapes");
    for (nodes, percent) in [(1, 100), (9, 50)] {
        for (seed, settings) in (0..).zip(in_every_shape(nodes)) {
            let switch = busy_of(settings, percent, seed);
            agrees_with_the_audit(&folder, switch.memory(), settings);
        }
    }
    let most = largest(2048);
    agrees_with_the_audit(&folder, switch(most).memory(), most);
}

/// What stands in the columns and cells of the JSON is what the calls put there.
#[test]
fn numbers_are_the_calls() {
    let folder = Folder::new("dump-numbers");
    let said = json(&folder.file("image", &small()));
    let dump = Json::read(&said.out);
    let numbers = |name| -> Vec<u64> {
        let elements = dump.of(name).elements();
        elements.iter().map(Json::number).collect()
    };
    let mut map = vec![0; 4096];
    map[..4].copy_from_slice(&[0, 1, 2, 3]);
    assert_eq!(numbers("map"), map);
    assert_eq!(numbers("last_served"), [23; 4]);
    assert_eq!(numbers("marks"), [0; 4]);
    assert_eq!(numbers("in_no_list"), []);
    assert_eq!(*dump.of("sound"), Json::Truth(true));
    assert_eq!(dump.of("credits").elements().len(), 92);
    for cell in dump.of("credits").elements() {
        let of = |name| cell.of(name).number();
        let arrival = match (of("port"), of("queue")) {
            (0, 5) => 13,
            (2, 23) => 15,
            _ => 16,
        };
        let outward = match (of("port"), of("queue")) {
            (1, 5) => 100,
            (3, 23) => 65_535,
            _ => 0,
        };
        assert_eq!((of("arrival"), of("outward")), (arrival, outward));
    }
}

/// The image cut at its bytes: what is there is shown, and where it ends is said.
#[test]
fn an_image_cut_anywhere() {
    let whole = small();
    // Within the map one byte is as good as another; behind it a step of three
    // meets every byte of an element sooner or later.
    let cuts = (0..40)
        .chain(at::LAST - 9..at::ARRIVAL + 9)
        .chain((at::ARRIVAL..at::SIZE).step_by(3));
    for there in cuts {
        let cut = &whole[..there];
        let view = View::new(cut, there as u64, ventorupo::find(cut));
        let (table, dump) = (vr::table::table(&view), Json::read(&vr::json::json(&view)));
        let ends = match there {
            0..=15 => "the image ends within the settings".to_string(),
            _ => format!("the image ends at byte {there} of 6720"),
        };
        assert!(table.starts_with("(a) the image is too short: "));
        assert!(table.ends_with(&format!("\nreading stops: {ends}\n")));
        assert_eq!(cut_off(&table), lists_behind(there, at::COUNT, 4));
        let stored = stored_of_json(&dump);
        assert_eq!(stored_of_table(&table), stored);
        assert_eq!(none_of(&stored, 0), heads_without(there, at::COUNT, 4));
        assert_eq!(none_of(&stored, 2), heads_without(there, at::TAIL, 2));
        assert_eq!(dump.of("stops").text(), ends);
        assert_eq!(dump.of("finding").of("rule").text(), "a");
        assert_eq!(dump.of("finding").of("item").number(), 8);
    }
}

/// Some of the cuts by the program itself.
#[test]
fn files_that_are_cut() {
    let folder = Folder::new("dump-cut");
    for there in [
        0,
        3,
        15,
        16,
        20,
        at::LAST,
        at::HEAD + 212,
        at::TAIL + 212,
        at::COUNT + 412,
        at::NEXT + 12,
        at::SIZE - 1,
    ] {
        let cut = &small()[..there];
        let view = View::new(cut, there as u64, ventorupo::find(cut));
        let file = folder.file("image", cut);
        let (table, json) = (on("dump", &file), json(&file));
        assert_eq!(table.out, vr::table::table(&view));
        assert_eq!(json.out, vr::json::json(&view));
        for said in [table, json] {
            assert_eq!((said.status, said.err.as_str()), (Some(1), ""));
        }
    }
}

/// How many lists a table says are cut off.
fn cut_off(table: &str) -> usize {
    let said = table
        .lines()
        .filter_map(|line| line.strip_prefix("  lists cut off: "));
    said.map(|number| number.parse::<usize>().unwrap()).sum()
}

/// The lists whose element of a table stands behind a byte; of an image without
/// its ports and queues nothing is told.
fn lists_behind(there: usize, table: usize, width: usize) -> usize {
    match there {
        0..=3 => 0,
        _ => 200 - (there.saturating_sub(table) / width).min(200),
    }
}

/// The lists whose head is there, and whose element of another table is not.
fn heads_without(there: usize, table: usize, width: usize) -> usize {
    lists_behind(there, table, width) - lists_behind(there, at::HEAD, 2)
}

/// The lists of which this number could not be read.
fn none_of(stored: &Stored, which: usize) -> usize {
    let none = |numbers: &&[Option<u64>; 3]| numbers[which].is_none();
    stored.values().filter(none).count()
}

#[test]
fn settings_out_of_their_rows() {
    let folder = Folder::new("dump-rows");
    for (setting, stops, lists) in [
        (
            0,
            Some("ports is not in its row, so nothing behind the map has a known place"),
            0,
        ),
        (
            1,
            Some("queues is not in its row, so nothing behind the map has a known place"),
            0,
        ),
        (
            2,
            Some("nodes is not in its row, so the lists cannot be followed"),
            200,
        ),
        (3, None, 200),
        (4, None, 200),
        (6, None, 200),
        (7, None, 200),
    ] {
        let file = folder.file("image", &changed(&[(2 * setting, 2, 3333)]));
        let (table, json) = (on("dump", &file), json(&file));
        assert_eq!((table.status, json.status), (Some(1), Some(1)));
        let dump = Json::read(&json.out);
        assert_eq!(dump.of("lists").elements().len(), lists);
        assert_eq!(stored_of_table(&table.out), stored_of_json(&dump));
        assert_eq!(dump.of("map").elements()[3], Json::Number(3));
        match stops {
            Some(why) => {
                assert_eq!(dump.of("stops").text(), why);
                assert!(table.out.ends_with(&format!("\nreading stops: {why}\n")));
            }
            None => {
                assert_eq!(*dump.of("stops"), Json::Null);
                assert_eq!(nodes_of_table(&table.out), nodes_of_json(&dump));
            }
        }
    }
}

/// Where the tables stand does not depend on the edition: whatever stands there,
/// all is shown, and the finding has that edition's row.
#[test]
fn an_edition_that_is_damaged_hides_nothing() {
    let folder = Folder::new("dump-edition");
    let settings = Settings::wide(5, 17)
        .nodes(2)
        .beat(128)
        .slots(3)
        .credit(65_535);
    let sound = busy_of(settings, 100, 3).into_memory();
    let shown = |edition: u8| {
        let mut memory = sound.clone();
        memory[13] = edition;
        let file = folder.file("image", &memory);
        let (table, json) = (on("dump", &file).out, Json::read(&json(&file).out));
        assert_eq!(*json.of("stops"), Json::Null, "{table}");
        assert_eq!(json.of("needed").number(), sound.len() as u64);
        assert_eq!(nodes_of_table(&table).len(), 10);
        // Behind finding and settings.
        let (_, tables) = table.split_once("\nbytes: ").unwrap();
        let lists = json.of("lists").clone();
        (json.of("finding").clone(), tables.to_string(), lists)
    };
    let (finding, tables, lists) = shown(1);
    assert_eq!(finding, Json::Null);
    for (edition, words) in [
        (0, "(a) setting ports: 5 is not in its row (4 in edition 0)"),
        (2, "(a) setting edition: 2 is not in its row (0 or 1)"),
    ] {
        let (finding, same_tables, same_lists) = shown(edition);
        assert_eq!(finding.of("words").text(), words);
        assert_eq!((same_tables, same_lists), (tables.clone(), lists.clone()));
    }
}

/// All that a map can hold: a line for each port, or several.
#[test]
fn maps_in_few_lines() {
    let folder = Folder::new("dump-map");
    let lines = |bytes: &[u8]| -> Vec<String> {
        let said = on("dump", &folder.file("image", bytes)).out;
        let lines = said.lines().skip_while(|line| !line.starts_with("port "));
        let map = lines.take_while(|line| !line.is_empty());
        map.map(String::from).collect()
    };
    let heading = "port  destination ids";
    let map = |map: fn(usize) -> u8| {
        let mut memory = small();
        for (id, port) in memory[at::MAPPED..at::LAST].iter_mut().enumerate() {
            *port = map(id);
        }
        memory
    };
    let all = map(|_| 3);
    assert_eq!(lines(&all), [heading, "   3  0 to 4095"]);
    let halves = map(|id| if id < 2048 { 1 } else { 255 });
    assert_eq!(
        lines(&halves),
        [heading, "   1  0 to 2047", " 255  2048 to 4095"]
    );
    let by_turns = lines(&map(|id| (id % 4) as u8));
    assert!(by_turns.iter().all(|line| line.len() < 120));
    assert_eq!(by_turns[1][..16], *"   0  0, 4, 8, 1");
    assert_eq!(
        by_turns.last().unwrap().split(' ').next_back(),
        Some("4095")
    );
    // Cut off behind id 1.
    let cut = lines(&small()[..at::MAPPED + 2]);
    assert_eq!(cut, [heading, "   0  0", "   1  1", "   -  2 to 4095"]);
}

/// Without the number of its nodes, what is stored of each list is shown, and
/// why no node is.
#[test]
fn nodes_out_of_their_row() {
    let folder = Folder::new("dump-nodes");
    let why = "the setting nodes is not in its row, so its nodes cannot be followed";
    let sound = Json::read(&json(&folder.file("sound", &small())).out);
    for nodes in [0, 2049, 65_535] {
        let file = folder.file("image", &changed(&[(4, 2, nodes)]));
        let (table, json) = (on("dump", &file).out, Json::read(&json(&file).out));
        assert_eq!(*json.of("in_no_list"), Json::Array(vec![]));
        let lists = json.of("lists").elements();
        for (list, was) in lists.iter().zip(sound.of("lists").elements()) {
            for name in ["port", "kind", "queue", "head", "tail", "count"] {
                assert_eq!(list.of(name), was.of(name));
            }
            assert_eq!(*list.of("nodes"), Json::Array(vec![]));
            match list.of("count").number() {
                0 => assert_eq!(*list.of("wrong"), Json::Null),
                _ => assert_eq!(list.of("wrong").text(), why),
            }
        }
        let free = format!(
            "\nport 1\n  free: 2 by its count, 0 read; head 2048, tail 2049\n    reading stops: {why}\n"
        );
        assert!(table.contains(&free), "{table}");
        assert_eq!(table.matches(why).count(), 5);
    }
}

/// A halted port's line, with why, and a mark that is none; in the JSON the marks
/// as they stand.
#[test]
fn halted_ports() {
    let folder = Folder::new("dump-halted");
    let shown = |marks: [u32; 4]| {
        let change = |port: usize| (at::HALTED + port, 1, marks[port]);
        let file = folder.file("image", &changed(&[0, 1, 2, 3].map(change)));
        let (table, json) = (on("dump", &file), json(&file));
        assert_eq!(table.status, json.status);
        let dump = Json::read(&json.out);
        let told: Vec<u64> = dump
            .of("marks")
            .elements()
            .iter()
            .map(Json::number)
            .collect();
        assert_eq!(told, marks.map(u64::from));
        assert_eq!(nodes_of_table(&table.out), nodes_of_json(&dump));
        (table.status, table.out)
    };
    let beat = "18 (last mark too early, absent where the length ends, or a beat of a wrong size)";
    let (status, table) = shown([7, 8, 0, 18]);
    assert_eq!(status, Some(0));
    for line in [
        "\nport 0\n  halted by 7 (checksum differs)\n  empty lists: 50\n".to_string(),
        "\nport 1\n  halted by 8 (header's source isn't the arriving port)\n  free: ".into(),
        "\nport 2\n  ingress: ".into(),
        format!("\nport 3\n  halted by {beat}\n  free: "),
    ] {
        assert!(table.contains(&line), "{line}: {table}");
    }
    let (status, table) = shown([0, 7, 1, 255]);
    assert_eq!(status, Some(1));
    assert!(table.starts_with("(i) port 2: mark 1 is none of 0, 7, 8 and 18\n\n"));
    for line in [
        "\nport 1\n  halted by 7 (checksum differs)\n",
        "\nport 2\n  mark 1 is none of 0, 7, 8 and 18\n",
        "\nport 3\n  mark 255 is none of 0, 7, 8 and 18\n",
    ] {
        assert!(table.contains(line), "{line}: {table}");
    }
    // Cut off within the marks.
    let cut = &changed(&[(at::HALTED, 1, 8)])[..at::HALTED + 2];
    let said = json(&folder.file("cut", cut)).out;
    assert!(
        said.contains("\n  \"marks\": [8, 0, null, null],\n"),
        "{said}"
    );
}

/// The waits of the ports that counted some, in words; in the JSON as they stand.
#[test]
fn waits() {
    let folder = Folder::new("dump-waits");
    let shown = |changes: &[Change]| {
        let file = folder.file("image", &changed(changes));
        let (table, json) = (on("dump", &file), json(&file));
        assert_eq!((table.status, json.status), (Some(0), Some(0)));
        let dump = Json::read(&json.out);
        let told = buckets_of_json(&dump);
        assert_eq!(told.len(), changes.len());
        assert_eq!(buckets_of_table(&table.out), told);
        assert_eq!(nodes_of_table(&table.out), nodes_of_json(&dump));
        (table.out, json.out)
    };
    let (table, _) = shown(&[]);
    assert!(!table.contains("waits"), "{table}");
    let (table, json) = shown(&[bucket(1, 0, 1), bucket(1, 3, 2), bucket(3, 32, u32::MAX)]);
    for lines in [
        "\nport 0\n  empty lists: 50\n",
        "\nport 1\n  waits: 3 packets; bucket 0 (wait 0) 1, bucket 3 (waits 4 to 7) 2\n  free: ",
        "\nport 2\n  ingress: ",
        "\nport 3\n  waits: 4294967295 or more packets; bucket 32 (waits 2147483648 to 4294967295) 4294967295 or more\n  free: ",
    ] {
        assert!(table.contains(lines), "{lines}: {table}");
    }
    let zeros = ", 0".repeat(29);
    let row = format!("\n    [1, 0, 0, 2{zeros}],\n");
    assert!(json.contains(&row), "{json}");
    assert!(json.contains(", 0, 4294967295]\n  ],\n"), "{json}");
    // All buckets of a port take some lines.
    let mut changes: Vec<Change> = (0..33).map(|b| bucket(0, b, b as u32 + 1)).collect();
    changes.extend((0..33).map(|b| bucket(2, b, u32::MAX)));
    let (table, _) = shown(&changes);
    let lines = table.lines().skip_while(|line| *line != "port 0");
    let lines: Vec<&str> = lines.take_while(|line| !line.is_empty()).collect();
    assert!(
        lines[1].starts_with("  waits: 561 packets; bucket 0 (wait 0) 1, bucket 1 (wait 1) 2, ")
    );
    assert!(lines[2].starts_with("    bucket "), "{table}");
    assert!(lines.iter().all(|line| line.len() < 110), "{table}");
    let sum = "\n  waits: 141733920735 or more packets; bucket 0 (wait 0) 4294967295 or more,\n";
    assert!(table.contains(sum), "{table}");
}

/// An image that ends within the buckets: those that are there are shown.
#[test]
fn waits_that_are_cut() {
    let folder = Folder::new("dump-waits-cut");
    let whole = changed(&[
        bucket(0, 32, 9),
        bucket(1, 0, 3),
        bucket(1, 1, 5),
        bucket(3, 0, 8),
    ]);
    let cut = &whole[..at::BUCKETS + 4 * 34 + 3];
    let file = folder.file("cut", cut);
    let (table, json) = (on("dump", &file).out, json(&file).out);
    for line in [
        "\n  waits: 9 packets; bucket 32 (waits 2147483648 to 4294967295) 9\n",
        "\n  waits: 3 packets, and what could not be read in 32 buckets; bucket 0 (wait 0) 3\n",
    ] {
        assert!(table.contains(line), "{table}");
    }
    assert_eq!(table.matches("waits: ").count(), 2);
    let dump = Json::read(&json);
    assert_eq!(buckets_of_table(&table), buckets_of_json(&dump));
    let nulls = |port: usize| {
        let counts = dump.of("buckets").elements()[port].elements();
        counts.iter().filter(|&count| *count == Json::Null).count()
    };
    assert_eq!([0, 1, 2, 3].map(nulls), [0, 32, 33, 33]);
    // Without its ports nothing has a place.
    let file = folder.file("ports", &changed(&[(0, 2, 77), bucket(0, 0, 1)]));
    let said = vr(&["dump".as_ref(), "--json".as_ref(), file.as_os_str()]).out;
    assert!(
        said.contains("\n  \"marks\": [],\n  \"buckets\": [],\n"),
        "{said}"
    );
}
