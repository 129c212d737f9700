//! `vr explain`: an image for each rule and each kind of item, in exact words.

mod common;
#[path = "common/images.rs"]
mod images;

use std::fs;
use std::path::{Path, PathBuf};

use common::{on, vr, Folder, Said};
use images::{at, changed, small, switch, wide, Change};
use ventorupo::Settings;
use vr::args::Topic;

/// The rule's line of what is said.
fn asks(letter: char) -> &'static str {
    match letter {
        'a' => "the settings are in their rows and the memory is long enough",
        'b' => "last served queues, map entries and credits are in range and no prefetch list exceeds its slots",
        'c' => "every node of every port stands once in one list",
        'd' => "free and ingress lists hold only their own port's nodes",
        'e' => "a node in an egress or prefetch list has that list's queue",
        'f' => "every field recorded for a node that isn't free is in range, its price that of queue, length and beat",
        'g' => "for each port and queue above 0, arrival credit and prices outstanding are together the setting credit",
        _ => "every port's mark is 0, 7, 8 or 18",
    }
}

/// Explain an image; it must say just this, with this item.
fn says(folder: &Folder, bytes: &[u8], item: u64, words: &str) {
    let file = folder.file("image", bytes);
    let said = on("explain", &file);
    let letter = words.chars().nth(1).unwrap();
    let rule = format!("rule ({letter}): {}; item {item}", asks(letter));
    assert_eq!(said.out, format!("{words}\n{rule}\n"));
    assert_eq!((said.status, said.err.as_str()), (Some(1), ""));
}

/// A number of a table, two bytes wide.
fn two(table: usize, element: usize, number: u32) -> Change {
    (table + 2 * element, 2, number)
}

fn one(table: usize, element: usize, number: u32) -> Change {
    (table + element, 1, number)
}

fn count(list: usize, number: u32) -> Change {
    (at::COUNT + 4 * list, 4, number)
}

#[test]
fn a_sound_state() {
    let folder = Folder::new("explain-sound");
    let said = on("explain", &folder.file("image", &small()));
    assert_eq!(
        (said.status, said.out.as_str()),
        (Some(0), "a sound state\n")
    );
    assert_eq!(said.err, "");
    let longer = [small(), vec![7; 200_000]].concat();
    let said = on("explain", &folder.file("longer", &longer));
    assert_eq!(
        (said.status, said.out.as_str()),
        (Some(0), "a sound state\n")
    );
}

#[test]
fn rule_a_settings() {
    let folder = Folder::new("explain-a");
    for (setting, number, words) in [
        (
            0,
            5,
            "(a) setting ports: 5 is not in its row (4 in edition 0)",
        ),
        (
            1,
            0,
            "(a) setting queues: 0 is not in its row (24 in edition 0)",
        ),
        (2, 0, "(a) setting nodes: 0 is not in its row (1 to 2048)"),
        (
            2,
            2049,
            "(a) setting nodes: 2049 is not in its row (1 to 2048)",
        ),
        (
            3,
            65,
            "(a) setting beat: 65 is not in its row (64, 128, 256 or 512)",
        ),
        (4, 0, "(a) setting slots: 0 is not in its row (1 to 8)"),
        (4, 9, "(a) setting slots: 9 is not in its row (1 to 8)"),
        (6, 2, "(a) setting edition: 2 is not in its row (0 or 1)"),
        (
            7,
            2,
            "(a) setting packets: 2 is not in its row (0 or 1 in edition 0)",
        ),
    ] {
        let bytes = changed(&[two(0, setting, number)]);
        says(&folder, &bytes, setting as u64, words);
    }
    // With wide headers no packets are kept.
    let bytes = changed(&[two(0, 6, 1), two(0, 7, 1)]);
    let words = "(a) setting packets: 1 is not in its row (0)";
    says(&folder, &bytes, 7, words);
    // An edition that is none has the wide rows.
    for (setting, number, words) in [
        (0, 33, "(a) setting ports: 33 is not in its row (2 to 32)"),
        (1, 1, "(a) setting queues: 1 is not in its row (2 to 64)"),
    ] {
        for edition in [1, 2] {
            let bytes = changed(&[two(0, 6, edition), two(0, setting, number)]);
            says(&folder, &bytes, setting as u64, words);
        }
    }
    // The first of several.
    let bytes = changed(&[two(0, 3, 7), two(0, 4, 7777)]);
    says(
        &folder,
        &bytes,
        3,
        "(a) setting beat: 7 is not in its row (64, 128, 256 or 512)",
    );
}

#[test]
fn rule_a_too_short() {
    let folder = Folder::new("explain-short");
    let short = |bytes: &[u8], needs: &str| {
        let has = match bytes.len() {
            1 => "1 byte".to_string(),
            there => format!("{there} bytes"),
        };
        let words = format!("(a) the image is too short: it has {has}, {needs}");
        says(&folder, bytes, 8, &words);
    };
    for there in [0, 1, 15] {
        short(&small()[..there], "the settings alone take 16");
    }
    let state = |ports: u32, queues: u32, nodes: &str, bytes: usize| {
        format!("a state of {ports} ports, {queues} queues and {nodes} a port takes {bytes}")
    };
    for there in [16, 100, at::SIZE - 1] {
        short(&small()[..there], &state(4, 24, "2 nodes", 6720));
    }
    let one = changed(&[two(0, 2, 1)]);
    short(&one[..6667], &state(4, 24, "1 node", 6668));
    let most = changed(&[two(0, 2, 2048)]);
    short(&most, &state(4, 24, "2048 nodes", 113_112));
    let wide = changed(&[two(0, 0, 32), two(0, 1, 64), two(0, 2, 2048), two(0, 6, 1)]);
    short(&wide, &state(32, 64, "2048 nodes", 901_712));
}

#[test]
fn rule_b() {
    let folder = Folder::new("explain-b");
    let list = 50 + 26 + 5;
    for (change, item, words) in [
        (
            one(at::LAST, 0, 200),
            0,
            "(b) port 0: last served queue 200 is none of 24",
        ),
        (
            one(at::LAST, 3, 24),
            3,
            "(b) port 3: last served queue 24 is none of 24",
        ),
        (
            one(at::MAPPED, 0, 4),
            4,
            "(b) destination id 0: mapped port 4 is none of 4",
        ),
        (
            one(at::MAPPED, 3, 255),
            7,
            "(b) destination id 3: mapped port 255 is none of 4",
        ),
        (
            one(at::MAPPED, 4095, 4),
            4 + 4095,
            "(b) destination id 4095: mapped port 4 is none of 4",
        ),
        (
            count(list, 2),
            4100 + 24 + 5,
            "(b) port 1, queue 5: the prefetch list has 2 nodes, its slots are 1",
        ),
        (
            count(199, 4_294_967_295),
            4100 + 95,
            "(b) port 3, queue 23: the prefetch list has 4294967295 nodes, its slots are 1",
        ),
    ] {
        says(&folder, &changed(&[change]), item, words);
    }
}

#[test]
fn rule_c_lists() {
    let folder = Folder::new("explain-c");
    let (free, ingress, prefetch) = (50, 101, 50 + 26 + 5);
    for (change, list, words) in [
        (
            two(at::HEAD, free, 4711),
            free,
            "(c) free list of port 1: entry id 4711 at position 0 is no node: node 615 of port 2 is none of 2",
        ),
        (
            two(at::NEXT, 4, 9000),
            ingress,
            "(c) ingress list of port 2: entry id 9000 at position 1 is no node: port 4 is none of 4",
        ),
        (
            two(at::NEXT, 2, 2048),
            free,
            "(c) free list of port 1: node 0 of port 1 (entry id 2048) at position 1 was met before, at position 0 of the same list",
        ),
        (
            two(at::HEAD, ingress, 2049),
            ingress,
            "(c) ingress list of port 2: node 1 of port 1 (entry id 2049) at position 0 was met before, \
             at position 1 of the free list of port 1",
        ),
        (
            two(at::TAIL, prefetch, 1),
            prefetch,
            "(c) prefetch list of port 1, queue 5: its last node is entry id 0, but its tail says 1",
        ),
    ] {
        says(&folder, &changed(&[change]), list as u64, words);
    }
    // A count too large runs on along what stands behind the last node.
    let bytes = changed(&[count(57, 4_294_967_295), two(at::NEXT, 1, 1)]);
    let words = "(c) egress list of port 1, queue 5: node 1 of port 0 (entry id 1) at position 1 was met before, at position 0 of the same list";
    says(&folder, &bytes, 57, words);
}

#[test]
fn rule_c_nodes() {
    let folder = Folder::new("explain-nowhere");
    let bytes = changed(&[count(150, 1), two(at::TAIL, 150, 6144)]);
    says(
        &folder,
        &bytes,
        200 + 7,
        "(c) node 1 of port 3 (entry id 6145) stands in no list",
    );
    // The first of several.
    let bytes = changed(&[count(150, 0), count(57, 0)]);
    says(
        &folder,
        &bytes,
        200 + 1,
        "(c) node 1 of port 0 (entry id 1) stands in no list",
    );
}

#[test]
fn rule_d() {
    let folder = Folder::new("explain-d");
    let words = "(d) node 1 of port 3 (entry id 6145) stands at position 1 of the free list of port 1, which is for port 1's nodes";
    // The last nodes of two free lists, changed over.
    let bytes = changed(&[
        two(at::NEXT, 2, 6145),
        two(at::TAIL, 50, 6145),
        two(at::NEXT, 6, 2049),
        two(at::TAIL, 150, 2049),
    ]);
    says(&folder, &bytes, 6145, words);
    let words = "(d) node 1 of port 3 (entry id 6145) stands at position 1 of the ingress list of port 2, which is for port 2's nodes";
    let bytes = changed(&[
        two(at::NEXT, 4, 6145),
        two(at::TAIL, 101, 6145),
        two(at::NEXT, 6, 4097),
        two(at::TAIL, 150, 4097),
    ]);
    says(&folder, &bytes, 6145, words);
}

#[test]
fn rule_e() {
    let folder = Folder::new("explain-e");
    let words = "(e) node 0 of port 0 (entry id 0) stands at position 0 of the prefetch list of port 1, queue 5, but its recorded queue is 6";
    says(&folder, &changed(&[one(at::QUEUE, 0, 6)]), 0, words);
    let words = "(e) node 1 of port 0 (entry id 1) stands at position 0 of the egress list of port 1, queue 5, but its recorded queue is 255";
    says(&folder, &changed(&[one(at::QUEUE, 1, 255)]), 1, words);
}

#[test]
fn rule_f() {
    let folder = Folder::new("explain-f");
    let first =
        "(f) node 0 of port 2 (entry id 4096) at position 0 of the ingress list of port 2: ";
    for (change, why) in [
        (two(at::LENGTH, 4, 11), "length 11 is under 12"),
        (two(at::LENGTH, 4, 8192), "length 8192 is above 8191"),
        (one(at::QUEUE, 4, 24), "queue 24 is none of 24"),
        (one(at::DEST, 4, 4), "destination id 4 is above 3"),
        (one(at::POISONED, 4, 2), "poisoned flag 2 is above 1"),
        (one(at::PRICE, 4, 1), "price 1 is wrong, queue 0 is free"),
        (
            one(at::QUEUE, 4, 1),
            "price 0 is wrong, length 8191 at beat 64 costs 128",
        ),
    ] {
        says(&folder, &changed(&[change]), 4096, &format!("{first}{why}"));
    }
    let words = "(f) node 1 of port 2 (entry id 4097) at position 1 of the ingress list of port 2: price 2 is wrong, length 64 at beat 64 costs 1";
    says(&folder, &changed(&[one(at::PRICE, 5, 2)]), 4097, words);
    let words = "(f) node 0 of port 0 (entry id 0) at position 0 of the prefetch list of port 1, queue 5: length 0 is under 12";
    says(&folder, &changed(&[two(at::LENGTH, 0, 0)]), 0, words);
}

#[test]
fn rule_g() {
    let folder = Folder::new("explain-g");
    for (cell, credit, words) in [
        (4, 14, "(g) port 0, queue 5: arrival credit 14 and prices outstanding 3 are 17 together, not 16"),
        (4, 0, "(g) port 0, queue 5: arrival credit 0 and prices outstanding 3 are 3 together, not 16"),
        (0, 65_535, "(g) port 0, queue 1: arrival credit 65535 and prices outstanding 0 are 65535 together, not 16"),
        (91, 15, "(g) port 3, queue 23: arrival credit 15 and prices outstanding 0 are 15 together, not 16"),
    ] {
        says(&folder, &changed(&[two(at::ARRIVAL, cell, credit)]), cell as u64, words);
    }
}

#[test]
fn rule_i() {
    let folder = Folder::new("explain-i");
    for (port, mark) in [(0, 1), (1, 6), (2, 9), (3, 17), (3, 19), (0, 255)] {
        let words = format!("(i) port {port}: mark {mark} is none of 0, 7, 8 and 18");
        let bytes = changed(&[one(at::HALTED, port, mark)]);
        says(&folder, &bytes, port as u64, &words);
    }
    // The first of several; and every mark there is, is sound.
    let bytes = changed(&[
        one(at::HALTED, 0, 7),
        one(at::HALTED, 1, 77),
        one(at::HALTED, 2, 78),
    ]);
    says(
        &folder,
        &bytes,
        1,
        "(i) port 1: mark 77 is none of 0, 7, 8 and 18",
    );
    let marks = [(1, 7), (2, 8), (3, 18)].map(|(port, mark)| one(at::HALTED, port, mark));
    let said = on("explain", &folder.file("image", &changed(&marks)));
    assert_eq!(
        (said.status, said.out.as_str()),
        (Some(0), "a sound state\n")
    );
}

/// A wide switch of five ports, three queues and one node a port: its counts and
/// its header's size and widths stand in what is said.
#[test]
fn a_wide_image() {
    let folder = Folder::new("explain-wide");
    let file = folder.file("image", &wide());
    assert_eq!(on("explain", &file).out, "a sound state\n");
    // Starts: last 4112, halted 4117, arrival 4122, buckets 4162, head 4822, count 4982, length 5152, queue 5182, dest 5187, price 5202.
    let ingress = "(f) node 0 of port 0 (entry id 0) at position 0 of the ingress list of port 0: ";
    let prefetch = "(f) node 0 of port 4 (entry id 8192) at position 0 of the prefetch list of port 3, queue 2: ";
    for (at, number, item, words) in [
        (4116, 3, 4, "(b) port 4: last served queue 3 is none of 3".to_string()),
        (16 + 4095, 5, 5 + 4095, "(b) destination id 4095: mapped port 5 is none of 5".into()),
        (4982 + 4 * 39 + 3, 2, 5 + 4096 + 14, "(b) port 4, queue 2: the prefetch list has 2 nodes, its slots are 1".into()),
        (4822 + 2, 40, 1, "(c) ingress list of port 0: entry id 10240 at position 0 is no node: port 5 is none of 5".into()),
        (5152 + 1, 12, 0, format!("{ingress}length 12 is under 13")),
        (5182, 3, 0, format!("{ingress}queue 3 is none of 3")),
        (5187, 8, 0, format!("{ingress}destination id 8 is above 7")),
        (5187 + 4, 200, 8192, format!("{prefetch}destination id 200 is above 7")),
        (5202 + 4, 1, 8192, format!("{prefetch}price 1 is wrong, length 65 at beat 64 costs 2")),
        (4122 + 2 * 9 + 1, 15, 9, "(g) port 4, queue 2: arrival credit 15 and prices outstanding 2 are 17 together, not 16".into()),
        (4117, 19, 0, "(i) port 0: mark 19 is none of 0, 7, 8 and 18".into()),
        (4117 + 4, 9, 4, "(i) port 4: mark 9 is none of 0, 7, 8 and 18".into()),
    ] {
        let mut bytes = wide();
        bytes[at] = number;
        says(&folder, &bytes, item, &words);
    }
}

/// The rule that comes first in the paper is told, whatever comes first in the bytes.
#[test]
fn rules_in_their_order() {
    let folder = Folder::new("explain-order");
    let mut changes = vec![one(at::HALTED, 0, 5)];
    for (change, item, words) in [
        (two(at::ARRIVAL, 0, 0), 0, "(g) port 0, queue 1: arrival credit 0 and prices outstanding 0 are 0 together, not 16"),
        (one(at::POISONED, 5, 9), 4097, "(f) node 1 of port 2 (entry id 4097) at position 1 of the ingress list of port 2: poisoned flag 9 is above 1"),
        (one(at::LAST, 2, 99), 2, "(b) port 2: last served queue 99 is none of 24"),
        (two(0, 4, 0), 4, "(a) setting slots: 0 is not in its row (1 to 8)"),
    ] {
        changes.push(change);
        says(&folder, &changed(&changes), item, words);
    }
}

/// An image of two nodes a port by the build before the wide headers: six
/// settings, then a map of four.
fn older(map: [u8; 4]) -> Vec<u8> {
    let settings = [0, 4, 0, 24, 0, 2, 0, 64, 0, 1, 0, 16];
    let rest = vec![0; 2092 - 16];
    [&settings[..], &map, &rest].concat()
}

const HINT: &str = "hint: it is as long as an image of 2 nodes a port by the build before the wide headers, which is to be set up afresh, not repaired (docs/DECISIONS.md, 79)\n";

/// Where its length tells it, an image of an older build is told from a broken
/// one.
#[test]
fn an_image_of_an_older_build() {
    let folder = Folder::new("explain-older");
    for (map, words) in [
        ([0; 4], "(a) the image is too short: it has 2092 bytes, a state of 4 ports, 24 queues and 2 nodes a port takes 6720"),
        // Read as a setting it keeps packets.
        ([0, 0, 0, 1], "(a) the image is too short: it has 2092 bytes, a state of 4 ports, 24 queues and 2 nodes a port takes 6720"),
        ([0, 1, 2, 3], "(a) setting packets: 515 is not in its row (0)"),
        ([3, 2, 1, 0], "(a) setting edition: 770 is not in its row (0 or 1)"),
    ] {
        let file = folder.file("image", &older(map));
        let said = on("explain", &file).out;
        assert!(said.starts_with(words), "{said}");
        assert!(said.ends_with(&format!("\n{HINT}")), "{said}");
        assert_eq!(said.lines().count(), 3);
        let table = on("dump", &file).out;
        let bytes = "\nbytes: 2092 there, 6720 needed\n";
        assert!(table.contains(&format!("{bytes}{HINT}\nport ")), "{table}");
        let json = vr(&["dump".as_ref(), "--json".as_ref(), file.as_os_str()]).out;
        let hint = HINT.trim_end().trim_start_matches("hint: ");
        assert!(json.contains(&format!("\n  \"hint\": \"{hint}\",\n")), "{json}");
        let new = folder.path("new");
        let said = vr(&["repair".as_ref(), file.as_os_str(), "-o".as_ref(), new.as_os_str()]);
        assert!(said.out.ends_with(&format!("nothing was written\n{HINT}")), "{}", said.out);
        assert!(!new.exists());
    }
}

/// The hint for an image of this shape by the build before the marks.
fn hint_of_marks(shape: &str) -> String {
    format!(
        "\nhint: it is as long as an image of {shape} by the build before the marks of halted ports, \
         which is to be set up afresh, or repaired once it is 133 bytes a port longer \
         (docs/DECISIONS.md, 89)\n"
    )
}

/// The hint for an image of this shape by the build before the buckets.
fn hint_of_buckets(shape: &str) -> String {
    format!(
        "\nhint: it is as long as an image of {shape} by the build before the buckets of waits, \
         which is to be set up afresh, or repaired once it is 132 bytes a port longer \
         (docs/DECISIONS.md, 95)\n"
    )
}

/// A repair of an image, and the file that it is to write.
fn repair(folder: &Folder, file: &Path) -> (Said, PathBuf) {
    let new = folder.path("new");
    let words = [
        "repair".as_ref(),
        file.as_os_str(),
        "-o".as_ref(),
        new.as_os_str(),
    ];
    (vr(&words), new)
}

/// Made so much longer, an image of the small one's settings and map is repaired:
/// these stood where they stand.
fn is_repaired_longer(folder: &Folder, mut bytes: Vec<u8>, a_port: usize) {
    bytes.resize(bytes.len() + 4 * a_port, 0);
    assert_eq!(bytes.len(), at::SIZE);
    let (said, new) = repair(folder, &folder.file("longer", &bytes));
    assert_eq!(said.status, Some(0), "{}", said.out);
    let written = fs::read(&new).unwrap();
    assert_eq!(written[..at::LAST], small()[..at::LAST]);
    assert_eq!(on("explain", &new).out, "a sound state\n");
    fs::remove_file(&new).unwrap();
}

/// The bytes of an image without some of them.
fn without(mut bytes: Vec<u8>, at: usize, many: usize) -> Vec<u8> {
    bytes.drain(at..at + many);
    bytes
}

/// As it is, it is refused, with its hint, and nothing is written.
fn is_not_repaired(folder: &Folder, file: &Path, hint: &str) {
    let (said, new) = repair(folder, file);
    let told = format!("nothing was written{hint}");
    assert!(said.out.ends_with(&told), "{}", said.out);
    assert_eq!(said.status, Some(1));
    assert!(!new.exists());
}

/// So is one that has all but the buckets, whatever its shape.
#[test]
fn an_image_of_the_build_before_the_buckets() {
    let folder = Folder::new("explain-buckets");
    let bytes = without(small(), at::BUCKETS, 528);
    let file = folder.file("image", &bytes);
    let said = on("explain", &file).out;
    let top = "(a) the image is too short: it has 6192 bytes, a state of 4 ports, 24 queues and 2 nodes a port takes 6720\n";
    let hint = hint_of_buckets("4 ports, 24 queues and 2 nodes a port");
    assert!(said.starts_with(top) && said.ends_with(&hint), "{said}");
    assert_eq!(said.lines().count(), 3);
    is_not_repaired(&folder, &file, &hint);
    is_repaired_longer(&folder, bytes, 132);
    let file = folder.file("wide", &without(wide(), 4162, 660));
    let hint = hint_of_buckets("5 ports, 3 queues and 1 node a port");
    let said = on("explain", &file).out;
    assert!(said.ends_with(&hint), "{said}");
    // A byte more or less is just too short.
    for there in [6191, 6193] {
        let said = on("explain", &folder.file("image", &small()[..there])).out;
        assert!(said.starts_with("(a) ") && !said.contains("hint"), "{said}");
    }
}

/// So is one that has all but the marks and the buckets, whatever its shape.
#[test]
fn an_image_of_the_build_before_the_marks() {
    let folder = Folder::new("explain-marks");
    let older = |bytes: Vec<u8>, buckets: usize, marks: usize, ports: usize| {
        let bytes = without(bytes, buckets, 132 * ports);
        without(bytes, marks, ports)
    };
    let bytes = older(small(), at::BUCKETS, at::HALTED, 4);
    let file = folder.file("image", &bytes);
    let said = on("explain", &file).out;
    let top = "(a) the image is too short: it has 6188 bytes, a state of 4 ports, 24 queues and 2 nodes a port takes 6720\n";
    let hint = hint_of_marks("4 ports, 24 queues and 2 nodes a port");
    assert!(said.starts_with(top) && said.ends_with(&hint), "{said}");
    assert_eq!(said.lines().count(), 3);
    is_not_repaired(&folder, &file, &hint);
    is_repaired_longer(&folder, bytes, 133);
    let said = on(
        "explain",
        &folder.file("wide", &older(wide(), 4162, 4117, 5)),
    )
    .out;
    let hint = hint_of_marks("5 ports, 3 queues and 1 node a port");
    assert!(said.ends_with(&hint), "{said}");
    // A byte more or less is just too short.
    for there in [6187, 6189, at::SIZE - 1] {
        let said = on("explain", &folder.file("image", &small()[..there])).out;
        assert!(said.starts_with("(a) ") && !said.contains("hint"), "{said}");
    }
}

/// Of another length, or of a state that happens to have that one, there is
/// nothing to be told.
#[test]
fn no_image_of_an_older_build() {
    let folder = Folder::new("explain-not-older");
    for there in [16, 2091, 2093] {
        let mut bytes = older([0; 4]);
        bytes.resize(there, 0);
        let said = on("explain", &folder.file("image", &bytes)).out;
        assert!(said.starts_with("(a) ") && !said.contains("hint"), "{said}");
    }
    // 2 ports, 2 queues and 100 nodes take 7084 bytes.
    let mut state =
        switch(Settings::wide(2, 2).nodes(100).beat(64).slots(1).credit(16)).into_memory();
    state.resize(1988 + 52 * 100, 0);
    let said = |state: &[u8]| on("explain", &folder.file("image", state)).out;
    assert_eq!(said(&state), "a sound state\n");
    state[4112] = 2;
    assert!(said(&state).starts_with("(b) ") && !said(&state).contains("hint"));
}

/// All of it, or a command's part.
#[test]
fn help_is_no_trouble() {
    for (line, topic) in [
        ("help", Topic::All),
        ("--help", Topic::All),
        ("-h", Topic::All),
        ("explain --help", Topic::Explain),
        ("dump --help", Topic::Dump),
        ("dump image --json -h", Topic::Dump),
        ("repair --help", Topic::Repair),
        ("waits --help", Topic::Waits),
        ("waits image --svg -h", Topic::Waits),
        ("header --help", Topic::Header),
        ("header make --help", Topic::Make),
        ("header show -h", Topic::Show),
    ] {
        let words: Vec<&str> = line.split_whitespace().collect();
        let said = vr(&words);
        assert_eq!((said.status, said.out), (Some(0), topic.text()));
        assert_eq!(said.err, "");
    }
}

#[test]
fn the_version_is_cargos() {
    let said = vr(&["--version"]);
    let wanted = format!("vr {}\n", env!("CARGO_PKG_VERSION"));
    assert_eq!(
        (said.status, said.out, said.err),
        (Some(0), wanted, String::new())
    );
}
