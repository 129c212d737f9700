//! `vr repair`: a copy mended, and nothing lost.

mod common;
#[path = "common/images.rs"]
mod images;
#[path = "common/new_files.rs"]
mod new_files;

use std::ffi::OsString;
use std::fs;
use std::path::Path;

use common::{on, vr, Folder, Said};
use images::{
    at, bucket, busy_of, changed, in_every_shape, largest, small, switch, wide, Change, SMALL,
};
use new_files::Maker;
use ventorupo::Settings;

fn words(image: &Path, new: &Path) -> Vec<OsString> {
    vec!["repair".into(), image.into(), "-o".into(), new.into()]
}

fn repair(image: &Path, new: &Path) -> Said {
    vr(&words(image, new))
}

/// What a repair of the small image must write, with this map.
fn fresh(map: [u32; 4]) -> Vec<u8> {
    let mut switch = switch(SMALL);
    for (id, port) in (0..).zip(map) {
        switch.map(id, port).unwrap();
    }
    switch.into_memory()
}

#[test]
fn what_is_kept_and_dropped() {
    let folder = Folder::new("repair-told");
    let mut bytes = changed(&[
        (at::LAST, 1, 200),
        (at::MAPPED + 2, 1, 9),
        (at::HALTED + 1, 1, 8),
        bucket(1, 7, 11),
    ]);
    bytes.extend([7; 10]);
    let (image, new) = (folder.file("image", &bytes), folder.path("new"));
    let said = repair(&image, &new);
    let wanted = format!(
        "was: (b) port 0: last served queue 200 is none of 24\n\
         kept: ports 4, queues 24, nodes 2, beat 64, slots 1, credit 16, edition 0, packets 0\n\
         kept: map, 4094 ids to port 0, 1 id to port 1, 1 id to port 3\n\
         dropped: map entry 2, whose port 9 is none of 4\n\
         kept: 10 bytes past the state\n\
         dropped: 4 packets (ingress 2, egress 1, prefetch 1)\n\
         dropped: outward credit 65635 (of 2 queues)\n\
         dropped: the mark of port 1, halted by 8 (header's source isn't the arriving port)\n\
         dropped: the waits of 11 packets (port 1)\n\
         as after setup: free lists, arrival credits, last served queues, marks, buckets\n\
         written: {}; {} is as it was\n",
        new.display(),
        image.display()
    );
    assert_eq!(said.out, wanted);
    assert_eq!((said.status, said.err.as_str()), (Some(0), ""));
    assert_eq!(fs::read(&image).unwrap(), bytes);
    let written = [fresh([0, 1, 0, 3]), vec![7; 10]].concat();
    assert_eq!(fs::read(&new).unwrap(), written);
    assert_eq!(on("explain", &new).out, "a sound state\n");
}

/// One byte, one queue.
#[test]
fn one_of_something_is_said_so() {
    let folder = Folder::new("repair-one");
    let mut bytes = changed(&[(at::OUTWARD + 2 * 91, 2, 0)]);
    bytes.push(7);
    let (image, new) = (folder.file("image", &bytes), folder.path("new"));
    let said = repair(&image, &new);
    assert!(said.out.contains("\nkept: 1 byte past the state\n"));
    assert!(said
        .out
        .contains("\ndropped: outward credit 100 (of 1 queue)\n"));
}

/// Several marks are told of in one line, those that are none too.
#[test]
fn marks_are_lifted() {
    let folder = Folder::new("repair-marks");
    for (marks, wanted) in [
        (
            [0, 18, 8, 9],
            "\ndropped: 3 marks, the first of port 1, halted by 18 (last mark too early, ",
        ),
        (
            [0, 0, 3, 0],
            "\ndropped: the mark of port 2, mark 3 is none of 0, 7, 8 and 18\n",
        ),
    ] {
        let change = |port: usize| (at::HALTED + port, 1, marks[port]);
        let image = folder.file("image", &changed(&[0, 1, 2, 3].map(change)));
        let new = folder.path("new");
        let said = repair(&image, &new);
        assert!(said.out.contains(wanted), "{}", said.out);
        assert_eq!(fs::read(&new).unwrap(), fresh([0, 1, 2, 3]));
        fs::remove_file(&new).unwrap();
    }
    let (image, new) = (folder.file("image", &small()), folder.path("new"));
    assert!(!repair(&image, &new).out.contains("dropped: the mark"));
}

/// The waits are told of by their packets and ports; where there are none,
/// nothing is.
#[test]
fn waits_are_forgotten() {
    let folder = Folder::new("repair-waits");
    let cases: [(&[Change], &str); 4] = [
        (
            &[bucket(2, 0, 1)],
            "\ndropped: the waits of 1 packet (port 2)\n",
        ),
        (
            &[bucket(0, 32, 4), bucket(2, 1, 5), bucket(2, 2, 6)],
            "\ndropped: the waits of 15 packets (ports 0, 2)\n",
        ),
        (
            &[bucket(1, 5, u32::MAX), bucket(2, 5, 2), bucket(3, 9, 1)],
            "\ndropped: the waits of 4294967298 or more packets (ports 1 to 3)\n",
        ),
        (&[], ""),
    ];
    for (changes, wanted) in cases {
        let (image, new) = (folder.file("image", &changed(changes)), folder.path("new"));
        let said = repair(&image, &new);
        assert!(said.out.contains(wanted), "{}", said.out);
        assert_eq!(said.out.contains("the waits"), !changes.is_empty());
        assert_eq!(fs::read(&new).unwrap(), fresh([0, 1, 2, 3]));
        fs::remove_file(&new).unwrap();
    }
}

#[test]
fn a_sound_state_is_emptied_too() {
    let folder = Folder::new("repair-sound");
    let (image, new) = (folder.file("image", &small()), folder.path("new"));
    let said = repair(&image, &new);
    assert!(said
        .out
        .starts_with("was: a sound state; a repair empties that too\nkept: ports 4, "));
    assert_eq!(said.status, Some(0));
    assert_eq!(fs::read(&new).unwrap(), fresh([0, 1, 2, 3]));
}

/// The last nodes of two free lists, changed over.
const OTHERS_NODES: [Change; 4] = [
    (at::NEXT + 2 * 2, 2, 6145),
    (at::TAIL + 2 * 50, 2, 6145),
    (at::NEXT + 2 * 6, 2, 2049),
    (at::TAIL + 2 * 150, 2, 2049),
];

/// One broken image for each rule from (b) on; that of (c) has a list that loops.
#[test]
fn every_rule_is_mended() {
    let folder = Folder::new("repair-rules");
    let loops = ", and what could not be read in 1 list";
    let broken: [(char, &[Change], &str); 7] = [
        ('b', &[(at::LAST + 3, 1, 24)], ""),
        ('c', &[(at::NEXT + 4, 2, 2048)], loops),
        ('d', &OTHERS_NODES, ""),
        ('e', &[(at::QUEUE, 1, 9)], ""),
        ('f', &[(at::POISONED + 4, 1, 2)], ""),
        ('g', &[(at::ARRIVAL, 2, 3)], ""),
        ('i', &[(at::HALTED, 1, 3)], ""),
    ];
    for (rule, changes, stuck) in broken {
        let image = folder.file("image", &changed(changes));
        let new = folder.path(format!("new{rule}"));
        let said = repair(&image, &new);
        assert!(said.out.starts_with(&format!("was: ({rule}) ")));
        let packets = format!("\ndropped: 4 packets (ingress 2, egress 1, prefetch 1){stuck}\n");
        assert!(said.out.contains(&packets), "{}", said.out);
        assert_eq!((said.status, said.err.as_str()), (Some(0), ""));
        assert_eq!(fs::read(&new).unwrap(), fresh([0, 1, 2, 3]));
        assert_eq!(on("explain", &new).status, Some(0));
        assert_eq!(on("dump", &new).status, Some(0));
    }
}

#[test]
fn rule_a_is_refused() {
    let folder = Folder::new("repair-refused");
    let new = folder.path("new");
    for bytes in [
        changed(&[(0, 2, 5)]),
        small()[..at::SIZE - 1].to_vec(),
        vec![],
        vec![0; 300_000],
    ] {
        let image = folder.file("image", &bytes);
        let said = repair(&image, &new);
        let top = on("explain", &image).out;
        let found = top.lines().next().unwrap();
        let wanted = format!(
            "{found}\nrepair refused (3): it needs settings in their rows and an image long enough for them; nothing was written\n"
        );
        assert_eq!(said.out, wanted);
        assert_eq!((said.status, said.err.as_str()), (Some(1), ""));
        assert!(!new.exists());
        assert_eq!(fs::read(&image).unwrap(), bytes);
    }
}

fn maker(bytes: &[u8]) -> Maker<'_> {
    let name = "repair";
    Maker { name, bytes, words }
}

#[test]
fn nothing_is_overwritten() {
    maker(&small()).overwrites_nothing();
}

#[test]
fn the_copy_has_the_images_permissions() {
    maker(&small()).passes_on_permissions(0o777);
}

#[test]
fn a_copy_that_does_not_fit() {
    assert_eq!(maker(&small()).takes_away_what_does_not_fit(4), "");
}

#[test]
fn a_copy_of_which_nothing_can_be_said() {
    if let Some(copy) = maker(&small()).tells_of_what_it_cannot_say() {
        assert_eq!(copy, fresh([0, 1, 2, 3]));
    }
}

/// Many entries are told of in one line.
#[test]
fn map_entries_that_cannot_be_kept() {
    let folder = Folder::new("repair-map");
    let mut bytes = small();
    bytes[at::MAPPED + 1000..at::LAST].fill(32);
    let (image, new) = (folder.file("image", &bytes), folder.path("new"));
    let said = repair(&image, &new);
    let wanted =
        "\nkept: map, 4093 ids to port 0, 1 id to port 1, 1 id to port 2, 1 id to port 3\n\
                  dropped: 3096 map entries, the first 1000, whose port 32 is none of 4\n";
    assert!(said.out.contains(wanted), "{}", said.out);
    assert_eq!(fs::read(&new).unwrap(), fresh([0, 1, 2, 3]));
}

#[test]
fn a_wide_image() {
    let folder = Folder::new("repair-wide");
    let mut bytes = wide();
    bytes[4116] = 3;
    let (image, new) = (folder.file("image", &bytes), folder.path("new"));
    let said = repair(&image, &new);
    let wanted = "was: (b) port 4: last served queue 3 is none of 3\n\
                  kept: ports 5, queues 3, nodes 1, beat 64, slots 1, credit 16, edition 1, packets 0\n\
                  kept: map, 4093 ids to port 0, 1 id to port 1, 1 id to port 3, 1 id to port 4\n\
                  dropped: 2 packets (ingress 1, egress 0, prefetch 1)\n\
                  dropped: outward credit 9 (of 1 queue)\n\
                  dropped: the mark of port 4, halted by 8 (header's source isn't the arriving port)\n";
    assert!(said.out.starts_with(wanted), "{}", said.out);
    let mut switch = switch(Settings::wide(5, 3).nodes(1).beat(64).slots(1).credit(16));
    for (id, port) in [(2, 3), (7, 4), (4095, 1)] {
        switch.map(id, port).unwrap();
    }
    assert_eq!(fs::read(&new).unwrap(), switch.into_memory());
}

/// States of every size with bytes behind them: all of them are in the copy.
#[test]
fn bytes_past_the_state_go_along() {
    let folder = Folder::new("repair-past");
    for (i, settings) in in_every_shape(16).into_iter().enumerate() {
        let nodes = if i % 2 == 0 { 16 } else { 256 };
        let settings = settings.nodes(nodes);
        let state = busy_of(settings, 10, 9).into_memory();
        past_the_state(&folder, &format!("new{i}"), &state);
    }
    let state = switch(largest(2048)).into_memory();
    past_the_state(&folder, "largest", &state);
}

fn past_the_state(folder: &Folder, name: &str, state: &[u8]) {
    let past: Vec<u8> = (0..300_000u32).map(|i| (i % 251) as u8).collect();
    let image = folder.file("image", &[state, &past[..]].concat());
    let new = folder.path(name);
    assert_eq!(repair(&image, &new).status, Some(0));
    let written = fs::read(&new).unwrap();
    assert_eq!(written.len(), state.len() + past.len());
    assert_eq!(written[state.len()..], past);
    assert_eq!(written[..at::LAST], state[..at::LAST]);
    assert_eq!(on("explain", &new).out, "a sound state\n");
}
