//! Images that keep packets: what `vr dump` shows of their packet memories, and what
//! the other commands say of them.

mod common;
#[path = "common/images.rs"]
mod images;
#[path = "common/packets.rs"]
mod packets;
#[path = "common/reading.rs"]
mod reading;

use std::ffi::{OsStr, OsString};
use std::fs;
use std::path::{Path, PathBuf};

use common::{on, vr, Folder, Said};
use images::{at, small, wide};
use packets::{kept, Kept};
use reading::Json;
use traffic::Random;
use ventorupo::{Header, Settings};

/// `vr dump` of an image with these packet memories, and more words.
fn dump(image: &Path, memories: &[PathBuf], more: &[&str]) -> Said {
    let mut words: Vec<OsString> = vec!["dump".into(), image.into(), "--packets".into()];
    words.extend(memories.iter().map(OsString::from));
    words.extend(more.iter().map(OsString::from));
    vr(&words)
}

/// Bytes in hexadecimal.
fn digits(bytes: &[u8]) -> String {
    bytes.iter().map(|byte| format!("{byte:02X}")).collect()
}

/// What is shown of a packet in the JSON, and in the table.
fn shown(packet: &[u8]) -> (String, String) {
    let first = &packet[..packet.len().min(16)];
    let (header, data) = first.split_at(10);
    (
        digits(first),
        format!("{} {}", digits(header), digits(data)),
    )
}

#[test]
fn a_small_image_exactly() {
    let folder = Folder::new("packets-small");
    let (image, memories) = kept().files(&folder);
    let said = dump(&image, &memories, &[]);
    assert_eq!((said.status, said.err.as_str()), (Some(0), ""));
    let settings = "settings: ports 4, queues 24, nodes 2, beat 64, slots 1, credit 16, edition 0, packets 1\n";
    let port_1 = "\nport 1
  free: 2 nodes; head 2048, tail 2049
    2048, 2049
  egress, queue 5: 1 node; head 0, tail 0
    position  entry id  owner  node  length  queue  destination id  timestamp  poisoned  transaction id  price  first bytes
           0         0      0     0      76      5               1          0         0              32      2  428130000000000020D6 2A2B2C2D2E2F
  prefetch, queue 5: 1 node; head 1, tail 1
    position  entry id  owner  node  length  queue  destination id  timestamp  poisoned  transaction id  price  first bytes
           0         1      0     1      15      5               1          0         0              16      1  42803C000000000010CA 1A1B1C1D1E
  empty lists: 47
";
    let port_2 = "\nport 2
  ingress: 2 nodes; head 4096, tail 4097
    position  entry id  owner  node  length  queue  destination id  timestamp  poisoned  transaction id  price  first bytes
           0      4096      2     0      12      0               0          0         0              48      0  200030000000000030EF 3A3B
           1      4097      2     1    8191      0               0          0         0              64      0  207FFC0000000000408C 4A4B4C4D4E4F
  empty lists: 49
";
    for part in [settings, port_1, port_2] {
        assert!(said.out.contains(part), "{part}{}", said.out);
    }
    let said = dump(&image, &memories, &["--json"]);
    for part in [
        "\"edition\": 0, \"packets\": 1}",
        "\"transaction_id\": 32, \"price\": 2, \"first_bytes\": \"428130000000000020D62A2B2C2D2E2F\"}]}",
        "\"transaction_id\": 48, \"price\": 0, \"first_bytes\": \"200030000000000030EF3A3B\"}, ",
        "\"nodes\": [{\"entry_id\": 2048}, {\"entry_id\": 2049}]}",
    ] {
        assert!(said.out.contains(part), "{part}{}", said.out);
    }
    assert_eq!(said.out.matches("first_bytes").count(), 4);
}

/// Traffic of a switch with so many nodes a port: about half of it has left.
fn busy(nodes: u32) -> Kept {
    let mut kept = Kept::new(
        Settings::ten_bytes()
            .nodes(nodes)
            .beat(128)
            .slots(3)
            .credit(65_535),
    );
    let mut random = Random::new(nodes.into());
    for queue in 1..24 {
        kept.switch.map(queue % 4, queue % 3).unwrap();
        kept.switch.credit(queue % 4, queue, 9).unwrap();
    }
    for turn in 0..4 * nodes {
        let (source, free) = (turn % 4, random.one_in(2));
        kept.arrive(Header {
            destination: random.below(4),
            source,
            queue: if free { 0 } else { random.below(24) },
            length: random.among(12, 40),
            transaction: random.below(256),
            ..Header::default()
        });
        if random.percent(40) {
            kept.switch.round().unwrap();
        }
    }
    kept
}

/// The first bytes of each node that the JSON tells of, by entry id.
fn told(dump: &Json) -> Vec<(u64, String)> {
    let lists = dump.of("lists").elements().iter();
    let taken = lists.filter(|list| list.of("kind").text() != "free");
    let nodes = taken.flat_map(|list| list.of("nodes").elements());
    let bytes = |node: &Json| node.of("first_bytes").text().to_string();
    nodes
        .map(|node| (node.of("entry_id").number(), bytes(node)))
        .collect()
}

/// Every packet that is in the switch has its own first bytes, in JSON and table; and
/// all else in the table is as without the packet memories.
#[test]
fn first_bytes_are_the_packets_own() {
    let folder = Folder::new("packets-busy");
    for nodes in [1, 2, 30] {
        let kept = busy(nodes);
        let (image, memories) = kept.files(&folder);
        let json = Json::read(&dump(&image, &memories, &["--json"]).out);
        let told = told(&json);
        assert!(told.len() as u32 >= nodes);
        for (entry, first) in &told {
            assert_eq!(*first, shown(&kept.packets[entry]).0, "{entry}");
        }
        let (with, without) = (dump(&image, &memories, &[]).out, on("dump", &image).out);
        let mut seen = 0;
        for (line, bare) in with.lines().zip(without.lines()) {
            let behind = line.strip_prefix(bare).unwrap();
            let cells: Vec<&str> = bare.split_whitespace().collect();
            if let (Some(entry), 11, false) = (cells.get(1), cells.len(), behind.is_empty()) {
                let packet = &kept.packets[&entry.parse().unwrap()];
                assert_eq!(behind.trim_start(), shown(packet).1);
                seen += 1;
            } else {
                assert!(["", "  first bytes"].contains(&behind), "{line}");
            }
        }
        assert_eq!(
            (seen, with.lines().count()),
            (told.len(), without.lines().count())
        );
    }
}

/// Nothing is written to any of the files.
#[test]
fn all_files_stay() {
    let folder = Folder::new("packets-stay");
    let kept = kept();
    let (image, memories) = kept.files(&folder);
    dump(&image, &memories, &[]);
    assert_eq!(fs::read(image).unwrap(), kept.switch.memory());
    for (file, memory) in memories.iter().zip(&kept.memories) {
        assert!(fs::read(file).unwrap() == *memory);
    }
}

/// It could not be done: a message, status 2, and nothing else.
fn is_trouble(said: Said, what: &str) {
    assert_eq!(said.err, format!("vr: {what}\n"));
    assert_eq!((said.status, said.out.as_str()), (Some(2), ""));
}

#[test]
fn memories_of_a_wrong_size() {
    let folder = Folder::new("packets-sizes");
    let (image, memories) = kept().files(&folder);
    for port in 0..4 {
        for bytes in [0, 1, 8192, 16_383, 16_385, 24_576] {
            let mut memories = memories.clone();
            let wrong = folder.file("wrong", &vec![0; bytes]);
            memories[port] = wrong.clone();
            let many = match bytes {
                1 => "1 byte".to_string(),
                _ => format!("{bytes} bytes"),
            };
            let what = format!(
                "{}: has {many}, and port {port}'s packet memory 16384",
                wrong.display()
            );
            is_trouble(dump(&image, &memories, &[]), &what);
            is_trouble(dump(&image, &memories, &["--json"]), &what);
        }
    }
    // A hole of eight gibibytes is not read.
    let huge = folder.path("huge");
    fs::File::create(&huge).unwrap().set_len(1 << 33).unwrap();
    let what = format!(
        "{}: has 8589934592 bytes, and port 0's packet memory 16384",
        huge.display()
    );
    is_trouble(dump(&image, &[0; 4].map(|_| huge.clone()), &[]), &what);
}

#[test]
fn memories_that_cannot_be_read() {
    let folder = Folder::new("packets-unread");
    let (image, memories) = kept().files(&folder);
    let inside = folder.path("inside");
    fs::create_dir(&inside).unwrap();
    for (wrong, why) in [
        (
            folder.path("missing"),
            "No such file or directory (os error 2)",
        ),
        (inside, "is a directory, not a packet memory"),
        ("/dev/zero".into(), "is not a regular file"),
    ] {
        for port in 0..4 {
            let mut memories = memories.clone();
            memories[port] = wrong.clone();
            let what = format!("{}: {why}", wrong.display());
            is_trouble(dump(&image, &memories, &[]), &what);
        }
    }
}

/// Beside an image that keeps none, whatever their size.
#[test]
fn memories_of_no_image() {
    let folder = Folder::new("packets-none");
    let (image, memories) = kept().files(&folder);
    let mut settings = fs::read(image).unwrap();
    settings[15] = 2;
    for (bytes, packets) in [
        (&small()[..], "0"),
        (&wide(), "0"),
        (&settings, "2"),
        (&settings[..15], "-"),
        (&[], "-"),
    ] {
        let image = folder.file("image", bytes);
        let what = format!(
            "{}: keeps no packets (its setting packets is {packets}), and so has no packet memories",
            image.display()
        );
        is_trouble(dump(&image, &memories, &[]), &what);
        is_trouble(
            dump(
                &image,
                &[
                    "/none".into(),
                    "/none".into(),
                    "/none".into(),
                    "/none".into(),
                ],
                &[],
            ),
            &what,
        );
    }
    for nodes in [0u16, 2049] {
        settings[15] = 1;
        settings[4..6].copy_from_slice(&nodes.to_be_bytes());
        let image = folder.file("image", &settings);
        let why =
            "has a setting nodes that is not in its row, so its packet memories have no known size";
        is_trouble(
            dump(&image, &memories, &[]),
            &format!("{}: {why}", image.display()),
        );
    }
}

/// Of a broken image they are shown too: a header at least, whatever length is recorded,
/// and no more than the first 16 bytes.
#[test]
fn packets_of_broken_images() {
    let folder = Folder::new("packets-broken");
    let kept = kept();
    let (_, memories) = kept.files(&folder);
    let packet = &kept.packets[&4096];
    // What is left of others stands behind the shortest packet.
    let slot = [&packet[..], &[0xEE; 4]].concat();
    for (length, bytes) in [
        (0, 10),
        (9, 10),
        (11, 11),
        (13, 13),
        (8192, 16),
        (65_535, 16),
    ] {
        let mut broken = kept.switch.memory().to_vec();
        let at = at::LENGTH + 2 * 4;
        broken[at..at + 2].copy_from_slice(&(length as u16).to_be_bytes());
        broken[at::LAST] = 200;
        let image = folder.file("image", &broken);
        let said = dump(&image, &memories, &["--json"]);
        assert_eq!(said.status, Some(1));
        let told = told(&Json::read(&said.out));
        assert!(told.contains(&(4096, digits(&slot[..bytes]))), "{told:?}");
        let said = dump(&image, &memories, &[]).out;
        let digits = match bytes {
            10 => digits(&slot[..10]),
            _ => format!("{} {}", digits(&slot[..10]), digits(&slot[10..bytes])),
        };
        assert!(said.contains(&format!("48      0  {digits}\n")), "{said}");
    }
    // Cut off behind the links: no length is there to read.
    let image = folder.file("image", &kept.switch.memory()[..at::LENGTH]);
    let said = dump(&image, &memories, &["--json"]);
    let told = told(&Json::read(&said.out));
    assert_eq!(told.len(), 4);
    for (entry, bytes) in told {
        assert_eq!(bytes, digits(&kept.packets[&entry][..10]));
    }
}

/// A node of a port that has no packet memory: of an image that is broken, since with
/// wide headers no packets are kept.
#[test]
fn ports_without_a_memory() {
    let folder = Folder::new("packets-ports");
    let mut broken = wide();
    broken[15] = 1;
    let image = folder.file("image", &broken);
    let memories = [0, 1, 2, 3].map(|port| folder.file(format!("p{port}"), &[port; 8192]));
    let said = dump(&image, &memories, &[]);
    assert_eq!(said.status, Some(1));
    assert!(said
        .out
        .starts_with("(a) setting packets: 1 is not in its row (0)\n"));
    let rows = said
        .out
        .lines()
        .filter(|line| line.starts_with("           0 "));
    let ends = rows.map(|row| row.rsplit("  ").next().unwrap());
    let of_port_0 = format!("{} 000000", "00".repeat(10));
    assert_eq!(ends.collect::<Vec<&str>>(), [&of_port_0[..], "-"]);
    let said = dump(&image, &memories, &["--json"]).out;
    assert!(said.contains("\"first_bytes\": null}"), "{said}");
}

#[test]
fn other_commands_on_an_image_that_keeps_packets() {
    let folder = Folder::new("packets-others");
    let kept = kept();
    let (image, _) = kept.files(&folder);
    for name in ["explain", "waits"] {
        let said = on(name, &image);
        assert!(said.out.starts_with("a sound state\n"), "{}", said.out);
        assert_eq!(said.status, Some(0));
    }
    let without = on("dump", &image).out;
    assert!(without.contains("edition 0, packets 1\n") && !without.contains("first bytes"));
    let new = folder.path("new");
    let words: [&OsStr; 4] = [
        "repair".as_ref(),
        image.as_ref(),
        "-o".as_ref(),
        new.as_ref(),
    ];
    let said = vr(&words).out;
    assert!(said.contains("\nkept: ports 4, queues 24, nodes 2, beat 64, slots 1, credit 16, edition 0, packets 1\n"), "{said}");
    assert!(
        said.contains("\ndropped: 4 packets (ingress 2, egress 1, prefetch 1)\n"),
        "{said}"
    );
    let mut fresh = Kept::new(images::SMALL).switch;
    fresh.map(1, 1).unwrap();
    assert!(fs::read(&new).unwrap() == fresh.memory());
}

/// Headers alone are refused 24; what else a stream asks for is done, and a setup of
/// its makes a switch that keeps none.
#[test]
fn a_replay_takes_no_packets_in() {
    let folder = Folder::new("packets-replay");
    let kept = kept();
    let (image, _) = kept.files(&folder);
    let header = [&[2, 0, 11, 2][..], &kept.packets[&4096][..10]].concat();
    let calls = [&header[..], &header, &[3, 0, 1, 2], &[5, 0, 1, 1]].concat();
    let replay = |fields: &[u8]| {
        let stream = folder.file("stream", fields);
        let words: [&OsStr; 4] = [
            "replay".as_ref(),
            stream.as_ref(),
            "--image".as_ref(),
            image.as_ref(),
        ];
        vr(&words)
    };
    let said = replay(&calls);
    assert_eq!((said.status, said.err.as_str()), (Some(0), ""));
    assert!(
        said.out
            .starts_with("4 calls, 36 bytes: to the end of the stream\n"),
        "{}",
        said.out
    );
    let end = "
  call  made  done  of them idle  refused
arrive     2     0             0        2
stitch     1     1             0        0
  turn     1     1             1        0

refused 24, OtherKind (a header alone where packets are kept, or a packet or a show where none are): 2 calls
";
    assert!(said.out.ends_with(end), "{}", said.out);
    let setup = [1, 0, 7, 0, 2, 0, 64, 1, 0, 16];
    let said = replay(&[&setup[..], &header].concat());
    assert!(!said.out.contains("refused 24"), "{}", said.out);
    assert!(said.out.contains("\narrive     1     1 "), "{}", said.out);
}
