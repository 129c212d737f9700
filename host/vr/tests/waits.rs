//! `vr waits`: bars in exact words, the library's numbers, and the picture.

mod common;
#[path = "common/images.rs"]
mod images;
#[path = "common/new_files.rs"]
mod new_files;
#[path = "common/reading.rs"]
mod reading;
#[path = "common/xml.rs"]
mod xml;

use std::collections::BTreeMap;
use std::ffi::{OsStr, OsString};
use std::fs;
use std::path::Path;

use common::{on, vr, Folder, Said};
use images::{arrive, at, bucket, busy_of, changed, in_every_shape, small, switch, wide, Change};
use new_files::Maker;
use reading::Json;
use traffic::Random;
use ventorupo::{Header, Settings, Switch, Turn};
use xml::Element;

fn words(image: &Path, new: &Path) -> Vec<OsString> {
    vec!["waits".into(), image.into(), "--svg".into(), new.into()]
}

/// `vr waits` that writes a picture too.
fn drawn(image: &Path, new: &Path) -> Said {
    vr(&words(image, new))
}

const CAPTION: &str =
    "packets sent by timed turns, by how many ticks of the headers' clock they waited";

/// Some packets in buckets 0, 1, 2 and 5 of port 1, and in bucket 4 of port 3.
fn some() -> Vec<u8> {
    changed(&[
        bucket(1, 0, 1),
        bucket(1, 1, 200),
        bucket(1, 2, 400),
        bucket(1, 5, 3),
        bucket(3, 4, 25),
    ])
}

#[test]
fn bars_exactly() {
    let folder = Folder::new("waits-bars");
    let said = on("waits", &folder.file("image", &some()));
    let (whole, half) = ("█".repeat(50), "█".repeat(25));
    let wanted = format!(
        "a sound state\n\
         \n\
         {CAPTION}\n\
         all bars have one scale: the longest stands for 400 packets\n\
         \n\
         port 1: 604 packets\n\
         \x20    ticks  packets\n\
         \x20        0        1  ▏\n\
         \x20        1      200  {half}\n\
         \x20   2 to 3      400  {whole}\n\
         \x20   4 to 7        0\n\
         \x20  8 to 15        0\n\
         \x20 16 to 31        3  ▍\n\
         \n\
         port 3: 25 packets\n\
         \x20    ticks  packets\n\
         \x20  8 to 15       25  ███▏\n\
         \n\
         ports 0, 2: no packets counted\n"
    );
    assert_eq!(said.out, wanted);
    assert_eq!((said.status, said.err.as_str()), (Some(0), ""));
}

/// The first and the last bucket, all between them, and one at its stop, beside
/// which all others are as short as a bar can be.
#[test]
fn a_bucket_at_its_stop() {
    let folder = Folder::new("waits-stop");
    let changes = [
        bucket(0, 0, 1),
        bucket(0, 1, 2),
        bucket(0, 2, 0x8000_0000),
        bucket(0, 5, 7),
        bucket(0, 32, u32::MAX),
        bucket(2, 0, u32::MAX - 1),
    ];
    let said = on("waits", &folder.file("image", &changed(&changes))).out;
    let scale = "\nall bars have one scale: the longest stands for 4294967295 or more packets\n";
    assert!(said.contains(scale), "{said}");
    let (whole, half) = ("█".repeat(50), "█".repeat(25));
    for lines in [
        "\n\nport 0: 6442450953 or more packets\n                     ticks     packets\n                         0           1          ▏\n                         1           2          ▏\n".to_string(),
        format!("\n                    2 to 3  2147483648          {half}\n                    4 to 7           0\n"),
        "\n                  16 to 31           7          ▏\n                  32 to 63           0\n".into(),
        format!("\n  2147483648 to 4294967295  4294967295 or more  {whole}\n\nport 2: 4294967294 packets\n"),
        format!("\n                         0  4294967294          {}▉\n\nports 1, 3: no packets counted\n", "█".repeat(49)),
    ] {
        assert!(said.contains(&lines), "{lines}: {said}");
    }
    assert_eq!(
        said.lines().filter(|line| line.contains(" to ")).count(),
        31
    );
}

#[test]
fn nothing_counted() {
    let folder = Folder::new("waits-none");
    let said = on("waits", &folder.file("image", &small()));
    let wanted = "a sound state\n\nports 0 to 3: no packets counted\n";
    assert_eq!((said.status, said.out.as_str()), (Some(0), wanted));
    let state = switch(Settings::wide(2, 2).nodes(1).beat(64).slots(1).credit(16)).into_memory();
    let said = on("waits", &folder.file("two", &state));
    assert_eq!(
        said.out,
        "a sound state\n\nports 0, 1: no packets counted\n"
    );
}

/// Bars, and their counts, are all the same beside what a broken image is worth.
#[test]
fn a_broken_image() {
    let folder = Folder::new("waits-broken");
    let sound = on("waits", &folder.file("image", &some())).out;
    let rest = sound.strip_prefix("a sound state\n").unwrap();
    let cases: [(Change, &str); 4] = [
        (
            (at::LAST, 1, 200),
            "(b) port 0: last served queue 200 is none of 24\n",
        ),
        (
            (at::HALTED + 2, 1, 1),
            "(i) port 2: mark 1 is none of 0, 7, 8 and 18\n",
        ),
        // Without the nodes, and with an edition that is none, the buckets are where they are.
        (
            (4, 2, 0),
            "(a) setting nodes: 0 is not in its row (1 to 2048)\n",
        ),
        (
            (12, 2, 9),
            "(a) setting edition: 9 is not in its row (0 or 1)\n",
        ),
    ];
    for ((at, width, number), top) in cases {
        let mut bytes = some();
        bytes[at..at + width].copy_from_slice(&number.to_be_bytes()[4 - width..]);
        let said = on("waits", &folder.file("image", &bytes));
        assert_eq!(said.out, format!("{top}{rest}"));
        assert_eq!((said.status, said.err.as_str()), (Some(1), ""));
    }
    // Cut off behind the buckets, all of them are there.
    let said = on("waits", &folder.file("image", &some()[..at::HEAD])).out;
    assert!(said.starts_with("(a) the image is too short: it has 5016 bytes, "));
    assert!(said.ends_with(&format!("takes 6720\n{rest}")), "{said}");
}

/// An image that ends within the buckets, or before them.
#[test]
fn an_image_that_is_too_short() {
    let folder = Folder::new("waits-short");
    let said = |there: usize| {
        let said = on("waits", &folder.file("image", &some()[..there]));
        assert_eq!((said.status, said.err.as_str()), (Some(1), ""));
        said.out
    };
    let short = |there: usize| {
        format!("(a) the image is too short: it has {there} bytes, a state of 4 ports, 24 queues and 2 nodes a port takes 6720\n\n")
    };
    let within = at::BUCKETS + 4 * (33 + 2) + 3;
    let bars = format!(
        "{}{CAPTION}\n\
         all bars have one scale: the longest stands for 200 packets\n\
         \n\
         port 1: 201 packets, and what could not be read in 31 buckets\n\
         \x20 ticks  packets\n\
         \x20     0        1  ▎\n\
         \x20     1      200  {}\n\
         \n\
         port 0: no packets counted\n\
         ports 2, 3: the buckets cannot be read\n\
         reading stops: the image ends at byte {within}, the buckets at byte 5016\n",
        short(within),
        "█".repeat(50)
    );
    assert_eq!(said(within), bars);
    let within = at::BUCKETS + 5;
    let none = "port 0: no packets counted in the buckets that can be read\n\
                ports 1 to 3: the buckets cannot be read\n\
                reading stops: the image ends at byte 4493, the buckets at byte 5016\n";
    assert_eq!(said(within), short(within) + none);
    let before = at::BUCKETS + 3;
    let none = "ports 0 to 3: the buckets cannot be read\n\
                reading stops: the image ends at byte 4491, the buckets at byte 5016\n";
    assert_eq!(said(before), short(before) + none);
    for (there, why) in [
        (0, "it has 0 bytes, the settings alone take 16"),
        (3, "it has 3 bytes, the settings alone take 16"),
    ] {
        let wanted = format!(
            "(a) the image is too short: {why}\n\nreading stops: the image ends within the settings\n"
        );
        assert_eq!(said(there), wanted);
    }
}

#[test]
fn settings_out_of_their_rows() {
    let folder = Folder::new("waits-rows");
    for (setting, name) in [(0, "ports"), (1, "queues")] {
        let bytes = changed(&[(2 * setting, 2, 99), bucket(0, 0, 5)]);
        let said = on("waits", &folder.file("image", &bytes));
        let why = format!(
            "\n\nreading stops: {name} is not in its row, so nothing behind the map has a known place\n"
        );
        assert!(said
            .out
            .starts_with(&format!("(a) setting {name}: 99 is not in its row (")));
        assert!(said.out.ends_with(&why), "{}", said.out);
        assert_eq!(said.out.lines().count(), 3);
        assert_eq!(said.status, Some(1));
    }
    // Nodes that are none, of an image that ends within the buckets.
    let bytes = &changed(&[(4, 2, 0)])[..at::BUCKETS];
    let said = on("waits", &folder.file("image", bytes)).out;
    let wanted = "(a) setting nodes: 0 is not in its row (1 to 2048)\n\n\
                  ports 0 to 3: the buckets cannot be read\n\
                  reading stops: the image ends at byte 4488, the buckets at byte 5016\n";
    assert_eq!(said, wanted);
}

/// What an image of the build before the buckets has in their place is no waits,
/// and the hint above them says so.
#[test]
fn an_image_of_the_build_before_the_buckets() {
    let folder = Folder::new("waits-older");
    let mut bytes = small();
    bytes.drain(at::BUCKETS..at::HEAD);
    let file = folder.file("image", &bytes);
    let (said, explained) = (on("waits", &file), on("explain", &file));
    let lines: Vec<&str> = said.out.lines().collect();
    let told: Vec<&str> = explained.out.lines().collect();
    assert_eq!((lines[0], lines[1], lines[2]), (told[0], told[2], ""));
    assert!(lines[1].starts_with("hint: it is as long as an image of "));
    assert_eq!(said.status, Some(1));
}

/// By port and bucket; those that count nothing are left out.
type Counts = BTreeMap<(u32, u32), u64>;

/// The bucket of a range of waits, by its least wait.
fn bucket_of_range(range: &str) -> u32 {
    let least: u32 = range.split(' ').next().unwrap().parse().unwrap();
    u32::BITS - least.leading_zeros()
}

/// What the rows of bars say, whose lengths must be their share of the longest.
fn counts_of_text(text: &str) -> Counts {
    let mut counts = Counts::new();
    let mut lengths = Vec::new();
    let mut port = 0;
    for line in text.lines() {
        if let Some((number, _)) = line
            .strip_prefix("port ")
            .and_then(|rest| rest.split_once(':'))
        {
            port = number.parse().unwrap();
        } else if let Some(row) = line
            .strip_prefix("  ")
            .filter(|row| !row.ends_with("packets"))
        {
            let cells: Vec<&str> = row.split("  ").filter(|cell| !cell.is_empty()).collect();
            let count = cells[1]
                .trim()
                .trim_end_matches(" or more")
                .parse()
                .unwrap();
            lengths.push((count, eighths(cells.get(2).copied().unwrap_or(""))));
            if count > 0 {
                let place = (port, bucket_of_range(cells[0].trim()));
                assert_eq!(counts.insert(place, count), None, "{text}");
            }
        }
    }
    let longest = counts.values().max().copied().unwrap_or(1);
    for (count, length) in lengths {
        assert_eq!(
            length,
            (count * 400 / longest).max((count > 0).into()),
            "{text}"
        );
    }
    counts
}

/// How long a bar is, in eighths of a column.
fn eighths(bar: &str) -> u64 {
    let parts = ['▏', '▎', '▍', '▌', '▋', '▊', '▉', '█'];
    let part = |c: char| 1 + parts.iter().position(|&part| part == c).unwrap() as u64;
    bar.trim().chars().map(part).sum()
}

/// What the bars of a picture say by their tooltips, a bar for each row.
fn counts_of_picture(picture: &Element) -> Counts {
    let mut counts = Counts::new();
    for panel in picture.named("g") {
        let texts: Vec<&str> = panel.named("text").map(|text| text.text.as_str()).collect();
        let (port, _) = texts[0]
            .strip_prefix("port ")
            .unwrap()
            .split_once(':')
            .unwrap();
        let bars: Vec<&Element> = panel.named("rect").collect();
        // Behind heading and names two texts for each bar: its waits and its packets.
        assert_eq!(texts[1..3], ["ticks", "packets"]);
        assert_eq!(texts.len(), 3 + 2 * bars.len());
        for (bar, texts) in bars.iter().zip(texts[3..].chunks(2)) {
            let title = &bar.named("title").next().unwrap().text;
            let (waits, packets) = title.split_once(": ").unwrap();
            assert_eq!(waits.split_once(' ').unwrap().1, texts[0]);
            let told = packets.trim_end_matches('s').strip_suffix(" packet");
            assert_eq!(told, Some(texts[1]));
            let count: u64 = texts[1].trim_end_matches(" or more").parse().unwrap();
            let width: f64 = bar.of("width").parse().unwrap();
            assert_eq!(width >= 1.0, count > 0);
            if count > 0 {
                let place = (port.parse().unwrap(), bucket_of_range(texts[0]));
                assert_eq!(counts.insert(place, count), None);
            }
        }
    }
    counts
}

/// What the proved library answers.
fn counts_of_library(switch: &Switch<Vec<u8>>, settings: Settings) -> Counts {
    let mut counts = Counts::new();
    for port in 0..settings.ports {
        for bucket in 0..33 {
            match switch.bucket(port, bucket).unwrap() {
                0 => {}
                count => drop(counts.insert((port, bucket), count.into())),
            }
        }
    }
    counts
}

/// Bars, picture and JSON say what the library says.
fn agree(folder: &Folder, switch: &Switch<Vec<u8>>, settings: Settings) -> Counts {
    let file = folder.file("image", switch.memory());
    let new = folder.path("new.svg");
    let said = drawn(&file, &new);
    assert_eq!((said.status, said.err.as_str()), (Some(0), ""));
    let counts = counts_of_library(switch, settings);
    assert_eq!(counts_of_text(&said.out), counts);
    let picture = Element::read(&fs::read_to_string(&new).unwrap());
    assert_eq!(counts_of_picture(&picture), counts);
    fs::remove_file(&new).unwrap();
    let json = vr(&[OsStr::new("dump"), file.as_os_str(), OsStr::new("--json")]);
    let dump = Json::read(&json.out);
    for (port, buckets) in (0..).zip(dump.of("buckets").elements()) {
        for (bucket, count) in (0..).zip(buckets.elements()) {
            let said = counts.get(&(port, bucket)).copied().unwrap_or(0);
            assert_eq!(count.number(), said);
        }
    }
    counts
}

/// A packet goes all its way, and leaves so many ticks after its timestamp;
/// answers the port that sent it.
fn sent_after(
    switch: &mut Switch<Vec<u8>>,
    settings: Settings,
    random: &mut Random,
    wait: u32,
) -> u32 {
    let header = Header {
        destination: random.below(settings.ports),
        source: random.below(settings.ports),
        length: 100,
        timestamp: random.word() as u32,
        ..Header::default()
    };
    arrive(switch, settings, header);
    let stitched = switch.stitch(header.source).unwrap();
    let port = stitched.port.into();
    switch.prefetch(port, 0).unwrap();
    let now = header.timestamp.wrapping_add(wait);
    assert!(matches!(switch.timed_turn(port, now), Ok(Turn::Sent(_))));
    // One that finds nothing counts nothing.
    assert_eq!(switch.timed_turn(port, now), Ok(Turn::Idle));
    port
}

/// Timed turns are really made, in every shape, with waits of every bucket.
#[test]
fn numbers_are_the_librarys() {
    let folder = Folder::new("waits-library");
    for (seed, settings) in (0..).zip(in_every_shape(1)) {
        let mut random = Random::new(seed);
        let mut switch = switch(settings);
        for id in 0..settings.ports {
            switch.map(id, random.below(settings.ports)).unwrap();
        }
        let mut wanted = Counts::new();
        for turn in 0..100 {
            let wait = match turn % 34 {
                0 => 0,
                bits => (random.word() as u32 | 1 << 31) >> (33 - bits.min(33)).min(31),
            };
            let port = sent_after(&mut switch, settings, &mut random, wait);
            *wanted
                .entry((port, ventorupo::bucket_of(wait)))
                .or_default() += 1;
        }
        assert_eq!(agree(&folder, &switch, settings), wanted);
        assert_eq!(wanted.values().sum::<u64>(), 100);
    }
}

/// Any bytes are buckets, and are told as the library reads them.
#[test]
fn any_buckets_are_the_librarys() {
    let folder = Folder::new("waits-any");
    let mut random = Random::new(16);
    for settings in in_every_shape(1) {
        let mut memory = busy_of(settings, 100, 2).into_memory();
        let start = 4112 + settings.ports * (2 + 4 * (settings.queues - 1));
        let buckets = start as usize..(start + 132 * settings.ports) as usize;
        for count in memory[buckets].chunks_mut(4) {
            let number = match random.below(4) {
                0 => 0,
                1 => u32::MAX,
                2 => random.below(1000),
                _ => random.word() as u32,
            };
            count.copy_from_slice(&number.to_be_bytes());
        }
        agree(&folder, &Switch::over(memory), settings);
    }
}

/// Of anything that a viewer might fetch or run there is nothing.
fn stands_alone(picture: &Element, text: &str) {
    let known = ["svg", "title", "rect", "text", "g"];
    let attributes = [
        "xmlns",
        "role",
        "width",
        "height",
        "viewBox",
        "font-family",
        "font-size",
        "font-weight",
        "text-anchor",
        "fill",
        "x",
        "y",
    ];
    for element in picture.all() {
        assert!(known.contains(&element.name.as_str()), "{}", element.name);
        for name in element.attributes.keys() {
            assert!(attributes.contains(&name.as_str()), "{name}");
        }
    }
    assert_eq!(text.matches("http").count(), 1);
    assert_eq!(picture.of("xmlns"), "http://www.w3.org/2000/svg");
    assert_eq!(picture.of("font-family"), "sans-serif");
}

/// Dark on light: a ground of its own over all, behind all.
fn has_its_ground(picture: &Element) {
    let ground = picture.named("rect").next().unwrap();
    assert_eq!(picture.elements[1], *ground);
    let whole = ["width", "height"].map(|name| picture.of(name) == ground.of(name));
    assert_eq!(
        (whole, ground.of("x"), ground.of("y")),
        ([true; 2], "0", "0")
    );
    assert_eq!(
        (ground.of("fill"), picture.of("fill")),
        ("#ffffff", "#1a1a1a")
    );
    // Nothing stands below its end, or past its right side.
    let number = |element: &Element, name: &str| -> f64 { element.of(name).parse().unwrap() };
    let (wide, high) = (number(picture, "width"), number(picture, "height"));
    let drawn = picture
        .all()
        .into_iter()
        .filter(|element| element.attributes.contains_key("x"));
    for element in drawn {
        let width = element
            .attributes
            .get("width")
            .map_or(0.0, |width| width.parse().unwrap());
        assert!(number(element, "x") + width <= wide);
        assert!(number(element, "y") <= high);
    }
}

#[test]
fn a_picture() {
    let folder = Folder::new("waits-picture");
    let image = folder.file("image", &some());
    let new = folder.path("new.svg");
    let said = drawn(&image, &new);
    let told = format!(
        "{}\nwritten: {}; {} is as it was\n",
        on("waits", &image).out,
        new.display(),
        image.display()
    );
    assert_eq!(said.out, told);
    assert_eq!((said.status, said.err.as_str()), (Some(0), ""));
    assert_eq!(fs::read(&image).unwrap(), some());
    let text = fs::read_to_string(&new).unwrap();
    let picture = Element::read(&text);
    stands_alone(&picture, &text);
    has_its_ground(&picture);
    assert_eq!(picture.elements[0].name, "title");
    assert_eq!(picture.elements[0].text, "how long packets waited");
    let texts: Vec<&str> = picture
        .named("text")
        .map(|text| text.text.as_str())
        .collect();
    let wanted = [
        "how long packets waited",
        "a sound state",
        CAPTION,
        "all bars have one scale: the longest stands for 400 packets",
        "ports 0, 2: no packets counted",
    ];
    assert_eq!(texts, wanted);
    let panels: Vec<&Element> = picture.named("g").collect();
    let bars = |panel: &Element| -> Vec<(String, String)> {
        let bar = |bar: &Element| (bar.of("width").into(), bar.elements[0].text.clone());
        panel.named("rect").map(bar).collect()
    };
    let pair = |(width, title): (&str, &str)| (width.to_string(), title.to_string());
    let first = [
        ("1.0", "wait 0: 1 packet"),
        ("200.0", "wait 1: 200 packets"),
        ("400.0", "waits 2 to 3: 400 packets"),
        ("0.0", "waits 4 to 7: 0 packets"),
        ("0.0", "waits 8 to 15: 0 packets"),
        ("3.0", "waits 16 to 31: 3 packets"),
    ];
    assert_eq!(panels.len(), 2);
    assert_eq!(bars(panels[0]), first.map(pair));
    assert_eq!(
        bars(panels[1]),
        [("25.0", "waits 8 to 15: 25 packets")].map(pair)
    );
    assert_eq!(panels[0].elements[0].text, "port 1: 604 packets");
    assert_eq!(counts_of_picture(&picture), counts_of_text(&said.out));
}

/// Of broken images and of those without waits there is a picture too, which
/// says what the text says.
#[test]
fn pictures_of_other_images() {
    let folder = Folder::new("waits-pictures");
    let older = [&small()[..at::BUCKETS], &small()[at::HEAD..]].concat();
    let full: Vec<Change> = (0..33).map(|b| bucket(2, b, u32::MAX - b as u32)).collect();
    for (i, bytes) in [
        small(),
        wide(),
        changed(&full),
        changed(&[(at::NEXT + 4, 2, 2048), bucket(0, 32, u32::MAX)]),
        changed(&[(0, 2, 99)]),
        some()[..at::BUCKETS + 4 * 40].to_vec(),
        older,
        vec![],
    ]
    .into_iter()
    .enumerate()
    {
        let image = folder.file("image", &bytes);
        let new = folder.path(format!("new{i}.svg"));
        let said = drawn(&image, &new);
        assert_eq!(said.status, on("explain", &image).status);
        let text = fs::read_to_string(&new).unwrap();
        let picture = Element::read(&text);
        stands_alone(&picture, &text);
        has_its_ground(&picture);
        assert_eq!(counts_of_picture(&picture), counts_of_text(&said.out));
        // All lines that are no rows stand in it, the long ones broken.
        let all = picture
            .all()
            .into_iter()
            .filter(|element| element.name == "text");
        let texts: Vec<&str> = all.map(|text| text.text.as_str()).collect();
        assert!(texts.iter().all(|text| text.len() <= 105), "{texts:?}");
        let texts = texts.join(" ");
        let (lines, _) = said.out.split_once("\nwritten: ").unwrap();
        for line in lines.lines().filter(|line| !line.starts_with("  ")) {
            assert!(texts.contains(line), "{line}: {texts}");
        }
    }
}

fn maker(bytes: &[u8]) -> Maker<'_> {
    let name = "waits";
    Maker { name, bytes, words }
}

#[test]
fn nothing_is_overwritten() {
    maker(&small()).overwrites_nothing();
}

/// But nobody may run it.
#[test]
fn the_picture_has_the_images_permissions() {
    maker(&small()).passes_on_permissions(0o666);
}

#[test]
fn a_picture_that_does_not_fit() {
    let full: Vec<Change> = (0..33).map(|b| bucket(1, b, 5)).collect();
    let image = changed(&full);
    assert_eq!(maker(&image).takes_away_what_does_not_fit(1), "");
}

#[test]
fn a_picture_of_which_nothing_can_be_said() {
    if let Some(picture) = maker(&small()).tells_of_what_it_cannot_say() {
        let text = String::from_utf8(picture).unwrap();
        assert_eq!(Element::read(&text).name, "svg");
    }
}
