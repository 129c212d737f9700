//! `vr replay`: what it counts and leaves is what the calls leave one by one.

mod common;
#[path = "common/images.rs"]
mod images;
#[path = "common/new_files.rs"]
mod new_files;
#[path = "common/streams.rs"]
mod streams;

use std::collections::BTreeMap;
use std::ffi::OsString;
use std::fs;
use std::io::{ErrorKind, Write};
use std::path::Path;
use std::process::{Command, Stdio};
use std::thread::sleep;
use std::time::Duration;

use common::{command, on, program, vr, Folder, Said};
use images::{at, busy_of, changed, in_every_shape, small, wide};
use new_files::Maker;
use streams::whole_case;
use traffic::Random;
use ventorupo::{find, size, Header, Refusal, Settings, Switch, Turn};

fn field(tag: u8, value: &[u8]) -> Vec<u8> {
    let length = (value.len() as u16).to_be_bytes();
    [&[tag], &length[..], value].concat()
}

fn setup(nodes: u16) -> Vec<u8> {
    let [high, low] = nodes.to_be_bytes();
    field(1, &[high, low, 0, 64, 1, 0, 16])
}

fn turn(port: u8) -> Vec<u8> {
    field(5, &[port])
}

fn replay(stream: &Path, words: &[&str]) -> Said {
    let mut all: Vec<OsString> = vec!["replay".into(), stream.into()];
    all.extend(words.iter().map(OsString::from));
    vr(&all)
}

/// A replay of these bytes off standard input, in parts, with a rest between them.
fn piped(words: &[&str], parts: &[&[u8]], rest: Duration) -> Said {
    let mut vr = command();
    vr.args(["replay", "-"]).args(words);
    let (input, out) = (Stdio::piped(), Stdio::piped());
    let vr = vr.stdin(input).stdout(out).stderr(Stdio::piped());
    let mut child = vr.spawn().unwrap();
    let mut input = child.stdin.take().unwrap();
    for (i, part) in parts.iter().enumerate() {
        if i > 0 {
            sleep(rest);
        }
        // It may have ended at a bad field.
        let _ = input.write_all(part);
    }
    drop(input);
    child.wait_with_output().unwrap().into()
}

/// What is said but for the line on the speed, which must be there if a call was made.
fn but_speed(out: &str) -> String {
    let is_speed = |line: &&str| line.contains(" s in the library: ");
    let speed: Vec<&str> = out.lines().filter(is_speed).collect();
    assert_eq!(
        speed.len(),
        usize::from(!out.starts_with("0 calls")),
        "{out}"
    );
    for line in speed {
        let line = line.strip_suffix(" calls a second").unwrap();
        let (seconds, speed) = line.split_once(" s in the library: ").unwrap();
        let [seconds, speed] = [seconds, speed].map(|number| number.parse::<f64>().unwrap());
        assert!(seconds >= 0.0 && speed > 0.0, "{line}");
    }
    let others = out.lines().filter(|line| !is_speed(line));
    others.map(|line| format!("{line}\n")).collect()
}

const WHOLE_CASE: &str = "\
7 calls, 45 bytes: to the end of the stream

    call  made  done  of them idle  refused
   setup     1     1             0        0
  arrive     1     1             0        0
  stitch     1     1             0        0
prefetch     1     1             0        0
    turn     3     2             1        1

refused 4, NoPort (port above the last): 1 call
";

#[test]
fn the_whole_case() {
    let folder = Folder::new("replay-whole");
    let stream = folder.file("stream", &whole_case());
    let said = replay(&stream, &[]);
    assert_eq!(but_speed(&said.out), WHOLE_CASE);
    assert_eq!((said.status, said.err.as_str()), (Some(0), ""));
    let said = piped(&[], &[&whole_case()], Duration::ZERO);
    assert_eq!(but_speed(&said.out), WHOLE_CASE);
    assert_eq!((said.status, said.err.as_str()), (Some(0), ""));
}

/// The table is that of `vr dump` of what is written.
#[test]
fn shown_and_written() {
    let folder = Folder::new("replay-written");
    let stream = folder.file("stream", &whole_case()[..28]);
    let new = folder.path("new");
    let said = replay(&stream, &["--dump", "-o", new.to_str().unwrap()]);
    assert_eq!((said.status, said.err.as_str()), (Some(0), ""));
    let (told, rest) = said.out.split_once("\n\na sound state\n").unwrap();
    assert!(
        told.ends_with("\nstitch     1     1             0        0"),
        "{told}"
    );
    let dump = on("dump", &new).out;
    assert!(
        dump.contains("\n  egress, queue 0: 1 node; head 0, tail 0\n"),
        "{dump}"
    );
    let written = format!("\nwritten: {}\n", new.display());
    assert_eq!(format!("a sound state\n{rest}"), dump + &written);
    assert_eq!(on("explain", &new).out, "a sound state\n");
    // The state's bytes alone, as single calls leave them.
    let mut switch = Switch::setup(
        [0; 6668],
        Settings::ten_bytes().nodes(1).beat(64).slots(1).credit(16),
    )
    .unwrap();
    switch
        .arrive(0, &[0, 0, 0x30, 0, 0, 0, 0, 0, 0, 0x72])
        .unwrap();
    switch.stitch(0).unwrap();
    assert_eq!(fs::read(&new).unwrap(), switch.into_memory());
    assert_eq!(fs::read(&stream).unwrap(), whole_case()[..28]);
}

/// What a stream's calls come to, made one by one.
struct OneByOne {
    switch: Switch<Vec<u8>>,
    /// Made, done, idle and refused, by name.
    kinds: BTreeMap<String, [u64; 4]>,
    refusals: BTreeMap<Refusal, u64>,
    /// Where it stopped, and whether at a bad field.
    at: usize,
    bad: bool,
}

const NAMES: [&str; 7] = [
    "setup", "arrive", "stitch", "prefetch", "turn", "credit", "map",
];
const LENGTHS: [usize; 7] = [7, 11, 1, 2, 1, 4, 2];

/// The most memory that a setup in its rows can need.
fn zeros() -> Vec<u8> {
    vec![
        0;
        size(
            &Settings::ten_bytes()
                .nodes(2048)
                .beat(64)
                .slots(1)
                .credit(0)
        )
        .unwrap()
    ]
}

/// The bytes of an arrival's value in a memory, beside those that it may have in any.
fn own_length(memory: &[u8]) -> usize {
    let two = |at: usize| u32::from(memory[at]) << 8 | u32::from(memory[at + 1]);
    let form = ventorupo::Form {
        ports: two(0),
        queues: two(2),
        edition: two(12),
    };
    let state = find(memory).is_none();
    form.size().filter(|_| state).map_or(11, |size| 1 + size)
}

impl OneByOne {
    fn run(memory: Vec<u8>, stream: &[u8]) -> OneByOne {
        let mut run = OneByOne {
            switch: Switch::over(memory),
            kinds: BTreeMap::new(),
            refusals: BTreeMap::new(),
            at: 0,
            bad: false,
        };
        while run.at < stream.len() && !run.bad {
            match run.good_field(&stream[run.at..]) {
                Some((tag, value)) => {
                    let (idle, refusal) = match run.call(tag, value) {
                        Ok(idle) => (idle, None),
                        Err(refusal) => (false, Some(refusal)),
                    };
                    run.count(tag, idle, refusal);
                    run.at += 3 + value.len();
                }
                None => run.bad = true,
            }
        }
        run
    }

    fn good_field<'s>(&self, bytes: &'s [u8]) -> Option<(u8, &'s [u8])> {
        let tag = bytes[0];
        let length = usize::from(u16::from_be_bytes([*bytes.get(1)?, *bytes.get(2)?]));
        let right = *LENGTHS.get(usize::from(tag).checked_sub(1)?)?;
        let own = tag == 2 && length == own_length(self.switch.memory());
        let value = bytes[3..].get(..length)?;
        (length == right || own).then_some((tag, value))
    }

    /// Whether it was idle.
    fn call(&mut self, tag: u8, value: &[u8]) -> Result<bool, Refusal> {
        let one = |at: usize| u32::from(value[at]);
        let two = |at: usize| one(at) << 8 | one(at + 1);
        let switch = &mut self.switch;
        match tag {
            1 => switch.setup_again(
                Settings::ten_bytes()
                    .nodes(two(0))
                    .beat(two(2))
                    .slots(one(4))
                    .credit(two(5)),
            )?,
            2 => drop(switch.arrive(one(0), &value[1..])?),
            3 => drop(switch.stitch(one(0))?),
            4 => drop(switch.prefetch(one(0), one(1))?),
            5 => return Ok(switch.turn(one(0))? == Turn::Idle),
            6 => switch.credit(one(0), one(1), two(2))?,
            _ => switch.map(one(0), one(1))?,
        }
        Ok(false)
    }

    fn count(&mut self, tag: u8, idle: bool, refusal: Option<Refusal>) {
        let name = NAMES[usize::from(tag) - 1].to_string();
        let counts = self.kinds.entry(name).or_default();
        let refused = refusal.is_some();
        let more = [true, !refused, idle, refused];
        for (count, more) in counts.iter_mut().zip(more) {
            *count += u64::from(more);
        }
        if let Some(refusal) = refusal {
            *self.refusals.entry(refusal).or_default() += 1;
        }
    }

    fn calls(&self) -> u64 {
        self.kinds.values().map(|counts| counts[0]).sum()
    }

    /// That a replay says this.
    fn is_said(&self, said: &Said) {
        let (calls, at) = (self.calls(), self.at);
        let many = if calls == 1 { "call" } else { "calls" };
        let (next, done) = (calls + 1, format!("{calls} {many}, {at} bytes"));
        let top = match self.bad {
            false => format!("{done}: to the end of the stream\n"),
            true => format!("{done}; stopped at field {next}, byte {at}, a bad field: "),
        };
        assert!(said.out.starts_with(&top), "{top}{}", said.out);
        let (kinds, refusals) = counts_of(&said.out);
        assert_eq!(
            (&kinds, &refusals),
            (&self.kinds, &self.refusals),
            "{}",
            said.out
        );
        let state = self.switch.find().is_none();
        assert_eq!(said.status, Some((self.bad || !state).into()));
        assert_eq!(said.out.contains("\nno switch state: "), !state);
        assert_eq!(said.err, "");
    }
}

type Counted = (BTreeMap<String, [u64; 4]>, BTreeMap<Refusal, u64>);

/// What a replay says of its calls.
fn counts_of(out: &str) -> Counted {
    let (mut kinds, mut refusals) = (BTreeMap::new(), BTreeMap::new());
    for line in out.lines() {
        let words: Vec<&str> = line.split_whitespace().collect();
        let number = |word: &&str| word.parse::<u64>().ok();
        if let Some(rest) = line.strip_prefix("refused ") {
            let (told, calls) = rest.rsplit_once(": ").unwrap();
            let refusal = told.split_once(',').unwrap().0.parse().unwrap();
            let refusal = Refusal::from_number(refusal).unwrap();
            let name = format!("{}, {refusal:?} ({refusal})", refusal.number());
            assert_eq!(told, name);
            let calls = calls.split_once(" call").unwrap().0.parse().unwrap();
            assert_eq!(refusals.insert(refusal, calls), None);
        } else if words.len() == 5 && NAMES.contains(&words[0]) {
            let counts: Option<Vec<u64>> = words[1..].iter().map(number).collect();
            let counts = counts.unwrap().try_into().unwrap();
            assert_eq!(kinds.insert(words[0].to_string(), counts), None);
        }
    }
    (kinds, refusals)
}

/// What a replay leaves without an image: the state's bytes alone.
fn state_alone(switch: Switch<Vec<u8>>) -> Vec<u8> {
    let mut memory = switch.into_memory();
    let nodes = usize::from(memory[4]) << 8 | usize::from(memory[5]);
    memory.truncate(6616 + 52 * nodes);
    memory
}

/// The traffic that the bench program is tested with, half of it with a bad end.
#[test]
fn streams_of_the_bench_program() {
    let folder = Folder::new("replay-bench");
    let mut bad = 0;
    for seed in 0..60 {
        let bytes = traffic::stream(seed, 300);
        let wanted = OneByOne::run(zeros(), &bytes);
        let stream = folder.file("stream", &bytes);
        let new = folder.path(format!("new{seed}"));
        let said = replay(&stream, &["-o", new.to_str().unwrap()]);
        wanted.is_said(&said);
        bad += u32::from(wanted.bad);
        let state = wanted.switch.find().is_none();
        assert_eq!(new.exists(), state);
        assert_eq!(said.out.ends_with("\nnothing was written\n"), !state);
        if state {
            assert_eq!(fs::read(&new).unwrap(), state_alone(wanted.switch));
        }
    }
    assert!((10..50).contains(&bad), "{bad}");
}

/// A number below this, or now and then the one above the last.
fn mostly_below(random: &mut Random, many: u32) -> u8 {
    let above = u32::from(random.one_in(30));
    random.below(many + above) as u8
}

/// An arrival's value: mostly a port and a header that comes from there.
fn some_arrival(random: &mut Random, settings: Settings) -> Vec<u8> {
    if random.one_in(20) {
        // Ten bytes, which halt no port.
        return vec![0; 11];
    }
    let port = mostly_below(random, settings.ports);
    let header = Header {
        destination: random.below(settings.ports),
        source: port.min(settings.ports as u8 - 1).into(),
        queue: random.below(settings.queues),
        length: random.among(14, 300),
        timestamp: random.word() as u32,
        ..Header::default()
    };
    let header = settings.form().write(&header).unwrap();
    [&[port], &header[..]].concat()
}

/// So many fields of every kind for a switch of these settings.
fn some_fields(random: &mut Random, settings: Settings, n: usize) -> Vec<u8> {
    let mut bytes = Vec::new();
    for _ in 0..n {
        let port = mostly_below(random, settings.ports);
        let queue = mostly_below(random, settings.queues);
        let tag = random.among(2, 7) as u8;
        let value = match tag {
            2 => some_arrival(random, settings),
            3 | 5 => vec![port],
            4 => vec![port, queue],
            6 => vec![port, queue, 0, random.below(40) as u8],
            _ => vec![random.below(256) as u8, port],
        };
        bytes.extend(field(tag, &value));
    }
    bytes
}

/// From images of every edition, with bytes behind the state.
#[test]
fn from_an_image_of_every_shape() {
    let folder = Folder::new("replay-shapes");
    let mut random = Random::new(10);
    for (i, settings) in in_every_shape(16).into_iter().enumerate() {
        let mut image = busy_of(settings, 30, i as u64).into_memory();
        image.extend([7; 100]);
        let mut bytes = some_fields(&mut random, settings, 2000);
        if i % 2 == 1 {
            // Longer than any header of its edition.
            bytes.extend(field(2, &[0; 14]));
            bytes.extend(turn(0));
        }
        let wanted = OneByOne::run(image.clone(), &bytes);
        assert_eq!((wanted.bad, wanted.calls()), (i % 2 == 1, 2000));
        let stream = folder.file("stream", &bytes);
        let (file, new) = (folder.file("image", &image), folder.path(format!("new{i}")));
        let words = [
            "--image",
            file.to_str().unwrap(),
            "-o",
            new.to_str().unwrap(),
        ];
        let said = replay(&stream, &words);
        wanted.is_said(&said);
        let written = format!(
            "\nwritten: {}; {} is as it was\n",
            new.display(),
            file.display()
        );
        assert!(said.out.ends_with(&written), "{}", said.out);
        assert_eq!(fs::read(&new).unwrap(), wanted.switch.into_memory());
        assert_eq!(fs::read(&file).unwrap(), image);
        // Arrivals of its own form were taken in, and those of ten bytes refused.
        let (kinds, refusals) = counts_of(&said.out);
        assert!(kinds["arrive"][1] > 30, "{}", said.out);
        let six = refusals.contains_key(&Refusal::HeaderSize);
        assert_eq!(six, settings.edition == ventorupo::WIDE);
    }
}

const ON_WIDE: &str = "\
4 calls, 37 bytes: to the end of the stream

  call  made  done  of them idle  refused
arrive     2     1             0        1
  turn     2     2             1        0

refused 6, HeaderSize (header not of its edition's size): 1 call
";

/// The packet in the slots of port 3 leaves, and its node is used again.
#[test]
fn a_wide_image_exactly() {
    let folder = Folder::new("replay-wide");
    let (image, new) = (folder.file("image", &wide()), folder.path("new"));
    let settings = Settings::wide(5, 3).nodes(1).beat(64).slots(1).credit(16);
    let header = Header {
        source: 4,
        length: 13,
        ..Header::default()
    };
    let header = settings.form().write(&header).unwrap();
    let arrive = field(2, &[&[4], &header[..]].concat());
    let ten = field(2, &[4; 11]);
    let stream = folder.file("stream", &[turn(3), arrive, ten, turn(3)].concat());
    let words = [
        "--image",
        image.to_str().unwrap(),
        "-o",
        new.to_str().unwrap(),
    ];
    let said = replay(&stream, &words);
    let (new_name, image_name) = (new.display(), image.display());
    let wanted = format!("{ON_WIDE}\nwritten: {new_name}; {image_name} is as it was\n");
    assert_eq!(but_speed(&said.out), wanted);
    assert_eq!((said.status, said.err.as_str()), (Some(0), ""));
    let mut switch = Switch::over(wide());
    assert!(matches!(switch.turn(3), Ok(Turn::Sent(_))));
    switch.arrive(4, &header).unwrap();
    assert_eq!(fs::read(&new).unwrap(), switch.into_memory());
}

/// A bad field behind two good ones: its number and its place are told, and what was
/// done stays done. What stands behind it is not looked at.
fn stops_at(folder: &Folder, bad: &[u8], why: &str) {
    let start = [setup(2), turn(0)].concat();
    for (i, behind) in [vec![], [turn(1), turn(2)].concat()].iter().enumerate() {
        let stream = folder.file("stream", &[&start[..], bad, behind].concat());
        let new = folder.path(format!("new{i}"));
        let said = replay(&stream, &["-o", new.to_str().unwrap()]);
        let wanted = format!(
            "2 calls, 14 bytes; stopped at field 3, byte 14, a bad field: {why}\n\
             \n\
             \x20call  made  done  of them idle  refused\n\
             setup     1     1             0        0\n\
             \x20turn     1     1             1        0\n\
             \n\
             written: {}\n",
            new.display()
        );
        assert_eq!(but_speed(&said.out), wanted);
        assert_eq!((said.status, said.err.as_str()), (Some(1), ""));
        assert_eq!(on("explain", &new).out, "a sound state\n");
        fs::remove_file(new).unwrap();
    }
}

#[test]
fn bad_fields() {
    let folder = Folder::new("replay-bad");
    for (bad, why) in [
        (field(0, &[]), "tag 0 is none of 1 to 7"),
        (field(8, &[0]), "tag 8 is none of 1 to 7"),
        (field(255, &[0; 7]), "tag 255 is none of 1 to 7"),
        (
            field(1, &[0; 8]),
            "setup has a value of 7 bytes, and this one is of 8 bytes",
        ),
        (
            field(2, &[0; 12]),
            "arrive has a value of 11 bytes, and this one is of 12 bytes",
        ),
        (
            field(5, &[]),
            "turn has a value of 1 byte, and this one is of 0 bytes",
        ),
        (
            field(6, &[0; 65_535]),
            "credit has a value of 4 bytes, and this one is of 65535 bytes",
        ),
    ] {
        stops_at(&folder, &bad, why);
    }
}

/// On a wide switch an arrival's field may have two lengths.
#[test]
fn a_bad_field_on_a_wide_switch() {
    let folder = Folder::new("replay-bad-wide");
    let image = folder.file("image", &wide());
    let stream = folder.file("stream", &field(2, &[0; 13]));
    let said = replay(&stream, &["--image", image.to_str().unwrap()]);
    let wanted = "0 calls, 0 bytes; stopped at field 1, byte 0, a bad field: \
                  arrive has a value of 11 or 12 bytes, and this one is of 13 bytes\n";
    assert_eq!((said.status, said.out.as_str()), (Some(1), wanted));
}

/// After any of its bytes, of a file and of standard input.
#[test]
fn fields_that_are_cut_off() {
    let folder = Folder::new("replay-cut");
    let start = [setup(2), turn(0)].concat();
    let whole = field(6, &[1, 2, 3, 4]);
    for end in 1..whole.len() {
        let bytes = [&start[..], &whole[..end]].concat();
        let why = match end {
            1 => "1 byte of credit's tag and length are there".into(),
            2 => "2 bytes of credit's tag and length are there".into(),
            _ => format!("{} of the 4 bytes of credit's value are there", end - 3),
        };
        let wanted = format!(
            "2 calls, 14 bytes; stopped at field 3, byte 14, a bad field: it is cut off, {why}\n"
        );
        let file = replay(&folder.file("stream", &bytes), &[]);
        let input = piped(
            &[],
            &[&bytes[..15], &bytes[15..]],
            Duration::from_millis(20),
        );
        for said in [file, input] {
            assert!(said.out.starts_with(&wanted), "{}", said.out);
            assert_eq!((said.status, said.err.as_str()), (Some(1), ""));
        }
    }
}

/// As in the bench program it sets up anew; one that is refused leaves the state.
#[test]
fn setups_further_on() {
    let folder = Folder::new("replay-setups");
    let arrive = field(2, &[0, 0, 0, 0x30, 0, 0, 0, 0, 0, 0, 0x72]);
    let new = folder.path("new");
    let parts = [
        setup(4),
        arrive.clone(),
        setup(0),
        arrive.clone(),
        setup(2),
        arrive,
    ];
    let bytes = parts.concat();
    let stream = folder.file("stream", &bytes);
    let said = replay(&stream, &["-o", new.to_str().unwrap()]);
    let wanted = OneByOne::run(zeros(), &bytes);
    wanted.is_said(&said);
    let (kinds, refusals) = counts_of(&said.out);
    assert_eq!(
        (kinds["setup"], kinds["arrive"]),
        ([3, 2, 0, 1], [3, 3, 0, 0])
    );
    assert_eq!(refusals, BTreeMap::from([(Refusal::BadSetting, 1)]));
    let written = fs::read(&new).unwrap();
    assert_eq!(
        (written.len(), &written),
        (at::SIZE, &state_alone(wanted.switch))
    );
    let dump = on("dump", &new).out;
    assert!(
        dump.contains("\n  ingress: 1 node; head 0, tail 0\n"),
        "{dump}"
    );
}

/// The largest switch has room, and of an image there is no more room than it has.
#[test]
fn setups_and_the_memory() {
    let folder = Folder::new("replay-memory");
    let stream = folder.file("stream", &[setup(2048), setup(2049)].concat());
    let said = replay(&stream, &[]);
    let (kinds, refusals) = counts_of(&said.out);
    assert_eq!((said.status, kinds["setup"]), (Some(0), [2, 1, 0, 1]));
    assert_eq!(refusals, BTreeMap::from([(Refusal::BadSetting, 1)]));
    let image = folder.file("image", &small());
    let stream = folder.file("stream", &[setup(3), turn(0), setup(1)].concat());
    let new = folder.path("new");
    let words = [
        "--image",
        image.to_str().unwrap(),
        "-o",
        new.to_str().unwrap(),
    ];
    let said = replay(&stream, &words);
    let (_, refusals) = counts_of(&said.out);
    assert_eq!(refusals, BTreeMap::from([(Refusal::ShortMemory, 1)]));
    // A smaller state, and behind it what was there.
    let mut memory = small();
    Switch::over(&mut memory[..])
        .setup_again(Settings::ten_bytes().nodes(1).beat(64).slots(1).credit(16))
        .unwrap();
    assert_eq!(fs::read(&new).unwrap(), memory);
}

const NO_STATE: &str =
    "\nno switch state: no setup was carried out; with --image IMAGE a replay starts from a state\n";

/// As in the bench program every call is refused 3, and vr says what is missing.
#[test]
fn streams_without_a_setup() {
    let folder = Folder::new("replay-no-setup");
    let new = folder.path("new");
    // Nor is there anything to be shown.
    let words = ["--dump", "-o", new.to_str().unwrap()];
    let all = whole_case()[10..].to_vec();
    let refused = [setup(0), all.clone()].concat();
    for bytes in [all, refused, vec![]] {
        let stream = folder.file("stream", &bytes);
        let said = replay(&stream, &words);
        OneByOne::run(zeros(), &bytes).is_said(&said);
        let wanted = format!("{NO_STATE}nothing was written\n");
        assert!(said.out.ends_with(&wanted), "{}", said.out);
        assert!(!new.exists());
    }
    // There is no edition yet whose headers an arrival could have.
    let stream = folder.file("stream", &[turn(0), field(2, &[0; 12])].concat());
    let said = replay(&stream, &[]);
    let bad = "1 call, 4 bytes; stopped at field 2, byte 4, a bad field: \
               arrive has a value of 11 bytes, and this one is of 12 bytes\n";
    assert!(said.out.starts_with(bad), "{}", said.out);
    // A setup comes later.
    let bytes = [turn(0), setup(1), turn(0)].concat();
    let stream = folder.file("stream", &bytes);
    let said = replay(&stream, &[]);
    assert_eq!(said.status, Some(0));
    OneByOne::run(zeros(), &bytes).is_said(&said);
}

#[test]
fn an_image_that_is_no_state() {
    let folder = Folder::new("replay-broken");
    let bytes = changed(&[(at::LAST, 1, 200)]);
    let image = folder.file("image", &bytes);
    let stream = folder.file("stream", &turn(0));
    let new = folder.path("new");
    let words = [
        "--image",
        image.to_str().unwrap(),
        "-o",
        new.to_str().unwrap(),
    ];
    let said = replay(&stream, &words);
    let wanted = "(b) port 0: last served queue 200 is none of 24\n\
                  replay refused (3): it needs a switch state to start from\n";
    assert_eq!((said.out.as_str(), said.err.as_str()), (wanted, ""));
    assert_eq!(said.status, Some(1));
    assert!(!new.exists());
    assert_eq!(fs::read(&image).unwrap(), bytes);
}

/// Many pieces, at whose ends fields are cut, and pieces of a few bytes.
#[test]
fn long_streams() {
    let folder = Folder::new("replay-long");
    let mut random = Random::new(3);
    let settings = Settings::ten_bytes().nodes(2).beat(64).slots(1).credit(16);
    let mut bytes = setup(2);
    // More than three pieces, each of which ends somewhere else in a field.
    bytes.extend(some_fields(&mut random, settings, 150_000));
    assert!(bytes.len() > 3 << 18, "{}", bytes.len());
    let wanted = OneByOne::run(zeros(), &bytes);
    let stream = folder.file("stream", &bytes);
    let new = folder.path("new");
    wanted.is_said(&replay(&stream, &["-o", new.to_str().unwrap()]));
    assert_eq!(fs::read(&new).unwrap(), state_alone(wanted.switch));

    let few = &bytes[..20_000];
    let wanted = OneByOne::run(zeros(), few);
    for size in [1, 7, 4096] {
        let parts: Vec<&[u8]> = few.chunks(size).collect();
        wanted.is_said(&piped(&[], &parts, Duration::ZERO));
    }
}

/// A field of the most bytes, over several pieces of a pipe.
#[test]
fn the_longest_field() {
    let bytes = [setup(1), field(3, &[0; 65_535]), turn(0)].concat();
    for size in [1000, 65_536, bytes.len()] {
        let parts: Vec<&[u8]> = bytes.chunks(size).collect();
        let said = piped(&[], &parts, Duration::ZERO);
        let wanted = "1 call, 10 bytes; stopped at field 2, byte 10, a bad field: \
                      stitch has a value of 1 byte, and this one is of 65535 bytes\n";
        assert!(said.out.starts_with(wanted), "{}", said.out);
    }
}

fn words(stream: &Path, new: &Path) -> Vec<OsString> {
    vec!["replay".into(), stream.into(), "-o".into(), new.into()]
}

fn maker(bytes: &[u8]) -> Maker<'_> {
    let name = "replay";
    Maker { name, bytes, words }
}

#[test]
fn nothing_is_overwritten() {
    maker(&whole_case()).overwrites_nothing();
}

/// But nobody may run it.
#[test]
fn the_image_has_the_streams_permissions() {
    maker(&whole_case()).passes_on_permissions(0o666);
}

/// What is made of an image has all of the image's permissions.
#[test]
fn the_image_has_the_other_images_permissions() {
    // Of an empty stream: standard input is closed.
    fn words(image: &Path, new: &Path) -> Vec<OsString> {
        let start = ["replay", "-", "--image"].map(OsString::from);
        let rest = [image.into(), "-o".into(), new.into()];
        start.into_iter().chain(rest).collect()
    }
    let (name, bytes) = ("replay-image", &wide());
    let maker = Maker { name, bytes, words };
    maker.overwrites_nothing();
    maker.passes_on_permissions(0o777);
    if let Some(image) = maker.tells_of_what_it_cannot_say() {
        assert_eq!(image, wide());
    }
}

/// What the replay came to is said all the same.
#[test]
fn an_image_that_does_not_fit() {
    let said = maker(&whole_case()).takes_away_what_does_not_fit(4);
    assert_eq!(but_speed(&said), WHOLE_CASE);
}

#[test]
fn an_image_of_which_nothing_can_be_said() {
    if let Some(image) = maker(&whole_case()).tells_of_what_it_cannot_say() {
        assert_eq!((image.len(), find(&image)), (6668, None));
    }
}

#[test]
fn streams_that_cannot_be_read() {
    let folder = Folder::new("replay-unreadable");
    let unreadable = |path: &Path, why: &str| {
        let said = replay(path, &[]);
        assert_eq!(said.err, format!("vr: {}: {why}\n", path.display()));
        assert_eq!((said.status, said.out.as_str()), (Some(2), ""));
    };
    unreadable(&folder.path("no"), "No such file or directory (os error 2)");
    unreadable(&folder.path(""), "is a directory, not a stream");
    unreadable(Path::new("/dev/zero"), "is not a regular file");
    let stream = folder.file("stream", &turn(0));
    let said = replay(&stream, &["--image", "no/image"]);
    let wanted = "vr: no/image: No such file or directory (os error 2)\n";
    assert_eq!((said.status, said.err.as_str()), (Some(2), wanted));
    let mut vr = command();
    let inside = fs::File::open(folder.path("")).unwrap();
    let said = Said::from(vr.args(["replay", "-"]).stdin(inside).output().unwrap());
    let wanted = "vr: standard input: Is a directory (os error 21), at byte 0, after 0 calls\n";
    assert_eq!((said.err.as_str(), said.out.as_str()), (wanted, ""));
    assert_eq!(said.status, Some(2));
}

/// A terminal sees how far a long replay is, on a line that is wiped then; nobody
/// else sees anything of it.
#[test]
fn how_far_it_is() {
    let start = [setup(2), turn(0)].concat();
    let rest = Duration::from_millis(2100);
    let said = piped(&[], &[&start, &turn(1)], rest);
    assert_eq!((said.status, said.err.as_str()), (Some(0), ""));
    let folder = Folder::new("replay-progress");
    folder.file("start", &start);
    folder.file("rest", &turn(1));
    let line = "(cat start; sleep 2.1; cat rest) | \"$VR\" replay -";
    let mut script = Command::new("script");
    script
        .args(["-qec", line, "/dev/null"])
        .env("VR", program());
    let output = script.current_dir(folder.path("")).output();
    let output = match output {
        Err(why) if why.kind() == ErrorKind::NotFound => return,
        output => output.unwrap(),
    };
    let seen = String::from_utf8(output.stdout).unwrap();
    let wanted = "\r\x1b[K18 bytes, 3 calls\r\x1b[K3 calls, 18 bytes: to the end of the stream\r\n";
    assert!(seen.starts_with(wanted), "{seen:?}");
}
