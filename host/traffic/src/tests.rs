use std::collections::BTreeMap;

use model::bench::bench;
use model::header::{read, write, Header};
use model::{marked, size, Call, Choice, Ledger, Model, Reply, Settings, Shape, Stop, REFUSALS};

use crate::fields::calls;
use crate::headers::{
    any_bytes, any_shape, made_up_queue, no_shape, reserved_bits, right_fields, spelt, wrong_fields,
};
use crate::{
    field, header, plain, run_calls, run_field, stream, Before, Halts, Profile, Random, Traffic,
    PACKET_AIMS, SHAPES,
};

/// How often each answer came. Refusals by their numbers.
#[derive(Default, Debug)]
struct Counts {
    refused: [u64; 28],
    accepted: BTreeMap<&'static str, u64>,
    halts: Halts,
}

fn name(call: &Call, reply: &Reply) -> &'static str {
    match (call, reply) {
        (Call::Setup(_), _) => "setup",
        (Call::Arrive { .. }, _) => "arrive",
        (Call::Stitch { .. }, _) => "stitch",
        (Call::Prefetch { .. }, _) => "prefetch",
        (Call::Credit { .. }, _) => "credit",
        (Call::Map { .. }, _) => "map",
        (Call::Turn { .. }, Reply::Idle) => "idle turn",
        (Call::Turn { .. }, _) => "turn",
        (Call::Ready { .. }, _) => "ready",
        (Call::Where { .. }, _) => "where",
        (Call::Round { .. }, _) => "round",
        (Call::Clear { .. }, _) => "clear",
        (Call::Report { .. }, _) => "report",
        (Call::TimedTurn { .. }, Reply::Idle) => "idle timed turn",
        (Call::TimedTurn { .. }, _) => "timed turn",
        (Call::Bucket { .. }, _) => "bucket",
        (Call::ArrivePacket { .. }, _) => "whole packet",
        (Call::Show { .. }, _) => "show",
    }
}

/// What a call that moves nothing leaves of a ledger: all of it but, where a header
/// lied, the mark of a port that had none.
fn left(before: &Ledger, call: &Call, reply: &Reply) -> Ledger {
    let mut ledger = before.clone();
    if let Some((port, number)) = marked(call, reply) {
        let mark = &mut ledger.ports[port as usize].mark;
        *mark = if *mark == 0 { number } else { *mark };
    }
    ledger
}

/// 200,000 calls of a profile, over some seeds, with the ten-byte header.
fn run(profile: Profile, memory_len: usize) -> Counts {
    run_shape(profile, Shape::TEN_BYTES, memory_len, 25_000)
}

/// So many calls eight times over, with no packets.
fn run_shape(profile: Profile, shape: Shape, memory_len: usize, calls: usize) -> Counts {
    run_traffic(profile, memory_len, calls, |seed| {
        Traffic::of(seed, profile, shape)
    })
}

/// Both choices of the turn answer the same, the check holds, and a refusal changes
/// nothing but a mark.
fn run_traffic(
    profile: Profile,
    memory_len: usize,
    calls: usize,
    traffic: impl Fn(u64) -> Traffic,
) -> Counts {
    let mut counts = Counts::default();
    for seed in 0..8 {
        let mut traffic = traffic(seed);
        let mut whole = Model::with_choice(memory_len, Choice::WholeWord);
        let mut early = Model::with_choice(memory_len, Choice::EarlyOut);
        for number in 0..calls {
            let call = traffic.next(&whole);
            let before = (number % 20 == 0).then(|| whole.clone());
            let stood = Before::of(&whole, &call);
            let reply = whole.call(&call);
            assert_eq!(early.call(&call), reply, "{call:?}");
            counts.halts.note(stood, &call, &reply);
            match reply {
                Reply::Refused(refusal) => counts.refused[refusal as usize] += 1,
                _ => *counts.accepted.entry(name(&call, &reply)).or_default() += 1,
            }
            let nothing = matches!(
                reply,
                Reply::Refused(_) | Reply::Idle | Reply::Mark(_) | Reply::Shown(_)
            );
            if let (Some(before), true) = (before, nothing) {
                let wanted = before.ledger().map(|ledger| left(ledger, &call, &reply));
                assert_eq!(whole.ledger(), wanted.as_ref(), "{call:?}");
                assert_eq!(whole.stored(), before.stored(), "{call:?}");
            }
            if number % 100 == 0 {
                assert_eq!(
                    whole.check(),
                    Ok(()),
                    "{profile:?}, seed {seed}, call {number}"
                );
                assert_eq!(whole.ledger(), early.ledger());
            }
        }
    }
    println!("{profile:?}: {:?}", counts.accepted);
    println!("  refused 1 to 27: {:?}", &counts.refused[1..]);
    println!("  {}", counts.halts);
    counts
}

fn accepted(counts: &Counts) -> u64 {
    counts.accepted.values().sum()
}

fn each_refusal_at_least(counts: &Counts, least: u64) {
    refusals_of_shape_at_least(&Shape::TEN_BYTES, counts, least);
}

/// But for those that no arrival of the shape can be given, those of switches that
/// keep packets, and the writer's.
fn refusals_of_shape_at_least(shape: &Shape, counts: &Counts, least: u64) {
    let random = &mut Random::new(0);
    for refusal in REFUSALS.into_iter().filter(|&refusal| refusal > 3) {
        let times = counts.refused[refusal as usize];
        let can_be = match refusal {
            19 => made_up_queue(random, shape).is_some(),
            20 => reserved_bits(random, shape).is_some(),
            16 | 17 | 21 => false,
            _ => true,
        };
        let enough = if can_be { times >= least } else { times == 0 };
        assert!(enough, "{shape:?}, refusal {refusal}: {times} times");
    }
    assert!(counts.refused[3] > 0);
}

fn each_call_at_least(counts: &Counts, least: u64) {
    for call in [
        "arrive",
        "stitch",
        "prefetch",
        "credit",
        "map",
        "idle turn",
        "turn",
        "ready",
        "where",
        "round",
        "clear",
        "report",
    ] {
        let times = counts.accepted.get(call).copied().unwrap_or(0);
        assert!(times >= least, "{call}: {times} times");
    }
}

#[test]
fn valid_traffic() {
    let counts = run(Profile::Valid, 65_536);
    assert!(accepted(&counts) > 190_000);
    each_call_at_least(&counts, 500);
    each_refusal_at_least(&counts, 30);
    // Halted ports are cleared soon.
    assert!(counts.halts.above_queue_0() > 20_000);
}

#[test]
fn hostile_traffic() {
    let counts = run(Profile::Hostile, 65_536);
    each_call_at_least(&counts, 500);
    each_refusal_at_least(&counts, 1500);
    assert!(counts.refused[1] > 500 && counts.refused[2] > 2000);
    assert_eq!(counts.halts.too_rare(1000), []);
}

#[test]
fn tiny_traffic() {
    let counts = run(Profile::Tiny, size(&Settings::ten_bytes(2, 64, 1, 0)));
    each_call_at_least(&counts, 500);
    each_refusal_at_least(&counts, 500);
}

#[test]
fn full_traffic() {
    let counts = run(Profile::Full, 65_536);
    each_call_at_least(&counts, 500);
    each_refusal_at_least(&counts, 500);
    // The ones that fullness brings.
    for refusal in [10, 11, 13] {
        assert!(counts.refused[refusal] > 3000);
    }
}

#[test]
fn resetup_traffic() {
    let counts = run(Profile::Resetup, size(&Settings::ten_bytes(200, 64, 1, 0)));
    each_call_at_least(&counts, 500);
    each_refusal_at_least(&counts, 200);
    assert!(counts.accepted["setup"] > 1000);
    assert!(counts.refused[1] > 100 && counts.refused[2] > 100);
}

/// Every profile with packet memories: whole packets are taken in and shown, and all
/// that they can be refused is; of the few states that keep none come headers too.
#[test]
fn traffic_with_whole_packets() {
    let memory_len = size(&Settings::ten_bytes(6, 64, 1, 0));
    let mut all = Counts::default();
    for profile in Profile::ALL {
        let counts = run_traffic(profile, memory_len, 2_000, |seed| {
            Traffic::new(seed, profile).with_packets(6)
        });
        for call in ["whole packet", "show", "stitch", "prefetch", "turn"] {
            let times = counts.accepted.get(call).copied().unwrap_or(0);
            assert!(times >= 100, "{profile:?}, {call}: {times} times");
        }
        if profile == Profile::Hostile {
            for refusal in PACKET_AIMS {
                let times = counts.refused[refusal as usize];
                assert!(times >= 100, "refusal {refusal}: {times} times");
            }
            assert_eq!(counts.halts.too_rare(20), []);
        }
        for (all, refused) in all.refused.iter_mut().zip(counts.refused) {
            *all += refused;
        }
    }
    for refusal in REFUSALS.into_iter().filter(|&refusal| refusal != 21) {
        let times = all.refused[refusal as usize];
        assert!(times >= 20, "refusal {refusal}: {times} times");
    }
}

/// Every profile at every shape: all that can be answered is.
#[test]
fn traffic_of_every_shape() {
    for shape in SHAPES {
        let nodes = if shape.ports > 8 { 2 } else { 8 };
        let memory_len = size(&Settings::of(shape, nodes, 64, 1, 0));
        for profile in Profile::ALL {
            let counts = run_shape(profile, shape, memory_len, 800);
            each_call_at_least(&counts, 5);
            // Of setups with other shapes come refusals that this one has not.
            if profile == Profile::Hostile {
                refusals_of_shape_at_least(&shape, &counts, 20);
                assert!(counts.refused[1] > 5 && counts.refused[2] > 20);
                assert_eq!(counts.halts.too_rare(10), [], "{shape:?}");
            }
            if profile == Profile::Valid {
                assert!(counts.halts.above_queue_0() > 200, "{shape:?}");
            }
        }
    }
}

#[test]
fn traffic_lives_with_memory_too_short_for_any_setup() {
    let mut model = Model::new(100);
    for profile in Profile::ALL {
        let mut traffic = Traffic::new(5, profile);
        for _ in 0..1000 {
            let call = traffic.next(&model);
            let reply = model.call(&call);
            assert!(matches!(reply, Reply::Refused(1..=3)));
        }
    }
}

#[test]
fn a_seed_gives_the_same_traffic_again() {
    for profile in Profile::ALL {
        let calls = |seed| {
            let mut traffic = Traffic::new(seed, profile);
            let mut model = Model::new(65_536);
            let mut next = || {
                let call = traffic.next(&model);
                model.call(&call);
                call
            };
            (0..2000).map(|_| next()).collect::<Vec<_>>()
        };
        assert_eq!(calls(1), calls(1));
        assert_ne!(calls(1), calls(2));
    }
}

#[test]
fn header_cards() {
    let plain =
        |dest, source, queue, length| header(dest, source, queue, length, false, false, 0, 0, 0);
    assert_eq!(plain(0, 0, 0, 12), [0, 0, 0x30, 0, 0, 0, 0, 0, 0, 0x72]);
    assert_eq!(plain(1, 2, 23, 8191)[..3], [0x6B, 0xFF, 0xFC]);
}

#[test]
fn headers_are_read_back() {
    for (dest, source) in (0..4).flat_map(|dest| (0..4).map(move |source| (dest, source))) {
        for queue in 0..32 {
            for length in (0..8192).step_by(63) {
                let (poisoned, reserved) = (length % 2 == 0, length % 3 == 0);
                let bytes = header(
                    dest,
                    source,
                    queue,
                    length,
                    poisoned,
                    reserved,
                    0xFEDC_BA98,
                    0x76,
                    0x54,
                );
                let wanted = match (reserved, length, queue) {
                    (true, ..) => Err(20),
                    (_, 0..=11, _) => Err(9),
                    (.., 24..) => Err(19),
                    _ => Ok(Header {
                        destination: dest,
                        source,
                        queue,
                        length,
                        poisoned: poisoned.into(),
                        timestamp: 0xFEDC_BA98,
                        credit: 0x76,
                        transaction: 0x54,
                    }),
                };
                assert_eq!(read(&Shape::TEN_BYTES, &bytes), wanted);
            }
        }
    }
}

#[test]
fn a_plain_header_of_two_ports_and_two_queues() {
    let bytes = plain(&Shape::wide(2, 2), 1, 0, 1, 13);
    assert_eq!(bytes[..3], [0xA0, 0x0D, 0]);
    assert_eq!(bytes.len(), 11);
}

/// What is spelt here bit by bit, the model writes and reads as one number; and
/// fields that are made to be refused are.
#[test]
fn fields_of_every_shape_are_right_or_wrong_as_meant() {
    let mut random = Random::new(21);
    for _ in 0..50_000 {
        let shape = any_shape(&mut random);
        assert!(shape.in_its_rows());
        let right = right_fields(&mut random, &shape);
        let bytes = spelt(&shape, &right, 0);
        assert_eq!(write(&shape, &right).as_ref(), Ok(&bytes));
        assert_eq!(read(&shape, &bytes), Ok(right));
        let wrong = wrong_fields(&mut random, &shape);
        assert_eq!(write(&shape, &wrong), Err(21), "{shape:?} {wrong:?}");
        let none = no_shape(&mut random);
        assert!(!none.in_its_rows(), "{none:?}");
        assert_eq!(
            (read(&none, &bytes), write(&none, &wrong)),
            (Err(2), Err(2))
        );
    }
}

/// Bytes for the reader get every answer often.
#[test]
fn bytes_of_every_shape_get_every_answer() {
    let mut random = Random::new(22);
    let mut counts = [0; 28];
    for _ in 0..50_000 {
        let shape = any_shape(&mut random);
        let bytes = any_bytes(&mut random, &shape);
        counts[read(&shape, &bytes).err().unwrap_or(0) as usize] += 1;
    }
    println!("{counts:?}");
    for number in [0, 6, 7, 20, 9, 19] {
        assert!(counts[number] > 1000, "{number}: {counts:?}");
    }
}

/// A line of the bench program after its number, from the model's answer.
fn wanted_words(call: &Call, reply: &Reply) -> String {
    match (call, reply) {
        (_, Reply::Refused(number)) => format!("{number}"),
        (_, Reply::Entry(entry)) => format!("0 {entry}"),
        (_, Reply::Stitched(record)) => {
            format!("0 {}", u32::from(record[0]) * 256 + u32::from(record[1]))
        }
        (_, Reply::Leaves(packet, _)) => format!("0 {}", packet.entry),
        (_, Reply::Idle) => "0 idle".into(),
        (_, Reply::Done) => "0".into(),
        other => panic!("{other:?}"),
    }
}

#[test]
fn fields_go_through_the_bench_program() {
    for profile in Profile::ALL {
        let mut traffic = Traffic::new(11, profile);
        let mut model = Model::new(65_536);
        let (mut input, mut wanted, mut number) = (Vec::new(), String::new(), 0);
        for _ in 0..20_000 {
            let call = traffic.next(&model);
            let field = match field(&call) {
                Some(field) => field,
                None => continue,
            };
            input.extend(field);
            number += 1;
            let reply = model.call(&call);
            wanted += &format!("{number} {}\n", wanted_words(&call, &reply));
        }
        assert!(number > 10_000);
        assert_eq!(String::from_utf8(bench(&input)).unwrap(), wanted);
    }
}

#[test]
fn streams_have_their_fields_and_some_end_badly() {
    let (mut good, mut bad) = (0, 0);
    for seed in 0..400 {
        let n = (seed % 40) as usize;
        let input = stream(seed, n);
        assert_eq!(input, stream(seed, n));
        let output = String::from_utf8(bench(&input)).unwrap();
        let lines: Vec<&str> = output.lines().collect();
        assert!(output.is_empty() || output.ends_with('\n'));
        for (number, line) in (1..).zip(&lines) {
            assert_eq!(line.split(' ').next(), Some(format!("{number}").as_str()));
            assert_eq!(line.ends_with("bad"), number == n + 1, "{line}");
        }
        if lines.len() == n {
            good += 1;
        } else {
            assert_eq!(lines.len(), n + 1);
            bad += 1;
        }
    }
    assert!(good > 100 && bad > 100);
}

/// The bench program has no clear, and yet packets of all queues come in, beside
/// lies and what they turn away.
#[test]
fn streams_take_in_packets_above_queue_0() {
    let mut halts = Halts::default();
    for seed in 0..120 {
        let mut model = Model::new(65_536);
        for call in calls(&mut Random::new(!seed), seed, 600) {
            let before = Before::of(&model, &call);
            let reply = model.call(&call);
            halts.note(before, &call, &reply);
        }
    }
    println!("{halts}");
    // There is no clear, and so nothing after one.
    let rare = halts.too_rare(20);
    let never = ["cleared", "taken in above queue 0 after a clear"];
    assert_eq!(rare, never.map(|name| (name, 0)));
    assert!(halts.above_queue_0() > 3000);
}

#[test]
fn fields_have_no_room_for_larger_numbers() {
    assert_eq!(field(&Call::Turn { port: 255 }), Some(vec![5, 0, 1, 255]));
    assert_eq!(field(&Call::Turn { port: 256 }), None);
    assert_eq!(field(&Call::Ready { port: 0 }), None);
    assert_eq!(field(&Call::Where { entry: 0 }), None);
    assert_eq!(field(&Call::Round { room: vec![0; 16] }), None);
    assert_eq!(field(&Call::Clear { port: 0 }), None);
    assert_eq!(field(&Call::Report { port: 0 }), None);
    assert_eq!(field(&Call::TimedTurn { port: 0, now: 0 }), None);
    assert_eq!(field(&Call::Bucket { port: 0, bucket: 0 }), None);
    for settings in [
        Settings::wide(4, 24, 1, 64, 1, 0),
        Settings::ten_bytes(1, 64, 1, 0).with_packets(),
    ] {
        assert_eq!(field(&Call::Setup(settings)), None);
    }
    let packet = Call::ArrivePacket {
        port: 0,
        packet: vec![0; 10],
        lent: 8192,
    };
    assert_eq!(field(&packet), None);
    let show = Call::Show {
        port: 0,
        queue: 0,
        lent: [8192; 4],
    };
    assert_eq!(field(&show), None);
    let nine = Call::Arrive {
        port: 0,
        header: vec![0; 9],
    };
    assert_eq!(field(&nine), None);
    let credit = |amount| Call::Credit {
        port: 1,
        queue: 2,
        amount,
    };
    assert_eq!(
        field(&credit(65_535)),
        Some(vec![6, 0, 4, 1, 2, 0xFF, 0xFF])
    );
    assert_eq!(field(&credit(65_536)), None);
}

#[test]
fn fields_of_runs_take_the_switchs_own_headers() {
    let wide = Shape::wide(8, 16);
    let arrive = |header: Vec<u8>| Call::Arrive { port: 7, header };
    let [ten, own] = [Shape::TEN_BYTES, wide].map(|shape| arrive(plain(&shape, 0, 3, 0, 13)));
    for shape in [Shape::TEN_BYTES, wide] {
        assert_eq!(run_field(&shape, &ten), field(&ten));
        let settings = Settings::ten_bytes(1, 64, 1, 16);
        assert_eq!(run_field(&shape, &Call::Setup(settings)), None);
        let turn = Call::Turn { port: 255 };
        assert_eq!(run_field(&shape, &turn), field(&turn));
    }
    assert_eq!(run_field(&Shape::TEN_BYTES, &own), None);
    let bytes = [&[2, 0, 12, 7], &plain(&wide, 0, 3, 0, 13)[..]].concat();
    assert_eq!(run_field(&wide, &own), Some(bytes));
    assert_eq!(run_field(&wide, &arrive(vec![0; 12])), None);
    // A port above the last is refused, one that fits no byte has no field.
    let header = vec![0; 11];
    assert_eq!(run_field(&wide, &Call::Arrive { port: 256, header }), None);
}

/// The calls are the fields' calls, and not all are refused, however long the run.
#[test]
fn runs_have_the_calls_of_their_fields() {
    for shape in SHAPES {
        for (seed, profile) in (1..).zip(Profile::ALL) {
            let mut model = Model::new(size(&Settings::of(shape, 4, 64, 2, 0)));
            let settings = Settings::of(shape, 4, 64, 2, 300);
            assert_eq!(model.call(&Call::Setup(settings)), Reply::Done);
            let mut ahead = model.clone();
            let mut traffic = Traffic::of(seed, profile, shape);
            let calls = run_calls(&mut Random::new(seed), &mut traffic, &mut ahead, 5_000);
            let bytes: Vec<u8> = calls
                .iter()
                .flat_map(|call| run_field(&shape, call).unwrap())
                .collect();
            let mut answers = vec![0; 4 * calls.len()];
            let ran = model.run(&bytes, &mut answers).unwrap();
            assert_eq!((ran.count, ran.why), (5_000, Stop::Ended));
            assert_eq!(model, ahead);
            let of_turns = answers.chunks(4).zip(&calls);
            let sent = of_turns
                .filter(|(answer, call)| matches!(call, Call::Turn { .. }) && answer[..2] == [0, 0])
                .count();
            println!("{shape:?} {profile:?}: {sent} sent");
            assert!(sent > 50, "{shape:?} {profile:?}: {sent} sent");
        }
    }
}
