//! The night crew's calls: audits of switches of every size, repairs among
//! traffic, and whether slips in the test, the finding, the audit or the repair
//! would be found.

use std::cell::Cell;

use checks::changes::{apply, changes};
use checks::finding::{self, WAYS};
use checks::night::{Crew, PROVED};
use checks::scale::Scale;
use checks::{damage, library, reader, writer};
use model::{Call, Ledger, Model, Reply, Settings, Shape};
use traffic::{plain, Profile, Random, Traffic, SHAPES};
use ventorupo::calls;

/// The switches that are audited: every shape, and the ten-byte header's with
/// many nodes too.
fn scales() -> Vec<Scale> {
    let small = SHAPES.into_iter().map(|shape| Scale { shape, nodes: 3 });
    let ten = [1, 2, 16, 256, 2048].map(Scale::ten_bytes);
    small.chain(ten).collect()
}

/// Library and model, after setup.
fn begin(scale: &Scale) -> (Vec<u8>, Model) {
    let (mut memory, mut model) = (vec![0; scale.bytes()], Model::new(scale.bytes()));
    let settings = Settings::of(scale.shape, scale.nodes, 64, 2, 1000);
    make(&mut memory, &mut model, &Call::Setup(settings));
    (memory, model)
}

/// A call on both.
fn make(memory: &mut [u8], model: &mut Model, call: &Call) -> Reply {
    let reply = model.call(call);
    assert_eq!(library::call(memory, call).as_ref(), Ok(&reply), "{call:?}");
    reply
}

/// So many packets at each port, in all lists but the free ones, in turn.
fn fill(memory: &mut [u8], model: &mut Model, shape: &Shape, packets: u32) {
    let Shape { ports, queues, .. } = *shape;
    for port in 0..ports {
        let to = (port + 1) % ports;
        make(memory, model, &Call::Map { id: port, port: to });
    }
    for packet in 0..packets {
        for port in 0..ports {
            let queue = (packet + port) % queues;
            let header = plain(shape, port, port, queue, 100);
            let reply = make(memory, model, &Call::Arrive { port, header });
            assert!(matches!(reply, Reply::Entry(_)), "{reply:?}");
            let to = (port + 1) % ports;
            if packet % 3 > 0 {
                make(memory, model, &Call::Stitch { port });
            }
            if packet % 3 > 1 {
                make(memory, model, &Call::Prefetch { port: to, queue });
            }
        }
    }
}

/// Every node's block of an audit is what where answers for it.
fn blocks_are_places(memory: &[u8], scale: &Scale) {
    let nodes = scale.nodes;
    let mut room = vec![0xA7; (8 * scale.shape.ports * nodes) as usize];
    assert_eq!(calls::audit(memory, &mut room), 0);
    for (at, block) in (0..).zip(room.chunks_exact(8)) {
        let mut place = [0; 8];
        let entry = at / nodes * 2048 + at % nodes;
        assert_eq!(calls::place_of(memory, entry, &mut place), 0);
        assert_eq!(block, place, "entry {entry}");
    }
}

/// Of empty, half-full and full switches: the model's bytes into rooms of all
/// lengths about the least, and by `where` node for node.
#[test]
fn audits_of_empty_half_full_and_full_switches() {
    for scale in scales() {
        let Scale { shape, nodes } = scale;
        for packets in [0, nodes / 2, nodes] {
            let (mut memory, mut model) = begin(&scale);
            fill(&mut memory, &mut model, &shape, packets);
            let free = |ledger: &Ledger| ledger.ports.iter().map(|p| p.free.len()).sum::<usize>();
            let left = model.ledger().map(free);
            assert_eq!(left, Some((shape.ports * (nodes - packets)) as usize));
            let enough = 8 * (shape.ports * nodes) as usize;
            for room in [0, 7, 8, enough - 1, enough, enough + 1, enough + 4000] {
                PROVED.audits_into(&memory, &model, room).unwrap();
            }
            assert_eq!(PROVED.finds(&memory), Ok(None));
            blocks_are_places(&memory, &scale);
        }
    }
}

/// Traffic with damage and a repair now and then: library and model go on from
/// the starting ledger with the map kept, and agree.
#[test]
fn traffic_goes_on_after_a_repair() {
    let ten = [1, 2, 4, 16, 64].map(Scale::ten_bytes);
    let wide = SHAPES.into_iter().map(|shape| Scale { shape, nodes: 4 });
    for (seed, scale) in (1..).zip(ten.into_iter().chain(wide)) {
        let (mut memory, mut model) = begin(&scale);
        let mut random = Random::new(seed);
        let mut traffic = Traffic::of(seed, Profile::Valid, scale.shape);
        let mut repairs = 0;
        while repairs < scale.share(60) {
            for _ in 0..random.among(1, 60) {
                let call = traffic.next(&model);
                make(&mut memory, &mut model, &call);
            }
            let ledger = model.ledger().unwrap();
            let damage = changes(&mut random, &memory, &ledger.settings);
            // A sound one is repaired too, now and then.
            let damaged = match random.one_in(8) {
                true => memory.clone(),
                false => apply(&memory, &damage),
            };
            if writer::repaired(&damaged).is_none() {
                continue;
            }
            let repaired = Ledger::repaired(reader::settings(&damaged), reader::map(&damaged));
            memory = damaged;
            assert_eq!(calls::repair(&mut memory), 0);
            model = Model::with_ledger(memory.len(), repaired);
            let after = reader::judged(&memory).unwrap();
            assert_eq!(after.ledger(), model.ledger());
            repairs += 1;
        }
    }
}

/// Any bytes at all, of any length: the finding ends, and with (a) mostly.
#[test]
fn any_bytes_are_found_alike() {
    let mut random = Random::new(11);
    let lengths = (0..40).chain([4509, 4510, 4511, 6667, 6668, 6669, 65_536]);
    for length in lengths.cycle().take(2000) {
        let mut bytes: Vec<u8> = (0..length).map(|_| random.word() as u8).collect();
        // Settings that are right, and the rest anything: of two editions.
        let ten = [0, 4, 0, 24, 0, 1, 0, 64, 0, 8, 1, 0, 0, 0, 0, 0];
        let wide = [0, 2, 0, 2, 0, 1, 0, 64, 0, 8, 1, 0, 0, 1, 0, 0];
        if length >= 16 && random.one_in(2) {
            bytes[..16].copy_from_slice(&random.pick(&[ten, wide]));
        }
        // And a map that is right.
        if length >= 4112 && random.one_in(2) {
            bytes[16..4112].fill(1);
        }
        let judged = reader::judged(&bytes);
        let found = PROVED.agrees(&bytes, length, &judged).unwrap();
        assert!(found.is_some());
    }
}

/// A crew with a slip, looked for on damaged memory: what is told of it.
fn found(slip: Crew) -> String {
    for number in 0..400 {
        let plan = damage::Plan::numbered(9, number, 50);
        let mut verdicts = damage::Verdicts::default();
        if let Err(failure) = damage::run_with(&plan, &library::call, &slip, &mut verdicts) {
            return failure.message;
        }
    }
    panic!("the slip was not found");
}

/// A test that lets one rule's breaches through, and another that refuses a
/// state.
#[test]
fn a_slip_in_the_test_is_found() {
    for (is_state, wanted) in [
        (
            (|memory| matches!((PROVED.find)(memory), (0 | 7, _))) as fn(&[u8]) -> bool,
            "the test says true, the finding is Some(Finding { rule: 'g'",
        ),
        (
            |memory| matches!((PROVED.find)(memory), (0 | 9, _)),
            "the test says true, the finding is Some(Finding { rule: 'i'",
        ),
        (
            |memory| rules::is_state(memory) && memory[4112] == 0,
            "the test says false, the finding is None",
        ),
    ] {
        let message = found(Crew { is_state, ..PROVED });
        assert!(message.starts_with(wanted), "{message}");
    }
}

/// The finding with one item or rule told otherwise, for each way in which a
/// rule can be broken.
#[test]
fn a_slip_in_each_rules_finding_is_found() {
    thread_local!(static WAY: Cell<(char, &'static str)> = const { Cell::new(WAYS[0]) });
    for way in WAYS {
        WAY.with(|cell| cell.set(way));
        let message = found(Crew {
            find: |memory| {
                let (rule, item) = (PROVED.find)(memory);
                let way = finding::first(memory).map(|found| (found.rule, found.way));
                (rule, item + u64::from(way == Some(WAY.with(Cell::get))))
            },
            ..PROVED
        });
        assert!(message.contains(way.1), "{way:?}: {message}");
    }
}

/// A finding that tells a later rule, and one that leaves the item unwritten
/// where nothing is found.
#[test]
fn a_slip_in_the_findings_order_is_found() {
    let message = found(Crew {
        find: |memory| match (PROVED.find)(memory) {
            (3, item) => (4, item),
            right => right,
        },
        ..PROVED
    });
    assert!(message.starts_with("the finding is (4, "), "{message}");
    let message = found(Crew {
        find: |memory| match (PROVED.find)(memory) {
            (0, _) => (0, 7),
            right => right,
        },
        ..PROVED
    });
    assert_eq!(message, "the finding is (0, 7), the reader's None");
}

/// A position one off, a queue told of a free list, a block past the answer, a
/// short room taken, 27 before 3, a room written where it is refused.
#[test]
fn a_slip_in_the_audit_is_found() {
    for (audit, wanted) in [
        (
            (|memory, room| {
                let answer = calls::audit(memory, room);
                if answer == 0 {
                    room[7] ^= 1;
                }
                answer
            }) as fn(&[u8], &mut [u8]) -> u32,
            "after an audit into",
        ),
        (
            |memory, room| {
                let answer = calls::audit(memory, room);
                if answer == 0 && room[2] == 0 {
                    room[4] = 1;
                }
                answer
            },
            "after an audit into",
        ),
        (
            |memory, room| {
                let answer = calls::audit(memory, room);
                if answer == 0 && room.len() % 8 == 5 {
                    room[room.len() - 5] = 0;
                }
                answer
            },
            "after an audit into",
        ),
        (
            |memory, room| match calls::audit(memory, room) {
                27 if room.len() % 8 == 7 => 0,
                answer => answer,
            },
            "an audit into",
        ),
        (
            |memory, room| match calls::audit(memory, room) {
                3 if room.len() < 32 => 27,
                answer => answer,
            },
            "an audit into",
        ),
        (
            |memory, room| {
                let answer = calls::audit(memory, room);
                if answer == 3 {
                    room[0] = 0;
                }
                answer
            },
            "after an audit into",
        ),
    ] {
        let message = found(Crew { audit, ..PROVED });
        assert!(message.starts_with(wanted), "{message}");
    }
}

/// A repair that forgets the map, keeps an entry that is no port, mends a sound
/// memory alone, changes what it refuses, or writes past the size.
#[test]
fn a_slip_in_the_repair_is_found() {
    for (repair, wanted) in [
        (
            (|memory| {
                let answer = calls::repair(memory);
                if answer == 0 {
                    memory[17] = 0;
                }
                answer
            }) as fn(&mut [u8]) -> u32,
            "after a repair, answered 0, byte 17",
        ),
        (
            |memory| {
                let kept = memory.get(4111).copied();
                let answer = calls::repair(memory);
                if let (0, Some(4)) = (answer, kept) {
                    memory[4111] = 4;
                }
                answer
            },
            "after a repair, answered 0, byte 4111 was 0 and is 4",
        ),
        (
            |memory| match rules::is_state(memory) {
                true => calls::repair(memory),
                false => 3,
            },
            "a repair answers 3",
        ),
        (
            |memory| {
                let answer = calls::repair(memory);
                if let (3, Some(first)) = (answer, memory.first_mut()) {
                    *first ^= 1;
                }
                answer
            },
            "after a repair, answered 3, byte 0",
        ),
        (
            |memory| {
                let answer = calls::repair(memory);
                if let (0, Some(last)) = (answer, memory.last_mut()) {
                    *last ^= 1;
                }
                answer
            },
            "after a repair, answered 0, byte",
        ),
    ] {
        let message = found(Crew { repair, ..PROVED });
        assert!(message.starts_with(wanted), "{message}");
    }
}
