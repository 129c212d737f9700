//! The round: the library beside the model, and beside its own calls one by one.

mod slips;

use checks::counts::Counts;
use checks::run::{made, Pair, Plan};
use checks::scale::Scale;
use checks::{library, reader, Desk};
use model::{Call, Model, Reply, Settings, Shape};
use slips::{calls_of_a_round, right, told, with_round, SLIPS};
use traffic::{plain, Profile, Random, Traffic, SHAPES};

/// The switches of these tests: every shape, and the ten-byte header's with many
/// nodes too.
fn scales() -> Vec<Scale> {
    let small = SHAPES.into_iter().map(|shape| Scale { shape, nodes: 3 });
    let ten = [1, 16, 256, 2048].map(Scale::ten_bytes);
    small.chain(ten).collect()
}

fn settings(scale: &Scale) -> Settings {
    Settings::of(scale.shape, scale.nodes, 64, 2, 1000)
}

fn round(room: &[u8]) -> Call {
    Call::Round {
        room: room.to_vec(),
    }
}

fn junk(random: &mut Random, bytes: usize) -> Vec<u8> {
    (0..bytes).map(|_| random.word() as u8).collect()
}

/// A switch that valid traffic has left, and a packet that is to be stitched.
fn used(scale: &Scale, seed: u64, calls: usize) -> (Vec<u8>, Model) {
    let (mut memory, mut model) = (vec![0; scale.bytes()], Model::new(scale.bytes()));
    let mut make = |model: &mut Model, call: &Call| {
        assert_eq!(library::call(&mut memory, call), Ok(model.call(call)));
    };
    make(&mut model, &Call::Setup(settings(scale)));
    let mut traffic = Traffic::of(seed, Profile::Valid, scale.shape);
    for _ in 0..calls {
        match traffic.next(&model) {
            Call::Setup(_) => continue,
            call => make(&mut model, &call),
        }
    }
    let port = scale.shape.ports - 2;
    let header = plain(&scale.shape, 0, port, 0, scale.shape.shortest());
    make(&mut model, &Call::Arrive { port, header });
    (memory, model)
}

/// From none to more than enough, and some that would be too short if their
/// length were cut to a byte or two.
#[test]
fn rooms_of_every_length() {
    let mut random = Random::new(27);
    let mut moved = 0;
    for scale in scales() {
        let (memory, model) = used(&scale, 1, scale.share(500));
        let enough = scale.shape.round_bytes();
        let near = (0..=3).chain(enough - 5..=enough + 5);
        for bytes in near.chain([3 * enough, 256, 257, 271, 65_536, 65_551]) {
            let call = round(&junk(&mut random, bytes));
            let (mut after, mut wanted) = (memory.clone(), model.clone());
            let reply = wanted.call(&call);
            assert_eq!(library::call(&mut after, &call).as_ref(), Ok(&reply));
            let short = bytes < enough;
            assert_eq!(reply == Reply::Refused(27), short, "{bytes} bytes");
            assert!(!short || after == memory, "{bytes} bytes");
            moved += u32::from(after != memory);
            assert_eq!(reader::judged(&after).unwrap().ledger(), wanted.ledger());
        }
    }
    // Ten rooms of each switch are long enough, and most rounds move something.
    assert!(moved > 100, "{moved}");
}

/// Refused 3 whatever the room, and neither memory nor room changes.
#[test]
fn rounds_on_damaged_memory() {
    let mut random = Random::new(3);
    for scale in scales() {
        let (mut memory, _) = used(&scale, 2, scale.share(500));
        let enough = scale.shape.round_bytes();
        let whole = memory.clone();
        let mut damaged = 0;
        while damaged < scale.share(100) {
            let at = match random.below(6) {
                // Settings, map, last served queues and marks often.
                0 => random.below(16),
                1 => 16 + random.below(4096),
                2 => 4112 + random.below(2 * scale.shape.ports),
                _ => random.below(memory.len() as u32),
            };
            memory[at as usize] ^= 1 << random.below(8);
            if reader::judged(&memory).is_err() {
                damaged += 1;
                for bytes in [0, 1, enough - 1, enough, 3 * enough] {
                    let mut after = memory.clone();
                    let call = round(&junk(&mut random, bytes));
                    assert_eq!(library::call(&mut after, &call), Ok(Reply::Refused(3)));
                    assert!(after == memory, "byte {at}");
                }
            }
            memory.copy_from_slice(&whole);
        }
        // A byte less than the state needs.
        let short = memory.len() - 1;
        let answer = library::call(&mut memory[..short], &round(&vec![9; enough]));
        assert_eq!(answer, Ok(Reply::Refused(3)));
        assert_eq!(memory, whole);
    }
}

/// The library's calls one by one, told as a round tells them.
fn one_by_one(memory: &mut [u8], shape: &Shape) -> Reply {
    let mut turns = Vec::new();
    for call in calls_of_a_round(shape) {
        let reply = library::call(memory, &call).unwrap();
        if let Call::Turn { .. } = call {
            turns.extend(told(reply));
        }
    }
    Reply::Turns(turns)
}

/// Byte for byte, at many moments of valid traffic.
#[test]
fn a_round_is_its_calls_one_by_one() {
    assert_eq!(calls_of_a_round(&Shape::TEN_BYTES).len(), 104);
    for scale in scales() {
        // Its calls are many where ports and queues are.
        let calls = calls_of_a_round(&scale.shape).len();
        let moments = (scale.share(200) * 104 / calls).max(4);
        let (mut memory, mut model) = used(&scale, 3, scale.share(200));
        let mut traffic = Traffic::of(4, Profile::Valid, scale.shape);
        let enough = scale.shape.round_bytes();
        let (mut made, mut sent) = (0, 0);
        while made < moments {
            let call = match traffic.next(&model) {
                Call::Setup(_) | Call::Round { .. } => continue,
                call => call,
            };
            assert_eq!(library::call(&mut memory, &call), Ok(model.call(&call)));
            // Some calls between two rounds.
            if !matches!(call, Call::Arrive { .. }) {
                continue;
            }
            let mut other = memory.clone();
            let call = round(&vec![9; enough]);
            let reply = library::call(&mut memory, &call).unwrap();
            assert_eq!(reply, one_by_one(&mut other, &scale.shape));
            assert!(memory == other, "round {made}");
            model.call(&call);
            made += 1;
            if let Reply::Turns(turns) = reply {
                sent += turns.chunks(4).filter(|turn| turn[1] == 0).count();
            }
        }
        println!("{scale:?}: {made} rounds sent {sent} packets");
        assert!(sent >= moments / 4);
    }
}

/// A switch with as many packets in ingress as there are nodes, up to some.
fn flooded<'d, D: Desk>(desk: &'d D, scale: &Scale, queue: impl Fn(u32) -> u32) -> Pair<'d, D> {
    let shape = scale.shape;
    // Ledgers of many lists take long to compare.
    let every = if shape.ports > 8 { 8 } else { 1 };
    let mut pair = Pair::new(desk, scale.nodes.into(), scale.bytes() + 3, every);
    pair.call(&Call::Setup(settings(scale))).unwrap();
    for number in 0..held(scale) {
        for port in 0..shape.ports {
            let header = plain(&shape, number % 2, port, queue(number), 100);
            let reply = pair.call(&Call::Arrive { port, header }).unwrap();
            assert!(matches!(reply, Reply::Entry(_)));
        }
    }
    pair
}

/// How many packets of each port.
fn held(scale: &Scale) -> u32 {
    scale.nodes.min(60)
}

/// So many rounds; how many packets they sent, and whether the last of them
/// changed a byte.
fn rounds<D: Desk>(pair: &mut Pair<D>, times: u32) -> (usize, bool) {
    let (mut sent, mut changed) = (0, false);
    for _ in 0..times {
        let before = pair.memory().to_vec();
        match pair.call(&round(&[9; 130])).unwrap() {
            Reply::Turns(turns) => sent += turns.chunks(4).filter(|turn| turn[1] == 0).count(),
            other => panic!("{other:?}"),
        }
        changed = before != pair.memory();
    }
    (sent, changed)
}

/// At rest; with all nodes in ingress; in one line that has no credit, where
/// rounds come to change nothing; with all the credit, and empty again.
#[test]
fn rounds_on_states_at_their_edges() {
    for scale in scales() {
        let Shape { ports, queues, .. } = scale.shape;
        let all = ports * held(&scale);
        let mut rest = Pair::new(&library::call, 1, scale.bytes(), 1);
        rest.call(&Call::Setup(settings(&scale))).unwrap();
        assert_eq!(rounds(&mut rest, 1), (0, false));

        let mut inside = flooded(&library::call, &scale, |_| 0);
        assert_eq!(rounds(&mut inside, all), (all as usize, true));
        assert_eq!(rounds(&mut inside, 1), (0, false));

        let last = queues - 1;
        let mut line = flooded(&library::call, &scale, |_| last);
        assert_eq!(rounds(&mut line, all + 1), (0, false));
        let credit = Call::Credit {
            port: 0,
            queue: last,
            amount: 65_535,
        };
        line.call(&credit).unwrap();
        assert_eq!(rounds(&mut line, all), (all as usize, true));
        assert_eq!(rounds(&mut line, 1), (0, false));

        let mut spread = flooded(&library::call, &scale, |number| number % queues);
        for id in 0..2 {
            let port = ports - 1 - id;
            spread.call(&Call::Map { id, port }).unwrap();
        }
        rounds(&mut spread, held(&scale) + 3);
        for (port, queue) in (ports - 2..ports).flat_map(|p| (1..queues).map(move |q| (p, q))) {
            let amount = 65_535;
            let credit = Call::Credit {
                port,
                queue,
                amount,
            };
            spread.call(&credit).unwrap();
        }
        rounds(&mut spread, 2 * held(&scale));
    }
}

// Would slips be found?

fn found<D: Desk>(desk: &D) -> bool {
    let plan = Plan {
        seed: 6,
        profile: Profile::Valid,
        shape: Shape::TEN_BYTES,
        memory_len: Scale::ten_bytes(4).bytes(),
        calls: 20_000,
        ledger_every: 256,
        packets: 0,
    };
    made(&plan, desk, &mut Counts::default()).is_err()
}

#[test]
fn a_round_with_a_slip_is_found() {
    assert!(!found(&with_round(right)));
    for slip in SLIPS {
        assert!(found(&with_round(slip.made)), "{}", slip.name);
    }
}

/// 27 at just enough, and 27 tested before 3.
#[test]
fn a_slip_in_a_rounds_refusals_is_found() {
    let one_more = |memory: &mut [u8], call: &Call| match call {
        Call::Round { room } if room.len() == 16 => library::call(memory, &round(&room[1..])),
        _ => library::call(memory, call),
    };
    assert!(found(&one_more));
    let too_early = |memory: &mut [u8], call: &Call| match call {
        Call::Round { room } if room.len() < 16 => Ok(Reply::Refused(27)),
        _ => library::call(memory, call),
    };
    let mut pair = Pair::new(&too_early, 1, Scale::ten_bytes(1).bytes(), 1);
    assert!(pair.call(&round(&[9; 16])).is_ok());
    assert!(pair.call(&round(&[9; 15])).is_err());
}
