//! Short differential runs; the long ones are `soak`'s.

use checks::counts::Counts;
use checks::run::{run, Plan};
use checks::scale::Scale;
use checks::tables::Tables;
use checks::{damage, left, library, reader, wrapper, Desk};
use model::header::Header;
use model::{size, Call, Model, Reply, Settings, Shape};
use traffic::headers::spelt;
use traffic::{plain, Before, Profile, Traffic, SHAPES};

const NODES: [u32; 7] = [1, 2, 4, 16, 64, 256, 257];

/// A profile on switches of a shape, with as many calls on each as are told.
fn run_profile<D: Desk>(
    desk: &D,
    profile: Profile,
    shape: Shape,
    nodes: &[u32],
    calls: impl Fn(&Scale) -> usize,
) -> Counts {
    let mut counts = Counts::default();
    for (seed, &nodes) in (1..).zip(nodes) {
        let scale = Scale { shape, nodes };
        let plan = Plan {
            seed,
            profile,
            shape,
            memory_len: scale.bytes() + 7,
            calls: calls(&scale),
            ledger_every: 64,
            packets: 0,
        };
        if let Err(failure) = run(&plan, desk, &mut counts) {
            panic!("{failure}");
        }
    }
    counts
}

/// All profiles, with so many calls on the smallest of switches.
fn run_shape<D: Desk>(desk: &D, shape: Shape, nodes: &[u32], calls: usize) -> Counts {
    let mut counts = Counts::default();
    for profile in Profile::ALL {
        let share = |scale: &Scale| scale.share(calls);
        counts.add(&run_profile(desk, profile, shape, nodes, share));
    }
    counts
}

fn run_all<D: Desk>(desk: &D, calls: usize) -> Counts {
    run_shape(desk, Shape::TEN_BYTES, &NODES, calls)
}

#[test]
fn the_library_agrees_with_the_model() {
    let counts = run_all(&library::call, 10_000);
    println!("{counts}");
    assert_eq!(counts.too_rare(1, 100), []);
    assert!(counts.each_call_at_least(100));
    assert_eq!(counts.halts.too_rare(100), []);
    assert!(counts.halts.above_queue_0() > 5_000);
}

#[test]
fn the_wrapper_agrees_with_the_model() {
    let counts = run_all(&wrapper::call, 5_000);
    assert_eq!(counts.too_rare(1, 50), []);
}

/// Every shape, through the raw calls and through the wrapper.
#[test]
fn every_shape_agrees_with_the_model() {
    let mut all = Counts::default();
    for shape in SHAPES {
        let counts = run_shape(&library::call, shape, &[1, 8], 1_500);
        println!("{shape:?}\n{counts}");
        assert!(counts.each_call_at_least(3));
        all.add(&counts);
        run_shape(&wrapper::call, shape, &[2], 500);
    }
    assert_eq!(all.too_rare(20, 100), []);
}

/// Every shape is given each refusal that it can be, and no other: by hostile
/// calls alone, since among the others are setups of other shapes.
#[test]
fn every_shape_gives_each_of_its_refusals() {
    for shape in SHAPES {
        let nodes = [1, 2, 8, 8, 16, 16];
        let calls = |scale: &Scale| scale.share(1_000).max(300);
        let counts = run_profile(&library::call, Profile::Hostile, shape, &nodes, calls);
        println!("{shape:?}\n{counts}");
        assert_eq!(counts.amiss(&shape, 3), [], "{shape:?}");
        assert_eq!(counts.halts.too_rare(3), [], "{shape:?}");
    }
}

/// The largest switches there are, a few calls each.
#[test]
fn the_largest_switches_agree_with_the_model() {
    for (ports, queues) in [(32, 64), (31, 63), (32, 2), (2, 64)] {
        run_shape(&library::call, Shape::wide(ports, queues), &[2048], 2_000);
    }
}

/// Every pool to its last node, every node home, `times` times over, with the
/// library beside the model at each call.
fn full_pools(scale: Scale, times: u32) {
    let Scale { shape, nodes } = scale;
    let mut plan = Plan {
        seed: nodes.into(),
        profile: Profile::Brim,
        shape,
        memory_len: scale.bytes() + 7,
        calls: 0,
        ledger_every: 512,
        packets: 0,
    };
    // The traffic looks at the model alone, so the run's length can be found
    // without the library.
    let mut model = Model::new(plan.memory_len);
    let mut traffic = Traffic::of(plan.seed, plan.profile, shape);
    let (mut emptied, mut home) = (0, 0);
    while home < times {
        let call = traffic.next(&model);
        model.call(&call);
        plan.calls += 1;
        assert!(
            plan.calls < 1_000_000,
            "the pools are not emptied and filled"
        );
        if let Some(ledger) = model.ledger() {
            let free: usize = ledger.ports.iter().map(|port| port.free.len()).sum();
            if free == 0 && emptied == home {
                emptied += 1;
            }
            if free as u32 == shape.ports * nodes && emptied > home {
                home += 1;
            }
        }
    }
    let mut counts = Counts::default();
    if let Err(failure) = run(&plan, &library::call, &mut counts) {
        panic!("{failure}");
    }
    println!(
        "{scale:?}, pools emptied and refilled {times} times: {} calls",
        counts.calls()
    );
    println!("{counts}");
    assert!(counts.refused(11) > 0);
    let last = (shape.ports - 1) * 2048 + nodes - 1;
    assert_eq!(u32::from(counts.highest_entry()), last);
}

#[test]
fn full_pools_of_257_nodes() {
    full_pools(Scale::ten_bytes(257), 4);
}

#[test]
fn full_pools_of_1000_nodes() {
    full_pools(Scale::ten_bytes(1000), 1);
}

#[test]
fn full_pools_of_2048_nodes() {
    full_pools(Scale::ten_bytes(2048), 1);
}

#[test]
fn full_pools_of_every_shape() {
    for shape in SHAPES {
        let nodes = if shape.ports > 8 { 3 } else { 12 };
        full_pools(Scale { shape, nodes }, 2);
    }
}

/// Some numbers of a width: all of them where there are few.
fn of_width(width: u32, edges: &[u32]) -> Vec<u32> {
    let end = 1 << width;
    match width {
        0..=5 if edges.is_empty() => (0..end).collect(),
        _ => edges.iter().copied().filter(|&edge| edge < end).collect(),
    }
}

/// Reserved bits, sources and queues with lengths at the edges, and the checksum
/// right or wrong: each fault alone and beside every other. With the ten-byte
/// header every source and queue, else those at an edge.
fn headers_with_faults(shape: &Shape) -> Vec<Vec<u8>> {
    let Shape { ports, queues, .. } = *shape;
    let ten = *shape == Shape::TEN_BYTES;
    let most = (1 << shape.reserved_bits()) - 1;
    let mut some_reserved = vec![0, 1, most];
    some_reserved.retain(|&bits| bits <= most);
    some_reserved.dedup();
    let (sources, some_queues) = match ten {
        true => (vec![], vec![]),
        false => (
            vec![0, 1, ports - 1, ports, 31],
            vec![0, 1, queues - 1, queues, 63],
        ),
    };
    let mut headers = Vec::new();
    for reserved in some_reserved {
        for &source in &of_width(shape.port_bits(), &sources) {
            for &queue in &of_width(shape.queue_bits(), &some_queues) {
                for length in [0, shape.shortest() - 1, shape.shortest(), 64, 65, 8191] {
                    let header = Header {
                        destination: 1,
                        source,
                        queue,
                        length,
                        poisoned: 1,
                        timestamp: 5,
                        credit: 6,
                        transaction: 7,
                    };
                    let right = spelt(shape, &header, reserved);
                    let mut wrong = right.clone();
                    wrong[right.len() - 1] ^= 1;
                    headers.extend([right, wrong]);
                }
            }
        }
    }
    headers
}

/// All of them at a port with and without a free node and credit, and halted.
#[test]
fn headers_with_every_mix_of_faults() {
    let mut counts = Counts::default();
    for shape in SHAPES {
        let port = shape.ports - 1;
        for (taken, credit, halted) in [
            (false, 1, false),
            (false, 0, false),
            (true, 1, false),
            (true, 0, false),
            (false, 1, true),
            (true, 1, true),
        ] {
            let settings = Settings::of(shape, 1, 64, 1, credit);
            let mut calls = vec![Call::Setup(settings)];
            if halted {
                // From port 0, says its source.
                let header = plain(&shape, 0, 0, 0, shape.shortest());
                calls.push(Call::Arrive { port, header });
            }
            if taken {
                let header = plain(&shape, 0, port, 0, shape.shortest());
                calls.push(Call::Arrive { port, header });
            }
            let bytes = size(&settings);
            let (mut start, mut model) = (vec![0; bytes], Model::new(bytes));
            for call in &calls {
                assert_eq!(library::call(&mut start, call), Ok(model.call(call)));
            }
            for header in headers_with_faults(&shape) {
                let call = Call::Arrive { port, header };
                let (mut memory, wanted) = (start.clone(), model.clone().call(&call));
                let answer = library::call(&mut memory, &call);
                assert_eq!(answer.as_ref(), Ok(&wanted), "{call:?}");
                let mut kept = start.clone();
                let still = left(&mut kept, &call, &wanted);
                assert_eq!(still, matches!(wanted, Reply::Refused(_)), "{call:?}");
                assert_eq!(memory == kept, still, "{call:?}");
                counts.note(Before::of(&model, &call), &call, &wanted);
            }
        }
    }
    println!("{counts}");
    for number in [7, 20, 8, 9, 19, 10, 11] {
        assert!(counts.refused(number) > 0, "refusal {number}");
    }
    // Each is made on the same bytes anew, so nothing is cleared.
    let rare = counts.halts.too_rare(10);
    let never = ["cleared", "taken in above queue 0 after a clear"];
    assert_eq!(rare, never.map(|name| (name, 0)));
}

/// Memory that no state fits into, of any length down to none.
#[test]
fn memory_too_short_for_any_state() {
    let mut counts = Counts::default();
    let ten = Scale::ten_bytes(1).bytes();
    for memory_len in (0..40).chain([100, 4111, 4112, ten - 1]) {
        for profile in Profile::ALL {
            let plan = Plan {
                seed: memory_len as u64,
                profile,
                shape: Shape::TEN_BYTES,
                memory_len,
                calls: 50,
                ledger_every: 1,
                packets: 0,
            };
            if let Err(failure) = run(&plan, &library::call, &mut counts) {
                panic!("{failure}");
            }
        }
    }
}

/// Every number of ports and queues with nodes at the edges; and all nodes.
#[test]
fn the_size_is_the_published_formula() {
    let formula = |s: &Settings| {
        let fixed = 16 + 4096 + 2 * s.ports + 4 * s.ports * (s.queues - 1) + 4 * s.ports * 33;
        (fixed + 8 * s.ports * (2 + 2 * s.queues) + 13 * s.ports * s.nodes) as usize
    };
    let agrees = |settings: Settings| {
        let wanted = settings.in_their_rows().then(|| formula(&settings));
        assert_eq!(library::size(&settings), wanted, "{settings:?}");
    };
    for ports in 0..40 {
        for queues in 0..80 {
            for nodes in [0, 1, 2, 255, 256, 2047, 2048, 2049] {
                agrees(Settings::wide(ports, queues, nodes, 64, 1, 0));
            }
            let shape = Shape {
                edition: 0,
                ports,
                queues,
            };
            agrees(Settings::of(shape, 7, 64, 1, 0));
        }
    }
    for nodes in (0..5000).chain([65_536, 65_537, 1 << 31, u32::MAX]) {
        agrees(Settings::ten_bytes(nodes, 64, 1, 0));
    }
    // Packets stand outside of the state.
    for nodes in [0, 1, 2, 256, 2048, 2049] {
        for packets in (0..=300).chain([65_535, 65_536, 65_537, u32::MAX]) {
            for settings in [
                Settings::ten_bytes(nodes, 64, 1, 0),
                Settings::wide(4, 24, nodes, 64, 1, 0),
            ] {
                agrees(Settings {
                    packets,
                    ..settings
                });
            }
        }
    }
    // 0 where any setting is out of its row.
    let good = Settings::wide(8, 16, 100, 64, 8, 65_535);
    agrees(good);
    let each: [fn(&mut Settings) -> &mut u32; 8] = [
        |s| &mut s.nodes,
        |s| &mut s.beat,
        |s| &mut s.slots,
        |s| &mut s.credit,
        |s| &mut s.ports,
        |s| &mut s.queues,
        |s| &mut s.edition,
        |s| &mut s.packets,
    ];
    for setting in each {
        for wrong in [65_536, 65_537, 65_600, 1 << 31, u32::MAX] {
            let mut settings = good;
            *setting(&mut settings) = wrong;
            agrees(settings);
        }
    }
}

#[test]
fn damaged_memory_is_judged_alike_by_all() {
    let mut verdicts = damage::Verdicts::default();
    let mut number = 0;
    while verdicts.memories() < 4000 {
        let plan = damage::Plan::numbered(5, number, 50);
        number += 1;
        if let Err(failure) = damage::run(&plan, &library::call, &mut verdicts) {
            panic!("{failure}");
        }
    }
    println!("{verdicts}");
    assert!(verdicts.states > 200 && verdicts.no_states > 2000);
    assert!(verdicts.repairs > 500);
    assert_eq!(verdicts.too_rare(1), []);
}

/// Every shape with each profile's states, until each rule was found broken in
/// each of its ways.
#[test]
fn damaged_memory_of_every_shape_is_judged_alike_by_all() {
    for shape in SHAPES {
        let scale = Scale { shape, nodes: 4 };
        let mut verdicts = damage::Verdicts::default();
        for (seed, profile) in (10..50).flat_map(|seed| Profile::ALL.map(|p| (seed, p))) {
            let enough = verdicts.memories() >= scale.share(600) as u64;
            if enough && verdicts.too_rare(1).is_empty() {
                break;
            }
            let plan = damage::Plan {
                seed,
                profile,
                scale,
                damaged: 20,
                packets: 0,
            };
            if let Err(failure) = damage::run(&plan, &library::call, &mut verdicts) {
                panic!("{failure}");
            }
        }
        println!("{shape:?}\n{verdicts}");
        assert_eq!(verdicts.too_rare(1), [], "{shape:?}");
    }
}

// Would slips be found? Libraries with one, each found and cut down.

/// The plan on which slips are looked for.
const SLIPPERY: Plan = Plan {
    seed: 3,
    profile: Profile::Valid,
    shape: Shape::TEN_BYTES,
    memory_len: 6616 + 52 * 4,
    calls: 20_000,
    ledger_every: 256,
    packets: 0,
};

fn calls_that_remain<D: Desk>(desk: &D) -> Vec<Call> {
    match run(&SLIPPERY, desk, &mut Counts::default()) {
        Ok(()) => panic!("the slip was not found"),
        Err(failure) => {
            println!("{failure}");
            failure.remaining
        }
    }
}

/// Giving arrival credit back at prefetch, one of the paper's slips: seen in
/// the ledger only, some calls later.
#[test]
fn a_slip_in_the_ledger_is_found_and_cut_down() {
    let slip = |memory: &mut [u8], call: &Call| {
        let reply = library::call(memory, call)?;
        if let (Call::Prefetch { .. }, Reply::Entry(_)) = (call, &reply) {
            // Arrival credit of port 0 and queue 1, lowest byte.
            memory[4121] = memory[4121].wrapping_add(1);
        }
        Ok(reply)
    };
    // Setup, arrive, stitch, prefetch and, for another port than 0, map.
    let remaining = calls_that_remain(&slip).len();
    assert!((4..=5).contains(&remaining), "{remaining} remain");
}

/// Returning a wrong answer in one case.
#[test]
fn a_slip_in_an_answer_is_found_and_cut_down() {
    let slip = |memory: &mut [u8], call: &Call| match library::call(memory, call)? {
        Reply::Word(word, count) if count >= 2 => Ok(Reply::Word(word, count - 1)),
        reply => Ok(reply),
    };
    // Setup, ready, and for each of two packets arrive, stitch, prefetch and,
    // above queue 0, credit; a round stands for both stitches and prefetches, and
    // for another port than 0 there is a map.
    let remaining = calls_that_remain(&slip).len();
    assert!((6..=11).contains(&remaining), "{remaining} remain");
}

/// Writing one byte past the size.
#[test]
fn a_slip_past_the_size_is_found_and_cut_down() {
    let slip = |memory: &mut [u8], call: &Call| {
        let reply = library::call(memory, call)?;
        if let (Call::Map { id: 3, .. }, Some(last)) = (call, memory.last_mut()) {
            *last ^= 1;
        }
        Ok(reply)
    };
    // The map alone, refused 3, changes a byte already.
    assert_eq!(calls_that_remain(&slip).len(), 1);
}

/// A test for a state that overlooks one rule.
#[test]
fn a_slip_in_the_test_for_a_state_is_found() {
    let slip = |memory: &mut [u8], call: &Call| {
        // A last served queue out of range is taken for 0.
        let kept = memory.get(4112).copied().filter(|&last| last >= memory[3]);
        if kept.is_some() {
            memory[4112] = 0;
        }
        let reply = library::call(memory, call)?;
        if let (Some(last), Reply::Refused(_) | Reply::Idle) = (kept, &reply) {
            memory[4112] = last;
        }
        Ok(reply)
    };
    let mut found = None;
    for number in 0..200 {
        let plan = damage::Plan::numbered(9, number, 50);
        let result = damage::run(&plan, &slip, &mut damage::Verdicts::default());
        if let Err(failure) = result {
            println!("{failure}");
            found = Some(failure);
            break;
        }
    }
    let failure = found.expect("the slip was not found");
    assert_eq!(failure.changes.len(), 1);
    assert_eq!(failure.changes[0].at, 4112);
}

/// A hostile run: there are lies enough in it.
const LYING: Plan = Plan {
    profile: Profile::Hostile,
    ..SLIPPERY
};

/// The byte of a port's mark, of memory that is a state.
fn mark(memory: &mut [u8], port: u32) -> &mut u8 {
    let tables = Tables::of(&reader::settings(memory));
    &mut memory[tables.halted.start + port as usize]
}

/// Is this an arrival that is refused so?
fn refused_at(call: &Call, reply: &Reply, numbers: &[u8]) -> Option<u32> {
    match (call, reply) {
        (Call::Arrive { port, .. }, Reply::Refused(number)) if numbers.contains(number) => {
            Some(*port)
        }
        _ => None,
    }
}

/// A slip, told, and the library with it.
type Slip = (&'static str, fn(&mut [u8], &Call) -> Result<Reply, String>);

const SLIPS: [Slip; 8] = [
    ("a lie marks nobody", |memory, call| {
        let kept = memory.to_vec();
        let reply = library::call(memory, call)?;
        if let Reply::Refused(_) = reply {
            memory.copy_from_slice(&kept);
        }
        Ok(reply)
    }),
    ("the port next to it is marked", |memory, call| {
        let kept = memory.to_vec();
        let reply = library::call(memory, call)?;
        if let Some(port) = refused_at(call, &reply, &[7, 8]) {
            let told = *mark(memory, port);
            memory.copy_from_slice(&kept);
            *mark(memory, port ^ 1) = told;
        }
        Ok(reply)
    }),
    ("the last mark stays", |memory, call| {
        let reply = library::call(memory, call)?;
        if let (Some(port), Reply::Refused(number)) = (refused_at(call, &reply, &[7, 8]), &reply) {
            *mark(memory, port) = *number;
        }
        Ok(reply)
    }),
    ("a short length marks too", |memory, call| {
        let reply = library::call(memory, call)?;
        if let Some(port) = refused_at(call, &reply, &[9]) {
            *mark(memory, port) = 7;
        }
        Ok(reply)
    }),
    ("a lie costs credit too", |memory, call| {
        let reply = library::call(memory, call)?;
        if let Some(port) = refused_at(call, &reply, &[7, 8]) {
            *mark(memory, port + 4) ^= 1;
        }
        Ok(reply)
    }),
    ("a clear that lifts nothing", |memory, call| match call {
        Call::Clear { port } => {
            library::call(memory, &Call::Ready { port: *port }).map(|reply| match reply {
                Reply::Word(..) => Reply::Done,
                refused => refused,
            })
        }
        _ => library::call(memory, call),
    }),
    ("a clear that lifts all", |memory, call| {
        let reply = library::call(memory, call)?;
        if let (Call::Clear { .. }, Reply::Done) = (call, &reply) {
            for port in 0..reader::settings(memory).ports {
                *mark(memory, port) = 0;
            }
        }
        Ok(reply)
    }),
    ("a report that tells that, not why", |memory, call| {
        Ok(match library::call(memory, call)? {
            Reply::Mark(1..) => Reply::Mark(7),
            reply => reply,
        })
    }),
];

#[test]
fn a_slip_in_a_halt_is_found() {
    for (name, slip) in SLIPS {
        match run(&LYING, &slip, &mut Counts::default()) {
            Ok(()) => panic!("not found: {name}"),
            Err(failure) => println!("{name}: {failure}"),
        }
    }
}

/// A halt that is overlooked is a price that is covered: taken in all the same.
#[test]
fn a_slip_that_overlooks_a_halt_is_found() {
    let slip = |memory: &mut [u8], call: &Call| {
        let port = match call {
            Call::Arrive { port, .. } if reader::judged(memory).is_ok() => *port,
            _ => return library::call(memory, call),
        };
        if port >= reader::settings(memory).ports {
            return library::call(memory, call);
        }
        let kept = std::mem::take(mark(memory, port));
        let reply = library::call(memory, call)?;
        if kept != 0 {
            *mark(memory, port) = kept;
        }
        Ok(reply)
    };
    let failure = run(&LYING, &slip, &mut Counts::default()).unwrap_err();
    println!("{failure}");
    // Setup, a lie and an arrival.
    assert_eq!(failure.remaining.len(), 3);
}
