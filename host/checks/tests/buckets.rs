//! How long they wait, through the library: the cards, a timed turn beside
//! a turn, what a port's buckets are together, and that nothing else reads them.

use checks::counts::Counts;
use checks::night::PROVED;
use checks::run::{run, Plan};
use checks::tables::Tables;
use checks::{library, reader, wrapper};
use model::{size, Call, Model, Reply, Settings, Shape, BUCKETS};
use traffic::{header, Profile, Random, Traffic, SHAPES};
use ventorupo::{bucket_of, waits_of, Refusal, Switch, Turn};

const SMALL: ventorupo::Settings = ventorupo::Settings::ten_bytes()
    .nodes(2)
    .beat(64)
    .slots(1)
    .credit(16);

fn switch() -> Switch<Vec<u8>> {
    let memory = vec![0; ventorupo::size(&SMALL).unwrap()];
    Switch::setup(memory, SMALL).unwrap()
}

/// A packet of queue 0 with this timestamp comes in at port r and leaves by port 0
/// at this time.
fn sent_at(switch: &mut Switch<Vec<u8>>, r: u32, timestamp: u32, now: u32) {
    let header = header(0, r, 0, 12, false, false, timestamp, 0, 0);
    switch.arrive(r, &header).unwrap();
    switch.stitch(r).unwrap();
    switch.prefetch(0, 0).unwrap();
    match switch.timed_turn(0, now).unwrap() {
        Turn::Sent(sent) => assert_eq!(sent.timestamp, timestamp),
        Turn::Idle => panic!("idle"),
    }
}

/// What port p counted, bucket by bucket, but for those that are 0.
fn counted(switch: &Switch<Vec<u8>>, port: u32) -> Vec<(usize, u32)> {
    let all = switch.buckets(port).unwrap();
    all.into_iter()
        .enumerate()
        .filter(|&(_, count)| count > 0)
        .collect()
}

#[test]
fn waits_of_the_cards() {
    for (timestamp, now, bucket) in [
        (0, 0, 0),
        (0, 1, 1),
        (0, 2, 2),
        (0, 3, 2),
        (7, 10, 2),
        (0, 1 << 31, 32),
        (0, u32::MAX, 32),
        (1, 0, 32),
        // The clock has passed its end: eleven ticks.
        (u32::MAX - 5, 5, 4),
        (u32::MAX, 0, 1),
        (u32::MAX, u32::MAX, 0),
    ] {
        let mut switch = switch();
        sent_at(&mut switch, 1, timestamp, now);
        assert_eq!(counted(&switch, 0), [(bucket, 1)], "{timestamp} {now}");
        // Not where the packet came in.
        for port in 1..4 {
            assert_eq!(counted(&switch, port), []);
        }
    }
}

#[test]
fn every_bit_has_its_bucket() {
    let mut switch = switch();
    for bucket in 0..BUCKETS as u32 {
        let waits = waits_of(bucket).unwrap();
        for wait in [*waits.start(), *waits.end()] {
            assert_eq!(bucket_of(wait), bucket);
            let timestamp = 0x9876_5432;
            sent_at(&mut switch, 0, timestamp, timestamp.wrapping_add(wait));
        }
        let done: Vec<_> = (0..=bucket as usize).map(|b| (b, 2)).collect();
        assert_eq!(counted(&switch, 0), done);
    }
    // Setup and repair clear them.
    let mut other = switch.clone();
    other.repair().unwrap();
    assert_eq!(counted(&other, 0), []);
    switch.setup_again(SMALL).unwrap();
    assert_eq!(counted(&switch, 0), []);
}

#[test]
fn what_counts_nothing() {
    let mut switch = switch();
    assert_eq!(switch.timed_turn(0, 7), Ok(Turn::Idle));
    let header = header(0, 0, 1, 12, false, false, 0, 0, 0);
    switch.arrive(0, &header).unwrap();
    switch.stitch(0).unwrap();
    switch.prefetch(0, 1).unwrap();
    let before = switch.clone().into_memory();
    // No outward credit: not ready.
    assert_eq!(switch.timed_turn(0, 7), Ok(Turn::Idle));
    assert_eq!(switch.timed_turn(4, 7), Err(Refusal::NoPort));
    assert_eq!(switch.memory(), before);
    switch.credit(0, 1, 1).unwrap();
    assert!(matches!(switch.turn(0), Ok(Turn::Sent(_))));
    switch.arrive(0, &header).unwrap();
    switch.credit(0, 1, 1).unwrap();
    switch.round().unwrap();
    assert_eq!(counted(&switch, 0), []);
    // Tested in this order: state, port, bucket.
    for (port, bucket, wanted) in [
        (0, 32, Ok(0)),
        (0, 33, Err(Refusal::NoQueue)),
        (3, u32::MAX, Err(Refusal::NoQueue)),
        (4, 33, Err(Refusal::NoPort)),
        (u32::MAX, 0, Err(Refusal::NoPort)),
    ] {
        assert_eq!(switch.bucket(port, bucket), wanted);
    }
    let none = Switch::over([0; 100]);
    assert_eq!(none.bucket(4, 33), Err(Refusal::NoState));
    assert_eq!(none.buckets(0), Err(Refusal::NoState));
}

/// Port 0's bucket 0, two below its stop.
#[test]
fn a_bucket_at_its_stop_stays() {
    let mut memory = switch().into_memory();
    let tables = Tables::of(&reader::settings(&memory));
    tables.buckets.set(&mut memory, 0, u32::MAX - 2);
    let mut switch = Switch::over(memory);
    for wanted in [u32::MAX - 1, u32::MAX, u32::MAX, u32::MAX] {
        sent_at(&mut switch, 0, 5, 5);
        assert_eq!(switch.bucket(0, 0), Ok(wanted));
        assert_eq!(switch.bucket(0, 1), Ok(0));
    }
}

/// The memory that traffic leaves after so many calls, by the library, and the
/// model beside it.
fn after(seed: u64, profile: Profile, shape: Shape, calls: usize) -> (Vec<u8>, Model) {
    let memory_len = size(&Settings::of(shape, 6, 64, 1, 0)) + 5;
    let mut model = Model::new(memory_len);
    let mut memory = vec![0; memory_len];
    let mut traffic = Traffic::of(seed, profile, shape);
    for _ in 0..calls {
        let call = traffic.next(&model);
        let reply = model.call(&call);
        assert_eq!(library::call(&mut memory, &call), Ok(reply));
    }
    (memory, model)
}

/// A timed turn answers as the turn does, and what it leaves differs in one bucket
/// of its port at most, and there by one.
#[test]
fn a_timed_turn_is_a_turn_but_for_one_bucket() {
    let mut random = Random::new(17);
    let (mut sent, mut idle) = (0, 0);
    for shape in SHAPES {
        for seed in 0..40 {
            let profile = random.pick(&Profile::ALL);
            let (memory, model) = after(seed, profile, shape, 60 + 7 * seed as usize);
            let ports = model.ledger().map_or(2, |ledger| ledger.settings.ports);
            for port in 0..=ports {
                let now = random.word() as u32 >> random.below(32);
                let (mut turned, mut timed) = (memory.clone(), memory.clone());
                let turn = library::call(&mut turned, &Call::Turn { port }).unwrap();
                let timed_turn = library::call(&mut timed, &Call::TimedTurn { port, now }).unwrap();
                assert_eq!(timed_turn, turn);
                match turn {
                    Reply::Leaves(packet, _) => {
                        sent += 1;
                        let tables = Tables::of(&reader::settings(&memory));
                        let wait = now.wrapping_sub(packet.timestamp);
                        let cell = tables.bucket(port as usize, bucket_of(wait) as usize);
                        let count = tables.buckets.get(&turned, cell);
                        tables.buckets.set(&mut turned, cell, count + 1);
                    }
                    _ => idle += 1,
                }
                assert_eq!(timed, turned);
            }
        }
    }
    assert!(sent > 200 && idle > 200, "{sent} sent, {idle} not");
}

/// Below the stop, the sum of a port's buckets is the number of packets that its
/// timed turns sent since setup or repair.
#[test]
fn the_sum_is_what_timed_turns_sent() {
    let mut sums = 0;
    for shape in SHAPES {
        for (seed, profile) in (1..).zip(Profile::ALL) {
            let memory_len = size(&Settings::of(shape, 8, 64, 1, 0));
            let mut model = Model::new(memory_len);
            let mut memory = vec![0; memory_len];
            let mut traffic = Traffic::of(seed, profile, shape);
            let mut sent = [0u64; 32];
            for number in 0..3_000 {
                let call = traffic.next(&model);
                let reply = library::call(&mut memory, &call).unwrap();
                assert_eq!(model.call(&call), reply);
                match (&call, &reply) {
                    (Call::Setup(_), Reply::Done) => sent = [0; 32],
                    (Call::TimedTurn { port, .. }, Reply::Leaves(..)) => sent[*port as usize] += 1,
                    _ => (),
                }
                if number % 100 > 0 {
                    continue;
                }
                let ports = match model.ledger() {
                    Some(ledger) => ledger.settings.ports,
                    None => continue,
                };
                for port in 0..ports {
                    let counts = Switch::over(&mut memory[..]).buckets(port).unwrap();
                    let sum: u64 = counts.into_iter().map(u64::from).sum();
                    assert_eq!(sum, sent[port as usize], "{shape:?} {profile:?}");
                    sums += sum;
                }
            }
            // A repair begins anew.
            if model.ledger().is_some() {
                let mut switch = Switch::over(&mut memory[..]);
                switch.repair().unwrap();
                assert_eq!(switch.buckets(0), Ok([0; BUCKETS]));
            }
        }
    }
    assert!(sums > 10_000, "{sums}");
}

/// Two memories that differ in buckets alone, whatever bytes stand there: every
/// call but the reading one is answered alike, and they go on differing in buckets
/// alone. So are finding, audit and repair.
#[test]
fn nothing_but_the_reading_call_reads_a_bucket() {
    let mut random = Random::new(4);
    let mut readings = 0;
    for shape in SHAPES {
        for (seed, profile) in (1..).zip(Profile::ALL) {
            let (mut memory, mut model) = after(seed, profile, shape, 150);
            let mut other = memory.clone();
            spoil(&mut random, &mut other);
            let mut traffic = Traffic::of(seed + 100, profile, shape);
            for _ in 0..400 {
                let call = traffic.next(&model);
                model.call(&call);
                let one = library::call(&mut memory, &call);
                let two = library::call(&mut other, &call);
                match call {
                    Call::Bucket { .. } => readings += u32::from(one != two),
                    _ => assert_eq!(one, two, "{call:?}"),
                }
                assert_eq!(unbucketed(&memory), unbucketed(&other), "{call:?}");
            }
            spoil(&mut random, &mut other);
            assert_eq!(PROVED.finds(&memory), Ok(None));
            assert_eq!(PROVED.finds(&other), Ok(None));
            let [one, two] = [&memory, &other].map(|bytes| Switch::over(bytes.clone()).audit());
            assert_eq!(one, two);
            let [one, two] = [memory, other].map(|bytes| {
                let mut switch = Switch::over(bytes);
                switch.repair().unwrap();
                switch.into_memory()
            });
            assert_eq!(one, two);
        }
    }
    assert!(readings > 50, "{readings}");
}

/// A state without the table of buckets, as the build before had it, and also one
/// without the marks, in a memory that is long enough: no state. That it is never
/// one is not proved (docs/DECISIONS.md, 89 and 95).
#[test]
fn images_of_the_builds_before_are_no_states() {
    let mut random = Random::new(8);
    for shape in SHAPES {
        for seed in 0..60 {
            let profile = random.pick(&Profile::ALL);
            let (memory, model) = after(seed, profile, shape, 30 + 9 * seed as usize);
            if model.ledger().is_none() {
                continue;
            }
            let tables = Tables::of(&reader::settings(&memory));
            let (from, to) = (tables.buckets.start, tables.head.start);
            let (mark, credits) = (tables.halted.start, tables.arrival.start);
            let before = [&memory[..from], &memory[to..tables.size]].concat();
            let before_marks = [&before[..mark], &before[credits..]].concat();
            for image in [before, before_marks] {
                for fill in [0, 1, 0xFF] {
                    let mut longer = image.clone();
                    longer.resize(tables.size + random.below(40) as usize, fill);
                    assert!(PROVED.finds(&longer).unwrap().is_some(), "{shape:?}");
                }
            }
        }
    }
}

/// Any bytes in the buckets of a state.
fn spoil(random: &mut Random, memory: &mut [u8]) {
    let tables = Tables::of(&reader::settings(memory));
    for cell in 0..tables.ports * BUCKETS {
        let any = random.word() as u32;
        let count = random.pick(&[any, u32::MAX, u32::MAX - 1, 0]);
        tables.buckets.set(memory, cell, count);
    }
}

/// The bytes of a state with zeros in its buckets.
fn unbucketed(memory: &[u8]) -> Vec<u8> {
    let mut bytes = memory.to_vec();
    let tables = Tables::of(&reader::settings(memory));
    for cell in 0..tables.ports * BUCKETS {
        tables.buckets.set(&mut bytes, cell, 0);
    }
    bytes
}

// Would slips be found?

/// On which slips are looked for.
const TIMED: Plan = Plan {
    seed: 5,
    profile: Profile::Valid,
    shape: Shape::TEN_BYTES,
    memory_len: 6616 + 52 * 4,
    calls: 20_000,
    ledger_every: 64,
    packets: 0,
};

/// One less in this bucket of the port, and one more in that, where there is one.
fn recount(memory: &mut [u8], port: u32, from: Option<u32>, to: Option<(u32, u32)>) {
    let tables = Tables::of(&reader::settings(memory));
    let mut add = |port: u32, bucket: u32, more: u32| {
        let cell = tables.bucket(port as usize, bucket as usize);
        let count = tables.buckets.get(memory, cell);
        tables.buckets.set(memory, cell, count.wrapping_add(more));
    };
    if let Some(bucket) = from {
        add(port, bucket, u32::MAX);
    }
    if let Some((port, bucket)) = to {
        add(port, bucket, 1);
    }
}

type Slip = fn(&mut [u8], &Call) -> Result<Reply, String>;

const SLIPS: [(&str, Slip); 6] = [
    ("now and timestamp swapped", |memory, call| {
        let reply = library::call(memory, call)?;
        if let (Call::TimedTurn { port, now }, Reply::Leaves(packet, _)) = (call, &reply) {
            let wait = now.wrapping_sub(packet.timestamp);
            let wrong = bucket_of(packet.timestamp.wrapping_sub(*now));
            recount(memory, *port, Some(bucket_of(wait)), Some((*port, wrong)));
        }
        Ok(reply)
    }),
    ("the lowest set bit", |memory, call| {
        let reply = library::call(memory, call)?;
        if let (Call::TimedTurn { port, now }, Reply::Leaves(packet, _)) = (call, &reply) {
            let wait = now.wrapping_sub(packet.timestamp);
            let wrong = (wait.trailing_zeros() + 1) % 33;
            recount(memory, *port, Some(bucket_of(wait)), Some((*port, wrong)));
        }
        Ok(reply)
    }),
    ("an idle turn that counts", |memory, call| {
        let reply = library::call(memory, call)?;
        if let (Call::TimedTurn { port, .. }, Reply::Idle) = (call, &reply) {
            recount(memory, *port, None, Some((*port, 0)));
        }
        Ok(reply)
    }),
    ("a turn that counts and isn't timed", |memory, call| {
        let reply = library::call(memory, call)?;
        if let (Call::Turn { port }, Reply::Leaves(..)) = (call, &reply) {
            recount(memory, *port, None, Some((*port, 0)));
        }
        Ok(reply)
    }),
    (
        "the buckets of the port where it came in",
        |memory, call| {
            let reply = library::call(memory, call)?;
            if let (Call::TimedTurn { port, now }, Reply::Leaves(packet, _)) = (call, &reply) {
                let bucket = bucket_of(now.wrapping_sub(packet.timestamp));
                let owner = u32::from(packet.entry) / 2048;
                recount(memory, *port, Some(bucket), Some((owner, bucket)));
            }
            Ok(reply)
        },
    ),
    ("the bucket behind", |memory, call| match call {
        Call::Bucket { port, bucket } if *bucket < 32 => {
            let bucket = bucket + 1;
            let port = *port;
            library::call(memory, &Call::Bucket { port, bucket })
        }
        _ => library::call(memory, call),
    }),
];

#[test]
fn a_slip_in_a_wait_is_found() {
    assert!(run(&TIMED, &library::call, &mut Counts::default()).is_ok());
    assert!(run(&TIMED, &wrapper::call, &mut Counts::default()).is_ok());
    for (name, slip) in SLIPS {
        match run(&TIMED, &slip, &mut Counts::default()) {
            Ok(()) => panic!("not found: {name}"),
            Err(failure) => println!("{name}: {failure}"),
        }
    }
}
