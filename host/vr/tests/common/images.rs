//! Images for the tests, made by valid calls.

use traffic::{Random, SHAPES};
use ventorupo::{Header, Refusal, RoundTurn, Settings, Switch};

/// Where the tables of a state of four ports, 24 queues and two nodes a port
/// start (docs/LAYOUT.md).
// No test needs all of them.
#[allow(dead_code)]
pub mod at {
    pub const MAPPED: usize = 16;
    pub const LAST: usize = 4112;
    pub const HALTED: usize = 4116;
    pub const ARRIVAL: usize = 4120;
    pub const OUTWARD: usize = 4304;
    pub const BUCKETS: usize = 4488;
    pub const HEAD: usize = 5016;
    pub const TAIL: usize = 5416;
    pub const COUNT: usize = 5816;
    pub const NEXT: usize = 6616;
    pub const LENGTH: usize = 6632;
    pub const QUEUE: usize = 6680;
    pub const DEST: usize = 6688;
    pub const POISONED: usize = 6696;
    pub const PRICE: usize = 6712;
    pub const SIZE: usize = 6720;
}

pub const SMALL: Settings = Settings::ten_bytes().nodes(2).beat(64).slots(1).credit(16);

/// Settings of four ports and 24 queues with ten-byte headers, so many nodes a
/// port, more than one slot and all the credit.
pub const fn roomy(nodes: u32) -> Settings {
    Settings::ten_bytes()
        .nodes(nodes)
        .beat(128)
        .slots(3)
        .credit(65_535)
}

/// The same of every shape.
// Not every test needs it.
#[allow(dead_code)]
pub fn in_every_shape(nodes: u32) -> [Settings; SHAPES.len()] {
    SHAPES.map(|shape| {
        roomy(nodes)
            .edition(shape.edition)
            .ports(shape.ports)
            .queues(shape.queues)
    })
}

/// The same of the most ports and queues.
// Not every test needs it.
#[allow(dead_code)]
pub const fn largest(nodes: u32) -> Settings {
    Settings::wide(32, 64)
        .nodes(nodes)
        .beat(128)
        .slots(3)
        .credit(65_535)
}

pub fn switch(settings: Settings) -> Switch<Vec<u8>> {
    let memory = vec![0; ventorupo::size(&settings).unwrap()];
    Switch::setup(memory, settings).unwrap()
}

/// The packet of this header arrives at its source.
pub fn arrive(switch: &mut Switch<Vec<u8>>, settings: Settings, header: Header) {
    let bytes = settings.form().write(&header).unwrap();
    switch.arrive(header.source, &bytes).unwrap();
}

/// Two nodes a port, and packets in every kind of list: prefetch and egress of
/// port 1, queue 5 have nodes 0 and 1 of port 0; ingress of port 2 has both of
/// its own.
pub fn small() -> Vec<u8> {
    let mut switch = switch(SMALL);
    for id in 1..4 {
        switch.map(id, id).unwrap();
    }
    let first = Header {
        destination: 1,
        queue: 5,
        length: 76,
        timestamp: 1000,
        transaction: 7,
        ..Header::default()
    };
    arrive(&mut switch, SMALL, first);
    let second = Header {
        length: 12,
        poisoned: 1,
        timestamp: 4_294_967_295,
        transaction: 8,
        ..first
    };
    arrive(&mut switch, SMALL, second);
    switch.stitch(0).unwrap();
    switch.stitch(0).unwrap();
    switch.prefetch(1, 5).unwrap();
    let free = Header {
        destination: 3,
        source: 2,
        length: 8191,
        timestamp: 2000,
        transaction: 255,
        ..Header::default()
    };
    arrive(&mut switch, SMALL, free);
    let last = Header {
        source: 2,
        queue: 23,
        length: 64,
        timestamp: 3000,
        ..Header::default()
    };
    arrive(&mut switch, SMALL, last);
    switch.credit(1, 5, 100).unwrap();
    switch.credit(3, 23, 65_535).unwrap();
    switch.into_memory()
}

/// A number changed: where, how many bytes, and what.
pub type Change = (usize, usize, u32);

/// A bucket of a port of the small image that counts so many.
// Not every test needs it.
#[allow(dead_code)]
pub fn bucket(port: usize, bucket: usize, count: u32) -> Change {
    (at::BUCKETS + 4 * (33 * port + bucket), 4, count)
}

/// The small image with numbers changed.
// Not every test needs it.
#[allow(dead_code)]
pub fn changed(changes: &[Change]) -> Vec<u8> {
    let mut memory = small();
    for &(at, width, number) in changes {
        memory[at..at + width].copy_from_slice(&number.to_be_bytes()[4 - width..]);
    }
    memory
}

/// A wide switch of five ports, three queues and one node a port, with a packet
/// of the last queue from port 4 in a slot of port 3, and one at port 0 that
/// has a destination id above the last port; port 4 is halted, since a header of
/// port 0's came in there.
// Not every test needs it.
#[allow(dead_code)]
pub fn wide() -> Vec<u8> {
    let settings = Settings::wide(5, 3).nodes(1).beat(64).slots(1).credit(16);
    let mut switch = switch(settings);
    switch.map(2, 3).unwrap();
    switch.map(7, 4).unwrap();
    switch.map(4095, 1).unwrap();
    let first = Header {
        destination: 2,
        source: 4,
        queue: 2,
        length: 65,
        timestamp: 1000,
        credit: 65_535,
        transaction: 7,
        ..Header::default()
    };
    arrive(&mut switch, settings, first);
    switch.stitch(4).unwrap();
    switch.prefetch(3, 2).unwrap();
    let second = Header {
        destination: 7,
        length: 13,
        ..Header::default()
    };
    arrive(&mut switch, settings, second);
    let bytes = settings.form().write(&second).unwrap();
    assert_eq!(switch.arrive(4, &bytes), Err(Refusal::Source));
    switch.credit(3, 2, 9).unwrap();
    switch.into_memory()
}

/// A switch that has seen traffic and holds packets in this share of its nodes.
// Not every test needs it.
#[allow(dead_code)]
pub fn busy(nodes: u32, percent: u32, seed: u64) -> Switch<Vec<u8>> {
    busy_of(roomy(nodes), percent, seed)
}

/// The same with these settings.
pub fn busy_of(settings: Settings, percent: u32, seed: u64) -> Switch<Vec<u8>> {
    let mut random = Random::new(seed);
    let mut switch = switch(settings);
    for id in (0..64).chain([4000, 4095]) {
        switch.map(id, random.below(settings.ports)).unwrap();
    }
    let nodes = settings.nodes;
    // Filled and drained, so that the free lists are in no order.
    fill(&mut switch, settings, &mut random, nodes.min(64));
    drain(&mut switch, settings);
    fill(&mut switch, settings, &mut random, nodes * percent / 100);
    switch
}

/// So many packets arrive at each port; about half of them go on, if they can.
fn fill(switch: &mut Switch<Vec<u8>>, settings: Settings, random: &mut Random, packets: u32) {
    let ids = settings.ports.next_power_of_two();
    for source in 0..settings.ports {
        for _ in 0..packets {
            let header = Header {
                destination: random.below(ids),
                source,
                queue: random.below(settings.queues),
                length: random.among(14, 8191),
                poisoned: random.one_in(3).into(),
                timestamp: random.word() as u32,
                credit: random.below(256),
                transaction: random.below(256),
            };
            arrive(switch, settings, header);
            if random.percent(60) {
                let stitched = switch.stitch(source).unwrap();
                // Refused where the slots are in use.
                let _ = switch.prefetch(stitched.port.into(), stitched.queue.into());
            }
        }
    }
}

/// Every packet leaves: a round in which none does has found none.
fn drain(switch: &mut Switch<Vec<u8>>, settings: Settings) {
    for port in 0..settings.ports {
        for queue in 1..settings.queues {
            switch.credit(port, queue, 65_535).unwrap();
        }
    }
    let idle = |turn: &RoundTurn| *turn == RoundTurn::Idle;
    while !switch.round().unwrap().iter().all(idle) {}
}
