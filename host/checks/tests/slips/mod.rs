//! Rounds made of the library's calls one by one, the right one and some with
//! one slip each, so that tests can show that they would find it.

use checks::{library, reader, Desk};
use model::{Call, Reply, Shape};

/// The calls that a round of a switch of this shape is.
pub fn calls_of_a_round(shape: &Shape) -> Vec<Call> {
    let Shape { ports, queues, .. } = *shape;
    let stitches = (0..ports).map(|port| Call::Stitch { port });
    let of_port = |port| (0..queues).map(move |queue| Call::Prefetch { port, queue });
    let turns = (0..ports).map(|port| Call::Turn { port });
    stitches
        .chain((0..ports).flat_map(of_port))
        .chain(turns)
        .collect()
}

/// Four bytes: refusal number, 1 if idle, entry id or 0.
pub fn told(reply: Reply) -> [u8; 4] {
    match reply {
        Reply::Refused(number) => [number, 0, 0, 0],
        Reply::Idle => [0, 1, 0, 0],
        Reply::Leaves(packet, _) => [0, 0, (packet.entry >> 8) as u8, packet.entry as u8],
        other => panic!("a turn answered {other:?}"),
    }
}

pub type Made = Result<Vec<u8>, String>;
pub type Round = fn(&mut [u8]) -> Made;

/// The ports of the switch in these bytes.
fn ports(memory: &[u8]) -> std::ops::Range<u32> {
    0..reader::settings(memory).ports
}

fn queues(memory: &[u8]) -> u32 {
    reader::settings(memory).queues
}

/// All but the last.
fn but_last(ports: std::ops::Range<u32>) -> std::ops::Range<u32> {
    0..ports.end - 1
}

fn stitch_each(memory: &mut [u8], ports: impl Iterator<Item = u32>) -> Result<(), String> {
    for port in ports {
        library::call(memory, &Call::Stitch { port })?;
    }
    Ok(())
}

fn prefetch_each(memory: &mut [u8], queues: u32, times: u32) -> Result<(), String> {
    for (port, queue) in ports(memory).flat_map(|port| (0..queues).map(move |q| (port, q))) {
        for _ in 0..times {
            library::call(memory, &Call::Prefetch { port, queue })?;
        }
    }
    Ok(())
}

/// What a round tells where no port sends.
fn idle(memory: &[u8]) -> Vec<u8> {
    [0, 1, 0, 0].repeat(ports(memory).len())
}

fn turn_each(memory: &mut [u8], ports: impl Iterator<Item = u32>) -> Made {
    let mut turns = idle(memory);
    for port in ports {
        let reply = library::call(memory, &Call::Turn { port })?;
        turns[4 * port as usize..][..4].copy_from_slice(&told(reply));
    }
    Ok(turns)
}

/// A library whose round is this one, where it isn't refused.
pub fn with_round(made: Round) -> impl Desk {
    move |memory: &mut [u8], call: &Call| {
        let mut judged = memory.to_vec();
        match library::call(&mut judged, call)? {
            Reply::Turns(_) => Ok(Reply::Turns(made(memory)?)),
            _ => library::call(memory, call),
        }
    }
}

/// A slip, and whether a packet may wait longer than promised for it.
pub struct Slip {
    pub name: &'static str,
    // Asked for by the waits alone.
    #[allow(dead_code)]
    pub delays: bool,
    pub made: Round,
}

pub fn right(m: &mut [u8]) -> Made {
    stitch_each(m, ports(m))?;
    prefetch_each(m, queues(m), 1)?;
    turn_each(m, ports(m))
}

pub const SLIPS: [Slip; 9] = [
    Slip {
        name: "turns before prefetches",
        delays: true,
        made: |m| {
            stitch_each(m, ports(m))?;
            let turns = turn_each(m, ports(m));
            prefetch_each(m, queues(m), 1)?;
            turns
        },
    },
    Slip {
        name: "prefetches before stitches",
        delays: true,
        made: |m| {
            prefetch_each(m, queues(m), 1)?;
            stitch_each(m, ports(m))?;
            turn_each(m, ports(m))
        },
    },
    Slip {
        name: "the first refusal ends it",
        delays: true,
        made: |m| {
            let calls = calls_of_a_round(&reader::settings(m).shape());
            let before_turns = |call: &&Call| !matches!(call, Call::Turn { .. });
            for call in calls.iter().take_while(before_turns) {
                if let Reply::Refused(_) = library::call(m, call)? {
                    return Ok(idle(m));
                }
            }
            turn_each(m, ports(m))
        },
    },
    Slip {
        name: "no prefetch for the last queue",
        delays: true,
        made: |m| {
            stitch_each(m, ports(m))?;
            prefetch_each(m, queues(m) - 1, 1)?;
            turn_each(m, ports(m))
        },
    },
    Slip {
        name: "two prefetches for each queue",
        delays: false,
        made: |m| {
            stitch_each(m, ports(m))?;
            prefetch_each(m, queues(m), 2)?;
            turn_each(m, ports(m))
        },
    },
    Slip {
        name: "no stitch at the last port",
        delays: true,
        made: |m| {
            stitch_each(m, but_last(ports(m)))?;
            prefetch_each(m, queues(m), 1)?;
            turn_each(m, ports(m))
        },
    },
    Slip {
        name: "no turn at the last port",
        delays: true,
        made: |m| {
            stitch_each(m, ports(m))?;
            prefetch_each(m, queues(m), 1)?;
            turn_each(m, but_last(ports(m)))
        },
    },
    Slip {
        name: "stitches from the last port on",
        delays: false,
        made: |m| {
            stitch_each(m, ports(m).rev())?;
            prefetch_each(m, queues(m), 1)?;
            turn_each(m, ports(m))
        },
    },
    Slip {
        name: "turns from the last port on",
        delays: false,
        made: |m| {
            stitch_each(m, ports(m))?;
            prefetch_each(m, queues(m), 1)?;
            turn_each(m, ports(m).rev())
        },
    },
];
