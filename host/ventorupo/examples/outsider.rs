//! Written by one who had README.md, ventorupo.h and this crate's documentation, and nothing
//! else of the project.
//!
//! Fourteen milliseconds of the OB van's audio rack: three stage boxes, a desk with a spare, a
//! monitor desk and a multitrack recorder on one switch of 8 ports with 16 queues.
//!
//! In each (a tick, 48 samples) headers and credit go in by a batch, and what is ready leaves by
//! timed turns. A cable is bad, the desk is patched to the spare, and a saved state is spoilt.

use std::{collections::BTreeMap, error::Error};
use ventorupo::{waits_of, Answer, Batch, Finding, Header, ListKind};
use ventorupo::{Rule, Settings, Switch, Turn, View};

type Outcome<T> = Result<T, Box<dyn Error>>;
type Rack = Switch<Vec<u8>>;

/// 32 packets in flight a box; arrival credit for ten packets of 19 beats (of 64 bytes) a queue.
const SETTINGS: Settings = Settings::wide(8, 16).nodes(32).credit(190);
const BOXES: [u8; 3] = [1, 2, 3];
/// Receivers' ports, and their destination ids too: with 8 ports an id has three bits in a header.
const SPARE: u8 = 4;
const DESK: u8 = 5;
const MONITORS: u8 = 6;
const RECORDER: u8 = 7;
/// Queues; 0 is the clock's. It has no priority: a port serves its ready queues in turn.
const PROGRAMME: u8 = 1;
const TALKBACK: u8 = 2;
const TRACKS: u8 = 3;
/// What each box sends in a tick: destination, queue, bytes.
const FLOWS: [(u8, u8, u32); 4] = [
    (DESK, 0, 24),
    (DESK, PROGRAMME, 1165),
    (MONITORS, TALKBACK, 157),
    (RECORDER, TRACKS, 1165),
];

/// What the port manager keeps beside the switch.
#[derive(Default)]
struct Log {
    left: [[u32; 4]; 8],               // by port and queue
    refused: BTreeMap<(u8, u32), u32>, // by box and refusal
}

/// The sample clock. It passes its end in tick 5, and waits have to stay right.
fn now(tick: u32) -> u32 {
    (u32::MAX - 200).wrapping_add(48 * tick)
}

/// The header of a box's flow; box 2's cable flips a bit in tick 3.
fn header(tick: u32, port: u8, (destination, queue, length): (u8, u8, u32)) -> Outcome<Vec<u8>> {
    let stamp = now(tick).wrapping_sub(5 * u32::from(port)); // the further box, the longer cable
    let says = Header::new().source(port.into()).queue(queue.into());
    let says = says.destination(destination.into()).length(length);
    let mut bytes = SETTINGS.form().write(&says.timestamp(stamp))?.to_vec();
    if (tick, port, queue) == (3, 2, PROGRAMME) {
        bytes[4] ^= 0x10;
    }
    Ok(bytes)
}

/// A tick's calls: arrivals box by box, credit as asked for, then stitches and prefetches.
fn batch_of(tick: u32, patch: &[u8; 8]) -> Outcome<Batch> {
    let mut batch = Batch::new(SETTINGS.form())?;
    for port in BOXES {
        for flow in FLOWS {
            batch.arrive(port, &header(tick, port, flow)?)?;
        }
    }
    batch.credit(patch[usize::from(DESK)], PROGRAMME, 3 * 19);
    batch.credit(MONITORS, TALKBACK, 3 * 3);
    if tick % 2 == 1 {
        batch.credit(RECORDER, TRACKS, 5 * 19); // a slow disk: five packets where six arrive
    }
    for port in BOXES {
        for (destination, queue, _) in FLOWS {
            let out = patch[usize::from(destination)];
            batch.stitch(port).prefetch(out, queue);
        }
    }
    Ok(batch)
}

/// Runs a tick's batch and counts the refused arrivals, which stand first and box by box.
fn take_in(rack: &mut Rack, batch: &Batch, log: &mut Log) -> Outcome<()> {
    for (place, answer) in rack.run(batch)?.iter().enumerate() {
        if let Answer::Arrived(Err(refusal)) = answer {
            let key = (BOXES[place / FLOWS.len()], refusal.number());
            *log.refused.entry(key).or_default() += 1;
        }
    }
    Ok(())
}

/// Lets out all that is ready. Batches and rounds have no timed turns, so these are single calls.
fn send(rack: &mut Rack, time: u32, log: &mut Log) -> Outcome<()> {
    for port in 0..8u8 {
        while let Turn::Sent(packet) = rack.timed_turn(port.into(), time)? {
            log.left[usize::from(port)][usize::from(packet.queue)] += 1;
        }
    }
    Ok(())
}

/// The port manager: reports halted boxes. Each fourth tick the crew has changed their cables.
fn manage(rack: &mut Rack, tick: u32) -> Outcome<()> {
    for port in BOXES {
        if let Some(halt) = rack.report(port.into())? {
            println!("tick {tick}: box {port} is halted, {halt}; its clock goes on");
            if tick % 4 == 1 {
                rack.clear(port.into())?;
                println!("tick {tick}: box {port} has a new cable and is cleared");
            }
        }
    }
    Ok(())
}

/// Free nodes by an audit, departures as we counted them, waits as the switch did.
fn tables(rack: &Rack, log: &Log) -> Outcome<()> {
    println!("port free | left by queue 0 to 3 | waits in samples: packets");
    let places = rack.audit()?;
    for port in 0..8 {
        let pool = ListKind::Free { port };
        let free = places.iter().filter(|place| place.list == pool).count();
        print!("{port:4} {free:4} | {:2?} |", log.left[usize::from(port)]);
        for (bucket, count) in (0..).zip(rack.buckets(port.into())?) {
            if let (Some(waits), 1..) = (waits_of(bucket), count) {
                print!(" {waits:?}: {count}");
            }
        }
        println!();
    }
    for ((port, number), count) in &log.refused {
        println!("box {port}: refused {number}, {count} times");
    }
    Ok(())
}

/// A finding in our crew's words; the items' meaning stands in ventorupo.h, at vr_find.
fn explain(finding: Option<Finding>) -> String {
    match finding.map(|found| (found.rule, found.item)) {
        None => "sound".to_string(),
        Some((Rule::A, 8)) => "too short for its settings".to_string(),
        Some((Rule::B, port @ 0..=7)) => format!("port {port} served a queue it hasn't got"),
        Some((rule, item)) => format!("rule {rule:?}, item {item}: look it up in ventorupo.h"),
    }
}

/// The night crew: a spoilt state is found, explained and repaired; a cut one can't be repaired.
fn night(rack: &Rack) -> Outcome<()> {
    let mut saved = rack.memory().to_vec();
    println!("saved {} bytes: {}", saved.len(), explain(rack.find()));
    saved[4112 + usize::from(DESK)] = 200; // the queue that the desk's port served last
    println!("spoilt: {}", explain(View::over(&saved).find()));
    let mut cut = Switch::over(saved[..saved.len() - 1].to_vec());
    println!("cut: {}", explain(cut.find()));
    println!("cut, repaired: {:?}", cut.repair());
    let mut mended = Switch::over(saved);
    mended.repair()?; // packets, marks and waits are lost, the map is kept
    println!("spoilt, repaired: {}", explain(mended.find()));
    mended.arrive(1, &header(0, 1, FLOWS[0])?)?; // only a stitch tells what the map says
    println!("the desk is still at port {}", mended.stitch(1)?.port);
    Ok(())
}

fn main() -> Outcome<()> {
    let mut rack = Switch::setup(vec![0; SETTINGS.size()], SETTINGS)?;
    let mut log = Log::default();
    let mut patch = [0, 1, 2, 3, 4, 5, 6, 7]; // ours, since the switch's map can't be read
    for (id, port) in (0..).zip(patch) {
        rack.map(id, port.into())?; // after setup all ids go to port 0
    }
    for tick in 0..14 {
        if tick == 8 {
            println!("tick {tick}: the desk is patched to port {SPARE}");
            patch[usize::from(DESK)] = SPARE;
            rack.map(DESK.into(), SPARE.into())?;
        }
        take_in(&mut rack, &batch_of(tick, &patch)?, &mut log)?;
        manage(&mut rack, tick)?;
        send(&mut rack, now(tick).wrapping_add(2), &mut log)?;
    }
    tables(&rack, &log)?;
    night(&rack)
}
