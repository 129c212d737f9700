//! Storing a packet beside memcpy: by itself, and what it adds to an arrival.

use model::{size, Settings, Shape};
use traffic::{plain, whole_of, Random};
use ventorupo::{calls, SLOT_BYTES};

use crate::{acts, numbers, timed};

/// The shortest packet: what a longer one adds is counted from here.
const SHORTEST: usize = 12;

/// The lengths that are timed.
const LENGTHS: [usize; 3] = [64, 1500, 8191];

/// The nodes of each port: so few that the test for a state is short, and that the
/// packet memories stay in a cache.
const NODES: u32 = 16;
const PORTS: usize = 4;

/// How often a switch is filled each way. The test takes many times longer than what
/// is asked for, so only the best of many tells.
const SAMPLES: usize = 3000;

/// How the bytes behind the shortest packet come into their slot.
#[derive(Clone, Copy, PartialEq, Eq)]
enum Way {
    /// They don't.
    Without,
    /// By the arrival.
    Stored,
    /// By `copy_from_slice` behind the arrival of the shortest.
    Copied,
}

const WAYS: [Way; 3] = [Way::Without, Way::Stored, Way::Copied];

/// A packet for each port.
type OfPorts = [Vec<u8>; PORTS];

fn of_length(length: usize) -> OfPorts {
    [0, 1, 2, 3].map(|port| {
        let header = plain(&Shape::TEN_BYTES, 0, port, 0, length as u32);
        whole_of(&mut Random::new(length as u64), &header)
    })
}

/// A switch that keeps packets.
struct Switch {
    /// After setup.
    start: Vec<u8>,
    memory: Vec<u8>,
    packets: OfPorts,
}

impl Switch {
    fn new() -> Switch {
        let settings = Settings::ten_bytes(NODES, 64, 1, 0).with_packets();
        let mut start = vec![0; size(&settings)];
        assert_eq!(calls::setup(&mut start, &numbers(&settings)), 0);
        Switch {
            memory: start.clone(),
            start,
            packets: [(); PORTS].map(|()| vec![0; settings.packet_memory()]),
        }
    }

    /// Nanoseconds of an arrival, where from setup on a packet comes in for every node,
    /// at one port after the other.
    fn filled(&mut self, way: Way, short: &OfPorts, long: &OfPorts) -> f64 {
        self.memory.copy_from_slice(&self.start);
        let (memory, packets) = (&mut self.memory, &mut self.packets);
        let spent = timed(|| {
            for slot in 0..NODES as usize {
                for (port, lent) in packets.iter_mut().enumerate() {
                    let (short, long) = (&short[port], &long[port]);
                    let packet = if way == Way::Stored { long } else { short };
                    let number = calls::arrive_packet(memory, lent, port as u32, packet, &mut 0);
                    assert_eq!(number, 0);
                    if way == Way::Copied {
                        let slot = &mut lent[slot * SLOT_BYTES..][..long.len()];
                        slot[SHORTEST..].copy_from_slice(&long[SHORTEST..]);
                    }
                }
            }
        });
        spent / (NODES as usize * PORTS) as f64
    }

    /// Each way at its best. They take turns, so that all meet the same weather.
    fn each(&mut self, length: usize) -> [f64; 3] {
        let (short, long) = (of_length(SHORTEST), of_length(length));
        let mut least = [f64::INFINITY; 3];
        for _ in 0..SAMPLES {
            for (way, least) in WAYS.into_iter().zip(&mut least) {
                *least = least.min(self.filled(way, &short, &long));
            }
        }
        // Both ways leave the same bytes, and they are used.
        for way in [Way::Stored, Way::Copied] {
            self.packets.iter_mut().for_each(|packets| packets.fill(0));
            self.filled(way, &short, &long);
            for (packets, packet) in self.packets.iter().zip(&long) {
                let mut slots = packets.chunks(SLOT_BYTES);
                assert!(slots.all(|slot| slot[SHORTEST..length] == packet[SHORTEST..]));
            }
        }
        least
    }
}

/// What one adds beside what the other adds, where that can be told: not where it is
/// less than a hundredth of the arrival.
fn ratio(without: f64, stored: f64, copied: f64) -> String {
    match copied < without / 100.0 {
        true => "too little to tell".into(),
        false => format!("{:.2}", stored / copied),
    }
}

/// Nanoseconds of one packet into each of some slots, at its best.
fn into_slots(length: usize, store: impl Fn(&mut [u8], u16, &[u8])) -> f64 {
    let packet = &of_length(length)[0];
    let mut slots = vec![0; NODES as usize * SLOT_BYTES];
    let mut least = f64::INFINITY;
    for _ in 0..SAMPLES {
        let spent = timed(|| {
            for node in 0..NODES as u16 {
                store(&mut slots, node, packet);
            }
        });
        least = least.min(spent / f64::from(NODES));
    }
    assert!(slots
        .chunks(SLOT_BYTES)
        .all(|slot| slot[..length] == packet[..]));
    least
}

/// The copier by itself, without an arrival.
pub fn by_itself() {
    println!("### The copier by itself, beside memcpy into the same slots, ns\n");
    println!("| bytes | stored | memcpy | ratio |");
    println!("|---|---|---|---|");
    for length in LENGTHS {
        let stored = into_slots(length, acts::keep);
        let copied = into_slots(length, |slots, node, packet| {
            let at = usize::from(node) * SLOT_BYTES;
            slots[at..][..packet.len()].copy_from_slice(packet);
        });
        println!(
            "| {length} | {stored:.1} | {copied:.1} | {:.2} |",
            stored / copied
        );
    }
    println!();
}

pub fn stored() {
    println!("### Storing a packet, beside memcpy into the same slots, ns\n");
    println!("| bytes | arrival of {SHORTEST} | more, if they arrive | more, by memcpy behind it | ratio |");
    println!("|---|---|---|---|---|");
    let mut switch = Switch::new();
    for length in LENGTHS {
        let [without, stored, copied] = switch.each(length);
        let (stored, copied) = (stored - without, copied - without);
        println!(
            "| {length} | {without:.0} | {stored:.1} | {copied:.1} | {} |",
            ratio(without, stored, copied)
        );
    }
    println!();
}
