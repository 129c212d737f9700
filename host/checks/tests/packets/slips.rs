//! Would slips be found? Libraries with one each.

use checks::counts::Counts;
use checks::packets::Packets;
use checks::run::{made, run};
use checks::{library, reader, Whole};
use model::{Call, Part, Reply, SLOT_BYTES};
use traffic::Profile;

use crate::{plan, LIBRARY};

type Answer = Result<Reply, String>;
type Slip = (&'static str, fn(&mut [u8], &mut Packets, &Call) -> Answer);

/// The right call, but that a packet which is taken in is stored otherwise: in the
/// memory as it was before, from its slot's first byte.
fn stored(
    memory: &mut [u8],
    packets: &mut Packets,
    call: &Call,
    otherwise: fn(&mut [u8], usize, &[u8]),
) -> Answer {
    let (port, packet, lent) = match call {
        Call::ArrivePacket { port, packet, lent } => (*port, packet, *lent),
        _ => return library::with_packets(memory, packets, call),
    };
    let before = packets.of_port(port, lent).to_vec();
    let reply = library::with_packets(memory, packets, call)?;
    if let Reply::Entry(entry) = reply {
        let lent = packets.of_port(port, lent);
        lent.copy_from_slice(&before);
        otherwise(lent, usize::from(entry) % 2048 * SLOT_BYTES, packet);
    }
    Ok(reply)
}

/// The right call, but that one shown is told otherwise: of the port that it is shown
/// at, and its part.
fn shown(
    memory: &mut [u8],
    packets: &mut Packets,
    call: &Call,
    otherwise: fn(u32, Part) -> Part,
) -> Answer {
    let reply = library::with_packets(memory, packets, call)?;
    Ok(match (call, reply) {
        (Call::Show { port, .. }, Reply::Shown(part)) => Reply::Shown(otherwise(*port, part)),
        (_, reply) => reply,
    })
}

/// The right call, but that a refusal of one number, which changes nothing, is told
/// as another, where the call is such.
fn told(
    memory: &mut [u8],
    packets: &mut Packets,
    call: &Call,
    (number, other): (u8, u8),
    such: fn(&[u8], &Call) -> bool,
) -> Answer {
    let reply = library::with_packets(memory, packets, call)?;
    Ok(
        match reply == Reply::Refused(number) && such(memory, call) {
            true => Reply::Refused(other),
            false => reply,
        },
    )
}

/// Does an arrival have other than as many bytes as its header says?
fn wrong_count(call: &Call) -> bool {
    match call {
        Call::ArrivePacket { packet, .. } if packet.len() >= 10 => {
            let length = usize::from(packet[1] & 0x7F) << 6 | usize::from(packet[2] >> 2);
            packet.len() != length
        }
        _ => false,
    }
}

/// Is a packet memory of another size than the state's?
fn wrong_size(memory: &[u8], call: &Call) -> bool {
    let right = reader::settings(memory).packet_memory();
    match call {
        Call::ArrivePacket { lent, .. } => *lent != right,
        Call::Show { lent, .. } => *lent != [right; 4],
        _ => false,
    }
}

fn port_of(call: &Call) -> u32 {
    match call {
        Call::ArrivePacket { port, .. } | Call::Show { port, .. } => *port,
        _ => 0,
    }
}

/// A size that is taken though it is another, by a right one lent in its place.
fn taken(
    memory: &mut [u8],
    packets: &mut Packets,
    call: &Call,
    such: fn(usize, &[usize; 4]) -> bool,
) -> Answer {
    let right = match memory.len() < 16 {
        true => 0,
        false => reader::settings(memory).packet_memory(),
    };
    match call {
        Call::Show { port, queue, lent } if such(right, lent) && right <= 4 * SLOT_BYTES => {
            let lent = [right; 4];
            let (port, queue) = (*port, *queue);
            library::with_packets(memory, packets, &Call::Show { port, queue, lent })
        }
        _ => library::with_packets(memory, packets, call),
    }
}

const SLIPS: [Slip; 28] = [
    ("the slot of the node behind", |m, p, c| {
        stored(m, p, c, |memory, at, packet| {
            let at = (at + SLOT_BYTES) % memory.len();
            memory[at..at + packet.len()].copy_from_slice(packet);
        })
    }),
    ("every packet in the first slot", |m, p, c| {
        stored(m, p, c, |memory, _, packet| {
            memory[..packet.len()].copy_from_slice(packet);
        })
    }),
    ("nothing stored", |m, p, c| stored(m, p, c, |_, _, _| {})),
    ("a copy one byte short", |m, p, c| {
        stored(m, p, c, |memory, at, packet| {
            let short = packet.len() - 1;
            memory[at..at + short].copy_from_slice(&packet[..short]);
        })
    }),
    ("a copy without its first byte", |m, p, c| {
        stored(m, p, c, |memory, at, packet| {
            memory[at + 1..at + packet.len()].copy_from_slice(&packet[1..]);
        })
    }),
    ("a copy without its header", |m, p, c| {
        stored(m, p, c, |memory, at, packet| {
            let data = &packet[10..];
            memory[at..at + data.len()].copy_from_slice(data);
        })
    }),
    ("a copy one byte off", |m, p, c| {
        stored(m, p, c, |memory, at, packet| {
            memory[at + 1..at + 1 + packet.len()].copy_from_slice(packet);
        })
    }),
    ("a copy of 8,192 bytes always", |m, p, c| {
        stored(m, p, c, |memory, at, packet| {
            memory[at..at + SLOT_BYTES].fill(0);
            memory[at..at + packet.len()].copy_from_slice(packet);
        })
    }),
    ("a byte behind the packet", |m, p, c| {
        stored(m, p, c, |memory, at, packet| {
            memory[at..at + packet.len()].copy_from_slice(packet);
            memory[at + packet.len()] ^= 1;
        })
    }),
    ("a copy to the beat's end", |m, p, c| {
        stored(m, p, c, |memory, at, packet| {
            memory[at..at + packet.len()].copy_from_slice(packet);
            let end = (packet.len() + 63) / 64 * 64;
            memory[at + packet.len()..at + end].fill(0);
        })
    }),
    ("a refused arrival that stores", |m, p, c| {
        let reply = library::with_packets(m, p, c)?;
        if let (Call::ArrivePacket { port, packet, lent }, Reply::Refused(10 | 11)) = (c, &reply) {
            p.of_port(*port, *lent)[..packet.len()].copy_from_slice(packet);
        }
        Ok(reply)
    }),
    ("a lie that stores its header", |m, p, c| {
        let reply = library::with_packets(m, p, c)?;
        if let (Call::ArrivePacket { port, packet, lent }, Reply::Refused(7 | 8)) = (c, &reply) {
            p.of_port(*port, *lent)[..10].copy_from_slice(&packet[..10]);
        }
        Ok(reply)
    }),
    ("a show that writes into a memory", |m, p, c| {
        let reply = library::with_packets(m, p, c)?;
        if let (Call::Show { lent, .. }, Reply::Shown(part)) = (c, &reply) {
            let at = part.at as usize + part.length as usize;
            p.of_port(part.owner, lent[0])[at] ^= 1;
        }
        Ok(reply)
    }),
    ("a show that writes into the state", |m, p, c| {
        let reply = library::with_packets(m, p, c)?;
        if let Reply::Shown(_) = reply {
            // In port 0's first bucket.
            m[4488] ^= 1;
        }
        Ok(reply)
    }),
    ("shown from the port, not the owner", |m, p, c| {
        shown(m, p, c, |port, part| Part {
            owner: port,
            ..part
        })
    }),
    ("shown by the slot size less one", |m, p, c| {
        shown(m, p, c, |_, part| Part {
            at: part.at / SLOT_BYTES as u64 * (SLOT_BYTES as u64 - 1),
            ..part
        })
    }),
    ("shown by the entry id", |m, p, c| {
        shown(m, p, c, |_, part| Part {
            at: part.at + u64::from(part.owner) * 2048 * SLOT_BYTES as u64,
            ..part
        })
    }),
    ("a whole slot shown", |m, p, c| {
        shown(m, p, c, |_, part| Part {
            length: SLOT_BYTES as u32,
            ..part
        })
    }),
    ("shown without the footer", |m, p, c| {
        shown(m, p, c, |_, part| Part {
            length: part.length - 2,
            ..part
        })
    }),
    ("16's count before 9", |m, p, c| {
        told(m, p, c, (9, 16), |_, call| wrong_count(call))
    }),
    ("16's count after 19", |m, p, c| {
        told(m, p, c, (16, 19), |_, call| match call {
            // The queue is none.
            Call::ArrivePacket { packet, .. } if wrong_count(call) => {
                let queue = packet[0] << 1 & 0x1E | packet[1] >> 7;
                queue >= 24
            }
            _ => false,
        })
    }),
    ("6 under ten bytes", |m, p, c| {
        told(m, p, c, (16, 6), |_, call| !wrong_count(call))
    }),
    ("17 after 4", |m, p, c| {
        told(m, p, c, (17, 4), |_, call| port_of(call) > 3)
    }),
    ("24 after 17", |m, p, c| told(m, p, c, (24, 17), wrong_size)),
    ("5 before 4", |m, p, c| {
        told(
            m,
            p,
            c,
            (4, 5),
            |_, call| matches!(call, Call::Show { queue, .. } if *queue > 23),
        )
    }),
    ("the first memory's size alone", |m, p, c| {
        taken(m, p, c, |right, lent| lent[0] == right)
    }),
    ("a larger memory is taken", |m, p, c| {
        taken(m, p, c, |right, lent| {
            lent.iter().all(|&bytes| bytes >= right)
        })
    }),
    ("a header alone is taken in", |m, p, c| match c {
        Call::Arrive { .. } if reader::judged(m).is_ok() => {
            let kept = std::mem::take(&mut m[15]);
            let reply = library::with_packets(m, p, c);
            m[15] = kept;
            reply
        }
        _ => library::with_packets(m, p, c),
    }),
];

/// On hostile traffic, and on such with many setups of both kinds.
const PROFILES: [Profile; 2] = [Profile::Hostile, Profile::Resetup];

#[test]
fn a_slip_with_packets_is_found() {
    let found = |desk: &Whole| {
        PROFILES.iter().find_map(|profile| {
            let plan = plan(3, *profile, 4, 20_000);
            made(&plan, desk, &mut Counts::default()).err()
        })
    };
    assert_eq!(found(&LIBRARY), None);
    for (name, slip) in SLIPS {
        let (at, told) = found(&Whole(slip)).unwrap_or_else(|| panic!("not found: {name}"));
        println!("{name}: call {at}: {told}");
    }
}

/// The oldest but one is shown: seen where two of a queue are in the slots.
#[test]
fn a_slip_that_shows_the_newest_is_found_and_cut_down() {
    let slip = Whole(|memory, packets, call| {
        let reply = library::with_packets(memory, packets, call)?;
        let newest = match (call, &reply) {
            (Call::Show { port, queue, .. }, Reply::Shown(_)) => {
                let ledger = reader::ledger(memory)?;
                let list = &ledger.ports[*port as usize].prefetch[*queue as usize];
                *list.back().ok_or("nothing is in the slots")?
            }
            _ => return Ok(reply),
        };
        Ok(Reply::Shown(Part {
            owner: u32::from(newest) / 2048,
            at: u64::from(newest) % 2048 * SLOT_BYTES as u64,
            length: u32::from(reader::ledger(memory)?.packet(newest).ok_or("free")?.length),
        }))
    });
    let plan = plan(5, Profile::Valid, 4, 20_000);
    let failure = run(&plan, &slip, &mut Counts::default()).unwrap_err();
    println!("{failure}");
    // Setup, two arrivals, and for each a stitch and a prefetch; a round may stand for
    // some, and a map may be needed.
    let remaining = failure.remaining.len();
    assert!((5..=8).contains(&remaining), "{remaining} remain");
}
