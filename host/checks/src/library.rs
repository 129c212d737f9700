//! One call of the proved library, told in the model's words.

use model::{Call, ListKind, Packet, Part, Reply, Settings, Side, REFUSALS};
use ventorupo::calls;

use crate::packets::Packets;
use crate::reader;

/// Rooms start with these bytes, so that a byte that should stay is seen.
const FILL: u8 = 0xA7;

/// Bytes before and behind a round's room, to see that nobody writes there.
const GUARD: usize = 7;

/// The settings in the C interface's order.
fn numbers(settings: &Settings) -> [u32; 8] {
    [
        settings.nodes,
        settings.beat,
        settings.slots,
        settings.credit,
        settings.ports,
        settings.queues,
        settings.edition,
        settings.packets,
    ]
}

/// The bytes of a state of these settings; none if one isn't in its row.
pub fn size(settings: &Settings) -> Option<usize> {
    match calls::size(&numbers(settings)) {
        0 => None,
        bytes => usize::try_from(bytes).ok(),
    }
}

/// What a refused call must leave in its room.
fn refused<T: PartialEq + std::fmt::Debug>(
    number: u32,
    room: T,
    before: T,
) -> Result<Reply, String> {
    if room != before {
        return Err(format!("refused {number}, but the room is {room:?}"));
    }
    match u8::try_from(number) {
        Ok(number) if REFUSALS.contains(&number) => Ok(Reply::Refused(number)),
        _ => Err(format!("answered {number}")),
    }
}

/// Make the call on this memory, and on packet memories of its own if it is lent
/// such: what it leaves there is nobody's. The error is a broken rule on answers
/// and rooms, whatever the model says.
pub fn call(memory: &mut [u8], call: &Call) -> Result<Reply, String> {
    with_packets(memory, &mut Packets::for_call(call), call)
}

/// The same on these packet memories.
pub fn with_packets(
    memory: &mut [u8],
    packets: &mut Packets,
    call: &Call,
) -> Result<Reply, String> {
    match call {
        Call::Setup(settings) => match calls::setup(memory, &numbers(settings)) {
            0 => Ok(Reply::Done),
            number => refused(number, (), ()),
        },
        Call::Arrive { port, header } => {
            arrived(header, |entry| calls::arrive(memory, *port, header, entry))
        }
        Call::ArrivePacket { port, packet, lent } => arrived(packet, |entry| {
            calls::arrive_packet(memory, packets.of_port(*port, *lent), *port, packet, entry)
        }),
        Call::Show { port, queue, lent } => {
            let before = (0xA7A7_A7A7, 0xA7A7_A7A7_A7A7_A7A7, 0xA7A7_A7A7);
            let (mut owner, mut at, mut length) = before;
            let lent = packets.all(lent);
            match calls::show(
                memory,
                lent,
                *port,
                *queue,
                &mut owner,
                &mut at,
                &mut length,
            ) {
                0 => Ok(Reply::Shown(Part { owner, at, length })),
                number => refused(number, (owner, at, length), before),
            }
        }
        Call::Stitch { port } => {
            let mut record = [FILL; 10];
            match calls::stitch(memory, *port, &mut record) {
                0 => Ok(Reply::Stitched(record)),
                number => refused(number, record, [FILL; 10]),
            }
        }
        Call::Prefetch { port, queue } => {
            let mut entry = 0xA7A7;
            match calls::prefetch(memory, *port, *queue, &mut entry) {
                0 => Ok(Reply::Entry(entry)),
                number => refused(number, entry, 0xA7A7),
            }
        }
        Call::Credit {
            port,
            queue,
            amount,
        } => match calls::credit(memory, *port, *queue, *amount) {
            0 => Ok(Reply::Done),
            number => refused(number, (), ()),
        },
        Call::Map { id, port } => match calls::map(memory, *id, *port) {
            0 => Ok(Reply::Done),
            number => refused(number, (), ()),
        },
        Call::Turn { port } => {
            let mut sent = [FILL; 16];
            match calls::turn(memory, *port, &mut sent) {
                0 => turned(&sent),
                number => refused(number, sent, [FILL; 16]),
            }
        }
        Call::Ready { port } => {
            let before = (0xA7A7_A7A7_A7A7_A7A7, 0xA7A7_A7A7);
            let (mut word, mut count) = before;
            match calls::ready(memory, *port, &mut word, &mut count) {
                0 => Ok(Reply::Word(word, count)),
                number => refused(number, (word, count), before),
            }
        }
        Call::Where { entry } => {
            let mut place = [FILL; 8];
            match calls::place_of(memory, *entry, &mut place) {
                0 => found(*entry, &place),
                number => refused(number, place, [FILL; 8]),
            }
        }
        Call::Clear { port } => match calls::clear(memory, *port) {
            0 => Ok(Reply::Done),
            number => refused(number, (), ()),
        },
        Call::Report { port } => {
            let mut mark = 0xA7A7_A7A7;
            match calls::report(memory, *port, &mut mark) {
                0 => match u8::try_from(mark) {
                    Ok(mark) => Ok(Reply::Mark(mark)),
                    Err(_) => Err(format!("a report wrote {mark}")),
                },
                number => refused(number, mark, 0xA7A7_A7A7),
            }
        }
        Call::TimedTurn { port, now } => {
            let mut sent = [FILL; 16];
            match calls::timed_turn(memory, *port, *now, &mut sent) {
                0 => turned(&sent),
                number => refused(number, sent, [FILL; 16]),
            }
        }
        Call::Bucket { port, bucket } => {
            let mut count = 0xA7A7_A7A7;
            match calls::bucket(memory, *port, *bucket, &mut count) {
                0 => Ok(Reply::Count(count)),
                number => refused(number, count, 0xA7A7_A7A7),
            }
        }
        Call::Round { room } => round(memory, room),
    }
}

/// An arrival of these bytes, which stay as they are.
fn arrived(bytes: &[u8], arrive: impl FnOnce(&mut u16) -> u32) -> Result<Reply, String> {
    let kept = bytes.to_vec();
    let mut entry = 0xA7A7;
    let number = arrive(&mut entry);
    if bytes != kept {
        return Err("the bytes that arrive differ".into());
    }
    match number {
        0 => Ok(Reply::Entry(entry)),
        _ => refused(number, entry, 0xA7A7),
    }
}

/// The room stands between guards; past the turns it stays.
fn round(memory: &mut [u8], room: &[u8]) -> Result<Reply, String> {
    let before = [&[FILL; GUARD], room, &[FILL; GUARD]].concat();
    let mut after = before.clone();
    let number = calls::round(memory, &mut after[GUARD..GUARD + room.len()]);
    if number != 0 {
        return refused(number, after, before);
    }
    // Four bytes for each of as many ports as the state says.
    let bytes = reader::settings(memory).shape().round_bytes();
    if room.len() < bytes {
        return Err(format!("a round takes a room of {} bytes", room.len()));
    }
    let told = GUARD..GUARD + bytes;
    let turns = after[told.clone()].to_vec();
    after[told.clone()].copy_from_slice(&before[told]);
    if after != before {
        return Err(format!("a round wrote past its turns: {after:?}"));
    }
    Ok(Reply::Turns(turns))
}

/// Read here byte by byte, not by the wrapper, which is tried as well.
fn turned(sent: &[u8; 16]) -> Result<Reply, String> {
    let two = |at: usize| u32::from(sent[at]) << 8 | u32::from(sent[at + 1]);
    let side = match sent[0] {
        // An idle turn writes the kind alone.
        0 if sent[1..] == [FILL; 15] => return Ok(Reply::Idle),
        1 => Side::Inside,
        2 => Side::Outside,
        _ => return Err(format!("a turn wrote {sent:?}")),
    };
    // Wider in the room than in the model.
    let (destination, poisoned) = (two(6), sent[12]);
    if destination > 255 || poisoned > 1 {
        return Err(format!("a turn wrote {sent:?}"));
    }
    let packet = Packet {
        entry: two(2) as u16,
        length: two(4) as u16,
        queue: sent[1],
        destination: destination as u8,
        timestamp: two(8) << 16 | two(10),
        poisoned: poisoned == 1,
        transaction: sent[13],
        price: two(14),
    };
    Ok(Reply::Leaves(packet, side))
}

fn found(entry: u32, place: &[u8; 8]) -> Result<Reply, String> {
    let two = |at: usize| u32::from(place[at]) << 8 | u32::from(place[at + 1]);
    let (port, queue) = (u32::from(place[3]), u32::from(place[4]));
    let kind = match place[2] {
        0 => ListKind::Free { port },
        1 => ListKind::Ingress { port },
        2 => ListKind::Egress { port, queue },
        3 => ListKind::Prefetch { port, queue },
        _ => return Err(format!("where wrote {place:?}")),
    };
    // Free and ingress lists have no queue; byte 5 is always 0.
    if two(0) != entry || place[5] != 0 || (place[2] < 2 && queue != 0) {
        return Err(format!("where {entry} wrote {place:?}"));
    }
    Ok(Reply::Found(kind, two(6)))
}
