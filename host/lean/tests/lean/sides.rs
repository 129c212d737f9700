//! Both sides of a comparison: the model's calls, on lean and as fields.

use lean::{Lean, Packet, Record, Refusal};
use model::{Call, Reply, Side};

/// What a byte holds that nobody writes.
pub const UNTOUCHED: u8 = 0xA5;

/// The model's settings for lean.
pub fn settings(s: &model::Settings) -> lean::Settings {
    lean::Settings {
        nodes: s.nodes,
        beat: s.beat,
        slots: s.slots,
        credit: s.credit,
        ports: s.ports,
        queues: s.queues,
        edition: s.edition,
    }
}

pub fn set_up<const EARLY_OUT: bool>(s: &model::Settings) -> Lean<EARLY_OUT> {
    Lean::setup(settings(s)).expect("settings in their rows")
}

/// A field of any tag and value.
pub fn tagged(tag: u8, value: &[u8]) -> Vec<u8> {
    let length = (value.len() as u16).to_be_bytes();
    [&[tag], &length[..], value].concat()
}

/// A call's field in a switch with headers of so many bytes: as the bench program
/// has it, but that an arrival may have its edition's header too.
pub fn field(call: &Call, header_bytes: usize) -> Option<Vec<u8>> {
    match call {
        Call::Setup(_) => None,
        Call::Arrive { port, header } if header.len() == header_bytes => {
            let port = u8::try_from(*port).ok()?;
            Some(tagged(2, &[&[port], &header[..]].concat()))
        }
        _ => traffic::field(call),
    }
}

/// A reply in four bytes: refusal number, 1 if idle, entry id or 0.
pub fn four_bytes(reply: &Reply) -> [u8; 4] {
    let [high, low] = match reply {
        Reply::Refused(number) => return [*number, 0, 0, 0],
        Reply::Idle => return [0, 1, 0, 0],
        Reply::Entry(entry) => entry.to_be_bytes(),
        Reply::Stitched(record) => [record[0], record[1]],
        Reply::Leaves(packet, _) => packet.entry.to_be_bytes(),
        _ => [0, 0],
    };
    [0, 0, high, low]
}

/// One of the six calls on lean; none for another.
pub fn reply<const EARLY_OUT: bool>(lean: &mut Lean<EARLY_OUT>, call: &Call) -> Option<Reply> {
    let answer = match call {
        Call::Arrive { port, header } => lean.arrive(*port, header).map(Reply::Entry),
        Call::Stitch { port } => lean.stitch(*port).map(stitched),
        Call::Prefetch { port, queue } => lean.prefetch(*port, *queue).map(Reply::Entry),
        Call::Turn { port } => lean
            .turn(*port)
            .map(|sent| sent.map_or(Reply::Idle, leaves)),
        Call::Credit {
            port,
            queue,
            amount,
        } => lean.credit(*port, *queue, *amount).map(|()| Reply::Done),
        Call::Map { id, port } => lean.map(*id, *port).map(|()| Reply::Done),
        _ => return None,
    };
    Some(answer.unwrap_or_else(|refusal: Refusal| Reply::Refused(refusal.number())))
}

/// The ten bytes of a record.
fn stitched(record: Record) -> Reply {
    let [e0, e1] = record.entry.to_be_bytes();
    let [l0, l1] = record.length.to_be_bytes();
    let [t0, t1, t2, t3] = record.timestamp.to_be_bytes();
    let [queue, port] = [record.queue, record.port];
    Reply::Stitched([e0, e1, l0, l1, queue, port, t0, t1, t2, t3])
}

fn leaves(packet: Packet) -> Reply {
    let side = match packet.queue {
        0 => Side::Inside,
        _ => Side::Outside,
    };
    let packet = model::Packet {
        entry: packet.entry,
        length: packet.length,
        queue: packet.queue,
        destination: packet.destination,
        timestamp: packet.timestamp,
        poisoned: packet.poisoned,
        transaction: packet.transaction,
        price: packet.price.into(),
    };
    Reply::Leaves(packet, side)
}
