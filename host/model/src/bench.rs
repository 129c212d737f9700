//! The bench program on the model: tagged fields in, lines out. It keeps to the
//! ten-byte header, four ports and 24 queues, and has no field for clear and
//! report: what it halts stays so until the next setup.

use crate::{Call, Model, Reply, Settings};

/// The bench program's memory, all zero at first.
pub const MEMORY: usize = 65_536;

/// The whole run: the lines for the fields of `input`. A bad field gets its
/// line and ends the run.
pub fn bench(input: &[u8]) -> Vec<u8> {
    let mut model = Model::new(MEMORY);
    let mut lines = String::new();
    let mut rest = input;
    let mut number = 0u64;
    while !rest.is_empty() {
        number += 1;
        let field =
            split_field(rest).and_then(|(tag, value, after)| Some((read_call(tag, value)?, after)));
        let (call, after) = match field {
            Some(field) => field,
            None => {
                lines += &format!("{number} bad\n");
                break;
            }
        };
        rest = after;
        lines += &format!("{number} {}\n", words(&model.call(&call)));
    }
    lines.into_bytes()
}

/// The first field's tag and value, and the bytes after it; none if it is cut.
pub(crate) fn split_field(bytes: &[u8]) -> Option<(u8, &[u8], &[u8])> {
    let (tag, high, low, rest) = match bytes {
        &[tag, high, low, ref rest @ ..] => (tag, high, low, rest),
        _ => return None,
    };
    let length = u16::from_be_bytes([high, low]) as usize;
    Some((tag, rest.get(..length)?, &rest[length..]))
}

/// The call in a field; none for another tag or a wrong length.
pub(crate) fn read_call(tag: u8, value: &[u8]) -> Option<Call> {
    let two = |high: u8, low: u8| u32::from(u16::from_be_bytes([high, low]));
    let call = match (tag, value) {
        (1, &[n1, n0, b1, b0, slots, k1, k0]) => Call::Setup(Settings::ten_bytes(
            two(n1, n0),
            two(b1, b0),
            slots.into(),
            two(k1, k0),
        )),
        (2, &[port, ref header @ ..]) if header.len() == 10 => Call::Arrive {
            port: port.into(),
            header: header.to_vec(),
        },
        (3, &[port]) => Call::Stitch { port: port.into() },
        (4, &[port, queue]) => Call::Prefetch {
            port: port.into(),
            queue: queue.into(),
        },
        (5, &[port]) => Call::Turn { port: port.into() },
        (6, &[port, queue, n1, n0]) => Call::Credit {
            port: port.into(),
            queue: queue.into(),
            amount: two(n1, n0),
        },
        (7, &[id, port]) => Call::Map {
            id: id.into(),
            port: port.into(),
        },
        _ => return None,
    };
    Some(call)
}

/// What stands in a line after its number.
fn words(reply: &Reply) -> String {
    match reply {
        Reply::Refused(number) => number.to_string(),
        Reply::Done => "0".to_string(),
        Reply::Entry(entry) => format!("0 {entry}"),
        // The record begins with the entry id.
        Reply::Stitched(record) => format!("0 {}", u16::from_be_bytes([record[0], record[1]])),
        Reply::Idle => "0 idle".to_string(),
        Reply::Leaves(packet, _) => format!("0 {}", packet.entry),
        Reply::Word(..)
        | Reply::Found(..)
        | Reply::Mark(_)
        | Reply::Count(_)
        | Reply::Turns(_)
        | Reply::Shown(_) => {
            unreachable!("no tag asks for ready, where, a mark, a bucket, a round or a packet")
        }
    }
}
