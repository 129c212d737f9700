//! Runs on the model: many of the bench program's fields in one call.

use crate::bench::{read_call, split_field};
use crate::{Call, Model, Reply, Shape};

/// The bytes of a field's answer.
const ANSWER: usize = 4;

/// Why a run stopped.
#[derive(Debug, Clone, Copy, PartialEq, Eq, Hash, PartialOrd, Ord)]
pub enum Stop {
    /// After the last field.
    Ended,
    /// At a bad field.
    BadField,
    /// At a good field whose answer no longer fits.
    NoRoom,
}

impl Stop {
    /// As the C interface tells it.
    pub fn number(self) -> u32 {
        match self {
            Stop::Ended => 0,
            Stop::BadField => 1,
            Stop::NoRoom => 2,
        }
    }
}

/// How many fields a run did, refused ones too, and why it stopped.
#[derive(Debug, Clone, Copy, PartialEq, Eq)]
pub struct Ran {
    pub count: usize,
    pub why: Stop,
}

impl Model {
    /// The calls in the fields, one by one, and their answers into lent room; past
    /// them it stays. The error is a refusal's number, and then nothing changes.
    pub fn run(&mut self, fields: &[u8], answers: &mut [u8]) -> Result<Ran, u8> {
        // A setup, which could change it, is no field of a run.
        let shape = self.ledger.as_ref().ok_or(3)?.settings.shape();
        let mut left = fields;
        let mut room = answers.chunks_exact_mut(ANSWER);
        let mut count = 0;
        let why = loop {
            if left.is_empty() {
                break Stop::Ended;
            }
            // Whether the field is good comes first, then whether there is room.
            let (call, after) = match good_field(&shape, left) {
                Some(field) => field,
                None => break Stop::BadField,
            };
            match room.next() {
                Some(answer) => answer.copy_from_slice(&told(&self.call(&call))),
                None => break Stop::NoRoom,
            }
            left = after;
            count += 1;
        };
        Ok(Ran { count, why })
    }
}

/// The call in the first field, and the bytes after it; none if the field is bad.
fn good_field<'f>(shape: &Shape, fields: &'f [u8]) -> Option<(Call, &'f [u8])> {
    let (tag, value, after) = split_field(fields)?;
    let call = match (tag, value) {
        (1, _) => return None,
        // Of the switch's own form; the bench's ten bytes are read below.
        (2, [port, header @ ..]) if header.len() == shape.header_bytes() => Call::Arrive {
            port: u32::from(*port),
            header: header.to_vec(),
        },
        _ => read_call(tag, value)?,
    };
    Some((call, after))
}

/// Refusal number, 1 if idle, entry id or 0.
fn told(reply: &Reply) -> [u8; ANSWER] {
    let done = |entry: u16| {
        let [high, low] = entry.to_be_bytes();
        [0, 0, high, low]
    };
    match reply {
        Reply::Refused(number) => [*number, 0, 0, 0],
        Reply::Idle => [0, 1, 0, 0],
        Reply::Done => done(0),
        Reply::Entry(entry) => done(*entry),
        // The record begins with the entry id.
        Reply::Stitched(record) => [0, 0, record[0], record[1]],
        Reply::Leaves(packet, _) => done(packet.entry),
        Reply::Word(..)
        | Reply::Found(..)
        | Reply::Mark(_)
        | Reply::Count(_)
        | Reply::Turns(_)
        | Reply::Shown(_) => {
            unreachable!("no field asks for ready, where, a mark, a bucket, a round or a packet")
        }
    }
}
