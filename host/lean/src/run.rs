//! A run of the bench program's tagged fields: tag (1 byte), length (2), value.

use crate::settings::Refusal;
use crate::Lean;

/// Why a run stopped.
#[derive(Debug, Clone, Copy, PartialEq, Eq)]
pub enum Why {
    /// All fields are done.
    End = 0,
    /// The next field is bad.
    Bad = 1,
    /// The next field is good, and there is no room for its answer.
    NoRoom = 2,
}

/// How many fields a run did, and why it stopped.
#[derive(Debug, Clone, Copy, PartialEq, Eq)]
pub struct Ran {
    pub count: u64,
    pub why: Why,
}

/// A good field: tags 2 to 7, in this order.
enum Field<'a> {
    Arrive(u8, &'a [u8]),
    Stitch(u8),
    Prefetch(u8, u8),
    Turn(u8),
    Credit(u8, u8, u16),
    Map(u8, u8),
}

impl<const EARLY_OUT: bool> Lean<EARLY_OUT> {
    /// The fields one after another; each answer is four bytes: refusal number, 1 if
    /// idle, entry id or 0.
    pub fn run(&mut self, fields: &[u8], answers: &mut [u8]) -> Ran {
        let mut rooms = answers.chunks_exact_mut(4);
        let (mut rest, mut count) = (fields, 0);
        let why = loop {
            if rest.is_empty() {
                break Why::End;
            }
            let (field, after) = match read(rest, self.form.bytes) {
                Some(read) => read,
                None => break Why::Bad,
            };
            let room = match rooms.next() {
                Some(room) => room,
                None => break Why::NoRoom,
            };
            room.copy_from_slice(&self.answer(field));
            rest = after;
            count += 1;
        };
        Ran { count, why }
    }

    #[inline]
    fn answer(&mut self, field: Field) -> [u8; 4] {
        match field {
            Field::Arrive(port, header) => told(self.arrive(port.into(), header)),
            Field::Stitch(port) => told(self.stitch(port.into()).map(|record| record.entry)),
            Field::Prefetch(port, queue) => told(self.prefetch(port.into(), queue.into())),
            Field::Turn(port) => match self.turn(port.into()) {
                Ok(None) => [0, 1, 0, 0],
                Ok(Some(packet)) => told(Ok(packet.entry)),
                Err(refusal) => told(Err(refusal)),
            },
            Field::Credit(port, queue, amount) => told(
                self.credit(port.into(), queue.into(), amount.into())
                    .map(|()| 0),
            ),
            Field::Map(id, port) => told(self.map(id.into(), port.into()).map(|()| 0)),
        }
    }
}

/// An entry id or a refusal in four bytes.
#[inline]
fn told(answer: Result<u16, Refusal>) -> [u8; 4] {
    match answer {
        Ok(entry) => u32::from(entry).to_be_bytes(),
        Err(refusal) => [refusal.number(), 0, 0, 0],
    }
}

/// The first field, and the bytes after it; none if it is bad: another tag, a wrong
/// length or a cut field. Called, it would hand the field over through memory.
#[inline(always)]
fn read(bytes: &[u8], header: usize) -> Option<(Field<'_>, &[u8])> {
    Some(match *bytes {
        [2, high, low, port, ref rest @ ..] => {
            let length = usize::from(u16::from_be_bytes([high, low]));
            if length != 11 && length != 1 + header || rest.len() < length - 1 {
                return None;
            }
            let (header, rest) = rest.split_at(length - 1);
            (Field::Arrive(port, header), rest)
        }
        [3, 0, 1, port, ref rest @ ..] => (Field::Stitch(port), rest),
        [4, 0, 2, port, queue, ref rest @ ..] => (Field::Prefetch(port, queue), rest),
        [5, 0, 1, port, ref rest @ ..] => (Field::Turn(port), rest),
        [6, 0, 4, port, queue, high, low, ref rest @ ..] => {
            let amount = u16::from_be_bytes([high, low]);
            (Field::Credit(port, queue, amount), rest)
        }
        [7, 0, 2, id, port, ref rest @ ..] => (Field::Map(id, port), rest),
        _ => return None,
    })
}
