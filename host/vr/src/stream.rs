//! A stream of the bench program's fields, a piece at a time. What a field is worth
//! is said by the library; this finds setups, which no run carries out, and tells
//! what is wrong with a bad field.

use std::io::{self, ErrorKind, Read};

use ventorupo::{Form, Settings};

use crate::fields;
use crate::view::counted;

/// The bytes before a field's value: its tag, and its length.
const HEAD: usize = 3;

/// The fields' names and the bytes of their values, from tag 1 on.
pub const KINDS: [(&str, usize); 7] = [
    ("setup", 7),
    ("arrive", 11),
    ("stitch", 1),
    ("prefetch", 2),
    ("turn", 1),
    ("credit", 4),
    ("map", 2),
];

pub const SETUP: u8 = 1;
pub const ARRIVE: u8 = 2;
pub const TURN: u8 = 5;

/// Should library and reader ever disagree.
const UNSEEN: &str = "vr's own reader sees nothing wrong with it: please report this stream";

/// A stream, of which a part is there. What is cut off at the part's end comes whole
/// with the next piece.
pub struct Pieces<R> {
    from: R,
    /// The most bytes of a piece.
    most: usize,
    bytes: Vec<u8>,
    /// How many of these are done with.
    passed: usize,
    /// Where in the stream the rest starts.
    pub at: u64,
    /// Whether there is no more to come.
    pub ended: bool,
}

impl<R: Read> Pieces<R> {
    pub fn new(from: R, most: usize) -> Pieces<R> {
        Pieces {
            from,
            most,
            bytes: Vec::new(),
            passed: 0,
            at: 0,
            ended: false,
        }
    }

    /// What is there and not done with.
    pub fn rest(&self) -> &[u8] {
        &self.bytes[self.passed..]
    }

    pub fn pass(&mut self, bytes: usize) {
        self.passed += bytes;
        self.at += bytes as u64;
    }

    /// Another piece, as much as comes at once.
    pub fn fill(&mut self) -> io::Result<()> {
        self.bytes.drain(..self.passed);
        self.passed = 0;
        let kept = self.bytes.len();
        self.bytes.resize(kept + self.most, 0);
        let read = some(&mut self.from, &mut self.bytes[kept..])?;
        self.bytes.truncate(kept + read);
        self.ended = read == 0;
        Ok(())
    }
}

/// As many bytes as come at once; 0 at the end.
fn some(from: &mut impl Read, room: &mut [u8]) -> io::Result<usize> {
    loop {
        match from.read(room) {
            Err(why) if why.kind() == ErrorKind::Interrupted => {}
            read => return read,
        }
    }
}

/// What stands at the front of some bytes.
#[derive(Debug, Clone, Copy, PartialEq, Eq)]
pub enum Front {
    Nothing,
    /// A field that is cut off.
    Cut,
    /// A setup, with its settings.
    Setup(Settings),
    /// Any other field, with the bytes of its value.
    Field {
        tag: u8,
        length: usize,
    },
}

impl Front {
    pub fn of(bytes: &[u8]) -> Front {
        let (tag, length) = match *bytes {
            [] => return Front::Nothing,
            [tag, high, low, ..] => (tag, number(high, low) as usize),
            _ => return Front::Cut,
        };
        match (tag, bytes[HEAD..].get(..length)) {
            (_, None) => Front::Cut,
            (SETUP, Some(&[n1, n0, b1, b0, slots, k1, k0])) => Front::Setup(
                Settings::ten_bytes()
                    .nodes(number(n1, n0))
                    .beat(number(b1, b0))
                    .slots(slots.into())
                    .credit(number(k1, k0)),
            ),
            _ => Front::Field { tag, length },
        }
    }

    /// The bytes of the whole field; none of what is no field.
    pub fn bytes(self) -> usize {
        match self {
            Front::Nothing | Front::Cut => 0,
            Front::Setup(_) => HEAD + KINDS[0].1,
            Front::Field { length, .. } => HEAD + length,
        }
    }
}

fn number(high: u8, low: u8) -> u32 {
    u16::from_be_bytes([high, low]).into()
}

/// The name of a tag's field, and the bytes that its value may have on a switch whose
/// headers are of this form.
fn kind(tag: u8, form: Form) -> Option<(&'static str, [usize; 2])> {
    let (name, length) = *KINDS.get(usize::from(tag).checked_sub(1)?)?;
    let own = match tag {
        ARRIVE => 1 + fields::size(form),
        _ => length,
    };
    Some((name, [length, own]))
}

/// Whether a field is one of the bench program's, a call of it but setup.
pub fn is_call(tag: u8, length: usize) -> bool {
    let right = kind(tag, Form::TEN_BYTES).map(|(_, lengths)| lengths[0]);
    tag != SETUP && right == Some(length)
}

/// What is wrong with the bad field at the front of these bytes, where headers are of
/// this form. What is cut off is cut off for good.
pub fn why_bad(bytes: &[u8], form: Form) -> String {
    let tag = bytes.first().copied().unwrap_or(0);
    let (name, lengths) = match kind(tag, form) {
        Some(kind) => kind,
        None => return format!("tag {tag} is none of 1 to 7"),
    };
    let value = match bytes.get(HEAD..) {
        Some(value) => value.len(),
        None => {
            let there = counted(bytes.len() as u64, "byte");
            return format!("it is cut off, {there} of {name}'s tag and length are there");
        }
    };
    let length = number(bytes[1], bytes[2]) as usize;
    if !lengths.contains(&length) {
        let (has, wanted) = (counted(length as u64, "byte"), either(lengths));
        return format!("{name} has a value of {wanted}, and this one is of {has}");
    }
    if value < length {
        return format!("it is cut off, {value} of the {length} bytes of {name}'s value are there");
    }
    UNSEEN.into()
}

/// One number of bytes or another.
fn either([length, other]: [usize; 2]) -> String {
    match length == other {
        true => counted(length as u64, "byte"),
        false => format!("{length} or {}", counted(other as u64, "byte")),
    }
}

#[cfg(test)]
mod tests {
    use super::*;

    #[test]
    fn what_stands_in_front() {
        for (bytes, front) in [
            (&[][..], Front::Nothing),
            (&[5], Front::Cut),
            (&[5, 0], Front::Cut),
            (&[5, 0, 1], Front::Cut),
            (&[5, 0, 1, 3], Front::Field { tag: 5, length: 1 }),
            (&[5, 0, 1, 3, 4], Front::Field { tag: 5, length: 1 }),
            (&[9, 0, 0], Front::Field { tag: 9, length: 0 }),
            (&[1, 0, 1, 7], Front::Field { tag: 1, length: 1 }),
            (&[1, 0, 7, 0, 1, 0, 64, 1, 0], Front::Cut),
            (
                &[1, 0, 7, 1, 2, 2, 0, 8, 3, 4, 5],
                Front::Setup(
                    Settings::ten_bytes()
                        .nodes(258)
                        .beat(512)
                        .slots(8)
                        .credit(772),
                ),
            ),
        ] {
            assert_eq!(Front::of(bytes), front);
        }
        assert_eq!(Front::of(&[5, 0, 1, 3, 4]).bytes(), 4);
        let setup = [1, 0, 7, 0, 1, 0, 64, 1, 0, 16, 5];
        assert_eq!(Front::of(&setup).bytes(), 10);
    }

    const TEN: Form = Form::TEN_BYTES;
    const WIDE: Form = Form::wide(8, 16);

    const BAD: [(&[u8], Form, &str); 10] = [
        (&[0], WIDE, "tag 0 is none of 1 to 7"),
        (&[8, 0, 0], WIDE, "tag 8 is none of 1 to 7"),
        (
            &[5],
            WIDE,
            "it is cut off, 1 byte of turn's tag and length are there",
        ),
        (
            &[7, 0],
            WIDE,
            "it is cut off, 2 bytes of map's tag and length are there",
        ),
        (
            &[5, 0, 2, 0, 0],
            WIDE,
            "turn has a value of 1 byte, and this one is of 2 bytes",
        ),
        (
            &[1, 0, 1, 0],
            WIDE,
            "setup has a value of 7 bytes, and this one is of 1 byte",
        ),
        (
            &[2, 1, 0],
            WIDE,
            "arrive has a value of 11 or 12 bytes, and this one is of 256 bytes",
        ),
        (
            &[2, 0, 12],
            TEN,
            "arrive has a value of 11 bytes, and this one is of 12 bytes",
        ),
        (
            &[2, 0, 12, 1],
            WIDE,
            "it is cut off, 1 of the 12 bytes of arrive's value are there",
        ),
        (&[5, 0, 1, 0], WIDE, UNSEEN),
    ];

    #[test]
    fn bad_fields_in_words() {
        for (bytes, form, why) in BAD {
            assert_eq!(why_bad(bytes, form), why);
        }
    }

    #[test]
    fn calls_are_told_from_other_fields() {
        for (tag, &(name, length)) in (1..).zip(&KINDS) {
            assert_eq!(is_call(tag, length), name != "setup");
            assert!(!is_call(tag, length + 1) && !is_call(tag, length - 1));
        }
        assert!(!is_call(0, 1) && !is_call(8, 1) && !is_call(255, 1));
    }

    /// Pieces of every size, read and passed in every step.
    #[test]
    fn pieces_are_the_stream() {
        let stream: Vec<u8> = (0..100).collect();
        for most in 1..=101 {
            for step in 1..=101 {
                let mut pieces = Pieces::new(&stream[..], most);
                let mut read: Vec<u8> = Vec::new();
                while !pieces.ended {
                    pieces.fill().unwrap();
                    if pieces.rest().len() >= step || pieces.ended {
                        let part = pieces.rest().len().min(step);
                        read.extend(&pieces.rest()[..part]);
                        pieces.pass(part);
                    }
                    assert_eq!(pieces.at as usize, read.len());
                }
                read.extend(pieces.rest());
                assert_eq!(read, stream);
            }
        }
    }
}
