//! The proved reader and writer of headers beside the model's, on any shapes,
//! bytes and fields, and beside each other.

use std::fmt;

use model::header::{self, Header};
use model::Shape;
use traffic::headers::{any_bytes, any_shape, no_shape, right_fields, wrong_fields};
use traffic::Random;
use ventorupo::calls;

/// A header's fields as the C interface has them.
pub type Numbers = [u32; 8];

/// Reads bytes into fields; answers 0 or a refusal's number, as the writer.
pub type Read = fn(&Shape, &[u8], &mut Numbers) -> u32;

/// Writes fields into a room, and their size.
pub type Write = fn(&Shape, &Numbers, &mut [u8; 12], &mut u32) -> u32;

/// The two functions. In tests one of them may have a slip.
#[derive(Clone, Copy)]
pub struct Scribe {
    pub read: Read,
    pub write: Write,
}

/// Those of the proved library.
pub const PROVED: Scribe = Scribe {
    read: |shape, bytes, fields| {
        let Shape {
            edition,
            ports,
            queues,
        } = *shape;
        calls::read_header(edition, ports, queues, bytes, fields)
    },
    write: |shape, fields, room, size| {
        let Shape {
            edition,
            ports,
            queues,
        } = *shape;
        calls::write_header(edition, ports, queues, fields, room, size)
    },
};

/// Rooms start with these, so that what should stay is seen.
const FILL: u8 = 0xA7;
const FIELD_FILL: u32 = 0xA7A7_A7A7;

fn numbers(header: &Header) -> Numbers {
    [
        header.destination,
        header.source,
        header.queue,
        header.length,
        header.poisoned,
        header.timestamp,
        header.credit,
        header.transaction,
    ]
}

impl Scribe {
    /// Reads bytes as the model does; what is taken, the writer writes so again.
    /// Answers the refusal's number or 0.
    pub fn reads(&self, shape: &Shape, bytes: &[u8]) -> Result<u8, String> {
        let read = self.reads_alone(shape, bytes)?;
        match read {
            Err(number) => Ok(number),
            Ok(header) => match self.writes_alone(shape, &header)? {
                Ok(again) if again == bytes => Ok(0),
                other => Err(format!("{header:?} is written {other:?}")),
            },
        }
        .map_err(|why| format!("{shape:?}, {bytes:?}: {why}"))
    }

    /// Writes fields as the model does; what is written, the reader reads so
    /// again.
    pub fn writes(&self, shape: &Shape, header: &Header) -> Result<u8, String> {
        let written = self.writes_alone(shape, header)?;
        match written {
            Err(number) => Ok(number),
            Ok(bytes) => match self.reads_alone(shape, &bytes)? {
                Ok(again) if again == *header => Ok(0),
                other => Err(format!("{bytes:?} is read {other:?}")),
            },
        }
        .map_err(|why| format!("{shape:?}, {header:?}: {why}"))
    }

    /// One call of the reader. A refusal leaves the fields.
    fn reads_alone(&self, shape: &Shape, bytes: &[u8]) -> Result<Result<Header, u8>, String> {
        let mut fields = [FIELD_FILL; 8];
        let number = (self.read)(shape, bytes, &mut fields);
        let wanted = header::read(shape, bytes);
        let told = match &wanted {
            Ok(header) => (0, numbers(header)),
            Err(number) => (u32::from(*number), [FIELD_FILL; 8]),
        };
        match (number, fields) == told {
            true => Ok(wanted),
            false => Err(format!(
                "{shape:?}, {bytes:?}: the reader answers {number} and {fields:?}, the model {wanted:?}"
            )),
        }
    }

    /// One call of the writer. A refusal leaves room and size, and what is past
    /// the size stays.
    fn writes_alone(&self, shape: &Shape, header: &Header) -> Result<Result<Vec<u8>, u8>, String> {
        let (mut room, mut size) = ([FILL; 12], FIELD_FILL);
        let number = (self.write)(shape, &numbers(header), &mut room, &mut size);
        let wanted = header::write(shape, header);
        let mut told = (0, [FILL; 12], FIELD_FILL);
        match &wanted {
            Ok(bytes) => {
                told.1[..bytes.len()].copy_from_slice(bytes);
                told.2 = bytes.len() as u32;
            }
            Err(number) => told.0 = u32::from(*number),
        }
        match (number, room, size) == told {
            true => Ok(wanted),
            false => Err(format!(
                "{shape:?}, {header:?}: the writer answers {number}, {size} and {room:?}, the model {wanted:?}"
            )),
        }
    }

    /// So many headers of a seed, every second one written and the others read.
    pub fn run(&self, seed: u64, headers: u64) -> Result<Tally, String> {
        let mut random = Random::new(seed);
        let mut tally = Tally::default();
        for number in 0..headers {
            let of = any_shape(&mut random);
            // Now and then edition, ports and queues are no shape.
            let shape = match random.one_in(16) {
                true => no_shape(&mut random),
                false => of,
            };
            if number % 2 == 0 {
                let bytes = any_bytes(&mut random, &of);
                tally.read[usize::from(self.reads(&shape, &bytes)?)] += 1;
            } else {
                let fields = match random.one_in(3) {
                    true => wrong_fields(&mut random, &of),
                    false => right_fields(&mut random, &of),
                };
                tally.written[usize::from(self.writes(&shape, &fields)?)] += 1;
            }
        }
        Ok(tally)
    }
}

/// How often each answer came, by the refusal's number.
#[derive(Debug, Clone, PartialEq, Eq, Default)]
pub struct Tally {
    pub read: [u64; 28],
    pub written: [u64; 28],
}

impl Tally {
    pub fn add(&mut self, other: &Tally) {
        let mine = self.read.iter_mut().chain(&mut self.written);
        for (cell, more) in mine.zip(other.read.iter().chain(&other.written)) {
            *cell += more;
        }
    }

    /// How many headers were read and written.
    pub fn headers(&self) -> u64 {
        self.read.iter().chain(&self.written).sum()
    }

    /// How often each answer must have come among so many headers; none of a few,
    /// which may have too little of everything.
    pub fn least(headers: u64) -> u64 {
        match headers {
            0..=4999 => 0,
            _ => headers / 1000,
        }
    }

    /// The answers of the reader and of the writer that came less often.
    pub fn too_rare(&self, least: u64) -> Vec<(&'static str, usize)> {
        let read = [0, 2, 6, 7, 9, 19, 20].map(|number| ("read", number, self.read[number]));
        let written = [0, 2, 21].map(|number| ("written", number, self.written[number]));
        let all = read.into_iter().chain(written);
        all.filter(|&(_, _, times)| times < least)
            .map(|(how, number, _)| (how, number))
            .collect()
    }
}

impl fmt::Display for Tally {
    fn fmt(&self, f: &mut fmt::Formatter<'_>) -> fmt::Result {
        for (how, counts) in [("read", &self.read), ("written", &self.written)] {
            write!(f, "{how}: taken {}", counts[0])?;
            for (number, times) in counts.iter().enumerate().skip(1) {
                if *times > 0 {
                    write!(f, ", [{number}] {times}")?;
                }
            }
            writeln!(f)?;
        }
        Ok(())
    }
}
