//! The form of a switch's headers: where their fields stand. It is found once, at
//! setup.

use crate::checksum::crc8;
use crate::settings::{Refusal, Settings, TEN_BYTES};

/// A field of the first 32 bits.
#[derive(Debug, Clone, Copy)]
struct Place {
    shift: u32,
    mask: u32,
}

impl Place {
    #[inline]
    fn of(self, front: u32) -> u32 {
        front >> self.shift & self.mask
    }
}

/// The fields before the timestamp take three bytes or four.
#[derive(Debug, Clone)]
pub struct Form {
    /// The header's size in bytes.
    pub bytes: usize,
    queues: u32,
    /// Header and footer, without data.
    shortest: u32,
    destination: Place,
    source: Place,
    queue: Place,
    length: Place,
    poisoned: Place,
    /// The reserved bits, where they stand.
    reserved: u32,
    /// How far the timestamp stands from the end of the first eight bytes.
    timestamp: u32,
}

/// What an arrival needs of a header that passed.
#[derive(Debug, Clone, Copy)]
pub struct Label {
    pub destination: u8,
    pub queue: u8,
    pub length: u16,
    pub poisoned: bool,
    pub timestamp: u32,
    pub transaction: u8,
}

/// How many bits a number needs.
fn bits(number: u32) -> u32 {
    u32::BITS - number.leading_zeros()
}

impl Form {
    /// For settings in their rows.
    pub fn of(settings: &Settings) -> Form {
        let (port, queue) = (bits(settings.ports - 1), bits(settings.queues - 1));
        let mut left = u32::BITS;
        let mut next = |width: u32| {
            left -= width;
            let mask = (1 << width) - 1;
            Place { shift: left, mask }
        };
        let [destination, source, queue] = [port, port, queue].map(&mut next);
        let [length, poisoned] = [13, 1].map(&mut next);
        // Zeros up to a byte's end.
        let reserved = next(poisoned.shift % 8);
        let front = (u32::BITS - reserved.shift) / 8;
        let credit = if settings.edition == TEN_BYTES { 1 } else { 2 };
        let bytes = front + 4 + credit + 2;
        Form {
            bytes: bytes as usize,
            queues: settings.queues,
            shortest: bytes + 2,
            destination,
            source,
            queue,
            length,
            poisoned,
            reserved: reserved.mask << reserved.shift,
            timestamp: 8 * (4 - front),
        }
    }

    /// A header that arrives at this port: 6, 7, 20, 8, 9, 19.
    #[inline]
    pub fn judged(&self, port: u32, header: &[u8]) -> Result<Label, Refusal> {
        let (first, transaction, checksum) = match *header {
            [a, b, c, d, e, f, g, h, .., transaction, checksum] if header.len() == self.bytes => (
                u64::from_be_bytes([a, b, c, d, e, f, g, h]),
                transaction,
                checksum,
            ),
            _ => return Err(Refusal::HeaderSize),
        };
        if crc8(&header[..header.len() - 1]) != checksum {
            return Err(Refusal::Checksum);
        }
        let front = (first >> 32) as u32;
        if front & self.reserved != 0 {
            return Err(Refusal::ReservedBit);
        }
        if self.source.of(front) != port {
            return Err(Refusal::Source);
        }
        let (length, queue) = (self.length.of(front), self.queue.of(front));
        if length < self.shortest {
            return Err(Refusal::TooShort);
        }
        if queue >= self.queues {
            return Err(Refusal::HeaderQueue);
        }
        Ok(Label {
            destination: self.destination.of(front) as u8,
            queue: queue as u8,
            length: length as u16,
            poisoned: self.poisoned.of(front) == 1,
            timestamp: (first >> self.timestamp) as u32,
            transaction,
        })
    }
}
