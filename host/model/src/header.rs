//! Headers of every shape, read and written: a header is one number of 80 to 96
//! bits, and its fields are taken off its upper end one after the other.

use crate::checksum::crc8;
use crate::{Shape, LONGEST};

/// A header's fields. Reserved bits and checksum are fixed by these.
#[derive(Debug, Clone, Copy, PartialEq, Eq, Default)]
pub struct Header {
    pub destination: u32,
    pub source: u32,
    pub queue: u32,
    /// Header, data and footer, in bytes.
    pub length: u32,
    /// 0 or 1.
    pub poisoned: u32,
    pub timestamp: u32,
    /// Credits on offer.
    pub credit: u32,
    pub transaction: u32,
}

/// A number whose upper bits are taken off.
struct Bits {
    number: u128,
    left: u32,
}

impl Bits {
    /// The next so many bits.
    fn take(&mut self, width: u32) -> u32 {
        self.left -= width;
        (self.number >> self.left & ((1 << width) - 1)) as u32
    }
}

/// Where a header arrives, and of how many bytes its packet is if all of it comes.
pub(crate) struct Arrival {
    pub port: u32,
    pub packet_bytes: Option<usize>,
}

/// The header in some bytes, for a shape in its rows: 6, 7, 20, 9, 19 and, where
/// it arrives at a port, 8 after 20 and, of a whole packet, 16 after 9. The error
/// is the refusal's number.
pub(crate) fn judged(shape: &Shape, bytes: &[u8], arrival: Option<Arrival>) -> Result<Header, u8> {
    if bytes.len() != shape.header_bytes() {
        return Err(6);
    }
    let mut bits = Bits {
        number: bytes
            .iter()
            .fold(0, |all, &byte| all << 8 | u128::from(byte)),
        left: 8 * bytes.len() as u32,
    };
    let destination = bits.take(shape.port_bits());
    let source = bits.take(shape.port_bits());
    let queue = bits.take(shape.queue_bits());
    let length = bits.take(13);
    let poisoned = bits.take(1);
    let reserved = bits.take(shape.reserved_bits());
    let timestamp = bits.take(32);
    let credit = bits.take(shape.credit_bits());
    let transaction = bits.take(8);
    let checksum = bits.take(8);
    if u32::from(crc8(&bytes[..bytes.len() - 1])) != checksum {
        return Err(7);
    }
    if reserved != 0 {
        return Err(20);
    }
    // A source that fits its field and is no port is nobody's.
    if matches!(&arrival, Some(arrival) if arrival.port != source) {
        return Err(8);
    }
    if length < shape.shortest() {
        return Err(9);
    }
    let packet_bytes = arrival.and_then(|arrival| arrival.packet_bytes);
    if packet_bytes.map_or(false, |bytes| bytes != length as usize) {
        return Err(16);
    }
    if queue >= shape.queues {
        return Err(19);
    }
    Ok(Header {
        destination,
        source,
        queue,
        length,
        poisoned,
        timestamp,
        credit,
        transaction,
    })
}

/// The reader: 2, then as above. The error is the refusal's number.
pub fn read(shape: &Shape, bytes: &[u8]) -> Result<Header, u8> {
    if !shape.in_its_rows() {
        return Err(2);
    }
    judged(shape, bytes, None)
}

/// Does every value fit its field, and would the reader take them?
fn fits(shape: &Shape, header: &Header) -> bool {
    let within = |number: u32, width: u32| u64::from(number) < 1 << width;
    within(header.destination, shape.port_bits())
        && within(header.source, shape.port_bits())
        && header.queue < shape.queues
        && (shape.shortest()..=LONGEST).contains(&header.length)
        && within(header.poisoned, 1)
        && within(header.credit, shape.credit_bits())
        && within(header.transaction, 8)
}

/// The writer: the header's bytes, with their checksum. The error is the
/// refusal's number, 2 or 21.
pub fn write(shape: &Shape, header: &Header) -> Result<Vec<u8>, u8> {
    if !shape.in_its_rows() {
        return Err(2);
    }
    if !fits(shape, header) {
        return Err(21);
    }
    let fields = [
        (header.destination, shape.port_bits()),
        (header.source, shape.port_bits()),
        (header.queue, shape.queue_bits()),
        (header.length, 13),
        (header.poisoned, 1),
        (0, shape.reserved_bits()),
        (header.timestamp, 32),
        (header.credit, shape.credit_bits()),
        (header.transaction, 8),
    ];
    let number = fields.iter().fold(0u128, |number, &(field, width)| {
        number << width | u128::from(field)
    });
    // The checksum is the last byte.
    let size = shape.header_bytes();
    let mut bytes = number.to_be_bytes()[16 - (size - 1)..].to_vec();
    bytes.push(crc8(&bytes));
    Ok(bytes)
}
