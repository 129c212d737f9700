//! Headers of every shape, right ones and ones with faults, and shapes for them.

use model::checksum::crc8;
use model::header::Header;
use model::{Shape, LONGEST};

use crate::random::Random;

/// A header's bytes bit by bit, with their checksum. Each value must fit its
/// field, but the length may be too short, the queue none of the switch's, and a
/// reserved bit 1.
pub fn spelt(shape: &Shape, header: &Header, reserved: u32) -> Vec<u8> {
    let mut bits = Vec::with_capacity(96);
    let mut put = |number: u32, width: u32| {
        assert!(u64::from(number) >> width == 0, "{shape:?}, {header:?}");
        bits.extend((0..width).rev().map(|place| (number >> place) as u8 & 1));
    };
    put(header.destination, shape.port_bits());
    put(header.source, shape.port_bits());
    put(header.queue, shape.queue_bits());
    put(header.length, 13);
    put(header.poisoned, 1);
    put(reserved, shape.reserved_bits());
    put(header.timestamp, 32);
    put(header.credit, shape.credit_bits());
    put(header.transaction, 8);
    let byte = |bits: &[u8]| bits.iter().fold(0, |byte, bit| byte << 1 | bit);
    let mut bytes: Vec<u8> = bits.chunks(8).map(byte).collect();
    bytes.push(crc8(&bytes));
    bytes
}

/// The ten bytes of a header of the first edition, with its checksum. Each field
/// must fit its width.
#[allow(clippy::too_many_arguments)]
pub fn header(
    dest: u32,
    source: u32,
    queue: u32,
    length: u32,
    poisoned: bool,
    reserved: bool,
    timestamp: u32,
    offered: u8,
    transaction: u8,
) -> [u8; 10] {
    let header = Header {
        destination: dest,
        source,
        queue,
        length,
        poisoned: poisoned.into(),
        timestamp,
        credit: offered.into(),
        transaction: transaction.into(),
    };
    let bytes = spelt(&Shape::TEN_BYTES, &header, reserved.into());
    bytes.try_into().expect("ten bytes")
}

/// A header of a shape with nothing in it but these: for tests and examples.
pub fn plain(shape: &Shape, dest: u32, source: u32, queue: u32, length: u32) -> Vec<u8> {
    let header = Header {
        destination: dest,
        source,
        queue,
        length,
        ..Header::default()
    };
    spelt(shape, &header, 0)
}

/// The shapes that every check goes over: those that the request names, and with
/// them the least and the most of ports and queues, fields of every width, and
/// counts that fill their field, leave one over, or leave room for much more.
pub const SHAPES: [Shape; 14] = [
    Shape::TEN_BYTES,
    Shape::wide(4, 24),
    Shape::wide(8, 16),
    Shape::wide(16, 32),
    Shape::wide(32, 64),
    Shape::wide(2, 2),
    Shape::wide(3, 5),
    Shape::wide(5, 17),
    Shape::wide(2, 64),
    Shape::wide(32, 2),
    Shape::wide(7, 33),
    Shape::wide(17, 24),
    Shape::wide(31, 63),
    Shape::wide(9, 4),
];

// Just beyond the rows, and some that a cut to a byte or two would bring back
// into them.
pub const WRONG_EDITIONS: [u32; 7] = [2, 3, 255, 256, 257, 65_537, u32::MAX];
pub const WRONG_PORTS: [u32; 9] = [0, 1, 33, 63, 255, 256, 260, 65_540, u32::MAX];
pub const WRONG_QUEUES: [u32; 9] = [0, 1, 65, 127, 255, 256, 280, 65_560, u32::MAX];

/// A shape in its rows: mostly one of the list above, else any.
pub fn any_shape(random: &mut Random) -> Shape {
    match random.one_in(3) {
        true => Shape::wide(random.among(2, 32), random.among(2, 64)),
        false => random.pick(&SHAPES),
    }
}

/// Edition, ports and queues that are no shape.
pub fn no_shape(random: &mut Random) -> Shape {
    let mut shape = any_shape(random);
    match random.below(4) {
        0 => shape.edition = random.pick(&WRONG_EDITIONS),
        1 => shape.ports = random.pick(&WRONG_PORTS),
        2 => shape.queues = random.pick(&WRONG_QUEUES),
        // The ten-byte header with the counts of another.
        _ => {
            let other = SHAPES[random.among(2, SHAPES.len() as u32 - 1) as usize];
            shape = Shape {
                edition: 0,
                ..other
            };
        }
    }
    shape
}

/// A number of so many bits, its least and its most often.
fn of_width(random: &mut Random, width: u32) -> u32 {
    let most = ((1u64 << width) - 1) as u32;
    let any = random.word() as u32 & most;
    random.pick(&[0, 1, most, any, any, any, any, any])
}

/// A length that a packet of this header can have, its edges often.
fn right_length(random: &mut Random, shape: &Shape) -> u32 {
    let least = shape.shortest();
    let any = random.among(least, LONGEST);
    random.pick(&[least, least + 1, LONGEST, any, any, any])
}

/// Fields that the writer takes.
pub fn right_fields(random: &mut Random, shape: &Shape) -> Header {
    let queue = random.below(shape.queues);
    Header {
        destination: of_width(random, shape.port_bits()),
        source: of_width(random, shape.port_bits()),
        queue: random.pick(&[0, shape.queues - 1, queue, queue]),
        length: right_length(random, shape),
        poisoned: of_width(random, 1),
        timestamp: of_width(random, 32),
        credit: of_width(random, shape.credit_bits()),
        transaction: of_width(random, 8),
    }
}

/// A number that needs more than so many bits: by one, by much, or so that its
/// lower bits alone would do.
fn too_wide(random: &mut Random, width: u32) -> u32 {
    let least = 1u32 << width;
    let high = random.among(width, 31);
    let lower = random.word() as u32 & (least - 1);
    random.pick(&[least, 1 << high, 1 << high | lower, u32::MAX])
}

/// Fields of which one, or now and then more, is such that the writer refuses.
pub fn wrong_fields(random: &mut Random, shape: &Shape) -> Header {
    let mut header = right_fields(random, shape);
    for _ in 0..random.pick(&[1, 1, 1, 2, 3]) {
        match random.below(8) {
            0 => header.destination = too_wide(random, shape.port_bits()),
            1 => header.source = too_wide(random, shape.port_bits()),
            // Beyond the field, or within it and beyond the switch's.
            2 => header.queue = too_wide(random, shape.queue_bits()),
            3 => header.queue = random.among(shape.queues, shape.queues + 8),
            4 => header.length = too_wide(random, 13),
            5 => header.length = random.below(shape.shortest()),
            6 => header.credit = too_wide(random, shape.credit_bits()),
            _ => match random.one_in(2) {
                true => header.poisoned = too_wide(random, 1),
                false => header.transaction = too_wide(random, 8),
            },
        }
    }
    header
}

/// A queue that fits its field and is none of the switch's, if there is one.
pub fn made_up_queue(random: &mut Random, shape: &Shape) -> Option<u32> {
    let most = (1 << shape.queue_bits()) - 1;
    (shape.queues <= most).then(|| random.among(shape.queues, most))
}

/// Reserved bits that aren't all 0, if there are any.
pub fn reserved_bits(random: &mut Random, shape: &Shape) -> Option<u32> {
    let most = (1 << shape.reserved_bits()) - 1;
    (most > 0).then(|| random.among(1, most))
}

/// The bytes of a header for the reader: right ones, ones with each fault alone
/// and beside others, ones of other sizes, and any bytes.
pub fn any_bytes(random: &mut Random, shape: &Shape) -> Vec<u8> {
    let mut header = right_fields(random, shape);
    let mut reserved = 0;
    // No fault in half of them.
    let faults = random.pick(&[0, 0, 0, 1, 1, 2]);
    for _ in 0..faults {
        match random.below(3) {
            0 => header.length = random.below(shape.shortest()),
            1 => header.queue = made_up_queue(random, shape).unwrap_or(header.queue),
            _ => reserved = reserved_bits(random, shape).unwrap_or(0),
        }
    }
    let mut bytes = spelt(shape, &header, reserved);
    match random.below(12) {
        // A checksum that is wrong by a bit, or more.
        0 => {
            let at = random.below(bytes.len() as u32) as usize;
            bytes[at] ^= 1 << random.below(8);
        }
        1 => bytes.fill_with(|| random.word() as u8),
        // Of another length, that of another shape's headers often.
        2 => bytes.resize(random.below(16) as usize, 0),
        3 => bytes = spelt_for_another(random, shape),
        // Any bits with a right checksum.
        4 => {
            let last = bytes.len() - 1;
            bytes[..last].fill_with(|| random.word() as u8);
            bytes[last] = crc8(&bytes[..last]);
        }
        _ => {}
    }
    bytes
}

/// A right header of another shape.
pub fn spelt_for_another(random: &mut Random, shape: &Shape) -> Vec<u8> {
    let other = loop {
        let other = any_shape(random);
        if other != *shape {
            break other;
        }
    };
    let header = right_fields(random, &other);
    spelt(&other, &header, 0)
}
