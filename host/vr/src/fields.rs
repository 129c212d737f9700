//! A header's fields as this crate's own reader sees them, written from the
//! bit table of include/ventorupo.h alone. What a header is worth is said by
//! the proved library; this tells what is wrong with one.

use ventorupo::Form;

use crate::layout::TEN_BYTES;

/// The fields in their order.
pub const NAMES: [&str; 10] = [
    "destination",
    "source",
    "queue",
    "length",
    "poisoned",
    "reserved",
    "timestamp",
    "credit",
    "transaction",
    "checksum",
];

pub const QUEUE: usize = 2;
pub const LENGTH: usize = 3;
pub const RESERVED: usize = 5;
pub const CHECKSUM: usize = 9;

/// The bits that the numbers below a count need.
pub fn bits(count: u32) -> u32 {
    u32::BITS - count.saturating_sub(1).leading_zeros()
}

/// The bits of each field.
pub fn widths(form: Form) -> [u32; NAMES.len()] {
    let (port, queue) = (bits(form.ports), bits(form.queues));
    let reserved = (8 - (2 * port + queue + 14) % 8) % 8;
    let credit = match form.edition {
        TEN_BYTES => 8,
        _ => 16,
    };
    [port, port, queue, 13, 1, reserved, 32, credit, 8, 8]
}

/// The bytes of a header.
pub fn size(form: Form) -> usize {
    widths(form).iter().sum::<u32>() as usize / 8
}

/// The least length of a packet.
pub fn least(form: Form) -> u32 {
    size(form) as u32 + 2
}

/// The largest number of so many bits.
pub fn largest(width: u32) -> u32 {
    u32::MAX.checked_shr(u32::BITS - width).unwrap_or(0)
}

/// The fields of as many bytes as a header has.
pub fn read(form: Form, bytes: &[u8]) -> [u32; NAMES.len()] {
    let mut at = 0;
    widths(form).map(|width| {
        let field = at..at + width as usize;
        at = field.end;
        field.fold(0, |number, i| number << 1 | bit(bytes, i))
    })
}

/// Bit `i`, the most significant of a byte first.
fn bit(bytes: &[u8], i: usize) -> u32 {
    u32::from(bytes[i / 8] >> (7 - i % 8) & 1)
}

/// CRC-8 of polynomial x^8 + x^2 + x + 1, from 0 on.
pub fn checksum(bytes: &[u8]) -> u8 {
    let step = |sum: u8| sum << 1 ^ if sum & 0x80 == 0 { 0 } else { 7 };
    bytes
        .iter()
        .fold(0, |sum, byte| (0..8).fold(sum ^ byte, |sum, _| step(sum)))
}

#[cfg(test)]
mod tests {
    use super::*;

    #[test]
    fn the_check_value_is_the_published_one() {
        assert_eq!(checksum(b"123456789"), 0xF4);
    }

    #[test]
    fn sizes_are_the_papers() {
        assert_eq!(size(Form::TEN_BYTES), 10);
        let wide = [(4, 24), (8, 16), (16, 32), (32, 64)];
        let sizes = wide.map(|(ports, queues)| size(Form::wide(ports, queues)));
        assert_eq!(sizes, [11, 11, 12, 12]);
        for ports in 2..=32 {
            for queues in 2..=64 {
                let form = Form::wide(ports, queues);
                assert_eq!(widths(form).iter().sum::<u32>() as usize, 8 * size(form));
                assert!([11, 12].contains(&size(form)));
            }
        }
    }

    #[test]
    fn widths_are_what_the_counts_need() {
        for (count, wanted) in [(2, 1), (3, 2), (4, 2), (5, 3), (24, 5), (32, 5), (64, 6)] {
            assert_eq!(bits(count), wanted);
            assert!(count - 1 <= largest(wanted) && count - 1 > largest(wanted - 1));
        }
        assert_eq!([0, 1, 13, 32].map(largest), [0, 1, 8191, u32::MAX]);
        // 2 and 2: 1, 1 and 1 bit, and seven to fill the third byte.
        let wide = [1, 1, 1, 13, 1, 7, 32, 16, 8, 8];
        assert_eq!(widths(Form::wide(2, 2)), wide);
        // 8 and 16 fill it.
        assert_eq!(widths(Form::wide(8, 16))[RESERVED], 0);
    }

    /// The paper's card: destination 1, source 2, queue 23, length 8191.
    #[test]
    fn fields_are_read() {
        let bytes = [0x6B, 0xFF, 0xFC, 0, 1, 2, 3, 4, 5, 6];
        let fields = [1, 2, 23, 8191, 0, 0, 0x0001_0203, 4, 5, 6];
        assert_eq!(read(Form::TEN_BYTES, &bytes), fields);
        let bytes = [0x6B, 0xFF, 0xFF, 0, 1, 2, 3, 4, 5, 6, 7];
        let fields = [1, 2, 23, 8191, 1, 1, 0x0001_0203, 0x0405, 6, 7];
        assert_eq!(read(Form::wide(4, 24), &bytes), fields);
    }
}
