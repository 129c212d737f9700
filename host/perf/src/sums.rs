//! The checksum three ways: by the proved table, bit by bit, and by a plain
//! table of Rust's.

mod c {
    extern "C" {
        pub fn sum_by_table(bytes: *const u8, len: usize) -> u32;
        pub fn sum_by_bits(bytes: *const u8, len: usize) -> u32;
    }
}

/// The proved checksum, as the library has it.
pub fn by_table(bytes: &[u8]) -> u8 {
    // Sound: the slice is lent for the call, and its contract asks nothing.
    unsafe { c::sum_by_table(bytes.as_ptr(), bytes.len()) as u8 }
}

/// The proved checksum that the library had before its table.
pub fn by_bits(bytes: &[u8]) -> u8 {
    // Sound: as above.
    unsafe { c::sum_by_bits(bytes.as_ptr(), bytes.len()) as u8 }
}

const fn eight_bits(mut sum: u8) -> u8 {
    let mut left = 8;
    while left > 0 {
        sum = sum << 1 ^ if sum & 0x80 == 0 { 0 } else { 7 };
        left -= 1;
    }
    sum
}

const fn steps() -> [u8; 256] {
    let mut table = [0; 256];
    let mut sum = 0;
    while sum < table.len() {
        table[sum] = eight_bits(sum as u8);
        sum += 1;
    }
    table
}

static STEPS: [u8; 256] = steps();

/// The plain table. Not inlined, as the other two can't be.
#[inline(never)]
pub fn by_rust(bytes: &[u8]) -> u8 {
    bytes
        .iter()
        .fold(0, |sum, byte| STEPS[usize::from(sum ^ byte)])
}

#[cfg(test)]
mod tests {
    use super::*;

    fn all_agree(bytes: &[u8]) {
        let sum = by_rust(bytes);
        assert_eq!(by_table(bytes), sum, "{bytes:?}");
        assert_eq!(by_bits(bytes), sum, "{bytes:?}");
    }

    #[test]
    fn the_check_value_is_the_published_one() {
        assert_eq!(by_table(b"123456789"), 0xF4);
        all_agree(b"123456789");
    }

    #[test]
    fn all_runs_of_up_to_two_bytes_agree() {
        all_agree(&[]);
        for first in 0..=255 {
            all_agree(&[first]);
            for second in 0..=255 {
                all_agree(&[first, second]);
            }
        }
    }

    #[test]
    fn long_runs_agree() {
        let mut bytes = Vec::new();
        for length in 0..2000_u32 {
            all_agree(&bytes);
            bytes.push((length.wrapping_mul(2_654_435_761) >> 24) as u8);
        }
    }
}
