//! The header's checksum, by a table: CRC-8 with polynomial x^8 + x^2 + x + 1,
//! start 0, no reflection, no final change.

/// x^2 + x + 1; the x^8 is the bit that the shift pushes out.
const POLYNOMIAL: u8 = 0b0000_0111;

/// What becomes of each remainder in the next byte.
static TABLE: [u8; 256] = table();

const fn table() -> [u8; 256] {
    let mut table = [0; 256];
    let mut byte = 0;
    while byte < 256 {
        table[byte] = eight_steps(byte as u8);
        byte += 1;
    }
    table
}

const fn eight_steps(mut remainder: u8) -> u8 {
    let mut step = 0;
    while step < 8 {
        let pushed_out = remainder >> 7;
        remainder = (remainder << 1) ^ (pushed_out * POLYNOMIAL);
        step += 1;
    }
    remainder
}

#[inline]
pub fn crc8(bytes: &[u8]) -> u8 {
    bytes
        .iter()
        .fold(0, |remainder, byte| TABLE[usize::from(remainder ^ byte)])
}

#[cfg(test)]
mod tests {
    #[test]
    fn published_check_value() {
        assert_eq!(super::crc8(b"123456789"), 0xF4);
    }
}
