//! The header's checksum: CRC-8 with polynomial x^8 + x^2 + x + 1, start 0,
//! no reflection, no final change.

/// x^2 + x + 1; the x^8 is the bit that the shift pushes out.
const POLYNOMIAL: u8 = 0b0000_0111;

/// The CRC-8 of some bytes, bit by bit, most significant bit first.
pub fn crc8(bytes: &[u8]) -> u8 {
    let mut remainder = 0u8;
    for byte in bytes {
        for place in (0..8).rev() {
            let incoming = (byte >> place) & 1;
            let pushed_out = remainder >> 7;
            remainder <<= 1;
            if incoming != pushed_out {
                remainder ^= POLYNOMIAL;
            }
        }
    }
    remainder
}
