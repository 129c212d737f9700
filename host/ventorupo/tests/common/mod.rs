//! What several of the tests need.

use ventorupo::{size, Settings, Switch};

pub fn switch(settings: Settings) -> Switch<Vec<u8>> {
    Switch::setup(vec![0; size(&settings).unwrap()], settings).unwrap()
}

/// CRC-8 of polynomial x^8 + x^2 + x + 1, from 0 on.
// Not every test needs it.
#[allow(dead_code)]
pub fn checksum(bytes: &[u8]) -> u8 {
    let step = |sum: u8| sum << 1 ^ if sum & 0x80 == 0 { 0 } else { 7 };
    let byte = |sum: u8, &byte: &u8| (0..8).fold(sum ^ byte, |sum, _| step(sum));
    bytes.iter().fold(0, byte)
}
