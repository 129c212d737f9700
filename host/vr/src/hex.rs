//! Bytes in hexadecimal digits.

use std::fmt;

use crate::view::counted;

/// What may stand between bytes, beside blanks.
const BETWEEN: [char; 3] = [':', ',', '-'];

/// Why a text is no bytes.
#[derive(Debug, PartialEq, Eq)]
pub enum NoBytes {
    NotHexadecimal,
    /// Digits that end within a byte.
    Halved(String),
}

impl fmt::Display for NoBytes {
    fn fmt(&self, f: &mut fmt::Formatter<'_>) -> fmt::Result {
        match self {
            NoBytes::NotHexadecimal => f.write_str("it is not hexadecimal"),
            NoBytes::Halved(digits) => {
                let many = counted(digits.len() as u64, "hexadecimal digit");
                write!(f, "`{digits}` has {many}: no whole bytes")
            }
        }
    }
}

pub fn text(bytes: &[u8]) -> String {
    bytes.iter().map(|byte| format!("{byte:02X}")).collect()
}

/// The bytes of a text: groups of digits, `0x` in front of them or not, and
/// blanks or colons, commas and dashes between them. A group must be whole
/// bytes: who writes `6B:F` leaves out a 0, and nobody knows which.
pub fn bytes(text: &str) -> Result<Vec<u8>, NoBytes> {
    let between = |c: char| c.is_whitespace() || BETWEEN.contains(&c);
    let groups: Vec<&str> = text
        .split(between)
        .filter(|group| !group.is_empty())
        .collect();
    let digits: Option<Vec<&str>> = groups.iter().map(|group| digits(group)).collect();
    let digits = digits.filter(|digits| !digits.is_empty());
    let digits = digits.ok_or(NoBytes::NotHexadecimal)?;
    match digits.iter().position(|digits| digits.len() % 2 == 1) {
        Some(at) => Err(NoBytes::Halved(digits[at].into())),
        None => Ok(digits.iter().flat_map(|digits| whole(digits)).collect()),
    }
}

/// The digits of a group, if there are any and nothing else.
fn digits(group: &str) -> Option<&str> {
    let bare = group
        .strip_prefix("0x")
        .or_else(|| group.strip_prefix("0X"));
    let digits = bare.unwrap_or(group);
    let all = digits.chars().all(|digit| digit.is_ascii_hexdigit());
    (all && !digits.is_empty()).then_some(digits)
}

/// The bytes of an even number of digits.
fn whole(digits: &str) -> Vec<u8> {
    let digits: Vec<u32> = digits.chars().filter_map(|c| c.to_digit(16)).collect();
    let byte = |pair: &[u32]| (pair[0] << 4 | pair[1]) as u8;
    digits.chunks_exact(2).map(byte).collect()
}

#[cfg(test)]
mod tests {
    use super::*;

    #[test]
    fn bytes_in_many_spellings() {
        for spelt in [
            "6BFFfc",
            "6b ff fc",
            "0x6BFFFC",
            "0X6bfffc",
            "6B:FF:FC",
            "6b-ff-fc",
            "6B,FF,FC",
            "0x6B, 0xFF, 0xFC\n",
            "\t6BFF  FC\r\n",
            ":6B:FFFC:",
        ] {
            assert_eq!(bytes(spelt), Ok(vec![0x6B, 0xFF, 0xFC]), "{spelt}");
        }
        assert_eq!(text(&[0x6B, 0xFF, 0]), "6BFF00");
    }

    #[test]
    fn what_is_no_bytes() {
        for none in ["", " ", ":", "0x", "0x 00", "6G", "00;00", "x00", "+1", "é"] {
            assert_eq!(bytes(none), Err(NoBytes::NotHexadecimal), "{none}");
        }
        for (halved, which) in [("6", "6"), ("6B:F:FC:00", "F"), ("00 0xABC", "ABC")] {
            assert_eq!(bytes(halved), Err(NoBytes::Halved(which.into())));
        }
    }
}
