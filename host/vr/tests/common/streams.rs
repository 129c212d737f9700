//! Streams of fields for the tests.

/// The bytes of the scope paper's whole case.
pub fn whole_case() -> Vec<u8> {
    let text = include_str!("../../../../examples/whole-case.hex");
    let lines = text.lines().map(|line| line.split('#').next().unwrap());
    let digits: String = lines.flat_map(str::split_whitespace).collect();
    let byte = |at: usize| u8::from_str_radix(&digits[at..at + 2], 16).unwrap();
    (0..digits.len()).step_by(2).map(byte).collect()
}
