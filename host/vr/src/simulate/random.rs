//! A small seeded source of random numbers (splitmix64).

#[derive(Debug, Clone)]
pub struct Random(u64);

impl Random {
    pub fn new(seed: u32) -> Random {
        Random(seed.into())
    }

    fn word(&mut self) -> u64 {
        self.0 = self.0.wrapping_add(0x9E37_79B9_7F4A_7C15);
        let mut z = self.0;
        z = (z ^ (z >> 30)).wrapping_mul(0xBF58_476D_1CE4_E5B9);
        z = (z ^ (z >> 27)).wrapping_mul(0x94D0_49BB_1331_11EB);
        z ^ (z >> 31)
    }

    /// `first` to `last`, both included. The little unevenness of the remainder
    /// doesn't matter.
    pub fn among(&mut self, first: u32, last: u32) -> u32 {
        let span = u64::from(last - first) + 1;
        first + (self.word() % span) as u32
    }

    pub fn pick<T: Copy>(&mut self, from: &[T]) -> T {
        from[self.among(0, from.len() as u32 - 1) as usize]
    }
}
