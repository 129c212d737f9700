//! The settings, and the refusals by their numbers.

/// The edition of the ten-byte header.
pub const TEN_BYTES: u32 = 0;
/// The edition of the wide headers.
pub const WIDE: u32 = 1;

/// The refusals that a queue manager gives whose memory is its own.
#[derive(Debug, Clone, Copy, PartialEq, Eq)]
#[repr(u8)]
pub enum Refusal {
    BadSetting = 2,
    NoPort = 4,
    NoQueue = 5,
    HeaderSize = 6,
    Checksum = 7,
    Source = 8,
    TooShort = 9,
    NoCredit = 10,
    NoFreeNode = 11,
    NothingThere = 12,
    SlotsInUse = 13,
    TooMuchCredit = 14,
    NoSuchId = 15,
    HeaderQueue = 19,
    ReservedBit = 20,
}

impl Refusal {
    /// The number in the papers' table.
    pub const fn number(self) -> u8 {
        self as u8
    }
}

/// The settings, fixed at setup.
#[derive(Debug, Clone, Copy, PartialEq, Eq)]
pub struct Settings {
    /// N, nodes per port.
    pub nodes: u32,
    /// Beat in bytes.
    pub beat: u32,
    /// D, prefetch slots per queue.
    pub slots: u32,
    /// K, arrival credit per port and queue, in beats.
    pub credit: u32,
    pub ports: u32,
    /// Queues per port.
    pub queues: u32,
    /// 0 for the ten-byte header, 1 for the wide ones.
    pub edition: u32,
}

impl Settings {
    /// Is every setting in its row of the papers' tables?
    pub(crate) fn in_their_rows(&self) -> bool {
        let counts = match self.edition {
            TEN_BYTES => self.ports == 4 && self.queues == 24,
            WIDE => (2..=32).contains(&self.ports) && (2..=64).contains(&self.queues),
            _ => false,
        };
        counts
            && (1..=2048).contains(&self.nodes)
            && [64, 128, 256, 512].contains(&self.beat)
            && (1..=8).contains(&self.slots)
            && self.credit <= 65_535
    }
}
