//! How often each answer came.

use std::fmt;

use model::{Call, Reply, Shape, REFUSALS};
use traffic::{Before, Halts};

use crate::packets::WholeCounts;

const NAMES: [&str; 18] = [
    "setup",
    "arrive",
    "stitch",
    "prefetch",
    "credit",
    "map",
    "turn",
    "idle turn",
    "ready",
    "where",
    "round",
    "clear",
    "report",
    "timed turn",
    "idle timed turn",
    "bucket",
    "whole packet",
    "show",
];

/// The kinds of calls that are done where packets are kept alone: the last two.
const OF_PACKETS: usize = 2;

/// The refusals that these calls can be given: 21 is the writer's of headers,
/// which is tried by itself.
fn refusals() -> impl Iterator<Item = u8> {
    REFUSALS.into_iter().filter(|&number| number != 21)
}

/// Can an arrival at a switch of this shape be given it? A field that is full has
/// no queue too many, and some headers have no reserved bits.
fn can_be(number: u8, shape: &Shape) -> bool {
    match number {
        19 => shape.queues < 1 << shape.queue_bits(),
        20 => shape.reserved_bits() > 0,
        _ => true,
    }
}

#[derive(Debug, Clone, Default, PartialEq, Eq)]
pub struct Counts {
    /// Of traffic in which packets are kept: then their answers must come too.
    packets: bool,
    /// In the order of `NAMES`.
    accepted: [u64; NAMES.len()],
    /// By the refusal's number; the cells of other numbers stay 0.
    refused: [u64; 28],
    /// That an arrival or a prefetch was answered.
    highest_entry: u16,
    /// What was seen of halted ports.
    pub halts: Halts,
    /// What whole packets and shows were answered.
    pub whole: WholeCounts,
}

impl Counts {
    /// Of traffic in which packets are kept.
    pub fn with_packets() -> Counts {
        Counts {
            packets: true,
            ..Counts::default()
        }
    }

    /// Two are given where packets are kept alone.
    fn can_come(&self, number: u8) -> bool {
        self.packets || ![16, 17].contains(&number)
    }

    /// A call, what stood before it at its port, and its answer.
    pub fn note(&mut self, before: Option<Before>, call: &Call, reply: &Reply) {
        self.halts.note(before, call, reply);
        self.whole.note(call, reply);
        if let Reply::Refused(number) = reply {
            self.refused[*number as usize] += 1;
            return;
        }
        if let Reply::Entry(entry) = reply {
            self.highest_entry = self.highest_entry.max(*entry);
        }
        let kind = match call {
            Call::Setup(_) => 0,
            Call::Arrive { .. } => 1,
            Call::Stitch { .. } => 2,
            Call::Prefetch { .. } => 3,
            Call::Credit { .. } => 4,
            Call::Map { .. } => 5,
            Call::Turn { .. } if *reply == Reply::Idle => 7,
            Call::Turn { .. } => 6,
            Call::Ready { .. } => 8,
            Call::Where { .. } => 9,
            Call::Round { .. } => 10,
            Call::Clear { .. } => 11,
            Call::Report { .. } => 12,
            Call::TimedTurn { .. } if *reply == Reply::Idle => 14,
            Call::TimedTurn { .. } => 13,
            Call::Bucket { .. } => 15,
            Call::ArrivePacket { .. } => 16,
            Call::Show { .. } => 17,
        };
        self.accepted[kind] += 1;
    }

    pub fn add(&mut self, other: &Counts) {
        for (cell, more) in self.accepted.iter_mut().zip(&other.accepted) {
            *cell += more;
        }
        for (cell, more) in self.refused.iter_mut().zip(&other.refused) {
            *cell += more;
        }
        self.whole.add(&other.whole);
        self.highest_entry = self.highest_entry.max(other.highest_entry);
        self.halts.add(&other.halts);
    }

    pub fn refused(&self, number: usize) -> u64 {
        self.refused[number]
    }

    /// The highest entry id that an arrival or a prefetch was answered.
    pub fn highest_entry(&self) -> u16 {
        self.highest_entry
    }

    pub fn calls(&self) -> u64 {
        self.accepted.iter().chain(&self.refused).sum()
    }

    /// The refusals that came less often than they should.
    pub fn too_rare(&self, least_1_to_3: u64, least_of_others: u64) -> Vec<(u8, u64)> {
        let least = |number| match number {
            1..=3 => least_1_to_3,
            _ => least_of_others,
        };
        refusals()
            .filter(|&number| self.can_come(number))
            .map(|number| (number, self.refused[number as usize]))
            .filter(|&(number, times)| times < least(number))
            .collect()
    }

    /// The refusals that came less often than they should, of calls on switches of
    /// one shape; and those that came though such a switch gives none.
    pub fn amiss(&self, shape: &Shape, least: u64) -> Vec<(u8, u64)> {
        refusals()
            .map(|number| (number, self.refused[number as usize]))
            .filter(
                |&(number, times)| match self.can_come(number) && can_be(number, shape) {
                    true => times < least,
                    false => times > 0,
                },
            )
            .collect()
    }

    /// Was every kind of call accepted so often at least?
    pub fn each_call_at_least(&self, least: u64) -> bool {
        let kinds = match self.packets {
            true => NAMES.len(),
            false => NAMES.len() - OF_PACKETS,
        };
        self.accepted[..kinds].iter().all(|&times| times >= least)
    }
}

impl fmt::Display for Counts {
    fn fmt(&self, f: &mut fmt::Formatter<'_>) -> fmt::Result {
        write!(f, "accepted:")?;
        for (name, times) in NAMES.iter().zip(self.accepted) {
            write!(f, " {name} {times},")?;
        }
        write!(f, "\nrefused:")?;
        for number in refusals() {
            write!(f, " [{number}] {}", self.refused[number as usize])?;
        }
        write!(f, "\n{}\n{}", self.whole, self.halts)
    }
}
