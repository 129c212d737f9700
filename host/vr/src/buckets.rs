//! How long packets waited: a port's buckets as they were read, and in words.

use std::fmt;

use crate::image::Image;
use crate::layout::BUCKETS;
use crate::table::runs;
use crate::view::counted;

/// Where a bucket stops: it then stands for as many or more.
pub const STOP: u32 = u32::MAX;

/// The waits that count in a bucket, in words: `0`, `1`, `2 to 3`, `4 to 7`.
pub fn range(bucket: usize) -> String {
    match bucket {
        0 | 1 => bucket.to_string(),
        _ => {
            let least = 1u64 << (bucket - 1);
            format!("{least} to {}", 2 * least - 1)
        }
    }
}

/// The same behind a name: `wait 0`, `waits 2 to 3`.
pub fn named_range(bucket: usize) -> String {
    let name = if bucket < 2 { "wait" } else { "waits" };
    format!("{name} {}", range(bucket))
}

/// So many packets, or more where a bucket has stopped.
#[derive(Debug, Clone, Copy, Default, PartialEq, Eq)]
pub struct Packets {
    /// How many at least.
    pub count: u64,
    /// Whether there may be more.
    pub more: bool,
}

impl Packets {
    /// The packets that a bucket counts.
    pub fn in_bucket(count: u32) -> Packets {
        Packets {
            count: count.into(),
            more: count == STOP,
        }
    }

    /// These and others.
    pub fn with(self, others: Packets) -> Packets {
        Packets {
            count: self.count + others.count,
            more: self.more || others.more,
        }
    }

    /// In words: `1 packet`, `3 packets`, `4294967295 or more packets`.
    pub fn in_words(self) -> String {
        match self.more {
            true => format!("{self} packets"),
            false => counted(self.count, "packet"),
        }
    }
}

impl fmt::Display for Packets {
    fn fmt(&self, f: &mut fmt::Formatter<'_>) -> fmt::Result {
        let more = if self.more { " or more" } else { "" };
        write!(f, "{}{more}", self.count)
    }
}

/// The buckets of a port.
#[derive(Debug, Clone, PartialEq, Eq)]
pub struct Waits {
    /// The port's number.
    pub port: usize,
    /// What each counts; none where the image ends before it does.
    pub counts: [Option<u32>; BUCKETS],
}

impl Waits {
    /// Those of a port of an image.
    pub fn of(image: &Image, port: usize) -> Waits {
        let mut counts = [None; BUCKETS];
        for (bucket, count) in counts.iter_mut().enumerate() {
            *count = image.bucket(port, bucket);
        }
        Waits { port, counts }
    }

    /// Those of every port whose place is known.
    pub fn of_all(image: &Image) -> Vec<Waits> {
        let ports = 0..image.shape.ports;
        ports.map(|port| Waits::of(image, port)).collect()
    }

    /// The buckets that count something, and what they count.
    pub fn filled(&self) -> Vec<(usize, u32)> {
        let counts = self.counts.iter().enumerate();
        let some = counts.filter_map(|(bucket, &count)| Some((bucket, count?)));
        some.filter(|&(_, count)| count > 0).collect()
    }

    /// The buckets from the first to the last that counts something, and what
    /// they count.
    pub fn rows(&self) -> Vec<(usize, u32)> {
        let filled = self.filled();
        let (first, last) = match (filled.first(), filled.last()) {
            (Some(first), Some(last)) => (first.0, last.0),
            _ => return Vec::new(),
        };
        let row = |bucket: usize| Some((bucket, self.counts[bucket]?));
        (first..=last).filter_map(row).collect()
    }

    /// How many packets its timed turns sent, by the buckets that were read.
    pub fn packets(&self) -> Packets {
        let counts = self.counts.iter().copied().flatten();
        let packets = counts.map(Packets::in_bucket);
        packets.fold(Packets::default(), Packets::with)
    }

    /// How many buckets could not be read.
    pub fn unread(&self) -> usize {
        self.counts.iter().filter(|count| count.is_none()).count()
    }

    /// Whether it has counted anything, by the buckets that were read.
    pub fn any(&self) -> bool {
        self.packets().count > 0
    }

    /// The packets in words, with what could not be read.
    pub fn in_words(&self) -> String {
        let packets = self.packets().in_words();
        match self.unread() {
            0 => packets,
            many => {
                let buckets = counted(many as u64, "bucket");
                format!("{packets}, and what could not be read in {buckets}")
            }
        }
    }
}

/// Ports by their numbers: `port 3`, `ports 0, 2 to 5`.
pub fn ports(waits: &[&Waits]) -> String {
    let numbers: Vec<u32> = waits.iter().map(|waits| waits.port as u32).collect();
    let name = if numbers.len() == 1 { "port" } else { "ports" };
    format!("{name} {}", runs(&numbers).join(" "))
}

#[cfg(test)]
mod tests {
    use super::*;

    /// Each wait stands in the range of one bucket, whose number is that of its
    /// highest set bit.
    #[test]
    fn ranges_are_powers_of_two() {
        let said: Vec<String> = (0..5).map(range).collect();
        assert_eq!(said, ["0", "1", "2 to 3", "4 to 7", "8 to 15"]);
        assert_eq!(range(BUCKETS - 1), "2147483648 to 4294967295");
        let mut next = 0;
        for bucket in 0..BUCKETS {
            let range = range(bucket);
            let (least, most) = range.split_once(" to ").unwrap_or((&range, &range));
            let (least, most): (u32, u32) = (least.parse().unwrap(), most.parse().unwrap());
            assert_eq!(u64::from(least), next);
            for wait in [least, most] {
                assert_eq!(u32::BITS - wait.leading_zeros(), bucket as u32);
            }
            next = u64::from(most) + 1;
        }
        assert_eq!(next, 1 << 32);
        let named = [0, 1, 2].map(named_range);
        assert_eq!(named, ["wait 0", "wait 1", "waits 2 to 3"]);
    }

    /// The library's words for the same, which share no code with these.
    #[test]
    fn ranges_are_the_librarys() {
        for bucket in 0..BUCKETS {
            let waits = ventorupo::waits_of(bucket as u32).unwrap();
            let ends = match bucket {
                0 | 1 => waits.start().to_string(),
                _ => format!("{} to {}", waits.start(), waits.end()),
            };
            assert_eq!(range(bucket), ends);
        }
        assert_eq!(
            (BUCKETS, STOP),
            (ventorupo::BUCKETS, ventorupo::BUCKET_STOP)
        );
    }

    #[test]
    fn packets_in_words() {
        let sum = |counts: &[u32]| {
            let packets = counts.iter().map(|&count| Packets::in_bucket(count));
            packets.fold(Packets::default(), Packets::with).in_words()
        };
        assert_eq!(sum(&[0, 0]), "0 packets");
        assert_eq!(sum(&[0, 1]), "1 packet");
        assert_eq!(sum(&[STOP - 1, 1]), "4294967295 packets");
        assert_eq!(sum(&[STOP]), "4294967295 or more packets");
        assert_eq!(sum(&[STOP, 3, STOP]), "8589934593 or more packets");
    }
}
