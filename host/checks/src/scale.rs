//! Which shapes and how many nodes the runs of a number have, and how much of
//! the time a call on such a state takes.

use model::{size, Settings, Shape};
use traffic::{packet_bytes, Random, SHAPES};

/// A switch's shape and its nodes a port.
#[derive(Debug, Clone, Copy, PartialEq, Eq)]
pub struct Scale {
    pub shape: Shape,
    pub nodes: u32,
}

impl Scale {
    /// So few nodes a port that packets can be kept: their memories are large.
    pub const FEW_NODES: u32 = 16;

    pub const fn ten_bytes(nodes: u32) -> Scale {
        Scale {
            shape: Shape::TEN_BYTES,
            nodes,
        }
    }

    /// That of a turn: the ten-byte header half of the time, and the other shapes
    /// in turn, with any at all behind the last; small pools mostly, large ones
    /// now and then.
    pub fn of_turn(turn: u64, random: &mut Random) -> Scale {
        let wide = turn / 2 % SHAPES.len() as u64;
        let shape = match turn % 2 {
            0 => Shape::TEN_BYTES,
            _ if wide == 0 => Shape::wide(random.among(2, 32), random.among(2, 64)),
            _ => SHAPES[wide as usize],
        };
        let nodes = match random.below(100) {
            0 => 2048,
            1 => 1000,
            2..=5 => 256,
            6..=10 => 64,
            _ => random.pick(&[1, 2, 3, 4, 4, 16]),
        };
        Scale { shape, nodes }
    }

    /// The bytes of its state.
    pub fn bytes(&self) -> usize {
        size(&Settings::of(self.shape, self.nodes, 64, 1, 0))
    }

    /// A few bytes more, but none for a further node.
    pub fn bytes_and_some(&self, random: &mut Random) -> usize {
        self.bytes() + random.below(13 * self.shape.ports) as usize
    }

    /// For how many nodes a port there is packet memory in a turn: every second of
    /// those with the ten-byte header has it, if the nodes are few.
    pub fn packets(&self, turn: u64) -> u32 {
        let may = self.shape == Shape::TEN_BYTES && self.nodes <= Scale::FEW_NODES;
        match may && turn % 4 == 0 {
            true => self.nodes,
            false => 0,
        }
    }

    /// About how long a call takes here, in nanoseconds: the library tests the
    /// map and walks all lists and nodes, traffic and model look at all lists,
    /// and the memory is copied and compared.
    fn cost(&self) -> usize {
        let Shape { ports, queues, .. } = self.shape;
        let lists = ports * (2 * queues + 2);
        let walks = 15 * lists + 10 * ports * self.nodes;
        5000 + walks as usize + self.bytes() / 8
    }

    /// As many of something that makes calls as take about the time of so many on
    /// a small switch with the ten-byte header; at least one, and no more.
    pub fn share(&self, small: usize) -> usize {
        self.share_with_packets(small, 0)
    }

    /// The same with packet memories for so many nodes a port: all their bytes are
    /// compared too, and what is in the slots is shown.
    pub fn share_with_packets(&self, small: usize, packets: u32) -> usize {
        let least = Scale::ten_bytes(1).cost();
        let more = match packets {
            0 => 0,
            _ => packet_bytes(packets) / 8,
        };
        (small * least / (self.cost() + more)).clamp(1, small)
    }
}

#[cfg(test)]
mod tests {
    use super::*;

    #[test]
    fn every_shape_has_its_turn() {
        let mut random = Random::new(1);
        let met: Vec<Scale> = (0..400)
            .map(|turn| Scale::of_turn(turn, &mut random))
            .collect();
        for shape in SHAPES {
            assert!(met.iter().any(|scale| scale.shape == shape));
        }
        let other = |scale: &&Scale| !SHAPES.contains(&scale.shape);
        assert!(met.iter().filter(other).count() > 2);
        assert!(met.iter().all(|scale| scale.shape.in_its_rows()));
        assert!(met.iter().any(|scale| scale.nodes == 2048));
    }

    #[test]
    fn large_switches_have_a_smaller_share() {
        assert_eq!(Scale::ten_bytes(1).share(5000), 5000);
        let large = |nodes| Scale {
            shape: Shape::wide(32, 64),
            nodes,
        };
        let shares = [1, 2048].map(|nodes| large(nodes).share(5000));
        assert!((300..1000).contains(&shares[0]), "{shares:?}");
        assert!((20..100).contains(&shares[1]), "{shares:?}");
        assert_eq!(large(2048).share(10), 1);
    }
}
