//! The shape of a switch: edition, ports and queues; and the settings.

use crate::{FOOTER, MOST_CREDIT, MOST_NODES, MOST_PORTS, MOST_QUEUES, SLOT_BYTES};

/// The edition of the ten-byte header.
pub const TEN_BYTES: u32 = 0;
/// The edition of the wide headers.
pub const WIDE: u32 = 1;

/// What fixes the header's fields, and how many there are of everything but
/// nodes. Numbers are wide, so that a caller can hand in any number; widths and
/// sizes are those of a shape in its rows.
#[derive(Debug, Clone, Copy, PartialEq, Eq, Hash, PartialOrd, Ord)]
pub struct Shape {
    pub edition: u32,
    pub ports: u32,
    pub queues: u32,
}

impl Shape {
    /// The one shape that has the ten-byte header.
    pub const TEN_BYTES: Shape = Shape {
        edition: TEN_BYTES,
        ports: 4,
        queues: 24,
    };

    pub const fn wide(ports: u32, queues: u32) -> Shape {
        Shape {
            edition: WIDE,
            ports,
            queues,
        }
    }

    /// Are edition, ports and queues in their rows?
    pub fn in_its_rows(&self) -> bool {
        match self.edition {
            TEN_BYTES => *self == Shape::TEN_BYTES,
            WIDE => {
                (2..=MOST_PORTS).contains(&self.ports) && (2..=MOST_QUEUES).contains(&self.queues)
            }
            _ => false,
        }
    }

    /// The width of the header's port fields: as wide as the port count less
    /// one needs.
    pub fn port_bits(&self) -> u32 {
        bits(self.ports - 1)
    }

    /// The width of the header's queue field.
    pub fn queue_bits(&self) -> u32 {
        bits(self.queues - 1)
    }

    /// The width of the header's credit field.
    pub fn credit_bits(&self) -> u32 {
        match self.edition {
            TEN_BYTES => 8,
            _ => 16,
        }
    }

    /// The reserved bits behind destination, source, queue, length and poisoned
    /// flag, up to a byte's end.
    pub fn reserved_bits(&self) -> u32 {
        let front = 2 * self.port_bits() + self.queue_bits() + 13 + 1;
        (8 - front % 8) % 8
    }

    /// The header's size in bytes.
    pub fn header_bytes(&self) -> usize {
        let fields = [
            2 * self.port_bits(),
            self.queue_bits(),
            13,
            1,
            self.reserved_bits(),
            32,
            self.credit_bits(),
            8,
            8,
        ];
        fields.iter().sum::<u32>() as usize / 8
    }

    /// Header and footer, without data: the shortest packet.
    pub fn shortest(&self) -> u32 {
        self.header_bytes() as u32 + FOOTER
    }

    /// The bytes that a round writes: four for each port's turn.
    pub fn round_bytes(&self) -> usize {
        4 * self.ports as usize
    }
}

/// How many bits a number needs.
fn bits(number: u32) -> u32 {
    u32::BITS - number.leading_zeros()
}

/// The settings, fixed at setup.
#[derive(Debug, Clone, Copy, PartialEq, Eq)]
pub struct Settings {
    /// N, nodes per port.
    pub nodes: u32,
    /// Beat in bytes.
    pub beat: u32,
    /// D, prefetch slots per queue.
    pub slots: u32,
    /// K, arrival credit per port and queue, in beats.
    pub credit: u32,
    pub ports: u32,
    /// Queues per port.
    pub queues: u32,
    /// 0 for the ten-byte header, 1 for the wide ones.
    pub edition: u32,
    /// 1 if the switch keeps packets, else 0.
    pub packets: u32,
}

impl Settings {
    /// Of a switch with the ten-byte header: four ports with 24 queues.
    pub const fn ten_bytes(nodes: u32, beat: u32, slots: u32, credit: u32) -> Settings {
        Settings::of(Shape::TEN_BYTES, nodes, beat, slots, credit)
    }

    /// Of a switch with a wide header.
    pub const fn wide(
        ports: u32,
        queues: u32,
        nodes: u32,
        beat: u32,
        slots: u32,
        credit: u32,
    ) -> Settings {
        Settings::of(Shape::wide(ports, queues), nodes, beat, slots, credit)
    }

    /// Of a switch of any shape.
    pub const fn of(shape: Shape, nodes: u32, beat: u32, slots: u32, credit: u32) -> Settings {
        Settings {
            nodes,
            beat,
            slots,
            credit,
            ports: shape.ports,
            queues: shape.queues,
            edition: shape.edition,
            packets: 0,
        }
    }

    /// The same, and the switch keeps packets.
    pub const fn with_packets(self) -> Settings {
        Settings { packets: 1, ..self }
    }

    /// The bytes of each port's packet memory.
    pub const fn packet_memory(&self) -> usize {
        self.nodes as usize * SLOT_BYTES
    }

    pub const fn shape(&self) -> Shape {
        Shape {
            edition: self.edition,
            ports: self.ports,
            queues: self.queues,
        }
    }

    /// Is every setting in its row of the papers' tables?
    pub fn in_their_rows(&self) -> bool {
        // The ten-byte edition alone has packets.
        let most_packets = u32::from(self.edition == TEN_BYTES);
        (1..=MOST_NODES).contains(&self.nodes)
            && [64, 128, 256, 512].contains(&self.beat)
            && (1..=8).contains(&self.slots)
            && self.credit <= MOST_CREDIT
            && self.shape().in_its_rows()
            && self.packets <= most_packets
    }
}
