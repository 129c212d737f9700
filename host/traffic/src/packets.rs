//! Whole packets and what shows them, right ones and ones with faults, with packet
//! memories of every size.

use model::{Call, Ledger, Settings, Shape, LONGEST, PACKET_MEMORIES, SLOT_BYTES};

use crate::random::Random;
use crate::Traffic;

/// The bytes of each packet memory of traffic that has them for so many nodes a
/// port: enough to lend too many.
pub fn packet_bytes(nodes: u32) -> usize {
    (nodes as usize + 1) * SLOT_BYTES
}

/// So many bytes of a packet: its header, as far as they go, and any behind it.
pub fn whole(random: &mut Random, header: &[u8], bytes: usize) -> Vec<u8> {
    let mut packet = header.to_vec();
    while packet.len() < bytes {
        packet.extend(random.word().to_be_bytes());
    }
    packet.truncate(bytes);
    packet
}

/// The length that ten bytes say; of fewer, how many there are.
fn told_length(header: &[u8]) -> usize {
    match *header {
        [_, high, low, _, _, _, _, _, _, _, ..] => {
            usize::from(high & 0x7F) << 6 | usize::from(low >> 2)
        }
        _ => header.len(),
    }
}

/// A packet of as many bytes as its header says; of no header, all that there is.
pub fn whole_of(random: &mut Random, header: &[u8]) -> Vec<u8> {
    // All of the header, also where its length says less.
    let bytes = told_length(header).max(header.len().min(10));
    whole(random, header, bytes)
}

impl Traffic {
    /// The same settings, but that mostly the switch keeps packets, if there is
    /// memory for them.
    pub(crate) fn keeping(&mut self, settings: Settings) -> Settings {
        let may = self.packet_nodes > 0 && settings.shape() == Shape::TEN_BYTES;
        if !may || self.random.one_in(8) {
            return settings;
        }
        Settings {
            nodes: settings.nodes.min(self.packet_nodes),
            ..settings
        }
        .with_packets()
    }

    // The sizes of packet memories.

    /// The size of the switch's packet memories, as far as there are such.
    fn right_size(&self, ledger: &Ledger) -> usize {
        let most = packet_bytes(self.packet_nodes);
        ledger.settings.packet_memory().min(most)
    }

    pub(crate) fn right_sizes(&self, ledger: &Ledger) -> [usize; PACKET_MEMORIES] {
        [self.right_size(ledger); PACKET_MEMORIES]
    }

    /// Another: none, a byte less or more, that of another switch, or any.
    fn other_size(&mut self, ledger: &Ledger) -> usize {
        let right = self.right_size(ledger);
        let most = packet_bytes(self.packet_nodes);
        let slots = self.random.below(self.packet_nodes + 2) as usize;
        let any = self.random.below(most as u32 + 1) as usize;
        let size = match self.random.below(6) {
            0 => 0,
            1 => right - 1,
            2 => right + 1,
            3 => right - SLOT_BYTES,
            4 => slots * SLOT_BYTES,
            _ => any,
        };
        match size.min(most) {
            size if size == right => right - 1,
            size => size,
        }
    }

    /// One of the four, or now and then more of them, of another size.
    fn other_sizes(&mut self, ledger: &Ledger) -> [usize; PACKET_MEMORIES] {
        let mut sizes = self.right_sizes(ledger);
        for _ in 0..self.random.pick(&[1, 1, 1, 2, 4]) {
            let at = self.random.below(PACKET_MEMORIES as u32) as usize;
            sizes[at] = self.other_size(ledger);
        }
        sizes
    }

    fn any_size(&mut self, ledger: &Ledger) -> usize {
        match self.random.one_in(4) {
            true => self.other_size(ledger),
            false => self.right_size(ledger),
        }
    }

    pub(crate) fn any_sizes(&mut self, ledger: &Ledger) -> [usize; PACKET_MEMORIES] {
        match self.random.one_in(4) {
            true => self.other_sizes(ledger),
            false => self.right_sizes(ledger),
        }
    }

    // Arrivals.

    /// The arrival of a header or, where the switch keeps packets, of a packet of as
    /// many bytes as it says.
    pub(crate) fn arrival(&mut self, ledger: &Ledger, port: u32, header: Vec<u8>) -> Call {
        if ledger.settings.packets == 0 {
            return Call::Arrive { port, header };
        }
        Call::ArrivePacket {
            port,
            packet: whole_of(&mut self.random, &header),
            lent: self.right_size(ledger),
        }
    }

    /// Another number of bytes than the header says: by one, by a power of two, ten
    /// alone, or any.
    fn other_count(&mut self, told: usize) -> usize {
        let any = self.random.among(10, LONGEST + 2) as usize;
        let power = 1 << self.random.below(17);
        let count = match self.random.below(6) {
            0 => told - 1,
            1 => told + 1,
            2 => told + power,
            3 => 10,
            4 => told.saturating_sub(power).max(10),
            _ => any,
        };
        match count == told {
            true => told + 1,
            false => count,
        }
    }

    /// Fewer than ten bytes, or not as many as the header says, alone or beside
    /// faults that are tested later; now and then beside any.
    pub(crate) fn wrong_count(&mut self, ledger: &Ledger, port: u32) -> Call {
        if self.random.one_in(4) {
            return self.any_packet(ledger, port);
        }
        let shape = ledger.settings.shape();
        let queue = self.written_queue(&shape);
        let length = self.random.among(shape.shortest(), LONGEST);
        let header = self.header(&shape, port, queue, length);
        let bytes = match self.random.one_in(3) {
            true => self.random.below(10) as usize,
            false => self.other_count(length as usize),
        };
        Call::ArrivePacket {
            port,
            packet: whole(&mut self.random, &header, bytes),
            lent: self.right_size(ledger),
        }
    }

    /// A whole packet with any faults, the memory's size among them.
    pub(crate) fn any_packet(&mut self, ledger: &Ledger, port: u32) -> Call {
        let packet = self.faulty(ledger, port);
        let lent = self.any_size(ledger);
        Call::ArrivePacket { port, packet, lent }
    }

    /// The bytes of one with any faults, their count among them.
    fn faulty(&mut self, ledger: &Ledger, port: u32) -> Vec<u8> {
        let header = self.any_header(&ledger.settings.shape(), port);
        let told = told_length(&header);
        let bytes = match self.random.one_in(3) {
            true => self.other_count(told.max(10)),
            false => told,
        };
        whole(&mut self.random, &header, bytes)
    }

    // Shows.

    /// The oldest packet of a queue with something in its slots, if there is one.
    pub(crate) fn show(&mut self, ledger: &Ledger) -> Option<Call> {
        if ledger.settings.packets == 0 {
            return None;
        }
        let (port, queue) = self.queues_from_any(ledger).find(|&(port, queue)| {
            !ledger.ports[port as usize].prefetch[queue as usize].is_empty()
        })?;
        let lent = self.right_sizes(ledger);
        Some(Call::Show { port, queue, lent })
    }

    /// Of a queue with nothing in its slots, and with something that waits for them
    /// if there is one.
    pub(crate) fn nothing_to_show(&mut self, ledger: &Ledger) -> Call {
        let (port, queue) = self
            .queues_from_any(ledger)
            .filter(|&(port, queue)| {
                ledger.ports[port as usize].prefetch[queue as usize].is_empty()
            })
            .max_by_key(|&(port, queue)| ledger.ports[port as usize].egress[queue as usize].len())
            .unwrap_or((0, 0));
        let lent = self.right_sizes(ledger);
        Call::Show { port, queue, lent }
    }

    // Both.

    /// A packet memory of another size; beside it a port that there isn't, and what
    /// else is tested later.
    pub(crate) fn wrong_size(&mut self, ledger: &Ledger, port: u32) -> Call {
        let Settings { ports, queues, .. } = ledger.settings;
        let port = match self.random.one_in(3) {
            true => self.beyond(ports),
            false => port,
        };
        if self.random.one_in(2) {
            let queue = self.random.below(2 * queues);
            let lent = self.other_sizes(ledger);
            return Call::Show { port, queue, lent };
        }
        let packet = self.faulty(ledger, port);
        let lent = self.other_size(ledger);
        Call::ArrivePacket { port, packet, lent }
    }

    /// A header alone where the switch keeps packets, a whole packet or a show where
    /// it doesn't: right ones, and ones with any faults.
    pub(crate) fn other_kind(&mut self, ledger: &Ledger) -> Call {
        let Settings { ports, queues, .. } = ledger.settings;
        let port = match self.random.one_in(4) {
            true => self.beyond(ports),
            false => self.random.below(ports),
        };
        if ledger.settings.packets == 1 {
            let header = self.any_header(&ledger.settings.shape(), port);
            return Call::Arrive { port, header };
        }
        match self.random.one_in(2) {
            true => self.any_packet(ledger, port),
            false => Call::Show {
                port,
                queue: self.random.below(2 * queues),
                lent: self.any_sizes(ledger),
            },
        }
    }
}
