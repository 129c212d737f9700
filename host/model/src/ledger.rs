//! The ledger, and every call on it but setup. Each call tests all of its
//! refusals, in the paper's order, before it changes anything; a refused one
//! changes nothing but, after an arrival whose header lies, its port's mark.

use std::collections::VecDeque;

use crate::header::{self, Arrival};
use crate::{
    price, Choice, ListKind, Packet, Part, Reply, Settings, Side, BUCKETS, DESTINATIONS,
    ENTRIES_PER_PORT, MOST_CREDIT, PACKET_MEMORIES, PLACE_BYTES, SLOT_BYTES,
};

/// What the ledger holds for one port. Lists run from the oldest (front) to
/// the newest (back) and hold entry ids.
#[derive(Debug, Clone, PartialEq, Eq)]
pub struct Port {
    pub free: VecDeque<u16>,
    pub ingress: VecDeque<u16>,
    /// By queue, as the prefetch lists and the credits.
    pub egress: Vec<VecDeque<u16>>,
    pub prefetch: Vec<VecDeque<u16>>,
    /// Cell 0 is no part of the ledger and stays 0: queue 0 has no credit.
    pub arrival_credit: Vec<u32>,
    /// Cell 0 as above.
    pub outward_credit: Vec<u32>,
    pub last_served: u32,
    /// 0, or the number of the refusal that halted the port.
    pub mark: u8,
    /// What the port's timed turns counted, by the waits' highest bits.
    pub buckets: [u32; BUCKETS],
    /// By node index; none exactly while the node is free.
    pub packets: Vec<Option<Packet>>,
}

/// The whole ledger.
#[derive(Debug, Clone, PartialEq, Eq)]
pub struct Ledger {
    pub settings: Settings,
    pub ports: Vec<Port>,
    /// From destination id to port, 4,096 of them.
    pub map: Vec<u8>,
}

/// The entry id of a port's node.
pub fn entry_id(port: u32, index: u32) -> u16 {
    (port * ENTRIES_PER_PORT + index) as u16
}

/// The port that owns an entry id's node.
pub fn owner(entry: u16) -> usize {
    entry as usize / ENTRIES_PER_PORT as usize
}

/// The node's index at its owner.
pub fn index(entry: u16) -> usize {
    entry as usize % ENTRIES_PER_PORT as usize
}

impl Port {
    fn starting(port: u32, settings: &Settings) -> Port {
        let queues = settings.queues as usize;
        let mut arrival_credit = vec![settings.credit; queues];
        arrival_credit[0] = 0;
        Port {
            free: (0..settings.nodes).map(|i| entry_id(port, i)).collect(),
            ingress: VecDeque::new(),
            egress: vec![VecDeque::new(); queues],
            prefetch: vec![VecDeque::new(); queues],
            arrival_credit,
            outward_credit: vec![0; queues],
            last_served: settings.queues - 1,
            mark: 0,
            buckets: [0; BUCKETS],
            packets: vec![None; settings.nodes as usize],
        }
    }
}

impl Ledger {
    /// The ledger that setup writes.
    pub fn starting(settings: Settings) -> Ledger {
        Ledger {
            settings,
            ports: (0..settings.ports)
                .map(|port| Port::starting(port, &settings))
                .collect(),
            map: vec![0; DESTINATIONS as usize],
        }
    }

    /// The ledger that a repair writes: the starting one with the map kept,
    /// entries above the last port set to 0.
    pub fn repaired(settings: Settings, map: &[u8]) -> Ledger {
        let kept = |&port: &u8| u32::from(port) < settings.ports;
        let entry = |port: &u8| if kept(port) { *port } else { 0 };
        Ledger {
            map: map.iter().map(entry).collect(),
            ..Ledger::starting(settings)
        }
    }

    fn port_in_range(&self, port: u32) -> Result<usize, u8> {
        if port < self.settings.ports {
            Ok(port as usize)
        } else {
            Err(4)
        }
    }

    /// A call of the other kind is refused: with whole packets where the switch keeps
    /// none, or with a header alone where it keeps them.
    fn of_this_kind(&self, with_packets: bool) -> Result<(), u8> {
        if with_packets == (self.settings.packets == 1) {
            Ok(())
        } else {
            Err(24)
        }
    }

    /// Is every packet memory of the one size that there is?
    fn packet_memories(&self, lent: &[usize]) -> Result<(), u8> {
        let size = self.settings.packet_memory();
        if lent.iter().all(|&bytes| bytes == size) {
            Ok(())
        } else {
            Err(17)
        }
    }

    /// What is recorded for a node; none if it is free or no node.
    pub fn packet(&self, entry: u16) -> Option<&Packet> {
        self.ports
            .get(owner(entry))?
            .packets
            .get(index(entry))?
            .as_ref()
    }

    /// The record of a node that stands in a list other than a free list.
    fn recorded(&self, entry: u16) -> &Packet {
        self.packet(entry)
            .expect("a node outside the free lists has a record")
    }

    pub(crate) fn arrive(&mut self, port: u32, header: &[u8]) -> Result<u16, u8> {
        self.of_this_kind(false)?;
        self.port_in_range(port)?;
        let packet_bytes = None;
        self.take_in(header, Arrival { port, packet_bytes })
    }

    /// The packet's bytes are stored by the model, in the slot of the node that is
    /// answered.
    pub(crate) fn arrive_packet(
        &mut self,
        port: u32,
        packet: &[u8],
        lent: usize,
    ) -> Result<u16, u8> {
        self.of_this_kind(true)?;
        self.packet_memories(&[lent])?;
        self.port_in_range(port)?;
        let header_bytes = self.settings.shape().header_bytes();
        let header = packet.get(..header_bytes).ok_or(16)?;
        let packet_bytes = Some(packet.len());
        self.take_in(header, Arrival { port, packet_bytes })
    }

    /// A header that arrives at a port in range, by itself or with its packet.
    fn take_in(&mut self, bytes: &[u8], arrival: Arrival) -> Result<u16, u8> {
        let at = &mut self.ports[arrival.port as usize];
        let header = header::judged(&self.settings.shape(), bytes, Some(arrival));
        // A header that lies halts the port where it came in; the first mark stays.
        if let (Err(number @ (7 | 8)), 0) = (&header, at.mark) {
            at.mark = *number;
        }
        let header = header?;
        let queue = header.queue as usize;
        let price = price(header.length, header.queue, self.settings.beat);
        // Queue 0 costs nothing, so its cell, always 0, covers it. The others of a
        // halted port are refused as if credit were 0.
        let halted = at.mark != 0 && queue > 0;
        if halted || price > at.arrival_credit[queue] {
            return Err(10);
        }
        let entry = at.free.pop_front().ok_or(11)?;
        at.packets[index(entry)] = Some(Packet {
            entry,
            length: header.length as u16,
            queue: header.queue as u8,
            destination: header.destination as u8,
            timestamp: header.timestamp,
            poisoned: header.poisoned == 1,
            transaction: header.transaction as u8,
            price,
        });
        at.arrival_credit[queue] -= price;
        at.ingress.push_back(entry);
        Ok(entry)
    }

    pub(crate) fn stitch(&mut self, port: u32) -> Result<Reply, u8> {
        let p = self.port_in_range(port)?;
        let entry = self.ports[p].ingress.pop_front().ok_or(12)?;
        let packet = *self.recorded(entry);
        // The map is read now, not on arrival.
        let mapped = self.map[packet.destination as usize];
        self.ports[mapped as usize].egress[packet.queue as usize].push_back(entry);

        let mut record = [0; 10];
        record[0..2].copy_from_slice(&entry.to_be_bytes());
        record[2..4].copy_from_slice(&packet.length.to_be_bytes());
        record[4] = packet.queue;
        record[5] = mapped;
        record[6..10].copy_from_slice(&packet.timestamp.to_be_bytes());
        Ok(Reply::Stitched(record))
    }

    /// A queue of a port, both in range.
    fn queue_in_range(&self, port: u32, queue: u32) -> Result<(usize, usize), u8> {
        let p = self.port_in_range(port)?;
        if queue < self.settings.queues {
            Ok((p, queue as usize))
        } else {
            Err(5)
        }
    }

    pub(crate) fn prefetch(&mut self, port: u32, queue: u32) -> Result<Reply, u8> {
        let (p, q) = self.queue_in_range(port, queue)?;
        let slots = self.settings.slots as usize;
        let at = &mut self.ports[p];
        if at.egress[q].is_empty() {
            return Err(12);
        }
        if at.prefetch[q].len() >= slots {
            return Err(13);
        }
        let entry = at.egress[q].pop_front().ok_or(12)?;
        at.prefetch[q].push_back(entry);
        Ok(Reply::Entry(entry))
    }

    /// The oldest packet in the prefetch slots lies in its owner's packet memory, at
    /// the start of its node's slot.
    pub(crate) fn show(
        &self,
        port: u32,
        queue: u32,
        lent: &[usize; PACKET_MEMORIES],
    ) -> Result<Reply, u8> {
        self.of_this_kind(true)?;
        self.packet_memories(lent)?;
        let (p, q) = self.queue_in_range(port, queue)?;
        let oldest = *self.ports[p].prefetch[q].front().ok_or(12)?;
        Ok(Reply::Shown(Part {
            owner: owner(oldest) as u32,
            at: (index(oldest) * SLOT_BYTES) as u64,
            length: self.recorded(oldest).length.into(),
        }))
    }

    pub(crate) fn credit(&mut self, port: u32, queue: u32, amount: u32) -> Result<Reply, u8> {
        let p = self.port_in_range(port)?;
        if queue == 0 || queue >= self.settings.queues {
            return Err(5);
        }
        let held = &mut self.ports[p].outward_credit[queue as usize];
        // Wide, so that the sum of an amount beyond its range can't wrap.
        let sum = u64::from(*held) + u64::from(amount);
        if sum > u64::from(MOST_CREDIT) {
            return Err(14);
        }
        *held = sum as u32;
        Ok(Reply::Done)
    }

    pub(crate) fn map(&mut self, id: u32, port: u32) -> Result<Reply, u8> {
        // The one call that doesn't test in table order: 15 before 4.
        if id >= DESTINATIONS {
            return Err(15);
        }
        self.port_in_range(port)?;
        self.map[id as usize] = port as u8;
        Ok(Reply::Done)
    }

    pub(crate) fn turn(&mut self, port: u32, choice: Choice) -> Result<Reply, u8> {
        let p = self.port_in_range(port)?;
        let chosen = match choice {
            Choice::WholeWord => pick(self.ready_word(p), self.ports[p].last_served),
            Choice::EarlyOut => self.first_ready(p),
        };
        let queue = match chosen {
            Some(queue) => queue,
            None => return Ok(Reply::Idle),
        };
        let q = queue as usize;
        let leaving = self.ports[p].prefetch[q]
            .pop_front()
            .expect("a ready queue has a packet");
        // Both the record and the node belong to the owner, not to the port
        // that the packet leaves by.
        let owner = &mut self.ports[owner(leaving)];
        let packet = owner.packets[index(leaving)]
            .take()
            .expect("a node outside the free lists has a record");
        owner.arrival_credit[q] += packet.price;
        owner.free.push_back(leaving);
        let at = &mut self.ports[p];
        at.outward_credit[q] -= packet.price;
        at.last_served = queue;
        let side = if queue == 0 {
            Side::Inside
        } else {
            Side::Outside
        };
        Ok(Reply::Leaves(packet, side))
    }

    /// A turn; what it sends is counted by how long it waited, at the port that
    /// takes the turn.
    pub(crate) fn timed_turn(&mut self, port: u32, now: u32, choice: Choice) -> Result<Reply, u8> {
        let reply = self.turn(port, choice)?;
        if let Reply::Leaves(packet, _) = &reply {
            let bucket = &mut self.ports[port as usize].buckets[bucket_of(now, packet.timestamp)];
            // A full one stays full.
            *bucket = bucket.checked_add(1).unwrap_or(*bucket);
        }
        Ok(reply)
    }

    pub(crate) fn bucket(&self, port: u32, bucket: u32) -> Result<Reply, u8> {
        let buckets = &self.ports[self.port_in_range(port)?].buckets;
        match buckets.get(bucket as usize) {
            Some(&count) => Ok(Reply::Count(count)),
            None => Err(5),
        }
    }

    pub(crate) fn ready(&self, port: u32) -> Result<Reply, u8> {
        let word = self.ready_word(self.port_in_range(port)?);
        Ok(Reply::Word(word, word.count_ones()))
    }

    pub(crate) fn find(&self, entry: u32) -> Result<Reply, u8> {
        let port = entry / ENTRIES_PER_PORT;
        let index = entry % ENTRIES_PER_PORT;
        if port >= self.settings.ports || index >= self.settings.nodes {
            return Err(15);
        }
        let (kind, position) = self
            .place(entry_id(port, index))
            .expect("every node stands in one list");
        Ok(Reply::Found(kind, position))
    }

    pub(crate) fn clear(&mut self, port: u32) -> Result<Reply, u8> {
        let p = self.port_in_range(port)?;
        self.ports[p].mark = 0;
        Ok(Reply::Done)
    }

    pub(crate) fn report(&self, port: u32) -> Result<Reply, u8> {
        let p = self.port_in_range(port)?;
        Ok(Reply::Mark(self.ports[p].mark))
    }

    /// Every node's place, port by port and index by index.
    pub(crate) fn places(&self) -> Vec<u8> {
        let nodes = self.settings.nodes as usize;
        let mut places = vec![0; PLACE_BYTES * self.ports.len() * nodes];
        for (kind, list) in self.lists() {
            for (position, &entry) in list.iter().enumerate() {
                let told = told_place(entry, kind, position as u16);
                let at = PLACE_BYTES * (owner(entry) * nodes + index(entry));
                places[at..at + PLACE_BYTES].copy_from_slice(&told);
            }
        }
        places
    }

    /// One stitch at each port in order, then one prefetch for each port and
    /// queue, then one turn at each port.
    pub(crate) fn round(&mut self, room: usize, choice: Choice) -> Result<Reply, u8> {
        let Settings { ports, queues, .. } = self.settings;
        if room < self.settings.shape().round_bytes() {
            return Err(27);
        }
        // Refusals inside are passed over: the first two kinds are told nowhere.
        for port in 0..ports {
            let _ = self.stitch(port);
        }
        for port in 0..ports {
            for queue in 0..queues {
                let _ = self.prefetch(port, queue);
            }
        }
        let turns = (0..ports).flat_map(|port| told_turn(self.turn(port, choice)));
        Ok(Reply::Turns(turns.collect()))
    }

    /// Is this queue of the port ready for a turn?
    fn is_ready(&self, p: usize, q: usize) -> bool {
        match self.ports[p].prefetch[q].front() {
            None => false,
            Some(&oldest) => {
                q == 0 || self.recorded(oldest).price <= self.ports[p].outward_credit[q]
            }
        }
    }

    /// The ready word: bit q for queue q.
    fn ready_word(&self, p: usize) -> u64 {
        (0..self.settings.queues as usize)
            .filter(|&q| self.is_ready(p, q))
            .fold(0, |word, q| word | 1 << q)
    }

    /// The early-out scan: the queues after the last served, then the others
    /// from 0 up to the last served itself.
    fn first_ready(&self, p: usize) -> Option<u32> {
        let last = self.ports[p].last_served;
        (last + 1..self.settings.queues)
            .chain(0..=last)
            .find(|&queue| self.is_ready(p, queue as usize))
    }

    /// Search every list for a node.
    fn place(&self, entry: u16) -> Option<(ListKind, u32)> {
        self.lists().find_map(|(kind, list)| {
            let position = list.iter().position(|&other| other == entry)?;
            Some((kind, position as u32))
        })
    }

    /// Every list of the ledger with its kind.
    pub fn lists(&self) -> impl Iterator<Item = (ListKind, &VecDeque<u16>)> {
        (0..).zip(&self.ports).flat_map(|(port, at)| {
            let own = [
                (ListKind::Free { port }, &at.free),
                (ListKind::Ingress { port }, &at.ingress),
            ];
            let egress = (0..)
                .zip(&at.egress)
                .map(move |(queue, list)| (ListKind::Egress { port, queue }, list));
            let prefetch = (0..)
                .zip(&at.prefetch)
                .map(move |(queue, list)| (ListKind::Prefetch { port, queue }, list));
            own.into_iter().chain(egress).chain(prefetch)
        })
    }
}

/// A turn in four bytes: refusal number, 1 if idle, entry id or 0.
fn told_turn(turn: Result<Reply, u8>) -> [u8; 4] {
    match turn {
        Err(number) => [number, 0, 0, 0],
        Ok(Reply::Leaves(packet, _)) => {
            let [high, low] = packet.entry.to_be_bytes();
            [0, 0, high, low]
        }
        Ok(_) => [0, 1, 0, 0],
    }
}

/// A place in eight bytes: entry id (2), list kind, port, queue or 0, zero,
/// position (2).
fn told_place(entry: u16, kind: ListKind, position: u16) -> [u8; PLACE_BYTES] {
    let (number, port, queue) = match kind {
        ListKind::Free { port } => (0, port, 0),
        ListKind::Ingress { port } => (1, port, 0),
        ListKind::Egress { port, queue } => (2, port, queue),
        ListKind::Prefetch { port, queue } => (3, port, queue),
    };
    let ([e0, e1], [p0, p1]) = (entry.to_be_bytes(), position.to_be_bytes());
    [e0, e1, number, port as u8, queue as u8, 0, p0, p1]
}

/// The bucket of a packet that leaves: 0 if it did not wait, else the place, from
/// 1, of the highest bit of its wait. The clock has 32 bits and starts again at 0.
fn bucket_of(now: u32, timestamp: u32) -> usize {
    let (now, timestamp) = (u64::from(now), u64::from(timestamp));
    let end = 1u64 << 32;
    let mut wait = (now + end - timestamp) % end;
    let mut bits = 0;
    while wait > 0 {
        wait /= 2;
        bits += 1;
    }
    bits
}

/// The lowest set bit above the last served queue or, if there is none, the
/// lowest set bit of all.
pub(crate) fn pick(word: u64, last_served: u32) -> Option<u32> {
    // The last served queue's bit and all below it; above bit 63 there is none.
    let not_above = u64::MAX >> (63 - last_served);
    let above = word & !not_above;
    if above != 0 {
        Some(above.trailing_zeros())
    } else if word != 0 {
        Some(word.trailing_zeros())
    } else {
        None
    }
}
