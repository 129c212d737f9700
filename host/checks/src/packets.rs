//! The ports' packet memories, which are lent beside a state; and the packets that
//! came in, to be found there again.

use std::collections::BTreeMap;
use std::fmt;

use model::{Call, Part, Reply, Stored, PACKET_MEMORIES, SLOT_BYTES};
use traffic::{packet_bytes, Random};

/// Bytes before and behind each memory, to see that nobody writes there; before it
/// a few more or less, so that it starts at any address.
const GUARD: usize = 64;

/// Where a port's memory stands; of a port that there isn't, another's.
fn place(port: u32) -> usize {
    port as usize % PACKET_MEMORIES
}

/// Four packet memories, of which calls are lent the first bytes.
#[derive(Default)]
pub struct Packets {
    memories: [Guarded; PACKET_MEMORIES],
}

#[derive(Default)]
struct Guarded {
    bytes: Vec<u8>,
    /// As they were at first.
    first: Vec<u8>,
    start: usize,
}

impl Guarded {
    fn new(random: &mut Random, lendable: usize) -> Guarded {
        let start = GUARD + random.below(8) as usize;
        let mut bytes = Vec::with_capacity(start + lendable + GUARD + 8);
        while bytes.len() < start + lendable + GUARD {
            bytes.extend(random.word().to_be_bytes());
        }
        Guarded {
            first: bytes.clone(),
            bytes,
            start,
        }
    }

    /// The first byte that is neither what was written there nor, where nothing was,
    /// as at first, told.
    fn difference<'s>(&self, written: impl Iterator<Item = (usize, &'s [u8])>) -> Option<String> {
        let mut end = 0;
        for (from, bytes) in written {
            let from = self.start + from;
            let told = self.differs(end, &self.first[end..from]);
            if let Some(told) = told.or_else(|| self.differs(from, bytes)) {
                return Some(told);
            }
            end = from + bytes.len();
        }
        self.differs(end, &self.first[end..])
    }

    /// The first of the bytes from one on that isn't as wanted, told.
    fn differs(&self, from: usize, wanted: &[u8]) -> Option<String> {
        let bytes = &self.bytes[from..from + wanted.len()];
        if bytes == wanted {
            return None;
        }
        let at = bytes.iter().zip(wanted).position(|(is, was)| is != was)?;
        // Counted from where it is lent, so that those of the guard before it are below 0.
        let place = (from + at) as isize - self.start as isize;
        Some(format!("byte {place} is {}, not {}", bytes[at], wanted[at]))
    }
}

impl Packets {
    /// For so many nodes a port, and to lend too many; any bytes stand in them.
    pub fn new(random: &mut Random, nodes: u32) -> Packets {
        Packets::of_bytes(random, [packet_bytes(nodes); PACKET_MEMORIES])
    }

    /// Just what this call is lent.
    pub fn for_call(call: &Call) -> Packets {
        let mut lendable = [0; PACKET_MEMORIES];
        match call {
            Call::ArrivePacket { port, lent, .. } => lendable[place(*port)] = *lent,
            Call::Show { lent, .. } => lendable = *lent,
            _ => return Packets::default(),
        }
        Packets::of_bytes(&mut Random::new(1), lendable)
    }

    fn of_bytes(random: &mut Random, lendable: [usize; PACKET_MEMORIES]) -> Packets {
        let memories = lendable.map(|bytes| Guarded::new(random, bytes));
        Packets { memories }
    }

    /// The first so many bytes of a port's.
    pub fn of_port(&mut self, port: u32, bytes: usize) -> &mut [u8] {
        let memory = &mut self.memories[place(port)];
        &mut memory.bytes[memory.start..memory.start + bytes]
    }

    /// The first so many bytes of each.
    pub fn all(&self, bytes: &[usize; PACKET_MEMORIES]) -> [&[u8]; PACKET_MEMORIES] {
        let mut all = [&[][..]; PACKET_MEMORIES];
        for ((lent, memory), bytes) in all.iter_mut().zip(&self.memories).zip(bytes) {
            *lent = &memory.bytes[memory.start..memory.start + bytes];
        }
        all
    }

    /// A part of a memory; none if there is no such.
    fn part(&self, part: &Part) -> Option<&[u8]> {
        let memory = self.memories.get(part.owner as usize)?;
        let from = memory.bytes[memory.start..].get(usize::try_from(part.at).ok()?..)?;
        from.get(..part.length as usize)
    }

    /// The first byte of any memory that isn't what the model has stored there, or
    /// was at first, told.
    pub fn difference(&self, stored: &Stored) -> Option<String> {
        (0..).zip(&self.memories).find_map(|(port, memory)| {
            let told = memory.difference(stored.of_port(port))?;
            Some(format!("of port {port}'s packet memory {told}"))
        })
    }
}

/// Is a call lent packet memories?
pub fn lends(call: &Call) -> bool {
    matches!(call, Call::ArrivePacket { .. } | Call::Show { .. })
}

/// The packets that arrived since the last setup, by entry id, as they came.
#[derive(Debug, Clone, Default)]
pub struct Arrived(BTreeMap<u16, Vec<u8>>);

impl Arrived {
    pub fn note(&mut self, call: &Call, reply: &Reply) {
        match (call, reply) {
            (Call::Setup(_), Reply::Done) => self.0.clear(),
            (Call::ArrivePacket { packet, .. }, Reply::Entry(entry)) => {
                self.0.insert(*entry, packet.clone());
            }
            _ => {}
        }
    }

    /// Does a part of the packet memories hold the packet, all of it and no more?
    pub fn is_at(&self, packets: &Packets, entry: u16, part: &Part) -> Result<(), String> {
        let arrived = self.packet(entry)?;
        match packets.part(part) {
            Some(bytes) if bytes == arrived => Ok(()),
            Some(_) => Err(format!("{part:?} is not the packet of entry {entry}")),
            None => Err(format!("{part:?} is no part of a packet memory")),
        }
    }

    /// Does the node's slot start with its packet?
    pub fn is_in_its_slot(&self, packets: &Packets, entry: u16) -> Result<(), String> {
        let (owner, index) = (u32::from(entry) / 2048, u64::from(entry) % 2048);
        let part = Part {
            owner,
            at: index * SLOT_BYTES as u64,
            length: self.packet(entry)?.len() as u32,
        };
        self.is_at(packets, entry, &part)
    }

    fn packet(&self, entry: u16) -> Result<&[u8], String> {
        let packet = self.0.get(&entry).map(|packet| &packet[..]);
        packet.ok_or_else(|| format!("no packet of entry {entry} has arrived"))
    }
}

/// What a whole packet and a show can be refused, in the order of the tests.
const OF_ARRIVAL: [usize; 12] = [3, 24, 17, 4, 16, 7, 20, 8, 9, 19, 10, 11];
const OF_SHOW: [usize; 6] = [3, 24, 17, 4, 5, 12];

/// What was asked, the refusal's number or 0, and how often it came.
pub type Answer = (&'static str, usize, u64);

/// How often they were answered what.
#[derive(Debug, Clone, Default, PartialEq, Eq)]
pub struct WholeCounts {
    /// By the refusal's number; 0 is none. Of packets of under ten bytes 16 is counted
    /// by itself.
    arrival: [u64; 28],
    too_short: u64,
    show: [u64; 28],
    /// Headers alone that were refused 24.
    header: u64,
    /// How often a packet was found in its slot, and where it was shown.
    found: [u64; 2],
}

impl WholeCounts {
    pub fn note(&mut self, call: &Call, reply: &Reply) {
        let number = match reply {
            Reply::Refused(number) => usize::from(*number),
            _ => 0,
        };
        match call {
            Call::ArrivePacket { packet, .. } if number == 16 && packet.len() < 10 => {
                self.too_short += 1;
            }
            Call::ArrivePacket { .. } => self.arrival[number] += 1,
            Call::Show { .. } => self.show[number] += 1,
            Call::Arrive { .. } if number == 24 => self.header += 1,
            _ => {}
        }
    }

    /// Packets that were found in their slot, and where they are shown.
    pub fn note_found(&mut self, found: [u64; 2]) {
        for (cell, more) in self.found.iter_mut().zip(found) {
            *cell += more;
        }
    }

    pub fn add(&mut self, other: &WholeCounts) {
        let more = other.arrival.iter().chain(&other.show);
        let cells = self.arrival.iter_mut().chain(&mut self.show);
        for (cell, more) in cells.zip(more) {
            *cell += more;
        }
        self.too_short += other.too_short;
        self.header += other.header;
        self.note_found(other.found);
    }

    /// Every answer with how often it came.
    fn all(&self) -> impl Iterator<Item = Answer> + '_ {
        let arrivals = OF_ARRIVAL.map(|number| ("whole packet", number, self.arrival[number]));
        let shows = OF_SHOW.map(|number| ("show", number, self.show[number]));
        let others = [
            ("packet of under ten bytes", 16, self.too_short),
            ("header alone", 24, self.header),
            ("whole packet", 0, self.arrival[0]),
            ("show", 0, self.show[0]),
            ("found in its slot", 0, self.found[0]),
            ("found where it is shown", 0, self.found[1]),
        ];
        arrivals.into_iter().chain(shows).chain(others)
    }

    /// What came less often than it should; 3, which comes before the first setup
    /// alone, has a least of its own.
    pub fn too_rare(&self, least_of_3: u64, least: u64) -> Vec<Answer> {
        let least = |number: usize| if number == 3 { least_of_3 } else { least };
        let rare = |&(_, number, times): &Answer| times < least(number);
        self.all().filter(rare).collect()
    }
}

impl fmt::Display for WholeCounts {
    fn fmt(&self, f: &mut fmt::Formatter<'_>) -> fmt::Result {
        write!(f, "packets:")?;
        for (what, number, times) in self.all() {
            write!(f, " {what} [{number}] {times},")?;
        }
        Ok(())
    }
}

#[cfg(test)]
mod tests {
    use model::{size, Model, Settings, Shape};
    use traffic::{plain, whole_of};

    use super::*;

    const SETTINGS: Settings = Settings::ten_bytes(3, 64, 1, 16).with_packets();
    const LENT: usize = 3 * SLOT_BYTES;

    /// Two packets of each port, in its first and its second slot; and what has come.
    fn filled() -> (Packets, Model, Arrived) {
        let mut random = Random::new(1);
        let mut packets = Packets::new(&mut random, 3);
        let mut model = Model::new(size(&SETTINGS));
        model.call(&Call::Setup(SETTINGS));
        let mut arrived = Arrived::default();
        for (port, slot) in (0..4).flat_map(|port| [0, 1].map(|slot| (port, slot))) {
            let header = plain(&Shape::TEN_BYTES, 0, port, 0, 100);
            let packet = whole_of(&mut random, &header);
            let at = slot * SLOT_BYTES;
            packets.of_port(port, LENT)[at..at + 100].copy_from_slice(&packet);
            let lent = LENT;
            let call = Call::ArrivePacket { port, packet, lent };
            let reply = model.call(&call);
            arrived.note(&call, &reply);
        }
        (packets, model, arrived)
    }

    /// One by one: about the memory, at the edges of what is lent and of its slots, in
    /// a packet and behind it.
    #[test]
    fn a_byte_that_differs_is_told_wherever_it_is() {
        let (mut packets, model, _) = filled();
        assert_eq!(packets.difference(model.stored()), None);
        for port in 0..PACKET_MEMORIES {
            let start = packets.memories[port].start;
            let last = packets.memories[port].bytes.len() - 1;
            let of_slot = |slot: usize| [0, 50, 99, 100, 8191].map(|at| slot * SLOT_BYTES + at);
            let inside = [0, 1, 2, 3].into_iter().flat_map(of_slot);
            let about = [0, start - 1, last];
            for at in inside.map(|at| start + at).chain(about) {
                packets.memories[port].bytes[at] ^= 1;
                let told = packets.difference(model.stored()).expect("a difference");
                let place = at as isize - start as isize;
                let wanted = format!("of port {port}'s packet memory byte {place} is ");
                assert!(told.starts_with(&wanted), "{told}");
                packets.memories[port].bytes[at] ^= 1;
            }
        }
        assert_eq!(packets.difference(model.stored()), None);
    }

    #[test]
    fn a_packet_is_found_where_it_is_alone() {
        let (mut packets, _, arrived) = filled();
        for (owner, index) in (0..4).flat_map(|owner| [0, 1].map(|index| (owner, index))) {
            let entry = (owner * 2048 + index) as u16;
            let right = Part {
                owner,
                at: u64::from(index) * SLOT_BYTES as u64,
                length: 100,
            };
            assert_eq!(arrived.is_at(&packets, entry, &right), Ok(()));
            assert_eq!(arrived.is_in_its_slot(&packets, entry), Ok(()));
            let others = [
                (owner ^ 1, right.at, 100),
                (owner + 4, right.at, 100),
                (owner, right.at ^ SLOT_BYTES as u64, 100),
                (owner, right.at + 1, 100),
                (owner, u64::MAX, 100),
                (owner, right.at, 99),
                (owner, right.at, 101),
                (owner, right.at, u32::MAX),
            ];
            for (owner, at, length) in others {
                let part = Part { owner, at, length };
                assert!(arrived.is_at(&packets, entry, &part).is_err(), "{part:?}");
            }
            for at in [0, 99].map(|at| right.at as usize + at) {
                packets.of_port(owner, LENT)[at] ^= 1;
                assert!(arrived.is_in_its_slot(&packets, entry).is_err());
                packets.of_port(owner, LENT)[at] ^= 1;
            }
        }
        // A node that no packet has come to.
        assert!(arrived.is_in_its_slot(&packets, 2).is_err());
    }

    #[test]
    fn a_setup_forgets_what_came() {
        let (packets, _, mut arrived) = filled();
        let setup = Call::Setup(SETTINGS);
        arrived.note(&setup, &Reply::Refused(1));
        assert_eq!(arrived.is_in_its_slot(&packets, 0), Ok(()));
        arrived.note(&setup, &Reply::Done);
        assert!(arrived.is_in_its_slot(&packets, 0).is_err());
    }
}
