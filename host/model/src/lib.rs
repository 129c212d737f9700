//! An independent model of the queue manager, written from papers 01 and 02
//! (requests) alone.
//!
//! The model keeps plain lists and numbers; it has no memory image. The
//! caller's memory is only a length here, so that setup can refuse a short one;
//! of the ports' packet memories it keeps what packets have left in them.

#![forbid(unsafe_code)]

pub mod bench;
mod check;
pub mod checksum;
pub mod header;
pub mod ledger;
mod runs;
mod shape;
mod stored;
#[cfg(test)]
mod tests;

pub use ledger::{Ledger, Port};
pub use runs::{Ran, Stop};
pub use shape::{Settings, Shape, TEN_BYTES, WIDE};
pub use stored::Stored;

/// The most ports.
pub const MOST_PORTS: u32 = 32;
/// The most queues of each port.
pub const MOST_QUEUES: u32 = 64;
/// Destination ids 0 to 4,095, whatever the header has room for.
pub const DESTINATIONS: u32 = 4096;
/// The step between the entry ids of two ports.
pub const ENTRIES_PER_PORT: u32 = 2048;
/// The most nodes per port: as many as there are entry ids.
pub const MOST_NODES: u32 = ENTRIES_PER_PORT;
/// The most that a credit can hold.
pub const MOST_CREDIT: u32 = 65_535;
/// The footer's bytes.
pub const FOOTER: u32 = 2;
/// The most that 13 bits of length can say.
pub const LONGEST: u32 = 8191;

/// The bytes of a node's slot in its port's packet memory.
pub const SLOT_BYTES: usize = 8192;
/// The packet memories: one for each port of a switch with the ten-byte header,
/// which alone keeps packets.
pub const PACKET_MEMORIES: usize = 4;

/// The buckets of each port.
pub const BUCKETS: usize = 33;

/// The bytes that an audit writes for each node.
pub const PLACE_BYTES: usize = 8;

/// The numbers of the refusals.
pub const REFUSALS: [u8; 22] = [
    1, 2, 3, 4, 5, 6, 7, 8, 9, 10, 11, 12, 13, 14, 15, 16, 17, 19, 20, 21, 24, 27,
];

/// The calls. Numbers are wide, so that a caller can hand in any number.
#[derive(Debug, Clone, PartialEq, Eq)]
pub enum Call {
    Setup(Settings),
    Arrive {
        port: u32,
        header: Vec<u8>,
    },
    Stitch {
        port: u32,
    },
    Prefetch {
        port: u32,
        queue: u32,
    },
    Credit {
        port: u32,
        queue: u32,
        amount: u32,
    },
    Map {
        id: u32,
        port: u32,
    },
    Turn {
        port: u32,
    },
    Ready {
        port: u32,
    },
    Where {
        entry: u32,
    },
    /// Lifts the port's mark.
    Clear {
        port: u32,
    },
    /// Reads the port's mark.
    Report {
        port: u32,
    },
    /// A turn that is given the time.
    TimedTurn {
        port: u32,
        now: u32,
    },
    /// Reads one of the port's buckets.
    Bucket {
        port: u32,
        bucket: u32,
    },
    /// With the room that is lent for the turns, as it stands before.
    Round {
        room: Vec<u8>,
    },
    /// A whole packet, with how many bytes of the port's packet memory are lent.
    ArrivePacket {
        port: u32,
        packet: Vec<u8>,
        lent: usize,
    },
    /// The oldest packet in a queue's slots, with how many bytes of each port's
    /// packet memory are lent.
    Show {
        port: u32,
        queue: u32,
        lent: [usize; PACKET_MEMORIES],
    },
}

/// The answers.
#[derive(Debug, Clone, PartialEq, Eq)]
pub enum Reply {
    /// The refusal's number in the paper's table.
    Refused(u8),
    /// Setup, credit, map and clear: accepted, no value.
    Done,
    /// Arrive, with a header or a whole packet, and prefetch: the entry id.
    Entry(u16),
    /// Stitch: the ten-byte record.
    Stitched([u8; 10]),
    /// Turn, timed or not, with nothing ready.
    Idle,
    /// Turn, timed or not: the packet that leaves, and to which side.
    Leaves(Packet, Side),
    /// Ready: the ready word and the ready count.
    Word(u64, u32),
    /// Where: the node's list and the position in it, from 0.
    Found(ListKind, u32),
    /// Report: the port's mark.
    Mark(u8),
    /// Bucket: what it holds.
    Count(u32),
    /// Round: the bytes for each port's turn.
    Turns(Vec<u8>),
    /// Show: where the packet lies.
    Shown(Part),
}

/// A part of a port's packet memory.
#[derive(Debug, Clone, Copy, PartialEq, Eq)]
pub struct Part {
    /// Whose memory it is.
    pub owner: u32,
    /// Its first byte.
    pub at: u64,
    pub length: u32,
}

/// Everything recorded for a node that isn't free, with its entry id.
#[derive(Debug, Clone, Copy, PartialEq, Eq)]
pub struct Packet {
    pub entry: u16,
    pub length: u16,
    pub queue: u8,
    pub destination: u8,
    pub timestamp: u32,
    pub poisoned: bool,
    pub transaction: u8,
    pub price: u32,
}

/// Where a packet goes when it leaves: inside for queue 0, else outside.
#[derive(Debug, Clone, Copy, PartialEq, Eq)]
pub enum Side {
    Inside,
    Outside,
}

/// The four kinds of list, with the port and, for the last two, the queue.
#[derive(Debug, Clone, Copy, PartialEq, Eq)]
pub enum ListKind {
    Free { port: u32 },
    Ingress { port: u32 },
    Egress { port: u32, queue: u32 },
    Prefetch { port: u32, queue: u32 },
}

/// How a turn finds its queue. Both ways answer the same.
#[derive(Debug, Clone, Copy, PartialEq, Eq, Default)]
pub enum Choice {
    /// Compute the whole ready word, then pick from the word.
    #[default]
    WholeWord,
    /// Look at the queues one by one from the one after the last served, and
    /// stop at the first ready one.
    EarlyOut,
}

/// The marks that a port can have: none, or the number of the refusal that
/// halted it. Nothing gives 18 yet.
pub const MARKS: [u8; 4] = [0, 7, 8, 18];

/// The one change that a refusal may make: the port that an arrival's answer
/// marks, if it has no mark yet, and the mark. For those who compare what was
/// before a call with what is after it; the model itself does not ask.
pub fn marked(call: &Call, reply: &Reply) -> Option<(u32, u8)> {
    match (call, reply) {
        (
            Call::Arrive { port, .. } | Call::ArrivePacket { port, .. },
            Reply::Refused(number @ (7 | 8)),
        ) => Some((*port, *number)),
        _ => None,
    }
}

/// The bytes of lent memory that a state of these settings needs.
pub fn size(settings: &Settings) -> usize {
    let [ports, queues, nodes] =
        [settings.ports, settings.queues, settings.nodes].map(|number| number as usize);
    let beside = 16 + DESTINATIONS as usize;
    // The queue last served, and its mark; for each queue above 0 two credits; the
    // buckets; for each list head, tail and count.
    let each_port = 2 + 4 * (queues - 1) + 4 * BUCKETS + 8 * (2 + 2 * queues);
    beside + ports * (each_port + 13 * nodes)
}

/// The price of a packet in beats: its length, rounded up; queue 0 is free.
pub fn price(length: u32, queue: u32, beat: u32) -> u32 {
    if queue == 0 {
        0
    } else {
        length / beat + u32::from(length % beat != 0)
    }
}

/// The queue manager: lent memory of some length, and the ledger, if any; and what
/// it has written into packet memories.
#[derive(Debug, Clone, PartialEq, Eq)]
pub struct Model {
    memory_len: usize,
    choice: Choice,
    ledger: Option<Ledger>,
    stored: Stored,
}

impl Model {
    /// Memory of zero bytes: no switch state yet.
    pub fn new(memory_len: usize) -> Model {
        Model::with_choice(memory_len, Choice::default())
    }

    /// The same, with the way in which a turn finds its queue.
    pub fn with_choice(memory_len: usize, choice: Choice) -> Model {
        Model {
            memory_len,
            choice,
            ledger: None,
            stored: Stored::default(),
        }
    }

    /// Memory that holds this ledger, which may be read off somebody's bytes.
    /// The calls count on a sound one: ask `check` first.
    pub fn with_ledger(memory_len: usize, ledger: Ledger) -> Model {
        Model {
            ledger: Some(ledger),
            ..Model::new(memory_len)
        }
    }

    /// Make one call.
    pub fn call(&mut self, call: &Call) -> Reply {
        self.answer(call).unwrap_or_else(Reply::Refused)
    }

    /// The length of the lent memory.
    pub fn memory_len(&self) -> usize {
        self.memory_len
    }

    /// The way in which a turn finds its queue.
    pub fn choice(&self) -> Choice {
        self.choice
    }

    /// The ledger; none before the first accepted setup.
    pub fn ledger(&self) -> Option<&Ledger> {
        self.ledger.as_ref()
    }

    /// What whole packets have left in the packet memories.
    pub fn stored(&self) -> &Stored {
        &self.stored
    }

    /// The audit: every node's place, eight bytes each, into lent room. The
    /// error is the refusal's number, and then the room is as it was; past the
    /// answer it stays.
    pub fn audit(&self, room: &mut [u8]) -> Result<(), u8> {
        let places = self.ledger.as_ref().ok_or(3)?.places();
        room.get_mut(..places.len())
            .ok_or(27)?
            .copy_from_slice(&places);
        Ok(())
    }

    /// The model's own soundness, rules (a) to (g) and (i) in the paper's order. A
    /// model without a ledger has nothing that could be unsound.
    pub fn check(&self) -> Result<(), String> {
        match &self.ledger {
            None => Ok(()),
            Some(ledger) => check::check(ledger, self.memory_len),
        }
    }

    /// The error is the refusal's number.
    fn answer(&mut self, call: &Call) -> Result<Reply, u8> {
        if let Call::Setup(settings) = call {
            return self.setup(*settings);
        }
        let ledger = self.ledger.as_mut().ok_or(3)?;
        match call {
            // Taken above: setup alone needs no ledger.
            Call::Setup(_) => unreachable!(),
            Call::Arrive { port, header } => ledger.arrive(*port, header).map(Reply::Entry),
            Call::Stitch { port } => ledger.stitch(*port),
            Call::Prefetch { port, queue } => ledger.prefetch(*port, *queue),
            Call::Credit {
                port,
                queue,
                amount,
            } => ledger.credit(*port, *queue, *amount),
            Call::Map { id, port } => ledger.map(*id, *port),
            Call::Turn { port } => ledger.turn(*port, self.choice),
            Call::Ready { port } => ledger.ready(*port),
            Call::Where { entry } => ledger.find(*entry),
            Call::Clear { port } => ledger.clear(*port),
            Call::Report { port } => ledger.report(*port),
            Call::TimedTurn { port, now } => ledger.timed_turn(*port, *now, self.choice),
            Call::Bucket { port, bucket } => ledger.bucket(*port, *bucket),
            Call::Round { room } => ledger.round(room.len(), self.choice),
            Call::ArrivePacket { port, packet, lent } => {
                let entry = ledger.arrive_packet(*port, packet, *lent)?;
                self.stored.store(entry, packet);
                Ok(Reply::Entry(entry))
            }
            Call::Show { port, queue, lent } => ledger.show(*port, *queue, lent),
        }
    }

    /// A refused setup leaves an older ledger in use (ruling 10).
    fn setup(&mut self, settings: Settings) -> Result<Reply, u8> {
        if !settings.in_their_rows() {
            return Err(2);
        }
        if self.memory_len < size(&settings) {
            return Err(1);
        }
        self.ledger = Some(Ledger::starting(settings));
        Ok(Reply::Done)
    }
}
