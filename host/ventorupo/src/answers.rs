//! What the calls answer, and how it stands in the C interface's rooms.

use core::fmt;
use core::ops::Deref;

use crate::{Refusal, MOST_PORTS, TURN_BYTES};

/// A node's entry id: port × 2048 + index.
///
/// ```
/// use ventorupo::EntryId;
///
/// let entry = EntryId(3 * 2048 + 5);
/// assert_eq!((entry.port(), entry.index()), (3, 5));
/// ```
#[derive(Debug, Clone, Copy, PartialEq, Eq, Hash, PartialOrd, Ord)]
pub struct EntryId(pub u16);

impl EntryId {
    /// The port that owns the node.
    ///
    /// ```
    /// assert_eq!(ventorupo::EntryId(6149).port(), 3);
    /// ```
    pub const fn port(self) -> u16 {
        self.0 / 2048
    }

    /// The node's index at its port.
    ///
    /// ```
    /// assert_eq!(ventorupo::EntryId(6149).index(), 5);
    /// ```
    pub const fn index(self) -> u16 {
        self.0 % 2048
    }
}

pub(crate) fn two(bytes: &[u8], at: usize) -> u16 {
    u16::from_be_bytes([bytes[at], bytes[at + 1]])
}

fn four(bytes: &[u8], at: usize) -> u32 {
    u32::from_be_bytes([bytes[at], bytes[at + 1], bytes[at + 2], bytes[at + 3]])
}

/// Stitch's answer.
///
/// ```
/// use ventorupo::Record;
///
/// let record = Record::from_bytes(&[8, 1, 0, 100, 5, 2, 0, 0, 0, 77]);
/// assert_eq!((record.entry.port(), record.entry.index()), (1, 1));
/// assert_eq!((record.length, record.queue, record.port, record.timestamp), (100, 5, 2, 77));
/// ```
// Exhaustive, as the other answers: each has what its room in the C interface has.
#[derive(Debug, Clone, Copy, PartialEq, Eq)]
pub struct Record {
    /// The node that was stitched.
    pub entry: EntryId,
    /// Header, data and footer, in bytes.
    pub length: u16,
    /// The queue of the egress list that it went to.
    pub queue: u8,
    /// The port that the destination id is mapped to.
    pub port: u8,
    /// The header's timestamp.
    pub timestamp: u32,
}

impl Record {
    /// The record in its ten bytes.
    ///
    /// ```
    /// assert_eq!(ventorupo::Record::from_bytes(&[0, 0, 1, 2, 0, 0, 0, 0, 0, 0]).length, 258);
    /// ```
    pub fn from_bytes(bytes: &[u8; 10]) -> Record {
        Record {
            entry: EntryId(two(bytes, 0)),
            length: two(bytes, 2),
            queue: bytes[4],
            port: bytes[5],
            timestamp: four(bytes, 6),
        }
    }
}

/// Where a packet goes when it leaves.
///
/// ```
/// use ventorupo::{Side, Turn};
///
/// let mut bytes = [0; 16];
/// bytes[0] = 1;
/// assert!(matches!(Turn::from_bytes(&bytes), Some(Turn::Sent(sent)) if sent.side == Side::Inside));
/// ```
#[derive(Debug, Clone, Copy, PartialEq, Eq)]
pub enum Side {
    /// Of queue 0.
    Inside,
    /// Of any other queue.
    Outside,
}

/// The packet that a turn sent, with all that was recorded for it.
///
/// ```
/// use ventorupo::{EntryId, Sent, Side, Turn};
///
/// let bytes = [2, 5, 24, 1, 0, 100, 0, 3, 0, 0, 0, 77, 1, 9, 0, 2];
/// let sent = Sent {
///     side: Side::Outside,
///     queue: 5,
///     entry: EntryId(6145),
///     length: 100,
///     destination: 3,
///     timestamp: 77,
///     poisoned: true,
///     transaction: 9,
///     price: 2,
/// };
/// assert_eq!(Turn::from_bytes(&bytes), Some(Turn::Sent(sent)));
/// ```
#[derive(Debug, Clone, Copy, PartialEq, Eq)]
pub struct Sent {
    /// Inside or outside.
    pub side: Side,
    /// The queue that was served.
    pub queue: u8,
    /// The node, which has gone home to its owner's free list.
    pub entry: EntryId,
    /// Header, data and footer, in bytes.
    pub length: u16,
    /// The header's destination id.
    pub destination: u16,
    /// The header's timestamp.
    pub timestamp: u32,
    /// Whether the header said that the packet is poisoned.
    pub poisoned: bool,
    /// The transaction id.
    pub transaction: u8,
    /// In beats.
    pub price: u16,
}

/// A turn's answer.
///
/// ```
/// use ventorupo::{Settings, Switch, Turn};
///
/// let mut switch = Switch::setup([0; 6668], Settings::ten_bytes().nodes(1))?;
/// match switch.turn(0)? {
///     Turn::Sent(sent) => println!("{} bytes of queue {}", sent.length, sent.queue),
///     Turn::Idle => println!("nothing is ready"),
/// }
/// # Ok::<(), ventorupo::Refusal>(())
/// ```
#[derive(Debug, Clone, Copy, PartialEq, Eq)]
pub enum Turn {
    /// Nothing was ready, and nothing has changed.
    Idle,
    /// The packet that has left.
    Sent(Sent),
}

impl Turn {
    /// A turn's answer in its 16 bytes; none if the first is no kind.
    ///
    /// ```
    /// use ventorupo::Turn;
    ///
    /// assert_eq!(Turn::from_bytes(&[0; 16]), Some(Turn::Idle));
    /// assert_eq!(Turn::from_bytes(&[3; 16]), None);
    /// ```
    pub fn from_bytes(bytes: &[u8; 16]) -> Option<Turn> {
        let side = match bytes[0] {
            0 => return Some(Turn::Idle),
            1 => Side::Inside,
            2 => Side::Outside,
            _ => return None,
        };
        Some(Turn::Sent(Sent {
            side,
            queue: bytes[1],
            entry: EntryId(two(bytes, 2)),
            length: two(bytes, 4),
            destination: two(bytes, 6),
            timestamp: four(bytes, 8),
            poisoned: bytes[12] != 0,
            transaction: bytes[13],
            price: two(bytes, 14),
        }))
    }
}

/// What a round tells of one port's turn.
///
/// ```
/// use ventorupo::{RoundTurn, Settings, Switch};
///
/// let mut switch = Switch::setup([0; 6668], Settings::ten_bytes().nodes(1))?;
/// for (port, turn) in switch.round()?.iter().enumerate() {
///     if let RoundTurn::Sent(entry) = turn {
///         println!("port {port} sent node {}", entry.0);
///     }
/// }
/// # Ok::<(), ventorupo::Refusal>(())
/// ```
#[derive(Debug, Clone, Copy, PartialEq, Eq)]
pub enum RoundTurn {
    /// Passed over; of a port that the switch has, no turn is refused.
    Refused(Refusal),
    /// Nothing was ready.
    Idle,
    /// The node whose packet was sent.
    Sent(EntryId),
}

impl RoundTurn {
    /// A port's turn in its four bytes; none if they tell of none.
    ///
    /// ```
    /// use ventorupo::{EntryId, RoundTurn};
    ///
    /// assert_eq!(RoundTurn::from_bytes(&[0, 1, 0, 0]), Some(RoundTurn::Idle));
    /// assert_eq!(RoundTurn::from_bytes(&[0, 0, 8, 1]), Some(RoundTurn::Sent(EntryId(2049))));
    /// assert_eq!(RoundTurn::from_bytes(&[0, 2, 0, 0]), None);
    /// ```
    pub fn from_bytes(bytes: &[u8; 4]) -> Option<RoundTurn> {
        match (bytes[0], bytes[1], two(bytes, 2)) {
            (0, 0, entry) => Some(RoundTurn::Sent(EntryId(entry))),
            (0, 1, 0) => Some(RoundTurn::Idle),
            (number, 0, 0) => Refusal::from_number(number.into()).map(RoundTurn::Refused),
            _ => None,
        }
    }
}

/// A round's answer, each port's turn: a slice in all but name.
///
/// ```
/// use ventorupo::{RoundTurn, Settings, Switch, Turns};
///
/// let mut switch = Switch::setup([0; 6668], Settings::ten_bytes().nodes(1))?;
/// let turns: Turns = switch.round()?;
/// assert_eq!((turns.len(), turns[3]), (4, RoundTurn::Idle));
/// # Ok::<(), ventorupo::Refusal>(())
/// ```
#[derive(Clone, Copy, PartialEq, Eq)]
pub struct Turns {
    /// Past the ports: idle.
    turns: [RoundTurn; MOST_PORTS],
    ports: usize,
}

impl Turns {
    /// The first so many ports' turns in a round's room; none if one of them
    /// tells of none, or there are more than a switch has.
    pub(crate) fn from_room(room: &[u8], ports: usize) -> Option<Turns> {
        let mut turns = [RoundTurn::Idle; MOST_PORTS];
        let told = room.chunks_exact(TURN_BYTES);
        for (turn, told) in turns.get_mut(..ports)?.iter_mut().zip(told) {
            *turn = RoundTurn::from_bytes(told.try_into().ok()?)?;
        }
        Some(Turns { turns, ports })
    }
}

impl Deref for Turns {
    type Target = [RoundTurn];

    fn deref(&self) -> &[RoundTurn] {
        &self.turns[..self.ports]
    }
}

impl fmt::Debug for Turns {
    fn fmt(&self, f: &mut fmt::Formatter<'_>) -> fmt::Result {
        self[..].fmt(f)
    }
}

/// The four kinds of list, with the port and, for the last two, the queue.
///
/// ```
/// use ventorupo::{EntryId, ListKind, Settings, Switch};
///
/// let switch = Switch::setup([0; 6668], Settings::ten_bytes().nodes(1))?;
/// match switch.place_of(EntryId(0))?.list {
///     ListKind::Free { port } => println!("free, at port {port}"),
///     ListKind::Ingress { port } => println!("arrived at port {port}"),
///     ListKind::Egress { port, queue } => println!("waits at port {port}, queue {queue}"),
///     ListKind::Prefetch { port, queue } => println!("in a slot of port {port}, queue {queue}"),
/// }
/// # Ok::<(), ventorupo::Refusal>(())
/// ```
// Exhaustive: each node stands in one of these, and no request adds a kind.
#[derive(Debug, Clone, Copy, PartialEq, Eq)]
pub enum ListKind {
    /// The port's pool.
    Free {
        /// The port that the nodes belong to.
        port: u8,
    },
    /// What has arrived and isn't stitched.
    Ingress {
        /// The port where it arrived.
        port: u8,
    },
    /// What is stitched and isn't prefetched.
    Egress {
        /// The port where it is to leave.
        port: u8,
        /// Its queue.
        queue: u8,
    },
    /// What is in the slots, the next that leave.
    Prefetch {
        /// The port where it is to leave.
        port: u8,
        /// Its queue.
        queue: u8,
    },
}

/// Where a node stands.
///
/// ```
/// use ventorupo::{EntryId, ListKind, Place, Settings, Switch};
///
/// let switch = Switch::setup([0; 6720], Settings::ten_bytes().nodes(2))?;
/// let place = switch.place_of(EntryId(2049))?;
/// let list = ListKind::Free { port: 1 };
/// assert_eq!(place, Place { entry: EntryId(2049), list, position: 1 });
/// # Ok::<(), ventorupo::Refusal>(())
/// ```
#[derive(Debug, Clone, Copy, PartialEq, Eq)]
pub struct Place {
    /// The node.
    pub entry: EntryId,
    /// The list in which it stands.
    pub list: ListKind,
    /// How many stand before it there.
    pub position: u16,
}

impl Place {
    /// A place in its 8 bytes; none if the third is no kind of list.
    ///
    /// ```
    /// use ventorupo::{ListKind, Place};
    ///
    /// let place = Place::from_bytes(&[8, 1, 3, 2, 5, 0, 0, 7]).unwrap();
    /// assert_eq!(place.list, ListKind::Prefetch { port: 2, queue: 5 });
    /// assert_eq!((place.entry.0, place.position), (2049, 7));
    /// assert_eq!(Place::from_bytes(&[4; 8]), None);
    /// ```
    pub fn from_bytes(bytes: &[u8; 8]) -> Option<Place> {
        let (port, queue) = (bytes[3], bytes[4]);
        let list = match bytes[2] {
            0 => ListKind::Free { port },
            1 => ListKind::Ingress { port },
            2 => ListKind::Egress { port, queue },
            3 => ListKind::Prefetch { port, queue },
            _ => return None,
        };
        Some(Place {
            entry: EntryId(two(bytes, 0)),
            list,
            position: two(bytes, 6),
        })
    }
}

/// Why a port is halted, as [`Switch::report`](crate::Switch::report) tells it:
/// the refusal of the first header that lied there since setup, repair or clear.
///
/// While a port is halted, headers for queues above 0 are refused 10 there; queue
/// 0 goes on.
///
/// ```
/// use ventorupo::{Halt, Refusal};
///
/// assert_eq!(Halt::Checksum.number(), Refusal::Checksum.number());
/// assert_eq!(Halt::Checksum.to_string(), "checksum differs");
/// assert_eq!(Halt::from_number(18), Some(Halt::Beat));
/// assert_eq!(Halt::from_number(9), None);
/// ```
#[derive(Debug, Clone, Copy, PartialEq, Eq, Hash, PartialOrd, Ord)]
#[non_exhaustive]
pub enum Halt {
    /// 7: checksum differs.
    Checksum = 7,
    /// 8: header's source isn't the arriving port.
    Source = 8,
    /// 18: a packet's beats aren't those that its length asks for. No call gives it
    /// yet, but a state may hold it.
    Beat = 18,
}

impl Halt {
    /// Every one, in the order of their numbers.
    ///
    /// ```
    /// let numbers: Vec<u32> = ventorupo::Halt::ALL.iter().map(|halt| halt.number()).collect();
    /// assert_eq!(numbers, [7, 8, 18]);
    /// ```
    pub const ALL: &'static [Halt] = &[Halt::Checksum, Halt::Source, Halt::Beat];

    /// The refusal's number in the papers, which is the port's mark.
    ///
    /// ```
    /// assert_eq!(ventorupo::Halt::Source.number(), 8);
    /// ```
    pub const fn number(self) -> u32 {
        self as u32
    }

    /// The one of a number, if it is one that halts.
    ///
    /// ```
    /// use ventorupo::Halt;
    ///
    /// assert_eq!(Halt::from_number(8), Some(Halt::Source));
    /// assert_eq!(Halt::from_number(10), None);
    /// ```
    pub fn from_number(number: u32) -> Option<Halt> {
        let its = |halt: &Halt| halt.number() == number;
        Halt::ALL.iter().copied().find(its)
    }
}

impl fmt::Display for Halt {
    fn fmt(&self, f: &mut fmt::Formatter<'_>) -> fmt::Result {
        match self {
            Halt::Checksum => Refusal::Checksum.fmt(f),
            Halt::Source => Refusal::Source.fmt(f),
            Halt::Beat => f.write_str(
                "last mark too early, absent where the length ends, or a beat of a wrong size",
            ),
        }
    }
}

/// Ready's answer.
///
/// ```
/// use ventorupo::Ready;
///
/// let ready = Ready { word: 1 << 5 | 1, count: 2 };
/// let queues: Vec<u32> = (0..64).filter(|queue| ready.word >> queue & 1 == 1).collect();
/// assert_eq!(queues, [0, 5]);
/// ```
#[derive(Debug, Clone, Copy, PartialEq, Eq)]
pub struct Ready {
    /// Bit q for queue q.
    pub word: u64,
    /// The number of ones in the word.
    pub count: u32,
}
