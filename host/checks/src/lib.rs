//! The proved library against the independent model on the same traffic, and
//! on damaged memory.

#![forbid(unsafe_code)]

pub mod changes;
pub mod counts;
pub mod cut;
pub mod damage;
pub mod finding;
pub mod headers;
pub mod library;
pub mod night;
pub mod packets;
pub mod program;
pub mod reader;
pub mod run;
pub mod runs;
pub mod scale;
pub mod search;
pub mod tables;
pub mod waits;
pub mod watch;
pub mod workers;
pub mod wrapper;
pub mod writer;

use model::{marked, Call, Reply};

use packets::{lends, Packets};
use tables::Tables;

/// Something that answers calls on lent memory: the library, or in tests a
/// library with a slip. The error is a broken rule on answers or rooms.
pub trait Desk {
    /// The packet memories are for the calls that are lent such.
    fn call(&self, memory: &mut [u8], packets: &mut Packets, call: &Call) -> Result<Reply, String>;
}

/// One that knows of no packet memories: the calls that are lent such are the
/// library's.
impl<F: Fn(&mut [u8], &Call) -> Result<Reply, String>> Desk for F {
    fn call(&self, memory: &mut [u8], packets: &mut Packets, call: &Call) -> Result<Reply, String> {
        match lends(call) {
            true => library::with_packets(memory, packets, call),
            false => self(memory, call),
        }
    }
}

/// One that answers all calls itself.
pub struct Whole(pub fn(&mut [u8], &mut Packets, &Call) -> Result<Reply, String>);

impl Desk for Whole {
    fn call(&self, memory: &mut [u8], packets: &mut Packets, call: &Call) -> Result<Reply, String> {
        self.0(memory, packets, call)
    }
}

/// A call in words: of a whole packet, its header and how many bytes there are.
pub fn in_words(call: &Call) -> String {
    match call {
        Call::ArrivePacket { port, packet, lent } => {
            let (bytes, front) = (packet.len(), &packet[..packet.len().min(10)]);
            format!("ArrivePacket {{ port: {port}, {bytes} bytes: {front:?}.., lent: {lent} }}")
        }
        _ => format!("{call:?}"),
    }
}

/// Makes of the bytes before a call those that it must leave, given its answer,
/// and says true; false where it may change more than a mark. A refused call
/// leaves every byte but one: the mark of a port that had none, where a header
/// lied. A clear leaves every byte but its port's mark.
pub fn left(bytes: &mut [u8], call: &Call, reply: &Reply) -> bool {
    // Told of a switch state and of one of its ports: the answer comes after 3 and 4.
    let mark = |bytes: &[u8], port: u32| {
        let tables = Tables::of(&reader::settings(bytes));
        tables.halted.start + port as usize
    };
    match (call, reply) {
        (Call::Clear { port }, Reply::Done) => {
            let at = mark(bytes, *port);
            bytes[at] = 0;
            true
        }
        (_, Reply::Refused(_)) => {
            if let Some((port, number)) = marked(call, reply) {
                let at = mark(bytes, port);
                bytes[at] = if bytes[at] == 0 { number } else { bytes[at] };
            }
            true
        }
        (_, Reply::Idle | Reply::Word(..) | Reply::Found(..)) => true,
        (_, Reply::Mark(_) | Reply::Count(_) | Reply::Shown(_)) => true,
        _ => false,
    }
}

/// The first byte from `from` on that differs, told.
pub(crate) fn difference(before: &[u8], after: &[u8], from: usize) -> Option<String> {
    if before[from..] == after[from..] {
        return None;
    }
    let at = (from..before.len()).find(|&at| before[at] != after[at])?;
    Some(format!("byte {at} was {} and is {}", before[at], after[at]))
}
