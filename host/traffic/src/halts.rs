//! What calls have shown of halted ports: for those who count whether traffic
//! gets there.

use std::fmt;

use model::header::read;
use model::{price, Call, Ledger, Model, Reply};

/// What is to be seen of them.
const NAMES: [&str; 8] = [
    "halted by 7",
    "halted by 8",
    "a second lie that left the first mark",
    "refused 10 with credit in hand",
    "queue 0 taken in at a halted port",
    "cleared",
    "taken in above queue 0 after a clear",
    "taken in above queue 0",
];

/// How often each was seen.
#[derive(Debug, Clone, Default, PartialEq, Eq)]
pub struct Halts {
    /// In the order of `NAMES`.
    seen: [u64; NAMES.len()],
    /// The ports that were halted and are cleared since the last setup.
    cleared: Vec<u32>,
}

/// What stands before a call at the port that it names, as far as a halt goes.
#[derive(Debug, Clone, Copy)]
pub struct Before {
    port: u32,
    mark: u8,
    /// The arriving header's queue, and whether credit covers its price; none of
    /// another call, and of a header that is none.
    arriving: Option<(u32, bool)>,
}

impl Before {
    /// Of the call that the model is handed next; none if it is about no port.
    pub fn of(model: &Model, call: &Call) -> Option<Before> {
        let ledger = model.ledger()?;
        let (port, arriving) = match call {
            Call::Arrive { port, header } => (*port, arriving(ledger, *port, header)),
            Call::ArrivePacket { port, packet, .. } => {
                let front = packet.len().min(ledger.settings.shape().header_bytes());
                (*port, arriving(ledger, *port, &packet[..front]))
            }
            Call::Clear { port } => (*port, None),
            _ => return None,
        };
        let mark = ledger.ports.get(port as usize)?.mark;
        Some(Before {
            port,
            mark,
            arriving,
        })
    }
}

fn arriving(ledger: &Ledger, port: u32, header: &[u8]) -> Option<(u32, bool)> {
    let header = read(&ledger.settings.shape(), header).ok()?;
    let credit = &ledger.ports.get(port as usize)?.arrival_credit;
    let price = price(header.length, header.queue, ledger.settings.beat);
    Some((header.queue, price <= credit[header.queue as usize]))
}

impl Halts {
    /// A call, what stood before it, and its answer.
    pub fn note(&mut self, before: Option<Before>, call: &Call, reply: &Reply) {
        if let (Call::Setup(_), Reply::Done) = (call, reply) {
            self.cleared.clear();
        }
        let Before {
            port,
            mark,
            arriving,
        } = match before {
            Some(before) => before,
            None => return,
        };
        let cleared = self.cleared.contains(&port);
        let shown: &[usize] = match (call, reply, mark, arriving) {
            (Call::Clear { .. }, Reply::Done, 1.., _) => {
                self.cleared.push(port);
                &[5]
            }
            (_, Reply::Refused(7), 0, _) => &[0],
            (_, Reply::Refused(8), 0, _) => &[1],
            (_, Reply::Refused(number @ (7 | 8)), _, _) if *number != mark => &[2],
            (_, Reply::Refused(10), 1.., Some((_, true))) => &[3],
            (_, Reply::Entry(_), 1.., Some((0, _))) => &[4],
            (_, Reply::Entry(_), 0, Some((1.., _))) if cleared => &[6, 7],
            (_, Reply::Entry(_), 0, Some((1.., _))) => &[7],
            _ => &[],
        };
        for &which in shown {
            self.seen[which] += 1;
        }
    }

    pub fn add(&mut self, other: &Halts) {
        for (cell, more) in self.seen.iter_mut().zip(other.seen) {
            *cell += more;
        }
    }

    /// How many packets of queues above 0 were taken in.
    pub fn above_queue_0(&self) -> u64 {
        self.seen[7]
    }

    /// What came less often than it should.
    pub fn too_rare(&self, least: u64) -> Vec<(&'static str, u64)> {
        let all = NAMES.into_iter().zip(self.seen);
        all.filter(|&(_, times)| times < least).collect()
    }
}

impl fmt::Display for Halts {
    fn fmt(&self, f: &mut fmt::Formatter<'_>) -> fmt::Result {
        write!(f, "halts:")?;
        for (name, times) in NAMES.iter().zip(self.seen) {
            write!(f, " {name} {times},")?;
        }
        Ok(())
    }
}
