//! A straightforward queue manager: plain arrays, lists linked by indices, the
//! checksum by a table. It trusts its own structures, but no header and no number.
//! It is here to measure the proved one against, and shares nothing with it.

#![forbid(unsafe_code)]

mod calls;
mod checksum;
mod form;
mod lists;
mod run;
mod settings;

pub use calls::{Packet, Record};
pub use run::{Ran, Why};
pub use settings::{Refusal, Settings, TEN_BYTES, WIDE};

use form::Form;
use lists::{List, Nodes};

/// The step between the entry ids of two ports.
const ENTRIES_PER_PORT: u32 = 2048;
/// Destination ids 0 to 4,095.
const DESTINATIONS: usize = 4096;
/// The most queues of a port.
const MOST_QUEUES: usize = 64;

#[derive(Debug, Clone, Copy, Default)]
struct Queue {
    egress: List,
    prefetch: List,
    /// Of queue 0 both credits are 0, and so is every price.
    arrival_credit: u16,
    outward_credit: u16,
}

#[derive(Debug, Clone)]
struct Port {
    free: List,
    ingress: List,
    /// The queue last served.
    last_served: u8,
    /// 0, or the number of the refusal that halted the port.
    mark: u8,
    queues: [Queue; MOST_QUEUES],
}

/// The queue manager. A turn finds its queue in one of two ways, and answers the
/// same: where EARLY_OUT it looks at the queues one by one from the one above the
/// last served, and takes the first that is ready; else it makes the whole ready
/// word, and takes the lowest bit above the last served, or of all.
#[derive(Debug, Clone)]
pub struct Lean<const EARLY_OUT: bool> {
    /// As many as the switch has.
    ports: Box<[Port]>,
    nodes: Nodes,
    map: Box<[u8; DESTINATIONS]>,
    form: Form,
    queues: u32,
    slots: u32,
    /// The beat is 1 shifted so far.
    beat_shift: u32,
}

/// A turn takes the first ready queue above the last served.
pub type EarlyOut = Lean<true>;
/// A turn makes the whole ready word.
pub type WholeWord = Lean<false>;

impl<const EARLY_OUT: bool> Lean<EARLY_OUT> {
    /// The starting ledger, or refusal 2.
    pub fn setup(settings: Settings) -> Result<Self, Refusal> {
        if !settings.in_their_rows() {
            return Err(Refusal::BadSetting);
        }
        let mut nodes = Nodes::new();
        let ports = (0..settings.ports).map(|port| starting(port, &settings, &mut nodes));
        Ok(Lean {
            ports: ports.collect(),
            nodes,
            map: Box::new([0; DESTINATIONS]),
            form: Form::of(&settings),
            queues: settings.queues,
            slots: settings.slots,
            beat_shift: settings.beat.trailing_zeros(),
        })
    }
}

/// A port of which all nodes are free.
fn starting(port: u32, settings: &Settings, nodes: &mut Nodes) -> Port {
    let mut free = List::default();
    for index in 0..settings.nodes {
        let node = (port * settings.nodes + index) as u16;
        nodes[node].entry = (port * ENTRIES_PER_PORT + index) as u16;
        free.append(nodes, node);
    }
    let mut queues = [Queue::default(); MOST_QUEUES];
    for queue in &mut queues[1..] {
        queue.arrival_credit = settings.credit as u16;
    }
    Port {
        free,
        ingress: List::default(),
        last_served: (settings.queues - 1) as u8,
        mark: 0,
        queues,
    }
}
