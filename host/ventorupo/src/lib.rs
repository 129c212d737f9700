//! A safe wrapper over the proved queue manager's C interface.
//!
//! A switch has 2 to 32 ports with 2 to 64 queues each ([`Settings`]). Its
//! whole state lives in bytes that you lend or hand over. A call answers a
//! value or a [`Refusal`], and after a refusal no byte differs, but for the mark
//! of a port where a header lied ([`Halt`]). Nothing has to be checked beforehand,
//! not even that the bytes are a state.
//!
//! ```
//! use std::error::Error;
//! use ventorupo::{EntryId, Header, Refusal, Settings, Side, Switch, Turn};
//!
//! fn main() -> Result<(), Box<dyn Error>> {
//!     // Eight ports, 16 queues; one node a port.
//!     let settings = Settings::wide(8, 16).nodes(1);
//!     let mut switch = Switch::setup(vec![0; settings.size()], settings)?;
//!
//!     // To destination 5, which is mapped to port 2; from port 1 in queue 0.
//!     switch.map(5, 2)?;
//!     let header = Header::new().destination(5).source(1).queue(0).length(100);
//!     let bytes = settings.form().write(&header)?;
//!     let entry = switch.arrive(1, &bytes)?;
//!     assert_eq!(entry, EntryId(2048));
//!     assert_eq!(switch.arrive(1, &bytes), Err(Refusal::NoFreeNode));
//!     assert_eq!(switch.stitch(1)?.port, 2);
//!     switch.prefetch(2, 0)?;
//!     match switch.turn(2)? {
//!         Turn::Sent(packet) => {
//!             assert_eq!((packet.entry, packet.length), (entry, 100));
//!             assert_eq!(packet.side, Side::Inside);
//!         }
//!         Turn::Idle => unreachable!(),
//!     }
//!     assert_eq!(switch.turn(2)?, Turn::Idle);
//!     Ok(())
//! }
//! ```
//!
//! # The rules, in short
//!
//! - After setup all nodes are free, every destination id is mapped to port 0, and no
//!   queue above 0 may send: give map entries ([`Switch::map`]) and outward credit
//!   ([`Switch::credit`]).
//! - An arrival takes a free node of its port ([`Switch::arrive`]). In a queue above 0 it
//!   costs its length in beats, rounded up, of the port's arrival credit for that queue,
//!   which comes back when the packet leaves.
//! - [`Switch::stitch`] takes a port's oldest to the port that the map names now,
//!   [`Switch::prefetch`] a queue's oldest into its slots.
//! - [`Switch::turn`] sends one packet: of the lowest ready queue above the one served
//!   last, else of the lowest of all. Queue 0 is free, and takes its turn like any
//!   other.
//! - A header with a wrong checksum or another port's source halts the port where it
//!   arrives ([`Halt`]), until [`Switch::clear`].
//!
//! # Many calls
//!
//! Each call tests that the memory is a state. Many calls pay for one test in a
//! round ([`Switch::round`]), and in a run: a [`Batch`] of calls, answered in their
//! order ([`Switch::run`]). Bytes that are only to be read are a [`View`].
//!
//! Switches of four ports and 24 queues may have the older headers of ten bytes
//! ([`Settings::ten_bytes`]); all else is the same. Such a switch may keep whole
//! packets ([`Settings::with_packets`]). Each port then has a packet memory of its own
//! beside the state, with a slot of 8,192 bytes for each node, which is lent to the
//! calls that need it. A packet is stored when it arrives ([`Switch::arrive_packet`]),
//! and once it is prefetched it is shown where it lies ([`Switch::show`]): what is
//! shown is a part of the lent memory, never a copy. It lies there after its turn too,
//! until an arrival at its owner's port takes the same node.
//!
//! # Features
//!
//! The crate is `no_std`. `std`, which is on unless it is left out
//! (`default-features = false`), makes every error a `std::error::Error`. `alloc`,
//! which `std` brings along, has what answers in a `Vec`: [`Batch`], [`Switch::run`]
//! and [`Switch::audit`]. Without it runs and audits go into lent room
//! ([`Switch::run_fields`], [`audit`]).
//!
//! # Examples
//!
//! `examples/` has a program for each task: `port_manager`, `audit`, `replay` and
//! `whole_packets`; and `outsider`, a rack as a newcomer wrote it.

#![no_std]
#![deny(unsafe_code)]
#![deny(missing_docs)]
#![deny(rustdoc::broken_intra_doc_links)]
// Without alloc the pages' links to what is left out would be broken.
#![cfg_attr(not(feature = "alloc"), allow(rustdoc::broken_intra_doc_links))]

#[cfg(feature = "alloc")]
extern crate alloc;
#[cfg(feature = "std")]
extern crate std;

mod answers;
#[cfg(feature = "alloc")]
mod batch;
#[allow(unsafe_code)]
pub mod calls;
mod error;
mod header;
mod night;
mod packets;
mod refusal;
mod runs;
mod settings;
mod switch;
mod view;
mod waits;

pub use answers::{
    EntryId, Halt, ListKind, Place, Ready, Record, RoundTurn, Sent, Side, Turn, Turns,
};
#[cfg(feature = "alloc")]
pub use batch::{Batch, Unfinished, WrongLength};
pub use error::SetupError;
pub use header::{Form, Header, HeaderBytes};
pub use night::{audit, find, repair, Finding, Rule};
pub use refusal::Refusal;
pub use runs::{Answer, Answers, Ran, Stop, ANSWER_BYTES};
pub use settings::{size, Settings, MOST_PORTS, SLOT_BYTES, TEN_BYTES, WIDE};
pub use switch::Switch;
pub use view::View;
pub use waits::{bucket_of, waits_of, BUCKETS, BUCKET_STOP};

/// The version of this crate and of the library behind it.
///
/// ```
/// assert!(ventorupo::VERSION.starts_with("0."));
/// ```
pub const VERSION: &str = env!("CARGO_PKG_VERSION");

/// The most bytes that a header has, in any form; see [`Form::size`].
///
/// ```
/// use ventorupo::{Form, HEADER_BYTES};
///
/// assert_eq!(Form::wide(32, 64).size(), Some(HEADER_BYTES));
/// ```
pub const HEADER_BYTES: usize = 12;

/// The bytes that a round writes for each port's turn.
///
/// ```
/// use ventorupo::{Settings, Switch, MOST_PORTS, TURN_BYTES};
///
/// let settings = Settings::ten_bytes().nodes(1);
/// let mut switch = Switch::setup([0; 6668], settings)?;
/// // Enough for every switch.
/// switch.round_into(&mut [0; TURN_BYTES * MOST_PORTS])?;
/// # Ok::<(), ventorupo::Refusal>(())
/// ```
pub const TURN_BYTES: usize = 4;

/// The bytes that an audit writes for each node.
///
/// ```
/// use ventorupo::{audit, Settings, Switch, PLACE_BYTES};
///
/// let settings = Settings::ten_bytes().nodes(1);
/// let switch = Switch::setup([0; 6668], settings)?;
/// // Four ports of one node.
/// audit(switch.memory(), &mut [0; 4 * PLACE_BYTES])?;
/// # Ok::<(), ventorupo::Refusal>(())
/// ```
pub const PLACE_BYTES: usize = 8;

/// 0 is done, any other number a refusal.
fn done(number: u32) -> Result<(), Refusal> {
    match number {
        0 => Ok(()),
        _ => {
            Err(Refusal::from_number(number).expect("the library answers 0 or a refusal's number"))
        }
    }
}
