//! What whole packets leave in the ports' packet memories.

use std::collections::BTreeMap;

use crate::ledger::{entry_id, index};
use crate::{ENTRIES_PER_PORT, SLOT_BYTES};

/// By entry id: what packets have left in the node's slot, from its start on. All
/// other bytes of a packet memory are as they were at first.
#[derive(Debug, Clone, Default, PartialEq, Eq)]
pub struct Stored(BTreeMap<u16, Vec<u8>>);

impl Stored {
    pub(crate) fn store(&mut self, entry: u16, packet: &[u8]) {
        let slot = self.0.entry(entry).or_default();
        // What a longer one has left behind it stays.
        let behind = slot.get(packet.len()..).unwrap_or(&[]);
        *slot = [packet, behind].concat();
    }

    /// What a port's packet memory was written: from which byte on, and the bytes,
    /// slot by slot.
    pub fn of_port(&self, port: u32) -> impl Iterator<Item = (usize, &[u8])> {
        let first = entry_id(port, 0);
        let last = entry_id(port, ENTRIES_PER_PORT - 1);
        let slots = self.0.range(first..=last);
        slots.map(|(&entry, bytes)| (index(entry) * SLOT_BYTES, &bytes[..]))
    }
}
