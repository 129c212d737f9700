//! A reader of the state's bytes: the ledger that they picture, by
//! docs/LAYOUT.md alone.

use std::collections::VecDeque;

use model::{size, Ledger, ListKind, Model, Packet, Settings};

use crate::tables::{Table, Tables, MAPPED, SETTING, SETTINGS_END};

/// The settings, in their rows or not, of at least the settings' bytes.
pub fn settings(memory: &[u8]) -> Settings {
    let setting = |i| SETTING.get(memory, i);
    Settings {
        ports: setting(0),
        queues: setting(1),
        nodes: setting(2),
        beat: setting(3),
        slots: setting(4),
        credit: setting(5),
        edition: setting(6),
        packets: setting(7),
    }
}

/// The map's entries, of bytes long enough for a state.
pub fn map(memory: &[u8]) -> &[u8] {
    let end = Tables::of(&settings(memory)).last.start;
    &memory[MAPPED.start..end]
}

/// The bytes of a state being read.
struct Reader<'m> {
    memory: &'m [u8],
    tables: Tables,
}

impl Reader<'_> {
    fn list(&self, kind: ListKind) -> Result<VecDeque<u16>, String> {
        let number = self.tables.list(kind);
        let count = self.tables.count.get(self.memory, number) as usize;
        // A longer one would have a node twice; and reading it must end.
        if count > self.tables.all_nodes() {
            return Err(format!("(c) {kind:?} has {count} nodes"));
        }
        let mut list = VecDeque::with_capacity(count);
        let mut entry = self.tables.head.get(self.memory, number);
        for _ in 0..count {
            let slot = self
                .tables
                .node_slot(entry)
                .ok_or_else(|| format!("(c) {entry} in {kind:?} is no node"))?;
            list.push_back(entry as u16);
            entry = self.tables.next.get(self.memory, slot);
        }
        let tail = self.tables.tail.get(self.memory, number);
        match list.back() {
            Some(&last) if u32::from(last) != tail => {
                Err(format!("(c) {kind:?} ends at {last}, its tail is {tail}"))
            }
            _ => Ok(list),
        }
    }

    fn packet(&self, entry: u16) -> Result<Packet, String> {
        let slot = self.tables.node_slot(entry.into()).ok_or("(c) no node")?;
        let get = |table: Table| table.get(self.memory, slot);
        let poisoned = get(self.tables.poisoned);
        // The model's flag has no room for more.
        if poisoned > 1 {
            return Err(format!("(f) {entry} has poisoned flag {poisoned}"));
        }
        Ok(Packet {
            entry,
            length: get(self.tables.length) as u16,
            queue: get(self.tables.queue) as u8,
            destination: get(self.tables.dest) as u8,
            timestamp: get(self.tables.stamp),
            poisoned: poisoned == 1,
            transaction: get(self.tables.transaction) as u8,
            price: get(self.tables.price),
        })
    }
}

/// The ledger that the bytes picture, sound or not; the error says why they
/// picture none, and begins with the broken rule as the model's check does.
pub fn ledger(memory: &[u8]) -> Result<Ledger, String> {
    if memory.len() < SETTINGS_END {
        return Err("(a) too short for settings".into());
    }
    let settings = settings(memory);
    if !settings.in_their_rows() {
        return Err(format!("(a) not in their rows: {settings:?}"));
    }
    let tables = Tables::of(&settings);
    assert_eq!(tables.size, size(&settings));
    if memory.len() < tables.size {
        return Err(format!("(a) {} bytes are too short", memory.len()));
    }
    let reader = Reader { memory, tables };

    let mut ledger = Ledger::starting(settings);
    ledger.map.copy_from_slice(map(memory));
    for (p, at) in ledger.ports.iter_mut().enumerate() {
        let port = p as u32;
        at.last_served = tables.last.get(memory, p);
        at.mark = tables.halted.get(memory, p) as u8;
        for (b, count) in at.buckets.iter_mut().enumerate() {
            *count = tables.buckets.get(memory, tables.bucket(p, b));
        }
        at.free = reader.list(ListKind::Free { port })?;
        at.ingress = reader.list(ListKind::Ingress { port })?;
        for q in 0..tables.queues {
            let queue = q as u32;
            at.egress[q] = reader.list(ListKind::Egress { port, queue })?;
            at.prefetch[q] = reader.list(ListKind::Prefetch { port, queue })?;
            if q > 0 {
                at.arrival_credit[q] = tables.arrival.get(memory, tables.credit_cell(p, q));
                at.outward_credit[q] = tables.outward.get(memory, tables.credit_cell(p, q));
            }
        }
    }
    // A free node's record is not read.
    let recorded: Vec<u16> = ledger
        .lists()
        .filter(|(kind, _)| !matches!(kind, ListKind::Free { .. }))
        .flat_map(|(_, list)| list.iter().copied())
        .collect();
    for entry in recorded {
        let packet = reader.packet(entry)?;
        let owner = model::ledger::owner(entry);
        ledger.ports[owner].packets[model::ledger::index(entry)] = Some(packet);
    }
    Ok(ledger)
}

/// A model on the ledger that the bytes picture; the error says why they are
/// no switch state.
pub fn judged(memory: &[u8]) -> Result<Model, String> {
    let model = Model::with_ledger(memory.len(), ledger(memory)?);
    model.check()?;
    Ok(model)
}

#[cfg(test)]
mod tests {
    use super::*;

    #[test]
    fn zero_bytes_are_no_state() {
        for len in [0, 1, 15, 16, 4510, 6668, 65_536] {
            assert!(judged(&vec![0; len]).is_err());
        }
    }
}
