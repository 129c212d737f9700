//! The six calls. Each tests its refusals in the papers' order before it changes
//! anything.

use crate::form::Label;
use crate::lists::{Node, Nodes};
use crate::settings::Refusal;
use crate::{Lean, Port, Queue, DESTINATIONS, ENTRIES_PER_PORT};

/// What a stitch answers.
#[derive(Debug, Clone, Copy, PartialEq, Eq)]
pub struct Record {
    pub entry: u16,
    pub length: u16,
    pub queue: u8,
    /// The port to which it was stitched.
    pub port: u8,
    pub timestamp: u32,
}

/// What leaves in a turn.
#[derive(Debug, Clone, Copy, PartialEq, Eq)]
pub struct Packet {
    pub entry: u16,
    pub length: u16,
    pub queue: u8,
    pub destination: u8,
    pub timestamp: u32,
    pub poisoned: bool,
    pub transaction: u8,
    pub price: u16,
}

impl<const EARLY_OUT: bool> Lean<EARLY_OUT> {
    /// Answers the entry id.
    #[inline]
    pub fn arrive(&mut self, port: u32, header: &[u8]) -> Result<u16, Refusal> {
        let at = port_of(&mut self.ports, port)?;
        let label = match self.form.judged(port, header) {
            Ok(label) => label,
            Err(refusal) => {
                at.halt_after(refusal);
                return Err(refusal);
            }
        };
        let price = price_of(&label, self.beat_shift);
        let queue = &mut at.queues[usize::from(label.queue)];
        let halted = at.mark != 0 && label.queue > 0;
        if halted || price > queue.arrival_credit {
            return Err(Refusal::NoCredit);
        }
        if at.free.is_empty() {
            return Err(Refusal::NoFreeNode);
        }
        queue.arrival_credit -= price;
        let node = at.free.take(&self.nodes);
        let entry = self.nodes[node].entry;
        self.nodes[node] = recorded(entry, &label, price);
        at.ingress.append(&mut self.nodes, node);
        Ok(entry)
    }

    #[inline]
    pub fn stitch(&mut self, port: u32) -> Result<Record, Refusal> {
        let at = port_of(&mut self.ports, port)?;
        if at.ingress.is_empty() {
            return Err(Refusal::NothingThere);
        }
        let node = at.ingress.take(&self.nodes);
        let packet = self.nodes[node];
        // The map is read now, not on arrival.
        let mapped = self.map[usize::from(packet.destination)];
        let queue = &mut self.ports[usize::from(mapped)].queues[usize::from(packet.queue)];
        queue.egress.append(&mut self.nodes, node);
        Ok(Record {
            entry: packet.entry,
            length: packet.length,
            queue: packet.queue,
            port: mapped,
            timestamp: packet.timestamp,
        })
    }

    /// Answers the entry id.
    #[inline]
    pub fn prefetch(&mut self, port: u32, queue: u32) -> Result<u16, Refusal> {
        let at = port_of(&mut self.ports, port)?;
        if queue >= self.queues {
            return Err(Refusal::NoQueue);
        }
        let queue = &mut at.queues[queue as usize];
        if queue.egress.is_empty() {
            return Err(Refusal::NothingThere);
        }
        if queue.prefetch.count() >= self.slots {
            return Err(Refusal::SlotsInUse);
        }
        let node = queue.egress.take(&self.nodes);
        queue.prefetch.append(&mut self.nodes, node);
        Ok(self.nodes[node].entry)
    }

    #[inline]
    pub fn credit(&mut self, port: u32, queue: u32, amount: u32) -> Result<(), Refusal> {
        let at = port_of(&mut self.ports, port)?;
        if queue == 0 || queue >= self.queues {
            return Err(Refusal::NoQueue);
        }
        let held = &mut at.queues[queue as usize].outward_credit;
        let amount = u16::try_from(amount).map_err(|_| Refusal::TooMuchCredit)?;
        *held = held.checked_add(amount).ok_or(Refusal::TooMuchCredit)?;
        Ok(())
    }

    #[inline]
    pub fn map(&mut self, id: u32, port: u32) -> Result<(), Refusal> {
        if id as usize >= DESTINATIONS {
            return Err(Refusal::NoSuchId);
        }
        port_of(&mut self.ports, port)?;
        self.map[id as usize] = port as u8;
        Ok(())
    }

    /// Answers the packet that leaves; none where the turn is idle.
    #[inline]
    pub fn turn(&mut self, port: u32) -> Result<Option<Packet>, Refusal> {
        let at = port_of(&mut self.ports, port)?;
        let queues = self.queues as usize;
        let chosen = match EARLY_OUT {
            true => at.first_ready(&self.nodes, queues),
            false => pick(at.ready_word(&self.nodes, queues), at.last_served),
        };
        let q = match chosen {
            Some(q) => q,
            None => return Ok(None),
        };
        let queue = &mut at.queues[q];
        let node = queue.prefetch.take(&self.nodes);
        let packet = self.nodes[node];
        queue.outward_credit -= packet.price;
        at.last_served = q as u8;
        // Node and price go home to the owner.
        let owner = &mut self.ports[usize::from(packet.entry) / ENTRIES_PER_PORT as usize];
        owner.queues[q].arrival_credit += packet.price;
        owner.free.append(&mut self.nodes, node);
        Ok(Some(sent(&packet)))
    }
}

#[inline]
fn port_of(ports: &mut [Port], port: u32) -> Result<&mut Port, Refusal> {
    ports.get_mut(port as usize).ok_or(Refusal::NoPort)
}

/// The length in beats, rounded up; queue 0 is free.
#[inline]
fn price_of(label: &Label, beat_shift: u32) -> u16 {
    let beats = (u32::from(label.length) + (1 << beat_shift) - 1) >> beat_shift;
    match label.queue {
        0 => 0,
        _ => beats as u16,
    }
}

#[inline]
fn recorded(entry: u16, label: &Label, price: u16) -> Node {
    Node {
        next: 0,
        entry,
        length: label.length,
        price,
        timestamp: label.timestamp,
        queue: label.queue,
        destination: label.destination,
        transaction: label.transaction,
        poisoned: label.poisoned,
    }
}

#[inline]
fn sent(node: &Node) -> Packet {
    Packet {
        entry: node.entry,
        length: node.length,
        queue: node.queue,
        destination: node.destination,
        timestamp: node.timestamp,
        poisoned: node.poisoned,
        transaction: node.transaction,
        price: node.price,
    }
}

/// The lowest set bit above the last served queue or, if there is none, the lowest
/// set bit of all.
#[inline]
fn pick(word: u64, last_served: u8) -> Option<usize> {
    let above = word & (u64::MAX << last_served << 1);
    match (above, word) {
        (0, 0) => None,
        (0, _) => Some(word.trailing_zeros() as usize),
        _ => Some(above.trailing_zeros() as usize),
    }
}

impl Port {
    /// A header that lies halts the port where it arrives; the first mark stays.
    fn halt_after(&mut self, refusal: Refusal) {
        let lies = matches!(refusal, Refusal::Checksum | Refusal::Source);
        if lies && self.mark == 0 {
            self.mark = refusal.number();
        }
    }

    #[inline]
    fn first_ready(&self, nodes: &Nodes, queues: usize) -> Option<usize> {
        let above = usize::from(self.last_served) + 1;
        let ready = |queue: &Queue| queue.is_ready(nodes);
        let queues = &self.queues[..queues];
        match queues[above..].iter().position(ready) {
            Some(further) => Some(above + further),
            None => queues[..above].iter().position(ready),
        }
    }

    /// Bit q for queue q. By itself its loop is better code than inside a run.
    #[inline(never)]
    fn ready_word(&self, nodes: &Nodes, queues: usize) -> u64 {
        let queues = self.queues[..queues].iter().enumerate();
        queues.fold(0, |word, (q, queue)| {
            word | u64::from(queue.is_ready(nodes)) << q
        })
    }
}

impl Queue {
    /// Queue 0 needs no word of its own: its price and its credit are 0.
    #[inline]
    fn is_ready(&self, nodes: &Nodes) -> bool {
        !self.prefetch.is_empty() && nodes[self.prefetch.oldest()].price <= self.outward_credit
    }
}
