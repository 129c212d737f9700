//! When a ledger is sound: rules (a) to (g) and (i), each gone through over the
//! whole ledger before the next. The message starts with the broken rule's letter.

use crate::ledger::{index, owner};
use crate::{price, size, Ledger, ListKind, Settings, DESTINATIONS, LONGEST, MARKS, MOST_CREDIT};

/// A broken rule ends the check with a message.
macro_rules! rule {
    ($holds:expr, $($message:tt)*) => {
        if !$holds {
            return Err(format!($($message)*));
        }
    };
}

pub fn check(ledger: &Ledger, memory_len: usize) -> Result<(), String> {
    settings(ledger, memory_len)?;
    ranges(ledger)?;
    every_node_once(ledger)?;
    own_nodes(ledger)?;
    queues_of_lists(ledger)?;
    records(ledger)?;
    arrival_credit(ledger)?;
    marks(ledger)
}

/// Rule (a).
fn settings(ledger: &Ledger, memory_len: usize) -> Result<(), String> {
    let s = &ledger.settings;
    rule!(s.in_their_rows(), "(a) a setting not in its row: {s:?}");
    rule!(
        memory_len >= size(s),
        "(a) memory of {memory_len} bytes is too short for {s:?}"
    );
    Ok(())
}

/// Rule (b).
fn ranges(ledger: &Ledger) -> Result<(), String> {
    let Settings { ports, queues, .. } = ledger.settings;
    rule!(
        ledger.map.len() == DESTINATIONS as usize,
        "(b) {} map entries",
        ledger.map.len()
    );
    for (id, &port) in ledger.map.iter().enumerate() {
        rule!(u32::from(port) < ports, "(b) map entry {id} is port {port}");
    }
    for (port, at) in ledger.ports.iter().enumerate() {
        rule!(
            at.last_served < queues,
            "(b) port {port} last served queue {}",
            at.last_served
        );
        for q in 1..queues as usize {
            rule!(
                at.arrival_credit[q] <= MOST_CREDIT,
                "(b) port {port} queue {q} has arrival credit {}",
                at.arrival_credit[q]
            );
            rule!(
                at.outward_credit[q] <= MOST_CREDIT,
                "(b) port {port} queue {q} has outward credit {}",
                at.outward_credit[q]
            );
        }
        for (q, list) in at.prefetch.iter().enumerate() {
            rule!(
                list.len() <= ledger.settings.slots as usize,
                "(b) port {port} queue {q} has {} prefetched",
                list.len()
            );
        }
    }
    Ok(())
}

/// Rule (c): every node of every port stands once in one list, and nothing
/// that is no node stands in any.
fn every_node_once(ledger: &Ledger) -> Result<(), String> {
    let nodes = ledger.settings.nodes as usize;
    let mut seen = vec![vec![0u32; nodes]; ledger.ports.len()];
    for (kind, list) in ledger.lists() {
        for &entry in list {
            let times = seen
                .get_mut(owner(entry))
                .and_then(|of_port| of_port.get_mut(index(entry)));
            match times {
                Some(times) => *times += 1,
                None => return Err(format!("(c) entry {entry} in {kind:?} is no node")),
            }
        }
    }
    for (port, of_port) in seen.iter().enumerate() {
        for (node, &times) in of_port.iter().enumerate() {
            rule!(
                times == 1,
                "(c) node {node} of port {port} stands {times} times"
            );
        }
    }
    Ok(())
}

/// Rule (d).
fn own_nodes(ledger: &Ledger) -> Result<(), String> {
    for (kind, list) in ledger.lists() {
        if let ListKind::Free { port } | ListKind::Ingress { port } = kind {
            for &entry in list {
                rule!(
                    owner(entry) == port as usize,
                    "(d) entry {entry} stands in {kind:?}"
                );
            }
        }
    }
    Ok(())
}

/// Rule (e).
fn queues_of_lists(ledger: &Ledger) -> Result<(), String> {
    for (kind, list) in ledger.lists() {
        if let ListKind::Egress { queue, .. } | ListKind::Prefetch { queue, .. } = kind {
            for &entry in list {
                let recorded = ledger.packet(entry).map(|packet| packet.queue.into());
                rule!(
                    recorded == Some(queue),
                    "(e) entry {entry} of queue {recorded:?} stands in {kind:?}"
                );
            }
        }
    }
    Ok(())
}

/// Rule (f), and that exactly the nodes that aren't free have a record.
fn records(ledger: &Ledger) -> Result<(), String> {
    let shape = ledger.settings.shape();
    let lengths = shape.shortest()..=LONGEST;
    for (kind, list) in ledger.lists() {
        let free = matches!(kind, ListKind::Free { .. });
        for &entry in list {
            let packet = match (ledger.packet(entry), free) {
                (None, true) => continue,
                (Some(packet), false) => packet,
                (packet, _) => return Err(format!("(f) entry {entry} in {kind:?} has {packet:?}")),
            };
            let (length, queue) = (u32::from(packet.length), u32::from(packet.queue));
            rule!(
                packet.entry == entry
                    && lengths.contains(&length)
                    && queue < shape.queues
                    // As wide as the header's field, also where it is no port.
                    && packet.destination >> shape.port_bits() == 0
                    && packet.price == price(length, queue, ledger.settings.beat),
                "(f) entry {entry} records {packet:?}"
            );
        }
    }
    Ok(())
}

/// Rule (g).
fn arrival_credit(ledger: &Ledger) -> Result<(), String> {
    for (port, at) in ledger.ports.iter().enumerate() {
        // By queue, of this port's nodes wherever they stand.
        let mut out = vec![0; at.arrival_credit.len()];
        for packet in at.packets.iter().flatten() {
            out[usize::from(packet.queue)] += packet.price;
        }
        for queue in 1..out.len() {
            let (held, out) = (at.arrival_credit[queue], out[queue]);
            rule!(
                held + out == ledger.settings.credit,
                "(g) port {port} queue {queue}: arrival credit {held} and prices {out} aren't {}",
                ledger.settings.credit
            );
        }
    }
    Ok(())
}

/// Rule (i).
fn marks(ledger: &Ledger) -> Result<(), String> {
    for (port, at) in ledger.ports.iter().enumerate() {
        rule!(
            MARKS.contains(&at.mark),
            "(i) port {port} has mark {}",
            at.mark
        );
    }
    Ok(())
}
