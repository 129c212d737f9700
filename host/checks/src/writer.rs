//! A writer of the state's bytes: the image of a model's ledger, by
//! docs/LAYOUT.md alone.

use model::{Ledger, Packet, Settings};

use crate::finding::{self, Finding};
use crate::reader;
use crate::tables::{Tables, MAPPED, SETTING};

/// The bytes that picture a ledger; those that the picture does not read are 0.
pub fn image(ledger: &Ledger) -> Vec<u8> {
    let tables = Tables::of(&ledger.settings);
    let mut memory = vec![0; tables.size];
    for (i, number) in row(&ledger.settings).into_iter().enumerate() {
        SETTING.set(&mut memory, i, number);
    }
    for (id, &port) in ledger.map.iter().enumerate() {
        MAPPED.set(&mut memory, id, port.into());
    }
    for (port, at) in ledger.ports.iter().enumerate() {
        tables.last.set(&mut memory, port, at.last_served);
        tables.halted.set(&mut memory, port, at.mark.into());
        for (b, &count) in at.buckets.iter().enumerate() {
            let bucket = tables.bucket(port, b);
            tables.buckets.set(&mut memory, bucket, count);
        }
        for queue in 1..tables.queues {
            let cell = tables.credit_cell(port, queue);
            tables
                .arrival
                .set(&mut memory, cell, at.arrival_credit[queue]);
            tables
                .outward
                .set(&mut memory, cell, at.outward_credit[queue]);
        }
        for packet in at.packets.iter().flatten() {
            record(&tables, &mut memory, packet);
        }
    }
    for (kind, list) in ledger.lists() {
        let of: Vec<u32> = list.iter().map(|&entry| entry.into()).collect();
        tables.set_nodes(&mut memory, tables.list(kind), &of);
    }
    memory
}

/// The settings in the memory's order.
pub fn row(settings: &Settings) -> [u32; 8] {
    [
        settings.ports,
        settings.queues,
        settings.nodes,
        settings.beat,
        settings.slots,
        settings.credit,
        settings.edition,
        settings.packets,
    ]
}

fn record(tables: &Tables, memory: &mut [u8], packet: &Packet) {
    let slot = tables.slot(packet.entry.into());
    for (table, number) in [
        (tables.length, packet.length.into()),
        (tables.stamp, packet.timestamp),
        (tables.queue, packet.queue.into()),
        (tables.dest, packet.destination.into()),
        (tables.poisoned, packet.poisoned.into()),
        (tables.transaction, packet.transaction.into()),
        (tables.price, packet.price),
    ] {
        table.set(memory, slot, number);
    }
}

/// The bytes that setup writes.
pub fn starting(settings: Settings) -> Vec<u8> {
    image(&Ledger::starting(settings))
}

/// The bytes that a repair leaves of any bytes; none if it is refused, where
/// they break rule (a).
pub fn repaired(memory: &[u8]) -> Option<Vec<u8>> {
    if let Some(Finding { rule: 'a', .. }) = finding::first(memory) {
        return None;
    }
    let ledger = Ledger::repaired(reader::settings(memory), reader::map(memory));
    let mut after = image(&ledger);
    after.extend(&memory[after.len()..]);
    Some(after)
}

#[cfg(test)]
mod tests {
    use model::{size, Call, Model, Reply, Shape};
    use traffic::{plain, Profile, Traffic, SHAPES};

    use super::*;
    use crate::reader::judged;

    #[test]
    fn starting_ledgers_are_read_back() {
        for shape in SHAPES {
            for nodes in [1, 2, 16, 255, 256, 257, 2048] {
                let settings = Settings::of(shape, nodes, 128, 3, 65_535);
                let model = judged(&starting(settings)).unwrap();
                assert_eq!(model.ledger(), Some(&Ledger::starting(settings)));
            }
        }
    }

    /// Byte by byte: two ports, two queues, two nodes, and a packet of each port.
    #[test]
    fn an_image_of_two_ports_and_two_queues() {
        let settings = Settings::wide(2, 2, 2, 64, 1, 9);
        let mut model = Model::new(size(&settings));
        let header = |source, queue| plain(&settings.shape(), 1, source, queue, 130);
        for call in [
            Call::Setup(settings),
            Call::Map { id: 1, port: 1 },
            Call::Map { id: 4095, port: 1 },
            Call::Arrive {
                port: 0,
                header: header(0, 1),
            },
            Call::Stitch { port: 0 },
            Call::Arrive {
                port: 1,
                header: header(1, 0),
            },
            Call::Credit {
                port: 1,
                queue: 1,
                amount: 258,
            },
        ] {
            assert!(!matches!(model.call(&call), Reply::Refused(_)), "{call:?}");
        }
        // A header of port 0's at port 1.
        let lie = Call::Arrive {
            port: 1,
            header: header(0, 1),
        };
        assert_eq!(model.call(&lie), Reply::Refused(8));
        let memory = image(model.ledger().unwrap());
        let wanted_settings = [0, 2, 0, 2, 0, 2, 0, 64, 0, 1, 0, 9, 0, 1, 0, 0];
        assert_eq!(memory[..16], wanted_settings);
        let mut map = [0; 4096];
        (map[1], map[4095]) = (1, 1);
        assert_eq!(memory[16..4112], map);
        let behind = [
            // Last served; marks; arrival credits, one of three beats less; outward credits.
            &[1, 1, 0, 8, 0, 6, 0, 9, 0, 0, 1, 2][..],
            // Buckets, 33 a port.
            &[0; 2 * 33 * 4],
            // Heads, of free, ingress, egress 0 and 1, prefetch 0 and 1 a port.
            &[0, 1, 0, 0, 0, 0, 0, 0, 0, 0, 0, 0],
            &[8, 1, 8, 0, 0, 0, 0, 0, 0, 0, 0, 0],
            // Tails.
            &[0, 1, 0, 0, 0, 0, 0, 0, 0, 0, 0, 0],
            &[8, 1, 8, 0, 0, 0, 0, 0, 0, 0, 0, 0],
            // Counts.
            &[0, 0, 0, 1, 0, 0, 0, 0, 0, 0, 0, 0],
            &[0, 0, 0, 0, 0, 0, 0, 0, 0, 0, 0, 0],
            &[0, 0, 0, 1, 0, 0, 0, 1, 0, 0, 0, 0],
            &[0, 0, 0, 1, 0, 0, 0, 0, 0, 0, 0, 0],
            // Next, lengths, stamps.
            &[0; 8],
            &[0, 130, 0, 0, 0, 130, 0, 0],
            &[0; 16],
            // Queues, destinations, flags, transactions, prices.
            &[1, 0, 0, 0],
            &[1, 0, 1, 0],
            &[0; 4],
            &[0; 4],
            &[3, 0, 0, 0],
        ]
        .concat();
        assert_eq!(memory[4112..], behind);
    }

    /// Ledgers of any traffic, written and read back.
    #[test]
    fn ledgers_of_any_traffic_are_read_back() {
        for shape in SHAPES {
            let nodes = if shape.ports > 8 { 3 } else { 20 };
            let memory_len = size(&Settings::of(shape, nodes, 64, 1, 0));
            for (seed, profile) in (1..).zip(Profile::ALL) {
                let mut model = Model::new(memory_len);
                let mut traffic = Traffic::of(seed, profile, shape);
                for number in 0..1500 {
                    let call = traffic.next(&model);
                    model.call(&call);
                    if let (0, Some(ledger)) = (number % 50, model.ledger()) {
                        let read = judged(&image(ledger)).unwrap();
                        assert_eq!(read.ledger(), Some(ledger), "{shape:?} {profile:?}");
                    }
                }
            }
        }
    }

    #[test]
    fn a_repair_is_the_models() {
        for shape in [Shape::TEN_BYTES, Shape::wide(4, 5)] {
            let settings = Settings::of(shape, 2, 256, 3, 9);
            let mut memory = starting(settings);
            let size = memory.len();
            memory.extend([1, 2, 3]);
            memory[16..20].copy_from_slice(&[3, 4, 1, 255]);
            memory[4111] = 2;
            memory[4112..size].fill(7);
            let after = repaired(&memory).unwrap();
            let mut map = vec![0; 4096];
            map[..4].copy_from_slice(&[3, 4, 1, 255]);
            map[4095] = 2;
            let wanted = Ledger::repaired(settings, &map);
            assert_eq!(judged(&after).unwrap().ledger(), Some(&wanted));
            assert_eq!(after[16..20], [3, 0, 1, 0]);
            assert_eq!(after[size..], [1, 2, 3]);
            assert_eq!(repaired(&after), Some(after));
            assert_eq!(repaired(&memory[..size - 1]), None);
            memory[1] = 33;
            assert_eq!(repaired(&memory), None);
        }
    }
}
