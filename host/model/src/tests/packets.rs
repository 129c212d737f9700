//! Whole packets.

use crate::{size, Call, Ledger, ListKind, Model, Part, Reply, Settings, Stop};

use super::{hex, written, written_fully, Desk, ACCEPTED_HEADER, SMALL};

const KEEPING: Settings = SMALL.with_packets();
/// The bytes of a packet memory of SMALL's eight nodes.
const LENT: usize = 8 * 8192;

/// A packet of this header, and behind it bytes of which none is like the next.
fn whole(header: &[u8; 10], bytes: usize) -> Vec<u8> {
    let data = (10..bytes).map(|at| (41 * at + 7) as u8);
    header.iter().copied().chain(data).collect()
}

/// A right one from port p to destination 0.
fn packet(port: u64, queue: u64, length: u64) -> Vec<u8> {
    whole(&written(0, port, queue, length), length as usize)
}

impl Desk {
    fn arrive_whole(&mut self, port: u32, packet: &[u8]) -> Reply {
        self.arrive_lent(port, packet, LENT)
    }

    fn arrive_lent(&mut self, port: u32, packet: &[u8], lent: usize) -> Reply {
        let packet = packet.to_vec();
        self.call(Call::ArrivePacket { port, packet, lent })
    }

    fn show(&mut self, port: u32, queue: u32) -> Reply {
        self.show_lent(port, queue, [LENT; 4])
    }

    fn show_lent(&mut self, port: u32, queue: u32, lent: [usize; 4]) -> Reply {
        self.call(Call::Show { port, queue, lent })
    }

    /// Port p's packet memory, which was all A7 bytes at first.
    fn memory(&self, port: u32) -> Vec<u8> {
        let mut memory = vec![0xA7; LENT];
        for (from, bytes) in self.0.stored().of_port(port) {
            memory[from..from + bytes.len()].copy_from_slice(bytes);
        }
        memory
    }
}

fn shown(owner: u32, at: u64, length: u32) -> Reply {
    Reply::Shown(Part { owner, at, length })
}

/// The same ledger as after the header alone, but for the setting.
#[test]
fn a_whole_packet_does_what_its_header_does() {
    let mut headers = Desk::new(SMALL);
    let mut whole = Desk::new(KEEPING);
    for (port, queue, length) in [(0, 0, 12), (3, 5, 100), (0, 23, 64), (0, 1, 65)] {
        let packet = packet(port, queue, length);
        let reply = headers.arrive(port as u32, &packet[..10]);
        assert!(matches!(reply, Reply::Entry(_)));
        assert_eq!(whole.arrive_whole(port as u32, &packet), reply);
        let mut ledger = whole.ledger().clone();
        ledger.settings = SMALL;
        assert_eq!(ledger, *headers.ledger());
    }
}

#[test]
fn a_packet_stands_at_the_start_of_its_nodes_slot() {
    for length in [12, 13, 63, 64, 65, 1000, 8190, 8191] {
        let mut desk = Desk::new(Settings {
            credit: 300,
            ..KEEPING
        });
        let first = packet(2, 0, 12);
        let second = packet(2, 7, length);
        assert_eq!(desk.arrive_whole(2, &first), Reply::Entry(4096));
        assert_eq!(desk.arrive_whole(2, &second), Reply::Entry(4097));
        let mut wanted = vec![0xA7; LENT];
        wanted[..12].copy_from_slice(&first);
        wanted[8192..8192 + second.len()].copy_from_slice(&second);
        assert_eq!(desk.memory(2), wanted);
        for other in [0, 1, 3] {
            assert_eq!(desk.memory(other), [0xA7; LENT]);
        }
    }
}

/// The rest of the slot stays as a longer packet has left it, and after setup too.
#[test]
fn a_shorter_packet_leaves_the_rest_of_the_slot() {
    let mut desk = Desk::new(Settings {
        nodes: 1,
        ..KEEPING
    });
    let long = packet(0, 0, 300);
    assert_eq!(desk.arrive_lent(0, &long, 8192), Reply::Entry(0));
    desk.stitch(0);
    desk.prefetch(0, 0);
    assert!(matches!(desk.turn(0), Reply::Leaves(..)));
    let short = packet(0, 3, 20);
    assert_eq!(desk.arrive_lent(0, &short, 8192), Reply::Entry(0));
    let left = [&short[..], &long[20..]].concat();
    assert_eq!(desk.memory(0)[..300], left);
    assert_eq!(desk.memory(0)[300..], [0xA7; LENT - 300]);
    desk.setup(KEEPING);
    assert_eq!(desk.memory(0)[..300], left);
}

/// From port 3 to port 1: shown from the memory of the port that owns it, until
/// it has left.
#[test]
fn the_oldest_in_the_slots_is_shown() {
    let mut desk = Desk::new(KEEPING);
    desk.map(0, 1);
    for length in [100, 200, 300] {
        desk.arrive_whole(3, &packet(3, 5, length));
        assert_eq!(desk.show(1, 5), Reply::Refused(12));
    }
    for _ in 0..3 {
        desk.stitch(3);
        // In egress there is nothing to show yet.
        assert_eq!(desk.show(1, 5), Reply::Refused(12));
    }
    desk.credit(1, 5, 100);
    for (node, length) in [(0, 100), (1, 200), (2, 300)] {
        desk.prefetch(1, 5);
        assert_eq!(desk.show(1, 5), shown(3, 8192 * node, length));
        // Nor is it another port's or queue's.
        for (port, queue) in [(3, 5), (0, 5), (1, 4), (1, 6), (1, 0)] {
            assert_eq!(desk.show(port, queue), Reply::Refused(12));
        }
        desk.turn(1);
        assert_eq!(desk.show(1, 5), Reply::Refused(12));
    }
    // Two at once, of two owners: the older one.
    for port in [2, 3] {
        desk.arrive_whole(port, &packet(port.into(), 0, 40));
        desk.stitch(port);
        desk.prefetch(1, 0);
    }
    assert_eq!(desk.show(1, 0), shown(2, 0, 40));
    desk.turn(1);
    assert_eq!(desk.show(1, 0), shown(3, 3 * 8192, 40));
}

/// Node 2,047 of port 3: entry 8,191.
#[test]
fn the_last_slot_of_the_largest_memory() {
    let settings = Settings {
        nodes: 2048,
        ..KEEPING
    };
    let mut model = Model::new(size(&settings));
    model.call(&Call::Setup(settings));
    let mut accepted = |call| match model.call(&call) {
        Reply::Refused(number) => panic!("{call:?} is refused {number}"),
        reply => reply,
    };
    let lent = 2048 * 8192;
    for node in 0..2048 {
        let (port, packet) = (3, packet(3, 0, 12));
        let reply = accepted(Call::ArrivePacket { port, packet, lent });
        assert_eq!(reply, Reply::Entry(6144 + node));
    }
    let mut last = None;
    for _ in 0..2048 {
        accepted(Call::Stitch { port: 3 });
        accepted(Call::Prefetch { port: 0, queue: 0 });
        last = Some(accepted(Call::Show {
            port: 0,
            queue: 0,
            lent: [lent; 4],
        }));
        accepted(Call::Turn { port: 0 });
    }
    assert_eq!(last, Some(shown(3, 2047 * 8192, 12)));
}

/// All faults at once, then one taken away after the other.
#[test]
fn a_whole_packet_is_tested_in_the_papers_order() {
    let mut desk = Desk::new(Settings {
        nodes: 1,
        credit: 2,
        ..SMALL
    });
    let refused =
        |desk: &mut Desk, port, packet: &[u8], lent| match desk.arrive_lent(port, packet, lent) {
            Reply::Refused(number) => number,
            other => panic!("{other:?}"),
        };
    let none = &[0xFF; 9][..];
    assert_eq!(refused(&mut desk, 4, none, 8191), 24);
    desk.setup(Settings {
        nodes: 1,
        credit: 2,
        ..KEEPING
    });
    let shortest = packet(0, 0, 12);
    assert_eq!(desk.arrive_lent(0, &shortest, 8192), Reply::Entry(0));
    for lent in [0, 1, 8191, 8193, 2 * 8192, 8192 + 65_536, usize::MAX] {
        assert_eq!(refused(&mut desk, 4, none, lent), 17);
        assert_eq!(refused(&mut desk, 0, &shortest, lent), 17);
    }
    for port in [4, 5, 256, 65_536, u32::MAX] {
        assert_eq!(refused(&mut desk, port, none, 8192), 4);
    }
    for bytes in 0..10 {
        assert_eq!(refused(&mut desk, 0, &[0xFF; 10][..bytes], 8192), 16);
    }
    for queue in 24..32 {
        let faulty = |source, length, flags, bytes| {
            whole(
                &written_fully(0, source, queue, length, flags, 0, 0, 0),
                bytes,
            )
        };
        let mut wrong_sum = faulty(1, 11, 0b01, 10);
        wrong_sum[9] ^= 1;
        assert_eq!(refused(&mut desk, 0, &wrong_sum, 8192), 7);
        assert_eq!(refused(&mut desk, 0, &faulty(1, 11, 0b01, 10), 8192), 20);
        assert_eq!(refused(&mut desk, 0, &faulty(1, 11, 0b10, 10), 8192), 8);
        assert_eq!(refused(&mut desk, 0, &faulty(0, 11, 0, 10), 8192), 9);
        for bytes in [10, 11, 12, 76, 78, 8191, 8192, 77 + 8192, 77 + 65_536] {
            assert_eq!(refused(&mut desk, 0, &faulty(0, 77, 0, bytes), 8192), 16);
        }
        assert_eq!(refused(&mut desk, 0, &faulty(0, 77, 0, 77), 8192), 19);
    }
    // The first 7 has halted the port: 10 before 11, whatever the price, until it is cleared.
    assert_eq!(refused(&mut desk, 0, &packet(0, 3, 128), 8192), 10);
    assert_eq!(refused(&mut desk, 0, &shortest, 8192), 11);
    desk.clear(0);
    assert_eq!(refused(&mut desk, 0, &packet(0, 3, 129), 8192), 10);
    assert_eq!(refused(&mut desk, 0, &packet(0, 3, 128), 8192), 11);
}

#[test]
fn a_show_is_tested_in_the_papers_order() {
    let mut desk = Desk::new(SMALL);
    assert_eq!(desk.show_lent(4, 24, [1; 4]), Reply::Refused(24));
    assert_eq!(desk.show(0, 0), Reply::Refused(24));
    desk.setup(KEEPING);
    for wrong in [0, LENT - 1, LENT + 1, LENT - 8192, LENT + 8192, 8] {
        for place in 0..4 {
            let mut lent = [LENT; 4];
            lent[place] = wrong;
            assert_eq!(desk.show_lent(4, 24, lent), Reply::Refused(17));
        }
    }
    for port in [4, 5, 256, 65_536, u32::MAX] {
        assert_eq!(desk.show(port, 24), Reply::Refused(4));
    }
    for queue in [24, 25, 31, 32, 256, 65_536, u32::MAX] {
        assert_eq!(desk.show(0, queue), Reply::Refused(5));
    }
    for queue in 0..24 {
        assert_eq!(desk.show(0, queue), Reply::Refused(12));
    }
}

/// A header alone is refused before anything is looked at, in a run too.
#[test]
fn a_header_alone_is_of_the_other_kind() {
    let mut desk = Desk::new(KEEPING);
    for header in [&ACCEPTED_HEADER[..], &[0xFF; 9], &[0xFF; 10], &[]] {
        for port in [0, 1, 4] {
            assert_eq!(desk.arrive(port, header), Reply::Refused(24));
        }
    }
    assert_eq!(desk.report(0), Reply::Mark(0));
    desk.arrive_whole(0, &packet(0, 0, 12));
    let fields = hex("02 000B 00 00003000000000000072 03 0001 00 04 0002 00 00 05 0001 00 02 000A");
    let mut answers = [9; 20];
    let ran = desk.0.run(&fields, &mut answers).unwrap();
    assert_eq!((ran.count, ran.why), (4, Stop::BadField));
    let wanted = "18000000 00000000 00000000 00000000 09090909";
    assert_eq!(answers[..], hex(wanted));
}

/// 7 and 8 mark the port, the first if several, and no other refusal does.
#[test]
fn whole_packets_that_lie_halt_their_port() {
    let mut desk = Desk::new(KEEPING);
    let mut wrong_sum = packet(1, 3, 100);
    wrong_sum[9] ^= 1;
    let wrong_source = packet(2, 3, 100);
    let wrong_count = &packet(1, 3, 100)[..99];
    assert_eq!(desk.arrive_whole(1, wrong_count), Reply::Refused(16));
    assert_eq!(desk.arrive_lent(1, &wrong_sum, 0), Reply::Refused(17));
    assert_eq!(desk.report(1), Reply::Mark(0));
    assert_eq!(desk.arrive_whole(1, &wrong_source), Reply::Refused(8));
    assert_eq!(desk.arrive_whole(1, &wrong_sum), Reply::Refused(7));
    assert_eq!(desk.report(1), Reply::Mark(8));
    assert_eq!(desk.arrive_whole(1, &packet(1, 3, 100)), Reply::Refused(10));
    let free = packet(1, 0, 100);
    assert_eq!(desk.arrive_whole(1, &free), Reply::Entry(2048));
    // A data byte is no part of the header.
    let mut other_data = packet(2, 3, 100);
    other_data[10] ^= 1;
    assert_eq!(desk.arrive_whole(2, &other_data), Reply::Entry(4096));
}

#[test]
fn all_else_is_as_with_headers() {
    let mut desk = Desk::new(KEEPING);
    desk.map(1, 2);
    desk.arrive_whole(1, &whole(&written(1, 1, 4, 77), 77));
    desk.credit(2, 4, 2);
    assert_eq!(desk.round(), [None, None, Some(2048), None]);
    desk.arrive_whole(0, &packet(0, 0, 12));
    let ingress = ListKind::Ingress { port: 0 };
    assert_eq!(desk.place(0), Reply::Found(ingress, 0));
    let map = desk.ledger().map.clone();
    let repaired = Ledger::repaired(desk.ledger().settings, &map);
    assert_eq!(repaired.settings, KEEPING);
    let model = Model::with_ledger(size(&KEEPING), repaired);
    assert_eq!(model.check(), Ok(()));
}
