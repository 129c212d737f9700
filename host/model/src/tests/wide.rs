//! Switches with the wide headers: from 2 to 32 ports and from 2 to 64 queues.

use super::{digits, remainder, Desk};
use crate::header::{read, write, Header};
use crate::ledger::pick;
use crate::{size, Call, Ledger, ListKind, Model, Packet, Reply, Settings, Shape, Side};

/// Ports, queues, the widths of their fields, the reserved bits behind them and
/// the header's size.
type Row = (u32, u32, usize, usize, usize, usize);

const ROWS: [Row; 14] = [
    (4, 24, 2, 5, 1, 11),
    (8, 16, 3, 4, 0, 11),
    (16, 32, 4, 5, 5, 12),
    (32, 64, 5, 6, 2, 12),
    (2, 2, 1, 1, 7, 11),
    (2, 3, 1, 2, 6, 11),
    (3, 5, 2, 3, 3, 11),
    (5, 17, 3, 5, 7, 12),
    (2, 64, 1, 6, 2, 11),
    (32, 2, 5, 1, 7, 12),
    (7, 33, 3, 6, 6, 12),
    (17, 24, 5, 5, 3, 12),
    (31, 63, 5, 6, 2, 12),
    (9, 4, 4, 2, 0, 11),
];

/// A header of a row's widths, digit by digit; each value must fit.
fn spelt(row: Row, header: &Header, reserved: u64) -> Vec<u8> {
    let (.., port, queue, spare, _) = row;
    digits(&[
        (header.destination.into(), port),
        (header.source.into(), port),
        (header.queue.into(), queue),
        (header.length.into(), 13),
        (header.poisoned.into(), 1),
        (reserved, spare),
        (header.timestamp.into(), 32),
        (header.credit.into(), 16),
        (header.transaction.into(), 8),
    ])
}

fn shape(row: Row) -> Shape {
    Shape::wide(row.0, row.1)
}

/// A header of the shape with the least length, all else 0.
fn least(shape: &Shape) -> Header {
    Header {
        length: shape.shortest(),
        ..Header::default()
    }
}

/// With the most in every field.
fn most(row: Row) -> Header {
    Header {
        destination: (1 << row.2) - 1,
        source: (1 << row.2) - 1,
        queue: row.1 - 1,
        length: 8191,
        poisoned: 1,
        timestamp: u32::MAX,
        credit: 65_535,
        transaction: 255,
    }
}

/// What a header's fields are called, to set one of them.
type Field = fn(&mut Header) -> &mut u32;

const FIELDS: [Field; 8] = [
    |header| &mut header.destination,
    |header| &mut header.source,
    |header| &mut header.queue,
    |header| &mut header.length,
    |header| &mut header.poisoned,
    |header| &mut header.timestamp,
    |header| &mut header.credit,
    |header| &mut header.transaction,
];

/// A desk of few nodes and the header of port 0's shortest packet.
fn desk(shape: Shape) -> (Desk, Vec<u8>) {
    let desk = Desk::new(Settings::of(shape, 3, 64, 2, 200));
    (desk, write(&shape, &least(&shape)).unwrap())
}

// The header.

#[test]
fn headers_have_the_published_sizes() {
    assert_eq!(Shape::TEN_BYTES.header_bytes(), 10);
    assert_eq!(Shape::TEN_BYTES.shortest(), 12);
    for row in ROWS {
        let (ports, queues, port, queue, spare, bytes) = row;
        let shape = Shape::wide(ports, queues);
        assert_eq!(shape.port_bits() as usize, port, "{row:?}");
        assert_eq!(shape.queue_bits() as usize, queue, "{row:?}");
        assert_eq!(shape.reserved_bits() as usize, spare, "{row:?}");
        assert_eq!(shape.header_bytes(), bytes, "{row:?}");
        assert_eq!(shape.shortest() as usize, bytes + 2, "{row:?}");
        assert_eq!(spelt(row, &least(&shape), 0).len(), bytes);
    }
}

/// Every shape: a front of three or four bytes, and eight behind it.
#[test]
fn every_shape_has_a_header() {
    for (ports, queues) in (2..=32).flat_map(|p| (2..=64).map(move |q| (p, q))) {
        let shape = Shape::wide(ports, queues);
        let front = 2 * shape.port_bits() + shape.queue_bits() + 14;
        assert!(1 << shape.port_bits() >= ports && 1 << (shape.port_bits() - 1) < ports);
        assert!(1 << shape.queue_bits() >= queues && 1 << (shape.queue_bits() - 1) < queues);
        let wanted = if front > 24 { 12 } else { 11 };
        assert_eq!(shape.header_bytes(), wanted);
    }
}

/// One bit for destination, source and queue each.
#[test]
fn a_header_of_two_ports_and_two_queues() {
    let shape = Shape::wide(2, 2);
    let header = Header {
        destination: 1,
        source: 0,
        queue: 1,
        length: 13,
        poisoned: 1,
        timestamp: 0x0102_0304,
        credit: 0x0506,
        transaction: 7,
    };
    // 1 0 1 0000000001101 1 0000000
    let mut bytes = vec![0xA0, 0x0D, 0x80, 1, 2, 3, 4, 5, 6, 7];
    bytes.push(remainder(&bytes));
    assert_eq!(write(&shape, &header).unwrap(), bytes);
    assert_eq!(read(&shape, &bytes), Ok(header));
}

#[test]
fn headers_are_read_and_written_as_spelt() {
    for row in ROWS {
        let shape = shape(row);
        let (least, most) = (least(&shape), most(row));
        // The least and the most, and each with a field of the other.
        let mut headers = vec![least, most];
        for field in FIELDS {
            for (mut header, mut other) in [(least, most), (most, least)] {
                *field(&mut header) = *field(&mut other);
                headers.push(header);
            }
        }
        for header in headers {
            let bytes = spelt(row, &header, 0);
            assert_eq!(write(&shape, &header), Ok(bytes.clone()), "{row:?}");
            assert_eq!(read(&shape, &bytes), Ok(header), "{row:?}");
        }
    }
}

/// Any bytes with a right checksum: what the reader takes, the writer writes.
#[test]
fn reader_and_writer_undo_each_other() {
    let mut seed = 5u64;
    let mut next = || {
        seed = seed.wrapping_mul(6364136223846793005).wrapping_add(1);
        (seed >> 33) as u8
    };
    let mut taken = 0;
    for row in ROWS.into_iter().cycle().take(20_000) {
        let shape = shape(row);
        let mut bytes: Vec<u8> = (1..row.5).map(|_| next()).collect();
        if next() % 2 == 0 {
            // Mostly one of the reserved bits is set, else.
            let front = (2 * row.2 + row.3 + 14) / 8;
            bytes[front] &= !((1 << row.4) - 1) as u8;
        }
        bytes.push(remainder(&bytes));
        if let Ok(header) = read(&shape, &bytes) {
            assert_eq!(write(&shape, &header), Ok(bytes));
            taken += 1;
        }
    }
    assert!(taken > 2000, "{taken}");
}

#[test]
fn the_reader_tests_in_its_order() {
    for row in ROWS {
        let shape = shape(row);
        let (mut none, beyond) = (shape, 1u64 << row.3);
        none.edition = 2;
        let no_queue = beyond > row.1.into();
        let faulty = Header {
            // Where the field has no room for a queue that isn't there, none.
            queue: if no_queue { row.1 } else { 0 },
            length: shape.shortest() - 1,
            // No port where the field has room for more.
            source: (1 << row.2) - 1,
            ..Header::default()
        };
        let reserved = u64::from(row.4 > 0);
        let mut wrong_sum = spelt(row, &faulty, reserved);
        wrong_sum[3] ^= 1;
        assert_eq!(read(&none, &[]), Err(2));
        for bytes in (0..=40).filter(|&bytes| bytes != row.5) {
            wrong_sum.resize(bytes, 0xFF);
            assert_eq!(read(&none, &wrong_sum), Err(2));
            assert_eq!(read(&shape, &wrong_sum), Err(6), "{row:?}");
        }
        let mut wrong_sum = spelt(row, &faulty, reserved);
        wrong_sum[3] ^= 1;
        assert_eq!(read(&shape, &wrong_sum), Err(7));
        for bit in 0..row.4 {
            let bytes = spelt(row, &faulty, 1 << bit);
            assert_eq!(read(&shape, &bytes), Err(20), "{row:?}");
        }
        assert_eq!(read(&shape, &spelt(row, &faulty, 0)), Err(9));
        let long = Header {
            length: shape.shortest(),
            ..faulty
        };
        let wanted = if no_queue { Err(19) } else { Ok(long) };
        assert_eq!(read(&shape, &spelt(row, &long, 0)), wanted);
    }
}

#[test]
fn the_writer_refuses_exactly_what_does_not_fit() {
    for row in ROWS {
        let shape = shape(row);
        let (least, most) = (least(&shape), most(row));
        for (number, field) in FIELDS.into_iter().enumerate() {
            let top = *field(&mut most.clone());
            for value in [top.wrapping_add(1), 1 << 16, 1 << 24, u32::MAX] {
                let mut header = least;
                *field(&mut header) = value;
                // A timestamp is any number.
                let wanted = if number == 5 { Ok(()) } else { Err(21) };
                assert_eq!(write(&shape, &header).map(|_| ()), wanted, "{row:?}");
            }
        }
        for length in [0, 1, shape.shortest() - 1] {
            let short = Header { length, ..least };
            assert_eq!(write(&shape, &short), Err(21));
        }
        // 2 is tested before 21.
        let none = Shape::wide(33, row.1);
        assert_eq!(write(&none, &Header::default()), Err(2));
        assert_eq!(write(&none, &least), Err(2));
    }
}

#[test]
fn editions_ports_and_queues_have_their_rows() {
    let huge = [255, 256, 65_536 + 4, u32::MAX];
    let mut desk = Desk(Model::new(200_000));
    for edition in [0, 1, 2, 255, 256, 65_536, u32::MAX] {
        for ports in (0..=40).chain(huge) {
            for queues in (0..=70).chain(huge) {
                let shape = Shape {
                    edition,
                    ports,
                    queues,
                };
                let good = match edition {
                    0 => (ports, queues) == (4, 24),
                    1 => (2..=32).contains(&ports) && (2..=64).contains(&queues),
                    _ => false,
                };
                let settings = Settings::of(shape, 1, 64, 1, 0);
                assert_eq!(settings.shape(), shape);
                assert_eq!(settings.in_their_rows(), good, "{shape:?}");
                let reads = read(&shape, &[]).unwrap_err();
                assert_eq!(reads, if good { 6 } else { 2 });
                let writes = write(&shape, &Header::default()).unwrap_err();
                assert_eq!(writes, if good { 21 } else { 2 });
                if !good {
                    assert_eq!(desk.0.call(&Call::Setup(settings)), Reply::Refused(2));
                }
            }
        }
    }
    // Of the ten-byte edition alone one that keeps packets.
    let ten = Settings::ten_bytes(1, 64, 1, 0);
    let wide = Settings::wide(4, 24, 1, 64, 1, 0);
    for packets in [2, 3, 255, 256, 257, 65_536, 65_537, u32::MAX] {
        for good in [ten, wide] {
            assert_eq!(desk.setup(Settings { packets, ..good }), Reply::Refused(2));
        }
    }
    assert_eq!(desk.setup(wide.with_packets()), Reply::Refused(2));
    assert_eq!(desk.setup(ten.with_packets()), Reply::Done);
}

// The size.

#[test]
fn sizes_of_some_switches() {
    for (settings, wanted) in [
        (Settings::ten_bytes(1, 64, 1, 0), 6668),
        (Settings::wide(4, 24, 1, 64, 1, 0), 6668),
        (Settings::ten_bytes(256, 64, 1, 0), 19_928),
        (Settings::ten_bytes(2048, 64, 1, 0), 113_112),
        (Settings::wide(2, 2, 1, 64, 1, 0), 4510),
        (Settings::wide(8, 16, 100, 64, 1, 0), 18_240),
        (Settings::wide(32, 64, 2048, 64, 1, 0), 901_712),
    ] {
        assert_eq!(size(&settings), wanted, "{settings:?}");
    }
}

/// At most 64 bytes for each node, 128 for each queue of each port, 512 for each
/// port and 16,384 beside; for four ports and 24 queues the earlier bounds. It
/// rises in each.
#[test]
fn sizes_keep_to_their_bounds_and_rise() {
    for (ports, queues) in (2..=32).flat_map(|p| (2..=64).map(move |q| (p, q))) {
        for nodes in [1, 2, 255, 256, 257, 2047, 2048] {
            let of = |ports, queues, nodes| size(&Settings::wide(ports, queues, nodes, 64, 1, 0));
            let bytes = of(ports, queues, nodes);
            let most = 64 * nodes * ports + 128 * queues * ports + 512 * ports + 16_384;
            assert!(bytes <= most as usize);
            if (ports, queues) == (4, 24) {
                assert!(bytes <= 65_536 + 64 * nodes.saturating_sub(256) as usize);
            }
            assert!(bytes < of(ports + 1, queues, nodes));
            assert!(bytes < of(ports, queues + 1, nodes));
            assert!(bytes < of(ports, queues, nodes + 1));
        }
    }
}

#[test]
fn setup_refuses_memory_that_is_a_byte_short() {
    for row in ROWS {
        let settings = Settings::of(shape(row), 5, 128, 1, 9);
        let call = Call::Setup(settings);
        let mut short = Model::new(size(&settings) - 1);
        assert_eq!(short.call(&call), Reply::Refused(1));
        assert_eq!(short.call(&Call::Turn { port: 0 }), Reply::Refused(3));
        assert_eq!(Model::new(size(&settings)).call(&call), Reply::Done);
    }
}

// Calls at the edges.

#[test]
fn ports_and_queues_end_where_the_settings_say() {
    for row in ROWS {
        let (ports, queues, ..) = row;
        let (mut desk, header) = desk(shape(row));
        assert_eq!(desk.ledger().ports[0].last_served, queues - 1);
        for port in [ports, ports + 1, 255, 256, u32::MAX] {
            assert_eq!(desk.arrive(port, &header), Reply::Refused(4));
            assert_eq!(desk.stitch(port), Reply::Refused(4));
            assert_eq!(desk.prefetch(port, queues), Reply::Refused(4));
            assert_eq!(desk.credit(port, 0, 0), Reply::Refused(4));
            assert_eq!(desk.turn(port), Reply::Refused(4));
            assert_eq!(desk.ready(port), Reply::Refused(4));
            assert_eq!(desk.map(4095, port), Reply::Refused(4));
            assert_eq!(desk.map(4096, port), Reply::Refused(15));
        }
        let last = ports - 1;
        for queue in [queues, queues + 1, 256, u32::MAX] {
            assert_eq!(desk.prefetch(last, queue), Reply::Refused(5));
            assert_eq!(desk.credit(last, queue, 0), Reply::Refused(5));
        }
        assert_eq!(desk.credit(last, queues - 1, 65_535), Reply::Done);
        assert_eq!(desk.prefetch(last, queues - 1), Reply::Refused(12));
        assert_eq!(desk.map(4095, last), Reply::Done);
        let free = ListKind::Free { port: last };
        assert_eq!(desk.place(last * 2048 + 2), Reply::Found(free, 2));
        assert_eq!(desk.place(last * 2048 + 3), Reply::Refused(15));
        assert_eq!(desk.place(ports * 2048), Reply::Refused(15));
    }
}

/// From the last port to the last port, by the last queue.
#[test]
fn a_packet_of_the_last_queue_crosses_at_the_last_port() {
    for row in ROWS {
        let (port, queue) = (row.0 - 1, row.1 - 1);
        let (mut desk, _) = desk(shape(row));
        let header = Header {
            source: port,
            ..most(row)
        };
        desk.map(header.destination, port);
        let entry = (port * 2048) as u16;
        let bytes = write(&shape(row), &header).unwrap();
        assert_eq!(desk.arrive(port, &bytes), Reply::Entry(entry));
        let [high, low] = entry.to_be_bytes();
        let record = [
            high,
            low,
            0x1F,
            0xFF,
            queue as u8,
            port as u8,
            255,
            255,
            255,
            255,
        ];
        assert_eq!(desk.stitch(port), Reply::Stitched(record));
        assert_eq!(desk.prefetch(port, queue), Reply::Entry(entry));
        assert_eq!(desk.ready(port), Reply::Word(0, 0));
        desk.credit(port, queue, 128);
        assert_eq!(desk.ready(port), Reply::Word(1 << queue, 1));
        let packet = Packet {
            entry,
            length: 8191,
            queue: queue as u8,
            destination: header.destination as u8,
            timestamp: u32::MAX,
            poisoned: true,
            transaction: 255,
            price: 128,
        };
        assert_eq!(desk.turn(port), Reply::Leaves(packet, Side::Outside));
        assert_eq!(desk.ledger().ports[port as usize].last_served, queue);
    }
}

/// With five ports a field of three bits says 5 to 7 as well: a destination of
/// the map, and a source that is no arriving port's.
#[test]
fn fields_with_room_for_more_ports_than_there_are() {
    let shape = Shape::wide(5, 17);
    let (mut desk, _) = desk(shape);
    for id in 5..8 {
        let foreign = Header {
            source: id,
            ..least(&shape)
        };
        let bytes = write(&shape, &foreign).unwrap();
        assert_eq!(read(&shape, &bytes), Ok(foreign));
        for port in 0..5 {
            assert_eq!(desk.arrive(port, &bytes), Reply::Refused(8));
        }
        let far = Header {
            destination: id,
            ..least(&shape)
        };
        desk.map(id, id - 3);
        let bytes = write(&shape, &far).unwrap();
        assert_eq!(desk.arrive(0, &bytes), Reply::Entry(id as u16 - 5));
        let to = ListKind::Egress {
            port: id - 3,
            queue: 0,
        };
        desk.stitch(0);
        assert_eq!(desk.place(id - 5), Reply::Found(to, 0));
    }
}

#[test]
fn arrive_tests_in_the_papers_order() {
    for row in ROWS {
        let shape = shape(row);
        let mut desk = Desk::new(Settings::of(shape, 1, 64, 1, 0));
        let good = write(&shape, &least(&shape)).unwrap();
        assert_eq!(desk.arrive(0, &good), Reply::Entry(0));
        let mut faulty = Header {
            source: 1,
            length: shape.shortest() - 1,
            queue: row.1,
            ..Header::default()
        };
        let no_queue = 1 << row.3 > row.1;
        if !no_queue {
            faulty.queue = 1;
        }
        let mut bytes = spelt(row, &faulty, u64::from(row.4 > 0));
        let last = bytes.len() - 1;
        bytes[last] ^= 1;
        assert_eq!(desk.arrive(row.0, &bytes[1..]), Reply::Refused(4));
        assert_eq!(desk.arrive(0, &bytes[1..]), Reply::Refused(6));
        assert_eq!(desk.arrive(0, &super::ACCEPTED_HEADER), Reply::Refused(6));
        assert_eq!(desk.arrive(0, &bytes), Reply::Refused(7));
        for bit in 0..row.4 {
            let bytes = spelt(row, &faulty, 1 << bit);
            assert_eq!(desk.arrive(0, &bytes), Reply::Refused(20));
        }
        assert_eq!(desk.arrive(0, &spelt(row, &faulty, 0)), Reply::Refused(8));
        faulty.source = 0;
        assert_eq!(desk.arrive(0, &spelt(row, &faulty, 0)), Reply::Refused(9));
        faulty.length += 1;
        let wanted = if no_queue { 19 } else { 10 };
        assert_eq!(
            desk.arrive(0, &spelt(row, &faulty, 0)),
            Reply::Refused(wanted)
        );
        faulty.queue = row.1 - 1;
        assert_eq!(desk.arrive(0, &spelt(row, &faulty, 0)), Reply::Refused(10));
        faulty.queue = 0;
        assert_eq!(desk.arrive(0, &spelt(row, &faulty, 0)), Reply::Refused(11));
    }
}

/// All of 64 queues ready, whichever was served last: bit 63 is the word's last,
/// and above queue 63 there is none.
#[test]
fn the_ready_word_of_64_queues() {
    let shape = Shape::wide(2, 64);
    let mut desk = Desk::new(Settings::of(shape, 130, 64, 2, 2));
    assert_eq!(desk.ledger().ports[0].last_served, 63);
    for queue in (0..64).chain(0..64) {
        let header = Header {
            queue,
            ..least(&shape)
        };
        assert!(matches!(
            desk.arrive(0, &write(&shape, &header).unwrap()),
            Reply::Entry(_)
        ));
        desk.stitch(0);
        desk.prefetch(0, queue);
        desk.credit(0, queue, 1);
    }
    for queue in 0..64 {
        assert_eq!(desk.ready(0), Reply::Word(u64::MAX, 64));
        assert_eq!(desk.served(), queue);
    }
    for left in (0..64).rev() {
        desk.served();
        let word = u64::MAX.checked_shl(64 - left).unwrap_or(0);
        assert_eq!(desk.ready(0), Reply::Word(word, left));
    }
    assert_eq!(desk.turn(0), Reply::Idle);
    assert_eq!(desk.ledger().ports[0].last_served, 63);
}

#[test]
fn pick_of_up_to_64_queues() {
    assert_eq!(pick(1 << 63, 63), Some(63));
    assert_eq!(pick(1 << 63, 62), Some(63));
    assert_eq!(pick(u64::MAX, 63), Some(0));
    let mut seed = 9u64;
    for round in 0..200_000u64 {
        seed = seed.wrapping_mul(6364136223846793005).wrapping_add(1);
        let thin = seed & seed.rotate_left(23) & seed.rotate_left(41);
        let word = if round % 2 == 0 { thin } else { seed };
        let last = (round % 64) as u32;
        let wanted = (1..=64)
            .map(|step| (last + step) % 64)
            .find(|queue| word >> queue & 1 == 1);
        assert_eq!(pick(word, last), wanted);
    }
}

#[test]
fn a_round_tells_of_every_port() {
    for row in ROWS {
        let shape = shape(row);
        let (mut desk, _) = desk(shape);
        let bytes = 4 * row.0 as usize;
        assert_eq!(shape.round_bytes(), bytes);
        // From every port by the next one.
        for port in 0..row.0 {
            desk.map(port, (port + 1) % row.0);
            let header = Header {
                source: port,
                destination: port,
                ..least(&shape)
            };
            desk.arrive(port, &write(&shape, &header).unwrap());
        }
        for short in [0, 1, bytes - 4, bytes - 1] {
            let room = vec![9; short];
            assert_eq!(desk.call(Call::Round { room }), Reply::Refused(27));
        }
        let before = |port| Some(((port + row.0 - 1) % row.0 * 2048) as u16);
        let wanted: Vec<Option<u16>> = (0..row.0).map(before).collect();
        assert_eq!(desk.round(), wanted);
        assert_eq!(desk.round(), vec![None; row.0 as usize]);
    }
}

/// The most nodes that there can be, in one list: entry ids and positions up to
/// 65,535.
#[test]
fn one_queue_holds_every_node_of_32_ports() {
    let shape = Shape::wide(32, 64);
    let settings = Settings::of(shape, 2048, 64, 8, 16);
    let mut desk = Desk::new(settings);
    for port in 0..32 {
        let header = Header {
            source: port,
            ..least(&shape)
        };
        let header = write(&shape, &header).unwrap();
        for index in 0..2048 {
            // Past the desk, which checks all nodes after each call.
            let header = header.clone();
            let arrived = desk.0.call(&Call::Arrive { port, header });
            assert_eq!(arrived, Reply::Entry((port * 2048 + index) as u16));
            desk.0.call(&Call::Stitch { port });
        }
    }
    assert_eq!(desk.0.check(), Ok(()));
    let egress = ListKind::Egress { port: 0, queue: 0 };
    assert_eq!(desk.place(65_535), Reply::Found(egress, 65_535));
    assert_eq!(desk.place(65_536), Reply::Refused(15));
    let mut room = vec![9; 8 * 65_536 + 1];
    assert_eq!(desk.0.audit(&mut room[..8 * 65_536 - 1]), Err(27));
    assert_eq!(desk.0.audit(&mut room), Ok(()));
    assert_eq!(room[8 * 65_535..], [255, 255, 2, 0, 0, 0, 255, 255, 9]);
}

// The check.

#[test]
fn check_goes_by_the_shape() {
    // Three bits for five ports.
    let shape = Shape::wide(5, 17);
    let broken = |breach: &dyn Fn(&mut Ledger)| {
        let mut desk = Desk::new(Settings::of(shape, 3, 64, 2, 200));
        let header = Header {
            destination: 7,
            queue: 16,
            length: 64,
            ..Header::default()
        };
        desk.arrive(0, &write(&shape, &header).unwrap());
        breach(desk.ledger());
        desk.0.check().map_err(|why| why[..3].to_string())
    };
    let record = |l: &mut Ledger, change: fn(&mut Packet)| {
        change(l.ports[0].packets[0].as_mut().unwrap());
    };
    let rule = |letter: &str| Err(format!("({letter})"));
    assert_eq!(broken(&|_| ()), Ok(()));
    assert_eq!(broken(&|l| l.settings.packets = 1), rule("a"));
    assert_eq!(broken(&|l| l.settings.edition = 0), rule("a"));
    assert_eq!(broken(&|l| l.settings.edition = 2), rule("a"));
    assert_eq!(broken(&|l| l.map[4095] = 5), rule("b"));
    assert_eq!(broken(&|l| l.map[4095] = 4), Ok(()));
    assert_eq!(broken(&|l| l.ports[4].last_served = 17), rule("b"));
    assert_eq!(broken(&|l| l.ports[4].free.push_back(5 * 2048)), rule("c"));
    assert_eq!(broken(&|l| record(l, |p| p.length = 13)), rule("f"));
    assert_eq!(broken(&|l| record(l, |p| p.length = 14)), Ok(()));
    assert_eq!(broken(&|l| record(l, |p| p.queue = 17)), rule("f"));
    assert_eq!(broken(&|l| record(l, |p| p.destination = 8)), rule("f"));
    assert_eq!(broken(&|l| record(l, |p| p.destination = 0)), Ok(()));
    assert_eq!(broken(&|l| record(l, |p| p.queue = 15)), rule("g"));
    assert_eq!(broken(&|l| l.ports[4].arrival_credit[16] -= 1), rule("g"));
}
