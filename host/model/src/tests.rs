//! The paper's cards, price cases, whole bench case and slips, and the
//! refusals' order, of a switch with the ten-byte header; those of the others
//! are in `wide`.

mod halts;
mod packets;
mod runs;
mod waits;
mod wide;

use crate::bench::bench;
use crate::checksum::crc8;
use crate::header::Header;
use crate::ledger::pick;
use crate::{
    header, marked, price, size, Call, Choice, ListKind, Model, Packet, Reply, Settings, Shape,
    Side,
};

/// Fields of these widths written digit by digit, and the checksum behind them:
/// unlike the model's writer.
fn digits(fields: &[(u64, usize)]) -> Vec<u8> {
    let mut digits = String::new();
    for &(field, width) in fields {
        assert!(field < 1 << width);
        // Of no width, no digit, and not a 0.
        if width > 0 {
            digits += &format!("{field:0width$b}");
        }
    }
    assert_eq!(digits.len() % 8, 0);
    let byte = |at: usize| u8::from_str_radix(&digits[at..at + 8], 2).unwrap();
    let mut bytes: Vec<u8> = (0..digits.len()).step_by(8).map(byte).collect();
    bytes.push(remainder(&bytes));
    bytes
}

fn written(dest: u64, source: u64, queue: u64, length: u64) -> [u8; 10] {
    written_fully(dest, source, queue, length, 0, 0, 0, 0)
}

#[allow(clippy::too_many_arguments)]
fn written_fully(
    dest: u64,
    source: u64,
    queue: u64,
    length: u64,
    flags: u64,
    timestamp: u64,
    offered: u64,
    transaction: u64,
) -> [u8; 10] {
    let bytes = digits(&[
        (dest, 2),
        (source, 2),
        (queue, 5),
        (length, 13),
        (flags, 2),
        (timestamp, 32),
        (offered, 8),
        (transaction, 8),
    ]);
    bytes.try_into().unwrap()
}

/// The reader of the ten-byte header.
fn read(bytes: &[u8]) -> Result<Header, u8> {
    header::read(&Shape::TEN_BYTES, bytes)
}

/// The checksum by long division of one number, unlike the model's.
fn remainder(bytes: &[u8]) -> u8 {
    assert!(bytes.len() <= 15);
    let mut number = bytes.iter().fold(0u128, |n, &b| n << 8 | u128::from(b)) << 8;
    for place in (8..128).rev() {
        if number >> place & 1 == 1 {
            number ^= 0x107 << (place - 8);
        }
    }
    number as u8
}

const SMALL: Settings = Settings::ten_bytes(8, 64, 4, 16);

/// The bytes of a ten-byte state of so many nodes a port.
fn ten_bytes_size(nodes: u32) -> usize {
    size(&Settings { nodes, ..SMALL })
}

/// A model and short words for its calls.
struct Desk(Model);

impl Desk {
    fn new(settings: Settings) -> Desk {
        let mut model = Model::new(size(&settings));
        assert_eq!(model.call(&Call::Setup(settings)), Reply::Done);
        Desk(model)
    }

    /// Every call is followed by the check, and a refused one changes nothing but,
    /// where the header lied, the mark of a port that had none.
    fn call(&mut self, call: Call) -> Reply {
        let mut left = self.0.clone();
        let reply = self.0.call(&call);
        if let (Some((port, number)), Some(ledger)) = (marked(&call, &reply), &mut left.ledger) {
            let mark = &mut ledger.ports[port as usize].mark;
            *mark = if *mark == 0 { number } else { *mark };
        }
        if let Reply::Refused(_) | Reply::Idle | Reply::Mark(_) | Reply::Shown(_) = reply {
            assert_eq!(self.0, left, "{call:?}");
        }
        assert_eq!(self.0.check(), Ok(()), "{call:?}");
        reply
    }

    fn setup(&mut self, settings: Settings) -> Reply {
        self.call(Call::Setup(settings))
    }

    fn arrive(&mut self, port: u32, header: &[u8]) -> Reply {
        self.call(Call::Arrive {
            port,
            header: header.to_vec(),
        })
    }

    fn stitch(&mut self, port: u32) -> Reply {
        self.call(Call::Stitch { port })
    }

    fn prefetch(&mut self, port: u32, queue: u32) -> Reply {
        self.call(Call::Prefetch { port, queue })
    }

    fn credit(&mut self, port: u32, queue: u32, amount: u32) -> Reply {
        self.call(Call::Credit {
            port,
            queue,
            amount,
        })
    }

    fn map(&mut self, id: u32, port: u32) -> Reply {
        self.call(Call::Map { id, port })
    }

    fn turn(&mut self, port: u32) -> Reply {
        self.call(Call::Turn { port })
    }

    fn ready(&mut self, port: u32) -> Reply {
        self.call(Call::Ready { port })
    }

    fn place(&mut self, entry: u32) -> Reply {
        self.call(Call::Where { entry })
    }

    fn clear(&mut self, port: u32) -> Reply {
        self.call(Call::Clear { port })
    }

    fn report(&mut self, port: u32) -> Reply {
        self.call(Call::Report { port })
    }

    /// What a round tells of each port's turn: the entry id, or none if idle.
    fn round(&mut self) -> Vec<Option<u16>> {
        let room = vec![9; 4 * self.ledger().ports.len()];
        let turns = match self.call(Call::Round { room }) {
            Reply::Turns(turns) => turns,
            other => panic!("{other:?}"),
        };
        let told = |turn: &[u8]| match *turn {
            [0, 1, 0, 0] => None,
            [0, 0, high, low] => Some(u16::from(high) << 8 | u16::from(low)),
            _ => panic!("{turns:?}"),
        };
        turns.chunks(4).map(told).collect()
    }

    /// A packet for port 0 from port 0, up to the prefetch list.
    fn bring(&mut self, queue: u32, length: u32) {
        let header = written(0, 0, queue.into(), length.into());
        assert!(matches!(self.arrive(0, &header), Reply::Entry(_)));
        assert!(matches!(self.stitch(0), Reply::Stitched(_)));
        assert!(matches!(self.prefetch(0, queue), Reply::Entry(_)));
    }

    /// One of the least length and, above queue 0, outward credit for it.
    fn bring_covered(&mut self, queue: u32) {
        self.bring(queue, 12);
        if queue > 0 {
            assert_eq!(self.credit(0, queue, 1), Reply::Done);
        }
    }

    /// The queue that a turn of port 0 serves.
    fn served(&mut self) -> u32 {
        match self.turn(0) {
            Reply::Leaves(packet, _) => packet.queue.into(),
            other => panic!("{other:?}"),
        }
    }

    fn ledger(&mut self) -> &mut crate::Ledger {
        self.0.ledger.as_mut().unwrap()
    }
}

const ACCEPTED_HEADER: [u8; 10] = [0, 0, 0x30, 0, 0, 0, 0, 0, 0, 0x72];

// The checksum, the header and the price.

#[test]
fn checksum_has_the_published_check_value() {
    assert_eq!(crc8(b"123456789"), 0xF4);
    assert_eq!(remainder(b"123456789"), 0xF4);
}

#[test]
fn checksum_is_the_remainder_of_the_long_division() {
    let mut seed = 1u64;
    for _ in 0..10_000 {
        seed = seed.wrapping_mul(6364136223846793005).wrapping_add(1);
        let bytes = seed.to_be_bytes();
        assert_eq!(crc8(&bytes), remainder(&bytes));
    }
}

#[test]
fn header_fields_are_read_back() {
    let bytes = written_fully(2, 1, 19, 5000, 0b10, 0x01020304, 77, 99);
    let wanted = Header {
        destination: 2,
        source: 1,
        queue: 19,
        length: 5000,
        poisoned: 1,
        timestamp: 0x01020304,
        credit: 77,
        transaction: 99,
    };
    assert_eq!(read(&bytes), Ok(wanted));
    assert_eq!(header::write(&Shape::TEN_BYTES, &wanted).unwrap(), bytes);
}

#[test]
fn header_widths_hold_over_all_values() {
    for (dest, source) in (0..4).flat_map(|dest| (0..4).map(move |source| (dest, source))) {
        for queue in 0..32 {
            for length in [0, 1, 11, 12, 63, 64, 4095, 4096, 8191] {
                for flags in 0..4 {
                    let bytes =
                        written_fully(dest, source, queue, length, flags, u32::MAX.into(), 0, 0);
                    let wanted = match (flags & 1, length, queue) {
                        (1, ..) => Err(20),
                        (_, 0..=11, _) => Err(9),
                        (.., 24..) => Err(19),
                        _ => Ok(Header {
                            destination: dest as u32,
                            source: source as u32,
                            queue: queue as u32,
                            length: length as u32,
                            poisoned: flags as u32 >> 1,
                            timestamp: u32::MAX,
                            ..Header::default()
                        }),
                    };
                    assert_eq!(read(&bytes), wanted);
                }
            }
        }
    }
}

/// Lengths and what they cost at beat 64 above queue 0.
const PRICES: [(u32, u32); 5] = [(12, 1), (64, 1), (65, 2), (76, 2), (8191, 128)];

#[test]
fn price_cases_at_beat_64() {
    for (length, wanted) in PRICES {
        assert_eq!(price(length, 1, 64), wanted);
        assert_eq!(price(length, 0, 64), 0);
    }
}

#[test]
fn price_cases_through_arrivals() {
    for (length, wanted) in PRICES {
        let mut desk = Desk::new(Settings {
            credit: 128,
            ..SMALL
        });
        desk.bring(7, length);
        assert_eq!(desk.ledger().ports[0].arrival_credit[7], 128 - wanted);
        desk.credit(0, 7, wanted);
        match desk.turn(0) {
            Reply::Leaves(packet, Side::Outside) => assert_eq!(packet.price, wanted),
            other => panic!("{other:?}"),
        }
        assert_eq!(desk.ledger().ports[0].outward_credit[7], 0);
        assert_eq!(desk.ledger().ports[0].arrival_credit[7], 128);
    }
}

#[test]
fn price_is_the_least_number_of_beats_that_holds_the_packet() {
    for beat in [64, 128, 256, 512] {
        for length in 12..=8191 {
            let beats = price(length, 23, beat);
            assert!(beats * beat >= length);
            assert!((beats - 1) * beat < length);
        }
    }
}

#[test]
fn above_queue_0_nothing_is_free() {
    let mut desk = Desk::new(Settings { credit: 0, ..SMALL });
    for queue in 1..24 {
        assert_eq!(
            desk.arrive(0, &written(0, 0, queue, 12)),
            Reply::Refused(10)
        );
    }
    assert_eq!(desk.arrive(0, &written(0, 0, 0, 8191)), Reply::Entry(0));
}

// The cards.

#[test]
fn card_ten_zero_bytes() {
    let mut desk = Desk::new(SMALL);
    assert_eq!(read(&[0; 10]), Err(9));
    assert_eq!(desk.arrive(0, &[0; 10]), Reply::Refused(9));
    assert_eq!(desk.arrive(1, &[0; 10]), Reply::Refused(8));
}

#[test]
fn card_shortest_packet_accepted() {
    let mut desk = Desk::new(SMALL);
    assert_eq!(written(0, 0, 0, 12), ACCEPTED_HEADER);
    assert_eq!(desk.arrive(0, &ACCEPTED_HEADER), Reply::Entry(0));
    assert_eq!(desk.ledger().packet(0).unwrap().length, 12);
    assert_eq!(
        desk.stitch(0),
        Reply::Stitched([0, 0, 0, 0x0C, 0, 0, 0, 0, 0, 0])
    );
    let mut wrong = ACCEPTED_HEADER;
    wrong[9] = 0x73;
    assert_eq!(desk.arrive(0, &wrong), Reply::Refused(7));
}

#[test]
fn card_first_bytes() {
    let card = Header {
        destination: 1,
        source: 2,
        queue: 23,
        length: 8191,
        ..Header::default()
    };
    let bytes = header::write(&Shape::TEN_BYTES, &card).unwrap();
    assert_eq!(bytes[..3], [0x6B, 0xFF, 0xFC]);
    assert_eq!(bytes, written(1, 2, 23, 8191));
    assert_eq!(read(&bytes), Ok(card));
}

#[test]
fn card_one_node_is_used_again() {
    let mut desk = Desk::new(Settings { nodes: 1, ..SMALL });
    assert_eq!(desk.arrive(0, &ACCEPTED_HEADER), Reply::Entry(0));
    assert_eq!(desk.arrive(0, &ACCEPTED_HEADER), Reply::Refused(11));
    desk.stitch(0);
    assert_eq!(desk.arrive(0, &ACCEPTED_HEADER), Reply::Refused(11));
    desk.prefetch(0, 0);
    assert_eq!(desk.arrive(0, &ACCEPTED_HEADER), Reply::Refused(11));
    assert!(matches!(desk.turn(0), Reply::Leaves(_, Side::Inside)));
    assert_eq!(desk.arrive(0, &ACCEPTED_HEADER), Reply::Entry(0));
}

#[test]
fn card_three_ready_after_queue_5() {
    let mut desk = Desk::new(Settings { nodes: 16, ..SMALL });
    desk.bring_covered(5);
    assert_eq!(desk.served(), 5);
    for queue in [2, 5, 9] {
        desk.bring_covered(queue);
        desk.bring_covered(queue);
    }
    let word = 1 << 2 | 1 << 5 | 1 << 9;
    for wanted in [9, 2, 5] {
        assert_eq!(desk.ready(0), Reply::Word(word, 3));
        assert_eq!(desk.served(), wanted);
    }
    assert_eq!(desk.ready(0), Reply::Word(word, 3));
}

#[test]
fn card_all_ready_after_queue_5() {
    let mut desk = Desk::new(Settings { nodes: 64, ..SMALL });
    desk.bring_covered(5);
    assert_eq!(desk.served(), 5);
    for queue in 0..24 {
        desk.bring_covered(queue);
        desk.bring_covered(queue);
    }
    for turn in 1..=24 {
        assert_eq!(desk.ready(0), Reply::Word(0xFF_FFFF, 24));
        assert_eq!(desk.served(), (5 + turn) % 24);
    }
    assert_eq!(desk.ledger().ports[0].last_served, 5);
}

#[test]
fn card_outward_credit_at_its_most() {
    let mut desk = Desk::new(SMALL);
    assert_eq!(desk.credit(3, 23, 65_535), Reply::Done);
    assert_eq!(desk.credit(3, 23, 0), Reply::Done);
    assert_eq!(desk.credit(3, 23, 1), Reply::Refused(14));
    assert_eq!(desk.credit(3, 23, u32::MAX), Reply::Refused(14));
    assert_eq!(desk.ledger().ports[3].outward_credit[23], 65_535);
}

#[test]
fn card_nodes_per_port() {
    let mut desk = Desk(Model::new(65_536));
    for (nodes, wanted) in [
        (256, Reply::Done),
        (0, Reply::Refused(2)),
        (2049, Reply::Refused(2)),
        // The most that 65,536 bytes are enough for.
        (1133, Reply::Done),
        (1134, Reply::Refused(1)),
        (2048, Reply::Refused(1)),
    ] {
        assert_eq!(desk.setup(Settings { nodes, ..SMALL }), wanted);
    }
}

#[test]
fn card_prefetch_with_nothing_to_take_and_no_room() {
    let mut desk = Desk::new(Settings { slots: 1, ..SMALL });
    desk.bring(3, 12);
    assert_eq!(desk.prefetch(0, 3), Reply::Refused(12));
    desk.arrive(0, &written(0, 0, 3, 12));
    desk.stitch(0);
    assert_eq!(desk.prefetch(0, 3), Reply::Refused(13));
}

// The slips.

#[test]
fn slip_node_returns_to_the_port_in_its_entry_id() {
    let mut desk = Desk::new(SMALL);
    desk.map(3, 2);
    assert_eq!(desk.arrive(1, &written(3, 1, 4, 77)), Reply::Entry(2048));
    desk.stitch(1);
    desk.prefetch(2, 4);
    desk.credit(2, 4, 5);
    assert!(matches!(desk.turn(2), Reply::Leaves(_, Side::Outside)));
    let back = ListKind::Free { port: 1 };
    assert_eq!(desk.place(2048), Reply::Found(back, 7));
    let ledger = desk.ledger();
    assert_eq!(ledger.ports[1].arrival_credit[4], 16);
    assert_eq!(ledger.ports[2].outward_credit[4], 3);
    assert_eq!(ledger.ports[2].last_served, 4);
    assert_eq!(ledger.ports[1].last_served, 23);
}

#[test]
fn slip_idle_turn_moves_no_mark() {
    let mut desk = Desk::new(SMALL);
    assert_eq!(desk.turn(0), Reply::Idle);
    assert_eq!(desk.ledger().ports[0].last_served, 23);
    desk.bring_covered(6);
    assert_eq!(desk.served(), 6);
    // A packet that isn't covered: idle too.
    desk.bring(9, 12);
    assert_eq!(desk.turn(0), Reply::Idle);
    assert_eq!(desk.ledger().ports[0].last_served, 6);
}

#[test]
fn slip_map_is_read_at_stitch() {
    let mut desk = Desk::new(SMALL);
    desk.map(1, 1);
    desk.arrive(0, &written(1, 0, 4, 12));
    desk.map(1, 3);
    assert_eq!(
        desk.stitch(0),
        Reply::Stitched([0, 0, 0, 12, 4, 3, 0, 0, 0, 0])
    );
    // A later change moves nothing.
    desk.map(1, 2);
    let there = ListKind::Egress { port: 3, queue: 4 };
    assert_eq!(desk.place(0), Reply::Found(there, 0));
}

#[test]
fn slip_arrival_credit_comes_back_at_the_turn_only() {
    let mut desk = Desk::new(Settings { credit: 1, ..SMALL });
    let costs_one = written(0, 0, 2, 64);
    assert_eq!(desk.arrive(0, &costs_one), Reply::Entry(0));
    assert_eq!(desk.arrive(0, &costs_one), Reply::Refused(10));
    desk.stitch(0);
    assert_eq!(desk.arrive(0, &costs_one), Reply::Refused(10));
    desk.prefetch(0, 2);
    assert_eq!(desk.arrive(0, &costs_one), Reply::Refused(10));
    desk.credit(0, 2, 1);
    assert_eq!(desk.arrive(0, &costs_one), Reply::Refused(10));
    assert_eq!(desk.served(), 2);
    assert_eq!(desk.arrive(0, &costs_one), Reply::Entry(1));
}

// Refusals, and their order.

#[test]
fn everything_but_setup_is_refused_before_setup() {
    let mut model = Model::new(65_536);
    for call in [
        Call::Arrive {
            port: 9,
            header: vec![],
        },
        Call::Stitch { port: 0 },
        Call::Prefetch { port: 0, queue: 99 },
        Call::Credit {
            port: 0,
            queue: 0,
            amount: 0,
        },
        Call::Map { id: 9, port: 9 },
        Call::Turn { port: 4 },
        Call::Ready { port: 0 },
        Call::Where { entry: u32::MAX },
        Call::Clear { port: 9 },
        Call::Report { port: 0 },
        Call::TimedTurn { port: 9, now: 5 },
        Call::Bucket {
            port: 9,
            bucket: 33,
        },
        Call::ArrivePacket {
            port: 9,
            packet: vec![],
            lent: 1,
        },
        Call::Show {
            port: 9,
            queue: 24,
            lent: [0, 1, 2, 3],
        },
    ] {
        assert_eq!(model.call(&call), Reply::Refused(3));
        assert_eq!(model.check(), Ok(()));
    }
}

#[test]
fn setup_takes_exactly_the_settings_in_their_rows() {
    let mut desk = Desk(Model::new(ten_bytes_size(2048)));
    let huge = [70_000, 65_536, 65_537, 4096 + 64, u32::MAX];
    for nodes in (0..=2100).chain(huge) {
        let good = (1..=2048).contains(&nodes);
        let wanted = if good { Reply::Done } else { Reply::Refused(2) };
        assert_eq!(desk.setup(Settings { nodes, ..SMALL }), wanted);
    }
    for beat in (0..=2048).chain([65_536 + 64, u32::MAX]) {
        let good = (64..=512).contains(&beat) && beat.count_ones() == 1;
        let wanted = if good { Reply::Done } else { Reply::Refused(2) };
        assert_eq!(desk.setup(Settings { beat, ..SMALL }), wanted);
    }
    for slots in (0..=300).chain(huge) {
        let good = (1..=8).contains(&slots);
        let wanted = if good { Reply::Done } else { Reply::Refused(2) };
        assert_eq!(desk.setup(Settings { slots, ..SMALL }), wanted);
    }
    for (credit, good) in [
        (0, true),
        (65_535, true),
        (65_536, false),
        (70_000, false),
        (u32::MAX, false),
    ] {
        let wanted = if good { Reply::Done } else { Reply::Refused(2) };
        assert_eq!(desk.setup(Settings { credit, ..SMALL }), wanted);
    }
}

#[test]
fn setup_tests_settings_then_memory() {
    for nodes in [1, 2, 100, 256, 257, 1000, 2048] {
        let more = 64 * (nodes as usize).saturating_sub(256);
        let settings = Settings { nodes, ..SMALL };
        let size = size(&settings);
        assert!(size <= 65_536 + more);
        let call = Call::Setup(settings);
        let mut short = Model::new(size - 1);
        assert_eq!(short.call(&call), Reply::Refused(1));
        assert_eq!(short.call(&Call::Turn { port: 0 }), Reply::Refused(3));
        let bad = Call::Setup(Settings {
            beat: 65,
            ..settings
        });
        assert_eq!(short.call(&bad), Reply::Refused(2));
        assert_eq!(Model::new(size).call(&call), Reply::Done);
        assert_eq!(Model::new(0).call(&call), Reply::Refused(1));
    }
    assert_eq!(
        Model::new(0).call(&Call::Setup(Settings {
            nodes: 2049,
            ..SMALL
        })),
        Reply::Refused(2)
    );
}

#[test]
fn setup_starts_anew_but_a_refused_one_leaves_the_older_state() {
    let mut desk = Desk(Model::new(ten_bytes_size(8)));
    desk.setup(SMALL);
    let fresh = desk.0.clone();
    desk.map(2, 3);
    desk.credit(1, 1, 9);
    desk.bring(5, 100);
    assert_eq!(
        desk.setup(Settings { slots: 0, ..SMALL }),
        Reply::Refused(2)
    );
    assert_eq!(
        desk.setup(Settings { nodes: 9, ..SMALL }),
        Reply::Refused(1)
    );
    let there = ListKind::Prefetch { port: 0, queue: 5 };
    assert_eq!(desk.place(0), Reply::Found(there, 0));
    assert_eq!(desk.setup(SMALL), Reply::Done);
    assert_eq!(desk.0, fresh);
}

#[test]
fn arrive_tests_in_the_papers_order() {
    let mut desk = Desk::new(Settings {
        nodes: 1,
        credit: 2,
        ..SMALL
    });
    desk.arrive(0, &ACCEPTED_HEADER);
    // All faults at once, then one taken away after the other.
    assert_eq!(desk.arrive(4, &[0xFF; 9]), Reply::Refused(4));
    for bytes in (0..=40).filter(|&bytes| bytes != 10) {
        assert_eq!(desk.arrive(0, &vec![0xFF; bytes]), Reply::Refused(6));
    }
    for queue in 24..32 {
        let faulty =
            |source, length, flags| written_fully(0, source, queue, length, flags, 0, 0, 0);
        let mut header = faulty(1, 11, 0b01);
        header[9] ^= 1;
        assert_eq!(desk.arrive(0, &header), Reply::Refused(7));
        assert_eq!(desk.arrive(0, &faulty(1, 11, 0b01)), Reply::Refused(20));
        assert_eq!(desk.arrive(0, &faulty(1, 11, 0b10)), Reply::Refused(8));
        assert_eq!(desk.arrive(0, &faulty(0, 11, 0)), Reply::Refused(9));
        assert_eq!(desk.arrive(0, &faulty(0, 8191, 0)), Reply::Refused(19));
    }
    // The first 7 has halted the port: 10 before 11, whatever the price, until it is cleared.
    assert_eq!(desk.arrive(0, &written(0, 0, 3, 128)), Reply::Refused(10));
    assert_eq!(desk.arrive(0, &ACCEPTED_HEADER), Reply::Refused(11));
    desk.clear(0);
    assert_eq!(desk.arrive(0, &written(0, 0, 3, 129)), Reply::Refused(10));
    assert_eq!(desk.arrive(0, &written(0, 0, 3, 128)), Reply::Refused(11));
    // Every wrong bit of the header is noticed.
    for bit in 0..80 {
        let mut header = ACCEPTED_HEADER;
        header[bit / 8] ^= 0x80 >> (bit % 8);
        assert_eq!(desk.arrive(0, &header), Reply::Refused(7));
    }
}

#[test]
fn the_other_calls_test_in_table_order() {
    let mut desk = Desk::new(Settings { slots: 1, ..SMALL });
    for port in [4, 5, 255, 256, 65_536, u32::MAX] {
        assert_eq!(desk.stitch(port), Reply::Refused(4));
        assert_eq!(desk.prefetch(port, 24), Reply::Refused(4));
        assert_eq!(desk.credit(port, 0, u32::MAX), Reply::Refused(4));
        assert_eq!(desk.turn(port), Reply::Refused(4));
        assert_eq!(desk.ready(port), Reply::Refused(4));
        assert_eq!(desk.clear(port), Reply::Refused(4));
        assert_eq!(desk.report(port), Reply::Refused(4));
        assert_eq!(desk.map(3, port), Reply::Refused(4));
        assert_eq!(desk.map(4096, port), Reply::Refused(15));
    }
    assert_eq!(desk.stitch(3), Reply::Refused(12));
    for queue in [24, 31, 32, 256, u32::MAX] {
        assert_eq!(desk.prefetch(3, queue), Reply::Refused(5));
        assert_eq!(desk.credit(3, queue, u32::MAX), Reply::Refused(5));
    }
    assert_eq!(desk.credit(0, 0, 0), Reply::Refused(5));
    assert_eq!(desk.prefetch(0, 0), Reply::Refused(12));
    assert_eq!(desk.credit(0, 1, 65_536), Reply::Refused(14));
    assert_eq!(desk.credit(0, 1, 70_000), Reply::Refused(14));
    for id in [4, 255, 256, 4095] {
        assert_eq!(desk.map(id, 0), Reply::Done);
    }
    for id in [4096, 65_536, 70_000, u32::MAX] {
        assert_eq!(desk.map(id, 0), Reply::Refused(15));
    }
}

#[test]
fn where_knows_exactly_the_nodes() {
    let mut desk = Desk::new(SMALL);
    for entry in (0..65_536 + 10_000).chain([u32::MAX, 1 << 31]) {
        let (port, index) = (entry / 2048, entry % 2048);
        let wanted = if port < 4 && index < 8 {
            Reply::Found(ListKind::Free { port }, index)
        } else {
            Reply::Refused(15)
        };
        assert_eq!(desk.0.call(&Call::Where { entry }), wanted);
    }
}

#[test]
fn where_follows_a_node_through_its_lists() {
    let mut desk = Desk::new(SMALL);
    desk.map(2, 1);
    let header = written(2, 3, 8, 12);
    for wanted in 0..3 {
        assert_eq!(desk.arrive(3, &header), Reply::Entry(3 * 2048 + wanted));
    }
    let second = 3 * 2048 + 1;
    assert_eq!(
        desk.place(second),
        Reply::Found(ListKind::Ingress { port: 3 }, 1)
    );
    desk.stitch(3);
    desk.stitch(3);
    let egress = ListKind::Egress { port: 1, queue: 8 };
    assert_eq!(desk.place(second), Reply::Found(egress, 1));
    desk.prefetch(1, 8);
    assert_eq!(desk.place(second), Reply::Found(egress, 0));
    assert_eq!(desk.prefetch(1, 8), Reply::Entry(second as u16));
    let prefetch = ListKind::Prefetch { port: 1, queue: 8 };
    assert_eq!(desk.place(second), Reply::Found(prefetch, 1));
    desk.credit(1, 8, 2);
    desk.turn(1);
    assert_eq!(desk.place(second), Reply::Found(prefetch, 0));
    desk.turn(1);
    let free = ListKind::Free { port: 3 };
    assert_eq!(desk.place(second), Reply::Found(free, 6));
    assert_eq!(desk.place(second - 1), Reply::Found(free, 5));
    assert_eq!(desk.place(second + 2), Reply::Found(free, 0));
}

/// All the nodes that entry ids allow, in one list: ids and positions to 8,191.
#[test]
fn one_queue_holds_every_node() {
    let settings = Settings {
        nodes: 2048,
        ..SMALL
    };
    let mut desk = Desk::new(settings);
    for entry in 0..8192 {
        let port = entry / 2048;
        let header = written(0, port.into(), 0, 12).to_vec();
        // Past the desk, which checks all nodes after each call.
        let arrived = desk.0.call(&Call::Arrive { port, header });
        assert_eq!(arrived, Reply::Entry(entry as u16));
        desk.0.call(&Call::Stitch { port });
    }
    assert_eq!(desk.0.check(), Ok(()));
    let egress = ListKind::Egress { port: 0, queue: 0 };
    for entry in [0, 2047, 2048, 8191] {
        assert_eq!(desk.place(entry), Reply::Found(egress, entry));
    }
    for port in 0..4 {
        let header = written(0, port.into(), 0, 12);
        assert_eq!(desk.arrive(port, &header), Reply::Refused(11));
    }
}

#[test]
fn entry_id_of_port_3_node_5() {
    let mut desk = Desk::new(SMALL);
    assert_eq!(
        desk.place(6149),
        Reply::Found(ListKind::Free { port: 3 }, 5)
    );
    for _ in 0..5 {
        desk.arrive(3, &written(0, 3, 0, 12));
    }
    assert_eq!(desk.arrive(3, &written(0, 3, 0, 12)), Reply::Entry(6149));
}

#[test]
fn a_turn_answers_every_recorded_field() {
    let mut desk = Desk::new(Settings {
        credit: 50,
        ..SMALL
    });
    desk.map(3, 1);
    let header = written_fully(3, 2, 11, 1000, 0b10, 0xDEAD_BEEF, 200, 0x5A);
    assert_eq!(desk.arrive(2, &header), Reply::Entry(4096));
    assert_eq!(
        desk.stitch(2),
        Reply::Stitched([0x10, 0x00, 0x03, 0xE8, 11, 1, 0xDE, 0xAD, 0xBE, 0xEF])
    );
    desk.prefetch(1, 11);
    desk.credit(1, 11, 15);
    assert_eq!(desk.turn(1), Reply::Idle);
    desk.credit(1, 11, 1);
    let packet = Packet {
        entry: 4096,
        length: 1000,
        queue: 11,
        destination: 3,
        timestamp: 0xDEAD_BEEF,
        poisoned: true,
        transaction: 0x5A,
        price: 16,
    };
    assert_eq!(desk.turn(1), Reply::Leaves(packet, Side::Outside));
    assert_eq!(desk.turn(1), Reply::Idle);
}

#[test]
fn queues_24_to_31_are_refused_19() {
    let mut desk = Desk::new(SMALL);
    for queue in 24..32 {
        assert_eq!(
            desk.arrive(0, &written(0, 0, queue, 12)),
            Reply::Refused(19)
        );
    }
    assert_eq!(desk.arrive(0, &written(0, 0, 23, 12)), Reply::Entry(0));
}

/// Alone, and beside each fault that is tested later.
#[test]
fn a_reserved_bit_of_1_is_refused_20() {
    let mut desk = Desk::new(Settings {
        nodes: 1,
        credit: 0,
        ..SMALL
    });
    let reserved = |source, queue, length| written_fully(0, source, queue, length, 0b01, 0, 0, 0);
    assert_eq!(desk.arrive(0, &reserved(0, 0, 12)), Reply::Refused(20));
    assert_eq!(desk.arrive(0, &ACCEPTED_HEADER), Reply::Entry(0));
    for (source, queue, length) in [(1, 0, 12), (0, 0, 11), (0, 24, 12), (0, 1, 12), (0, 0, 12)] {
        let header = reserved(source, queue, length);
        assert_eq!(desk.arrive(0, &header), Reply::Refused(20));
    }
}

#[test]
fn a_covered_packet_behind_one_that_is_not_waits() {
    let mut desk = Desk::new(SMALL);
    desk.bring(4, 200);
    desk.bring(4, 12);
    desk.credit(0, 4, 3);
    assert_eq!(desk.turn(0), Reply::Idle);
    desk.credit(0, 4, 1);
    assert_eq!(desk.served(), 4);
    assert_eq!(desk.turn(0), Reply::Idle);
    desk.credit(0, 4, 1);
    assert_eq!(desk.served(), 4);
}

// The round.

#[test]
fn a_round_takes_a_packet_from_door_to_door() {
    let mut desk = Desk::new(SMALL);
    // From the last port to the first: all stitches come before the turns.
    assert_eq!(desk.arrive(3, &written(0, 3, 0, 12)), Reply::Entry(6144));
    assert_eq!(desk.round(), [Some(6144), None, None, None]);
    assert_eq!(desk.round(), [None; 4]);
}

#[test]
fn a_round_tells_turns_in_four_bytes_a_port() {
    let mut desk = Desk::new(SMALL);
    desk.map(1, 2);
    for _ in 0..6 {
        desk.arrive(3, &written(1, 3, 0, 12));
    }
    for _ in 0..5 {
        desk.round();
    }
    // Node 5 of port 3 leaves by port 2: 6149 is 18 05 in hex.
    let told = [0, 1, 0, 0, 0, 1, 0, 0, 0, 0, 0x18, 5, 0, 1, 0, 0];
    assert_eq!(
        desk.call(Call::Round { room: vec![9; 40] }),
        Reply::Turns(told.to_vec())
    );
}

#[test]
fn a_round_is_refused_3_then_27() {
    let round = |bytes| Call::Round {
        room: vec![9; bytes],
    };
    let mut none = Model::new(ten_bytes_size(8));
    for bytes in [0, 15, 16, 17] {
        assert_eq!(none.call(&round(bytes)), Reply::Refused(3));
    }
    let mut desk = Desk::new(SMALL);
    desk.arrive(0, &ACCEPTED_HEADER);
    for bytes in 0..16 {
        assert_eq!(desk.call(round(bytes)), Reply::Refused(27));
    }
    assert_eq!(desk.round(), [Some(0), None, None, None]);
}

/// One stitch a port, lower ports first; then one prefetch a queue, which a
/// full slot refuses, so that the turn after it comes too late for that slot.
#[test]
fn a_round_moves_each_list_by_one() {
    let mut desk = Desk::new(Settings { slots: 1, ..SMALL });
    for port in [1, 0] {
        for _ in 0..2 {
            desk.arrive(port, &written(0, port.into(), 4, 12));
        }
    }
    desk.round();
    let egress = ListKind::Egress { port: 0, queue: 4 };
    let slots = ListKind::Prefetch { port: 0, queue: 4 };
    assert_eq!(desk.place(0), Reply::Found(slots, 0));
    assert_eq!(desk.place(2048), Reply::Found(egress, 0));
    assert_eq!(
        desk.place(1),
        Reply::Found(ListKind::Ingress { port: 0 }, 0)
    );
    // No credit yet: nothing leaves, and the slot stays in use.
    assert_eq!(desk.round(), [None; 4]);
    assert_eq!(desk.place(2048), Reply::Found(egress, 0));
    assert_eq!(desk.place(1), Reply::Found(egress, 1));
    assert_eq!(desk.place(2049), Reply::Found(egress, 2));
    desk.credit(0, 4, 4);
    // The slot is free after the turn alone: the next one follows a round later.
    assert_eq!(desk.round()[0], Some(0));
    assert_eq!(desk.place(2048), Reply::Found(egress, 0));
    for leaving in [2048, 1, 2049] {
        assert_eq!(desk.round()[0], Some(leaving));
    }
}

/// One prefetch for a queue, however many slots are free.
#[test]
fn a_round_prefetches_one_packet_of_a_queue() {
    let mut desk = Desk::new(SMALL);
    for _ in 0..3 {
        desk.arrive(0, &written(0, 0, 4, 12));
        desk.stitch(0);
    }
    for fetched in 1..=3 {
        assert_eq!(desk.round(), [None; 4]);
        assert_eq!(desk.ledger().ports[0].prefetch[4].len(), fetched);
    }
}

/// Every queue of every port has its prefetch, also behind refused ones.
#[test]
fn a_round_serves_all_queues_of_all_ports() {
    for port in 0..4 {
        for queue in 0..24 {
            let mut desk = Desk::new(SMALL);
            desk.map(2, port);
            if queue > 0 {
                desk.credit(port, queue, 1);
            }
            desk.arrive(1, &written(2, 1, queue.into(), 12));
            let mut turns = vec![None; 4];
            turns[port as usize] = Some(2048);
            assert_eq!(desk.round(), turns);
        }
    }
}

/// Two nodes of one owner that leave by two ports in one round go home in the
/// order of the ports.
#[test]
fn turns_of_a_round_are_made_in_the_order_of_the_ports() {
    let mut desk = Desk::new(SMALL);
    desk.map(1, 1);
    desk.arrive(0, &written(1, 0, 0, 12));
    desk.stitch(0);
    desk.arrive(0, &ACCEPTED_HEADER);
    assert_eq!(desk.round(), [Some(1), Some(0), None, None]);
    let free = ListKind::Free { port: 0 };
    assert_eq!(desk.place(1), Reply::Found(free, 6));
    assert_eq!(desk.place(0), Reply::Found(free, 7));
}

// The turn's choice.

#[test]
fn pick_is_the_first_ready_queue_after_the_last_served() {
    let mut seed = 7u64;
    for round in 0..200_000u64 {
        seed = seed.wrapping_mul(6364136223846793005).wrapping_add(1);
        // Thin words, too.
        let thin = (seed >> 20) & (seed >> 40) & 0xFF_FFFF;
        let word = if round % 2 == 0 { thin } else { seed >> 40 };
        let last = (round % 24) as u32;
        let wanted = (1..=24)
            .map(|step| (last + step) % 24)
            .find(|queue| word >> queue & 1 == 1);
        assert_eq!(pick(word, last), wanted);
    }
    assert_eq!(pick(0, 23), None);
}

#[test]
fn both_choices_serve_the_same() {
    let mut whole = Model::with_choice(ten_bytes_size(64), Choice::WholeWord);
    let mut early = Model::with_choice(ten_bytes_size(64), Choice::EarlyOut);
    let mut seed = 3u64;
    let mut both = |call: Call| assert_eq!(whole.call(&call), early.call(&call));
    both(Call::Setup(Settings { nodes: 64, ..SMALL }));
    for _ in 0..20_000 {
        seed = seed.wrapping_mul(6364136223846793005).wrapping_add(1);
        let queue = (seed >> 33) as u32 % 24;
        let length = 12 + (seed >> 50) % 200;
        both(match seed >> 40 & 7 {
            0 => Call::Arrive {
                port: 0,
                header: written(0, 0, queue.into(), length).to_vec(),
            },
            1 => Call::Stitch { port: 0 },
            2..=4 => Call::Prefetch { port: 0, queue },
            5 => Call::Credit {
                port: 0,
                queue,
                amount: 1,
            },
            6 => Call::Turn { port: 0 },
            _ => Call::Ready { port: 0 },
        });
    }
    assert_eq!(whole.ledger(), early.ledger());
}

// The check notices each rule's breach.

#[test]
fn check_names_the_broken_rule() {
    fn broken(breach: impl Fn(&mut crate::Ledger)) -> String {
        let mut desk = Desk::new(SMALL);
        desk.bring(5, 100);
        desk.arrive(1, &written(0, 1, 2, 77));
        breach(desk.ledger());
        desk.0.check().unwrap_err()[..3].to_string()
    }
    assert_eq!(broken(|l| l.settings.beat = 96), "(a)");
    assert_eq!(broken(|l| l.settings.nodes = 9), "(a)");
    assert_eq!(broken(|l| l.settings.packets = 2), "(a)");
    assert_eq!(broken(|l| l.map[3] = 4), "(b)");
    assert_eq!(broken(|l| l.ports[2].last_served = 24), "(b)");
    assert_eq!(broken(|l| l.ports[2].outward_credit[9] = 65_536), "(b)");
    assert_eq!(broken(|l| l.ports[2].arrival_credit[9] = 65_536), "(b)");
    assert_eq!(
        broken(|l| (0..4).for_each(|_| l.ports[0].prefetch[5].push_back(7))),
        "(b)"
    );
    assert_eq!(broken(|l| l.ports[0].ingress.push_back(7)), "(c)");
    assert_eq!(broken(|l| l.ports[0].free.truncate(2)), "(c)");
    assert_eq!(broken(|l| l.ports[0].free.push_back(8)), "(c)");
    assert_eq!(broken(|l| l.ports[0].free.push_back(8192)), "(c)");
    assert_eq!(
        broken(|l| {
            let node = l.ports[0].free.pop_front().unwrap();
            l.ports[1].free.push_back(node);
        }),
        "(d)"
    );
    assert_eq!(
        broken(|l| {
            let node = l.ports[1].ingress.pop_front().unwrap();
            l.ports[2].ingress.push_back(node);
        }),
        "(d)"
    );
    assert_eq!(
        broken(|l| {
            let node = l.ports[0].prefetch[5].pop_front().unwrap();
            l.ports[0].prefetch[6].push_back(node);
        }),
        "(e)"
    );
    fn record(l: &mut crate::Ledger) -> &mut Packet {
        l.ports[1].packets[0].as_mut().unwrap()
    }
    assert_eq!(broken(|l| record(l).length = 11), "(f)");
    assert_eq!(broken(|l| record(l).length = 8192), "(f)");
    assert_eq!(broken(|l| record(l).queue = 24), "(f)");
    assert_eq!(broken(|l| record(l).destination = 4), "(f)");
    assert_eq!(broken(|l| record(l).price = 3), "(f)");
    assert_eq!(broken(|l| l.ports[1].packets[0] = None), "(f)");
    assert_eq!(broken(|l| record(l).queue = 3), "(g)");
    assert_eq!(broken(|l| l.ports[1].arrival_credit[2] += 1), "(g)");
    assert_eq!(broken(|l| l.ports[3].arrival_credit[1] = 0), "(g)");
    for mark in (1..=255).filter(|mark| ![7, 8, 18].contains(mark)) {
        assert_eq!(broken(|l| l.ports[3].mark = mark), "(i)");
    }
    // Behind (g).
    assert_eq!(
        broken(|l| {
            l.ports[0].mark = 1;
            l.ports[3].arrival_credit[1] = 0;
        }),
        "(g)"
    );
}

// The night crew's audit and repair.

/// The eight bytes of node `entry`'s place, of what where answers.
fn block(desk: &mut Desk, entry: u32) -> [u8; 8] {
    let (kind, port, queue, position) = match desk.place(entry) {
        Reply::Found(ListKind::Free { port }, position) => (0, port, 0, position),
        Reply::Found(ListKind::Ingress { port }, position) => (1, port, 0, position),
        Reply::Found(ListKind::Egress { port, queue }, position) => (2, port, queue, position),
        Reply::Found(ListKind::Prefetch { port, queue }, position) => (3, port, queue, position),
        other => panic!("{other:?}"),
    };
    let number = u64::from(entry) << 48
        | kind << 40
        | u64::from(port) << 32
        | u64::from(queue) << 24
        | u64::from(position);
    number.to_be_bytes()
}

#[test]
fn an_audit_tells_what_where_answers() {
    let mut desk = Desk::new(SMALL);
    desk.map(1, 2);
    desk.bring(5, 100);
    for queue in [3, 3, 7] {
        desk.arrive(1, &written(1, 1, queue, 77));
        desk.stitch(1);
    }
    desk.prefetch(2, 3);
    desk.arrive(1, &written(1, 1, 9, 77));
    let mut room = [9; 8 * 32 + 3];
    assert_eq!(desk.0.audit(&mut room), Ok(()));
    for (node, told) in (0..32).zip(room.chunks_exact(8)) {
        assert_eq!(told, block(&mut desk, node / 8 * 2048 + node % 8));
    }
    assert_eq!(room[8 * 32..], [9; 3]);
    // Port 1, node 1: second of queue 3, and first in egress once the other is prefetched.
    assert_eq!(room[8 * 9..8 * 10], [8, 1, 2, 2, 3, 0, 0, 0]);
    // Port 1, node 3: the one in ingress.
    assert_eq!(room[8 * 11..8 * 12], [8, 3, 1, 1, 0, 0, 0, 0]);
    // Port 3, node 5: sixth of the free list.
    assert_eq!(room[8 * 29..8 * 30], [24, 5, 0, 3, 0, 0, 0, 5]);
}

#[test]
fn an_audit_is_refused_3_then_27() {
    let mut room = [9; 8 * 32];
    for bytes in [0, 8 * 32 - 1, 8 * 32] {
        assert_eq!(
            Model::new(ten_bytes_size(8)).audit(&mut room[..bytes]),
            Err(3)
        );
    }
    let desk = Desk::new(SMALL);
    for bytes in 0..8 * 32 {
        assert_eq!(desk.0.audit(&mut room[..bytes]), Err(27));
    }
    assert_eq!(room, [9; 8 * 32]);
    assert_eq!(desk.0.audit(&mut room), Ok(()));
}

#[test]
fn a_repair_keeps_the_map_alone() {
    let mut map = [2; 4096];
    map[..4].copy_from_slice(&[3, 4, 1, 255]);
    map[4095] = 5;
    let repaired = crate::Ledger::repaired(SMALL, &map);
    assert_eq!(repaired.map[..4], [3, 0, 1, 0]);
    assert_eq!(repaired.map[4..4095], [2; 4091]);
    assert_eq!(repaired.map[4095], 0);
    let mut starting = crate::Ledger::starting(SMALL);
    assert_ne!(repaired, starting);
    starting.map = repaired.map.clone();
    assert_eq!(repaired, starting);
    let model = Model::with_ledger(ten_bytes_size(8), repaired);
    assert_eq!(model.check(), Ok(()));
}

// The bench program.

/// Bytes from hex digits; blanks don't count.
fn hex(digits: &str) -> Vec<u8> {
    let digits: Vec<u8> = digits
        .chars()
        .filter_map(|c| c.to_digit(16).map(|d| d as u8))
        .collect();
    digits
        .chunks(2)
        .map(|pair| pair[0] << 4 | pair[1])
        .collect()
}

fn lines(input: &str) -> String {
    String::from_utf8(bench(&hex(input))).unwrap()
}

const SETUP: &str = "01 0007 0001 0040 01 0010";

#[test]
fn bench_whole_case() {
    let input = "01 0007 0001 0040 01 0010
                 02 000B 00 00003000000000000072
                 03 0001 00
                 04 0002 00 00
                 05 0001 00
                 05 0001 00
                 05 0001 04";
    let wanted = "1 0\n2 0 0\n3 0 0\n4 0 0\n5 0 0\n6 0 idle\n7 4\n";
    assert_eq!(lines(input), wanted);
}

#[test]
fn bench_without_input_writes_nothing() {
    assert_eq!(lines(""), "");
}

#[test]
fn bench_before_setup_refuses_3() {
    let input = "02 000B 00 00003000000000000072 03 0001 09 04 0002 00 00
                 05 0001 00 06 0004 00 01 0000 07 0002 09 09 01 0007 0000 0040 01 0010 03 0001 00";
    assert_eq!(lines(input), "1 3\n2 3\n3 3\n4 3\n5 3\n6 3\n7 2\n8 3\n");
}

#[test]
fn bench_credit_and_map_answer_no_value() {
    let input = format!(
        "{SETUP} 06 0004 03 17 FFFF 06 0004 03 17 0001 06 0004 03 00 0001
         07 0002 03 03 07 0002 04 04 07 0002 03 04"
    );
    assert_eq!(lines(&input), "1 0\n2 0\n3 14\n4 5\n5 0\n6 4\n7 4\n");
}

/// A field's id is one byte, so all of them are among the 4,096.
#[test]
fn bench_maps_every_id_that_a_field_can_name() {
    let fields: String = (0..=255).map(|id| format!("07 0002 {id:02X} 03")).collect();
    let wanted: String = (1..=257).map(|number| format!("{number} 0\n")).collect();
    assert_eq!(lines(&format!("{SETUP} {fields}")), wanted);
}

#[test]
fn bench_entry_ids_of_other_ports() {
    // Source 3, queue 0, length 12, destination 2, which the map sends to 1.
    let arrival: String = written(2, 3, 0, 12)
        .iter()
        .map(|byte| format!("{byte:02X}"))
        .collect();
    let input = format!(
        "01 0007 0002 0200 08 FFFF 07 0002 02 01 02 000B 03 {arrival} 02 000B 03 {arrival}
         03 0001 03 03 0001 03 04 0002 01 00 05 0001 01 05 0001 03"
    );
    assert_eq!(
        lines(&input),
        "1 0\n2 0\n3 0 6144\n4 0 6145\n5 0 6144\n6 0 6145\n7 0 6144\n8 0 6144\n9 0 idle\n"
    );
}

#[test]
fn bench_refused_setup_leaves_the_older_state() {
    let input = format!("{SETUP} 01 0007 0801 0040 01 0010 05 0001 00");
    assert_eq!(lines(&input), "1 0\n2 2\n3 0 idle\n");
}

/// 65,536 bytes are enough for 1,133 nodes a port, and not for 1,134 or 2,048.
#[test]
fn bench_refuses_what_its_memory_has_no_room_for() {
    let input = "01 0007 046D 0040 01 0010 01 0007 046E 0040 01 0010 01 0007 0800 0040 01 0010";
    assert_eq!(lines(input), "1 0\n2 1\n3 1\n");
}

#[test]
fn bench_bad_fields_end_the_run() {
    let good = "05 0001 00";
    // Other tags, known and unknown lengths.
    for tag in (8..=255).chain([0]) {
        let input = format!("{SETUP} {tag:02X} 0001 00 {good}");
        assert_eq!(lines(&input), "1 0\n2 bad\n");
        assert_eq!(lines(&format!("{tag:02X} 0000")), "1 bad\n");
    }
    // Every wrong length, and every cut of a right one.
    for (tag, right) in [(1, 7), (2, 11), (3, 1), (4, 2), (5, 1), (6, 4), (7, 2)] {
        for length in (0..40usize).chain([256 + right, 65_535]) {
            let value = "00".repeat(length);
            let field = format!("{tag:02X} {length:04X} {value}");
            if length != right {
                let input = format!("{SETUP} {field} {good}");
                assert_eq!(lines(&input), "1 0\n2 bad\n");
                assert_eq!(lines(&field), "1 bad\n");
            }
        }
        let whole = hex(&format!("{tag:02X} {right:04X} {}", "00".repeat(right)));
        assert_ne!(bench(&whole), b"1 bad\n");
        for cut in 1..whole.len() {
            assert_eq!(bench(&whole[..cut]), b"1 bad\n");
        }
    }
}
