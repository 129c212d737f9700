//! Switches with wide headers at their edges, through the library: two ports and
//! two queues, 64 queues, and the largest switch there is, full.

use checks::night::PROVED;
use checks::run::Pair;
use checks::{library, reader, writer, Desk};
use model::{size, Call, Ledger, ListKind, Model, Packet, Reply, Settings, Shape, Side};
use traffic::{plain, SHAPES};
use ventorupo::calls;

/// A switch after setup, library and model, whose ledgers are compared at each
/// call.
fn begun(settings: Settings) -> Pair<'static, impl Desk> {
    let mut pair = Pair::new(&library::call, 5, size(&settings) + 3, 1);
    assert_eq!(pair.call(&Call::Setup(settings)), Ok(Reply::Done));
    pair
}

/// A packet of the least length for port 0 from port 0, up to the prefetch list,
/// with credit for it.
fn bring<D: Desk>(pair: &mut Pair<D>, shape: &Shape, queue: u32) {
    let port = 0;
    let header = plain(shape, 0, port, queue, shape.shortest());
    pair.call(&Call::Arrive { port, header }).unwrap();
    pair.call(&Call::Stitch { port }).unwrap();
    pair.call(&Call::Prefetch { port, queue }).unwrap();
    let amount = 1;
    pair.call(&Call::Credit {
        port,
        queue,
        amount,
    })
    .unwrap();
}

/// The queue that a turn of port 0 serves.
fn served<D: Desk>(pair: &mut Pair<D>) -> u8 {
    match pair.call(&Call::Turn { port: 0 }) {
        Ok(Reply::Leaves(packet, _)) => packet.queue,
        other => panic!("{other:?}"),
    }
}

/// Every port and queue of every shape: a packet comes in and leaves.
#[test]
fn a_packet_goes_through_every_queue_of_every_port() {
    for shape in SHAPES {
        let settings = Settings::of(shape, 1, 64, 1, 1);
        let mut pair = Pair::new(&library::call, 5, size(&settings), 512);
        pair.call(&Call::Setup(settings)).unwrap();
        for (port, queue) in (0..shape.ports).flat_map(|p| (0..shape.queues).map(move |q| (p, q))) {
            let out = shape.ports - 1 - port;
            let id = port.max(1);
            pair.call(&Call::Map { id, port: out }).unwrap();
            let header = plain(&shape, id, port, queue, shape.shortest());
            let entry = (port * 2048) as u16;
            let arrived = pair.call(&Call::Arrive { port, header });
            assert_eq!(arrived, Ok(Reply::Entry(entry)));
            let stitched = pair.call(&Call::Stitch { port });
            assert!(matches!(stitched, Ok(Reply::Stitched(_))), "{stitched:?}");
            let fetched = pair.call(&Call::Prefetch { port: out, queue });
            assert_eq!(fetched, Ok(Reply::Entry(entry)));
            if queue > 0 {
                let credit = Call::Credit {
                    port: out,
                    queue,
                    amount: 1,
                };
                assert_eq!(pair.call(&credit), Ok(Reply::Done));
            }
            let ready = pair.call(&Call::Ready { port: out });
            assert_eq!(ready, Ok(Reply::Word(1 << queue, 1)));
            let turned = pair.call(&Call::Turn { port: out });
            assert!(matches!(turned, Ok(Reply::Leaves(..))), "{turned:?}");
        }
        pair.compare_ledgers().unwrap();
    }
}

/// All of 64 queues ready: bit 63 is the word's last, and where 63 was the last
/// served there is none above it.
#[test]
fn the_ready_word_of_64_queues() {
    for ports in [2, 32] {
        let shape = Shape::wide(ports, 64);
        let mut pair = begun(Settings::of(shape, 130, 64, 2, 2));
        for queue in (0..64).chain(0..64) {
            bring(&mut pair, &shape, queue);
        }
        // At setup 63 counts as served, so queue 0 is the next.
        for queue in 0..64 {
            let ready = pair.call(&Call::Ready { port: 0 });
            assert_eq!(ready, Ok(Reply::Word(u64::MAX, 64)));
            assert_eq!(served(&mut pair), queue);
        }
        for left in (0..64).rev() {
            served(&mut pair);
            let word = u64::MAX.checked_shl(64 - left).unwrap_or(0);
            let ready = pair.call(&Call::Ready { port: 0 });
            assert_eq!(ready, Ok(Reply::Word(word, left)));
        }
        assert_eq!(pair.call(&Call::Turn { port: 0 }), Ok(Reply::Idle));
    }
}

/// Queue 63 alone, where queues below it or itself were served last.
#[test]
fn queue_63_alone_is_served_after_every_queue() {
    let shape = Shape::wide(2, 64);
    let mut pair = begun(Settings::of(shape, 8, 64, 2, 8));
    for last in [0, 31, 32, 62, 63] {
        bring(&mut pair, &shape, last);
        assert_eq!(u32::from(served(&mut pair)), last);
        bring(&mut pair, &shape, 63);
        let ready = pair.call(&Call::Ready { port: 0 });
        assert_eq!(ready, Ok(Reply::Word(1 << 63, 1)));
        assert_eq!(served(&mut pair), 63);
        // From 63 on, the lowest of all.
        for queue in [62, 5] {
            bring(&mut pair, &shape, queue);
        }
        assert_eq!(served(&mut pair), 5);
        assert_eq!(served(&mut pair), 62);
    }
}

/// One bit for ports and queues each.
#[test]
fn two_ports_and_two_queues() {
    let shape = Shape::wide(2, 2);
    let mut pair = begun(Settings::of(shape, 2, 64, 1, 9));
    assert_eq!(pair.lent(), 4536 + 3);
    pair.call(&Call::Map { id: 1, port: 1 }).unwrap();
    let header = plain(&shape, 1, 0, 1, 8191);
    let arrive = |port| Call::Arrive {
        port,
        header: header.clone(),
    };
    assert_eq!(pair.call(&arrive(1)), Ok(Reply::Refused(8)));
    // 128 beats, and the credit is nine.
    assert_eq!(pair.call(&arrive(0)), Ok(Reply::Refused(10)));
    let header = plain(&shape, 1, 0, 1, 9 * 64);
    let arrive = |port| Call::Arrive {
        port,
        header: header.clone(),
    };
    assert_eq!(pair.call(&arrive(0)), Ok(Reply::Entry(0)));
    assert_eq!(pair.call(&arrive(0)), Ok(Reply::Refused(10)));
    assert_eq!(pair.call(&arrive(2)), Ok(Reply::Refused(4)));
    let record = [0, 0, 2, 64, 1, 1, 0, 0, 0, 0];
    let stitched = pair.call(&Call::Stitch { port: 0 });
    assert_eq!(stitched, Ok(Reply::Stitched(record)));
    let prefetch = |port, queue| Call::Prefetch { port, queue };
    assert_eq!(pair.call(&prefetch(1, 2)), Ok(Reply::Refused(5)));
    assert_eq!(pair.call(&prefetch(1, 1)), Ok(Reply::Entry(0)));
    let credit = |queue| Call::Credit {
        port: 1,
        queue,
        amount: 9,
    };
    assert_eq!(pair.call(&credit(2)), Ok(Reply::Refused(5)));
    assert_eq!(pair.call(&credit(1)), Ok(Reply::Done));
    let round = |bytes| Call::Round {
        room: vec![9; bytes],
    };
    assert_eq!(pair.call(&round(7)), Ok(Reply::Refused(27)));
    let turns = vec![0, 1, 0, 0, 0, 0, 0, 0];
    assert_eq!(pair.call(&round(8)), Ok(Reply::Turns(turns)));
}

/// The last port of every shape lies: it alone is halted, for queues above 0.
#[test]
fn the_last_port_of_every_shape_is_halted_and_cleared() {
    for shape in SHAPES {
        let mut pair = begun(Settings::of(shape, 2, 64, 1, 9));
        let port = shape.ports - 1;
        let arrive = |port, source, queue| Call::Arrive {
            port,
            header: plain(&shape, 0, source, queue, 64),
        };
        let last = shape.queues - 1;
        // Every source that there is room for, and that isn't the port.
        for source in (0..1 << shape.port_bits()).filter(|&source| source != port) {
            assert_eq!(
                pair.call(&arrive(port, source, last)),
                Ok(Reply::Refused(8))
            );
        }
        for other in 0..port {
            let report = pair.call(&Call::Report { port: other });
            assert_eq!(report, Ok(Reply::Mark(0)));
        }
        assert_eq!(pair.call(&Call::Report { port }), Ok(Reply::Mark(8)));
        assert_eq!(pair.call(&arrive(port, port, last)), Ok(Reply::Refused(10)));
        let entry = (port * 2048) as u16;
        assert_eq!(pair.call(&arrive(port, port, 0)), Ok(Reply::Entry(entry)));
        let before = Reply::Entry(((port - 1) * 2048) as u16);
        assert_eq!(pair.call(&arrive(port - 1, port - 1, last)), Ok(before));
        for call in [
            Call::Clear { port: port + 1 },
            Call::Report { port: port + 1 },
        ] {
            assert_eq!(pair.call(&call), Ok(Reply::Refused(4)));
        }
        assert_eq!(pair.call(&Call::Clear { port }), Ok(Reply::Done));
        assert_eq!(
            pair.call(&arrive(port, port, last)),
            Ok(Reply::Entry(entry + 1))
        );
        assert_eq!(pair.call(&Call::Report { port }), Ok(Reply::Mark(0)));
    }
}

/// A state of the ten-byte edition and one of the wide edition with its counts
/// differ in the setting alone; each takes its own headers only.
#[test]
fn four_ports_and_24_queues_in_both_editions() {
    let wide = Shape::wide(4, 24);
    let settings = [Shape::TEN_BYTES, wide].map(|shape| Settings::of(shape, 2, 64, 1, 9));
    let [ten_image, wide_image] = settings.map(writer::starting);
    let differs: Vec<usize> = (0..ten_image.len())
        .filter(|&at| ten_image[at] != wide_image[at])
        .collect();
    assert_eq!(differs, [13]);
    let headers = [
        plain(&Shape::TEN_BYTES, 0, 0, 0, 12),
        plain(&wide, 0, 0, 0, 13),
        plain(&wide, 0, 0, 0, 12),
    ];
    for (settings, wanted) in settings.into_iter().zip([
        [Reply::Entry(0), Reply::Refused(6), Reply::Refused(6)],
        [Reply::Refused(6), Reply::Entry(0), Reply::Refused(9)],
    ]) {
        let mut pair = begun(settings);
        for (header, wanted) in headers.iter().zip(wanted) {
            let header = header.clone();
            assert_eq!(pair.call(&Call::Arrive { port: 0, header }), Ok(wanted));
        }
    }
}

// The largest switch.

const LARGEST: Shape = Shape::wide(32, 64);

fn largest() -> Settings {
    Settings::of(LARGEST, 2048, 64, 8, 65_535)
}

/// A model whose every node is a packet: those of port p for port 31 - p, in all
/// queues; of each queue the first eight prefetched, the others in egress, but
/// the last ones of each port in ingress.
fn full() -> Model {
    let mut model = Model::new(size(&largest()));
    let mut made = |call: Call| {
        let reply = model.call(&call);
        assert!(!matches!(reply, Reply::Refused(_)), "{call:?}: {reply:?}");
    };
    made(Call::Setup(largest()));
    for port in 0..32 {
        made(Call::Map {
            id: port,
            port: 31 - port,
        });
        for packet in 0..2048 {
            let queue = packet % 64;
            let header = plain(&LARGEST, port, port, queue, 14 + packet);
            made(Call::Arrive { port, header });
            if packet < 1900 {
                made(Call::Stitch { port });
            }
            if packet < 8 * 64 {
                made(Call::Prefetch {
                    port: 31 - port,
                    queue,
                });
            }
        }
    }
    assert_eq!(model.check(), Ok(()));
    model
}

/// Its image is the model's own: no call of the library has made it. The test
/// passes, every node is placed, and calls at the edges of the switch answer and
/// leave what the model says.
#[test]
fn the_largest_switch_full_and_called_at_its_edges() {
    let model = full();
    let ledger = model.ledger().unwrap();
    assert!(ledger.ports.iter().all(|port| port.free.is_empty()));
    let mut pair = Pair::over(&library::call, ledger, 1);
    assert_eq!(pair.lent(), 901_712);
    assert_eq!(PROVED.finds(&pair.memory()[..pair.lent()]), Ok(None));
    pair.compare_ledgers().unwrap();

    for port in [0, 31] {
        for queue in [0, 63] {
            let header = plain(&LARGEST, 0, port, queue, 14);
            let arrived = pair.call(&Call::Arrive { port, header });
            assert_eq!(arrived, Ok(Reply::Refused(11)));
        }
    }
    let header = plain(&LARGEST, 0, 31, 0, 14);
    let arrived = pair.call(&Call::Arrive { port: 32, header });
    assert_eq!(arrived, Ok(Reply::Refused(4)));
    // Port 31 lies, and is told of that where it was told of its pool.
    let header = plain(&LARGEST, 0, 30, 63, 14);
    let lie = pair.call(&Call::Arrive { port: 31, header });
    assert_eq!(lie, Ok(Reply::Refused(8)));
    let header = plain(&LARGEST, 0, 31, 63, 14);
    let arrived = pair.call(&Call::Arrive { port: 31, header });
    assert_eq!(arrived, Ok(Reply::Refused(10)));
    let report = pair.call(&Call::Report { port: 31 });
    assert_eq!(report, Ok(Reply::Mark(8)));
    let place = |entry| Call::Where { entry };
    let ingress = ListKind::Ingress { port: 31 };
    assert_eq!(pair.call(&place(65_535)), Ok(Reply::Found(ingress, 147)));
    assert_eq!(pair.call(&place(65_536)), Ok(Reply::Refused(15)));
    let map = |id, port| Call::Map { id, port };
    assert_eq!(pair.call(&map(4095, 31)), Ok(Reply::Done));
    assert_eq!(pair.call(&map(4095, 32)), Ok(Reply::Refused(4)));
    assert_eq!(pair.call(&map(4096, 32)), Ok(Reply::Refused(15)));

    // Of port 31 only queue 63 has credit, and 0 needs none.
    let credit = |queue| Call::Credit {
        port: 31,
        queue,
        amount: 65_535,
    };
    assert_eq!(pair.call(&credit(63)), Ok(Reply::Done));
    assert_eq!(pair.call(&credit(64)), Ok(Reply::Refused(5)));
    let ready = pair.call(&Call::Ready { port: 31 });
    assert_eq!(ready, Ok(Reply::Word(1 << 63 | 1, 2)));
    let turn = Call::Turn { port: 31 };
    assert!(matches!(
        pair.call(&turn),
        Ok(Reply::Leaves(_, Side::Inside))
    ));
    let packet = Packet {
        entry: 63,
        length: 14 + 63,
        queue: 63,
        destination: 0,
        timestamp: 0,
        poisoned: false,
        transaction: 0,
        price: 2,
    };
    let leaves = Reply::Leaves(packet, Side::Outside);
    assert_eq!(pair.call(&turn), Ok(leaves));
    // Two nodes of port 0 are home, and taken again: by entry ids 0 and 63.
    for entry in [0, 63] {
        let header = plain(&LARGEST, 31, 0, 63, 14);
        let arrived = pair.call(&Call::Arrive { port: 0, header });
        assert_eq!(arrived, Ok(Reply::Entry(entry)));
    }
    let prefetch = |queue| Call::Prefetch { port: 31, queue };
    assert_eq!(pair.call(&prefetch(63)), Ok(Reply::Entry(8 * 64 + 63)));
    assert_eq!(pair.call(&prefetch(63)), Ok(Reply::Refused(13)));
    assert_eq!(pair.call(&prefetch(64)), Ok(Reply::Refused(5)));
    assert!(matches!(
        pair.call(&Call::Stitch { port: 31 }),
        Ok(Reply::Stitched(_))
    ));
    let round = |bytes| Call::Round {
        room: vec![9; bytes],
    };
    assert_eq!(pair.call(&round(127)), Ok(Reply::Refused(27)));
    match pair.call(&round(128)) {
        Ok(Reply::Turns(turns)) => {
            let sent = turns.chunks(4).filter(|turn| turn[1] == 0).count();
            assert_eq!((turns.len(), sent), (128, 32));
        }
        other => panic!("{other:?}"),
    }
    let after = pair.memory()[..pair.lent()].to_vec();
    repaired(after, pair.model.ledger().unwrap());
}

/// A repair of the full switch empties it, with the map kept.
fn repaired(mut memory: Vec<u8>, ledger: &Ledger) {
    PROVED.repairs(&memory, memory.len()).unwrap();
    assert_eq!(calls::repair(&mut memory), 0);
    let after = reader::judged(&memory).unwrap();
    let wanted = Ledger::repaired(largest(), &ledger.map);
    assert_eq!(after.ledger(), Some(&wanted));
}

/// All 65,536 nodes in one list, whose positions end where two bytes do.
#[test]
fn one_list_holds_every_node_there_can_be() {
    let mut ledger = Ledger::starting(largest());
    let mut line = Vec::new();
    for at in &mut ledger.ports {
        for entry in std::mem::take(&mut at.free) {
            let packet = Packet {
                entry,
                length: 14,
                queue: 0,
                destination: 31,
                timestamp: 7,
                poisoned: true,
                transaction: 9,
                price: 0,
            };
            at.packets[model::ledger::index(entry)] = Some(packet);
            line.push(entry);
        }
    }
    ledger.ports[31].egress[0].extend(line);
    let mut pair = Pair::over(&library::call, &ledger, 1);
    assert_eq!(pair.model.check(), Ok(()));
    assert_eq!(PROVED.finds(&pair.memory()[..pair.lent()]), Ok(None));
    let egress = ListKind::Egress { port: 31, queue: 0 };
    for entry in [0, 2047, 2048, 65_535] {
        let found = pair.call(&Call::Where { entry });
        assert_eq!(found, Ok(Reply::Found(egress, entry)));
    }
    // The first goes to a slot and home; all others move up by one.
    let room = vec![0; 128];
    assert!(matches!(
        pair.call(&Call::Round { room }),
        Ok(Reply::Turns(_))
    ));
    let found = pair.call(&Call::Where { entry: 65_535 });
    assert_eq!(found, Ok(Reply::Found(egress, 65_534)));
    let free = ListKind::Free { port: 0 };
    assert_eq!(
        pair.call(&Call::Where { entry: 0 }),
        Ok(Reply::Found(free, 0))
    );
}
