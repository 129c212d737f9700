//! Headers alone and runs where packets are kept, whole packets where they aren't.

use checks::runs::{self, Tally, OTHER_KIND};
use checks::scale::Scale;
use checks::{library, reader};
use model::{Call, Model, Reply, Settings, Shape};
use traffic::{plain, whole_of, Profile, Random, SHAPES};

use crate::Side;

/// Right headers and none at all, at every port and at none.
#[test]
fn headers_alone_are_refused_where_packets_are_kept() {
    let settings = Settings::ten_bytes(2, 64, 1, 16).with_packets();
    let mut side = Side::begun(settings, 2);
    side.bring(1, 5, 100);
    let before = side.memory.clone();
    for port in [0, 1, 2, 3, 4, 256, u32::MAX] {
        let mut wrong_sum = plain(&Shape::TEN_BYTES, 0, port % 4, 1, 12);
        wrong_sum[9] ^= 1;
        for header in [
            plain(&Shape::TEN_BYTES, 0, port % 4, 0, 12),
            plain(&Shape::TEN_BYTES, 0, (port % 4 + 1) % 4, 24, 11),
            wrong_sum,
            vec![],
            vec![0xFF; 9],
            vec![0; 11],
        ] {
            let reply = side.call(&Call::Arrive { port, header });
            assert_eq!(reply, Reply::Refused(24));
            assert!(side.memory == before);
        }
    }
}

/// Of every shape: nothing is taken in, and nothing is shown.
#[test]
fn whole_packets_are_refused_where_none_are_kept() {
    let mut random = Random::new(1);
    for shape in SHAPES {
        let settings = Settings::of(shape, 2, 64, 1, 16);
        let bytes = model::size(&settings);
        let (mut memory, mut model) = (vec![0; bytes], Model::new(bytes));
        let mut both = |call: &Call| {
            let reply = model.call(call);
            assert_eq!(library::call(&mut memory, call).as_ref(), Ok(&reply));
            (reply, memory.clone())
        };
        let (_, begun) = both(&Call::Setup(settings));
        let lent = settings.packet_memory();
        for port in [0, 1, shape.ports] {
            let header = plain(&shape, 0, port % shape.ports, 0, 100);
            let packet = whole_of(&mut random, &header);
            let refused = (Reply::Refused(24), begun.clone());
            assert!(both(&Call::ArrivePacket { port, packet, lent }) == refused);
            let lent = [lent; 4];
            assert!(
                both(&Call::Show {
                    port,
                    queue: 0,
                    lent
                }) == refused
            );
        }
        // A header of its own is taken in, then, and prefetched it is not shown either.
        let header = plain(&shape, 0, 0, 0, 100);
        assert_eq!(both(&Call::Arrive { port: 0, header }).0, Reply::Entry(0));
        both(&Call::Stitch { port: 0 });
        both(&Call::Prefetch { port: 0, queue: 0 });
        let lent = [lent; 4];
        let show = Call::Show {
            port: 0,
            queue: 0,
            lent,
        };
        assert_eq!(both(&show).0, Reply::Refused(24));
    }
}

/// A switch that is set up again with the other kind of arrivals, and back.
#[test]
fn a_setup_may_change_the_kind() {
    let headers = Settings::ten_bytes(2, 64, 1, 16);
    let mut side = Side::begun(headers.with_packets(), 2);
    let (_, packet) = side.bring(0, 0, 100);
    let header = packet[..10].to_vec();
    let arrive = Call::Arrive { port: 0, header };
    assert_eq!(side.call(&arrive), Reply::Refused(24));
    side.call(&Call::Setup(headers));
    assert_eq!(side.call(&arrive), Reply::Entry(0));
    side.compare();
    side.call(&Call::Setup(headers.with_packets()));
    assert_eq!(side.call(&arrive), Reply::Refused(24));
    assert_eq!(side.bring(0, 0, 12).0, 0);
    side.compare();
}

/// A repair keeps the setting: whole packets come in again, and headers don't.
#[test]
fn a_repair_keeps_the_kind() {
    for settings in [
        Settings::ten_bytes(2, 64, 1, 16),
        Settings::ten_bytes(2, 64, 1, 16).with_packets(),
    ] {
        let mut memory = vec![0; model::size(&settings)];
        library::call(&mut memory, &Call::Setup(settings)).unwrap();
        memory[4112..].fill(0xFF);
        assert_eq!(ventorupo::calls::repair(&mut memory), 0);
        assert_eq!(reader::settings(&memory), settings);
        let header = plain(&Shape::TEN_BYTES, 0, 0, 0, 100);
        let packet = whole_of(&mut Random::new(1), &header);
        let arrive = Call::Arrive { port: 0, header };
        let lent = settings.packet_memory();
        let whole = Call::ArrivePacket {
            port: 0,
            packet,
            lent,
        };
        let (right, other) = match settings.packets {
            0 => (arrive, whole),
            _ => (whole, arrive),
        };
        assert_eq!(library::call(&mut memory, &other), Ok(Reply::Refused(24)));
        assert_eq!(library::call(&mut memory, &right), Ok(Reply::Entry(0)));
    }
}

/// Runs of any traffic where packets are kept: arrivals are answered 24, and all
/// else goes on, with packets that single calls bring between the runs.
#[test]
fn runs_agree_with_the_model() {
    let mut tally = Tally::default();
    for run in [runs::PROVED, runs::WRAPPED] {
        for nodes in [1, 4, 16] {
            for (seed, profile) in (1..).zip(Profile::ALL) {
                let scale = Scale::ten_bytes(nodes);
                let plan = runs::Plan {
                    seed,
                    profile,
                    scale,
                    fields: scale.share_with_packets(6_000, nodes),
                    packets: nodes,
                };
                tally.add(&runs::all(&plan, run).unwrap());
            }
        }
    }
    println!("{tally}");
    for number in [4, 5, 12, 13, 14, OTHER_KIND] {
        let times = tally.refused(number);
        assert!(times > 100, "refusal {number}: {times} times");
    }
    // Nothing of a header is looked at.
    for number in [6, 7, 8, 9, 10, 11, 19, 20] {
        assert_eq!(tally.refused(number), 0, "refusal {number}");
    }
}

/// A run that overlooks the kind: found.
#[test]
fn a_run_that_takes_headers_in_is_found() {
    let scale = Scale::ten_bytes(4);
    let plan = runs::Plan {
        seed: 1,
        profile: Profile::Hostile,
        scale,
        fields: 4_000,
        packets: 4,
    };
    let slip: runs::Run = |memory, fields, answers, count, why| {
        let kept = reader::settings(memory).packets as u8;
        memory[15] = 0;
        let number = runs::PROVED(memory, fields, answers, count, why);
        memory[15] = kept;
        number
    };
    runs::all(&plan, runs::PROVED).unwrap();
    let told = runs::all(&plan, slip).unwrap_err();
    println!("{told}");
    assert!(told.contains("the model [24, 0, 0, 0]"), "{told}");
}
