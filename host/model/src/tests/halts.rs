//! Ports that lie are halted.

use crate::bench::bench;
use crate::{size, Call, Ledger, Model, Reply, Settings, Shape, MARKS};

use super::{hex, written, written_fully, Desk, ACCEPTED_HEADER, SMALL};

/// Right for port p but for its checksum.
fn wrong_sum(port: u64) -> [u8; 10] {
    let mut header = written(0, port, 0, 12);
    header[9] ^= 1;
    header
}

fn marks(desk: &mut Desk) -> Vec<u8> {
    desk.ledger().ports.iter().map(|port| port.mark).collect()
}

#[test]
fn a_wrong_checksum_halts_its_port() {
    let mut desk = Desk::new(SMALL);
    assert_eq!(desk.report(1), Reply::Mark(0));
    assert_eq!(desk.arrive(1, &wrong_sum(1)), Reply::Refused(7));
    assert_eq!(desk.report(1), Reply::Mark(7));
    assert_eq!(marks(&mut desk), [0, 7, 0, 0]);
    // With all its credit in hand every queue above 0 is turned away, and queue 0 is not.
    for queue in 1..24 {
        assert_eq!(
            desk.arrive(1, &written(0, 1, queue, 12)),
            Reply::Refused(10)
        );
    }
    assert_eq!(desk.arrive(1, &written(0, 1, 0, 12)), Reply::Entry(2048));
    assert_eq!(desk.ledger().ports[1].arrival_credit[1..], [16; 23]);
    // Others go on, and so does the port itself once it is cleared.
    assert_eq!(desk.arrive(2, &written(0, 2, 1, 12)), Reply::Entry(4096));
    assert_eq!(desk.clear(1), Reply::Done);
    assert_eq!(desk.report(1), Reply::Mark(0));
    assert_eq!(desk.arrive(1, &written(0, 1, 1, 12)), Reply::Entry(2049));
}

#[test]
fn a_wrong_source_halts_the_port_where_it_arrives() {
    let mut desk = Desk::new(SMALL);
    assert_eq!(desk.arrive(1, &written(0, 2, 5, 12)), Reply::Refused(8));
    assert_eq!(marks(&mut desk), [0, 8, 0, 0]);
    assert_eq!(desk.arrive(2, &written(0, 2, 5, 12)), Reply::Entry(4096));
}

#[test]
fn the_first_mark_stays() {
    let mut desk = Desk::new(SMALL);
    desk.arrive(3, &wrong_sum(3));
    assert_eq!(desk.arrive(3, &written(0, 2, 5, 12)), Reply::Refused(8));
    assert_eq!(marks(&mut desk), [0, 0, 0, 7]);
    assert_eq!(desk.clear(3), Reply::Done);
    desk.arrive(3, &written(0, 2, 5, 12));
    assert_eq!(desk.arrive(3, &wrong_sum(3)), Reply::Refused(7));
    assert_eq!(marks(&mut desk), [0, 0, 0, 8]);
}

/// A port above the last, a size, a reserved bit, a length, a queue, no credit,
/// no node.
#[test]
fn other_refusals_mark_nobody() {
    let mut desk = Desk::new(Settings { nodes: 1, ..SMALL });
    assert_eq!(desk.arrive(4, &wrong_sum(0)), Reply::Refused(4));
    for (header, wanted) in [
        (&ACCEPTED_HEADER[1..], 6),
        (&written_fully(0, 1, 0, 12, 1, 0, 0, 0), 20),
        (&written(0, 0, 0, 11), 9),
        (&written(0, 0, 24, 12), 19),
        (&written(0, 0, 1, 8191), 10),
    ] {
        assert_eq!(desk.arrive(0, header), Reply::Refused(wanted));
    }
    assert_eq!(desk.arrive(0, &ACCEPTED_HEADER), Reply::Entry(0));
    assert_eq!(desk.arrive(0, &ACCEPTED_HEADER), Reply::Refused(11));
    assert_eq!(marks(&mut desk), [0; 4]);
}

/// A bad header at a halted port has its own number; then 10 before 11.
#[test]
fn a_halted_port_tests_in_the_papers_order() {
    let mut desk = Desk::new(Settings { nodes: 1, ..SMALL });
    desk.arrive(0, &wrong_sum(0));
    assert_eq!(desk.arrive(0, &ACCEPTED_HEADER), Reply::Entry(0));
    for (header, wanted) in [
        (&ACCEPTED_HEADER[1..], 6),
        (&wrong_sum(0)[..], 7),
        (&written_fully(0, 1, 0, 12, 1, 0, 0, 0), 20),
        (&written(0, 1, 1, 11), 8),
        (&written(0, 0, 24, 11), 9),
        (&written(0, 0, 24, 12), 19),
        (&written(0, 0, 1, 12), 10),
        (&written(0, 0, 0, 12), 11),
    ] {
        assert_eq!(desk.arrive(0, header), Reply::Refused(wanted));
    }
    assert_eq!(marks(&mut desk), [7, 0, 0, 0]);
}

#[test]
fn a_halted_port_sends() {
    let mut desk = Desk::new(SMALL);
    for queue in [0, 1, 2] {
        desk.bring_covered(queue);
    }
    desk.arrive(0, &written(0, 0, 3, 12));
    desk.arrive(0, &wrong_sum(0));
    assert_eq!([desk.served(), desk.served()], [0, 1]);
    assert_eq!(desk.ledger().ports[0].arrival_credit[1], 16);
    assert_eq!(desk.round(), [Some(2), None, None, None]);
    assert_eq!(marks(&mut desk), [7, 0, 0, 0]);
}

#[test]
fn a_clear_of_an_unmarked_port_changes_nothing() {
    let mut desk = Desk::new(SMALL);
    desk.bring(5, 100);
    desk.arrive(3, &wrong_sum(3));
    let before = desk.0.clone();
    for port in 0..3 {
        assert_eq!(desk.clear(port), Reply::Done);
    }
    assert_eq!(desk.0, before);
}

#[test]
fn setup_and_repair_lift_marks() {
    let mut desk = Desk::new(SMALL);
    desk.arrive(3, &wrong_sum(3));
    assert_eq!(
        desk.setup(Settings { slots: 0, ..SMALL }),
        Reply::Refused(2)
    );
    assert_eq!(marks(&mut desk), [0, 0, 0, 7]);
    desk.setup(SMALL);
    assert_eq!(marks(&mut desk), [0; 4]);
    let repaired = Ledger::repaired(SMALL, &[0; 4096]);
    assert!(repaired.ports.iter().all(|port| port.mark == 0));
}

/// 18 is a mark already, though nothing gives it.
#[test]
fn every_mark_is_reported_and_halts() {
    let mut desk = Desk::new(SMALL);
    for mark in MARKS {
        desk.ledger().ports[2].mark = mark;
        assert_eq!(desk.report(2), Reply::Mark(mark));
        let reply = desk.arrive(2, &written(0, 2, 1, 12));
        assert_eq!(reply == Reply::Refused(10), mark != 0, "{mark}: {reply:?}");
    }
}

#[test]
fn the_last_of_32_ports() {
    let shape = Shape::wide(32, 64);
    let settings = Settings::of(shape, 2, 64, 1, 16);
    let mut model = Model::new(size(&settings));
    let header = |source, queue| {
        let header = crate::header::Header {
            source,
            queue,
            length: 100,
            ..Default::default()
        };
        crate::header::write(&shape, &header).unwrap()
    };
    model.call(&Call::Setup(settings));
    let mut arrive = |port, source, queue| {
        let header = header(source, queue);
        model.call(&Call::Arrive { port, header })
    };
    assert_eq!(arrive(31, 30, 63), Reply::Refused(8));
    assert_eq!(arrive(31, 31, 63), Reply::Refused(10));
    assert_eq!(arrive(31, 31, 0), Reply::Entry(31 * 2048));
    assert_eq!(arrive(30, 30, 63), Reply::Entry(30 * 2048));
    assert_eq!(model.call(&Call::Report { port: 31 }), Reply::Mark(8));
    assert_eq!(model.call(&Call::Clear { port: 32 }), Reply::Refused(4));
    assert_eq!(model.call(&Call::Clear { port: 31 }), Reply::Done);
    assert_eq!(model.call(&Call::Report { port: 31 }), Reply::Mark(0));
}

/// Ten bytes of hex for a field.
fn digits(header: [u8; 10]) -> String {
    header.iter().map(|byte| format!("{byte:02X}")).collect()
}

/// The bench program has no clear: a setup lifts the mark.
#[test]
fn the_bench_program_halts_until_setup() {
    let setup = "01 0007 0008 0040 04 0010";
    let (lie, above, queue_0) = (wrong_sum(0), written(0, 0, 1, 12), ACCEPTED_HEADER);
    let [lie, above, queue_0] = [lie, above, queue_0].map(digits);
    let input = format!(
        "{setup} 02 000B 00 {above} 02 000B 00 {lie} 02 000B 00 {above} 02 000B 00 {queue_0} {setup} 02 000B 00 {above}"
    );
    let lines = String::from_utf8(bench(&hex(&input))).unwrap();
    assert_eq!(lines, "1 0\n2 0 0\n3 7\n4 10\n5 0 1\n6 0\n7 0 0\n");
}
