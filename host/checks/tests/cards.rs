//! The paper's cards and check values, through the library, on a switch with the
//! ten-byte header; `wide` has those of the others.

use model::checksum::crc8;
use traffic::header;
use ventorupo::{
    find, repair, EntryId, Finding, Halt, ListKind, Refusal, RoundTurn, Rule, Settings, SetupError,
    Side, Switch, Turn,
};

const SMALL: Settings = Settings::ten_bytes().nodes(8).beat(64).slots(4).credit(128);

const SHORTEST: [u8; 10] = [0, 0, 0x30, 0, 0, 0, 0, 0, 0, 0x72];

fn switch(settings: Settings) -> Switch<Vec<u8>> {
    let memory = vec![0; ventorupo::size(&settings).unwrap()];
    Switch::setup(memory, settings).unwrap()
}

fn plain(dest: u32, source: u32, queue: u32, length: u32) -> [u8; 10] {
    header(dest, source, queue, length, false, false, 0, 0, 0)
}

/// A packet of port 0 for port 0, up to the prefetch list.
fn bring(switch: &mut Switch<Vec<u8>>, queue: u32, length: u32) {
    switch.arrive(0, &plain(0, 0, queue, length)).unwrap();
    switch.stitch(0).unwrap();
    switch.prefetch(0, queue).unwrap();
}

/// One of the least length and, above queue 0, outward credit for it.
fn bring_covered(switch: &mut Switch<Vec<u8>>, queue: u32) {
    bring(switch, queue, 12);
    if queue > 0 {
        switch.credit(0, queue, 1).unwrap();
    }
}

/// The queue that a turn of port 0 serves.
fn served(switch: &mut Switch<Vec<u8>>) -> u8 {
    match switch.turn(0).unwrap() {
        Turn::Sent(sent) => sent.queue,
        Turn::Idle => panic!("idle"),
    }
}

/// The published check value of this CRC-8 is F4, for the digits 1 to 9: of
/// all last bytes, the library refuses that one alone for another fault.
#[test]
fn published_check_value() {
    assert_eq!(crc8(b"123456789"), 0xF4);
    for last in 0..=255 {
        let mut switch = switch(SMALL);
        let mut header = *b"123456789?";
        header[9] = last;
        // The digit 3 is 33 in hex: as a header's byte, it has the reserved bit.
        let wanted = match last {
            0xF4 => Refusal::ReservedBit,
            _ => Refusal::Checksum,
        };
        assert_eq!(switch.arrive(3, &header), Err(wanted));
    }
}

#[test]
fn price_cases() {
    for (length, price) in [(12, 1), (64, 1), (65, 2), (76, 2), (8191, 128)] {
        for (queue, price) in [(7, price), (0, 0)] {
            let mut switch = switch(SMALL);
            bring(&mut switch, queue, length);
            if price > 0 {
                switch.credit(0, queue, price - 1).unwrap();
                assert_eq!(switch.turn(0), Ok(Turn::Idle));
                switch.credit(0, queue, 1).unwrap();
            }
            match switch.turn(0).unwrap() {
                Turn::Sent(sent) => assert_eq!(u32::from(sent.price), price),
                Turn::Idle => panic!("idle at length {length}"),
            }
        }
    }
}

#[test]
fn ten_zero_bytes() {
    let mut switch = switch(SMALL);
    assert_eq!(switch.arrive(0, &[0; 10]), Err(Refusal::TooShort));
    assert_eq!(switch.arrive(1, &[0; 10]), Err(Refusal::Source));
}

#[test]
fn shortest_packet() {
    let mut switch = switch(SMALL);
    let mut wrong = SHORTEST;
    wrong[9] = 0x73;
    assert_eq!(switch.arrive(0, &wrong), Err(Refusal::Checksum));
    assert_eq!(switch.arrive(0, &SHORTEST), Ok(EntryId(0)));
    let mut memory = switch.into_memory();
    let mut record = [0xFF; 10];
    assert_eq!(ventorupo::calls::stitch(&mut memory, 0, &mut record), 0);
    assert_eq!(record, [0, 0, 0, 0x0C, 0, 0, 0, 0, 0, 0]);
}

#[test]
fn first_bytes() {
    let mut header = [0x6B, 0xFF, 0xFC, 0, 0, 0, 0, 0, 0, 0];
    header[9] = crc8(&header[..9]);
    let mut switch = switch(SMALL);
    switch.map(1, 3).unwrap();
    assert_eq!(switch.arrive(2, &header), Ok(EntryId(2 * 2048)));
    let record = switch.stitch(2).unwrap();
    assert_eq!((record.queue, record.length, record.port), (23, 8191, 3));
}

#[test]
fn one_node_is_used_again() {
    let mut switch = switch(SMALL.nodes(1));
    assert_eq!(switch.arrive(0, &SHORTEST), Ok(EntryId(0)));
    assert_eq!(switch.arrive(0, &SHORTEST), Err(Refusal::NoFreeNode));
    switch.stitch(0).unwrap();
    switch.prefetch(0, 0).unwrap();
    assert_eq!(served(&mut switch), 0);
    assert_eq!(switch.arrive(0, &SHORTEST), Ok(EntryId(0)));
}

#[test]
fn three_ready_after_queue_5() {
    let mut switch = switch(SMALL);
    bring_covered(&mut switch, 5);
    assert_eq!(served(&mut switch), 5);
    for queue in [2, 2, 5, 5, 9, 9] {
        bring_covered(&mut switch, queue);
    }
    for queue in [9, 2, 5] {
        let ready = switch.ready(0).unwrap();
        assert_eq!((ready.word, ready.count), (1 << 2 | 1 << 5 | 1 << 9, 3));
        assert_eq!(served(&mut switch), queue);
    }
}

#[test]
fn all_ready_after_queue_5() {
    let mut switch = switch(SMALL.nodes(64));
    bring_covered(&mut switch, 5);
    assert_eq!(served(&mut switch), 5);
    for queue in 0..24 {
        bring_covered(&mut switch, queue);
        bring_covered(&mut switch, queue);
    }
    for turn in 1..=24 {
        assert_eq!(switch.ready(0).unwrap().count, 24);
        assert_eq!(served(&mut switch), (5 + turn) % 24);
    }
}

#[test]
fn outward_credit_at_its_most() {
    let mut switch = switch(SMALL);
    switch.credit(3, 23, 65_535).unwrap();
    assert_eq!(switch.credit(3, 23, 0), Ok(()));
    assert_eq!(switch.credit(3, 23, 1), Err(Refusal::TooMuchCredit));
    assert_eq!(switch.credit(3, 23, u32::MAX), Err(Refusal::TooMuchCredit));
}

#[test]
fn nodes_per_port() {
    for (nodes, wanted) in [
        (256, None),
        (0, Some(Refusal::BadSetting)),
        (2049, Some(Refusal::BadSetting)),
        // The most that 65,536 bytes are enough for.
        (1133, None),
        (1134, Some(Refusal::ShortMemory)),
        (2048, Some(Refusal::ShortMemory)),
    ] {
        let settings = SMALL.nodes(nodes);
        match Switch::setup(vec![0; 65_536], settings) {
            Ok(_) => assert_eq!(wanted, None),
            Err(SetupError { refusal, memory }) => {
                assert_eq!(Some(refusal), wanted);
                assert_eq!(memory, vec![0; 65_536]);
            }
        }
    }
}

/// All the nodes that entry ids allow, in one list: ids and positions to 8,191.
#[test]
fn one_queue_holds_every_node() {
    let settings = SMALL.nodes(2048);
    let mut switch = Switch::setup(vec![0; 113_112], settings).unwrap();
    for entry in 0..8192 {
        let port = u32::from(entry / 2048);
        let header = plain(0, port, 0, 12);
        assert_eq!(switch.arrive(port, &header), Ok(EntryId(entry)));
        switch.stitch(port).unwrap();
    }
    for entry in [0, 2047, 2048, 8191] {
        let place = switch.place_of(EntryId(entry)).unwrap();
        let egress = ListKind::Egress { port: 0, queue: 0 };
        assert_eq!((place.list, place.position), (egress, entry));
    }
    for port in 0..4 {
        let header = plain(0, port, 0, 12);
        assert_eq!(switch.arrive(port, &header), Err(Refusal::NoFreeNode));
    }
}

#[test]
fn prefetch_with_nothing_to_take_and_full_slots() {
    let mut switch = switch(SMALL.slots(1));
    bring(&mut switch, 3, 12);
    assert_eq!(switch.prefetch(0, 3), Err(Refusal::NothingThere));
    switch.arrive(0, &plain(0, 0, 3, 12)).unwrap();
    switch.stitch(0).unwrap();
    assert_eq!(switch.prefetch(0, 3), Err(Refusal::SlotsInUse));
}

#[test]
fn the_bench_programs_whole_case() {
    let mut switch = switch(Settings::ten_bytes().nodes(1).beat(64).slots(1).credit(16));
    assert_eq!(switch.arrive(0, &SHORTEST), Ok(EntryId(0)));
    assert_eq!(switch.stitch(0).unwrap().entry, EntryId(0));
    assert_eq!(switch.prefetch(0, 0), Ok(EntryId(0)));
    assert_eq!(served(&mut switch), 0);
    assert_eq!(switch.turn(0), Ok(Turn::Idle));
    assert_eq!(switch.turn(4), Err(Refusal::NoPort));
}

#[test]
fn port_3_node_5_is_6149() {
    let switch = switch(SMALL);
    let place = switch.place_of(EntryId(6149)).unwrap();
    assert_eq!(
        (place.list, place.position),
        (ListKind::Free { port: 3 }, 5)
    );
    assert_eq!((EntryId(6149).port(), EntryId(6149).index()), (3, 5));
    assert_eq!(switch.place_of(EntryId(8)), Err(Refusal::NoSuchId));
    assert_eq!(switch.place_of(EntryId(8192)), Err(Refusal::NoSuchId));
}

#[test]
fn a_turn_answers_every_recorded_field() {
    let mut switch = switch(SMALL);
    switch.map(3, 1).unwrap();
    let bytes = header(3, 2, 11, 1000, true, false, 0xDEAD_BEEF, 200, 0x5A);
    switch.arrive(2, &bytes).unwrap();
    switch.stitch(2).unwrap();
    switch.prefetch(1, 11).unwrap();
    switch.credit(1, 11, 16).unwrap();
    let sent = ventorupo::Sent {
        side: Side::Outside,
        queue: 11,
        entry: EntryId(4096),
        length: 1000,
        destination: 3,
        timestamp: 0xDEAD_BEEF,
        poisoned: true,
        transaction: 0x5A,
        price: 16,
    };
    assert_eq!(switch.turn(1), Ok(Turn::Sent(sent)));
    // Home to the port in its entry id.
    let place = switch.place_of(EntryId(4096)).unwrap();
    assert_eq!(
        (place.list, place.position),
        (ListKind::Free { port: 2 }, 7)
    );
}

/// Packets that come in at port 1 and leave by port 2: no port, queue,
/// position, count or field of an answer is 0 where another number is right.
#[test]
fn packets_that_cross_from_port_to_port() {
    let mut switch = switch(Settings::ten_bytes().nodes(4).beat(64).slots(2).credit(200));
    let across = header(3, 1, 5, 100, true, false, 0x0102_0304, 9, 171);
    let place = |switch: &Switch<Vec<u8>>, entry| {
        let place = switch.place_of(EntryId(entry)).unwrap();
        (place.list, place.position)
    };
    let ready = |switch: &Switch<Vec<u8>>, port| {
        let ready = switch.ready(port).unwrap();
        (ready.word, ready.count)
    };
    switch.map(3, 2).unwrap();
    assert_eq!(switch.arrive(1, &across), Ok(EntryId(2048)));
    assert_eq!(switch.arrive(1, &across), Ok(EntryId(2049)));
    assert_eq!(place(&switch, 2049), (ListKind::Ingress { port: 1 }, 1));
    assert_eq!(place(&switch, 2051), (ListKind::Free { port: 1 }, 1));
    for entry in [2048, 2049] {
        let record = ventorupo::Record {
            entry: EntryId(entry),
            length: 100,
            queue: 5,
            port: 2,
            timestamp: 0x0102_0304,
        };
        assert_eq!(switch.stitch(1), Ok(record));
    }
    let egress = ListKind::Egress { port: 2, queue: 5 };
    assert_eq!(place(&switch, 2049), (egress, 1));
    assert_eq!(switch.prefetch(2, 5), Ok(EntryId(2048)));
    assert_eq!(switch.prefetch(2, 5), Ok(EntryId(2049)));
    let slots = ListKind::Prefetch { port: 2, queue: 5 };
    assert_eq!(place(&switch, 2049), (slots, 1));
    assert_eq!(ready(&switch, 2), (0, 0));
    assert_eq!(switch.arrive(1, &plain(3, 1, 0, 12)), Ok(EntryId(2050)));
    switch.stitch(1).unwrap();
    assert_eq!(switch.prefetch(2, 0), Ok(EntryId(2050)));
    switch.credit(2, 5, 3).unwrap();
    assert_eq!(ready(&switch, 2), (1 << 5 | 1, 2));
    assert_eq!(ready(&switch, 1), (0, 0));
    for (entry, queue) in [(2050, 0), (2048, 5)] {
        match switch.turn(2).unwrap() {
            Turn::Sent(sent) => assert_eq!((sent.entry, sent.queue), (EntryId(entry), queue)),
            Turn::Idle => panic!("idle before {entry}"),
        }
    }
    assert_eq!(ready(&switch, 2), (0, 0));
    assert_eq!(switch.turn(2), Ok(Turn::Idle));
    assert_eq!(place(&switch, 2048), (ListKind::Free { port: 1 }, 2));
}

/// Every fault at once, then one less each time: the first that is left
/// decides. The only node is taken, and K is 0.
#[test]
fn arrive_tests_in_the_papers_order() {
    for queue in 24..32 {
        let mut switch = switch(SMALL.nodes(1).credit(0));
        switch.arrive(0, &SHORTEST).unwrap();
        let faulty =
            |source, length, reserved| header(0, source, queue, length, true, reserved, 0, 0, 0);
        let mut wrong_sum = faulty(1, 11, true);
        wrong_sum[9] ^= 1;
        for (header, refusal) in [
            (&wrong_sum[..9], Refusal::HeaderSize),
            (&wrong_sum[..], Refusal::Checksum),
            (&faulty(1, 11, true)[..], Refusal::ReservedBit),
            (&faulty(1, 11, false)[..], Refusal::Source),
            (&faulty(0, 11, false)[..], Refusal::TooShort),
            (&faulty(0, 12, false)[..], Refusal::HeaderQueue),
            (&plain(0, 0, 23, 12)[..], Refusal::NoCredit),
            (&plain(0, 0, 0, 12)[..], Refusal::NoFreeNode),
        ] {
            assert_eq!(switch.arrive(4, header), Err(Refusal::NoPort));
            assert_eq!(switch.arrive(0, header), Err(refusal));
        }
    }
}

/// Each alone, where everything else is right; 23 and the poisoned flag are.
#[test]
fn queue_above_23_and_reserved_bit() {
    let mut switch = switch(SMALL);
    for queue in 24..32 {
        let header = plain(0, 0, queue, 12);
        assert_eq!(switch.arrive(0, &header), Err(Refusal::HeaderQueue));
    }
    let flags = |poisoned, reserved| header(0, 0, 23, 12, poisoned, reserved, 0, 0, 0);
    for poisoned in [false, true] {
        let header = flags(poisoned, true);
        assert_eq!(switch.arrive(0, &header), Err(Refusal::ReservedBit));
    }
    assert_eq!(switch.arrive(0, &flags(true, false)), Ok(EntryId(0)));
}

/// Lengths that would be ten if they were cut to a byte or two.
#[test]
fn headers_of_other_lengths() {
    let mut switch = switch(SMALL);
    for length in (0..=300).chain([65_536 + 10, 1 << 20]) {
        let mut header = SHORTEST.to_vec();
        header.resize(length, 0);
        let wanted = match length {
            10 => Ok(EntryId(0)),
            _ => Err(Refusal::HeaderSize),
        };
        assert_eq!(switch.arrive(0, &header), wanted, "{length} bytes");
    }
}

/// Memory of any length from the size on, also where a length cut to two
/// bytes would be too short.
#[test]
fn more_memory_than_needed() {
    let needed = ventorupo::size(&SMALL).unwrap();
    for length in [needed, needed + 1, 65_535, 65_536, 65_537, 131_072, 1 << 24] {
        let mut memory = vec![0x5A; length];
        let mut switch = Switch::setup(&mut memory[..], SMALL).unwrap();
        assert_eq!(switch.arrive(0, &SHORTEST), Ok(EntryId(0)));
        assert_eq!(switch.turn(0), Ok(Turn::Idle));
        assert!(memory[needed..].iter().all(|&byte| byte == 0x5A));
    }
}

// Ports that lie are halted.

/// Where the marks of four ports start (docs/LAYOUT.md).
const HALTED: usize = 4116;

/// Right for port p but for its checksum.
fn wrong_sum(port: u32) -> [u8; 10] {
    let mut header = plain(0, port, 0, 12);
    header[9] ^= 1;
    header
}

/// What is told of the four ports.
fn reports(switch: &Switch<Vec<u8>>) -> [Option<Halt>; 4] {
    [0, 1, 2, 3].map(|port| switch.report(port).unwrap())
}

#[test]
fn a_bad_checksum_halts_its_port() {
    let mut switch = switch(SMALL);
    assert_eq!(switch.arrive(1, &wrong_sum(1)), Err(Refusal::Checksum));
    assert_eq!(reports(&switch), [None, Some(Halt::Checksum), None, None]);
    // All the credit is in hand; 12 bytes cost 1 of 128.
    for queue in 1..24 {
        let header = plain(0, 1, queue, 12);
        assert_eq!(switch.arrive(1, &header), Err(Refusal::NoCredit));
    }
    let inside = plain(0, 1, 0, 8191);
    assert_eq!(switch.arrive(1, &inside), Ok(EntryId(2048)));
    assert_eq!(switch.arrive(0, &plain(0, 0, 1, 12)), Ok(EntryId(0)));
    // Cleared, it goes on with the next node, and has its credit still.
    switch.clear(1).unwrap();
    assert_eq!(reports(&switch), [None; 4]);
    let dearest = plain(0, 1, 1, 8191);
    assert_eq!(switch.arrive(1, &dearest), Ok(EntryId(2049)));
    assert_eq!(
        switch.arrive(1, &plain(0, 1, 1, 12)),
        Err(Refusal::NoCredit)
    );
}

#[test]
fn the_first_mark_stays() {
    let mut switch = switch(SMALL);
    assert_eq!(switch.arrive(3, &wrong_sum(3)), Err(Refusal::Checksum));
    let marked = switch.memory().to_vec();
    // A second fault, and each fault again: refused with their own numbers.
    assert_eq!(switch.arrive(3, &plain(0, 2, 5, 12)), Err(Refusal::Source));
    assert_eq!(switch.arrive(3, &wrong_sum(3)), Err(Refusal::Checksum));
    assert_eq!(switch.report(3), Ok(Some(Halt::Checksum)));
    assert_eq!(switch.memory(), marked);
    // And the other way round.
    switch.clear(3).unwrap();
    assert_eq!(switch.arrive(3, &plain(0, 2, 5, 12)), Err(Refusal::Source));
    assert_eq!(switch.arrive(3, &wrong_sum(3)), Err(Refusal::Checksum));
    assert_eq!(switch.report(3), Ok(Some(Halt::Source)));
}

/// A header from port 2, says its source; but it came in at port 1.
#[test]
fn the_arriving_port_is_marked_and_not_the_source() {
    let mut switch = switch(SMALL);
    let header = plain(0, 2, 5, 12);
    assert_eq!(switch.arrive(1, &header), Err(Refusal::Source));
    assert_eq!(reports(&switch), [None, Some(Halt::Source), None, None]);
    assert_eq!(switch.arrive(2, &header), Ok(EntryId(4096)));
    // With a wrong checksum too.
    let mut header = plain(0, 3, 5, 12);
    header[9] ^= 1;
    assert_eq!(switch.arrive(0, &header), Err(Refusal::Checksum));
    assert_eq!(
        reports(&switch),
        [Some(Halt::Checksum), Some(Halt::Source), None, None]
    );
}

/// One byte differs, and no other; of the later lies none.
#[test]
fn the_mark_is_the_only_change() {
    let mut switch = switch(SMALL);
    bring(&mut switch, 5, 100);
    for (lie, number) in [(wrong_sum(0), 7), (plain(0, 1, 0, 12), 8)] {
        let before = switch.memory().to_vec();
        switch.arrive(0, &lie).unwrap_err();
        let mut left = before.clone();
        left[HALTED] = number;
        assert_eq!(switch.memory(), left);
        switch.arrive(0, &lie).unwrap_err();
        assert_eq!(switch.memory(), left);
        switch.clear(0).unwrap();
        assert_eq!(switch.memory(), before);
    }
}

/// Of a port above the last, and for a size, a reserved bit (beside a wrong
/// source too), a length and a queue.
#[test]
fn other_refusals_mark_nobody() {
    let mut switch = switch(SMALL);
    let before = switch.memory().to_vec();
    let reserved = |source| header(0, source, 0, 12, false, true, 0, 0, 0);
    for (port, header, refusal) in [
        (4, &wrong_sum(0)[..], Refusal::NoPort),
        (4, &plain(0, 0, 5, 12), Refusal::NoPort),
        (u32::MAX, &wrong_sum(3), Refusal::NoPort),
        (1, &wrong_sum(1)[..9], Refusal::HeaderSize),
        (1, &reserved(1), Refusal::ReservedBit),
        (1, &reserved(2), Refusal::ReservedBit),
        (1, &plain(0, 1, 0, 11), Refusal::TooShort),
        (1, &plain(0, 1, 24, 12), Refusal::HeaderQueue),
    ] {
        assert_eq!(switch.arrive(port, header), Err(refusal));
        assert_eq!(switch.memory(), before);
        assert_eq!(reports(&switch), [None; 4]);
    }
    // What no port can be told of is nobody's.
    assert_eq!(switch.report(4), Err(Refusal::NoPort));
    assert_eq!(switch.clear(4), Err(Refusal::NoPort));
}

/// The free list is empty: a queue above 0 is told of the halt, queue 0 of the
/// pool.
#[test]
fn a_halted_port_tests_in_the_papers_order() {
    let mut switch = switch(SMALL.nodes(1));
    switch.arrive(0, &SHORTEST).unwrap();
    assert_eq!(
        switch.arrive(0, &plain(0, 0, 5, 12)),
        Err(Refusal::NoFreeNode)
    );
    switch.arrive(0, &wrong_sum(0)).unwrap_err();
    let faulty = |source, queue, length, reserved| {
        header(0, source, queue, length, false, reserved, 0, 0, 0)
    };
    for (header, refusal) in [
        (&SHORTEST[1..], Refusal::HeaderSize),
        (&wrong_sum(0)[..], Refusal::Checksum),
        (&faulty(1, 24, 11, true), Refusal::ReservedBit),
        (&faulty(1, 24, 11, false), Refusal::Source),
        (&faulty(0, 24, 11, false), Refusal::TooShort),
        (&faulty(0, 24, 12, false), Refusal::HeaderQueue),
        (&faulty(0, 23, 12, false), Refusal::NoCredit),
        (&faulty(0, 0, 12, false), Refusal::NoFreeNode),
    ] {
        assert_eq!(switch.arrive(0, header), Err(refusal));
    }
    assert_eq!(switch.report(0), Ok(Some(Halt::Checksum)));
}

#[test]
fn setup_and_repair_lift_the_mark() {
    let mut switch = switch(SMALL);
    let fresh = switch.memory().to_vec();
    switch.arrive(2, &wrong_sum(2)).unwrap_err();
    // A refused setup leaves it.
    let none = SMALL.slots(0);
    assert_eq!(switch.setup_again(none), Err(Refusal::BadSetting));
    assert_eq!(switch.report(2), Ok(Some(Halt::Checksum)));
    switch.setup_again(SMALL).unwrap();
    assert_eq!(switch.memory(), fresh);
    switch.arrive(2, &wrong_sum(2)).unwrap_err();
    switch.repair().unwrap();
    assert_eq!(switch.memory(), fresh);
    assert_eq!(reports(&switch), [None; 4]);
    // Of a mark that is none too.
    let mut memory = switch.into_memory();
    memory[HALTED + 3] = 255;
    repair(&mut memory).unwrap();
    assert_eq!(memory, fresh);
}

#[test]
fn clear_and_report_of_no_state() {
    let mut memory = vec![0; 65_536];
    let mut mark = 77;
    for port in [0, 3, 4, u32::MAX] {
        assert_eq!(ventorupo::calls::clear(&mut memory, port), 3);
        assert_eq!(ventorupo::calls::report(&memory, port, &mut mark), 3);
    }
    let mut memory = switch(SMALL).into_memory();
    for port in [4, 255, 256, 260, 65_536, u32::MAX] {
        assert_eq!(ventorupo::calls::clear(&mut memory, port), 4);
        assert_eq!(ventorupo::calls::report(&memory, port, &mut mark), 4);
    }
    // A refusal leaves the room.
    assert_eq!(mark, 77);
    assert_eq!(ventorupo::calls::report(&memory, 3, &mut mark), 0);
    assert_eq!(mark, 0);
}

/// 18 comes with beats, and is a mark already; 1 is none.
#[test]
fn marks_written_by_hand() {
    let mut memory = switch(SMALL).into_memory();
    memory[HALTED + 2] = 18;
    assert_eq!(find(&memory), None);
    let mut halted = Switch::over(memory.clone());
    assert_eq!(reports(&halted), [None, None, Some(Halt::Beat), None]);
    assert_eq!(
        halted.arrive(2, &plain(0, 2, 1, 12)),
        Err(Refusal::NoCredit)
    );
    // The first stays.
    assert_eq!(halted.arrive(2, &wrong_sum(2)), Err(Refusal::Checksum));
    assert_eq!(halted.report(2), Ok(Some(Halt::Beat)));
    halted.clear(2).unwrap();
    assert_eq!(halted.arrive(2, &plain(0, 2, 1, 12)), Ok(EntryId(4096)));

    memory[HALTED + 1] = 1;
    let finding = Finding {
        rule: Rule::I,
        item: 1,
    };
    assert_eq!(find(&memory), Some(finding));
    let mut broken = Switch::over(memory.clone());
    assert_eq!(broken.report(1), Err(Refusal::NoState));
    assert_eq!(broken.clear(1), Err(Refusal::NoState));
    // A lie on memory that is no state marks nobody.
    assert_eq!(broken.arrive(0, &wrong_sum(0)), Err(Refusal::NoState));
    assert_eq!(broken.memory(), memory);
}

#[test]
fn turns_go_on_at_a_halted_port() {
    let mut switch = switch(SMALL);
    for queue in [0, 5, 9] {
        bring_covered(&mut switch, queue);
    }
    switch.arrive(0, &plain(0, 0, 7, 12)).unwrap();
    switch.credit(0, 7, 1).unwrap();
    for port in 0..4 {
        switch.arrive(port, &wrong_sum(port)).unwrap_err();
    }
    assert_eq!(switch.ready(0).unwrap().word, 1 << 9 | 1 << 5 | 1);
    assert_eq!([served(&mut switch), served(&mut switch)], [0, 5]);
    // What came in before the halt is stitched, fetched and sent.
    assert_eq!(switch.round().unwrap()[0], RoundTurn::Sent(EntryId(3)));
    assert_eq!(switch.round().unwrap()[0], RoundTurn::Sent(EntryId(2)));
    assert_eq!(switch.round().unwrap()[..], [RoundTurn::Idle; 4]);
    assert_eq!(reports(&switch), [Some(Halt::Checksum); 4]);
}
