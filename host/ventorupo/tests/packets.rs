//! Whole packets: where they are kept, what is shown of them, and the refusals that are
//! theirs. All else is as of a switch that keeps none.

mod common;

use std::fmt::Debug;

use common::{checksum, switch};
use ventorupo::{
    calls, find, repair, Answer, Batch, EntryId, Halt, Header, Refusal, RoundTurn, Settings,
    Switch, Turn, SLOT_BYTES,
};

/// Two nodes a port, beat 64, two slots, credit for two of the longest packets.
const HEADERS: Settings = Settings::ten_bytes().nodes(2).beat(64).slots(2).credit(256);
const WHOLE: Settings = HEADERS.with_packets();

/// Where the setting stands, where the last served queues do, and the marks
/// (docs/LAYOUT.md).
const KEEPS: usize = 15;
const LAST: usize = 4112;
const HALTED: usize = 4116;

/// What the packet memories are full of before a packet comes.
const STALE: u8 = 0xA5;

type Memories = [Vec<u8>; 4];

fn memories(settings: Settings) -> Memories {
    [(); 4].map(|()| vec![STALE; settings.packet_memory()])
}

fn lent(packets: &Memories) -> [&[u8]; 4] {
    let [p0, p1, p2, p3] = packets;
    [p0, p1, p2, p3]
}

/// The packet of a header: no two bytes in a row are the same, and another
/// transaction has other bytes.
fn packet(header: Header) -> Vec<u8> {
    let mut packet = WHOLE.form().write(&header).unwrap().to_vec();
    let byte = |i: u32| (i * 5 + header.transaction + 1) as u8;
    packet.extend((10..header.length).map(byte));
    packet
}

/// From a port to destination 1, in queue 7.
fn header(source: u32, length: u32, transaction: u32) -> Header {
    Header {
        destination: 1,
        source,
        queue: 7,
        length,
        transaction,
        ..Header::default()
    }
}

/// The bytes with their checksum in the tenth.
fn summed(mut bytes: Vec<u8>) -> Vec<u8> {
    bytes[9] = checksum(&bytes[..9]);
    bytes
}

#[test]
fn the_setting_is_all_that_a_setup_writes_besides() {
    let mut headers = switch(HEADERS).into_memory();
    assert_eq!(headers[KEEPS], 0);
    headers[KEEPS] = 1;
    assert_eq!(switch(WHOLE).memory(), headers);
    assert_eq!(find(&headers), None);
}

/// Every slot in turn, of every port: the packet at its start, and no other byte.
#[test]
fn a_packet_goes_to_the_start_of_its_nodes_slot() {
    let mut switch = switch(WHOLE);
    let mut packets = memories(WHOLE);
    for (port, length) in (0..4).zip([12, 20, 8190, 8191]) {
        for index in 0..2 {
            let whole = packet(header(port, length, index));
            let mut wanted = packets.clone();
            let at = index as usize * SLOT_BYTES;
            wanted[port as usize][at..at + whole.len()].copy_from_slice(&whole);
            let own = &mut packets[port as usize];
            let entry = switch.arrive_packet(own, port, &whole).unwrap();
            assert_eq!(u32::from(entry.0), port * 2048 + index);
            assert!(packets == wanted, "port {port}, node {index}");
        }
    }
}

/// The shorter of two packets leaves the longer's end in the slot.
#[test]
fn the_rest_of_a_slot_stays() {
    let one = WHOLE.nodes(1);
    let mut switch = switch(one);
    let mut packets = memories(one);
    for length in [300, 12, 40] {
        let before = packets[2].clone();
        let whole = packet(header(2, length, length % 256));
        switch.credit(0, 7, 5).unwrap();
        switch.arrive_packet(&mut packets[2], 2, &whole).unwrap();
        let (stored, rest) = packets[2].split_at(whole.len());
        assert_eq!((stored, rest), (&whole[..], &before[whole.len()..]));
        switch.round().unwrap();
    }
}

/// Packets of two ports in one queue, one after another, each where it lies.
#[test]
fn the_oldest_in_the_slots_is_shown_where_it_lies() {
    let mut switch = switch(WHOLE);
    let mut packets = memories(WHOLE);
    switch.map(1, 3).unwrap();
    switch.credit(3, 7, 1000).unwrap();
    // Ports, nodes and lengths in the order in which they are stitched.
    let order = [(2, 0, 8191), (0, 0, 12), (2, 1, 77), (0, 1, 100)];
    for (port, _, length) in order {
        let whole = packet(header(port, length, length % 256));
        let own = &mut packets[port as usize];
        switch.arrive_packet(own, port, &whole).unwrap();
        switch.stitch(port).unwrap();
    }
    let nothing = Err(Refusal::NothingThere);
    assert_eq!(switch.show(lent(&packets), 3, 7), nothing);
    switch.prefetch(3, 7).unwrap();
    for (port, index, length) in order {
        // The one behind it is another.
        let _ = switch.prefetch(3, 7);
        let before = (switch.memory().to_vec(), packets.clone());
        let shown = switch.show(lent(&packets), 3, 7).unwrap();
        assert_eq!(shown, packet(header(port, length, length % 256)));
        let at = index * SLOT_BYTES;
        let there = &packets[port as usize][at..at + length as usize];
        assert!(std::ptr::eq(shown, there), "port {port}, node {index}");
        assert!((switch.memory(), &packets) == (&before.0[..], &before.1));
        // Other queues and ports have none, and a turn sends what was shown.
        assert_eq!(switch.show(lent(&packets), 3, 6), nothing);
        assert_eq!(switch.show(lent(&packets), 1, 7), nothing);
        let sent = EntryId((port * 2048) as u16 + index as u16);
        assert!(matches!(switch.turn(3), Ok(Turn::Sent(packet)) if packet.entry == sent));
    }
    assert_eq!(switch.show(lent(&packets), 3, 7), nothing);
}

/// The last node of the last port, of as many as a port can have.
#[test]
fn the_last_slot_of_the_largest_memory() {
    let most = WHOLE.nodes(2048);
    let mut switch = switch(most);
    let mut packets = memories(most);
    let whole = packet(Header {
        queue: 0,
        ..header(3, 8191, 1)
    });
    switch.map(1, 2).unwrap();
    for index in 0..2047 {
        let entry = switch.arrive_packet(&mut packets[3], 3, &whole);
        assert_eq!(entry, Ok(EntryId(3 * 2048 + index)));
        switch.round().unwrap();
    }
    let mut last = packets[3].clone();
    last[2047 * SLOT_BYTES..][..8191].copy_from_slice(&whole);
    switch.arrive_packet(&mut packets[3], 3, &whole).unwrap();
    assert!(packets[3] == last);
    switch.stitch(3).unwrap();
    switch.prefetch(2, 0).unwrap();
    let shown = switch.show(lent(&packets), 2, 0).unwrap();
    assert!(std::ptr::eq(
        shown,
        &packets[3][2047 * SLOT_BYTES..][..8191]
    ));
}

/// So many bytes as were recorded, whatever stands in the slot by now.
#[test]
fn show_goes_by_the_recorded_length() {
    let mut switch = switch(WHOLE);
    let mut packets = memories(WHOLE);
    let whole = packet(header(0, 50, 0));
    switch.arrive_packet(&mut packets[0], 0, &whole).unwrap();
    switch.stitch(0).unwrap();
    switch.prefetch(0, 7).unwrap();
    // The caller's memory: what stands there is shown.
    packets[0][..10].fill(0);
    let shown = switch.show(lent(&packets), 0, 7).unwrap();
    assert_eq!(shown, &packets[0][..50]);
}

/// A call of a whole packet on a memory, with all that it may change.
struct Tried {
    memory: Vec<u8>,
    packets: Vec<u8>,
    port: u32,
    packet: Vec<u8>,
}

impl Tried {
    /// The call is refused so, and leaves the memory as told and the others as they are.
    fn is_refused(&mut self, refusal: Refusal, left: &[u8]) {
        let (before, mut entry) = (self.packets.clone(), 0x1234);
        let number = calls::arrive_packet(
            &mut self.memory,
            &mut self.packets,
            self.port,
            &self.packet,
            &mut entry,
        );
        assert_eq!(Refusal::from_number(number), Some(refusal));
        assert!(self.memory == left, "{refusal:?}");
        assert!(self.packets == before && entry == 0x1234, "{refusal:?}");
    }

    fn changes_nothing(&mut self, refusal: Refusal) {
        let before = self.memory.clone();
        self.is_refused(refusal, &before);
    }

    /// The same, but of fewer or more bytes the packet is refused 16.
    fn counts(&mut self, refusal: Refusal) {
        let length = self.packet.len();
        for bytes in [10, length - 1, length + 1] {
            let whole = self.packet.clone();
            self.packet.resize(bytes, 0);
            self.changes_nothing(Refusal::PacketBytes);
            self.packet = whole;
        }
        self.changes_nothing(refusal);
    }

    /// The same, and the port is halted; then it is cleared.
    fn halts(&mut self, refusal: Refusal) {
        let mut left = self.memory.clone();
        left[HALTED + self.port as usize] = refusal.number() as u8;
        self.is_refused(refusal, &left);
        self.memory[HALTED + self.port as usize] = 0;
    }
}

/// Everything is wrong with a call, and one after another is put right.
#[test]
fn a_packets_refusals_in_their_order() {
    let none_left = HEADERS.nodes(1).credit(3);
    let mut full = switch(none_left.with_packets());
    let free = packet(Header {
        queue: 0,
        ..header(2, 30, 9)
    });
    let mut packets = vec![STALE; SLOT_BYTES];
    full.arrive_packet(&mut packets, 2, &free).unwrap();
    let mut tried = Tried {
        memory: full.into_memory(),
        packets: vec![STALE; SLOT_BYTES - 1],
        port: 4,
        packet: vec![0xFF; 9],
    };
    tried.memory[KEEPS] = 0;
    tried.memory[LAST] = 24;
    tried.changes_nothing(Refusal::NoState);
    tried.memory[LAST] = 23;
    tried.changes_nothing(Refusal::OtherKind);
    tried.memory[KEEPS] = 1;
    tried.changes_nothing(Refusal::PacketMemory);
    tried.packets = vec![STALE; SLOT_BYTES + 1];
    tried.changes_nothing(Refusal::PacketMemory);
    tried.packets = packets;
    tried.changes_nothing(Refusal::NoPort);
    tried.port = 2;
    tried.changes_nothing(Refusal::PacketBytes);
    // A header and no more.
    tried.packet = vec![0xFF; 10];
    tried.halts(Refusal::Checksum);
    // Destination 0, source 1, queue 31, length 11, a reserved bit of 1; 300 bytes.
    tried.packet = vec![0; 300];
    tried.packet[..3].copy_from_slice(&[0x1F, 0x80, 0x2D]);
    tried.halts(Refusal::Checksum);
    tried.packet = summed(tried.packet);
    tried.changes_nothing(Refusal::ReservedBit);
    tried.packet[2] = 0x2C;
    tried.packet = summed(tried.packet);
    tried.halts(Refusal::Source);
    tried.packet[0] = 0x2F;
    tried.packet = summed(tried.packet);
    tried.changes_nothing(Refusal::TooShort);
    // Length 12, and that is the count which must not be taken for it.
    tried.packet[2] = 0x30;
    tried.packet = summed(tried.packet);
    tried.changes_nothing(Refusal::PacketBytes);
    // Length 300.
    tried.packet[1..3].copy_from_slice(&[0x84, 0xB0]);
    tried.packet = summed(tried.packet);
    tried.counts(Refusal::HeaderQueue);
    tried.packet = packet(header(2, 300, 1));
    tried.counts(Refusal::NoCredit);
    tried.packet = packet(header(2, 192, 1));
    tried.counts(Refusal::NoFreeNode);
}

/// Above the largest packet, and more than a whole memory.
#[test]
fn packets_too_long_for_a_slot() {
    let mut switch = switch(WHOLE);
    let mut packets = memories(WHOLE);
    let before = switch.memory().to_vec();
    for bytes in [SLOT_BYTES, SLOT_BYTES + 12, WHOLE.packet_memory() + 8191] {
        let mut whole = packet(header(1, 8191, 1));
        whole.resize(bytes, 7);
        let answer = switch.arrive_packet(&mut packets[1], 1, &whole);
        assert_eq!(answer, Err(Refusal::PacketBytes));
    }
    assert!(switch.memory() == before && packets == memories(WHOLE));
}

/// One byte less or more of each of the four memories, and all else wrong behind it.
#[test]
fn shows_refusals_in_their_order() {
    let mut state = switch(WHOLE).into_memory();
    let right = memories(WHOLE);
    let refused = |state: &[u8], packets: [&[u8]; 4], port, queue| {
        let (before, mut room) = (state.to_vec(), (11, 22, 33));
        let (owner, at, length) = (&mut room.0, &mut room.1, &mut room.2);
        let number = calls::show(state, packets, port, queue, owner, at, length);
        assert_eq!((state, room), (&before[..], (11, 22, 33)));
        Refusal::from_number(number)
    };
    let empty: [&[u8]; 4] = [&[]; 4];
    state[KEEPS] = 0;
    state[LAST] = 24;
    assert_eq!(refused(&state, empty, 4, 24), Some(Refusal::NoState));
    state[LAST] = 23;
    assert_eq!(refused(&state, empty, 4, 24), Some(Refusal::OtherKind));
    state[KEEPS] = 1;
    assert_eq!(refused(&state, empty, 4, 24), Some(Refusal::PacketMemory));
    let longer = vec![STALE; WHOLE.packet_memory() + 1];
    for port in 0..4 {
        for other in [&longer[2..], &longer[..]] {
            let mut wrong = lent(&right);
            wrong[port] = other;
            assert_eq!(refused(&state, wrong, 4, 24), Some(Refusal::PacketMemory));
        }
    }
    let right = lent(&right);
    assert_eq!(refused(&state, right, 4, 24), Some(Refusal::NoPort));
    assert_eq!(refused(&state, right, u32::MAX, 0), Some(Refusal::NoPort));
    assert_eq!(refused(&state, right, 3, 24), Some(Refusal::NoQueue));
    assert_eq!(refused(&state, right, 3, u32::MAX), Some(Refusal::NoQueue));
    assert_eq!(refused(&state, right, 3, 23), Some(Refusal::NothingThere));
    // Queue 0 has slots too.
    assert_eq!(refused(&state, right, 3, 0), Some(Refusal::NothingThere));
}

/// A header alone, on a state that keeps packets, and the other way about.
#[test]
fn the_other_kind_is_refused_before_all_but_3() {
    let other = Err(Refusal::OtherKind);
    let mut whole = switch(WHOLE);
    let before = whole.memory().to_vec();
    // A port that is none; no header; one with a wrong checksum; a right one.
    let right = packet(header(1, 12, 0));
    for (port, header) in [(4, &right[..0]), (1, &[0xFF; 10]), (1, &right[..10])] {
        assert_eq!(whole.arrive(port, header), other);
    }
    assert_eq!(whole.memory(), before);
    for settings in [
        HEADERS,
        Settings::wide(4, 24).nodes(2).beat(64).slots(2).credit(256),
    ] {
        let mut headers = switch(settings);
        let before = headers.memory().to_vec();
        let mut packets = memories(WHOLE);
        assert_eq!(headers.arrive_packet(&mut packets[1], 1, &right), other);
        assert_eq!(headers.arrive_packet(&mut [], 4, &[]), other);
        assert_eq!(
            headers.show(lent(&packets), 1, 7).map(|_| ()),
            Err(Refusal::OtherKind)
        );
        assert_eq!(
            headers.show([&[]; 4], 4, 24).map(|_| ()),
            Err(Refusal::OtherKind)
        );
        assert!(headers.memory() == before && packets == memories(WHOLE));
    }
    let mut broken = whole.into_memory();
    broken[LAST] = 24;
    let answer = Switch::over(broken).arrive(1, &right[..10]);
    assert_eq!(answer, Err(Refusal::NoState));
}

/// In a run headers alone arrive, and are refused; the others are done.
#[test]
fn a_run_takes_no_packets_in() {
    let mut switch = switch(WHOLE);
    let mut packets = memories(WHOLE);
    let whole = packet(header(2, 20, 0));
    switch.arrive_packet(&mut packets[2], 2, &whole).unwrap();
    let mut batch = Batch::new(WHOLE.form()).unwrap();
    batch.map_to(1, 3).credit(3, 7, 1).stitch(2);
    batch.arrive(2, &whole[..10]).unwrap();
    batch.arrive(9, &[0xFF; 10]).unwrap();
    batch.prefetch(3, 7).turn(3);
    let entry = EntryId(4096);
    let refused = Answer::Arrived(Err(Refusal::OtherKind));
    let answers = [
        Answer::Mapped(Ok(())),
        Answer::Credited(Ok(())),
        Answer::Stitched(Ok(entry)),
        refused,
        refused,
        Answer::Prefetched(Ok(entry)),
        Answer::Turned(Ok(Some(entry))),
    ];
    assert_eq!(switch.run(&batch).unwrap(), answers);
    assert_eq!(switch.report(2), Ok(None));
}

/// A state of each kind, which the same calls keep the same.
struct Both {
    whole: Switch<Vec<u8>>,
    headers: Switch<Vec<u8>>,
    packets: Memories,
}

impl Both {
    fn call<T: Debug + PartialEq>(&mut self, call: impl Fn(&mut Switch<Vec<u8>>) -> T) -> T {
        let answer = call(&mut self.whole);
        assert_eq!(call(&mut self.headers), answer);
        self.are_the_same();
        answer
    }

    /// A packet arrives at one, and its header at the other.
    fn arrive(&mut self, port: u32, packet: &[u8]) -> Result<EntryId, Refusal> {
        let own = &mut self.packets[port as usize];
        let answer = self.whole.arrive_packet(own, port, packet);
        assert_eq!(self.headers.arrive(port, &packet[..10]), answer);
        self.are_the_same();
        answer
    }

    /// But for the byte of the setting.
    fn are_the_same(&self) {
        let mut image = self.whole.memory().to_vec();
        assert_eq!(image[KEEPS], 1);
        image[KEEPS] = 0;
        assert!(image == self.headers.memory());
    }
}

#[test]
fn all_else_is_as_of_headers() {
    let mut both = Both {
        whole: switch(WHOLE),
        headers: switch(HEADERS),
        packets: memories(WHOLE),
    };
    for (port, entry) in [(0, 0), (0, 1), (2, 4096)] {
        let arrived = both.arrive(port, &packet(header(port, 100, 0)));
        assert_eq!(arrived, Ok(EntryId(entry)));
    }
    let full = both.arrive(0, &packet(header(0, 100, 0)));
    assert_eq!(full, Err(Refusal::NoFreeNode));
    // A bit goes wrong, and the port is halted.
    let right = packet(header(3, 100, 0));
    let mut wrong = right.clone();
    wrong[9] ^= 1;
    assert_eq!(both.arrive(3, &wrong), Err(Refusal::Checksum));
    assert_eq!(both.arrive(3, &right), Err(Refusal::NoCredit));
    assert_eq!(both.call(|s| s.report(3)), Ok(Some(Halt::Checksum)));
    both.call(|s| s.clear(3)).unwrap();
    both.call(|s| s.map(1, 3)).unwrap();
    both.call(|s| s.credit(3, 7, 5)).unwrap();
    both.call(|s| s.stitch(0)).unwrap();
    both.call(|s| s.stitch(1)).unwrap_err();
    both.call(|s| s.prefetch(3, 7)).unwrap();
    assert_eq!(both.call(|s| s.ready(3)).unwrap().word, 1 << 7);
    assert_eq!(both.call(|s| s.place_of(EntryId(0))).unwrap().position, 0);
    let sent = both.call(|s| s.timed_turn(3, 12)).unwrap();
    assert!(matches!(sent, Turn::Sent(packet) if packet.entry == EntryId(0)));
    assert_eq!(both.call(|s| s.buckets(3)).unwrap()[4], 1);
    let sent = RoundTurn::Sent(EntryId(1));
    assert_eq!(both.call(|s| s.round()).unwrap()[3], sent);
    assert_eq!(both.call(|s| s.turn(3)), Ok(Turn::Idle));
    assert_eq!(both.call(|s| s.audit()).unwrap().len(), 8);
    both.call(|s| s.repair()).unwrap();
    assert!(both.whole.memory()[HALTED..] == switch(WHOLE).memory()[HALTED..]);
}

/// What is in the row of the setting, of every byte that it can have.
#[test]
fn the_row_of_the_setting() {
    let wide = Settings::wide(4, 24).nodes(2).beat(64).slots(2).credit(256);
    for (settings, most) in [(HEADERS, 1), (wide, 0)] {
        let mut image = switch(settings).into_memory();
        for number in (0..=257u16).chain([65_535]) {
            image[KEEPS - 1..=KEEPS].copy_from_slice(&number.to_be_bytes());
            let found = find(&image).map(|finding| finding.to_string());
            let wanted = (number > most).then(|| "rule (a), item 7".to_string());
            assert_eq!(found, wanted, "{settings:?}: {number}");
            let mended = repair(&mut image).is_ok();
            assert_eq!(mended, number <= most);
            assert_eq!(image[KEEPS - 1..=KEEPS], number.to_be_bytes());
        }
    }
}
