//! The wrapper's own promises: memories of every kind, and the refusals.

mod common;

use common::{checksum, switch};
use ventorupo::{
    audit, find, repair, size, EntryId, Finding, Form, Halt, Header, ListKind, Refusal, RoundTurn,
    Rule, Settings, SetupError, Switch, Turn, MOST_PORTS, PLACE_BYTES, TEN_BYTES, TURN_BYTES, WIDE,
};

const SETTINGS: Settings = Settings::ten_bytes().nodes(1).beat(512).slots(8).credit(3);

/// The bytes of its state.
const SIZE: usize = 6668;

/// Where its map, its last served queues and its marks start (docs/LAYOUT.md).
const MAP: usize = 16;
const LAST: usize = 4112;
const HALTED: usize = 4116;

/// Switches of every edition and of the least and the most ports and queues.
const SHAPES: [(u32, u32, u32); 7] = [
    (TEN_BYTES, 4, 24),
    (WIDE, 4, 24),
    (WIDE, 2, 2),
    (WIDE, 2, 64),
    (WIDE, 32, 2),
    (WIDE, 5, 33),
    (WIDE, 32, 64),
];

/// Of each shape, with so many nodes.
fn settings(nodes: u32) -> [Settings; SHAPES.len()] {
    SHAPES.map(|(edition, ports, queues)| {
        SETTINGS
            .edition(edition)
            .ports(ports)
            .queues(queues)
            .nodes(nodes)
    })
}

#[test]
fn memory_of_every_kind() {
    assert_eq!(size(&SETTINGS), Some(SIZE));
    assert!(Switch::setup(vec![0; SIZE], SETTINGS).is_ok());
    assert!(Switch::setup(vec![0; SIZE].into_boxed_slice(), SETTINGS).is_ok());
    assert!(Switch::setup([0; SIZE], SETTINGS).is_ok());
    let mut lent = [0; SIZE + 1];
    lent[SIZE] = 9;
    let switch = Switch::setup(&mut lent[..], SETTINGS).unwrap();
    assert_eq!(switch.into_memory()[SIZE], 9);
    let again = Switch::over(lent);
    assert_eq!(again.ready(0).unwrap().word, 0);
    assert_eq!(again.memory().len(), SIZE + 1);
}

/// As docs/LAYOUT.md has it.
fn bytes(s: &Settings) -> usize {
    let [ports, queues, nodes] = [s.ports, s.queues, s.nodes].map(|n| n as usize);
    let (credits, lists) = (ports * (queues - 1), ports * (2 + 2 * queues));
    16 + 4096 + 2 * ports + 4 * credits + 4 * 33 * ports + 8 * lists + 13 * ports * nodes
}

#[test]
fn sizes_are_the_published_ones() {
    for nodes in [1, 2, 256, 2048] {
        for settings in settings(nodes) {
            assert_eq!(size(&settings), Some(bytes(&settings)), "{settings:?}");
        }
    }
}

#[test]
fn settings_out_of_their_rows() {
    let [ten, .., wide] = settings(1);
    let wrong = [
        ten.nodes(0),
        ten.nodes(2049),
        ten.beat(65),
        wide.slots(0),
        wide.slots(9),
        wide.credit(65_536),
        // Ten bytes need just four ports and 24 queues.
        ten.ports(3),
        ten.ports(5),
        ten.queues(23),
        ten.queues(25),
        wide.ports(1),
        wide.ports(33),
        wide.queues(1),
        wide.queues(65),
        wide.edition(2),
        ten.edition(2),
        wide.ports(u32::MAX),
        ten.packets(2),
        ten.packets(u32::MAX),
        // Packets need ten-byte headers.
        wide.with_packets(),
        ten.edition(WIDE).with_packets(),
    ];
    for settings in wrong {
        assert_eq!(size(&settings), None, "{settings:?}");
        // 2 comes before 1.
        let answer = Switch::setup(vec![7; 3], settings).map(|_| ());
        let refused = SetupError {
            refusal: Refusal::BadSetting,
            memory: vec![7; 3],
        };
        assert_eq!(answer, Err(refused));
    }
}

#[test]
fn a_refused_setup_hands_the_memory_back() {
    let SetupError { refusal, memory } = Switch::setup(vec![7; SIZE - 1], SETTINGS).unwrap_err();
    assert_eq!(refusal, Refusal::ShortMemory);
    assert_eq!(memory, vec![7; SIZE - 1]);
    let mut switch = Switch::over(memory);
    assert_eq!(switch.turn(9), Err(Refusal::NoState));
    assert_eq!(switch.ready(0), Err(Refusal::NoState));
}

#[test]
fn no_memory_at_all() {
    let mut switch = Switch::over(Vec::new());
    assert_eq!(switch.setup_again(SETTINGS), Err(Refusal::ShortMemory));
    assert_eq!(switch.arrive(0, &[]), Err(Refusal::NoState));
}

/// Every entry id: 2,048 of each of 32 ports.
#[test]
fn an_entry_id_is_a_port_and_an_index() {
    for entry in 0..=u16::MAX {
        let id = EntryId(entry);
        assert_eq!((id.port(), id.index()), (entry >> 11, entry & 0x7FF));
    }
}

/// Each field by a number of its own, in the order of the C interface.
#[test]
fn every_field_is_set_by_its_name() {
    let header = Header::new().transaction(8).credit(7).timestamp(6);
    let header = header.length(4).queue(3).source(2).destination(1);
    assert_eq!(header.numbers(), [1, 2, 3, 4, 0, 6, 7, 8]);
    let poisoned = header.poisoned(true);
    assert_eq!(poisoned.numbers(), [1, 2, 3, 4, 1, 6, 7, 8]);
    assert_eq!(poisoned.poisoned(false), header);
    assert_eq!(Header::new().numbers(), [0; 8]);
}

#[test]
fn refusals_and_their_numbers() {
    assert_eq!(Refusal::ALL.len(), 22);
    let numbers = (1..=17).chain([19, 20, 21, 24, 27]);
    for (number, &refusal) in numbers.zip(Refusal::ALL) {
        assert_eq!(refusal.number(), number);
        assert_eq!(Refusal::from_number(number), Some(refusal));
        assert!(!refusal.to_string().is_empty());
    }
    for number in [0, 18, 22, 23, 25, 26, 28, 256 + 3, u32::MAX] {
        assert_eq!(Refusal::from_number(number), None);
    }
    assert_eq!(Refusal::Checksum.to_string(), "checksum differs");
    let _: &dyn std::error::Error = &Refusal::NoState;
}

/// The shortest header, from port 0 to port 0 in queue 0.
const SHORTEST: [u8; 10] = [0, 0, 0x30, 0, 0, 0, 0, 0, 0, 0x72];

#[test]
fn a_round_answers_each_ports_turn() {
    let mut switch = switch(SETTINGS);
    assert_eq!(*switch.round().unwrap(), [RoundTurn::Idle; 4]);
    assert_eq!(switch.arrive(0, &SHORTEST), Ok(EntryId(0)));
    let mut sent = [RoundTurn::Idle; 4];
    sent[0] = RoundTurn::Sent(EntryId(0));
    let turns = switch.round().unwrap();
    assert_eq!(turns[..], sent);
    assert_eq!(format!("{turns:?}"), format!("{sent:?}"));
    assert_eq!(*switch.round().unwrap(), [RoundTurn::Idle; 4]);
}

/// A packet from each port to itself.
#[test]
fn a_round_answers_as_many_turns_as_there_are_ports() {
    for settings in settings(1) {
        let mut switch = switch(settings);
        for port in 0..settings.ports {
            switch.map(port, port).unwrap();
            let header = Header {
                destination: port,
                source: port,
                length: 20,
                ..Header::default()
            };
            let bytes = settings.form().write(&header).unwrap();
            switch.arrive(port, &bytes).unwrap();
        }
        let sent = |port| RoundTurn::Sent(EntryId(port * 2048));
        let sent: Vec<RoundTurn> = (0..settings.ports as u16).map(sent).collect();
        assert_eq!(*switch.round().unwrap(), sent);
        let idle = vec![RoundTurn::Idle; settings.ports as usize];
        assert_eq!(*switch.round().unwrap(), idle);
    }
}

#[test]
fn a_round_writes_into_lent_room() {
    for settings in settings(1) {
        let mut switch = switch(settings);
        let before = switch.memory().to_vec();
        let needed = TURN_BYTES * settings.ports as usize;
        for bytes in [0, 1, needed / 2, needed - 1] {
            let mut room = vec![9; bytes];
            assert_eq!(switch.round_into(&mut room), Err(Refusal::ShortRoom));
            assert_eq!(room, vec![9; bytes]);
        }
        assert_eq!(switch.memory(), before);
        let mut room = vec![9; needed + 3];
        assert_eq!(switch.round_into(&mut room), Ok(()));
        assert_eq!(room[..needed], [0, 1, 0, 0].repeat(settings.ports as usize));
        assert_eq!(room[needed..], [9; 3]);
    }
    let mut switch = switch(SETTINGS);
    switch.arrive(0, &SHORTEST).unwrap();
    let mut room = [9; 16];
    assert_eq!(switch.round_into(&mut room), Ok(()));
    let told = [0, 0, 0, 0, 0, 1, 0, 0, 0, 1, 0, 0, 0, 1, 0, 0];
    assert_eq!(room, told);
}

#[test]
fn a_round_on_no_state_is_refused_3_whatever_the_room() {
    for bytes in [0, TURN_BYTES, TURN_BYTES * MOST_PORTS] {
        let mut switch = Switch::over(vec![7; SIZE]);
        let mut room = vec![9; bytes];
        assert_eq!(switch.round_into(&mut room), Err(Refusal::NoState));
        assert_eq!(switch.round(), Err(Refusal::NoState));
        assert_eq!(
            (room, switch.into_memory()),
            (vec![9; bytes], vec![7; SIZE])
        );
    }
    assert_eq!(Switch::over([]).round(), Err(Refusal::NoState));
}

/// From the last port to itself, in the last queue: every number is its largest.
#[test]
fn the_last_queue_of_the_last_port() {
    for settings in settings(2048) {
        let mut switch = switch(settings);
        let (port, queue) = (settings.ports - 1, settings.queues - 1);
        switch.map(4095, 0).unwrap();
        assert_eq!(switch.map(4096, port + 1), Err(Refusal::NoSuchId));
        assert_eq!(switch.map(4095, port + 1), Err(Refusal::NoPort));
        switch.map(port, port).unwrap();
        let header = Header {
            destination: port,
            source: port,
            queue,
            length: 512,
            timestamp: u32::MAX,
            ..Header::default()
        };
        let bytes = settings.form().write(&header).unwrap();
        let entry = switch.arrive(port, &bytes).unwrap();
        assert_eq!((u32::from(entry.port()), entry.index()), (port, 0));
        assert_eq!(u32::from(switch.stitch(port).unwrap().queue), queue);
        assert_eq!(switch.prefetch(port, queue + 1), Err(Refusal::NoQueue));
        assert_eq!(switch.prefetch(port, queue), Ok(entry));
        assert_eq!(switch.ready(port).unwrap().word, 0);
        switch.credit(port, queue, 1).unwrap();
        assert_eq!(switch.ready(port).unwrap().word, 1 << queue);
        let list = ListKind::Prefetch {
            port: port as u8,
            queue: queue as u8,
        };
        assert_eq!(switch.place_of(entry).unwrap().list, list);
        match switch.turn(port).unwrap() {
            Turn::Sent(sent) => {
                assert_eq!((sent.entry, u32::from(sent.queue)), (entry, queue));
                assert_eq!((sent.price, sent.timestamp), (1, u32::MAX));
            }
            Turn::Idle => panic!("idle"),
        }
        assert_eq!(switch.turn(port + 1), Err(Refusal::NoPort));
        let last = EntryId(port as u16 * 2048 + 2047);
        assert_eq!(switch.place_of(last).unwrap().position, 2046);
    }
}

/// The largest number of each field, in the order of the fields.
fn largest(form: Form) -> [u32; 8] {
    let wide = form.edition == WIDE;
    let port = form.ports.next_power_of_two() - 1;
    let credit = if wide { 65_535 } else { 255 };
    [port, port, form.queues - 1, 8191, 1, u32::MAX, credit, 255]
}

#[test]
fn headers_are_written_and_read_back() {
    for form in settings(1).map(|settings| settings.form()) {
        let size = form.size().unwrap();
        let least = Header {
            length: size as u32 + 2,
            ..Header::default()
        };
        let most = Header::from_numbers(largest(form));
        assert_eq!(most.numbers(), largest(form));
        for header in [least, most] {
            let bytes = form.write(&header).unwrap();
            assert_eq!(bytes.len(), size);
            assert_eq!(form.read(&bytes), Ok(header));
            assert_eq!(form.read(&bytes[1..]), Err(Refusal::HeaderSize));
            assert_eq!(format!("{bytes:?}"), format!("{:?}", &bytes[..]));
            // Any change of a bit is seen.
            for bit in 0..8 * size {
                let mut wrong = bytes.to_vec();
                wrong[bit / 8] ^= 1 << (bit % 8);
                assert_eq!(form.read(&wrong), Err(Refusal::Checksum));
            }
        }
    }
}

#[test]
fn values_that_do_not_fit() {
    for form in settings(1).map(|settings| settings.form()) {
        let short = form.size().unwrap() as u32 + 1;
        let most = largest(form);
        for (field, &value) in most.iter().enumerate() {
            for value in [value.checked_add(1), Some(u32::MAX)] {
                let mut fields = most;
                fields[field] = match value {
                    Some(value) if value != fields[field] => value,
                    _ => continue,
                };
                let header = Header::from_numbers(fields);
                assert_eq!(form.write(&header), Err(Refusal::NoFit), "{header:?}");
            }
        }
        let header = Header {
            length: short,
            ..Header::from_numbers(most)
        };
        assert_eq!(form.write(&header), Err(Refusal::NoFit));
    }
}

#[test]
fn forms_that_no_switch_has() {
    for (edition, ports, queues) in [
        (TEN_BYTES, 4, 23),
        (TEN_BYTES, 5, 24),
        (WIDE, 1, 2),
        (WIDE, 33, 2),
        (WIDE, 2, 1),
        (WIDE, 2, 65),
        (2, 4, 24),
        (u32::MAX, u32::MAX, u32::MAX),
    ] {
        let form = Form {
            edition,
            ports,
            queues,
        };
        assert_eq!(form.size(), None);
        // 2 comes before all else.
        assert_eq!(form.read(&[]), Err(Refusal::BadSetting));
        assert_eq!(form.write(&Header::default()), Err(Refusal::BadSetting));
    }
}

/// The bytes with their checksum in the last one.
fn summed(mut bytes: Vec<u8>) -> Vec<u8> {
    let last = bytes.len() - 1;
    bytes[last] = checksum(&bytes[..last]);
    bytes
}

/// In the reader's order: 7, 20, 9, 19.
#[test]
fn headers_that_are_not_read() {
    let ten = Form::TEN_BYTES;
    // Queue 31, length 11, a reserved bit of 1; and one after another is put right.
    let mut bytes = vec![0x0F, 0x80, 0x2D, 0, 0, 0, 0, 0, 0, 0];
    assert_eq!(ten.read(&bytes), Err(Refusal::Checksum));
    assert_eq!(ten.read(&summed(bytes.clone())), Err(Refusal::ReservedBit));
    bytes[2] = 0x2C;
    assert_eq!(ten.read(&summed(bytes.clone())), Err(Refusal::TooShort));
    bytes[2] = 0x30;
    assert_eq!(ten.read(&summed(bytes.clone())), Err(Refusal::HeaderQueue));
    bytes[..2].fill(0);
    assert_eq!(ten.read(&summed(bytes)).unwrap().length, 12);
    assert_eq!(ten.read(&SHORTEST).unwrap().length, 12);
}

/// Five ports and 33 queues have fields for eight and 64, and six reserved bits.
#[test]
fn fields_wider_than_the_counts() {
    let form = Form::wide(5, 33);
    let header = Header {
        destination: 7,
        source: 7,
        queue: 32,
        length: 14,
        ..Header::default()
    };
    let bytes = form.write(&header).unwrap();
    assert_eq!(form.read(&bytes), Ok(header));
    for bit in 0..6 {
        let mut bytes = bytes.to_vec();
        bytes[3] |= 1 << bit;
        assert_eq!(form.read(&summed(bytes)), Err(Refusal::ReservedBit));
    }
    // Both have six bits for the queue.
    let more = Form::wide(5, 34);
    let bytes = more
        .write(&Header {
            queue: 33,
            ..header
        })
        .unwrap();
    assert_eq!(form.read(&bytes), Err(Refusal::HeaderQueue));
    assert_eq!(more.read(&bytes).unwrap().queue, 33);
    // Read, but not let in: there is no port 7.
    let settings = Settings::wide(5, 33).nodes(1).beat(64).slots(1).credit(16);
    let bytes = form.write(&header).unwrap();
    assert_eq!(switch(settings).arrive(4, &bytes), Err(Refusal::Source));
}

#[test]
fn four_bytes_tell_of_a_turn_or_of_none() {
    let turn = |bytes| RoundTurn::from_bytes(&bytes);
    assert_eq!(turn([0, 0, 0x18, 5]), Some(RoundTurn::Sent(EntryId(6149))));
    assert_eq!(turn([0, 1, 0, 0]), Some(RoundTurn::Idle));
    let refused = RoundTurn::Refused(Refusal::NoPort);
    assert_eq!(turn([4, 0, 0, 0]), Some(refused));
    // Idle twice over, idle with an id, refused and idle, refused with an id, no refusal's number.
    for bytes in [
        [0, 2, 0, 0],
        [0, 1, 0, 1],
        [4, 1, 0, 0],
        [4, 0, 0, 1],
        [18, 0, 0, 0],
    ] {
        assert_eq!(turn(bytes), None);
    }
}

#[test]
fn rules_and_their_numbers() {
    // (h) is a rule to come.
    let numbers = (1..=7).chain([9]);
    for (number, (letter, &rule)) in numbers.zip("abcdefgi".chars().zip(Rule::ALL)) {
        assert_eq!((rule.number(), rule.letter()), (number, letter));
        assert_eq!(Rule::from_number(number), Some(rule));
    }
    for number in [0, 8, 10, 256 + 1, u32::MAX] {
        assert_eq!(Rule::from_number(number), None);
    }
    let finding = Finding {
        rule: Rule::G,
        item: 91,
    };
    assert_eq!(finding.to_string(), "rule (g), item 91");
}

#[test]
fn a_finding_is_never_refused() {
    let too_short = Some(Finding {
        rule: Rule::A,
        item: 8,
    });
    assert_eq!(find(&[]), too_short);
    assert_eq!(find(&[0; 15]), too_short);
    let no_ports = Some(Finding {
        rule: Rule::A,
        item: 0,
    });
    assert_eq!(find(&[0; 16]), no_ports);
    assert_eq!(Switch::over(vec![0; 65_536]).find(), no_ports);
    for settings in settings(1) {
        let switch = switch(settings);
        assert_eq!(switch.find(), None);
        let short = size(&settings).unwrap() - 1;
        assert_eq!(find(&switch.memory()[..short]), too_short);
    }
}

#[test]
fn an_audit_tells_every_place() {
    for nodes in [1, 2, 16, 256, 2048] {
        let mut switch = switch(SETTINGS.nodes(nodes));
        switch.arrive(0, &SHORTEST).unwrap();
        let places = switch.audit().unwrap();
        assert_eq!(places.len(), 4 * nodes as usize);
        assert_eq!(places[0].list, ListKind::Ingress { port: 0 });
        for (at, place) in (0..).zip(&places) {
            let entry = EntryId(at / nodes as u16 * 2048 + at % nodes as u16);
            assert_eq!(place.entry, entry);
            assert_eq!(switch.place_of(entry), Ok(*place));
        }
    }
}

#[test]
fn an_audit_of_every_shape() {
    for settings in settings(3).into_iter().chain(settings(2048)) {
        let switch = switch(settings);
        let places = switch.audit().unwrap();
        assert_eq!(places.len() as u32, settings.ports * settings.nodes);
        for (at, place) in (0..).zip(places) {
            let (port, index) = (at / settings.nodes, at % settings.nodes);
            let own = ListKind::Free { port: port as u8 };
            assert_eq!(u32::from(place.entry.0), port * 2048 + index);
            assert_eq!((place.list, u32::from(place.position)), (own, index));
        }
    }
}

#[test]
fn an_audit_writes_into_lent_room() {
    let switch = switch(SETTINGS);
    for bytes in 0..4 * PLACE_BYTES {
        let mut room = vec![9; bytes];
        let answer = audit(switch.memory(), &mut room);
        assert_eq!((answer, room), (Err(Refusal::ShortRoom), vec![9; bytes]));
    }
    let mut room = [9; 4 * PLACE_BYTES + 3];
    assert_eq!(audit(switch.memory(), &mut room), Ok(()));
    let told = [0, 8, 16, 24].map(|high| [high, 0, 0, high / 8, 0, 0, 0, 0]);
    assert_eq!(room[..4 * PLACE_BYTES], told.concat());
    assert_eq!(room[4 * PLACE_BYTES..], [9; 3]);
    // No state: refused 3 whatever the room.
    for bytes in [0, 4 * PLACE_BYTES] {
        let mut room = vec![9; bytes];
        let answer = audit(&switch.memory()[1..], &mut room);
        assert_eq!((answer, room), (Err(Refusal::NoState), vec![9; bytes]));
    }
    assert_eq!(Switch::over(vec![7; 100]).audit(), Err(Refusal::NoState));
}

#[test]
fn a_repair_keeps_settings_map_and_what_is_past_the_size() {
    let mut memory = vec![0; SIZE + 3];
    memory[SIZE..].fill(9);
    let mut switch = Switch::setup(memory, SETTINGS).unwrap();
    switch.map(2, 3).unwrap();
    switch.map(4095, 1).unwrap();
    let mended = switch.memory().to_vec();
    switch.arrive(0, &SHORTEST).unwrap();
    assert_eq!(switch.arrive(1, &SHORTEST), Err(Refusal::Source));
    let mut memory = switch.into_memory();
    memory[MAP] = 4;
    memory[LAST + 3] = 24;
    assert!(find(&memory).is_some());
    let mut switch = Switch::over(memory);
    assert_eq!(switch.turn(0), Err(Refusal::NoState));
    assert_eq!(switch.repair(), Ok(()));
    assert_eq!((switch.find(), switch.memory()), (None, &mended[..]));
    // A sound one is emptied too.
    switch.arrive(0, &SHORTEST).unwrap();
    assert_eq!(switch.repair(), Ok(()));
    assert_eq!(switch.memory(), mended);
}

#[test]
fn a_repair_is_refused_where_the_settings_are_wrong() {
    let mut memory = switch(SETTINGS).into_memory();
    // Any two bytes are a credit.
    for setting in (0..8).filter(|&setting| setting != 5) {
        let kept = [memory[2 * setting], memory[2 * setting + 1]];
        memory[2 * setting..2 * setting + 2].fill(0xFF);
        let before = memory.clone();
        // Where the edition is none, four ports and 24 queues are in their rows still.
        let item = setting as u64;
        let rule = Rule::A;
        assert_eq!(find(&memory), Some(Finding { rule, item }));
        assert_eq!(repair(&mut memory), Err(Refusal::NoState));
        assert_eq!(memory, before);
        memory[2 * setting..2 * setting + 2].copy_from_slice(&kept);
    }
    assert_eq!(repair(&mut memory[..SIZE - 1]), Err(Refusal::NoState));
    assert_eq!(repair(&mut memory), Ok(()));
    assert_eq!(repair(&mut []), Err(Refusal::NoState));
}

#[test]
fn halts_and_their_numbers() {
    for (number, &halt) in [7, 8, 18].into_iter().zip(Halt::ALL) {
        assert_eq!(halt.number(), number);
        assert_eq!(Halt::from_number(number), Some(halt));
        assert!(!halt.to_string().is_empty());
    }
    assert_eq!(Halt::ALL.len(), 3);
    for number in (0..7).chain(9..18).chain([19, 256 + 7, u32::MAX]) {
        assert_eq!(Halt::from_number(number), None);
    }
    let refusals = [Refusal::Checksum, Refusal::Source];
    for (halt, refusal) in Halt::ALL.iter().zip(refusals) {
        assert_eq!(halt.number(), refusal.number());
        assert_eq!(halt.to_string(), refusal.to_string());
    }
}

/// Where the marks of a switch start.
fn halted(settings: Settings) -> usize {
    LAST + settings.ports as usize
}

/// What is told of each port.
fn reports(switch: &Switch<Vec<u8>>, settings: Settings) -> Vec<Option<Halt>> {
    let report = |port| switch.report(port).unwrap();
    (0..settings.ports).map(report).collect()
}

/// The last port of every shape is halted, and cleared; no other is.
#[test]
fn a_halted_port_is_reported_and_cleared() {
    for settings in settings(2) {
        let mut switch = switch(settings);
        let last = settings.ports - 1;
        let mut wanted = vec![None; settings.ports as usize];
        assert_eq!(reports(&switch, settings), wanted);
        let header = Header {
            source: last,
            queue: settings.queues - 1,
            length: 512,
            ..Header::default()
        };
        let right = settings.form().write(&header).unwrap();
        let mut wrong = right.to_vec();
        wrong[0] ^= 0x80;
        // One byte, and no other.
        let mut left = switch.memory().to_vec();
        left[halted(settings) + last as usize] = 7;
        assert_eq!(switch.arrive(last, &wrong), Err(Refusal::Checksum));
        assert_eq!(switch.memory(), left);
        wanted[last as usize] = Some(Halt::Checksum);
        assert_eq!(reports(&switch, settings), wanted);
        assert_eq!(switch.arrive(last, &right), Err(Refusal::NoCredit));
        assert_eq!(switch.memory(), left);

        assert_eq!(switch.clear(last + 1), Err(Refusal::NoPort));
        assert_eq!(switch.report(last + 1), Err(Refusal::NoPort));
        assert_eq!(switch.clear(0), Ok(()));
        assert_eq!(switch.memory(), left);
        assert_eq!(switch.clear(last), Ok(()));
        left[halted(settings) + last as usize] = 0;
        assert_eq!(switch.memory(), left);
        assert_eq!(reports(&switch, settings), vec![None; wanted.len()]);
        assert_eq!(switch.arrive(last, &right).unwrap().port() as u32, last);
    }
}

#[test]
fn no_state_is_neither_cleared_nor_reported() {
    let mut switch = Switch::over(vec![7; SIZE]);
    for port in [0, 4, u32::MAX] {
        assert_eq!(switch.clear(port), Err(Refusal::NoState));
        assert_eq!(switch.report(port), Err(Refusal::NoState));
    }
    assert_eq!(switch.into_memory(), vec![7; SIZE]);
    assert_eq!(Switch::over([]).clear(0), Err(Refusal::NoState));
}

/// Every byte there can be: those that are no mark are found under (i).
#[test]
fn marks_by_hand() {
    for settings in settings(1) {
        let sound = switch(settings).into_memory();
        for (port, mark) in (0..settings.ports).flat_map(|p| (0..=255u8).map(move |m| (p, m))) {
            let mut memory = sound.clone();
            memory[halted(settings) + port as usize] = mark;
            let finding = Finding {
                rule: Rule::I,
                item: port.into(),
            };
            let report = Switch::over(&mut memory[..]).report(port);
            match mark {
                0 => assert_eq!((find(&memory), report), (None, Ok(None))),
                7 | 8 | 18 => {
                    let halt = Halt::from_number(mark.into());
                    assert!(halt.is_some());
                    assert_eq!((find(&memory), report), (None, Ok(halt)));
                }
                _ => {
                    assert_eq!(find(&memory), Some(finding));
                    assert_eq!(report, Err(Refusal::NoState));
                    assert_eq!(finding.to_string(), format!("rule (i), item {port}"));
                }
            }
        }
    }
    // The first of several.
    let mut memory = switch(SETTINGS).into_memory();
    memory[HALTED + 1..HALTED + 4].fill(9);
    memory[HALTED] = 18;
    let found = find(&memory).unwrap();
    assert_eq!(
        (found.rule, found.rule.number(), found.item),
        (Rule::I, 9, 1)
    );
}
