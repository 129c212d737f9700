//! Runs: what a run leaves is what its calls leave one by one, and where it stops.

mod common;

use common::switch;
use ventorupo::{
    Answer, Batch, EntryId, Form, Halt, Header, Ran, Refusal, Settings, Stop, Switch, Unfinished,
    WrongLength, ANSWER_BYTES, TEN_BYTES, WIDE,
};

/// Switches of every edition, and headers of ten, eleven and twelve bytes.
const SHAPES: [(u32, u32, u32); 5] = [
    (TEN_BYTES, 4, 24),
    (WIDE, 4, 24),
    (WIDE, 8, 16),
    (WIDE, 5, 33),
    (WIDE, 32, 64),
];

fn settings() -> [Settings; SHAPES.len()] {
    SHAPES.map(|(edition, ports, queues)| {
        Settings::ten_bytes()
            .nodes(2)
            .beat(64)
            .slots(1)
            .credit(16)
            .edition(edition)
            .ports(ports)
            .queues(queues)
    })
}

const TEN: Settings = Settings::ten_bytes().nodes(2).beat(64).slots(1).credit(16);

fn header(settings: Settings, source: u32, queue: u32) -> Vec<u8> {
    let header = Header {
        destination: 1,
        source,
        queue,
        length: 100,
        ..Header::default()
    };
    settings.form().write(&header).unwrap().to_vec()
}

/// A field by hand.
fn field(tag: u8, value: &[u8]) -> Vec<u8> {
    let length = (value.len() as u16).to_be_bytes();
    [&[tag], &length[..], value].concat()
}

/// A call as a test makes it, in a batch and by itself.
#[derive(Debug, Clone)]
enum Call {
    Arrive(u8, Vec<u8>),
    Stitch(u8),
    Prefetch(u8, u8),
    Turn(u8),
    Credit(u8, u8, u16),
    Map(u8, u8),
}

impl Call {
    fn put(&self, batch: &mut Batch) {
        match *self {
            Call::Arrive(port, ref header) => batch.arrive(port, header).unwrap(),
            Call::Stitch(port) => batch.stitch(port),
            Call::Prefetch(port, queue) => batch.prefetch(port, queue),
            Call::Turn(port) => batch.turn(port),
            Call::Credit(port, queue, amount) => batch.credit(port, queue, amount),
            Call::Map(id, port) => batch.map_to(id, port),
        };
    }

    fn alone(&self, switch: &mut Switch<Vec<u8>>) -> Answer {
        use ventorupo::Turn::{Idle, Sent};
        match *self {
            Call::Arrive(port, ref header) => Answer::Arrived(switch.arrive(port.into(), header)),
            Call::Stitch(port) => {
                let stitched = switch.stitch(port.into());
                Answer::Stitched(stitched.map(|record| record.entry))
            }
            Call::Prefetch(port, queue) => {
                Answer::Prefetched(switch.prefetch(port.into(), queue.into()))
            }
            Call::Turn(port) => Answer::Turned(switch.turn(port.into()).map(|turn| match turn {
                Sent(sent) => Some(sent.entry),
                Idle => None,
            })),
            Call::Credit(port, queue, amount) => {
                Answer::Credited(switch.credit(port.into(), queue.into(), amount.into()))
            }
            Call::Map(id, port) => Answer::Mapped(switch.map(id.into(), port.into())),
        }
    }
}

/// Calls of every kind: packets that go all the way, and one refusal or more of each
/// kind of call.
fn calls(settings: Settings) -> Vec<Call> {
    let (ports, queues) = (settings.ports as u8, settings.queues as u8);
    let (out, last) = (ports - 1, queues - 1);
    let right = |queue| Call::Arrive(2, header(settings, 2, queue));
    let mut wrong = header(settings, 3, 0);
    wrong[0] ^= 0x80;
    vec![
        Call::Map(1, out),
        Call::Map(255, ports),
        right(last.into()),
        right(0),
        right(0),
        Call::Arrive(ports, header(settings, 2, 0)),
        Call::Arrive(3, wrong),
        Call::Arrive(3, header(settings, 3, 1)),
        Call::Arrive(0, vec![0; 10]),
        Call::Stitch(2),
        Call::Stitch(2),
        Call::Stitch(2),
        Call::Prefetch(out, last),
        Call::Prefetch(out, 0),
        Call::Prefetch(out, 0),
        Call::Prefetch(out, queues),
        Call::Turn(out),
        Call::Turn(out),
        Call::Credit(out, last, 65_535),
        Call::Credit(out, last, 1),
        Call::Credit(out, 0, 1),
        Call::Turn(out),
        Call::Turn(255),
        right(last.into()),
    ]
}

fn batch_of(form: Form, calls: &[Call]) -> Batch {
    let mut batch = Batch::new(form).unwrap();
    for call in calls {
        call.put(&mut batch);
    }
    assert_eq!(batch.len(), calls.len());
    batch
}

#[test]
fn a_run_is_its_calls() {
    for settings in settings() {
        let calls = calls(settings);
        let (mut together, mut alone) = (switch(settings), switch(settings));
        let answers = together.run(&batch_of(settings.form(), &calls)).unwrap();
        let wanted: Vec<Answer> = calls.iter().map(|call| call.alone(&mut alone)).collect();
        assert_eq!(answers, wanted, "{settings:?}");
        assert_eq!(together.memory(), alone.memory());
        assert_eq!(together.report(3), Ok(Some(Halt::Checksum)));
        // The calls are as different as they are meant to be.
        let done = answers.iter().filter(|answer| answer.refusal().is_none());
        assert_eq!(done.count(), 12, "{answers:?}");
        let entries: Vec<u16> = answers.iter().filter_map(|a| Some(a.entry()?.0)).collect();
        let (first, second) = (4096, 4097);
        let wanted = [first, second, first, second, first, second, second, first];
        assert_eq!(entries[..8], wanted);
        assert_eq!(entries[8..], [second], "a node is used again");
    }
}

/// In pieces of every length.
#[test]
fn runs_of_parts_are_the_run_of_all() {
    for settings in settings() {
        let calls = calls(settings);
        let mut whole = switch(settings);
        let wanted = whole.run(&batch_of(settings.form(), &calls)).unwrap();
        for many in 1..calls.len() {
            let mut parts = switch(settings);
            let mut batch = Batch::new(settings.form()).unwrap();
            let mut answers = Vec::new();
            for part in calls.chunks(many) {
                batch.clear();
                part.iter().for_each(|call| call.put(&mut batch));
                answers.extend(parts.run(&batch).unwrap());
            }
            assert_eq!((&answers, parts.memory()), (&wanted, whole.memory()));
        }
    }
}

/// The answers of the fields below.
const TOLD: [[u8; ANSWER_BYTES]; 10] = [
    [0, 0, 0x18, 0],
    [8, 0, 0, 0],
    [0, 0, 0x18, 0],
    [0, 0, 0x18, 0],
    [12, 0, 0, 0],
    [0, 0, 0x18, 0],
    [0, 1, 0, 0],
    [0, 0, 0, 0],
    [14, 0, 0, 0],
    [0, 0, 0, 0],
];

/// The room of a run by hand, byte by byte.
#[test]
fn four_bytes_for_each_answer() {
    let mut switch = switch(TEN);
    let fields = [
        field(2, &[&[3][..], &header(TEN, 3, 0)].concat()),
        field(2, &[&[2][..], &header(TEN, 3, 0)].concat()),
        field(3, &[3]),
        field(4, &[0, 0]),
        field(4, &[0, 0]),
        field(5, &[0]),
        field(5, &[0]),
        field(6, &[1, 23, 0xFF, 0xFF]),
        field(6, &[1, 23, 0, 1]),
        field(7, &[255, 3]),
    ]
    .concat();
    let told = TOLD.concat();
    let mut room = vec![9; told.len() + 5];
    let ran = switch.run_fields(&fields, &mut room).unwrap();
    let wanted = Ran {
        count: 10,
        why: Stop::Ended,
    };
    assert_eq!(ran, wanted);
    assert_eq!(room, [&told[..], &[9; 5]].concat());
    assert_eq!(ran.bytes(&fields), fields.len());
    let sent = Answer::Turned(Ok(Some(EntryId(6144))));
    assert_eq!(ran.answers(&fields, &room).nth(5), Some(sent));
    assert_eq!(ran.answers(&fields, &room).count(), 10);
}

/// A good field, then one of these, then another good one, which is not done.
fn stops_at(switch: &mut Switch<Vec<u8>>, bad: &[u8]) {
    let before = switch.memory().to_vec();
    let credit = |port| field(6, &[port, 1, 0, 1]);
    for behind in [credit(2), vec![]] {
        let fields = [&credit(1), bad, &behind].concat();
        let mut memory = before.clone();
        Switch::over(&mut memory[..]).credit(1, 1, 1).unwrap();
        // A bad field is bad also where no room is left.
        for bytes in [4, 7, 8, fields.len()] {
            let mut again = Switch::over(before.clone());
            let mut room = vec![9; bytes];
            let ran = again.run_fields(&fields, &mut room).unwrap();
            let (count, why) = (1, Stop::BadField);
            assert_eq!(ran, Ran { count, why }, "{bad:?}");
            assert_eq!(ran.bytes(&fields), credit(1).len());
            assert_eq!(
                (&room[..4], &room[4..]),
                (&[0; 4][..], &vec![9; bytes - 4][..])
            );
            assert_eq!(again.memory(), memory);
        }
    }
    assert_eq!(switch.memory(), before);
}

#[test]
fn bad_fields() {
    for settings in settings() {
        let mut switch = switch(settings);
        // Setup's is bad, with its right length too, and so is any other tag.
        stops_at(&mut switch, &field(1, &[0, 1, 0, 64, 1, 0, 16]));
        for tag in [0, 1, 8, 255] {
            for length in [0, 1, 2, 4, 7, 11, 300] {
                stops_at(&mut switch, &field(tag, &vec![0; length]));
            }
        }
        let own = 1 + settings.form().size().unwrap();
        let right = [[11, own], [1, 1], [2, 2], [1, 1], [4, 4], [2, 2]];
        for (tag, right) in (2..).zip(right) {
            for length in (0..16).chain([256 + right[0], 65_535]) {
                if !right.contains(&length) {
                    stops_at(&mut switch, &field(tag, &vec![0; length]));
                }
            }
        }
    }
}

/// Cut off after any of its bytes; nothing stands behind it then.
#[test]
fn fields_that_are_cut_off() {
    let wide = Settings::wide(8, 16).nodes(2).beat(64).slots(1).credit(16);
    let mut switch = switch(wide);
    let whole = field(2, &[&[1][..], &header(wide, 1, 0)].concat());
    let turn = field(5, &[0]);
    for end in 1..whole.len() {
        let fields = [&turn, &whole[..end]].concat();
        let mut room = vec![0; fields.len()];
        let ran = switch.run_fields(&fields, &mut room).unwrap();
        assert_eq!((ran.count, ran.why), (1, Stop::BadField), "{end}");
        assert_eq!(ran.bytes(&fields), turn.len());
    }
    let mut room = [0; 8];
    let ran = switch
        .run_fields(&[turn, whole].concat(), &mut room)
        .unwrap();
    assert_eq!((ran.count, ran.why), (2, Stop::Ended));
}

/// The run goes on where there was no room, and leaves what one run leaves.
#[test]
fn room_that_is_too_short() {
    for settings in settings() {
        let batch = batch_of(settings.form(), &calls(settings));
        let fields = batch.as_bytes();
        let mut whole = switch(settings);
        let mut all = vec![9; ANSWER_BYTES * batch.len()];
        assert_eq!(whole.run_fields(fields, &mut all).unwrap().why, Stop::Ended);
        for many in 1..batch.len() {
            let mut parts = switch(settings);
            let (mut at, mut answers) = (0, Vec::new());
            loop {
                let mut room = vec![9; ANSWER_BYTES * many + 3];
                let ran = parts.run_fields(&fields[at..], &mut room).unwrap();
                let (told, rest) = room.split_at(ANSWER_BYTES * ran.count);
                assert!(rest.iter().all(|&byte| byte == 9));
                answers.extend(told);
                at += ran.bytes(&fields[at..]);
                if ran.why == Stop::Ended {
                    break;
                }
                assert_eq!((ran.why, ran.count), (Stop::NoRoom, many));
            }
            assert_eq!((at, &answers), (fields.len(), &all));
            assert_eq!(parts.memory(), whole.memory());
        }
        let mut none = switch(settings);
        for bytes in 0..ANSWER_BYTES {
            let ran = none.run_fields(fields, &mut vec![9; bytes]).unwrap();
            assert_eq!((ran.count, ran.why), (0, Stop::NoRoom));
        }
        assert_eq!(none.memory(), switch(settings).memory());
    }
}

#[test]
fn a_run_of_nothing() {
    let mut switch = switch(TEN);
    let ran = switch.run_fields(&[], &mut []).unwrap();
    assert_eq!((ran.count, ran.why), (0, Stop::Ended));
    assert_eq!(ran.answers(&[], &[]).next(), None);
    assert_eq!(switch.run(&Batch::new(TEN.form()).unwrap()), Ok(vec![]));
}

#[test]
fn no_state_is_refused_whole() {
    let mut batch = Batch::new(TEN.form()).unwrap();
    batch.turn(0);
    for fields in [&[][..], batch.as_bytes(), &[1, 2, 3]] {
        for memory in [vec![], vec![7; 6720]] {
            let mut switch = Switch::over(memory.clone());
            let mut room = [9; 8];
            let answer = switch.run_fields(fields, &mut room);
            assert_eq!((answer, room), (Err(Refusal::NoState), [9; 8]));
            let refused = Unfinished::Refused(Refusal::NoState);
            assert_eq!(refused.to_string(), Refusal::NoState.to_string());
            assert_eq!(switch.run(&batch), Err(refused));
            assert_eq!(switch.into_memory(), memory);
        }
    }
}

/// Headers of ten bytes have a field everywhere, those of another size only where
/// headers have it.
#[test]
fn a_batch_on_a_switch_of_another_form() {
    for of in settings() {
        for on in settings() {
            let [of_size, on_size] = [of, on].map(|settings| settings.form().size().unwrap());
            let mut batch = Batch::new(of.form()).unwrap();
            batch.turn(1).arrive(0, &[0; 10]).unwrap();
            batch.arrive(0, &vec![0; of_size]).unwrap().turn(0);
            let mut switch = switch(on);
            let answers = switch.run(&batch);
            if [10, on_size].contains(&of_size) {
                assert_eq!(answers.unwrap().len(), 4);
                continue;
            }
            let refused = if on_size == 10 {
                Refusal::TooShort
            } else {
                Refusal::HeaderSize
            };
            let done = vec![Answer::Turned(Ok(None)), Answer::Arrived(Err(refused))];
            let stopped = Unfinished::Stopped(done);
            let said =
                "stopped at a header of another form than the switch's; calls done before it: 2";
            assert_eq!(stopped.to_string(), said);
            assert_eq!(answers, Err(stopped));
        }
    }
}

#[test]
fn headers_that_no_field_holds() {
    for settings in settings() {
        let form = settings.form();
        let size = form.size().unwrap();
        let mut batch = Batch::new(form).unwrap();
        batch.turn(0);
        let before = batch.clone();
        for bytes in (0..20).chain([255, 256, 65_536 + 10]) {
            if [10, size].contains(&bytes) {
                continue;
            }
            let wrong = WrongLength { bytes, size };
            assert_eq!(batch.arrive(0, &vec![0; bytes]), Err(wrong));
            assert_eq!(Refusal::from(wrong), Refusal::HeaderSize);
            let said = format!("a header of {bytes} bytes, where those of the form have {size}");
            assert_eq!(wrong.to_string(), said);
        }
        // What was put in is as it was.
        assert_eq!(batch, before);
        // Arrive itself says the same of such a header.
        let answer = switch(settings).arrive(0, &vec![0; size + 1]);
        assert_eq!(answer, Err(Refusal::HeaderSize));
    }
    let none = Form::wide(33, 64);
    assert_eq!(Batch::new(none), Err(Refusal::BadSetting));
}

#[test]
fn a_batch_is_filled_again() {
    let mut batch = Batch::new(TEN.form()).unwrap();
    assert!(batch.is_empty());
    batch.credit(1, 2, 0x0304).map_to(5, 6);
    assert_eq!((batch.len(), batch.is_empty()), (2, false));
    let fields = [field(6, &[1, 2, 3, 4]), field(7, &[5, 6])].concat();
    assert_eq!(batch.as_bytes(), fields);
    batch.clear();
    assert_eq!((batch.len(), batch.is_empty()), (0, true));
    assert_eq!(batch, Batch::new(TEN.form()).unwrap());
    batch.stitch(7).prefetch(8, 9).turn(10);
    let fields = [field(3, &[7]), field(4, &[8, 9]), field(5, &[10])].concat();
    assert_eq!((batch.len(), batch.as_bytes()), (3, &fields[..]));
    batch.clear();
    batch.arrive(11, &[12; 10]).unwrap();
    let value = [&[11][..], &[12; 10]].concat();
    assert_eq!(batch.as_bytes(), field(2, &value));
}

#[test]
fn stops_and_their_numbers() {
    for (number, stop) in (0..).zip(Stop::ALL) {
        assert_eq!(stop.number(), number);
        assert_eq!(Stop::from_number(number), Some(stop));
        assert!(!stop.to_string().is_empty());
    }
    for number in [3, 256, u32::MAX] {
        assert_eq!(Stop::from_number(number), None);
    }
}

/// Every tag, and every way in which four bytes can tell something or nothing.
#[test]
fn four_bytes_tell_of_a_calls_answer_or_of_none() {
    let entry = EntryId(6149);
    let no_port = Refusal::NoPort;
    let with_entry: [fn(Result<EntryId, Refusal>) -> Answer; 3] =
        [Answer::Arrived, Answer::Stitched, Answer::Prefetched];
    for (tag, answer) in (2..).zip(with_entry) {
        let told = |bytes| Answer::from_bytes(tag, &bytes);
        assert_eq!(told([0, 0, 0x18, 5]), Some(answer(Ok(entry))));
        assert_eq!(told([4, 0, 0, 0]), Some(answer(Err(no_port))));
        assert_eq!(told([0, 1, 0, 0]), None);
    }
    let turned = |bytes| Answer::from_bytes(5, &bytes);
    assert_eq!(
        turned([0, 0, 0x18, 5]),
        Some(Answer::Turned(Ok(Some(entry))))
    );
    assert_eq!(turned([0, 1, 0, 0]), Some(Answer::Turned(Ok(None))));
    assert_eq!(turned([4, 0, 0, 0]), Some(Answer::Turned(Err(no_port))));
    let without: [fn(Result<(), Refusal>) -> Answer; 2] = [Answer::Credited, Answer::Mapped];
    for (tag, answer) in (6..).zip(without) {
        let told = |bytes| Answer::from_bytes(tag, &bytes);
        assert_eq!(told([0, 0, 0, 0]), Some(answer(Ok(()))));
        assert_eq!(told([4, 0, 0, 0]), Some(answer(Err(no_port))));
        assert_eq!(told([0, 0, 0, 1]), None);
        assert_eq!(told([0, 1, 0, 0]), None);
    }
    for tag in 0..=255 {
        // Idle twice over, refused and idle, refused with an id, no refusal's number.
        for bytes in [[0, 2, 0, 0], [4, 1, 0, 0], [4, 0, 0, 1], [18, 0, 0, 0]] {
            assert_eq!(Answer::from_bytes(tag, &bytes), None);
        }
        let some = Answer::from_bytes(tag, &[0; 4]).is_some();
        assert_eq!(some, (2..=7).contains(&tag));
    }
}

/// Bytes that are not of a run end the answers, and never panic.
#[test]
fn answers_of_other_bytes() {
    let fields = [field(5, &[0]), field(5, &[1]), field(5, &[2])].concat();
    let ran = Ran {
        count: 3,
        why: Stop::Ended,
    };
    let idle = [0, 1, 0, 0];
    assert_eq!(ran.answers(&fields, &idle.repeat(3)).count(), 3);
    assert_eq!(ran.answers(&fields, &idle.repeat(9)).count(), 3);
    assert_eq!(ran.answers(&fields, &idle.repeat(3)[..11]).count(), 2);
    assert_eq!(ran.answers(&fields[..11], &idle.repeat(3)).count(), 2);
    assert_eq!(ran.bytes(&fields[..11]), 8);
    assert_eq!(ran.bytes(&[]), 0);
    let room = [idle, [0, 2, 0, 0], idle].concat();
    let mut answers = ran.answers(&fields, &room);
    assert_eq!(answers.size_hint(), (0, Some(3)));
    assert_eq!(answers.next(), Some(Answer::Turned(Ok(None))));
    assert_eq!((answers.next(), answers.next()), (None, None));
}
