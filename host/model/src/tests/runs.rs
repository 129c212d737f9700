//! Runs of fields, their answers in hex beside the papers' words.

use super::{hex, written};
use crate::header::{write, Header};
use crate::{Call, Model, Ran, Reply, Settings, Shape, Stop};

const SETTINGS: Settings = Settings::ten_bytes(1, 64, 1, 16);

/// The whole case after its setup.
const WHOLE_CASE: &str = "02 000B 00 00003000000000000072 03 0001 00 04 0002 00 00
                          05 0001 00 05 0001 00 05 0001 04";

fn begun(settings: Settings) -> Model {
    let mut model = Model::new(100_000);
    assert_eq!(model.call(&Call::Setup(settings)), Reply::Done);
    model
}

/// What a run in so much room did, and the room after it; it starts as A7 bytes.
fn ran(model: &mut Model, fields: &[u8], room: usize) -> (usize, Stop, Vec<u8>) {
    let mut answers = vec![0xA7; room];
    let Ran { count, why } = model.run(fields, &mut answers).unwrap();
    (count, why, answers)
}

#[test]
fn the_whole_case_in_one_run() {
    let (count, why, answers) = ran(&mut begun(SETTINGS), &hex(WHOLE_CASE), 24);
    assert_eq!((count, why), (6, Stop::Ended));
    let wanted = "00000000 00000000 00000000 00000000 00010000 04000000";
    assert_eq!(answers, hex(wanted));
    assert_eq!(
        [Stop::Ended, Stop::BadField, Stop::NoRoom].map(Stop::number),
        [0, 1, 2]
    );
}

/// Port 3's second node, credit and map, and refusals of each kind of call.
#[test]
fn answers_are_refusal_idle_and_entry_id() {
    let mut model = begun(Settings::ten_bytes(2, 64, 1, 16));
    let arrive = written(2, 3, 0, 12).map(|byte| format!("{byte:02X}"));
    let arrive = format!("02 000B 03 {}", arrive.concat());
    let fields = format!(
        "07 0002 02 01 {arrive} {arrive} {arrive} 03 0001 03 03 0001 03 03 0001 03
         04 0002 01 00 04 0002 01 00 04 0002 01 18 05 0001 03 05 0001 01
         06 0004 03 17 FFFF 06 0004 03 17 0001 06 0004 03 00 0001 07 0002 FF 04"
    );
    let (count, why, answers) = ran(&mut model, &hex(&fields), 70);
    assert_eq!((count, why), (16, Stop::Ended));
    let wanted = "00000000 00001800 00001801 0B000000 00001800 00001801 0C000000
                  00001800 0D000000 05000000 00010000 00001800
                  00000000 0E000000 05000000 04000000 A7A7A7A7A7A7";
    assert_eq!(answers, hex(wanted));
}

#[test]
fn a_run_of_no_bytes_did_0_and_ended() {
    let mut model = begun(SETTINGS);
    let before = model.clone();
    for room in [0, 3, 4, 9] {
        assert_eq!(
            ran(&mut model, &[], room),
            (0, Stop::Ended, vec![0xA7; room])
        );
    }
    assert_eq!(model, before);
}

#[test]
fn without_a_state_a_run_is_refused_3() {
    let mut model = Model::new(100_000);
    for fields in ["", "05 0001 00", "01 0007 0001 0040 01 0010", "FF"] {
        let mut answers = [0xA7; 9];
        assert_eq!(model.run(&hex(fields), &mut answers), Err(3));
        assert_eq!(answers, [0xA7; 9]);
    }
    assert_eq!(model, Model::new(100_000));
}

/// Four bytes for each answer, and the run stops where fewer are left.
#[test]
fn room_for_some_answers() {
    let fields = hex(WHOLE_CASE);
    let (.., all) = ran(&mut begun(SETTINGS), &fields, 24);
    for room in 0..30 {
        let (count, why, answers) = ran(&mut begun(SETTINGS), &fields, room);
        let wanted = (room / 4).min(6);
        assert_eq!(count, wanted);
        assert_eq!(why == Stop::Ended, room >= 24);
        assert_eq!(why == Stop::NoRoom, room < 24);
        assert_eq!(answers[..4 * wanted], all[..4 * wanted]);
        assert!(answers[4 * wanted..].iter().all(|&byte| byte == 0xA7));
    }
}

/// Other tags, wrong lengths, setup's and cut fields; with and without room.
#[test]
fn bad_fields_end_the_run_and_are_not_counted() {
    let good = "05 0001 00";
    let mut bad: Vec<String> = (8..=255)
        .chain([0])
        .map(|tag| format!("{tag:02X} 0001 00"))
        .collect();
    for length in (0..20).chain([256 + 7, 65_535]) {
        bad.push(format!("01 {length:04X} {}", "00".repeat(length)));
    }
    for (tag, right) in [(2, 11), (3, 1), (4, 2), (5, 1), (6, 4), (7, 2)] {
        let lengths = (0..20).filter(|&length| length != right);
        for length in lengths.chain([256 + right, 65_535]) {
            bad.push(format!("{tag:02X} {length:04X} {}", "00".repeat(length)));
        }
    }
    for bad in &bad {
        for room in [4, 7, 8, 20] {
            let fields = hex(&format!("{good} {bad} {good}"));
            let (count, why, _) = ran(&mut begun(SETTINGS), &fields, room);
            assert_eq!((count, why), (1, Stop::BadField), "{bad}, {room}");
        }
    }
    // A good field where there is no room is not reached by the bad one behind it.
    let fields = hex("05 0001 00 FF");
    assert_eq!(ran(&mut begun(SETTINGS), &fields, 3).1, Stop::NoRoom);
    let whole = hex("06 0004 00 01 0001");
    for cut in 1..whole.len() {
        let (count, why, _) = ran(&mut begun(SETTINGS), &whole[..cut], 0);
        assert_eq!((count, why), (0, Stop::BadField));
    }
}

/// Ten bytes are the bench's, and a good field everywhere; of the others only the
/// switch's own size.
#[test]
fn an_arrivals_field_may_have_the_switchs_own_header() {
    for (shape, own) in [
        (Shape::TEN_BYTES, 10),
        (Shape::wide(4, 24), 11),
        (Shape::wide(32, 64), 12),
    ] {
        for length in 0..=16 {
            let mut model = begun(Settings::of(shape, 1, 64, 1, 16));
            let header = Header {
                length: shape.shortest(),
                ..Header::default()
            };
            let mut value = vec![0];
            value.extend(write(&shape, &header).unwrap());
            value.resize(length, 0);
            let fields = [&[2, 0, length as u8], &value[..]].concat();
            let (count, why, answers) = ran(&mut model, &fields, 4);
            let wanted = match length {
                0 => (0, Stop::BadField, 0xA7),
                _ if length - 1 == own => (1, Stop::Ended, 0),
                11 => (1, Stop::Ended, 6),
                _ => (0, Stop::BadField, 0xA7),
            };
            assert_eq!((count, why, answers[0]), wanted, "{shape:?}, {length}");
        }
    }
}

/// A lie in a run halts its port, for the fields behind it and for good.
#[test]
fn a_run_can_halt_a_port() {
    let mut model = begun(Settings::ten_bytes(4, 64, 1, 16));
    let [lie, queue_1, queue_0] = [
        written(0, 1, 0, 12),
        written(0, 0, 1, 12),
        written(0, 0, 0, 12),
    ];
    let fields: Vec<u8> = [queue_1, lie, queue_1, queue_0]
        .iter()
        .flat_map(|header| [&[2, 0, 11, 0], &header[..]].concat())
        .collect();
    let (count, _, answers) = ran(&mut model, &fields, 16);
    assert_eq!(count, 4);
    assert_eq!(answers, hex("00000000 08000000 0A000000 00000001"));
    assert_eq!(model.call(&Call::Report { port: 0 }), Reply::Mark(8));
}
