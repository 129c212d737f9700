//! Where runs stop: bad fields, cut ones, and no room.

use lean::{EarlyOut, Ran, Why};
use model::{Settings, Shape};
use traffic::plain;

use crate::sides::{set_up, tagged, UNTOUCHED};

const WIDE: Settings = Settings::wide(8, 16, 4, 64, 2, 50);
const TEN_BYTES: Settings = Settings::ten_bytes(4, 64, 2, 50);

/// A good field of each tag, with an arrival of the switch's own header.
fn good(settings: &Settings) -> Vec<Vec<u8>> {
    let header = plain(&settings.shape(), 0, 1, 3, 100);
    vec![
        tagged(2, &[&[1], &header[..]].concat()),
        tagged(3, &[1]),
        tagged(4, &[0, 3]),
        tagged(5, &[0]),
        tagged(6, &[0, 3, 0, 2]),
        tagged(7, &[255, 1]),
        tagged(5, &[0]),
    ]
}

/// What the fields of `good` answer: the packet leaves in the last turn, when there
/// is credit; before, the turn is idle.
fn answers_of_good() -> Vec<u8> {
    let node = [0, 0, 8, 0];
    [node, node, node, [0, 1, 0, 0], [0; 4], [0; 4], node].concat()
}

fn ran(count: usize, why: Why) -> Ran {
    Ran {
        count: count as u64,
        why,
    }
}

#[test]
fn good_fields() {
    for settings in [WIDE, TEN_BYTES] {
        let fields = good(&settings);
        let mut room = vec![UNTOUCHED; 4 * fields.len()];
        let mut lean: EarlyOut = set_up(&settings);
        assert_eq!(lean.run(&fields.concat(), &mut room), ran(7, Why::End));
        assert_eq!(room, answers_of_good());
        assert_eq!(lean.run(&[], &mut room), ran(0, Why::End));
        assert_eq!(lean.run(&[], &mut []), ran(0, Why::End));
    }
}

/// Every tag with every length that is wrong for it, and tags that there aren't.
#[test]
fn bad_fields() {
    for settings in [WIDE, TEN_BYTES] {
        let mut lean: EarlyOut = set_up(&settings);
        for tag in 0..=255 {
            for length in (0..=20).chain([256, 257, 258, 260, 267, 268, 300, 65_535]) {
                if !is_good(&settings.shape(), tag, length) {
                    stops_at_bad(&mut lean, &tagged(tag, &vec![0; length]));
                }
            }
        }
    }
}

fn is_good(shape: &Shape, tag: u8, length: usize) -> bool {
    match tag {
        2 => length == 11 || length == 1 + shape.header_bytes(),
        3 | 5 => length == 1,
        4 | 7 => length == 2,
        6 => length == 4,
        _ => false,
    }
}

/// Behind an idle turn and alone, with room and without.
fn stops_at_bad(lean: &mut EarlyOut, bad: &[u8]) {
    let turn = tagged(5, &[0]);
    let bytes = [&turn[..], bad, &turn[..]].concat();
    for room in [4, 8, 100] {
        let mut room = vec![UNTOUCHED; room];
        assert_eq!(lean.run(&bytes, &mut room), ran(1, Why::Bad), "{bad:?}");
        assert_eq!(room[..4], [0, 1, 0, 0]);
        assert!(room[4..].iter().all(|&byte| byte == UNTOUCHED));
    }
    assert_eq!(lean.run(bad, &mut []), ran(0, Why::Bad), "{bad:?}");
}

/// Cut anywhere: at a field's end the run ends, within it the field is bad.
#[test]
fn cut_fields() {
    for settings in [WIDE, TEN_BYTES] {
        let fields = good(&settings);
        let (bytes, answers) = (fields.concat(), answers_of_good());
        let ends: Vec<usize> = (0..=fields.len())
            .map(|count| fields[..count].concat().len())
            .collect();
        for cut in 0..bytes.len() {
            let whole = ends.iter().filter(|&&end| end <= cut).count() - 1;
            let why = match ends.contains(&cut) {
                true => Why::End,
                false => Why::Bad,
            };
            let mut room = vec![UNTOUCHED; answers.len()];
            let mut lean: EarlyOut = set_up(&settings);
            assert_eq!(lean.run(&bytes[..cut], &mut room), ran(whole, why));
            assert_eq!(room[..4 * whole], answers[..4 * whole]);
            assert!(room[4 * whole..].iter().all(|&byte| byte == UNTOUCHED));
        }
    }
}

#[test]
fn no_room() {
    let fields = good(&WIDE);
    for bytes in 0..4 * fields.len() {
        let mut room = vec![UNTOUCHED; bytes];
        let mut lean: EarlyOut = set_up(&WIDE);
        let count = bytes / 4;
        assert_eq!(
            lean.run(&fields.concat(), &mut room),
            ran(count, Why::NoRoom)
        );
        assert_eq!(room[..4 * count], answers_of_good()[..4 * count]);
        assert!(room[4 * count..].iter().all(|&byte| byte == UNTOUCHED));
    }
}

/// On a switch with wide headers a header of ten bytes is in a good field, and
/// refused 6; of a port that there isn't, 4.
#[test]
fn ten_bytes_on_a_wide_switch() {
    let header = plain(&Shape::TEN_BYTES, 0, 1, 0, 100);
    let arrive = |port: u8| tagged(2, &[&[port], &header[..]].concat());
    let mut lean: EarlyOut = set_up(&WIDE);
    let mut room = [UNTOUCHED; 8];
    let bytes = [arrive(1), arrive(8)].concat();
    assert_eq!(lean.run(&bytes, &mut room), ran(2, Why::End));
    assert_eq!(room, [6, 0, 0, 0, 4, 0, 0, 0]);
}
