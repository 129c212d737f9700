//! Where runs end: at the last field, at a bad one, or where the room does.

use checks::runs::{bad_fields, made, ANSWER, PROVED};
use model::{Call, Shape, Stop};
use traffic::{plain, tagged};

use crate::steps::{refused, used, Steps};
use crate::SHAPES;

#[test]
fn a_run_of_no_bytes_did_0_and_ended() {
    for shape in SHAPES {
        let steps = Steps::any(&shape, 1, 0);
        for room in 0..9 {
            steps.stops(&[], room, 0, Stop::Ended);
        }
    }
}

/// A cut field is bad; all before it are done.
#[test]
fn a_stream_cut_at_every_byte() {
    for shape in SHAPES {
        let steps = Steps::varied(&shape, 60);
        assert!((5..50).contains(&refused(&steps.answers)));
        let bytes = &steps.stream.fields;
        for cut in 0..=bytes.len() {
            let whole = steps.stream.ends.iter().filter(|&&end| end <= cut).count();
            let why = match steps.stream.bytes(whole) == cut {
                true => Stop::Ended,
                false => Stop::BadField,
            };
            steps.stops(&bytes[..cut], 4 * 60, whole, why);
            // Bad also where no room is left.
            steps.stops(&bytes[..cut], 4 * whole, whole, why);
        }
    }
}

/// Also where the good field behind the last that fits is followed by a bad one.
#[test]
fn rooms_of_every_length() {
    for shape in SHAPES {
        let steps = Steps::varied(&shape, 40);
        for room in 0..=4 * 40 + 7 {
            let (fits, all) = (room / ANSWER, steps.fields());
            let spoilt = [&steps.stream.fields[..], &[0xFF]].concat();
            for (fields, end) in [
                (&steps.stream.fields, Stop::Ended),
                (&spoilt, Stop::BadField),
            ] {
                match fits < all {
                    true => steps.stops(fields, room, fits, Stop::NoRoom),
                    false => steps.stops(fields, room, all, end),
                }
            }
        }
    }
}

/// Other tags, setups, wrong lengths; with room left, just none, and none for the
/// field before.
#[test]
fn bad_fields_of_every_kind_at_every_place() {
    for shape in SHAPES {
        let steps = Steps::varied(&shape, 12);
        let bad = bad_fields(&shape);
        assert!(bad.len() > 350);
        // Those with much behind them once, since they are long.
        for (number, bad) in bad.iter().enumerate() {
            for place in 0..=steps.fields() {
                if bad.len() > 1000 && place != number % 13 {
                    continue;
                }
                let spoilt = steps.stream.clone().spoilt(place, bad).fields;
                steps.stops(&spoilt, 60, place, Stop::BadField);
                steps.stops(&spoilt, 4 * place, place, Stop::BadField);
                if place > 0 {
                    steps.stops(&spoilt, 4 * place - 1, place - 1, Stop::NoRoom);
                }
            }
        }
    }
}

/// Their length says more than there is: by a byte, or by far.
#[test]
fn fields_that_speak_of_more_than_there_is() {
    for shape in SHAPES {
        let steps = Steps::varied(&shape, 12);
        for (tag, right) in [(1, 7), (2, 11), (3, 1), (4, 2), (5, 1), (6, 4), (7, 2)] {
            for length in [right, right + 1, right + 256, 65_535] {
                let field = tagged(tag, &vec![0; length]);
                for left in (0..3 + right).filter(|&left| left < field.len()) {
                    for place in 0..=steps.fields() {
                        let before = &steps.stream.fields[..steps.stream.bytes(place)];
                        let cut = [before, &field[..left]].concat();
                        let why = match left {
                            0 => Stop::Ended,
                            _ => Stop::BadField,
                        };
                        steps.stops(&cut, 4 * place + left % 4, place, why);
                    }
                }
            }
        }
    }
}

/// The answers of runs of one arrival's field and a turn, by the value's length.
fn arrivals(shape: &Shape, port: u8, length: usize) -> (usize, u32, Vec<u8>) {
    let (mut memory, _) = used(shape, 4);
    let source = u32::from(port) % shape.ports;
    let mut value = vec![port];
    value.extend(plain(shape, 0, source, 0, shape.shortest()));
    value.resize(length, 0);
    let fields = [tagged(2, &value), tagged(5, &[255])].concat();
    let told = made(PROVED, &mut memory, &fields, 8).unwrap().unwrap();
    (told.count, told.why, told.answers)
}

/// The port with ten bytes is good everywhere, and refused where headers are wide;
/// with a header of the switch's size it is good, with another's bad.
#[test]
fn arrivals_fields_of_every_length_on_every_shape() {
    for shape in traffic::SHAPES {
        let own = 1 + shape.header_bytes();
        for length in (0..=16).chain([256 + 11, 256 + own]) {
            let (count, why, answers) = arrivals(&shape, 0, length);
            if length != 11 && length != own {
                assert_eq!((count, why), (0, 1), "{shape:?}, {length}");
                continue;
            }
            assert_eq!((count, why), (2, 0), "{shape:?}, {length}");
            match length == own {
                // Taken in, or no node is free.
                true => assert!([0, 11].contains(&answers[0]), "{shape:?}: {answers:?}"),
                false => assert_eq!(answers[..4], [6, 0, 0, 0], "{shape:?}"),
            }
            assert_eq!(answers[4..], [4, 0, 0, 0]);
            // The port is tested before the header's size.
            let (.., answers) = arrivals(&shape, shape.ports as u8, length);
            assert_eq!(answers[..4], [4, 0, 0, 0], "{shape:?}, {length}");
        }
    }
}

/// A header of the switch's own size is read to its last byte.
#[test]
fn headers_in_fields_are_taken_whole() {
    for shape in traffic::SHAPES {
        let (memory, model) = used(&shape, 4);
        let header = plain(&shape, 0, 0, 0, shape.shortest());
        for at in 0..header.len() {
            let mut header = header.clone();
            header[at] ^= 0x10;
            let call = Call::Arrive { port: 0, header };
            let steps = Steps::of(memory.clone(), model.clone(), vec![call]);
            assert_eq!(steps.answers, [7, 0, 0, 0], "{shape:?}, byte {at}");
            steps.stops(&steps.stream.fields, 4, 1, Stop::Ended);
        }
    }
}

/// Two runs in place of one, at every field; and each field in a run of its own.
#[test]
fn a_run_split_at_every_field() {
    for shape in SHAPES {
        let steps = Steps::varied(&shape, 60);
        for place in 0..=steps.fields() {
            let (first, second) = steps.stream.fields.split_at(steps.stream.bytes(place));
            let mut memory = steps.memories[0].clone();
            let one = made(PROVED, &mut memory, first, 240).unwrap().unwrap();
            let two = made(PROVED, &mut memory, second, 240).unwrap().unwrap();
            assert_eq!((one.count, two.count), (place, 60 - place));
            assert_eq!([one.answers, two.answers].concat(), steps.answers);
            assert!(memory == steps.memories[60], "{place}");
        }
        let mut memory = steps.memories[0].clone();
        for field in 0..steps.fields() {
            let bytes = steps.stream.bytes(field)..steps.stream.bytes(field + 1);
            let told = made(PROVED, &mut memory, &steps.stream.fields[bytes], 4);
            let told = told.unwrap().unwrap();
            assert_eq!(told.answers, steps.answers[4 * field..4 * field + 4]);
            assert!(memory == steps.memories[field + 1], "{field}");
        }
    }
}

/// Memory of the state's size and longer: what is past it stays, and says nothing.
#[test]
fn bytes_past_the_state_stay() {
    for shape in SHAPES {
        let steps = Steps::varied(&shape, 60);
        let start = &steps.memories[0];
        let size = steps.size();
        for more in [0, 1, 2, 3, 64, 4096, 65_536] {
            for fill in [0, 0xFF] {
                let mut memory = start[..size].to_vec();
                memory.resize(size + more, fill);
                let told = made(PROVED, &mut memory, &steps.stream.fields, 240);
                assert_eq!(told.unwrap().unwrap().answers, steps.answers);
                assert!(memory[..size] == steps.memories[60][..size]);
                assert!(memory[size..].iter().all(|&byte| byte == fill));
            }
        }
    }
}
