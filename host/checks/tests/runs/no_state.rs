//! Runs on memory that is no switch state: refused 3, and nothing is written.

use checks::changes::{apply, changes};
use checks::runs::{made, Told, PROVED};
use checks::{reader, writer};
use model::Settings;
use traffic::Random;

use crate::steps::Steps;
use crate::SHAPES;

/// Fields and room of each kind: none, good, bad, setup's; none, too little, enough.
fn all_kinds(steps: &Steps) -> Vec<(Vec<u8>, usize)> {
    let setup = [1, 0, 7, 0, 1, 0, 64, 1, 0, 16].to_vec();
    let all = [Vec::new(), steps.stream.fields.clone(), vec![0xFF], setup];
    let rooms = [0, 3, 4, 4 * steps.fields() + 5];
    all.iter()
        .flat_map(|fields| rooms.map(|room| (fields.clone(), room)))
        .collect()
}

fn refused(steps: &Steps, memory: &mut [u8]) {
    let before = memory.to_vec();
    for (fields, room) in all_kinds(steps) {
        let answer = made(PROVED, memory, &fields, room);
        assert_eq!(answer, Ok(Err(3)));
        assert!(before == memory);
    }
}

#[test]
fn damaged_memory() {
    let mut random = Random::new(3);
    for shape in SHAPES {
        let steps = Steps::varied(&shape, 30);
        let settings = steps.model.ledger().unwrap().settings;
        let (mut damaged, mut states) = (0, 0);
        while damaged < 300 {
            let start = &steps.memories[damaged % 30];
            let mut memory = apply(start, &changes(&mut random, start, &settings));
            if reader::judged(&memory).is_err() {
                damaged += 1;
                refused(&steps, &mut memory);
                continue;
            }
            // What is still a state is taken for one.
            states += 1;
            let before = memory.clone();
            let told = Told {
                count: 0,
                why: 0,
                answers: Vec::new(),
            };
            assert_eq!(made(PROVED, &mut memory, &[], 9), Ok(Ok(told)));
            assert!(before == memory);
        }
        println!("{shape:?}: {damaged} damaged, {states} still a state");
    }
}

/// None at all, too short for settings, for the map, for the state by a byte.
#[test]
fn short_memory() {
    for shape in SHAPES {
        let steps = Steps::varied(&shape, 30);
        let settings = steps.model.ledger().unwrap().settings;
        let size = model::size(&settings);
        let mut memory = steps.memories[0].clone();
        for lent in [0, 1, 2, 15, 16, 17, 4111, 4112, 4113, size - 1] {
            refused(&steps, &mut memory[..lent]);
            refused(&steps, &mut vec![0; lent]);
        }
        refused(&steps, &mut vec![0; size]);
    }
}

/// A starting state of which one setting is another: out of its row, or a credit
/// that no arrival credit is.
#[test]
fn another_setting() {
    let steps = Steps::varied(&SHAPES[0], 30);
    let starting = writer::starting(Settings::ten_bytes(3, 64, 2, 40));
    for setting in 0..8 {
        for wrong in [0xFFFFu16, 0x8000, 33 << 8] {
            let mut memory = starting.clone();
            memory[2 * setting..2 * setting + 2].copy_from_slice(&wrong.to_be_bytes());
            assert!(reader::judged(&memory).is_err());
            refused(&steps, &mut memory);
        }
    }
}
