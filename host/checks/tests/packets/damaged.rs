//! Damaged memory of switches that keep packets.

use checks::damage::{self, Verdicts};
use checks::finding::{self, Finding};
use checks::scale::Scale;
use checks::{library, writer, Whole};
use model::{Reply, Settings, Shape};
use traffic::Profile;

use crate::LIBRARY;

fn plan(seed: u64, profile: Profile, nodes: u32) -> damage::Plan {
    damage::Plan {
        seed,
        profile,
        scale: Scale::ten_bytes(nodes),
        damaged: 20,
        packets: nodes,
    }
}

/// Until each rule was found broken in each of its ways.
#[test]
fn damaged_memory_is_judged_alike_by_all() {
    let mut verdicts = Verdicts::default();
    for seed in 1..60 {
        for profile in Profile::ALL {
            let plan = plan(seed, profile, [1, 2, 4, 16][seed as usize % 4]);
            if let Err(failure) = damage::run(&plan, &LIBRARY, &mut verdicts) {
                panic!("{failure}");
            }
        }
        if seed > 12 && verdicts.too_rare(2).is_empty() {
            break;
        }
    }
    println!("{verdicts}");
    assert!(verdicts.states > 100 && verdicts.no_states > 500);
    assert!(verdicts.repairs > 200);
    assert_eq!(verdicts.too_rare(2), []);
}

/// Every number that two bytes have, in both editions: 0 and 1 with the ten-byte
/// header, 0 with the wide ones.
#[test]
fn the_setting_of_packets_has_its_row() {
    for shape in [Shape::TEN_BYTES, Shape::wide(4, 24)] {
        let whole = writer::starting(Settings::of(shape, 1, 64, 1, 16));
        for number in 0..=u16::MAX {
            let mut memory = whole.clone();
            memory[14..16].copy_from_slice(&number.to_be_bytes());
            let found = finding::first(&memory);
            let row = if shape == Shape::TEN_BYTES { 1 } else { 0 };
            let wanted = (number > row).then_some(Finding {
                rule: 'a',
                item: 7,
                way: "packets",
            });
            assert_eq!(found, wanted, "{number}");
            let (mut rule, mut item) = (9, 9);
            ventorupo::calls::find(&memory, &mut rule, &mut item);
            let told = if number > row { (1, 7) } else { (0, 0) };
            assert_eq!((rule, item), told, "{number}");
            assert_eq!(rules::is_state(&memory), number <= row, "{number}");
        }
    }
}

/// A desk that takes a state with packets of any number for one that keeps them.
#[test]
fn a_slip_in_the_settings_row_is_found() {
    let slip = Whole(|memory, packets, call| {
        let kept = memory.get(14).copied().filter(|&high| high > 0);
        if kept.is_some() {
            memory[14] = 0;
        }
        let reply = library::with_packets(memory, packets, call)?;
        if let (Some(high), Reply::Refused(_)) = (kept, &reply) {
            memory[14] = high;
        }
        Ok(reply)
    });
    let found = (1..200).find_map(|seed| {
        let plan = plan(seed, Profile::Valid, 2);
        damage::run(&plan, &slip, &mut Verdicts::default()).err()
    });
    let failure = found.expect("the slip was not found");
    println!("{failure}");
    assert!(failure.changes.iter().any(|change| change.at == 14));
}
