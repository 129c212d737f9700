//! Runs of fields: the library beside the model, and beside its own calls one by
//! one.

mod ends;
mod no_state;
mod slips;
mod steps;
mod turns;

use checks::runs::{all, Plan, Runs, Tally, PROVED, WRAPPED};
use checks::scale::Scale;
use model::Shape;
use traffic::Profile;

/// The switches on which runs are made.
const SHAPES: [Shape; 5] = [
    Shape::TEN_BYTES,
    Shape::wide(2, 2),
    Shape::wide(4, 24),
    Shape::wide(8, 16),
    Shape::wide(32, 64),
];

/// All kinds of traffic on all of them: valid, hostile, and refused often. Some
/// runs have too little room, and some a bad field.
#[test]
fn runs_of_any_traffic_agree_with_the_model() {
    let mut tally = Tally::default();
    for shape in SHAPES {
        for nodes in [1, 16, 256, 2048] {
            let scale = Scale { shape, nodes };
            for (seed, profile) in (1..).zip(Profile::ALL) {
                let plan = Plan {
                    seed,
                    profile,
                    scale,
                    fields: scale.share(5_000),
                    packets: 0,
                };
                tally.add(&all(&plan, PROVED).unwrap());
            }
        }
    }
    println!("{tally}");
    assert_eq!(tally.too_rare(150), [] as [String; 0]);
}

/// One after the other on one switch, with fewer at most where calls take long.
#[test]
fn runs_of_1_to_100_000_fields_agree_with_the_model() {
    let scales = [
        (Scale::ten_bytes(1), 100_000),
        (Scale::ten_bytes(256), 100_000),
        (Scale::ten_bytes(2048), 30_000),
        (scale(Shape::wide(2, 2), 16), 100_000),
        (scale(Shape::wide(4, 24), 16), 100_000),
        (scale(Shape::wide(8, 16), 256), 30_000),
        (scale(Shape::wide(32, 64), 1), 100_000),
        (scale(Shape::wide(32, 64), 2048), 1_000),
    ];
    let lengths = [0, 1, 2, 3, 7, 10, 100, 255, 256, 257, 1_000, 3_000, 10_000];
    let profiles = [Profile::Valid, Profile::Hostile, Profile::Full];
    for (number, (scale, most)) in scales.into_iter().enumerate() {
        let plan = Plan {
            seed: number as u64,
            profile: profiles[number % 3],
            scale,
            fields: 0,
            packets: 0,
        };
        let mut runs = Runs::begun(&plan, PROVED).unwrap();
        for fields in lengths.into_iter().chain([most]) {
            if fields <= most {
                runs.whole(fields).unwrap();
            }
        }
        runs.compare().unwrap();
        println!("{scale:?}: {}", runs.tally);
        assert!(runs.tally.fields() > most as u64);
    }
}

#[test]
fn the_wrappers_runs_agree_with_the_model() {
    for shape in SHAPES {
        let scale = scale(shape, 4);
        for (seed, profile) in (1..).zip(Profile::ALL) {
            let plan = Plan {
                seed,
                profile,
                scale,
                fields: scale.share(5_000),
                packets: 0,
            };
            all(&plan, WRAPPED).unwrap();
        }
    }
}

fn scale(shape: Shape, nodes: u32) -> Scale {
    Scale { shape, nodes }
}
