//! `worst_wait [STARTS [SEED [PORTS QUEUES]]]`: so many starts of packets that
//! are watched from door to door while rounds are made, on all processors; how
//! near they come to the promised most. With the ten-byte header where no ports
//! and queues are named.

use std::time::Instant;

use checks::program::{fail, say, Words};
use checks::search::{run, Start};
use checks::waits::Tally;
use checks::workers::{in_parts, on_all_processors};
use checks::wrapper;
use model::Shape;

const STARTS_A_RUN: u64 = 100;
/// From so many starts on, packets of each kind must have been watched.
const MANY_STARTS: u64 = 100;

/// The shape that is named, or that of the ten-byte header.
fn shape(words: &mut Words) -> Shape {
    let shape = match words.more() {
        true => Shape::wide(words.small(), words.small()),
        false => Shape::TEN_BYTES,
    };
    match shape.in_its_rows() {
        true => shape,
        false => words.refuse(),
    }
}

fn main() {
    let mut words = Words::given("worst_wait [STARTS [SEED [PORTS QUEUES]]]");
    let starts = words.how_many(100_000);
    let seed = words.number().unwrap_or(1);
    let shape = shape(&mut words);
    words.end();
    say(format!(
        "worst wait of {starts} starts, seed {seed}, {shape:?}"
    ));
    let begun = Instant::now();
    let tally = on_all_processors(
        "starts",
        in_parts(starts, STARTS_A_RUN),
        Tally::default(),
        |part| {
            let mut tally = Tally::default();
            let first = part * STARTS_A_RUN;
            for number in first..first + STARTS_A_RUN.min(starts - first) {
                let start = Start::numbered(seed, number, shape);
                run(&start, &wrapper::call, &mut tally)?;
            }
            Ok(tally)
        },
        |total, part| total.add(&part),
    );
    say(format!("{tally}\nin {:.1?}", begun.elapsed()));
    if tally.starts != starts {
        fail(format!("{} starts were made of {starts}", tally.starts));
    }
    let missing = tally.missing();
    if starts >= MANY_STARTS && !missing.is_empty() {
        fail(format!("nothing to see: {missing:?}"));
    }
    say(format!("{starts} starts: no promise broken"));
}
