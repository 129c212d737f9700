//! `headers [HEADERS [SEED]]`: so many headers of any shape through the proved
//! reader and writer, beside the model's and beside each other, on all
//! processors.

use std::time::Instant;

use checks::headers::{Tally, PROVED};
use checks::program::{fail, say, Words};
use checks::workers::{in_parts, on_all_processors};

const HEADERS_A_RUN: u64 = 100_000;

fn main() {
    let mut words = Words::given("headers [HEADERS [SEED]]");
    let headers = words.how_many(10_000_000);
    let seed = words.number().unwrap_or(1);
    words.end();
    say(format!("{headers} headers, seed {seed}"));
    let begun = Instant::now();
    let tally = on_all_processors(
        "headers",
        in_parts(headers, HEADERS_A_RUN),
        Tally::default(),
        |part| {
            let left = headers - part * HEADERS_A_RUN;
            let seed = seed ^ part.wrapping_mul(0xD1B5_4A32_D192_ED03);
            PROVED.run(seed, left.min(HEADERS_A_RUN))
        },
        |total, part| total.add(&part),
    );
    let done = tally.headers();
    say(format!("{tally}{done} headers in {:.1?}", begun.elapsed()));
    if done != headers {
        fail(format!("{done} headers were tried of {headers}"));
    }
    let least = Tally::least(headers);
    let rare = tally.too_rare(least);
    if !rare.is_empty() {
        fail(format!("less than {least} times: {rare:?}"));
    }
    match least {
        0 => say("all agree; too few to ask for each answer"),
        _ => say(format!("all agree; each answer came {least} times or more")),
    }
}
