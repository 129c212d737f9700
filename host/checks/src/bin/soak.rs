//! `soak [CALLS [SEED]]`: so many calls of the library beside the model, a quarter
//! as many again in runs, and a damaged memory for each 50 of them, with what the
//! night crew asks of it, on switches of every shape, with whole packets on some, and
//! on all processors.

use std::time::Instant;

use checks::counts::Counts;
use checks::damage::{self, Verdicts};
use checks::program::{fail, say, Words};
use checks::runs::{self, Tally, OTHER_KIND};
use checks::workers::{in_parts, on_all_processors};
use checks::{library, run};

/// Of a small switch; of a large one fewer.
const DAMAGED_A_RUN: usize = 100;
const CALLS_FOR_A_DAMAGED: u64 = 50;
/// On one switch, a small one; on a large one fewer.
const FIELDS_A_SWITCH: usize = 1000;
const CALLS_FOR_A_FIELD: u64 = 4;
/// From so many calls on, each answer must have come often enough, and each way
/// of breaking a rule, and what is to be seen of halted ports: once for so many
/// calls. Of setups there are few, and of calls before the first.
const MANY_CALLS: u64 = 200_000;
const CALLS_FOR_AN_ANSWER: u64 = 1000;
const CALLS_FOR_1_TO_3: u64 = 10_000;
const CALLS_FOR_AN_ANSWER_WITH_PACKETS: u64 = 20_000;
const CALLS_FOR_3_WITH_PACKETS: u64 = 200_000;
const CALLS_FOR_A_FIELDS_ANSWER: u64 = 50_000;
const CALLS_FOR_A_WAY: u64 = 100_000;
const CALLS_FOR_A_HALT: u64 = 5_000;

/// The plans of the first numbers, with so many parts in all.
fn enough<P>(parts: u64, plan: impl Fn(u64) -> (P, usize)) -> Vec<P> {
    let mut planned = 0;
    (0..)
        .map(plan)
        .take_while(|&(_, more)| {
            let before = planned;
            planned += more as u64;
            before < parts
        })
        .map(|(plan, _)| plan)
        .collect()
}

/// The calls of a seed, library and model side by side.
fn compared(seed: u64, calls: u64) -> Counts {
    let start = Instant::now();
    let plans = enough(calls, |number| {
        let plan = run::Plan::numbered(seed, number);
        (plan, plan.calls)
    });
    let counts = on_all_processors(
        "differential run",
        plans.len() as u64,
        Counts::with_packets(),
        |run| {
            let mut counts = Counts::with_packets();
            match run::run(&plans[run as usize], &library::call, &mut counts) {
                Ok(()) => Ok(counts),
                Err(failure) => Err(format!("{failure}")),
            }
        },
        |total, part| total.add(&part),
    );
    let done = counts.calls();
    say(format!(
        "{done} calls compared in {:.1?}\n{counts}",
        start.elapsed()
    ));
    let planned: u64 = plans.iter().map(|plan| plan.calls as u64).sum();
    if done != planned || done < calls {
        fail(format!("{done} calls were made of {planned}"));
    }
    counts
}

/// So many fields in runs of a seed, and some more.
fn in_runs(seed: u64, fields: u64) -> Tally {
    let start = Instant::now();
    let plans = enough(fields, |number| {
        let plan = runs::Plan::numbered(seed, number, FIELDS_A_SWITCH);
        (plan, plan.fields)
    });
    let tally = on_all_processors(
        "runs on switch",
        plans.len() as u64,
        Tally::default(),
        |run| runs::all(&plans[run as usize], runs::PROVED),
        |total, part| total.add(&part),
    );
    say(format!("{tally}\nin {:.1?}", start.elapsed()));
    if tally.fields() < fields {
        fail(format!("{} fields were done of {fields}", tally.fields()));
    }
    tally
}

/// So many damaged memories of a seed, and some more: runs are made to their end.
fn damaged(seed: u64, memories: u64) -> Verdicts {
    let start = Instant::now();
    let plans = enough(memories, |number| {
        let plan = damage::Plan::numbered(seed, number, DAMAGED_A_RUN);
        (plan, plan.damaged)
    });
    let verdicts = on_all_processors(
        "damage run",
        plans.len() as u64,
        Verdicts::default(),
        |run| {
            let mut verdicts = Verdicts::default();
            match damage::run(&plans[run as usize], &library::call, &mut verdicts) {
                Ok(()) => Ok(verdicts),
                Err(failure) => Err(format!("{failure}")),
            }
        },
        |total, part| total.add(&part),
    );
    say(format!("{verdicts}\nin {:.1?}", start.elapsed()));
    let done = verdicts.memories();
    let planned: u64 = plans.iter().map(|plan| plan.damaged as u64).sum();
    if done != planned || done < memories {
        fail(format!("{done} memories were damaged of {planned}"));
    }
    verdicts
}

fn main() {
    let mut words = Words::given("soak [CALLS [SEED]]");
    let calls = words.how_many(200_000);
    let seed = words.number().unwrap_or(1);
    words.end();
    say(format!("soak of {calls} calls, seed {seed}"));
    let counts = compared(seed, calls);
    let tally = in_runs(seed, in_parts(calls, CALLS_FOR_A_FIELD));
    let verdicts = damaged(seed, in_parts(calls, CALLS_FOR_A_DAMAGED));
    if calls < MANY_CALLS {
        return say("all agree; too few to ask for each answer");
    }
    let least = calls / CALLS_FOR_AN_ANSWER;
    let rare = counts.too_rare(calls / CALLS_FOR_1_TO_3, least);
    if !rare.is_empty() || !counts.each_call_at_least(least) {
        fail(format!("too rare to count, refusal and times: {rare:?}"));
    }
    let rare = counts.whole.too_rare(
        calls / CALLS_FOR_3_WITH_PACKETS,
        calls / CALLS_FOR_AN_ANSWER_WITH_PACKETS,
    );
    if !rare.is_empty() {
        fail(format!("too rarely answered where packets are: {rare:?}"));
    }
    let rare = counts.halts.too_rare(calls / CALLS_FOR_A_HALT);
    if !rare.is_empty() {
        fail(format!("too rarely seen of halted ports: {rare:?}"));
    }
    let least = calls / CALLS_FOR_A_FIELDS_ANSWER;
    let rare = tally.too_rare(least);
    if !rare.is_empty() || tally.refused(OTHER_KIND) < least {
        fail(format!("too rare in runs: {rare:?}, or {OTHER_KIND}"));
    }
    let rare = verdicts.too_rare(calls / CALLS_FOR_A_WAY);
    if !rare.is_empty() {
        fail(format!("too rarely found broken: {rare:?}"));
    }
    say("all agree; each answer came, and each rule was broken in each way");
}
