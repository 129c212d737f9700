//! Would slips be found? Runs with one each.

use checks::runs::{all, Plan, Run, ANSWER, PROVED};
use checks::scale::Scale;
use model::Shape;
use traffic::Profile;

type Slip = (&'static str, Run);

/// Each is the library's run, and something done to what it wrote.
const SLIPS: [Slip; 11] = [
    (
        "one counted too many",
        |memory, fields, answers, count, why| {
            let number = PROVED(memory, fields, answers, count, why);
            *count += u64::from(number == 0);
            number
        },
    ),
    (
        "a bad field is counted",
        |memory, fields, answers, count, why| {
            let number = PROVED(memory, fields, answers, count, why);
            *count += u64::from(number == 0 && *why == 1);
            number
        },
    ),
    (
        "no room before bad",
        |memory, fields, answers, count, why| {
            let number = PROVED(memory, fields, answers, count, why);
            if *why == 1 && answers.len() < ANSWER * (*count as usize + 1) {
                *why = 2;
            }
            number
        },
    ),
    (
        "the end told as a bad field",
        |memory, fields, answers, count, why| {
            let number = PROVED(memory, fields, answers, count, why);
            *why = (*why).max(1);
            number
        },
    ),
    (
        "the rest of the room is cleared",
        |memory, fields, answers, count, why| {
            let number = PROVED(memory, fields, answers, count, why);
            answers[ANSWER * *count as usize..].fill(0);
            number
        },
    ),
    ("no idle", |memory, fields, answers, count, why| {
        let number = PROVED(memory, fields, answers, count, why);
        let done = ANSWER * *count as usize;
        answers[..done]
            .chunks_mut(ANSWER)
            .for_each(|answer| answer[1] = 0);
        number
    }),
    (
        "entry ids the other way round",
        |memory, fields, answers, count, why| {
            let number = PROVED(memory, fields, answers, count, why);
            let done = ANSWER * *count as usize;
            answers[..done]
                .chunks_mut(ANSWER)
                .for_each(|answer| answer.swap(2, 3));
            number
        },
    ),
    (
        "a byte past the state",
        |memory, fields, answers, count, why| {
            let number = PROVED(memory, fields, answers, count, why);
            memory
                .iter_mut()
                .last()
                .into_iter()
                .for_each(|byte| *byte ^= 1);
            number
        },
    ),
    (
        "the last field is left out",
        |memory, fields, answers, count, why| {
            let room = answers.len().saturating_sub(ANSWER);
            PROVED(memory, fields, &mut answers[..room], count, why)
        },
    ),
    (
        "an idle port stays idle, credit or not",
        |memory, fields, answers, count, why| stale(memory, fields, answers, (count, why), &[4]),
    ),
    (
        "an idle port stays idle, prefetch or not",
        |memory, fields, answers, count, why| stale(memory, fields, answers, (count, why), &[6]),
    ),
];

/// One field after the other, but that a port which was idle is told idle again
/// until a field of these tags names it.
fn stale(
    memory: &mut [u8],
    fields: &[u8],
    answers: &mut [u8],
    told: (&mut u64, &mut u32),
    wake: &[u8],
) -> u32 {
    let (mut idle, mut done) = ([false; 256], 0);
    let (mut left, mut room) = (fields, answers);
    loop {
        let fits = room.len().min(ANSWER);
        let (answer, behind) = room.split_at_mut(fits);
        let (kept, mut one, mut stop) = (memory.to_vec(), 0, 0);
        // With room for one answer, so that one field is done at most.
        let number = PROVED(memory, left, answer, &mut one, &mut stop);
        if number != 0 {
            return number;
        }
        done += one;
        if one == 1 {
            let (tag, port) = (left[0], usize::from(left[3]));
            if tag == 5 && idle[port] {
                memory.copy_from_slice(&kept);
                answer.copy_from_slice(&[0, 1, 0, 0]);
            }
            idle[port] = match tag {
                5 => answer[1] == 1,
                _ => idle[port] && !wake.contains(&tag),
            };
            left = &left[3 + usize::from(u16::from_be_bytes([left[1], left[2]]))..];
        }
        if one == 0 || stop != 2 {
            (*told.0, *told.1) = (done, stop);
            return 0;
        }
        room = behind;
    }
}

fn found(run: Run, seed: u64) -> Result<(), String> {
    let plan = Plan {
        seed,
        profile: Profile::Valid,
        scale: Scale {
            shape: Shape::wide(4, 24),
            nodes: 4,
        },
        fields: 20_000,
        packets: 0,
    };
    all(&plan, run).map(|_| ())
}

#[test]
fn a_slip_in_a_run_is_found() {
    found(PROVED, 1).unwrap();
    for (name, run) in SLIPS {
        match found(run, 1) {
            Ok(()) => panic!("not found: {name}"),
            Err(why) => println!("{name}: {why}"),
        }
    }
}

/// With both that make a queue ready it is a run like another.
#[test]
fn a_run_that_lets_idle_ports_sleep_is_right() {
    let run: Run =
        |memory, fields, answers, count, why| stale(memory, fields, answers, (count, why), &[4, 6]);
    found(run, 1).unwrap();
}
