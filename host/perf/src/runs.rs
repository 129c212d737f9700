//! A run of fields beside lean's, on the same streams; and what short runs cost.

use lean::{EarlyOut, Lean, Ran, WholeWord, Why};
use model::{size, Shape};
use ventorupo::calls;

use crate::mixes::{of_lean, Mix, Stream};
use crate::{heading, numbers, settings, timed};

/// The calls of each row.
const CALLS: usize = 1_000_000;
/// How often each is timed at each place.
const SAMPLES: usize = 6;
/// Where the lent memory begins within a page, and a page.
const PLACES: [usize; 4] = [0, 72, 1030, 3001];
const PAGE: usize = 4096;

/// The proved run: how many fields it did, and why it stopped.
fn run(memory: &mut [u8], fields: &[u8], answers: &mut [u8]) -> (u64, u32) {
    let (mut count, mut why) = (0, 0);
    let number = calls::run(memory, fields, answers, &mut count, &mut why);
    assert_eq!(number, 0);
    (count, why)
}

/// Some bytes, laid so that they begin at a place of a page.
struct Placed {
    bytes: Vec<u8>,
    first: usize,
    len: usize,
}

impl Placed {
    fn new(len: usize, place: usize) -> Placed {
        let bytes = vec![0; len + 2 * PAGE];
        let in_page = bytes.as_ptr() as usize % PAGE;
        let first = (PAGE - in_page) % PAGE + place;
        Placed { bytes, first, len }
    }

    fn bytes(&mut self) -> &mut [u8] {
        &mut self.bytes[self.first..self.first + self.len]
    }
}

/// The three desks where the timed fields begin.
struct Start {
    memory: Vec<u8>,
    early: EarlyOut,
    whole: WholeWord,
}

impl Start {
    /// Set up, and filled by the fields that come before.
    fn of(stream: &Stream) -> Start {
        let settings = &stream.settings;
        let mut start = Start {
            memory: vec![0; size(settings)],
            early: Lean::setup(of_lean(settings)).expect("settings in their rows"),
            whole: Lean::setup(of_lean(settings)).expect("settings in their rows"),
        };
        assert_eq!(calls::setup(&mut start.memory, &numbers(settings)), 0);
        // No field is shorter than its answer.
        let mut told = [(); 3].map(|()| vec![0; stream.before.len()]);
        let (count, why) = run(&mut start.memory, &stream.before, &mut told[0]);
        let wanted = Ran {
            count,
            why: Why::End,
        };
        assert_eq!(why, 0);
        assert_eq!(start.early.run(&stream.before, &mut told[1]), wanted);
        assert_eq!(start.whole.run(&stream.before, &mut told[2]), wanted);
        assert!(told[0] == told[1] && told[0] == told[2]);
        start
    }

    /// Nanoseconds of the whole stream: the run, and lean's two. All begin where the
    /// stream does; they take turns, so that all meet the same weather.
    fn sample(&self, stream: &Stream, memory: &mut [u8], told: &mut [Vec<u8>; 3]) -> [f64; 3] {
        told.iter_mut().for_each(|told| told.fill(0xFF));
        memory.copy_from_slice(&self.memory);
        let (mut early, mut whole) = (self.early.clone(), self.whole.clone());
        let [ours, of_early, of_whole] = told;
        let (mut ran, mut by_early, mut by_whole) = (None, None, None);
        let spent = [
            timed(|| ran = Some(run(memory, &stream.fields, ours))),
            timed(|| by_early = Some(early.run(&stream.fields, of_early))),
            timed(|| by_whole = Some(whole.run(&stream.fields, of_whole))),
        ];
        // The same work, and its answers are used.
        let count = stream.ends.len() as u64;
        let wanted = Some(Ran {
            count,
            why: Why::End,
        });
        assert_eq!(ran, Some((count, 0)));
        assert!(by_early == wanted && by_whole == wanted);
        assert!(ours == of_early && ours == of_whole);
        spent
    }
}

/// Nanoseconds a call at each place, at its best: the run, and lean's two.
fn at_each_place(stream: &Stream) -> Vec<[f64; 3]> {
    let start = Start::of(stream);
    let calls = stream.ends.len();
    let mut told = [(); 3].map(|()| vec![0; 4 * calls]);
    let mut memories = PLACES.map(|place| Placed::new(start.memory.len(), place));
    let mut least = vec![[f64::INFINITY; 3]; PLACES.len()];
    for _ in 0..SAMPLES {
        for (memory, least) in memories.iter_mut().zip(&mut least) {
            let spent = start.sample(stream, memory.bytes(), &mut told);
            for (least, spent) in least.iter_mut().zip(spent) {
                *least = least.min(spent / calls as f64);
            }
        }
    }
    least
}

/// The least of all places.
fn least(spent: &[[f64; 3]], which: usize) -> f64 {
    let of_places = spent.iter().map(|spent| spent[which]);
    of_places.fold(f64::INFINITY, f64::min)
}

/// One of lean's times, the run's beside it, and the least and the greatest ratio at
/// one place.
fn beside(spent: &[[f64; 3]], lean: usize) -> String {
    let ratios = || spent.iter().map(|spent| spent[0] / spent[lean]);
    format!(
        "{:.1} | {:.2} | {:.2} to {:.2}",
        least(spent, lean),
        least(spent, 0) / least(spent, lean),
        ratios().fold(f64::INFINITY, f64::min),
        ratios().fold(0.0, f64::max)
    )
}

pub fn beside_lean(shape: Shape) {
    heading("Runs of a million fields, ns a call", shape);
    println!("| N | mix | run | lean, early out | ratio | at one place | lean, whole word | ratio | at one place |");
    println!("|---|---|---|---|---|---|---|---|---|");
    for nodes in [16, 256, 2048] {
        for mix in Mix::ALL {
            let stream = Stream::made(1, mix, settings(shape, nodes), CALLS);
            let spent = at_each_place(&stream);
            println!(
                "| {nodes} | {} | {:.1} | {} | {} |",
                mix.name(),
                least(&spent, 0),
                beside(&spent, 1),
                beside(&spent, 2)
            );
        }
    }
    println!();
}

/// How many fields a run has; and of so many runs a time is made, if the stream has
/// them.
const LENGTHS: [usize; 6] = [1, 10, 100, 1000, 10_000, CALLS];
const RUNS: usize = 2000;

/// Nanoseconds a call in runs of so many fields, at its best.
fn in_runs_of(length: usize, stream: &Stream, start: &Start) -> f64 {
    let calls = (RUNS * length).min(stream.ends.len());
    let mut memory = Placed::new(start.memory.len(), 0);
    let mut told = vec![0; 4 * length];
    let mut least = f64::INFINITY;
    for _ in 0..SAMPLES {
        memory.bytes().copy_from_slice(&start.memory);
        let memory = memory.bytes();
        let spent = timed(|| {
            let mut first = 0;
            for ends in stream.ends[..calls].chunks(length) {
                let end = ends[ends.len() - 1];
                let ran = run(memory, &stream.fields[first..end], &mut told);
                assert_eq!(ran, (ends.len() as u64, 0));
                first = end;
            }
        });
        least = least.min(spent / calls as f64);
    }
    least
}

/// What a run's one test costs, by how many calls share it.
pub fn short_and_long(shape: Shape) {
    heading(
        "Runs of few fields and of many, the real mix, ns a call",
        shape,
    );
    println!("| fields a run | N = 16 | N = 256 | N = 2,048 |");
    println!("|---|---|---|---|");
    let of_pools = [16, 256, 2048].map(|nodes| {
        let stream = Stream::made(1, Mix::Real, settings(shape, nodes), CALLS);
        let start = Start::of(&stream);
        LENGTHS.map(|length| in_runs_of(length, &stream, &start))
    });
    for (at, length) in LENGTHS.iter().enumerate() {
        let [few, some, many] = of_pools.map(|spent| spent[at]);
        println!("| {length} | {few:.1} | {some:.1} | {many:.1} |");
    }
    println!();
}
