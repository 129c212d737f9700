//! Many runs on all processors, for programs.

use std::process::exit;
use std::sync::atomic::{AtomicBool, AtomicU64, Ordering};
use std::sync::Mutex;
use std::thread;
use std::time::{Duration, Instant};

use crate::program::say;

/// No run takes a second; one that takes this long does not end.
const LONGEST_RUN: Duration = Duration::from_secs(120);

/// The number of a worker's run, so that the watcher sees whether it goes on.
const RESTING: u64 = u64::MAX;

/// How many parts of a size so many are, the last of which may be smaller.
pub fn in_parts(all: u64, of: u64) -> u64 {
    all / of + u64::from(all % of > 0)
}

/// Runs 0 to `runs` - 1 on all processors; the first failure ends the program.
pub fn on_all_processors<T: Send>(
    what: &str,
    runs: u64,
    total: T,
    work: impl Fn(u64) -> Result<T, String> + Sync,
    add: impl Fn(&mut T, T) + Sync,
) -> T {
    let workers = thread::available_parallelism().map_or(1, |n| n.get());
    let next = AtomicU64::new(0);
    let current: Vec<AtomicU64> = (0..workers).map(|_| AtomicU64::new(RESTING)).collect();
    let done = AtomicBool::new(false);
    let total = Mutex::new(total);
    thread::scope(|scope| {
        let working: Vec<_> = current
            .iter()
            .map(|mine| {
                let (next, work, add, total) = (&next, &work, &add, &total);
                scope.spawn(move || loop {
                    let run = next.fetch_add(1, Ordering::Relaxed);
                    if run >= runs {
                        mine.store(RESTING, Ordering::Relaxed);
                        return;
                    }
                    mine.store(run, Ordering::Relaxed);
                    match work(run) {
                        Ok(part) => add(&mut total.lock().unwrap(), part),
                        Err(failure) => {
                            say(format!("{what} {run} FAILED\n{failure}"));
                            exit(1);
                        }
                    }
                })
            })
            .collect();
        // A call that does not end must not keep the gate waiting.
        let (current, done) = (&current, &done);
        scope.spawn(move || {
            let mut seen: Vec<(u64, Instant)> = vec![(RESTING, Instant::now()); current.len()];
            while !done.load(Ordering::Relaxed) {
                thread::sleep(Duration::from_millis(20));
                for (run, (last, since)) in current.iter().zip(&mut seen) {
                    let run = run.load(Ordering::Relaxed);
                    if run != *last {
                        *last = run;
                        *since = Instant::now();
                    } else if run != RESTING && since.elapsed() > LONGEST_RUN {
                        say(format!("{what} {run} FAILED: it does not end"));
                        exit(1);
                    }
                }
            }
        });
        let panicked = working
            .into_iter()
            .filter_map(|worker| worker.join().err())
            .count();
        done.store(true, Ordering::Relaxed);
        if panicked > 0 {
            say(format!("{what}: a worker panicked"));
            exit(1);
        }
    });
    total.into_inner().unwrap()
}
