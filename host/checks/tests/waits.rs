//! A short search for the longest wait from door to door; the long one is
//! `worst_wait`'s.

mod slips;

use checks::search::{run, Aim, Start};
use checks::waits::Tally;
use checks::{wrapper, Desk};
use model::Shape;
use slips::{right, with_round, SLIPS};

const TEN: Shape = Shape::TEN_BYTES;

fn search<D: Desk>(desk: &D, shape: Shape, aim: Aim, starts: u64) -> Result<Tally, String> {
    let mut tally = Tally::default();
    for number in 0..starts {
        let Start { seed, .. } = Start::numbered(12, number, shape);
        run(&Start { seed, aim, shape }, desk, &mut tally)?;
    }
    Ok(tally)
}

/// The aimed starts' longest wait for each number ahead is the promised most.
fn bound_is_reached(shape: Shape, tally: &Tally) {
    println!("{tally}");
    for ahead in 0..=3 {
        let [_, aimed] = tally.to_leave[&ahead];
        assert_eq!(aimed.longest, shape.queues * (ahead + 1), "{ahead} ahead");
        assert!(aimed.reached > 5);
    }
    for ahead in 0..=5 {
        let [_, aimed] = tally.to_stitch[&ahead];
        assert_eq!(aimed.longest, ahead + 1, "{ahead} ahead in ingress");
    }
}

#[test]
fn packets_behind_filled_queues_leave_in_time() {
    bound_is_reached(TEN, &search(&wrapper::call, TEN, Aim::Full, 150).unwrap());
}

#[test]
fn packets_that_are_always_passed_leave_in_time() {
    bound_is_reached(TEN, &search(&wrapper::call, TEN, Aim::Chased, 250).unwrap());
}

#[test]
fn packets_of_any_traffic_leave_in_time() {
    let tally = search(&wrapper::call, TEN, Aim::Any, 300).unwrap();
    println!("{tally}");
    let left: u64 = tally.to_leave.values().map(|[any, _]| any.times).sum();
    assert!(left > 100 && tally.uncovered > 10);
}

/// The switch's queue count stands where the promise said 24.
#[test]
fn packets_of_other_shapes_leave_in_time() {
    let few = Shape::wide(3, 5);
    for aim in [Aim::Full, Aim::Chased] {
        bound_is_reached(few, &search(&wrapper::call, few, aim, 400).unwrap());
    }
    // The promise is kept there too; long enough for the bound takes long.
    for (ports, queues, starts) in [(3, 5, 100), (2, 2, 100), (8, 16, 40), (32, 64, 2)] {
        for aim in [Aim::Full, Aim::Chased, Aim::Any] {
            let shape = Shape::wide(ports, queues);
            println!("{}", search(&wrapper::call, shape, aim, starts).unwrap());
        }
    }
}

/// Would a round that keeps a packet waiting be found? By the waits alone: here
/// nobody compares with the model.
#[test]
fn a_slip_that_delays_is_found() {
    let all = |desk: &dyn Fn(Aim) -> Result<Tally, String>| {
        [Aim::Full, Aim::Chased]
            .into_iter()
            .try_for_each(|aim| desk(aim).map(|_| ()))
    };
    let right = with_round(right);
    all(&|aim| search(&right, TEN, aim, 20)).unwrap();
    for slip in SLIPS.iter().filter(|slip| slip.delays) {
        let desk = with_round(slip.made);
        let broken = all(&|aim| search(&desk, TEN, aim, 100));
        println!("{}: {broken:?}", slip.name);
        assert!(broken.is_err(), "{}", slip.name);
    }
}
