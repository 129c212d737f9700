//! How long they wait.

use crate::{Call, Choice, Model, Reply, Settings, BUCKETS};

use super::{written_fully, Desk, SMALL};

impl Desk {
    fn timed_turn(&mut self, port: u32, now: u32) -> Reply {
        self.call(Call::TimedTurn { port, now })
    }

    fn bucket(&mut self, port: u32, bucket: u32) -> Reply {
        self.call(Call::Bucket { port, bucket })
    }

    /// A packet of queue 0 with this timestamp comes in at port r and leaves by
    /// port 0 at this time.
    fn sent_at(&mut self, r: u32, timestamp: u32, now: u32) {
        let header = written_fully(0, r.into(), 0, 12, 0, timestamp.into(), 0, 0);
        assert!(matches!(self.arrive(r, &header), Reply::Entry(_)));
        assert!(matches!(self.stitch(r), Reply::Stitched(_)));
        assert!(matches!(self.prefetch(0, 0), Reply::Entry(_)));
        assert!(matches!(self.timed_turn(0, now), Reply::Leaves(..)));
    }
}

#[test]
fn waits_fall_in_their_buckets() {
    for (timestamp, now, bucket) in [
        (0, 0, 0),
        (0, 1, 1),
        (0, 2, 2),
        (0, 3, 2),
        (0, 4, 3),
        (0, 1 << 31, 32),
        (0, u32::MAX, 32),
        (u32::MAX - 5, 5, 4),
        (1, 0, 32),
    ] {
        let mut desk = Desk::new(SMALL);
        desk.sent_at(1, timestamp, now);
        for at in 0..BUCKETS as u32 {
            let wanted = Reply::Count(u32::from(at == bucket));
            assert_eq!(desk.bucket(0, at), wanted, "{timestamp} {now}");
        }
        assert_eq!(desk.ledger().ports[1].buckets, [0; BUCKETS]);
    }
}

#[test]
fn refusals_in_their_order() {
    let mut desk = Desk::new(SMALL);
    assert_eq!(desk.bucket(0, 32), Reply::Count(0));
    assert_eq!(desk.bucket(0, 33), Reply::Refused(5));
    assert_eq!(desk.bucket(4, 33), Reply::Refused(4));
    assert_eq!(desk.timed_turn(4, 0), Reply::Refused(4));
    assert_eq!(desk.timed_turn(3, 0), Reply::Idle);
    let mut none = Desk(Model::new(10));
    assert_eq!(none.bucket(4, 33), Reply::Refused(3));
    assert_eq!(none.timed_turn(4, 0), Reply::Refused(3));
}

#[test]
fn a_full_bucket_stays_full_and_setup_empties_it() {
    let mut desk = Desk::new(SMALL);
    let mut ledger = desk.ledger().clone();
    ledger.ports[0].buckets[0] = u32::MAX - 1;
    desk.0 = Model::with_ledger(desk.0.memory_len(), ledger);
    for _ in 0..3 {
        desk.sent_at(0, 9, 9);
        assert_eq!(desk.bucket(0, 0), Reply::Count(u32::MAX));
    }
    assert_eq!(desk.setup(SMALL), Reply::Done);
    assert_eq!(desk.bucket(0, 0), Reply::Count(0));
}

#[test]
fn both_ways_to_choose_count_alike() {
    let settings = Settings::ten_bytes(2, 64, 1, 0);
    let counts = [Choice::WholeWord, Choice::EarlyOut].map(|choice| {
        let mut desk = Desk(Model::with_choice(crate::size(&settings), choice));
        desk.setup(settings);
        desk.sent_at(0, 3, 300);
        assert_eq!(desk.timed_turn(0, 400), Reply::Idle);
        desk.ledger().ports[0].buckets
    });
    assert_eq!(counts[0], counts[1]);
    assert_eq!(counts[0].iter().sum::<u32>(), 1);
}
