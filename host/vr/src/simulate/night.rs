//! A night, tick by tick, on two desks side by side. The one is sent everything. The
//! other is sent the same, but for the headers that the first has refused at the
//! liar's port; all other answers are compared. Each number is a desk's answer, or a
//! count or a sum of them.

use std::collections::{BTreeMap, VecDeque};

use ventorupo::{EntryId, Refusal, BUCKETS};

use super::boxes::{Boxes, Sending};
use super::desk::{Call, Desk, Told, PLACE_BYTES};
use super::plan::Plan;

/// Stitches of each port in a tick, prefetches of each queue, and timed turns of each
/// port.
const STITCHES: usize = 12;
const PREFETCHES: usize = 4;
const TURNS: usize = 4;
/// Outward credit of each queue at the start, in beats. What was used of it a receiver
/// hands out again so many ticks later.
const OUTWARD: u32 = 32;
const LATER: usize = 2;

/// What queue 0 counts, and what the queues above it do.
#[derive(Debug, Clone, Copy, Default, PartialEq, Eq)]
pub struct Both {
    pub clock: u64,
    pub above: u64,
}

impl Both {
    fn count(&mut self, clock: bool) {
        *if clock {
            &mut self.clock
        } else {
            &mut self.above
        } += 1;
    }

    /// The longer of a wait and what stands here.
    fn lengthen(&mut self, clock: bool, wait: u32) {
        let longest = if clock {
            &mut self.clock
        } else {
            &mut self.above
        };
        *longest = (*longest).max(wait.into());
    }

    pub fn most(self) -> u64 {
        self.clock.max(self.above)
    }

    pub fn sum(self) -> u64 {
        self.clock + self.above
    }
}

/// What a tick was.
#[derive(Debug, Clone, Default, PartialEq, Eq)]
pub struct Tick {
    /// Each port's free nodes, by an audit after the tick's arrivals: it has no fewer
    /// at any moment of the tick.
    pub free: Vec<u32>,
    /// Each port's mark, by reports after the tick's arrivals.
    pub marks: Vec<u32>,
    /// Clock packets taken in at the liar's port. They come behind its other headers,
    /// so where the tick has a mark they were taken in at a halted port.
    pub liars_clocks: u64,
    /// Headers taken in at all ports, those refused at the liar's, and at the others.
    pub taken: Both,
    pub refused: u64,
    pub refused_elsewhere: u64,
    /// Packets sent by all ports' timed turns, and how long they waited at most.
    pub left: Both,
    pub longest: Both,
}

/// What a port's night was.
#[derive(Debug, Clone, PartialEq, Eq)]
pub struct Port {
    pub taken: Both,
    /// Clock packets refused.
    pub clocks_refused: u64,
    /// By the refusal's number.
    pub refused: BTreeMap<u32, u64>,
    /// What its timed turns sent, and how long it waited at most.
    pub left: Both,
    pub longest: Both,
    /// Its own packets that left, by whichever port.
    pub home: u64,
    /// Free nodes at the end, by an audit; the fewest of all ticks, and when first.
    pub free: u32,
    pub lowest: u32,
    pub lowest_at: u32,
    pub buckets: [u32; BUCKETS],
}

/// A time in which the liar's port was halted, by this refusal.
#[derive(Debug, Clone, Copy, PartialEq, Eq)]
pub struct Halted {
    pub mark: u32,
    pub from: u32,
    pub to: u32,
}

/// The night beside it.
#[derive(Debug, Clone, Default, PartialEq, Eq)]
pub struct Beside {
    /// Headers that it was not sent.
    pub left_out: u64,
    /// Calls whose answers were compared, and audits.
    pub calls: u64,
    pub audits: u64,
    /// The first tick in which an answer differed, and which call's.
    pub differs: Option<(u32, &'static str)>,
}

/// What a night was.
#[derive(Debug, Clone, PartialEq, Eq)]
pub struct Night {
    pub plan: Plan,
    pub ticks: Vec<Tick>,
    pub ports: Vec<Port>,
    pub halts: Vec<Halted>,
    pub beside: Beside,
}

/// A packet's price, which a receiver is to hand out again.
struct Owed {
    port: u32,
    queue: u32,
    amount: u32,
}

/// A night that is going on.
struct Course<'p, D> {
    plan: &'p Plan,
    boxes: Boxes<'p>,
    desk: D,
    beside: D,
    /// The oldest first.
    owed: VecDeque<Vec<Owed>>,
    night: Night,
}

/// The night of a plan, on two desks that have just been set up. The error is the
/// number of a refusal that no night should have.
pub fn night<D: Desk>(plan: &Plan, desk: D, beside: D) -> Result<Night, u32> {
    let mut course = Course {
        plan,
        boxes: Boxes::new(plan),
        desk,
        beside,
        owed: (0..LATER).map(|_| Vec::new()).collect(),
        night: empty(plan),
    };
    course.begin()?;
    for tick in 1..=plan.ticks {
        course.tick(tick)?;
    }
    course.end()
}

fn empty(plan: &Plan) -> Night {
    let port = Port {
        taken: Both::default(),
        clocks_refused: 0,
        refused: BTreeMap::new(),
        left: Both::default(),
        longest: Both::default(),
        home: 0,
        free: plan.nodes,
        lowest: plan.nodes,
        lowest_at: 0,
        buckets: [0; BUCKETS],
    };
    Night {
        plan: plan.clone(),
        ticks: Vec::new(),
        ports: vec![port; plan.form.ports as usize],
        halts: Vec::new(),
        beside: Beside::default(),
    }
}

impl<D: Desk> Course<'_, D> {
    /// Destination p is port p, and every queue above 0 may send.
    fn begin(&mut self) -> Result<(), u32> {
        let (ports, queues) = (self.plan.form.ports, self.plan.form.queues);
        let credit = |port| {
            (1..queues).map(move |queue| Call::Credit {
                port,
                queue,
                amount: OUTWARD,
            })
        };
        let maps = (0..ports).map(|port| Call::Map { id: port, port });
        let calls: Vec<Call> = maps.chain((0..ports).flat_map(credit)).collect();
        self.run(1, "map or credit", &calls).map(drop)
    }

    fn tick(&mut self, tick: u32) -> Result<(), u32> {
        self.night.ticks.push(Tick::default());
        if self.plan.clears.contains(&tick) {
            let told = self.desk.clear(self.plan.liar);
            let same = told == self.beside.clear(self.plan.liar);
            self.compare(tick, "clear", 1, same);
            told?;
        }
        self.hand_out(tick)?;
        self.arrivals(tick)?;
        self.watch(tick)?;
        self.manage(tick)?;
        self.turns(tick)?;
        self.audit(tick).map(drop)
    }

    /// What left two ticks ago has been played: its receivers hand out credit again.
    fn hand_out(&mut self, tick: u32) -> Result<(), u32> {
        let owed = self.owed.pop_front().unwrap_or_default();
        self.owed.push_back(Vec::new());
        let credit = |owed: &Owed| Call::Credit {
            port: owed.port,
            queue: owed.queue,
            amount: owed.amount,
        };
        let calls: Vec<Call> = owed.iter().map(credit).collect();
        self.run(tick, "credit", &calls).map(drop)
    }

    fn arrivals(&mut self, tick: u32) -> Result<(), u32> {
        let sent = self.boxes.headers(tick).map_err(Refusal::number)?;
        let arrive = |sending: &Sending| Call::Arrive {
            port: sending.port,
            header: sending.header.clone(),
        };
        let calls: Vec<Call> = sent.iter().map(arrive).collect();
        let told = self.desk.run(&calls)?;
        let liar = self.plan.liar;
        let kept = |(sending, told): &(&Sending, &Told)| sending.port != liar || told.is_ok();
        let others = sent.iter().zip(&told).filter(kept);
        let (calls, wanted): (Vec<Call>, Vec<Told>) = others
            .map(|(sending, told)| (arrive(sending), *told))
            .unzip();
        self.night.beside.left_out += (sent.len() - calls.len()) as u64;
        let same = self.beside.run(&calls)? == wanted;
        self.compare(tick, "arrive", calls.len(), same);
        for (sending, told) in sent.iter().zip(&told) {
            self.arrived(sending, *told);
        }
        Ok(())
    }

    fn arrived(&mut self, sending: &Sending, told: Told) {
        let port = &mut self.night.ports[sending.port as usize];
        let tick = self.night.ticks.last_mut().expect("a tick has begun");
        match told {
            Ok(_) => {
                port.taken.count(sending.clock);
                tick.taken.count(sending.clock);
                let liars_clock = sending.clock && sending.port == self.plan.liar;
                tick.liars_clocks += u64::from(liars_clock);
            }
            Err(number) => {
                *port.refused.entry(number).or_insert(0) += 1;
                port.clocks_refused += u64::from(sending.clock);
                let liars = sending.port == self.plan.liar;
                *if liars {
                    &mut tick.refused
                } else {
                    &mut tick.refused_elsewhere
                } += 1;
            }
        }
    }

    /// Pools and marks after the arrivals. Of the liar's mark alone the night beside
    /// may tell another.
    fn watch(&mut self, tick: u32) -> Result<(), u32> {
        let free = free(&self.audit(tick)?, self.night.ports.len());
        self.fewest(tick, &free);
        let mut marks = Vec::new();
        for port in 0..self.plan.form.ports {
            let mark = self.desk.report(port)?;
            marks.push(mark);
            if port != self.plan.liar {
                let same = mark == self.beside.report(port)?;
                self.compare(tick, "report", 1, same);
            }
        }
        self.halted(tick, marks[self.plan.liar as usize]);
        let now = self.night.ticks.last_mut().expect("a tick has begun");
        now.free = free;
        now.marks = marks;
        Ok(())
    }

    /// The fewest free nodes so far.
    fn fewest(&mut self, tick: u32, free: &[u32]) {
        for (port, free) in self.night.ports.iter_mut().zip(free) {
            if *free < port.lowest {
                port.lowest = *free;
                port.lowest_at = tick;
            }
        }
    }

    /// A halt goes on while the mark stays and nobody clears it.
    fn halted(&mut self, tick: u32, mark: u32) {
        if mark == 0 {
            return;
        }
        let cleared = self.plan.clears.contains(&tick);
        match self.night.halts.last_mut() {
            Some(halt) if halt.to + 1 == tick && !cleared => halt.to = tick,
            _ => self.night.halts.push(Halted {
                mark,
                from: tick,
                to: tick,
            }),
        }
    }

    /// Stitches and prefetches, of all ports and queues; where there is nothing to
    /// take they are refused, as in a round.
    fn manage(&mut self, tick: u32) -> Result<(), u32> {
        let (ports, queues) = (self.plan.form.ports, self.plan.form.queues);
        let stitches = (0..ports).flat_map(|port| vec![Call::Stitch { port }; STITCHES]);
        let stitches: Vec<Call> = stitches.collect();
        self.run(tick, "stitch", &stitches)?;
        let of_port = |port| {
            (0..queues).flat_map(move |queue| vec![Call::Prefetch { port, queue }; PREFETCHES])
        };
        let prefetches: Vec<Call> = (0..ports).flat_map(of_port).collect();
        self.run(tick, "prefetch", &prefetches).map(drop)
    }

    fn turns(&mut self, tick: u32) -> Result<(), u32> {
        let ports = 0..self.plan.form.ports;
        for port in ports.flat_map(|port| [port; TURNS]) {
            let told = self.desk.timed_turn(port, tick)?;
            let same = told == self.beside.timed_turn(port, tick)?;
            self.compare(tick, "timed turn", 1, same);
            if let Some(left) = told {
                let owed = Owed {
                    port,
                    queue: left.queue,
                    amount: left.price,
                };
                self.sent(owed, left.entry, tick.wrapping_sub(left.timestamp));
            }
        }
        Ok(())
    }

    /// A packet left by this port after this wait.
    fn sent(&mut self, owed: Owed, entry: u16, wait: u32) {
        let clock = owed.queue == 0;
        let port = &mut self.night.ports[owed.port as usize];
        port.left.count(clock);
        port.longest.lengthen(clock, wait);
        let tick = self.night.ticks.last_mut().expect("a tick has begun");
        tick.left.count(clock);
        tick.longest.lengthen(clock, wait);
        let owner = usize::from(EntryId(entry).port());
        self.night.ports[owner].home += 1;
        if !clock {
            let latest = self.owed.back_mut().expect("a tick has begun");
            latest.push(owed);
        }
    }

    /// Every node's place, which is to be the same on both desks.
    fn audit(&mut self, tick: u32) -> Result<Vec<u8>, u32> {
        let places = self.desk.audit()?;
        let same = places == self.beside.audit()?;
        self.night.beside.audits += 1;
        self.compare(tick, "audit", 0, same);
        Ok(places)
    }

    /// Calls for both desks.
    fn run(&mut self, tick: u32, what: &'static str, calls: &[Call]) -> Result<Vec<Told>, u32> {
        let told = self.desk.run(calls)?;
        let same = told == self.beside.run(calls)?;
        self.compare(tick, what, calls.len(), same);
        Ok(told)
    }

    fn compare(&mut self, tick: u32, what: &'static str, calls: usize, same: bool) {
        let beside = &mut self.night.beside;
        beside.calls += calls as u64;
        if !same && beside.differs.is_none() {
            beside.differs = Some((tick, what));
        }
    }

    /// What stands at the end.
    fn end(mut self) -> Result<Night, u32> {
        let free = free(&self.audit(self.plan.ticks)?, self.night.ports.len());
        for (number, free) in (0..).zip(free) {
            let buckets = self.buckets(number)?;
            let port = &mut self.night.ports[number as usize];
            port.free = free;
            port.buckets = buckets;
        }
        Ok(self.night)
    }

    /// A port's buckets, which are compared too.
    fn buckets(&mut self, port: u32) -> Result<[u32; BUCKETS], u32> {
        let mut counts = [0; BUCKETS];
        for (bucket, count) in (0..).zip(&mut counts) {
            *count = self.desk.bucket(port, bucket)?;
            let same = *count == self.beside.bucket(port, bucket)?;
            self.compare(self.plan.ticks, "bucket", 1, same);
        }
        Ok(counts)
    }
}

/// Each port's nodes in its free list, counted in an audit.
fn free(places: &[u8], ports: usize) -> Vec<u32> {
    let mut free = vec![0; ports];
    for place in places.chunks_exact(PLACE_BYTES) {
        // Kind 0, free, and the list's port.
        if let ([_, _, 0, port, ..], true) = (place, usize::from(place[3]) < ports) {
            free[usize::from(*port)] += 1;
        }
    }
    free
}
