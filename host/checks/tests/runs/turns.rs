//! What the turns of a run see: credit that came in the same run, packets that were
//! prefetched in it, and what earlier turns have left of both. Each stream is
//! compared with the same calls one by one.

use checks::library;
use checks::run::Pair;
use checks::runs::{answer, made, Stream, ANSWER, PROVED};
use checks::Desk;
use model::{size, Call, Reply, Settings, Shape};
use traffic::{plain, run_field, Random};

const TEN: Shape = Shape::TEN_BYTES;
const LARGEST: Shape = Shape::wide(32, 64);

fn begun(settings: Settings) -> Pair<'static, impl Desk> {
    let mut pair = Pair::new(&library::call, 5, size(&settings) + 3, 16);
    assert_eq!(pair.call(&Call::Setup(settings)), Ok(Reply::Done));
    pair
}

/// An arrival of this price, in beats of 64 bytes, for destination 1.
fn arrive(shape: &Shape, port: u32, queue: u32, price: u32) -> Call {
    let header = plain(shape, 1, port, queue, 64 * price);
    Call::Arrive { port, header }
}

/// From another port, says its source.
fn lie(shape: &Shape, port: u32, queue: u32) -> Call {
    let header = plain(shape, 1, port ^ 1, queue, 64);
    Call::Arrive { port, header }
}

fn credit(port: u32, queue: u32, amount: u32) -> Call {
    Call::Credit {
        port,
        queue,
        amount,
    }
}

// Every port and every queue.

/// Three packets of a queue above 0, with credit always a little late: each call,
/// and what it must answer.
fn late_credit(shape: &Shape, port: u32, queue: u32) -> Vec<(Call, [u8; ANSWER])> {
    let from = (port + 1) % shape.ports;
    let packet = |number: u32| {
        let [high, low] = ((2048 * from + number) as u16).to_be_bytes();
        [0, 0, high, low]
    };
    let (done, idle) = ([0; ANSWER], [0, 1, 0, 0]);
    let (turn, stitch) = (Call::Turn { port }, Call::Stitch { port: from });
    let prefetch = Call::Prefetch { port, queue };
    vec![
        (Call::Map { id: 1, port }, done),
        (arrive(shape, from, queue, 2), packet(0)),
        (arrive(shape, from, queue, 1), packet(1)),
        (arrive(shape, from, queue, 3), packet(2)),
        (stitch.clone(), packet(0)),
        (stitch.clone(), packet(1)),
        (stitch, packet(2)),
        (turn.clone(), idle),
        (prefetch.clone(), packet(0)),
        (turn.clone(), idle),
        (credit(port, queue, 1), done),
        (turn.clone(), idle),
        (credit(port, queue, 1), done),
        (turn.clone(), packet(0)),
        (prefetch.clone(), packet(1)),
        (turn.clone(), idle),
        (credit(port, queue, 3), done),
        (turn.clone(), packet(1)),
        // Two are left, and nothing is there to send; then what costs three.
        (turn.clone(), idle),
        (prefetch.clone(), packet(2)),
        (prefetch, [12, 0, 0, 0]),
        (turn.clone(), idle),
        (credit(port, queue, 65_534), [14, 0, 0, 0]),
        (turn.clone(), idle),
        (credit(port, queue, 1), done),
        (turn.clone(), packet(2)),
        (turn, idle),
    ]
}

/// The same of queue 0, which needs no credit.
fn no_credit(shape: &Shape, port: u32) -> Vec<(Call, [u8; ANSWER])> {
    let idle = [0, 1, 0, 0];
    let mut calls = late_credit(shape, port, 0);
    calls.retain(|(call, answer)| !matches!(call, Call::Turn { .. }) || *answer != idle);
    for (call, answer) in &mut calls {
        if let Call::Credit { .. } = call {
            *answer = [5, 0, 0, 0];
        }
    }
    calls.push((Call::Turn { port }, idle));
    calls
}

/// All in one run, in which most ports' first turns come late.
#[test]
fn every_queue_of_every_port_waits_for_credit() {
    for shape in [TEN, Shape::wide(2, 2), Shape::wide(8, 16), LARGEST] {
        let mut pair = begun(Settings::of(shape, 3, 64, 2, 6));
        let queues = |port| (1..shape.queues).map(move |queue| (port, queue));
        let mut script = Vec::new();
        for port in 0..shape.ports {
            script.extend(no_credit(&shape, port));
            script.extend(queues(port).flat_map(|(port, queue)| late_credit(&shape, port, queue)));
        }
        let (calls, wanted): (Vec<Call>, Vec<_>) = script.into_iter().unzip();
        let stream = Stream::of(&shape, calls);
        let told = pair.run(PROVED, &stream, ANSWER * wanted.len()).unwrap();
        let answers: Vec<[u8; ANSWER]> = told
            .answers
            .chunks(ANSWER)
            .map(|answer| answer.try_into().unwrap())
            .collect();
        assert_eq!(answers, wanted, "{shape:?}");
    }
}

// Halts.

/// The last port lies twice in one run. It is halted from the first lie on, for
/// queues above 0; the port before it is not.
#[test]
fn a_lie_halts_its_port_for_the_fields_behind_it() {
    for shape in [TEN, Shape::wide(2, 2), Shape::wide(8, 16), LARGEST] {
        let mut pair = begun(Settings::of(shape, 3, 64, 2, 6));
        let (port, queue) = (shape.ports - 1, shape.queues - 1);
        let mut wrong = plain(&shape, 1, port, queue, 64);
        wrong[3] ^= 1;
        let wrong = Call::Arrive {
            port,
            header: wrong,
        };
        let packet = |port: u32, number: u32| {
            let [high, low] = ((2048 * port + number) as u16).to_be_bytes();
            [0, 0, high, low]
        };
        let script = [
            (arrive(&shape, port, queue, 1), packet(port, 0)),
            (wrong, [7, 0, 0, 0]),
            (arrive(&shape, port, queue, 1), [10, 0, 0, 0]),
            (lie(&shape, port, queue), [8, 0, 0, 0]),
            (arrive(&shape, port, 0, 1), packet(port, 1)),
            (arrive(&shape, port - 1, queue, 1), packet(port - 1, 0)),
            (Call::Stitch { port }, packet(port, 0)),
        ];
        let wanted: Vec<u8> = script.iter().flat_map(|(_, answer)| *answer).collect();
        let stream = Stream::of(&shape, script.map(|(call, _)| call).to_vec());
        let told = pair.run(PROVED, &stream, wanted.len()).unwrap();
        assert_eq!(told.answers, wanted, "{shape:?}");
        // The first mark stays, and is there after the run.
        let report = pair.call(&Call::Report { port });
        assert_eq!(report, Ok(Reply::Mark(7)));
        let report = pair.call(&Call::Report { port: port - 1 });
        assert_eq!(report, Ok(Reply::Mark(0)));
    }
}

// All short streams.

/// All streams of so many of some calls, between a turn and a turn.
struct Tree<'t> {
    shape: Shape,
    start: &'t [u8],
    calls: &'t [Call],
    turn: Call,
    /// How many were tried, and how many of their last turns sent something.
    tried: u32,
    sent: u32,
}

impl Tree<'_> {
    /// The streams that begin with these fields, whose calls one by one left this
    /// memory and these answers.
    fn grow(&mut self, fields: &[u8], answers: &[u8], memory: &[u8], more: u32) {
        let next: Vec<Call> = match more {
            0 => vec![self.turn.clone()],
            _ => self.calls.to_vec(),
        };
        for call in next {
            let mut memory = memory.to_vec();
            let told = answer(&library::call(&mut memory, &call).unwrap());
            let field = run_field(&self.shape, &call).unwrap();
            let (fields, answers) = ([fields, &field].concat(), [answers, &told].concat());
            match more {
                0 => self.tried(&fields, &answers, &memory),
                _ => self.grow(&fields, &answers, &memory, more - 1),
            }
        }
    }

    fn tried(&mut self, fields: &[u8], answers: &[u8], memory: &[u8]) {
        let mut after = self.start.to_vec();
        let told = made(PROVED, &mut after, fields, answers.len());
        assert_eq!(told.unwrap().unwrap().answers, answers, "{fields:?}");
        assert!(after == memory, "{fields:?}");
        self.tried += 1;
        self.sent += u32::from(answers[answers.len() - 3] == 0);
    }
}

/// A switch with packets of two queues for a port: so many of each prefetched, and
/// so much credit for each; the others in egress, and one of each in ingress.
fn waiting(shape: &Shape, port: u32, queues: [u32; 2], start: [(u32, u32); 2]) -> Vec<u8> {
    let mut pair = begun(Settings::of(*shape, 8, 64, 2, 20));
    pair.call(&Call::Map { id: 1, port }).unwrap();
    for (queue, (slots, held)) in queues.into_iter().zip(start) {
        for price in [2, 1, 2] {
            pair.call(&arrive(shape, port, queue, price)).unwrap();
            pair.call(&Call::Stitch { port }).unwrap();
        }
        for _ in 0..slots {
            pair.call(&Call::Prefetch { port, queue }).unwrap();
        }
        pair.call(&credit(port, queue, held)).unwrap();
    }
    for queue in queues {
        pair.call(&arrive(shape, port, queue, 1)).unwrap();
    }
    pair.memory()[..pair.lent()].to_vec()
}

/// All short streams on one port, a turn before and a turn behind.
fn all_streams(shape: Shape, port: u32, queues: [u32; 2], depth: u32) {
    let [one, other] = queues;
    let calls = [
        Call::Turn { port },
        Call::Prefetch { port, queue: one },
        Call::Prefetch { port, queue: other },
        credit(port, one, 1),
        credit(port, other, 2),
        credit(port, other, 65_534),
        Call::Stitch { port },
    ];
    let starts = [
        [(0, 0), (0, 0)],
        [(1, 1), (1, 0)],
        [(2, 2), (0, 3)],
        [(1, 2), (2, 3)],
    ];
    for start in starts {
        let memory = waiting(&shape, port, queues, start);
        let mut tree = Tree {
            shape,
            start: &memory,
            calls: &calls,
            turn: Call::Turn { port },
            tried: 0,
            sent: 0,
        };
        let mut after = memory.clone();
        let turn = Call::Turn { port };
        let first = answer(&library::call(&mut after, &turn).unwrap());
        let field = run_field(&shape, &turn).unwrap();
        tree.grow(&field, &first, &after, depth);
        assert_eq!(tree.tried, 7u32.pow(depth));
        println!("{shape:?} {queues:?} {start:?}: {} sent", tree.sent);
        assert!(tree.sent > tree.tried / 50 && tree.sent < tree.tried);
    }
}

#[test]
fn all_short_streams_on_two_queues() {
    all_streams(TEN, 2, [5, 6], 5);
    all_streams(TEN, 0, [23, 1], 4);
    all_streams(Shape::wide(4, 24), 3, [23, 22], 4);
    all_streams(Shape::wide(2, 64), 1, [62, 63], 5);
    all_streams(LARGEST, 31, [63, 1], 4);
    all_streams(LARGEST, 30, [63, 31], 3);
}

// Streams on a few queues, turns mostly.

/// Where they are made: a few ports, and a few queues.
struct Few {
    shape: Shape,
    ports: Vec<u32>,
    queues: Vec<u32>,
}

impl Few {
    /// In half of the streams the first turn comes late.
    fn stream(&self, random: &mut Random, fields: usize) -> Stream {
        let first_turn = random.pick(&[0, 0, fields / 2, fields - fields / 8]);
        let port = random.pick(&self.ports);
        let mut calls = vec![Call::Map { id: 1, port }];
        while calls.len() < fields {
            match self.call(random) {
                Call::Turn { .. } if calls.len() < first_turn => {}
                call => calls.push(call),
            }
        }
        Stream::of(&self.shape, calls)
    }

    fn call(&self, random: &mut Random) -> Call {
        let (port, queue) = (random.pick(&self.ports), random.pick(&self.queues));
        match random.below(100) {
            0..=24 => Call::Turn { port },
            // Seldom so much that the next is refused, or all is covered.
            25..=39 => match random.one_in(40) {
                true => credit(port, queue, 65_533),
                false => credit(port, queue, random.below(4)),
            },
            40..=64 => Call::Prefetch { port, queue },
            65..=79 => Call::Stitch { port },
            80..=97 => {
                let price = random.pick(&[1, 1, 2, 3]);
                arrive(&self.shape, port, queue, price)
            }
            98 => lie(&self.shape, port, queue),
            _ => Call::Map { id: 1, port },
        }
    }
}

/// Sent and idle turns of a stream's answers.
fn turned(stream: &Stream, answers: &[u8]) -> [u32; 2] {
    let mut times = [0, 0];
    for (call, answer) in stream.calls.iter().zip(answers.chunks(ANSWER)) {
        if let (Call::Turn { .. }, 0) = (call, answer[0]) {
            times[usize::from(answer[1])] += 1;
        }
    }
    times
}

#[test]
fn turns_see_what_the_run_has_done() {
    let few = |shape: Shape, ports: &[u32], queues: &[u32]| Few {
        shape,
        ports: ports.to_vec(),
        queues: queues.to_vec(),
    };
    for (few, runs) in [
        (few(TEN, &[0, 1, 2, 3], &[0, 1, 23]), 600),
        (few(TEN, &[2], &[7, 8]), 300),
        (few(Shape::wide(2, 2), &[0, 1], &[0, 1]), 300),
        (few(Shape::wide(4, 24), &[0, 3], &[22, 23]), 300),
        (few(Shape::wide(2, 64), &[0, 1], &[0, 62, 63]), 300),
        (few(LARGEST, &[0, 31], &[0, 1, 63]), 100),
        (few(LARGEST, &[30, 31], &[31, 32, 63]), 100),
    ] {
        let mut random = Random::new(runs);
        let settings = Settings::of(few.shape, 6, 64, 2, 30);
        let mut pair = begun(settings);
        let (mut sent, mut idle) = (0, 0);
        for _ in 0..runs {
            let fields = random.among(2, 200) as usize;
            let stream = few.stream(&mut random, fields);
            let told = pair.run(PROVED, &stream, ANSWER * fields).unwrap();
            let [more_sent, more_idle] = turned(&stream, &told.answers);
            (sent, idle) = (sent + more_sent, idle + more_idle);
            // Else all would be covered or halted at last.
            if random.one_in(3) {
                pair.call(&Call::Setup(settings)).unwrap();
            }
        }
        println!("{:?}: {sent} sent, {idle} idle", few.shape);
        assert!(sent > 2 * runs as u32 && idle > 2 * runs as u32);
    }
}

// Nobody starves, where turns come in runs.

/// Packets of a queue up to the slots, with their credit, one by one.
fn bring<D: Desk>(pair: &mut Pair<D>, shape: &Shape, queue: u32, packets: u32) -> Reply {
    let mut last = Reply::Idle;
    for call in (0..packets).flat_map(|_| brought(shape, queue)) {
        let reply = pair.call(&call).unwrap();
        if let Reply::Entry(_) = reply {
            last = reply;
        }
    }
    last
}

/// A packet of port 0 for port 0, up to the slots, and the credit for it.
fn brought(shape: &Shape, queue: u32) -> [Call; 4] {
    let port = 0;
    [
        arrive(shape, port, queue, 1),
        Call::Stitch { port },
        Call::Prefetch { port, queue },
        credit(port, queue, 1),
    ]
}

/// A switch on which this queue was served last, with ours in its slots, so many
/// ahead of it, and a packet in each other queue; and ours' answer when it leaves.
fn behind(shape: Shape, queue: u32, ahead: u32) -> (Pair<'static, impl Desk>, [u8; ANSWER]) {
    let mut pair = begun(Settings::of(shape, 200, 64, ahead + 1, 200));
    bring(&mut pair, &shape, queue, 1);
    let turn = pair.call(&Call::Turn { port: 0 });
    assert!(matches!(turn, Ok(Reply::Leaves(..))));
    for other in (0..shape.queues).filter(|&other| other != queue) {
        bring(&mut pair, &shape, other, 1);
    }
    let ours = answer(&bring(&mut pair, &shape, queue, ahead + 1));
    (pair, ours)
}

/// By which turn of port 0 ours leaves: turns and what comes between them, told by
/// the queue that the turn serves if all are ready, in runs of so many turns.
fn leaves_by(
    pair: &mut Pair<impl Desk>,
    shape: &Shape,
    ours: [u8; ANSWER],
    mut between: impl FnMut(u32) -> Vec<Call>,
    a_run: u32,
) -> u32 {
    let mut turns = 0;
    loop {
        let mut calls = Vec::new();
        for turn in turns..turns + a_run {
            calls.push(Call::Turn { port: 0 });
            calls.extend(between(turn + 1));
        }
        let stream = Stream::of(shape, calls);
        let room = ANSWER * stream.calls.len();
        let told = pair.run(PROVED, &stream, room).unwrap();
        for (call, answer) in stream.calls.iter().zip(told.answers.chunks(ANSWER)) {
            if let Call::Turn { port: 0 } = call {
                turns += 1;
                if answer == ours {
                    return turns;
                }
            }
        }
        assert!(turns < 10_000, "it does not leave");
    }
}

/// The longest that is promised, where every other queue is filled again as soon as
/// it was served.
#[test]
fn behind_filled_queues_ours_leaves_by_the_promised_turn() {
    for shape in [TEN, Shape::wide(3, 5), Shape::wide(2, 64)] {
        let queues = shape.queues;
        for queue in [0, 1, queues - 1] {
            for (ahead, a_run) in (0..8).zip([1000, 1, 7, 24, 1000, 25, 1000, 100]) {
                let (mut pair, ours) = behind(shape, queue, ahead);
                let refilled = |turn: u32| match (queue + turn) % queues {
                    served if served == queue => Vec::new(),
                    served => brought(&shape, served).to_vec(),
                };
                let left = leaves_by(&mut pair, &shape, ours, refilled, a_run);
                assert_eq!(left, queues * (ahead + 1), "{shape:?} {queue}");
            }
        }
    }
}

/// Whatever comes between.
#[test]
fn behind_any_traffic_ours_leaves_by_the_promised_turn() {
    let mut random = Random::new(24);
    let mut longest = 0;
    for number in 0..300 {
        let (queue, ahead) = (random.below(24), number % 8);
        let (mut pair, ours) = behind(TEN, queue, ahead);
        let few = Few {
            shape: TEN,
            ports: vec![0, 1],
            queues: (0..24).filter(|&other| other != queue).collect(),
        };
        let share = random.below(4);
        let any = |_| {
            let mut calls = Vec::new();
            for _ in 0..share {
                calls.push(few.call(&mut random));
                calls.extend(brought(&TEN, random.pick(&few.queues)));
            }
            calls.retain(|call| !matches!(call, Call::Turn { port: 0 }));
            calls
        };
        let left = leaves_by(&mut pair, &TEN, ours, any, 1 + number % 50);
        assert!(left <= 24 * (ahead + 1), "{queue}, {ahead} ahead: {left}");
        longest = longest.max(left);
    }
    println!("the longest wait: {longest} turns");
    assert!(longest > 100);
}
