//! Runs of fields: the library beside the model, and beside its own calls one by
//! one.

use std::fmt;

use model::{Call, Model, Reply, Settings, Shape};
use traffic::{run_calls, run_field, tagged, Profile, Random, Traffic};
use ventorupo::{calls, Switch};

use crate::cut::cut_down;
use crate::packets::Packets;
use crate::run::Pair;
use crate::scale::Scale;
use crate::{library, reader, Desk};

/// Memory, fields, the answers' room, count and why; 0 or a refusal's number. In
/// tests it may have a slip.
pub type Run = fn(&mut [u8], &[u8], &mut [u8], &mut u64, &mut u32) -> u32;

/// The library's.
pub const PROVED: Run = calls::run;

/// The wrapper's.
pub const WRAPPED: Run =
    |memory, fields, answers, count, why| match Switch::over(memory).run_fields(fields, answers) {
        Ok(ran) => {
            (*count, *why) = (ran.count as u64, ran.why.number());
            0
        }
        Err(refusal) => refusal.number(),
    };

/// The bytes of an answer.
pub const ANSWER: usize = 4;

/// Bytes before and behind a room, to see that nobody writes there.
const GUARD: usize = 7;

/// Count and why start so, to see whether they are written.
const COUNT: u64 = 0xA7A7_A7A7_A7A7_A7A7;
const WHY: u32 = 0xA7A7_A7A7;

/// A stream that fails is cut down where it has no more fields.
const MOST_TO_CUT: usize = 3000;

/// What a run told: how many fields it did, why it stopped, and its answers.
#[derive(Debug, Clone, PartialEq, Eq)]
pub struct Told {
    pub count: usize,
    pub why: u32,
    pub answers: Vec<u8>,
}

/// One run in so much room, or its refusal. The error is a broken rule on rooms,
/// whatever the answers are.
pub fn made(
    run: Run,
    memory: &mut [u8],
    fields: &[u8],
    room: usize,
) -> Result<Result<Told, u32>, String> {
    // No byte like its neighbours, nor the same in every run: one that is written
    // can't always be what it was.
    let other = 91 * room + 13 * fields.len();
    let before: Vec<u8> = (0..room + 2 * GUARD)
        .map(|at| (37 * at + other) as u8)
        .collect();
    let (mut after, lent) = (before.clone(), fields.to_vec());
    let (mut count, mut why) = (COUNT, WHY);
    let answers = &mut after[GUARD..GUARD + room];
    let number = run(memory, &lent, answers, &mut count, &mut why);
    if lent != fields {
        return Err("a run wrote into its fields".into());
    }
    if number != 0 {
        return match after == before && (count, why) == (COUNT, WHY) {
            true => Ok(Err(number)),
            false => Err(format!("refused {number}, but count is {count}, why {why}")),
        };
    }
    let told = usize::try_from(count)
        .ok()
        .and_then(|count| count.checked_mul(ANSWER))
        .filter(|&bytes| bytes <= room)
        .ok_or_else(|| format!("{count} answers in {room} bytes"))?;
    let (from, to) = (GUARD, GUARD + told);
    if after[..from] != before[..from] || after[to..] != before[to..] {
        return Err(format!("a run wrote beside its {count} answers"));
    }
    Ok(Ok(Told {
        count: told / ANSWER,
        why,
        answers: after[from..to].to_vec(),
    }))
}

/// A call's answer as a run tells it: refusal number, 1 if idle, entry id or 0.
pub fn answer(reply: &Reply) -> [u8; ANSWER] {
    let (number, idle, entry) = match reply {
        Reply::Refused(number) => (*number, 0, 0),
        Reply::Idle => (0, 1, 0),
        Reply::Entry(entry) => (0, 0, *entry),
        Reply::Stitched(record) => (0, 0, u16::from_be_bytes([record[0], record[1]])),
        Reply::Leaves(packet, _) => (0, 0, packet.entry),
        _ => (0, 0, 0),
    };
    [number, idle, (entry >> 8) as u8, entry as u8]
}

/// The calls one by one, told as a run tells them.
pub fn one_by_one<D: Desk>(desk: &D, memory: &mut [u8], calls: &[Call]) -> Result<Vec<u8>, String> {
    let mut answers = Vec::with_capacity(ANSWER * calls.len());
    for call in calls {
        // No field is lent any.
        let packets = &mut Packets::for_call(call);
        answers.extend(answer(&desk.call(memory, packets, call)?));
    }
    Ok(answers)
}

/// Fields, and the calls of the good ones before the first bad one.
#[derive(Debug, Clone)]
pub struct Stream {
    pub calls: Vec<Call>,
    pub fields: Vec<u8>,
    /// Where each of the calls' fields ends.
    pub ends: Vec<usize>,
    /// Is there a bad one behind them?
    bad: bool,
}

impl Stream {
    /// Good fields alone; each call must have one.
    pub fn of(shape: &Shape, calls: Vec<Call>) -> Stream {
        let (mut fields, mut ends) = (Vec::new(), Vec::new());
        for call in &calls {
            fields.extend(run_field(shape, call).expect("a call with a field"));
            ends.push(fields.len());
        }
        Stream {
            calls,
            fields,
            ends,
            bad: false,
        }
    }

    /// The bytes of the first so many fields.
    pub fn bytes(&self, fields: usize) -> usize {
        match fields {
            0 => 0,
            _ => self.ends[fields - 1],
        }
    }

    /// With a bad field at a place, and what stood there behind it.
    pub fn spoilt(mut self, place: usize, bad: &[u8]) -> Stream {
        let at = self.bytes(place);
        self.fields.splice(at..at, bad.iter().copied());
        self.calls.truncate(place);
        self.ends.truncate(place);
        self.bad = true;
        self
    }

    /// How many of them a run in so much room does, and why it stops.
    pub fn wanted(&self, room: usize) -> (usize, u32) {
        let (good, fits) = (self.calls.len(), room / ANSWER);
        match (fits < good, self.bad) {
            (true, _) => (fits, 2),
            (false, true) => (good, 1),
            (false, false) => (good, 0),
        }
    }
}

/// Fields that are bad on a switch of this shape, wherever they stand: other tags,
/// a setup, and lengths that aren't the tag's; all their bytes are there.
pub fn bad_fields(shape: &Shape) -> Vec<Vec<u8>> {
    let own = 1 + shape.header_bytes();
    let right: [&[usize]; 8] = [&[], &[], &[11, own], &[1], &[2], &[1], &[4], &[2]];
    // A setup as the bench takes it.
    let mut bad = vec![tagged(1, &[0, 1, 0, 64, 1, 0, 16])];
    for (tag, right) in (0..).zip(right) {
        for length in (0..=15).chain([256 + 1, 256 + 2, 256 + 4, 256 + 11, 65_535]) {
            if !right.contains(&length) {
                bad.push(tagged(tag, &vec![0; length]));
            }
        }
    }
    for tag in 8..=255 {
        // Of its last three bits, as long as their tag's.
        let length = right[usize::from(tag % 8)].first().copied();
        bad.push(tagged(tag, &vec![0; length.unwrap_or(0)]));
    }
    bad
}

/// How often what was done.
#[derive(Debug, Clone, Default, PartialEq, Eq)]
pub struct Tally {
    pub runs: u64,
    /// By the refusal's number; 0 is none.
    answers: [u64; 28],
    idle: u64,
    /// By why they stopped.
    stops: [u64; 3],
}

/// The refusals that a field can be given; and the one that every arrival is given
/// where packets are kept.
const OF_FIELDS: [usize; 13] = [4, 5, 6, 7, 8, 9, 10, 11, 12, 13, 14, 19, 20];
pub const OTHER_KIND: usize = 24;

impl Tally {
    fn note(&mut self, told: &Told) {
        self.runs += 1;
        self.stops[told.why as usize] += 1;
        for answer in told.answers.chunks(ANSWER) {
            self.answers[usize::from(answer[0])] += 1;
            self.idle += u64::from(answer[1]);
        }
    }

    pub fn add(&mut self, other: &Tally) {
        let more = other.answers.iter().chain(&other.stops);
        let cells = self.answers.iter_mut().chain(&mut self.stops);
        for (cell, more) in cells.zip(more) {
            *cell += more;
        }
        self.runs += other.runs;
        self.idle += other.idle;
    }

    /// How many fields were given a refusal.
    pub fn refused(&self, number: usize) -> u64 {
        self.answers[number]
    }

    /// How many fields were done.
    pub fn fields(&self) -> u64 {
        self.answers.iter().sum()
    }

    /// What came less often than it should, told.
    pub fn too_rare(&self, least: u64) -> Vec<String> {
        let refusals = OF_FIELDS.map(|number| (format!("refusal {number}"), self.answers[number]));
        let stops = (0..3).map(|why| (format!("stop {why}"), self.stops[why]));
        let idle = [("idle".to_string(), self.idle)];
        refusals
            .into_iter()
            .chain(stops)
            .chain(idle)
            .filter(|(_, times)| *times < least)
            .map(|(what, times)| format!("{what}: {times}"))
            .collect()
    }
}

impl fmt::Display for Tally {
    fn fmt(&self, f: &mut fmt::Formatter<'_>) -> fmt::Result {
        let [ended, bad, full] = self.stops;
        write!(
            f,
            "{} fields in {} runs: ended {ended}, at a bad field {bad}, out of room {full}; idle {}, refused:",
            self.fields(),
            self.runs,
            self.idle
        )?;
        for number in OF_FIELDS.into_iter().chain([OTHER_KIND]) {
            write!(f, " [{number}] {}", self.answers[number])?;
        }
        Ok(())
    }
}

/// Runs that can be made again.
#[derive(Debug, Clone, Copy, PartialEq, Eq)]
pub struct Plan {
    pub seed: u64,
    pub profile: Profile,
    pub scale: Scale,
    /// Of all its runs together, about.
    pub fields: usize,
    /// For how many nodes a port there is packet memory; of none, none are kept.
    pub packets: u32,
}

impl Plan {
    /// That of a number: all profiles and shapes, small pools mostly, and so many
    /// fields on a small switch.
    pub fn numbered(seed: u64, number: u64, fields: usize) -> Plan {
        let mut random = Random::new(seed ^ number.wrapping_mul(0x8CB9_2BA7_2F3D_8DD7));
        let profiles = Profile::ALL.len() as u64;
        let turn = number / profiles;
        let scale = Scale::of_turn(turn, &mut random);
        let packets = scale.packets(turn);
        Plan {
            seed: random.word(),
            profile: Profile::ALL[(number % profiles) as usize],
            scale,
            fields: scale.share_with_packets(fields, packets),
            packets,
        }
    }
}

/// Single calls, beside which runs are made.
type Single = fn(&mut [u8], &Call) -> Result<Reply, String>;
static SINGLE: Single = library::call;

/// Runs one after the other on one switch, library and model.
pub struct Runs {
    run: Run,
    shape: Shape,
    random: Random,
    traffic: Traffic,
    pair: Pair<'static, Single>,
    /// The model of the last call that the traffic was asked for.
    ahead: Model,
    /// Between two runs, of single calls fewer than this.
    between: u32,
    pub tally: Tally,
}

impl Runs {
    /// After the setup of the plan's switch.
    pub fn begun(plan: &Plan, run: Run) -> Result<Runs, String> {
        let Scale { shape, nodes } = plan.scale;
        let mut random = Random::new(plan.seed);
        let beat = random.pick(&[64, 128, 512]);
        let credit = random.pick(&[3, 40, 300, 65_535]);
        let settings = Settings::of(shape, nodes, beat, random.among(1, 8), credit);
        let lent = plan.scale.bytes_and_some(&mut random);
        let pair = Pair::new(&SINGLE, plan.seed, lent, 64);
        let mut pair = pair.with_packets(plan.seed, plan.packets);
        let (settings, between) = match plan.packets {
            0 => (settings, 4),
            // No field brings a packet: single calls do.
            _ => (settings.with_packets(), 60),
        };
        pair.call(&Call::Setup(settings))?;
        let traffic = Traffic::of(plan.seed, plan.profile, shape);
        Ok(Runs {
            run,
            shape,
            random,
            traffic: traffic.with_packets(plan.packets),
            ahead: pair.model.clone(),
            pair,
            between,
            tally: Tally::default(),
        })
    }

    /// The traffic's next so many calls in one run, with room for all.
    pub fn whole(&mut self, fields: usize) -> Result<(), String> {
        let stream = self.stream(fields);
        self.made(&stream, ANSWER * fields)
    }

    /// The same, now and then with too little room or with some left over, and now
    /// and then with a bad field.
    pub fn any(&mut self, fields: usize) -> Result<(), String> {
        let mut stream = self.stream(fields);
        let random = &mut self.random;
        let enough = ANSWER as u32 * fields as u32;
        let room = match random.below(6) {
            0 => random.below(enough),
            1 => enough + random.below(9),
            _ => enough,
        };
        if random.one_in(4) {
            let place = random.below(fields as u32 + 1) as usize;
            let bad = bad_fields(&self.shape);
            stream = stream.spoilt(place, &bad[random.below(bad.len() as u32) as usize]);
        }
        self.made(&stream, room as usize)
    }

    fn stream(&mut self, fields: usize) -> Stream {
        let (random, traffic) = (&mut self.random, &mut self.traffic);
        let calls = run_calls(random, traffic, &mut self.ahead, fields);
        Stream::of(&self.shape, calls)
    }

    fn made(&mut self, stream: &Stream, room: usize) -> Result<(), String> {
        let before = self.pair.memory()[..self.pair.lent()].to_vec();
        let told = match self.pair.run(self.run, stream, room) {
            Ok(told) => told,
            Err(why) => return Err(format!("{why}\n{}", self.cut(&before, stream))),
        };
        self.tally.note(&told);
        self.ahead.clone_from(&self.pair.model);
        Ok(())
    }

    /// The few calls of a stream that differ too in a run on these bytes, told.
    fn cut(&self, before: &[u8], stream: &Stream) -> String {
        let ledger = match reader::ledger(before) {
            Ok(ledger) => ledger,
            Err(why) => return why,
        };
        let differs = |calls: &[Call]| {
            let stream = Stream::of(&self.shape, calls.to_vec());
            let mut pair = Pair::over(&SINGLE, &ledger, 1);
            pair.run(self.run, &stream, ANSWER * calls.len()).err()
        };
        if differs(&stream.calls).is_none() {
            return "its good fields alone, with room for all, do not fail".into();
        }
        // A long one is cut at its end first: halves of it would take long.
        let (mut fewer, mut enough) = (0, stream.calls.len());
        while fewer + 1 < enough {
            let half = (fewer + enough) / 2;
            match differs(&stream.calls[..half]) {
                Some(_) => enough = half,
                None => fewer = half,
            }
        }
        if enough > MOST_TO_CUT {
            return format!("its first {enough} fields fail");
        }
        let few = cut_down(&stream.calls[..enough], |calls| differs(calls).is_some());
        format!("cut down to {few:?}, which fail: {:?}", differs(&few))
    }

    /// A few single calls, and halted ports cleared, some of them: no field does.
    fn between(&mut self) -> Result<(), String> {
        for port in 0..self.shape.ports {
            let halted = self.ahead.call(&Call::Report { port }) != Reply::Mark(0);
            if halted && self.random.one_in(2) {
                self.single(&Call::Clear { port })?;
            }
        }
        for _ in 0..self.random.below(self.between) {
            match self.traffic.next(&self.ahead) {
                Call::Setup(_) => {}
                call => self.single(&call)?,
            }
        }
        Ok(())
    }

    fn single(&mut self, call: &Call) -> Result<(), String> {
        self.ahead.call(call);
        self.pair.call(call).map(|_| ())
    }

    /// The whole ledger, and what each port answers of itself.
    pub fn compare(&mut self) -> Result<(), String> {
        self.pair.compare_ledgers()?;
        for port in 0..self.shape.ports {
            self.pair.call(&Call::Ready { port })?;
            self.pair.call(&Call::Report { port })?;
        }
        Ok(())
    }
}

/// All runs of a plan, short ones mostly. The error tells of the first that fails.
pub fn all(plan: &Plan, run: Run) -> Result<Tally, String> {
    let told = |why: String| format!("{plan:?}\nfails: {why}");
    let mut runs = Runs::begun(plan, run).map_err(told)?;
    while runs.tally.fields() < plan.fields as u64 {
        let most = runs.random.pick(&[1, 2, 3, 10, 30, 100, 300, 1000, 3000]);
        let fields = runs.random.among(1, most) as usize;
        runs.any(fields.min(plan.fields)).map_err(told)?;
        runs.between().map_err(told)?;
    }
    runs.compare().map_err(told)?;
    Ok(runs.tally)
}
