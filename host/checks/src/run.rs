//! Differential runs: library and model side by side.

use std::fmt;

use model::{size, Call, Ledger, ListKind, Model, Reply, Shape, PACKET_MEMORIES};
use traffic::{Before, Profile, Random, Traffic};

use crate::counts::Counts;
use crate::cut::cut_down;
use crate::packets::{lends, Arrived, Packets};
use crate::runs::{self, one_by_one, Run, Stream, Told, ANSWER};
use crate::scale::Scale;
use crate::{difference, in_words, left, night, reader, writer, Desk};

/// Bytes behind the lent memory, to see that nobody writes there.
const GUARD: usize = 64;

/// The calls of a run on a small switch.
const CALLS: usize = 5000;

/// A run that can be made again.
#[derive(Debug, Clone, Copy, PartialEq, Eq)]
pub struct Plan {
    pub seed: u64,
    pub profile: Profile,
    pub shape: Shape,
    /// Bytes of lent memory; with it comes the most nodes per port.
    pub memory_len: usize,
    pub calls: usize,
    /// After how many calls the whole ledger is compared.
    pub ledger_every: usize,
    /// For how many nodes a port there is packet memory; of none, none are kept.
    pub packets: u32,
}

impl Plan {
    /// The run of a number: all profiles and shapes, small pools mostly, and
    /// memory with a few bytes more than the pool needs. Runs take about as long,
    /// so those on large switches have few calls.
    pub fn numbered(seed: u64, number: u64) -> Plan {
        let mut random = Random::new(seed ^ number.wrapping_mul(0xD1B5_4A32_D192_ED03));
        let profiles = Profile::ALL.len() as u64;
        let turn = number / profiles;
        let scale = Scale::of_turn(turn, &mut random);
        let packets = scale.packets(turn);
        Plan {
            seed: random.word(),
            profile: Profile::ALL[(number % profiles) as usize],
            shape: scale.shape,
            memory_len: scale.bytes_and_some(&mut random),
            calls: scale.share_with_packets(CALLS, packets),
            ledger_every: 256,
            packets,
        }
    }

    fn traffic(&self) -> Traffic {
        Traffic::of(self.seed, self.profile, self.shape).with_packets(self.packets)
    }

    /// Before its first call.
    fn begun<'d, D: Desk>(&self, desk: &'d D) -> Pair<'d, D> {
        let pair = Pair::new(desk, self.seed, self.memory_len, self.ledger_every);
        pair.with_packets(self.seed, self.packets)
    }
}

/// A run that failed, and the few calls that fail as well.
#[derive(Debug, Clone)]
pub struct Failure {
    pub plan: Plan,
    pub at: usize,
    pub message: String,
    pub remaining: Vec<Call>,
    pub remaining_message: String,
}

impl fmt::Display for Failure {
    fn fmt(&self, f: &mut fmt::Formatter<'_>) -> fmt::Result {
        writeln!(f, "{:?}", self.plan)?;
        writeln!(f, "fails at call {}: {}", self.at, self.message)?;
        writeln!(f, "cut down to {} calls:", self.remaining.len())?;
        for call in &self.remaining {
            writeln!(f, "    {}", in_words(call))?;
        }
        write!(f, "which fail: {}", self.remaining_message)
    }
}

/// Library and model side by side, on one memory.
pub struct Pair<'d, D> {
    desk: &'d D,
    pub model: Model,
    /// A few bytes, the lent bytes, then the guard.
    memory: Vec<u8>,
    before: Vec<u8>,
    /// Where the lent bytes start: at any address, even or odd.
    start: usize,
    lent: usize,
    made: usize,
    ledger_every: usize,
    packets: Packets,
    /// None from a ledger on: of its packets only headers are known.
    arrived: Option<Arrived>,
    /// How often a packet was found in its slot, and where it was shown.
    found: [u64; 2],
}

impl<'d, D: Desk> Pair<'d, D> {
    /// The memory is zero at first in half of the runs, else anything.
    pub fn new(desk: &'d D, seed: u64, lent: usize, ledger_every: usize) -> Pair<'d, D> {
        let mut random = Random::new(!seed);
        let start = random.below(8) as usize;
        let mut memory = vec![0; start + lent + GUARD];
        if random.one_in(2) {
            memory.fill_with(|| random.word() as u8);
            // No state, for sure: so many ports are in no row.
            memory[start] = 0xFF;
        }
        Pair {
            desk,
            model: Model::new(lent),
            before: memory.clone(),
            memory,
            start,
            lent,
            made: 0,
            ledger_every,
            packets: Packets::new(&mut random, 0),
            arrived: Some(Arrived::default()),
            found: [0; 2],
        }
    }

    /// With packet memories for so many nodes a port.
    pub fn with_packets(self, seed: u64, nodes: u32) -> Pair<'d, D> {
        Pair {
            packets: Packets::new(&mut Random::new(seed), nodes),
            ..self
        }
    }

    /// From a ledger on, in bytes that no call of the library has written.
    pub fn over(desk: &'d D, ledger: &Ledger, ledger_every: usize) -> Pair<'d, D> {
        let mut memory = writer::image(ledger);
        let lent = memory.len();
        memory.extend([0x5A; GUARD]);
        Pair {
            desk,
            model: Model::with_ledger(lent, ledger.clone()),
            before: memory.clone(),
            memory,
            start: 0,
            lent,
            made: 0,
            ledger_every,
            packets: Packets::new(&mut Random::new(0), 0),
            arrived: None,
            found: [0; 2],
        }
    }

    /// The lent bytes and the guard.
    pub fn memory(&self) -> &[u8] {
        &self.memory[self.start..]
    }

    pub fn lent(&self) -> usize {
        self.lent
    }

    /// One call on both. The error says what differs.
    pub fn call(&mut self, call: &Call) -> Result<Reply, String> {
        self.before.copy_from_slice(&self.memory);
        let (start, end) = (self.start, self.start + self.lent);
        let memory = &mut self.memory[start..end];
        let answer = self.desk.call(memory, &mut self.packets, call)?;
        let wanted = self.model.call(call);
        if answer != wanted {
            return Err(format!(
                "the library answers {answer:?}, the model {wanted:?}"
            ));
        }
        let size_now = self.model.ledger().map_or(0, |l| size(&l.settings));
        if self.before[..start] != self.memory[..start] {
            return Err(format!("after {answer:?} bytes before the memory differ"));
        }
        let still = left(&mut self.before[start..end], call, &answer);
        let kept_from = if still { 0 } else { size_now };
        let (before, after) = (&self.before[start..], &self.memory[start..]);
        if let Some(told) = difference(before, after, kept_from) {
            return Err(format!("after {answer:?} {told}"));
        }
        if let (Call::Setup(settings), Reply::Done) = (call, &answer) {
            let image = writer::starting(*settings);
            if let Some(told) = difference(&image, &after[..size_now], 0) {
                return Err(format!("after setup {told}"));
            }
        }
        if let Some(arrived) = &mut self.arrived {
            arrived.note(call, &answer);
        }
        if !still {
            self.find_packets()?;
        }
        if lends(call) || self.keeps_packets() {
            self.compare_packets()
                .map_err(|told| format!("after {answer:?} {told}"))?;
        }
        self.made += 1;
        // More often after a round: it moves much, and tells of its turns alone.
        let every = match &answer {
            Reply::Turns(_) => self.ledger_every.min(4),
            _ => self.ledger_every,
        };
        if self.made % every == 0 {
            self.compare_ledgers()?;
        }
        Ok(answer)
    }

    /// A run of fields in so much room on both, and their calls one by one on a copy
    /// of the memory. The error says what differs.
    pub fn run(&mut self, run: Run, stream: &Stream, room: usize) -> Result<Told, String> {
        self.before.copy_from_slice(&self.memory);
        let lent = self.start..self.start + self.lent;
        let told = runs::made(run, &mut self.memory[lent.clone()], &stream.fields, room)?
            .map_err(|number| format!("a run is refused {number}"))?;
        let stop = (told.count, told.why);
        if stop != stream.wanted(room) {
            let wanted = stream.wanted(room);
            return Err(format!("a run did and stopped {stop:?}, not {wanted:?}"));
        }
        let mut answers = vec![0; room];
        let ran = self.model.run(&stream.fields, &mut answers);
        if ran.map(|ran| (ran.count, ran.why.number())) != Ok(stop) {
            return Err(format!("a run did and stopped {stop:?}, the model {ran:?}"));
        }
        let done = &stream.calls[..told.count];
        let single = one_by_one(self.desk, &mut self.before[lent], done)?;
        answer_difference(done, &told.answers, &answers, "the model")?;
        answer_difference(done, &told.answers, &single, "the call by itself")?;
        if let Some(told) = difference(&self.before, &self.memory, 0) {
            return Err(format!("after a run, beside its calls one by one, {told}"));
        }
        self.find_packets()?;
        self.compare_packets()?;
        self.made += 1;
        if self.made % self.ledger_every == 0 {
            self.compare_ledgers()?;
        }
        Ok(told)
    }

    fn keeps_packets(&self) -> bool {
        let settings = self.model.ledger().map(|ledger| ledger.settings);
        matches!(settings, Some(settings) if settings.packets == 1)
    }

    /// Every byte of the packet memories, and about them.
    fn compare_packets(&self) -> Result<(), String> {
        let told = self.packets.difference(self.model.stored());
        told.map_or(Ok(()), Err)
    }

    /// Every packet of the switch in its slot; and where it is shown, if it is the
    /// oldest in a queue's slots, and that a show writes nothing.
    fn find_packets(&mut self) -> Result<(), String> {
        let (ledger, arrived) = match (self.model.ledger(), &self.arrived) {
            (Some(ledger), Some(arrived)) if ledger.settings.packets == 1 => (ledger, arrived),
            _ => return Ok(()),
        };
        for packet in ledger
            .ports
            .iter()
            .flat_map(|at| at.packets.iter().flatten())
        {
            arrived.is_in_its_slot(&self.packets, packet.entry)?;
            self.found[0] += 1;
        }
        self.before.copy_from_slice(&self.memory);
        for (kind, list) in ledger.lists() {
            let (port, queue, oldest) = match (kind, list.front()) {
                (ListKind::Prefetch { port, queue }, Some(oldest)) => (port, queue, *oldest),
                _ => continue,
            };
            let lent = [ledger.settings.packet_memory(); PACKET_MEMORIES];
            let call = Call::Show { port, queue, lent };
            let memory = &mut self.memory[self.start..self.start + self.lent];
            match self.desk.call(memory, &mut self.packets, &call)? {
                Reply::Shown(part) => arrived.is_at(&self.packets, oldest, &part)?,
                other => return Err(format!("{call:?} answers {other:?}")),
            }
            self.found[1] += 1;
        }
        match difference(&self.before, &self.memory, 0) {
            Some(told) => Err(format!("after shows {told}")),
            None => Ok(()),
        }
    }

    /// The whole ledger, read off the bytes, beside the model's; then what the
    /// night crew is told of it.
    pub fn compare_ledgers(&self) -> Result<(), String> {
        let memory = &self.memory()[..self.lent];
        match (reader::ledger(memory), self.model.ledger()) {
            (Ok(pictured), Some(wanted)) if pictured == *wanted => {}
            (Err(_), None) => {}
            (Ok(pictured), Some(wanted)) => return Err(ledger_difference(&pictured, wanted)),
            (Ok(_), None) => return Err("the memory pictures a ledger, the model has none".into()),
            (Err(why), Some(_)) => return Err(format!("the memory pictures no ledger: {why}")),
        }
        night::PROVED.finds(memory)?;
        night::PROVED.audits(memory, &self.model)
    }
}

/// The first of a run's answers that isn't somebody else's.
fn answer_difference(
    done: &[Call],
    answers: &[u8],
    wanted: &[u8],
    whose: &str,
) -> Result<(), String> {
    let both = answers.chunks(ANSWER).zip(wanted.chunks(ANSWER));
    for (at, (call, (answer, wanted))) in done.iter().zip(both).enumerate() {
        if answer != wanted {
            return Err(format!(
                "field {at} of a run, {call:?}, answers {answer:?}, {whose} {wanted:?}"
            ));
        }
    }
    Ok(())
}

/// The first part in which two ledgers differ.
fn ledger_difference(pictured: &Ledger, wanted: &Ledger) -> String {
    if pictured.settings != wanted.settings {
        let (has, wanted) = (pictured.settings, wanted.settings);
        return format!("the memory has {has:?}, the model {wanted:?}");
    }
    for (id, (port, wanted)) in pictured.map.iter().zip(&wanted.map).enumerate() {
        if port != wanted {
            return format!("id {id} is mapped to {port} in memory, to {wanted} in the model");
        }
    }
    for ((kind, list), (_, wanted_list)) in pictured.lists().zip(wanted.lists()) {
        if list != wanted_list {
            return format!("{kind:?} is {list:?} in memory, {wanted_list:?} in the model");
        }
    }
    for (port, (at, wanted_at)) in pictured.ports.iter().zip(&wanted.ports).enumerate() {
        if at != wanted_at {
            return format!(
                "port {port} in memory: arrival {:?} outward {:?} last {} mark {} records {:?}; \
                 in the model: arrival {:?} outward {:?} last {} mark {} records {:?}",
                at.arrival_credit,
                at.outward_credit,
                at.last_served,
                at.mark,
                at.packets,
                wanted_at.arrival_credit,
                wanted_at.outward_credit,
                wanted_at.last_served,
                wanted_at.mark,
                wanted_at.packets
            );
        }
    }
    "the ledgers differ".into()
}

/// Make the run. A failing one is made again, written down and cut down.
pub fn run<D: Desk>(plan: &Plan, desk: &D, counts: &mut Counts) -> Result<(), Box<Failure>> {
    made(plan, desk, counts).map_err(|(at, message)| Box::new(failure(plan, desk, at, message)))
}

/// Make the run; the error is the number of the first call after which something
/// differs, and what.
pub fn made<D: Desk>(plan: &Plan, desk: &D, counts: &mut Counts) -> Result<(), (usize, String)> {
    let mut pair = plan.begun(desk);
    let mut traffic = plan.traffic();
    for at in 0..plan.calls {
        let call = traffic.next(&pair.model);
        let before = Before::of(&pair.model, &call);
        let reply = pair.call(&call).map_err(|message| (at, message))?;
        counts.note(before, &call, &reply);
    }
    counts.whole.note_found(pair.found);
    pair.compare_ledgers()
        .map_err(|message| (plan.calls, message))
}

fn failure<D: Desk>(plan: &Plan, desk: &D, at: usize, message: String) -> Failure {
    // The traffic looks at the model only, so it is the same again.
    let mut model = Model::new(plan.memory_len);
    let mut traffic = plan.traffic();
    let mut calls = Vec::new();
    for _ in 0..plan.calls.min(at + 1) {
        let call = traffic.next(&model);
        model.call(&call);
        calls.push(call);
    }
    // Compare the ledger after each call now: it may have differed for long.
    let each = Plan {
        ledger_every: 1,
        ..*plan
    };
    let message_of = |calls: &[Call]| -> Option<(usize, String)> {
        let mut pair = each.begun(desk);
        calls
            .iter()
            .enumerate()
            .find_map(|(at, call)| Some((at, pair.call(call).err()?)))
    };
    if let Some((first, _)) = message_of(&calls) {
        calls.truncate(first + 1);
    }
    let remaining = cut_down(&calls, |rest| message_of(rest).is_some());
    let remaining_message = message_of(&remaining).map_or(String::new(), |(_, message)| message);
    Failure {
        plan: *plan,
        at,
        message,
        remaining,
        remaining_message,
    }
}
