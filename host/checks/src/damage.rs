//! Damaged memory: a state after traffic with some bytes changed; what the night
//! crew asks of it, and every call on a copy of it.

use std::collections::BTreeMap;
use std::fmt;

use model::checksum::crc8;
use model::header::Header;
use model::{size, Call, Ledger, Model, Reply, Settings, PACKET_MEMORIES, SLOT_BYTES};
use traffic::headers::{reserved_bits, right_fields, spelt};
use traffic::{whole_of, Profile, Random, Traffic};

use crate::changes::{apply, changes, Change};
use crate::cut::cut_down;
use crate::finding::WAYS;
use crate::night::{self, Crew};
use crate::packets::Packets;
use crate::run::Pair;
use crate::scale::Scale;
use crate::tables::SETTINGS_END;
use crate::{difference, in_words, left, reader, Desk};

/// A run that can be made again: traffic, and damage now and then.
#[derive(Debug, Clone, Copy, PartialEq, Eq)]
pub struct Plan {
    pub seed: u64,
    pub profile: Profile,
    pub scale: Scale,
    /// How many damaged memories.
    pub damaged: usize,
    /// For how many nodes a port there is packet memory; of none, none are kept.
    pub packets: u32,
}

impl Plan {
    /// The run of a number: all profiles and shapes, small pools mostly. Of small
    /// switches so many memories are damaged, of large ones fewer.
    pub fn numbered(seed: u64, number: u64, damaged: usize) -> Plan {
        let mut random = Random::new(!seed ^ number.wrapping_mul(0xD1B5_4A32_D192_ED03));
        let profiles = Profile::ALL.len() as u64;
        let turn = number / profiles;
        let scale = Scale::of_turn(turn, &mut random);
        let packets = scale.packets(turn);
        Plan {
            seed: random.word(),
            profile: Profile::ALL[(number % profiles) as usize],
            scale,
            damaged: scale.share_with_packets(damaged, packets),
            packets,
        }
    }
}

/// What the library took the damaged memories for.
#[derive(Debug, Clone, Default, PartialEq, Eq)]
pub struct Verdicts {
    pub states: u64,
    pub no_states: u64,
    /// Calls that changed a damaged memory that is a state.
    pub acts: u64,
    /// Memories that a repair has mended, of those that were no state.
    pub repairs: u64,
    /// By the rule that is broken first, and the way.
    pub found: BTreeMap<(char, &'static str), u64>,
}

impl Verdicts {
    pub fn memories(&self) -> u64 {
        self.states + self.no_states
    }

    pub fn add(&mut self, other: &Verdicts) {
        self.states += other.states;
        self.no_states += other.no_states;
        self.acts += other.acts;
        self.repairs += other.repairs;
        for (way, times) in &other.found {
            *self.found.entry(*way).or_default() += times;
        }
    }

    /// The rules with the ways of breaking them that came less often.
    pub fn too_rare(&self, least: u64) -> Vec<(char, &'static str)> {
        let times = |way: &(char, &str)| self.found.get(way).copied().unwrap_or(0);
        let rare = |way: &(char, &'static str)| times(way) < least;
        WAYS.into_iter().filter(rare).collect()
    }
}

impl fmt::Display for Verdicts {
    fn fmt(&self, f: &mut fmt::Formatter<'_>) -> fmt::Result {
        write!(
            f,
            "damaged memories: {}, still a state {} ({} calls changed one), no state {} ({} repaired); found:",
            self.memories(),
            self.states,
            self.acts,
            self.no_states,
            self.repairs
        )?;
        for rule in "abcdefgi".chars() {
            let of_rule = || self.found.iter().filter(|((of, _), _)| *of == rule);
            let all: u64 = of_rule().map(|(_, times)| times).sum();
            write!(f, "\n    ({rule}) {all}")?;
            for (at, ((_, way), times)) in of_rule().enumerate() {
                write!(f, "{} {way} {times}", if at == 0 { ":" } else { "," })?;
            }
        }
        Ok(())
    }
}

/// A damaged memory on which the library fails, with the changes that are
/// enough for it.
#[derive(Debug, Clone)]
pub struct Failure {
    pub plan: Plan,
    /// Which damaged memory of the run.
    pub number: usize,
    /// Bytes lent of it.
    pub lent: usize,
    pub changes: Vec<Change>,
    pub message: String,
}

impl fmt::Display for Failure {
    fn fmt(&self, f: &mut fmt::Formatter<'_>) -> fmt::Result {
        writeln!(
            f,
            "{:?}, damaged memory {}, {} bytes lent, cut down to {:?}",
            self.plan, self.number, self.lent, self.changes
        )?;
        write!(f, "fails: {}", self.message)
    }
}

/// A queue of a port with something in a list of it, if there is one.
fn busy(
    random: &mut Random,
    settings: &Settings,
    filled: impl Fn(usize, usize) -> bool,
) -> (u32, u32) {
    let Settings { ports, queues, .. } = *settings;
    let first = random.below(ports * queues);
    (0..ports * queues)
        .map(|step| (first + step) % (ports * queues))
        .map(|both| (both / queues, both % queues))
        .find(|&(port, queue)| filled(port as usize, queue as usize))
        .unwrap_or((first / queues, first % queues))
}

/// A header that is right mostly, for an arrival at the port.
fn arriving(random: &mut Random, settings: &Settings, port: u32) -> Vec<u8> {
    let shape = settings.shape();
    let header = Header {
        source: port,
        length: shape.shortest() + random.below(200),
        ..right_fields(random, &shape)
    };
    let reserved = match random.one_in(16) {
        true => reserved_bits(random, &shape).unwrap_or(0),
        false => 0,
    };
    spelt(&shape, &header, reserved)
}

/// A header that halts the port, if it isn't halted.
fn lying(random: &mut Random, settings: &Settings, port: u32) -> Vec<u8> {
    let mut header = arriving(random, settings, port);
    header[0] ^= 1 << random.below(8);
    if random.one_in(2) {
        // Its checksum is right, and mostly its source is not: one of the first bits is another.
        let last = header.len() - 1;
        header[last] = crc8(&header[..last]);
    }
    header
}

/// A whole packet of this header.
fn packet(random: &mut Random, settings: &Settings, port: u32, header: &[u8]) -> Call {
    let [lent, ..] = packet_memories(random, settings);
    let packet = whole_of(random, header);
    Call::ArrivePacket { port, packet, lent }
}

/// The sizes of packet memories: right mostly, if the nodes are few.
fn packet_memories(random: &mut Random, settings: &Settings) -> [usize; PACKET_MEMORIES] {
    let most = Scale::FEW_NODES as usize * SLOT_BYTES;
    let mut lent = [settings.packet_memory().min(most); PACKET_MEMORIES];
    if random.one_in(16) {
        lent[random.below(4) as usize] -= 1;
    }
    lent
}

/// Every kind of call, meant to succeed mostly, and lies: on the ledger before
/// the damage, which is often nearly that after it. Headers alone and whole packets,
/// of which one kind is refused.
fn one_of_each(random: &mut Random, ledger: &Ledger) -> Vec<Call> {
    let settings = &ledger.settings;
    let Settings {
        nodes,
        ports,
        queues,
        ..
    } = *settings;
    let from = random.below(ports);
    let ingress = (0..ports)
        .map(|step| (from + step) % ports)
        .find(|&port| !ledger.ports[port as usize].ingress.is_empty())
        .unwrap_or(from);
    let waiting = busy(random, settings, |p, q| {
        !ledger.ports[p].egress[q].is_empty()
    });
    let fetched = busy(random, settings, |p, q| {
        !ledger.ports[p].prefetch[q].is_empty()
    });
    // Now and then a port that there isn't: 3 is tested before 4.
    let wild = |port: u32, random: &mut Random| if random.one_in(16) { ports } else { port };
    let port = random.below(ports);
    let (low, any) = (random.below(ports), random.below(4096));
    let room = settings.shape().round_bytes();
    let headers = [
        arriving(random, settings, port),
        lying(random, settings, port),
    ];
    let [whole, lying_whole] = headers.map(|header| {
        let port = wild(port, random);
        packet(random, settings, port, &header)
    });
    vec![
        Call::Ready {
            port: wild(fetched.0, random),
        },
        Call::Arrive {
            port: wild(port, random),
            header: arriving(random, settings, port),
        },
        Call::Stitch {
            port: wild(ingress, random),
        },
        Call::Prefetch {
            port: wild(waiting.0, random),
            queue: waiting.1,
        },
        Call::Credit {
            port: wild(port, random),
            queue: random.below(queues),
            amount: random.below(100),
        },
        Call::Map {
            id: random.pick(&[low, low, any, 4095, 4096]),
            port: wild(port, random),
        },
        Call::Turn {
            port: wild(fetched.0, random),
        },
        Call::Where {
            entry: random.below(ports) * 2048 + random.below(nodes),
        },
        Call::Clear {
            port: wild(port, random),
        },
        Call::Report {
            port: wild(port, random),
        },
        Call::TimedTurn {
            port: wild(fetched.0, random),
            now: random.word() as u32,
        },
        Call::Bucket {
            port: wild(port, random),
            bucket: random.pick(&[0, 1, 32, 33]),
        },
        Call::Arrive {
            port: wild(port, random),
            header: lying(random, settings, port),
        },
        whole,
        lying_whole,
        Call::Show {
            port: wild(fetched.0, random),
            queue: fetched.1,
            lent: packet_memories(random, settings),
        },
        Call::Round {
            // Now and then too little room: 3 is tested before 27.
            room: vec![0x5A; room + 3 - random.pick(&[0, 0, 3, 3, 3, 3, 4, 3 + room])],
        },
        Call::Setup(Settings {
            nodes: random.among(1, nodes),
            ..*settings
        }),
    ]
}

/// What the night crew asks, and all the calls, each on a copy of the same
/// memory. `whole` is what is lent and some bytes behind it.
fn try_calls<D: Desk>(
    desk: &D,
    crew: &Crew,
    whole: &[u8],
    lent: usize,
    calls: &[Call],
    verdicts: &mut Verdicts,
) -> Result<(), String> {
    let judged = reader::judged(&whole[..lent]);
    let found = crew.agrees(whole, lent, &judged)?;
    match found {
        None => verdicts.states += 1,
        Some(found) => {
            verdicts.no_states += 1;
            verdicts.repairs += u64::from(found.rule != 'a');
            *verdicts.found.entry((found.rule, found.way)).or_default() += 1;
        }
    }
    // A model without a ledger refuses 3, as memory that is no state must.
    let model = judged.clone().unwrap_or_else(|_| Model::new(lent));
    let mut refused_3 = None;
    for call in calls {
        let mut copy = whole.to_vec();
        let packets = &mut Packets::for_call(call);
        let told = || in_words(call);
        let answer = desk
            .call(&mut copy[..lent], packets, call)
            .map_err(|why| format!("{}: {why}", told()))?;
        if !matches!(call, Call::Setup(_)) {
            let no_state = answer == Reply::Refused(3);
            if *refused_3.get_or_insert(no_state) != no_state {
                return Err(format!(
                    "{} answers {answer:?}, unlike the calls before it",
                    told()
                ));
            }
        }
        let mut after = model.clone();
        let wanted = after.call(call);
        if answer != wanted {
            let why = judged.as_ref().err();
            return Err(format!(
                "{} answers {answer:?}, the model {wanted:?} ({why:?})",
                told()
            ));
        }
        if let Some(byte) = packets.difference(after.stored()) {
            return Err(format!("{} answers {answer:?}, but {byte}", told()));
        }
        let size_now = after.ledger().map_or(0, |l| size(&l.settings));
        let mut kept = whole.to_vec();
        let still = left(&mut kept[..lent], call, &answer);
        let kept_from = if still { 0 } else { size_now };
        if let Some(byte) = difference(&kept, &copy, kept_from) {
            return Err(format!("{} answers {answer:?}, but {byte}", told()));
        }
        if still && copy == whole {
            continue;
        }
        verdicts.acts += u64::from(judged.is_ok());
        let pictured = reader::ledger(&copy[..lent]);
        if pictured.as_ref().ok() != after.ledger() {
            return Err(format!("{} leaves another ledger than the model", told()));
        }
        let ready = desk.call(&mut copy[..lent], packets, &Call::Ready { port: 0 })?;
        if ready == Reply::Refused(3) {
            return Err(format!("{} leaves memory that is no state", told()));
        }
    }
    Ok(())
}

/// Now and then less memory is lent than the state needs, or than its settings
/// do.
fn lent(random: &mut Random, all: usize, needed: usize) -> usize {
    let short = [
        random.below(SETTINGS_END as u32),
        random.below(needed as u32),
    ];
    match random.below(40) {
        0 => random.pick(&short) as usize,
        1 => needed - 1,
        _ => all,
    }
}

/// Make the run. Of a failing memory, the changes are cut down.
pub fn run<D: Desk>(plan: &Plan, desk: &D, verdicts: &mut Verdicts) -> Result<(), Box<Failure>> {
    run_with(plan, desk, &night::PROVED, verdicts)
}

/// The same with another crew.
pub fn run_with<D: Desk>(
    plan: &Plan,
    desk: &D,
    crew: &Crew,
    verdicts: &mut Verdicts,
) -> Result<(), Box<Failure>> {
    let mut random = Random::new(plan.seed.rotate_left(32));
    let memory_len = plan.scale.bytes_and_some(&mut random);
    let mut pair =
        Pair::new(desk, plan.seed, memory_len, 256).with_packets(plan.seed, plan.packets);
    let mut traffic =
        Traffic::of(plan.seed, plan.profile, plan.scale.shape).with_packets(plan.packets);
    let mut number = 0;
    while number < plan.damaged {
        let failure = |lent, changes, message| {
            Box::new(Failure {
                plan: *plan,
                number,
                lent,
                changes,
                message,
            })
        };
        for _ in 0..random.among(1, 30) {
            let call = traffic.next(&pair.model);
            pair.call(&call).map_err(|why| {
                let told = in_words(&call);
                failure(memory_len, Vec::new(), format!("{told}: {why}"))
            })?;
        }
        let ledger = match pair.model.ledger() {
            Some(ledger) => ledger,
            None => continue,
        };
        let changes = changes(&mut random, pair.memory(), &ledger.settings);
        let calls = one_of_each(&mut random, ledger);
        let lent = lent(&mut random, pair.lent(), size(&ledger.settings));
        let whole = apply(pair.memory(), &changes);
        if let Err(message) = try_calls(desk, crew, &whole, lent, &calls, verdicts) {
            let mut told = message;
            let few = cut_down(&changes, |few| {
                let whole = apply(pair.memory(), few);
                match try_calls(desk, crew, &whole, lent, &calls, &mut Verdicts::default()) {
                    Ok(()) => false,
                    Err(message) => {
                        told = message;
                        true
                    }
                }
            });
            return Err(failure(lent, few, told));
        }
        number += 1;
    }
    Ok(())
}
