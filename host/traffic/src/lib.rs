//! Seeded traffic: calls for the queue manager's model, and for programs that
//! are compared with it, and tagged fields for the bench program.

#![forbid(unsafe_code)]

mod fields;
mod halts;
pub mod headers;
mod packets;
mod random;
#[cfg(test)]
mod tests;

pub use fields::{field, run_calls, run_field, stream, tagged};
pub use halts::{Before, Halts};
pub use headers::{header, plain, SHAPES};
pub use packets::{packet_bytes, whole, whole_of};
pub use random::Random;

use headers::{
    any_shape, made_up_queue, no_shape, reserved_bits, right_fields, spelt, spelt_for_another,
};
use model::header::Header;
use model::{
    size, Call, Ledger, Model, Port, Settings, Shape, BUCKETS, DESTINATIONS, ENTRIES_PER_PORT,
    LONGEST, MOST_CREDIT, MOST_NODES, WIDE,
};

/// What kind of traffic.
#[derive(Debug, Clone, Copy, PartialEq, Eq)]
pub enum Profile {
    /// Mostly calls that succeed: fills, drains, credits.
    Valid,
    /// Half the calls aim at a refusal, each above 3 often.
    Hostile,
    /// One or two nodes, one slot, little credit.
    Tiny,
    /// Fill pools and slots until refused.
    Full,
    /// Setups in between, also refused ones, and ones of any shape.
    Resetup,
    /// One setup with all the nodes that the memory has room for and all the
    /// credit; then every pool to its last node, every node home, and again.
    Brim,
}

impl Profile {
    pub const ALL: [Profile; 6] = [
        Profile::Valid,
        Profile::Hostile,
        Profile::Tiny,
        Profile::Full,
        Profile::Resetup,
        Profile::Brim,
    ];

    /// Calls between two setups, about.
    fn calls_per_setup(self) -> u32 {
        match self {
            Profile::Resetup => 80,
            Profile::Tiny => 1000,
            // Never, as good as.
            Profile::Brim => u32::MAX,
            _ => 4000,
        }
    }

    /// Of 100 calls, those that aim at a refusal.
    fn hostile_share(self) -> u32 {
        match self {
            Profile::Valid => 2,
            Profile::Hostile => 50,
            Profile::Tiny => 20,
            Profile::Full => 8,
            Profile::Resetup => 12,
            Profile::Brim => 4,
        }
    }

    /// Does it make arrivals and prefetches also where they can't succeed?
    fn careless(self) -> bool {
        matches!(self, Profile::Full | Profile::Tiny | Profile::Brim)
    }
}

/// Which way the traffic leans for a while.
#[derive(Debug, Clone, Copy, PartialEq, Eq)]
enum Phase {
    Fill,
    Even,
    Drain,
    /// No node leaves.
    Flood,
    /// None arrives.
    Ebb,
}

/// The calls of the sensible kind, for the weights.
#[derive(Debug, Clone, Copy, PartialEq, Eq)]
enum Step {
    Arrive,
    Stitch,
    Prefetch,
    Credit,
    Map,
    Turn,
    Ready,
    Where,
    Round,
    Clear,
    Report,
    TimedTurn,
    Bucket,
    Show,
}

const STEPS: [Step; 14] = [
    Step::Arrive,
    Step::Stitch,
    Step::Prefetch,
    Step::Credit,
    Step::Map,
    Step::Turn,
    Step::Ready,
    Step::Where,
    Step::Round,
    Step::Clear,
    Step::Report,
    Step::TimedTurn,
    Step::Bucket,
    Step::Show,
];

// Settings just beyond their rows, and some that a cut to a byte or two would
// bring back into them.
const WRONG_NODES: [u32; 8] = [0, 2049, 2368, 4160, 65_535, 65_537, 70_000, u32::MAX];
const WRONG_BEATS: [u32; 10] = [0, 1, 32, 63, 65, 96, 192, 1024, 65_600, u32::MAX];
const WRONG_SLOTS: [u32; 6] = [0, 9, 255, 257, 70_000, u32::MAX];
const WRONG_CREDITS: [u32; 5] = [65_536, 65_537, 70_000, 1 << 31, u32::MAX];
const WRONG_PACKETS: [u32; 8] = [2, 3, 255, 256, 257, 65_536, 65_537, u32::MAX];

// The refusals at which a hostile call aims, where the switch keeps no packets and
// where it does.
const AIMS: [u32; 16] = [4, 5, 6, 7, 8, 9, 10, 11, 12, 13, 14, 15, 19, 20, 24, 27];
const PACKET_AIMS: [u32; 17] = [
    4, 5, 7, 8, 9, 10, 11, 12, 13, 14, 15, 16, 17, 19, 20, 24, 27,
];

impl Phase {
    /// How often each of the steps, in the order of `STEPS`. A clear is made seldom
    /// where no port is halted; where one is, often: else the lies among the calls
    /// would leave nothing but queue 0.
    fn weights(self) -> [u32; 14] {
        match self {
            Phase::Fill => [40, 24, 14, 5, 3, 3, 4, 5, 1, 8, 2, 3, 2, 4],
            Phase::Even => [20, 20, 20, 12, 3, 10, 4, 4, 2, 8, 2, 10, 3, 8],
            Phase::Drain => [5, 20, 25, 16, 1, 15, 3, 3, 2, 8, 2, 15, 3, 8],
            Phase::Flood => [60, 20, 10, 3, 2, 0, 2, 3, 0, 8, 1, 0, 1, 4],
            Phase::Ebb => [0, 24, 26, 20, 1, 14, 2, 2, 2, 8, 1, 14, 1, 6],
        }
    }
}

/// The most nodes a port for which there is memory, if there is any for one.
fn most_nodes(shape: &Shape, memory_len: usize) -> Option<u32> {
    (1..=MOST_NODES)
        .rev()
        .find(|&nodes| size(&Settings::of(*shape, nodes, 64, 1, 0)) <= memory_len)
}

/// A seeded run of calls.
#[derive(Debug, Clone)]
pub struct Traffic {
    random: Random,
    profile: Profile,
    /// Of its setups, but for those of any shape.
    shape: Shape,
    phase: Phase,
    calls_left_in_phase: u32,
    /// Most arrivals go to these queues, so that some lists get long.
    busy_queues: Vec<u32>,
    /// For how many nodes a port there is packet memory; of none no setup keeps
    /// packets.
    packet_nodes: u32,
}

impl Traffic {
    /// For a switch with the ten-byte header.
    pub fn new(seed: u64, profile: Profile) -> Traffic {
        Traffic::of(seed, profile, Shape::TEN_BYTES)
    }

    /// For a switch of any shape.
    pub fn of(seed: u64, profile: Profile, shape: Shape) -> Traffic {
        Traffic {
            random: Random::new(seed),
            profile,
            shape,
            phase: Phase::Fill,
            calls_left_in_phase: 0,
            busy_queues: Vec::new(),
            packet_nodes: 0,
        }
    }

    /// With packet memory for so many nodes a port: most setups keep packets, if the
    /// header has ten bytes.
    pub fn with_packets(self, nodes: u32) -> Traffic {
        Traffic {
            packet_nodes: nodes,
            ..self
        }
    }

    /// The next call. It looks at the model's state and doesn't make the call.
    pub fn next(&mut self, model: &Model) -> Call {
        let ledger = match model.ledger() {
            Some(ledger) => ledger,
            None => return self.before_setup(model),
        };
        self.go_on_in_phase(ledger);
        if self.random.one_in(self.profile.calls_per_setup()) {
            return self.setup(model);
        }
        if self.random.percent(self.profile.hostile_share()) {
            // Without this, few setups are refused while a switch is in use.
            let setup = self.profile == Profile::Hostile && self.random.one_in(16);
            return match setup {
                true => self.refused_setup(model),
                false => self.hostile(ledger),
            };
        }
        self.sensible(ledger)
    }

    /// A few calls that are refused 3, then a setup.
    fn before_setup(&mut self, model: &Model) -> Call {
        if self.random.percent(40) {
            let blind = Ledger::starting(self.settings(self.shape, 16));
            self.anything(&blind)
        } else {
            self.setup(model)
        }
    }

    fn go_on_in_phase(&mut self, ledger: &Ledger) {
        if self.profile == Profile::Brim {
            return self.flood_or_ebb(ledger);
        }
        if self.calls_left_in_phase > 0 {
            self.calls_left_in_phase -= 1;
            return;
        }
        self.phase = match self.profile {
            Profile::Full => self.random.pick(&[Phase::Fill, Phase::Fill, Phase::Drain]),
            _ => self.random.pick(&[Phase::Fill, Phase::Even, Phase::Drain]),
        };
        // Long enough to fill all the nodes, sometimes.
        self.calls_left_in_phase = self.random.among(10, 50 + 16 * ledger.settings.nodes);
        self.choose_busy_queues(ledger.settings.queues);
    }

    /// Flood until no node is free, then ebb until all are.
    fn flood_or_ebb(&mut self, ledger: &Ledger) {
        let free = |port: &Port| port.free.len() as u32;
        let next = if ledger.ports.iter().all(|port| free(port) == 0) {
            Phase::Ebb
        } else if ledger
            .ports
            .iter()
            .all(|port| free(port) == ledger.settings.nodes)
        {
            Phase::Flood
        } else {
            return;
        };
        if self.phase != next {
            self.phase = next;
            self.choose_busy_queues(ledger.settings.queues);
        }
    }

    fn choose_busy_queues(&mut self, queues: u32) {
        let busy = self.random.pick(&[1, 2, 4, queues]);
        self.busy_queues = (0..busy).map(|_| self.random.below(queues)).collect();
    }

    // Setups.

    /// Settings in their rows, to the profile's taste, with most nodes at most.
    fn settings(&mut self, shape: Shape, most: u32) -> Settings {
        let r = &mut self.random;
        let (nodes, slots, credit) = match self.profile {
            Profile::Tiny => (r.among(1, 2), 1, r.below(4)),
            Profile::Hostile => {
                let nodes = if r.one_in(8) {
                    r.among(1, most)
                } else {
                    r.among(1, 8)
                };
                (nodes, r.among(1, 3), r.below(40))
            }
            Profile::Full => {
                let nodes = if r.one_in(4) { most } else { r.among(1, 32) };
                (nodes, r.among(1, 8), r.below(300))
            }
            Profile::Valid | Profile::Resetup => {
                let nodes = match r.below(3) {
                    0 => most,
                    1 => r.among(1, most),
                    _ => r.among(1, 16),
                };
                let credit = match r.below(3) {
                    0 => r.below(200),
                    1 => r.below(5000),
                    _ => r.pick(&[0, MOST_CREDIT, MOST_CREDIT - 1, 128, 16]),
                };
                (nodes, r.among(1, 8), credit)
            }
            Profile::Brim => (most, r.among(1, 8), MOST_CREDIT),
        };
        let beat = r.pick(&[64, 128, 256, 512]);
        self.keeping(Settings::of(shape, nodes.min(most), beat, slots, credit))
    }

    /// A setup; one in three is meant to be refused where the profile is for it.
    fn setup(&mut self, model: &Model) -> Call {
        let shape = match self.profile {
            Profile::Resetup if self.random.one_in(4) => any_shape(&mut self.random),
            _ => self.shape,
        };
        let fits = most_nodes(&shape, model.memory_len());
        let settings = self.settings(shape, fits.unwrap_or(MOST_NODES));
        let wrong =
            matches!(self.profile, Profile::Resetup | Profile::Hostile) && self.random.one_in(3);
        Call::Setup(match wrong {
            true => self.made_wrong(settings, fits),
            false => settings,
        })
    }

    /// One that is meant to be refused, while the switch is in use.
    fn refused_setup(&mut self, model: &Model) -> Call {
        let fits = most_nodes(&self.shape, model.memory_len());
        let settings = self.settings(self.shape, fits.unwrap_or(MOST_NODES));
        Call::Setup(self.made_wrong(settings, fits))
    }

    /// Settings of which one is out of its row or too much for the memory, in
    /// which so many nodes a port fit; or more than one.
    fn made_wrong(&mut self, mut settings: Settings, fits: Option<u32>) -> Settings {
        let r = &mut self.random;
        for _ in 0..r.among(1, 2) {
            match r.below(8) {
                0 => settings.nodes = r.pick(&WRONG_NODES),
                1 => settings.beat = r.pick(&WRONG_BEATS),
                2 => settings.slots = r.pick(&WRONG_SLOTS),
                3 => settings.credit = r.pick(&WRONG_CREDITS),
                4 if settings.edition == WIDE && r.one_in(2) => settings.packets = 1,
                4 => settings.packets = r.pick(&WRONG_PACKETS),
                5 => {
                    let Shape {
                        edition,
                        ports,
                        queues,
                    } = no_shape(r);
                    settings = Settings {
                        edition,
                        ports,
                        queues,
                        ..settings
                    };
                }
                // Needs more memory than there is, if any N does.
                _ => {
                    let first = fits.map_or(1, |n| (n + 1).min(MOST_NODES));
                    settings.nodes = r.among(first, MOST_NODES);
                }
            }
        }
        settings
    }

    // Calls that make sense.

    /// A call that should succeed, or nearly so where the profile is careless.
    fn sensible(&mut self, ledger: &Ledger) -> Call {
        for _ in 0..20 {
            let step = self.weighted_step();
            if let Some(call) = self.step(step, ledger) {
                return call;
            }
        }
        self.turn(ledger)
    }

    fn weighted_step(&mut self) -> Step {
        let weights = self.phase.weights();
        let mut left = self.random.below(weights.iter().sum());
        let mut chosen = 0;
        while left >= weights[chosen] {
            left -= weights[chosen];
            chosen += 1;
        }
        STEPS[chosen]
    }

    /// The call for a step; none where it can't succeed now.
    fn step(&mut self, step: Step, ledger: &Ledger) -> Option<Call> {
        match step {
            Step::Arrive => self.arrive(ledger),
            Step::Stitch => self.stitch(ledger),
            Step::Prefetch => self.prefetch(ledger),
            Step::Credit => Some(self.credit(ledger)),
            Step::Map => Some(Call::Map {
                id: self.id(ledger),
                port: self.random.below(ledger.settings.ports),
            }),
            Step::Turn => Some(self.turn(ledger)),
            Step::Ready => Some(Call::Ready {
                port: self.random.below(ledger.settings.ports),
            }),
            Step::Where => Some(Call::Where {
                entry: self.node(ledger),
            }),
            Step::Round => Some(self.round(ledger)),
            Step::Clear => self.clear(ledger),
            Step::Report => Some(Call::Report {
                port: self.port_to_ask(ledger),
            }),
            Step::TimedTurn => Some(self.timed_turn(ledger)),
            Step::Bucket => Some(self.bucket(ledger)),
            Step::Show => self.show(ledger),
        }
    }

    /// A port that is halted, if there is one.
    fn halted(&mut self, ledger: &Ledger) -> Option<u32> {
        self.ports_from_any(ledger)
            .find(|&port| ledger.ports[port as usize].mark != 0)
    }

    /// A port that is halted, if there is one, half of the time; else any.
    fn port_to_ask(&mut self, ledger: &Ledger) -> u32 {
        let any = self.random.below(ledger.settings.ports);
        match self.random.one_in(2) {
            true => self.halted(ledger).unwrap_or(any),
            false => any,
        }
    }

    /// Where no port is halted, a clear of one now and then: it is done too.
    fn clear(&mut self, ledger: &Ledger) -> Option<Call> {
        let any = self.random.below(ledger.settings.ports);
        let none = self.random.one_in(10).then_some(any);
        let port = self.halted(ledger).or(none)?;
        Some(Call::Clear { port })
    }

    /// A destination id: mostly one that a header can name, now and then one that
    /// a bench program's field can, or any.
    fn id(&mut self, ledger: &Ledger) -> u32 {
        let r = &mut self.random;
        match r.below(8) {
            0 => r.below(256),
            1 => r.below(DESTINATIONS),
            2 => DESTINATIONS - 1,
            _ => r.below(1 << ledger.settings.shape().port_bits()),
        }
    }

    /// The ports from a random one on.
    fn ports_from_any(&mut self, ledger: &Ledger) -> impl Iterator<Item = u32> {
        let ports = ledger.settings.ports;
        let first = self.random.below(ports);
        (0..ports).map(move |step| (first + step) % ports)
    }

    /// Every queue of every port, from a random one on.
    fn queues_from_any(&mut self, ledger: &Ledger) -> impl Iterator<Item = (u32, u32)> {
        let Settings { ports, queues, .. } = ledger.settings;
        let first = self.random.below(ports * queues);
        (0..ports * queues)
            .map(move |step| (first + step) % (ports * queues))
            .map(move |both| (both / queues, both % queues))
    }

    /// Any node's entry id.
    fn node(&mut self, ledger: &Ledger) -> u32 {
        let Settings { ports, nodes, .. } = ledger.settings;
        self.random.below(ports) * ENTRIES_PER_PORT + self.random.below(nodes)
    }

    fn arriving_queue(&mut self, shape: &Shape) -> u32 {
        match self.random.below(20) {
            0..=1 => 0,
            2..=6 => self.random.below(shape.queues),
            _ if self.busy_queues.is_empty() => self.random.below(shape.queues),
            // They may have been chosen for another shape.
            _ => self.random.pick(&self.busy_queues) % shape.queues,
        }
    }

    /// The same, or one in three times a queue that no switch has, if the field
    /// has room for one.
    fn written_queue(&mut self, shape: &Shape) -> u32 {
        let made_up = match self.random.one_in(3) {
            true => made_up_queue(&mut self.random, shape),
            false => None,
        };
        made_up.unwrap_or_else(|| self.arriving_queue(shape))
    }

    /// An arriving queue, but queue 0 in place of one that has no credit left at the
    /// port, and at a port that is halted.
    fn covered_queue(&mut self, ledger: &Ledger, port: u32) -> u32 {
        let queue = self.arriving_queue(&ledger.settings.shape());
        let at = &ledger.ports[port as usize];
        if at.mark != 0 || queue > 0 && at.arrival_credit[queue as usize] == 0 {
            0
        } else {
            queue
        }
    }

    /// A length up to a most, with the edges of beats often.
    fn length(&mut self, shape: &Shape, most: u32, beat: u32) -> u32 {
        let wanted = match self.random.below(10) {
            0 => shape.shortest(),
            1 => shape.shortest() + 1,
            2 => most,
            3 => beat * self.random.below(most / beat + 1),
            4 => beat * self.random.below(most / beat + 1) + 1,
            5 => beat * self.random.among(1, most / beat + 1) - 1,
            6 => self.random.below(most + 1),
            // Mostly small, so that credit lasts for some packets.
            _ => self.random.below(4 * beat),
        };
        wanted.min(most).max(shape.shortest())
    }

    /// Any length that a header can say, too short ones often.
    fn any_length(&mut self, shape: &Shape) -> u32 {
        match self.random.below(3) {
            0 => self.random.below(shape.shortest() + 2),
            _ => self.random.below(LONGEST + 1),
        }
    }

    /// A source other than the port's, one that is no port too.
    fn other_source(&mut self, shape: &Shape, port: u32) -> u32 {
        let sources = 1 << shape.port_bits();
        (port + self.random.among(1, sources - 1)) % sources
    }

    /// A header with random contents and no fault but those that are asked for.
    fn header(&mut self, shape: &Shape, source: u32, queue: u32, length: u32) -> Vec<u8> {
        self.header_with(shape, source, queue, length, 0)
    }

    fn header_with(
        &mut self,
        shape: &Shape,
        source: u32,
        queue: u32,
        length: u32,
        reserved: u32,
    ) -> Vec<u8> {
        let header = Header {
            source,
            queue,
            length,
            poisoned: u32::from(self.random.one_in(4)),
            ..right_fields(&mut self.random, shape)
        };
        spelt(shape, &header, reserved)
    }

    fn arrive(&mut self, ledger: &Ledger) -> Option<Call> {
        let shape = ledger.settings.shape();
        let careless = self.profile.careless() && !self.random.one_in(4);
        let port = self
            .ports_from_any(ledger)
            .find(|&port| careless || !ledger.ports[port as usize].free.is_empty())?;
        let queue = if careless {
            self.arriving_queue(&shape)
        } else {
            self.covered_queue(ledger, port)
        };
        let beat = ledger.settings.beat;
        let mut most = LONGEST;
        if !careless && queue > 0 {
            most = most.min(ledger.ports[port as usize].arrival_credit[queue as usize] * beat);
        }
        let length = self.length(&shape, most, beat);
        let header = self.header(&shape, port, queue, length);
        Some(self.arrival(ledger, port, header))
    }

    fn stitch(&mut self, ledger: &Ledger) -> Option<Call> {
        self.ports_from_any(ledger)
            .find(|&port| !ledger.ports[port as usize].ingress.is_empty())
            .map(|port| Call::Stitch { port })
    }

    fn prefetch(&mut self, ledger: &Ledger) -> Option<Call> {
        let careless = self.profile.careless() && !self.random.one_in(4);
        self.queues_from_any(ledger)
            .find(|&(port, queue)| {
                let at = &ledger.ports[port as usize];
                let taken = at.prefetch[queue as usize].len();
                !at.egress[queue as usize].is_empty()
                    && (careless || taken < ledger.settings.slots as usize)
            })
            .map(|(port, queue)| Call::Prefetch { port, queue })
    }

    /// What the oldest packet of a prefetch list lacks in outward credit.
    fn lacking(ledger: &Ledger, port: u32, queue: u32) -> Option<u32> {
        let at = &ledger.ports[port as usize];
        let oldest = *at.prefetch[queue as usize].front()?;
        let price = ledger.packet(oldest)?.price;
        let held = at.outward_credit[queue as usize];
        (price > held).then(|| price - held)
    }

    fn credit(&mut self, ledger: &Ledger) -> Call {
        let waiting = self
            .queues_from_any(ledger)
            .find_map(|(port, queue)| Some((port, queue, Self::lacking(ledger, port, queue)?)));
        if let Some((port, queue, lacking)) = waiting {
            // Often one too little or just enough.
            let amount = match self.random.below(4) {
                0 => lacking - 1,
                1 | 2 => lacking,
                _ => lacking + self.random.below(20),
            };
            return Call::Credit {
                port,
                queue,
                amount,
            };
        }
        let Settings { ports, queues, .. } = ledger.settings;
        let (port, queue) = (self.random.below(ports), self.random.among(1, queues - 1));
        let room = MOST_CREDIT - ledger.ports[port as usize].outward_credit[queue as usize];
        let amount = match self.random.below(40) {
            0 => room,
            1 => self.random.below(room + 1),
            _ => self.random.below(20).min(room),
        };
        Call::Credit {
            port,
            queue,
            amount,
        }
    }

    /// A port with a ready queue if there is one; now and then any port.
    fn turn(&mut self, ledger: &Ledger) -> Call {
        let any = self.random.below(ledger.settings.ports);
        if self.random.one_in(8) {
            return Call::Turn { port: any };
        }
        let ready = self.queues_from_any(ledger).find(|&(port, queue)| {
            let list = &ledger.ports[port as usize].prefetch[queue as usize];
            !list.is_empty() && Self::lacking(ledger, port, queue).is_none()
        });
        Call::Turn {
            port: ready.map_or(any, |(port, _)| port),
        }
    }

    /// A timed turn, of a port with something ready mostly. The time is such that a
    /// packet of its slots has waited for any number of bits' worth, or any.
    fn timed_turn(&mut self, ledger: &Ledger) -> Call {
        let port = match self.turn(ledger) {
            Call::Turn { port } => port,
            _ => unreachable!(),
        };
        let slots = &ledger.ports[port as usize].prefetch;
        let oldest: Vec<u16> = slots
            .iter()
            .filter_map(|list| list.front().copied())
            .collect();
        let any = self.random.word() as u32;
        let stamp = match oldest.is_empty() {
            true => any,
            false => ledger
                .packet(self.random.pick(&oldest))
                .map_or(any, |packet| packet.timestamp),
        };
        let low = any >> self.random.below(32);
        let wait = match self.random.below(8) {
            0 => 0,
            1 => 1 << self.random.below(32),
            2 => u32::MAX >> self.random.below(32),
            _ => low,
        };
        Call::TimedTurn {
            port,
            now: stamp.wrapping_add(wait),
        }
    }

    /// A bucket, of one that counts something mostly, if there is such at the port.
    fn bucket(&mut self, ledger: &Ledger) -> Call {
        let port = self.random.below(ledger.settings.ports);
        let counts = &ledger.ports[port as usize].buckets;
        let some: Vec<u32> = (0..)
            .zip(counts)
            .filter_map(|(bucket, &count)| (count > 0).then_some(bucket))
            .collect();
        let bucket = match some.is_empty() || self.random.one_in(3) {
            true => self.random.below(counts.len() as u32),
            false => self.random.pick(&some),
        };
        Call::Bucket { port, bucket }
    }

    /// A round with room enough, and often with more.
    fn round(&mut self, ledger: &Ledger) -> Call {
        let more = self.random.pick(&[0, 0, 1, 3, 4, 20]);
        self.round_with(ledger.settings.shape().round_bytes() + more)
    }

    /// A round with so many bytes of room, of any content.
    fn round_with(&mut self, bytes: usize) -> Call {
        let room = (0..bytes).map(|_| self.random.word() as u8).collect();
        Call::Round { room }
    }

    // Calls that aim at a refusal.

    fn hostile(&mut self, ledger: &Ledger) -> Call {
        if self.random.one_in(7) {
            return self.anything(ledger);
        }
        let aim = match ledger.settings.packets {
            0 => self.random.pick(&AIMS),
            _ => self.random.pick(&PACKET_AIMS),
        };
        self.aimed(aim, ledger)
    }

    /// A number of at least `least`: small, near a power of two, or huge. The
    /// last kinds would pass if a program cut them to a byte or two.
    fn beyond(&mut self, least: u32) -> u32 {
        let r = &mut self.random;
        let number = match r.below(8) {
            0..=2 => least,
            3 => r.among(least, least.max(255)),
            4 => 256 + r.below(4),
            5 => 65_536 + r.below(4),
            6 => r.pick(&[70_000, 1 << 24, 1 << 31, u32::MAX - 1, u32::MAX]),
            _ => r.among(least, u32::MAX),
        };
        number.max(least)
    }

    /// An entry id that is no node.
    fn no_node(&mut self, ledger: &Ledger) -> u32 {
        let Settings { nodes, ports, .. } = ledger.settings;
        let node = self.node(ledger);
        let r = &mut self.random;
        let port = r.below(ports);
        match r.below(6) {
            // Of 2,048 nodes, the next port's first is no node of the last port's.
            0 if nodes < ENTRIES_PER_PORT => port * ENTRIES_PER_PORT + nodes,
            1 if nodes < ENTRIES_PER_PORT => {
                port * ENTRIES_PER_PORT + r.among(nodes, ENTRIES_PER_PORT - 1)
            }
            2 => r.among(ports, 32) * ENTRIES_PER_PORT + r.below(nodes),
            3 => 65_536 * r.among(1, 65_535) + node,
            4 => r.pick(&[65_536, 70_000, u32::MAX]),
            _ => r.among(ports * ENTRIES_PER_PORT, u32::MAX),
        }
    }

    /// A call meant for one refusal. Where the state isn't such that it can
    /// occur, a call that leads there.
    fn aimed(&mut self, refusal: u32, ledger: &Ledger) -> Call {
        let shape = ledger.settings.shape();
        let Shape { ports, queues, .. } = shape;
        let port = match refusal {
            // Of some lies the port is halted already.
            7 | 8 if self.random.one_in(3) => self.port_to_ask(ledger),
            _ => self.random.below(ports),
        };
        let at = &ledger.ports[port as usize];
        match refusal {
            4 => {
                let port = self.beyond(ports);
                let queue = self.random.below(queues);
                match self.random.below(12) {
                    0 => {
                        let header = self.header(&shape, port % ports, queue, shape.shortest());
                        self.arrival(ledger, port, header)
                    }
                    1 => Call::Stitch { port },
                    2 => Call::Prefetch { port, queue },
                    3 => Call::Credit {
                        port,
                        queue,
                        amount: 1,
                    },
                    4 => Call::Map {
                        id: self.id(ledger),
                        port,
                    },
                    5 => Call::Turn { port },
                    6 => Call::Clear { port },
                    7 => Call::Report { port },
                    8 => Call::TimedTurn {
                        port,
                        now: self.random.word() as u32,
                    },
                    // Half of these with a bucket that is wrong as well.
                    9 => Call::Bucket {
                        port,
                        bucket: self.random.below(2 * BUCKETS as u32),
                    },
                    10 if ledger.settings.packets == 1 => Call::Show {
                        port,
                        queue: self.random.below(2 * queues),
                        lent: self.right_sizes(ledger),
                    },
                    _ => Call::Ready { port },
                }
            }
            5 => {
                let queue = self.beyond(queues);
                match self.random.below(5) {
                    0 => Call::Prefetch { port, queue },
                    1 => Call::Credit {
                        port,
                        queue,
                        amount: self.random.below(3),
                    },
                    2 => Call::Bucket {
                        port,
                        bucket: self.beyond(BUCKETS as u32),
                    },
                    3 if ledger.settings.packets == 1 => Call::Show {
                        port,
                        queue,
                        lent: self.right_sizes(ledger),
                    },
                    _ => Call::Credit {
                        port,
                        queue: 0,
                        amount: self.random.below(3),
                    },
                }
            }
            6 => {
                let header = self.header_of_another_size(&shape, port);
                Call::Arrive { port, header }
            }
            7 => {
                let queue = self.written_queue(&shape);
                let reserved = match self.random.one_in(4) {
                    true => reserved_bits(&mut self.random, &shape).unwrap_or(0),
                    false => 0,
                };
                let length = shape.shortest();
                let mut header = self.header_with(&shape, port, queue, length, reserved);
                let byte = self.random.below(header.len() as u32) as usize;
                header[byte] ^= 1 << self.random.below(8);
                self.arrival(ledger, port, header)
            }
            8 => {
                let source = self.other_source(&shape, port);
                let queue = self.written_queue(&shape);
                let length = self.any_length(&shape);
                let header = self.header(&shape, source, queue, length);
                self.arrival(ledger, port, header)
            }
            9 => {
                let queue = self.written_queue(&shape);
                let length = self.random.below(shape.shortest());
                let header = self.header(&shape, port, queue, length);
                self.arrival(ledger, port, header)
            }
            19 => {
                let queue = made_up_queue(&mut self.random, &shape).unwrap_or(queues - 1);
                let length = self.random.among(shape.shortest(), LONGEST);
                let header = self.header(&shape, port, queue, length);
                self.arrival(ledger, port, header)
            }
            20 => {
                // Alone, or beside faults that are tested later.
                let source = if self.random.one_in(3) {
                    self.random.below(1 << shape.port_bits())
                } else {
                    port
                };
                let queue = self.written_queue(&shape);
                let length = self.any_length(&shape);
                let reserved = reserved_bits(&mut self.random, &shape).unwrap_or(0);
                let header = self.header_with(&shape, source, queue, length, reserved);
                self.arrival(ledger, port, header)
            }
            10 if self.random.one_in(3) => {
                // At a halted port, if there is one, with credit in hand if there is any.
                let port = self.halted(ledger).unwrap_or(port);
                let credit = &ledger.ports[port as usize].arrival_credit;
                let queue = (1..queues)
                    .max_by_key(|&queue| credit[queue as usize])
                    .unwrap();
                let header = self.header(&shape, port, queue, shape.shortest());
                self.arrival(ledger, port, header)
            }
            10 => {
                // The queue with the least credit, and just above it if it can be.
                let queue = (1..queues)
                    .min_by_key(|&queue| at.arrival_credit[queue as usize])
                    .unwrap();
                let queue = if self.random.one_in(4) {
                    self.random.among(1, queues - 1)
                } else {
                    queue
                };
                let covered = at.arrival_credit[queue as usize] * ledger.settings.beat;
                let least = (covered + 1).clamp(shape.shortest(), LONGEST);
                let length = match self.random.below(3) {
                    0 => LONGEST,
                    1 => self.random.among(least, LONGEST),
                    _ => least,
                };
                let header = self.header(&shape, port, queue, length);
                self.arrival(ledger, port, header)
            }
            11 => {
                // The port with the fewest free nodes, at a price that is covered.
                let port = (0..ports)
                    .min_by_key(|&port| ledger.ports[port as usize].free.len())
                    .unwrap();
                let queue = self.covered_queue(ledger, port);
                let header = self.header(&shape, port, queue, shape.shortest());
                self.arrival(ledger, port, header)
            }
            12 if ledger.settings.packets == 1 && self.random.one_in(3) => {
                self.nothing_to_show(ledger)
            }
            12 => {
                let queue = self.random.below(queues);
                let empty = self
                    .ports_from_any(ledger)
                    .find(|&port| ledger.ports[port as usize].ingress.is_empty());
                match empty {
                    Some(port) if self.random.one_in(2) => Call::Stitch { port },
                    _ => {
                        // With slots in use if there are such: 12 before 13.
                        let (port, queue) = self
                            .queues_from_any(ledger)
                            .find(|&(port, queue)| {
                                let at = &ledger.ports[port as usize];
                                let slots = ledger.settings.slots as usize;
                                at.egress[queue as usize].is_empty()
                                    && at.prefetch[queue as usize].len() == slots
                            })
                            .unwrap_or((port, queue));
                        Call::Prefetch { port, queue }
                    }
                }
            }
            13 => {
                // The fullest prefetch list that has something to come.
                let fullest = self
                    .queues_from_any(ledger)
                    .filter(|&(port, queue)| {
                        !ledger.ports[port as usize].egress[queue as usize].is_empty()
                    })
                    .max_by_key(|&(port, queue)| {
                        ledger.ports[port as usize].prefetch[queue as usize].len()
                    });
                match fullest {
                    Some((port, queue)) => Call::Prefetch { port, queue },
                    None => self
                        .stitch(ledger)
                        .or_else(|| self.arrive(ledger))
                        .unwrap_or(Call::Turn { port }),
                }
            }
            14 => {
                let queue = self.random.among(1, queues - 1);
                let room = MOST_CREDIT - at.outward_credit[queue as usize];
                let amount = match self.random.below(8) {
                    0..=2 => room + 1,
                    3 => MOST_CREDIT,
                    4 => self.random.pick(&[65_536, 70_000, 1 << 31]),
                    // Would come round to little if the sum wrapped.
                    5 => u32::MAX - self.random.below(4),
                    6 => (u32::MAX - at.outward_credit[queue as usize]).saturating_add(1),
                    _ => self.random.among(room + 1, u32::MAX),
                };
                Call::Credit {
                    port,
                    queue,
                    amount,
                }
            }
            16 => self.wrong_count(ledger, port),
            17 => self.wrong_size(ledger, port),
            24 => self.other_kind(ledger),
            27 => {
                let most = shape.round_bytes() as u32 - 1;
                let bytes = match self.random.below(3) {
                    0 => most,
                    _ => self.random.below(most + 1),
                };
                self.round_with(bytes as usize)
            }
            _ => {
                if self.random.one_in(2) {
                    // Half of these with a port that is wrong as well.
                    let port = if self.random.one_in(2) {
                        self.beyond(ports)
                    } else {
                        port
                    };
                    Call::Map {
                        id: self.beyond(DESTINATIONS),
                        port,
                    }
                } else {
                    Call::Where {
                        entry: self.no_node(ledger),
                    }
                }
            }
        }
    }

    /// A header that is right but for its size: cut, made longer, or another
    /// shape's.
    fn header_of_another_size(&mut self, shape: &Shape, port: u32) -> Vec<u8> {
        let size = shape.header_bytes();
        let mut header = self.header(shape, port, 0, shape.shortest());
        let other = spelt_for_another(&mut self.random, shape);
        match self.random.below(4) {
            0 if other.len() != size => return other,
            0 | 1 => header.resize(self.random.among(size as u32 + 1, 20) as usize, 0),
            _ => header.truncate(self.random.below(size as u32) as usize),
        }
        header
    }

    /// Any call with any faults, more than one at once too: for the order in
    /// which refusals are tested.
    fn anything(&mut self, ledger: &Ledger) -> Call {
        let Settings { ports, queues, .. } = ledger.settings;
        let port = if self.random.one_in(3) {
            self.beyond(ports)
        } else {
            self.random.below(ports)
        };
        let queue = if self.random.one_in(3) {
            self.beyond(queues)
        } else {
            self.random.below(queues)
        };
        match self.random.below(20) {
            0..=4 => {
                let header = self.any_header(&ledger.settings.shape(), port);
                self.arrival(ledger, port, header)
            }
            5 => Call::Stitch { port },
            6 => Call::Prefetch { port, queue },
            7 => Call::Credit {
                port,
                queue,
                amount: if self.random.one_in(2) {
                    self.random.below(100)
                } else {
                    self.beyond(60)
                },
            },
            8 => Call::Map {
                id: if self.random.one_in(2) {
                    self.beyond(DESTINATIONS)
                } else {
                    self.id(ledger)
                },
                port,
            },
            9 => Call::Turn { port },
            10 => Call::Ready { port },
            11 => {
                let most = 2 * ledger.settings.shape().round_bytes() as u32;
                let bytes = self.random.below(most);
                self.round_with(bytes as usize)
            }
            12 => Call::Clear { port },
            13 => Call::Report { port },
            14 => Call::TimedTurn {
                port,
                now: self.random.word() as u32,
            },
            15 => Call::Bucket {
                port,
                bucket: match self.random.one_in(3) {
                    true => self.beyond(BUCKETS as u32),
                    false => self.random.below(BUCKETS as u32),
                },
            },
            16 | 17 => self.any_packet(ledger, port),
            18 => Call::Show {
                port,
                queue,
                lent: self.any_sizes(ledger),
            },
            _ => Call::Where {
                entry: if self.random.one_in(2) {
                    self.no_node(ledger)
                } else {
                    self.node(ledger)
                },
            },
        }
    }

    /// A header with any faults for an arrival at any port.
    fn any_header(&mut self, shape: &Shape, port: u32) -> Vec<u8> {
        let source = if self.random.one_in(3) {
            self.random.below(1 << shape.port_bits())
        } else {
            port % shape.ports
        };
        let queue = self.random.below(1 << shape.queue_bits());
        let length = self.any_length(shape);
        let reserved = match self.random.one_in(4) {
            true => reserved_bits(&mut self.random, shape).unwrap_or(0),
            false => 0,
        };
        let mut header = self.header_with(shape, source, queue, length, reserved);
        if self.random.one_in(3) {
            let at = self.random.below(header.len() as u32) as usize;
            header[at] ^= self.random.word() as u8;
        }
        if self.random.one_in(4) {
            header.resize(self.random.below(21) as usize, 0xA5);
        }
        header
    }
}
