//! Streams of fields for runs, of three mixes. They are made once, by driving lean,
//! so that each field meets the state for which it was chosen.

use lean::{EarlyOut, Refusal};
use model::header::Header;
use model::{Settings, Shape};
use traffic::headers::spelt;
use traffic::{plain, Random};

/// What a stream is made of.
#[derive(Debug, Clone, Copy, PartialEq, Eq)]
pub enum Mix {
    /// Arrive, stitch, prefetch and turn in equal parts, some credit, a few maps;
    /// nearly all are done.
    Real,
    /// Seven calls in ten are turns, at any port; few packets in the slots have credit
    /// at once, so that most turns look at all queues and are idle.
    Turns,
    /// About half of the calls are refused, for one of many reasons.
    Refusals,
}

impl Mix {
    pub const ALL: [Mix; 3] = [Mix::Real, Mix::Turns, Mix::Refusals];

    pub fn name(self) -> &'static str {
        match self {
            Mix::Real => "real",
            Mix::Turns => "turns",
            Mix::Refusals => "refusals",
        }
    }
}

/// A run of fields for a switch of these settings: first those that fill it, then
/// those that are timed.
pub struct Stream {
    pub settings: Settings,
    pub before: Vec<u8>,
    pub fields: Vec<u8>,
    /// Where each of the timed fields ends.
    pub ends: Vec<usize>,
}

/// The packets in the switch: so many, if it has the nodes.
const BACKLOG: usize = 128;
/// The longest packet; at beat 64 its price is 24.
const LONG: u32 = 1500;

/// Makes a stream: the switch behind it, and where its packets stand.
struct Maker {
    mix: Mix,
    shape: Shape,
    random: Random,
    lean: EarlyOut,
    fields: Vec<u8>,
    ends: Vec<usize>,
    /// The ports of the packets in ingress lists.
    ingress: Vec<u32>,
    /// Port and queue of each packet in an egress list, and in the slots.
    egress: Vec<(u32, u32)>,
    slots: Vec<(u32, u32)>,
    /// By port and queue.
    outward: Vec<u32>,
    /// So many packets there are to be.
    most: usize,
    /// A queue whose outward credit falls below this gets as much again.
    little: u32,
}

impl Stream {
    pub fn made(seed: u64, mix: Mix, settings: Settings, calls: usize) -> Stream {
        let mut maker = Maker::new(seed, mix, settings);
        maker.fill();
        let before = std::mem::take(&mut maker.fields);
        maker.ends.clear();
        while maker.ends.len() < calls {
            maker.go_on();
        }
        // A step may be more than one call.
        maker.ends.truncate(calls);
        maker.fields.truncate(maker.ends[calls - 1]);
        Stream {
            settings,
            before,
            fields: maker.fields,
            ends: maker.ends,
        }
    }
}

/// The settings as lean has them.
pub fn of_lean(s: &Settings) -> lean::Settings {
    lean::Settings {
        nodes: s.nodes,
        beat: s.beat,
        slots: s.slots,
        credit: s.credit,
        ports: s.ports,
        queues: s.queues,
        edition: s.edition,
    }
}

impl Maker {
    fn new(seed: u64, mix: Mix, settings: Settings) -> Maker {
        let shape = settings.shape();
        let nodes = (settings.ports * settings.nodes) as usize;
        Maker {
            mix,
            shape,
            random: Random::new(seed),
            lean: EarlyOut::setup(of_lean(&settings)).expect("settings in their rows"),
            fields: Vec::new(),
            ends: Vec::new(),
            ingress: Vec::new(),
            egress: Vec::new(),
            slots: Vec::new(),
            outward: vec![0; (settings.ports * settings.queues) as usize],
            most: BACKLOG.min(3 * nodes / 4),
            little: match mix {
                Mix::Turns => LONG / settings.beat + 1,
                _ => 60,
            },
        }
    }

    /// Destination id p leads to port p; credit, but where turns wait for it; and
    /// as many packets as there are to be.
    fn fill(&mut self) {
        let Shape { ports, queues, .. } = self.shape;
        for port in 0..ports {
            self.map(port, port);
            for queue in 1..queues {
                if self.mix != Mix::Turns {
                    self.more_credit(port, queue);
                }
            }
        }
        while self.packets() < self.most {
            self.arrive();
            self.move_on();
        }
    }

    fn packets(&self) -> usize {
        self.ingress.len() + self.egress.len() + self.slots.len()
    }

    /// A step of the mix.
    fn go_on(&mut self) {
        match self.mix {
            Mix::Real if self.random.one_in(100) => self.any_map(),
            Mix::Real => self.move_on(),
            Mix::Turns if self.random.percent(65) => self.any_turn(),
            Mix::Turns => self.move_on(),
            Mix::Refusals if self.random.percent(50) => self.refused(),
            Mix::Refusals => self.move_on(),
        }
    }

    /// Where a packet can go on, one does: in the long run each that arrives is
    /// stitched, prefetched and sent once.
    fn move_on(&mut self) {
        match self.random.below(4) {
            0 if self.packets() < self.most => self.arrive(),
            1 if !self.ingress.is_empty() => self.stitch(),
            2 if !self.egress.is_empty() => self.prefetch(),
            3 if !self.slots.is_empty() => self.turn_of_a_packet(),
            _ => {}
        }
    }

    fn put(&mut self, tag: u8, value: &[u8]) {
        self.fields.push(tag);
        self.fields.extend((value.len() as u16).to_be_bytes());
        self.fields.extend(value);
        self.ends.push(self.fields.len());
    }

    // Calls that are done.

    fn arrive(&mut self) {
        let Shape { ports, queues, .. } = self.shape;
        let port = self.random.below(ports);
        let (to, queue) = (self.random.below(ports), self.random.below(queues));
        let length = self.random.among(self.shape.shortest(), LONG);
        let header = plain(&self.shape, to, port, queue, length);
        if self.hand_in(port, &header).is_ok() {
            self.ingress.push(port);
        }
    }

    fn hand_in(&mut self, port: u32, header: &[u8]) -> Result<u16, Refusal> {
        self.put(2, &[&[port as u8], header].concat());
        self.lean.arrive(port, header)
    }

    fn stitch(&mut self) {
        let port = taken(&mut self.random, &mut self.ingress);
        self.put(3, &[port as u8]);
        let record = self.lean.stitch(port).expect("a packet in ingress");
        self.egress.push((record.port.into(), record.queue.into()));
    }

    /// Of a queue whose slots are all in use, it is refused.
    fn prefetch(&mut self) {
        let (port, queue) = taken(&mut self.random, &mut self.egress);
        self.put(4, &[port as u8, queue as u8]);
        match self.lean.prefetch(port, queue) {
            Ok(_) => self.slots.push((port, queue)),
            Err(_) => self.egress.push((port, queue)),
        }
    }

    fn turn_of_a_packet(&mut self) {
        let at = self.random.below(self.slots.len() as u32) as usize;
        let (port, queue) = self.slots[at];
        if self.mix == Mix::Turns {
            // For this packet and hardly for another.
            self.more_credit(port, queue);
        }
        self.turn(port);
    }

    fn any_turn(&mut self) {
        let port = self.random.below(self.shape.ports);
        self.turn(port);
    }

    fn turn(&mut self, port: u32) {
        self.put(5, &[port as u8]);
        let sent = self.lean.turn(port).expect("a port of the switch");
        if let Some(packet) = sent {
            let queue = packet.queue.into();
            let left = self.slots.iter().position(|&slot| slot == (port, queue));
            self.slots.swap_remove(left.expect("a packet in the slots"));
            self.paid(port, queue, packet.price.into());
        }
    }

    fn paid(&mut self, port: u32, queue: u32, price: u32) {
        let at = (port * self.shape.queues + queue) as usize;
        self.outward[at] = self.outward[at].saturating_sub(price);
        if self.mix != Mix::Turns {
            self.more_credit(port, queue);
        }
    }

    /// Where there is little left.
    fn more_credit(&mut self, port: u32, queue: u32) {
        let at = (port * self.shape.queues + queue) as usize;
        if queue > 0 && self.outward[at] < self.little {
            self.credit(port, queue, self.little);
        }
    }

    fn credit(&mut self, port: u32, queue: u32, amount: u32) {
        self.outward[(port * self.shape.queues + queue) as usize] += amount;
        let [high, low] = (amount as u16).to_be_bytes();
        self.put(6, &[port as u8, queue as u8, high, low]);
        self.lean
            .credit(port, queue, amount)
            .expect("little credit");
    }

    fn any_map(&mut self) {
        let ports = self.shape.ports;
        let (id, port) = (self.random.below(ports), self.random.below(ports));
        self.map(id, port);
    }

    fn map(&mut self, id: u32, port: u32) {
        self.put(7, &[id as u8, port as u8]);
        self.lean.map(id, port).expect("an id and a port");
    }

    // Calls that are refused; where the state isn't such that one is, none is made.

    fn refused(&mut self) {
        let Shape { ports, queues, .. } = self.shape;
        let (port, queue) = (self.random.below(ports), self.random.below(queues));
        match self.random.below(12) {
            0 => self.wrong_port(),
            1 => self.wrong_queue(port),
            2 => self.wrong_size(port),
            3 => self.wrong_checksum(),
            4 => self.wrong_source(),
            5 => self.too_short(port, queue),
            6 => self.made_up_queue(port),
            7 => self.reserved_bit(port),
            8 => self.at_the_halted_port(),
            9 if !self.ingress.contains(&port) => self.refusal(3, &[port]),
            10 if !self.egress.contains(&(port, queue)) => self.refusal(4, &[port, queue]),
            11 => self.too_much_credit(port, queue),
            _ => {}
        }
    }

    /// A call that is none of an arrival and is refused.
    fn refusal(&mut self, tag: u8, numbers: &[u32]) {
        let value: Vec<u8> = numbers.iter().map(|&number| number as u8).collect();
        self.put(tag, &value);
        let done = match (tag, numbers) {
            (3, &[port]) => self.lean.stitch(port).is_ok(),
            (4, &[port, queue]) => self.lean.prefetch(port, queue).is_ok(),
            (5, &[port]) => self.lean.turn(port).is_ok(),
            (6, &[port, queue, high, low]) => {
                self.lean.credit(port, queue, high << 8 | low).is_ok()
            }
            (7, &[id, port]) => self.lean.map(id, port).is_ok(),
            _ => unreachable!("tag {tag}, {numbers:?}"),
        };
        assert!(!done, "tag {tag}, {numbers:?}");
    }

    fn wrong_port(&mut self) {
        let wrong = self.shape.ports + self.random.below(3);
        match self.random.below(4) {
            0 => self.refusal(3, &[wrong]),
            1 => self.refusal(4, &[wrong, 0]),
            2 => self.refusal(5, &[wrong]),
            _ => self.refusal(7, &[0, wrong]),
        }
    }

    fn wrong_queue(&mut self, port: u32) {
        let wrong = self.shape.queues + self.random.below(3);
        match self.random.below(3) {
            0 => self.refusal(4, &[port, wrong]),
            1 => self.refusal(6, &[port, wrong, 0, 1]),
            _ => self.refusal(6, &[port, 0, 0, 1]),
        }
    }

    /// Where the queue has some, the most that a field can say is too much.
    fn too_much_credit(&mut self, port: u32, queue: u32) {
        let at = (port * self.shape.queues + queue) as usize;
        if queue > 0 && self.outward[at] > 0 {
            self.refusal(6, &[port, queue, 255, 255]);
        }
    }

    fn refused_header(&mut self, port: u32, header: &[u8]) {
        let answer = self.hand_in(port, header);
        assert!(answer.is_err(), "port {port}, {header:?}");
    }

    /// Ten bytes where headers are wide; another size is no good field.
    fn wrong_size(&mut self, port: u32) {
        if self.shape.header_bytes() != 10 {
            self.refused_header(port, &[0; 10]);
        }
    }

    /// No field lifts a halt, so all that lies comes in at the last port.
    fn liar(&self) -> u32 {
        self.shape.ports - 1
    }

    fn wrong_checksum(&mut self) {
        let mut header = plain(&self.shape, 0, self.liar(), 1, 100);
        let last = header.len() - 1;
        header[last] ^= self.random.among(1, 255) as u8;
        self.refused_header(self.liar(), &header);
    }

    fn wrong_source(&mut self) {
        let source = self.random.below(self.liar());
        let header = plain(&self.shape, 0, source, 1, 100);
        self.refused_header(self.liar(), &header);
    }

    fn at_the_halted_port(&mut self) {
        let queue = self.random.among(1, self.shape.queues - 1);
        let header = plain(&self.shape, 0, self.liar(), queue, 100);
        // Until the first lie it is taken in.
        if self.hand_in(self.liar(), &header).is_ok() {
            self.ingress.push(self.liar());
        }
    }

    fn too_short(&mut self, port: u32, queue: u32) {
        let length = self.random.below(self.shape.shortest());
        let header = plain(&self.shape, 0, port, queue, length);
        self.refused_header(port, &header);
    }

    /// Where the field has room for one.
    fn made_up_queue(&mut self, port: u32) {
        let queue = (1 << self.shape.queue_bits()) - 1;
        if queue >= self.shape.queues {
            let header = plain(&self.shape, 0, port, queue, 100);
            self.refused_header(port, &header);
        }
    }

    /// Where there is one.
    fn reserved_bit(&mut self, port: u32) {
        if self.shape.reserved_bits() > 0 {
            let header = Header {
                source: port,
                length: 100,
                ..Header::default()
            };
            let header = spelt(&self.shape, &header, 1);
            self.refused_header(port, &header);
        }
    }
}

/// One of a list that isn't empty, taken out of it.
fn taken<T>(random: &mut Random, list: &mut Vec<T>) -> T {
    let at = random.below(list.len() as u32) as usize;
    list.swap_remove(at)
}
