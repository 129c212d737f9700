//! A search for the longest wait from door to door: switches made by the public
//! calls, at random or so that a packet is always passed by the others, and
//! rounds with any other calls between them.

use model::{price, size, Call, Ledger, Model, Reply, Settings, Shape, MOST_CREDIT};
use traffic::{plain, Profile, Random, Traffic};

use crate::waits::Tally;
use crate::watch::{Scene, Watch};
use crate::Desk;

/// How a start is made.
#[derive(Debug, Clone, Copy, PartialEq, Eq)]
pub enum Aim {
    /// Any traffic before and between rounds.
    Any,
    /// All other queues of the port are filled, and filled again.
    Full,
    /// Before each round a packet arrives for the queue whose turn is next.
    Chased,
}

/// A start that can be made again.
#[derive(Debug, Clone, Copy, PartialEq, Eq)]
pub struct Start {
    pub seed: u64,
    pub aim: Aim,
    pub shape: Shape,
}

impl Start {
    /// The start of a number: half of them aimed.
    pub fn numbered(seed: u64, number: u64, shape: Shape) -> Start {
        let mut random = Random::new(seed ^ number.wrapping_mul(0xD1B5_4A32_D192_ED03));
        Start {
            seed: random.word(),
            aim: [Aim::Any, Aim::Full, Aim::Any, Aim::Chased][(number % 4) as usize],
            shape,
        }
    }
}

/// A scene with what the searcher needs: numbers, and traffic for between.
struct Search<'d, D> {
    scene: Scene<'d, D>,
    random: Random,
    traffic: Traffic,
    settings: Settings,
}

/// Where the watched packet comes in and goes out, and what stands ahead of it.
#[derive(Debug, Clone, Copy)]
struct Aimed {
    into: u32,
    out: u32,
    queue: u32,
    /// The destination id that is mapped to the port that it leaves by.
    id: u32,
    /// Where those arrive that pass it one by one.
    chaser: u32,
    ahead_in_ingress: u32,
    ahead_in_line: u32,
    /// Until it is stitched, no other queue is ready: a round that is slow to
    /// take it up would be seen.
    late: bool,
}

impl<'d, D: Desk> Search<'d, D> {
    fn new(desk: &'d D, start: &Start) -> Result<Search<'d, D>, String> {
        let mut random = Random::new(start.seed);
        let nodes = match start.aim {
            Aim::Any if random.one_in(200) => 256,
            Aim::Any => random.pick(&[1, 2, 3, 4, 8, 16, 16, 64]),
            Aim::Full => random.pick(&[12, 16, 16, 32]),
            Aim::Chased => random.pick(&[1, 2, 3, 4, 8, 16, 32]),
        };
        let settings = Settings::of(
            start.shape,
            nodes,
            random.pick(&[64, 128, 256, 512]),
            random.among(1, 8),
            random.pick(&[128, 200, 1000, MOST_CREDIT]),
        );
        let profile = random.pick(&[Profile::Valid, Profile::Hostile, Profile::Full]);
        let mut search = Search {
            scene: Scene::new(desk, size(&settings)),
            traffic: Traffic::of(random.word(), profile, start.shape),
            random,
            settings,
        };
        search.accepted(Call::Setup(settings))?;
        Ok(search)
    }

    /// A call that must not be refused.
    fn accepted(&mut self, call: Call) -> Result<Reply, String> {
        match self.scene.call(&call)? {
            Reply::Refused(number) => Err(format!("{call:?} is refused {number}")),
            reply => Ok(reply),
        }
    }

    /// A packet of a few beats arrives: its entry id and its price; none where
    /// other calls have left no node or no credit, or have halted the port.
    fn arrive(&mut self, port: u32, id: u32, queue: u32) -> Result<Option<(u16, u32)>, String> {
        let shape = self.settings.shape();
        let length = self.random.among(shape.shortest(), 3 * self.settings.beat);
        let header = plain(&shape, id, port, queue, length);
        match self.scene.call(&Call::Arrive { port, header })? {
            Reply::Entry(entry) => Ok(Some((entry, price(length, queue, self.settings.beat)))),
            Reply::Refused(10 | 11) => Ok(None),
            other => Err(format!("an arrival answers {other:?}")),
        }
    }

    /// The packet arrives that is watched; what it costs.
    fn arrive_watched(&mut self, port: u32, id: u32, queue: u32) -> Result<Option<u32>, String> {
        match self.arrive(port, id, queue)? {
            Some((entry, price)) => self.scene.begin(entry, port).map(|()| Some(price)),
            None => Ok(None),
        }
    }

    /// Refused for queue 0, and where other calls have given much already.
    fn credit(&mut self, port: u32, queue: u32, amount: u32) -> Result<(), String> {
        let call = Call::Credit {
            port,
            queue,
            amount,
        };
        self.scene.call(&call).map(|_| ())
    }

    fn round_bytes(&self) -> usize {
        self.settings.shape().round_bytes()
    }

    /// Any destination id that a header can name.
    fn ids(&self) -> u32 {
        1 << self.settings.shape().port_bits()
    }

    fn round(&mut self) -> Result<(), String> {
        let room = vec![0x5A; self.round_bytes() + self.random.below(3) as usize];
        self.accepted(Call::Round { room }).map(|_| ())
    }

    /// A round or a setup that is refused: neither counts.
    fn refused(&mut self) -> Result<(), String> {
        let call = match self.random.below(3) {
            0 => Call::Setup(Settings {
                beat: 65,
                ..self.settings
            }),
            _ => {
                let less = self.random.below(self.round_bytes() as u32);
                Call::Round {
                    room: vec![0x5A; less as usize],
                }
            }
        };
        match self.scene.call(&call)? {
            Reply::Refused(_) => Ok(()),
            other => Err(format!("{call:?} answers {other:?}")),
        }
    }

    /// Any call but a setup, to the traffic's taste.
    fn between(&mut self) -> Result<(), String> {
        let model = Model::with_ledger(self.scene.bytes(), self.scene.ledger()?);
        match self.traffic.next(&model) {
            Call::Setup(_) => self.refused(),
            call => self.scene.call(&call).map(|_| ()),
        }
    }

    fn watch(&self) -> Result<&Watch, String> {
        self.scene.watch.as_ref().ok_or("nothing is watched".into())
    }

    // At random.

    fn any(&mut self) -> Result<(), String> {
        for _ in 0..self.random.below(150) {
            self.between()?;
        }
        let crowded = self.random.one_in(2);
        if crowded {
            self.crowd()?;
        }
        let Settings { ports, queues, .. } = self.settings;
        let ids = self.ids();
        let r = &mut self.random;
        let (port, id, queue) = (r.below(ports), r.below(ids), r.below(queues));
        // Other calls may have halted it.
        self.accepted(Call::Clear { port })?;
        if self.arrive_watched(port, id, queue)?.is_none() {
            return Ok(());
        }
        let covers = !self.random.one_in(8);
        let busy = if crowded { 2 } else { 5 };
        while !self.watch()?.is_over() {
            for _ in 0..self.random.below(busy) {
                self.between()?;
            }
            if self.random.one_in(8) {
                self.refused()?;
            }
            if covers {
                self.cover()?;
            }
            self.round()?;
        }
        Ok(())
    }

    /// Packets of all queues for one port, most of them with credit.
    fn crowd(&mut self) -> Result<(), String> {
        let Settings { ports, queues, .. } = self.settings;
        let shape = self.settings.shape();
        let out = self.random.below(ports);
        for id in 0..self.ids() {
            self.accepted(Call::Map { id, port: out })?;
        }
        for _ in 0..self.random.below(4 * self.settings.nodes).min(150) {
            let (port, queue) = (self.random.below(ports), self.random.below(queues));
            let header = plain(&shape, 0, port, queue, shape.shortest());
            self.accepted(Call::Clear { port })?;
            // Refused where the pool is empty.
            self.scene.call(&Call::Arrive { port, header })?;
            self.scene.call(&Call::Stitch { port })?;
            let amount = self.random.below(4);
            self.credit(out, queue, amount)?;
        }
        Ok(())
    }

    /// Just enough credit for a packet that the next round stitches.
    fn cover(&mut self) -> Result<(), String> {
        let room = vec![0; self.round_bytes()];
        match self.scene.line_ahead(&Call::Round { room })? {
            Some(line) if !line.covered => self.credit(line.port, line.queue, line.lacking),
            _ => Ok(()),
        }
    }

    // Aimed.

    /// The queue is the last that the port served.
    fn serve(&mut self, plan: &Aimed, queue: u32) -> Result<(), String> {
        let (port, out) = (plan.into, plan.out);
        let arrived = self.arrive(port, plan.id, queue)?;
        self.accepted(Call::Stitch { port })?;
        self.accepted(Call::Prefetch { port: out, queue })?;
        self.credit(out, queue, arrived.map_or(0, |(_, price)| price))?;
        self.accepted(Call::Turn { port: out }).map(|_| ())
    }

    /// A port with a free node that isn't one of these two.
    fn other_port(&self, ledger: &Ledger, not: [u32; 2]) -> Option<u32> {
        (0..self.settings.ports)
            .filter(|port| !not.contains(port))
            .max_by_key(|&port| ledger.ports[port as usize].free.len())
            .filter(|&port| !ledger.ports[port as usize].free.is_empty())
    }

    /// A packet into a line of the port, if a node is free; what it costs.
    fn bring(&mut self, plan: &Aimed, queue: u32, not: [u32; 2]) -> Result<u32, String> {
        let port = match self.other_port(&self.scene.ledger()?, not) {
            Some(port) => port,
            None => return Ok(0),
        };
        match self.arrive(port, plan.id, queue)? {
            Some((_, price)) => self.accepted(Call::Stitch { port }).map(|_| price),
            None => Ok(0),
        }
    }

    fn plan(&mut self, aim: Aim) -> Aimed {
        let most_ahead = (self.settings.nodes - 1).min(30);
        let Settings { ports, queues, .. } = self.settings;
        let ids = self.ids();
        let r = &mut self.random;
        let into = r.below(ports);
        Aimed {
            into,
            out: r.below(ports),
            queue: r.below(queues),
            id: r.below(ids),
            chaser: (into + r.among(1, ports - 1)) % ports,
            ahead_in_ingress: r.below(most_ahead + 1).min(r.below(31)),
            ahead_in_line: r.pick(&[0, 0, 0, 1, 1, 2, 2, 3, 4, 5, 6, 7]),
            late: aim == Aim::Full && r.one_in(6),
        }
    }

    /// The port is mapped, and its last served queue is mostly such that it is
    /// the packet's own when the packet is stitched, if every round until then
    /// serves one.
    fn map_and_mark(&mut self, plan: &Aimed) -> Result<(), String> {
        let Settings { ports, queues, .. } = self.settings;
        for id in 0..self.ids() {
            // Packets for another port don't get in the way.
            let port = (plan.out + u32::from(id != plan.id)) % ports;
            self.accepted(Call::Map { id, port })?;
        }
        let back = match self.random.pick(&[0, 0, 0, 0, 0, 0, 1, 12]) {
            _ if plan.late => 0,
            off => plan.ahead_in_ingress + off,
        };
        self.serve(plan, (plan.queue + queues - back % queues) % queues)
    }

    /// The line, the packets ahead in ingress and the watched packet, and
    /// outward credit for all of its queue.
    fn line_up(&mut self, plan: &Aimed, aim: Aim) -> Result<(), String> {
        let steps = plan.ahead_in_ingress;
        // Those that the queue's own turns send before the stitch.
        let queues = self.settings.queues;
        let earlier = (steps + queues - 1) / queues;
        let busy = match aim {
            Aim::Chased => plan.chaser,
            _ => plan.into,
        };
        let mut prices = 0;
        for _ in 0..earlier + plan.ahead_in_line {
            // The watched packet and those ahead of it need their nodes.
            let free = self.scene.ledger()?.ports[plan.into as usize].free.len();
            let other = if free as u32 > steps + 1 {
                busy
            } else {
                plan.into
            };
            prices += self.bring(plan, plan.queue, [busy, other])?;
        }
        if aim == Aim::Full {
            self.fill(plan)?;
        }
        for _ in 0..steps {
            let (id, queue) = ((plan.id + 1) % self.ids(), self.random.below(queues));
            self.arrive(plan.into, id, queue)?;
        }
        let price = self
            .arrive_watched(plan.into, plan.id, plan.queue)?
            .ok_or("no node for the watched packet")?;
        self.credit(plan.out, plan.queue, prices + price)
    }

    fn aimed(&mut self, aim: Aim) -> Result<(), String> {
        let plan = self.plan(aim);
        self.map_and_mark(&plan)?;
        self.line_up(&plan, aim)?;
        // In some starts any other calls come between.
        let calm = !self.random.one_in(4);
        while !self.watch()?.is_over() {
            match aim {
                Aim::Full => self.fill(&plan)?,
                _ => self.chase(&plan)?,
            }
            if !calm && self.random.one_in(6) {
                self.between()?;
            }
            if self.random.one_in(10) {
                self.refused()?;
            }
            self.round()?;
        }
        Ok(())
    }

    /// A packet into every other line of the port that is empty, and credit
    /// for it; while they have to wait, no credit, and none into queue 0.
    fn fill(&mut self, plan: &Aimed) -> Result<(), String> {
        let stitched = self.scene.watch.as_ref().and_then(|watch| watch.stitched);
        let wait = plan.late && stitched.is_none();
        let ledger = self.scene.ledger()?;
        let at = &ledger.ports[plan.out as usize];
        for queue in (0..self.settings.queues).filter(|&queue| queue != plan.queue) {
            let q = queue as usize;
            if queue > 0 && !wait && at.outward_credit[q] < 1000 {
                self.credit(plan.out, queue, 50_000)?;
            }
            let empty = at.egress[q].is_empty() && at.prefetch[q].is_empty();
            if empty && !(wait && queue == 0) {
                self.bring(plan, queue, [plan.into; 2])?;
            }
        }
        Ok(())
    }

    /// A packet for the queue that is the next in turn, unless it is the
    /// watched packet's own.
    fn chase(&mut self, plan: &Aimed) -> Result<(), String> {
        let ledger = self.scene.ledger()?;
        let queue = (ledger.ports[plan.out as usize].last_served + 1) % self.settings.queues;
        let at = &ledger.ports[plan.chaser as usize];
        if queue == plan.queue || at.free.is_empty() || !at.ingress.is_empty() {
            return Ok(());
        }
        match self.arrive(plan.chaser, plan.id, queue)? {
            Some((_, price)) => self.credit(plan.out, queue, price),
            None => Ok(()),
        }
    }
}

/// Make the start and follow its packet. The error is a promise broken.
pub fn run<D: Desk>(start: &Start, desk: &D, tally: &mut Tally) -> Result<(), String> {
    let told = |why: String| format!("{start:?}: {why}");
    let mut search = Search::new(desk, start).map_err(told)?;
    let made = match start.aim {
        Aim::Any => search.any(),
        aim => search.aimed(aim),
    };
    made.map_err(told)?;
    tally.starts += 1;
    if let Some(watch) = &search.scene.watch {
        tally.note(start.aim != Aim::Any, watch);
    }
    Ok(())
}
