//! A watch over one packet from door to door: how many rounds until it is
//! stitched, and how many from there until it leaves. It goes by the library's
//! answers; what stands ahead of the packet at its stitch is read off the bytes.

use model::{Call, Ledger, ListKind, Packet, Reply};

use traffic::Random;

use crate::packets::Packets;
use crate::{reader, Desk};

/// How long a packet waited for something, in rounds, and the promised most.
#[derive(Debug, Clone, Copy, PartialEq, Eq)]
pub struct Wait {
    pub rounds: u32,
    pub most: u32,
}

/// Where a packet goes when it is stitched.
#[derive(Debug, Clone, Copy, PartialEq, Eq)]
pub struct Line {
    pub port: u32,
    pub queue: u32,
    /// Packets of its queue ahead of it there, egress and prefetch together.
    pub ahead: u32,
    /// Does outward credit cover them all, and the packet? And what is lacking.
    pub covered: bool,
    pub lacking: u32,
    /// Rounds that were over before the stitch.
    from: u32,
    /// The switch's queues.
    queues: u32,
}

impl Line {
    fn most(&self) -> u32 {
        self.queues * (self.ahead + 1)
    }
}

/// The packet, from the moment of its arrival on.
#[derive(Debug, Clone)]
pub struct Watch {
    pub entry: u16,
    /// Where it came in.
    port: u32,
    /// How many were ahead of it in ingress then, and the rounds over by then.
    pub ahead: u32,
    since: u32,
    /// Its position in ingress now.
    position: u32,
    /// Before so many rounds are over it must be stitched: the least of what
    /// any moment so far promises.
    due: u32,
    pub stitched: Option<(Line, Wait)>,
    /// From the stitch on; nothing is promised where credit doesn't cover it.
    pub left: Option<Wait>,
}

/// What a call did, as far as a packet goes.
struct Step {
    /// Its line, if the call may have stitched it.
    line: Option<Line>,
    /// Rounds over before the call and after it.
    before: u32,
    now: u32,
    /// The port by which it left.
    left: Option<u32>,
}

impl Watch {
    /// In ingress, where it may stand for as many rounds as there are packets
    /// ahead of it.
    fn waits(&mut self, port: u32, position: u32, now: u32) -> Result<(), String> {
        self.position = position;
        self.due = self.due.min(now + position + 1);
        if port != self.port {
            Err("it stands in another port's ingress".into())
        } else if now >= self.due {
            Err("it is not stitched in time".into())
        } else {
            Ok(())
        }
    }

    fn is_stitched(&mut self, step: &Step) -> Result<(), String> {
        let line = step.line.ok_or("it left ingress without a stitch")?;
        let wait = Wait {
            rounds: step.now - self.since,
            most: self.ahead + 1,
        };
        self.stitched = Some((line, wait));
        Ok(())
    }

    /// From the stitch on it stands in its line, until it leaves.
    fn stands_or_leaves(
        &mut self,
        place: Option<(ListKind, u32)>,
        step: &Step,
    ) -> Result<(), String> {
        let (line, _) = self.stitched.ok_or("not stitched")?;
        let Line { port, queue, .. } = line;
        // A round in which it leaves isn't over before it leaves.
        let over = if let Some(by) = step.left {
            if by != port {
                return Err("it leaves by another port".into());
            }
            self.left = Some(Wait {
                rounds: step.now - line.from,
                most: line.most(),
            });
            step.before
        } else {
            let egress = ListKind::Egress { port, queue };
            let slots = ListKind::Prefetch { port, queue };
            if !matches!(place, Some((list, _)) if list == egress || list == slots) {
                return Err(format!("it stands at {place:?}, not in its line"));
            }
            step.now
        };
        if line.covered && over >= line.from + line.most() {
            return Err("it does not leave in time".into());
        }
        Ok(())
    }

    /// Is there nothing left to wait for?
    pub fn is_over(&self) -> bool {
        let uncovered = matches!(self.stitched, Some((line, _)) if !line.covered);
        self.left.is_some() || uncovered
    }

    /// From arrival to departure.
    pub fn door_to_door(&self) -> Option<Wait> {
        let ((line, _), left) = (self.stitched?, self.left?);
        Some(Wait {
            rounds: line.from - self.since + left.rounds,
            most: self.ahead + line.most(),
        })
    }
}

/// A desk with its memory, and a packet under watch on it.
pub struct Scene<'d, D> {
    desk: &'d D,
    memory: Vec<u8>,
    /// To be lent in vain: no packets are kept here.
    packets: Packets,
    /// Made and not refused.
    rounds: u32,
    pub watch: Option<Watch>,
}

/// The port by which an answer says that the node's packet left.
fn left_by(call: &Call, reply: &Reply, entry: u16) -> Option<u32> {
    match (call, reply) {
        (Call::Turn { port } | Call::TimedTurn { port, .. }, Reply::Leaves(packet, _))
            if packet.entry == entry =>
        {
            Some(*port)
        }
        (_, Reply::Turns(turns)) => {
            let [high, low] = entry.to_be_bytes();
            let told = turns
                .chunks_exact(4)
                .position(|turn| turn == [0, 0, high, low]);
            told.map(|port| port as u32)
        }
        _ => None,
    }
}

impl<'d, D: Desk> Scene<'d, D> {
    pub fn new(desk: &'d D, bytes: usize) -> Scene<'d, D> {
        Scene {
            desk,
            memory: vec![0; bytes],
            packets: Packets::new(&mut Random::new(0), 0),
            rounds: 0,
            watch: None,
        }
    }

    /// What the bytes picture now.
    pub fn ledger(&self) -> Result<Ledger, String> {
        reader::ledger(&self.memory)
    }

    pub fn bytes(&self) -> usize {
        self.memory.len()
    }

    fn answer(&mut self, call: &Call) -> Result<Reply, String> {
        self.desk.call(&mut self.memory, &mut self.packets, call)
    }

    /// One call, and a look at the packet. The error is a promise broken.
    pub fn call(&mut self, call: &Call) -> Result<Reply, String> {
        let line = self.line_ahead(call)?;
        let before = self.rounds;
        let reply = self.answer(call)?;
        self.rounds += u32::from(matches!(reply, Reply::Turns(_)));
        if let Some(mut watch) = self.watch.take() {
            if watch.left.is_none() {
                let step = Step {
                    line,
                    before,
                    now: self.rounds,
                    left: left_by(call, &reply, watch.entry),
                };
                self.look(&mut watch, &step)
                    .map_err(|why| format!("{why}, after {call:?}: {watch:?}"))?;
            }
            self.watch = Some(watch);
        }
        Ok(reply)
    }

    /// The packet of this entry id, which has just arrived at the port.
    pub fn begin(&mut self, entry: u16, port: u32) -> Result<(), String> {
        let mut watch = Watch {
            entry,
            port,
            ahead: 0,
            since: self.rounds,
            position: 0,
            due: u32::MAX,
            stitched: None,
            left: None,
        };
        let step = Step {
            line: None,
            before: self.rounds,
            now: self.rounds,
            left: None,
        };
        self.look(&mut watch, &step)?;
        watch.ahead = watch.position;
        self.watch = Some(watch);
        Ok(())
    }

    /// Where the packet goes if this call stitches it, and who is ahead there.
    pub fn line_ahead(&self, call: &Call) -> Result<Option<Line>, String> {
        let watch = match &self.watch {
            Some(watch) if watch.stitched.is_none() && watch.position == 0 => watch,
            _ => return Ok(None),
        };
        let ledger = self.ledger()?;
        let enough = ledger.settings.shape().round_bytes();
        let lower_ports = match call {
            Call::Stitch { port } if *port == watch.port => 0,
            // Lower ports are stitched before it.
            Call::Round { room } if room.len() >= enough => watch.port as usize,
            _ => return Ok(None),
        };
        let packet = *ledger.packet(watch.entry).ok_or("the packet is gone")?;
        let port = ledger.map[usize::from(packet.destination)];
        let at = &ledger.ports[usize::from(port)];
        let queue = usize::from(packet.queue);
        let joins = |other: &Packet| {
            other.queue == packet.queue && ledger.map[usize::from(other.destination)] == port
        };
        let joining = ledger.ports[..lower_ports]
            .iter()
            .filter_map(|lower| ledger.packet(*lower.ingress.front()?))
            .filter(|other| joins(other));
        let prices: Vec<u32> = at.prefetch[queue]
            .iter()
            .chain(&at.egress[queue])
            .filter_map(|&entry| ledger.packet(entry))
            .chain(joining)
            .map(|other| other.price)
            .collect();
        let all = prices.iter().sum::<u32>() + packet.price;
        Ok(Some(Line {
            port: port.into(),
            queue: packet.queue.into(),
            ahead: prices.len() as u32,
            covered: queue == 0 || all <= at.outward_credit[queue],
            lacking: all.saturating_sub(at.outward_credit[queue]),
            from: self.rounds,
            queues: ledger.settings.queues,
        }))
    }

    /// The packet after a call.
    fn look(&mut self, watch: &mut Watch, step: &Step) -> Result<(), String> {
        let place = match step.left {
            Some(_) => None,
            None => Some(self.place(watch.entry)?),
        };
        if watch.stitched.is_none() {
            if let Some((ListKind::Ingress { port }, position)) = place {
                return watch.waits(port, position, step.now);
            }
            watch.is_stitched(step)?;
        }
        watch.stands_or_leaves(place, step)
    }

    fn place(&mut self, entry: u16) -> Result<(ListKind, u32), String> {
        let call = Call::Where {
            entry: entry.into(),
        };
        match self.answer(&call)? {
            Reply::Found(list, position) => Ok((list, position)),
            other => Err(format!("{call:?} answers {other:?}")),
        }
    }
}
