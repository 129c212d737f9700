//! The desk that a night asks: the proved library's switch here, and in the tests
//! the independent model. What it tells is in numbers, so that both tell the same.

use ventorupo::{Answer, Batch, Form, Halt, Refusal, Settings, Switch, Turn, Unfinished};

/// The bytes that an audit tells of each node.
pub const PLACE_BYTES: usize = 8;

/// A call that a run may have.
#[derive(Debug, Clone, PartialEq, Eq)]
pub enum Call {
    Map { id: u32, port: u32 },
    Credit { port: u32, queue: u32, amount: u32 },
    Arrive { port: u32, header: Vec<u8> },
    Stitch { port: u32 },
    Prefetch { port: u32, queue: u32 },
}

/// What a call of a run answers: an entry id, if it has one, or a refusal's number.
pub type Told = Result<Option<u16>, u32>;

/// The packet that a timed turn sent.
#[derive(Debug, Clone, Copy, PartialEq, Eq)]
pub struct Left {
    pub entry: u16,
    pub queue: u32,
    pub length: u32,
    pub destination: u32,
    pub timestamp: u32,
    pub transaction: u32,
    pub price: u32,
}

/// What a night asks of a desk. The error is a refusal's number.
pub trait Desk {
    /// These calls, one after another.
    fn run(&mut self, calls: &[Call]) -> Result<Vec<Told>, u32>;
    /// None if nothing was ready.
    fn timed_turn(&mut self, port: u32, now: u32) -> Result<Option<Left>, u32>;
    fn clear(&mut self, port: u32) -> Result<(), u32>;
    /// 0, or the number of the refusal that halted the port.
    fn report(&self, port: u32) -> Result<u32, u32>;
    /// Every node's place, port by port and index by index.
    fn audit(&self) -> Result<Vec<u8>, u32>;
    fn bucket(&self, port: u32, bucket: u32) -> Result<u32, u32>;
}

/// The proved library's.
pub struct Proved {
    switch: Switch<Vec<u8>>,
    form: Form,
    nodes: usize,
}

impl Proved {
    /// A switch that has just been set up.
    pub fn new(settings: Settings) -> Result<Proved, u32> {
        let bytes = ventorupo::size(&settings).ok_or(Refusal::BadSetting);
        let mut switch = Switch::over(vec![0; bytes.map_err(Refusal::number)?]);
        let done = switch.setup_again(settings);
        done.map_err(Refusal::number)?;
        Ok(Proved {
            switch,
            form: settings.form(),
            nodes: (settings.ports * settings.nodes) as usize,
        })
    }

    fn batch(&self, calls: &[Call]) -> Result<Batch, Refusal> {
        let mut batch = Batch::new(self.form)?;
        for call in calls {
            match call {
                Call::Map { id, port } => batch.map_to(*id as u8, *port as u8),
                Call::Credit {
                    port,
                    queue,
                    amount,
                } => batch.credit(*port as u8, *queue as u8, *amount as u16),
                Call::Arrive { port, header } => batch.arrive(*port as u8, header)?,
                Call::Stitch { port } => batch.stitch(*port as u8),
                Call::Prefetch { port, queue } => batch.prefetch(*port as u8, *queue as u8),
            };
        }
        Ok(batch)
    }
}

impl Desk for Proved {
    fn run(&mut self, calls: &[Call]) -> Result<Vec<Told>, u32> {
        let batch = self.batch(calls).map_err(Refusal::number)?;
        let told = |answer: &Answer| match answer.refusal() {
            Some(refusal) => Err(refusal.number()),
            None => Ok(answer.entry().map(|entry| entry.0)),
        };
        match self.switch.run(&batch) {
            Ok(answers) => Ok(answers.iter().map(told).collect()),
            Err(Unfinished::Refused(refusal)) => Err(refusal.number()),
            // The batch takes headers of this form or of ten bytes alone.
            Err(Unfinished::Stopped(_)) => Err(Refusal::HeaderSize.number()),
        }
    }

    fn timed_turn(&mut self, port: u32, now: u32) -> Result<Option<Left>, u32> {
        match self.switch.timed_turn(port, now) {
            Ok(Turn::Idle) => Ok(None),
            Ok(Turn::Sent(sent)) => Ok(Some(Left {
                entry: sent.entry.0,
                queue: sent.queue.into(),
                length: sent.length.into(),
                destination: sent.destination.into(),
                timestamp: sent.timestamp,
                transaction: sent.transaction.into(),
                price: sent.price.into(),
            })),
            Err(refusal) => Err(refusal.number()),
        }
    }

    fn clear(&mut self, port: u32) -> Result<(), u32> {
        self.switch.clear(port).map_err(Refusal::number)
    }

    fn report(&self, port: u32) -> Result<u32, u32> {
        let mark = self.switch.report(port).map_err(Refusal::number)?;
        Ok(mark.map_or(0, Halt::number))
    }

    fn audit(&self) -> Result<Vec<u8>, u32> {
        let mut room = vec![0; PLACE_BYTES * self.nodes];
        let done = ventorupo::audit(self.switch.memory(), &mut room);
        done.map(|()| room).map_err(Refusal::number)
    }

    fn bucket(&self, port: u32, bucket: u32) -> Result<u32, u32> {
        let count = self.switch.bucket(port, bucket);
        count.map_err(Refusal::number)
    }
}
