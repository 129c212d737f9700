//! What the stage boxes send. Honest ones send sound headers, a clock packet in queue
//! 0 and audio in others; the one that lies sends what the papers warn of beside it.

use ventorupo::{Form, Header, Refusal};

use super::plan::Plan;
use super::random::Random;
use crate::fields;

/// Queues above 0 that carry audio, if the switch has as many.
const AUDIO_QUEUES: u32 = 6;
/// Those among them that are flooded.
const FLOODED: u32 = 3;
/// The headers of a flood in each tick, and the length that they say.
const FLOOD: u32 = 6;
const FLOOD_LENGTH: u32 = 250;
/// Other lies in each tick.
const LIES: u32 = 4;
/// The length of a clock packet, and of the longest with audio.
const CLOCK_LENGTH: u32 = 20;
const LONGEST_AUDIO: u32 = 400;

/// A header on its way to the desk.
#[derive(Debug, Clone, PartialEq, Eq)]
pub struct Sending {
    pub port: u32,
    /// What the box means: a clock packet is in queue 0.
    pub clock: bool,
    pub header: Vec<u8>,
}

/// How a box lies, beside a flood.
#[derive(Debug, Clone, Copy, PartialEq, Eq)]
enum Lie {
    Checksum,
    Source,
    Length,
    Queue,
    Reserved,
}

/// All boxes.
pub struct Boxes<'p> {
    plan: &'p Plan,
    random: Random,
    /// Lies that the form has room for: those that halt come last.
    lies: Vec<Lie>,
}

impl Boxes<'_> {
    pub fn new(plan: &Plan) -> Boxes<'_> {
        let widths = fields::widths(plan.form);
        let made_up = plan.form.queues <= fields::largest(widths[fields::QUEUE]);
        let mut lies = vec![Lie::Length];
        lies.extend(made_up.then_some(Lie::Queue));
        lies.extend((widths[fields::RESERVED] > 0).then_some(Lie::Reserved));
        lies.extend([Lie::Checksum, Lie::Source]);
        Boxes {
            plan,
            random: Random::new(plan.seed),
            lies,
        }
    }

    /// All headers of a tick, port by port. A port's clock packet comes last, so that
    /// at the liar's port it meets what the lies have left.
    pub fn headers(&mut self, tick: u32) -> Result<Vec<Sending>, Refusal> {
        let mut all = Vec::new();
        for port in 0..self.plan.form.ports {
            self.audio(port, tick, &mut all)?;
            if port == self.plan.liar {
                self.lie(tick, &mut all)?;
            }
            all.push(self.clock(port, tick)?);
        }
        Ok(all)
    }

    /// Each tick every port is sent one clock packet, in turn by every other port.
    fn clock(&self, port: u32, tick: u32) -> Result<Sending, Refusal> {
        let ports = self.plan.form.ports;
        let header = Header {
            destination: (port + 1 + tick % (ports - 1)) % ports,
            source: port,
            length: CLOCK_LENGTH,
            timestamp: tick,
            transaction: tick % 256,
            ..Header::default()
        };
        self.sound(&header)
    }

    /// One or two packets to other ports.
    fn audio(&mut self, port: u32, tick: u32, all: &mut Vec<Sending>) -> Result<(), Refusal> {
        for _ in 0..self.random.among(1, 2) {
            let header = self.audio_header(port, tick);
            all.push(self.sound(&header)?);
        }
        Ok(())
    }

    fn audio_header(&mut self, port: u32, tick: u32) -> Header {
        let Form { ports, queues, .. } = self.plan.form;
        Header {
            destination: (port + self.random.among(1, ports - 1)) % ports,
            source: port,
            queue: self.random.among(1, AUDIO_QUEUES.min(queues - 1)),
            length: self.random.among(CLOCK_LENGTH, LONGEST_AUDIO),
            timestamp: tick,
            transaction: self.random.among(0, 255),
            ..Header::default()
        }
    }

    /// What the liar's box sends beside its honest headers.
    fn lie(&mut self, tick: u32, all: &mut Vec<Sending>) -> Result<(), Refusal> {
        let halting = match self.plan.lies(tick) {
            Some(halting) => halting,
            None => return Ok(()),
        };
        for i in 0..FLOOD + LIES {
            all.push(match i % 5 {
                1 | 3 => self.told(tick, halting)?,
                _ => self.flood(tick)?,
            });
        }
        Ok(())
    }

    /// A sound header, one of too many, all of them to the next port.
    fn flood(&mut self, tick: u32) -> Result<Sending, Refusal> {
        let Form { ports, queues, .. } = self.plan.form;
        let header = Header {
            destination: (self.plan.liar + 1) % ports,
            queue: self.random.among(1, FLOODED.min(queues - 1)),
            length: FLOOD_LENGTH,
            ..self.audio_header(self.plan.liar, tick)
        };
        self.sound(&header)
    }

    /// A header that lies; not in all ways where none is to halt its port.
    fn told(&mut self, tick: u32, halting: bool) -> Result<Sending, Refusal> {
        let harmless = self.lies.len() - 2;
        let lies = if halting {
            &self.lies[..]
        } else {
            &self.lies[..harmless]
        };
        let lie = self.random.pick(lies);
        let header = self.audio_header(self.plan.liar, tick);
        let mut sending = self.sound(&header)?;
        sending.header = self.twisted(&sending.header, lie);
        Ok(sending)
    }

    /// A sound header made to lie. Its checksum fits, if it isn't that which lies.
    fn twisted(&mut self, header: &[u8], lie: Lie) -> Vec<u8> {
        let Form { ports, queues, .. } = self.plan.form;
        let mut said = fields::read(self.plan.form, header);
        let widths = fields::widths(self.plan.form);
        match lie {
            Lie::Checksum => {}
            Lie::Source => said[1] = (self.plan.liar + self.random.among(1, ports - 1)) % ports,
            Lie::Length => {
                said[fields::LENGTH] = self.random.among(0, fields::least(self.plan.form) - 1)
            }
            Lie::Queue => {
                let last = fields::largest(widths[fields::QUEUE]);
                said[fields::QUEUE] = self.random.among(queues, last);
            }
            Lie::Reserved => said[fields::RESERVED] = 1,
        }
        let mut bytes = packed(&widths, &said);
        if lie == Lie::Checksum {
            *bytes.last_mut().expect("a header has bytes") ^= self.random.among(1, 255) as u8;
        }
        bytes
    }

    /// A header that the library writes.
    fn sound(&self, header: &Header) -> Result<Sending, Refusal> {
        let bytes = self.plan.form.write(header)?;
        Ok(Sending {
            port: header.source,
            clock: header.queue == 0,
            header: bytes.to_vec(),
        })
    }
}

/// Fields one behind the other, and their checksum in place of the last.
fn packed(widths: &[u32], said: &[u32]) -> Vec<u8> {
    let fields = widths.iter().zip(said);
    let number = fields.fold(0u128, |all, (width, field)| {
        all << width | u128::from(*field)
    });
    let size = widths.iter().sum::<u32>() as usize / 8;
    let mut bytes = number.to_be_bytes()[16 - size..].to_vec();
    bytes[size - 1] = fields::checksum(&bytes[..size - 1]);
    bytes
}
