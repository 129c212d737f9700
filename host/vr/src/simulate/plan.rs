//! What a night is to be: the switch, the port whose box lies, and when.

use ventorupo::{Form, Settings};

/// Beat in bytes, prefetch slots of a queue, and arrival credit in beats.
pub const BEAT: u32 = 64;
pub const SLOTS: u32 = 4;
pub const CREDIT: u32 = 32;

/// The ticks of a night that says nothing else.
pub const TICKS: u32 = 120;
/// Its nodes a port.
pub const NODES: u32 = 32;
/// The port where its box lies.
pub const LIAR: u32 = 1;
/// Its seed.
pub const SEED: u32 = 1;

/// A night: ticks count from 1.
#[derive(Debug, Clone, PartialEq, Eq)]
pub struct Plan {
    pub form: Form,
    pub nodes: u32,
    pub liar: u32,
    pub seed: u32,
    pub ticks: u32,
    /// The first and the last tick of the lies.
    pub from: u32,
    pub to: u32,
    /// When the operator clears the liar's port.
    pub clears: Vec<u32>,
}

impl Plan {
    /// A night of so many ticks at a switch of this form, with all else as it is
    /// where nothing is said.
    pub fn new(form: Form, ticks: u32) -> Plan {
        let from = (ticks / 4).max(1);
        let plan = Plan {
            form,
            nodes: NODES,
            liar: LIAR,
            seed: SEED,
            ticks,
            from,
            to: from,
            clears: Vec::new(),
        };
        plan.lying(from, (from + 3 * ticks / 8).min(ticks))
    }

    /// The same with lies in these ticks: cleared once while the box still lies, and
    /// once afterwards, if the night lasts as long.
    pub fn lying(self, from: u32, to: u32) -> Plan {
        let during = from + (to - from) * 2 / 3 + 1;
        let clears = [during, to + self.ticks / 10 + 1];
        Plan {
            from,
            to,
            clears: clears
                .into_iter()
                .filter(|&tick| tick <= self.ticks)
                .collect(),
            ..self
        }
    }

    pub fn settings(&self) -> Settings {
        let nodes = Settings::of(self.form).nodes(self.nodes);
        nodes.beat(BEAT).slots(SLOTS).credit(CREDIT)
    }

    /// Whether the box lies in this tick, and whether it lies by then in ways that
    /// halt its port: not in the first third of its time.
    pub fn lies(&self, tick: u32) -> Option<bool> {
        let lying = (self.from..=self.to).contains(&tick);
        lying.then(|| tick > self.from + (self.to - self.from) / 3)
    }
}
