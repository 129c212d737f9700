//! A round beside the model's, and beside its calls one by one.

use model::{size, Call, Choice, Model, Reply, Shape};
use traffic::plain;
use ventorupo::calls;

use crate::{acts, bare_act, heading, quick, settings, timed, MOST_TURNS};

/// A switch on which rounds are timed, so many from the same bytes on.
struct Begin {
    shape: Shape,
    memory: Vec<u8>,
    models: [Model; 2],
    rounds: usize,
}

impl Begin {
    /// After setup, with nothing to move.
    fn idle(shape: Shape, nodes: u32) -> Begin {
        let models = [Choice::WholeWord, Choice::EarlyOut];
        let settings = settings(shape, nodes);
        let size = size(&settings);
        let mut begin = Begin {
            shape,
            memory: vec![0; size],
            models: models.map(|choice| Model::with_choice(size, choice)),
            rounds: few(8, shape),
        };
        begin.call(&Call::Setup(settings));
        begin
    }

    /// Packets of all queues at all ports, half of them stitched, with credit
    /// for all: each round stitches one at each port, prefetches what it can,
    /// and sends one from each.
    fn busy(shape: Shape, nodes: u32) -> Begin {
        let mut begin = Begin::idle(shape, nodes);
        let Shape { ports, queues, .. } = shape;
        let packets = nodes.min(7 * (queues - 1));
        for port in 0..ports {
            let to = (port + 1) % ports;
            begin.call(&Call::Map { id: port, port: to });
            for queue in 1..queues {
                let amount = 1000;
                begin.call(&Call::Credit {
                    port,
                    queue,
                    amount,
                });
            }
        }
        for packet in 0..packets {
            for port in 0..ports {
                let queue = 1 + packet % (queues - 1);
                let header = plain(&shape, port, port, queue, 112);
                begin.call(&Call::Arrive { port, header });
                if packet < packets / 2 {
                    begin.call(&Call::Stitch { port });
                }
            }
        }
        begin.rounds = few((packets as usize / 2).clamp(1, 16), shape);
        begin
    }

    /// On all three, and refused by none.
    fn call(&mut self, call: &Call) {
        let library = if acts::has_act(call) { bare_act } else { quick };
        assert_eq!(library(&mut self.memory, call), 0, "{call:?}");
        for model in &mut self.models {
            assert!(!matches!(model.call(call), Reply::Refused(_)));
        }
    }
}

/// So many rounds, and no more than take as long as 16 of a switch of four ports.
fn few(rounds: usize, shape: Shape) -> usize {
    rounds.min(64 / shape.ports as usize)
}

/// A round's calls one by one, each of which tests the memory.
fn one_by_one(memory: &mut [u8], shape: Shape, turns: &mut [u8]) {
    let (mut entry, mut record, mut sent) = (0, [0; 10], [0; 16]);
    let Shape { ports, queues, .. } = shape;
    for port in 0..ports {
        calls::stitch(memory, port, &mut record);
    }
    for port in 0..ports {
        for queue in 0..queues {
            calls::prefetch(memory, port, queue, &mut entry);
        }
    }
    for (port, told) in (0..ports).zip(turns.chunks_exact_mut(4)) {
        let number = calls::turn(memory, port, &mut sent);
        let idle = sent[0] == 0;
        told.copy_from_slice(&match idle {
            true => [number as u8, 1, 0, 0],
            false => [number as u8, 0, sent[2], sent[3]],
        });
    }
}

/// Nanoseconds a round: the library's, its calls one by one, and the model's
/// with either choice. They take turns, so that all meet the same weather.
fn each_round(begin: &Begin, samples: usize) -> [f64; 4] {
    let turns = begin.shape.round_bytes();
    let call = Call::Round {
        room: vec![0; turns],
    };
    let mut least = [f64::INFINITY; 4];
    for _ in 0..samples {
        let mut memories = [begin.memory.clone(), begin.memory.clone()];
        let mut models = begin.models.clone();
        // What the last round tells.
        let mut told = [[0; MOST_TURNS]; 4];
        let mut spent = [0.0; 4];
        spent[0] = timed(|| {
            for _ in 0..begin.rounds {
                assert_eq!(calls::round(&mut memories[0], &mut told[0]), 0);
            }
        });
        spent[1] = timed(|| {
            for _ in 0..begin.rounds {
                one_by_one(&mut memories[1], begin.shape, &mut told[1]);
            }
        });
        for (choice, model) in models.iter_mut().enumerate() {
            spent[2 + choice] = timed(|| {
                for _ in 0..begin.rounds {
                    if let Reply::Turns(of_ports) = model.call(&call) {
                        told[2 + choice][..turns].copy_from_slice(&of_ports);
                    }
                }
            });
        }
        // The same work, and its answers are used.
        assert!(told == [told[0]; 4] && memories[0] == memories[1]);
        for (least, spent) in least.iter_mut().zip(spent) {
            *least = least.min(spent / begin.rounds as f64);
        }
    }
    least
}

pub fn a_round(shape: Shape) {
    heading("A round, ns", shape);
    println!(
        "| N | switch | round | its calls one by one | ratio | model, whole word | ratio | model, early out | ratio |"
    );
    println!("|---|---|---|---|---|---|---|---|---|");
    for nodes in [1, 16, 256, 2048] {
        let switches = [
            ("idle", Begin::idle(shape, nodes)),
            ("busy", Begin::busy(shape, nodes)),
        ];
        // Its calls one by one are slow where there are many nodes, and where
        // there are many of them.
        let ports = shape.ports as usize;
        let samples = 24_000 / (ports * (20 + nodes as usize));
        let samples = samples.max(60 / ports).max(3);
        for (switch, begin) in switches {
            let [round, single, whole, early] = each_round(&begin, samples);
            println!(
                "| {nodes} | {switch} | {round:.0} | {single:.0} | {:.4} | {whole:.0} | {:.2} | {early:.0} | {:.2} |",
                round / single,
                round / whole,
                round / early
            );
        }
    }
    println!();
}
