//! Whole packets: the library beside the model, with every byte of the packet
//! memories; by sizes, lengths and kinds; and whether slips would be found.

mod damaged;
mod kinds;
mod lengths;
mod sizes;
mod slips;

use checks::counts::Counts;
use checks::packets::Packets;
use checks::run::{run, Plan};
use checks::scale::Scale;
use checks::{library, wrapper, Desk, Whole};
use model::{Call, Model, Reply, Settings, Shape, SLOT_BYTES};
use traffic::{plain, whole_of, Profile, Random};

const LIBRARY: Whole = Whole(library::with_packets);
const WRAPPER: Whole = Whole(wrapper::with_packets);

/// A plan on a switch with packet memory for all its nodes.
fn plan(seed: u64, profile: Profile, nodes: u32, calls: usize) -> Plan {
    let scale = Scale::ten_bytes(nodes);
    Plan {
        seed,
        profile,
        shape: scale.shape,
        memory_len: scale.bytes() + 7,
        calls: scale.share_with_packets(calls, nodes),
        ledger_every: 64,
        packets: nodes,
    }
}

fn run_all<D: Desk>(desk: &D, calls: usize) -> Counts {
    let mut counts = Counts::with_packets();
    for profile in Profile::ALL {
        let no_state = Plan {
            memory_len: 100,
            ..plan(5, profile, 1, 100)
        };
        let states = (1..).zip([1, 2, 4, 16]);
        let states = states.map(|(seed, nodes)| plan(seed, profile, nodes, calls));
        for plan in states.chain([no_state]) {
            if let Err(failure) = run(&plan, desk, &mut counts) {
                panic!("{failure}");
            }
        }
    }
    println!("{counts}");
    counts
}

#[test]
fn the_library_agrees_with_the_model() {
    let counts = run_all(&LIBRARY, 20_000);
    assert_eq!(counts.too_rare(1, 100), []);
    assert!(counts.each_call_at_least(50));
    assert_eq!(counts.whole.too_rare(5, 50), []);
    assert_eq!(counts.halts.too_rare(50), []);
    assert!(counts.halts.above_queue_0() > 1_000);
}

#[test]
fn the_wrapper_agrees_with_the_model() {
    let counts = run_all(&WRAPPER, 5_000);
    assert_eq!(counts.too_rare(1, 20), []);
    assert_eq!(counts.whole.too_rare(5, 5), []);
}

/// Library and model, with packet memories, called in turn and compared when asked.
struct Side {
    memory: Vec<u8>,
    packets: Packets,
    model: Model,
    random: Random,
    settings: Settings,
}

impl Side {
    fn begun(settings: Settings, nodes: u32) -> Side {
        let bytes = model::size(&settings);
        let mut random = Random::new(u64::from(nodes));
        let mut side = Side {
            memory: vec![0; bytes],
            packets: Packets::new(&mut random, nodes),
            model: Model::new(bytes),
            random,
            settings,
        };
        assert_eq!(side.call(&Call::Setup(settings)), Reply::Done);
        side
    }

    fn call(&mut self, call: &Call) -> Reply {
        let reply = self.model.call(call);
        let answer = library::with_packets(&mut self.memory, &mut self.packets, call);
        assert_eq!(answer.as_ref(), Ok(&reply), "{}", checks::in_words(call));
        reply
    }

    /// A right packet of these, that is taken in: its entry id.
    fn bring(&mut self, port: u32, queue: u32, length: u32) -> (u16, Vec<u8>) {
        let header = plain(&Shape::TEN_BYTES, 0, port, queue, length);
        let packet = whole_of(&mut self.random, &header);
        let call = Call::ArrivePacket {
            port,
            packet: packet.clone(),
            lent: self.settings.packet_memory(),
        };
        match self.call(&call) {
            Reply::Entry(entry) => (entry, packet),
            other => panic!("{other:?}"),
        }
    }

    /// The bytes that a show of this queue shows.
    fn shown(&mut self, port: u32, queue: u32) -> Vec<u8> {
        let lent = [self.settings.packet_memory(); 4];
        match self.call(&Call::Show { port, queue, lent }) {
            Reply::Shown(part) => {
                let memory = self.packets.all(&lent)[part.owner as usize];
                memory[part.at as usize..][..part.length as usize].to_vec()
            }
            other => panic!("{other:?}"),
        }
    }

    fn compare(&self) {
        assert_eq!(self.packets.difference(self.model.stored()), None);
        let pictured = checks::reader::ledger(&self.memory);
        assert_eq!(pictured.as_ref().ok(), self.model.ledger());
    }
}

/// 2,048 slots a port: the last of each port's, and those about 64 KiB and 8 MiB.
#[test]
fn slots_of_the_largest_memories() {
    let settings = Settings::ten_bytes(2048, 512, 8, 65_535).with_packets();
    let mut side = Side::begun(settings, 2048);
    let mut came = Vec::new();
    for node in 0..2048 {
        let port = 3 - node % 4;
        came.push(side.bring(port, 1 + node % 23, 8191 - 3 * node));
        side.call(&Call::Stitch { port });
    }
    for node in 512..2048 {
        came.push(side.bring(2, 0, 12 + node));
        side.call(&Call::Stitch { port: 2 });
    }
    assert_eq!(came[came.len() - 1].0, 2 * 2048 + 2047);
    side.compare();
    // All are for port 0: those of queue 0 one by one, and the oldest of each other.
    for (_, packet) in &came[2048..] {
        side.call(&Call::Prefetch { port: 0, queue: 0 });
        assert_eq!(side.shown(0, 0), *packet);
        side.call(&Call::Turn { port: 0 });
    }
    for queue in 1..24 {
        side.call(&Call::Prefetch { port: 0, queue });
        assert_eq!(side.shown(0, queue), came[queue as usize - 1].1);
    }
    side.compare();
    assert_eq!(settings.packet_memory(), 2048 * SLOT_BYTES);
}
