//! Lean against the model on seeded streams of calls: one by one, and in runs.

use lean::{EarlyOut, Lean, Ran, WholeWord, Why};
use model::{marked, size, Call, Model, Reply, Settings, Shape};
use traffic::{Profile, Random, Traffic};

use crate::sides::{self, field, four_bytes, reply, set_up, UNTOUCHED};

/// The profiles but the one of many setups: a run has none.
const PROFILES: [Profile; 5] = [
    Profile::Valid,
    Profile::Hostile,
    Profile::Tiny,
    Profile::Full,
    Profile::Brim,
];

const SHAPES: [Shape; 6] = [
    Shape::TEN_BYTES,
    Shape::wide(4, 24),
    Shape::wide(2, 2),
    Shape::wide(8, 16),
    Shape::wide(5, 17),
    Shape::wide(32, 64),
];

const POOLS: [u32; 3] = [1, 16, 256];

/// No field lifts a halt, and where all ports are halted only queue 0 comes in. So
/// of the lies one in so many is made.
const LIES_FOR_ONE: u32 = 60;

/// So many calls after a setup, with the model's replies.
fn stream(seed: u64, profile: Profile, settings: Settings, calls: usize) -> Vec<(Call, Reply)> {
    let mut random = Random::new(!seed);
    let mut traffic = Traffic::of(seed, profile, settings.shape());
    let mut model = Model::new(size(&settings));
    model.call(&Call::Setup(settings));
    let mut list = Vec::new();
    while list.len() < calls {
        if let Some(call) = one_of_six(traffic.next(&model)) {
            if let Some(reply) = made(&mut random, &mut model, &call) {
                list.push((call, reply));
            }
        }
    }
    list
}

/// A call of the six, or none; a timed turn is a turn.
fn one_of_six(call: Call) -> Option<Call> {
    match call {
        Call::TimedTurn { port, .. } => Some(Call::Turn { port }),
        Call::Arrive { .. }
        | Call::Stitch { .. }
        | Call::Prefetch { .. }
        | Call::Turn { .. }
        | Call::Credit { .. }
        | Call::Map { .. } => Some(call),
        _ => None,
    }
}

/// Makes the call, unless it is one of the lies that are left out.
fn made(random: &mut Random, model: &mut Model, call: &Call) -> Option<Reply> {
    let unmarked = match (call, model.ledger()) {
        (Call::Arrive { port, .. }, Some(ledger)) => {
            matches!(ledger.ports.get(*port as usize), Some(at) if at.mark == 0)
        }
        _ => false,
    };
    let reply = model.call(call);
    match marked(call, &reply) {
        Some((port, _)) if unmarked && !random.one_in(LIES_FOR_ONE) => {
            // Undone: the mark is all that it has changed.
            model.call(&Call::Clear { port });
            None
        }
        _ => Some(reply),
    }
}

/// Settings with so many nodes a port, the rest by the seed.
fn settings_of(seed: u64, shape: Shape, nodes: u32) -> Settings {
    let mut random = Random::new(seed);
    let beat = random.pick(&[64, 128, 256, 512]);
    let credit = random.pick(&[0, 3, 40, 300, 5000, 65_535]);
    Settings::of(shape, nodes, beat, random.among(1, 8), credit)
}

/// Every stream of these tests.
fn each_stream(mut check: impl FnMut(&Settings, &[(Call, Reply)])) {
    let mut seed = 0;
    for shape in SHAPES {
        for nodes in POOLS {
            for profile in PROFILES {
                for _ in 0..6 {
                    seed += 1;
                    let settings = settings_of(seed, shape, nodes);
                    check(&settings, &stream(seed, profile, settings, 2000));
                }
            }
        }
    }
}

fn one_by_one<const EARLY_OUT: bool>(settings: &Settings, list: &[(Call, Reply)]) {
    let mut lean: Lean<EARLY_OUT> = set_up(settings);
    for (number, (call, wanted)) in list.iter().enumerate() {
        let told = reply(&mut lean, call);
        assert_eq!(
            told.as_ref(),
            Some(wanted),
            "{settings:?}: call {number}, {call:?}"
        );
    }
}

/// In runs whose room ends anywhere; each goes on where the one before stopped.
fn in_runs<const EARLY_OUT: bool>(settings: &Settings, list: &[(Call, Reply)]) {
    let header = settings.shape().header_bytes();
    let (fields, wanted): (Vec<Vec<u8>>, Vec<[u8; 4]>) = list
        .iter()
        .filter_map(|(call, reply)| Some((field(call, header)?, four_bytes(reply))))
        .unzip();
    let mut lean: Lean<EARLY_OUT> = set_up(settings);
    let mut random = Random::new(list.len() as u64);
    let mut done = 0;
    while done < fields.len() {
        let bytes = fields[done..].concat();
        let mut room = vec![UNTOUCHED; random.below(3000) as usize];
        let fit = room.len() / 4;
        let count = fit.min(fields.len() - done);
        let why = match fields.len() - done <= fit {
            true => Why::End,
            false => Why::NoRoom,
        };
        let ran = lean.run(&bytes, &mut room);
        assert_eq!(
            ran,
            Ran {
                count: count as u64,
                why
            }
        );
        assert_eq!(room[..4 * count], wanted[done..done + count].concat());
        assert!(room[4 * count..].iter().all(|&byte| byte == UNTOUCHED));
        done += count;
    }
}

#[test]
fn answers_are_the_models() {
    each_stream(|settings, list| {
        one_by_one::<true>(settings, list);
        one_by_one::<false>(settings, list);
    });
}

#[test]
fn runs_answer_as_the_calls_do() {
    each_stream(|settings, list| {
        in_runs::<true>(settings, list);
        in_runs::<false>(settings, list);
    });
}

/// Every refusal that a run can give comes up, many times.
#[test]
fn streams_meet_every_refusal() {
    let mut met = [0; 256];
    each_stream(|settings, list| {
        let header = settings.shape().header_bytes();
        let with_field = list
            .iter()
            .filter(|(call, _)| field(call, header).is_some());
        for (_, reply) in with_field {
            met[usize::from(four_bytes(reply)[0])] += 1;
        }
    });
    for number in [0, 4, 5, 6, 7, 8, 9, 10, 11, 12, 13, 14, 19, 20] {
        assert!(met[number] >= 100, "{number}: {} times", met[number]);
    }
}

/// A setting out of its row is refused as the model does.
#[test]
fn settings_out_of_their_rows() {
    let right = Settings::wide(8, 16, 5, 64, 1, 16);
    let mut tried = Vec::new();
    for number in [
        0, 1, 2, 3, 8, 9, 24, 32, 33, 64, 65, 96, 512, 1024, 2048, 2049,
    ] {
        tried.push(Settings {
            nodes: number,
            ..right
        });
        tried.push(Settings {
            beat: number,
            ..right
        });
        tried.push(Settings {
            slots: number,
            ..right
        });
        tried.push(Settings {
            ports: number,
            ..right
        });
        tried.push(Settings {
            queues: number,
            ..right
        });
        tried.push(Settings {
            edition: number,
            ..right
        });
    }
    for credit in [0, 65_535, 65_536, u32::MAX] {
        tried.push(Settings { credit, ..right });
    }
    tried.push(Settings::ten_bytes(2048, 512, 8, 65_535));
    for settings in tried {
        let of_lean = sides::settings(&settings);
        let done = EarlyOut::setup(of_lean).map(drop).map_err(|no| no.number());
        let wanted = match settings.in_their_rows() {
            true => Ok(()),
            false => Err(2),
        };
        assert_eq!(done, wanted, "{settings:?}");
        assert_eq!(WholeWord::setup(of_lean).is_ok(), wanted.is_ok());
    }
}
