//! Short streams, each call made by itself first: what a run of them must answer
//! and leave, up to any field.

use checks::runs::{answer, made, one_by_one, Stream, ANSWER, PROVED};
use checks::{library, reader};
use model::{size, Call, Model, Ran, Settings, Shape, Stop};
use traffic::{run_calls, Profile, Random, Traffic};

/// Bytes past the size that are lent too.
const LONGER: usize = 29;

/// A switch with three nodes a port that valid traffic has left, in memory that is
/// longer than its state and held other bytes before.
pub fn used(shape: &Shape, seed: u64) -> (Vec<u8>, Model) {
    let settings = Settings::of(*shape, 3, 64, 2, 40);
    let lent = size(&settings) + LONGER;
    let mut random = Random::new(seed);
    let mut memory: Vec<u8> = (0..lent).map(|_| random.word() as u8).collect();
    let mut model = Model::new(lent);
    let setup = Call::Setup(settings);
    assert_eq!(library::call(&mut memory, &setup), Ok(model.call(&setup)));
    let mut traffic = Traffic::of(seed, Profile::Valid, *shape);
    let calls = run_calls(&mut random, &mut traffic, &mut model, 60);
    one_by_one(&library::call, &mut memory, &calls).unwrap();
    (memory, model)
}

/// A stream, what stands before it, and what stands after each of its fields.
pub struct Steps {
    pub stream: Stream,
    pub model: Model,
    /// One more than fields.
    pub memories: Vec<Vec<u8>>,
    /// Four bytes each.
    pub answers: Vec<u8>,
}

impl Steps {
    pub fn of(memory: Vec<u8>, model: Model, calls: Vec<Call>) -> Steps {
        let shape = model.ledger().unwrap().settings.shape();
        let (mut after, mut answers) = (model.clone(), Vec::new());
        let mut memories = vec![memory];
        for call in &calls {
            let mut memory = memories[memories.len() - 1].clone();
            let reply = library::call(&mut memory, call).unwrap();
            assert_eq!(reply, after.call(call));
            answers.extend(answer(&reply));
            memories.push(memory);
        }
        let last = reader::ledger(&memories[calls.len()]);
        assert_eq!(last.as_ref().ok(), after.ledger());
        Steps {
            stream: Stream::of(&shape, calls),
            model,
            memories,
            answers,
        }
    }

    /// Of valid and hostile traffic on a switch in use, so many fields.
    pub fn any(shape: &Shape, seed: u64, fields: usize) -> Steps {
        let (memory, model) = used(shape, seed);
        let (mut random, mut ahead) = (Random::new(!seed), model.clone());
        let mut calls = Vec::new();
        for (profile, share) in [
            (Profile::Valid, fields / 2),
            (Profile::Hostile, fields - fields / 2),
        ] {
            let mut traffic = Traffic::of(seed, profile, *shape);
            calls.extend(run_calls(&mut random, &mut traffic, &mut ahead, share));
        }
        Steps::of(memory, model, calls)
    }

    /// One that has every tag, refusals, idle turns and entry ids among its answers.
    pub fn varied(shape: &Shape, fields: usize) -> Steps {
        let has_all = |steps: &Steps| {
            let starts = (0..fields).map(|field| steps.stream.bytes(field));
            let tags: Vec<u8> = starts.map(|at| steps.stream.fields[at]).collect();
            let answers = || steps.answers.chunks(ANSWER);
            (2..=7).all(|tag| tags.contains(&tag))
                && answers().any(|answer| answer[0] > 0)
                && answers().any(|answer| answer[1] > 0)
                && answers().any(|answer| answer[2..] != [0, 0])
        };
        (1..)
            .map(|seed| Steps::any(shape, seed, fields))
            .find(has_all)
            .unwrap()
    }

    pub fn fields(&self) -> usize {
        self.stream.calls.len()
    }

    /// Of the state alone, without what is lent past it.
    pub fn size(&self) -> usize {
        self.memories[0].len() - LONGER
    }

    /// A run of these bytes in so much room does the stream's first fields, so many,
    /// and stops for that reason; by the model too.
    pub fn stops(&self, fields: &[u8], room: usize, count: usize, why: Stop) {
        let mut memory = self.memories[0].clone();
        let told = made(PROVED, &mut memory, fields, room).unwrap().unwrap();
        let at = format!("{} bytes in {room}", fields.len());
        assert_eq!((told.count, told.why), (count, why.number()), "{at}");
        let wanted = &self.answers[..ANSWER * count];
        assert_eq!(told.answers, wanted, "{at}");
        assert!(memory == self.memories[count], "{at}");
        let mut answers = vec![0; room];
        let ran = self.model.clone().run(fields, &mut answers);
        assert_eq!(ran, Ok(Ran { count, why }), "{at}");
        assert_eq!(&answers[..ANSWER * count], wanted, "{at}");
    }
}

/// How many of some answers are refusals.
pub fn refused(answers: &[u8]) -> usize {
    let of = |answer: &&[u8]| answer[0] > 0;
    answers.chunks(ANSWER).filter(of).count()
}
