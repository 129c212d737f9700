//! Tagged fields for the bench program, and for runs.

use model::{bench, marked, Call, Model, Settings, Shape};

use crate::random::Random;
use crate::{Profile, Traffic};

/// The length of the value that a tag's right field has.
fn right_length(tag: u8) -> usize {
    [7, 11, 1, 2, 1, 4, 2][tag as usize - 1]
}

/// A call's tagged field: tag, length, value. None where no field can say it:
/// ready, where, a round, clear, report, a timed turn, bucket, a whole packet and
/// show have no tag, a field has no room for larger numbers, a setup's is of the
/// ten-byte header and of headers alone, and an arrival's header is ten bytes.
pub fn field(call: &Call) -> Option<Vec<u8>> {
    let one = |number: u32| u8::try_from(number).ok();
    let two = |number: u32| Some(u16::try_from(number).ok()?.to_be_bytes());
    let (tag, value) = match call {
        Call::Setup(settings) => {
            let Settings {
                nodes,
                beat,
                slots,
                credit,
                ..
            } = *settings;
            if *settings != Settings::ten_bytes(nodes, beat, slots, credit) {
                return None;
            }
            let mut value = two(nodes)?.to_vec();
            value.extend(two(beat)?);
            value.push(one(slots)?);
            value.extend(two(credit)?);
            (1, value)
        }
        Call::Arrive { port, header } => {
            let mut value = vec![one(*port)?];
            value.extend(<[u8; 10]>::try_from(header.as_slice()).ok()?);
            (2, value)
        }
        Call::Stitch { port } => (3, vec![one(*port)?]),
        Call::Prefetch { port, queue } => (4, vec![one(*port)?, one(*queue)?]),
        Call::Turn { port } => (5, vec![one(*port)?]),
        Call::Credit {
            port,
            queue,
            amount,
        } => {
            let mut value = vec![one(*port)?, one(*queue)?];
            value.extend(two(*amount)?);
            (6, value)
        }
        Call::Map { id, port } => (7, vec![one(*id)?, one(*port)?]),
        Call::Ready { .. }
        | Call::Where { .. }
        | Call::Round { .. }
        | Call::Clear { .. }
        | Call::Report { .. }
        | Call::TimedTurn { .. }
        | Call::Bucket { .. }
        | Call::ArrivePacket { .. }
        | Call::Show { .. } => return None,
    };
    Some(tagged(tag, &value))
}

/// A call's field in a run on a switch of this shape: as the bench's, but that an
/// arrival's header may be as long as the switch's, and a setup has none.
pub fn run_field(shape: &Shape, call: &Call) -> Option<Vec<u8>> {
    match call {
        Call::Setup(_) => None,
        Call::Arrive { port, header } if header.len() == shape.header_bytes() => {
            let port = u8::try_from(*port).ok()?;
            Some(tagged(2, &[&[port], &header[..]].concat()))
        }
        _ => field(call),
    }
}

/// Any tag, and a value with its length before it.
pub fn tagged(tag: u8, value: &[u8]) -> Vec<u8> {
    let mut bytes = vec![tag];
    bytes.extend((value.len() as u16).to_be_bytes());
    bytes.extend(value);
    bytes
}

/// What the bench program halts stays so until the next setup. So of the lies in
/// the traffic most are left out, and a setup stands now and then for a clear:
/// else nothing above queue 0 would come in for long.
const LIES_FOR_ONE: u32 = 8;
const CLEARS_FOR_A_SETUP: u32 = 16;

/// A bench program's input: `n` right fields and, in half of the streams, a
/// bad field at the end, some with bytes after it that mustn't be read.
pub fn stream(seed: u64, n: usize) -> Vec<u8> {
    let mut random = Random::new(!seed);
    let calls = calls(&mut random, seed, n);
    let mut bytes: Vec<u8> = calls.iter().filter_map(field).flatten().collect();
    if random.one_in(2) {
        bytes.extend(bad_end(&mut random));
    }
    bytes
}

/// So many calls that have a field each.
pub(crate) fn calls(random: &mut Random, seed: u64, n: usize) -> Vec<Call> {
    let profile = random.pick(&Profile::ALL);
    let mut traffic = Traffic::new(seed, profile);
    // Followed along, so that the calls fit the state.
    let mut model = Model::new(bench::MEMORY);
    let mut calls = Vec::new();
    while calls.len() < n {
        let call = match (traffic.next(&model), model.ledger()) {
            (Call::Clear { .. }, Some(ledger)) if random.one_in(CLEARS_FOR_A_SETUP) => {
                Call::Setup(ledger.settings)
            }
            (call, _) => call,
        };
        if field(&call).is_some() && made(random, &mut model, &call, LIES_FOR_ONE) {
            calls.push(call);
        }
    }
    calls
}

/// In a run nothing clears a port: of the lies, one is left in for so many fields
/// of its length, or for as many as above.
const FIELDS_FOR_ONE: usize = 20;

/// The next so many calls of the traffic that have a field in a run; the model,
/// which has a ledger, makes them too.
pub fn run_calls(
    random: &mut Random,
    traffic: &mut Traffic,
    model: &mut Model,
    n: usize,
) -> Vec<Call> {
    let shape = match model.ledger() {
        Some(ledger) => ledger.settings.shape(),
        None => return Vec::new(),
    };
    let lies_for_one = LIES_FOR_ONE.max((n / FIELDS_FOR_ONE) as u32);
    let mut calls = Vec::with_capacity(n);
    while calls.len() < n {
        let call = match traffic.next(model) {
            // No field is given the time.
            Call::TimedTurn { port, .. } => Call::Turn { port },
            call => call,
        };
        if run_field(&shape, &call).is_some() && made(random, model, &call, lies_for_one) {
            calls.push(call);
        }
    }
    calls
}

/// Makes the call, unless it is one of the lies that are left out: all but one for
/// so many.
fn made(random: &mut Random, model: &mut Model, call: &Call, lies_for_one: u32) -> bool {
    let mark = |model: &Model, port: u32| Some(model.ledger()?.ports.get(port as usize)?.mark);
    let unmarked = match call {
        Call::Arrive { port, .. } => mark(model, *port) == Some(0),
        _ => false,
    };
    let reply = model.call(call);
    match marked(call, &reply) {
        Some((port, _)) if unmarked && !random.one_in(lies_for_one) => {
            // Undone: the mark is all that it has changed.
            model.call(&Call::Clear { port });
            false
        }
        _ => true,
    }
}

/// A bad field: another tag, a wrong length or a cut field.
fn bad_end(random: &mut Random) -> Vec<u8> {
    let tag = random.among(1, 7) as u8;
    let right = right_length(tag);
    let fill = random.word() as u8;
    match random.below(4) {
        0 => {
            let other = if random.one_in(4) {
                0
            } else {
                random.among(8, 255) as u8
            };
            let length = random.below(13) as usize;
            let mut bytes = tagged(other, &vec![fill; length]);
            bytes.extend(more(random));
            bytes
        }
        1 => {
            let lengths = [0, right - 1, right + 1, right + 256, 300, 65_535];
            let mut bytes = tagged(tag, &vec![fill; random.pick(&lengths)]);
            bytes.extend(more(random));
            bytes
        }
        2 => {
            // Cut anywhere, but at least one byte is there.
            let mut bytes = tagged(tag, &vec![fill; right]);
            bytes.truncate(random.among(1, bytes.len() as u32 - 1) as usize);
            bytes
        }
        _ => {
            // The length speaks of more than there is.
            let length = random.pick(&[right, right + 1, 256 + right, 65_535]);
            let mut bytes = tagged(tag, &vec![fill; length]);
            bytes.truncate(3 + right - 1);
            bytes
        }
    }
}

/// Right fields after a bad one, or nothing.
fn more(random: &mut Random) -> Vec<u8> {
    let turn = tagged(5, &[0]);
    turn.repeat(random.below(3) as usize)
}
