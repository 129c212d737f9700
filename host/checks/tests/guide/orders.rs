//! The order in which each call tests its refusals: of any two that apply at once, the
//! model and the proved library answer the one that the guide has first.

use std::collections::BTreeMap;

use checks::library;
use model::checksum::crc8;
use model::{header, Call, Model, Reply, Settings, Shape, SLOT_BYTES};
use ventorupo::{Form, Header, Switch};

use crate::page::{table, words};

/// The refusals of a call, in order.
pub fn orders() -> BTreeMap<String, Vec<u8>> {
    let words = words();
    let mut orders = BTreeMap::new();
    for row in table(
        &words,
        &[
            "call",
            "its refusals, in the order in which they are tested",
        ],
    )
    .rows
    {
        let parts = row[1].split(", ").filter(|part| *part != "none");
        let number = |part: &str| {
            part.split(' ')
                .next()
                .and_then(|n| n.parse().ok())
                .expect(part)
        };
        let order: Vec<u8> = parts.map(number).collect();
        let calls = row[0]
            .split(", ")
            .map(|call| (call.trim_matches('`').to_string(), order.clone()));
        orders.extend(calls);
    }
    orders
}

/// What is wrong, by number. Of a packet's bytes there are two: too few for a header,
/// and not as many as it says.
#[derive(Clone, Copy, PartialEq, Eq, Debug)]
struct Fault(u8, u8);

const FEW: Fault = Fault(16, 0);
const MISCOUNTED: Fault = Fault(16, 1);

struct Faults(Vec<Fault>);

impl Faults {
    fn has(&self, number: u8) -> bool {
        self.is(Fault(number, 0))
    }

    fn is(&self, fault: Fault) -> bool {
        self.0.contains(&fault)
    }

    /// One number for a fault, another where it isn't there.
    fn pick(&self, number: u8, wrong: u32, right: u32) -> u32 {
        if self.has(number) {
            wrong
        } else {
            right
        }
    }

    fn port(&self) -> u32 {
        self.pick(4, 9, 1)
    }
}

/// The faults of an order: the second of one number is another.
fn faults(order: &[u8]) -> Vec<Fault> {
    let before = |at: usize| order[..at].iter().filter(|&&n| n == order[at]).count() as u8;
    (0..order.len())
        .map(|at| Fault(order[at], before(at)))
        .collect()
}

/// Each fault alone, and each two, is answered by the first; none by 0. And the order
/// has exactly these refusals.
fn is_the_order(call: &str, refusals: &[u8], answer: impl Fn(&Faults) -> u8) {
    let order = &orders()[call];
    let sorted = |numbers: &[u8]| {
        let mut numbers = numbers.to_vec();
        numbers.sort_unstable();
        numbers
    };
    assert_eq!(sorted(order), sorted(refusals), "{call}");
    assert_eq!(answer(&Faults(Vec::new())), 0, "{call}");
    let faults = faults(order);
    let pairs = (0..faults.len()).flat_map(|i| (i..faults.len()).map(move |j| (i, j)));
    for (i, j) in pairs {
        let both = Faults(vec![faults[i], faults[j]]);
        assert_eq!(answer(&both), order[i], "{call}: {:?}", both.0);
    }
}

fn settings(faults: &Faults, packets: u32) -> Settings {
    Settings {
        nodes: 2,
        beat: 64,
        slots: 1,
        credit: faults.pick(10, 0, 16),
        ports: 4,
        queues: 24,
        edition: model::TEN_BYTES,
        packets,
    }
}

/// Ten bytes that arrive at port 1, with their faults.
fn header_with(faults: &Faults, queue: u32) -> Vec<u8> {
    let source = faults.pick(8, 2, 1);
    let queue = faults.pick(19, 24, queue);
    let length = faults.pick(9, 11, 100);
    let front = source << 20 | queue << 15 | length << 2 | faults.pick(20, 1, 0);
    let mut bytes = front.to_be_bytes()[1..].to_vec();
    bytes.extend([0; 6]);
    bytes.push(crc8(&bytes) ^ faults.pick(7, 1, 0) as u8);
    bytes
}

/// A right packet, whole or its header, in a queue.
fn arrival(settings: &Settings, queue: u32) -> Call {
    let header = header_with(&Faults(Vec::new()), queue);
    if settings.packets == 0 {
        return Call::Arrive { port: 1, header };
    }
    let mut packet = header;
    packet.resize(100, 0);
    let lent = settings.nodes as usize * SLOT_BYTES;
    Call::ArrivePacket {
        port: 1,
        packet,
        lent,
    }
}

/// Both answer alike.
fn both(model: &mut Model, memory: &mut [u8], call: &Call) -> Reply {
    let reply = model.call(call);
    assert_eq!(Ok(&reply), library::call(memory, call).as_ref(), "{call:?}");
    reply
}

/// The answer of model and library to a call, on a state that others have made, or,
/// with fault 3, on none.
fn answered(faults: &Faults, settings: Settings, before: Vec<Call>, call: &Call) -> u8 {
    let mut memory = vec![0; model::size(&settings)];
    let mut model = Model::new(memory.len());
    let made = vec![Call::Setup(settings)].into_iter().chain(before);
    for call in made.filter(|_| !faults.has(3)) {
        let reply = both(&mut model, &mut memory, &call);
        assert!(!matches!(reply, Reply::Refused(_)), "{call:?}: {reply:?}");
    }
    match both(&mut model, &mut memory, call) {
        Reply::Refused(number) => number,
        _ => 0,
    }
}

/// The port's two nodes are taken by packets of queue 0, which are free.
fn no_node(faults: &Faults, settings: &Settings) -> Vec<Call> {
    let taken = if faults.has(11) { 2 } else { 0 };
    vec![arrival(settings, 0); taken]
}

/// A packet of queue 5 goes to port 0's egress list, or on to its slots.
fn moved(settings: &Settings, to_the_slots: bool) -> Vec<Call> {
    let mut calls = vec![arrival(settings, 5), Call::Stitch { port: 1 }];
    if to_the_slots {
        calls.push(Call::Prefetch { port: 0, queue: 5 });
    }
    calls
}

#[test]
fn of_arrive() {
    let refusals = [3, 24, 4, 6, 7, 20, 8, 9, 19, 10, 11];
    is_the_order("arrive", &refusals, |faults| {
        let settings = settings(faults, faults.pick(24, 1, 0));
        let mut header = header_with(faults, 5);
        header.truncate(faults.pick(6, 9, 10) as usize);
        let port = faults.port();
        let call = Call::Arrive { port, header };
        answered(faults, settings, no_node(faults, &settings), &call)
    });
}

#[test]
fn of_arrive_packet() {
    let refusals = [3, 24, 17, 4, 16, 7, 20, 8, 9, 16, 19, 10, 11];
    is_the_order("arrive_packet", &refusals, |faults| {
        let settings = settings(faults, faults.pick(24, 0, 1));
        let mut packet = header_with(faults, 5);
        packet.resize(faults.pick(9, 11, 100) as usize, 0);
        packet.resize(packet.len() + usize::from(faults.is(MISCOUNTED)), 0);
        packet.truncate(if faults.is(FEW) { 9 } else { packet.len() });
        let lent = 2 * SLOT_BYTES - faults.pick(17, 1, 0) as usize;
        let port = faults.port();
        let call = Call::ArrivePacket { port, packet, lent };
        answered(faults, settings, no_node(faults, &settings), &call)
    });
}

#[test]
fn of_show() {
    is_the_order("show", &[3, 24, 17, 4, 5, 12], |faults| {
        let settings = settings(faults, faults.pick(24, 0, 1));
        let mut lent = [2 * SLOT_BYTES; 4];
        lent[3] += faults.pick(17, 1, 0) as usize;
        let (port, queue) = (faults.pick(4, 4, 0), faults.pick(5, 24, 5));
        // Where nothing is to be shown, egress has a packet all the same.
        let before = moved(&settings, !faults.has(12));
        let call = Call::Show { port, queue, lent };
        answered(faults, settings, before, &call)
    });
}

#[test]
fn of_stitch_and_prefetch() {
    is_the_order("stitch", &[3, 4, 12], |faults| {
        let settings = settings(faults, 0);
        let here = faults.pick(12, 0, 1) as usize;
        let before = vec![arrival(&settings, 5); here];
        let port = faults.port();
        answered(faults, settings, before, &Call::Stitch { port })
    });
    is_the_order("prefetch", &[3, 4, 5, 12, 13], |faults| {
        let settings = settings(faults, 0);
        let full = moved(&settings, true)
            .into_iter()
            .filter(|_| faults.has(13));
        let waiting = moved(&settings, false)
            .into_iter()
            .filter(|_| !faults.has(12));
        let (port, queue) = (faults.pick(4, 4, 0), faults.pick(5, 24, 5));
        let call = Call::Prefetch { port, queue };
        answered(faults, settings, full.chain(waiting).collect(), &call)
    });
}

#[test]
fn of_credit_map_and_where() {
    // Queue 24 is above the last, and queue 0 has no credit.
    for wrong in [24, 0] {
        is_the_order("credit", &[3, 4, 5, 14], |faults| {
            let (port, queue) = (faults.port(), faults.pick(5, wrong, 5));
            let amount = faults.pick(14, 65_536, 65_535);
            let call = Call::Credit {
                port,
                queue,
                amount,
            };
            answered(faults, settings(faults, 0), Vec::new(), &call)
        });
    }
    is_the_order("map", &[3, 15, 4], |faults| {
        let (id, port) = (faults.pick(15, 4096, 4095), faults.port());
        let call = Call::Map { id, port };
        answered(faults, settings(faults, 0), Vec::new(), &call)
    });
    is_the_order("where", &[3, 15], |faults| {
        let entry = faults.pick(15, 2, 2049);
        let call = Call::Where { entry };
        answered(faults, settings(faults, 0), Vec::new(), &call)
    });
}

#[test]
fn of_the_calls_with_a_port_alone() {
    type Made = fn(u32) -> Call;
    let calls: [(&str, Made); 5] = [
        ("turn", |port| Call::Turn { port }),
        ("timed_turn", |port| Call::TimedTurn { port, now: 0 }),
        ("ready", |port| Call::Ready { port }),
        ("clear", |port| Call::Clear { port }),
        ("report", |port| Call::Report { port }),
    ];
    for (name, call) in calls {
        is_the_order(name, &[3, 4], |faults| {
            answered(
                faults,
                settings(faults, 0),
                Vec::new(),
                &call(faults.port()),
            )
        });
    }
    is_the_order("bucket", &[3, 4, 5], |faults| {
        let (port, bucket) = (faults.port(), faults.pick(5, 33, 32));
        let call = Call::Bucket { port, bucket };
        answered(faults, settings(faults, 0), Vec::new(), &call)
    });
}

/// The library's number, or 0.
fn told<T>(answer: Result<T, ventorupo::Refusal>) -> u8 {
    answer.map_or_else(|refusal| refusal.number() as u8, |_| 0)
}

/// A state of four ports and two nodes, or none.
fn state(faults: &Faults) -> Switch<Vec<u8>> {
    let settings = ventorupo::Settings::ten_bytes()
        .nodes(2)
        .slots(1)
        .credit(16);
    let mut switch = Switch::over(vec![0; settings.size()]);
    if !faults.has(3) {
        switch.setup_again(settings).unwrap();
    }
    switch
}

#[test]
fn of_round_audit_run_and_repair() {
    is_the_order("round", &[3, 27], |faults| {
        let room = vec![0; faults.pick(27, 15, 16) as usize];
        answered(
            faults,
            settings(faults, 0),
            Vec::new(),
            &Call::Round { room },
        )
    });
    is_the_order("audit", &[3, 27], |faults| {
        let mut room = vec![0; faults.pick(27, 63, 64) as usize];
        told(ventorupo::audit(state(faults).memory(), &mut room))
    });
    // A bad field and no room are no refusals of a run.
    is_the_order("run", &[3], |faults| {
        told(state(faults).run_fields(&[1], &mut []))
    });
    is_the_order("repair", &[3], |faults| told(state(faults).repair()));
}

#[test]
fn of_setup() {
    is_the_order("setup", &[2, 1], |faults| {
        let right = settings(&Faults(Vec::new()), 0);
        let wrong = Settings {
            nodes: faults.pick(2, 2049, 2),
            ..right
        };
        let bytes = model::size(&wrong) - faults.pick(1, 1, 0) as usize;
        let setup = Call::Setup(wrong);
        match both(&mut Model::new(bytes), &mut vec![0; bytes], &setup) {
            Reply::Refused(number) => number,
            _ => 0,
        }
    });
}

#[test]
fn of_reader_and_writer() {
    let shape = |faults: &Faults| Shape {
        ports: faults.pick(2, 5, 4),
        ..Shape::TEN_BYTES
    };
    let form = |faults: &Faults| Form {
        ports: faults.pick(2, 5, 4),
        ..Form::TEN_BYTES
    };
    is_the_order("read_header", &[2, 6, 7, 20, 9, 19], |faults| {
        let mut bytes = header_with(faults, 5);
        bytes.truncate(faults.pick(6, 9, 10) as usize);
        let number = header::read(&shape(faults), &bytes).err().unwrap_or(0);
        assert_eq!(told(form(faults).read(&bytes)), number);
        number
    });
    is_the_order("write_header", &[2, 21], |faults| {
        let length = faults.pick(21, 11, 12);
        let ours = header::Header {
            length,
            ..header::Header::default()
        };
        let number = header::write(&shape(faults), &ours).err().unwrap_or(0);
        let theirs = Header {
            length,
            ..Header::default()
        };
        assert_eq!(told(form(faults).write(&theirs)), number);
        number
    });
}

/// No call of the table is left out above, and the two that refuse nothing say so.
#[test]
fn of_every_call() {
    let tried = "arrive arrive_packet audit bucket clear credit find map prefetch read_header ready repair report \
                 round run setup show size stitch timed_turn turn where write_header";
    let orders = orders();
    let names: Vec<&str> = orders.keys().map(String::as_str).collect();
    assert_eq!(names.join(" "), tried);
    assert!(orders["find"].is_empty() && orders["size"].is_empty());
}
