//! How fast the proved library is on this machine, told as Markdown: beside a
//! bare walk over the same links, beside the model, and runs beside lean.
//!
//! Every public call but setup, the finding, the repair and those on headers
//! first tests whether the memory is a state. That test by itself, the acts
//! without it, and the checksum are timed too, from archives of their own. All
//! but the checksum is timed on switches with ten-byte headers, and then, but for
//! whole packets, on the largest, with 32 ports and 64 queues.

mod acts;
mod headers;
mod mixes;
mod night;
mod packets;
mod rounds;
mod runs;
mod sums;

use std::time::Instant;

use checks::packets::lends;
use checks::tables::Tables;
use checks::{library, writer};
use model::{marked, size, Call, Choice, Model, Reply, Settings, Shape};
use traffic::{plain, Profile, Traffic};
use ventorupo::calls;

/// How often each thing is timed. The best counts: other work on the machine
/// only ever adds time.
const SAMPLES: usize = 300;

/// Nanoseconds that the work takes.
fn timed(work: impl FnOnce()) -> f64 {
    let start = Instant::now();
    work();
    start.elapsed().as_nanos() as f64
}

/// The switches that are timed.
const SWITCHES: [Shape; 2] = [Shape::TEN_BYTES, Shape::wide(32, 64)];

/// How many nodes a port they have.
fn pools(shape: Shape) -> &'static [u32] {
    match shape {
        Shape::TEN_BYTES => &[1, 16, 64, 256, 2048],
        _ => &[1, 16, 256, 2048],
    }
}

/// What a part is about, and which switch it is if it isn't that of ten bytes.
fn heading(what: &str, shape: Shape) {
    match shape {
        Shape::TEN_BYTES => println!("### {what}\n"),
        Shape { ports, queues, .. } => println!("### {what}; {ports} ports, {queues} queues\n"),
    }
}

fn settings(shape: Shape, nodes: u32) -> Settings {
    Settings::of(shape, nodes, 64, 8, 5000)
}

/// As the C interface has them.
fn numbers(s: &Settings) -> [u32; 8] {
    [
        s.nodes, s.beat, s.slots, s.credit, s.ports, s.queues, s.edition, s.packets,
    ]
}

/// A setup, then valid traffic of the wanted kinds; and the model behind it. The
/// few lies in it are left out: not all kinds of calls have a clear among them, and
/// ports that stay halted would take in nothing above queue 0. So no port is ever
/// halted here, and a clear finds no mark.
fn valid_traffic(
    seed: u64,
    settings: Settings,
    calls: usize,
    wanted: fn(&Call) -> bool,
) -> (Vec<Call>, Model) {
    let mut model = Model::new(size(&settings));
    let mut list = vec![Call::Setup(settings)];
    model.call(&list[0]);
    let mut traffic = Traffic::of(seed, Profile::Valid, settings.shape());
    while list.len() <= calls {
        let call = traffic.next(&model);
        if !wanted(&call) {
            continue;
        }
        let reply = model.call(&call);
        match marked(&call, &reply) {
            // Undone: the mark is all that it has changed.
            Some((port, _)) => drop(model.call(&Call::Clear { port })),
            None => list.push(call),
        }
    }
    (list, model)
}

/// All but setup, and but the round and those with packets, which are timed by
/// themselves.
fn single(call: &Call) -> bool {
    !matches!(call, Call::Setup(_) | Call::Round { .. }) && !lends(call)
}

/// Memory after traffic: nodes in many lists, in no particular order.
fn used_memory(seed: u64, settings: Settings) -> Vec<u8> {
    let nodes = (settings.ports * settings.nodes) as usize;
    let (_, model) = valid_traffic(seed, settings, 3000 + 5 * nodes, single);
    writer::image(model.ledger().expect("a switch that is set up"))
}

/// The bare walk: every list from its head along the links, as many nodes as
/// its count says. Nothing is tested but the slice's end. It goes on from a sum
/// and isn't inlined, so that no compiler can make many walks one.
#[inline(never)]
fn walk(memory: &[u8], tables: &Tables, mut sum: u64) -> u64 {
    let two = |at: usize| usize::from(u16::from_be_bytes([memory[at], memory[at + 1]]));
    let (nodes, lists) = (tables.nodes, tables.lists());
    for list in 0..lists {
        let at = tables.count.start + 4 * list;
        let count = [memory[at], memory[at + 1], memory[at + 2], memory[at + 3]];
        let mut entry = two(tables.head.start + 2 * list);
        for _ in 0..u32::from_be_bytes(count) {
            sum += entry as u64;
            let element = (entry >> 11) * nodes + (entry & 2047);
            entry = two(tables.next.start + 2 * element);
        }
    }
    sum
}

/// Nanoseconds for each of some works on a memory of these tables, at its best.
/// They take turns, so that all meet the same weather.
fn in_turns<const K: usize>(tables: &Tables, mut works: [&mut dyn FnMut(); K]) -> [f64; K] {
    let elements = tables.ports * (40 + tables.nodes);
    let times = (32_000 / elements).max(1);
    // Of the largest switches a sample takes long, and fewer do.
    let samples = (SAMPLES * 8_000 / elements).clamp(SAMPLES / 6, SAMPLES);
    let mut least = [f64::INFINITY; K];
    for _ in 0..samples {
        for (least, work) in least.iter_mut().zip(&mut works) {
            let spent = timed(|| (0..times).for_each(|_| work()));
            *least = least.min(spent / times as f64);
        }
    }
    least
}

/// What lists hold counts, so several memories are taken for each N.
const MEMORIES: u64 = 12;

/// Of several memories, nanoseconds for some works: the mean of one beside that
/// of another, and the least and the greatest ratio in one memory.
fn beside<const K: usize>(spent: &[[f64; K]], which: usize, other: usize) -> String {
    let ratios = || spent.iter().map(|s| s[which] / s[other]);
    format!(
        "{:.2} | {:.2} to {:.2}",
        mean(spent, which) / mean(spent, other),
        ratios().fold(f64::INFINITY, f64::min),
        ratios().fold(0.0, f64::max)
    )
}

fn mean<const K: usize>(spent: &[[f64; K]], which: usize) -> f64 {
    spent.iter().map(|s| s[which]).sum::<f64>() / spent.len() as f64
}

/// Nanoseconds for the bare walk, the test and ready on a memory.
fn walks_of(memory: &[u8], tables: &Tables) -> [f64; 3] {
    let (mut sum, mut walks) = (0, 0);
    let spent = in_turns(
        tables,
        [
            &mut || {
                sum = walk(memory, tables, sum);
                walks += 1;
            },
            &mut || assert!(rules::is_state(memory)),
            &mut || assert_eq!(calls::ready(memory, 0, &mut 0, &mut 0), 0),
        ],
    );
    // Each walk met each node once.
    let once: usize = (0..tables.ports)
        .flat_map(|port| (0..tables.nodes).map(move |index| port * 2048 + index))
        .sum();
    assert_eq!(sum, once as u64 * walks);
    spent
}

fn the_test_for_a_state(shape: Shape) {
    let what = "The test for a state, beside a bare walk of the same links";
    heading(what, shape);
    println!("| N | nodes in all | bare walk, ns | test, ns | ns a node | ratio | in one memory | ready, ns | ratio | in one memory |");
    println!("|---|---|---|---|---|---|---|---|---|---|");
    for &nodes in pools(shape) {
        let settings = settings(shape, nodes);
        let tables = Tables::of(&settings);
        let spent: Vec<[f64; 3]> = (1..=MEMORIES)
            .map(|seed| walks_of(&used_memory(seed, settings), &tables))
            .collect();
        let all = tables.all_nodes() as f64;
        println!(
            "| {nodes} | {all} | {:.0} | {:.0} | {:.1} | {} | {:.0} | {} |",
            mean(&spent, 0),
            mean(&spent, 1),
            mean(&spent, 1) / all,
            beside(&spent, 1, 0),
            mean(&spent, 2),
            beside(&spent, 2, 0)
        );
    }
    println!();
}

const NAMES: [&str; 14] = [
    "setup",
    "arrive",
    "stitch",
    "prefetch",
    "credit",
    "turn",
    "idle turn",
    "ready",
    "where",
    "map",
    "clear",
    "report",
    "timed turn",
    "bucket",
];

/// Nanoseconds a call of each kind, on a switch that is filled and emptied.
fn each_call(shape: Shape, nodes: u32) -> Vec<(&'static str, f64)> {
    let Shape { ports, queues, .. } = shape;
    // As many at a port as nodes and slots allow, seven a queue; and not so many
    // in all that it takes long.
    let packets = nodes.min(7 * (queues - 1)).min(644 / ports);
    let s = settings(shape, nodes);
    let mut memory = vec![0; size(&s)];
    let rounds = (20_000 / (ports * nodes)).clamp(5, 2000);
    let mut least = [f64::INFINITY; NAMES.len()];
    let queue_of = |packet: u32| 1 + packet % (queues - 1);
    let headers: Vec<(u32, u32, Vec<u8>)> = (0..packets)
        .flat_map(|packet| (0..ports).map(move |port| (port, queue_of(packet))))
        // Destination id p is mapped to port p: 112 bytes, two beats.
        .map(|(port, queue)| (port, queue, plain(&shape, port, port, queue, 112)))
        .collect();
    // The kinds come in phases of one round; a phase is timed as a whole.
    for _ in 0..rounds {
        let mut phase = |kind: usize, times: usize, work: &mut dyn FnMut(&mut [u8])| {
            let spent = timed(|| work(&mut memory));
            least[kind] = least[kind].min(spent / times as f64);
        };
        phase(0, 1, &mut |m| {
            assert_eq!(calls::setup(m, &numbers(&s)), 0);
        });
        phase(9, ports as usize, &mut |m| {
            for port in 0..ports {
                assert_eq!(calls::map(m, port, port), 0);
            }
        });
        phase(1, headers.len(), &mut |m| {
            let mut entry = 0;
            for (port, _, bytes) in &headers {
                assert_eq!(calls::arrive(m, *port, bytes, &mut entry), 0);
            }
        });
        phase(2, headers.len(), &mut |m| {
            let mut record = [0; 10];
            for (port, ..) in &headers {
                assert_eq!(calls::stitch(m, *port, &mut record), 0);
            }
        });
        phase(3, headers.len(), &mut |m| {
            let mut entry = 0;
            for (port, queue, _) in &headers {
                assert_eq!(calls::prefetch(m, *port, *queue, &mut entry), 0);
            }
        });
        phase(6, ports as usize, &mut |m| {
            let mut sent = [0; 16];
            for port in 0..ports {
                assert_eq!((calls::turn(m, port, &mut sent), sent[0]), (0, 0));
            }
        });
        phase(4, headers.len(), &mut |m| {
            for (port, queue, _) in &headers {
                assert_eq!(calls::credit(m, *port, *queue, 2), 0);
            }
        });
        phase(7, ports as usize, &mut |m| {
            for port in 0..ports {
                let (mut word, mut count) = (0, 0);
                assert_eq!(calls::ready(m, port, &mut word, &mut count), 0);
            }
        });
        phase(8, ports as usize, &mut |m| {
            let mut place = [0; 8];
            for port in 0..ports {
                assert_eq!(calls::place_of(m, port * 2048 + nodes / 2, &mut place), 0);
            }
        });
        phase(10, ports as usize, &mut |m| {
            for port in 0..ports {
                assert_eq!(calls::clear(m, port), 0);
            }
        });
        phase(11, ports as usize, &mut |m| {
            for port in 0..ports {
                assert_eq!(calls::report(m, port, &mut 0), 0);
            }
        });
        phase(13, ports as usize, &mut |m| {
            for port in 0..ports {
                assert_eq!(calls::bucket(m, port, 9, &mut 0), 0);
            }
        });
        // The first half leaves by turns, the rest by timed ones.
        let (first, rest) = headers.split_at(headers.len() / 2);
        phase(5, first.len(), &mut |m| {
            let mut sent = [0; 16];
            for (port, ..) in first {
                assert_eq!((calls::turn(m, *port, &mut sent), sent[0]), (0, 2));
            }
        });
        phase(12, rest.len(), &mut |m| {
            let mut sent = [0; 16];
            for (port, ..) in rest {
                let number = calls::timed_turn(m, *port, 1000, &mut sent);
                assert_eq!((number, sent[0]), (0, 2));
            }
        });
    }
    NAMES.into_iter().zip(least).collect()
}

fn each_call_through_c(shape: Shape) {
    heading("Each call through the C interface, ns", shape);
    println!("| call | N = 1 | N = 256 | N = 2,048 |");
    println!("|---|---|---|---|");
    let [one, few, many] = [1, 256, 2048].map(|nodes| each_call(shape, nodes));
    for ((one, few), many) in one.into_iter().zip(few).zip(many) {
        println!(
            "| {} | {:.0} | {:.0} | {:.0} |",
            one.0, one.1, few.1, many.1
        );
    }
    println!();
}

/// Nanoseconds for the whole list: library, and model with either choice. Some
/// passes are made over it, each part of it counts at its best, and the three
/// take turns, so that all meet the same weather.
fn whole_list(size: usize, list: &[Call], library: fn(&mut [u8], &Call) -> u32) -> [f64; 3] {
    const PART: usize = 50;
    let mut least = vec![[f64::INFINITY; 3]; (list.len() + PART - 1) / PART];
    for _ in 0..15 {
        let mut memory = vec![0; size];
        let mut whole = Model::with_choice(size, Choice::WholeWord);
        let mut early = Model::with_choice(size, Choice::EarlyOut);
        for (part, least) in list.chunks(PART).zip(&mut least) {
            let mut refused = [0; 3];
            let refuses = |reply: Reply| matches!(reply, Reply::Refused(_));
            let spent = [
                timed(|| {
                    let calls = part.iter();
                    refused[0] = calls.filter(|call| library(&mut memory, call) != 0).count();
                }),
                timed(|| {
                    let calls = part.iter();
                    refused[1] = calls.filter(|call| refuses(whole.call(call))).count();
                }),
                timed(|| {
                    let calls = part.iter();
                    refused[2] = calls.filter(|call| refuses(early.call(call))).count();
                }),
            ];
            // The same work, and its answers are used.
            assert!(refused == [refused[0]; 3]);
            for (least, spent) in least.iter_mut().zip(spent) {
                *least = least.min(spent);
            }
        }
    }
    [0, 1, 2].map(|desk| least.iter().map(|part| part[desk]).sum())
}

/// A table of the list's times beside both models.
fn beside_the_model(shape: Shape, wanted: fn(&Call) -> bool, library: fn(&mut [u8], &Call) -> u32) {
    println!("| N | library | model, whole word | ratio | model, early out | ratio |");
    println!("|---|---|---|---|---|---|");
    for &nodes in pools(shape) {
        let settings = settings(shape, nodes);
        let calls = (500_000 / (20 + nodes as usize)).max(2000);
        let (list, _) = valid_traffic(1, settings, calls, wanted);
        let [ours, whole, early] = whole_list(size(&settings), &list, library);
        let a_call = |all: f64| all / list.len() as f64;
        println!(
            "| {nodes} | {:.0} | {:.0} | {:.2} | {:.0} | {:.2} |",
            a_call(ours),
            a_call(whole),
            ours / whole,
            a_call(early),
            ours / early
        );
    }
    println!();
}

/// A call's act; setup as it is.
fn bare_act(memory: &mut [u8], call: &Call) -> u32 {
    match call {
        Call::Setup(_) => quick(memory, call),
        // Sound: every list begins with a setup that is not refused.
        _ => unsafe { acts::act(memory, call) },
    }
}

/// The bytes of a round of the most ports.
const MOST_TURNS: usize = 4 * 32;

/// A call with no check of its rooms: its number and nothing else.
fn quick(memory: &mut [u8], call: &Call) -> u32 {
    let mut entry = 0;
    match call {
        Call::Setup(s) => calls::setup(memory, &numbers(s)),
        Call::Arrive { port, header } => calls::arrive(memory, *port, header, &mut entry),
        Call::Stitch { port } => calls::stitch(memory, *port, &mut [0; 10]),
        Call::Prefetch { port, queue } => calls::prefetch(memory, *port, *queue, &mut entry),
        Call::Credit {
            port,
            queue,
            amount,
        } => calls::credit(memory, *port, *queue, *amount),
        Call::Map { id, port } => calls::map(memory, *id, *port),
        Call::Turn { port } => calls::turn(memory, *port, &mut [0; 16]),
        Call::Ready { port } => calls::ready(memory, *port, &mut 0, &mut 0),
        Call::Where { entry } => calls::place_of(memory, *entry, &mut [0; 8]),
        Call::Clear { port } => calls::clear(memory, *port),
        Call::Report { port } => calls::report(memory, *port, &mut 0),
        Call::TimedTurn { port, now } => calls::timed_turn(memory, *port, *now, &mut [0; 16]),
        Call::Bucket { port, bucket } => calls::bucket(memory, *port, *bucket, &mut 0),
        Call::Round { .. } => calls::round(memory, &mut [0; MOST_TURNS]),
        Call::ArrivePacket { .. } | Call::Show { .. } => {
            unreachable!("{:?} is lent packet memories", call)
        }
    }
}

/// Nanoseconds a piece for each of the three checksums, over pieces that don't
/// wait for each other, as the headers of a busy port don't.
fn each_sum(bytes: &[u8], piece: usize) -> [f64; 3] {
    fn pass(bytes: &[u8], piece: usize, sum: impl Fn(&[u8]) -> u8) -> (f64, u8) {
        let mut all = 0;
        let spent = timed(|| all = bytes.chunks_exact(piece).fold(0, |all, s| all ^ sum(s)));
        (spent / (bytes.len() / piece) as f64, all)
    }
    let mut least = [f64::INFINITY; 3];
    for _ in 0..SAMPLES {
        let passes = [
            pass(bytes, piece, sums::by_table),
            pass(bytes, piece, sums::by_bits),
            pass(bytes, piece, sums::by_rust),
        ];
        for (least, (spent, all)) in least.iter_mut().zip(passes) {
            // The same work, and its answers are used.
            assert_eq!(all, passes[0].1);
            *least = least.min(spent);
        }
    }
    least
}

fn the_checksum() {
    println!("### The checksum, ns a run of bytes\n");
    println!("| bytes | table | bit by bit | ratio | Rust's table | ratio |");
    println!("|---|---|---|---|---|---|");
    let bytes: Vec<u8> = (0..80 * 1024_u32)
        .map(|at| (at.wrapping_mul(2_654_435_761) >> 13) as u8)
        .collect();
    for piece in [9, 10, 8192] {
        let [table, bits, rust] = each_sum(&bytes, piece);
        println!(
            "| {piece} | {table:.1} | {bits:.1} | {:.2} | {rust:.1} | {:.2} |",
            table / bits,
            table / rust
        );
    }
    println!();
}

/// The processor's name as Linux tells it.
fn processor() -> String {
    std::fs::read_to_string("/proc/cpuinfo")
        .ok()
        .and_then(|text| {
            let line = text.lines().find(|line| line.starts_with("model name"))?;
            Some(line.split(':').nth(1)?.trim().to_string())
        })
        .unwrap_or_else(|| "an unknown processor".into())
}

/// The parts, by the names under which they can be asked for.
const PARTS: [&str; 10] = [
    "checksum", "headers", "packets", "test", "night", "calls", "traffic", "acts", "round", "runs",
];

/// What is asked for: all parts, or those that the command line names.
fn asked() -> Vec<String> {
    let named: Vec<String> = std::env::args().skip(1).collect();
    if let Some(other) = named.iter().find(|n| !PARTS.contains(&n.as_str())) {
        eprintln!("perf: no part '{other}'; there are {}", PARTS.join(", "));
        std::process::exit(2);
    }
    match named.is_empty() {
        true => PARTS.map(String::from).to_vec(),
        false => named,
    }
}

fn main() {
    if cfg!(debug_assertions) {
        eprintln!("perf: build it optimised, with --release");
        std::process::exit(2);
    }
    let asked = asked();
    let has = |part: &str| asked.iter().any(|a| a == part);
    SWITCHES.into_iter().for_each(same_work);
    println!("On {}, in one process.\n", processor());
    if has("checksum") {
        the_checksum();
    }
    if has("headers") {
        headers::each_form();
    }
    if has("packets") {
        packets::by_itself();
        packets::stored();
    }
    for shape in SWITCHES {
        of_a_switch(shape, &has);
    }
}

/// The parts that are about a switch.
fn of_a_switch(shape: Shape, has: &dyn Fn(&str) -> bool) {
    if has("test") {
        the_test_for_a_state(shape);
    }
    if has("night") {
        night::on_sound_images(shape);
        night::on_images_broken_late(shape);
    }
    if has("calls") {
        each_call_through_c(shape);
    }
    if has("traffic") {
        heading(
            "Whole public calls on the same valid traffic, ns a call",
            shape,
        );
        beside_the_model(shape, single, quick);
    }
    if has("acts") {
        let what = "The acts without the test on the same valid traffic, ns a call";
        heading(what, shape);
        beside_the_model(shape, acts::has_act, bare_act);
    }
    if has("round") {
        rounds::a_round(shape);
    }
    if has("runs") {
        runs::beside_lean(shape);
        runs::short_and_long(shape);
    }
}

/// Both sides have the same work.
fn same_work(shape: Shape) {
    let settings = settings(shape, 4);
    let mut memory = vec![0; size(&settings)];
    let mut model = Model::new(size(&settings));
    for call in valid_traffic(1, settings, 2000, single).0 {
        let wanted = model.call(&call);
        assert_ne!(wanted, Reply::Refused(3));
        assert_eq!(marked(&call, &wanted), None);
        assert_eq!(library::call(&mut memory, &call), Ok(wanted));
    }
    // And an act leaves what the call leaves.
    let mut other = memory.clone();
    for call in valid_traffic(1, settings, 2000, acts::has_act).0 {
        assert_eq!(bare_act(&mut other, &call), quick(&mut memory, &call));
        assert_eq!(memory, other);
    }
}
