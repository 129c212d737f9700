//! The night crew's calls beside the test for a state, and beside a bare walk.

use checks::tables::Tables;
use checks::{finding, reader};
use model::{price, Shape, LONGEST, PLACE_BYTES};
use ventorupo::calls;

use crate::{beside, heading, in_turns, mean, settings, used_memory, walk, MEMORIES};

const NODES: [u32; 4] = [1, 16, 256, 2048];

/// The number of the first broken rule.
fn found(memory: &[u8]) -> u32 {
    let (mut rule, mut item) = (0, 0);
    calls::find(memory, &mut rule, &mut item);
    rule
}

/// Nanoseconds for the bare walk, the test, the finding and the audit.
fn each_of(memory: &[u8], tables: &Tables) -> [f64; 4] {
    let mut sum = 0;
    let mut room = vec![0; PLACE_BYTES * tables.all_nodes()];
    let spent = in_turns(
        tables,
        [
            &mut || sum = walk(memory, tables, sum),
            &mut || assert!(rules::is_state(memory)),
            &mut || assert_eq!(found(memory), 0),
            &mut || assert_eq!(calls::audit(memory, &mut room), 0),
        ],
    );
    assert!(sum > 0);
    spent
}

pub fn on_sound_images(shape: Shape) {
    heading("The finding and the audit on sound images", shape);
    println!("| N | bare walk, ns | test, ns | finding, ns | to the test | in one memory | to the bare walk | in one memory | audit, ns | to the bare walk | in one memory |");
    println!("|---|---|---|---|---|---|---|---|---|---|---|");
    for nodes in NODES {
        let settings = settings(shape, nodes);
        let tables = Tables::of(&settings);
        let spent: Vec<[f64; 4]> = (1..=MEMORIES)
            .map(|seed| each_of(&used_memory(seed, settings), &tables))
            .collect();
        println!(
            "| {nodes} | {:.0} | {:.0} | {:.0} | {} | {} | {:.0} | {} |",
            mean(&spent, 0),
            mean(&spent, 1),
            mean(&spent, 2),
            beside(&spent, 2, 1),
            beside(&spent, 2, 0),
            mean(&spent, 3),
            beside(&spent, 3, 0)
        );
    }
    println!();
}

/// A rule with a way to break it where its walk looks last.
type Late = (char, &'static str, fn(&mut [u8], &Tables));

const LATE: [Late; 9] = [
    ('c', "the last list's tail", |memory, tables| {
        let filled = |list: &usize| !tables.nodes_of(memory, *list).is_empty();
        let mut lists = (0..tables.lists()).rev();
        let last = lists.find(filled).expect("a list with nodes");
        let tail = tables.tail;
        tail.set(memory, last, tail.get(memory, last) ^ 1);
    }),
    ('c', "the last node in no list", |memory, tables| {
        let last = (tables.ports - 1) * 2048 + tables.nodes - 1;
        taken(memory, tables, last as u32);
    }),
    ('d', "the last port's ingress list", |memory, tables| {
        taken(memory, tables, 0);
        put(
            memory,
            tables,
            tables.lists() - tables.lists_per_port() + 1,
            0,
        );
    }),
    ('e', "the last packet", |memory, tables| {
        let slot = last_packet(memory, tables, tables.ports);
        another_queue(memory, tables, slot);
    }),
    ('f', "the last packet", |memory, tables| {
        let slot = last_packet(memory, tables, tables.ports);
        poison(memory, tables, slot);
    }),
    // The walk of all rules at once is short here; those of the single rules,
    // which begin at the port where it stuck, are long.
    ('f', "the last packet at port 0", |memory, tables| {
        let slot = last_packet(memory, tables, 1);
        poison(memory, tables, slot);
    }),
    (
        'e',
        "the last packet, and (f) at port 0",
        |memory, tables| {
            let slot = last_packet(memory, tables, 1);
            poison(memory, tables, slot);
            let slot = last_packet(memory, tables, tables.ports);
            another_queue(memory, tables, slot);
        },
    ),
    ('g', "the last credit", |memory, tables| {
        let (arrival, cell) = (tables.arrival, tables.credits() - 1);
        arrival.set(memory, cell, arrival.get(memory, cell) ^ 1);
    }),
    ('i', "the last port's mark", |memory, tables| {
        tables.halted.set(memory, tables.ports - 1, 1);
    }),
];

/// The dearest: all nodes are packets at port 0, and each is met by as many
/// walks as a node can be, that of all rules at once and those of (c), (e), (f).
const LATE_AT_PORT_0: Late = (
    'f',
    "the last packet, all nodes packets at port 0",
    |memory, tables| {
        let slot = last_packet(memory, tables, 1);
        let price = tables.price;
        price.set(memory, slot, price.get(memory, slot) + 1);
    },
);

/// Every node a packet in port 0's egress and prefetch lists, the slots of which
/// are full, or all as full as there are nodes. Rules (a) to (f) are kept, and (g)
/// is not asked where (f) is broken.
fn at_port_0(memory: &[u8], tables: &Tables) -> Vec<u8> {
    let mut memory = memory.to_vec();
    let all: Vec<u32> = (0..tables.lists())
        .flat_map(|list| tables.nodes_of(&memory, list))
        .collect();
    for list in 0..tables.lists() {
        tables.set_nodes(&mut memory, list, &[]);
    }
    let queues = tables.queues;
    let slots = (reader::settings(&memory).slots as usize).min(all.len() / queues);
    let (prefetched, waiting) = all.split_at(slots * queues);
    for queue in 0..queues {
        let prefetched = &prefetched[slots * queue..][..slots];
        tables.set_nodes(&mut memory, 2 + queues + queue, prefetched);
        let waiting: Vec<u32> = waiting
            .iter()
            .skip(queue)
            .step_by(queues)
            .copied()
            .collect();
        tables.set_nodes(&mut memory, 2 + queue, &waiting);
        for &entry in prefetched.iter().chain(&waiting) {
            record(&mut memory, tables, entry, queue as u32);
        }
    }
    memory
}

/// A packet of a queue, recorded at its price; what traffic left of a free node
/// may be anything.
fn record(memory: &mut [u8], tables: &Tables, entry: u32, queue: u32) {
    let slot = tables.slot(entry);
    let settings = reader::settings(memory);
    let shortest = settings.shape().shortest();
    let length = shortest + entry % (LONGEST - shortest);
    let price = price(length, queue, settings.beat);
    for (table, number) in [
        (tables.length, length),
        (tables.queue, queue),
        (tables.dest, 0),
        (tables.poisoned, 0),
        (tables.price, price),
    ] {
        table.set(memory, slot, number);
    }
}

/// The element of the last packet in the egress and prefetch lists of the first
/// so many ports. Where traffic has left none, one is put into the last list.
fn last_packet(memory: &mut [u8], tables: &Tables, ports: usize) -> usize {
    let per_port = tables.lists_per_port();
    let lists = ports * per_port;
    let last = |memory: &[u8]| {
        let lists = (0..lists).rev().filter(|list| list % per_port > 1);
        { lists }.find_map(|list| tables.nodes_of(memory, list).pop())
    };
    let entry = last(memory).unwrap_or_else(|| {
        taken(memory, tables, 0);
        put(memory, tables, lists - 1, 0);
        tables.queue.set(memory, 0, tables.queues as u32 - 1);
        0
    });
    tables.slot(entry)
}

/// Breaks rule (e) for a packet.
fn another_queue(memory: &mut [u8], tables: &Tables, slot: usize) {
    let (queue, queues) = (tables.queue, tables.queues as u32);
    queue.set(memory, slot, (queue.get(memory, slot) + 1) % queues);
}

/// Breaks rule (f) for a packet.
fn poison(memory: &mut [u8], tables: &Tables, slot: usize) {
    tables.poisoned.set(memory, slot, 2);
}

/// A node at the end of a list.
fn put(memory: &mut [u8], tables: &Tables, list: usize, entry: u32) {
    let mut of = tables.nodes_of(memory, list);
    of.push(entry);
    tables.set_nodes(memory, list, &of);
}

/// A node taken out of its list, which hangs together without it.
fn taken(memory: &mut [u8], tables: &Tables, entry: u32) {
    let has = |list: &usize| tables.nodes_of(memory, *list).contains(&entry);
    let list = (0..tables.lists()).find(has);
    let list = list.expect("every node stands in a list");
    let mut of = tables.nodes_of(memory, list);
    of.retain(|&node| node != entry);
    tables.set_nodes(memory, list, &of);
}

/// Nanoseconds for the bare walk of an image, and for the finding on a copy that
/// is broken late.
fn broken_late(memory: &[u8], tables: &Tables, (rule, what, damage): Late) -> [f64; 2] {
    let mut broken = memory.to_vec();
    damage(&mut broken, tables);
    let wanted = finding::first(&broken).expect("a broken image");
    assert_eq!(wanted.rule, rule, "{what}");
    let mut sum = 0;
    let spent = in_turns(
        tables,
        [&mut || sum = walk(memory, tables, sum), &mut || {
            assert_eq!(found(&broken), wanted.number())
        }],
    );
    assert!(sum > 0);
    spent
}

pub fn on_images_broken_late(shape: Shape) {
    heading("The finding on images that are broken late", shape);
    println!("| N | rule | where | finding, ns | to the bare walk | in one memory |");
    println!("|---|---|---|---|---|---|");
    for nodes in NODES {
        let settings = settings(shape, nodes);
        let tables = Tables::of(&settings);
        let memories: Vec<Vec<u8>> = (1..=MEMORIES)
            .map(|seed| used_memory(seed, settings))
            .collect();
        for late in LATE {
            on_each(&memories, &tables, late);
        }
        let moved: Vec<Vec<u8>> = memories
            .iter()
            .map(|memory| at_port_0(memory, &tables))
            .collect();
        on_each(&moved, &tables, LATE_AT_PORT_0);
    }
    println!();
}

fn on_each(memories: &[Vec<u8>], tables: &Tables, late: Late) {
    let spent: Vec<[f64; 2]> = memories
        .iter()
        .map(|memory| broken_late(memory, tables, late))
        .collect();
    println!(
        "| {} | ({}) | {} | {:.0} | {} |",
        tables.nodes,
        late.0,
        late.1,
        mean(&spent, 1),
        beside(&spent, 1, 0)
    );
}

#[cfg(test)]
mod tests {
    use super::*;
    use crate::SWITCHES;

    /// Up to (f) the moved images are right; then the last packet of the last
    /// list with any is found.
    #[test]
    fn packets_at_port_0_break_what_they_should() {
        for shape in SWITCHES {
            for nodes in NODES {
                let settings = settings(shape, nodes);
                moved_to_port_0(&used_memory(1, settings), &Tables::of(&settings));
            }
        }
    }

    fn moved_to_port_0(memory: &[u8], tables: &Tables) {
        let moved = at_port_0(memory, tables);
        assert_eq!(finding::first(&moved).map(|found| found.rule), Some('g'));
        let met = |lists: std::ops::Range<usize>| -> usize {
            lists.map(|list| tables.nodes_of(&moved, list).len()).sum()
        };
        let end = tables.lists_per_port();
        assert_eq!(met(2..end), tables.all_nodes());
        let slots = (tables.all_nodes() / tables.queues).min(8);
        assert_eq!(met(end - tables.queues..end), slots * tables.queues);
        let last = (2..end)
            .rev()
            .find_map(|list| tables.nodes_of(&moved, list).pop())
            .expect("a packet");
        let mut broken = moved.clone();
        LATE_AT_PORT_0.2(&mut broken, tables);
        let found = finding::first(&broken).expect("a broken image");
        assert_eq!((found.rule, found.way), ('f', "price"));
        assert_eq!(found.item, u64::from(last));
    }

    /// Each way to break an image breaks its own rule and none before it.
    #[test]
    fn images_are_broken_where_they_should() {
        for shape in SWITCHES {
            let settings = settings(shape, 16);
            let (memory, tables) = (used_memory(1, settings), Tables::of(&settings));
            assert_eq!(finding::first(&memory), None);
            for (rule, what, damage) in LATE {
                let mut broken = memory.clone();
                damage(&mut broken, &tables);
                let found = finding::first(&broken).map(|found| found.rule);
                assert_eq!(found, Some(rule), "{what}");
            }
        }
    }
}
