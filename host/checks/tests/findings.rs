//! The examples of docs/FINDINGS.md, through library and independent reader.

use checks::finding::{self, Finding, WAYS};
use checks::library;
use checks::night::PROVED;
use checks::reader;
use model::{size, Call, Reply, Settings, Shape};
use traffic::plain;

const PAGE: &str = include_str!("../../../docs/FINDINGS.md");

/// The numbers among a text's words, commas in and behind them left out.
fn numbers(text: &str) -> Vec<u32> {
    let number = |word: &str| word.replace(',', "").parse().ok();
    text.split_whitespace().filter_map(number).collect()
}

/// The settings of the page's state.
fn settings(line: &str) -> Settings {
    match numbers(line)[..] {
        [nodes, beat, slots, credit, ports, queues, edition] => {
            let shape = Shape {
                edition,
                ports,
                queues,
            };
            Settings::of(shape, nodes, beat, slots, credit)
        }
        _ => panic!("no setup: {line}"),
    }
}

/// A line of the page that tells of a call on a switch of a shape.
fn call(line: &str, shape: &Shape) -> Call {
    let name = line.split_whitespace().next();
    match (name, &numbers(line)[..]) {
        (Some("setup"), _) => Call::Setup(settings(line)),
        (Some("map"), &[id, port]) => Call::Map { id, port },
        (Some("arrive"), &[port, to, queue, length]) => Call::Arrive {
            port,
            header: plain(shape, to, port, queue, length),
        },
        (Some("stitch"), &[port]) => Call::Stitch { port },
        (Some("prefetch"), &[port, queue]) => Call::Prefetch { port, queue },
        _ => panic!("no call: {line}"),
    }
}

/// The state that the page's calls leave on zero bytes.
fn state() -> Vec<u8> {
    let told = |line: &&str| line.starts_with("    ");
    let lines: Vec<&str> = PAGE.lines().filter(told).collect();
    assert_eq!(lines.len(), 8);
    let settings = settings(lines[0]);
    let mut memory = vec![0; size(&settings)];
    for line in lines {
        let call = call(line, &settings.shape());
        let reply = library::call(&mut memory, &call).unwrap();
        assert!(!matches!(reply, Reply::Refused(_)), "{call:?}: {reply:?}");
    }
    memory
}

/// The rows of the examples: finding and what is changed.
fn rows() -> Vec<(&'static str, &'static str)> {
    let (_, table) = PAGE
        .split_once("| finding | changed | in words |\n")
        .unwrap();
    let row = |line: &'static str| {
        let mut cells = line.split(" | ");
        let finding = cells.next()?.trim_start_matches("| ");
        Some((finding, cells.next()?))
    };
    let rows = table.lines().skip(1).map(row);
    rows.map(|row| row.expect("a row of three cells")).collect()
}

/// The state's bytes as a row has them.
fn changed(state: &[u8], row: &str) -> Vec<u8> {
    let mut memory = state.to_vec();
    for change in row.split(", ") {
        match numbers(change)[..] {
            [at, to] if change.starts_with("byte ") => memory[at as usize] = to as u8,
            [lent] if change.ends_with(" bytes lent") => memory.truncate(lent as usize),
            _ => panic!("no change: {change}"),
        }
    }
    assert_ne!(memory, state, "{row}");
    memory
}

/// "(c) 25", or "none".
fn told(found: Option<Finding>) -> String {
    found.map_or("none".into(), |found| {
        format!("({}) {}", found.rule, found.item)
    })
}

#[test]
fn the_pages_examples_are_found_so() {
    let state = state();
    assert_eq!(PROVED.finds(&state), Ok(None));
    for (wanted, row) in rows() {
        let memory = changed(&state, row);
        assert_eq!(told(finding::first(&memory)), wanted, "{row}");
        let judged = reader::judged(&memory);
        let found = PROVED.agrees(&memory, memory.len(), &judged);
        assert_eq!(found.map(told), Ok(wanted.into()), "{row}");
    }
}

/// Every rule has its examples: one for each way in which it can be broken, and
/// so for every kind of item.
#[test]
fn the_page_has_an_example_for_each_way_to_break_a_rule() {
    let (state, rows) = (state(), rows());
    let examples = |rule: &str| {
        rows.iter()
            .filter(|(found, _)| found.starts_with(rule))
            .count()
    };
    let rules = [
        "none", "(a)", "(b)", "(c)", "(d)", "(e)", "(f)", "(g)", "(i)",
    ];
    assert_eq!(rules.map(examples), [5, 10, 4, 5, 2, 2, 7, 3, 3]);
    let way = |(_, row): &(&str, &str)| finding::first(&changed(&state, row));
    let found = rows.iter().filter_map(way);
    let mut ways: Vec<(char, &str)> = found.map(|found| (found.rule, found.way)).collect();
    let mut wanted = WAYS.to_vec();
    ways.sort_unstable();
    ways.dedup();
    wanted.sort_unstable();
    assert_eq!(ways, wanted);
}
