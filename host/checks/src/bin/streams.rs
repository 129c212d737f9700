//! Runs the bench program, given by its path, on setups at the edge of its
//! memory, and on seeded streams of tagged fields, and compares what it writes
//! with the model's bench, line for line.
//!
//!     streams BENCH STREAMS SEED

use std::io::Write;
use std::process::{exit, Command, Stdio};

use model::{Call, Settings};

/// Setups of so many nodes, with nothing else at an edge.
fn setups(nodes: &[u32]) -> Vec<u8> {
    let settings = |&nodes| Settings::ten_bytes(nodes, 64, 1, 16);
    nodes
        .iter()
        .flat_map(|nodes| traffic::field(&Call::Setup(settings(nodes))).expect("a field"))
        .collect()
}

fn started(program: &str, input: &[u8]) -> std::io::Result<Vec<u8>> {
    let mut child = Command::new(program)
        .stdin(Stdio::piped())
        .stdout(Stdio::piped())
        .spawn()?;
    let mut to = child.stdin.take().expect("a pipe");
    let bytes = input.to_vec();
    // Written from a thread, since the program may answer before it has read all; it may also end at a bad field and leave the rest.
    let writer = std::thread::spawn(move || {
        let _ = to.write_all(&bytes);
    });
    let output = child.wait_with_output()?;
    let _ = writer.join();
    Ok(output.stdout)
}

/// What the program says of an input; without it there is nothing to compare.
fn run(program: &str, input: &[u8]) -> Vec<u8> {
    started(program, input).unwrap_or_else(|e| {
        eprintln!("streams: {program} does not run: {e}");
        exit(1);
    })
}

fn main() {
    let words: Vec<String> = std::env::args().collect();
    if words.len() != 4 {
        eprintln!("usage: streams BENCH STREAMS SEED");
        exit(2);
    }
    let count: u64 = words[2].parse().expect("a number of streams");
    let first: u64 = words[3].parse().expect("a seed");
    // 65,536 bytes are enough for 1,133 nodes a port; 2,049 are in no row.
    let said = run(&words[1], &setups(&[1133, 1134, 2048, 2049]));
    if said != b"1 0\n2 1\n3 1\n4 2\n" {
        let said = String::from_utf8_lossy(&said);
        eprintln!("streams: setups of 1,133, 1,134, 2,048 and 2,049 nodes: {said}");
        exit(1);
    }
    let mut lines = 0;
    for i in 0..count {
        let seed = first + i;
        let fields = [0, 1, 3, 30, 300, 3000][(i % 6) as usize];
        let input = traffic::stream(seed, fields);
        let said = run(&words[1], &input);
        let expected = model::bench::bench(&input);
        if said != expected {
            let a = String::from_utf8_lossy(&said);
            let b = String::from_utf8_lossy(&expected);
            for (n, (x, y)) in a.lines().zip(b.lines()).enumerate() {
                if x != y {
                    eprintln!("line {}: bench says '{}', the model '{}'", n + 1, x, y);
                    break;
                }
            }
            eprintln!("streams: seed {} with {} fields differs", seed, fields);
            exit(1);
        }
        lines += expected.iter().filter(|b| **b == b'\n').count();
    }
    println!(
        "bench program: {} streams, {} lines, as the model's",
        count, lines
    );
}
