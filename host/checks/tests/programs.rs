//! The programs themselves: what they are given, what they say of how much they
//! did, and that a reader who goes away does no harm. Their long runs are the
//! gate's.

use std::io::Read;
use std::process::{Command, Output, Stdio};

const HEADERS: &str = env!("CARGO_BIN_EXE_headers");
const SOAK: &str = env!("CARGO_BIN_EXE_soak");
const WORST_WAIT: &str = env!("CARGO_BIN_EXE_worst_wait");

fn run(program: &str, words: &str) -> Output {
    Command::new(program)
        .args(words.split(' '))
        .output()
        .unwrap()
}

/// Its lines, of a run that ended well.
fn said(program: &str, words: &str) -> String {
    let output = run(program, words);
    let text = String::from_utf8(output.stdout).unwrap();
    assert_eq!(output.status.code(), Some(0), "{words}: {text}");
    assert_eq!(output.stderr, b"");
    text
}

/// A run of nothing, words too many, no numbers, and numbers that do not fit.
#[test]
fn words_that_are_not_the_usages_are_refused() {
    let refused = [
        (HEADERS, vec!["0", "x", "-1", "", "_", "1 x", "1000 2 9"]),
        (HEADERS, vec!["18446744073709551616", "1.5", "--help"]),
        (SOAK, vec!["0", "ten", "100 1 1", "100 -1"]),
        (WORST_WAIT, vec!["0", "x", "1 1 4", "1 1 4 24 1", "1 1 1 2"]),
        (
            WORST_WAIT,
            vec!["1 1 33 2", "1 1 4294967300 5", "1 1 4 4294967320"],
        ),
    ];
    for (program, all) in refused {
        for words in all {
            let output = run(program, words);
            assert_eq!(output.status.code(), Some(2), "{program} {words}");
            assert_eq!(output.stdout, b"");
            let usage = String::from_utf8(output.stderr).unwrap();
            assert!(usage.starts_with("usage: "), "{usage}");
            assert_eq!(usage.lines().count(), 1);
        }
    }
}

/// As many as were asked for, an odd one among them.
#[test]
fn as_much_is_said_as_was_done() {
    let one = said(HEADERS, "1 3");
    assert!(one.contains("\n1 headers in "), "{one}");
    assert!(one.ends_with("all agree; too few to ask for each answer\n"));
    let many = said(HEADERS, "150_001 3");
    assert!(many.contains("\n150001 headers in "), "{many}");
    assert!(many.ends_with("all agree; each answer came 150 times or more\n"));
    let waits = said(WORST_WAIT, "101 1 3 5");
    assert!(
        waits.ends_with("\n101 starts: no promise broken\n"),
        "{waits}"
    );
    let few = said(SOAK, "1");
    assert!(few.contains("calls compared") && few.contains("damaged memories: "));
    assert!(few.contains(" fields in "), "{few}");
    assert!(
        !few.contains("\n0 calls") && !few.contains("memories: 0") && !few.contains("\n0 fields"),
        "{few}"
    );
    assert!(few.ends_with("all agree; too few to ask for each answer\n"));
}

/// The first bytes are read and no more: no panic, and the status is the run's.
#[test]
fn a_reader_may_go_away() {
    for (program, words) in [(HEADERS, "300000"), (SOAK, "1000"), (WORST_WAIT, "20")] {
        let mut child = Command::new(program)
            .args(words.split(' '))
            .stdout(Stdio::piped())
            .stderr(Stdio::piped())
            .spawn()
            .unwrap();
        let mut out = child.stdout.take().unwrap();
        out.read_exact(&mut [0; 8]).unwrap();
        drop(out);
        let output = child.wait_with_output().unwrap();
        assert_eq!(String::from_utf8(output.stderr).unwrap(), "", "{program}");
        assert_eq!(output.status.code(), Some(0), "{program}");
    }
}
