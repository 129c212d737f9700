//! What the calls of a stream answered, counted.

use std::collections::BTreeMap;

use ventorupo::{Answer, Refusal};

use crate::stream::{KINDS, TURN};
use crate::table::columns;
use crate::view::counted;

#[derive(Debug, Clone, Copy, Default, PartialEq, Eq)]
struct Counts {
    done: u64,
    /// Of those done.
    idle: u64,
    refused: u64,
}

/// Calls counted by their field's tag, and refusals by their number.
#[derive(Debug, Default, PartialEq, Eq)]
pub struct Tally {
    kinds: [Counts; KINDS.len()],
    refusals: BTreeMap<Refusal, u64>,
}

impl Tally {
    /// One call more: refused, or done.
    pub fn put(&mut self, tag: u8, refusal: Option<Refusal>) {
        let counts = &mut self.kinds[usize::from(tag) - 1];
        match refusal {
            Some(refusal) => {
                counts.refused += 1;
                *self.refusals.entry(refusal).or_default() += 1;
            }
            None => counts.done += 1,
        }
    }

    /// One call of a run more.
    pub fn put_answer(&mut self, answer: Answer) {
        self.put(answer.tag(), answer.refusal());
        if answer == Answer::Turned(Ok(None)) {
            self.kinds[usize::from(TURN) - 1].idle += 1;
        }
    }

    /// All calls, refused ones among them.
    pub fn calls(&self) -> u64 {
        let calls = self.kinds.iter().map(|counts| counts.done + counts.refused);
        calls.sum()
    }

    /// A row for each kind of call that was made, and a line for each refusal.
    pub fn text(&self) -> String {
        let names = ["call", "made", "done", "of them idle", "refused"];
        let mut rows = vec![names.map(String::from).to_vec()];
        for ((name, _), counts) in KINDS.iter().zip(self.kinds) {
            let Counts {
                done,
                idle,
                refused,
            } = counts;
            if done + refused > 0 {
                let numbers = [done + refused, done, idle, refused];
                let numbers = numbers.iter().map(u64::to_string);
                rows.push(std::iter::once(name.to_string()).chain(numbers).collect());
            }
        }
        match rows.len() {
            1 => String::new(),
            _ => format!("\n{}{}", columns("", &rows), self.refused()),
        }
    }

    fn refused(&self) -> String {
        let line = |(refusal, &calls): (&Refusal, &u64)| {
            let (number, calls) = (refusal.number(), counted(calls, "call"));
            format!("refused {number}, {refusal:?} ({refusal}): {calls}\n")
        };
        let lines: String = self.refusals.iter().map(line).collect();
        match lines.is_empty() {
            true => lines,
            false => format!("\n{lines}"),
        }
    }
}

#[cfg(test)]
mod tests {
    use super::*;
    use ventorupo::EntryId;

    #[test]
    fn calls_are_counted_by_kind_and_refusal() {
        let mut tally = Tally::default();
        assert_eq!((tally.calls(), tally.text()), (0, String::new()));
        let (entry, no_port) = (EntryId(0), Refusal::NoPort);
        for answer in [
            Answer::Arrived(Ok(entry)),
            Answer::Arrived(Err(Refusal::Checksum)),
            Answer::Arrived(Err(no_port)),
            Answer::Turned(Ok(Some(entry))),
            Answer::Turned(Ok(None)),
            Answer::Turned(Ok(None)),
            Answer::Mapped(Err(no_port)),
        ] {
            tally.put_answer(answer);
        }
        tally.put(1, None);
        assert_eq!(tally.calls(), 8);
        let wanted = "\n\
            \x20 call  made  done  of them idle  refused\n\
            \x20setup     1     1             0        0\n\
            arrive     3     1             0        2\n\
            \x20 turn     3     3             2        0\n\
            \x20  map     1     0             0        1\n\
            \n\
            refused 4, NoPort (port above the last): 2 calls\n\
            refused 7, Checksum (checksum differs): 1 call\n";
        assert_eq!(tally.text(), wanted);
    }

    /// Each kind of answer is counted as its own field's.
    #[test]
    fn every_kind_has_its_row() {
        let answers = [
            Answer::Arrived(Ok(EntryId(0))),
            Answer::Stitched(Ok(EntryId(0))),
            Answer::Prefetched(Ok(EntryId(0))),
            Answer::Turned(Ok(None)),
            Answer::Credited(Ok(())),
            Answer::Mapped(Ok(())),
        ];
        for (answer, (name, _)) in answers.into_iter().zip(&KINDS[1..]) {
            let mut tally = Tally::default();
            tally.put_answer(answer);
            let text = tally.text();
            let row = text.lines().nth(2).unwrap().trim_start().to_string();
            assert!(row.starts_with(name), "{text}");
            assert_eq!(text.lines().count(), 3);
        }
    }
}
