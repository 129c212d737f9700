//! What the programs share: the words that they are given, and what they say.

use std::fmt::Display;
use std::io::{self, ErrorKind, Write};
use std::process::exit;

/// The words are not such as the usage says, or there is nobody to tell.
const TROUBLE: i32 = 2;

/// A line on standard output. A reader that has gone away has read what it
/// wanted: the run goes on, and its status says the rest.
pub fn say(line: impl Display) {
    let mut out = io::stdout();
    let written = writeln!(out, "{line}").and_then(|()| out.flush());
    match written {
        Err(why) if why.kind() != ErrorKind::BrokenPipe => {
            complain(format!("standard output: {why}"))
        }
        _ => {}
    }
}

/// Says why on standard error, and ends; where that is closed too, the status
/// says it alone.
fn complain(why: impl Display) -> ! {
    let _ = writeln!(io::stderr(), "{why}");
    exit(TROUBLE);
}

/// What was found, and the end.
pub fn fail(why: impl Display) -> ! {
    say(format!("FAILED: {why}"));
    exit(1);
}

/// A program's words, taken one by one. One that is no number, or one too many,
/// ends the program with its usage.
pub struct Words {
    usage: &'static str,
    left: std::vec::IntoIter<String>,
}

impl Words {
    /// Those that this program is given.
    pub fn given(usage: &'static str) -> Words {
        let words = std::env::args_os().skip(1);
        // One that is no text is no number either.
        let words: Vec<String> = words
            .map(|word| word.to_string_lossy().into_owned())
            .collect();
        Words {
            usage,
            left: words.into_iter(),
        }
    }

    pub fn refuse(&self) -> ! {
        complain(format!("usage: {}", self.usage));
    }

    /// The next word's number, if there is a word left.
    pub fn number(&mut self) -> Option<u64> {
        let word = self.left.next()?;
        match word.replace('_', "").parse() {
            Ok(number) => Some(number),
            Err(_) => self.refuse(),
        }
    }

    /// How many to do: at least one, since a run of nothing finds nothing.
    pub fn how_many(&mut self, default: u64) -> u64 {
        match self.number() {
            Some(0) => self.refuse(),
            number => number.unwrap_or(default),
        }
    }

    /// A number that must be there, and fit.
    pub fn small(&mut self) -> u32 {
        match self.number().map(u32::try_from) {
            Some(Ok(number)) => number,
            _ => self.refuse(),
        }
    }

    /// Is there another word?
    pub fn more(&self) -> bool {
        !self.left.as_slice().is_empty()
    }

    /// No word may be left.
    pub fn end(&self) {
        if self.more() {
            self.refuse();
        }
    }
}
