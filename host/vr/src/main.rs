//! `vr`: see `vr help`.

use std::env;
use std::io::{self, ErrorKind, Write};
use std::process::ExitCode;

use vr::{Answer, Trouble, TROUBLE};

fn main() -> ExitCode {
    let said = vr::answer(env::args_os().skip(1)).and_then(say);
    ExitCode::from(said.unwrap_or_else(complain))
}

/// Write the answer. A reader that has gone away has read what it wanted.
fn say(answer: Answer) -> Result<u8, Trouble> {
    let mut out = io::stdout();
    let written = out
        .write_all(answer.text.as_bytes())
        .and_then(|()| out.flush());
    match written {
        Err(why) if why.kind() != ErrorKind::BrokenPipe => Err(unsaid(why, answer)),
        _ => {
            tell(answer.aside);
            Ok(answer.status)
        }
    }
}

/// Write a line on standard error; where that is closed, nobody wants it.
fn tell(line: Option<String>) {
    if let Some(line) = line {
        let _ = writeln!(io::stderr(), "{line}");
    }
}

/// The answer could not be said; but what it tells of is done.
fn unsaid(why: io::Error, answer: Answer) -> Trouble {
    let mut what = format!("standard output: {why}");
    if let Some(new) = answer.written {
        what += &format!("; {} was written", new.display());
    }
    Trouble(what)
}

/// Say why on standard error; where that is closed too, the status says it alone.
fn complain(trouble: Trouble) -> u8 {
    let _ = writeln!(io::stderr(), "vr: {trouble}");
    TROUBLE
}
