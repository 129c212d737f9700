//! `vr`, the night crew's tool over images of a switch's state, over streams of calls
//! and over headers, and a night to look at. What an image, a field or a header is worth is said by the proved
//! library; what an image holds, in words, tables, bars and JSON, and why a field is
//! bad or a header is none, by readers of this crate's own, written from docs/LAYOUT.md
//! and include/ventorupo.h.

#![forbid(unsafe_code)]

pub mod args;
pub mod buckets;
mod fields;
mod files;
mod header;
mod hex;
pub mod image;
pub mod json;
pub mod layout;
pub mod lists;
mod mend;
pub mod packets;
mod progress;
mod replay;
pub mod simulate;
mod stream;
pub mod svg;
pub mod table;
mod tally;
mod trouble;
pub mod view;
pub mod waits;
pub mod words;

use std::ffi::OsString;
use std::path::{Path, PathBuf};

use args::Command;
use files::Start;
use image::Image;
use packets::{Memories, Names};
pub use trouble::Trouble;
use view::View;
use waits::Drawing;

/// The exit status of what could not be done.
pub const TROUBLE: u8 = 2;

/// What is said of a repair that the library refuses.
const REFUSED: &str = "repair refused (3): it needs settings in their rows and an image long enough for them; nothing was written";

/// What a command says, and its exit status.
#[derive(Debug, PartialEq, Eq)]
pub struct Answer {
    /// On standard output.
    pub text: String,
    /// On standard error: what is no part of what a pipe is to carry.
    pub aside: Option<String>,
    pub status: u8,
    /// The file that it has made, which is there also if nothing can be said.
    pub written: Option<PathBuf>,
}

impl Answer {
    /// Of a command that has made no file.
    fn new(text: String, status: u8) -> Answer {
        Answer {
            text,
            aside: None,
            status,
            written: None,
        }
    }
}

/// Do what a command line asks for.
pub fn answer(words: impl Iterator<Item = OsString>) -> Result<Answer, Trouble> {
    match args::command(words)? {
        Command::Help(topic) => Ok(Answer::new(topic.text(), 0)),
        Command::Version => Ok(Answer::new(version(), 0)),
        Command::Explain { image } => Ok(explain(&view(&files::read(&image)?))),
        Command::Dump {
            image,
            packets,
            json,
        } => dump(&image, packets.as_ref(), json),
        Command::Repair { image, new } => repair(&image, &new),
        Command::Waits { image, svg } => waits(&image, svg.as_deref()),
        Command::Replay(asked) => replay::replay(&asked),
        Command::Simulate(asked) => simulate::simulate(&asked),
        Command::Make { form, header, new } => header::make(form, &header, new.as_deref()),
        Command::Show { form, given, json } => header::show(form, given, json),
    }
}

fn version() -> String {
    format!("vr {}\n", env!("CARGO_PKG_VERSION"))
}

fn view(start: &Start) -> View<'_> {
    View::new(&start.bytes, start.there, ventorupo::find(&start.bytes))
}

/// The first line says it; the second, of a broken state, which rule that is;
/// the third, if there is one, what else it may be.
pub fn explain(view: &View) -> Answer {
    let mut text = format!("{}\n", view.top());
    if let Some(finding) = view.finding {
        let (letter, asks) = (finding.rule.letter(), finding.rule.asks());
        text += &format!("rule ({letter}): {asks}; item {}\n", finding.item);
    }
    text += &view.hint_line();
    Answer::new(text, view.status())
}

fn dump(path: &Path, packets: Option<&Names>, json: bool) -> Result<Answer, Trouble> {
    let start = files::read(path)?;
    let mut view = view(&start);
    let memories = packets.map(|names| Memories::read(&view.image, path, names));
    view.packets = memories.transpose()?;
    let text = if json {
        json::json(&view)
    } else {
        table::table(&view)
    };
    Ok(Answer::new(text, view.status()))
}

fn repair(path: &Path, new: &Path) -> Result<Answer, Trouble> {
    let mut start = files::read(path)?;
    let before = start.bytes.clone();
    let was = View::new(&before, start.there, ventorupo::find(&before));
    if ventorupo::repair(&mut start.bytes).is_err() {
        let text = format!("{}\n{REFUSED}\n{}", was.top(), was.hint_line());
        return Ok(Answer::new(text, 1));
    }
    let mut text = mend::told(&was, &Image::new(&start.bytes));
    start.write(new)?;
    text += &written(new, path);
    Ok(Answer {
        written: Some(new.into()),
        ..Answer::new(text, 0)
    })
}

/// The line that says what was written, and what was not.
fn written(new: &Path, image: &Path) -> String {
    format!(
        "written: {}; {} is as it was\n",
        new.display(),
        image.display()
    )
}

/// The waits drawn, and in a new file if one is named.
fn waits(path: &Path, new: Option<&Path>) -> Result<Answer, Trouble> {
    let start = files::read(path)?;
    let view = view(&start);
    let drawing = Drawing::of(&view);
    let mut answer = Answer::new(drawing.text(), view.status());
    if let Some(new) = new {
        start.write_beside(new, svg::picture(&drawing).as_bytes())?;
        answer.text += &format!("\n{}", written(new, path));
        answer.written = Some(new.into());
    }
    Ok(answer)
}
