//! `vr replay`: the fields of a stream carried out by the library, in runs.

use std::io::{self, Read, Stderr};
use std::mem;
use std::path::Path;
use std::time::{Duration, Instant};

use ventorupo::{Form, Refusal, Settings, Switch};

use crate::args::Replay;
use crate::files::{self, Start, Stream};
use crate::image::Image;
use crate::progress::{self, Progress};
use crate::stream::{self, Front, Pieces, SETUP};
use crate::table;
use crate::tally::Tally;
use crate::trouble::Trouble;
use crate::view::{counted, View};
use crate::words;
use crate::{view, written, Answer, TROUBLE};

/// The most bytes of a run: so many that the test of the memory takes a small share
/// of the time, and so few that one takes no long time.
const PIECE: usize = 1 << 18;

/// The largest switch that a setup's field can ask for.
const LARGEST: Settings = Settings::ten_bytes()
    .nodes(2048)
    .beat(64)
    .slots(1)
    .credit(0);

/// What is said of an image that the library refuses.
const REFUSED: &str = "replay refused (3): it needs a switch state to start from";

/// What is said where there is none at the end.
const NO_STATE: &str =
    "no switch state: no setup was carried out; with --image IMAGE a replay starts from a state";

/// Replay a stream, and say what came of it.
pub fn replay(asked: &Replay) -> Result<Answer, Trouble> {
    let new = asked.new.as_deref();
    new.map_or(Ok(()), files::vacant)?;
    let mut image = asked.image.as_deref().map(files::read).transpose()?;
    if let Some(refused) = image.as_ref().and_then(refused) {
        return Ok(refused);
    }
    let mut stream = files::stream(&asked.stream)?;
    let memory = image.as_mut().map(|start| mem::take(&mut start.bytes));
    let replayed = run(&mut stream, memory.unwrap_or_else(zeros))?;
    let mut answer = Answer::new(replayed.text(), replayed.status());
    let state = replayed.state;
    let left = Left::new(replayed.memory, image);
    if asked.dump && state {
        answer.text += &format!("\n{}", table::table(&left.view()));
    }
    match new {
        Some(_) if !state => answer.text += "nothing was written\n",
        Some(new) => said_of(&mut answer, asked, new, left.write(new, &stream)),
        None => {}
    }
    Ok(answer)
}

/// The new file is told of. What the replay came to is said also where there is none.
fn said_of(answer: &mut Answer, asked: &Replay, new: &Path, done: Result<(), Trouble>) {
    match done {
        Ok(()) => {
            let line = match &asked.image {
                Some(image) => written(new, image),
                None => format!("written: {}\n", new.display()),
            };
            answer.text += &format!("\n{line}");
            answer.written = Some(new.into());
        }
        Err(trouble) => {
            answer.aside = Some(format!("vr: {trouble}"));
            answer.status = TROUBLE;
        }
    }
}

/// What is said of an image that is no state.
fn refused(image: &Start) -> Option<Answer> {
    let view = view(image);
    let found = view.found()?;
    let text = format!("{found}\n{REFUSED}\n{}", view.hint_line());
    Some(Answer::new(text, 1))
}

/// Memory in which every setup that is right has room.
fn zeros() -> Vec<u8> {
    vec![0; ventorupo::size(&LARGEST).expect("settings in their rows")]
}

fn run(stream: &mut Stream, memory: Vec<u8>) -> Result<Replayed, Trouble> {
    let watched = progress::is_watched().then(io::stderr);
    let runner = Runner {
        switch: Switch::over(memory),
        pieces: Pieces::new(&mut stream.bytes, PIECE),
        room: Vec::new(),
        tally: Tally::default(),
        took: Duration::ZERO,
        started: Instant::now(),
        progress: watched.map(|out| Progress::new(out, stream.there)),
    };
    let replayed = runner.all();
    replayed.map_err(|why| Trouble::with(&stream.name, why))
}

/// What a replay came to.
struct Replayed {
    memory: Vec<u8>,
    /// Whether it is a switch state.
    state: bool,
    tally: Tally,
    /// Where in the stream it stopped.
    at: u64,
    /// What is wrong with the field there; none at the end.
    bad: Option<String>,
    /// The time that the calls took.
    took: Duration,
}

impl Replayed {
    /// 0 at the stream's end, 1 at a bad field or where nothing could be done.
    fn status(&self) -> u8 {
        (self.bad.is_some() || !self.state).into()
    }

    fn text(&self) -> String {
        let calls = self.tally.calls();
        let (many, bytes) = (counted(calls, "call"), counted(self.at, "byte"));
        let mut text = match &self.bad {
            None => format!("{many}, {bytes}: to the end of the stream\n"),
            Some(why) => {
                let (number, at) = (calls + 1, self.at);
                format!(
                    "{many}, {bytes}; stopped at field {number}, byte {at}, a bad field: {why}\n"
                )
            }
        };
        text += &speed(calls, self.took);
        text += &self.tally.text();
        if !self.state {
            text += &format!("\n{NO_STATE}\n");
        }
        text
    }
}

/// How fast the library was.
fn speed(calls: u64, took: Duration) -> String {
    let seconds = took.as_secs_f64();
    if calls == 0 || took.is_zero() {
        return String::new();
    }
    let speed = calls as f64 / seconds;
    format!("{seconds:.6} s in the library: {speed:.0} calls a second\n")
}

/// A replay under way.
struct Runner<R> {
    switch: Switch<Vec<u8>>,
    pieces: Pieces<R>,
    /// For the answers of a run.
    room: Vec<u8>,
    tally: Tally,
    took: Duration,
    started: Instant,
    /// None where nobody looks.
    progress: Option<Progress<Stderr>>,
}

impl<R: Read> Runner<R> {
    /// To the end, or to a bad field.
    fn all(mut self) -> io::Result<Replayed> {
        let bad = loop {
            let state = self.run();
            self.tell();
            let front = Front::of(self.pieces.rest());
            match front {
                Front::Nothing | Front::Cut if !self.pieces.ended => self.fill()?,
                Front::Nothing => break None,
                Front::Setup(settings) => self.set_up(settings, front.bytes()),
                // As the bench program has it: before a setup every call is refused 3.
                Front::Field { tag, length } if !state && stream::is_call(tag, length) => {
                    self.tally.put(tag, Some(Refusal::NoState));
                    self.pieces.pass(front.bytes());
                }
                Front::Cut | Front::Field { .. } => break Some(self.why_bad()),
            }
        };
        Ok(Replayed {
            state: self.switch.find().is_none(),
            memory: self.switch.into_memory(),
            tally: self.tally,
            at: self.pieces.at,
            bad,
            took: self.took,
        })
    }

    /// A run of what is there, as far as it goes; false if there is no state for it.
    fn run(&mut self) -> bool {
        let fields = self.pieces.rest();
        // No field is shorter than its answer.
        self.room.resize(fields.len(), 0);
        let start = Instant::now();
        let ran = self.switch.run_fields(fields, &mut self.room);
        self.took += start.elapsed();
        let ran = match ran {
            Ok(ran) => ran,
            Err(_) => return false,
        };
        for answer in ran.answers(fields, &self.room) {
            self.tally.put_answer(answer);
        }
        let done = ran.bytes(fields);
        self.pieces.pass(done);
        true
    }

    /// No run has a setup, so it is a call of its own.
    fn set_up(&mut self, settings: Settings, bytes: usize) {
        let start = Instant::now();
        let answer = self.switch.setup_again(settings);
        self.took += start.elapsed();
        self.tally.put(SETUP, answer.err());
        self.pieces.pass(bytes);
    }

    fn fill(&mut self) -> io::Result<()> {
        let filled = self.pieces.fill();
        filled.map_err(|why| {
            let (at, calls) = (self.pieces.at, counted(self.tally.calls(), "call"));
            io::Error::new(why.kind(), format!("{why}, at byte {at}, after {calls}"))
        })
    }

    fn tell(&mut self) {
        if let Some(progress) = &mut self.progress {
            let after = self.started.elapsed();
            progress.tell(after, self.pieces.at, self.tally.calls());
        }
    }

    fn why_bad(&self) -> String {
        let image = Image::new(self.switch.memory());
        let state = self.switch.find().is_none();
        let form = words::form(&image).filter(|_| state);
        stream::why_bad(self.pieces.rest(), form.unwrap_or(Form::TEN_BYTES))
    }
}

/// What a replay has left.
enum Left {
    /// Of an image.
    Image(Start),
    /// Of a setup: the state's bytes alone.
    State(Vec<u8>),
}

impl Left {
    fn new(mut memory: Vec<u8>, image: Option<Start>) -> Left {
        match image {
            Some(mut start) => {
                start.bytes = memory;
                Left::Image(start)
            }
            None => {
                let needed = Image::new(&memory).needed();
                memory.truncate(needed.unwrap_or(memory.len()));
                Left::State(memory)
            }
        }
    }

    fn view(&self) -> View<'_> {
        match self {
            Left::Image(start) => view(start),
            Left::State(bytes) => View::new(bytes, bytes.len() as u64, ventorupo::find(bytes)),
        }
    }

    fn write(self, new: &Path, stream: &Stream) -> Result<(), Trouble> {
        match self {
            Left::Image(start) => start.write(new),
            Left::State(bytes) => stream.write_beside(new, &bytes),
        }
    }
}
