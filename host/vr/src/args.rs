//! The command line.

mod header;
mod help;
mod replay;
mod simulate;

use std::ffi::{OsStr, OsString};
use std::path::PathBuf;

use ventorupo::{Form, Header};

use crate::layout::MEMORIES;
use crate::packets::Names;
use crate::simulate::Simulate;
use crate::trouble::Trouble;
pub use help::Topic;

/// What is to be done.
#[derive(Debug, PartialEq, Eq)]
pub enum Command {
    Help(Topic),
    Version,
    Explain {
        image: PathBuf,
    },
    Dump {
        image: PathBuf,
        packets: Option<Names>,
        json: bool,
    },
    Repair {
        image: PathBuf,
        new: PathBuf,
    },
    Waits {
        image: PathBuf,
        svg: Option<PathBuf>,
    },
    Replay(Replay),
    Simulate(Simulate),
    Make {
        form: Form,
        header: Header,
        new: Option<PathBuf>,
    },
    Show {
        form: Form,
        given: Given,
        json: bool,
    },
}

/// A stream that is to be replayed.
#[derive(Debug, PartialEq, Eq)]
pub struct Replay {
    pub stream: Source,
    /// What it starts from, if not from a setup of its own.
    pub image: Option<PathBuf>,
    /// Whether to show what stands where at the end.
    pub dump: bool,
    /// Where to write what it leaves.
    pub new: Option<PathBuf>,
}

/// Where a stream comes from.
#[derive(Debug, PartialEq, Eq)]
pub enum Source {
    File(PathBuf),
    /// Standard input.
    Input,
}

/// The word for standard input.
const INPUT: &str = "-";

/// A header that is to be shown.
#[derive(Debug, PartialEq, Eq)]
pub enum Given {
    Bytes(Vec<u8>),
    File(PathBuf),
    /// Standard input.
    Input,
}

/// The options that have files' names behind them.
const NAMING: [&str; 3] = ["-o", "--svg", "--packets"];

/// The words behind a command.
#[derive(Default)]
struct Rest {
    image: Option<PathBuf>,
    packets: Option<Names>,
    json: bool,
    new: Option<PathBuf>,
}

/// What a command line asks for.
pub fn command(words: impl Iterator<Item = OsString>) -> Result<Command, Trouble> {
    let mut words = words;
    let name = words.next().ok_or_else(|| bad("no command".into()))?;
    let words: Vec<OsString> = words.collect();
    if let Some(topic) = topic(&name, &words) {
        return Ok(Command::Help(topic));
    }
    match name.to_str() {
        Some("help" | "--help" | "-h") => alone(&name, &words, Command::Help(Topic::All)),
        Some("--version") => alone(&name, &words, Command::Version),
        Some("explain") => {
            let image = named(rest(words, &[])?.image)?;
            Ok(Command::Explain { image })
        }
        Some("dump") => {
            let rest = rest(words, &["--packets", "--json"])?;
            let (image, packets, json) = (named(rest.image)?, rest.packets, rest.json);
            Ok(Command::Dump {
                image,
                packets,
                json,
            })
        }
        Some("repair") => {
            let rest = rest(words, &["-o"])?;
            let image = named(rest.image)?;
            let new = rest.new.ok_or_else(|| bad("repair needs -o NEW".into()))?;
            Ok(Command::Repair { image, new })
        }
        Some("waits") => {
            let rest = rest(words, &["--svg"])?;
            let (image, svg) = (named(rest.image)?, rest.new);
            Ok(Command::Waits { image, svg })
        }
        Some("replay") => replay::command(words),
        Some("simulate") => simulate::command(words),
        Some("header") => header::command(words),
        _ => Err(bad(format!("{} is no command", quoted(&name)))),
    }
}

/// The part of the help that is asked for behind a command.
fn topic(name: &OsStr, words: &[OsString]) -> Option<Topic> {
    let helps = |word: &OsString| word == "--help" || word == "-h";
    if !words.iter().any(helps) {
        return None;
    }
    match (name.to_str()?, words.first()?.to_str()) {
        ("explain", _) => Some(Topic::Explain),
        ("dump", _) => Some(Topic::Dump),
        ("repair", _) => Some(Topic::Repair),
        ("waits", _) => Some(Topic::Waits),
        ("replay", _) => Some(Topic::Replay),
        ("simulate", _) => Some(Topic::Simulate),
        ("header", Some("make")) => Some(Topic::Make),
        ("header", Some("show")) => Some(Topic::Show),
        ("header", _) => Some(Topic::Header),
        _ => None,
    }
}

/// A command that has no words behind it.
fn alone(name: &OsStr, words: &[OsString], command: Command) -> Result<Command, Trouble> {
    match words.first() {
        Some(word) => {
            let (word, name) = (quoted(word), name.to_string_lossy());
            Err(bad(format!("{word} is one word too many behind {name}")))
        }
        None => Ok(command),
    }
}

/// The words behind a command that takes these options.
fn rest(words: Vec<OsString>, options: &[&str]) -> Result<Rest, Trouble> {
    let mut words = words.into_iter();
    let mut rest = Rest::default();
    while let Some(word) = words.next() {
        let taken = |option: &&str| options.contains(option);
        let joined = |option: &&str| taken(option) && name_joined(&word, option).is_some();
        match word.to_str().filter(taken) {
            Some("--json") => rest.json = true,
            Some("--packets") => rest.put_packets(&mut words)?,
            Some(option) => rest.put_new(option, words.next())?,
            None => match NAMING.into_iter().find(joined) {
                Some(option) => return Err(unknown(&word, option)),
                None => rest.put_image(word)?,
            },
        }
    }
    Ok(rest)
}

impl Rest {
    fn put_new(&mut self, option: &str, name: Option<OsString>) -> Result<(), Trouble> {
        once(option, self.new.replace(name_behind(option, name)?))
    }

    fn put_packets(&mut self, words: &mut impl Iterator<Item = OsString>) -> Result<(), Trouble> {
        let needs = format!("--packets needs {MEMORIES} names behind it");
        let mut names = Names::default();
        for name in &mut names {
            *name = file_name(&needs, words.next())?;
        }
        once("--packets", self.packets.replace(names))
    }

    fn put_image(&mut self, word: OsString) -> Result<(), Trouble> {
        match &self.image {
            _ if is_dashed(&word) => Err(no_option(&word)),
            Some(_) => Err(bad(format!("{} is one name too many", quoted(&word)))),
            None => {
                self.image = Some(word.into());
                Ok(())
            }
        }
    }
}

/// The name of a file, which stands behind an option.
fn name_behind(option: &str, name: Option<OsString>) -> Result<PathBuf, Trouble> {
    file_name(&format!("{option} needs a name behind it"), name)
}

/// The name of a file where one is needed.
fn file_name(needs: &str, name: Option<OsString>) -> Result<PathBuf, Trouble> {
    let name = name.filter(|name| !name.is_empty());
    let name = name.ok_or_else(|| bad(needs.into()))?;
    if is_dashed(&name) {
        let (word, file) = (quoted(&name), file_named(&name));
        return Err(bad(format!("{needs}, not {word}; {file}")));
    }
    Ok(name.into())
}

/// An option stands there once: behind none that was there before.
fn once<T>(option: &str, before: Option<T>) -> Result<(), Trouble> {
    match before {
        Some(_) => Err(bad(format!("{option} is there twice"))),
        None => Ok(()),
    }
}

/// The name that is written as in `-o=name`.
fn name_joined(word: &OsStr, option: &str) -> Option<String> {
    let word = word.to_string_lossy();
    let behind = word.strip_prefix(option)?.strip_prefix('=');
    behind.map(String::from)
}

/// A word where a command that has this option takes no name, so that none is
/// meant.
fn unknown(word: &OsStr, option: &str) -> Trouble {
    let name = name_joined(word, option);
    let write = name.map_or_else(String::new, |name| format!("; write `{option} {name}`"));
    bad(format!("{} is no option here{write}", quoted(word)))
}

fn no_option(word: &OsStr) -> Trouble {
    let (word, file) = (quoted(word), file_named(word));
    bad(format!("{word} is no option here; {file}"))
}

fn named(image: Option<PathBuf>) -> Result<PathBuf, Trouble> {
    image.ok_or_else(|| bad("no image is named".into()))
}

/// Whether a word looks like an option: so it is no file's name.
fn is_dashed(word: &OsStr) -> bool {
    word.to_string_lossy().starts_with('-')
}

/// What to write if a file of such a name is meant.
fn file_named(word: &OsStr) -> String {
    format!(
        "for a file of that name write `./{}`",
        word.to_string_lossy()
    )
}

fn quoted(word: &OsStr) -> String {
    format!("`{}`", word.to_string_lossy())
}

/// A wrong command line.
fn bad(what: String) -> Trouble {
    Trouble(format!("{what} (`vr help` tells the commands)"))
}

#[cfg(test)]
mod tests {
    use super::*;

    fn told(line: &str) -> Result<Command, String> {
        let words = line.split_whitespace().map(OsString::from);
        command(words).map_err(|trouble| trouble.to_string())
    }

    #[test]
    fn commands_are_read() {
        let image = || PathBuf::from("i");
        let explain = Command::Explain { image: image() };
        assert_eq!(told("explain i"), Ok(explain));
        let packets = Some(["a", "b", "c", "./-d"].map(PathBuf::from));
        for (line, packets, json) in [
            ("dump i", None, false),
            ("dump i --json", None, true),
            ("dump --json i", None, true),
            ("dump i --packets a b c ./-d", packets.clone(), false),
            ("dump --packets a b c ./-d --json i", packets.clone(), true),
            ("dump --packets a b c ./-d i --json", packets, true),
        ] {
            let image = image();
            let dump = Command::Dump {
                image,
                packets,
                json,
            };
            assert_eq!(told(line), Ok(dump));
        }
        for line in ["repair i -o n", "repair -o n i"] {
            let (image, new) = (image(), PathBuf::from("n"));
            assert_eq!(told(line), Ok(Command::Repair { image, new }));
        }
        let svg = Some(PathBuf::from("n"));
        for (line, svg) in [
            ("waits i", None),
            ("waits i --svg n", svg.clone()),
            ("waits --svg n i", svg),
            ("waits --svg ./--svg i", Some("./--svg".into())),
        ] {
            let image = image();
            assert_eq!(told(line), Ok(Command::Waits { image, svg }));
        }
        // Such names as they are to be written.
        for line in ["repair ./-i -o ./--json", "repair -o ./--json ./-i"] {
            let (image, new) = (PathBuf::from("./-i"), PathBuf::from("./--json"));
            assert_eq!(told(line), Ok(Command::Repair { image, new }));
        }
    }

    #[test]
    fn help_is_of_the_command_before_it() {
        for (line, topic) in [
            ("help", Topic::All),
            ("--help", Topic::All),
            ("-h", Topic::All),
            ("explain --help", Topic::Explain),
            ("dump -h", Topic::Dump),
            ("dump i --json --help", Topic::Dump),
            ("repair --help", Topic::Repair),
            ("repair i -o --help", Topic::Repair),
            ("waits --help", Topic::Waits),
            ("waits i --svg -h", Topic::Waits),
            ("replay --help", Topic::Replay),
            ("replay s --image i -h", Topic::Replay),
            ("simulate --help", Topic::Simulate),
            ("simulate --svg -h", Topic::Simulate),
            ("header --help", Topic::Header),
            ("header mak --help", Topic::Header),
            ("header make -h", Topic::Make),
            ("header make --queue --help", Topic::Make),
            ("header show 00 --help", Topic::Show),
        ] {
            assert_eq!(told(line), Ok(Command::Help(topic)), "{line}");
        }
        assert_eq!(told("--version"), Ok(Command::Version));
    }

    #[test]
    fn headers_are_read_behind_their_name() {
        let show = Command::Show {
            form: Form::TEN_BYTES,
            given: Given::Bytes(vec![0xAB]),
            json: false,
        };
        assert_eq!(told("header show ab"), Ok(show));
    }

    #[test]
    fn wrong_lines_are_told_apart() {
        for (line, what) in [
            ("", "no command"),
            ("header", "header needs make or show behind it"),
            ("mend i", "`mend` is no command"),
            ("mend --help", "`mend` is no command"),
            ("help foo", "`foo` is one word too many behind help"),
            (
                "--help explain",
                "`explain` is one word too many behind --help",
            ),
            ("-h --help", "`--help` is one word too many behind -h"),
            ("--version 1", "`1` is one word too many behind --version"),
            ("explain", "no image is named"),
            ("explain i j", "`j` is one name too many"),
            (
                "explain i --json",
                "`--json` is no option here; for a file of that name write `./--json`",
            ),
            (
                "dump -x",
                "`-x` is no option here; for a file of that name write `./-x`",
            ),
            (
                "dump i -o n",
                "`-o` is no option here; for a file of that name write `./-o`",
            ),
            ("dump --packets a b c d", "no image is named"),
            ("dump i --packets a b c d e", "`e` is one name too many"),
            ("dump i --packets", "--packets needs 4 names behind it"),
            (
                "dump i --packets a b c",
                "--packets needs 4 names behind it",
            ),
            (
                "dump i --packets a b --json c d",
                "--packets needs 4 names behind it, not `--json`; for a file of that name write `./--json`",
            ),
            (
                "dump i --packets a b c d --packets a b c d",
                "--packets is there twice",
            ),
            (
                "dump i --packets=a b c d",
                "`--packets=a` is no option here; write `--packets a`",
            ),
            (
                "explain i --packets a b c d",
                "`--packets` is no option here; for a file of that name write `./--packets`",
            ),
            ("repair i", "repair needs -o NEW"),
            ("repair -o n", "no image is named"),
            ("repair i -o", "-o needs a name behind it"),
            (
                "repair i -o -",
                "-o needs a name behind it, not `-`; for a file of that name write `./-`",
            ),
            (
                "repair -o --json i",
                "-o needs a name behind it, not `--json`; for a file of that name write `./--json`",
            ),
            ("repair i -o n -o n", "-o is there twice"),
            ("repair i -o=n", "`-o=n` is no option here; write `-o n`"),
            (
                "dump i -o=n",
                "`-o=n` is no option here; for a file of that name write `./-o=n`",
            ),
            ("repair i n", "`n` is one name too many"),
            ("waits", "no image is named"),
            ("waits --svg n", "no image is named"),
            ("waits i j", "`j` is one name too many"),
            ("waits i --svg n j", "`j` is one name too many"),
            ("waits i --svg", "--svg needs a name behind it"),
            (
                "waits --svg -n i",
                "--svg needs a name behind it, not `-n`; for a file of that name write `./-n`",
            ),
            ("waits i --svg n --svg n", "--svg is there twice"),
            (
                "waits i --svg=n",
                "`--svg=n` is no option here; write `--svg n`",
            ),
            (
                "waits i -o n",
                "`-o` is no option here; for a file of that name write `./-o`",
            ),
            (
                "waits i --json",
                "`--json` is no option here; for a file of that name write `./--json`",
            ),
            (
                "repair i -o n --svg m",
                "`--svg` is no option here; for a file of that name write `./--svg`",
            ),
            (
                "dump i --json=n",
                "`--json=n` is no option here; for a file of that name write `./--json=n`",
            ),
        ] {
            let wanted = format!("{what} (`vr help` tells the commands)");
            assert_eq!(told(line), Err(wanted));
        }
    }
}
