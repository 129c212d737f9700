//! The command line of `vr replay`.

use std::ffi::{OsStr, OsString};
use std::path::PathBuf;

use super::{bad, is_dashed, name_behind, name_joined, no_option, once, quoted, unknown};
use super::{Command, Replay, Source, INPUT};
use crate::trouble::Trouble;

/// The options that have a file's name behind them.
const NAMING: [&str; 2] = ["--image", "-o"];

/// The words behind `replay`.
#[derive(Default)]
struct Words {
    stream: Option<Source>,
    image: Option<PathBuf>,
    dump: bool,
    new: Option<PathBuf>,
}

/// What the words behind `replay` ask for.
pub fn command(words: Vec<OsString>) -> Result<Command, Trouble> {
    let mut words = words.into_iter();
    let mut read = Words::default();
    while let Some(word) = words.next() {
        match word.to_str() {
            Some("--dump") => read.dump = true,
            Some("--image") => put(&mut read.image, "--image", words.next())?,
            Some("-o") => put(&mut read.new, "-o", words.next())?,
            _ => read.put_stream(word)?,
        }
    }
    let Words {
        stream,
        image,
        dump,
        new,
    } = read;
    let stream = stream.ok_or_else(|| bad("no stream is named".into()))?;
    Ok(Command::Replay(Replay {
        stream,
        image,
        dump,
        new,
    }))
}

fn put(name: &mut Option<PathBuf>, option: &str, word: Option<OsString>) -> Result<(), Trouble> {
    once(option, name.replace(name_behind(option, word)?))
}

impl Words {
    fn put_stream(&mut self, word: OsString) -> Result<(), Trouble> {
        if let Some(trouble) = no_name(&word) {
            return Err(trouble);
        }
        if self.stream.is_some() {
            return Err(bad(format!("{} is one name too many", quoted(&word))));
        }
        self.stream = Some(match word == INPUT {
            true => Source::Input,
            false => Source::File(word.into()),
        });
        Ok(())
    }
}

/// Why a word is no stream's name.
fn no_name(word: &OsStr) -> Option<Trouble> {
    let joined = |option: &&str| name_joined(word, option).is_some();
    match NAMING.into_iter().find(joined) {
        Some(option) => Some(unknown(word, option)),
        None => (is_dashed(word) && word != INPUT).then(|| no_option(word)),
    }
}

#[cfg(test)]
mod tests {
    use super::*;

    fn told(line: &str) -> Result<Command, String> {
        let words = line.split_whitespace().map(OsString::from).collect();
        command(words).map_err(|trouble| trouble.to_string())
    }

    fn plain() -> Replay {
        Replay {
            stream: Source::File("s".into()),
            image: None,
            dump: false,
            new: None,
        }
    }

    #[test]
    fn replays_are_read() {
        let all = || Replay {
            image: Some("i".into()),
            dump: true,
            new: Some("n".into()),
            ..plain()
        };
        let input = || Replay {
            stream: Source::Input,
            ..all()
        };
        for (line, replay) in [
            ("s", plain()),
            ("s --image i --dump -o n", all()),
            ("-o n --dump --dump --image i s", all()),
            ("- --image i --dump -o n", input()),
            ("--image i --dump - -o n", input()),
            (
                "./- -o ./-n",
                Replay {
                    stream: Source::File("./-".into()),
                    new: Some("./-n".into()),
                    ..plain()
                },
            ),
        ] {
            assert_eq!(told(line), Ok(Command::Replay(replay)), "{line}");
        }
    }

    #[test]
    fn wrong_lines_are_told_apart() {
        for (line, what) in [
            ("", "no stream is named"),
            ("--dump", "no stream is named"),
            ("s t", "`t` is one name too many"),
            ("s -", "`-` is one name too many"),
            ("- s", "`s` is one name too many"),
            ("s --image", "--image needs a name behind it"),
            ("s -o", "-o needs a name behind it"),
            (
                "s --image -",
                "--image needs a name behind it, not `-`; for a file of that name write `./-`",
            ),
            (
                "s -o --dump",
                "-o needs a name behind it, not `--dump`; for a file of that name write `./--dump`",
            ),
            ("s --image i --image i", "--image is there twice"),
            ("s -o n -o n", "-o is there twice"),
            (
                "s --image=i",
                "`--image=i` is no option here; write `--image i`",
            ),
            ("s -o=n", "`-o=n` is no option here; write `-o n`"),
            (
                "s --json",
                "`--json` is no option here; for a file of that name write `./--json`",
            ),
        ] {
            let wanted = format!("{what} (`vr help` tells the commands)");
            assert_eq!(told(line), Err(wanted), "{line}");
        }
    }
}
