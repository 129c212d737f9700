//! The command line of `vr header`.

use std::collections::BTreeMap;
use std::ffi::OsString;
use std::path::PathBuf;

use ventorupo::{Form, Header, TEN_BYTES, WIDE};

use super::{bad, file_named, is_dashed, name_behind, no_option, once, quoted, unknown};
use super::{Command, Given, INPUT};
use crate::hex::{self, NoBytes};
use crate::trouble::Trouble;

/// The options with a number behind them: those of the form, those of the
/// fields that every header has to be told, and those that are 0 else.
const COUNTS: [&str; 2] = ["--ports", "--queues"];
const NEEDED: [&str; 4] = ["--destination", "--source", "--queue", "--length"];
const OTHERS: [&str; 4] = ["--poisoned", "--timestamp", "--credit", "--transaction"];

/// The words behind `header make` or `header show`.
#[derive(Default)]
struct Words {
    numbers: BTreeMap<&'static str, u32>,
    edition: Option<u32>,
    new: Option<PathBuf>,
    json: bool,
    /// What is no option.
    plain: Vec<OsString>,
}

/// What the words behind `header` ask for.
pub fn command(words: Vec<OsString>) -> Result<Command, Trouble> {
    let mut words = words.into_iter();
    let name = words.next();
    match name.as_ref().map(|name| name.to_str()) {
        Some(Some("make")) => make(words),
        Some(Some("show")) => show(words),
        _ => Err(bad(match name {
            Some(name) => format!("header needs make or show behind it, not {}", quoted(&name)),
            None => "header needs make or show behind it".into(),
        })),
    }
}

fn make(words: impl Iterator<Item = OsString>) -> Result<Command, Trouble> {
    let numbers = [&COUNTS[..], &NEEDED, &OTHERS].concat();
    let words = Words::read(words, &numbers, &["--edition", "-o"])?;
    if let Some(word) = words.plain.first() {
        return Err(unknown(word, "-o"));
    }
    let needed = |option| {
        let number = words.numbers.get(option).copied();
        number.ok_or_else(|| bad(format!("header make needs {option} N")))
    };
    let other = |option| words.numbers.get(option).copied().unwrap_or(0);
    let [destination, source, queue, length] = NEEDED.map(needed);
    let [poisoned, timestamp, credit, transaction] = OTHERS.map(other);
    Ok(Command::Make {
        form: words.form()?,
        header: Header {
            destination: destination?,
            source: source?,
            queue: queue?,
            length: length?,
            poisoned,
            timestamp,
            credit,
            transaction,
        },
        new: words.new,
    })
}

fn show(words: impl Iterator<Item = OsString>) -> Result<Command, Trouble> {
    let words = Words::read(words, &COUNTS, &["--edition", "--json"])?;
    let option = |word: &&OsString| is_dashed(word) && *word != INPUT;
    if let Some(word) = words.plain.iter().find(option) {
        return Err(no_option(word));
    }
    Ok(Command::Show {
        form: words.form()?,
        json: words.json,
        given: given(words.plain)?,
    })
}

impl Words {
    /// The words of a command that takes these options: some with a number
    /// behind them, and others.
    fn read(
        mut words: impl Iterator<Item = OsString>,
        numbers: &[&'static str],
        others: &[&str],
    ) -> Result<Words, Trouble> {
        let mut read = Words::default();
        while let Some(word) = words.next() {
            let (name, value) = parted(&word);
            let number = numbers.iter().find(|&&option| name == option);
            let other = others.iter().find(|&&option| name == option);
            match (number, other) {
                (Some(option), _) => read.put_number(option, value.or_else(|| words.next()))?,
                (_, Some(&"--edition")) => read.put_edition(value.or_else(|| words.next()))?,
                (_, Some(&"--json")) if value.is_none() => read.json = true,
                (_, Some(&"-o")) => read.put_new(words.next())?,
                _ => read.plain.push(word),
            }
        }
        Ok(read)
    }

    fn put_number(&mut self, option: &'static str, word: Option<OsString>) -> Result<(), Trouble> {
        let needs = format!("{option} needs a number behind it");
        let word = word.ok_or_else(|| bad(needs.clone()))?;
        let number = word.to_str().and_then(number).ok_or_else(|| {
            let (word, most) = (quoted(&word), u32::MAX);
            bad(format!("{needs}, 0 to {most}, not {word}"))
        })?;
        once(option, self.numbers.insert(option, number))
    }

    fn put_edition(&mut self, word: Option<OsString>) -> Result<(), Trouble> {
        let needs = "--edition needs ten or wide behind it";
        let word = word.ok_or_else(|| bad(needs.into()))?;
        let edition = match word.to_str() {
            Some("ten") => TEN_BYTES,
            Some("wide") => WIDE,
            _ => return Err(bad(format!("{needs}, not {}", quoted(&word)))),
        };
        once("--edition", self.edition.replace(edition))
    }

    fn put_new(&mut self, word: Option<OsString>) -> Result<(), Trouble> {
        once("-o", self.new.replace(name_behind("-o", word)?))
    }

    /// Ten bytes if nothing else is said; wide where counts are named.
    fn form(&self) -> Result<Form, Trouble> {
        let [ports, queues] = COUNTS.map(|option| self.numbers.get(option).copied());
        let wide = self
            .edition
            .map_or(ports.or(queues).is_some(), |edition| edition == WIDE);
        if !wide {
            return Ok(Form {
                ports: ports.unwrap_or(Form::TEN_BYTES.ports),
                queues: queues.unwrap_or(Form::TEN_BYTES.queues),
                ..Form::TEN_BYTES
            });
        }
        match (ports, queues) {
            (Some(ports), Some(queues)) => Ok(Form::wide(ports, queues)),
            _ => Err(bad("a wide header needs --ports N and --queues N".into())),
        }
    }
}

/// A number, decimal or, behind 0x, hexadecimal.
pub(super) fn number(word: &str) -> Option<u32> {
    let (digits, radix) = match word.strip_prefix("0x") {
        Some(digits) => (digits, 16),
        None => (word, 10),
    };
    // A sign is none of a number's digits here.
    let plain = digits.chars().all(|digit| digit.is_digit(radix));
    let number = u32::from_str_radix(digits, radix).ok();
    number.filter(|_| plain)
}

/// An option and its value, which may be joined by `=`.
pub(super) fn parted(word: &OsString) -> (String, Option<OsString>) {
    let word = word.to_string_lossy();
    match word.split_once('=') {
        Some((name, value)) if name.starts_with("--") => (name.into(), Some(value.into())),
        _ => (word.into(), None),
    }
}

/// Bytes in hexadecimal digits, in one word or several, or a file's name, or
/// standard input.
fn given(words: Vec<OsString>) -> Result<Given, Trouble> {
    match &words[..] {
        [] => Err(bad(
            "header show needs a header, in hexadecimal or in a file".into(),
        )),
        [word] if word == INPUT => Ok(Given::Input),
        [word] if word.is_empty() => {
            Err(bad("an empty word is neither a file nor hexadecimal".into()))
        }
        [word] => match bytes(word) {
            Ok(bytes) => Ok(Given::Bytes(bytes)),
            Err(NoBytes::NotHexadecimal) => Ok(Given::File(word.into())),
            Err(halved) => Err(bad(format!("{halved}; {}", file_named(word)))),
        },
        several => several_words(several).map(Given::Bytes),
    }
}

fn several_words(words: &[OsString]) -> Result<Vec<u8>, Trouble> {
    let mut all = Vec::new();
    for word in words {
        let what = match bytes(word) {
            Ok(bytes) => {
                all.extend(bytes);
                continue;
            }
            Err(_) if word == INPUT => "`-`, for standard input, stands alone".into(),
            Err(NoBytes::NotHexadecimal) => format!("{} is not hexadecimal", quoted(word)),
            Err(halved) => halved.to_string(),
        };
        return Err(bad(what));
    }
    Ok(all)
}

fn bytes(word: &OsString) -> Result<Vec<u8>, NoBytes> {
    hex::bytes(word.to_str().ok_or(NoBytes::NotHexadecimal)?)
}

#[cfg(test)]
mod tests {
    use super::*;

    fn told(line: &str) -> Result<Command, String> {
        let words = line.split_whitespace().map(OsString::from).collect();
        command(words).map_err(|trouble| trouble.to_string())
    }

    const LEAST: &str = "--destination 3 --source 1 --queue 5 --length 100";

    fn header() -> Header {
        Header {
            destination: 3,
            source: 1,
            queue: 5,
            length: 100,
            ..Header::default()
        }
    }

    #[test]
    fn makes_are_read() {
        let make = |form, header| Command::Make {
            form,
            header,
            new: None,
        };
        let ten = make(Form::TEN_BYTES, header());
        assert_eq!(told(&format!("make {LEAST}")), Ok(ten));
        let wide = || make(Form::wide(8, 16), header());
        for line in [
            "make --ports 8 --queues 16",
            "make --queues 16 --ports 0x8",
            "make --edition wide --ports 8 --queues 0x10",
            "make --edition=wide --ports=8 --queues=0x10",
        ] {
            assert_eq!(told(&format!("{line} {LEAST}")), Ok(wide()));
        }
        let all = Header {
            poisoned: 1,
            timestamp: u32::MAX,
            credit: 7,
            transaction: 8,
            ..header()
        };
        let line = format!(
            "make {LEAST} --poisoned 1 --timestamp 0xFFFFffff --credit 7 --transaction 8 -o new"
        );
        let wanted = Command::Make {
            form: Form::TEN_BYTES,
            header: all,
            new: Some("new".into()),
        };
        assert_eq!(told(&line), Ok(wanted));
    }

    #[test]
    fn shows_are_read() {
        let show = |form, given, json| Ok(Command::Show { form, given, json });
        let (ten, wide) = (Form::TEN_BYTES, Form::wide(8, 16));
        let bytes = || Given::Bytes(vec![0x65, 0x40, 0xC8]);
        let file = |name: &str| Given::File(name.into());
        assert_eq!(told("show 6540c8"), show(ten, bytes(), false));
        assert_eq!(told("show 65 40 C8 --json"), show(ten, bytes(), true));
        let line = "show --ports 8 6540 --queues 16 C8";
        assert_eq!(told(line), show(wide, bytes(), false));
        assert_eq!(told("show ./6540c8"), show(ten, file("./6540c8"), false));
        assert_eq!(told("show h"), show(ten, file("h"), false));
        assert_eq!(told("show -"), show(ten, Given::Input, false));
        let line = "show --json - --ports=8 --queues=0x10";
        assert_eq!(told(line), show(wide, Given::Input, true));
        for line in ["show 0x6540C8", "show 65:40:c8", "show 65,40, C8"] {
            assert_eq!(told(line), show(ten, bytes(), false), "{line}");
        }
        // The library refuses what no switch has.
        let none = Form {
            ports: 5,
            ..Form::TEN_BYTES
        };
        assert_eq!(
            told("show h --edition ten --ports 5"),
            show(none, file("h"), false)
        );
        // Blanks in one word.
        let words = ["show", "65 40\tC8 "].map(OsString::from).to_vec();
        let asked = command(words).map_err(|trouble| trouble.to_string());
        assert_eq!(asked, show(ten, bytes(), false));
    }

    #[test]
    fn wrong_lines_are_told_apart() {
        for (line, what) in [
            ("", "header needs make or show behind it"),
            ("mak", "header needs make or show behind it, not `mak`"),
            ("make", "header make needs --destination N"),
            (
                "make --destination 1 --source 1 --length 20",
                "header make needs --queue N",
            ),
            ("make --queue", "--queue needs a number behind it"),
            (
                "make --queue --length 20",
                "--queue needs a number behind it, 0 to 4294967295, not `--length`",
            ),
            (
                "make --queue 4294967296",
                "--queue needs a number behind it, 0 to 4294967295, not `4294967296`",
            ),
            (
                "make --queue +1",
                "--queue needs a number behind it, 0 to 4294967295, not `+1`",
            ),
            (
                "make --queue 0x",
                "--queue needs a number behind it, 0 to 4294967295, not `0x`",
            ),
            ("make --queue 1 --queue 1", "--queue is there twice"),
            (
                "make --edition ten --edition ten",
                "--edition is there twice",
            ),
            ("make --edition", "--edition needs ten or wide behind it"),
            (
                "make --edition 1",
                "--edition needs ten or wide behind it, not `1`",
            ),
            ("make 12", "`12` is no option here"),
            // It takes no file, so none of such a name is meant.
            ("make --json", "`--json` is no option here"),
            ("make --desination=1", "`--desination=1` is no option here"),
            ("make -", "`-` is no option here"),
            ("make -o=new", "`-o=new` is no option here; write `-o new`"),
            (
                "make --queue=",
                "--queue needs a number behind it, 0 to 4294967295, not ``",
            ),
            ("make --queue=1 --queue 1", "--queue is there twice"),
            (
                "make --edition=tne",
                "--edition needs ten or wide behind it, not `tne`",
            ),
            ("make -o", "-o needs a name behind it"),
            ("make -o a -o b", "-o is there twice"),
            (
                "show",
                "header show needs a header, in hexadecimal or in a file",
            ),
            (
                "show --edition wide 00",
                "a wide header needs --ports N and --queues N",
            ),
            (
                "show --ports 4 00",
                "a wide header needs --ports N and --queues N",
            ),
            (
                "show abc",
                "`abc` has 3 hexadecimal digits: no whole bytes; for a file of that name write `./abc`",
            ),
            ("show ab c", "`c` has 1 hexadecimal digit: no whole bytes"),
            (
                "show ab:c:de:f0",
                "`c` has 1 hexadecimal digit: no whole bytes; for a file of that name write `./ab:c:de:f0`",
            ),
            ("show ab cx", "`cx` is not hexadecimal"),
            ("show ab -", "`-`, for standard input, stands alone"),
            (
                "show --json=1 00",
                "`--json=1` is no option here; for a file of that name write `./--json=1`",
            ),
            ("show one two", "`one` is not hexadecimal"),
            (
                "show --queue 1 00",
                "`--queue` is no option here; for a file of that name write `./--queue`",
            ),
        ] {
            let wanted = format!("{what} (`vr help` tells the commands)");
            assert_eq!(told(line), Err(wanted), "{line}");
        }
    }
}
