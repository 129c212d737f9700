//! The command line of `vr simulate`.

use std::collections::BTreeMap;
use std::ffi::OsString;
use std::path::PathBuf;

use ventorupo::Form;

use super::header::{number, parted};
use super::{bad, name_behind, no_option, once, quoted, unknown, Command};
use crate::simulate::plan::{Plan, LIAR, NODES, SEED, TICKS};
use crate::simulate::Simulate;
use crate::trouble::Trouble;

/// The options with a number behind them, and the numbers that they take; those of
/// ports and ticks depend on others.
const NUMBERS: [(&str, u32, u32); 9] = [
    ("--ports", 2, 32),
    ("--queues", 2, 64),
    ("--nodes", 1, 2048),
    ("--liar", 0, 31),
    ("--seed", 0, u32::MAX),
    ("--ticks", 10, 999),
    ("--from", 1, 999),
    ("--to", 1, 999),
    ("--clear", 1, 999),
];

/// The words behind `simulate`.
#[derive(Default)]
struct Words {
    numbers: BTreeMap<&'static str, u32>,
    svg: Option<PathBuf>,
    json: bool,
}

/// What the words behind `simulate` ask for.
pub fn command(words: Vec<OsString>) -> Result<Command, Trouble> {
    let mut words = words.into_iter();
    let mut read = Words::default();
    while let Some(word) = words.next() {
        let (name, value) = parted(&word);
        let option = NUMBERS.iter().find(|(option, ..)| *option == name);
        match (option, name.as_str()) {
            (Some(&(option, least, most)), _) => {
                let number = ranged(option, value.or_else(|| words.next()), least, most)?;
                once(option, read.numbers.insert(option, number))?;
            }
            (_, "--svg") if value.is_some() => return Err(unknown(&word, "--svg")),
            (_, "--svg") => {
                let name = name_behind("--svg", words.next())?;
                once("--svg", read.svg.replace(name))?;
            }
            (_, "--json") if value.is_none() => read.json = true,
            _ if name.starts_with('-') => return Err(no_option(&word)),
            _ => return Err(bad(format!("{} is one word too many", quoted(&word)))),
        }
    }
    Ok(Command::Simulate(Simulate {
        plan: read.plan()?,
        json: read.json,
        svg: read.svg,
    }))
}

/// The number behind an option, within these.
fn ranged(option: &str, word: Option<OsString>, least: u32, most: u32) -> Result<u32, Trouble> {
    let needs = format!("{option} needs a number behind it, {least} to {most}");
    let word = word.ok_or_else(|| bad(needs.clone()))?;
    let number = word.to_str().and_then(number);
    let number = number.filter(|number| (least..=most).contains(number));
    number.ok_or_else(|| bad(format!("{needs}, not {}", quoted(&word))))
}

impl Words {
    fn plan(&self) -> Result<Plan, Trouble> {
        let said = |option| self.numbers.get(option).copied();
        let ticks = said("--ticks").unwrap_or(TICKS);
        let mut plan = Plan::new(self.form(), ticks);
        plan.nodes = said("--nodes").unwrap_or(NODES);
        plan.seed = said("--seed").unwrap_or(SEED);
        plan.liar = said("--liar").unwrap_or(LIAR);
        within("--liar", plan.liar, 0, plan.form.ports - 1)?;
        let from = within("--from", said("--from").unwrap_or(plan.from), 1, ticks)?;
        let long = plan.to - plan.from;
        let to = said("--to").unwrap_or((from + long).min(ticks));
        plan = plan.lying(from, within("--to", to, from, ticks)?);
        if let Some(clear) = said("--clear") {
            plan.clears = vec![within("--clear", clear, 1, ticks)?];
        }
        Ok(plan)
    }

    /// Ten bytes if nothing else is said; wide where counts are named.
    fn form(&self) -> Form {
        let [ports, queues] =
            ["--ports", "--queues"].map(|option| self.numbers.get(option).copied());
        let Form {
            ports: four,
            queues: most,
            ..
        } = Form::TEN_BYTES;
        match (ports, queues) {
            (None, None) => Form::TEN_BYTES,
            _ => Form::wide(ports.unwrap_or(four), queues.unwrap_or(most)),
        }
    }
}

/// A number that depends on others is within these.
fn within(option: &str, number: u32, least: u32, most: u32) -> Result<u32, Trouble> {
    if (least..=most).contains(&number) {
        return Ok(number);
    }
    Err(bad(format!(
        "{option} is {least} to {most} here, not {number}"
    )))
}

#[cfg(test)]
mod tests {
    use super::*;

    fn told(line: &str) -> Result<Simulate, String> {
        let words = line.split_whitespace().map(OsString::from).collect();
        match command(words) {
            Ok(Command::Simulate(asked)) => Ok(asked),
            Ok(other) => panic!("{other:?}"),
            Err(trouble) => Err(trouble.to_string()),
        }
    }

    fn plain() -> Simulate {
        Simulate {
            plan: Plan {
                form: Form::TEN_BYTES,
                nodes: 32,
                liar: 1,
                seed: 1,
                ticks: 120,
                from: 30,
                to: 75,
                clears: vec![61, 88],
            },
            json: false,
            svg: None,
        }
    }

    #[test]
    fn nights_are_read() {
        assert_eq!(told(""), Ok(plain()));
        let wide = |ports, queues| Plan {
            form: Form::wide(ports, queues),
            ..plain().plan
        };
        for (line, plan) in [
            ("--ports 4", wide(4, 24)),
            ("--queues=0x18", wide(4, 24)),
            ("--ports 32 --queues 64", wide(32, 64)),
            ("--queues 2 --ports 2", wide(2, 2)),
            (
                "--nodes 2048 --liar 3 --seed 0xFFFFFFFF --to 40 --clear 120",
                Plan {
                    nodes: 2048,
                    liar: 3,
                    seed: u32::MAX,
                    to: 40,
                    clears: vec![120],
                    ..plain().plan
                },
            ),
            // The lies last as long, if the night does.
            (
                "--from 20",
                Plan {
                    from: 20,
                    to: 65,
                    clears: vec![51, 78],
                    ..plain().plan
                },
            ),
            (
                "--ticks 40 --from 40",
                Plan {
                    ticks: 40,
                    from: 40,
                    to: 40,
                    clears: vec![],
                    ..plain().plan
                },
            ),
        ] {
            assert_eq!(told(line).map(|asked| asked.plan), Ok(plan), "{line}");
        }
        let written = Simulate {
            json: true,
            svg: Some("./-n".into()),
            ..plain()
        };
        assert_eq!(told("--json --svg ./-n"), Ok(written));
    }
}
