//! A refusal has one number and one name: in the wrapper, the ledger, the C
//! header and the guide; and these speak of the same calls, structs and fields.

use ventorupo::{Batch, Form, Refusal, Rule, Stop, SLOT_BYTES, TEN_BYTES, WIDE};

const LEDGER: &str = include_str!("../../../crates/ledger/src/lib.rt");
const CALLS: &str = include_str!("../src/calls.rs");
const REFUSALS: &str = include_str!("../src/refusal.rs");
const SETTINGS: &str = include_str!("../src/settings.rs");
const HEADERS: &str = include_str!("../src/header.rs");
const CAPI: &str = include_str!("../../../crates/capi/src/lib.rt");
const CAPI_RUN: &str = include_str!("../../../crates/capi_run/src/lib.rt");
const HEADER: &str = include_str!("../../../include/ventorupo.h");
const GUIDE: &str = include_str!("../../../docs/GUIDE.md");
const VERSION: &str = include_str!("../../../VERSION");

#[test]
fn the_version_is_one() {
    assert_eq!(ventorupo::VERSION, VERSION.trim_end());
    assert_eq!(VERSION.lines().count(), 1);
}

/// What stands in a text between two marks.
fn between<'a>(text: &'a str, from: &str, to: &str) -> &'a str {
    let (_, rest) = text.split_once(from).expect(from);
    rest.split_once(to).expect(to).0.trim()
}

/// The lines of a list, each of which gives a number to a name: `prefix` name
/// `equals` number, and what follows a comma or, on the last line, a blank.
fn listed(lines: &str, prefix: &str, equals: &str) -> Vec<(u32, String)> {
    let read = |line: &str| {
        let (name, rest) = line.trim().strip_prefix(prefix)?.split_once(equals)?;
        Some((
            rest.split([',', ' ']).next()?.parse().ok()?,
            name.to_string(),
        ))
    };
    let read = |line| read(line).unwrap_or_else(|| panic!("no number for a name: {line}"));
    lines.lines().map(read).collect()
}

/// The wrapper's list, each name spelt as told.
fn wrapped(spelt: fn(&Refusal) -> String) -> Vec<(u32, String)> {
    let number_and_name = |refusal: &Refusal| (refusal.number(), spelt(refusal));
    Refusal::ALL.iter().map(number_and_name).collect()
}

fn name(refusal: &Refusal) -> String {
    format!("{refusal:?}")
}

/// `ShortMemory` is `SHORT_MEMORY`.
fn in_capitals(name: &str) -> String {
    let mut spelt = String::new();
    for letter in name.chars() {
        if letter.is_uppercase() && !spelt.is_empty() {
            spelt.push('_');
        }
        spelt.push(letter.to_ascii_uppercase());
    }
    spelt
}

#[test]
fn the_ledger_has_the_same_names() {
    let variants = between(LEDGER, "pub enum Refusal {", "}");
    assert_eq!(listed(variants, "", " = "), wrapped(name));
}

#[test]
fn the_c_header_has_the_same_names_in_capitals() {
    let lines = between(HEADER, "enum vr_answer {", "};");
    let mut answers = vec![(0, "DONE".to_string())];
    answers.extend(wrapped(|refusal| in_capitals(&name(refusal))));
    assert_eq!(listed(lines, "VR_", " = "), answers);
}

/// Each refusal with the calls that give it, as the wrapper's own list has them.
fn given_by() -> Vec<(Refusal, &'static str)> {
    let lines = between(REFUSALS, "refusals! {", "}").lines();
    let calls = lines.map(|line| line.split('"').nth(1).expect(line));
    let given: Vec<_> = Refusal::ALL.iter().copied().zip(calls.clone()).collect();
    assert_eq!(calls.count(), given.len());
    given
}

/// The calls that give a refusal, and its meaning, as the C header tells them
/// behind its number.
#[test]
fn the_c_header_has_the_same_calls_and_meanings() {
    let lines = between(HEADER, "enum vr_answer {", "};").lines().skip(1);
    for (line, (refusal, given)) in lines.zip(given_by()) {
        let (calls, told) = between(line, "/* ", " */").split_once(": ").expect(line);
        assert_eq!((calls, told), (given, refusal.to_string().as_str()));
    }
}

#[test]
fn the_c_header_has_the_same_editions() {
    let lines = between(HEADER, "enum vr_edition {", "};");
    let editions = [(TEN_BYTES, "TEN_BYTES"), (WIDE, "WIDE")];
    let editions = editions.map(|(number, name)| (number, name.to_string()));
    assert_eq!(listed(lines, "VR_", " = "), editions);
}

#[test]
fn the_c_header_has_the_same_slots() {
    let bytes = between(HEADER, "enum { VR_SLOT_BYTES = ", " };");
    assert_eq!(bytes, SLOT_BYTES.to_string());
}

#[test]
fn the_c_header_has_the_same_stops_and_meanings() {
    let lines = between(HEADER, "enum vr_stop {", "};");
    let stop = |stop: Stop| (stop.number(), in_capitals(&format!("{stop:?}")));
    assert_eq!(listed(lines, "VR_", " = "), Stop::ALL.map(stop));
    for (line, stop) in lines.lines().zip(Stop::ALL) {
        assert_eq!(between(line, "/* ", " */"), stop.to_string());
    }
}

#[test]
fn the_c_header_has_the_same_texts_of_rules() {
    let text = between(HEADER, "*vr_rule_text(uint32_t rule)", "default:");
    let cases = text.split("case ").skip(1).map(|case| {
        let (number, rest) = case.split_once(": return \"").expect(case);
        (number.parse().expect(case), between(rest, "", "\";"))
    });
    let rules = Rule::ALL.iter().map(|rule| (rule.number(), rule.asks()));
    let state = (0, "a switch state: no rule is broken");
    let wanted: Vec<(u32, &str)> = [state].into_iter().chain(rules).collect();
    assert_eq!(cases.collect::<Vec<_>>(), wanted);
}

/// The fields that the C header has in its table: tag, name, and the bytes of the
/// value, of a header the first number that is told.
fn tabled() -> Vec<(u8, &'static str, usize)> {
    let rows = HEADER.split(" *     tag ").skip(1);
    let rows = rows.map(|rest| rest.split_once('\n').expect("a line's end").0);
    let read = |row: &'static str| {
        let (tag, rest) = row.split_once("  ")?;
        let (name, value) = rest.split_once(' ')?;
        let digits = |part: &str| part.chars().take_while(char::is_ascii_digit).collect();
        let sizes = value.split('(').skip(1).map(digits);
        let sizes = sizes.map(|digits: String| digits.parse::<usize>().ok());
        Some((tag.parse().ok()?, name, sizes.sum::<Option<usize>>()?))
    };
    let read = |row| read(row).unwrap_or_else(|| panic!("no field: {row}"));
    rows.map(read).collect()
}

#[test]
fn the_c_header_has_the_batchs_fields() {
    let mut batch = Batch::new(Form::TEN_BYTES).unwrap();
    batch.arrive(1, &[0; 10]).unwrap().stitch(1).prefetch(1, 2);
    batch.turn(1).credit(1, 2, 3).map_to(1, 2);
    let names = ["arrive", "stitch", "prefetch", "turn", "credit", "map"];
    let mut rest = batch.as_bytes();
    let mut fields = Vec::new();
    for name in names {
        let length = u16::from_be_bytes([rest[1], rest[2]]).into();
        fields.push((rest[0], name, length));
        rest = &rest[3 + length..];
    }
    let tag = |&(tag, name, _): &(u8, &str, usize)| (tag.into(), name.to_uppercase());
    let tags: Vec<(u32, String)> = fields.iter().map(tag).collect();
    let lines = between(HEADER, "enum vr_tag {", "};");
    assert_eq!(listed(lines, "VR_TAG_", " = "), tags);
    assert_eq!((tabled(), rest), (fields, &[][..]));
}

/// The fields of a struct of the C header, all of them numbers.
fn fields(name: &str) -> Vec<&'static str> {
    let lines = between(HEADER, &format!("\nstruct {name} {{"), "};").lines();
    lines.map(|line| between(line, "uint32_t ", ";")).collect()
}

/// The fields in the order in which the wrapper hands them over.
fn handed(source: &'static str) -> Vec<&'static str> {
    let numbers = between(source, "pub const fn numbers(&self) -> [u32; 8] {", "}");
    let lines = between(numbers, "[", "]").lines();
    let field = |line: &'static str| line.trim().trim_start_matches("self.").trim_matches(',');
    lines.map(field).collect()
}

#[test]
fn the_c_structs_have_the_wrappers_fields() {
    assert_eq!(fields("vr_settings"), handed(SETTINGS));
    assert_eq!(fields("vr_header"), handed(HEADERS));
}

/// The calls of the C interface that a text names where it declares them.
fn calls_in(text: &str, before: &str) -> Vec<String> {
    let name = |rest: &str| {
        let (name, _) = rest.split_once('(').expect("a list of arguments");
        format!("vr_{}", name.trim())
    };
    let mut names: Vec<String> = text.split(before).skip(1).map(name).collect();
    names.sort();
    names
}

/// What stands before the arguments of each call that the C header declares.
fn declared() -> String {
    let declares = |line: &&str| line.starts_with("uint") || line.starts_with("void");
    let lines = HEADER.lines().filter(declares);
    let starts = lines.map(|line| line.split_inclusive('(').next().expect(line));
    starts.collect()
}

/// The proved archive, the C header and the wrapper; each once.
#[test]
fn all_speak_of_the_same_calls() {
    let wrapped = calls_in(CALLS, "pub fn vr_");
    assert_eq!(calls_in(&declared(), " vr_"), wrapped);
    let proved = [CAPI, CAPI_RUN].concat();
    assert_eq!(calls_in(&proved, "pub extern \"C\" fn vr_"), wrapped);
    for call in [
        "vr_arrive_packet",
        "vr_audit",
        "vr_find",
        "vr_run",
        "vr_size",
        "vr_write_header",
    ] {
        assert!(wrapped.iter().any(|name| name == call), "{call}");
    }
}

#[test]
fn the_guide_has_the_same_names_meanings_and_calls() {
    let rows = between(GUIDE, "| given by |\n|---|---|---|---|\n", "\n\n").lines();
    for (row, (refusal, given)) in rows.clone().zip(given_by()) {
        let (number, name) = (refusal.number(), name(&refusal));
        let start = format!("| {number} | {name} | {refusal} | ");
        let calls = row.strip_prefix(&start);
        let calls = calls.unwrap_or_else(|| panic!("{row}: not {start}"));
        assert_eq!(calls, format!("{given} |"), "{row}");
    }
    assert_eq!(rows.count(), Refusal::ALL.len());
}
