//! Every public item has an example in its text, which says its name and which cargo
//! compiles and runs.

use std::path::Path;
use std::{env, fs};

/// What begins a public item; of a `pub use` the item's own place counts.
const BEGINNINGS: [&str; 7] = [
    "pub fn ",
    "pub const fn ",
    "pub struct ",
    "pub enum ",
    "pub const ",
    "pub trait ",
    "pub type ",
];

/// The name of the public item that a line begins, if it begins one.
fn item(line: &str) -> Option<&str> {
    let after = |start: &&str| line.trim_start().strip_prefix(start);
    let rest = BEGINNINGS.iter().find_map(after)?;
    let end = rest.find(|letter: char| !letter.is_alphanumeric() && letter != '_')?;
    Some(&rest[..end])
}

/// Text and attributes that stand right above a line.
fn above<'a>(lines: &'a [&'a str]) -> Vec<&'a str> {
    let part = |line: &&&str| ["//", "#["].iter().any(|start| line.starts_with(start));
    let mut part: Vec<&str> = lines.iter().rev().take_while(part).copied().collect();
    part.reverse();
    part
}

/// The lines of the examples in a text: between a bare fence, whose lines are compiled
/// and run, and the next fence.
fn examples<'a>(text: &[&'a str]) -> Vec<&'a str> {
    let mut inside = false;
    let mut lines = Vec::new();
    for line in text.iter().filter_map(|line| line.strip_prefix("///")) {
        match line.trim() {
            "```" => inside = !inside,
            line if inside => lines.push(line),
            line => assert!(!line.starts_with("```"), "a fence that isn't run: {line}"),
        }
    }
    lines
}

/// The public items of a source without an example that says their name.
fn lacking(source: &str) -> (usize, Vec<String>) {
    // The C interface's own declarations are in a private module.
    let source = match source.split_once("mod c {") {
        Some((front, rest)) => [front, rest.split_once("\n}\n").unwrap().1].concat(),
        None => source.to_string(),
    };
    let lines: Vec<&str> = source.lines().map(str::trim).collect();
    let named = |(at, line): (usize, &&'_ str)| Some((at, item(line)?.to_string()));
    let items: Vec<_> = lines.iter().enumerate().filter_map(named).collect();
    let count = items.len();
    let says = |(at, name): &(usize, String)| {
        let text = above(&lines[..*at]);
        examples(&text).iter().any(|line| line.contains(&name[..]))
    };
    let lacking = items.into_iter().filter(|item| !says(item));
    (count, lacking.map(|(_, name)| name).collect())
}

#[test]
fn every_public_item_has_an_example() {
    let folder = Path::new(env!("CARGO_MANIFEST_DIR")).join("src");
    let mut count = 0;
    for file in fs::read_dir(folder).unwrap() {
        let file = file.unwrap().path();
        let source = fs::read_to_string(&file).unwrap();
        let (items, lacking) = lacking(&source);
        assert!(lacking.is_empty(), "{}: {lacking:?}", file.display());
        count += items;
    }
    // Should the sources ever be written in a way that this test doesn't see.
    assert!(count > 150, "{count}");
}

#[test]
fn what_lacks_one_is_told() {
    let none = "/// A text.\n#[derive(Debug)]\npub struct One {\n";
    assert_eq!(lacking(none), (1, vec!["One".to_string()]));
    let other = "/// ```\n/// let two = 2;\n/// ```\npub const fn three() {\n";
    assert_eq!(lacking(other), (1, vec!["three".to_string()]));
    let own = "    /// ```\n    /// four();\n    /// ```\n    // Why.\n    pub fn four() {\n";
    assert_eq!(lacking(own), (1, vec![]));
    assert_eq!(lacking("pub(crate) fn five() {\nfn six() {\n"), (0, vec![]));
}
