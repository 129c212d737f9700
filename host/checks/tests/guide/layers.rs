//! The picture of the layers against crates.txt.

use std::collections::BTreeMap;

use crate::page::GUIDE;

const CRATES: &str = include_str!("../../../../crates.txt");

/// Each crate with those that it stands on.
fn edges() -> Vec<(&'static str, Vec<&'static str>)> {
    let lines = CRATES
        .lines()
        .map(|line| line.split('#').next().unwrap_or(line));
    let read = |line: &'static str| {
        let (kind, below) = line.split_once(':')?;
        let name = kind.split(' ').next().unwrap_or(kind);
        Some((name, below.split_whitespace().collect()))
    };
    lines.filter_map(read).collect()
}

/// The part of the page, and the picture in it.
fn part() -> (&'static str, &'static str) {
    let (_, part) = GUIDE.split_once("\n## The layers\n").expect("the layers");
    let part = part.split("\n## ").next().unwrap_or(part);
    let picture = part.split("```text\n").nth(1).expect("a picture");
    (part, picture.split("```").next().unwrap_or(picture))
}

/// The names that a text has.
fn names(text: &str) -> impl Iterator<Item = &str> {
    text.split(|c: char| !c.is_alphanumeric() && c != '_')
}

/// The highest block of the picture that names a crate, counted from the top; what
/// stands right of the frame is words.
fn blocks() -> BTreeMap<&'static str, usize> {
    let (_, picture) = part();
    let blocks = picture.split('├').enumerate();
    let framed = |line: &'static str| line.rsplit_once('│').map(|(frame, _)| frame);
    let named = blocks.flat_map(|(number, block)| {
        let frames = block.lines().filter_map(framed);
        frames.flat_map(names).map(move |name| (name, number))
    });
    let mut highest = BTreeMap::new();
    named.for_each(|(name, number)| {
        highest.entry(name).or_insert(number);
    });
    highest
}

#[test]
fn every_crate_is_named() {
    let (part, _) = part();
    let named: Vec<&str> = names(part).collect();
    let crates = edges();
    let lost = crates.iter().map(|(name, _)| name);
    let lost: Vec<_> = lost.filter(|name| !named.contains(name)).collect();
    assert!(crates.len() > 50 && lost.is_empty(), "not named: {lost:?}");
}

/// Nothing stands on what is drawn above it.
#[test]
fn what_a_crate_stands_on_is_not_above_it() {
    let (blocks, crates) = (blocks(), edges());
    let drawn = crates.iter().filter(|(name, _)| blocks.contains_key(name));
    let pairs = drawn.flat_map(|(name, below)| below.iter().map(move |other| (name, other)));
    let mut tried = 0;
    for (name, other) in pairs {
        let place = blocks
            .get(other)
            .unwrap_or_else(|| panic!("{other} isn't drawn"));
        assert!(blocks[name] <= *place, "{name} stands on {other}");
        tried += 1;
    }
    assert!(tried > 150, "only {tried} edges");
}
