//! Whatever the guide names is there: files, theorems, functions, links.

use std::collections::BTreeSet;
use std::fs;
use std::path::{Path, PathBuf};

use crate::page::{tables, top, words};

/// Names of what a gate makes, not of what the tree has.
const MADE: [&str; 2] = ["target/", "dist/"];

/// Whether rt builds there: `crates/NAME/out`.
fn built(path: &Path) -> bool {
    let above = path.parent().and_then(Path::parent);
    path.ends_with("out") && matches!(above, Some(above) if above.ends_with("crates"))
}

/// The files below a folder.
fn files(folder: &Path) -> Vec<PathBuf> {
    let entries = fs::read_dir(folder).unwrap_or_else(|why| panic!("{folder:?}: {why}"));
    let paths = entries.map(|entry| entry.unwrap().path());
    let below = |path: PathBuf| match path.is_dir() {
        true if path.ends_with("target") || built(&path) => Vec::new(),
        true => files(&path),
        false => vec![path],
    };
    paths.flat_map(below).collect()
}

/// A letter of a name, in the prover's files too.
fn in_a_name(letter: char) -> bool {
    letter.is_alphanumeric() || "_'′#·-".contains(letter)
}

/// All names that a text says.
fn names_in(text: &str) -> impl Iterator<Item = &str> {
    text.split(|letter| !in_a_name(letter))
        .filter(|name| !name.is_empty())
}

/// All names of the tree: of its files, and of what these say.
fn have() -> BTreeSet<String> {
    let mut have = BTreeSet::new();
    let folders = ["crates", "host", "include", "examples", "tools"];
    for file in folders.iter().flat_map(|folder| files(&top().join(folder))) {
        let parts = [file.file_name(), file.file_stem()].into_iter().flatten();
        have.extend(parts.map(|part| part.to_string_lossy().into_owned()));
        let inside = file.strip_prefix(top()).expect("a file of the tree");
        let folders = inside.components().map(|part| part.as_os_str());
        have.extend(folders.map(|part| part.to_string_lossy().into_owned()));
        let text = fs::read_to_string(&file).unwrap_or_default();
        have.extend(names_in(&text).map(String::from));
    }
    have
}

/// What stands between backquotes.
fn spans(text: &str) -> impl Iterator<Item = &str> {
    text.lines().flat_map(|line| {
        let marks = line.matches('`').count();
        assert!(marks % 2 == 0, "a backquote without its other: {line}");
        line.split('`').skip(1).step_by(2)
    })
}

/// The words of a span that could be names of files or of anything else.
fn said(span: &str) -> Vec<&str> {
    let apart = |letter: char| !in_a_name(letter) && !"/.:".contains(letter);
    let parts = span
        .split(apart)
        .map(|part| part.trim_end_matches(['.', ':']));
    parts.filter(|part| !part.is_empty()).collect()
}

/// Whether a word has to be in the tree: by itself any that starts with a letter; among
/// others, as in a command, one that has the look of a name.
fn counts(word: &str, alone: bool) -> bool {
    let lettered = word.starts_with(|first: char| first.is_alphabetic());
    lettered && (alone || word.contains(['_', '-', '/', '.']) || word.contains("::"))
}

/// Whether the tree has what a word names.
fn is_there(word: &str, have: &BTreeSet<String>) -> bool {
    if word.contains('/') {
        let made = MADE.iter().any(|made| word.starts_with(made));
        return made || top().join(word).exists();
    }
    let mut parts = word.split("::").flat_map(|part| part.split('.'));
    have.contains(word) || parts.all(|part| part.is_empty() || have.contains(part))
}

/// The words of a span that have to be in the tree.
fn named(span: &str) -> impl Iterator<Item = &str> {
    let said = said(span);
    let alone = said.len() == 1;
    said.into_iter().filter(move |word| counts(word, alone))
}

#[test]
fn every_name_is_in_the_tree() {
    let (have, words) = (have(), words());
    let named: Vec<&str> = spans(&words).flat_map(named).collect();
    assert!(named.len() > 100, "only {} names", named.len());
    let lost: Vec<_> = named.iter().filter(|word| !is_there(word, &have)).collect();
    assert!(lost.is_empty(), "nowhere in the tree: {lost:?}");
}

/// A theorem, a definition or a function stands in the file that its row names.
#[test]
fn what_a_row_names_stands_in_its_file() {
    let words = words();
    let mut tried = 0;
    for table in tables(&words) {
        let file = match table.column("file") {
            Some(file) => file,
            None => continue,
        };
        let named = ["theorem", "definition", "function", "contract"];
        let columns: Vec<usize> = named.iter().filter_map(|head| table.column(head)).collect();
        assert!(!columns.is_empty(), "{:?}", table.heads);
        tried += table
            .rows
            .iter()
            .map(|row| stands(row, file, &columns))
            .sum::<usize>();
    }
    assert!(tried > 40, "only {tried} names");
}

/// How many names of a row were looked up in its files.
fn stands(row: &[&str], file: usize, columns: &[usize]) -> usize {
    let texts = spans(row[file]).map(|path| {
        let whole = fs::read_to_string(top().join(path));
        whole.unwrap_or_else(|why| panic!("{path}: {why}"))
    });
    let text = texts.collect::<Vec<_>>().join("\n");
    let have: BTreeSet<&str> = names_in(&text).collect();
    let named = columns.iter().flat_map(|&column| spans(row[column]));
    let last = named.map(|name| name.rsplit("::").next().unwrap_or(name));
    last.map(|name| assert!(have.contains(name), "{name}: not in {}", row[file]))
        .count()
}

/// A heading as a link names it.
fn anchor(heading: &str) -> String {
    let kept = heading.trim_start_matches('#').trim().to_lowercase();
    let kept = kept
        .chars()
        .filter(|c| c.is_alphanumeric() || " -_".contains(*c));
    kept.map(|c| if c == ' ' { '-' } else { c }).collect()
}

#[test]
fn every_link_leads_somewhere() {
    let words = words();
    let headings = words.lines().filter(|line| line.starts_with('#'));
    let anchors: BTreeSet<String> = headings.map(anchor).collect();
    let links = words.split("](").skip(1).map(|rest| rest.split(')').next());
    let links: Vec<&str> = links.flatten().collect();
    assert!(links.len() > 10, "only {} links", links.len());
    for link in links {
        let (path, inside) = link.split_once('#').unwrap_or((link, ""));
        let there = match path {
            "" => anchors.contains(inside),
            _ => top().join("docs").join(path).exists(),
        };
        assert!(there, "{link} leads nowhere");
    }
}

/// Each part is in the list at the top, in the page's order.
#[test]
fn the_contents_are_the_parts() {
    let words = words();
    let parts = words.lines().filter(|line| line.starts_with("## "));
    let parts: Vec<String> = parts.map(anchor).skip_while(|a| a == "contents").collect();
    let (_, list) = words
        .split_once("## Contents\n")
        .expect("a list of contents");
    let list = list.split("\n## ").next().unwrap_or_default();
    let linked = list.split("](#").skip(1).map(|rest| rest.split(')').next());
    assert_eq!(linked.flatten().collect::<Vec<_>>(), parts);
}
