//! The guide, and its tables.

use std::path::{Path, PathBuf};

#[allow(dead_code)]
#[path = "../fences/mod.rs"]
mod fences;

pub const GUIDE: &str = include_str!("../../../../docs/GUIDE.md");

/// The top of the tree.
pub fn top() -> PathBuf {
    Path::new(env!("CARGO_MANIFEST_DIR")).join("../..")
}

/// The guide's words: without its fences.
pub fn words() -> String {
    fences::parsed(GUIDE).1
}

/// The cells of a table's row.
pub fn cells(row: &str) -> Vec<&str> {
    let row = row.trim().trim_start_matches('|').trim_end_matches('|');
    row.split('|').map(str::trim).collect()
}

/// A table: what heads its columns, and its rows.
pub struct Table<'a> {
    pub heads: Vec<&'a str>,
    pub rows: Vec<Vec<&'a str>>,
}

impl<'a> Table<'a> {
    /// The column of this head.
    pub fn column(&self, head: &str) -> Option<usize> {
        self.heads.iter().position(|&its| its == head)
    }
}

/// The tables of a text.
pub fn tables(text: &str) -> Vec<Table<'_>> {
    let paragraphs = text.split("\n\n").map(str::trim);
    let tables = paragraphs.filter(|paragraph| paragraph.starts_with('|'));
    let read = |table| {
        let mut rows = str::lines(table).map(cells);
        let heads = rows.next().expect("a first row");
        let rows: Vec<Vec<&str>> = rows.skip(1).collect();
        let even = rows.iter().all(|row| row.len() == heads.len());
        assert!(even, "a row of another width: {table}");
        Table { heads, rows }
    };
    tables.map(read).collect()
}

/// The one table of the guide with these heads.
pub fn table<'a>(text: &'a str, heads: &[&str]) -> Table<'a> {
    let mut found = tables(text).into_iter().filter(|t| t.heads == heads);
    let first = found.next().unwrap_or_else(|| panic!("no table {heads:?}"));
    assert!(found.next().is_none(), "two tables {heads:?}");
    first
}
