//! The fences of a page: what stands between two lines of three backquotes.

use std::mem::take;

/// A fence of a page.
pub struct Fence {
    /// What its first line says behind the backquotes.
    pub kind: String,
    pub text: String,
    /// The words between the fence before it, or the page's start, and this one.
    pub before: String,
    /// The number of its first line, from 1.
    pub line: usize,
    /// The blanks before the backquotes, which every line of it has.
    indent: usize,
}

impl Fence {
    fn opened(kind: &str, before: String, line: usize, indent: usize) -> Fence {
        let (kind, text) = (kind.trim().to_string(), String::new());
        Fence {
            kind,
            text,
            before,
            line,
            indent,
        }
    }

    fn push(&mut self, line: &str) {
        self.text
            .push_str(line.get(self.indent..).unwrap_or_default());
        self.text.push('\n');
    }
}

/// The page's fences, and the page with empty lines in their place.
pub fn parsed(page: &str) -> (Vec<Fence>, String) {
    let (mut fences, mut words, mut before) = (Vec::new(), String::new(), String::new());
    let mut open: Option<Fence> = None;
    for (number, line) in (1..).zip(page.lines()) {
        let start = line.trim_start();
        assert!(!start.starts_with("~~~"), "line {number}: backquotes alone");
        let indent = line.len() - start.len();
        let mut said = "";
        match (start.strip_prefix("```"), open.take()) {
            (Some(kind), None) => {
                open = Some(Fence::opened(kind, take(&mut before), number, indent));
            }
            (Some(""), Some(fence)) => fences.push(fence),
            (Some(_), Some(fence)) => panic!("line {}: a fence without an end", fence.line),
            (None, Some(mut fence)) => {
                fence.push(line);
                open = Some(fence);
            }
            (None, None) => {
                said = line;
                before.push_str(line);
                before.push('\n');
            }
        }
        words.push_str(said);
        words.push('\n');
    }
    assert!(open.is_none(), "the last fence has no end");
    (fences, words)
}
