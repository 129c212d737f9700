//! `vr waits`: each port's buckets as bars of text. The same as a picture is
//! drawn by svg.rs.

use crate::buckets::{ports, range, Packets, Waits};
use crate::layout::{Table, BUCKETS};
use crate::view::View;

/// What the numbers and the bars are, in a line.
const CAPTION: &str =
    "packets sent by timed turns, by how many ticks of the headers' clock they waited";
/// The columns that the longest bar takes.
const COLUMNS: u64 = 50;
/// The parts of a column that a bar can end within, from one eighth on.
const EIGHTHS: [char; 7] = ['▏', '▎', '▍', '▌', '▋', '▊', '▉'];
/// A whole column of a bar.
const WHOLE: &str = "█";

/// What is to be drawn of an image.
#[derive(Debug, PartialEq, Eq)]
pub struct Drawing {
    /// What the image is worth, and what else it may be.
    pub tops: Vec<String>,
    /// What numbers and bars are; nothing where there are none.
    pub captions: Vec<String>,
    /// The ports that have counted something.
    pub ports: Vec<Waits>,
    /// The largest bucket of all: the longest bar.
    pub longest: u32,
    /// What is to be said of the other ports, and why reading stops.
    pub notes: Vec<String>,
}

impl Drawing {
    /// What is to be drawn of an image.
    pub fn of(view: &View) -> Drawing {
        let all = Waits::of_all(&view.image);
        let counts = all.iter().flat_map(|waits| waits.counts);
        let longest = counts.flatten().max().unwrap_or(0);
        Drawing {
            tops: tops(view),
            captions: captions(longest),
            longest,
            notes: notes(view, &all),
            ports: all.into_iter().filter(Waits::any).collect(),
        }
    }

    /// As lines of text.
    pub fn text(&self) -> String {
        let mut parts = vec![lines(&self.tops)];
        parts.push(lines(&self.captions));
        let widths = self.widths();
        parts.extend(self.ports.iter().map(|waits| self.port(&widths, waits)));
        parts.push(lines(&self.notes));
        parts.retain(|part| !part.is_empty());
        parts.join("\n")
    }

    /// The share of the longest bar that a bucket's takes, where the longest has
    /// so many parts: at least one of a bucket that counts something.
    pub fn share(&self, count: u32, parts: u64) -> u64 {
        let share = u64::from(count) * parts / u64::from(self.longest.max(1));
        share.max((count > 0).into())
    }

    /// A port's heading, and a line for each of its rows.
    fn port(&self, widths: &Widths, waits: &Waits) -> String {
        let mut text = format!("{}\n", heading(waits));
        text += &widths.line("ticks", "packets", "", "");
        for (bucket, count) in waits.rows() {
            let bar = self.bar(count);
            text += &widths.line(&range(bucket), &count.to_string(), more(count), &bar);
        }
        text
    }

    fn widths(&self) -> Widths {
        let rows = self.ports.iter().flat_map(Waits::rows);
        let widest = rows.map(|(bucket, _)| range(bucket).len()).max();
        Widths {
            waits: widest.unwrap_or(0).max("ticks".len()),
            count: self.longest.to_string().len().max("packets".len()),
            more: more(self.longest).len(),
        }
    }

    fn bar(&self, count: u32) -> String {
        let eighths = self.share(count, 8 * COLUMNS);
        let rest = (eighths % 8).checked_sub(1).map(|i| EIGHTHS[i as usize]);
        let whole = WHOLE.repeat((eighths / 8) as usize);
        whole + &rest.map_or_else(String::new, String::from)
    }
}

/// How wide the cells of a line are, so that they stand in the same columns in
/// every port's rows.
struct Widths {
    waits: usize,
    count: usize,
    more: usize,
}

impl Widths {
    fn line(&self, waits: &str, count: &str, more: &str, bar: &str) -> String {
        let (wide, digits, stop) = (self.waits, self.count, self.more);
        let line = format!("  {waits:>wide$}  {count:>digits$}{more:stop$}  {bar}");
        format!("{}\n", line.trim_end())
    }
}

/// What stands behind the number of a bucket that has stopped.
fn more(count: u32) -> &'static str {
    match Packets::in_bucket(count).more {
        true => " or more",
        false => "",
    }
}

/// How many packets a port's timed turns sent.
pub fn heading(waits: &Waits) -> String {
    format!("port {}: {}", waits.port, waits.in_words())
}

fn lines(all: &[String]) -> String {
    all.iter().map(|line| format!("{line}\n")).collect()
}

fn tops(view: &View) -> Vec<String> {
    let hint = view.hint().map(|hint| format!("hint: {hint}"));
    std::iter::once(view.top()).chain(hint).collect()
}

fn captions(longest: u32) -> Vec<String> {
    if longest == 0 {
        return Vec::new();
    }
    let packets = Packets::in_bucket(longest).in_words();
    let scale = format!("all bars have one scale: the longest stands for {packets}");
    vec![CAPTION.into(), scale]
}

/// The ports of which there is nothing to be drawn, those alike in one line.
fn notes(view: &View, all: &[Waits]) -> Vec<String> {
    let told = |said: &str, unread: fn(usize) -> bool| {
        let alike = |waits: &&Waits| !waits.any() && unread(waits.unread());
        let alike: Vec<&Waits> = all.iter().filter(alike).collect();
        (!alike.is_empty()).then(|| format!("{}: {said}", ports(&alike)))
    };
    let kinds = [
        told("no packets counted", |unread| unread == 0),
        told(
            "no packets counted in the buckets that can be read",
            |unread| (1..BUCKETS).contains(&unread),
        ),
        told("the buckets cannot be read", |unread| unread == BUCKETS),
        stops(view, all).map(|why| format!("reading stops: {why}")),
    ];
    kinds.into_iter().flatten().collect()
}

/// Why not all buckets can be read. What stands behind them does not matter here.
fn stops(view: &View, all: &[Waits]) -> Option<String> {
    if all.is_empty() {
        return view.stops();
    }
    let (there, end) = (view.image.bytes.len(), view.image.shape.start(Table::Head));
    let unread = all.iter().any(|waits| waits.unread() > 0);
    unread.then(|| format!("the image ends at byte {there}, the buckets at byte {end}"))
}
