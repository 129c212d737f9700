//! How far a long command is, in a line that is drawn over and over.

use std::fs;
use std::io::Write;
use std::time::Duration;

/// What takes no longer than this needs no line.
const PATIENCE: Duration = Duration::from_secs(2);
/// No more often than this is the line drawn.
const BETWEEN: Duration = Duration::from_millis(100);
/// The columns of a whole bar.
const COLUMNS: u64 = 30;
/// Back to the line's start, and all of it taken away.
const WIPED: &str = "\r\x1b[K";

/// A line that says how far it is.
pub struct Progress<W: Write> {
    out: W,
    /// The bytes of the whole stream, if that is known.
    whole: Option<u64>,
    /// When it was drawn last.
    drawn: Option<Duration>,
}

impl<W: Write> Progress<W> {
    pub fn new(out: W, whole: Option<u64>) -> Progress<W> {
        Progress {
            out,
            whole,
            drawn: None,
        }
    }

    /// So far it is after this time. Where the line cannot be written, nobody
    /// wants it.
    pub fn tell(&mut self, after: Duration, bytes: u64, calls: u64) {
        let next = self.drawn.map_or(PATIENCE, |drawn| drawn + BETWEEN);
        if after < next {
            return;
        }
        self.drawn = Some(after);
        let line = line(self.whole, bytes, calls);
        let _ = write!(self.out, "{WIPED}{line}").and_then(|()| self.out.flush());
    }
}

/// What is said then stands on a clean line.
impl<W: Write> Drop for Progress<W> {
    fn drop(&mut self) {
        if self.drawn.is_some() {
            let _ = write!(self.out, "{WIPED}").and_then(|()| self.out.flush());
        }
    }
}

fn line(whole: Option<u64>, bytes: u64, calls: u64) -> String {
    let whole = match whole.filter(|&whole| whole > 0) {
        Some(whole) => u128::from(whole),
        None => return format!("{bytes} bytes, {calls} calls"),
    };
    let bytes = u128::from(bytes).min(whole);
    let percent = bytes * 100 / whole;
    let full = (bytes * u128::from(COLUMNS) / whole) as usize;
    let bar = "█".repeat(full) + &"░".repeat(COLUMNS as usize - full);
    format!("{percent:3} % {bar} {calls} calls")
}

/// Whether standard error is a terminal, as Linux names what is open.
pub fn is_watched() -> bool {
    let open = fs::read_link("/proc/self/fd/2").unwrap_or_default();
    let open = open.to_string_lossy();
    let terminals = ["/dev/pts/", "/dev/tty", "/dev/console"];
    terminals.iter().any(|start| open.starts_with(start))
}

#[cfg(test)]
mod tests {
    use super::*;

    #[test]
    fn a_bar_grows() {
        let bar = |full, empty| "█".repeat(full) + &"░".repeat(empty);
        for (bytes, percent, full) in [(0, 0, 0), (1, 0, 0), (500, 50, 15), (999, 99, 29)] {
            let wanted = format!("{percent:3} % {} 7 calls", bar(full, 30 - full));
            assert_eq!(line(Some(1000), bytes, 7), wanted);
        }
        // A file that has grown since.
        for bytes in [1000, 2000, u64::MAX] {
            assert_eq!(
                line(Some(1000), bytes, 7),
                format!("100 % {} 7 calls", bar(30, 0))
            );
        }
        assert_eq!(line(None, 12, 7), "12 bytes, 7 calls");
        assert_eq!(line(Some(0), 12, 7), "12 bytes, 7 calls");
    }

    #[test]
    fn nothing_is_drawn_before_two_seconds_nor_too_often() {
        let mut out = Vec::new();
        let mut progress = Progress::new(&mut out, None);
        for (millis, calls) in [(0, 1), (1999, 2), (2000, 3), (2099, 4), (2100, 5)] {
            progress.tell(Duration::from_millis(millis), 0, calls);
        }
        drop(progress);
        let wanted = "\r\x1b[K0 bytes, 3 calls\r\x1b[K0 bytes, 5 calls\r\x1b[K";
        assert_eq!(String::from_utf8(out).unwrap(), wanted);
        let mut out = Vec::new();
        Progress::new(&mut out, None).tell(Duration::from_millis(1999), 0, 9);
        assert_eq!(out, b"");
    }
}
