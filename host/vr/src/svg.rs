//! The drawing of `vr waits` as an SVG picture, which stands alone: no script, no
//! style sheet, no font and no file of others is asked for.

use crate::buckets::{named_range, range, Packets, Waits};
use crate::waits::{heading, Drawing};

/// What the picture is called.
const TITLE: &str = "how long packets waited";
/// Its width, in pixels as all that follows.
const WIDTH: u32 = 800;
/// Where texts start, where the waits' ranges end, and where the bars start.
const LEFT: u32 = 20;
const LABELS: u32 = 210;
const BARS: u32 = 220;
/// The longest bar.
const LONGEST: u64 = 400;
/// From one line to the next, and a bar's height.
const LINE: u32 = 20;
const BAR: u32 = 14;
/// A line of text has no more characters, so that it fits the width.
const CHARACTERS: usize = 105;
/// The colors: dark on a light ground of its own, whatever the viewer's is.
const GROUND: &str = "#ffffff";
const INK: &str = "#1a1a1a";
const FILL: &str = "#2f6db5";

/// The whole picture.
pub fn picture(drawing: &Drawing) -> String {
    let mut page = Page::default();
    page.title();
    page.paragraph(&drawing.tops);
    page.paragraph(&drawing.captions);
    for waits in &drawing.ports {
        page.port(drawing, waits);
    }
    page.paragraph(&drawing.notes);
    page.whole()
}

/// What is drawn so far, and the line below which it stands.
#[derive(Default)]
struct Page {
    inner: String,
    below: u32,
}

impl Page {
    fn title(&mut self) {
        self.below += LINE + LINE / 2;
        self.text(LEFT, "font-size=\"18\" font-weight=\"bold\"", TITLE);
    }

    /// Lines of text behind a gap, the long ones broken.
    fn paragraph(&mut self, lines: &[String]) {
        self.below += LINE / 2;
        for line in lines.iter().flat_map(|line| broken(line, CHARACTERS)) {
            self.below += LINE;
            self.text(LEFT, "", &line);
        }
    }

    /// A port's panel: its heading, and a bar for each row.
    fn port(&mut self, drawing: &Drawing, waits: &Waits) {
        self.below += LINE + LINE / 2;
        self.inner += "  <g>\n";
        self.text(LEFT, "font-weight=\"bold\"", &heading(waits));
        self.below += LINE;
        self.text(LABELS, END, "ticks");
        self.text(BARS, "", "packets");
        for (bucket, count) in waits.rows() {
            self.below += LINE;
            self.row(
                bucket,
                Packets::in_bucket(count),
                drawing.share(count, 10 * LONGEST),
            );
        }
        self.inner += "  </g>\n";
    }

    /// A bar of so many tenths of a pixel, between its waits and its packets.
    fn row(&mut self, bucket: usize, packets: Packets, tenths: u64) {
        // One that counts something is never thinner than a pixel.
        let tenths = if tenths > 0 { tenths.max(10) } else { 0 };
        let (whole, rest) = (tenths / 10, tenths % 10);
        let (top, waits) = (self.below - BAR + 3, named_range(bucket));
        let told = escaped(&format!("{waits}: {}", packets.in_words()));
        self.text(LABELS, END, &range(bucket));
        self.inner += &format!(
            "  <rect x=\"{BARS}\" y=\"{top}\" width=\"{whole}.{rest}\" height=\"{BAR}\" \
             fill=\"{FILL}\"><title>{told}</title></rect>\n"
        );
        self.text(BARS + whole as u32 + 8, "", &packets.to_string());
    }

    /// A text at the present line, with attributes of its own or none.
    fn text(&mut self, left: u32, attributes: &str, text: &str) {
        self.inner += &text_at(left, self.below, attributes, text);
    }

    fn whole(self) -> String {
        whole(WIDTH, self.below + LINE, TITLE, &self.inner)
    }
}

/// A line of text, with attributes of its own or none.
pub(crate) fn text_at(left: u32, below: u32, attributes: &str, text: &str) -> String {
    let text = escaped(text);
    let space = if attributes.is_empty() { "" } else { " " };
    format!("  <text x=\"{left}\" y=\"{below}\"{space}{attributes}>{text}</text>\n")
}

/// A picture with a ground of its own, of what is drawn in it.
pub(crate) fn whole(width: u32, height: u32, title: &str, inner: &str) -> String {
    let title = escaped(title);
    format!(
        "<svg xmlns=\"http://www.w3.org/2000/svg\" role=\"img\" width=\"{width}\" \
         height=\"{height}\" viewBox=\"0 0 {width} {height}\" font-family=\"sans-serif\" \
         font-size=\"13\" fill=\"{INK}\">\n\
         \x20 <title>{title}</title>\n\
         \x20 <rect x=\"0\" y=\"0\" width=\"{width}\" height=\"{height}\" fill=\"{GROUND}\"/>\n\
         {inner}</svg>\n"
    )
}

/// Of a text that ends where it is put.
const END: &str = "text-anchor=\"end\"";

/// A line in as many as it needs, broken between words, each of so many characters
/// at most.
pub(crate) fn broken(line: &str, most: usize) -> Vec<String> {
    let mut lines: Vec<String> = Vec::new();
    for word in line.split(' ') {
        match lines.last_mut() {
            Some(last) if last.len() + word.len() < most => *last += &format!(" {word}"),
            _ => lines.push(word.into()),
        }
    }
    lines
}

/// A text with what XML asks for.
pub(crate) fn escaped(text: &str) -> String {
    let escape = |c: char| match c {
        '&' => "&amp;".into(),
        '<' => "&lt;".into(),
        '>' => "&gt;".into(),
        '"' => "&quot;".into(),
        c => c.to_string(),
    };
    text.chars().map(escape).collect()
}

#[cfg(test)]
mod tests {
    use super::*;

    /// No words of vr need it so far; should they once, a viewer is not misled.
    #[test]
    fn what_xml_asks_for_is_escaped() {
        let said = "a < b & c > \"d\", é";
        assert_eq!(escaped(said), "a &lt; b &amp; c &gt; &quot;d&quot;, é");
    }

    #[test]
    fn long_lines_are_broken() {
        let words = "some words ".repeat(40);
        let lines = broken(words.trim_end(), CHARACTERS);
        assert!(lines.len() > 1);
        assert!(lines.iter().all(|line| line.len() <= CHARACTERS));
        assert_eq!(lines.join(" "), words.trim_end());
        assert_eq!(broken("a sound state", CHARACTERS), ["a sound state"]);
    }
}
