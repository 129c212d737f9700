//! A night as an SVG picture, which stands alone: no script, no style sheet, no font
//! and no file of others is asked for.

use super::night::{Night, Tick};
use super::text::{heading, span, statements};
use crate::svg::{broken, text_at, whole};

/// The picture's width, in pixels as all that follows.
const WIDTH: u32 = 800;
/// Where texts start, and where the panels start and end.
const LEFT: u32 = 20;
const START: u32 = 60;
const END: u32 = 780;
/// The panels' heights: pools, what left, how long it waited, what was refused.
const POOLS: u32 = 220;
const DEPARTURES: u32 = 110;
const WAITS: u32 = 80;
const REFUSALS: u32 = 80;
/// What a halt's ground leaves of the lies' above it.
const STRIP: u32 = 8;
/// From one line of text to the next, and its characters at most.
const LINE: u32 = 20;
const CHARACTERS: usize = 105;
/// As many ports have a color of their own; of more, the liar alone.
const COLORS: [&str; 7] = [
    "#2f6db5", "#2e8b57", "#8a5fbf", "#c07a1a", "#11808c", "#7a6a55", "#5b7f1f",
];
/// The liar, the others where they are many, and the grounds behind lies and halts.
const LIAR: &str = "#c8281e";
const LYING: &str = "#ffe08a";
const HALTED: &str = "#f6cfcb";
/// What left in queue 0, and above it.
const CLOCK: &str = "#1d4e89";
const ABOVE: &str = "#9dbfe3";
const GRID: &str = "#cccccc";

/// The whole picture.
pub fn picture(night: &Night) -> String {
    let mut page = Page {
        night,
        inner: String::new(),
        below: 0,
    };
    page.title();
    page.paragraph(&heading(&night.plan));
    page.legend();
    page.pools();
    page.departures();
    page.waits();
    page.refusals();
    page.paragraph(&statements(night));
    page.whole()
}

fn title(night: &Night) -> String {
    format!(
        "a night when the stage box at port {} lied",
        night.plan.liar
    )
}

/// What is drawn so far, and the line below which it stands.
struct Page<'n> {
    night: &'n Night,
    inner: String,
    below: u32,
}

/// A panel: its top, its height, and the number that its top stands for.
#[derive(Clone, Copy)]
struct Panel {
    top: u32,
    height: u32,
    most: u64,
}

impl Panel {
    /// Where a number stands, in tenths of a pixel from the picture's top.
    fn height_of(&self, number: u64) -> u64 {
        let height = u64::from(self.height) * 10;
        u64::from(self.top) * 10 + height - number * height / self.most.max(1)
    }
}

/// A number of tenths.
fn tenths(number: u64) -> String {
    format!("{}.{}", number / 10, number % 10)
}

impl Page<'_> {
    fn title(&mut self) {
        self.below += LINE + LINE / 2;
        let title = title(self.night);
        self.text(LEFT, "font-size=\"18\" font-weight=\"bold\"", &title);
    }

    /// Lines of text behind a gap, the long ones broken.
    fn paragraph(&mut self, lines: &[String]) {
        self.below += LINE / 2;
        for line in lines.iter().flat_map(|line| broken(line, CHARACTERS)) {
            self.below += LINE;
            self.text(LEFT, "", &line);
        }
    }

    /// What the colors are.
    fn legend(&mut self) {
        self.below += LINE + LINE / 2;
        let liar = self.night.plan.liar;
        let mut signs = vec![
            (LIAR, format!("port {liar}, which lies")),
            (LYING, "lies".into()),
            (HALTED, "halted".into()),
        ];
        let others = (0..self.night.plan.form.ports).filter(|&port| port != liar);
        if self.few() {
            signs.extend(others.map(|port| (self.color(port), format!("port {port}"))));
        } else {
            signs.push((
                self.color(liar + 1),
                format!("{} other ports", others.count()),
            ));
        }
        let mut left = LEFT;
        for (color, said) in signs {
            let right = left + 36 + 7 * said.len() as u32;
            if right > WIDTH {
                self.below += LINE;
            }
            let start = if right > WIDTH { LEFT } else { left };
            let top = self.below - 11;
            self.inner += &format!(
                "  <rect x=\"{start}\" y=\"{top}\" width=\"14\" height=\"12\" fill=\"{color}\" stroke=\"{GRID}\"/>\n"
            );
            self.text(start + 20, "", &said);
            left = start + right - left;
        }
    }

    /// Whether every other port has a color of its own.
    fn few(&self) -> bool {
        self.night.ports.len() <= COLORS.len() + 1
    }

    fn color(&self, port: u32) -> &'static str {
        let liar = self.night.plan.liar;
        if port == liar {
            return LIAR;
        }
        let among = if self.few() {
            port - u32::from(port > liar)
        } else {
            0
        };
        COLORS[among as usize % COLORS.len()]
    }

    /// Each port's free nodes, the liar's on top.
    fn pools(&mut self) {
        let nodes = u64::from(self.night.plan.nodes);
        let said = format!("free nodes of each port, of {nodes}: the fewest in each tick");
        let panel = self.panel(&said, POOLS, nodes);
        let liar = self.night.plan.liar;
        let others = (0..self.night.plan.form.ports).filter(|&port| port != liar);
        for port in others.chain([liar]) {
            let (points, color) = (self.points(panel, port), self.color(port));
            let width = if port == liar { "2.5" } else { "1.5" };
            self.inner += &format!(
                "  <polyline points=\"{points}\" fill=\"none\" stroke=\"{color}\" stroke-width=\"{width}\" \
                 stroke-linejoin=\"round\"><title>port {port}</title></polyline>\n"
            );
        }
    }

    fn points(&self, panel: Panel, port: u32) -> String {
        let point = |(i, tick): (u32, &Tick)| {
            let free = tick.free[port as usize];
            // In the middle of its tick.
            let across = (self.across(i) + self.across(i + 1)) / 2;
            format!(
                "{},{}",
                tenths(across),
                tenths(panel.height_of(free.into()))
            )
        };
        let points: Vec<String> = (0..).zip(&self.night.ticks).map(point).collect();
        points.join(" ")
    }

    /// What left in each tick, queue 0 below.
    fn departures(&mut self) {
        let most = self.night.ticks.iter().map(|tick| tick.left.sum()).max();
        let said = "packets that left in each tick: queue 0 (dark), the queues above it (light)";
        let panel = self.panel(said, DEPARTURES, most.unwrap_or(0));
        self.bars(panel, ABOVE, |tick| (tick.left.clock, tick.left.sum()));
        self.bars(panel, CLOCK, |tick| (0, tick.left.clock));
    }

    /// The longest wait of what left in each tick; queue 0 in front.
    fn waits(&mut self) {
        let most = self
            .night
            .ticks
            .iter()
            .map(|tick| tick.longest.most())
            .max();
        let said = "longest wait of what left in each tick, in ticks: queue 0 (dark), the queues above it (light)";
        let panel = self.panel(said, WAITS, most.unwrap_or(0));
        self.bars(panel, ABOVE, |tick| (0, tick.longest.above));
        self.bars(panel, CLOCK, |tick| (0, tick.longest.clock));
    }

    fn refusals(&mut self) {
        let liar = self.night.plan.liar;
        let most = self.night.ticks.iter().map(|tick| tick.refused).max();
        let said = format!("headers refused at port {liar} in each tick");
        let panel = self.panel(&said, REFUSALS, most.unwrap_or(0));
        self.bars(panel, LIAR, |tick| (0, tick.refused));
        self.below += LINE;
        self.ticks();
    }

    /// A panel with its name, what happened behind it, and its scale.
    fn panel(&mut self, said: &str, height: u32, most: u64) -> Panel {
        self.below += LINE + LINE / 2;
        self.text(START, "font-weight=\"bold\"", said);
        let top = self.below + 8;
        let panel = Panel { top, height, most };
        let plan = &self.night.plan;
        self.ground(panel, LYING, (plan.from, plan.to), "lies");
        for halt in &self.night.halts {
            let what = format!("halted by {}", halt.mark);
            // Below a strip of the lies, which are to be seen behind it.
            let inner = Panel {
                top: top + STRIP,
                height: height - STRIP,
                most,
            };
            self.ground(inner, HALTED, (halt.from, halt.to), &what);
        }
        self.below = top + height;
        self.scale(panel);
        panel
    }

    /// What happened in these ticks, behind a panel.
    fn ground(&mut self, panel: Panel, color: &str, (from, to): (u32, u32), what: &str) {
        let (left, right) = (self.across(from - 1), self.across(to));
        let [left, width] = [left, right - left].map(tenths);
        let (Panel { top, height, .. }, span) = (panel, span(from, to));
        self.inner += &format!(
            "  <rect x=\"{left}\" y=\"{top}\" width=\"{width}\" height=\"{height}\" fill=\"{color}\">\
             <title>{what}, {span}</title></rect>\n"
        );
    }

    /// Lines at nothing, the half, and the whole.
    fn scale(&mut self, panel: Panel) {
        let mut numbers = vec![0, panel.most / 2, panel.most];
        numbers.dedup();
        for number in numbers {
            let at = panel.height_of(number);
            let (line, text) = (tenths(at), tenths(at + 40));
            self.inner += &format!(
                "  <rect x=\"{START}\" y=\"{line}\" width=\"{}\" height=\"1\" fill=\"{GRID}\"/>\n\
                 \x20 <text x=\"{}\" y=\"{text}\" text-anchor=\"end\" font-size=\"11\">{number}</text>\n",
                END - START,
                START - 6
            );
        }
    }

    /// A bar for each tick, between two numbers.
    fn bars(&mut self, panel: Panel, color: &str, of: fn(&Tick) -> (u64, u64)) {
        self.inner += &format!("  <g fill=\"{color}\">\n");
        for (i, tick) in (0..).zip(&self.night.ticks) {
            let (from, to) = of(tick);
            if to > from {
                let (left, right) = (self.across(i), self.across(i + 1));
                let (top, bottom) = (panel.height_of(to), panel.height_of(from));
                // A gap between bars that are not too thin for one.
                let gap = if right - left > 30 { 10 } else { 0 };
                let [left, width] = [left, right - left - gap].map(tenths);
                let [top, height] = [top, bottom - top].map(tenths);
                self.inner += &format!(
                    "    <rect x=\"{left}\" y=\"{top}\" width=\"{width}\" height=\"{height}\"/>\n"
                );
            }
        }
        self.inner += "  </g>\n";
    }

    /// The ticks' numbers below the panels.
    fn ticks(&mut self) {
        let ticks = self.night.plan.ticks;
        let each = (ticks / 6).max(1);
        for tick in (0..=ticks).step_by(each as usize) {
            let (across, below) = (tenths(self.across(tick)), self.below);
            self.inner += &format!(
                "  <text x=\"{across}\" y=\"{below}\" text-anchor=\"middle\" font-size=\"11\">{tick}</text>\n"
            );
        }
        self.below += LINE - 4;
        self.text(
            (START + END) / 2,
            "text-anchor=\"middle\" font-size=\"11\"",
            "ticks",
        );
    }

    /// Where a tick ends, in tenths of a pixel.
    fn across(&self, tick: u32) -> u64 {
        let width = u64::from(END - START) * 10;
        u64::from(START) * 10 + width * u64::from(tick) / u64::from(self.night.plan.ticks)
    }

    /// A text at the present line, with attributes of its own or none.
    fn text(&mut self, left: u32, attributes: &str, text: &str) {
        self.inner += &text_at(left, self.below, attributes, text);
    }

    fn whole(self) -> String {
        whole(WIDTH, self.below + LINE, &title(self.night), &self.inner)
    }
}
