//! A night as lines of text, no longer than a terminal's.

use std::collections::BTreeMap;

use ventorupo::{Refusal, TEN_BYTES};

use super::night::{Both, Halted, Night, Port, Tick};
use super::plan::Plan;
use crate::svg::broken;
use crate::view::counted;

/// The columns of a terminal.
const WIDTH: usize = 80;
/// Rows of the table of ticks, at most.
const ROWS: u32 = 12;
/// Columns for the pools, all together; and how many of them there are at most.
const POOLS: usize = 32;
const MOST_POOLS: u32 = 4;
/// The parts of a column that a bar can end within, from one eighth on.
const EIGHTHS: [char; 7] = ['▏', '▎', '▍', '▌', '▋', '▊', '▉'];
/// Waits from this bucket on are told together.
const LATE: usize = 5;

/// The whole text.
pub fn text(night: &Night) -> String {
    let parts = [
        lines(&heading(&night.plan)),
        ticks(night),
        ports(night),
        refusals(night),
        lines(&statements(night)),
    ];
    let parts: Vec<String> = parts.into_iter().filter(|part| !part.is_empty()).collect();
    parts.join("\n")
}

/// Lines of their own, broken where they are too long.
fn lines(all: &[String]) -> String {
    let broken = all.iter().flat_map(|line| broken(line, WIDTH));
    broken.map(|line| format!("{line}\n")).collect()
}

/// What the night is.
pub fn heading(plan: &Plan) -> Vec<String> {
    let form = plan.form;
    let headers = match form.edition {
        TEN_BYTES => "ten-byte",
        _ => "wide",
    };
    let Plan { liar, from, to, .. } = plan;
    vec![
        format!(
            "a night of {} ticks, seed {}; ports {}, queues {}, nodes {}, {headers} headers",
            plan.ticks, plan.seed, form.ports, form.queues, plan.nodes
        ),
        format!(
            "the box at port {liar} (!) lies in {}; {}",
            span(*from, *to),
            cleared(&plan.clears)
        ),
    ]
}

/// Ticks from one to another.
pub fn span(from: u32, to: u32) -> String {
    match from == to {
        true => format!("tick {from}"),
        false => format!("ticks {from} to {to}"),
    }
}

fn cleared(ticks: &[u32]) -> String {
    let ticks: Vec<String> = ticks.iter().map(u32::to_string).collect();
    match ticks.len() {
        0 => "the port is never cleared".into(),
        1 => format!("the port is cleared in tick {}", ticks[0]),
        _ => format!("the port is cleared in {}", ticks.join(" and ")),
    }
}

/// A column of the table in which pools are shown.
struct Pool {
    title: String,
    /// The ports whose fewest free nodes it shows.
    ports: Vec<usize>,
}

/// A column for each port, or for the liar's and for all others.
fn pools(plan: &Plan) -> Vec<Pool> {
    let (ports, liar) = (0..plan.form.ports, plan.liar);
    if plan.form.ports <= MOST_POOLS {
        let pool = |port| Pool {
            title: format!("port {port}{}", if port == liar { "!" } else { "" }),
            ports: vec![port as usize],
        };
        return ports.map(pool).collect();
    }
    let others = ports.filter(|&port| port != liar);
    vec![
        Pool {
            title: format!("port {liar}!"),
            ports: vec![liar as usize],
        },
        Pool {
            title: "all others".into(),
            ports: others.map(|port| port as usize).collect(),
        },
    ]
}

/// A row for every so many ticks.
fn ticks(night: &Night) -> String {
    let plan = &night.plan;
    let pools = pools(plan);
    let column = POOLS / pools.len();
    let mut text = format!(
        "{:>POOLS$} {:>6} {:>13} {:>11} {:>7}\n",
        format!("fewest free nodes of {}", plan.nodes),
        "!",
        "headers",
        "left",
        "waited"
    );
    text = format!("{:7}{text}", "");
    text += &format!("{:>7}", "ticks");
    let titles = pools.iter().map(|pool| format!("{:>column$}", pool.title));
    text += &titles.collect::<String>();
    text += &format!(
        " {:>6} {:>5} {:>7} {:>5} {:>5} {:>3} {:>3}\n",
        "halted", "in", "refused", "q 0", "above", "q 0", "any"
    );
    let each = (plan.ticks + ROWS - 1) / ROWS;
    for (first, some) in (1..)
        .step_by(each as usize)
        .zip(night.ticks.chunks(each as usize))
    {
        text += &row(night, &pools, first, some);
    }
    text
}

fn row(night: &Night, pools: &[Pool], first: u32, ticks: &[Tick]) -> String {
    let column = POOLS / pools.len();
    let last = first + ticks.len() as u32 - 1;
    let mut text = match first == last {
        true => format!("{first:>7}"),
        false => format!("{:>7}", format!("{first}-{last}")),
    };
    for pool in pools {
        let free = |tick: &Tick| {
            pool.ports
                .iter()
                .filter_map(|&port| tick.free.get(port).copied())
                .min()
        };
        let fewest = ticks.iter().filter_map(free).min().unwrap_or(0);
        let digits = night.plan.nodes.to_string().len();
        let width = column - digits - 3;
        let bar = bar(fewest, night.plan.nodes, width);
        text += &format!("  {bar:width$} {fewest:>digits$}");
    }
    let sum = |of: fn(&Tick) -> u64| ticks.iter().map(of).sum::<u64>();
    let most = |of: fn(&Tick) -> u64| ticks.iter().map(of).max().unwrap_or(0);
    text + &format!(
        " {:>6} {:>5} {:>7} {:>5} {:>5} {:>3} {:>3}\n",
        marks(ticks, night.plan.liar),
        sum(|tick| tick.taken.sum()),
        sum(|tick| tick.refused + tick.refused_elsewhere),
        sum(|tick| tick.left.clock),
        sum(|tick| tick.left.above),
        most(|tick| tick.longest.clock),
        most(|tick| tick.longest.most())
    )
}

/// A bar of so many columns for the whole.
fn bar(part: u32, whole: u32, columns: usize) -> String {
    let eighths = part as usize * 8 * columns / whole.max(1) as usize;
    let rest = (eighths % 8).checked_sub(1).map(|i| EIGHTHS[i]);
    "█".repeat(eighths / 8) + &rest.map_or_else(String::new, String::from)
}

/// The liar's marks in these ticks.
fn marks(ticks: &[Tick], liar: u32) -> String {
    let mut marks: Vec<u32> = ticks.iter().map(|tick| tick.marks[liar as usize]).collect();
    marks.dedup();
    marks.retain(|&mark| mark != 0);
    marks.dedup();
    let marks: Vec<String> = marks.iter().map(u32::to_string).collect();
    match marks.len() {
        0 => "-".into(),
        _ => format!("by {}", marks.join(",")),
    }
}

/// A row for each port.
fn ports(night: &Night) -> String {
    let mut text = format!(
        "{:4} {:^18} {:^8} {:^12}  {}\n",
        "", "taken in  refused", "fewest", "left", "waits of what left, in ticks"
    );
    text += &format!(
        "{:>4} {:>5} {:>5} {:>6} {:>9} {:>5} {:>5}  {:>5} {:>4} {:>4} {:>4} {:>4} {:>4}\n",
        "port",
        "q 0",
        "above",
        "",
        "free, at",
        "q 0",
        "above",
        "0",
        "1",
        "2-3",
        "4-7",
        "8-15",
        "16-"
    );
    for (number, port) in night.ports.iter().enumerate() {
        text += &format!("{}\n", port_row(number, port).trim_end());
    }
    text
}

fn port_row(number: usize, port: &Port) -> String {
    let Both { clock, above } = port.taken;
    let refused = port.refused.values().sum::<u64>();
    let fewest = format!("{}, {}", port.lowest, port.lowest_at);
    let left = port.left;
    let mut text = format!(
        "{number:>4} {clock:>5} {above:>5} {refused:>6} {fewest:>9} {:>5} {:>5} ",
        left.clock, left.above
    );
    for count in &port.buckets[..LATE] {
        text += &format!(" {count:>4}");
    }
    let late = port.buckets[LATE..].iter().map(|&count| u64::from(count));
    text + &format!(" {:>4}", late.sum::<u64>())
}

/// Each refusal that arrivals were given, and how often at the liar's port and at all
/// others.
fn refusals(night: &Night) -> String {
    let liar = night.plan.liar as usize;
    let mut numbers: BTreeMap<u32, [u64; 2]> = BTreeMap::new();
    let all = night.ports.iter().enumerate();
    let each = all.flat_map(|(at, port)| port.refused.iter().map(move |refused| (at, refused)));
    for (at, (number, count)) in each {
        numbers.entry(*number).or_default()[usize::from(at != liar)] += count;
    }
    let line = |(number, [its, others]): (&u32, &[u64; 2])| {
        let meaning =
            Refusal::from_number(*number).map_or_else(String::new, |refusal| refusal.to_string());
        format!("{number:>4}  {meaning:59} {its:>7} {others:>6}\n")
    };
    let rows: String = numbers.iter().map(line).collect();
    let title = format!(
        "{:65} {:>7} {:>6}\n",
        "refused arrivals",
        format!("port {liar}"),
        "others"
    );
    if rows.is_empty() {
        rows
    } else {
        title + &rows
    }
}

/// What the numbers say, in words.
pub fn statements(night: &Night) -> Vec<String> {
    [
        pools_held(night),
        clocks(night),
        halts(night),
        beside(night),
    ]
    .to_vec()
}

/// Whether a pool ran dry at another port.
fn pools_held(night: &Night) -> String {
    let liar = night.plan.liar as usize;
    let ports = night.ports.iter().enumerate();
    let others = ports.filter(|(number, _)| *number != liar);
    let (number, port) = match others.min_by_key(|(_, port)| port.lowest) {
        Some(fewest) => fewest,
        None => return String::new(),
    };
    let (lowest, at, nodes) = (port.lowest, port.lowest_at, night.plan.nodes);
    let its = night.ports[liar].lowest;
    match lowest {
        0 => format!("a pool ran dry: port {number} had no free node of {nodes} in tick {at}"),
        _ => format!(
            "no pool ran dry at another port: the fewest free nodes of {nodes} were {lowest}, at port {number} in tick {at} (port {liar}: {its})"
        ),
    }
}

/// Whether queue 0 went on.
fn clocks(night: &Night) -> String {
    let (liar, each) = (night.plan.liar, u64::from(night.plan.ticks));
    let all = |of: fn(&Port) -> u64| night.ports.iter().map(of).sum::<u64>();
    let (taken, left) = (all(|port| port.taken.clock), all(|port| port.left.clock));
    let longest = night.ports.iter().map(|port| port.longest.clock).max();
    let longest = counted(longest.unwrap_or(0), "tick");
    let refused = all(|port| port.clocks_refused);
    let halted = night
        .ticks
        .iter()
        .filter(|tick| tick.marks[liar as usize] != 0);
    let halted = halted.map(|tick| tick.liars_clocks).sum::<u64>();
    let halted = match halted {
        0 => String::new(),
        _ => format!(", {halted} of them at port {liar} while it was halted"),
    };
    let went = match refused {
        0 => format!("queue 0 went on: every port's {each} clock packets were taken in{halted}"),
        _ => format!("queue 0: {refused} clock packets were refused and {taken} taken in{halted}"),
    };
    format!("{went}; {left} of {taken} left, and none of these waited longer than {longest}")
}

/// When the liar's port was halted, and that no other was.
fn halts(night: &Night) -> String {
    let liar = night.plan.liar;
    let told = |halt: &Halted| {
        let Halted { mark, from, to } = halt;
        format!("by {mark} in {}", span(*from, *to))
    };
    let halts: Vec<String> = night.halts.iter().map(told).collect();
    let others = |tick: &Tick| {
        let marks = tick.marks.iter().zip(0..);
        marks
            .filter(|&(mark, port)| *mark != 0 && port != liar)
            .count()
    };
    let others = night.ticks.iter().map(others).sum::<usize>();
    let others = if others == 0 {
        "no other port ever was"
    } else {
        "other ports were too"
    };
    match halts.len() {
        0 => format!("port {liar} was not halted, and {others}"),
        _ => format!("port {liar} was halted {}; {others}", halts.join(", then ")),
    }
}

/// What the night beside it says.
fn beside(night: &Night) -> String {
    let beside = &night.beside;
    let liar = night.plan.liar;
    let without = format!(
        "the same night again without the {} that port {liar} refused",
        counted(beside.left_out, "header")
    );
    match beside.differs {
        None => format!(
            "{without}: all {} other calls were answered the same (reports of port {liar} are not compared), and in {} audits every node stood in the same place",
            beside.calls, beside.audits
        ),
        Some((tick, what)) => {
            format!("{without} was another: in tick {tick} {what} told otherwise; please report this")
        }
    }
}
