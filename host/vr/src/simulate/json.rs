//! A night as JSON: a program may listen.

use super::night::{Both, Night, Port, Tick};
use super::plan::Plan;

pub fn json(night: &Night) -> String {
    let mut members = asked(&night.plan);
    members.extend(over_time(&night.ticks));
    let ports = (0..)
        .zip(&night.ports)
        .map(|(number, port)| total(number, port));
    members.push(("totals", lines(ports)));
    members.push((
        "halts",
        row(night.halts.iter().map(|halt| {
            object(&[
                ("by", halt.mark.to_string()),
                ("from", halt.from.to_string()),
                ("to", halt.to.to_string()),
            ])
        })),
    ));
    members.push(("beside", beside(night)));
    let member = |(name, value): &(&str, String)| format!("  \"{name}\": {value}");
    let members: Vec<String> = members.iter().map(member).collect();
    format!("{{\n{}\n}}\n", members.join(",\n"))
}

/// What the night was to be.
fn asked(plan: &Plan) -> Vec<(&'static str, String)> {
    vec![
        ("seed", plan.seed.to_string()),
        ("ticks", plan.ticks.to_string()),
        ("edition", plan.form.edition.to_string()),
        ("ports", plan.form.ports.to_string()),
        ("queues", plan.form.queues.to_string()),
        ("nodes", plan.nodes.to_string()),
        ("liar", plan.liar.to_string()),
        ("lies_from", plan.from.to_string()),
        ("lies_to", plan.to.to_string()),
        ("clears", row(plan.clears.iter().map(u32::to_string))),
    ]
}

/// An element for each tick; of pools and marks one for each port in it.
fn over_time(ticks: &[Tick]) -> Vec<(&'static str, String)> {
    let of_ports = |of: fn(&Tick) -> &Vec<u32>| {
        lines(
            ticks
                .iter()
                .map(|tick| row(of(tick).iter().map(u32::to_string))),
        )
    };
    let number = |of: fn(&Tick) -> u64| row(ticks.iter().map(|tick| of(tick).to_string()));
    vec![
        ("free", of_ports(|tick| &tick.free)),
        ("marks", of_ports(|tick| &tick.marks)),
        ("taken_queue_0", number(|tick| tick.taken.clock)),
        ("taken_above", number(|tick| tick.taken.above)),
        ("taken_queue_0_liar", number(|tick| tick.liars_clocks)),
        ("refused_liar", number(|tick| tick.refused)),
        ("refused_others", number(|tick| tick.refused_elsewhere)),
        ("left_queue_0", number(|tick| tick.left.clock)),
        ("left_above", number(|tick| tick.left.above)),
        ("longest_wait_queue_0", number(|tick| tick.longest.clock)),
        ("longest_wait_above", number(|tick| tick.longest.above)),
    ]
}

fn total(number: u32, port: &Port) -> String {
    let refused = port.refused.iter();
    let refused = refused.map(|(number, count)| format!("\"{number}\": {count}"));
    let refused: Vec<String> = refused.collect();
    object(&[
        ("port", number.to_string()),
        ("taken", both(port.taken)),
        ("refused", format!("{{{}}}", refused.join(", "))),
        ("clocks_refused", port.clocks_refused.to_string()),
        ("left", both(port.left)),
        ("longest_wait", both(port.longest)),
        ("own_left", port.home.to_string()),
        ("free", port.free.to_string()),
        ("fewest_free", port.lowest.to_string()),
        ("fewest_in_tick", port.lowest_at.to_string()),
        ("buckets", row(port.buckets.iter().map(u32::to_string))),
    ])
}

fn both(both: Both) -> String {
    object(&[
        ("queue_0", both.clock.to_string()),
        ("above", both.above.to_string()),
    ])
}

fn beside(night: &Night) -> String {
    let beside = &night.beside;
    let differs = beside.differs.map_or_else(
        || "null".into(),
        |(tick, what)| object(&[("tick", tick.to_string()), ("call", format!("\"{what}\""))]),
    );
    object(&[
        ("headers_left_out", beside.left_out.to_string()),
        ("calls_compared", beside.calls.to_string()),
        ("audits_compared", beside.audits.to_string()),
        ("differs", differs),
    ])
}

/// An array in one line.
fn row(elements: impl Iterator<Item = String>) -> String {
    format!("[{}]", elements.collect::<Vec<String>>().join(", "))
}

/// An array of a line each.
fn lines(elements: impl Iterator<Item = String>) -> String {
    let elements: Vec<String> = elements.map(|element| format!("    {element}")).collect();
    format!("[\n{}\n  ]", elements.join(",\n"))
}

/// An object in one line.
fn object(members: &[(&str, String)]) -> String {
    let member = |(name, value): &(&str, String)| format!("\"{name}\": {value}");
    let members: Vec<String> = members.iter().map(member).collect();
    format!("{{{}}}", members.join(", "))
}
