//! A port manager's loop: headers arrive, receivers hand out credit, and a round now and
//! then moves everything on. A port that lies is halted, and cleared.
//!
//! Run it with `cargo run --example port_manager`.

use std::error::Error;

use ventorupo::{Header, RoundTurn, Settings, Switch};

fn main() -> Result<(), Box<dyn Error>> {
    // Eight ports with 16 queues each; what isn't named has a default.
    let settings = Settings::wide(8, 16).nodes(4);
    // All that the switch knows lives in these bytes.
    let mut switch = Switch::setup(vec![0; settings.size()], settings)?;
    println!("a state of {} bytes", settings.size());

    // Destination ids go to ports by the map: 5 to port 2.
    switch.map(5, 2)?;
    // Queues above 0 leave as their receiver's credit allows, here two beats of 64 bytes.
    switch.credit(2, 3, 2)?;

    // Two packets of two beats each from port 1, in queue 3, and one in queue 0, which is free.
    let audio = Header::new().destination(5).source(1).queue(3).length(100);
    for header in [audio, audio, audio.queue(0)] {
        let bytes = settings.form().write(&header)?;
        let entry = switch.arrive(1, &bytes)?;
        println!("queue {}: node {} of port 1", header.queue, entry.index());
    }

    // A round is a stitch at each port, a prefetch for each queue and a turn at each port.
    for round in 1..=4 {
        print_round(&mut switch, round)?;
    }
    println!("the receiver has room again");
    switch.credit(2, 3, 2)?;
    print_round(&mut switch, 5)?;
    a_port_lies(&mut switch, settings, audio)
}

fn a_port_lies(
    switch: &mut Switch<Vec<u8>>,
    settings: Settings,
    audio: Header,
) -> Result<(), Box<dyn Error>> {
    // The header says port 1, and it arrives at port 4: that port is halted.
    let bytes = settings.form().write(&audio)?;
    if let Err(refusal) = switch.arrive(4, &bytes) {
        println!("port 4, refused {}: {refusal}", refusal.number());
    }
    let honest = settings.form().write(&audio.source(4))?;
    if let Err(refusal) = switch.arrive(4, &honest) {
        println!("port 4, refused {}: {refusal}", refusal.number());
    }
    if let Some(halt) = switch.report(4)? {
        println!("port 4 is halted: {halt}");
    }
    switch.clear(4)?;
    let entry = switch.arrive(4, &honest)?;
    println!("cleared: node {} of port {}", entry.index(), entry.port());
    Ok(())
}

fn print_round(switch: &mut Switch<Vec<u8>>, round: u32) -> Result<(), Box<dyn Error>> {
    let turns = switch.round()?;
    let sent = turns
        .iter()
        .enumerate()
        .filter_map(|(port, turn)| match turn {
            RoundTurn::Sent(entry) => Some((port, *entry)),
            _ => None,
        });
    let said: Vec<String> = sent
        .map(|(port, entry)| {
            let (owner, node) = (entry.port(), entry.index());
            format!("port {port} sends node {node} of port {owner}")
        })
        .collect();
    match said.is_empty() {
        true => println!("round {round}: nothing is ready"),
        false => println!("round {round}: {}", said.join(", ")),
    }
    Ok(())
}
