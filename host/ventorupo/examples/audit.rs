//! What can be asked of an image without changing it, what is wrong with a broken one,
//! and a repair.
//!
//! Run it with `cargo run --example audit`.

use std::error::Error;

use ventorupo::{repair, Header, ListKind, Place, Settings, Switch, View};

fn main() -> Result<(), Box<dyn Error>> {
    let mut image = taken_at_night()?;

    // A view is over bytes that are read alone; here they could come from a file.
    let view = View::over(&image);
    let settings = view.settings()?;
    let (ports, queues) = (settings.ports, settings.queues);
    println!("{ports} ports, {queues} queues, {} nodes", settings.nodes);

    print_places(&view.audit()?, ports as u8);

    // Any call on a broken image is refused 3. A finding tells why.
    let last_served = 16 + 4096 + 1;
    image[last_served] = 200;
    let view = View::over(&image);
    if let Err(refusal) = view.ready(1) {
        println!("refused {}: {refusal}", refusal.number());
    }
    if let Some(finding) = view.find() {
        println!("broken: {finding} (port 1's last served queue)");
    }

    // A repair keeps settings and map; packets are lost, and all nodes are free.
    repair(&mut image)?;
    let view = View::over(&image);
    let places = view.audit()?;
    let free = |place: &&Place| matches!(place.list, ListKind::Free { .. });
    let free = places.iter().filter(free).count();
    println!("repaired: {free} of {} nodes are free", places.len());
    Ok(())
}

/// Where every node stands; those in the pools are told by their number.
fn print_places(places: &[Place], ports: u8) {
    for port in 0..ports {
        let free = ListKind::Free { port };
        let free = places.iter().filter(|place| place.list == free).count();
        println!("port {port}: {free} nodes free");
    }
    for place in places {
        let (port, node) = (place.entry.port(), place.entry.index());
        match place.list {
            ListKind::Free { .. } => {}
            list => println!(
                "node {node} of port {port}: {list:?}, at {}",
                place.position
            ),
        }
    }
}

/// An image with three packets: one in a slot, one behind it, one that just arrived.
fn taken_at_night() -> Result<Vec<u8>, Box<dyn Error>> {
    let settings = Settings::wide(3, 4).nodes(5);
    let mut switch = Switch::setup(vec![0; settings.size()], settings)?;
    switch.map(0, 2)?;
    let header = Header::new().source(1).queue(3).length(100);
    let bytes = settings.form().write(&header)?;
    for _ in 0..3 {
        switch.arrive(1, &bytes)?;
    }
    switch.stitch(1)?;
    switch.stitch(1)?;
    switch.prefetch(2, 3)?;
    Ok(switch.into_memory())
}
