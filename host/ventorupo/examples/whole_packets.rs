//! A switch that keeps whole packets: they arrive with their data, and are shown where
//! they lie, without a copy.
//!
//! Run it with `cargo run --example whole_packets`.

use std::error::Error;

use ventorupo::{Header, Settings, Switch, Turn};

fn main() -> Result<(), Box<dyn Error>> {
    // Packets need the ten-byte headers: four ports, 24 queues.
    let settings = Settings::ten_bytes().nodes(2).with_packets();
    let mut switch = Switch::setup(vec![0; settings.size()], settings)?;
    // Each port has a packet memory, which is lent to the calls that need it.
    let mut packets = [(); 4].map(|()| vec![0; settings.packet_memory()]);
    println!("four packet memories of {} bytes", packets[0].len());

    // From ports 3 and 1 to destination 2, which is mapped to port 0.
    switch.map(2, 0)?;
    for (port, data) in [(3, "first, from port 3"), (1, "then, from port 1")] {
        let packet = packet(settings, port, data)?;
        let memory = &mut packets[port as usize];
        let entry = switch.arrive_packet(memory, port, &packet)?;
        switch.stitch(port)?;
        let node = entry.index();
        println!("port {port}: {} bytes in node {node}", packet.len());
    }

    // A byte is missing: nothing is stored.
    let whole = packet(settings, 1, "cut off")?;
    let cut = &whole[..whole.len() - 1];
    if let Err(refusal) = switch.arrive_packet(&mut packets[1], 1, cut) {
        println!("refused {}: {refusal}", refusal.number());
    }

    // What port 0 sends next of queue 0 is shown once it is in a slot.
    while switch.prefetch(0, 0).is_ok() {
        let [p0, p1, p2, p3] = &packets;
        let shown = switch.show([p0, p1, p2, p3], 0, 0)?;
        let data = String::from_utf8_lossy(&shown[10..shown.len() - 2]);
        println!("next at port 0: {} bytes, `{data}`", shown.len());
        if let Turn::Sent(sent) = switch.turn(0)? {
            let owner = sent.entry.port();
            println!("sent: the node goes home to port {owner}");
        }
    }
    Ok(())
}

/// Header, data and footer of a packet for destination 2, in queue 0.
fn packet(settings: Settings, source: u32, data: &str) -> Result<Vec<u8>, Box<dyn Error>> {
    // The length counts ten bytes of header and two of footer.
    let length = 10 + data.len() as u32 + 2;
    let header = Header::new().destination(2).source(source).length(length);
    let mut packet = settings.form().write(&header)?.to_vec();
    packet.extend(data.bytes());
    packet.extend([0, 0]);
    Ok(packet)
}
