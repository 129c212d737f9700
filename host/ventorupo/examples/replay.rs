//! Many calls on memory that is tested once: a batch put together call by call, then
//! fields in bytes, as a capture has them, with answers in lent room.
//!
//! Run it with `cargo run --example replay`.

use std::error::Error;

use ventorupo::{Answer, Batch, Header, Settings, Stop, Switch};

fn main() -> Result<(), Box<dyn Error>> {
    let settings = Settings::wide(4, 8).nodes(2);
    let mut switch = Switch::setup(vec![0; settings.size()], settings)?;
    let header = Header::new().destination(3).source(1).length(64);
    let bytes = settings.form().write(&header)?;

    // Three headers, of which the port has nodes for two; one goes all the way.
    let mut batch = Batch::new(settings.form())?;
    batch.map_to(3, 2);
    batch
        .arrive(1, &bytes)?
        .arrive(1, &bytes)?
        .arrive(1, &bytes)?;
    batch.stitch(1).prefetch(2, 0).turn(2).turn(2);
    println!("a batch of {} calls", batch.len());
    for answer in switch.run(&batch)? {
        println!("  {}", said(answer));
    }

    // The same in bytes. A field is a tag, the length of its value (2) and the value:
    // a stitch at port 1, a prefetch (port 2, queue 0), a turn of port 2, and one that is
    // cut off.
    let capture = [3, 0, 1, 1, 4, 0, 2, 2, 0, 5, 0, 1, 2, 5, 0];
    println!("a capture of {} bytes", capture.len());
    let mut room = [0; 64];
    let ran = switch.run_fields(&capture, &mut room)?;
    for answer in ran.answers(&capture, &room) {
        println!("  {}", said(answer));
    }
    let at = ran.bytes(&capture);
    match ran.why {
        Stop::Ended => println!("to the end"),
        why => println!("stopped at byte {at}: {why}"),
    }
    Ok(())
}

fn said(answer: Answer) -> String {
    let call = match answer {
        Answer::Arrived(_) => "arrive",
        Answer::Stitched(_) => "stitch",
        Answer::Prefetched(_) => "prefetch",
        Answer::Turned(_) => "turn",
        Answer::Credited(_) => "credit",
        Answer::Mapped(_) => "map",
        // Later versions may have calls that this program doesn't know.
        _ => "another",
    };
    match (answer.refusal(), answer.entry()) {
        (Some(refusal), _) => format!("{call}: refused {}, {refusal}", refusal.number()),
        (_, Some(entry)) => format!("{call}: node {} of port {}", entry.index(), entry.port()),
        _ if answer == Answer::Turned(Ok(None)) => format!("{call}: nothing is ready"),
        _ => format!("{call}: done"),
    }
}
