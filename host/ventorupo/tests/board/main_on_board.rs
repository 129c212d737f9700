//! A program without the standard library, as on a board: one packet goes all the way,
//! by single calls and by a run, and an audit goes into lent room. Its status is 0, or
//! the number of the step that went wrong.

#![no_std]
#![no_main]

use ventorupo::{audit, Answer, Header, Place, Refusal, Settings, Switch, Turn, PLACE_BYTES};

const SETTINGS: Settings = Settings::wide(2, 2).nodes(3);

#[link(name = "c")]
extern "C" {
    fn abort() -> !;
}

#[panic_handler]
fn panic(_: &core::panic::PanicInfo) -> ! {
    unsafe { abort() }
}

/// The core library of a machine with an operating system names it; nothing calls it here.
#[no_mangle]
pub extern "C" fn rust_eh_personality() {}

fn one_packet(switch: &mut Switch<[u8; SETTINGS.size()]>) -> Result<bool, Refusal> {
    let header = SETTINGS.form().write(&Header::new().length(100))?;
    let entry = switch.arrive(0, &header)?;
    switch.stitch(0)?;
    switch.prefetch(0, 0)?;
    Ok(matches!(switch.turn(0)?, Turn::Sent(sent) if sent.entry == entry))
}

fn a_run(switch: &mut Switch<[u8; SETTINGS.size()]>) -> Result<bool, Refusal> {
    let fields = [5, 0, 1, 0, 5, 0, 1, 2];
    let mut room = [0; 8];
    let ran = switch.run_fields(&fields, &mut room)?;
    let mut answers = ran.answers(&fields, &room);
    let idle = answers.next() == Some(Answer::Turned(Ok(None)));
    Ok(idle && answers.next() == Some(Answer::Turned(Err(Refusal::NoPort))))
}

fn an_audit(memory: &[u8]) -> Result<bool, Refusal> {
    let mut room = [0; 2 * 3 * PLACE_BYTES];
    audit(memory, &mut room)?;
    let place = |bytes: &[u8]| Place::from_bytes(bytes.try_into().ok()?);
    let mut places = room.chunks(PLACE_BYTES).map(place);
    Ok(places.all(|place| place.is_some()))
}

#[no_mangle]
pub extern "C" fn main() -> i32 {
    let mut switch = match Switch::setup([0; SETTINGS.size()], SETTINGS) {
        Ok(switch) => switch,
        Err(_) => return 1,
    };
    match (
        one_packet(&mut switch),
        a_run(&mut switch),
        an_audit(switch.memory()),
    ) {
        (Ok(true), Ok(true), Ok(true)) => 0,
        (Ok(true), Ok(true), _) => 4,
        (Ok(true), ..) => 3,
        _ => 2,
    }
}
