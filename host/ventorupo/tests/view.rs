//! A view answers what the library answers of the same bytes, and a switch what its view
//! answers.

mod common;

use common::switch;
use ventorupo::{
    calls, EntryId, Form, Header, Place, Ready, Refusal, Settings, Switch, View, PLACE_BYTES,
};

/// Of every edition, with packets and without; no two settings are the same number.
fn settings() -> [Settings; 4] {
    let forms = [Form::TEN_BYTES, Form::wide(7, 11), Form::wide(32, 64)];
    let [ten, seven, most] = forms.map(|form| {
        let settings = Settings::of(form).nodes(5).beat(128).slots(3);
        settings.credit(0x1234)
    });
    [ten, ten.with_packets(), seven, most]
}

/// A packet that waits in a slot of port 0, one that was sent, and a port that is halted.
fn busy(settings: Settings) -> Switch<Vec<u8>> {
    let mut switch = switch(settings);
    if settings.packets == 0 {
        let header = |queue| Header::new().source(1).queue(queue).length(100);
        for queue in [0, 0, 1] {
            let bytes = settings.form().write(&header(queue)).unwrap();
            switch.arrive(1, &bytes).unwrap();
            switch.stitch(1).unwrap();
            switch.prefetch(0, queue).unwrap();
        }
        switch.timed_turn(0, 9).unwrap();
        let wrong = vec![0xFF; settings.form().size().unwrap()];
        assert_eq!(switch.arrive(1, &wrong), Err(Refusal::Checksum));
    }
    switch
}

#[test]
fn settings_are_read_off_the_image() {
    for settings in settings() {
        let switch = busy(settings);
        assert_eq!(switch.view().settings(), Ok(settings));
        assert_eq!(switch.settings(), Ok(settings));
        // With bytes behind it, and with one too few.
        let mut image = switch.into_memory();
        image.push(7);
        assert_eq!(View::over(&image).settings(), Ok(settings));
        let short = &image[..image.len() - 2];
        assert_eq!(View::over(short).settings(), Err(Refusal::NoState));
    }
    assert_eq!(View::over(&[]).settings(), Err(Refusal::NoState));
}

/// Ready word, mark and buckets of a port, each beside the plain call.
fn answers_of_a_port(view: View, port: u32) {
    let (mut word, mut count, mut mark) = (0, 0, 0);
    assert_eq!(calls::ready(view.memory(), port, &mut word, &mut count), 0);
    assert_eq!(view.ready(port), Ok(Ready { word, count }));
    assert_eq!(calls::report(view.memory(), port, &mut mark), 0);
    let number = view.report(port).unwrap().map_or(0, |halt| halt.number());
    assert_eq!(number, mark);
    for (bucket, told) in (0..).zip(view.buckets(port).unwrap()) {
        let mut count = 0;
        assert_eq!(calls::bucket(view.memory(), port, bucket, &mut count), 0);
        assert_eq!((view.bucket(port, bucket), told), (Ok(count), count));
    }
}

/// Every place, beside the plain call.
fn places(view: View, nodes: u32) {
    let mut room = vec![0; nodes as usize * PLACE_BYTES];
    assert_eq!(calls::audit(view.memory(), &mut room), 0);
    let mut lent = vec![9; room.len()];
    assert_eq!(view.audit_into(&mut lent), Ok(()));
    assert_eq!(lent, room);
    let place = |place: &[u8]| Place::from_bytes(place.try_into().unwrap()).unwrap();
    let places: Vec<Place> = room.chunks(PLACE_BYTES).map(place).collect();
    for place in &places {
        assert_eq!(view.place_of(place.entry), Ok(*place));
    }
    assert_eq!(view.audit(), Ok(places));
}

#[test]
fn a_view_answers_as_the_library() {
    for settings in settings() {
        let switch = busy(settings);
        let view = switch.view();
        (0..settings.ports).for_each(|port| answers_of_a_port(view, port));
        places(view, settings.ports * settings.nodes);
        assert_eq!((view.find(), view.memory()), (None, switch.memory()));
    }
}

/// What makes the test above more than one of zeros.
#[test]
fn a_busy_switch_has_something_to_tell() {
    let switch = busy(settings()[2]);
    assert_eq!(switch.ready(0).unwrap(), Ready { word: 1, count: 1 });
    assert_eq!(switch.report(1).unwrap().unwrap().number(), 7);
    assert_eq!(switch.buckets(0).unwrap()[4], 1);
}

fn a_port_is_handed_on(switch: &Switch<Vec<u8>>, port: u32) {
    let view = switch.view();
    assert_eq!(switch.ready(port), view.ready(port));
    assert_eq!(switch.report(port), view.report(port));
    assert_eq!(switch.buckets(port), view.buckets(port));
    for bucket in [0, 4, 32, 33] {
        assert_eq!(switch.bucket(port, bucket), view.bucket(port, bucket));
    }
}

#[test]
fn a_switch_hands_on_to_its_view() {
    for settings in settings() {
        let switch = busy(settings);
        let view = switch.view();
        let ports = [0, 1, settings.ports];
        ports
            .into_iter()
            .for_each(|port| a_port_is_handed_on(&switch, port));
        let entries = [0, 2048, 2049, 5, u16::MAX].map(EntryId);
        let places = entries.map(|entry| switch.place_of(entry));
        assert_eq!(places, entries.map(|entry| view.place_of(entry)));
        assert_eq!(switch.audit(), view.audit());
        assert_eq!(
            (switch.find(), switch.memory()),
            (view.find(), view.memory())
        );
        let packets = vec![0; settings.packet_memory()];
        let shown = switch.show([&packets; 4], 0, 0);
        assert_eq!(shown, view.show([&packets; 4], 0, 0));
        let refusal = [Refusal::OtherKind, Refusal::NothingThere][settings.packets as usize];
        assert_eq!(shown, Err(refusal));
    }
}

#[test]
fn a_view_of_no_state_is_refused_3() {
    let view = View::over(&[7; 6720]);
    let no_state = Refusal::NoState;
    assert_eq!(view.ready(0), Err(no_state));
    assert_eq!(view.report(0), Err(no_state));
    assert_eq!(view.bucket(0, 0), Err(no_state));
    assert_eq!(view.buckets(0), Err(no_state));
    assert_eq!(view.place_of(EntryId(0)), Err(no_state));
    assert_eq!(view.audit(), Err(no_state));
    assert_eq!(view.audit_into(&mut [0; 64]), Err(no_state));
    assert_eq!(view.show([&[]; 4], 0, 0), Err(no_state));
    assert_eq!(view.find().unwrap().to_string(), "rule (a), item 0");
    assert_eq!(view.memory(), [7; 6720]);
    assert_eq!(Switch::over([7; 6720]).find(), view.find());
}
