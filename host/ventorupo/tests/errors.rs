//! Every error as a program meets it: by `?`, by its text, and as the standard library's.
#![cfg(feature = "std")]

use std::error::Error;

use ventorupo::{
    Answer, Batch, Finding, Form, Halt, Refusal, Rule, Settings, SetupError, Stop, Switch,
    Unfinished, WrongLength,
};

const SETTINGS: Settings = Settings::ten_bytes().nodes(1);

/// An error of the caller's own.
#[derive(Debug, PartialEq)]
enum Own {
    Refused(Refusal),
}

impl<M> From<SetupError<M>> for Own {
    fn from(error: SetupError<M>) -> Own {
        Own::Refused(error.refusal)
    }
}

fn boxed(bytes: usize) -> Result<(), Box<dyn Error>> {
    Switch::setup(vec![0; bytes], SETTINGS)?;
    let mut batch = Batch::new(Form::wide(8, 16))?;
    batch.arrive(0, &[0; 11])?;
    Switch::setup(vec![0; bytes], SETTINGS)?.run(&batch)?;
    Ok(())
}

fn refused(memory: &mut [u8]) -> Result<(), Refusal> {
    Switch::setup(memory, SETTINGS)?;
    Ok(())
}

fn own(memory: &mut [u8]) -> Result<(), Own> {
    Switch::setup(memory, SETTINGS)?;
    Ok(())
}

#[test]
fn a_question_mark_takes_each_on() {
    let short = boxed(6667).unwrap_err();
    assert_eq!(short.to_string(), Refusal::ShortMemory.to_string());
    assert!(short.is::<SetupError<Vec<u8>>>());
    assert!(boxed(6668).unwrap_err().is::<Unfinished>());
    assert_eq!(refused(&mut [0; 6667]), Err(Refusal::ShortMemory));
    assert_eq!(refused(&mut [0; 6668]), Ok(()));
    assert_eq!(own(&mut [0; 6667]), Err(Own::Refused(Refusal::ShortMemory)));
}

#[test]
fn each_is_the_standard_librarys() {
    let wrong = WrongLength { bytes: 9, size: 11 };
    let errors: [&dyn Error; 4] = [
        &Refusal::NoState,
        &wrong,
        &Unfinished::Refused(Refusal::NoState),
        &SetupError {
            refusal: Refusal::BadSetting,
            memory: [7; 3],
        },
    ];
    for error in errors {
        assert!(error.source().is_none());
    }
    assert_eq!(errors[0].to_string(), errors[2].to_string());
    assert_eq!(errors[3].to_string(), "a setting not in its row");
}

/// The memory may be long, and isn't shown.
#[test]
fn a_refused_setup_shows_its_refusal() {
    let error = Switch::setup([7; 3], SETTINGS).unwrap_err();
    assert_eq!(
        format!("{error:?}"),
        "SetupError { refusal: ShortMemory, .. }"
    );
}

/// As the papers have them; names.rs compares those of the refusals.
#[test]
fn the_texts_of_halts_and_stops() {
    let beat = "last mark too early, absent where the length ends, or a beat of a wrong size";
    let source = "header's source isn't the arriving port";
    let halts: Vec<String> = Halt::ALL.iter().map(|halt| halt.to_string()).collect();
    assert_eq!(halts, ["checksum differs", source, beat]);
    let refusals = [Refusal::Checksum, Refusal::Source];
    assert_eq!(halts[..2], refusals.map(|refusal| refusal.to_string()));
    let stops = [
        "the fields ended",
        "a bad field",
        "no room for a good field's answer",
    ];
    assert_eq!(Stop::ALL.map(|stop| stop.to_string()), stops);
}

#[test]
fn the_texts_of_batches_and_findings() {
    let wrong = WrongLength { bytes: 9, size: 11 };
    let text = "a header of 9 bytes, where those of the form have 11";
    assert_eq!(wrong.to_string(), text);
    assert_eq!(Refusal::from(wrong), Refusal::HeaderSize);
    let stopped = Unfinished::Stopped(vec![Answer::Turned(Ok(None)); 2]);
    let text = "stopped at a header of another form than the switch's; calls done before it: 2";
    assert_eq!(stopped.to_string(), text);
    let told = |&refusal: &Refusal| Unfinished::Refused(refusal).to_string() == refusal.to_string();
    assert!(Refusal::ALL.iter().all(told));
    let finding = |&rule: &Rule| Finding { rule, item: 5 }.to_string();
    let findings: Vec<String> = Rule::ALL.iter().map(finding).collect();
    let wanted = |letter| format!("rule ({letter}), item 5");
    assert_eq!(
        findings,
        ["a", "b", "c", "d", "e", "f", "g", "i"].map(wanted)
    );
}
