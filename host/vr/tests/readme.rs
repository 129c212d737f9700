//! The sessions in the README, run.

mod common;
#[path = "common/fits.rs"]
mod fits;
#[path = "common/images.rs"]
mod images;
#[path = "common/packets.rs"]
mod packets;
#[path = "common/streams.rs"]
mod streams;

use std::process::Command;

use common::{program, Folder, Said};
use fits::fits;
use images::{at, bucket, changed};
use packets::kept;
use streams::whole_case;

/// The commands of a session, each with what it must say.
fn session(number: usize) -> Vec<(String, String)> {
    let readme = include_str!("../README.md");
    // Every second part stands between such lines.
    let text = readme.split("```\n").nth(2 * number + 1).unwrap();
    let commands = text.split("$ vr ").skip(1);
    let parts = commands.map(|part| part.split_once('\n').unwrap());
    let owned = |(line, said): (&str, &str)| (line.to_string(), said.to_string());
    parts.map(owned).collect()
}

/// A line as a shell has it, in which `vr` may stand behind a pipe too.
fn run(line: &str, folder: &Folder) -> Said {
    let script = format!("vr() {{ \"$VR\" \"$@\"; }}; vr {line}");
    let mut shell = Command::new("sh");
    shell.args(["-c", &script]).env("VR", program());
    let output = shell.current_dir(folder.path("")).output();
    output.unwrap().into()
}

/// A session of so many commands, in a folder. On a screen both outputs are to
/// be seen.
fn is_as_written(number: usize, commands: usize, folder: &Folder) {
    let session = session(number);
    assert_eq!(session.len(), commands);
    for (line, wanted) in session {
        let said = run(&line, folder);
        let seen = said.out + &said.err;
        assert!(fits(&seen, &wanted), "{seen}");
    }
}

#[test]
fn the_session_is_as_written() {
    let folder = Folder::new("readme");
    let changes = [
        (at::LAST, 1, 200),
        (at::HALTED + 3, 1, 7),
        bucket(3, 0, 1),
        bucket(3, 3, 2),
    ];
    folder.file("image", &changed(&changes));
    is_as_written(0, 4, &folder);
}

#[test]
fn the_session_of_packets_is_as_written() {
    let folder = Folder::new("readme-packets");
    kept().files(&folder);
    is_as_written(1, 3, &folder);
}

#[test]
fn the_session_of_waits_is_as_written() {
    let folder = Folder::new("readme-waits");
    let counts = [(0, 1), (1, 3), (2, 40), (5, 7)];
    let changes = counts.map(|(number, count)| bucket(1, number, count));
    folder.file("image", &changed(&changes));
    is_as_written(2, 2, &folder);
}

#[test]
fn the_session_of_replays_is_as_written() {
    let folder = Folder::new("readme-replays");
    folder.file("stream", &whole_case());
    folder.file("more", &[&whole_case()[10..24], &[5]].concat());
    is_as_written(3, 3, &folder);
}

#[test]
fn the_session_of_headers_is_as_written() {
    is_as_written(4, 7, &Folder::new("readme-headers"));
}

#[test]
fn the_session_of_a_night_is_as_written() {
    is_as_written(5, 2, &Folder::new("readme-night"));
}
