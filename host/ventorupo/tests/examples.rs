//! Each program of examples/ says what stands in the file beside it.

use std::ffi::OsStr;
use std::path::{Path, PathBuf};
use std::process::Command;
use std::{env, fs};

/// Where cargo puts the built examples: beside the folder of this test.
fn built(name: &OsStr) -> PathBuf {
    let test = env::current_exe().unwrap();
    let folder = test.ancestors().nth(2).expect("a folder of builds");
    folder.join("examples").join(name)
}

#[test]
fn the_examples_say_what_is_expected() {
    let folder = Path::new(env!("CARGO_MANIFEST_DIR")).join("examples");
    let files = fs::read_dir(folder).unwrap();
    let files = files.map(|file| file.unwrap().path());
    let is_program = |file: &PathBuf| file.extension() == Some(OsStr::new("rs"));
    let mut names = Vec::new();
    for file in files.filter(is_program) {
        let name = file.file_stem().unwrap();
        let expected = fs::read_to_string(file.with_extension("expected")).unwrap();
        let program = built(name);
        let ran = Command::new(&program).output();
        let ran = ran.unwrap_or_else(|error| {
            let program = program.display();
            panic!("{program}: {error}; `cargo test` without --test builds it")
        });
        assert!(
            ran.status.success(),
            "{}",
            String::from_utf8_lossy(&ran.stderr)
        );
        assert_eq!(String::from_utf8_lossy(&ran.stdout), expected, "{name:?}");
        names.push(name.to_string_lossy().into_owned());
    }
    names.sort();
    let all = [
        "audit",
        "outsider",
        "port_manager",
        "replay",
        "whole_packets",
    ];
    assert_eq!(names, all);
}
