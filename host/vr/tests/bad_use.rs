//! Bad uses: a clear message on standard error, status 2, never a panic.

mod common;
#[path = "common/images.rs"]
mod images;

use std::ffi::{OsStr, OsString};
use std::fs::{self, File};
use std::io::Read;
use std::os::unix::ffi::OsStrExt;
use std::path::Path;
use std::process::Stdio;

use common::{command, full, on, vr, Folder, Said};
use images::{at, small, switch, SMALL};

const HINT: &str = " (`vr help` tells the commands)";

#[test]
fn wrong_command_lines() {
    for (line, what) in [
        ("", "no command"),
        ("mend image", "`mend` is no command"),
        ("--json", "`--json` is no command"),
        ("help foo", "`foo` is one word too many behind help"),
        (
            "--version foo",
            "`foo` is one word too many behind --version",
        ),
        ("explain", "no image is named"),
        ("dump", "no image is named"),
        ("dump --json", "no image is named"),
        ("explain one two", "`two` is one name too many"),
        (
            "explain one --json",
            "`--json` is no option here; for a file of that name write `./--json`",
        ),
        (
            "dump one --jsn",
            "`--jsn` is no option here; for a file of that name write `./--jsn`",
        ),
        (
            "dump one -o two",
            "`-o` is no option here; for a file of that name write `./-o`",
        ),
        ("dump --packets a b c d", "no image is named"),
        ("dump one --packets", "--packets needs 4 names behind it"),
        (
            "dump one --packets a b c",
            "--packets needs 4 names behind it",
        ),
        (
            "dump one --packets a b c --json",
            "--packets needs 4 names behind it, not `--json`; for a file of that name write `./--json`",
        ),
        (
            "dump one --packets a b c d two",
            "`two` is one name too many",
        ),
        (
            "dump one --packets a b c d --packets a b c d",
            "--packets is there twice",
        ),
        (
            "dump one --packets=a b c d",
            "`--packets=a` is no option here; write `--packets a`",
        ),
        (
            "explain one --packets a b c d",
            "`--packets` is no option here; for a file of that name write `./--packets`",
        ),
        ("repair", "no image is named"),
        ("repair -o new", "no image is named"),
        ("repair one", "repair needs -o NEW"),
        ("repair one two", "`two` is one name too many"),
        ("repair one -o", "-o needs a name behind it"),
        ("repair one -o new -o other", "-o is there twice"),
        (
            "repair one -o=new",
            "`-o=new` is no option here; write `-o new`",
        ),
        ("waits", "no image is named"),
        ("waits --svg new", "no image is named"),
        ("waits one two", "`two` is one name too many"),
        ("waits one --svg", "--svg needs a name behind it"),
        ("waits one --svg a --svg b", "--svg is there twice"),
        (
            "waits one --svg=new",
            "`--svg=new` is no option here; write `--svg new`",
        ),
        (
            "waits one --json",
            "`--json` is no option here; for a file of that name write `./--json`",
        ),
        (
            "waits one -o new",
            "`-o` is no option here; for a file of that name write `./-o`",
        ),
        ("replay", "no stream is named"),
        ("replay --dump", "no stream is named"),
        ("replay one two", "`two` is one name too many"),
        ("replay one -", "`-` is one name too many"),
        ("replay one --image", "--image needs a name behind it"),
        ("replay one -o new -o new", "-o is there twice"),
        ("replay one --image a --image b", "--image is there twice"),
        (
            "replay one --image=a",
            "`--image=a` is no option here; write `--image a`",
        ),
        (
            "replay one --json",
            "`--json` is no option here; for a file of that name write `./--json`",
        ),
        (
            "replay one -o -",
            "-o needs a name behind it, not `-`; for a file of that name write `./-`",
        ),
        (
            "waits one --svg --json",
            "--svg needs a name behind it, not `--json`; for a file of that name write `./--json`",
        ),
    ] {
        let words: Vec<&str> = line.split_whitespace().collect();
        let said = vr(&words);
        assert_eq!(said.err, format!("vr: {what}{HINT}\n"), "{line}");
        assert_eq!((said.status, said.out.as_str()), (Some(2), ""));
    }
    let said = vr(&["repair", "one", "-o", ""]);
    assert_eq!(said.err, format!("vr: -o needs a name behind it{HINT}\n"));
    let said = vr(&["waits", "one", "--svg", ""]);
    assert_eq!(
        said.err,
        format!("vr: --svg needs a name behind it{HINT}\n")
    );
}

/// An option behind -o is not taken for a name: no file is made of it.
#[test]
fn names_that_look_like_options() {
    let folder = Folder::new("bad-dashes");
    folder.file("image", &small());
    let run = |words: &[&str]| -> Said {
        let output = command().args(words).current_dir(folder.path("")).output();
        output.unwrap().into()
    };
    for new in ["--json", "-", "-o", "-new"] {
        let said = run(&["repair", "image", "-o", new]);
        let wanted = format!(
            "vr: -o needs a name behind it, not `{new}`; for a file of that name write `./{new}`{HINT}\n"
        );
        assert_eq!(said.err, wanted);
        assert_eq!((said.status, said.out.as_str()), (Some(2), ""));
        assert!(!folder.path(new).exists());
        // Written as the message says, it is a name.
        let file = format!("./{new}");
        assert_eq!(run(&["repair", "image", "-o", &file]).status, Some(0));
        assert_eq!(run(&["explain", &file]).out, "a sound state\n");
    }
}

/// Each command on a file that cannot be read.
fn unreadable(folder: &Folder, file: &Path, why: &str) {
    let new = folder.path("new");
    let words: [&[&OsStr]; 6] = [
        &[OsStr::new("explain")],
        &[OsStr::new("dump")],
        &[OsStr::new("dump"), OsStr::new("--json")],
        &[OsStr::new("repair"), OsStr::new("-o"), new.as_os_str()],
        &[OsStr::new("waits")],
        &[OsStr::new("waits"), OsStr::new("--svg"), new.as_os_str()],
    ];
    for words in words {
        let said = vr(&[words, &[file.as_os_str()]].concat());
        assert_eq!(said.err, format!("vr: {}: {why}\n", file.display()));
        assert_eq!((said.status, said.out.as_str()), (Some(2), ""));
        assert!(!new.exists());
    }
}

#[test]
fn files_that_cannot_be_read() {
    let folder = Folder::new("bad-files");
    let missing = folder.path("missing");
    unreadable(&folder, &missing, "No such file or directory (os error 2)");
    unreadable(
        &folder,
        Path::new(""),
        "No such file or directory (os error 2)",
    );
    let inside = folder.path("inside");
    fs::create_dir(&inside).unwrap();
    unreadable(&folder, &inside, "is a directory, not an image");
    unreadable(&folder, Path::new("/dev/zero"), "is not a regular file");
    let below = folder.file("file", b"").join("below");
    unreadable(&folder, &below, "Not a directory (os error 20)");
}

#[test]
fn names_that_are_no_text() {
    let folder = Folder::new("bad-names");
    let name = OsStr::from_bytes(b"im\xFFage");
    let file = folder.file(name, &small());
    assert_eq!(on("explain", &file).out, "a sound state\n");
    assert_eq!(on("dump", &file).status, Some(0));
    let new = folder.path(OsStr::from_bytes(b"\xC0new"));
    let words: [&OsStr; 4] = [
        "repair".as_ref(),
        file.as_ref(),
        "-o".as_ref(),
        new.as_ref(),
    ];
    let said = vr(&words);
    assert_eq!((said.status, said.err.as_str()), (Some(0), ""));
    assert!(new.exists());
    let said = vr(&[OsString::from("dump"), OsStr::from_bytes(b"-\xFF").into()]);
    assert_eq!(
        said.err,
        format!("vr: `-\u{FFFD}` is no option here; for a file of that name write `./-\u{FFFD}`{HINT}\n")
    );
    let said = vr(&[OsStr::from_bytes(b"\xFF")]);
    assert_eq!(said.err, format!("vr: `\u{FFFD}` is no command{HINT}\n"));
    assert_eq!(said.status, Some(2));
}

/// A file of holes behind a state: only its start is read.
#[test]
fn huge_files() {
    let folder = Folder::new("bad-huge");
    let path = folder.file("image", &small());
    let file = fs::OpenOptions::new().write(true).open(&path).unwrap();
    file.set_len(1 << 33).unwrap();
    assert_eq!(on("explain", &path).out, "a sound state\n");
    let said = on("dump", &path);
    assert!(said
        .out
        .contains("\nbytes: 8589934592 there, 6720 needed\n"));
    assert_eq!(said.status, Some(0));
    let nothing = folder.path("nothing");
    File::create(&nothing).unwrap().set_len(1 << 33).unwrap();
    let said = on("explain", &nothing);
    assert!(said
        .out
        .starts_with("(a) setting ports: 0 is not in its row (4 in edition 0)\n"));
    assert_eq!((said.status, said.err.as_str()), (Some(1), ""));
}

/// The reader of the output goes away: no panic, and the status is the image's.
#[test]
fn an_output_pipe_that_closes() {
    let folder = Folder::new("bad-pipe");
    let settings = SMALL.nodes(2048);
    let sound = switch(settings).into_memory();
    let mut broken = sound.clone();
    broken[at::LAST] = 200;
    for (bytes, status) in [(sound, 0), (broken, 1)] {
        let file = folder.file("image", &bytes);
        let mut child = command()
            .args(["dump", "--json"])
            .arg(&file)
            .stdout(Stdio::piped())
            .stderr(Stdio::piped())
            .spawn()
            .unwrap();
        // A little is read, then the pipe is closed; the rest does not fit into it.
        let mut some = [0; 10];
        child.stdout.take().unwrap().read_exact(&mut some).unwrap();
        let output = child.wait_with_output().unwrap();
        assert_eq!(output.status.code(), Some(status));
        assert_eq!(output.stderr, b"");
    }
}

/// A standard error that takes nothing: the status says it alone, and is not
/// that of a panic.
#[test]
fn an_error_output_that_is_full() {
    let full = match full() {
        Some(full) => full,
        None => return,
    };
    let output = command().arg("mend").stderr(full).output().unwrap();
    assert_eq!(output.status.code(), Some(2));
    assert_eq!(output.stdout, b"");
}

/// An output that takes nothing is told.
#[test]
fn an_output_that_is_full() {
    let full = match full() {
        Some(full) => full,
        None => return,
    };
    let output = command().arg("help").stdout(full).output().unwrap();
    assert_eq!(output.status.code(), Some(2));
    let said = String::from_utf8(output.stderr).unwrap();
    assert_eq!(
        said,
        "vr: standard output: No space left on device (os error 28)\n"
    );
}
