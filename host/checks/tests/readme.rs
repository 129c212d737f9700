//! The fences of README and GUIDE, compiled and run; none is left out.
//!
//! - `rust`: a program, or what stands in a function that answers any error: a test
//!   each, as the build script has written it.
//! - `c`: a whole program, compiled strictly with the archive and run. What it prints
//!   stands in a `text` fence behind it, with no words in between but such as end in
//!   "prints:"; or else in the comments behind its printing lines, each up to a colon.
//! - `c fragment`: lines of a function that has the names of `FRAGMENT`; compiled.
//! - `console`: commands behind `$`, each with what it says, of which `...` leaves any
//!   lines out. One that shows nothing must succeed, and what it says isn't compared.
//!   An indented block that begins with `$` or `gcc` is such a session too.
//! - `text`: anything else that is shown.
//!
//! A session runs in a folder of its own, with links to what the tree has (`include`,
//! `examples`, `tools`, `target/staticlib`), the page's first C program as `example.c`,
//! `stream` (the scope paper's whole case) and `image` (a state whose port 0 has served
//! queue 200).

mod fences;
#[path = "../../vr/tests/common/fits.rs"]
mod fits;

use std::os::unix::fs::symlink;
use std::path::{Path, PathBuf};
use std::process::{Command, Output};
use std::{env, fs};

use fences::{parsed, Fence};
use fits::fits;
use ventorupo::{Settings, Switch};

include!(concat!(env!("OUT_DIR"), "/snippets.rs"));

const PAGES: [&str; 2] = ["README.md", "docs/GUIDE.md"];
const KINDS: [&str; 5] = ["c", "c fragment", "rust", "console", "text"];

/// What a fragment of C stands in.
const FRAGMENT: [&str; 2] = [
    "#include <stdio.h>\n#include <stdlib.h>\n#include \"ventorupo.h\"\n\
     void transmit(const uint8_t *bytes, size_t length);\n\
     uint32_t fragment(uint8_t *mem, size_t len, uint8_t *p[4], size_t each, uint32_t port, uint32_t queue);\n\
     uint32_t fragment(uint8_t *mem, size_t len, uint8_t *p[4], size_t each, uint32_t port, uint32_t queue) {\n\
     uint32_t owner = 0, length = 0;\nuint64_t at = 0;\nuint16_t entry = 0;\n\
     (void)mem, (void)len, (void)p, (void)each, (void)port, (void)queue;\n",
    "return owner + length + (uint32_t)at + entry;\n}\n",
];

fn top() -> PathBuf {
    let top = Path::new(env!("CARGO_MANIFEST_DIR")).join("../..");
    top.canonicalize().unwrap()
}

/// Where the archives are: as for the build scripts.
fn archives() -> PathBuf {
    let named = env::var_os("VENTORUPO_LIB").map(PathBuf::from);
    named.unwrap_or_else(|| top().join("target/staticlib"))
}

/// Each page with its name, its fences, and its words.
fn pages() -> impl Iterator<Item = (&'static str, Vec<Fence>, String)> {
    PAGES.into_iter().map(|name| {
        let (fences, words) = parsed(&fs::read_to_string(top().join(name)).unwrap());
        (name, fences, words)
    })
}

#[test]
fn every_fence_is_of_a_kind_that_is_tried() {
    for (page, fences, _) in pages() {
        let other = fences.iter().find(|f| !KINDS.contains(&f.kind.as_str()));
        let other = other.map(|fence| format!("{page}:{}: {:?}", fence.line, fence.kind));
        assert_eq!(other, None, "no kind of fence that the tests know");
    }
}

#[test]
fn every_rust_fence_is_a_test_here() {
    let count = |fences: Vec<Fence>| fences.iter().filter(|f| f.kind == "rust").count();
    let fences: usize = pages().map(|(_, fences, _)| count(fences)).sum();
    assert!(fences > 0);
    assert_eq!(fences, RUST_FENCES);
}

/// A name for the files of a page's line.
fn named(page: &str, line: usize) -> String {
    format!("{}-{line}", page.replace(['/', '.'], "-"))
}

/// The source, compiled with warnings as errors; linked if it is a program.
fn compiled(name: &str, source: &str, is_program: bool) -> PathBuf {
    let folder = Path::new(env!("CARGO_TARGET_TMPDIR"));
    let (file, out) = (folder.join(format!("{name}.c")), folder.join(name));
    fs::write(&file, source).unwrap();
    let mut cc = Command::new("cc");
    cc.args(["-std=c11", "-Wall", "-Wextra", "-pedantic", "-Werror"]);
    cc.arg("-I").arg(top().join("include")).arg(&file);
    match is_program {
        true => cc.arg(archives().join("libventorupo.a")),
        false => cc.arg("-c"),
    };
    let done = cc.arg("-o").arg(&out).output().unwrap();
    let errors = String::from_utf8_lossy(&done.stderr);
    assert!(done.status.success(), "{name}: {errors}");
    out
}

/// What the comments behind the printing lines say that they print.
fn told_in_comments(source: &str) -> String {
    let prints = |line: &&str| line.contains("printf(") || line.contains("puts(");
    let told = source.lines().filter(prints).filter_map(|line| {
        let (_, comment) = line.rsplit_once("/* ")?;
        let words = comment.strip_suffix(" */")?;
        Some(words.split(": ").next()?.to_string() + "\n")
    });
    told.collect()
}

/// What the program in a fence has to print.
fn wanted(fences: &[Fence], at: usize) -> String {
    let is_output = |next: &&Fence| {
        let between = next.before.trim();
        next.kind == "text" && (between.is_empty() || between.ends_with("prints:"))
    };
    match fences.get(at + 1).filter(is_output) {
        Some(next) => next.text.clone(),
        None => told_in_comments(&fences[at].text),
    }
}

/// The program in a fence prints what the page says.
fn prints_what_it_says(page: &str, fences: &[Fence], at: usize) {
    let fence = &fences[at];
    let name = named(page, fence.line);
    assert!(fence.text.contains("int main("), "{name}: no program");
    let wanted = wanted(fences, at);
    assert!(!wanted.is_empty(), "{name}: the page says nothing of it");
    let said = Command::new(compiled(&name, &fence.text, true)).output();
    let said = said.unwrap();
    assert!(said.status.success(), "{name}: {}", said.status);
    assert_eq!(String::from_utf8(said.stdout).unwrap(), wanted, "{name}");
}

#[test]
fn c_programs_print_what_the_pages_say() {
    let mut tried = 0;
    for (page, fences, _) in pages() {
        let programs = (0..fences.len()).filter(|&at| fences[at].kind == "c");
        tried += programs
            .map(|at| prints_what_it_says(page, &fences, at))
            .count();
    }
    assert!(tried > 0);
}

#[test]
fn c_fragments_are_taken() {
    for (page, fences, _) in pages() {
        let fragments = fences.iter().filter(|fence| fence.kind == "c fragment");
        fragments.for_each(|fence| {
            let source = FRAGMENT.join(&fence.text);
            compiled(&named(page, fence.line), &source, false);
        });
    }
}

/// The indented blocks among the words, each with the number of its first line.
fn blocks(words: &str) -> Vec<(usize, String)> {
    let mut blocks: Vec<(usize, String)> = Vec::new();
    let mut inside = false;
    for (number, line) in (1..).zip(words.lines()) {
        let code = line.strip_prefix("    ");
        match (code, blocks.last_mut().filter(|_| inside)) {
            (Some(code), Some((_, text))) => *text += &format!("{code}\n"),
            (Some(code), None) => blocks.push((number, format!("{code}\n"))),
            (None, _) => {}
        }
        inside = code.is_some();
    }
    blocks
}

/// The sessions of a page: each with its first line's number.
fn sessions(fences: &[Fence], words: &str) -> Vec<(usize, String)> {
    let console = fences.iter().filter(|fence| fence.kind == "console");
    let fenced = console.map(|fence| (fence.line, fence.text.clone()));
    let indented = blocks(words).into_iter().filter_map(|(line, text)| {
        let compiles = text.starts_with("gcc ").then(|| format!("$ {text}"));
        let session = text.starts_with("$ ").then_some(text);
        Some((line, compiles.or(session)?))
    });
    fenced.chain(indented).collect()
}

/// The commands of a session, each with what it must say.
fn commands(session: &str) -> Vec<(String, String)> {
    assert!(session.starts_with("$ "), "no command: {session}");
    let session = format!("\n{session}");
    let parts = session.split("\n$ ").skip(1);
    let owned = |part: &str| {
        let (line, said) = part.split_once('\n').unwrap_or((part, ""));
        let end = if said.is_empty() || said.ends_with('\n') {
            ""
        } else {
            "\n"
        };
        (line.to_string(), format!("{said}{end}"))
    };
    parts.map(owned).collect()
}

/// The tool, built if it isn't yet: a test has its own package's programs alone.
fn tool() -> PathBuf {
    let me = env::current_exe().unwrap();
    let built = me.parent().and_then(Path::parent).unwrap();
    let cargo = env::var_os("CARGO").unwrap_or_else(|| "cargo".into());
    let mut cargo = Command::new(cargo);
    cargo.args(["build", "--offline", "--quiet", "--package", "vr"]);
    cargo.arg("--target-dir").arg(built.parent().unwrap());
    if built.ends_with("release") {
        cargo.arg("--release");
    }
    let done = cargo.current_dir(top().join("host")).status();
    assert!(done.unwrap().success(), "vr can't be built");
    built.join("vr")
}

/// A folder for a session.
fn folder(name: &str, fences: &[Fence]) -> PathBuf {
    let folder = Path::new(env!("CARGO_TARGET_TMPDIR")).join(name);
    let _ = fs::remove_dir_all(&folder);
    fs::create_dir_all(folder.join("target")).unwrap();
    symlink(archives(), folder.join("target/staticlib")).unwrap();
    ["include", "examples", "tools"]
        .into_iter()
        .for_each(|part| symlink(top().join(part), folder.join(part)).unwrap());
    let program = fences.iter().find(|fence| fence.kind == "c");
    let program = program.map_or("", |fence| &fence.text);
    fs::write(folder.join("example.c"), program).unwrap();
    let settings = Settings::ten_bytes().nodes(1).slots(1).credit(16);
    let mut image = vec![0; settings.size()];
    Switch::over(&mut image[..]).setup_again(settings).unwrap();
    // Behind the settings and the map: the queue that port 0 served last.
    image[16 + 4096] = 200;
    fs::write(folder.join("image"), image).unwrap();
    let stream = "tools/hex2bin < examples/whole-case.hex > stream";
    assert!(run(stream, &folder, Path::new("vr")).status.success());
    folder
}

/// A line as a shell has it, in which `vr` is the tool.
fn run(line: &str, folder: &Path, tool: &Path) -> Output {
    let script = format!("vr() {{ \"$VR\" \"$@\"; }}; {{ {line}\n}} 2>&1");
    let mut shell = Command::new("sh");
    shell.args(["-c", &script]).env("VR", tool);
    shell.current_dir(folder).output().unwrap()
}

/// A command says what the page says; one of which it says nothing succeeds.
fn says(line: &str, wanted: &str, folder: &Path, tool: &Path) {
    let said = run(line, folder, tool);
    let seen = String::from_utf8_lossy(&said.stdout);
    match wanted {
        "" => assert!(said.status.success(), "{line}: {seen}"),
        _ => assert!(fits(&seen, wanted), "{line}: {seen}"),
    }
}

#[test]
fn sessions_are_as_written() {
    let tool = tool();
    let mut tried = 0;
    for (page, fences, words) in pages() {
        let sessions = sessions(&fences, &words).into_iter();
        let in_folder = |(line, text): (usize, String)| {
            let folder = folder(&named(page, line), &fences);
            (folder, commands(&text))
        };
        let all = sessions.map(in_folder);
        tried += all
            .flat_map(|(folder, lines)| lines.into_iter().map(move |line| (folder.clone(), line)))
            .map(|(folder, (line, wanted))| says(&line, &wanted, &folder, &tool))
            .count();
    }
    assert!(tried > 0);
}
