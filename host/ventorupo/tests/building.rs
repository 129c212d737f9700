//! How the crate is built: with every feature and without, without the standard library,
//! where the archive is in a release, and what is said where it is missing.

use std::path::{Path, PathBuf};
use std::process::{Command, Output};
use std::{env, fs};

const CRATE: &str = env!("CARGO_MANIFEST_DIR");
const BOARD: &str = include_str!("board/main_on_board.rs");

/// A folder of this test's own, empty.
fn folder(name: &str) -> PathBuf {
    let folder = Path::new(env!("CARGO_TARGET_TMPDIR"))
        .join("building")
        .join(name);
    let _ = fs::remove_dir_all(&folder);
    fs::create_dir_all(&folder).unwrap();
    folder
}

/// Where this build has found the archive.
fn archive() -> PathBuf {
    let named = env::var_os("VENTORUPO_LIB").map(PathBuf::from);
    let folder = named.unwrap_or_else(|| Path::new(CRATE).join("../../target/staticlib"));
    folder.join("libventorupo.a")
}

/// Cargo on the manifest in a folder, whose builds go to another.
fn cargo(words: &[&str], manifest: &Path, builds: &Path) -> Command {
    let mut cargo = Command::new(env::var_os("CARGO").unwrap_or_else(|| "cargo".into()));
    cargo.args(words).arg("--offline").arg("--manifest-path");
    cargo.arg(manifest.join("Cargo.toml"));
    cargo.arg("--target-dir").arg(builds);
    cargo
}

fn errors(output: &Output) -> String {
    String::from_utf8_lossy(&output.stderr).into_owned()
}

#[test]
fn with_every_set_of_features() {
    let builds = folder("features");
    for features in ["", "alloc", "std"] {
        let mut cargo = cargo(
            &["check", "--no-default-features"],
            Path::new(CRATE),
            &builds,
        );
        cargo
            .args(["--features", features])
            .env("RUSTFLAGS", "-D warnings");
        let checked = cargo.output().unwrap();
        assert!(checked.status.success(), "{features}: {}", errors(&checked));
    }
}

#[test]
fn without_the_standard_library() {
    let folder = folder("board");
    let manifest = format!(
        "[package]\nname = \"board\"\nversion = \"0.0.0\"\nedition = \"2021\"\n\
         [workspace]\n[[bin]]\nname = \"board\"\npath = \"board.rs\"\n\
         [profile.release]\npanic = \"abort\"\n[dependencies.ventorupo]\npath = {CRATE:?}\n\
         default-features = false\n"
    );
    fs::write(folder.join("Cargo.toml"), manifest).unwrap();
    fs::write(folder.join("board.rs"), BOARD).unwrap();
    let builds = folder.join("builds");
    let built = cargo(&["build", "--release"], &folder, &builds).output();
    let built = built.unwrap();
    assert!(built.status.success(), "{}", errors(&built));
    let ran = Command::new(builds.join("release/board")).status().unwrap();
    assert_eq!(ran.code(), Some(0));
}

#[test]
fn without_the_archive() {
    let empty = folder("empty");
    let mut cargo = cargo(&["check"], Path::new(CRATE), &folder("no_archive"));
    let checked = cargo.env("VENTORUPO_LIB", &empty).output().unwrap();
    let said = errors(&checked);
    assert!(!checked.status.success());
    let wanted = [
        "libventorupo.a, the archive of proved code, is in none of these folders:".to_string(),
        format!("    {}", empty.display()),
        "Make it at the top of the repository, with the Rattle toolchain (rt) on the PATH:".into(),
        "    tools/staticlib ventorupo".into(),
        "or name the folder that has it in the variable VENTORUPO_LIB.".into(),
    ];
    for line in wanted {
        assert!(
            said.lines().any(|said| said.trim_end().ends_with(&line)),
            "{line}: {said}"
        );
    }
    assert!(said.contains("exit status: 1"), "{said}");
    assert!(!said.contains("panicked"), "{said}");
}

/// The command for another processor names it.
#[test]
fn without_the_archive_for_another_processor() {
    let other = match env::consts::ARCH {
        "aarch64" => "x86_64",
        _ => "aarch64",
    };
    let target = format!("{other}-unknown-linux-gnu");
    let words = ["check", "--target", &target];
    let mut cargo = cargo(&words, Path::new(CRATE), &folder("other"));
    let checked = cargo.env("VENTORUPO_LIB", folder("empty_too")).output();
    let said = errors(&checked.unwrap());
    let line = format!("    tools/staticlib ventorupo {other}");
    assert!(said.lines().any(|said| said.ends_with(&line)), "{said}");
}

/// Copies the crate, as a release has it.
fn copy_crate(to: &Path) {
    let parts = ["src", "examples"].map(|part| Path::new(CRATE).join(part));
    let files = parts.iter().flat_map(|part| fs::read_dir(part).unwrap());
    let files = files.map(|file| file.unwrap().path());
    let builds = ["build.rs", "archives.rs"].map(|file| Path::new(CRATE).join(file));
    for file in files.chain(builds) {
        let copy = to.join(file.strip_prefix(CRATE).unwrap());
        fs::create_dir_all(copy.parent().unwrap()).unwrap();
        fs::copy(file, copy).unwrap();
    }
    let manifest = fs::read_to_string(Path::new(CRATE).join("Cargo.toml")).unwrap();
    fs::write(to.join("Cargo.toml"), manifest + "\n[workspace]\n").unwrap();
}

/// First without the archive, then with the one for this processor.
#[test]
fn in_a_release() {
    let release = folder("release");
    let (own, builds) = (release.join("rust/ventorupo"), release.join("builds"));
    copy_crate(&own);
    let build = || {
        let mut cargo = cargo(&["build", "--example", "replay"], &own, &builds);
        cargo.env_remove("VENTORUPO_LIB").output().unwrap()
    };
    let lib = format!("lib/{}-linux-gnu", env::consts::ARCH);
    let said = errors(&build());
    for folder in ["target/staticlib", &lib] {
        let line = format!("{}\n", own.join("../..").join(folder).display());
        assert!(said.contains(&line), "{line}: {said}");
    }
    let lib = release.join(lib);
    fs::create_dir_all(&lib).unwrap();
    fs::copy(archive(), lib.join("libventorupo.a")).unwrap();
    let built = build();
    assert!(built.status.success(), "{}", errors(&built));
    // And not a second time.
    let again = errors(&build());
    assert!(!again.contains("Compiling"), "{again}");
    let ran = Command::new(builds.join("debug/examples/replay")).output();
    let expected = fs::read(Path::new(CRATE).join("examples/replay.expected")).unwrap();
    assert_eq!(ran.unwrap().stdout, expected);
}
