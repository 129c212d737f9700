//! Links archives of proved code, for build scripts.

use std::env;
use std::path::{Path, PathBuf};
use std::process::exit;

/// Link lib`name`.a for each of the names.
pub fn link(names: &[&str]) {
    println!("cargo:rerun-if-env-changed=VENTORUPO_LIB");
    for name in names {
        let file = format!("lib{name}.a");
        let folders = folders();
        let folder = folders.iter().find(|folder| folder.join(&file).is_file());
        let folder = folder.unwrap_or_else(|| missing(name, &folders));
        println!("cargo:rerun-if-changed={}", folder.join(&file).display());
        // Whole: the linker does not run in this folder.
        let folder = folder.canonicalize().expect("a folder that is there");
        println!("cargo:rustc-link-search=native={}", folder.display());
        println!("cargo:rustc-link-lib=static={name}");
    }
}

/// Where archives for the target may be: the folder that VENTORUPO_LIB names and no
/// other; else where `tools/staticlib` writes them, then where a release has them.
fn folders() -> Vec<PathBuf> {
    if let Some(folder) = env::var_os("VENTORUPO_LIB") {
        return vec![PathBuf::from(folder)];
    }
    let top = Path::new(&named("CARGO_MANIFEST_DIR")).join("../..");
    let own = top.join("target/staticlib");
    let written = match other_processor() {
        Some(other) => own.join(other),
        None => own,
    };
    let target = named("CARGO_CFG_TARGET_ARCH");
    vec![written, top.join(format!("lib/{target}-linux-gnu"))]
}

fn named(name: &str) -> String {
    env::var(name).expect("cargo names it")
}

/// The target's processor, if it isn't this machine's.
fn other_processor() -> Option<String> {
    let target = named("CARGO_CFG_TARGET_ARCH");
    let own = named("HOST").starts_with(&format!("{target}-"));
    Some(target).filter(|_| !own)
}

/// Says what to do, and ends the build.
fn missing(name: &str, folders: &[PathBuf]) -> ! {
    eprintln!("lib{name}.a, the archive of proved code, is in none of these folders:");
    for folder in folders {
        eprintln!("    {}", folder.display());
    }
    eprintln!("Make it at the top of the repository, with the Rattle toolchain (rt) on the PATH:");
    let other = other_processor().map_or(String::new(), |other| format!(" {other}"));
    eprintln!("    tools/staticlib {name}{other}");
    eprintln!("or name the folder that has it in the variable VENTORUPO_LIB.");
    exit(1)
}
