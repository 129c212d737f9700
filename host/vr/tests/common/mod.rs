//! What the tests share: folders, and runs of `vr`.

use std::ffi::OsStr;
use std::fs::{self, File};
use std::path::{Path, PathBuf};
use std::process::{Command, Output};

/// A folder of a test's own, gone with it.
pub struct Folder(PathBuf);

impl Folder {
    pub fn new(name: &str) -> Folder {
        let path = Path::new(env!("CARGO_TARGET_TMPDIR")).join(name);
        let _ = fs::remove_dir_all(&path);
        fs::create_dir_all(&path).unwrap();
        Folder(path)
    }

    /// The path of a name in it.
    pub fn path(&self, name: impl AsRef<Path>) -> PathBuf {
        self.0.join(name)
    }

    /// A file of these bytes in it.
    pub fn file(&self, name: impl AsRef<Path>, bytes: &[u8]) -> PathBuf {
        let path = self.path(name);
        fs::write(&path, bytes).unwrap();
        path
    }
}

impl Drop for Folder {
    fn drop(&mut self) {
        let _ = fs::remove_dir_all(&self.0);
    }
}

/// What a run of `vr` said.
#[derive(Debug, PartialEq, Eq)]
pub struct Said {
    pub status: Option<i32>,
    pub out: String,
    pub err: String,
}

impl From<Output> for Said {
    fn from(output: Output) -> Said {
        Said {
            status: output.status.code(),
            out: String::from_utf8(output.stdout).unwrap(),
            err: String::from_utf8(output.stderr).unwrap(),
        }
    }
}

/// Where `vr` is.
pub fn program() -> &'static str {
    env!("CARGO_BIN_EXE_vr")
}

pub fn command() -> Command {
    Command::new(program())
}

pub fn vr<W: AsRef<OsStr>>(words: &[W]) -> Said {
    command().args(words).output().unwrap().into()
}

/// `vr`, a command and a file.
// Not every test needs it.
#[allow(dead_code)]
pub fn on(name: &str, file: &Path) -> Said {
    vr(&[OsStr::new(name), file.as_os_str()])
}

/// A file that takes no byte; not every machine has one.
// Not every test needs it.
#[allow(dead_code)]
pub fn full() -> Option<File> {
    fs::OpenOptions::new().write(true).open("/dev/full").ok()
}
