//! Why a command could not be done at all: a message for standard error.

use std::fmt;
use std::path::Path;

#[derive(Debug, PartialEq, Eq)]
pub struct Trouble(pub String);

impl Trouble {
    /// Trouble with a file.
    pub fn with(path: &Path, what: impl fmt::Display) -> Trouble {
        Trouble(format!("{}: {what}", path.display()))
    }
}

impl fmt::Display for Trouble {
    fn fmt(&self, f: &mut fmt::Formatter<'_>) -> fmt::Result {
        f.write_str(&self.0)
    }
}
