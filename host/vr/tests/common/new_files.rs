//! What every command keeps to that makes a new file of another.

use std::ffi::OsString;
use std::fs::{self, Permissions};
use std::os::unix::fs::PermissionsExt;
use std::path::{Path, PathBuf};
use std::process::Command;

use crate::common::{command, full, program, vr, Folder, Said};

/// A command that makes a new file of one that is there.
pub struct Maker<'b> {
    /// Of the test's folders.
    pub name: &'static str,
    /// What is in the file that it takes.
    pub bytes: &'b [u8],
    /// The words behind `vr`, for a file and a new one.
    pub words: fn(&Path, &Path) -> Vec<OsString>,
}

impl Maker<'_> {
    /// The file, and a new one's name, in a folder for one test.
    fn files(&self, what: &str) -> (Folder, PathBuf, PathBuf) {
        let folder = Folder::new(&format!("{}-{what}", self.name));
        let file = folder.file("file", self.bytes);
        let new = folder.path("new");
        (folder, file, new)
    }

    /// It never writes a file that is there: the one that it takes, another, a link
    /// to nothing, a folder. Nor does it make folders.
    pub fn overwrites_nothing(&self) {
        let (folder, file, _) = self.files("taken");
        let other = folder.file("other", b"mine");
        let link = folder.path("link");
        std::os::unix::fs::symlink(folder.path("nowhere"), &link).unwrap();
        let same = folder.path("same");
        fs::hard_link(&file, &same).unwrap();
        let inside = folder.path("inside");
        fs::create_dir(&inside).unwrap();
        let refused = |new: &Path, why: &str| {
            let said = vr(&(self.words)(&file, new));
            assert_eq!(said.err, format!("vr: {}: {why}\n", new.display()));
            assert_eq!((said.status, said.out.as_str()), (Some(2), ""));
        };
        for new in [&file, &other, &link, &same, &inside] {
            refused(new, "is there already, and vr overwrites nothing");
        }
        assert_eq!(fs::read(&file).unwrap(), self.bytes);
        assert_eq!(fs::read(&other).unwrap(), b"mine");
        assert!(!folder.path("nowhere").exists());
        let new = folder.path("no/such/folder");
        refused(&new, "No such file or directory (os error 2)");
    }

    /// Who may read the file may read the new one, and nobody else: it has those of
    /// the file's permissions that are among these.
    pub fn passes_on_permissions(&self, among: u32) {
        let (folder, ..) = self.files("mode");
        let mode_of = |path: &Path| fs::metadata(path).unwrap().permissions().mode();
        for mode in [0o400, 0o600, 0o640, 0o644, 0o666, 0o777, 0o4755] {
            let file = folder.file(format!("file{mode:o}"), self.bytes);
            fs::set_permissions(&file, Permissions::from_mode(mode)).unwrap();
            let new = folder.path(format!("new{mode:o}"));
            assert_eq!(vr(&(self.words)(&file, &new)).status, Some(0));
            assert_eq!(mode_of(&new) & 0o7777, mode & among, "{mode:o}");
            assert_eq!(mode_of(&file) & 0o7777, mode);
        }
    }

    /// What cannot be written whole is taken away again. Here no file may grow past
    /// so many blocks, and the signal that tells of it is ignored. Answers what is
    /// said beside that.
    pub fn takes_away_what_does_not_fit(&self, blocks: u32) -> String {
        let (_folder, file, new) = self.files("limit");
        let script = format!("trap '' XFSZ; ulimit -f {blocks}; exec \"$@\"");
        let mut sh = Command::new("sh");
        sh.args(["-c", &script, "sh", program()]);
        let output = sh.args((self.words)(&file, &new)).output();
        let said = Said::from(output.unwrap());
        let wanted = format!("vr: {}: File too large (os error 27)\n", new.display());
        assert_eq!((said.status, said.err), (Some(2), wanted));
        assert!(!new.exists());
        assert_eq!(fs::read(&file).unwrap(), self.bytes);
        said.out
    }

    /// The new file is there though nothing can be said of it, and that is told.
    /// Answers what is in it; nothing on a machine without a file that is full.
    pub fn tells_of_what_it_cannot_say(&self) -> Option<Vec<u8>> {
        let full = full()?;
        let (_folder, file, new) = self.files("full");
        let mut vr = command();
        vr.args((self.words)(&file, &new)).stdout(full);
        let said = Said::from(vr.output().unwrap());
        let wanted = format!(
            "vr: standard output: No space left on device (os error 28); {} was written\n",
            new.display()
        );
        assert_eq!((said.status, said.err), (Some(2), wanted));
        Some(fs::read(&new).unwrap())
    }
}
