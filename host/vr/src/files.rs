//! Files: an image, a header or a stream read, and a new one written.

use std::fs::{self, File, Metadata, OpenOptions, Permissions};
use std::io::{self, ErrorKind, Read, Write};
use std::os::unix::fs::{OpenOptionsExt, PermissionsExt};
use std::path::{Path, PathBuf};

use ventorupo::HEADER_BYTES;

use crate::args::Source;
use crate::layout::Shape;
use crate::trouble::Trouble;
use crate::view::counted;

/// The most bytes of a text of a header in hexadecimal: sixteen for each of its
/// bytes are more than any spelling needs.
const MOST_TEXT: usize = 16 * HEADER_BYTES;

/// A file's start, as much as the largest state takes; whatever the file, no
/// rule and no repair looks further.
pub struct Start {
    pub bytes: Vec<u8>,
    /// Bytes of the whole file.
    pub there: u64,
    /// Who may read, write and run it.
    mode: u32,
    /// What comes behind the start.
    rest: File,
}

/// Read an image.
pub fn read(path: &Path) -> Result<Start, Trouble> {
    let (rest, about) = open(path, "an image")?;
    let bytes = start(&rest, path, Shape::MOST.size())?;
    Ok(Start {
        there: about.len().max(bytes.len() as u64),
        bytes,
        mode: about.permissions().mode() & 0o777,
        rest,
    })
}

/// Read a header, in bytes or as a text, of which no more than the longest text
/// is looked at; answers also how many bytes there are.
pub fn read_header(path: &Path) -> Result<(Vec<u8>, u64), Trouble> {
    let (file, about) = open(path, "a header")?;
    let bytes = start(file, path, MOST_TEXT)?;
    let there = about.len().max(bytes.len() as u64);
    Ok((bytes, there))
}

/// Read a header off standard input, which may go on for ever.
pub fn read_input() -> Result<Vec<u8>, Trouble> {
    let input = Path::new("standard input");
    let bytes = start(io::stdin(), input, MOST_TEXT + 1)?;
    let what = match bytes.len() {
        0 => "is empty, and should have a header".into(),
        many if many > MOST_TEXT => {
            format!("has more than {MOST_TEXT} bytes, and a header at most {HEADER_BYTES}")
        }
        _ => return Ok(bytes),
    };
    Err(Trouble::with(input, what))
}

/// Read the packet memory of a port, which has so many bytes; of a file that has not,
/// nothing is read.
pub fn read_packets(path: &Path, port: usize, bytes: usize) -> Result<Vec<u8>, Trouble> {
    let (file, about) = open(path, "a packet memory")?;
    if about.len() != bytes as u64 {
        let there = counted(about.len(), "byte");
        let what = format!("has {there}, and port {port}'s packet memory {bytes}");
        return Err(Trouble::with(path, what));
    }
    start(file, path, bytes)
}

/// A stream of fields, of which nothing is read yet.
pub struct Stream {
    pub bytes: Box<dyn Read>,
    /// What it is called.
    pub name: PathBuf,
    /// Bytes of the whole file; none of standard input.
    pub there: Option<u64>,
    /// Who may read and write what is made of it.
    mode: u32,
}

/// Open a stream.
pub fn stream(from: &Source) -> Result<Stream, Trouble> {
    let path = match from {
        Source::File(path) => path,
        Source::Input => {
            return Ok(Stream {
                bytes: Box::new(io::stdin()),
                name: "standard input".into(),
                there: None,
                mode: 0o666,
            })
        }
    };
    let (file, about) = open(path, "a stream")?;
    Ok(Stream {
        bytes: Box::new(file),
        name: path.clone(),
        there: Some(about.len()),
        mode: about.permissions().mode() & 0o666,
    })
}

impl Stream {
    /// Write what was made of it to a new file, which those may read and write who
    /// may the stream; of standard input, who may any new file.
    pub fn write_beside(&self, path: &Path, bytes: &[u8]) -> Result<(), Trouble> {
        match self.there {
            Some(_) => write_for(path, self.mode, bytes),
            None => write_new(path, bytes),
        }
    }
}

/// Only a file of bytes is taken: a pipe may never answer.
fn open(path: &Path, what: &str) -> Result<(File, Metadata), Trouble> {
    let trouble = |why: io::Error| Trouble::with(path, why);
    let about = fs::metadata(path).map_err(trouble)?;
    if about.is_dir() {
        return Err(Trouble::with(path, format!("is a directory, not {what}")));
    }
    if !about.is_file() {
        return Err(Trouble::with(path, "is not a regular file"));
    }
    let file = File::open(path).map_err(trouble)?;
    Ok((file, about))
}

/// At most so many bytes.
fn start(file: impl Read, path: &Path, most: usize) -> Result<Vec<u8>, Trouble> {
    let mut bytes = Vec::new();
    let read = file.take(most as u64).read_to_end(&mut bytes);
    read.map_err(|why| Trouble::with(path, why))?;
    Ok(bytes)
}

/// Write bytes to a new file.
pub fn write_new(path: &Path, bytes: &[u8]) -> Result<(), Trouble> {
    let mut new = create(path, 0o666)?;
    let written = new.write_all(bytes).and_then(|()| new.sync_all());
    whole(path, written)
}

/// Write bytes to a new file of these permissions.
fn write_for(path: &Path, mode: u32, bytes: &[u8]) -> Result<(), Trouble> {
    let mut new = create(path, mode)?;
    // A umask may have left some out. Where this fails, the file has fewer, or
    // those that its file system gives to all.
    let _ = new.set_permissions(Permissions::from_mode(mode));
    let written = new.write_all(bytes).and_then(|()| new.sync_all());
    whole(path, written)
}

/// Whether a new file of this name will not be made, as far as it can be told before
/// the work for it is done.
pub fn vacant(path: &Path) -> Result<(), Trouble> {
    if fs::symlink_metadata(path).is_ok() {
        return Err(not_made(path, ErrorKind::AlreadyExists.into()));
    }
    let folder = path
        .parent()
        .filter(|folder| !folder.as_os_str().is_empty());
    let about = folder.map(fs::metadata).transpose();
    about.map_err(|why| not_made(path, why)).map(drop)
}

/// A new file, with these permissions so far as a umask allows.
fn create(path: &Path, mode: u32) -> Result<File, Trouble> {
    let mut options = OpenOptions::new();
    let options = options.write(true).create_new(true).mode(mode);
    options.open(path).map_err(|why| not_made(path, why))
}

/// A new file that could not be written whole is taken away again.
fn whole(path: &Path, written: io::Result<()>) -> Result<(), Trouble> {
    if written.is_err() {
        // What fails here is told by the error that led here.
        let _ = fs::remove_file(path);
    }
    written.map_err(|why| Trouble::with(path, why))
}

impl Start {
    /// Write the start as it is now, and the rest as it was, to a new file of the
    /// same permissions.
    pub fn write(mut self, path: &Path) -> Result<(), Trouble> {
        let mut new = create(path, self.mode)?;
        // As above.
        let _ = new.set_permissions(Permissions::from_mode(self.mode));
        let written = self.fill(&mut new);
        whole(path, written)
    }

    /// Write other bytes to a new file, which those may read and write who may the
    /// image, and nobody may run.
    pub fn write_beside(&self, path: &Path, bytes: &[u8]) -> Result<(), Trouble> {
        write_for(path, self.mode & 0o666, bytes)
    }

    fn fill(&mut self, new: &mut File) -> io::Result<()> {
        new.write_all(&self.bytes)?;
        io::copy(&mut self.rest, new)?;
        new.sync_all()
    }
}

fn not_made(path: &Path, why: io::Error) -> Trouble {
    match why.kind() {
        ErrorKind::AlreadyExists => {
            Trouble::with(path, "is there already, and vr overwrites nothing")
        }
        _ => Trouble::with(path, why),
    }
}
