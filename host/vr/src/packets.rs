//! The packet memories of an image that keeps packets, and what lies in them.

use std::path::{Path, PathBuf};

use crate::files;
use crate::image::{Entry, Image};
use crate::layout::{KEPT, MEMORIES, NODES, PACKETS, SLOT_BYTES};
use crate::trouble::Trouble;
use crate::view::number;

/// The bytes of the headers of states that keep packets.
pub const HEADER_BYTES: usize = 10;
/// So many of a packet's bytes are shown: its header, and some of its data.
const SHOWN: usize = 16;

/// The files of the packet memories, from port 0's on.
pub type Names = [PathBuf; MEMORIES];

/// The packet memories, from port 0's on.
pub struct Memories(Vec<Vec<u8>>);

impl Memories {
    /// Read those of an image, whose name is told where it has none.
    pub fn read(image: &Image, path: &Path, names: &Names) -> Result<Memories, Trouble> {
        let bytes = needed(image).map_err(|why| Trouble::with(path, why))?;
        let read = |(port, name): (usize, &PathBuf)| files::read_packets(name, port, bytes);
        let memories: Result<_, Trouble> = names.iter().enumerate().map(read).collect();
        Ok(Memories(memories?))
    }

    /// The first bytes of a node's packet, none behind its end by the recorded length,
    /// but always a header's, whatever that is; none if the node has no slot.
    pub fn first_bytes(&self, entry: Entry, length: Option<u32>) -> Option<&[u8]> {
        let at = entry.index() * SLOT_BYTES;
        let shown = (length.unwrap_or(0) as usize).clamp(HEADER_BYTES, SHOWN);
        self.0.get(entry.port())?.get(at..at + shown)
    }
}

/// The bytes of each memory, or why there are none.
fn needed(image: &Image) -> Result<usize, String> {
    let packets = image.setting(PACKETS);
    if packets != Some(KEPT) {
        let packets = number(packets);
        return Err(format!(
            "keeps no packets (its setting packets is {packets}), and so has no packet memories"
        ));
    }
    let nodes = image.count(NODES);
    let bytes = nodes.map(|nodes| nodes as usize * SLOT_BYTES);
    bytes.ok_or_else(|| {
        "has a setting nodes that is not in its row, so its packet memories have no known size"
            .into()
    })
}
