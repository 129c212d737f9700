//! An image with all that vr knows of it.

use std::collections::BTreeMap;

use crate::image::Image;
use crate::layout::{
    size_before_buckets, size_before_marks, size_before_wide, Table, IDS, NODES, PORTS, QUEUES,
    ROWS, SETTINGS_BYTES,
};
use crate::lists::Lists;
use crate::packets::Memories;
use crate::words;

use ventorupo::{Finding, Rule};

pub struct View<'m> {
    pub image: Image<'m>,
    /// Bytes of the whole file.
    pub there: u64,
    pub finding: Option<Finding>,
    pub lists: Lists,
    /// The packet memories, if they are given.
    pub packets: Option<Memories>,
}

impl<'m> View<'m> {
    /// Of bytes in which the library found this.
    pub fn new(bytes: &'m [u8], there: u64, finding: Option<Finding>) -> View<'m> {
        let image = Image::new(bytes);
        View {
            image,
            there,
            finding,
            lists: Lists::walk(&image),
            packets: None,
        }
    }

    /// What was found, in words; none of a sound state.
    pub fn found(&self) -> Option<String> {
        let words = |finding| words::words(&self.image, &self.lists, finding);
        self.finding.map(words)
    }

    /// Sound, or what was found: the line on top.
    pub fn top(&self) -> String {
        self.found().unwrap_or_else(|| "a sound state".into())
    }

    /// Exit status: 0 of a sound state, 1 of a broken one.
    pub fn status(&self) -> u8 {
        self.finding.is_some().into()
    }

    /// What an image that is none may be instead. Ports, queues and nodes stand
    /// where they stood in the older builds.
    pub fn hint(&self) -> Option<String> {
        let nodes = self.image.count(NODES)?;
        let none = self.finding.map_or(false, |found| found.rule == Rule::A);
        let long = |bytes: usize| none && self.there == bytes as u64;
        let a_port = format!("{} a port", counted(nodes.into(), "node"));
        if long(size_before_wide(nodes as usize)) {
            return Some(format!(
                "it is as long as an image of {a_port} by the build before the wide headers, \
                 which is to be set up afresh, not repaired (docs/DECISIONS.md, 79)"
            ));
        }
        let (needed, shape) = (self.image.needed()?, self.image.shape);
        let older = [
            (
                size_before_buckets(shape),
                "buckets of waits",
                " (docs/DECISIONS.md, 95)",
            ),
            (
                size_before_marks(shape),
                "marks of halted ports",
                " (docs/DECISIONS.md, 89)",
            ),
        ];
        let (bytes, what, where_told) = older.into_iter().find(|&(bytes, ..)| long(bytes))?;
        let (ports, queues) = (shape.ports, shape.queues);
        let longer = (needed - bytes) / ports;
        Some(format!(
            "it is as long as an image of {ports} ports, {queues} queues and {a_port} \
             by the build before the {what}, which is to be set up afresh, or repaired \
             once it is {longer} bytes a port longer{where_told}"
        ))
    }

    /// A line for the hint, if there is one.
    pub fn hint_line(&self) -> String {
        let line = |hint| format!("hint: {hint}\n");
        self.hint().map_or_else(String::new, line)
    }

    /// The settings in one line.
    pub fn settings(&self) -> String {
        let said = |i: usize| format!("{} {}", ROWS[i].name, number(self.image.setting(i)));
        let all: Vec<String> = (0..ROWS.len()).map(said).collect();
        all.join(", ")
    }

    /// Why not all tables can be read.
    pub fn stops(&self) -> Option<String> {
        let there = self.image.bytes.len();
        let out = |&i: &usize| self.image.count(i).is_none();
        if there < SETTINGS_BYTES {
            Some("the image ends within the settings".into())
        } else if let Some(i) = [PORTS, QUEUES].iter().copied().find(out) {
            let name = ROWS[i].name;
            Some(format!(
                "{name} is not in its row, so nothing behind the map has a known place"
            ))
        } else if out(&NODES) {
            Some("nodes is not in its row, so the lists cannot be followed".into())
        } else {
            let needed = self.image.shape.size();
            (there < needed).then(|| format!("the image ends at byte {there} of {needed}"))
        }
    }
}

/// The destination ids of each port that some are mapped to; last, those whose
/// port could not be read.
pub fn map_by_port(image: &Image) -> Vec<(Option<u32>, Vec<u32>)> {
    let mut ids: BTreeMap<(bool, Option<u32>), Vec<u32>> = BTreeMap::new();
    for id in 0..IDS {
        let port = image.get(Table::Mapped, id);
        ids.entry((port.is_none(), port))
            .or_default()
            .push(id as u32);
    }
    ids.into_iter()
        .map(|((_, port), ids)| (port, ids))
        .collect()
}

/// So many of something, in words: `1 node`, `2 nodes`.
pub fn counted(how_many: u64, what: &str) -> String {
    match how_many {
        1 => format!("1 {what}"),
        _ => format!("{how_many} {what}s"),
    }
}

/// A number that was read, or a dash.
pub fn number(read: Option<u32>) -> String {
    read.map_or_else(|| "-".into(), |number| number.to_string())
}
