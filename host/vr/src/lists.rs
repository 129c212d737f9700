//! The lists, each walked from its head as far as it can be read.

use std::fmt;

use crate::image::{Entry, Image, Kind, List};
use crate::layout::Table;

/// A position in a list, from 0.
#[derive(Debug, Clone, Copy, PartialEq, Eq)]
pub struct Spot {
    pub list: List,
    pub position: usize,
}

/// Why a list is not right. All but a tail end its walk.
#[derive(Debug, Clone, Copy, PartialEq, Eq)]
pub enum Flaw {
    /// The bytes end before this can be read.
    Ends {
        what: &'static str,
    },
    /// The setting of nodes is not in its row, so no node has a known place.
    NodesUnknown,
    NoNode {
        position: usize,
        entry: Entry,
    },
    MetBefore {
        position: usize,
        entry: Entry,
        first: Spot,
    },
    /// The last node is not the tail.
    Tail {
        last: Entry,
        tail: Entry,
    },
}

/// A list as it was walked.
#[derive(Debug, Clone, PartialEq, Eq)]
pub struct Walk {
    pub list: List,
    /// The entry ids of its first and its last node, as they are stored; those of
    /// an empty list say nothing.
    pub head: Option<u32>,
    pub tail: Option<u32>,
    /// How many nodes it has by its own count.
    pub count: Option<u32>,
    /// Those that were read.
    pub nodes: Vec<Entry>,
    pub flaw: Option<Flaw>,
}

/// All lists, walked in the order of their numbers.
#[derive(Debug)]
pub struct Lists {
    pub walks: Vec<Walk>,
    /// Where each node was met, by its element in the tables of nodes.
    pub spots: Vec<Option<Spot>>,
}

impl Lists {
    /// No node is met twice, so this ends whatever the bytes are.
    pub fn walk(image: &Image) -> Lists {
        let mut lists = Lists {
            walks: Vec::new(),
            spots: vec![None; image.shape.all_nodes()],
        };
        for number in 0..image.shape.lists() {
            let walk = lists.walk_one(image, number);
            lists.walks.push(walk);
        }
        lists
    }

    fn walk_one(&mut self, image: &Image, number: usize) -> Walk {
        let mut walk = Walk {
            list: List::numbered(image.shape, number),
            head: image.get(Table::Head, number),
            tail: image.get(Table::Tail, number),
            count: image.get(Table::Count, number),
            nodes: Vec::new(),
            flaw: None,
        };
        walk.flaw = self.follow(image, &mut walk).err();
        walk
    }

    fn follow(&mut self, image: &Image, walk: &mut Walk) -> Result<(), Flaw> {
        let ends = |what| Flaw::Ends { what };
        // Heads and tails stand before the counts, so with a count they are there.
        let (head, tail, count) = walk.stored().ok_or(ends("its count"))?;
        if count > 0 && image.shape.nodes == 0 {
            return Err(Flaw::NodesUnknown);
        }
        let mut behind = Some(head);
        for position in 0..count as usize {
            let entry = Entry(behind.ok_or(ends("the next node"))?);
            let slot = self.meet(image, walk.list, position, entry)?;
            walk.nodes.push(entry);
            behind = image.get(Table::Next, slot);
        }
        match walk.nodes.last() {
            Some(&last) => last_is_tail(last, Entry(tail)),
            None => Ok(()),
        }
    }

    /// The element of a node that was not met before; it is met now.
    fn meet(
        &mut self,
        image: &Image,
        list: List,
        position: usize,
        entry: Entry,
    ) -> Result<usize, Flaw> {
        let slot = image.slot(entry).ok_or(Flaw::NoNode { position, entry })?;
        match self.spots[slot] {
            Some(first) => Err(Flaw::MetBefore {
                position,
                entry,
                first,
            }),
            None => {
                self.spots[slot] = Some(Spot { list, position });
                Ok(slot)
            }
        }
    }

    /// The nodes that were met in no list.
    pub fn nowhere(&self, image: &Image) -> Vec<Entry> {
        let missed = |(slot, spot): (usize, &Option<Spot>)| match spot {
            Some(_) => None,
            None => Some(image.entry_at(slot)),
        };
        self.spots.iter().enumerate().filter_map(missed).collect()
    }

    /// Where a node was met.
    pub fn spot(&self, image: &Image, entry: Entry) -> Option<Spot> {
        self.spots[image.slot(entry)?]
    }

    /// The nodes that aren't free, in the order of the lists.
    pub fn taken(&self) -> impl Iterator<Item = Entry> + '_ {
        let taken = |walk: &&Walk| walk.list.kind != Kind::Free;
        let walks = self.walks.iter().filter(taken);
        walks.flat_map(|walk| walk.nodes.iter().copied())
    }
}

impl Walk {
    /// Head, tail and count, if all of them can be read.
    fn stored(&self) -> Option<(u32, u32, u32)> {
        Some((self.head?, self.tail?, self.count?))
    }
}

fn last_is_tail(last: Entry, tail: Entry) -> Result<(), Flaw> {
    if last == tail {
        Ok(())
    } else {
        Err(Flaw::Tail { last, tail })
    }
}

impl Flaw {
    /// In words, of a list of this image.
    pub fn words(self, image: &Image, list: List) -> String {
        match self {
            Flaw::Ends { what } => format!("the image ends before {what}"),
            Flaw::NodesUnknown => {
                "the setting nodes is not in its row, so its nodes cannot be followed".into()
            }
            Flaw::NoNode { position, entry } => {
                let why = no_node(image, entry);
                format!(
                    "entry id {} at position {position} is no node: {why}",
                    entry.0
                )
            }
            Flaw::MetBefore {
                position,
                entry,
                first,
            } => {
                let place = first.in_words(list);
                format!("{entry} at position {position} was met before, at {place}")
            }
            Flaw::Tail { last, tail } => {
                format!(
                    "its last node is entry id {}, but its tail says {}",
                    last.0, tail.0
                )
            }
        }
    }

    /// Whether reading the list stopped here.
    pub fn stops(self) -> bool {
        !matches!(self, Flaw::Tail { .. })
    }
}

/// Why an entry id is no node's.
fn no_node(image: &Image, entry: Entry) -> String {
    let (ports, nodes) = (image.shape.ports, image.shape.nodes);
    let (port, index) = (entry.port(), entry.index());
    if port < ports {
        format!("node {index} of port {port} is none of {nodes}")
    } else {
        format!("port {port} is none of {ports}")
    }
}

impl Spot {
    /// As one speaks of it in this list.
    fn in_words(self, here: List) -> String {
        if self.list == here {
            format!("position {} of the same list", self.position)
        } else {
            self.to_string()
        }
    }
}

impl fmt::Display for Spot {
    fn fmt(&self, f: &mut fmt::Formatter<'_>) -> fmt::Result {
        write!(f, "position {} of the {}", self.position, self.list)
    }
}
