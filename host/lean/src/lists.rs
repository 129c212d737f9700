//! Nodes, and lists of them by their indices.

use std::ops::{Index, IndexMut};

/// The most nodes of a switch: as many as 16 bits can tell apart.
const MOST: usize = 65_536;

/// A node: what is recorded for it and the next of its list, where there is one.
#[derive(Debug, Clone, Copy, Default)]
pub struct Node {
    pub next: u16,
    /// Its entry id, for ever.
    pub entry: u16,
    pub length: u16,
    pub price: u16,
    pub timestamp: u32,
    pub queue: u8,
    pub destination: u8,
    pub transaction: u8,
    pub poisoned: bool,
}

/// The nodes of all ports, one port's behind another's. There are always as many as
/// indices, so that none has to be tested.
#[derive(Debug, Clone)]
pub struct Nodes(Box<[Node; MOST]>);

impl Nodes {
    pub fn new() -> Nodes {
        let nodes = vec![Node::default(); MOST].into_boxed_slice();
        Nodes(nodes.try_into().expect("as many as there are indices"))
    }
}

impl Index<u16> for Nodes {
    type Output = Node;

    #[inline]
    fn index(&self, node: u16) -> &Node {
        &self.0[usize::from(node)]
    }
}

impl IndexMut<u16> for Nodes {
    #[inline]
    fn index_mut(&mut self, node: u16) -> &mut Node {
        &mut self.0[usize::from(node)]
    }
}

/// A list from its oldest node to its newest. Head and tail say something only
/// where it isn't empty.
#[derive(Debug, Clone, Copy, Default)]
pub struct List {
    head: u16,
    tail: u16,
    count: u32,
}

impl List {
    #[inline]
    pub fn is_empty(&self) -> bool {
        self.count == 0
    }

    #[inline]
    pub fn count(&self) -> u32 {
        self.count
    }

    /// The oldest of a list that isn't empty.
    #[inline]
    pub fn oldest(&self) -> u16 {
        self.head
    }

    #[inline]
    pub fn append(&mut self, nodes: &mut Nodes, node: u16) {
        if self.is_empty() {
            self.head = node;
        } else {
            nodes[self.tail].next = node;
        }
        self.tail = node;
        self.count += 1;
    }

    /// Takes the oldest of a list that isn't empty.
    #[inline]
    pub fn take(&mut self, nodes: &Nodes) -> u16 {
        let node = self.head;
        self.head = nodes[node].next;
        self.count -= 1;
        node
    }
}
