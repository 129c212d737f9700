//! The night crew's calls, on any bytes: what is wrong with an image, where
//! every node stands, and a repair.

use core::fmt;

use crate::{calls, done, Refusal};

/// A rule that every switch state keeps. [`Finding::item`] says what its items are.
///
/// ```
/// use ventorupo::{find, Rule};
///
/// assert_eq!(find(&[0; 100]).unwrap().rule, Rule::A);
/// ```
// Rule (h) is to come.
#[derive(Debug, Clone, Copy, PartialEq, Eq, Hash, PartialOrd, Ord)]
#[non_exhaustive]
pub enum Rule {
    /// The settings are in their rows, and the memory is long enough.
    A = 1,
    /// Last served queues and map entries are in range, and no prefetch list
    /// exceeds D.
    B,
    /// Every node of every port stands once in one list.
    C,
    /// Free and ingress lists hold only their own port's nodes.
    D,
    /// A node in an egress or prefetch list has that list's queue.
    E,
    /// What is recorded for a node that isn't free is in range, its price right.
    F,
    /// Arrival credit and the prices outstanding are K together.
    G,
    /// Every port's mark is 0, 7, 8 or 18. Rule 8, (h), is one to come.
    I = 9,
}

impl Rule {
    /// Every rule, in the order in which they are tested.
    ///
    /// ```
    /// use ventorupo::Rule;
    ///
    /// let letters: String = Rule::ALL.iter().map(|rule| rule.letter()).collect();
    /// assert_eq!(letters, "abcdefgi");
    /// ```
    pub const ALL: &'static [Rule] = &[
        Rule::A,
        Rule::B,
        Rule::C,
        Rule::D,
        Rule::E,
        Rule::F,
        Rule::G,
        Rule::I,
    ];

    /// 1 for (a), 2 for (b), and so on, as the C interface tells it.
    ///
    /// ```
    /// assert_eq!(ventorupo::Rule::G.number(), 7);
    /// ```
    pub const fn number(self) -> u32 {
        self as u32
    }

    /// The rule of a number, if it is one of a rule.
    ///
    /// ```
    /// use ventorupo::Rule;
    ///
    /// assert_eq!(Rule::from_number(9), Some(Rule::I));
    /// assert_eq!(Rule::from_number(8), None);
    /// ```
    pub fn from_number(number: u32) -> Option<Rule> {
        let its = |rule: &Rule| rule.number() == number;
        Rule::ALL.iter().copied().find(its)
    }

    /// `a` to `g`, or `i`.
    ///
    /// ```
    /// assert_eq!(ventorupo::Rule::G.letter(), 'g');
    /// ```
    pub const fn letter(self) -> char {
        (b'a' + (self as u8 - Rule::A as u8)) as char
    }

    /// What the rule asks, in words; its `Display` says the same.
    ///
    /// ```
    /// use ventorupo::Rule;
    ///
    /// assert_eq!(Rule::I.asks(), "every port's mark is 0, 7, 8 or 18");
    /// assert_eq!(Rule::I.to_string(), Rule::I.asks());
    /// ```
    pub const fn asks(self) -> &'static str {
        match self {
            Rule::A => "the settings are in their rows and the memory is long enough",
            Rule::B => "last served queues, map entries and credits are in range and no prefetch list exceeds its slots",
            Rule::C => "every node of every port stands once in one list",
            Rule::D => "free and ingress lists hold only their own port's nodes",
            Rule::E => "a node in an egress or prefetch list has that list's queue",
            Rule::F => "every field recorded for a node that isn't free is in range, its price that of queue, length and beat",
            Rule::G => "for each port and queue above 0, arrival credit and prices outstanding are together the setting credit",
            Rule::I => "every port's mark is 0, 7, 8 or 18",
        }
    }
}

impl fmt::Display for Rule {
    fn fmt(&self, f: &mut fmt::Formatter<'_>) -> fmt::Result {
        f.write_str(self.asks())
    }
}

/// The first rule that an image breaks, and the first item that shows it.
///
/// ```
/// use ventorupo::{Finding, Rule};
///
/// let finding = Finding { rule: Rule::I, item: 3 };
/// assert_eq!(finding.to_string(), "rule (i), item 3");
/// ```
#[derive(Debug, Clone, Copy, PartialEq, Eq, Hash, PartialOrd, Ord)]
pub struct Finding {
    /// The first that is broken, in the order of [`Rule::ALL`].
    pub rule: Rule,
    /// What shows it. For P ports, Q queues, N nodes a port and L lists, P × (2 × Q + 2),
    /// which port by port are the free one, ingress, egress by queue and prefetch by queue:
    ///
    /// | rule | item |
    /// |---|---|
    /// | (a) | 0 to 7: ports, queues, nodes, beat, slots, credit, edition, packets; 8: the memory is too short |
    /// | (b) | below P: a port's last served queue; P + d: the map's entry of id d; P + 4096 + p × Q + q: the prefetch list of port p, queue q |
    /// | (c) | below L: a list that doesn't hold together; L + p × N + i: node i of port p, which stands in none |
    /// | (d), (e), (f) | the entry id |
    /// | (g) | p × (Q − 1) + q − 1: that of port p, queue q |
    /// | (i) | the port |
    ///
    /// The tool `vr` says it in words.
    pub item: u64,
}

impl fmt::Display for Finding {
    fn fmt(&self, f: &mut fmt::Formatter<'_>) -> fmt::Result {
        write!(f, "rule ({}), item {}", self.rule.letter(), self.item)
    }
}

/// What is wrong with an image; none if it is a switch state. Any bytes are
/// taken, and it is never refused.
///
/// ```
/// use ventorupo::{find, Rule, Settings, Switch};
///
/// let settings = Settings::ten_bytes().nodes(2);
/// let mut image = Switch::setup([0; 6720], settings).unwrap().into_memory();
/// assert_eq!(find(&image), None);
/// // Port 1 has served queue 200.
/// image[4113] = 200;
/// let found = find(&image).unwrap();
/// assert_eq!((found.rule, found.item), (Rule::B, 1));
/// assert_eq!(found.to_string(), "rule (b), item 1");
/// ```
pub fn find(memory: &[u8]) -> Option<Finding> {
    let (mut number, mut item) = (0, 0);
    calls::find(memory, &mut number, &mut item);
    match number {
        0 => None,
        _ => {
            let rule = Rule::from_number(number).expect("the library tells of a rule or of none");
            Some(Finding { rule, item })
        }
    }
}

/// Where every node stands, written into lent room: port by port and index by
/// index, eight bytes each, as
/// [`Place::from_bytes`](crate::Place::from_bytes) reads them; what is past
/// them stays. Refused 3 if the image is no switch state, then 27 if there is
/// less room.
///
/// ```
/// use ventorupo::{audit, Refusal, Settings, Switch};
///
/// let settings = Settings::ten_bytes().nodes(2);
/// let image = Switch::setup([0; 6720], settings).unwrap().into_memory();
/// let mut room = [9; 4 * 2 * 8 + 1];
/// assert_eq!(audit(&image, &mut room[..63]), Err(Refusal::ShortRoom));
/// assert_eq!(audit(&image, &mut room), Ok(()));
/// // Port 3, node 1: second of its free list.
/// assert_eq!(room[56..], [24, 1, 0, 3, 0, 0, 0, 1, 9]);
/// assert_eq!(audit(&[0; 6720], &mut []), Err(Refusal::NoState));
/// ```
pub fn audit(memory: &[u8], room: &mut [u8]) -> Result<(), Refusal> {
    done(calls::audit(memory, room))
}

/// Writes the starting ledger for the settings that an image has, with its map;
/// entries above the last port become 0. Packets, outward credits, marks and buckets
/// are lost, also of a sound image; bytes past the state's size stay. Refused 3 where rule (a) is broken:
/// settings out of their rows, or memory too short for them.
///
/// ```
/// use ventorupo::{find, repair, Refusal, Settings, Switch};
///
/// let settings = Settings::ten_bytes().nodes(2);
/// let mut image = Switch::setup([9; 6720 + 1], settings).unwrap().into_memory();
/// image[16] = 3; // Destination 0 goes to port 3.
/// image[4113] = 200;
/// repair(&mut image)?;
/// assert_eq!(find(&image), None);
/// assert_eq!(image[16], 3);
/// assert_eq!(image[6720], 9);
/// assert_eq!(repair(&mut [0; 6720]), Err(Refusal::NoState));
/// # Ok::<(), Refusal>(())
/// ```
pub fn repair(memory: &mut [u8]) -> Result<(), Refusal> {
    done(calls::repair(memory))
}

/// Every node's place, read.
#[cfg(feature = "alloc")]
pub(crate) use of_alloc::places;

#[cfg(feature = "alloc")]
mod of_alloc {
    use alloc::{vec, vec::Vec};

    use super::audit;
    use crate::answers::two;
    use crate::settings::{MOST_NODES, SETTINGS_BYTES};
    use crate::{Place, Refusal, MOST_PORTS, PLACE_BYTES};

    /// How many nodes a state has, read off its settings; of other bytes a number
    /// that is not too large.
    fn nodes(memory: &[u8]) -> usize {
        if memory.len() < SETTINGS_BYTES {
            return 0;
        }
        let [ports, nodes] = [0, 4].map(|at| usize::from(two(memory, at)));
        ports.min(MOST_PORTS) * nodes.min(MOST_NODES)
    }

    /// Every node's place, read.
    pub(crate) fn places(memory: &[u8]) -> Result<Vec<Place>, Refusal> {
        let mut room = vec![0; PLACE_BYTES * nodes(memory)];
        audit(memory, &mut room)?;
        let place = |block: &[u8]| Place::from_bytes(block.try_into().ok()?);
        let places = room.chunks_exact(PLACE_BYTES).map(place);
        let places: Option<Vec<Place>> = places.collect();
        Ok(places.expect("the library writes list kinds 0 to 3"))
    }
}
