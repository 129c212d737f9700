//! What the night crew asks of a memory, beside the independent reader and the
//! model: which rule it breaks and where, every node's place, and a repair.

use model::{Ledger, Model, PLACE_BYTES};
use ventorupo::calls;

use crate::finding::{self, Finding};
use crate::{difference, writer};

/// The functions that answer it, and the test that every call but setup, the
/// finding and the repair asks first. In tests one of them may have a slip.
#[derive(Clone, Copy)]
pub struct Crew {
    pub is_state: fn(&[u8]) -> bool,
    /// The rule's number and the item.
    pub find: fn(&[u8]) -> (u32, u64),
    /// 0 or a refusal's number, as below.
    pub audit: fn(&[u8], &mut [u8]) -> u32,
    pub repair: fn(&mut [u8]) -> u32,
}

/// Those of the proved library.
pub const PROVED: Crew = Crew {
    is_state: rules::is_state,
    find: |memory| {
        // Both are to be written, also where nothing is found.
        let (mut rule, mut item) = (0xA7A7_A7A7, 0xA7A7_A7A7_A7A7_A7A7);
        calls::find(memory, &mut rule, &mut item);
        (rule, item)
    },
    audit: calls::audit,
    repair: calls::repair,
};

/// Rooms start with these bytes, so that a byte that should stay is seen.
const FILL: u8 = 0xA7;

/// Bytes before and behind a room, to see that nobody writes there.
const GUARD: usize = 7;

/// Bytes behind the places that are lent too, and stay.
const LONGER: usize = 5;

/// Rule and item as the C interface tells them.
fn told(found: Option<Finding>) -> (u32, u64) {
    found.map_or((0, 0), |found| (found.number(), found.item))
}

impl Crew {
    /// All of it, on a memory that the reader has judged: a model on its ledger,
    /// or why it is no state. `whole` is what is lent and some bytes behind it.
    /// Answers what is found.
    pub fn agrees(
        &self,
        whole: &[u8],
        lent: usize,
        judged: &Result<Model, String>,
    ) -> Result<Option<Finding>, String> {
        let found = self.finds(&whole[..lent])?;
        // The ledger and the bytes are read in two ways: as "(c) ..".
        let first = judged.as_ref().err().and_then(|why| why.chars().nth(1));
        let rule = found.map(|found| found.rule);
        if rule.is_none() != first.is_none() || rule > first {
            return Err(format!("the reader finds {found:?}, and {judged:?}"));
        }
        let model = judged.clone().unwrap_or_else(|_| Model::new(lent));
        self.audits(&whole[..lent], &model)?;
        self.repairs(whole, lent)?;
        Ok(found)
    }

    /// Rule and item are the independent finding's, and the test says yes exactly
    /// where nothing is found.
    pub fn finds(&self, memory: &[u8]) -> Result<Option<Finding>, String> {
        let wanted = finding::first(memory);
        let found = (self.find)(memory);
        if found != told(wanted) {
            return Err(format!("the finding is {found:?}, the reader's {wanted:?}"));
        }
        let state = (self.is_state)(memory);
        if state != wanted.is_none() {
            return Err(format!("the test says {state}, the finding is {wanted:?}"));
        }
        Ok(wanted)
    }

    /// Into a room that is enough for the model's nodes, one that is a byte
    /// shorter, and one that is longer.
    pub fn audits(&self, memory: &[u8], model: &Model) -> Result<(), String> {
        let nodes = |ledger: &Ledger| ledger.settings.ports * ledger.settings.nodes;
        let enough = PLACE_BYTES * model.ledger().map_or(4, nodes) as usize;
        let rooms = [enough, enough - 1, enough + LONGER];
        rooms
            .iter()
            .try_for_each(|&room| self.audits_into(memory, model, room))
    }

    /// Into a room of so many bytes.
    pub fn audits_into(&self, memory: &[u8], model: &Model, room: usize) -> Result<(), String> {
        let lent = GUARD..GUARD + room;
        let mut after = vec![FILL; room + 2 * GUARD];
        let mut wanted = after.clone();
        let answer = (self.audit)(memory, &mut after[lent.clone()]);
        let refusal = model.audit(&mut wanted[lent]).err();
        if answer != refusal.map_or(0, u32::from) {
            return Err(format!(
                "an audit into {room} bytes answers {answer}, the model's {refusal:?}"
            ));
        }
        match difference(&wanted, &after, 0) {
            None => Ok(()),
            Some(told) => Err(format!(
                "after an audit into {room} bytes, counted from {GUARD} before them, {told}"
            )),
        }
    }

    /// The bytes that it leaves are the reader's, those past the size and those
    /// that aren't lent among them; what it leaves is a state, and a repair of
    /// that changes nothing.
    pub fn repairs(&self, whole: &[u8], lent: usize) -> Result<(), String> {
        let mut after = whole.to_vec();
        let answer = (self.repair)(&mut after[..lent]);
        let wanted = writer::repaired(&whole[..lent]);
        if answer != wanted.as_ref().map_or(3, |_| 0) {
            return Err(format!("a repair answers {answer}"));
        }
        let mut left = whole.to_vec();
        if let Some(repaired) = &wanted {
            left[..lent].copy_from_slice(repaired);
        }
        if let Some(told) = difference(&left, &after, 0) {
            return Err(format!("after a repair, answered {answer}, {told}"));
        }
        if wanted.is_none() {
            return Ok(());
        }
        if let Some(found) = self.finds(&after[..lent])? {
            return Err(format!("a repair leaves {found:?}"));
        }
        let again = (self.repair)(&mut after[..lent]);
        match (again, difference(&left, &after, 0)) {
            (0, None) => Ok(()),
            (_, told) => Err(format!("a second repair answers {again}, {told:?}")),
        }
    }
}
