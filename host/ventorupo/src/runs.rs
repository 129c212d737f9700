//! Runs: many calls on memory that is tested once, as fields in bytes, and what they
//! answer.

use core::fmt;

use crate::answers::two;
use crate::{calls, done, EntryId, Refusal, RoundTurn, Switch};

/// The bytes that a run writes for each field's answer.
///
/// ```
/// use ventorupo::{Batch, Form, ANSWER_BYTES};
///
/// let mut batch = Batch::new(Form::TEN_BYTES).unwrap();
/// batch.turn(0).turn(1);
/// // Enough for a run of this batch.
/// let room = vec![0; ANSWER_BYTES * batch.len()];
/// assert_eq!(room.len(), 8);
/// ```
pub const ANSWER_BYTES: usize = 4;

/// The bytes before a field's value: its tag, and its length.
const HEAD: usize = 3;

/// The fields' tags; 1 is setup's, which is bad in a run.
pub(crate) const ARRIVE: u8 = 2;
pub(crate) const STITCH: u8 = 3;
pub(crate) const PREFETCH: u8 = 4;
pub(crate) const TURN: u8 = 5;
pub(crate) const CREDIT: u8 = 6;
pub(crate) const MAP: u8 = 7;

/// The first field's tag, and what stands behind the field; none if it is cut off.
fn first(fields: &[u8]) -> Option<(u8, &[u8])> {
    let value = fields.get(HEAD..)?;
    let behind = value.get(two(fields, 1).into()..)?;
    Some((fields[0], behind))
}

/// Why a run stopped.
///
/// ```
/// use ventorupo::Stop;
///
/// assert_eq!(Stop::from_number(1), Some(Stop::BadField));
/// assert_eq!(Stop::BadField.to_string(), "a bad field");
/// assert_eq!(Stop::from_number(3), None);
/// ```
// Exhaustive: fields end, are bad, or have no room, and no request adds a stop.
#[derive(Debug, Clone, Copy, PartialEq, Eq, Hash, PartialOrd, Ord)]
pub enum Stop {
    /// 0: the fields ended.
    Ended = 0,
    /// 1: a bad field: of another tag, of a wrong length, or cut off.
    BadField = 1,
    /// 2: no room for a good field's answer.
    NoRoom = 2,
}

impl Stop {
    /// Every one, in the order of their numbers.
    ///
    /// ```
    /// assert_eq!(ventorupo::Stop::ALL[2], ventorupo::Stop::NoRoom);
    /// ```
    pub const ALL: [Stop; 3] = [Stop::Ended, Stop::BadField, Stop::NoRoom];

    /// The number in the C interface.
    ///
    /// ```
    /// assert_eq!(ventorupo::Stop::NoRoom.number(), 2);
    /// ```
    pub const fn number(self) -> u32 {
        self as u32
    }

    /// The one of a number, if there is one.
    ///
    /// ```
    /// assert_eq!(ventorupo::Stop::from_number(2), Some(ventorupo::Stop::NoRoom));
    /// ```
    pub fn from_number(number: u32) -> Option<Stop> {
        Stop::ALL.into_iter().find(|stop| stop.number() == number)
    }
}

impl fmt::Display for Stop {
    fn fmt(&self, f: &mut fmt::Formatter<'_>) -> fmt::Result {
        f.write_str(match self {
            Stop::Ended => "the fields ended",
            Stop::BadField => "a bad field",
            Stop::NoRoom => "no room for a good field's answer",
        })
    }
}

/// How far a run went, as [`Switch::run_fields`] tells it.
///
/// ```
/// use ventorupo::{Ran, Refusal, Settings, Stop, Switch};
///
/// let settings = Settings::ten_bytes().nodes(1);
/// let mut switch = Switch::setup([0; 6668], settings)?;
/// // A run of no fields.
/// let ran = switch.run_fields(&[], &mut [])?;
/// assert_eq!(ran, Ran { count: 0, why: Stop::Ended });
/// # Ok::<(), Refusal>(())
/// ```
#[derive(Debug, Clone, Copy, PartialEq, Eq)]
pub struct Ran {
    /// The fields that were done, refused ones among them.
    pub count: usize,
    /// Why it stopped.
    pub why: Stop,
}

impl Ran {
    /// What the calls answered, in their order: of the run's fields, and the room
    /// as the run left it. Of other bytes, as far as they can be read as these.
    ///
    /// ```
    /// use ventorupo::{Answer, Refusal, Settings, Switch};
    ///
    /// let settings = Settings::ten_bytes().nodes(1);
    /// let mut switch = Switch::setup([0; 6668], settings)?;
    /// let turns = [5, 0, 1, 0, 5, 0, 1, 4];
    /// let mut room = [0; 8];
    /// let ran = switch.run_fields(&turns, &mut room)?;
    /// let answers: Vec<Answer> = ran.answers(&turns, &room).collect();
    /// let refused = Answer::Turned(Err(Refusal::NoPort));
    /// assert_eq!(answers, [Answer::Turned(Ok(None)), refused]);
    /// # Ok::<(), Refusal>(())
    /// ```
    pub fn answers<'a>(&self, fields: &'a [u8], room: &'a [u8]) -> Answers<'a> {
        Answers {
            fields,
            room,
            left: self.count,
        }
    }

    /// The bytes of the run's fields that were done, so where in them the field
    /// stands at which it stopped.
    ///
    /// ```
    /// use ventorupo::{Refusal, Settings, Stop, Switch};
    ///
    /// let settings = Settings::ten_bytes().nodes(1);
    /// let mut switch = Switch::setup([0; 6668], settings)?;
    /// // A prefetch, and a field that is cut off.
    /// let fields = [4, 0, 2, 0, 0, 5, 0, 1];
    /// let ran = switch.run_fields(&fields, &mut [0; 8])?;
    /// assert_eq!((ran.count, ran.why), (1, Stop::BadField));
    /// assert_eq!(ran.bytes(&fields), 5);
    /// # Ok::<(), Refusal>(())
    /// ```
    pub fn bytes(&self, fields: &[u8]) -> usize {
        let mut rest = fields;
        for _ in 0..self.count {
            rest = first(rest).map_or(rest, |(_, behind)| behind);
        }
        fields.len() - rest.len()
    }
}

/// What a call of a run answers; none of them says more than four bytes do, so of
/// stitches and turns there is the entry id alone.
///
/// ```
/// use ventorupo::{Answer, EntryId, Refusal};
///
/// let stitched = Answer::Stitched(Ok(EntryId(5)));
/// assert_eq!((stitched.entry(), stitched.refusal()), (Some(EntryId(5)), None));
/// let refused = Answer::Credited(Err(Refusal::NoQueue));
/// assert_eq!((refused.entry(), refused.refusal()), (None, Some(Refusal::NoQueue)));
/// ```
// Other calls may find their place in a run.
#[derive(Debug, Clone, Copy, PartialEq, Eq, Hash)]
#[non_exhaustive]
pub enum Answer {
    /// The node that took the header.
    Arrived(Result<EntryId, Refusal>),
    /// The node that went to the mapped port's egress list.
    Stitched(Result<EntryId, Refusal>),
    /// The node that went to the prefetch list.
    Prefetched(Result<EntryId, Refusal>),
    /// The node whose packet was sent; none if nothing was ready.
    Turned(Result<Option<EntryId>, Refusal>),
    /// Outward credit was added.
    Credited(Result<(), Refusal>),
    /// A destination id was mapped.
    Mapped(Result<(), Refusal>),
}

impl Answer {
    /// The answer of a field with this tag, in its four bytes; none if it has no
    /// such answer.
    ///
    /// ```
    /// use ventorupo::{Answer, EntryId, Refusal};
    ///
    /// let turned = |bytes| Answer::from_bytes(5, &bytes);
    /// assert_eq!(turned([0, 0, 8, 1]), Some(Answer::Turned(Ok(Some(EntryId(2049))))));
    /// assert_eq!(turned([0, 1, 0, 0]), Some(Answer::Turned(Ok(None))));
    /// assert_eq!(turned([4, 0, 0, 0]), Some(Answer::Turned(Err(Refusal::NoPort))));
    /// // A stitch is never idle, and a setup's field has no answer.
    /// assert_eq!(Answer::from_bytes(3, &[0, 1, 0, 0]), None);
    /// assert_eq!(Answer::from_bytes(1, &[0, 0, 0, 0]), None);
    /// ```
    pub fn from_bytes(tag: u8, bytes: &[u8; ANSWER_BYTES]) -> Option<Answer> {
        // A round tells of its turns in the same four bytes.
        let told = match RoundTurn::from_bytes(bytes)? {
            RoundTurn::Refused(refusal) => Err(refusal),
            RoundTurn::Idle => Ok(None),
            RoundTurn::Sent(entry) => Ok(Some(entry)),
        };
        match tag {
            ARRIVE => told.transpose().map(Answer::Arrived),
            STITCH => told.transpose().map(Answer::Stitched),
            PREFETCH => told.transpose().map(Answer::Prefetched),
            TURN => Some(Answer::Turned(told)),
            CREDIT => without_entry(told).map(Answer::Credited),
            MAP => without_entry(told).map(Answer::Mapped),
            _ => None,
        }
    }

    /// The tag of the fields that are answered so: 2 for an arrival, and so on to 7 for
    /// a map entry.
    ///
    /// ```
    /// use ventorupo::Answer;
    ///
    /// assert_eq!(Answer::Turned(Ok(None)).tag(), 5);
    /// ```
    pub const fn tag(&self) -> u8 {
        match self {
            Answer::Arrived(_) => ARRIVE,
            Answer::Stitched(_) => STITCH,
            Answer::Prefetched(_) => PREFETCH,
            Answer::Turned(_) => TURN,
            Answer::Credited(_) => CREDIT,
            Answer::Mapped(_) => MAP,
        }
    }

    /// The refusal, if the call was refused.
    ///
    /// ```
    /// use ventorupo::{Answer, Refusal};
    ///
    /// assert_eq!(Answer::Mapped(Err(Refusal::NoPort)).refusal(), Some(Refusal::NoPort));
    /// assert_eq!(Answer::Mapped(Ok(())).refusal(), None);
    /// ```
    pub fn refusal(&self) -> Option<Refusal> {
        match *self {
            Answer::Arrived(told) | Answer::Stitched(told) | Answer::Prefetched(told) => told.err(),
            Answer::Turned(told) => told.err(),
            Answer::Credited(told) | Answer::Mapped(told) => told.err(),
        }
    }

    /// The entry id, if the call answered one.
    ///
    /// ```
    /// use ventorupo::{Answer, EntryId};
    ///
    /// assert_eq!(Answer::Turned(Ok(Some(EntryId(7)))).entry(), Some(EntryId(7)));
    /// assert_eq!(Answer::Turned(Ok(None)).entry(), None);
    /// ```
    pub fn entry(&self) -> Option<EntryId> {
        match *self {
            Answer::Arrived(told) | Answer::Stitched(told) | Answer::Prefetched(told) => told.ok(),
            Answer::Turned(told) => told.ok().flatten(),
            Answer::Credited(_) | Answer::Mapped(_) => None,
        }
    }
}

/// Of a call that answers no entry id, for which 0 stands.
fn without_entry(told: Result<Option<EntryId>, Refusal>) -> Option<Result<(), Refusal>> {
    match told {
        Ok(Some(EntryId(0))) => Some(Ok(())),
        Ok(_) => None,
        Err(refusal) => Some(Err(refusal)),
    }
}

/// The answers of a run, read out of its room one by one: see [`Ran::answers`].
///
/// ```
/// use ventorupo::{Answers, Ran, Stop};
///
/// // Two turns, and the room that a run of them leaves.
/// let (fields, room) = ([5, 0, 1, 0, 5, 0, 1, 1], [0, 1, 0, 0, 0, 0, 8, 0]);
/// let ran = Ran { count: 2, why: Stop::Ended };
/// let answers: Answers = ran.answers(&fields, &room);
/// assert_eq!(answers.filter_map(|answer| answer.entry()).count(), 1);
/// ```
#[derive(Debug, Clone)]
pub struct Answers<'a> {
    /// Of the answers that are still to be read.
    fields: &'a [u8],
    room: &'a [u8],
    left: usize,
}

impl Answers<'_> {
    fn read(&mut self) -> Option<Answer> {
        let (tag, behind) = first(self.fields)?;
        let told = self.room.get(..ANSWER_BYTES)?;
        self.fields = behind;
        self.room = &self.room[ANSWER_BYTES..];
        Answer::from_bytes(tag, told.try_into().ok()?)
    }
}

impl Iterator for Answers<'_> {
    type Item = Answer;

    fn next(&mut self) -> Option<Answer> {
        self.left = self.left.checked_sub(1)?;
        let read = self.read();
        if read.is_none() {
            // Nor is there one behind what is none.
            self.left = 0;
        }
        read
    }

    fn size_hint(&self) -> (usize, Option<usize>) {
        (0, Some(self.left))
    }
}

impl core::iter::FusedIterator for Answers<'_> {}

impl<M: AsRef<[u8]> + AsMut<[u8]>> Switch<M> {
    /// A run of fields as they stand in bytes, one behind the other: tag, length of
    /// the value (2, big-endian), value (include/ventorupo.h has the tags). Each answer
    /// takes four bytes of the room: refusal number, 1 if idle, entry id (2,
    /// big-endian) or 0; [`Ran::answers`] reads them. What is past them stays. Stops at
    /// a bad field, or at a good one for whose answer there is no room; as much room as
    /// there are bytes of fields is always enough. Refused 3 alone, and then nothing is
    /// written.
    ///
    /// ```
    /// use ventorupo::{Ran, Refusal, Settings, Stop, Switch};
    ///
    /// let settings = Settings::ten_bytes().nodes(1);
    /// let mut switch = Switch::setup([0; 6668], settings)?;
    /// // Turns of ports 0 and 4, and one more for which there is no room.
    /// let fields = [5, 0, 1, 0, 5, 0, 1, 4, 5, 0, 1, 0];
    /// let mut room = [9; 11];
    /// let ran = switch.run_fields(&fields, &mut room)?;
    /// assert_eq!(ran, Ran { count: 2, why: Stop::NoRoom });
    /// assert_eq!(room, [0, 1, 0, 0, 4, 0, 0, 0, 9, 9, 9]);
    /// # Ok::<(), Refusal>(())
    /// ```
    pub fn run_fields(&mut self, fields: &[u8], answers: &mut [u8]) -> Result<Ran, Refusal> {
        let (mut count, mut why) = (0, 0);
        done(calls::run(
            self.memory.as_mut(),
            fields,
            answers,
            &mut count,
            &mut why,
        ))?;
        let count = usize::try_from(count).expect("no more than there are fields");
        let why = Stop::from_number(why).expect("the library tells 0, 1 or 2");
        Ok(Ran { count, why })
    }
}
