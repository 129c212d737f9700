//! A batch of calls for a run, put together call by call, and its answers.

use alloc::{vec, vec::Vec};
use core::fmt;

use crate::runs::{ARRIVE, CREDIT, MAP, PREFETCH, STITCH, TURN};
use crate::{Answer, Form, Refusal, Stop, Switch, ANSWER_BYTES};

/// The bytes of a header that has its place in runs on every switch.
const EVERYWHERE: usize = 10;

/// A header that has no place in a batch: neither of ten bytes nor of as many as the
/// headers of the batch's form. Its field would be a bad one and end the run; as a
/// [`Refusal`] it is 6, which [`Switch::arrive`] gives.
///
/// ```
/// use ventorupo::{Batch, Form, Refusal, WrongLength};
///
/// let wrong = Batch::new(Form::wide(8, 16))?.arrive(0, &[0; 9]).unwrap_err();
/// assert_eq!(wrong, WrongLength { bytes: 9, size: 11 });
/// assert_eq!(wrong.to_string(), "a header of 9 bytes, where those of the form have 11");
/// assert_eq!(Refusal::from(wrong), Refusal::HeaderSize);
/// # Ok::<(), Refusal>(())
/// ```
#[derive(Debug, Clone, Copy, PartialEq, Eq)]
pub struct WrongLength {
    /// The bytes of the header.
    pub bytes: usize,
    /// Those of the form's headers.
    pub size: usize,
}

impl fmt::Display for WrongLength {
    fn fmt(&self, f: &mut fmt::Formatter<'_>) -> fmt::Result {
        let WrongLength { bytes, size } = self;
        write!(
            f,
            "a header of {bytes} bytes, where those of the form have {size}"
        )
    }
}

impl From<WrongLength> for Refusal {
    fn from(_: WrongLength) -> Refusal {
        Refusal::HeaderSize
    }
}

/// Calls for one run, in the order in which they are put in. It keeps its memory:
/// cleared, it can be filled again.
///
/// Ports, queues and ids are a byte in a run's fields, amounts two; larger ids are
/// mapped by [`Switch::map`] alone. Numbers that the switch does not have are refused
/// in the call's answer.
///
/// ```
/// use ventorupo::{Answer, Batch, Form, Refusal, Settings, Switch};
///
/// let settings = Settings::ten_bytes().nodes(1);
/// let mut switch = Switch::setup([0; 6668], settings)?;
/// let mut batch = Batch::new(settings.form())?;
/// batch.map_to(1, 3).credit(3, 5, 100).credit(3, 0, 1);
/// assert_eq!(batch.len(), 3);
/// let refused = Answer::Credited(Err(Refusal::NoQueue));
/// let answers = [Answer::Mapped(Ok(())), Answer::Credited(Ok(())), refused];
/// assert_eq!(switch.run(&batch).unwrap(), answers);
///
/// // The same without a new memory for the answers of each run.
/// let mut room = [0; 64];
/// batch.clear();
/// batch.turn(3);
/// let ran = switch.run_fields(batch.as_bytes(), &mut room)?;
/// for answer in ran.answers(batch.as_bytes(), &room) {
///     assert_eq!(answer, Answer::Turned(Ok(None)));
/// }
/// # Ok::<(), Refusal>(())
/// ```
#[derive(Debug, Clone, PartialEq, Eq)]
pub struct Batch {
    fields: Vec<u8>,
    len: usize,
    /// The bytes of a header of the form.
    size: usize,
}

impl Batch {
    /// A batch without calls, for switches whose headers are of this form. Refused 2
    /// if edition, ports or queues are not in their rows.
    ///
    /// ```
    /// use ventorupo::{Batch, Form, Refusal};
    ///
    /// assert!(Batch::new(Form::wide(8, 16))?.is_empty());
    /// assert_eq!(Batch::new(Form::wide(33, 16)), Err(Refusal::BadSetting));
    /// # Ok::<(), Refusal>(())
    /// ```
    pub fn new(form: Form) -> Result<Batch, Refusal> {
        let size = form.size().ok_or(Refusal::BadSetting)?;
        Ok(Batch {
            fields: Vec::new(),
            len: 0,
            size,
        })
    }

    /// As [`Switch::arrive`], so a switch that keeps packets refuses it 24. A header of
    /// the form's size is taken, and one of ten bytes, which a switch with wide headers
    /// refuses 6.
    ///
    /// ```
    /// use ventorupo::{Batch, Form, Refusal, WrongLength};
    ///
    /// let mut batch = Batch::new(Form::wide(8, 16))?;
    /// let wrong = WrongLength { bytes: 12, size: 11 };
    /// assert_eq!(batch.arrive(0, &[0; 12]), Err(wrong));
    /// assert!(batch.is_empty());
    /// batch.arrive(0, &[0; 11])?.arrive(0, &[0; 10])?;
    /// assert_eq!(batch.len(), 2);
    /// # Ok::<(), Refusal>(())
    /// ```
    pub fn arrive(&mut self, port: u8, header: &[u8]) -> Result<&mut Batch, WrongLength> {
        let (bytes, size) = (header.len(), self.size);
        if ![size, EVERYWHERE].contains(&bytes) {
            return Err(WrongLength { bytes, size });
        }
        Ok(self.put(ARRIVE, port, header))
    }

    /// As [`Switch::stitch`]; of the record there is the entry id alone.
    ///
    /// ```
    /// use ventorupo::{Batch, Form};
    ///
    /// let mut batch = Batch::new(Form::TEN_BYTES).unwrap();
    /// batch.stitch(2);
    /// assert_eq!(batch.as_bytes(), [3, 0, 1, 2]);
    /// ```
    pub fn stitch(&mut self, port: u8) -> &mut Batch {
        self.put(STITCH, port, &[])
    }

    /// As [`Switch::prefetch`].
    ///
    /// ```
    /// use ventorupo::{Batch, Form};
    ///
    /// let mut batch = Batch::new(Form::TEN_BYTES).unwrap();
    /// batch.prefetch(2, 5);
    /// assert_eq!(batch.as_bytes(), [4, 0, 2, 2, 5]);
    /// ```
    pub fn prefetch(&mut self, port: u8, queue: u8) -> &mut Batch {
        self.put(PREFETCH, port, &[queue])
    }

    /// As [`Switch::turn`]; of what is sent there is the entry id alone.
    ///
    /// ```
    /// use ventorupo::{Batch, Form};
    ///
    /// let mut batch = Batch::new(Form::TEN_BYTES).unwrap();
    /// batch.turn(2);
    /// assert_eq!(batch.as_bytes(), [5, 0, 1, 2]);
    /// ```
    pub fn turn(&mut self, port: u8) -> &mut Batch {
        self.put(TURN, port, &[])
    }

    /// As [`Switch::credit`].
    ///
    /// ```
    /// use ventorupo::{Batch, Form};
    ///
    /// let mut batch = Batch::new(Form::TEN_BYTES).unwrap();
    /// batch.credit(2, 5, 258);
    /// assert_eq!(batch.as_bytes(), [6, 0, 4, 2, 5, 1, 2]);
    /// ```
    pub fn credit(&mut self, port: u8, queue: u8, amount: u16) -> &mut Batch {
        let [high, low] = amount.to_be_bytes();
        self.put(CREDIT, port, &[queue, high, low])
    }

    /// As [`Switch::map`].
    ///
    /// ```
    /// use ventorupo::{Batch, Form};
    ///
    /// let mut batch = Batch::new(Form::TEN_BYTES).unwrap();
    /// batch.map_to(9, 2);
    /// assert_eq!(batch.as_bytes(), [7, 0, 2, 9, 2]);
    /// ```
    pub fn map_to(&mut self, id: u8, port: u8) -> &mut Batch {
        self.put(MAP, id, &[port])
    }

    /// A field more, whose value is one byte and others.
    fn put(&mut self, tag: u8, one: u8, others: &[u8]) -> &mut Batch {
        // At most a port and a header.
        let length = 1 + others.len() as u8;
        self.fields.extend([tag, 0, length, one]);
        self.fields.extend(others);
        self.len += 1;
        self
    }

    /// How many calls it has. A run writes [`ANSWER_BYTES`] for each.
    ///
    /// ```
    /// use ventorupo::{Batch, Form};
    ///
    /// let mut batch = Batch::new(Form::TEN_BYTES).unwrap();
    /// assert!(batch.is_empty());
    /// batch.stitch(2).turn(2);
    /// assert_eq!((batch.len(), batch.is_empty()), (2, false));
    /// ```
    pub fn len(&self) -> usize {
        self.len
    }

    /// Whether it has none.
    ///
    /// ```
    /// use ventorupo::{Batch, Form};
    ///
    /// assert!(Batch::new(Form::TEN_BYTES).unwrap().is_empty());
    /// ```
    pub fn is_empty(&self) -> bool {
        self.len == 0
    }

    /// The fields of its calls, as [`Switch::run_fields`] takes them.
    ///
    /// ```
    /// use ventorupo::{Batch, Form};
    ///
    /// let mut batch = Batch::new(Form::TEN_BYTES).unwrap();
    /// batch.turn(3).credit(3, 5, 258);
    /// // Tag, length of the value, value.
    /// assert_eq!(batch.as_bytes(), [5, 0, 1, 3, 6, 0, 4, 3, 5, 1, 2]);
    /// ```
    pub fn as_bytes(&self) -> &[u8] {
        &self.fields
    }

    /// Forgets its calls, and keeps its memory for others.
    ///
    /// ```
    /// use ventorupo::{Batch, Form};
    ///
    /// let mut batch = Batch::new(Form::TEN_BYTES).unwrap();
    /// batch.turn(3).clear();
    /// assert!(batch.is_empty() && batch.as_bytes().is_empty());
    /// ```
    pub fn clear(&mut self) {
        self.fields.clear();
        self.len = 0;
    }
}

/// Why a batch was not done to its end, and what was done.
///
/// ```
/// use ventorupo::{Batch, Form, Refusal, Settings, Switch, Unfinished};
///
/// let settings = Settings::ten_bytes().nodes(1);
/// let mut switch = Switch::setup([0; 6668], settings)?;
/// let mut batch = Batch::new(Form::wide(8, 16))?;
/// batch.turn(0).turn(1).arrive(0, &[0; 11])?;
/// let why = switch.run(&batch).unwrap_err();
/// assert_eq!(
///     why.to_string(),
///     "stopped at a header of another form than the switch's; calls done before it: 2"
/// );
/// assert!(matches!(why, Unfinished::Stopped(done) if done.len() == 2));
/// # Ok::<(), Refusal>(())
/// ```
// Exhaustive: of the stops there are, a batch's room leaves these.
#[derive(Debug, Clone, PartialEq, Eq)]
pub enum Unfinished {
    /// The whole run is refused, 3, and nothing was done.
    Refused(Refusal),
    /// It stopped at an arrival whose header has more or fewer bytes than the
    /// switch's, since the batch is of another form. The calls before it are done, and
    /// these are their answers, so their number is where it stopped; neither that
    /// arrival nor what stands behind it is done.
    Stopped(Vec<Answer>),
}

impl fmt::Display for Unfinished {
    fn fmt(&self, f: &mut fmt::Formatter<'_>) -> fmt::Result {
        match self {
            Unfinished::Refused(refusal) => refusal.fmt(f),
            Unfinished::Stopped(done) => {
                let calls = done.len();
                write!(f, "stopped at a header of another form than the switch's; calls done before it: {calls}")
            }
        }
    }
}

impl<M: AsRef<[u8]> + AsMut<[u8]>> Switch<M> {
    /// A run: the calls of a batch, one after another, on memory that is tested once.
    /// Answers what each of them answers, in their order; a call that is refused does
    /// not end the run.
    ///
    /// A batch of another form than the switch's may hold a header that is no field
    /// here. Then the run stops before it, which is an error that has the answers
    /// up to there.
    ///
    /// ```
    /// use ventorupo::{Answer, Batch, Form, Refusal, Settings, Switch, Unfinished};
    ///
    /// let settings = Settings::ten_bytes().nodes(1);
    /// let mut switch = Switch::setup([0; 6668], settings)?;
    /// let mut batch = Batch::new(Form::wide(8, 16))?;
    /// batch.turn(3).arrive(0, &[0; 11])?.turn(2);
    /// let done = vec![Answer::Turned(Ok(None))];
    /// assert_eq!(switch.run(&batch), Err(Unfinished::Stopped(done)));
    ///
    /// let mut none = Switch::over([0; 6668]);
    /// let refused = Unfinished::Refused(Refusal::NoState);
    /// assert_eq!(none.run(&batch), Err(refused));
    /// # Ok::<(), Refusal>(())
    /// ```
    pub fn run(&mut self, batch: &Batch) -> Result<Vec<Answer>, Unfinished> {
        let fields = batch.as_bytes();
        let mut room = vec![0; ANSWER_BYTES * batch.len()];
        let ran = self.run_fields(fields, &mut room);
        let ran = ran.map_err(Unfinished::Refused)?;
        let mut answers = Vec::with_capacity(ran.count);
        answers.extend(ran.answers(fields, &room));
        let all = answers.len() == ran.count;
        assert!(all, "the library writes an answer for each field done");
        match ran.why {
            Stop::Ended => Ok(answers),
            Stop::BadField | Stop::NoRoom => Err(Unfinished::Stopped(answers)),
        }
    }
}
