//! A packet's header, read and written.

use core::fmt;
use core::ops::Deref;

use crate::{calls, done, Refusal, HEADER_BYTES, TEN_BYTES, WIDE};

/// What a header says, built from zeros by name. Any numbers may stand here; writing
/// refuses those that don't fit their fields. Reserved bits and checksum are the
/// writer's matter.
///
/// ```
/// use ventorupo::{Form, Header};
///
/// // From port 1 to destination 5, in queue 3, of 100 bytes.
/// let header = Header::new().destination(5).source(1).queue(3).length(100);
/// let bytes = Form::wide(8, 16).write(&header)?;
/// assert_eq!(bytes.len(), 11);
/// # Ok::<(), ventorupo::Refusal>(())
/// ```
// Exhaustive: the fields are those of the wire, the same in both editions, and no
// request adds one.
#[derive(Debug, Clone, Copy, PartialEq, Eq, Hash, Default)]
pub struct Header {
    /// The destination id, which the switch's map takes to a port. As wide as
    /// the port count less one needs.
    pub destination: u32,
    /// The port where the packet arrives; as wide.
    pub source: u32,
    /// As wide as the queue count less one needs, and below the queue count.
    pub queue: u32,
    /// Header, data and footer, in bytes: from the header's size plus 2 to 8,191.
    pub length: u32,
    /// 1 for a poisoned packet, else 0.
    pub poisoned: u32,
    /// On the clock of the timed turns.
    pub timestamp: u32,
    /// Credits on offer, which are not used yet: up to 255 in ten bytes, up to 65,535 in
    /// a wide header.
    pub credit: u32,
    /// The transaction id: up to 255.
    pub transaction: u32,
}

impl Header {
    /// All zeros, which is too short for any form: a length has to follow.
    ///
    /// ```
    /// use ventorupo::{Form, Header, Refusal};
    ///
    /// let header = Header::new();
    /// assert_eq!(header, Header::default());
    /// assert_eq!(Form::TEN_BYTES.write(&header), Err(Refusal::NoFit));
    /// assert!(Form::TEN_BYTES.write(&header.length(12)).is_ok());
    /// ```
    pub const fn new() -> Header {
        Header::from_numbers([0; 8])
    }

    /// To this destination id, which the switch's map takes to a port.
    ///
    /// ```
    /// assert_eq!(ventorupo::Header::new().destination(5).destination, 5);
    /// ```
    pub const fn destination(self, destination: u32) -> Header {
        Header {
            destination,
            ..self
        }
    }

    /// From this port, the one where the packet arrives.
    ///
    /// ```
    /// assert_eq!(ventorupo::Header::new().source(1).source, 1);
    /// ```
    pub const fn source(self, source: u32) -> Header {
        Header { source, ..self }
    }

    /// In this queue.
    ///
    /// ```
    /// assert_eq!(ventorupo::Header::new().queue(3).queue, 3);
    /// ```
    pub const fn queue(self, queue: u32) -> Header {
        Header { queue, ..self }
    }

    /// Of so many bytes: header, data and footer.
    ///
    /// ```
    /// assert_eq!(ventorupo::Header::new().length(100).length, 100);
    /// ```
    pub const fn length(self, length: u32) -> Header {
        Header { length, ..self }
    }

    /// Of a poisoned packet, or of none.
    ///
    /// ```
    /// assert_eq!(ventorupo::Header::new().poisoned(true).poisoned, 1);
    /// ```
    pub const fn poisoned(self, poisoned: bool) -> Header {
        let poisoned = poisoned as u32;
        Header { poisoned, ..self }
    }

    /// Made at this time, on the clock of the timed turns.
    ///
    /// ```
    /// assert_eq!(ventorupo::Header::new().timestamp(77).timestamp, 77);
    /// ```
    pub const fn timestamp(self, timestamp: u32) -> Header {
        Header { timestamp, ..self }
    }

    /// With so many credits on offer.
    ///
    /// ```
    /// assert_eq!(ventorupo::Header::new().credit(40).credit, 40);
    /// ```
    pub const fn credit(self, credit: u32) -> Header {
        Header { credit, ..self }
    }

    /// With this transaction id.
    ///
    /// ```
    /// assert_eq!(ventorupo::Header::new().transaction(9).transaction, 9);
    /// ```
    pub const fn transaction(self, transaction: u32) -> Header {
        Header {
            transaction,
            ..self
        }
    }

    /// As the C interface has them.
    ///
    /// ```
    /// let header = ventorupo::Header::new().source(1).length(100);
    /// assert_eq!(header.numbers(), [0, 1, 0, 100, 0, 0, 0, 0]);
    /// ```
    pub const fn numbers(&self) -> [u32; 8] {
        [
            self.destination,
            self.source,
            self.queue,
            self.length,
            self.poisoned,
            self.timestamp,
            self.credit,
            self.transaction,
        ]
    }

    /// Of the C interface's numbers.
    ///
    /// ```
    /// use ventorupo::Header;
    ///
    /// assert_eq!(Header::from_numbers([0, 1, 0, 100, 0, 0, 0, 0]), Header::new().source(1).length(100));
    /// ```
    pub const fn from_numbers(numbers: [u32; 8]) -> Header {
        let [destination, source, queue, length, poisoned, timestamp, credit, transaction] =
            numbers;
        Header {
            destination,
            source,
            queue,
            length,
            poisoned,
            timestamp,
            credit,
            transaction,
        }
    }
}

/// The form of a switch's headers: how wide their fields are follows from
/// edition, ports and queues.
///
/// ```
/// use ventorupo::{Form, Header, Refusal};
///
/// let form = Form::wide(8, 16);
/// let header = Header::new().destination(3).source(1).queue(5).length(100).credit(40_000);
/// let bytes = form.write(&header)?;
/// assert_eq!(bytes[..], [0x65, 0x40, 0xC8, 0, 0, 0, 0, 0x9C, 0x40, 0, 0x43]);
/// // Reader and writer undo each other.
/// assert_eq!(form.read(&bytes)?, header);
/// // Any bytes may be read, and any numbers written.
/// assert_eq!(form.read(&bytes[1..]), Err(Refusal::HeaderSize));
/// assert_eq!(form.write(&header.queue(16)), Err(Refusal::NoFit));
/// # Ok::<(), Refusal>(())
/// ```
// Exhaustive: a header's widths follow from these three in both editions.
#[derive(Debug, Clone, Copy, PartialEq, Eq, Hash)]
pub struct Form {
    /// [`TEN_BYTES`], which needs four ports and 24 queues, or [`WIDE`].
    pub edition: u32,
    /// 2 to 32.
    pub ports: u32,
    /// Queues per port: 2 to 64.
    pub queues: u32,
}

impl Form {
    /// Ten bytes, for four ports and 24 queues.
    ///
    /// ```
    /// assert_eq!(ventorupo::Form::TEN_BYTES.size(), Some(10));
    /// ```
    pub const TEN_BYTES: Form = Form {
        edition: TEN_BYTES,
        ports: 4,
        queues: 24,
    };

    /// The wide form for so many ports and queues.
    ///
    /// ```
    /// assert_eq!(ventorupo::Form::wide(8, 16).size(), Some(11));
    /// ```
    pub const fn wide(ports: u32, queues: u32) -> Form {
        Form {
            edition: WIDE,
            ports,
            queues,
        }
    }

    /// The bytes of a header; none if edition, ports or queues are not in their
    /// rows. The shortest packet has two more.
    ///
    /// ```
    /// use ventorupo::Form;
    ///
    /// assert_eq!(Form::TEN_BYTES.size(), Some(10));
    /// let wide = [(4, 24), (8, 16), (16, 32), (32, 64)];
    /// let sizes = wide.map(|(ports, queues)| Form::wide(ports, queues).size());
    /// assert_eq!(sizes, [11, 11, 12, 12].map(Some));
    /// assert_eq!(Form::wide(33, 64).size(), None);
    /// ```
    pub fn size(&self) -> Option<usize> {
        // A header that every form has.
        let longest = Header::new().length(8191);
        self.write(&longest).ok().map(|bytes| bytes.len())
    }

    /// What a header says. Refused 2, 6, 7, 20, 9, 19, in this order.
    ///
    /// ```
    /// use ventorupo::{Form, Header, Refusal};
    ///
    /// let mut bytes = [0, 0, 0x30, 0, 0, 0, 0, 0, 0, 0x72];
    /// assert_eq!(Form::TEN_BYTES.read(&bytes)?, Header::new().length(12));
    /// bytes[9] = 0;
    /// assert_eq!(Form::TEN_BYTES.read(&bytes), Err(Refusal::Checksum));
    /// # Ok::<(), Refusal>(())
    /// ```
    pub fn read(&self, bytes: &[u8]) -> Result<Header, Refusal> {
        let mut fields = [0; 8];
        let Form {
            edition,
            ports,
            queues,
        } = *self;
        done(calls::read_header(
            edition,
            ports,
            queues,
            bytes,
            &mut fields,
        ))?;
        Ok(Header::from_numbers(fields))
    }

    /// The header that says this, its checksum made. Refused 2, then 21.
    ///
    /// ```
    /// use ventorupo::{Form, Header};
    ///
    /// let bytes = Form::TEN_BYTES.write(&Header::new().length(12))?;
    /// assert_eq!(bytes[..], [0, 0, 0x30, 0, 0, 0, 0, 0, 0, 0x72]);
    /// # Ok::<(), ventorupo::Refusal>(())
    /// ```
    pub fn write(&self, header: &Header) -> Result<HeaderBytes, Refusal> {
        let (mut bytes, mut size) = ([0; HEADER_BYTES], 0);
        let Form {
            edition,
            ports,
            queues,
        } = *self;
        done(calls::write_header(
            edition,
            ports,
            queues,
            &header.numbers(),
            &mut bytes,
            &mut size,
        ))?;
        let size = size as usize;
        Ok(HeaderBytes { bytes, size })
    }
}

/// A header's bytes, up to [`HEADER_BYTES`] of them; they are a slice in all but name.
///
/// ```
/// use ventorupo::{Form, Header, HeaderBytes};
///
/// let bytes: HeaderBytes = Form::wide(8, 16).write(&Header::new().length(100))?;
/// assert_eq!((bytes.len(), bytes[2]), (11, 200));
/// let mut packet = bytes.to_vec();
/// packet.resize(100, 0);
/// # Ok::<(), ventorupo::Refusal>(())
/// ```
#[derive(Clone, Copy, PartialEq, Eq, Hash)]
pub struct HeaderBytes {
    /// Past the size: zeros.
    bytes: [u8; HEADER_BYTES],
    size: usize,
}

impl Deref for HeaderBytes {
    type Target = [u8];

    fn deref(&self) -> &[u8] {
        &self.bytes[..self.size]
    }
}

impl AsRef<[u8]> for HeaderBytes {
    fn as_ref(&self) -> &[u8] {
        self
    }
}

impl fmt::Debug for HeaderBytes {
    fn fmt(&self, f: &mut fmt::Formatter<'_>) -> fmt::Result {
        self[..].fmt(f)
    }
}
