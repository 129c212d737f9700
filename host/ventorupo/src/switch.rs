//! A switch: the calls that change a state, and by its view those that ask it.

#[cfg(feature = "alloc")]
use alloc::vec::Vec;

use crate::{
    answers, calls, done, repair, EntryId, Finding, Halt, Place, Ready, Record, Refusal, Settings,
    SetupError, Turn, Turns, View, BUCKETS, MOST_PORTS, TURN_BYTES,
};

/// A switch over memory that it owns (`Vec<u8>`, `Box<[u8]>`, `[u8; N]`) or
/// borrows (`&mut [u8]`).
///
/// ```
/// use ventorupo::{Settings, Switch};
///
/// let settings = Settings::ten_bytes().nodes(2);
/// let mut memory = [0; 6720];
/// Switch::setup(&mut memory[..], settings)?;
/// // The state stays in the bytes.
/// let mut switch = Switch::over(memory);
/// switch.credit(3, 23, 65_535)?;
/// assert_eq!(switch.ready(3)?.count, 0);
/// # Ok::<(), ventorupo::Refusal>(())
/// ```
#[derive(Debug, Clone)]
pub struct Switch<M> {
    pub(crate) memory: M,
}

impl<M: AsRef<[u8]> + AsMut<[u8]>> Switch<M> {
    /// Writes the starting ledger: all nodes free, arrival credit as the settings have
    /// it, outward credit 0, every destination id mapped to port 0, no port halted,
    /// nothing counted. A refusal (1 or 2) hands the memory back.
    ///
    /// ```
    /// use std::error::Error;
    /// use ventorupo::{Refusal, Settings, Switch};
    ///
    /// fn main() -> Result<(), Box<dyn Error>> {
    ///     let settings = Settings::wide(8, 16);
    ///     let switch = Switch::setup(vec![0; settings.size()], settings)?;
    ///     assert_eq!(switch.settings()?, settings);
    ///
    ///     let refused = Switch::setup(vec![7; 10], settings).unwrap_err();
    ///     assert_eq!(refused.refusal, Refusal::ShortMemory);
    ///     assert_eq!(refused.memory, [7; 10]);
    ///     Ok(())
    /// }
    /// ```
    pub fn setup(memory: M, settings: Settings) -> Result<Switch<M>, SetupError<M>> {
        let mut switch = Switch { memory };
        match switch.setup_again(settings) {
            Ok(()) => Ok(switch),
            Err(refusal) => Err(SetupError {
                refusal,
                memory: switch.memory,
            }),
        }
    }

    /// Memory that may hold a state. If it holds none, every call but a setup and,
    /// where rule (a) is kept, a repair is refused 3; [`Switch::find`] tells why.
    ///
    /// ```
    /// use ventorupo::{Refusal, Settings, Switch};
    ///
    /// let mut switch = Switch::over([0; 6720]);
    /// assert_eq!(switch.turn(0), Err(Refusal::NoState));
    /// assert!(switch.find().is_some());
    /// switch.setup_again(Settings::ten_bytes().nodes(2))?;
    /// assert!(switch.turn(0).is_ok());
    /// # Ok::<(), Refusal>(())
    /// ```
    pub fn over(memory: M) -> Switch<M> {
        Switch { memory }
    }

    /// Write the starting ledger over what is there. A refusal leaves it.
    ///
    /// ```
    /// use ventorupo::{Refusal, Settings, Switch};
    ///
    /// let settings = Settings::ten_bytes().nodes(2);
    /// let mut switch = Switch::setup([0; 6720], settings)?;
    /// switch.setup_again(settings.nodes(1))?;
    /// assert_eq!(switch.settings()?.nodes, 1);
    /// assert_eq!(switch.setup_again(settings.nodes(3)), Err(Refusal::ShortMemory));
    /// assert_eq!(switch.settings()?.nodes, 1);
    /// # Ok::<(), Refusal>(())
    /// ```
    pub fn setup_again(&mut self, settings: Settings) -> Result<(), Refusal> {
        done(calls::setup(self.memory.as_mut(), &settings.numbers()))
    }

    /// A packet's header, of the switch's form, arrives at a port: takes a free
    /// node for it. Refused 7 or 8, it halts the port, and that mark is all that
    /// changes; see [`Halt`]. Refused 24 on a switch that keeps packets, which takes
    /// them whole: [`Switch::arrive_packet`].
    ///
    /// ```
    /// use ventorupo::{Header, Refusal, Settings, Switch};
    ///
    /// let settings = Settings::ten_bytes().nodes(1);
    /// let mut switch = Switch::setup([0; 6668], settings)?;
    /// let header = Header::new().destination(2).source(3).queue(5).length(100);
    /// let bytes = settings.form().write(&header)?;
    /// let entry = switch.arrive(3, &bytes)?;
    /// assert_eq!((entry.port(), entry.index()), (3, 0));
    /// assert_eq!(switch.arrive(3, &bytes), Err(Refusal::NoFreeNode));
    /// # Ok::<(), Refusal>(())
    /// ```
    pub fn arrive(&mut self, port: u32, header: &[u8]) -> Result<EntryId, Refusal> {
        let mut entry = 0;
        let memory = self.memory.as_mut();
        done(calls::arrive(memory, port, header, &mut entry))?;
        Ok(EntryId(entry))
    }

    /// The port's oldest ingress node goes to the mapped port's egress list.
    ///
    /// ```
    /// use ventorupo::{Header, Refusal, Settings, Switch};
    ///
    /// let settings = Settings::ten_bytes().nodes(1);
    /// let mut switch = Switch::setup([0; 6668], settings)?;
    /// switch.map(2, 1)?;
    /// let header = Header::new().destination(2).source(3).queue(5).length(100);
    /// let entry = switch.arrive(3, &settings.form().write(&header)?)?;
    /// let record = switch.stitch(3)?;
    /// assert_eq!((record.entry, record.port, record.queue), (entry, 1, 5));
    /// assert_eq!(switch.stitch(3), Err(Refusal::NothingThere));
    /// # Ok::<(), Refusal>(())
    /// ```
    pub fn stitch(&mut self, port: u32) -> Result<Record, Refusal> {
        let mut record = [0; 10];
        done(calls::stitch(self.memory.as_mut(), port, &mut record))?;
        Ok(Record::from_bytes(&record))
    }

    /// The oldest egress node goes to the end of the prefetch list.
    ///
    /// ```
    /// use ventorupo::{Header, Refusal, Settings, Switch};
    ///
    /// let settings = Settings::ten_bytes().nodes(1);
    /// let mut switch = Switch::setup([0; 6668], settings)?;
    /// let entry = switch.arrive(0, &settings.form().write(&Header::new().length(12))?)?;
    /// switch.stitch(0)?;
    /// assert_eq!(switch.prefetch(0, 0)?, entry);
    /// assert_eq!(switch.prefetch(0, 0), Err(Refusal::NothingThere));
    /// # Ok::<(), Refusal>(())
    /// ```
    pub fn prefetch(&mut self, port: u32, queue: u32) -> Result<EntryId, Refusal> {
        let mut entry = 0;
        let memory = self.memory.as_mut();
        done(calls::prefetch(memory, port, queue, &mut entry))?;
        Ok(EntryId(entry))
    }

    /// Adds beats to the outward credit of a port's queue, which is 0 after setup and
    /// from which the prices of what leaves are taken. Queue 0 is free and has none.
    ///
    /// ```
    /// use ventorupo::{Refusal, Settings, Switch};
    ///
    /// let mut switch = Switch::setup([0; 6668], Settings::ten_bytes().nodes(1))?;
    /// switch.credit(3, 5, 65_535)?;
    /// assert_eq!(switch.credit(3, 5, 1), Err(Refusal::TooMuchCredit));
    /// # Ok::<(), Refusal>(())
    /// ```
    pub fn credit(&mut self, port: u32, queue: u32, amount: u32) -> Result<(), Refusal> {
        done(calls::credit(self.memory.as_mut(), port, queue, amount))
    }

    /// Maps a destination id, 0 to 4,095, to a port; one that was never mapped goes to
    /// port 0. A header's destination is as wide as the port count less one needs, so
    /// with eight ports ids 0 to 7 are met, and the others never asked for. The map is
    /// read when a packet is stitched.
    ///
    /// ```
    /// use ventorupo::{Refusal, Settings, Switch};
    ///
    /// let mut switch = Switch::setup([0; 6668], Settings::ten_bytes().nodes(1))?;
    /// switch.map(4095, 3)?;
    /// assert_eq!(switch.map(4096, 3), Err(Refusal::NoSuchId));
    /// # Ok::<(), Refusal>(())
    /// ```
    pub fn map(&mut self, id: u32, port: u32) -> Result<(), Refusal> {
        done(calls::map(self.memory.as_mut(), id, port))
    }

    /// One packet leaves the port, if a queue is ready: if a packet is in its slots and,
    /// above queue 0, its outward credit is at least the price of the oldest. The turn
    /// goes to the lowest ready queue above the one served last or, if there is none, to
    /// the lowest of all; queue 0 takes its turn like any other. Price and node go back
    /// to the port where the packet came in.
    ///
    /// ```
    /// use ventorupo::{Header, Settings, Switch, Turn};
    ///
    /// let settings = Settings::ten_bytes().nodes(1);
    /// let mut switch = Switch::setup([0; 6668], settings)?;
    /// let entry = switch.arrive(0, &settings.form().write(&Header::new().length(12))?)?;
    /// switch.stitch(0)?;
    /// switch.prefetch(0, 0)?;
    /// assert!(matches!(switch.turn(0)?, Turn::Sent(sent) if sent.entry == entry));
    /// assert_eq!(switch.turn(0)?, Turn::Idle);
    /// # Ok::<(), ventorupo::Refusal>(())
    /// ```
    pub fn turn(&mut self, port: u32) -> Result<Turn, Refusal> {
        let mut sent = [0; 16];
        done(calls::turn(self.memory.as_mut(), port, &mut sent))?;
        Ok(Turn::from_bytes(&sent).expect("the library writes kind 0, 1 or 2"))
    }

    /// A turn that is given the time, on the clock of the headers' timestamps: if
    /// a packet leaves, its wait, the time less its timestamp on 32 bits, is counted
    /// in the buckets of this port. All else is as of [`Switch::turn`].
    ///
    /// ```
    /// use ventorupo::{bucket_of, Header, Refusal, Settings, Switch, Turn};
    ///
    /// let settings = Settings::ten_bytes().nodes(1);
    /// let mut switch = Switch::setup([0; 6668], settings)?;
    /// let header = Header::new().length(100).timestamp(4_294_967_290);
    /// switch.arrive(0, &settings.form().write(&header)?)?;
    /// switch.stitch(0)?;
    /// switch.prefetch(0, 0)?;
    /// // Eleven ticks later the clock has passed its end.
    /// assert!(matches!(switch.timed_turn(0, 5)?, Turn::Sent(_)));
    /// assert_eq!(bucket_of(11), 4);
    /// assert_eq!(switch.bucket(0, 4)?, 1);
    /// assert_eq!(switch.buckets(0)?.iter().sum::<u32>(), 1);
    /// // An idle turn counts nothing.
    /// assert_eq!(switch.timed_turn(0, 6)?, Turn::Idle);
    /// assert_eq!(switch.buckets(0)?.iter().sum::<u32>(), 1);
    /// # Ok::<(), Refusal>(())
    /// ```
    pub fn timed_turn(&mut self, port: u32, now: u32) -> Result<Turn, Refusal> {
        let mut sent = [0; 16];
        let memory = self.memory.as_mut();
        done(calls::timed_turn(memory, port, now, &mut sent))?;
        Ok(Turn::from_bytes(&sent).expect("the library writes kind 0, 1 or 2"))
    }

    /// A round: one stitch at each port, then one prefetch for each port and
    /// queue, then one turn at each port. Refusals inside are passed over.
    /// Answers each port's turn.
    ///
    /// ```
    /// use ventorupo::{Header, Refusal, RoundTurn, Settings, Switch};
    ///
    /// let settings = Settings::ten_bytes().nodes(1);
    /// let mut switch = Switch::setup([0; 6668], settings)?;
    /// // To destination 0, which is mapped to port 0, from port 0, in queue 0.
    /// let entry = switch.arrive(0, &settings.form().write(&Header::new().length(12))?)?;
    /// let turns = switch.round()?;
    /// assert_eq!(turns.len(), 4);
    /// assert_eq!(turns[0], RoundTurn::Sent(entry));
    /// assert_eq!(turns[1..], [RoundTurn::Idle; 3]);
    /// assert_eq!(switch.round()?[..], [RoundTurn::Idle; 4]);
    /// # Ok::<(), Refusal>(())
    /// ```
    pub fn round(&mut self) -> Result<Turns, Refusal> {
        let mut room = [0; TURN_BYTES * MOST_PORTS];
        self.round_into(&mut room)?;
        // It was done, so the memory is a state, and its first setting in its row.
        let ports = answers::two(self.memory(), 0).into();
        let turns = Turns::from_room(&room, ports);
        Ok(turns.expect("the library writes a refusal, idle or an entry id for each port"))
    }

    /// A round that writes its turns into lent room, four bytes a port and so
    /// at most 128: refusal number, 1 if idle, entry id (2, big-endian) or 0.
    /// Four zero bytes are node 0 that left. Refused 27 if there is less room;
    /// what is past them stays.
    ///
    /// ```
    /// use ventorupo::{Refusal, Settings, Switch};
    ///
    /// let mut switch = Switch::setup([0; 6668], Settings::ten_bytes().nodes(1))?;
    /// let mut room = [9; 17];
    /// switch.round_into(&mut room)?;
    /// assert_eq!(room, [0, 1, 0, 0, 0, 1, 0, 0, 0, 1, 0, 0, 0, 1, 0, 0, 9]);
    /// assert_eq!(switch.round_into(&mut room[..15]), Err(Refusal::ShortRoom));
    /// # Ok::<(), Refusal>(())
    /// ```
    pub fn round_into(&mut self, room: &mut [u8]) -> Result<(), Refusal> {
        done(calls::round(self.memory.as_mut(), room))
    }

    /// Lifts the port's mark, so that it takes in queues above 0 again; of a port
    /// that isn't halted it is done too.
    ///
    /// ```
    /// use ventorupo::{Refusal, Settings, Switch};
    ///
    /// let mut switch = Switch::setup([0; 6668], Settings::ten_bytes().nodes(1))?;
    /// assert_eq!(switch.arrive(2, &[1; 10]), Err(Refusal::Checksum));
    /// assert!(switch.report(2)?.is_some());
    /// switch.clear(2)?;
    /// assert_eq!(switch.report(2)?, None);
    /// # Ok::<(), Refusal>(())
    /// ```
    pub fn clear(&mut self, port: u32) -> Result<(), Refusal> {
        done(calls::clear(self.memory.as_mut(), port))
    }

    /// The starting ledger for the settings in the memory, with the map kept:
    /// see [`repair`](crate::repair()).
    ///
    /// ```
    /// use ventorupo::{Settings, Switch};
    ///
    /// let mut image = Switch::setup([0; 6668], Settings::ten_bytes().nodes(1))?.into_memory();
    /// image[4112] = 200; // The queue that port 0 served last.
    /// let mut switch = Switch::over(image);
    /// assert!(switch.find().is_some());
    /// switch.repair()?;
    /// assert_eq!(switch.find(), None);
    /// # Ok::<(), ventorupo::Refusal>(())
    /// ```
    pub fn repair(&mut self) -> Result<(), Refusal> {
        repair(self.memory.as_mut())
    }

    /// The memory back, with the state in it.
    ///
    /// ```
    /// use ventorupo::{Settings, Switch};
    ///
    /// let memory = Switch::setup([0; 6668], Settings::ten_bytes().nodes(1))?.into_memory();
    /// assert!(Switch::over(memory).turn(0).is_ok());
    /// # Ok::<(), ventorupo::Refusal>(())
    /// ```
    pub fn into_memory(self) -> M {
        self.memory
    }
}

/// What is asked of a state: the view's calls.
impl<M: AsRef<[u8]>> Switch<M> {
    /// The same state, only to be read.
    ///
    /// ```
    /// use ventorupo::{Settings, Switch};
    ///
    /// let switch = Switch::setup([0; 6668], Settings::ten_bytes().nodes(1))?;
    /// assert_eq!(switch.view().ready(0), switch.ready(0));
    /// # Ok::<(), ventorupo::Refusal>(())
    /// ```
    pub fn view(&self) -> View<'_> {
        View::over(self.memory.as_ref())
    }

    /// The bytes that the state lives in.
    ///
    /// ```
    /// use ventorupo::{Settings, Switch};
    ///
    /// let switch = Switch::setup([0; 6668], Settings::ten_bytes().nodes(1))?;
    /// // A state begins with the number of its ports.
    /// assert_eq!(switch.memory()[..2], [0, 4]);
    /// # Ok::<(), ventorupo::Refusal>(())
    /// ```
    pub fn memory(&self) -> &[u8] {
        self.memory.as_ref()
    }

    /// What the state was set up with: see [`View::settings`].
    ///
    /// ```
    /// use ventorupo::{Settings, Switch};
    ///
    /// let switch = Switch::setup([0; 6668], Settings::ten_bytes().nodes(1))?;
    /// assert_eq!(switch.settings()?.nodes, 1);
    /// # Ok::<(), ventorupo::Refusal>(())
    /// ```
    pub fn settings(&self) -> Result<Settings, Refusal> {
        self.view().settings()
    }

    /// The port's ready word and ready count: see [`View::ready`].
    ///
    /// ```
    /// use ventorupo::{Header, Settings, Switch};
    ///
    /// let settings = Settings::ten_bytes().nodes(1);
    /// let mut switch = Switch::setup([0; 6668], settings)?;
    /// switch.arrive(0, &settings.form().write(&Header::new().length(12))?)?;
    /// switch.stitch(0)?;
    /// switch.prefetch(0, 0)?;
    /// let ready = switch.ready(0)?;
    /// assert_eq!((ready.word, ready.count), (1, 1));
    /// # Ok::<(), ventorupo::Refusal>(())
    /// ```
    pub fn ready(&self, port: u32) -> Result<Ready, Refusal> {
        self.view().ready(port)
    }

    /// How many waits a bucket of the port has counted: see [`View::bucket`].
    ///
    /// ```
    /// use ventorupo::{Settings, Switch};
    ///
    /// let switch = Switch::setup([0; 6668], Settings::ten_bytes().nodes(1))?;
    /// assert_eq!(switch.bucket(3, 32)?, 0);
    /// # Ok::<(), ventorupo::Refusal>(())
    /// ```
    pub fn bucket(&self, port: u32, bucket: u32) -> Result<u32, Refusal> {
        self.view().bucket(port, bucket)
    }

    /// All buckets of the port: see [`View::buckets`].
    ///
    /// ```
    /// use ventorupo::{waits_of, Settings, Switch};
    ///
    /// let switch = Switch::setup([0; 6668], Settings::ten_bytes().nodes(1))?;
    /// for (bucket, count) in (0..).zip(switch.buckets(3)?) {
    ///     println!("waits of {:?}: {count}", waits_of(bucket).unwrap());
    /// }
    /// # Ok::<(), ventorupo::Refusal>(())
    /// ```
    pub fn buckets(&self, port: u32) -> Result<[u32; BUCKETS], Refusal> {
        self.view().buckets(port)
    }

    /// Why the port is halted; none if it isn't.
    ///
    /// ```
    /// use ventorupo::{Halt, Header, Refusal, Settings, Switch};
    ///
    /// let settings = Settings::ten_bytes().nodes(2);
    /// let mut switch = Switch::setup([0; 6720], settings)?;
    /// let header = Header::new().source(1).length(100);
    /// let queue_0 = settings.form().write(&header)?;
    /// let above = settings.form().write(&header.queue(5))?;
    /// // A header that says it comes from port 1 arrives at port 2.
    /// assert_eq!(switch.arrive(2, &above), Err(Refusal::Source));
    /// assert_eq!(switch.report(2)?, Some(Halt::Source));
    /// assert_eq!(switch.report(1)?, None);
    /// // At port 1 a bit goes wrong on the line.
    /// let mut wrong = above.to_vec();
    /// wrong[0] ^= 1;
    /// assert_eq!(switch.arrive(1, &wrong), Err(Refusal::Checksum));
    /// assert_eq!(switch.report(1)?, Some(Halt::Checksum));
    /// // Queue 5 has to wait, and queue 0 goes on.
    /// assert_eq!(switch.arrive(1, &above), Err(Refusal::NoCredit));
    /// assert!(switch.arrive(1, &queue_0).is_ok());
    /// switch.clear(1)?;
    /// assert!(switch.arrive(1, &above).is_ok());
    /// # Ok::<(), Refusal>(())
    /// ```
    pub fn report(&self, port: u32) -> Result<Option<Halt>, Refusal> {
        self.view().report(port)
    }

    /// Where a node stands: see [`View::place_of`].
    ///
    /// ```
    /// use ventorupo::{Header, ListKind, Settings, Switch};
    ///
    /// let settings = Settings::ten_bytes().nodes(1);
    /// let mut switch = Switch::setup([0; 6668], settings)?;
    /// let entry = switch.arrive(0, &settings.form().write(&Header::new().length(12))?)?;
    /// assert_eq!(switch.place_of(entry)?.list, ListKind::Ingress { port: 0 });
    /// # Ok::<(), ventorupo::Refusal>(())
    /// ```
    pub fn place_of(&self, entry: EntryId) -> Result<Place, Refusal> {
        self.view().place_of(entry)
    }

    /// What is wrong with the memory; none if it is a switch state. See
    /// [`find`](crate::find()).
    ///
    /// ```
    /// assert!(ventorupo::Switch::over([0; 100]).find().is_some());
    /// ```
    pub fn find(&self) -> Option<Finding> {
        self.view().find()
    }

    /// Every node's place, port by port and index by index;
    /// [`audit`](crate::audit()) writes it into lent room.
    ///
    /// ```
    /// use ventorupo::{EntryId, Header, ListKind, Settings, Switch};
    ///
    /// let settings = Settings::ten_bytes().nodes(2);
    /// let mut switch = Switch::setup([0; 6720], settings)?;
    /// switch.arrive(0, &settings.form().write(&Header::new().length(12))?)?;
    /// let places = switch.audit()?;
    /// assert_eq!(places.len(), 8);
    /// assert_eq!(places[0].list, ListKind::Ingress { port: 0 });
    /// assert_eq!(places[1].list, ListKind::Free { port: 0 });
    /// assert_eq!(places[7].entry, EntryId(3 * 2048 + 1));
    /// # Ok::<(), ventorupo::Refusal>(())
    /// ```
    #[cfg(feature = "alloc")]
    pub fn audit(&self) -> Result<Vec<Place>, Refusal> {
        self.view().audit()
    }
}
