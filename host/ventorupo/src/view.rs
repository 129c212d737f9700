//! What can be asked of a state without changing it.

#[cfg(feature = "alloc")]
use alloc::vec::Vec;

use crate::answers::two;
#[cfg(feature = "alloc")]
use crate::night;
use crate::{
    audit, calls, done, find, packets, EntryId, Finding, Form, Halt, Place, Ready, Refusal,
    Settings, BUCKETS,
};

/// Bytes that are only read and may hold a state: an image from a file, say, or the
/// memory of a switch that another part of the program drives. If they hold none, every
/// call but [`View::find`] and [`View::memory`] is refused 3.
///
/// ```
/// use ventorupo::{Refusal, Rule, Settings, Switch, View};
///
/// let settings = Settings::wide(8, 16).nodes(2);
/// let mut image = vec![0; settings.size()];
/// Switch::setup(&mut image[..], settings)?;
/// let view = View::over(&image);
/// assert_eq!(view.settings()?, settings);
/// assert_eq!(view.ready(7)?.count, 0);
/// // The last byte is missing: rule (a), item 8.
/// let cut = View::over(&image[..image.len() - 1]);
/// assert_eq!(cut.ready(7), Err(Refusal::NoState));
/// let found = cut.find().unwrap();
/// assert_eq!((found.rule, found.item), (Rule::A, 8));
/// # Ok::<(), Refusal>(())
/// ```
#[derive(Debug, Clone, Copy)]
pub struct View<'a> {
    memory: &'a [u8],
}

impl<'a> View<'a> {
    /// A view of any bytes.
    ///
    /// ```
    /// assert!(ventorupo::View::over(&[]).find().is_some());
    /// ```
    pub const fn over(memory: &'a [u8]) -> View<'a> {
        View { memory }
    }

    /// The bytes.
    ///
    /// ```
    /// assert_eq!(ventorupo::View::over(&[7; 3]).memory(), [7, 7, 7]);
    /// ```
    pub const fn memory(self) -> &'a [u8] {
        self.memory
    }

    /// What the state was set up with.
    ///
    /// ```
    /// use ventorupo::{Refusal, Settings, Switch, View};
    ///
    /// let settings = Settings::ten_bytes().nodes(2).with_packets();
    /// let switch = Switch::setup([0; 6720], settings)?;
    /// assert_eq!(switch.view().settings(), Ok(settings));
    /// assert_eq!(View::over(&[0; 6720]).settings(), Err(Refusal::NoState));
    /// # Ok::<(), Refusal>(())
    /// ```
    pub fn settings(self) -> Result<Settings, Refusal> {
        // Every state has a port 0, so this is refused where there is none, and alone there.
        self.ready(0)?;
        let setting = |number: usize| two(self.memory, 2 * number).into();
        let form = Form {
            edition: setting(6),
            ports: setting(0),
            queues: setting(1),
        };
        let settings = Settings::of(form).nodes(setting(2)).beat(setting(3));
        let settings = settings.slots(setting(4)).credit(setting(5));
        Ok(settings.packets(setting(7)))
    }

    /// The port's ready word and ready count.
    ///
    /// ```
    /// use ventorupo::{Settings, Switch};
    ///
    /// let switch = Switch::setup([0; 6720], Settings::ten_bytes().nodes(2))?;
    /// let ready = switch.view().ready(3)?;
    /// assert_eq!((ready.word, ready.count), (0, 0));
    /// # Ok::<(), ventorupo::Refusal>(())
    /// ```
    pub fn ready(self, port: u32) -> Result<Ready, Refusal> {
        let (mut word, mut count) = (0, 0);
        done(calls::ready(self.memory, port, &mut word, &mut count))?;
        Ok(Ready { word, count })
    }

    /// How many packets the port's timed turns sent, since setup or repair, whose
    /// wait counts in this bucket ([`bucket_of`](crate::bucket_of));
    /// [`BUCKET_STOP`](crate::BUCKET_STOP) stands for as many or more. Refused 5 above 32.
    ///
    /// ```
    /// use ventorupo::{Refusal, Settings, Switch};
    ///
    /// let switch = Switch::setup([0; 6720], Settings::ten_bytes().nodes(2))?;
    /// assert_eq!(switch.view().bucket(3, 32), Ok(0));
    /// assert_eq!(switch.view().bucket(3, 33), Err(Refusal::NoQueue));
    /// # Ok::<(), Refusal>(())
    /// ```
    pub fn bucket(self, port: u32, bucket: u32) -> Result<u32, Refusal> {
        let mut count = 0;
        done(calls::bucket(self.memory, port, bucket, &mut count))?;
        Ok(count)
    }

    /// All buckets of the port, bucket 0 first; each is read by a call of its own.
    ///
    /// ```
    /// use ventorupo::{Settings, Switch};
    ///
    /// let switch = Switch::setup([0; 6720], Settings::ten_bytes().nodes(2))?;
    /// assert_eq!(switch.view().buckets(3), Ok([0; 33]));
    /// # Ok::<(), ventorupo::Refusal>(())
    /// ```
    pub fn buckets(self, port: u32) -> Result<[u32; BUCKETS], Refusal> {
        let mut counts = [0; BUCKETS];
        for (bucket, count) in (0..).zip(&mut counts) {
            *count = self.bucket(port, bucket)?;
        }
        Ok(counts)
    }

    /// Why the port is halted; none if it isn't.
    ///
    /// ```
    /// use ventorupo::{Halt, Refusal, Settings, Switch};
    ///
    /// let mut switch = Switch::setup([0; 6720], Settings::ten_bytes().nodes(2))?;
    /// assert_eq!(switch.view().report(2), Ok(None));
    /// assert_eq!(switch.arrive(2, &[1; 10]), Err(Refusal::Checksum));
    /// assert_eq!(switch.view().report(2), Ok(Some(Halt::Checksum)));
    /// # Ok::<(), Refusal>(())
    /// ```
    pub fn report(self, port: u32) -> Result<Option<Halt>, Refusal> {
        let mut mark = 0;
        done(calls::report(self.memory, port, &mut mark))?;
        match mark {
            0 => Ok(None),
            _ => Ok(Some(
                Halt::from_number(mark).expect("a state's marks are 0, 7, 8 or 18"),
            )),
        }
    }

    /// Where a node stands.
    ///
    /// ```
    /// use ventorupo::{EntryId, ListKind, Settings, Switch};
    ///
    /// let switch = Switch::setup([0; 6720], Settings::ten_bytes().nodes(2))?;
    /// let place = switch.view().place_of(EntryId(3 * 2048 + 1))?;
    /// assert_eq!((place.list, place.position), (ListKind::Free { port: 3 }, 1));
    /// # Ok::<(), ventorupo::Refusal>(())
    /// ```
    pub fn place_of(self, entry: EntryId) -> Result<Place, Refusal> {
        let mut place = [0; 8];
        done(calls::place_of(self.memory, entry.0.into(), &mut place))?;
        Ok(Place::from_bytes(&place).expect("the library writes list kinds 0 to 3"))
    }

    /// What is wrong with the bytes; none if they are a switch state. See [`find`].
    ///
    /// ```
    /// let finding = ventorupo::View::over(&[0; 6720]).find().unwrap();
    /// assert_eq!(finding.to_string(), "rule (a), item 0");
    /// ```
    pub fn find(self) -> Option<Finding> {
        find(self.memory)
    }

    /// Every node's place, port by port and index by index.
    ///
    /// ```
    /// use ventorupo::{EntryId, Settings, Switch};
    ///
    /// let switch = Switch::setup([0; 6720], Settings::ten_bytes().nodes(2))?;
    /// let places = switch.view().audit()?;
    /// assert_eq!((places.len(), places[7].entry), (8, EntryId(3 * 2048 + 1)));
    /// # Ok::<(), ventorupo::Refusal>(())
    /// ```
    #[cfg(feature = "alloc")]
    pub fn audit(self) -> Result<Vec<Place>, Refusal> {
        night::places(self.memory)
    }

    /// Every node's place, written into lent room: see [`audit`].
    ///
    /// ```
    /// use ventorupo::{Place, Settings, Switch, PLACE_BYTES};
    ///
    /// let switch = Switch::setup([0; 6720], Settings::ten_bytes().nodes(2))?;
    /// let mut room = [0; 4 * 2 * PLACE_BYTES];
    /// switch.view().audit_into(&mut room)?;
    /// let last = room[56..].try_into().unwrap();
    /// assert_eq!(Place::from_bytes(last).unwrap().position, 1);
    /// # Ok::<(), ventorupo::Refusal>(())
    /// ```
    pub fn audit_into(self, room: &mut [u8]) -> Result<(), Refusal> {
        audit(self.memory, room)
    }

    /// The oldest packet in the prefetch slots of a port's queue: see
    /// [`Switch::show`](crate::Switch::show).
    ///
    /// ```
    /// use ventorupo::{Refusal, Settings, Switch};
    ///
    /// let settings = Settings::ten_bytes().nodes(1).with_packets();
    /// let switch = Switch::setup([0; 6668], settings)?;
    /// let packets = vec![0; settings.packet_memory()];
    /// let shown = switch.view().show([&packets; 4], 3, 0);
    /// assert_eq!(shown, Err(Refusal::NothingThere));
    /// # Ok::<(), Refusal>(())
    /// ```
    pub fn show(self, packets: [&[u8]; 4], port: u32, queue: u32) -> Result<&[u8], Refusal> {
        packets::show(self.memory, packets, port, queue)
    }
}
