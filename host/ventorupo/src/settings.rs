//! The settings that a switch is set up with.

use crate::{calls, Form};

/// The edition of ten-byte headers: four ports, 24 queues.
///
/// ```
/// use ventorupo::{Settings, TEN_BYTES};
///
/// assert_eq!(Settings::ten_bytes().edition, TEN_BYTES);
/// ```
pub const TEN_BYTES: u32 = 0;

/// The edition of wide headers: 2 to 32 ports, 2 to 64 queues.
///
/// ```
/// use ventorupo::{Settings, WIDE};
///
/// assert_eq!(Settings::wide(8, 16).edition, WIDE);
/// ```
pub const WIDE: u32 = 1;

/// The most ports that a switch has.
///
/// ```
/// use ventorupo::{Settings, MOST_PORTS};
///
/// assert!(Settings::wide(MOST_PORTS as u32, 64).size() > 0);
/// assert_eq!(Settings::wide(MOST_PORTS as u32 + 1, 64).size(), 0);
/// ```
pub const MOST_PORTS: usize = 32;

/// The most nodes that a port has.
pub(crate) const MOST_NODES: usize = 2048;

/// The bytes of a packet memory for each node: one more than the longest packet has.
///
/// ```
/// use ventorupo::{Form, Header, SLOT_BYTES};
///
/// let longest = Header::new().length(SLOT_BYTES as u32 - 1);
/// assert!(Form::TEN_BYTES.write(&longest).is_ok());
/// ```
pub const SLOT_BYTES: usize = 8192;

/// The bytes of the settings, with which a state begins.
pub(crate) const SETTINGS_BYTES: usize = 16;

/// The settings, fixed at setup: of wide headers or of ten bytes, and then what
/// differs from the defaults, by name. Any numbers may stand here; setup refuses
/// those that are not in their rows.
///
/// ```
/// use ventorupo::{Settings, TEN_BYTES, WIDE};
///
/// // Eight ports with 16 queues each.
/// let new = Settings::wide(8, 16).nodes(1024).beat(128).slots(4).credit(9000);
/// assert_eq!((new.edition, new.ports, new.queues), (WIDE, 8, 16));
/// assert_eq!((new.nodes, new.beat, new.slots, new.credit), (1024, 128, 4, 9000));
/// let old = Settings::ten_bytes();
/// assert_eq!((old.edition, old.ports, old.queues), (TEN_BYTES, 4, 24));
/// // The defaults.
/// assert_eq!((old.nodes, old.beat, old.slots, old.credit, old.packets), (256, 64, 8, 5000, 0));
/// ```
// Requests have added settings before, and larger switches may again.
#[derive(Debug, Clone, Copy, PartialEq, Eq, Hash)]
#[non_exhaustive]
pub struct Settings {
    /// N, nodes per port: 1 to 2,048.
    pub nodes: u32,
    /// Beat in bytes: 64, 128, 256 or 512.
    pub beat: u32,
    /// D, prefetch slots per queue: 1 to 8.
    pub slots: u32,
    /// K, arrival credit per port and queue above 0, in beats: 0 to 65,535.
    pub credit: u32,
    /// 4 in the edition of ten bytes, else 2 to 32.
    pub ports: u32,
    /// Queues per port: 24 in the edition of ten bytes, else 2 to 64.
    pub queues: u32,
    /// The header's edition: [`TEN_BYTES`] or [`WIDE`].
    pub edition: u32,
    /// 1 if the switch keeps packets, else 0; in the edition of wide headers 0.
    pub packets: u32,
}

impl Settings {
    /// Of this form, with the defaults: 256 nodes a port, a beat of 64 bytes, eight
    /// slots, an arrival credit of 5,000 beats for each port and queue above 0, and no
    /// packets kept.
    ///
    /// ```
    /// use ventorupo::{Form, Settings};
    ///
    /// assert_eq!(Settings::of(Form::wide(8, 16)), Settings::wide(8, 16));
    /// assert_eq!(Settings::of(Form::TEN_BYTES), Settings::ten_bytes());
    /// ```
    pub const fn of(form: Form) -> Settings {
        Settings {
            nodes: 256,
            beat: 64,
            slots: 8,
            credit: 5000,
            ports: form.ports,
            queues: form.queues,
            edition: form.edition,
            packets: 0,
        }
    }

    /// A switch of four ports and 24 queues, whose headers have ten bytes; the rest as
    /// [`Settings::of`] has it.
    ///
    /// ```
    /// use ventorupo::{Form, Settings};
    ///
    /// assert_eq!(Settings::ten_bytes().nodes(1).form(), Form::TEN_BYTES);
    /// ```
    pub const fn ten_bytes() -> Settings {
        Settings::of(Form::TEN_BYTES)
    }

    /// A switch of so many ports, 2 to 32, with so many queues each, 2 to 64, whose
    /// headers are wide; the rest as [`Settings::of`] has it.
    ///
    /// ```
    /// use ventorupo::{Form, Settings};
    ///
    /// assert_eq!(Settings::wide(8, 16).nodes(1).form(), Form::wide(8, 16));
    /// ```
    pub const fn wide(ports: u32, queues: u32) -> Settings {
        Settings::of(Form::wide(ports, queues))
    }

    /// With so many nodes a port: 1 to 2,048. A port takes in no more packets than it
    /// has free nodes.
    ///
    /// ```
    /// assert_eq!(ventorupo::Settings::ten_bytes().nodes(7).nodes, 7);
    /// ```
    pub const fn nodes(self, nodes: u32) -> Settings {
        Settings { nodes, ..self }
    }

    /// With a beat of so many bytes: 64, 128, 256 or 512. A packet's price is its
    /// length in beats, rounded up; in queue 0 it is 0.
    ///
    /// ```
    /// assert_eq!(ventorupo::Settings::ten_bytes().beat(512).beat, 512);
    /// ```
    pub const fn beat(self, beat: u32) -> Settings {
        Settings { beat, ..self }
    }

    /// With so many prefetch slots for each queue: 1 to 8.
    ///
    /// ```
    /// assert_eq!(ventorupo::Settings::ten_bytes().slots(2).slots, 2);
    /// ```
    pub const fn slots(self, slots: u32) -> Settings {
        Settings { slots, ..self }
    }

    /// With this arrival credit for each port and queue, in beats: 0 to 65,535. Queue
    /// 0 is free.
    ///
    /// ```
    /// assert_eq!(ventorupo::Settings::ten_bytes().credit(16).credit, 16);
    /// ```
    pub const fn credit(self, credit: u32) -> Settings {
        Settings { credit, ..self }
    }

    /// With so many ports; of ten bytes there is a switch of four alone.
    ///
    /// ```
    /// use ventorupo::Settings;
    ///
    /// assert_eq!(Settings::wide(8, 16).ports(9), Settings::wide(9, 16));
    /// ```
    pub const fn ports(self, ports: u32) -> Settings {
        Settings { ports, ..self }
    }

    /// With so many queues a port; of ten bytes there is a switch of 24 alone.
    ///
    /// ```
    /// use ventorupo::Settings;
    ///
    /// assert_eq!(Settings::wide(8, 16).queues(9), Settings::wide(8, 9));
    /// ```
    pub const fn queues(self, queues: u32) -> Settings {
        Settings { queues, ..self }
    }

    /// With headers of this edition, [`TEN_BYTES`] or [`WIDE`].
    ///
    /// ```
    /// use ventorupo::{Settings, WIDE};
    ///
    /// assert_eq!(Settings::ten_bytes().edition(WIDE), Settings::wide(4, 24));
    /// ```
    pub const fn edition(self, edition: u32) -> Settings {
        Settings { edition, ..self }
    }

    /// With packets kept (1) or not (0).
    ///
    /// ```
    /// use ventorupo::Settings;
    ///
    /// assert_eq!(Settings::ten_bytes().packets(1), Settings::ten_bytes().with_packets());
    /// ```
    pub const fn packets(self, packets: u32) -> Settings {
        Settings { packets, ..self }
    }

    /// The same, of a switch that keeps packets: whole packets arrive and are shown
    /// ([`Switch::arrive_packet`](crate::Switch::arrive_packet),
    /// [`Switch::show`](crate::Switch::show)), and headers alone are refused 24. Setup
    /// refuses it with wide headers.
    ///
    /// ```
    /// use ventorupo::Settings;
    ///
    /// let headers = Settings::ten_bytes();
    /// let whole = headers.with_packets();
    /// assert_eq!((headers.packets, whole.packets), (0, 1));
    /// // The packets stand outside of the state.
    /// assert_eq!(whole.size(), headers.size());
    /// assert_eq!(Settings::wide(4, 24).with_packets().size(), 0);
    /// ```
    pub const fn with_packets(self) -> Settings {
        self.packets(1)
    }

    /// The bytes of each port's packet memory, if the switch keeps packets: just so
    /// many are to be lent.
    ///
    /// ```
    /// use ventorupo::{Settings, SLOT_BYTES};
    ///
    /// let settings = Settings::ten_bytes().nodes(100).with_packets();
    /// assert_eq!(settings.packet_memory(), 100 * SLOT_BYTES);
    /// ```
    pub const fn packet_memory(&self) -> usize {
        (self.nodes as usize).saturating_mul(SLOT_BYTES)
    }

    /// The form of the switch's headers.
    ///
    /// ```
    /// use ventorupo::{Form, Settings};
    ///
    /// assert_eq!(Settings::wide(8, 16).form(), Form::wide(8, 16));
    /// ```
    pub const fn form(&self) -> Form {
        Form {
            edition: self.edition,
            ports: self.ports,
            queues: self.queues,
        }
    }

    /// As the C interface has them.
    ///
    /// ```
    /// let settings = ventorupo::Settings::wide(8, 16).nodes(100);
    /// assert_eq!(settings.numbers(), [100, 64, 8, 5000, 8, 16, 1, 0]);
    /// ```
    pub const fn numbers(&self) -> [u32; 8] {
        [
            self.nodes,
            self.beat,
            self.slots,
            self.credit,
            self.ports,
            self.queues,
            self.edition,
            self.packets,
        ]
    }

    /// The bytes that a state of these settings takes; 0 if one of them is not in its
    /// row. The library's own answer is [`size`]; this one is a constant where the
    /// settings are.
    ///
    /// ```
    /// use ventorupo::{Settings, Switch};
    ///
    /// const SETTINGS: Settings = Settings::wide(8, 16).nodes(4);
    /// static IMAGE: [u8; SETTINGS.size()] = [0; SETTINGS.size()];
    /// assert_eq!(IMAGE.len(), 8256);
    /// assert!(Switch::setup(IMAGE, SETTINGS).is_ok());
    /// assert_eq!(SETTINGS.nodes(2049).size(), 0);
    /// ```
    pub const fn size(&self) -> usize {
        if !self.in_their_rows() {
            return 0;
        }
        // docs/LAYOUT.md: settings, map, and each port's own.
        let port = 146 + 20 * self.queues as usize + 13 * self.nodes as usize;
        SETTINGS_BYTES + 4096 + self.ports as usize * port
    }

    const fn in_their_rows(&self) -> bool {
        let counts = match self.edition {
            TEN_BYTES => self.ports == 4 && self.queues == 24 && self.packets <= 1,
            WIDE => {
                within(self.ports, 2, MOST_PORTS as u32)
                    && within(self.queues, 2, 64)
                    && self.packets == 0
            }
            _ => false,
        };
        counts
            && within(self.nodes, 1, MOST_NODES as u32)
            && matches!(self.beat, 64 | 128 | 256 | 512)
            && within(self.slots, 1, 8)
            && self.credit <= 65_535
    }
}

const fn within(number: u32, least: u32, most: u32) -> bool {
    least <= number && number <= most
}

/// The bytes that a state of these settings takes, as the library says; none if one of
/// them is not in its row. [`Settings::size`] is the same as a constant.
///
/// ```
/// use ventorupo::{size, Settings};
///
/// let settings = Settings::ten_bytes();
/// assert_eq!(size(&settings), Some(19_928));
/// assert_eq!(size(&settings.nodes(2049)), None);
/// // The largest.
/// assert_eq!(size(&Settings::wide(32, 64).nodes(2048)), Some(901_712));
/// ```
pub fn size(settings: &Settings) -> Option<usize> {
    match calls::size(&settings.numbers()) {
        0 => None,
        bytes => usize::try_from(bytes).ok(),
    }
}
