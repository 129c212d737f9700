//! The refusals.

use core::fmt;

/// The enum, its list and its texts, of a line for each refusal: name, number,
/// the calls that give it, meaning.
macro_rules! refusals {
    ($($name:ident = $number:literal, $calls:literal, $meaning:literal;)*) => {
        /// Why a call was refused; the papers' numbers, in their order. A refused call
        /// changes nothing, but that an arrival refused 7 or 8 may mark its port: see
        /// [`Halt`](crate::Halt).
        ///
        /// ```
        /// use ventorupo::{Refusal, Switch};
        ///
        /// let refusal = Switch::over([0; 100]).turn(0).unwrap_err();
        /// assert_eq!(refusal, Refusal::NoState);
        /// assert_eq!(refusal.number(), 3);
        /// assert_eq!(refusal.to_string(), "memory is no switch state");
        /// ```
        // The papers have more to come: 18, 22, 23, 25, 26.
        #[derive(Debug, Clone, Copy, PartialEq, Eq, Hash, PartialOrd, Ord)]
        #[non_exhaustive]
        pub enum Refusal {
            $(#[doc = concat!($number, " (", $calls, "): ", $meaning, ".")] $name = $number,)*
        }

        impl Refusal {
            /// Every refusal, in the order of their numbers.
            ///
            /// ```
            /// use ventorupo::Refusal;
            ///
            /// for refusal in Refusal::ALL {
            ///     println!("{}: {refusal}", refusal.number());
            /// }
            /// assert_eq!(Refusal::ALL[0], Refusal::ShortMemory);
            /// ```
            pub const ALL: &'static [Refusal] = &[$(Refusal::$name),*];
        }

        impl fmt::Display for Refusal {
            fn fmt(&self, f: &mut fmt::Formatter<'_>) -> fmt::Result {
                f.write_str(match self { $(Refusal::$name => $meaning),* })
            }
        }
    };
}
refusals! {
    ShortMemory = 1, "setup", "memory shorter than its settings need";
    BadSetting = 2, "setup, read_header, write_header", "a setting not in its row";
    NoState = 3, "all but setup, find, read_header, write_header, size", "memory is no switch state";
    NoPort = 4, "all with a port", "port above the last";
    NoQueue = 5, "prefetch, credit, bucket, show", "queue above the last; for credit also 0; for bucket, bucket above 32";
    HeaderSize = 6, "arrive, read_header", "header not of its edition's size";
    Checksum = 7, "arrive, arrive_packet, read_header", "checksum differs";
    Source = 8, "arrive, arrive_packet", "header's source isn't the arriving port";
    TooShort = 9, "arrive, arrive_packet, read_header", "length under the header's size plus 2";
    NoCredit = 10, "arrive, arrive_packet", "price above arrival credit; at a halted port, queue above 0";
    NoFreeNode = 11, "arrive, arrive_packet", "free list empty";
    NothingThere = 12, "stitch, prefetch, show", "list to take from is empty; for show, nothing to show";
    SlotsInUse = 13, "prefetch", "all slots in use";
    TooMuchCredit = 14, "credit", "sum above 65,535";
    NoSuchId = 15, "map, where", "id above 4,095; no such node";
    PacketBytes = 16, "arrive_packet", "packet bytes not as many as the length field says, or fewer than ten";
    PacketMemory = 17, "arrive_packet, show", "a packet memory not of 8,192 bytes a node";
    HeaderQueue = 19, "arrive, arrive_packet, read_header", "header's queue above the last";
    ReservedBit = 20, "arrive, arrive_packet, read_header", "a reserved bit of the header is 1";
    NoFit = 21, "write_header", "a value doesn't fit its field, length under the header's size plus 2, or queue above the last";
    OtherKind = 24, "arrive, arrive_packet, show", "a header alone where packets are kept, or a packet or a show where none are";
    ShortRoom = 27, "round, audit", "room of less than four bytes a port; for audit, eight a node";
}

impl Refusal {
    /// The number in the papers.
    ///
    /// ```
    /// assert_eq!(ventorupo::Refusal::NoCredit.number(), 10);
    /// ```
    pub const fn number(self) -> u32 {
        self as u32
    }

    /// The refusal of a number, if it is one of a refusal.
    ///
    /// ```
    /// use ventorupo::Refusal;
    ///
    /// assert_eq!(Refusal::from_number(10), Some(Refusal::NoCredit));
    /// assert_eq!(Refusal::from_number(0), None);
    /// ```
    pub fn from_number(number: u32) -> Option<Refusal> {
        let its = |refusal: &Refusal| refusal.number() == number;
        Refusal::ALL.iter().copied().find(its)
    }
}
