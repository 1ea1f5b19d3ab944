//! Identifiers of processes, segments, files and subtypes.

use std::fmt;

/// What a seid can name.
#[derive(Clone, Copy, Debug, PartialEq, Eq, PartialOrd, Ord, Hash)]
pub enum Kind {
    /// A process, class 4.
    Process,
    /// A segment, class 5.
    Segment,
    /// A file, class 129.
    File,
    /// A subtype, class 6. It has no slot: it is part of the configuration.
    Subtype,
}

impl Kind {
    /// All kinds; those that have slots first, in the order of their records in the table.
    pub const ALL: [Kind; 4] = [Kind::Process, Kind::Segment, Kind::File, Kind::Subtype];

    /// The seid's top byte.
    pub const fn class(self) -> u8 {
        match self {
            Kind::Process => 4,
            Kind::Segment => 5,
            Kind::File => 129,
            Kind::Subtype => 6,
        }
    }

    /// The kind of a class, if there is one.
    pub fn of(class: u8) -> Option<Kind> {
        Kind::ALL.into_iter().find(|kind| kind.class() == class)
    }
}

impl fmt::Display for Kind {
    fn fmt(&self, f: &mut fmt::Formatter) -> fmt::Result {
        f.pad(match self {
            Kind::Process => "process",
            Kind::Segment => "segment",
            Kind::File => "file",
            Kind::Subtype => "subtype",
        })
    }
}

/// An identifier: a kind, a slot of that kind, and a serial that counts the slot's uses. A subtype has its place among the subtypes for
/// a slot, and serial 1. Any word is one; whether it names anything is for the monitor to say.
///
/// ```
/// use monitor::{Kind, Seid};
///
/// let seid = Seid::new(Kind::File, 0, 1);
/// assert_eq!(u32::from(seid), 2164260865);
/// assert_eq!(seid.to_string(), "file 0 (use 1)");
/// assert_eq!((seid.kind(), seid.slot(), seid.serial()), (Some(Kind::File), 0, 1));
/// assert_eq!(Seid::subtype(2).to_string(), "subtype 2");
/// ```
#[derive(Clone, Copy, Debug, PartialEq, Eq, PartialOrd, Ord, Hash)]
#[repr(transparent)]
pub struct Seid(u32);

impl Seid {
    /// Seid 0: the calling process, in every call that takes a seid.
    pub const CALLER: Seid = Seid(0);

    /// The seid of a slot's use.
    pub const fn new(kind: Kind, slot: u8, serial: u16) -> Seid {
        Seid((kind.class() as u32) << 24 | (slot as u32) << 16 | serial as u32)
    }

    /// The seid of a subtype, by its place in [`Hall::subtypes`](crate::Hall::subtypes).
    pub const fn subtype(index: u8) -> Seid {
        Seid::new(Kind::Subtype, index, 1)
    }

    /// The kind, if the class is that of one.
    pub fn kind(self) -> Option<Kind> {
        Kind::of(self.class())
    }

    /// The top byte.
    pub const fn class(self) -> u8 {
        (self.0 >> 24) as u8
    }

    /// The index among those of its kind: of a slot, or of a subtype. A process calls by it ([`Caller`](crate::Caller)).
    pub const fn slot(self) -> u32 {
        self.0 >> 16 & 255
    }

    /// Which use of the slot is meant.
    pub const fn serial(self) -> u32 {
        self.0 & 65535
    }
}

impl From<u32> for Seid {
    fn from(word: u32) -> Seid {
        Seid(word)
    }
}

impl From<Seid> for u32 {
    fn from(seid: Seid) -> u32 {
        seid.0
    }
}

/// As in `file 0 (use 1)`, or `subtype 0`; seid 0 is `itself`, and one of no kind as in `an object of class 1 (word 16777217)`.
impl fmt::Display for Seid {
    fn fmt(&self, f: &mut fmt::Formatter) -> fmt::Result {
        match self.kind() {
            _ if *self == Seid::CALLER => f.write_str("itself"),
            Some(Kind::Subtype) if self.serial() == 1 => write!(f, "subtype {}", self.slot()),
            Some(kind) => write!(f, "{kind} {} (use {})", self.slot(), self.serial()),
            None => write!(f, "an object of class {} (word {})", self.class(), self.0),
        }
    }
}
