//! Identifiers: class x 2^24 + index x 2^16 + serial.

use crate::errors::Error;

/// The three kinds of object that have slots in the table.
#[derive(Clone, Copy, Debug, PartialEq, Eq)]
pub enum Kind {
    Process = 0,
    Segment = 1,
    File = 2,
}

impl Kind {
    pub const ALL: [Kind; 3] = [Kind::Process, Kind::Segment, Kind::File];

    pub fn class(self) -> u32 {
        match self {
            Kind::Process => 4,
            Kind::Segment => 5,
            Kind::File => 129,
        }
    }

    pub fn of_class(class: u32) -> Option<Kind> {
        Kind::ALL.into_iter().find(|kind| kind.class() == class)
    }

    /// "Absent is 2, 11 or 12 where a process, segment or file is wanted."
    pub fn absent(self) -> Error {
        match self {
            Kind::Process => Error::XbPrSd,
            Kind::Segment => Error::XbSgSd,
            Kind::File => Error::XnoObj,
        }
    }

    pub fn seid(self, index: usize, serial: u32) -> u32 {
        self.class() << 24 | (index as u32) << 16 | serial
    }
}

/// The class of subtypes. They are configuration and no kind of object: they have no slots, and their serial is always 1.
pub const SUBTYPE_CLASS: u32 = 6;
pub const SUBTYPE_SERIAL: u32 = 1;

/// The seid of a subtype.
pub fn subtype_seid(index: usize) -> u32 {
    SUBTYPE_CLASS << 24 | (index as u32) << 16 | SUBTYPE_SERIAL
}

/// A seid word taken apart. Whether it names anything is another matter.
#[derive(Clone, Copy, Debug, PartialEq, Eq)]
pub struct Seid {
    pub class: u32,
    pub index: usize,
    pub serial: u32,
}

impl Seid {
    pub fn of(word: u32) -> Seid {
        Seid { class: word >> 24, index: (word >> 16 & 255) as usize, serial: word & 65535 }
    }

    /// The form: right class, index below the table's size, serial 1..65535.
    pub fn fits(self, kind: Kind, slots: usize) -> bool {
        self.class == kind.class() && self.index < slots && self.serial != 0
    }

    /// Whether its class is that of subtypes.
    pub fn of_subtype(self) -> bool {
        self.class == SUBTYPE_CLASS
    }
}
