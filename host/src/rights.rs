//! What may be done with a process, segment, file or subtype: owner bits, open modes, access.

use std::fmt;

/// Owner bits: read, write and execute for the owner, for its group and for all, as in `0o644`. Who may write to a process may post
/// to it. Execute grants nothing. More than 511 is refused.
#[derive(Clone, Copy, Debug, Default, PartialEq, Eq, PartialOrd, Ord, Hash)]
pub struct Bits(pub u16);

impl Bits {
    /// Those of each cell's first process after set-up: all may read and write.
    pub const FIRST: Bits = Bits(0o666);
}

/// As in `rw-r--r--`; or the number, where it is too large.
impl fmt::Display for Bits {
    fn fmt(&self, f: &mut fmt::Formatter) -> fmt::Result {
        if self.0 > 0o777 {
            return write!(f, "bits {}", self.0);
        }
        let mut letters = *b"rwxrwxrwx";
        for (place, letter) in letters.iter_mut().rev().enumerate() {
            if self.0 >> place & 1 == 0 {
                *letter = b'-';
            }
        }
        f.pad(str::from_utf8(&letters).expect("the letters are plain"))
    }
}

/// The modes in which a file or a subtype can be opened: the five valid numbers.
#[derive(Clone, Copy, Debug, PartialEq, Eq, PartialOrd, Ord, Hash)]
#[repr(u32)]
pub enum Modes {
    /// To read.
    Read = 1,
    /// To write.
    Write = 2,
    /// To read and write.
    ReadWrite = 3,
    /// To read and write, with no other writer in its own cell.
    SoleWriter = 11,
    /// To read and write, with nobody else in its own cell.
    Alone = 15,
}

impl Modes {
    /// All modes.
    pub const ALL: [Modes; 5] = [Modes::Read, Modes::Write, Modes::ReadWrite, Modes::SoleWriter, Modes::Alone];

    /// The number.
    pub const fn number(self) -> u32 {
        self as u32
    }

    /// The modes of a number, if it is valid.
    pub fn of(number: u32) -> Option<Modes> {
        Modes::ALL.into_iter().find(|modes| modes.number() == number)
    }
}

impl fmt::Display for Modes {
    fn fmt(&self, f: &mut fmt::Formatter) -> fmt::Result {
        f.pad(match self {
            Modes::Read => "read",
            Modes::Write => "write",
            Modes::ReadWrite => "read and write",
            Modes::SoleWriter => "read and write, no other writer",
            Modes::Alone => "read and write, nobody else",
        })
    }
}

/// What a process may do with a segment that it holds.
#[derive(Clone, Copy, Debug, Default, PartialEq, Eq, PartialOrd, Ord, Hash)]
#[repr(u32)]
pub enum Access {
    /// Nothing.
    #[default]
    None = 0,
    /// Write.
    Write = 128,
    /// Read.
    Read = 256,
    /// Read and write.
    ReadWrite = 384,
}

impl Access {
    /// All accesses.
    pub const ALL: [Access; 4] = [Access::None, Access::Write, Access::Read, Access::ReadWrite];

    /// The number.
    pub const fn number(self) -> u32 {
        self as u32
    }

    /// The access of a number, if there is one.
    pub fn of(number: u32) -> Option<Access> {
        Access::ALL.into_iter().find(|access| access.number() == number)
    }
}

impl fmt::Display for Access {
    fn fmt(&self, f: &mut fmt::Formatter) -> fmt::Result {
        f.pad(match self {
            Access::None => "nothing",
            Access::Write => "write",
            Access::Read => "read",
            Access::ReadWrite => "read and write",
        })
    }
}
