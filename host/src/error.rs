//! The refusals by name and number: the one table of them. A test compares it with the documents' and with monitor.h.

use std::fmt;

macro_rules! errors {
    ($($name:ident = $number:literal, $meaning:literal;)*) => {
        /// Why a call was refused, by the names and numbers of documents 01 and 02. A refusal has changed nothing: no word of the table, no
        /// byte of store or buffer.
        #[derive(Clone, Copy, Debug, PartialEq, Eq, PartialOrd, Ord, Hash)]
        #[repr(u32)]
        pub enum Error {
            $(#[doc = concat!(stringify!($number), ": ", $meaning, ".")] $name = $number),*
        }

        impl Error {
            /// All refusals, in the order of their numbers.
            pub const ALL: &'static [Error] = &[$(Error::$name),*];

            /// The name as the documents spell it.
            pub const fn name(self) -> &'static str {
                match self { $(Error::$name => stringify!($name)),* }
            }

            /// What it means, in a few words.
            pub const fn meaning(self) -> &'static str {
                match self { $(Error::$name => $meaning),* }
            }

            /// The refusal of a number, if there is one.
            pub const fn of(number: u32) -> Option<Error> {
                match number {
                    $($number => Some(Error::$name),)*
                    _ => None,
                }
            }
        }
    };
}

errors! {
    XbTab = 1, "the table is not well formed, a length is wrong, or a working slice is not the table's";
    XbPrSd = 2, "no such process";
    XbdKcl = 3, "no such call";
    XbParam = 4, "an argument is out of range, or a configuration, an image or a tray is bad";
    XbSz = 5, "a buffer or a working slice has the wrong length";
    XbSgSz = 6, "no size for a segment";
    XbadModes = 7, "no valid open modes";
    XnSgDes = 8, "no designator has that number";
    XbSgDes = 9, "the designator is empty";
    XbadOd = 10, "the descriptor is empty or there is none of that number";
    XbSgSd = 11, "no such segment";
    XnoObj = 12, "no such object";
    XnoAcc = 13, "the level forbids it";
    XnoOwner = 14, "only the owner may";
    XnoPriv = 15, "only owner 0 may spawn for others";
    XdapViol = 16, "the owner bits forbid it";
    XsgNoAcc = 17, "the segment is not sharable";
    XdupSg = 18, "the segment is held already";
    Xbusy = 19, "another open is in the way";
    XnotReadable = 20, "not open for reading";
    XnotWritable = 21, "not open for writing";
    XbadBlockNo = 22, "no block has that number";
    XendOfFile = 23, "the file ends before that block";
    XbadLink = 24, "the count of links is at its end";
    XodSpace = 25, "all sixteen places are taken";
    XnoSpace = 26, "no free slot in the cell";
    XnoProc = 27, "no free process slot in the cell";
    XpostEh = 28, "eight messages are waiting already";
    XbNoMes = 29, "no message is waiting";
    XoutSgAldUmp = 30, "the outgoing segment is not mapped";
    XinSgAldMap = 31, "the incoming segment is mapped already";
    XvrtMmCfl = 32, "its pages are used or pass the last one";
    XshSg = 33, "a sharable segment's bits are fixed";
    XnoSPriv = 34, "only the guard cell may regrade";
    XbadStCap = 35, "no open subtype is named";
    XbadSubtypeMatch = 36, "the wrong subtype, or it is not open for all that is asked";
}

impl Error {
    /// The number; never 0, which is success.
    pub const fn number(self) -> u32 {
        self as u32
    }

    /// What came over the boundary. The library is proved to answer nothing else, so anything else means that another library
    /// was linked than this crate was written for.
    pub(crate) fn told(number: u32) -> Result<(), Error> {
        match number {
            0 => Ok(()),
            _ => Err(Error::of(number)
                .unwrap_or_else(|| panic!("the monitor answered {number}: not the library of this crate"))),
        }
    }
}

/// The name and its meaning, as in `XnoAcc: the level forbids it`.
impl fmt::Display for Error {
    fn fmt(&self, f: &mut fmt::Formatter) -> fmt::Result {
        write!(f, "{}: {}", self.name(), self.meaning())
    }
}

impl std::error::Error for Error {}
