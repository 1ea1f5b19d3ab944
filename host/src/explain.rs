//! One call and its answer in plain words, for logs that are read half asleep; and why a table is refused ([`table`]).
//!
//! ```
//! use monitor::{Answer, Code, explain};
//!
//! let answer = Answer { error: 13, first: 0, second: 0 };
//! let made = explain::Call { caller: 2, code: Code::Open.number(), arguments: [2164260865, 3, 0], answer, buffer: &[] };
//! assert_eq!(
//!     made.to_string(),
//!     "process 2: open file 0 (use 1) to read and write: refused, XnoAcc: the level forbids it"
//! );
//! ```
//!
//! What tells of a call looks at no table, and any numbers will do: a call that was refused for its arguments is told as it was made.

mod fault;

pub use fault::table;

use crate::code::Code;
use crate::error::Error;
use crate::layout::ENTRIES;
use crate::raw::Answer;
use crate::rights::{Access, Bits, Modes};
use crate::seid::{Kind, Seid};
use crate::told::{Message, Status};
use std::fmt::{self, Display, Formatter};

/// A call that was made, and its answer.
#[derive(Clone, Copy, Debug)]
pub struct Call<'a> {
    /// The caller's slot.
    pub caller: u32,
    /// The call's code.
    pub code: u32,
    /// The arguments a, b and c.
    pub arguments: [u32; 3],
    /// What was answered.
    pub answer: Answer,
    /// The buffer after the call.
    pub buffer: &'a [u8],
}

impl<'a> Call<'a> {
    /// What was asked, as in `open file 0 (use 1) to read`.
    pub fn asked(&self) -> Asked {
        Asked { code: self.code, arguments: self.arguments }
    }

    /// What came back, as in `descriptor 0`, or `refused, ` and why.
    pub fn came_back(&self) -> CameBack<'a> {
        CameBack { code: self.code, answer: self.answer, buffer: self.buffer }
    }

    /// Whether it was refused.
    pub fn refused(&self) -> bool {
        self.answer.error != 0
    }
}

/// Who, what was asked, what came back.
impl Display for Call<'_> {
    fn fmt(&self, f: &mut Formatter) -> fmt::Result {
        write!(f, "process {}: {}: {}", self.caller, self.asked(), self.came_back())
    }
}

/// What remap takes for no designator.
const NO_DESIGNATOR: u32 = ENTRIES as u32;

/// What a call asks.
#[derive(Clone, Copy, Debug)]
pub struct Asked {
    code: u32,
    arguments: [u32; 3],
}

/// What a call asks, by its code and its arguments a, b and c.
pub fn asked(code: u32, arguments: [u32; 3]) -> Asked {
    Asked { code, arguments }
}

impl Display for Asked {
    fn fmt(&self, f: &mut Formatter) -> fmt::Result {
        let [a, b, c] = self.arguments;
        let Some(code) = Code::of(self.code) else {
            return write!(f, "call {} ({a}, {b}, {c})", self.code);
        };
        let object = Seid::from(a);
        match code {
            Code::Spawn => write!(f, "spawn a process for owner {a}, group {b}, {}", Rights(c)),
            Code::ReleaseProcess => write!(f, "release {object}"),
            Code::BuildSegment => write!(f, "build a segment of {a} bytes, {}, {}", Rights(b), Sharable(c)),
            Code::Rendezvous => write!(f, "take up {object} to {}", Use(b)),
            Code::ReleaseSegment => write!(f, "give up designator {a}"),
            Code::SetAccess => write!(f, "hold designator {a} to {}", Use(b)),
            Code::CreateFile => write!(f, "create a file, {}, to {}{}", Rights(a), Opened(b), With(c)),
            Code::Open if object.kind() == Some(Kind::Subtype) => write!(f, "open {object} to {}", Opened(b)),
            Code::Open => write!(f, "open {object} to {}{}", Opened(b), With(c)),
            Code::Close => write!(f, "close descriptor {a}"),
            Code::Link => write!(f, "link {object}"),
            Code::Unlink => write!(f, "unlink {object}"),
            Code::SetBits => write!(f, "set {} on {object}", Rights(b)),
            Code::ReadBlock => write!(f, "read block {b} by descriptor {a}"),
            Code::WriteBlock => write!(f, "write block {b} by descriptor {a}"),
            Code::Post => write!(f, "post to {object}"),
            Code::Receive => write!(f, "receive a message"),
            Code::Status => write!(f, "ask about {object}"),
            Code::Access => write!(f, "ask what designator {a} is held to do"),
            Code::Remap => match [a, c].map(|designator| designator == NO_DESIGNATOR) {
                [true, true] => write!(f, "map nothing"),
                [false, true] => write!(f, "map designator {a} from page {b} on"),
                [true, false] => write!(f, "take designator {c} out of the map"),
                [false, false] => write!(f, "map designator {a} from page {b} on, with designator {c} out"),
            },
            Code::PageAccess => write!(f, "ask what page {a} is held to do"),
            Code::Regrade => write!(f, "copy the file of descriptor {a} into cell {b}, {}", Rights(c)),
        }
    }
}

/// What came back from a call.
#[derive(Clone, Copy, Debug)]
pub struct CameBack<'a> {
    code: u32,
    answer: Answer,
    buffer: &'a [u8],
}

impl Display for CameBack<'_> {
    fn fmt(&self, f: &mut Formatter) -> fmt::Result {
        let Answer { error, first, second } = self.answer;
        if error != 0 {
            return match Error::of(error) {
                Some(error) => write!(f, "refused, {error}"),
                None => write!(f, "refused, with a number that is no error: {error}"),
            };
        }
        let object = Seid::from(first);
        match Code::of(self.code) {
            Some(Code::Spawn | Code::Regrade) => write!(f, "{object}"),
            Some(Code::BuildSegment) => write!(f, "{object}, designator {second}"),
            Some(Code::Rendezvous) => write!(f, "designator {first}"),
            Some(Code::CreateFile) => write!(f, "{object}, descriptor {second}"),
            Some(Code::Open) => write!(f, "descriptor {first}"),
            Some(Code::ReadBlock) => {
                let start = &self.buffer[..self.buffer.len().min(8)];
                write!(f, "{} bytes, from \"{}\"", self.buffer.len(), start.escape_ascii())
            }
            Some(Code::Receive) => match self.buffer.try_into().map(Message::from_bytes) {
                Ok(message) => write!(f, "{message}"),
                Err(_) => write!(f, "a message"),
            },
            Some(Code::Status) => match self.buffer.try_into().ok().and_then(Status::from_bytes) {
                Some(status) => write!(f, "{status}"),
                None => write!(f, "a status"),
            },
            Some(Code::Access | Code::PageAccess) => write!(f, "to {}", Use(first)),
            _ => write!(f, "done"),
        }
    }
}

// Numbers in words, where they are what they should be.

struct Rights(u32);

impl Display for Rights {
    fn fmt(&self, f: &mut Formatter) -> fmt::Result {
        match u16::try_from(self.0) {
            Ok(bits) => write!(f, "{}", Bits(bits)),
            Err(_) => write!(f, "bits {}", self.0),
        }
    }
}

struct Sharable(u32);

impl Display for Sharable {
    fn fmt(&self, f: &mut Formatter) -> fmt::Result {
        match self.0 {
            0 => write!(f, "not sharable"),
            1 => write!(f, "sharable"),
            other => write!(f, "sharable {other}"),
        }
    }
}

struct Use(u32);

impl Display for Use {
    fn fmt(&self, f: &mut Formatter) -> fmt::Result {
        match Access::of(self.0) {
            Some(Access::None) => write!(f, "do nothing"),
            Some(access) => write!(f, "{access}"),
            None => write!(f, "access {}", self.0),
        }
    }
}

/// The descriptor of a subtype, and 1, or 0 for none.
struct With(u32);

impl Display for With {
    fn fmt(&self, f: &mut Formatter) -> fmt::Result {
        match self.0.checked_sub(1) {
            Some(descriptor) => write!(f, ", with the subtype of descriptor {descriptor}"),
            None => Ok(()),
        }
    }
}

struct Opened(u32);

impl Display for Opened {
    fn fmt(&self, f: &mut Formatter) -> fmt::Result {
        match Modes::of(self.0) {
            Some(modes) => write!(f, "{modes}"),
            None => write!(f, "modes {}", self.0),
        }
    }
}
