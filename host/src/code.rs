//! The calls by name and code: the one table of them. tools/script.py reads it here, and a test compares monitor.h with it.

use crate::layout::{BLOCK_BYTES, IDENTITY_BYTES, MESSAGE_BYTES, STATUS_BYTES, TEXT_BYTES};
use std::fmt;

macro_rules! codes {
    ($($variant:ident = $number:literal, $name:literal, $arguments:literal;)*) => {
        /// A call, with its arguments a, b and c, its buffer, and what it gives.
        #[derive(Clone, Copy, Debug, PartialEq, Eq, PartialOrd, Ord, Hash)]
        #[repr(u32)]
        pub enum Code {
            $(#[doc = $arguments] $variant = $number),*
        }

        impl Code {
            /// All calls, in the order of their codes.
            pub const ALL: &'static [Code] = &[$(Code::$variant),*];

            /// The call's name, as scripts spell it.
            pub const fn name(self) -> &'static str {
                match self { $(Code::$variant => $name),* }
            }

            /// Its arguments a, b and c, its buffer, and what it gives.
            pub const fn arguments(self) -> &'static str {
                match self { $(Code::$variant => $arguments),* }
            }

            /// The call of a number, if there is one.
            pub const fn of(number: u32) -> Option<Code> {
                match number {
                    $($number => Some(Code::$variant),)*
                    _ => None,
                }
            }
        }
    };
}

codes! {
    Spawn = 1, "spawn", "Owner, group, bits. Gives a process seid.";
    ReleaseProcess = 2, "release-process", "Process seid.";
    BuildSegment = 3, "build", "Size in bytes, bits, sharable 0 or 1. Gives a segment seid and a designator.";
    Rendezvous = 4, "rendezvous", "Segment seid, access. Gives a designator.";
    ReleaseSegment = 5, "release-segment", "Designator.";
    SetAccess = 6, "set-access", "Designator, access.";
    CreateFile = 7, "create", "Bits, modes, 0 or a subtype's descriptor + 1. Gives a file seid and a descriptor.";
    Open = 8, "open", "Seid of a file or subtype, modes, 0 or its subtype's descriptor + 1. Gives a descriptor.";
    Close = 9, "close", "Descriptor.";
    Link = 10, "link", "File seid.";
    Unlink = 11, "unlink", "File seid.";
    SetBits = 12, "set-bits", "Seid of a process, a file, or a segment that is not sharable; bits.";
    ReadBlock = 13, "read", "Descriptor, block; a buffer of 512 bytes, which is filled.";
    WriteBlock = 14, "write", "Descriptor, block; a buffer of 512 bytes.";
    Post = 15, "post", "Process seid; a buffer of 12 bytes.";
    Receive = 16, "receive", "A buffer of 16 bytes, which is filled.";
    Status = 17, "status", "Seid; a buffer of 16 bytes, which is filled.";
    Access = 18, "access", "Designator. Gives an access.";
    Remap = 19, "remap", "Incoming designator, first page, outgoing designator; 16 is none.";
    PageAccess = 20, "page-access", "Page. Gives an access.";
    Regrade = 21, "regrade", "Descriptor, cell, bits; a buffer of 4 bytes: owner and group. Gives a file seid.";
}

impl Code {
    /// The call's number.
    pub const fn number(self) -> u32 {
        self as u32
    }

    /// The length that the call's buffer must have; None where it is not looked at.
    pub const fn buffer_bytes(self) -> Option<usize> {
        match self {
            Code::ReadBlock | Code::WriteBlock => Some(BLOCK_BYTES),
            Code::Post => Some(TEXT_BYTES),
            Code::Receive => Some(MESSAGE_BYTES),
            Code::Status => Some(STATUS_BYTES),
            Code::Regrade => Some(IDENTITY_BYTES),
            _ => None,
        }
    }
}

impl fmt::Display for Code {
    fn fmt(&self, f: &mut fmt::Formatter) -> fmt::Result {
        f.pad(self.name())
    }
}

impl From<Code> for u32 {
    fn from(code: Code) -> u32 {
        code.number()
    }
}
