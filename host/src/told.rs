//! What status and receive tell, out of the bytes of their buffers.

use crate::hall::Level;
use crate::layout::{MESSAGE_BYTES, STATUS_BYTES, TEXT_BYTES};
use crate::rights::Bits;
use crate::seid::{Kind, Seid};
use std::fmt;

/// What the status of a process, segment or file tells.
#[derive(Clone, Copy, Debug, PartialEq, Eq)]
pub struct Status {
    /// What it is.
    pub kind: Kind,
    /// Its cell.
    pub cell: u8,
    /// Its owner.
    pub owner: u16,
    /// Its group.
    pub group: u16,
    /// Its owner bits.
    pub bits: Bits,
    /// Its cell's level.
    pub level: Level,
}

impl Status {
    /// Takes a status apart; None if its class is that of no kind that has one, which the monitor never tells.
    pub fn from_bytes(bytes: [u8; STATUS_BYTES]) -> Option<Status> {
        let [class, cell, o1, o0, g1, g0, b1, b0, security, integrity, c3, c2, c1, c0, _, _] = bytes;
        Some(Status {
            kind: Kind::of(class).filter(|&kind| kind != Kind::Subtype)?,
            cell,
            owner: u16::from_be_bytes([o1, o0]),
            group: u16::from_be_bytes([g1, g0]),
            bits: Bits(u16::from_be_bytes([b1, b0])),
            level: Level { security, integrity, compartments: u32::from_be_bytes([c3, c2, c1, c0]) },
        })
    }
}

/// As in `file of cell 0, owner 10, group 10, rw-r--r--`.
impl fmt::Display for Status {
    fn fmt(&self, f: &mut fmt::Formatter) -> fmt::Result {
        let Status { kind, cell, owner, group, bits, .. } = self;
        write!(f, "{kind} of cell {cell}, owner {owner}, group {group}, {bits}")
    }
}

/// A message as it comes out.
#[derive(Clone, Copy, Debug, PartialEq, Eq)]
pub struct Message {
    /// The process that posted it.
    pub sender: Seid,
    /// Its text.
    pub text: [u8; TEXT_BYTES],
}

impl Message {
    /// Takes a received message apart.
    pub fn from_bytes(bytes: [u8; MESSAGE_BYTES]) -> Message {
        let [s3, s2, s1, s0, text @ ..] = bytes;
        Message { sender: Seid::from(u32::from_be_bytes([s3, s2, s1, s0])), text }
    }
}

/// As in `"all is quiet" from process 0 (use 1)`.
impl fmt::Display for Message {
    fn fmt(&self, f: &mut fmt::Formatter) -> fmt::Result {
        write!(f, "\"{}\" from {}", self.text.escape_ascii(), self.sender)
    }
}
