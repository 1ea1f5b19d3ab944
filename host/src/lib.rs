//! A safe Rust face for the proved monitor.
//!
//! The library behind it (`libmonitor.a`) is proved against document 01: for every table, store, caller, code, argument and buffer
//! it says which answer comes back and which words and bytes are left. So nothing here judges a call: this crate lends slices over
//! the C boundary, and gives numbers their names. It is not proved itself; the host's tests compare it with the library, the
//! documents' tables and monitor.h.
//!
//! [`Monitor`] owns a table and a store and has a method for each call:
//!
//! ```
//! use monitor::{Bits, Caller, Cell, Error, Hall, Level, Modes, Monitor};
//!
//! // One cell with two process slots, no segments, one file of one block. Its first process is in slot 0.
//! let cell = Cell { level: Level::new(1, 0, 0), processes: 2, files: 1, ..Cell::default() };
//! let mut monitor = Monitor::set_up(&Hall { blocks: 1, cells: vec![cell], ..Hall::default() })?;
//! let desk = Caller(0);
//!
//! let (file, descriptor) = monitor.create_file(desk, Bits(0o644), Modes::ReadWrite)?;
//! monitor.write_block(desk, descriptor, 0, &[b'*'; 512])?;
//! assert_eq!(file.to_string(), "file 0 (use 1)");
//! assert_eq!(monitor.create_file(desk, Bits(0o644), Modes::ReadWrite), Err(Error::XnoSpace));
//! # Ok::<(), Error>(())
//! ```
//!
//! [`setup`], [`well_formed`], [`call`], [`view`], [`view_part`], [`tray`], [`work`], [`quick_tray`], [`image`] and [`reload`] are the library's
//! functions over slices, for hosts that keep their own memory or hand calls through by their numbers:
//!
//! ```
//! use monitor::{Cell, Code, Error, Hall};
//!
//! let cell = Cell { processes: 1, files: 1, ..Cell::default() };
//! let hall = Hall { blocks: 1, cells: vec![cell], ..Hall::default() };
//! let (mut table, mut store) = (hall.table(), hall.store());
//! monitor::setup(&mut table, store.len())?;
//! let create = Code::CreateFile.number();
//! let answer = monitor::call(&mut table, &mut store, 0, create, [0o644, 3, 0], &mut []);
//! assert_eq!((answer.error, answer.first, answer.second), (0, 2164260865, 0));
//! let answer = monitor::call(&mut table, &mut store, 0, create, [0o644, 3, 0], &mut []);
//! assert_eq!(answer.result(), Err(Error::XnoSpace));
//! # Ok::<(), Error>(())
//! ```
//!
//! Calls by the tray are judged once and run in order; each finds its buffer as a part of one slice:
//!
//! ```
//! use monitor::{Bits, Caller, Cell, Code, Error, Hall, Modes, Monitor, Record};
//!
//! let mut monitor = Monitor::set_up(&Hall { blocks: 1, cells: vec![Cell { processes: 1, files: 1, ..Cell::default() }], ..Hall::default() })?;
//! let ask = |code: Code, a, b, offset, length| Record { code: code.number(), a, b, offset, length, ..Record::default() };
//! let mut night = [
//!     ask(Code::CreateFile, 0o644, 3, 0, 0),
//!     ask(Code::WriteBlock, 0, 0, 0, 512),
//!     ask(Code::ReadBlock, 0, 0, 512, 512),
//!     ask(Code::Close, 0, 0, 1024, 1), // one byte past the end
//! ];
//! let mut bytes = [[b'*'; 512], [0; 512]].concat();
//! monitor.tray(&mut night, &mut bytes)?;
//! assert_eq!(night.map(|record| record.answer.error), [0, 0, 0, Error::XbSz.number()]);
//! assert_eq!(bytes, [b'*'; 1024]);
//! # Ok::<(), Error>(())
//! ```

#![warn(missing_docs)]

mod code;
mod error;
pub mod explain;
mod hall;
pub mod layout;
mod owner;
mod raw;
mod rights;
mod seid;
mod told;

pub use code::Code;
pub use error::Error;
pub use hall::{Cell, Hall, Level, Subtype};
pub use owner::{Caller, Descriptor, Designator, Monitor, Page};
pub use raw::{
    Answer, Part, Record, TRAY_RECORDS, call, image, image_length, quick_tray, reload, setup, tray, view, view_part,
    well_formed, work, work_length,
};
pub use rights::{Access, Bits, Modes};
pub use seid::{Kind, Seid};
pub use told::{Message, Status};

/// The page that a host developer reads first; its Rust program is tried as those above are.
#[cfg(doctest)]
#[doc = include_str!("../README.md")]
struct Readme;
