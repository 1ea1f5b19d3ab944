//! A monitor in ordinary Rust, written from documents 01 and 02 and their readings alone.
//!
//! Nothing here is proved, and nothing here was taken from the proved library: the two are compared call by call, so the worth of
//! this one lies in its being simple and independent. It is also the yardstick for speed: it judges the whole table at each call in
//! one pass, makes the flow matrix once, and does no work that document 01 does not ask for. A tray it judges once.

mod calls;
mod errors;
mod image;
mod replay;
mod seid;
pub mod table;
mod tray;
mod work;

pub use calls::{Answer, Request, call, clash, granted, valid_modes, view};
pub use errors::Error;
pub use image::{image, image_length, reload};
pub use replay::{HEADER_NUMBERS, number, replay};
pub use seid::{Kind, SUBTYPE_CLASS, Seid, subtype_seid};
pub use table::{Level, Shape, Subtype, check, setup};
pub use tray::{MOST_RECORDS, Record, tray};
pub use work::{quick_tray, work, work_length};
