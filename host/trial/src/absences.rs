//! Seids that a call does not take, by what is wrong with them: they name nothing, or something that the level forbids.

use crate::tables::{World, is_subtype};
use plain::table::SERIAL;
use plain::{Kind, Request, Seid, Shape};
use std::fmt;

/// The call that takes subtypes too.
const OPEN: u32 = 8;

/// The calls that take a seid, and whether a level can forbid them an object in a lower cell, in a higher one, and beside.
const TAKING: [(u32, [bool; 3]); 8] = [
    (2, [true, true, true]),
    (4, [true, true, true]),
    (OPEN, [true, true, true]),
    (10, [true, true, true]),
    (11, [true, true, true]),
    (12, [true, true, true]),
    (15, [true, false, true]),
    (17, [false, true, true]),
];

const CAUSES: [&str; 7] = ["class", "index", "serial 0", "not live", "older", "newer", "a subtype"];
const SUBTYPE: usize = CAUSES.len() - 1;
const DIRECTIONS: [&str; 3] = ["lower", "higher", "beside"];

/// By the call's place in TAKING, and by cause or direction.
#[derive(Default)]
pub struct Absences {
    absent: [[u64; CAUSES.len()]; TAKING.len()],
    forbidden: [[u64; DIRECTIONS.len()]; TAKING.len()],
}

impl Absences {
    /// Notes a refusal from the call's own list, to a live caller.
    pub fn note(&mut self, before: &World, shape: &Shape, request: &Request, error: u32) {
        let Some(call) = TAKING.iter().position(|&(code, _)| code == request.code) else { return };
        if request.code == OPEN && is_subtype(request.a) {
            return; // open takes subtypes: the tally has its refusals of them
        }
        let seid = match request.a {
            0 => before.seid(shape, Kind::Process, request.caller as usize),
            named => named,
        };
        match error {
            2 | 11 | 12 => self.absent[call][cause(before, shape, request.code, Seid::of(seid))] += 1,
            13 => self.forbidden[call][direction(shape, request.caller, Seid::of(seid))] += 1,
            _ => {}
        }
    }

    pub fn missing(&self) -> Vec<String> {
        let mut missing = Vec::new();
        for (call, (code, forbids)) in TAKING.into_iter().enumerate() {
            for (at, cause) in CAUSES.iter().enumerate() {
                if self.absent[call][at] == 0 && !(code == OPEN && at == SUBTYPE) {
                    missing.push(format!("call {code} of a seid that names nothing: {cause}"));
                }
            }
            for (at, direction) in DIRECTIONS.iter().enumerate() {
                assert!(forbids[at] || self.forbidden[call][at] == 0, "call {code} with 13: {direction}");
                if forbids[at] && self.forbidden[call][at] == 0 {
                    missing.push(format!("call {code} with 13: {direction}"));
                }
            }
        }
        missing
    }
}

/// Why a seid names nothing that the call takes.
fn cause(before: &World, shape: &Shape, code: u32, seid: Seid) -> usize {
    let taken: &[Kind] = match code {
        2 | 15 => &[Kind::Process],
        4 => &[Kind::Segment],
        OPEN | 10 | 11 => &[Kind::File],
        _ => &Kind::ALL,
    };
    if shape.subtype(seid).is_some() {
        return SUBTYPE;
    }
    let Some(&kind) = taken.iter().find(|kind| kind.class() == seid.class) else { return 0 };
    match () {
        _ if seid.index >= shape.count(kind) => 1,
        _ if seid.serial == 0 => 2,
        _ if !before.live(shape, kind, seid.index) => 3,
        _ if seid.serial < before.table[shape.at(kind, seid.index) + SERIAL] => 4,
        _ => 5,
    }
}

/// Where an object that is there stands from its caller.
fn direction(shape: &Shape, caller: u32, seid: Seid) -> usize {
    let kind = Kind::of_class(seid.class).expect("a level was judged, so the class is good");
    let (from, to) = (shape.cell(kind, seid.index), shape.cell(Kind::Process, caller as usize));
    match () {
        _ if shape.flow[from][to] => 0,
        _ if shape.flow[to][from] => 1,
        _ => 2,
    }
}

impl fmt::Display for Absences {
    fn fmt(&self, f: &mut fmt::Formatter) -> fmt::Result {
        for (call, (code, _)) in TAKING.into_iter().enumerate() {
            write!(f, "call {code:2} of a seid that names nothing:")?;
            CAUSES.iter().zip(self.absent[call]).try_for_each(|(cause, count)| write!(f, "  {cause}: {count}"))?;
            write!(f, "; with 13:")?;
            let directions = DIRECTIONS.iter().zip(self.forbidden[call]);
            directions.into_iter().try_for_each(|(direction, count)| write!(f, "  {direction}: {count}"))?;
            writeln!(f)?;
        }
        Ok(())
    }
}
