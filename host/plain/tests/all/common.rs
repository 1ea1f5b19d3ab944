//! A table and a store to try calls on, with literal places and numbers: nothing here leans on the monitor's own layout.

use plain::{Answer, Error, Request, call, setup};

pub const SPAWN: u32 = 1;
pub const RELEASE: u32 = 2;
pub const BUILD: u32 = 3;
pub const RENDEZVOUS: u32 = 4;
pub const RELEASE_SEGMENT: u32 = 5;
pub const SET_ACCESS: u32 = 6;
pub const CREATE: u32 = 7;
pub const OPEN: u32 = 8;
pub const CLOSE: u32 = 9;
pub const LINK: u32 = 10;
pub const UNLINK: u32 = 11;
pub const SET_BITS: u32 = 12;
pub const READ: u32 = 13;
pub const WRITE: u32 = 14;
pub const POST: u32 = 15;
pub const RECEIVE: u32 = 16;
pub const STATUS: u32 = 17;
pub const ACCESS: u32 = 18;
pub const REMAP: u32 = 19;
pub const PAGE_ACCESS: u32 = 20;
pub const REGRADE: u32 = 21;

/// Security, integrity, compartments; process, segment and file slots; owner, group.
pub type Cell = [u32; 8];

/// Cell, owner, group, bits.
pub type Subtype = [u32; 4];

#[derive(Clone, Debug, PartialEq)]
pub struct Hall {
    pub table: Vec<u32>,
    pub store: Vec<u8>,
}

impl Hall {
    pub fn unset(cells: &[Cell], blocks: u32) -> Hall {
        Hall::unset_with(cells, &[], blocks)
    }

    pub fn unset_with(cells: &[Cell], subtypes: &[Subtype], blocks: u32) -> Hall {
        let sum = |word: usize| cells.iter().map(|cell| cell[word]).sum::<u32>();
        let (processes, segments, files) = (sum(3), sum(4), sum(5));
        let mut table = vec![cells.len() as u32, processes, segments, files, blocks, 0, subtypes.len() as u32, 0];
        table.extend(cells.concat());
        table.extend(subtypes.concat());
        table.resize(table.len() + (112 * processes + 8 * segments + 9 * files) as usize, 0);
        Hall { table, store: vec![0; (files * blocks * 512) as usize] }
    }

    pub fn new(cells: &[Cell], blocks: u32) -> Hall {
        Hall::guarded(cells, blocks, 0)
    }

    /// With a guard word.
    pub fn guarded(cells: &[Cell], blocks: u32, guard: u32) -> Hall {
        Hall::subtyped(cells, &[], blocks, guard)
    }

    /// With subtypes, and a guard word.
    pub fn subtyped(cells: &[Cell], subtypes: &[Subtype], blocks: u32, guard: u32) -> Hall {
        let mut hall = Hall::unset_with(cells, subtypes, blocks);
        hall.table[5] = guard;
        assert_eq!(setup(&mut hall.table, hall.store.len()), Error::XOK);
        assert!(hall.good());
        hall
    }

    /// Cells 0 and 1, security 1 and 3, three processes, segments and files each, B 2; owner 0 in both.
    pub fn two_levels() -> Hall {
        Hall::new(&[[1, 0, 0, 3, 3, 3, 0, 0], [3, 0, 0, 3, 3, 3, 0, 0]], 2)
    }

    pub fn good(&self) -> bool {
        plain::check(&self.table, self.store.len()).is_some()
    }

    /// A call with a buffer. A refusal must change nothing, and a success must leave the table well formed.
    pub fn with(&mut self, caller: u32, code: u32, [a, b, c]: [u32; 3], buffer: &mut [u8]) -> Answer {
        let (before, old_buffer) = (self.clone(), buffer.to_vec());
        let answer = call(&mut self.table, &mut self.store, &Request { caller, code, a, b, c }, buffer);
        if answer.error == Error::XOK {
            assert!(self.good(), "call {code} left a bad table");
        } else {
            assert_eq!((answer.first, answer.second), (0, 0));
            assert!(*self == before && buffer == old_buffer, "a refused call {code} changed something");
        }
        answer
    }

    pub fn call(&mut self, caller: u32, code: u32, arguments: [u32; 3]) -> Answer {
        self.with(caller, code, arguments, &mut [])
    }

    /// A call that must succeed; its results.
    pub fn done(&mut self, caller: u32, code: u32, arguments: [u32; 3]) -> (u32, u32) {
        let answer = self.call(caller, code, arguments);
        assert_eq!(answer.error, Error::XOK, "call {code} {arguments:?}");
        (answer.first, answer.second)
    }

    /// A call's error.
    pub fn error(&mut self, caller: u32, code: u32, arguments: [u32; 3]) -> Error {
        self.call(caller, code, arguments).error
    }

    pub fn read(&mut self, caller: u32, descriptor: u32, block: u32) -> Result<[u8; 512], Error> {
        let mut buffer = [0xee; 512];
        match self.with(caller, READ, [descriptor, block, 0], &mut buffer).error {
            Error::XOK => Ok(buffer),
            error => Err(error),
        }
    }

    pub fn write(&mut self, caller: u32, descriptor: u32, block: u32, byte: u8) -> Error {
        self.with(caller, WRITE, [descriptor, block, 0], &mut [byte; 512]).error
    }

    pub fn post(&mut self, caller: u32, receiver: u32, text: &[u8; 12]) -> Error {
        self.with(caller, POST, [receiver, 0, 0], &mut text.clone()).error
    }

    pub fn receive(&mut self, caller: u32) -> Result<[u8; 16], Error> {
        let mut buffer = [0xee; 16];
        match self.with(caller, RECEIVE, [0; 3], &mut buffer).error {
            Error::XOK => Ok(buffer),
            error => Err(error),
        }
    }

    pub fn status(&mut self, caller: u32, seid: u32) -> Result<[u8; 16], Error> {
        let mut buffer = [0xee; 16];
        match self.with(caller, STATUS, [seid, 0, 0], &mut buffer).error {
            Error::XOK => Ok(buffer),
            error => Err(error),
        }
    }

    /// The first word of all records: behind header, cells and subtypes.
    fn records(&self) -> usize {
        8 + 8 * self.table[0] as usize + 4 * self.table[6] as usize
    }

    pub fn process(&mut self, index: usize) -> &mut [u32] {
        let at = self.records() + 112 * index;
        &mut self.table[at..at + 112]
    }

    pub fn segment(&mut self, index: usize) -> &mut [u32] {
        let at = self.records() + 112 * self.table[1] as usize + 8 * index;
        &mut self.table[at..at + 8]
    }

    pub fn file(&mut self, index: usize) -> &mut [u32] {
        let at = self.records() + 112 * self.table[1] as usize + 8 * self.table[2] as usize + 9 * index;
        &mut self.table[at..at + 9]
    }
}

pub fn process(index: u32, serial: u32) -> u32 {
    4 * 16777216 + index * 65536 + serial
}

pub fn segment(index: u32, serial: u32) -> u32 {
    5 * 16777216 + index * 65536 + serial
}

pub fn file(index: u32, serial: u32) -> u32 {
    129 * 16777216 + index * 65536 + serial
}

pub fn subtype(index: u32) -> u32 {
    6 * 16777216 + index * 65536 + 1
}
