//! The calls. Each looks for its refusals first, in the documents' order, and writes only after the last of them.

use crate::errors::Error::{self, *};
use crate::seid::{Kind, SUBTYPE_SERIAL, Seid};
use crate::table::*;
use std::ops::{Deref, Range};

#[derive(Clone, Copy, Debug, PartialEq, Eq)]
pub struct Answer {
    pub error: Error,
    pub first: u32,
    pub second: u32,
}

#[derive(Clone, Copy, Debug, Default, PartialEq, Eq)]
pub struct Request {
    pub caller: u32,
    pub code: u32,
    pub a: u32,
    pub b: u32,
    pub c: u32,
}

/// A call's two results, or its refusal.
type Outcome = Result<(u32, u32), Error>;

const DONE: Outcome = Ok((0, 0));

pub fn call(table: &mut [u32], store: &mut [u8], request: &Request, buffer: &mut [u8]) -> Answer {
    match check(table, store.len()) {
        Some(shape) => judged(&shape, table, store, request, Some(buffer)),
        None => Answer { error: XbTab, first: 0, second: 0 },
    }
}

/// A call on a table that has been judged. Where there is no buffer, since a tray's record names a part outside the bytes lent, that is
/// told once the caller and the code are right.
pub(crate) fn judged(
    shape: &Shape,
    table: &mut [u32],
    store: &mut [u8],
    request: &Request,
    buffer: Option<&mut [u8]>,
) -> Answer {
    let (error, (first, second)) = match outcome(shape, table, store, request, buffer) {
        Ok(results) => (XOK, results),
        Err(error) => (error, (0, 0)),
    };
    Answer { error, first, second }
}

fn outcome(
    shape: &Shape,
    table: &mut [u32],
    store: &mut [u8],
    request: &Request,
    buffer: Option<&mut [u8]>,
) -> Outcome {
    let &Request { caller, code, a, b, c } = request;
    let mut caller = Caller::live(shape, table, store, caller)?;
    let Some(buffer) = buffer else {
        // Which codes are calls' is said below: it is asked on copies.
        let tried = outcome(shape, &mut caller.table.to_vec(), &mut caller.store.to_vec(), request, Some(&mut []));
        return Err(if tried == Err(XbdKcl) { XbdKcl } else { XbSz });
    };
    match code {
        1 => caller.spawn(a, b, c),
        2 => caller.release_process(a),
        3 => caller.build_segment(a, b, c),
        4 => caller.rendezvous(a, b),
        5 => caller.release_segment(a),
        6 => caller.set_access(a, b),
        7 => caller.create(a, b, c),
        8 => caller.open(a, b, c),
        9 => caller.close(a),
        10 => caller.link(a),
        11 => caller.unlink(a),
        12 => caller.set_bits(a, b),
        13 => caller.read_block(a, b, buffer),
        14 => caller.write_block(a, b, buffer),
        15 => caller.post(a, buffer),
        16 => caller.receive(buffer),
        17 => caller.status(a, buffer),
        18 => caller.access(a),
        19 => caller.remap(a, b, c),
        20 => caller.page_access(a),
        21 => caller.regrade(a, b, c, buffer),
        _ => Err(XbdKcl),
    }
}

/// The block that a read would copy, as a part of the store: under the refusals of a read, but for the buffer's length.
pub fn view<'a>(table: &[u32], store: &'a [u8], caller: u32, descriptor: u32, block: u32) -> Result<&'a [u8], Error> {
    let shape = check(table, store.len()).ok_or(XbTab)?;
    let part = Caller::live(&shape, table, store, caller)?.readable(descriptor, block)?;
    Ok(&store[part])
}

/// A live process that makes a call on a well-formed table. Table and store are lent to be changed, or to be looked at alone.
struct Caller<'a, T, S> {
    table: T,
    store: S,
    shape: &'a Shape,
    /// The first word of its record.
    at: usize,
    cell: usize,
    seid: u32,
    owner: u32,
    group: u32,
}

/// A slot: its kind and index, the first word of its record, and its cell.
#[derive(Clone, Copy)]
struct Object {
    kind: Kind,
    index: usize,
    at: usize,
    cell: usize,
}

fn refuse_if(test: bool, error: Error) -> Result<(), Error> {
    if test { Err(error) } else { Ok(()) }
}

/// Where the bits stand in a record.
fn bits_word(kind: Kind) -> usize {
    match kind {
        Kind::Process => PROCESS_BITS,
        Kind::Segment | Kind::File => BITS,
    }
}

/// Empties the pages of a designator.
fn unmap(map: &mut [u32], designator: u32) {
    for page in map.iter_mut().filter(|page| **page == designator + 1) {
        *page = 0;
    }
}

/// Read and write among the modes; the exclusive ones ask for nothing.
const READS: u32 = 1;
const WRITES: u32 = 2;

/// The bits that modes ask for.
fn bits_asked(modes: u32) -> u32 {
    let read = if modes & READS != 0 { READ } else { 0 };
    let write = if modes & WRITES != 0 { WRITE } else { 0 };
    read | write
}

/// Only five mode numbers are valid.
pub fn valid_modes(modes: u32) -> bool {
    matches!(modes, 1 | 2 | 3 | 11 | 15)
}

/// "Opens clash when either has 4, or one has 8 and the other 2."
pub fn clash(x: u32, y: u32) -> bool {
    (x | y) & 4 != 0 || x & 8 != 0 && y & 2 != 0 || y & 8 != 0 && x & 2 != 0
}

/// What the bits of an object grant to a process: read and write, at places 256 and 128.
pub fn granted(bits: u32, same_owner: bool, same_group: bool) -> u32 {
    let set = if same_owner {
        bits
    } else if same_group {
        bits << 3
    } else {
        bits << 6
    };
    set & (READ | WRITE)
}

impl<'a, T: Deref<Target = [u32]>, S> Caller<'a, T, S> {
    /// The process in a slot, if it is live.
    fn live(shape: &'a Shape, table: T, store: S, caller: u32) -> Result<Self, Error> {
        let caller = caller as usize;
        if caller >= shape.count(Kind::Process) || table[shape.at(Kind::Process, caller) + LIVE] == 0 {
            return Err(XbPrSd);
        }
        let at = shape.at(Kind::Process, caller);
        Ok(Caller {
            at,
            cell: shape.cell(Kind::Process, caller),
            seid: Kind::Process.seid(caller, table[at + SERIAL]),
            owner: table[at + OWNER],
            group: table[at + GROUP],
            shape,
            table,
            store,
        })
    }

    fn slot(&self, kind: Kind, index: usize) -> Object {
        Object { kind, index, at: self.shape.at(kind, index), cell: self.shape.cell(kind, index) }
    }

    fn word(&self, object: Object, word: usize) -> u32 {
        self.table[object.at + word]
    }

    /// Seid 0 means the calling process, in every call that takes a seid.
    fn named(&self, seid: u32) -> u32 {
        if seid == 0 { self.seid } else { seid }
    }

    // Finding.

    /// Form and class, then level by `allowed` on the object's cell, then liveness and serial.
    fn find(&self, kind: Kind, word: u32, allowed: impl Fn(usize) -> bool) -> Result<Object, Error> {
        let seid = Seid::of(self.named(word));
        refuse_if(!seid.fits(kind, self.shape.count(kind)), kind.absent())?;
        let object = self.slot(kind, seid.index);
        refuse_if(!allowed(object.cell), XnoAcc)?;
        refuse_if(self.stale(object, seid.serial), kind.absent())?;
        Ok(object)
    }

    fn stale(&self, object: Object, serial: u32) -> bool {
        self.word(object, LIVE) == 0 || self.word(object, SERIAL) != serial
    }

    /// "Own is find with another cell giving 13, then owner unequal 14."
    fn own(&self, kind: Kind, word: u32) -> Result<Object, Error> {
        let object = self.find(kind, word, |cell| cell == self.cell)?;
        refuse_if(self.word(object, OWNER) != self.owner, XnoOwner)?;
        Ok(object)
    }

    fn flows_here(&self, cell: usize) -> bool {
        self.shape.flow[cell][self.cell]
    }

    /// Whether the level lets the caller open something of a cell: reading needs flow to the caller, writing its own cell.
    fn may_open(&self, cell: usize, modes: u32) -> bool {
        let (reads, writes) = (modes & READS != 0, modes & WRITES != 0);
        (!reads || self.flows_here(cell)) && (!writes || cell == self.cell)
    }

    /// What today's bits of an object grant to the caller.
    fn granted(&self, object: Object) -> u32 {
        let same_owner = self.word(object, OWNER) == self.owner;
        let same_group = self.word(object, GROUP) == self.group;
        granted(self.word(object, bits_word(object.kind)), same_owner, same_group)
    }

    fn lacks(&self, object: Object, access: u32) -> bool {
        access & !self.granted(object) != 0
    }

    // Slots and entries.

    /// Of the slots of a cell that aren't live and have a serial left, the one with the smallest serial; the lowest among equals.
    fn free_slot(&self, kind: Kind, cell: usize) -> Option<Object> {
        self.shape
            .run(kind, cell)
            .map(|index| self.slot(kind, index))
            .filter(|&slot| self.word(slot, LIVE) == 0 && self.word(slot, SERIAL) < MAX_SERIAL)
            .min_by_key(|&slot| self.word(slot, SERIAL))
    }

    /// The word at which the caller's entry stands.
    fn entry_at(&self, entries: usize, place: usize) -> usize {
        self.at + entries + ENTRY_WORDS * place
    }

    fn empty_place(&self, entries: usize) -> Option<usize> {
        (0..ENTRIES).find(|&place| self.table[self.entry_at(entries, place)] == 0)
    }

    /// The seid and rights that the caller holds at a place, if it is a place and holds something.
    fn entry(&self, entries: usize, place: u32) -> Option<(u32, u32)> {
        if place as usize >= ENTRIES {
            return None;
        }
        let at = self.entry_at(entries, place as usize);
        (self.table[at] != 0).then_some((self.table[at], self.table[at + 1]))
    }

    fn designator(&self, place: u32) -> Result<(u32, u32), Error> {
        refuse_if(place as usize >= ENTRIES, XnSgDes)?;
        self.entry(DESIGNATORS, place).ok_or(XbSgDes)
    }

    fn descriptor(&self, place: u32) -> Result<(u32, u32), Error> {
        self.entry(DESCRIPTORS, place).ok_or(XbadOd)
    }

    /// The subtype that the caller holds at the descriptor which c names, as descriptor + 1, and in which modes.
    fn held_subtype(&self, c: u32) -> Result<(u32, u32), Error> {
        let descriptor = c.checked_sub(1).ok_or(XbadStCap)?;
        self.entry(DESCRIPTORS, descriptor).filter(|&(seid, _)| Seid::of(seid).of_subtype()).ok_or(XbadStCap)
    }

    /// The object of an entry, or None where the entry is stale. The table is well formed, so the slot is there.
    fn object(&self, kind: Kind, word: u32) -> Option<Object> {
        let seid = Seid::of(word);
        let object = self.slot(kind, seid.index);
        (!self.stale(object, seid.serial)).then_some(object)
    }

    /// The file of a descriptor that is to be used with a mode and an access, up to the judging of its bits.
    fn opened(&self, descriptor: u32, mode: u32, wrong_mode: Error, access: u32) -> Result<Object, Error> {
        let (seid, modes) = self.descriptor(descriptor)?;
        refuse_if(modes & mode == 0, wrong_mode)?;
        refuse_if(Seid::of(seid).of_subtype(), XnoObj)?; // it has no blocks
        let file = self.object(Kind::File, seid).ok_or(XnoObj)?;
        refuse_if(self.lacks(file, access), XdapViol)?;
        Ok(file)
    }

    /// The bytes of the store that a read of a block copies.
    fn readable(&self, descriptor: u32, block: u32) -> Result<Range<usize>, Error> {
        let file = self.opened(descriptor, READS, XnotReadable, READ)?;
        refuse_if(block as usize >= self.shape.blocks, XbadBlockNo)?;
        refuse_if(block >= self.word(file, SIZE), XendOfFile)?;
        let start = self.shape.stretch(file.index).start + block as usize * BLOCK_BYTES;
        Ok(start..start + BLOCK_BYTES)
    }
}

impl Caller<'_, &mut [u32], &mut [u8]> {
    /// Makes a free slot live, with what all three kinds have in common; its new seid.
    fn occupy(&mut self, kind: Kind, slot: Object, owner: u32, group: u32) -> u32 {
        let serial = self.table[slot.at + SERIAL] + 1;
        self.table[slot.at..slot.at + 4].copy_from_slice(&[1, serial, owner, group]);
        kind.seid(slot.index, serial)
    }

    /// Clears a record but for its serial.
    fn clear(&mut self, kind: Kind, index: usize) {
        let record = &mut self.table[self.shape.record(kind, index)];
        let serial = record[SERIAL];
        record.fill(0);
        record[SERIAL] = serial;
    }

    fn put_entry(&mut self, entries: usize, place: usize, seid: u32, rights: u32) {
        let at = self.entry_at(entries, place);
        self.table[at] = seid;
        self.table[at + 1] = rights;
    }

    /// Gives up the entry that stands at a word, if it holds anything: a process of the caller's cell holds it.
    fn give_up(&mut self, kind: Kind, entry_at: usize) {
        let seid = self.table[entry_at];
        if seid == 0 {
            return;
        }
        self.table[entry_at..entry_at + ENTRY_WORDS].fill(0);
        if Seid::of(seid).of_subtype() {
            return; // nobody counts who has it open
        }
        let index = Seid::of(seid).index;
        if self.shape.cell(kind, index) == self.cell {
            self.table[self.shape.at(kind, index) + HOLDS] -= 1;
            self.free_unheld(kind, index);
        }
    }

    /// Frees a segment without references, and a file with neither links nor opens.
    fn free_unheld(&mut self, kind: Kind, index: usize) {
        let at = self.shape.at(kind, index);
        let linked = kind == Kind::File && self.table[at + LINKS] != 0;
        if self.table[at + HOLDS] == 0 && !linked {
            self.clear(kind, index);
        }
    }

    // Processes.

    fn spawn(&mut self, owner: u32, group: u32, bits: u32) -> Outcome {
        refuse_if(owner > MAX_ID || group > MAX_ID || bits > MAX_BITS, XbParam)?;
        refuse_if(self.owner != 0 && (owner != self.owner || group != self.group), XnoPriv)?;
        let slot = self.free_slot(Kind::Process, self.cell).ok_or(XnoProc)?;
        let seid = self.occupy(Kind::Process, slot, owner, group);
        self.table[slot.at + PARENT] = self.seid;
        self.table[slot.at + PROCESS_BITS] = bits;
        Ok((seid, 0))
    }

    fn release_process(&mut self, process: u32) -> Outcome {
        let process = self.own(Kind::Process, process)?;
        for place in 0..ENTRIES {
            self.give_up(Kind::File, process.at + DESCRIPTORS + ENTRY_WORDS * place);
            self.give_up(Kind::Segment, process.at + DESIGNATORS + ENTRY_WORDS * place);
        }
        self.clear(Kind::Process, process.index);
        DONE
    }

    // Segments.

    fn build_segment(&mut self, size: u32, bits: u32, sharable: u32) -> Outcome {
        refuse_if(bits > MAX_BITS || sharable > 1, XbParam)?;
        refuse_if(!segment_size(size), XbSgSz)?;
        let place = self.empty_place(DESIGNATORS).ok_or(XodSpace)?;
        let slot = self.free_slot(Kind::Segment, self.cell).ok_or(XnoSpace)?;
        let seid = self.occupy(Kind::Segment, slot, self.owner, self.group);
        self.table[slot.at + BITS..=slot.at + HOLDS].copy_from_slice(&[bits, sharable, size, 1]);
        self.put_entry(DESIGNATORS, place, seid, bits & (READ | WRITE));
        Ok((seid, place as u32))
    }

    fn rendezvous(&mut self, segment: u32, access: u32) -> Outcome {
        refuse_if(!matches!(access, 128 | 256 | 384), XbParam)?;
        let writes = access & WRITE != 0;
        let object =
            self.find(Kind::Segment, segment, |cell| self.flows_here(cell) && (!writes || cell == self.cell))?;
        refuse_if(self.word(object, SHARABLE) == 0, XsgNoAcc)?;
        refuse_if(self.lacks(object, access), XdapViol)?;
        let held = (0..ENTRIES).any(|place| self.table[self.entry_at(DESIGNATORS, place)] == segment);
        refuse_if(held, XdupSg)?;
        let place = self.empty_place(DESIGNATORS).ok_or(XodSpace)?;
        self.put_entry(DESIGNATORS, place, segment, access);
        if object.cell == self.cell {
            self.table[object.at + HOLDS] += 1;
        }
        Ok((place as u32, 0))
    }

    fn release_segment(&mut self, designator: u32) -> Outcome {
        self.designator(designator)?;
        self.give_up(Kind::Segment, self.entry_at(DESIGNATORS, designator as usize));
        unmap(self.map(), designator);
        DONE
    }

    fn set_access(&mut self, designator: u32, access: u32) -> Outcome {
        refuse_if(!matches!(access, 0 | 128 | 256 | 384), XbParam)?;
        let (seid, _) = self.designator(designator)?;
        let object = self.object(Kind::Segment, seid).ok_or(XbSgSd)?;
        refuse_if(access & WRITE != 0 && object.cell != self.cell, XnoAcc)?;
        refuse_if(self.lacks(object, access), XdapViol)?;
        self.put_entry(DESIGNATORS, designator as usize, seid, access);
        DONE
    }

    fn access(&mut self, designator: u32) -> Outcome {
        let (seid, access) = self.designator(designator)?;
        let object = self.object(Kind::Segment, seid).ok_or(XbSgSd)?;
        Ok((access & self.granted(object), 0))
    }

    // The address map.

    /// The caller's pages.
    fn map(&mut self) -> &mut [u32; PAGES] {
        self.table[self.at + MAP..].first_chunk_mut().expect("a record ends with its map")
    }

    /// Takes one segment out of the map, if any, then brings one in, if any. The map is written when nothing is refused any more.
    fn remap(&mut self, incoming: u32, first: u32, outgoing: u32) -> Outcome {
        const NONE: u32 = ENTRIES as u32;
        refuse_if(incoming > NONE || outgoing > NONE, XnSgDes)?;
        let coming = if incoming == NONE { None } else { Some(self.designator(incoming)?.0) };
        let going = if outgoing == NONE { None } else { Some(self.designator(outgoing)?.0) };
        let coming = match coming {
            Some(seid) => Some(self.object(Kind::Segment, seid).ok_or(XbSgSd)?),
            None => None,
        };
        let mut map = *self.map();
        if going.is_some() {
            refuse_if(!map.contains(&(outgoing + 1)), XoutSgAldUmp)?;
            unmap(&mut map, outgoing);
        }
        if let Some(segment) = coming {
            refuse_if(map.contains(&(incoming + 1)), XinSgAldMap)?;
            let pages = self.word(segment, SIZE).div_ceil(PAGE_BYTES) as usize;
            let run = (first as usize).checked_add(pages).and_then(|end| map.get_mut(first as usize..end));
            let run = run.filter(|run| run.iter().all(|&page| page == 0)).ok_or(XvrtMmCfl)?;
            run.fill(incoming + 1);
        }
        *self.map() = map;
        DONE
    }

    fn page_access(&mut self, page: u32) -> Outcome {
        refuse_if(page as usize >= PAGES, XbParam)?;
        let mapped = self.map()[page as usize];
        refuse_if(mapped == 0, XbSgDes)?;
        self.access(mapped - 1)
    }

    // Files.

    fn create(&mut self, bits: u32, modes: u32, c: u32) -> Outcome {
        refuse_if(bits > MAX_BITS, XbParam)?;
        refuse_if(!valid_modes(modes), XbadModes)?;
        let subtype = if c == 0 { 0 } else { self.subtype_for_a_file(c)? };
        let place = self.empty_place(DESCRIPTORS).ok_or(XodSpace)?;
        let slot = self.free_slot(Kind::File, self.cell).ok_or(XnoSpace)?;
        let seid = self.occupy(Kind::File, slot, self.owner, self.group);
        self.table[slot.at + BITS..=slot.at + SUBTYPE].copy_from_slice(&[bits, 0, 0, 1, subtype]);
        self.put_entry(DESCRIPTORS, place, seid, modes);
        Ok((seid, place as u32))
    }

    /// The subtype that c names for a new file: one of the caller's cell, held for reading and writing.
    fn subtype_for_a_file(&self, c: u32) -> Result<u32, Error> {
        let (seid, modes) = self.held_subtype(c)?;
        let own = self.shape.subtype(Seid::of(seid)).is_some_and(|subtype| subtype.cell == self.cell);
        refuse_if(!own || modes & READS == 0 || modes & WRITES == 0, XbadSubtypeMatch)?;
        Ok(seid)
    }

    fn open(&mut self, seid: u32, modes: u32, c: u32) -> Outcome {
        refuse_if(!valid_modes(modes), XbadModes)?;
        if Seid::of(seid).of_subtype() { self.open_subtype(seid, modes) } else { self.open_file(seid, modes, c) }
    }

    fn open_file(&mut self, seid: u32, modes: u32, c: u32) -> Outcome {
        let file = self.find(Kind::File, seid, |cell| self.may_open(cell, modes))?;
        refuse_if(self.lacks(file, bits_asked(modes)), XdapViol)?;
        if self.word(file, SUBTYPE) != 0 {
            let (subtype, held) = self.held_subtype(c)?;
            let lacking = modes & !held & (READS | WRITES);
            refuse_if(subtype != self.word(file, SUBTYPE) || lacking != 0, XbadSubtypeMatch)?;
        }
        let place = self.place_to_open(file.cell, seid, modes)?;
        self.put_entry(DESCRIPTORS, place, seid, modes);
        if file.cell == self.cell {
            self.table[file.at + HOLDS] += 1;
        }
        Ok((place as u32, 0))
    }

    /// Form, level and serial of a subtype in the order of any object; but it is always there, and nobody counts who has it open.
    fn open_subtype(&mut self, word: u32, modes: u32) -> Outcome {
        let seid = Seid::of(word);
        refuse_if(seid.serial == 0, XnoObj)?;
        let &Subtype { cell, owner, group, bits } = self.shape.subtypes().get(seid.index).ok_or(XnoObj)?;
        refuse_if(!self.may_open(cell, modes), XnoAcc)?;
        refuse_if(seid.serial != SUBTYPE_SERIAL, XnoObj)?;
        let granted = granted(bits, owner == self.owner, group == self.group);
        refuse_if(bits_asked(modes) & !granted != 0, XdapViol)?;
        let place = self.place_to_open(cell, word, modes)?;
        self.put_entry(DESCRIPTORS, place, word, modes);
        Ok((place as u32, 0))
    }

    /// The place for an open that nothing in its own cell clashes with.
    fn place_to_open(&self, cell: usize, seid: u32, modes: u32) -> Result<usize, Error> {
        refuse_if(cell == self.cell && self.clashes(seid, modes), Xbusy)?;
        self.empty_place(DESCRIPTORS).ok_or(XodSpace)
    }

    /// Whether a descriptor held in the own cell of a file or subtype, the caller's, clashes with an open of it.
    fn clashes(&self, object: u32, modes: u32) -> bool {
        self.shape.run(Kind::Process, self.cell).any(|process| {
            let at = self.shape.at(Kind::Process, process);
            let (descriptors, _) = self.table[at + DESCRIPTORS..at + DESIGNATORS].as_chunks();
            descriptors.iter().any(|&[seid, held]| seid == object && clash(modes, held))
        })
    }

    fn close(&mut self, descriptor: u32) -> Outcome {
        self.descriptor(descriptor)?;
        self.give_up(Kind::File, self.entry_at(DESCRIPTORS, descriptor as usize));
        DONE
    }

    fn link(&mut self, file: u32) -> Outcome {
        let file = self.own(Kind::File, file)?;
        refuse_if(self.word(file, LINKS) == MAX_LINKS, XbadLink)?;
        self.table[file.at + LINKS] += 1;
        DONE
    }

    fn unlink(&mut self, file: u32) -> Outcome {
        let file = self.own(Kind::File, file)?;
        refuse_if(self.word(file, LINKS) == 0, XbadLink)?;
        self.table[file.at + LINKS] -= 1;
        self.free_unheld(Kind::File, file.index);
        DONE
    }

    fn set_bits(&mut self, seid: u32, bits: u32) -> Outcome {
        refuse_if(bits > MAX_BITS, XbParam)?;
        let kind = Kind::of_class(Seid::of(self.named(seid)).class).ok_or(XnoObj)?;
        let object = self.own(kind, seid)?;
        refuse_if(kind == Kind::Segment && self.word(object, SHARABLE) == 1, XshSg)?;
        self.table[object.at + bits_word(kind)] = bits;
        DONE
    }

    // Blocks.

    fn read_block(&mut self, descriptor: u32, block: u32, buffer: &mut [u8]) -> Outcome {
        refuse_if(buffer.len() != BLOCK_BYTES, XbSz)?;
        let part = self.readable(descriptor, block)?;
        buffer.copy_from_slice(&self.store[part]);
        DONE
    }

    fn write_block(&mut self, descriptor: u32, block: u32, buffer: &[u8]) -> Outcome {
        refuse_if(buffer.len() != BLOCK_BYTES, XbSz)?;
        let file = self.opened(descriptor, WRITES, XnotWritable, WRITE)?;
        refuse_if(block as usize >= self.shape.blocks, XbadBlockNo)?;
        let stretch = &mut self.store[self.shape.stretch(file.index)];
        let size = &mut self.table[file.at + SIZE];
        let start = block as usize * BLOCK_BYTES;
        if *size < block {
            stretch[*size as usize * BLOCK_BYTES..start].fill(0);
        }
        stretch[start..start + BLOCK_BYTES].copy_from_slice(buffer);
        *size = (*size).max(block + 1);
        DONE
    }

    // The regrading desk.

    /// A copy of an open file in any cell, as a new file that nobody has open.
    fn regrade(&mut self, descriptor: u32, cell: u32, bits: u32, buffer: &[u8]) -> Outcome {
        refuse_if(self.shape.guard != Some(self.cell), XnoSPriv)?;
        let &[o1, o0, g1, g0] = buffer else {
            return Err(XbSz);
        };
        refuse_if(cell as usize >= self.shape.cells || bits > MAX_BITS, XbParam)?;
        let source = self.opened(descriptor, READS, XnotReadable, READ)?;
        let slot = self.free_slot(Kind::File, cell as usize).ok_or(XnoSpace)?;
        let size = self.word(source, SIZE);
        let [owner, group] = [[o1, o0], [g1, g0]].map(|bytes| u32::from(u16::from_be_bytes(bytes)));
        let seid = self.occupy(Kind::File, slot, owner, group);
        self.table[slot.at + BITS..=slot.at + HOLDS].copy_from_slice(&[bits, 1, size, 0]);
        let from = self.shape.stretch(source.index).start;
        let bytes = size as usize * BLOCK_BYTES;
        self.store.copy_within(from..from + bytes, self.shape.stretch(slot.index).start);
        Ok((seid, 0))
    }

    // Messages.

    fn post(&mut self, receiver: u32, buffer: &[u8]) -> Outcome {
        refuse_if(buffer.len() != 12, XbSz)?;
        let seid = Seid::of(self.named(receiver));
        refuse_if(!seid.fits(Kind::Process, self.shape.count(Kind::Process)), XbPrSd)?;
        let receiver = self.slot(Kind::Process, seid.index);
        refuse_if(!self.shape.flow[self.cell][receiver.cell], XnoAcc)?;
        let absent = self.stale(receiver, seid.serial);
        let forbidden = self.lacks(receiver, WRITE);
        let queued = self.word(receiver, QUEUED) as usize;
        if receiver.cell == self.cell {
            refuse_if(absent, XbPrSd)?;
            refuse_if(forbidden, XdapViol)?;
            refuse_if(queued == QUEUE, XpostEh)?;
        } else if absent || forbidden || queued == QUEUE {
            return DONE; // the poster must not learn it
        }
        let at = receiver.at + MESSAGES + MESSAGE_WORDS * queued;
        self.table[at] = self.seid;
        for (word, bytes) in self.table[at + 1..at + MESSAGE_WORDS].iter_mut().zip(buffer.as_chunks().0) {
            *word = u32::from_be_bytes(*bytes);
        }
        self.table[receiver.at + QUEUED] += 1;
        DONE
    }

    fn receive(&mut self, buffer: &mut [u8]) -> Outcome {
        refuse_if(buffer.len() != 16, XbSz)?;
        refuse_if(self.table[self.at + QUEUED] == 0, XbNoMes)?;
        self.table[self.at + QUEUED] -= 1;
        let messages = &mut self.table[self.at + MESSAGES..self.at + MAP];
        for (bytes, word) in buffer.chunks_exact_mut(4).zip(&*messages) {
            bytes.copy_from_slice(&word.to_be_bytes());
        }
        messages.copy_within(MESSAGE_WORDS.., 0);
        messages[(QUEUE - 1) * MESSAGE_WORDS..].fill(0);
        DONE
    }

    // Status.

    fn status(&mut self, seid: u32, buffer: &mut [u8]) -> Outcome {
        refuse_if(buffer.len() != 16, XbSz)?;
        let kind = Kind::of_class(Seid::of(self.named(seid)).class).ok_or(XnoObj)?;
        let object = self.find(kind, seid, |cell| self.flows_here(cell))?;
        let level = self.shape.levels[object.cell];
        let bits = self.word(object, bits_word(kind));
        buffer[0] = kind.class() as u8;
        buffer[1] = object.cell as u8;
        buffer[2..4].copy_from_slice(&(self.word(object, OWNER) as u16).to_be_bytes());
        buffer[4..6].copy_from_slice(&(self.word(object, GROUP) as u16).to_be_bytes());
        buffer[6..8].copy_from_slice(&(bits as u16).to_be_bytes());
        buffer[8] = level.security as u8;
        buffer[9] = level.integrity as u8;
        buffer[10..14].copy_from_slice(&level.compartments.to_be_bytes());
        buffer[14..16].fill(0);
        DONE
    }
}
