//! A monitor that owns its table and store, with a method for each call.

use crate::code::Code;
use crate::error::Error;
use crate::hall::Hall;
use crate::layout::{BLOCK_BYTES, ENTRIES, IDENTITY_BYTES, MESSAGE_BYTES, STATUS_BYTES, TEXT_BYTES};
use crate::raw::{self, Answer, Record};
use crate::rights::{Access, Bits, Modes};
use crate::seid::Seid;
use crate::told::{Message, Status};
use std::fmt;

/// The process that makes a call, by its slot. A slot that a new process has taken is the new process. That of a cell's first process
/// is [`Hall::first_process`], that of a process that was spawned `Caller(seid.slot())`.
///
/// The host says who calls, and must not let a program choose it: that is how the monitor knows who asks.
#[derive(Clone, Copy, Debug, PartialEq, Eq, PartialOrd, Ord, Hash)]
pub struct Caller(pub u32);

/// A place among the files and subtypes that a process has open.
#[derive(Clone, Copy, Debug, PartialEq, Eq, PartialOrd, Ord, Hash)]
pub struct Descriptor(pub u32);

/// A place among the segments that a process holds.
#[derive(Clone, Copy, Debug, PartialEq, Eq, PartialOrd, Ord, Hash)]
pub struct Designator(pub u32);

/// A page of a process's address map.
#[derive(Clone, Copy, Debug, PartialEq, Eq, PartialOrd, Ord, Hash)]
pub struct Page(pub u32);

/// A table and a store in use, and the calls on them.
///
/// ```
/// use monitor::{Bits, Caller, Cell, Error, Hall, Level, Modes, Monitor};
///
/// let cell = |security| Cell { level: Level::new(security, 0, 0), processes: 2, files: 1, ..Cell::default() };
/// let hall = Hall { blocks: 1, cells: vec![cell(1), cell(3)], ..Hall::default() };
/// let mut monitor = Monitor::set_up(&hall)?;
/// let [desk, auditor] = [0, 1].map(|cell| Caller(hall.first_process(cell)));
///
/// let (ledger, descriptor) = monitor.create_file(desk, Bits(0o644), Modes::ReadWrite)?;
/// monitor.write_block(desk, descriptor, 0, &[b'*'; 512])?;
/// let reading = monitor.open(auditor, ledger, Modes::Read)?;
/// let mut block = [0; 512];
/// monitor.read_block(auditor, reading, 0, &mut block)?;
/// assert_eq!(block, [b'*'; 512]);
/// assert_eq!(monitor.open(auditor, ledger, Modes::Write), Err(Error::XnoAcc));
/// # Ok::<(), Error>(())
/// ```
///
/// # One call at a time
///
/// Two calls at once on one table would be the host's fault, and safe code cannot make it: every call borrows the monitor for
/// itself alone (`&mut self`), and so it does from another thread.
///
/// ```compile_fail,E0499
/// # let mut monitor = monitor::Monitor::set_up(&monitor::Hall::default()).unwrap();
/// let (one, other) = (&mut monitor, &mut monitor);
/// one.receive(monitor::Caller(0));
/// other.receive(monitor::Caller(1));
/// ```
///
/// A monitor is `Send`: it is its two lists and nothing else, so it may be made on one thread and used on another, or by several
/// behind a `Mutex`, which then makes their calls one after another. Calls on different monitors have nothing in common.
///
/// # Memory
///
/// Set-up allocates the table and the store, [`image`](Monitor::image) its bytes and [`work`](Monitor::work) its words; no call and no
/// tray allocates.
#[derive(Clone, PartialEq, Eq)]
pub struct Monitor {
    table: Box<[u32]>,
    store: Box<[u8]>,
}

impl Monitor {
    /// A fresh table and a store of zeros: the first process of each cell is live, and nothing else. A bad configuration is
    /// refused with XbParam.
    pub fn set_up(hall: &Hall) -> Result<Monitor, Error> {
        let (mut table, store) = (hall.table(), hall.store());
        raw::setup(&mut table, store.len())?;
        Ok(Monitor { table: table.into(), store: store.into() })
    }

    /// A table and a store that stood elsewhere. One that is not well formed is refused with XbTab.
    pub fn from_parts(table: impl Into<Box<[u32]>>, store: impl Into<Box<[u8]>>) -> Result<Monitor, Error> {
        let (table, store) = (table.into(), store.into());
        if !raw::well_formed(&table, store.len()) {
            return Err(Error::XbTab);
        }
        Ok(Monitor { table, store })
    }

    /// The table and the store, to be kept elsewhere.
    pub fn into_parts(self) -> (Box<[u32]>, Box<[u8]>) {
        (self.table, self.store)
    }

    /// The table's words, as [`layout`](crate::layout) places them.
    pub fn table(&self) -> &[u32] {
        &self.table
    }

    /// The store's bytes.
    pub fn store(&self) -> &[u8] {
        &self.store
    }

    /// The table and the store, to be changed. A table that is no longer well formed is not dangerous: every call refuses it
    /// with XbTab.
    pub fn parts_mut(&mut self) -> (&mut [u32], &mut [u8]) {
        (&mut self.table, &mut self.store)
    }

    /// Whether the table is well formed. After set-up and calls alone it always is.
    pub fn well_formed(&self) -> bool {
        raw::well_formed(&self.table, self.store.len())
    }

    /// Calls by the tray: the table is judged once, and the records are run in order, as [`tray`](crate::tray) says. It is as if each
    /// were made by [`call`](Monitor::call) on its part of the bytes.
    pub fn tray(&mut self, records: &mut [Record], buffers: &mut [u8]) -> Result<(), Error> {
        raw::tray(&mut self.table, &mut self.store, records, buffers)
    }

    /// The working slice of the table as it stands, to be lent to [`quick_tray`](Monitor::quick_tray). Refused with XbTab only if the
    /// table was changed by hand. To fill one that is there already, [`work`](crate::work) takes no memory.
    pub fn work(&self) -> Result<Vec<u32>, Error> {
        let length = raw::work_length(&self.table, self.store.len()).ok_or(Error::XbTab)?;
        let mut work = vec![0; length];
        raw::work(&self.table, self.store.len(), &mut work)?;
        Ok(work)
    }

    /// Calls by the tray, as [`tray`](Monitor::tray) runs them and with the same answers, by means of the table's working slice: it is
    /// quicker where a cell has many files or processes. A slice serves from one quick tray to the next, as long as nothing else
    /// changes the table; one that is not the table's is refused with XbTab, and nothing is changed.
    ///
    /// ```
    /// use monitor::{Bits, Caller, Cell, Code, Error, Hall, Modes, Monitor, Record};
    ///
    /// let cell = Cell { processes: 1, files: 2, ..Cell::default() };
    /// let mut monitor = Monitor::set_up(&Hall { blocks: 1, cells: vec![cell], ..Hall::default() })?;
    /// let create = Record { code: Code::CreateFile.number(), a: 0o644, b: 3, ..Record::default() };
    /// let close = Record { code: Code::Close.number(), ..Record::default() };
    ///
    /// let mut work = monitor.work()?; // once
    /// for _ in 0..3 {
    ///     let mut night = [create, close];
    ///     monitor.quick_tray(&mut night, &mut [], &mut work)?;
    ///     assert!(night.iter().all(|record| record.answer.error == 0));
    /// }
    /// monitor.create_file(Caller(0), Bits(0o644), Modes::ReadWrite)?; // the slice doesn't know of it
    /// assert_eq!(monitor.quick_tray(&mut [create], &mut [], &mut work), Err(Error::XbTab));
    /// work = monitor.work()?;
    /// monitor.quick_tray(&mut [create], &mut [], &mut work)?;
    /// # Ok::<(), Error>(())
    /// ```
    pub fn quick_tray(&mut self, records: &mut [Record], buffers: &mut [u8], work: &mut [u32]) -> Result<(), Error> {
        raw::quick_tray(&mut self.table, &mut self.store, records, buffers, work)
    }

    /// The image of table and store: the bytes to keep over a Sunday, as many as [`image_length`](crate::image_length) says. Refused
    /// with XbTab only if the table was changed by hand.
    ///
    /// ```
    /// use monitor::{Cell, Error, Hall, Monitor};
    ///
    /// let hall = Hall { blocks: 1, cells: vec![Cell { processes: 1, files: 1, ..Cell::default() }], ..Hall::default() };
    /// let evening = Monitor::set_up(&hall)?;
    /// let mut image = evening.image()?;
    /// let mut morning = Monitor::set_up(&hall)?;
    /// morning.reload(&image)?;
    /// assert_eq!(morning, evening);
    /// image.pop();
    /// assert_eq!(morning.reload(&image), Err(Error::XbParam));
    /// # Ok::<(), Error>(())
    /// ```
    pub fn image(&self) -> Result<Vec<u8>, Error> {
        let length = raw::image_length(&self.table, self.store.len()).ok_or(Error::XbTab)?;
        let mut bytes = vec![0; length];
        raw::image(&self.table, &self.store, &mut bytes)?;
        Ok(bytes)
    }

    /// Table and store as an image has them; an image that is not one of a hall of these lengths is refused with XbParam, and
    /// nothing is touched. A reload is no call: it takes history back, so an identifier that was handed out since the image may be
    /// handed out again.
    ///
    /// # Stack
    ///
    /// However small the hall, a reload takes the room of the largest table on the stack, 132,896 bytes, and some 3 KiB more: on a thread
    /// with 64 KiB it ends the process. [`reload`](crate::reload) says more.
    ///
    /// ```
    /// # use monitor::{Cell, Error, Hall, Monitor};
    /// # let hall = Hall { blocks: 1, cells: vec![Cell { processes: 1, files: 1, ..Cell::default() }], ..Hall::default() };
    /// # let mut morning = Monitor::set_up(&hall)?;
    /// # let image = morning.image()?;
    /// let thread = std::thread::Builder::new().stack_size(192 << 10).spawn(move || morning.reload(&image));
    /// assert_eq!(thread.expect("it starts").join().expect("it has room"), Ok(()));
    /// # Ok::<(), Error>(())
    /// ```
    pub fn reload(&mut self, image: &[u8]) -> Result<(), Error> {
        raw::reload(&mut self.table, &mut self.store, image)
    }

    /// Any call, by its numbers: for hosts that hand calls through.
    pub fn call(&mut self, caller: Caller, code: u32, arguments: [u32; 3], buffer: &mut [u8]) -> Answer {
        raw::call(&mut self.table, &mut self.store, caller.0, code, arguments, buffer)
    }

    fn ask(&mut self, caller: Caller, code: Code, a: u32, b: u32, c: u32) -> Result<(u32, u32), Error> {
        self.ask_with(caller, code, [a, b, c], &mut [])
    }

    fn ask_with(
        &mut self,
        caller: Caller,
        code: Code,
        arguments: [u32; 3],
        buffer: &mut [u8],
    ) -> Result<(u32, u32), Error> {
        self.call(caller, code.number(), arguments, buffer).result()
    }

    /// A new process of the caller's cell, whose child it is. Only owner 0 may give another owner or group than its own. The bits
    /// say who may post to it; with none nobody can. The new process calls by its slot:
    ///
    /// ```
    /// # use monitor::{Bits, Caller, Cell, Error, Hall, Monitor};
    /// # let cell = Cell { processes: 2, ..Cell::default() };
    /// # let mut monitor = Monitor::set_up(&Hall { blocks: 1, cells: vec![cell], ..Hall::default() })?;
    /// # let desk = Caller(0);
    /// let seid = monitor.spawn(desk, 17, 18, Bits(0o620))?;
    /// let clerk = Caller(seid.slot());
    /// assert_eq!(monitor.status(clerk, seid)?.owner, 17);
    /// # Ok::<(), Error>(())
    /// ```
    pub fn spawn(&mut self, caller: Caller, owner: u16, group: u16, bits: Bits) -> Result<Seid, Error> {
        let (seid, _) = self.ask(caller, Code::Spawn, owner.into(), group.into(), bits.0.into())?;
        Ok(seid.into())
    }

    /// Ends a process of the caller's cell and owner, or the caller ([`Seid::CALLER`]): all that it holds is given up.
    pub fn release_process(&mut self, caller: Caller, process: Seid) -> Result<(), Error> {
        self.ask(caller, Code::ReleaseProcess, process.into(), 0, 0)?;
        Ok(())
    }

    /// A new segment of the caller's cell; its size is a multiple of 512 from 512 to 65024.
    pub fn build_segment(
        &mut self,
        caller: Caller,
        size: u32,
        bits: Bits,
        sharable: bool,
    ) -> Result<(Seid, Designator), Error> {
        let (seid, place) = self.ask(caller, Code::BuildSegment, size, bits.0.into(), sharable.into())?;
        Ok((seid.into(), Designator(place)))
    }

    /// Takes up a sharable segment; to write, one of the caller's cell.
    pub fn rendezvous(&mut self, caller: Caller, segment: Seid, access: Access) -> Result<Designator, Error> {
        let (place, _) = self.ask(caller, Code::Rendezvous, segment.into(), access.number(), 0)?;
        Ok(Designator(place))
    }

    /// Gives up a segment and empties its pages; one that no designator of its own cell holds any more is gone.
    pub fn release_segment(&mut self, caller: Caller, designator: Designator) -> Result<(), Error> {
        self.ask(caller, Code::ReleaseSegment, designator.0, 0, 0)?;
        Ok(())
    }

    /// Sets what the caller may do with a segment that it holds, within the segment's bits.
    pub fn set_access(&mut self, caller: Caller, designator: Designator, access: Access) -> Result<(), Error> {
        self.ask(caller, Code::SetAccess, designator.0, access.number(), 0)?;
        Ok(())
    }

    /// A new file of the caller's cell, open for the caller. Its bits are not judged here. It has no subtype.
    pub fn create_file(&mut self, caller: Caller, bits: Bits, modes: Modes) -> Result<(Seid, Descriptor), Error> {
        let (seid, place) = self.ask(caller, Code::CreateFile, bits.0.into(), modes.number(), 0)?;
        Ok((seid.into(), Descriptor(place)))
    }

    /// A new file of a subtype of the caller's cell, which the caller has open to read and write at a descriptor. From then on the file
    /// opens only to who has its subtype open: by [`open_subtyped`](Monitor::open_subtyped).
    ///
    /// ```
    /// use monitor::{Bits, Caller, Cell, Error, Hall, Modes, Monitor, Seid, Subtype};
    ///
    /// // Subtype 0 is for directories: who has owner 10 may open it, and nobody else.
    /// let directories = Subtype { cell: 0, owner: 10, group: 10, bits: Bits(0o600) };
    /// let cell = Cell { processes: 2, files: 1, owner: 10, group: 10, ..Cell::default() };
    /// let hall = Hall { blocks: 1, cells: vec![cell], subtypes: vec![directories], ..Hall::default() };
    /// let mut monitor = Monitor::set_up(&hall)?;
    /// let manager = Caller(0);
    ///
    /// let held = monitor.open(manager, Seid::subtype(0), Modes::ReadWrite)?;
    /// let (directory, _) = monitor.create_subtyped(manager, Bits(0o666), Modes::ReadWrite, held)?;
    /// assert_eq!(monitor.open(manager, directory, Modes::Read), Err(Error::XbadStCap));
    /// monitor.open_subtyped(manager, directory, Modes::Read, held)?;
    /// monitor.close(manager, held)?; // what is open stays open
    /// # Ok::<(), Error>(())
    /// ```
    pub fn create_subtyped(
        &mut self,
        caller: Caller,
        bits: Bits,
        modes: Modes,
        subtype: Descriptor,
    ) -> Result<(Seid, Descriptor), Error> {
        let (seid, place) = self.ask(caller, Code::CreateFile, bits.0.into(), modes.number(), named(subtype))?;
        Ok((seid.into(), Descriptor(place)))
    }

    /// Opens a file that has no subtype, or a subtype ([`Seid::subtype`]); to write, one of the caller's cell.
    pub fn open(&mut self, caller: Caller, object: Seid, modes: Modes) -> Result<Descriptor, Error> {
        let (place, _) = self.ask(caller, Code::Open, object.into(), modes.number(), 0)?;
        Ok(Descriptor(place))
    }

    /// Opens a file by the descriptor at which the caller has the file's subtype open: to read for reading it, and to write for writing.
    /// A file without a subtype is opened whatever the descriptor.
    pub fn open_subtyped(
        &mut self,
        caller: Caller,
        file: Seid,
        modes: Modes,
        subtype: Descriptor,
    ) -> Result<Descriptor, Error> {
        let (place, _) = self.ask(caller, Code::Open, file.into(), modes.number(), named(subtype))?;
        Ok(Descriptor(place))
    }

    /// Closes a file, or a subtype, whose files stay open. A file that has no links and that no descriptor of its own cell holds any more
    /// is gone.
    pub fn close(&mut self, caller: Caller, descriptor: Descriptor) -> Result<(), Error> {
        self.ask(caller, Code::Close, descriptor.0, 0, 0)?;
        Ok(())
    }

    /// Adds a link to a file of the caller's cell and owner, which keeps it.
    pub fn link(&mut self, caller: Caller, file: Seid) -> Result<(), Error> {
        self.ask(caller, Code::Link, file.into(), 0, 0)?;
        Ok(())
    }

    /// Takes a link from a file of the caller's cell and owner; without links and opens it is gone.
    pub fn unlink(&mut self, caller: Caller, file: Seid) -> Result<(), Error> {
        self.ask(caller, Code::Unlink, file.into(), 0, 0)?;
        Ok(())
    }

    /// Sets the bits of a process, a file, or a segment that is not sharable, of the caller's cell and owner. They are judged anew at
    /// each use. [`Seid::CALLER`] is the caller.
    pub fn set_bits(&mut self, caller: Caller, object: Seid, bits: Bits) -> Result<(), Error> {
        self.ask(caller, Code::SetBits, object.into(), bits.0.into(), 0)?;
        Ok(())
    }

    /// Reads a block; a refusal leaves the buffer as it was.
    pub fn read_block(
        &mut self,
        caller: Caller,
        descriptor: Descriptor,
        block: u32,
        into: &mut [u8; BLOCK_BYTES],
    ) -> Result<(), Error> {
        self.ask_with(caller, Code::ReadBlock, [descriptor.0, block, 0], into)?;
        Ok(())
    }

    /// Shows a block, under the refusals of [`read_block`](Monitor::read_block): its bytes as they stand in the store, not a copy. They
    /// stay borrowed while they are looked at, so that no call can change them meanwhile.
    ///
    /// ```
    /// # use monitor::{Bits, Caller, Cell, Error, Hall, Modes, Monitor};
    /// # let cell = Cell { processes: 1, files: 1, ..Cell::default() };
    /// # let mut monitor = Monitor::set_up(&Hall { blocks: 1, cells: vec![cell], ..Hall::default() })?;
    /// # let desk = Caller(0);
    /// let (_, descriptor) = monitor.create_file(desk, Bits(0o600), Modes::ReadWrite)?;
    /// monitor.write_block(desk, descriptor, 0, &[b'\n'; 512])?;
    /// let lines = monitor.view(desk, descriptor, 0)?.iter().filter(|&&byte| byte == b'\n').count();
    /// assert_eq!(lines, 512);
    /// assert_eq!(monitor.view(desk, descriptor, 1), Err(Error::XbadBlockNo));
    /// # Ok::<(), Error>(())
    /// ```
    pub fn view(&self, caller: Caller, descriptor: Descriptor, block: u32) -> Result<&[u8], Error> {
        raw::view(&self.table, &self.store, caller.0, descriptor.0, block)
    }

    /// Writes a block; blocks between the file's end and it become zeros.
    pub fn write_block(
        &mut self,
        caller: Caller,
        descriptor: Descriptor,
        block: u32,
        bytes: &[u8; BLOCK_BYTES],
    ) -> Result<(), Error> {
        self.ask_with(caller, Code::WriteBlock, [descriptor.0, block, 0], &mut bytes.clone())?;
        Ok(())
    }

    /// Posts a message. In the caller's cell the receiver's bits must let the caller write; to a process of another cell a post
    /// always succeeds, delivered or not.
    pub fn post(&mut self, caller: Caller, process: Seid, text: &[u8; TEXT_BYTES]) -> Result<(), Error> {
        self.ask_with(caller, Code::Post, [process.into(), 0, 0], &mut text.clone())?;
        Ok(())
    }

    /// Takes the oldest message that is waiting.
    pub fn receive(&mut self, caller: Caller) -> Result<Message, Error> {
        let mut bytes = [0; MESSAGE_BYTES];
        self.ask_with(caller, Code::Receive, [0; 3], &mut bytes)?;
        Ok(Message::from_bytes(bytes))
    }

    /// What a process, segment or file of a cell that flows to the caller's is. [`Seid::CALLER`] is the caller.
    pub fn status(&mut self, caller: Caller, object: Seid) -> Result<Status, Error> {
        let mut bytes = [0; STATUS_BYTES];
        self.ask_with(caller, Code::Status, [object.into(), 0, 0], &mut bytes)?;
        Ok(Status::from_bytes(bytes).expect("the monitor tells the class of a kind"))
    }

    /// What the caller may do today with a segment that it holds.
    pub fn access(&mut self, caller: Caller, designator: Designator) -> Result<Access, Error> {
        let (access, _) = self.ask(caller, Code::Access, designator.0, 0, 0)?;
        Ok(Access::of(access).expect("the monitor answers an access"))
    }

    /// Takes the outgoing segment out of the caller's map, if one is given, then brings in the incoming one from a page on, if one
    /// is given. One and the same may go out and come in: it moves.
    pub fn remap(
        &mut self,
        caller: Caller,
        incoming: Option<(Designator, Page)>,
        outgoing: Option<Designator>,
    ) -> Result<(), Error> {
        const NONE: u32 = ENTRIES as u32;
        let (designator, page) = incoming.map_or((NONE, 0), |(designator, page)| (designator.0, page.0));
        self.ask(caller, Code::Remap, designator, page, outgoing.map_or(NONE, |designator| designator.0))?;
        Ok(())
    }

    /// Copies a file that the caller has open for reading into a new file of a cell, any one, with these bits, owner and group: only
    /// a process of the guard cell may ([`Hall::guard`]). The copy is linked once, has no subtype, and nobody has it open.
    pub fn regrade(
        &mut self,
        caller: Caller,
        descriptor: Descriptor,
        cell: u32,
        bits: Bits,
        owner: u16,
        group: u16,
    ) -> Result<Seid, Error> {
        let mut identity = [0; IDENTITY_BYTES];
        identity[..2].copy_from_slice(&owner.to_be_bytes());
        identity[2..].copy_from_slice(&group.to_be_bytes());
        let (seid, _) = self.ask_with(caller, Code::Regrade, [descriptor.0, cell, bits.0.into()], &mut identity)?;
        Ok(seid.into())
    }

    /// What the caller may do today with the segment that is mapped at a page.
    pub fn page_access(&mut self, caller: Caller, page: Page) -> Result<Access, Error> {
        let (access, _) = self.ask(caller, Code::PageAccess, page.0, 0, 0)?;
        Ok(Access::of(access).expect("the monitor answers an access"))
    }
}

/// A descriptor as create and open name it: 0 is none. The largest number stays what it is, for it names no descriptor anyhow.
fn named(subtype: Descriptor) -> u32 {
    subtype.0.saturating_add(1)
}

/// The two lengths; the contents would fill a screen.
impl fmt::Debug for Monitor {
    fn fmt(&self, f: &mut fmt::Formatter) -> fmt::Result {
        let (words, bytes) = (self.table.len(), self.store.len());
        f.debug_struct("Monitor").field("table_words", &words).field("store_bytes", &bytes).finish()
    }
}
