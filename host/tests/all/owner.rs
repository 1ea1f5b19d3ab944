//! The owner's methods: each does what the raw call does, on random tables; and none allocates.

use monitor::layout::{ENTRIES, MESSAGE_BYTES, STATUS_BYTES};
use monitor::{
    Access, Bits, Caller, Code, Descriptor, Designator, Error, Message, Modes, Monitor, Page, Seid, Status, view,
};
use std::alloc::{GlobalAlloc, Layout, System};
use std::cell::Cell;
use trial::{Call, Rng, calls, tables};

/// Counts what each thread allocates. It serves the other tests too: a program has one allocator.
struct Counting;

thread_local! {
    static ALLOCATED: Cell<u64> = const { Cell::new(0) };
}

// SAFETY: it hands everything through to the system's allocator.
unsafe impl GlobalAlloc for Counting {
    unsafe fn alloc(&self, layout: Layout) -> *mut u8 {
        ALLOCATED.set(ALLOCATED.get() + 1);
        // SAFETY: as asked of this function.
        unsafe { System.alloc(layout) }
    }

    unsafe fn alloc_zeroed(&self, layout: Layout) -> *mut u8 {
        ALLOCATED.set(ALLOCATED.get() + 1);
        // SAFETY: as asked of this function.
        unsafe { System.alloc_zeroed(layout) }
    }

    unsafe fn realloc(&self, pointer: *mut u8, layout: Layout, size: usize) -> *mut u8 {
        ALLOCATED.set(ALLOCATED.get() + 1);
        // SAFETY: as asked of this function.
        unsafe { System.realloc(pointer, layout, size) }
    }

    unsafe fn dealloc(&self, pointer: *mut u8, layout: Layout) {
        // SAFETY: as asked of this function.
        unsafe { System.dealloc(pointer, layout) }
    }
}

#[global_allocator]
static COUNTING: Counting = Counting;

/// What a typed call gives, in the numbers of the raw one.
type Numbers = Result<(u32, u32), Error>;

fn none(done: Result<(), Error>) -> Numbers {
    done.map(|()| (0, 0))
}

/// Makes a call by its method, if its arguments have the types for it and it has no buffer of a wrong length.
fn typed(monitor: &mut Monitor, call: &Call, buffer: &mut [u8]) -> Option<Numbers> {
    let plain::Request { caller, code, a, b, c } = call.request;
    let (by, code) = (Caller(caller), Code::of(code)?);
    let (seid, descriptor, designator) = (Seid::from(a), Descriptor(a), Designator(a));
    let bits = |number: u32| u16::try_from(number).ok().map(Bits);
    let subtype = c.checked_sub(1).map(Descriptor);
    let sharable = match c {
        0 => Some(false),
        1 => Some(true),
        _ => None,
    };
    if code.buffer_bytes().is_some_and(|asked| asked != buffer.len()) {
        return None;
    }
    Some(match code {
        Code::Spawn => monitor.spawn(by, a.try_into().ok()?, b.try_into().ok()?, bits(c)?).map(|seid| (seid.into(), 0)),
        Code::ReleaseProcess => none(monitor.release_process(by, seid)),
        Code::BuildSegment => monitor.build_segment(by, a, bits(b)?, sharable?).map(|(seid, d)| (seid.into(), d.0)),
        Code::Rendezvous => monitor.rendezvous(by, seid, Access::of(b)?).map(|d| (d.0, 0)),
        Code::ReleaseSegment => none(monitor.release_segment(by, designator)),
        Code::SetAccess => none(monitor.set_access(by, designator, Access::of(b)?)),
        Code::CreateFile => match subtype {
            None => monitor.create_file(by, bits(a)?, Modes::of(b)?),
            Some(subtype) => monitor.create_subtyped(by, bits(a)?, Modes::of(b)?, subtype),
        }
        .map(|(seid, d)| (seid.into(), d.0)),
        Code::Open => match subtype {
            None => monitor.open(by, seid, Modes::of(b)?),
            Some(subtype) => monitor.open_subtyped(by, seid, Modes::of(b)?, subtype),
        }
        .map(|d| (d.0, 0)),
        Code::Close => none(monitor.close(by, descriptor)),
        Code::Link => none(monitor.link(by, seid)),
        Code::Unlink => none(monitor.unlink(by, seid)),
        Code::SetBits => none(monitor.set_bits(by, seid, bits(b)?)),
        Code::ReadBlock => none(monitor.read_block(by, descriptor, b, buffer.try_into().ok()?)),
        Code::WriteBlock => none(monitor.write_block(by, descriptor, b, (&*buffer).try_into().ok()?)),
        Code::Post => none(monitor.post(by, seid, (&*buffer).try_into().ok()?)),
        Code::Receive => monitor.receive(by).map(|message| show(buffer, &message_bytes(message))),
        Code::Status => monitor.status(by, seid).map(|status| show(buffer, &status_bytes(status))),
        Code::Access => monitor.access(by, designator).map(|access| (access.number(), 0)),
        Code::Remap => {
            let held = |number: u32| (number != ENTRIES as u32).then_some(Designator(number));
            none(monitor.remap(by, held(a).map(|designator| (designator, Page(b))), held(c)))
        }
        Code::PageAccess => monitor.page_access(by, Page(a)).map(|access| (access.number(), 0)),
        Code::Regrade => {
            let [owner, group] = [0, 2].map(|at| u16::from_be_bytes([buffer[at], buffer[at + 1]]));
            monitor.regrade(by, descriptor, b, bits(c)?, owner, group).map(|seid| (seid.into(), 0))
        }
    })
}

fn show(buffer: &mut [u8], bytes: &[u8]) -> (u32, u32) {
    buffer.copy_from_slice(bytes);
    (0, 0)
}

fn message_bytes(message: Message) -> [u8; MESSAGE_BYTES] {
    let mut bytes = [0; MESSAGE_BYTES];
    bytes[..4].copy_from_slice(&u32::from(message.sender).to_be_bytes());
    bytes[4..].copy_from_slice(&message.text);
    bytes
}

fn status_bytes(status: Status) -> [u8; STATUS_BYTES] {
    let mut bytes = [0; STATUS_BYTES];
    (bytes[0], bytes[1]) = (status.kind.class(), status.cell);
    bytes[2..4].copy_from_slice(&status.owner.to_be_bytes());
    bytes[4..6].copy_from_slice(&status.group.to_be_bytes());
    bytes[6..8].copy_from_slice(&status.bits.0.to_be_bytes());
    (bytes[8], bytes[9]) = (status.level.security, status.level.integrity);
    bytes[10..14].copy_from_slice(&status.level.compartments.to_be_bytes());
    bytes
}

#[test]
fn methods_do_what_the_raw_call_does() {
    let mut rng = Rng::for_trial("methods_do_what_the_raw_call_does", 15);
    let mut met = vec![[0u32; 2]; Code::ALL.len()]; // done and refused, by code
    let mut subtyped = [[0u32; 2]; 2]; // of create and open, those that name a subtype
    for _ in 0..150 {
        let limits = tables::limits(&mut rng);
        let world = tables::well_formed(&mut rng, limits);
        let shape = world.shape();
        let start = Monitor::from_parts(world.table.clone(), world.store.clone()).unwrap();
        let (mut one, mut other) = (start.clone(), start.clone());
        for _ in 0..200 {
            let call = calls::any(&mut rng, &world, &shape);
            let (mut buffer, mut raw_buffer) = (call.buffer.clone(), call.buffer.clone());
            let before = ALLOCATED.get();
            let result = typed(&mut one, &call, &mut buffer);
            assert_eq!(ALLOCATED.get(), before, "a call allocated: {call:?}");
            let Some(result) = result else {
                continue;
            };
            let plain::Request { caller, code, a, b, c } = call.request;
            let shown = [one.view(Caller(caller), Descriptor(a), b), view(one.table(), one.store(), caller, a, b)];
            assert_eq!(ALLOCATED.get(), before, "a view allocated: {call:?}");
            assert_eq!(shown[0].map(<[u8]>::as_ptr_range), shown[1].map(<[u8]>::as_ptr_range), "{call:?}");
            let answer = other.call(Caller(caller), code, [a, b, c], &mut raw_buffer);
            assert_eq!(ALLOCATED.get(), before, "a raw call allocated: {call:?}");
            assert_eq!((result, &buffer), (answer.result(), &raw_buffer), "{call:?}");
            assert!(one == other, "{call:?} left another table or store");
            let at = Code::ALL.iter().position(|known| known.number() == code).expect("typed calls have codes");
            met[at][usize::from(result.is_err())] += 1;
            if let (Some(Code::CreateFile | Code::Open), 1..) = (Code::of(code), c) {
                subtyped[usize::from(code == Code::Open.number())][usize::from(result.is_err())] += 1;
            }
            if result.is_ok() {
                (one, other) = (start.clone(), start.clone());
            }
        }
    }
    for (code, met) in Code::ALL.iter().zip(met) {
        println!("{code}: done {}, refused {}", met[0], met[1]);
        assert!(met[0] > 0 && met[1] > 0, "{code}: done or refused never met");
    }
    assert!(subtyped.as_flattened().iter().all(|&count| count > 0), "with a subtype, create and open: {subtyped:?}");
}

#[test]
fn parts() {
    let mut rng = Rng::for_trial("parts", 16);
    let world = tables::well_formed(&mut rng, tables::SMALL);
    let mut monitor = Monitor::from_parts(world.table.clone(), world.store.clone()).unwrap();
    assert!(monitor.well_formed());
    assert_eq!((monitor.table(), monitor.store()), (&world.table[..], &world.store[..]));
    monitor.parts_mut().0[0] = 0;
    assert!(!monitor.well_formed());
    assert_eq!(monitor.receive(Caller(0)), Err(Error::XbTab));
    let (table, store) = monitor.into_parts();
    assert_eq!(Monitor::from_parts(table, store), Err(Error::XbTab));
}

/// A refusal goes through `?` as any error does, and a monitor goes to another thread.
#[test]
fn errors_and_threads() {
    fn run() -> Result<(), Box<dyn std::error::Error + Send + Sync>> {
        let cell = monitor::Cell { processes: 1, ..monitor::Cell::default() };
        let hall = monitor::Hall { blocks: 1, cells: vec![cell], ..monitor::Hall::default() };
        let mut monitor = Monitor::set_up(&hall)?;
        let thread = std::thread::spawn(move || monitor.create_file(Caller(0), Bits(0o600), Modes::Read));
        thread.join().expect("the thread ends")?;
        Ok(())
    }
    assert_eq!(run().unwrap_err().to_string(), "XnoSpace: no free slot in the cell");
}
