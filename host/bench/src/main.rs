//! The proved monitor and the plain one, timed side by side in one run.
//!
//! Each line is a ratio of proved to plain time: blocks of both are made in turn, each round gives one ratio, and the line shows
//! the median of the rounds with its quartiles. Single calls include the whole-table check, as document 01 has it. The words that a
//! successful call changes are put back after each call, in both alike and inside the time measured. Buffers are not cleared.
//!
//! Checking a log is timed beside the replay program, not beside the plain monitor.
//!
//!   cargo run --release --bin bench [check|single|creation|opens|view|mixed|tray|quick|image|replay|logcheck]..

use monitor::layout::{ENTRIES, MAX_SLOTS};
use monitor::{Bits, Caller, Cell, Code, Descriptor, Error, Hall, Modes, Monitor, Seid};
use plain::{Kind, Request};
use std::env;
use std::fs::{self, File};
use std::io::{Read, Write};
use std::path::{Path, PathBuf};
use std::process::{Command, Stdio};
use std::time::{Duration, Instant};
use trial::tally::REFUSALS;
use trial::{Call, Rng, World, calls, scripts, tables};

/// Many short blocks: a block that the system interrupts spoils its own round only.
const ROUNDS: usize = 101;
const BLOCK: Duration = Duration::from_micros(200);
const LONG_ROUNDS: usize = 21;
const PLAIN_REPLAY: &str = "--plain-replay";

fn main() {
    let asked: Vec<String> = env::args().skip(1).collect();
    if asked == [PLAIN_REPLAY] {
        return plain_replay();
    }
    let wanted = |part: &str| asked.is_empty() || asked.iter().any(|a| a == part);
    println!(
        "Ratios of proved to plain time: median of the rounds, with quartiles. Times of the plain monitor for context."
    );
    let tables = [("largest", largest()), ("big", big()), ("small", small())];
    if wanted("check") {
        heading("The check alone");
        let [largest, big] = [in_turn(8, 16, 16, 64), in_turn(8, 16, 4, 64)];
        for (name, worlds) in [("largest", &largest), ("big", &big), ("small", &in_turn(8, 2, 2, 1))] {
            line(&format!("eight {name} tables in turn, in use"), check(worlds));
        }
        for (name, worlds) in [("big", in_turn(64, 16, 4, 64)), ("small", in_turn(64, 2, 2, 1))] {
            line(&format!("sixty-four {name} tables in turn, in use"), check(&worlds));
        }
        for (name, world) in &tables {
            line(&format!("{name} table, in use"), check(std::slice::from_ref(world)));
        }
        for (name, world) in &tables {
            line(&format!("{name} table, after set-up"), check(&[after_setup(world)]));
        }
        growth(&big, &largest[..2]);
    }
    if wanted("single") {
        for (name, world) in &tables[1..] {
            single_calls(name, world);
        }
    }
    if wanted("creation") {
        heading("Creation beyond the check, one cell, after set-up");
        creation();
    }
    if wanted("opens") {
        opens();
    }
    if wanted("view") {
        view();
    }
    if wanted("mixed") {
        heading("1,024 mixed calls");
        for (name, world) in &tables {
            line(&format!("{name} table"), mixed(world));
        }
    }
    if wanted("tray") {
        heading("A tray of 1,024 mixed calls, to a plain tray");
        for (name, world) in &tables {
            line(&format!("{name} table"), tray(world, Night::proved, Night::plain));
        }
        heading("The same beyond the check");
        for (name, world) in &tables {
            line(&format!("{name} table"), tray_beyond(world));
        }
        heading("A tray of 1,024 mixed calls, to 1,024 single calls of the same monitor (the last column is theirs)");
        for (name, world) in &tables {
            line(&format!("proved, {name} table"), tray(world, Night::proved, Night::proved_singly));
            line(&format!("plain, {name} table"), tray(world, Night::plain, Night::plain_singly));
        }
    }
    if wanted("quick") {
        quick(&tables);
    }
    if wanted("image") {
        heading("Image and reload, against the plain one");
        for (name, world) in &tables {
            line(&format!("image, {name} table"), image(world));
            line(&format!("reload, {name} table"), reload(world));
        }
        heading("Image and reload of the largest table with its store, against a copy of the store");
        line("image", ratio_of(image_of(&tables[0].1, monitor_image), copied(&tables[0].1)));
        line("reload", ratio_of(reload_of(&tables[0].1, monitor_reload), copied(&tables[0].1)));
    }
    if wanted("replay") {
        replay();
    }
    if wanted("logcheck") {
        logcheck();
    }
}

/// 16 cells, 256 slots of each kind, B 64; every cell flows to those after it.
fn largest() -> World {
    busy(16, 16, 64).next().expect("there is one for each seed")
}

/// 16 cells, 64 slots of each kind, B 64; every cell flows to those after it.
fn big() -> World {
    configured(16, 4, 64)
}

/// 2 cells, 4 slots of each kind, B 1.
fn small() -> World {
    configured(2, 2, 1)
}

/// Tables in use of that many cells and slots a cell, one for each seed.
fn busy(cells: u32, slots: u32, blocks: u32) -> impl Iterator<Item = World> {
    let guard = cells; // the last, which all others flow to
    let mut words = vec![cells, cells * slots, cells * slots, cells * slots, blocks, guard, 0, 0];
    for cell in 0..cells {
        words.extend([cell, 15 - cell, 0, slots, slots, slots, 0, 0]);
    }
    (0..).map(move |seed| tables::busy(&mut Rng::new(seed), &words))
}

/// Tables to be checked in turn: one over and over would let the processor learn its branches by heart, and some learn eight.
fn in_turn(count: usize, cells: u32, slots: u32, blocks: u32) -> Vec<World> {
    busy(cells, slots, blocks).take(count).collect()
}

/// A table in use on which every call has an example that succeeds and one that is refused.
fn configured(cells: u32, slots: u32, blocks: u32) -> World {
    busy(cells, slots, blocks)
        .find(|world| Code::ALL.iter().all(|code| examples(world, code.number()).len() == 2))
        .expect("some table has them all")
}

fn after_setup(world: &World) -> World {
    let mut world = world.clone();
    plain::setup(&mut world.table, world.store.len());
    world
}

// Measuring.

struct Ratio {
    median: f64,
    low: f64,
    high: f64,
    /// The plain time of one repetition.
    plain: Duration,
}

/// Times two actions in turn; each is given a number of repetitions and says how long they took.
fn ratio(
    rounds: usize,
    repetitions: u32,
    mut proved: impl FnMut(u32) -> Duration,
    mut plain: impl FnMut(u32) -> Duration,
) -> Ratio {
    proved(repetitions);
    plain(repetitions); // both warm
    let mut ratios = Vec::new();
    let mut plains = Vec::new();
    for round in 0..rounds {
        let (a, b) = if round % 2 == 0 {
            let a = proved(repetitions);
            (a, plain(repetitions))
        } else {
            let b = plain(repetitions);
            (proved(repetitions), b)
        };
        ratios.push(a.as_secs_f64() / b.as_secs_f64());
        plains.push(b / repetitions);
    }
    ratios.sort_by(f64::total_cmp);
    plains.sort();
    let at = |part: f64| ratios[((rounds - 1) as f64 * part).round() as usize];
    Ratio { median: at(0.5), low: at(0.25), high: at(0.75), plain: plains[rounds / 2] }
}

/// Repetitions that fill a block, by the plain action's time.
fn repetitions(mut plain: impl FnMut(u32) -> Duration) -> u32 {
    let one = (0..20).map(|_| plain(10) / 10).min().expect("there are some");
    (BLOCK.as_nanos() / one.as_nanos().max(1)).clamp(1, 1_000_000) as u32
}

fn timed(repetitions: u32, mut action: impl FnMut()) -> Duration {
    let started = Instant::now();
    for _ in 0..repetitions {
        action();
    }
    started.elapsed()
}

fn heading(text: &str) {
    println!("\n## {text}\n\n| | ratio | quartiles | plain |\n|-|-:|-:|-:|");
}

fn line(name: &str, ratio: Ratio) {
    let Ratio { median, low, high, plain } = ratio;
    println!("| {name} | {median:.2} | {low:.2} to {high:.2} | {plain:.2?} |");
}

// The check and single calls.

/// The check of a table beside a store of that length, by one of the two monitors.
type Judge = fn(&[u32], usize) -> bool;

fn plainly_well_formed(table: &[u32], bytes: usize) -> bool {
    plain::check(table, bytes).is_some()
}

/// Checks these tables, one after the other; a repetition is all of them.
fn checks(worlds: &[World], well_formed: Judge) -> impl Fn(u32) -> Duration + Copy {
    move |n| {
        timed(n, || {
            for world in worlds {
                assert!(well_formed(std::hint::black_box(&world.table), world.store.len()));
            }
        })
    }
}

fn check(worlds: &[World]) -> Ratio {
    let (proved, plain) = (checks(worlds, monitor::well_formed), checks(worlds, plainly_well_formed));
    let n = repetitions(plain);
    let Ratio { median, low, high, plain } = ratio(ROUNDS, n, proved, plain);
    Ratio { median, low, high, plain: plain / worlds.len() as u32 }
}

/// The check of two tables, to that of eight with a quarter of the slots, which are as many in all: 1 is linear growth.
fn growth(eight: &[World], two: &[World]) {
    println!("\n| two largest tables in turn, to eight big ones | ratio | quartiles | the eight |\n|-|-:|-:|-:|");
    let judges: [(&str, Judge); 2] = [("proved", monitor::well_formed), ("plain", plainly_well_formed)];
    for (name, well_formed) in judges {
        let (two, eight) = (checks(two, well_formed), checks(eight, well_formed));
        line(name, ratio(ROUNDS, repetitions(eight), two, eight));
    }
}

fn single_calls(name: &str, world: &World) {
    heading(&format!("Single calls, {name} table"));
    let mut all = Vec::new();
    for &code in Code::ALL {
        for (outcome, call) in examples(world, code.number()) {
            let ratio = single_call(world, &call);
            all.push(ratio.median);
            line(&format!("{} {code}, {outcome}", code.number()), ratio);
        }
    }
    all.sort_by(f64::total_cmp);
    println!("\nMedian of these lines {:.2}, largest {:.2}.", all[all.len() / 2], all[all.len() - 1]);
}

/// A call of that code which succeeds on the table, and one that is refused as late in its list as can be found.
fn examples(world: &World, code: u32) -> Vec<(String, Call)> {
    let shape = world.shape();
    let mut rng = Rng::new(u64::from(code));
    let mut scratch = world.clone();
    let mut done = None;
    let mut refused: Option<(usize, u32, Call)> = None;
    for _ in 0..2_000 {
        let caller = calls::caller(&mut rng, world, &shape, |_| true).expect("there are processes");
        if !world.live(&shape, Kind::Process, caller as usize) {
            continue;
        }
        let call = calls::with_code(&mut rng, world, &shape, caller, code);
        let error = plain_call(&mut scratch, &call.request, &mut call.buffer.clone());
        if error == 0 {
            scratch.table.copy_from_slice(&world.table);
            done.get_or_insert(call);
        } else if let Some(late) = REFUSALS[code as usize].iter().position(|&e| e == error)
            && refused.as_ref().is_none_or(|(found, ..)| late > *found)
        {
            refused = Some((late, error, call));
        }
    }
    let done = done.map(|call| ("done".to_string(), call));
    let refused = refused.map(|(_, error, call)| (format!("refused with {error}"), call));
    done.into_iter().chain(refused).collect()
}

/// One call by one of the two monitors; its error number.
type Make = fn(&mut World, &Request, &mut [u8]) -> u32;

fn plain_call(world: &mut World, request: &Request, buffer: &mut [u8]) -> u32 {
    plain::call(&mut world.table, &mut world.store, request, buffer).error as u32
}

fn proved_call(world: &mut World, request: &Request, buffer: &mut [u8]) -> u32 {
    let &Request { caller, code, a, b, c } = request;
    monitor::call(&mut world.table, &mut world.store, caller, code, [a, b, c], buffer).error
}

fn single_call(world: &World, call: &Call) -> Ratio {
    let n = repetitions(repeated(world, call, plain_call));
    ratio(ROUNDS, n, repeated(world, call, proved_call), repeated(world, call, plain_call))
}

/// A call as often as is asked for, each time on the table as it stands: what it changes is put back.
fn repeated(world: &World, call: &Call, make: Make) -> impl FnMut(u32) -> Duration {
    let mut changed = world.clone();
    plain_call(&mut changed, &call.request, &mut call.buffer.clone());
    let undo: Vec<(usize, u32)> = (0..world.table.len())
        .filter(|&at| changed.table[at] != world.table[at])
        .map(|at| (at, world.table[at]))
        .collect();
    let (mut world, request, mut buffer) = (world.clone(), call.request, call.buffer.clone());
    move |n| {
        timed(n, || {
            std::hint::black_box(make(&mut world, std::hint::black_box(&request), &mut buffer));
            for &(at, word) in &undo {
                world.table[at] = word;
            }
        })
    }
}

// Calls beyond their check.

/// The search for a slot, over as many as a cell can have. The table is as small as it can be beside, for the check's time is taken
/// off.
fn creation() {
    let slots = MAX_SLOTS as u32;
    for (code, [processes, segments, files], arguments) in [
        (Code::Spawn, [slots, 0, 0], [0, 0, 0]),
        (Code::BuildSegment, [1, slots, 0], [512, 0o600, 1]),
        (Code::CreateFile, [1, 0, slots], [0o600, 3, 0]),
    ] {
        let words = [1, processes, segments, files, 1, 0, 0, 0, 0, 0, 0, processes, segments, files, 0, 0];
        let world = after_setup(&World::configured(&words));
        let [a, b, c] = arguments;
        let request = Request { caller: 0, code: code.number(), a, b, c };
        line(
            &format!("{} {code}, {slots} slots", code.number()),
            beyond(&world, &Call { request, buffer: Vec::new() }),
        );
    }
}

/// Opens in a crowded cell: with the check, and beyond it, where the search for a clash is most of what there is.
fn opens() {
    let (world, files) = crowd().expect("the hall can be filled");
    let calls = files.map(|(name, file, error)| {
        let request = Request { caller: 0, code: Code::Open.number(), a: file.into(), b: Modes::Read.number(), c: 0 };
        assert_eq!(plain_call(&mut world.clone(), &request, &mut []), error);
        (name, Call { request, buffer: Vec::new() })
    });
    heading("Opens in one cell of 64 processes, all descriptors used");
    for (name, call) in &calls {
        line(name, single_call(&world, call));
    }
    heading("The same beyond the check");
    for (name, call) in &calls {
        line(name, beyond(&world, call));
    }
}

/// One cell of 64 processes which read one file in all their descriptors, but for the first one's last, which is empty, and the last
/// one's last two: they have a second file open, and a third one alone. A fourth is open nowhere. To open them gives these numbers.
fn crowd() -> Result<(World, [(&'static str, Seid, u32); 3]), Error> {
    let slots = 64;
    let cell = Cell { processes: slots, files: 4, ..Cell::default() };
    let mut hall = Monitor::set_up(&Hall { cells: vec![cell], blocks: 1, ..Hall::default() })?;
    let (first, last) = (Caller(0), Caller(slots - 1));
    for _ in 1..slots {
        hall.spawn(first, 0, 0, Bits(0o666))?;
    }
    let mut file = || {
        let (file, at) = hall.create_file(first, Bits(0o666), Modes::Read)?;
        hall.link(first, file)?;
        hall.close(first, at)?;
        Ok(file)
    };
    let [read, quiet, once, alone] = [file()?, file()?, file()?, file()?];
    for process in 0..slots {
        for _ in 0..ENTRIES {
            hall.open(Caller(process), read, Modes::Read)?;
        }
    }
    for (caller, entry) in [(first, ENTRIES - 1), (last, ENTRIES - 2), (last, ENTRIES - 1)] {
        hall.close(caller, Descriptor(entry as u32))?;
    }
    hall.open(last, once, Modes::Read)?;
    hall.open(last, alone, Modes::Alone)?;
    let (table, store) = hall.into_parts();
    let files = [
        ("8 open, of a quiet file", quiet, 0),
        ("8 open, of one open once, in the last process", once, 0),
        ("8 open, refused with 19 by the last process", alone, 19),
    ];
    Ok((World { table: table.into(), store: store.into() }, files))
}

/// One call beyond the check: in each round the time of the check alone is taken off, of each side its own.
fn beyond(world: &World, call: &Call) -> Ratio {
    let bytes = world.store.len();
    let table = std::hint::black_box(&world.table[..]);
    let (mut proved, mut plain) = (repeated(world, call, proved_call), repeated(world, call, plain_call));
    let proved_check = |n| timed(n, || assert!(monitor::well_formed(table, bytes)));
    let plain_check = |n| timed(n, || assert!(plain::check(table, bytes).is_some()));
    let n = repetitions(&mut plain);
    ratio(ROUNDS, n, |n| over(proved(n), proved_check(n)), |n| over(plain(n), plain_check(n)))
}

/// What a call takes beyond the check.
fn over(call: Duration, check: Duration) -> Duration {
    call.saturating_sub(check).max(Duration::from_nanos(1))
}

/// A view of block 0 by descriptor 0 of process 0, by one of the two monitors; whether anything is shown.
type View = fn(&[u32], &[u8]) -> bool;

/// A view of a block, to a read of it: both beyond the check, whose time is taken off in each round. The table is as small as it can be.
fn view() {
    println!("\n## A view beyond the check, to a read\n\n| | ratio | quartiles | the read |\n|-|-:|-:|-:|");
    let mut world = after_setup(&World::configured(&[1, 1, 0, 1, 1, 0, 0, 0, 0, 0, 0, 1, 0, 1, 0, 0]));
    for (code, [a, b]) in [(7, [0o600, 3]), (14, [0, 0])] {
        let error = plain_call(&mut world, &Request { caller: 0, code, a, b, c: 0 }, &mut [7; 512]);
        assert_eq!(error, 0, "the file is made and written");
    }
    let read = Call { request: Request { caller: 0, code: 13, a: 0, b: 0, c: 0 }, buffer: vec![0; 512] };
    let sides: [(&str, Make, Judge, View); 2] = [
        ("proved", proved_call, monitor::well_formed, |table, store| monitor::view(table, store, 0, 0, 0).is_ok()),
        ("plain", plain_call, plainly_well_formed, |table, store| plain::view(table, store, 0, 0, 0).is_ok()),
    ];
    for (name, make, well_formed, view) in sides {
        let (table, store) = std::hint::black_box((&world.table[..], &world.store[..]));
        let mut reads = repeated(&world, &read, make);
        let checks = |n| timed(n, || assert!(well_formed(table, store.len())));
        let views = |n| timed(n, || assert!(view(table, store)));
        let n = repetitions(&mut reads);
        line(name, ratio(ROUNDS, n, |n| over(views(n), checks(n)), |n| over(reads(n), checks(n))));
    }
}

// Images.

/// Writes an image; whether it did.
type WriteImage = fn(&[u32], &[u8], &mut [u8]) -> bool;
/// Takes an image back; whether it did.
type TakeImage = fn(&mut [u32], &mut [u8], &[u8]) -> bool;

fn monitor_image(table: &[u32], store: &[u8], out: &mut [u8]) -> bool {
    monitor::image(table, store, out).is_ok()
}

fn plain_image(table: &[u32], store: &[u8], out: &mut [u8]) -> bool {
    plain::image(table, store, out) == plain::Error::XOK
}

fn monitor_reload(table: &mut [u32], store: &mut [u8], image: &[u8]) -> bool {
    monitor::reload(table, store, image).is_ok()
}

fn plain_reload(table: &mut [u32], store: &mut [u8], image: &[u8]) -> bool {
    plain::reload(table, store, image) == plain::Error::XOK
}

/// The bytes of a world's image, to be written over or read.
fn image_bytes(world: &World) -> Vec<u8> {
    let mut bytes = vec![0; plain::image_length(&world.table, world.store.len())];
    assert!(plain_image(&world.table, &world.store, &mut bytes));
    bytes
}

fn image_of(world: &World, write: WriteImage) -> impl FnMut(u32) -> Duration {
    let (world, mut out) = (world.clone(), image_bytes(world));
    move |n| timed(n, || assert!(write(std::hint::black_box(&world.table), &world.store, &mut out)))
}

fn reload_of(world: &World, take: TakeImage) -> impl FnMut(u32) -> Duration {
    let (mut world, image) = (world.clone(), image_bytes(world));
    move |n| timed(n, || assert!(take(&mut world.table, &mut world.store, std::hint::black_box(&image))))
}

/// The store copied to other memory.
fn copied(world: &World) -> impl FnMut(u32) -> Duration {
    let (store, mut out) = (world.store.clone(), world.store.clone());
    move |n| {
        timed(n, || {
            out.copy_from_slice(std::hint::black_box(&store));
            std::hint::black_box(&mut out);
        })
    }
}

/// Blocks of the one and the other, as many repetitions as fill a block of the second.
fn ratio_of(one: impl FnMut(u32) -> Duration, mut other: impl FnMut(u32) -> Duration) -> Ratio {
    let n = repetitions(&mut other);
    ratio(ROUNDS, n, one, other)
}

fn image(world: &World) -> Ratio {
    ratio_of(image_of(world, monitor_image), image_of(world, plain_image))
}

fn reload(world: &World) -> Ratio {
    ratio_of(reload_of(world, monitor_reload), reload_of(world, plain_reload))
}

// Many calls.

/// 1,024 calls, drawn on the table as it stands when they are made.
fn drawn(world: &World) -> Vec<Call> {
    let shape = world.shape();
    let mut rng = Rng::new(7);
    let mut along = world.clone();
    let mut calls: Vec<Call> = Vec::new();
    for _ in 0..1_024 {
        let call = calls::any(&mut rng, &along, &shape);
        plain_call(&mut along, &call.request, &mut call.buffer.clone());
        calls.push(call);
    }
    calls
}

/// 1,024 calls that create, open, close, link and unlink files, and some that read and write them, drawn on the table as it stands. What is
/// refused is drawn again some times, so most of them succeed.
fn filing(world: &World) -> Vec<Call> {
    let codes = [7, 7, 7, 8, 8, 8, 8, 9, 9, 9, 9, 9, 10, 11, 11, 13, 14];
    let shape = world.shape();
    let mut rng = Rng::new(7);
    let mut along = world.clone();
    let mut next = || {
        let code = rng.pick(&codes);
        let mut tries = 8;
        loop {
            let caller = calls::caller(&mut rng, &along, &shape, |_| true).expect("there are processes");
            let call = calls::with_code(&mut rng, &along, &shape, caller, code);
            tries -= 1;
            if plain_call(&mut along, &call.request, &mut call.buffer.clone()) == 0 || tries == 0 {
                return call;
            }
        }
    };
    (0..1_024).map(|_| next()).collect()
}

/// These are made in pieces: both sides make them in pieces, in turn, and each piece's time
/// is the median of the rounds; the ratio is that of the sums, and the quartiles are those of the pieces' ratios.
fn mixed(world: &World) -> Ratio {
    const PIECE: usize = 32;
    let mut calls = drawn(world);
    let piece = |world: &mut World, calls: &mut [Call], make: Make| {
        timed(1, || {
            for call in calls.iter_mut() {
                std::hint::black_box(make(world, &call.request, &mut call.buffer));
            }
        })
    };
    let mut times = vec![[Vec::new(), Vec::new()]; calls.len() / PIECE];
    for _ in 0..LONG_ROUNDS {
        let mut sides = [(world.clone(), proved_call as Make), (world.clone(), plain_call as Make)];
        for (calls, times) in calls.chunks_mut(PIECE).zip(&mut times) {
            for ((world, make), times) in sides.iter_mut().zip(times) {
                times.push(piece(world, calls, *make));
            }
        }
    }
    let median = |times: &mut Vec<Duration>| {
        times.sort();
        times[times.len() / 2]
    };
    let pieces: Vec<[Duration; 2]> = times.iter_mut().map(|[a, b]| [median(a), median(b)]).collect();
    let [proved, plain] = [0, 1].map(|side| pieces.iter().map(|piece| piece[side]).sum::<Duration>());
    let mut ratios: Vec<f64> = pieces.iter().map(|[a, b]| a.as_secs_f64() / b.as_secs_f64()).collect();
    ratios.sort_by(f64::total_cmp);
    let (low, high) = (ratios[ratios.len() / 4], ratios[ratios.len() * 3 / 4]);
    Ratio { median: proved.as_secs_f64() / plain.as_secs_f64(), low, high, plain }
}

/// A tray of mixed calls, for both monitors, and the table, the working slice and the bytes that it is run on.
#[derive(Clone)]
struct Night {
    world: World,
    work: Vec<u32>,
    bytes: Vec<u8>,
    ours: Vec<monitor::Record>,
    theirs: Vec<plain::Record>,
}

impl Night {
    /// Each record has a part of the bytes to itself.
    fn new(world: &World, calls: Vec<Call>) -> Night {
        let (world, work) = (world.clone(), work_of(world));
        let mut night = Night { world, work, bytes: Vec::new(), ours: Vec::new(), theirs: Vec::new() };
        for Call { request: Request { caller, code, a, b, c }, buffer } in calls {
            let (offset, length) = (night.bytes.len() as u32, buffer.len() as u32);
            night.bytes.extend(buffer);
            night.ours.push(monitor::Record { caller, code, a, b, c, offset, length, ..Default::default() });
            night.theirs.push(plain::Record { caller, code, a, b, c, offset, length, ..Default::default() });
        }
        night
    }

    fn proved(&mut self) {
        let World { table, store } = &mut self.world;
        monitor::tray(table, store, &mut self.ours, &mut self.bytes).expect("the tray is run");
    }

    fn quick(&mut self) {
        let World { table, store } = &mut self.world;
        let Night { work, ours, bytes, .. } = self;
        monitor::quick_tray(table, store, ours, bytes, work).expect("the tray is run");
    }

    fn plain(&mut self) {
        let World { table, store } = &mut self.world;
        assert_eq!(plain::tray(table, store, &mut self.theirs, &mut self.bytes), plain::Error::XOK);
    }

    fn proved_singly(&mut self) {
        let World { table, store } = &mut self.world;
        for record in &mut self.ours {
            let &mut monitor::Record { caller, code, a, b, c, offset, length, .. } = record;
            let part = &mut self.bytes[offset as usize..][..length as usize];
            record.answer = monitor::call(table, store, caller, code, [a, b, c], part);
        }
    }

    fn plain_singly(&mut self) {
        let World { table, store } = &mut self.world;
        for record in &mut self.theirs {
            let &mut plain::Record { caller, code, a, b, c, offset, length, .. } = record;
            let part = &mut self.bytes[offset as usize..][..length as usize];
            let answer = plain::call(table, store, &Request { caller, code, a, b, c }, part);
            (record.error, record.first, record.second) = (answer.error as u32, answer.first, answer.second);
        }
    }
}

/// Trays on copies of one night, which are made outside the time measured.
fn trays(night: &Night, run: fn(&mut Night)) -> impl Fn(u32) -> Duration {
    move |n| {
        (0..n)
            .map(|_| {
                let mut night = night.clone();
                timed(1, || run(std::hint::black_box(&mut night)))
            })
            .sum()
    }
}

fn tray(world: &World, one: fn(&mut Night), other: fn(&mut Night)) -> Ratio {
    let night = Night::new(world, drawn(world));
    ratio(ROUNDS, 1, trays(&night, one), trays(&night, other))
}

/// A tray beyond its check, which each monitor makes once: in each round its time is taken off, of each side its own.
fn tray_beyond(world: &World) -> Ratio {
    let (night, worlds) = (Night::new(world, drawn(world)), std::slice::from_ref(world));
    let (proved, plain) = (trays(&night, Night::proved), trays(&night, Night::plain));
    let (proved_check, plain_check) = (checks(worlds, monitor::well_formed), checks(worlds, plainly_well_formed));
    ratio(ROUNDS, 1, |n| over(proved(n), proved_check(n)), |n| over(plain(n), plain_check(n)))
}

// Quick trays.

/// A table in use: one cell with 256 files of a block each, and that many processes.
fn filed(processes: u32) -> World {
    let files = MAX_SLOTS as u32;
    tables::busy(&mut Rng::new(3), &[1, processes, 0, files, 1, 0, 0, 0, 0, 0, 0, processes, 0, files, 0, 0])
}

/// The working slice of a table.
fn work_of(world: &World) -> Vec<u32> {
    let mut work = vec![0; plain::work_length(&world.table, world.store.len())];
    assert_eq!(plain::work(&world.table, world.store.len(), &mut work), plain::Error::XOK);
    work
}

/// Fills working slices of a table, by one of the two monitors; whether it did.
type Fill = fn(&[u32], usize, &mut [u32]) -> bool;

fn fills(world: &World, fill: Fill) -> impl FnMut(u32) -> Duration {
    let (world, mut work) = (world.clone(), work_of(world));
    move |n| timed(n, || assert!(fill(std::hint::black_box(&world.table), world.store.len(), &mut work)))
}

fn proved_fill(table: &[u32], bytes: usize, work: &mut [u32]) -> bool {
    monitor::work(table, bytes, work).is_ok()
}

fn plain_fill(table: &[u32], bytes: usize, work: &mut [u32]) -> bool {
    plain::work(table, bytes, work) == plain::Error::XOK
}

/// Quick trays of 1,024 calls beside plain and proved ones, and what it takes to fill their working slice.
fn quick(tables: &[(&str, World)]) {
    let mut nights: Vec<(String, Night)> = Vec::new();
    for (name, world) in tables {
        nights.push((format!("{name} table"), Night::new(world, drawn(world))));
    }
    for processes in [16, 64, 256] {
        let world = filed(processes);
        let night = Night::new(&world, filing(&world));
        nights.push((format!("256 files and {processes} processes in one cell, filing"), night));
    }
    for (name, night) in &mut nights {
        let mut tried = night.clone();
        tried.plain();
        let done = tried.theirs.iter().filter(|record| record.error == 0).count();
        *name = format!("{name}, {done} done");
    }
    heading("A quick tray of 1,024 calls, to a plain tray");
    for (name, night) in &nights {
        line(name, ratio(ROUNDS, 1, trays(night, Night::quick), trays(night, Night::plain)));
    }
    heading("The same, to a proved tray (the last column is its time)");
    for (name, night) in &nights {
        line(name, ratio(ROUNDS, 1, trays(night, Night::quick), trays(night, Night::proved)));
    }
    heading("A proved tray of the same calls, to a plain tray");
    for (name, night) in &nights {
        line(name, ratio(ROUNDS, 1, trays(night, Night::proved), trays(night, Night::plain)));
    }
    heading("Filling the working slice, to filling it plainly");
    for (name, Night { world, .. }) in &nights {
        line(name, ratio_of(fills(world, proved_fill), fills(world, plain_fill)));
    }
    heading("Filling the working slice, to a quick tray (the last column is its time)");
    for (name, night) in &nights {
        line(name, ratio(ROUNDS, 1, fills(&night.world, proved_fill), trays(night, Night::quick)));
    }
}

// Replay, as whole programs.

fn plain_replay() {
    let mut input = Vec::new();
    std::io::stdin().read_to_end(&mut input).expect("the input can be read");
    std::io::stdout().write_all(&plain::replay(&input)).expect("the listing can be written");
}

/// A program that the proofs leave, or the one that a variable names; None, and a line that says so, where there is none.
fn program(name: &str, variable: &str) -> Option<PathBuf> {
    let here = PathBuf::from(env!("CARGO_MANIFEST_DIR"));
    let made = if cfg!(target_arch = "x86_64") { "../../target/bin" } else { "../../target/native" };
    let program = env::var_os(variable).map_or(here.join(made).join(name), PathBuf::from);
    if !program.exists() {
        println!("\nNo {name} program at {}: not measured.", program.display());
        return None;
    }
    Some(program)
}

/// The scripts that whole programs are timed with.
const SCRIPTS: [(&str, tables::Limits, usize); 2] =
    [("small tables", tables::SMALL, 60_000), ("large tables", tables::LARGE, 20_000)];

fn replay() {
    let Some(program) = program("replay", "MONITOR_REPLAY") else { return };
    let this = env::current_exe().expect("this program has a path");
    let input = this.with_file_name("bench-replay-input");
    heading("Replay, as whole programs, input from a file and output to none");
    for (name, limits, calls) in SCRIPTS {
        let script = scripts::valid(&mut Rng::new(9), limits, calls);
        fs::write(&input, &script.bytes).expect("the input can be written");
        let proved = |n| timed(n, || run(Command::new(&program), &input));
        let plain = |n| {
            timed(n, || {
                let mut command = Command::new(&this);
                command.arg(PLAIN_REPLAY);
                run(command, &input);
            })
        };
        line(&format!("{calls} calls, {name}"), ratio(LONG_ROUNDS, 1, proved, plain));
    }
    fs::remove_file(&input).expect("the input can be removed");
}

/// Checking a listing that agrees to its end, over replaying the same input.
fn logcheck() {
    let Some(checking) = program("logcheck", "MONITOR_LOGCHECK") else { return };
    let Some(replaying) = program("replay", "MONITOR_REPLAY") else { return };
    let this = env::current_exe().expect("this program has a path");
    let (input, recorded) = (this.with_file_name("bench-log-input"), this.with_file_name("bench-log-recorded"));
    heading("Logcheck over replay, as whole programs on the same input");
    for (name, limits, calls) in SCRIPTS {
        let script = scripts::valid(&mut Rng::new(9), limits, calls);
        fs::write(&input, &script.bytes).expect("the input can be written");
        fs::write(&recorded, plain::replay(&script.bytes)).expect("the listing can be written");
        let check = |n| {
            timed(n, || {
                let mut command = Command::new(&checking);
                command.arg(&input);
                run(command, &recorded);
            })
        };
        let replay = |n| timed(n, || run(Command::new(&replaying), &input));
        line(&format!("{calls} calls, {name}"), ratio(LONG_ROUNDS, 1, check, replay));
    }
    fs::remove_file(&input).expect("the input can be removed");
    fs::remove_file(&recorded).expect("the listing can be removed");
}

fn run(mut command: Command, input: &Path) {
    let input = File::open(input).expect("the input is there");
    let status = command.stdin(input).stdout(Stdio::null()).status().expect("the program runs");
    assert!(status.success());
}
