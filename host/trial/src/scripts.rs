//! Replay inputs: valid ones, long and short, and damaged ones; and any input as the text that tools/script.py reads.

use crate::calls::{self, Call};
use crate::rng::Rng;
use crate::shrink;
use crate::tables::{self, Limits, World};
use crate::{Monitor, Plain};
use plain::table::{CELL_WORDS, HEADER_WORDS, MAX_CELLS, MAX_SUBTYPES, SUBTYPE_WORDS};
use plain::{HEADER_NUMBERS, Kind, Request, Seid, number};
use std::fmt::Write;

/// A replay input, and where its numbers start: a damage there does more than one among a buffer's bytes.
#[derive(Clone, Default)]
pub struct Script {
    pub bytes: Vec<u8>,
    numbers: Vec<usize>,
}

impl Script {
    /// A number in seven-bit groups, low group first.
    pub fn number(&mut self, mut number: u32) {
        self.numbers.push(self.bytes.len());
        while number >= 128 {
            self.bytes.push((number % 128) as u8 | 128);
            number /= 128;
        }
        self.bytes.push(number as u8);
    }

    /// The header's numbers, without its zero, and the words of cells and subtypes.
    pub fn configuration(&mut self, words: &[u32]) {
        for &word in words[..HEADER_NUMBERS].iter().chain(&words[HEADER_WORDS..]) {
            self.number(word);
        }
    }

    pub fn call(&mut self, request: &Request, buffer: &[u8]) {
        for word in [request.caller, request.code, request.a, request.b, request.c, buffer.len() as u32] {
            self.number(word);
        }
        self.bytes.extend_from_slice(buffer);
    }
}

/// A valid script. The calls are drawn on the table as it stands when they are made, so that many succeed.
pub fn valid(rng: &mut Rng, limits: Limits, calls: usize) -> Script {
    let configuration = tables::configuration(rng, limits);
    let mut script = Script::default();
    script.configuration(&configuration);
    let mut world = World::configured(&configuration);
    Plain.setup(&mut world.table, world.store.len());
    let shape = world.shape();
    for _ in 0..calls {
        let mut call = calls::any(rng, &world, &shape);
        call.buffer.truncate(512);
        script.call(&call.request, &call.buffer);
        Plain.call(&mut world.table, &mut world.store, &call.request, &mut call.buffer);
    }
    script
}

/// Cuts or changes a script somewhere, mostly at a number; near its start often, where the configuration is.
pub fn damage(rng: &mut Rng, script: &mut Script) {
    let numbers = script.numbers.len();
    let bytes = &mut script.bytes;
    let at = match rng.below(4) {
        0 => rng.below(bytes.len()),
        1 => rng.below(bytes.len().min(40)),
        2 => script.numbers[rng.below(numbers.min(40))],
        _ => script.numbers[rng.below(numbers)],
    };
    match rng.below(8) {
        0 | 1 => bytes.truncate(at),
        2 => drop(bytes.remove(at)),
        3 => bytes.insert(at, rng.word() as u8),
        4 => bytes[at] = rng.word() as u8,
        5 => bytes[at] ^= 1 << rng.below(8),
        6 => {
            // A number that is not in its shortest form, or is too large or too long; or just not too large.
            let forms: [&[u8]; 7] = [
                &[128, 0],
                &[129, 0],
                &[129, 128, 0],
                &[255, 255, 255, 255, 15],
                &[255, 255, 255, 255, 16],
                &[128, 128, 128, 128, 16],
                &[129, 128, 128, 128, 128, 0],
            ];
            bytes.splice(at..at + 1, rng.pick(&forms).iter().copied());
        }
        _ => {
            // A buffer that is too long, for a call that asks for one or for none.
            let code = rng.pick(&[1, 13, 16]);
            script.call(&Request { caller: 0, code, a: 0, b: 0, c: 0 }, &[7; 513]);
        }
    }
}

/// A script whose numbers are well formed but whose configuration, but for a lucky draw, is not good or not for replay.
pub fn bad_configuration(rng: &mut Rng, limits: Limits) -> Script {
    let mut words = tables::configuration(rng, limits);
    let cells = words[0] as usize;
    match rng.below(10) {
        8 | 9 => bad_subtypes(rng, &mut words),
        3 => words[5] = rng.pick(&[cells as u32, cells as u32 + 1, 17, u32::MAX]), // a guard cell that is there, or none that is
        0 if cells > 1 => words.copy_within(8..11, 16),                            // two cells of one level
        2 => {
            // As many slots of a kind as replay takes, or one more, which set-up would take: the first cell has what the others lack.
            let kind = rng.pick(&[0, 0, 1, 1, 2]);
            let others: u32 = (1..cells).map(|cell| words[8 + 8 * cell + 3 + kind]).sum();
            words[1 + kind] = rng.pick(&[64, 65, 65, 256]);
            words[11 + kind] = words[1 + kind].saturating_sub(others);
            words[4] = 1; // so that the store is no larger than it may be, as far as can be
        }
        4 => {
            let word = 8 + 8 * rng.below(cells) + 6 + rng.below(2); // an owner or a group
            words[word] = rng.pick(&[65535, 65536, 65537, u32::MAX]);
        }
        5 if cells > 1 => {
            // A cell without process slots: the next one has them, so that the sum is right.
            let cell = 8 + 8 * rng.below(cells - 1);
            words[cell + 8 + 3] += words[cell + 3];
            words[cell + 3] = 0;
        }
        1 => {
            // Files x B about 64; all files in the first cell, so that nothing else is wrong.
            (words[3], words[4]) = rng.pick(&[
                (65, 1),
                (1, 65),
                (33, 2),
                (5, 13),
                (64, 64),
                (64, 1 << 26),
                (0, 65),
                (0, 65),
                (0, 0),
                (64, 1),
            ]);
            for cell in 0..cells {
                words[8 + 8 * cell + 5] = if cell == 0 { words[3] } else { 0 };
            }
        }
        _ => {
            let zeros = HEADER_WORDS - HEADER_NUMBERS;
            let some = if rng.chance(1, 2) { HEADER_NUMBERS } else { words.len() - zeros };
            let at = rng.below(some);
            let word = &mut words[if at < HEADER_NUMBERS { at } else { at + zeros }];
            *word =
                rng.pick(&[0, 16, 17, 64, 65, 256, 65535, 65536, u32::MAX, word.wrapping_add(1), word.wrapping_sub(1)]);
        }
    }
    let mut script = Script::default();
    script.configuration(&words);
    script.call(&Request { caller: 0, code: 1, a: 0, b: 0, c: 0 }, &[]);
    script
}

/// Changes the subtypes of a configuration: one that is out of range, cells that fall, or more than there can be.
fn bad_subtypes(rng: &mut Rng, words: &mut Vec<u32>) {
    let first = HEADER_WORDS + CELL_WORDS * words[0] as usize;
    let last = (words.len() - SUBTYPE_WORDS).max(first);
    match rng.below(6) {
        0 => {
            // One more than there can be, and as many words as there would be then.
            words[6] = MAX_SUBTYPES as u32 + 1;
            words.resize(first + SUBTYPE_WORDS * (MAX_SUBTYPES + 1), 0);
        }
        _ if last == words.len() => {} // there is none
        1 => words[last] = rng.pick(&[words[0] - 1, words[0], 16, u32::MAX]),
        2 | 3 => words.swap(first, last),
        4 => words[last + 1 + rng.below(2)] = rng.pick(&[65535, 65536, u32::MAX]),
        _ => words[last + 3] = rng.pick(&[511, 512, u32::MAX]),
    }
}

/// Where an input stops a replay, and why; or that it does not. A configuration counts by what is wrong where that is one thing alone.
pub const ENDS: &[&str] = &[
    "configuration: cut",
    "configuration: a number that is not in its shortest form",
    "configuration: a number too large",
    "configuration: cells",
    "configuration: process slots",
    "configuration: segment slots",
    "configuration: blocks",
    "configuration: files x blocks",
    "configuration: guard",
    "configuration: subtypes",
    "configuration: security or integrity",
    "configuration: a cell without process slots",
    "configuration: owner or group",
    "configuration: slot sums",
    "configuration: two cells of one level",
    "configuration: a subtype of no cell",
    "configuration: cells of subtypes that fall",
    "configuration: a subtype's owner or group",
    "configuration: a subtype's bits",
    "configuration: more than one thing",
    "call: cut in its numbers",
    "call: cut in its buffer",
    "call: a number that is not in its shortest form",
    "call: a number too large",
    "call: a buffer too long",
    "whole, without calls",
    "whole, with calls",
];

/// The end of an input, one of ENDS.
pub fn end(mut input: &[u8]) -> &'static str {
    let words = match configured(&mut input) {
        Ok(words) => words,
        Err(Fault::Cut) => return "configuration: cut",
        Err(Fault::Longer) => return "configuration: a number that is not in its shortest form",
        Err(Fault::Large) => return "configuration: a number too large",
    };
    match wrong(&words)[..] {
        [] => {}
        [alone] => return alone,
        _ => return "configuration: more than one thing",
    }
    if input.is_empty() {
        return "whole, without calls";
    }
    while !input.is_empty() {
        if let Err(fault) = called(&mut input) {
            return fault;
        }
    }
    "whole, with calls"
}

/// What is wrong with a number.
enum Fault {
    Cut,
    Longer,
    Large,
}

/// A number, by the documents' words alone: at most five groups, the fifth at most 15, and no last group 0 after others.
fn judged(input: &mut &[u8]) -> Result<u32, Fault> {
    let mut value = 0;
    for at in 0..5 {
        let (&group, rest) = input.split_first().ok_or(Fault::Cut)?;
        *input = rest;
        value |= u64::from(group & 127) << (7 * at);
        match group {
            0 if at > 0 => return Err(Fault::Longer),
            0..128 => return u32::try_from(value).map_err(|_| Fault::Large),
            _ => {}
        }
    }
    Err(Fault::Large)
}

/// The numbers of a configuration: the header's, and the cells' and the subtypes' if their numbers are some that can be.
fn configured(input: &mut &[u8]) -> Result<Vec<u32>, Fault> {
    let mut words = Vec::new();
    for _ in 0..HEADER_NUMBERS {
        words.push(judged(input)?);
    }
    let (cells, subtypes) = (words[0] as usize, words[6] as usize);
    if (1..=MAX_CELLS).contains(&cells) && subtypes <= MAX_SUBTYPES {
        for _ in 0..CELL_WORDS * cells + SUBTYPE_WORDS * subtypes {
            words.push(judged(input)?);
        }
    }
    Ok(words)
}

/// All that is wrong with the numbers of a configuration. More files than 64 are too many blocks, and need no name.
fn wrong(words: &[u32]) -> Vec<&'static str> {
    let (header, rest) = words.split_at(HEADER_NUMBERS);
    let &[count, processes, segments, files, blocks, guard, subtypes] = header else {
        panic!("the header has seven numbers");
    };
    if rest.is_empty() {
        let cells = !(1..=MAX_CELLS as u32).contains(&count);
        let clauses = [("configuration: cells", cells), ("configuration: subtypes", subtypes > 16)];
        return clauses.into_iter().filter(|(_, wrong)| *wrong).map(|(name, _)| name).collect();
    }
    let (cells, subtypes) = rest.split_at(CELL_WORDS * count as usize);
    let (cells, _) = cells.as_chunks::<CELL_WORDS>();
    let (subtypes, _) = subtypes.as_chunks::<SUBTYPE_WORDS>();
    let sum = |word: usize| cells.iter().map(|cell| u64::from(cell[word])).sum::<u64>();
    let sums = [(3, processes), (4, segments), (5, files)];
    let twice = |at: usize| cells[..at].iter().any(|earlier| earlier[..3] == cells[at][..3]);
    let clauses = [
        ("configuration: process slots", !(1..=64).contains(&processes)),
        ("configuration: segment slots", segments > 64),
        ("configuration: blocks", !(1..=64).contains(&blocks)),
        ("configuration: files x blocks", u64::from(files) * u64::from(blocks) > 64),
        ("configuration: guard", guard > count),
        ("configuration: security or integrity", cells.iter().any(|cell| cell[0] > 15 || cell[1] > 15)),
        ("configuration: a cell without process slots", cells.iter().any(|cell| cell[3] == 0)),
        ("configuration: owner or group", cells.iter().any(|cell| cell[6] > 65535 || cell[7] > 65535)),
        ("configuration: slot sums", sums.iter().any(|&(word, due)| sum(word) != u64::from(due))),
        ("configuration: two cells of one level", (0..cells.len()).any(twice)),
        ("configuration: a subtype of no cell", subtypes.iter().any(|subtype| subtype[0] >= count)),
        ("configuration: cells of subtypes that fall", !subtypes.is_sorted_by_key(|subtype| subtype[0])),
        ("configuration: a subtype's owner or group", subtypes.iter().any(|s| s[1] > 65535 || s[2] > 65535)),
        ("configuration: a subtype's bits", subtypes.iter().any(|subtype| subtype[3] > 511)),
    ];
    clauses.into_iter().filter(|(_, wrong)| *wrong).map(|(name, _)| name).collect()
}

/// A call, or what is wrong with it.
fn called(input: &mut &[u8]) -> Result<(), &'static str> {
    let mut length = 0;
    for _ in 0..6 {
        length = judged(input).map_err(|fault| match fault {
            Fault::Cut => "call: cut in its numbers",
            Fault::Longer => "call: a number that is not in its shortest form",
            Fault::Large => "call: a number too large",
        })?;
    }
    if length > 512 {
        return Err("call: a buffer too long");
    }
    *input = input.get(length as usize..).ok_or("call: cut in its buffer")?;
    Ok(())
}

/// A part of an input.
#[derive(Clone, PartialEq, Eq)]
pub enum Part {
    /// The header's numbers, then the cells' and the subtypes'.
    Configuration(Vec<u32>),
    Call(Call),
    /// What stands where a number is bad or something is cut, to the end.
    Rest(Vec<u8>),
}

/// An input in parts.
pub fn parts(mut input: &[u8]) -> Vec<Part> {
    let mut parts = Vec::new();
    let mut next: fn(&mut &[u8]) -> Option<Part> = configuration;
    while !input.is_empty() {
        let mut rest = input;
        let part = next(&mut rest);
        if part.is_none() {
            rest = &[];
        }
        parts.push(part.unwrap_or_else(|| Part::Rest(input.to_vec())));
        input = rest;
        next = call;
    }
    parts
}

/// The input of some parts.
pub fn joined(parts: &[Part]) -> Vec<u8> {
    let mut script = Script::default();
    for part in parts {
        match part {
            Part::Configuration(words) => words.iter().for_each(|&word| script.number(word)),
            Part::Call(call) => script.call(&call.request, &call.buffer),
            Part::Rest(bytes) => script.bytes.extend(bytes),
        }
    }
    script.bytes
}

fn configuration(input: &mut &[u8]) -> Option<Part> {
    let mut words = (0..HEADER_NUMBERS).map(|_| number(input)).collect::<Option<Vec<u32>>>()?;
    let (cells, subtypes) = (words[0] as usize, words[6] as usize);
    if cells > MAX_CELLS || subtypes > MAX_SUBTYPES {
        return None;
    }
    for _ in 0..CELL_WORDS * cells + SUBTYPE_WORDS * subtypes {
        words.push(number(input)?);
    }
    Some(Part::Configuration(words))
}

fn call(input: &mut &[u8]) -> Option<Part> {
    let [caller, code, a, b, c, length] = [(); 6].map(|()| number(input));
    let request = Request { caller: caller?, code: code?, a: a?, b: b?, c: c? };
    let (buffer, rest) = input.split_at_checked(length? as usize)?;
    *input = rest;
    Some(Part::Call(Call { request, buffer: buffer.to_vec() }))
}

/// An input with calls dropped and made simpler while it still differs.
pub fn shrunk(input: &[u8], mut differs: impl FnMut(&[u8]) -> bool) -> Vec<u8> {
    let mut parts = parts(input);
    shrink::shrink(&mut parts, |fewer| differs(&joined(fewer)));
    let on_call = |part: &mut Part, change: fn(&mut Call)| {
        if let Part::Call(call) = part {
            change(call);
        }
    };
    shrink::simplify(&mut parts, on_call, |simpler| differs(&joined(simpler)));
    joined(&parts)
}

/// An input as text: tools/script.py makes the same bytes of it again.
pub fn text(input: &[u8], monitor: &dyn Monitor) -> String {
    let mut text = String::new();
    let line = |text: &mut String, name: &str, words: &[u32]| {
        let words: Vec<String> = words.iter().map(u32::to_string).collect();
        writeln!(text, "{name} {}", words.join(" ")).expect("a string takes it");
    };
    for part in parts(input) {
        match part {
            Part::Configuration(words) => {
                let (header, rest) = words.split_at(HEADER_NUMBERS);
                let (cells, subtypes) = rest.split_at(CELL_WORDS * header[0] as usize);
                line(&mut text, "header", header);
                for cell in cells.chunks(CELL_WORDS) {
                    line(&mut text, "cell", cell);
                }
                for subtype in subtypes.chunks(SUBTYPE_WORDS) {
                    line(&mut text, "subtype", subtype);
                }
            }
            Part::Call(call) => writeln!(text, "{}", call_text(&call, monitor)).expect("a string takes it"),
            Part::Rest(bytes) => line(&mut text, "bytes", &bytes.into_iter().map(u32::from).collect::<Vec<u32>>()),
        }
    }
    text
}

fn call_text(call: &Call, monitor: &dyn Monitor) -> String {
    let Request { caller, code, a, b, c } = call.request;
    let name = monitor.name(code).unwrap_or_else(|| code.to_string());
    let mut arguments = vec![a, b, c];
    while arguments.last() == Some(&0) {
        arguments.pop();
    }
    let mut text = format!("{caller} {name}");
    for word in arguments {
        text += &format!(" {}", argument(word));
    }
    let hex = |bytes: &[u8]| bytes.iter().map(|byte| format!("{byte:02x}")).collect::<String>();
    match call.buffer[..] {
        [] => {}
        [first, ..] if call.buffer.iter().all(|&byte| byte == first) => match first {
            0 => text += &format!(" : {}", call.buffer.len()),
            _ => text += &format!(" : fill {} {first:02x}", call.buffer.len()),
        },
        _ => text += &format!(" : hex {}", hex(&call.buffer)),
    }
    match monitor.words(&call.request) {
        Some(words) => format!("{text:<40} # {words}"),
        None => text,
    }
}

/// A number, or a seid as scripts spell it: f0.1 is file 0 of serial 1, and t0.1 subtype 0.
pub fn argument(word: u32) -> String {
    let seid = Seid::of(word);
    let letter = match Kind::of_class(seid.class) {
        Some(Kind::Process) => 'p',
        Some(Kind::Segment) => 's',
        Some(Kind::File) => 'f',
        None if seid.of_subtype() => 't',
        None => return word.to_string(),
    };
    format!("{letter}{}.{}", seid.index, seid.serial)
}
