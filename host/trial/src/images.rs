//! Images: what a monitor writes in the evening and takes in the morning, against the plain one; whole images, and damaged ones.

use crate::damage;
use crate::largest;
use crate::rng::Rng;
use crate::tables::{self, World};
use crate::{Monitor, Plain};
use plain::Kind;
use plain::table::{CELL_WORDS, HEADER_WORDS, SUBTYPE_WORDS};
use std::collections::BTreeMap;
use std::fmt;

/// An image no longer than this is damaged at every byte, and cut at every length; a longer one at some.
const SMALL: usize = 1_500;
const SOME: usize = 40;

pub struct Images<'a> {
    pub monitor: &'a dyn Monitor,
    pub rng: Rng,
    pub met: Met,
}

/// How many images were written and refused, by what they were asked for; and how many reloads were taken and refused, by what was done
/// to the image.
#[derive(Default)]
pub struct Met(BTreeMap<&'static str, [u64; 2]>);

/// What must have been met at the end: some taken, some refused.
const WANTED: [(&str, [bool; 2]); 18] = [
    ("written into room enough", [true, false]),
    ("written into too little room", [false, true]),
    ("written of a bad table into room enough", [false, true]),
    ("written of a bad table into no room", [false, true]),
    ("whole", [true, false]),
    ("a byte changed", [true, true]),
    ("cut", [false, true]),
    ("bytes over", [false, true]),
    ("a byte put in", [false, true]),
    ("a longer form", [false, true]),
    ("a longer form, and a byte less", [false, true]),
    ("a number too large", [false, true]),
    ("not well formed", [false, true]),
    ("another hall of the same lengths", [true, false]),
    ("a hall of other lengths", [false, true]),
    ("the largest store, whole", [true, false]),
    ("the largest store, its last byte changed", [true, false]),
    ("the largest store, its last byte cut", [false, true]),
];

impl Met {
    fn note(&mut self, name: &'static str, error: u32) {
        self.0.entry(name).or_default()[usize::from(error != 0)] += 1;
    }

    pub fn assert_complete(&self) {
        assert_eq!(self.0.len(), WANTED.len(), "another damage was tried than is listed");
        for (name, wanted) in WANTED {
            let met = self.0.get(name).copied().unwrap_or_default();
            assert_eq!(met.map(|count| count > 0), wanted, "{name}: {} done, {} refused", met[0], met[1]);
        }
    }
}

impl fmt::Display for Met {
    fn fmt(&self, f: &mut fmt::Formatter) -> fmt::Result {
        for (name, [done, refused]) in &self.0 {
            writeln!(f, "{name}: {done} done, {refused} refused")?;
        }
        Ok(())
    }
}

/// Puts down a number in seven-bit groups; with `longer`, one group too many.
fn number(bytes: &mut Vec<u8>, value: u32, longer: bool) {
    let mut rest = value;
    while rest > 127 {
        bytes.push((rest & 127 | 128) as u8);
        rest >>= 7;
    }
    bytes.push(rest as u8);
    if longer {
        *bytes.last_mut().expect("there is a group") |= 128;
        bytes.push(0);
    }
}

/// The bytes of any table and store, with something done to the number at one place.
fn bytes(world: &World, at: usize, number_there: impl Fn(&mut Vec<u8>, u32)) -> Vec<u8> {
    let mut all = Vec::with_capacity(5 * world.table.len() + world.store.len());
    for (i, &word) in world.table.iter().enumerate() {
        match i == at {
            true => number_there(&mut all, word),
            false => number(&mut all, word, false),
        }
    }
    all.extend_from_slice(&world.store);
    all
}

fn plain_bytes(world: &World) -> Vec<u8> {
    bytes(world, usize::MAX, |all, word| number(all, word, false))
}

impl<'a> Images<'a> {
    pub fn new(monitor: &'a dyn Monitor, rng: Rng) -> Self {
        Images { monitor, rng, met: Met::default() }
    }

    /// All trials, on so many halls.
    pub fn everything(&mut self, halls: u64) {
        for _ in 0..halls {
            let limits = tables::limits(&mut self.rng);
            let world = match self.rng.chance(1, 4) {
                true => tables::fresh(&mut self.rng, limits),
                false => tables::well_formed(&mut self.rng, limits),
            };
            let image = self.written(&world);
            self.reload("whole", &world, &image);
            self.damaged_bytes(&world, &image);
            self.damaged_numbers(&world);
            self.other_halls(&world, limits);
            self.bad_table(&world);
        }
        self.largest();
    }

    /// The largest store, with a file in its last block.
    fn largest(&mut self) {
        let mut world = largest::hall(&mut self.rng);
        for mut call in largest::calls(&mut self.rng) {
            Plain.call(&mut world.table, &mut world.store, &call.request, &mut call.buffer);
        }
        let mut image = self.written(&world);
        self.reload("the largest store, whole", &world, &image);
        *image.last_mut().expect("there is a store") ^= 1;
        self.reload("the largest store, its last byte changed", &world, &image);
        image.pop();
        self.reload("the largest store, its last byte cut", &world, &image);
    }

    /// The image: the words, then the store; its length; and what becomes of buffers of other lengths.
    fn written(&mut self, world: &World) -> Vec<u8> {
        let image = plain_bytes(world);
        let length = self.monitor.image_length(&world.table, world.store.len());
        assert_eq!(length, image.len(), "another length was told");
        for room in [0, length - 1, length, length + 1, length + 100] {
            let (mut ours, mut theirs) = self.written_twice(world, room);
            let fits = room >= length;
            assert_eq!((ours.0, theirs.0), if fits { (0, 0) } else { (5, 5) }, "room for {room} of {length} bytes");
            self.met.note(if fits { "written into room enough" } else { "written into too little room" }, ours.0);
            assert!(ours.1 == theirs.1, "another image, with room for {room} of {length} bytes");
            if fits {
                assert!(ours.1.drain(..length).eq(image.iter().copied()), "no image");
                theirs.1.drain(..length);
                assert!(ours.1 == theirs.1, "the rest of the buffer was changed");
            }
        }
        image
    }

    /// Both images of one world, into buffers that have the same bytes in them.
    fn written_twice(&mut self, world: &World, room: usize) -> ((u32, Vec<u8>), (u32, Vec<u8>)) {
        let mut noise = vec![0; room];
        self.rng.bytes(&mut noise);
        let (mut ours, mut theirs) = (noise.clone(), noise.clone());
        let answer = self.monitor.image(&world.table, &world.store, &mut ours);
        let expected = Plain.image(&world.table, &world.store, &mut theirs);
        if answer != 0 {
            assert!(ours == noise, "a refusal changed the buffer");
        }
        ((answer, ours), (expected, theirs))
    }

    /// A table that may be bad: the length is 0, and a bad table is refused before a short buffer.
    fn bad_table(&mut self, world: &World) {
        let mut bad = world.clone();
        damage::random(&mut self.rng, &mut bad, &world.shape());
        let length = self.monitor.image_length(&bad.table, bad.store.len());
        assert_eq!(length, Plain.image_length(&bad.table, bad.store.len()), "another length was told");
        let rooms = [
            ("written of a bad table into no room", 0),
            ("written of a bad table into room enough", plain_bytes(&bad).len()),
        ];
        for (name, room) in rooms {
            let (ours, theirs) = self.written_twice(&bad, room);
            assert!(ours == theirs, "a bad table's image");
            assert_eq!(ours.0 == 1, length == 0);
            if ours.0 == 1 {
                self.met.note(name, ours.0);
            }
        }
    }

    /// Reloads into a table and a store of other contents and the world's lengths.
    fn reload(&mut self, name: &'static str, world: &World, image: &[u8]) {
        let mut lent = World { table: vec![self.rng.word(); world.table.len()], store: vec![0; world.store.len()] };
        let some = lent.store.len().min(64);
        self.rng.bytes(&mut lent.store[..some]);
        let (mut ours, mut theirs) = (lent.clone(), lent.clone());
        let answer = self.monitor.reload(&mut ours.table, &mut ours.store, image);
        let expected = Plain.reload(&mut theirs.table, &mut theirs.store, image);
        assert_eq!(answer, expected, "{name}: another answer");
        assert!(ours == theirs, "{name}: another table or store");
        if answer == 0 {
            let mut again = vec![0; image.len()];
            let length = self.monitor.image_length(&ours.table, ours.store.len());
            let written = self.monitor.image(&ours.table, &ours.store, &mut again);
            assert_eq!((length, written), (image.len(), 0), "{name}: taken, but has no image of that length");
            assert!(again == image, "{name}: taken, but its image is another");
        } else {
            assert_eq!(answer, 4, "{name}");
            assert!(ours == lent, "{name}: a refusal touched something");
        }
        self.met.note(name, answer);
    }

    /// Every place of a small image, or some.
    fn places(&mut self, length: usize) -> Vec<usize> {
        match length <= SMALL {
            true => (0..length).collect(),
            false => (0..SOME).map(|_| self.rng.below(length)).collect(),
        }
    }

    fn damaged_bytes(&mut self, world: &World, image: &[u8]) {
        for at in self.places(image.len()) {
            let mut other = image.to_vec();
            other[at] ^= self.rng.pick(&[1, 2, 128, 127, 255]);
            self.reload("a byte changed", world, &other);
            self.reload("cut", world, &image[..at]);
        }
        for over in [1, 2, 512] {
            let mut other = image.to_vec();
            other.resize(image.len() + over, self.rng.word() as u8);
            self.reload("bytes over", world, &other);
        }
        let mut other = image.to_vec();
        other.insert(self.rng.below(image.len()), self.rng.pick(&[0, 1, 127]));
        self.reload("a byte put in", world, &other);
    }

    /// Numbers in another form, and numbers that make no well-formed table.
    fn damaged_numbers(&mut self, world: &World) {
        for at in self.places(world.table.len()) {
            let mut longer = bytes(world, at, |all, word| number(all, word, true));
            self.reload("a longer form", world, &longer);
            if longer.pop().is_some() && !world.store.is_empty() {
                self.reload("a longer form, and a byte less", world, &longer);
            }
            let last = self.rng.between(16, 127) as u8;
            let large = bytes(world, at, |all, _| all.extend([128, 128, 128, 128, last]));
            self.reload("a number too large", world, &large);
        }
        let shape = world.shape();
        let damages = damage::named();
        for _ in 0..8 {
            let mut bad = world.clone();
            let damage = &damages[self.rng.below(damages.len())];
            let lengths = (bad.table.len(), bad.store.len());
            let done = (damage.apply)(&mut self.rng, &mut bad, &shape).is_some();
            if done && (bad.table.len(), bad.store.len()) == lengths {
                self.reload("not well formed", world, &plain_bytes(&bad));
            }
        }
    }

    /// The image of another hall is taken where both lengths are the same, and only there.
    fn other_halls(&mut self, world: &World, limits: tables::Limits) {
        let shape = world.shape();
        let mut words = world.table[..shape.at(Kind::Process, 0)].to_vec();
        let (cells, subtypes) = words[HEADER_WORDS..].split_at_mut(CELL_WORDS * shape.cells);
        for cell in cells.chunks_mut(CELL_WORDS) {
            (cell[6], cell[7]) = (tables::identity(&mut self.rng), tables::identity(&mut self.rng));
        }
        for subtype in subtypes.chunks_mut(SUBTYPE_WORDS) {
            (subtype[1], subtype[2]) = (tables::identity(&mut self.rng), tables::identity(&mut self.rng));
            subtype[3] = tables::bits(&mut self.rng);
        }
        let other = tables::busy(&mut self.rng, &words);
        self.reload("another hall of the same lengths", world, &plain_bytes(&other));
        let other = tables::well_formed(&mut self.rng, limits);
        if (other.table.len(), other.store.len()) != (world.table.len(), world.store.len()) {
            self.reload("a hall of other lengths", world, &plain_bytes(&other));
        }
    }
}
