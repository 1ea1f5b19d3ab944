//! The plain monitor by itself, on random tables: what every monitor of document 01 must keep, and what it must not tell.

use plain::table::{BITS, BLOCK_BYTES, LIVE, MAP, PAGES, SERIAL, SHARABLE, SUBTYPE};
use plain::{Kind, Shape};
use trial::images::Images;
use trial::quick::Quick;
use trial::tally::Tally;
use trial::{Call, Monitor, Plain, Rng, World, calls, damage, largest, secrecy, tables, trays};

/// Every call on a well-formed table leaves it well formed, and a refused one changes nothing.
#[test]
fn calls_keep_tables_well_formed() {
    let mut rng = Rng::for_trial("calls_keep_tables_well_formed", 1);
    let mut tally = Tally::default();
    tally.bad_table(); // is tried below
    let mut made = 0;
    while made < trial::setting("TRIAL_CALLS", 500_000) {
        let limits = tables::limits(&mut rng);
        let start = match rng.chance(1, 4) {
            true => tables::fresh(&mut rng, limits),
            false => tables::well_formed(&mut rng, limits),
        };
        let mut run = Run::of(start);
        for _ in 0..200 {
            let call = calls::any(&mut rng, &run.world, &run.shape);
            run.make(&call, &mut tally);
            made += 1;
        }
    }
    let mut run = Run::of(largest::hall(&mut rng));
    for call in largest::calls(&mut rng) {
        run.make(&call, &mut tally);
    }
    println!("{tally}");
    tally.assert_complete();
}

/// A table, and the same before the last call on it.
struct Run {
    shape: Shape,
    before: World,
    world: World,
}

impl Run {
    fn of(world: World) -> Run {
        assert_eq!(Plain.check(&world.table, world.store.len()), 0, "the table drawn is well formed");
        Run { shape: world.shape(), before: world.clone(), world }
    }

    fn make(&mut self, call: &Call, tally: &mut Tally) {
        let view = view_is_a_read(&self.before, &mut self.world, call);
        tally.viewed(&self.before, &self.shape, call, view);
        let mut buffer = call.buffer.clone();
        let answer = Plain.call(&mut self.world.table, &mut self.world.store, &call.request, &mut buffer);
        tally.note(&self.before, &self.shape, call, answer);
        self.keeps(call, answer[0], &buffer);
        if answer[0] == 0 {
            self.before.table.copy_from_slice(&self.world.table);
            self.before.store.copy_from_slice(&self.world.store);
        }
    }

    /// What every call must keep.
    fn keeps(&self, call: &Call, error: u32, buffer: &[u8]) {
        let Run { shape, before, world } = self;
        if error != 0 {
            assert!(world == before && buffer == call.buffer, "a refusal changed something: {call:?}");
        }
        if !matches!(call.request.code, 13 | 16 | 17) {
            assert_eq!(buffer, call.buffer, "only 13, 16 and 17 change the buffer: {call:?}");
        }
        if !matches!(call.request.code, 14 | 21) {
            assert!(world.store == before.store, "only 14 and 21 write the store: {call:?}");
        }
        for process in (0..shape.count(Kind::Process)).filter(|&process| process != call.request.caller as usize) {
            let map = shape.at(Kind::Process, process) + MAP;
            let kept = world.table[map..map + PAGES] == before.table[map..map + PAGES];
            let released = !world.live(shape, Kind::Process, process);
            assert!(kept || released, "the map of process {process} was changed: {call:?}");
        }
        let records = shape.at(Kind::Process, 0);
        assert_eq!(world.table[..records], before.table[..records], "the configuration was changed: {call:?}");
        let word = |world: &World, kind: Kind, index: usize, word: usize| world.table[shape.at(kind, index) + word];
        let lives_on = |kind: Kind, index: usize| {
            [LIVE, SERIAL].iter().all(|&at| word(world, kind, index, at) == word(before, kind, index, at))
        };
        for segment in (0..shape.count(Kind::Segment)).filter(|&segment| lives_on(Kind::Segment, segment)) {
            let [bits, old_bits] = [world, before].map(|world| word(world, Kind::Segment, segment, BITS));
            let fixed = word(before, Kind::Segment, segment, SHARABLE) == 1;
            assert!(!fixed || bits == old_bits, "a sharable segment's bits: {call:?}");
        }
        for file in (0..shape.count(Kind::File)).filter(|&file| lives_on(Kind::File, file)) {
            let [subtype, old_subtype] = [world, before].map(|world| word(world, Kind::File, file, SUBTYPE));
            assert_eq!(subtype, old_subtype, "a file's subtype: {call:?}");
        }
        assert_eq!(Plain.check(&world.table, world.store.len()), 0, "left a bad table: {call:?}");
    }
}

/// A view by the call's process, of its first two arguments, shows what a read copies: the block's place in its file's stretch, and its
/// bytes. The read leaves the world as it was before. Its number.
fn view_is_a_read(before: &World, world: &mut World, call: &Call) -> u32 {
    let plain::Request { caller, a, b, .. } = call.request;
    let mut block = [0; BLOCK_BYTES];
    let read = plain::Request { caller, code: 13, a, b, c: 0 };
    let shown = Plain.view(&world.table, &world.store, caller, a, b);
    let [error, ..] = Plain.call(&mut world.table, &mut world.store, &read, &mut block);
    assert!(world == before, "a read changed something: {call:?}");
    if error == 0 {
        let from = world.block_at(&world.shape(), caller, a, b);
        assert_eq!((shown, &world.store[from..from + BLOCK_BYTES]), ((0, from, BLOCK_BYTES), &block[..]));
    } else {
        assert_eq!(shown, (error, 0, 0));
    }
    error
}

/// Every named damage makes a table bad.
#[test]
fn damages_are_found() {
    let mut rng = Rng::for_trial("damages_are_found", 2);
    for damage in damage::named() {
        let mut done = 0;
        let mut tried = 0;
        while done < 30 {
            tried += 1;
            assert!(tried < 20_000, "no table has a place for this damage: {}", damage.name);
            let limits = tables::limits(&mut rng);
            let mut world = tables::well_formed(&mut rng, limits);
            let shape = world.shape();
            if (damage.apply)(&mut rng, &mut world, &shape).is_some() {
                assert_eq!(Plain.check(&world.table, world.store.len()), 1, "not found: {}", damage.name);
                done += 1;
            }
        }
    }
}

#[test]
fn nothing_flows_down() {
    let mut rng = Rng::for_trial("nothing_flows_down", 3);
    let mut met = secrecy::Met::default();
    for _ in 0..trial::setting("TRIAL_RUNS", 2_000) {
        let limits = tables::limits(&mut rng);
        secrecy::pair_of_runs(&Plain, &mut rng, limits, 40, &mut met);
    }
    println!("{met:#?}");
    met.assert_complete();
}

/// Images of random halls, whole and damaged: what is taken, and what every reload must keep.
#[test]
fn images() {
    let mut images = Images::new(&Plain, Rng::for_trial("images", 4));
    images.everything(trial::setting("TRIAL_IMAGES", 40));
    println!("{}", images.met);
    images.met.assert_complete();
}

#[test]
fn trays_are_calls_made_singly_and_nothing_flows_down() {
    let mut rng = Rng::for_trial("trays_are_calls_made_singly_and_nothing_flows_down", 5);
    let mut met = trays::Met::default();
    trays::everything(&Plain, &mut rng, trial::setting("TRIAL_TRAYS", 1_500), &mut met);
    println!("{met:#?}");
    met.assert_complete();
}

#[test]
fn quick_trays_are_calls_made_singly() {
    let mut quick = Quick::new(&Plain, Rng::for_trial("quick_trays_are_calls_made_singly", 9));
    quick.everything(trial::setting("TRIAL_QUICK", 1_500));
    println!("{}", quick.met);
    quick.assert_complete();
}

/// Where the premise of regrades is broken, an observer is told: it is needed.
#[test]
fn the_premise_of_regrades_is_needed() {
    let mut rng = Rng::for_trial("the_premise_of_regrades_is_needed", 7);
    let mut told = secrecy::Told::default();
    for _ in 0..3 * trial::setting("TRIAL_RUNS", 2_000) {
        secrecy::broken_premise(&Plain, &mut rng, tables::MIDDLE, &mut told);
    }
    println!("{told:#?}");
    told.assert_complete();
}
