//! Quick trays in the proved archive: against the plain monitor's calls made singly, with the working slice against a fresh one after each.

use crate::archive::Archive;
use monitor::layout::{MAX_CELLS, MAX_SLOTS, work_words};
use monitor::{
    Bits, Caller, Cell, Code, Descriptor, Error, Hall, Level, Modes, Monitor, Record, Seid, quick_tray, work,
    work_length,
};
use trial::Rng;
use trial::quick::Quick;

#[test]
fn quick_trays_are_calls_made_singly() {
    let mut quick = Quick::new(&Archive, Rng::for_trial("quick_trays_are_calls_made_singly", 23));
    quick.everything(trial::setting("TRIAL_QUICK", 3_000));
    println!("{}", quick.met);
    quick.assert_complete();
}

fn create() -> Record {
    Record { code: Code::CreateFile.number(), a: 0o600, b: Modes::ReadWrite.number(), ..Record::default() }
}

/// The owner's methods: a slice serves until something else changes the table.
#[test]
fn the_owners_quick_trays() {
    let cell = Cell { processes: 1, files: 3, ..Cell::default() };
    let mut monitor = Monitor::set_up(&Hall { blocks: 1, cells: vec![cell], ..Hall::default() }).unwrap();
    let mut slice = monitor.work().unwrap();
    // No process slot, no segment, files 0 to 2; and what process 0 has open of each.
    assert_eq!(slice, [0, 0, 0, 3, 2, 1, 0, 0, 0, 0]);
    let mut one = [create()];
    monitor.quick_tray(&mut one, &mut [], &mut slice).unwrap();
    assert_eq!(one[0].answer.result(), Ok((129 << 24 | 1, 0)));
    assert_eq!(slice, [0, 0, 0, 2, 2, 1, 0, 1, 0, 0]);
    let mut by_tray = monitor.clone();
    by_tray.tray(&mut [create()], &mut []).unwrap();
    let left_behind = slice.clone();
    monitor.quick_tray(&mut [create()], &mut [], &mut slice).unwrap();
    assert_eq!(monitor, by_tray);
    assert_eq!(slice, [0, 0, 0, 1, 2, 0, 0, 1, 2, 0]);
    let before = monitor.clone();
    let mut refused = left_behind.clone();
    assert_eq!(monitor.quick_tray(&mut [create()], &mut [], &mut refused), Err(Error::XbTab));
    assert_eq!((refused, &monitor), (left_behind, &before));
    monitor.close(Caller(0), Descriptor(0)).unwrap();
    assert_eq!(monitor.quick_tray(&mut [create()], &mut [], &mut slice), Err(Error::XbTab));
    slice = monitor.work().unwrap();
    assert_eq!(slice, [0, 0, 0, 2, 256, 2, 0, 0, 2, 0]);
    monitor.set_bits(Caller(0), Seid::CALLER, Bits(0o600)).unwrap();
    monitor.quick_tray(&mut [create()], &mut [], &mut slice).unwrap(); // bits are not in it
    monitor.parts_mut().0[0] = 0;
    assert_eq!(monitor.work(), Err(Error::XbTab));
    assert_eq!(monitor.quick_tray(&mut [], &mut [], &mut slice), Err(Error::XbTab));
}

/// No slice is longer than the header's numbers tell; in a hall of one cell it is as long as that.
#[test]
fn lengths() {
    let cell = |at: usize, processes, segments, files| Cell {
        level: Level::new(0, 0, at as u32),
        processes,
        segments,
        files,
        ..Cell::default()
    };
    let slots = MAX_SLOTS as u32;
    for (cells, most) in [
        (vec![cell(0, 1, 0, 0)], work_words(1, 1, 0, 0)),
        (vec![cell(0, 2, 3, 4)], work_words(1, 2, 3, 4)),
        (vec![cell(0, slots, slots, slots)], work_words(1, MAX_SLOTS, MAX_SLOTS, MAX_SLOTS)),
        (vec![cell(0, 2, 3, 4), cell(1, 5, 0, 6)], work_words(2, 7, 3, 10) - 2 * 6 - 5 * 4),
        ((0..MAX_CELLS).map(|at| cell(at, 16, 16, 16)).collect(), work_words(16, 256, 256, 256) - 16 * 15 * 256),
    ] {
        let hall = Hall { blocks: 1, cells, ..Hall::default() };
        let monitor = Monitor::set_up(&hall).unwrap();
        assert_eq!(work_length(monitor.table(), monitor.store().len()), Some(most), "{hall:?}");
        let mut long = vec![7; most + 1];
        assert_eq!(work(monitor.table(), monitor.store().len(), &mut long), Err(Error::XbSz));
        assert_eq!(long, vec![7; most + 1]);
    }
    assert_eq!(work_length(&[], 0), None);
    assert_eq!(work(&[], 0, &mut []), Err(Error::XbTab));
    assert_eq!(quick_tray(&mut [], &mut [], &mut [], &mut [], &mut []), Err(Error::XbTab));
}
