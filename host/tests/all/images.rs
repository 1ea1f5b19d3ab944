//! The proved archive's image and reload against the plain one's: whole images and damaged ones, of as many halls as TRIAL_IMAGES says.

use crate::archive::Archive;
use monitor::{Bits, Caller, Cell, Error, Hall, Modes, Monitor};
use trial::Rng;
use trial::images::Images;

#[test]
fn archive_and_plain_agree_on_images() {
    let mut images = Images::new(&Archive, Rng::for_trial("archive_and_plain_agree_on_images", 19));
    images.everything(trial::setting("TRIAL_IMAGES", 100));
    println!("{}", images.met);
    images.met.assert_complete();
}

/// A reload takes history back: the identifier that was handed out after the image is handed out again.
#[test]
fn history_is_taken_back() {
    let cell = Cell { processes: 1, files: 2, ..Cell::default() };
    let mut monitor = Monitor::set_up(&Hall { blocks: 1, cells: vec![cell], ..Hall::default() }).unwrap();
    let evening = monitor.image().unwrap();
    let create = |monitor: &mut Monitor| monitor.create_file(Caller(0), Bits(0o600), Modes::ReadWrite).unwrap();
    let first = create(&mut monitor);
    monitor.write_block(Caller(0), first.1, 0, &[7; 512]).unwrap();
    let later = monitor.image().unwrap();
    assert!(later.len() > evening.len());
    monitor.reload(&evening).unwrap();
    assert_eq!((create(&mut monitor), monitor.image().unwrap().len()), (first, later.len()));
    assert_eq!(monitor.reload(&later[1..]), Err(Error::XbParam));
    monitor.parts_mut().0[0] = 0;
    assert_eq!(monitor.image(), Err(Error::XbTab));
    monitor.reload(&later).unwrap();
    assert_eq!(monitor.image().unwrap(), later);
}

/// A table longer than the largest is refused, whatever the image; so is one of no words.
#[test]
fn other_lengths() {
    use monitor::layout::{MAX_CELLS, MAX_SLOTS, MAX_SUBTYPES, table_words};
    let most = table_words(MAX_CELLS, MAX_SLOTS, MAX_SLOTS, MAX_SLOTS, MAX_SUBTYPES);
    for words in [0, 1, most, most + 1, 2 * most] {
        let (mut table, mut store, image) = (vec![7; words], vec![7; 512], vec![0; words + 512]);
        assert_eq!(monitor::reload(&mut table, &mut store, &image), Err(Error::XbParam));
        assert!(table.iter().all(|&word| word == 7) && store.iter().all(|&byte| byte == 7));
        assert_eq!(monitor::image(&table, &store, &mut []), Err(Error::XbTab));
        assert_eq!(monitor::image_length(&table, store.len()), None);
    }
}
