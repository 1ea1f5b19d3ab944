//! A host that is closed on Sundays: the evening's image goes to a file, and the morning's host takes it back.
//!
//! The image is written to a new file, which is brought to the disk before it takes the old one's name; then the folder is, so that the
//! name lasts too. Whenever the power goes, either the old image stands there whole or the new one does.
//!
//!   cargo run --example sunday [FOLDER]

use monitor::{Bits, Caller, Cell, Error, Hall, Level, Modes, Monitor};
use std::fs::{self, File};
use std::io::{self, Write};
use std::path::{Path, PathBuf};
use std::{env, process};

const NAME: &str = "hall.image";

/// Keeps an image in a folder, in place of the one that is there.
fn keep(folder: &Path, image: &[u8]) -> io::Result<()> {
    let (new, kept) = (folder.join(NAME.to_string() + ".new"), folder.join(NAME));
    let mut file = File::create(&new)?;
    file.write_all(image)?;
    file.sync_all()?;
    fs::rename(&new, &kept)?;
    File::open(folder)?.sync_all()
}

/// The host of a morning: that of the image which the folder has, or a fresh one where it has none. An image that is damaged, or of
/// another hall, is an error: somebody must look, and no fresh hall may take its place.
fn open(folder: &Path, hall: &Hall) -> Result<Monitor, Box<dyn std::error::Error>> {
    let mut monitor = Monitor::set_up(hall)?;
    match fs::read(folder.join(NAME)) {
        Ok(image) => {
            monitor.reload(&image)?;
            println!("opened with the image that was kept");
        }
        Err(error) if error.kind() == io::ErrorKind::NotFound => println!("opened fresh"),
        Err(error) => return Err(error.into()),
    }
    Ok(monitor)
}

fn close(folder: &Path, monitor: Monitor) -> Result<(), Box<dyn std::error::Error>> {
    keep(folder, &monitor.image()?)?;
    println!("closed; its image is kept");
    Ok(())
}

fn main() -> Result<(), Box<dyn std::error::Error>> {
    let given = env::args_os().nth(1).map(PathBuf::from);
    let folder = given.clone().unwrap_or_else(|| env::temp_dir().join(format!("sunday-{}", process::id())));
    fs::create_dir_all(&folder)?;
    let hall = Hall {
        blocks: 2,
        cells: vec![Cell { level: Level::new(1, 0, 0), processes: 2, files: 2, ..Cell::default() }],
        ..Hall::default()
    };
    let desk = Caller(0);

    let mut saturday = open(&folder, &hall)?;
    let (ledger, descriptor) = saturday.create_file(desk, Bits(0o644), Modes::ReadWrite)?;
    saturday.write_block(desk, descriptor, 0, &[b'*'; 512])?;
    println!("wrote to {ledger}");
    close(&folder, saturday)?;

    let mut monday = open(&folder, &hall)?;
    let mut block = [0; 512];
    monday.read_block(desk, descriptor, 0, &mut block)?;
    println!("read it back: {}", if block == [b'*'; 512] { "as it was" } else { "CHANGED" });
    close(&folder, monday)?;

    // A bad disk: one byte of the image is another. The host is not opened, and its memory is as set-up left it.
    let mut image = fs::read(folder.join(NAME))?;
    image[0] ^= 1;
    let mut tuesday = Monitor::set_up(&hall)?;
    assert_eq!(tuesday.reload(&image), Err(Error::XbParam));
    assert!(tuesday == Monitor::set_up(&hall)?);
    println!("a damaged image: {}; nothing was touched", Error::XbParam);
    if given.is_none() {
        fs::remove_dir_all(&folder)?;
    }
    Ok(())
}
