//! Tries a library and a replay program that stand in a folder, as stand-in.sh leaves them, by the trials that the tests make on the
//! proved ones. It serves to try the trials themselves: faults.sh plants faults and expects them to be found.
//!
//!   try_library FOLDER (differential | secrecy | trays | quick | images | replay)
//!
//! It ends with 0 if the trial found nothing, with 101 if it did, and with 2 if there is nothing to try.

use std::env;
use std::ffi::{CString, c_char, c_int, c_void};
use std::path::{Path, PathBuf};
use std::process::exit;
use trial::differ::Differ;
use trial::images::Images;
use trial::listings::Program;
use trial::quick::Quick;
use trial::{Monitor, Plain, Rng, secrecy, setting, tables, trays};

unsafe extern "C" {
    fn dlopen(path: *const c_char, flags: c_int) -> *mut c_void;
    fn dlsym(library: *mut c_void, name: *const c_char) -> *mut c_void;
}

const RTLD_NOW: c_int = 2;

#[repr(C)]
struct Answer {
    error: u32,
    first: u32,
    second: u32,
}

#[repr(C)]
struct Part {
    error: u32,
    from: usize,
    count: usize,
}

type Setup = unsafe extern "C" fn(*mut u32, usize, usize) -> u32;
type Check = unsafe extern "C" fn(*const u32, usize, usize) -> u32;
#[rustfmt::skip]
type Tray = unsafe extern "C" fn(*mut u32, usize, *mut u8, usize, *mut plain::Record, usize, *mut u8, usize) -> u32;
type WorkLength = unsafe extern "C" fn(*const u32, usize, usize) -> usize;
type Work = unsafe extern "C" fn(*const u32, usize, usize, *mut u32, usize) -> u32;
#[rustfmt::skip]
type QuickTray = unsafe extern "C" fn(*mut u32, usize, *mut u8, usize, *mut plain::Record, usize, *mut u8, usize, *mut u32, usize) -> u32;
type ImageLength = unsafe extern "C" fn(*const u32, usize, usize) -> usize;
type Image = unsafe extern "C" fn(*const u32, usize, *const u8, usize, *mut u8, usize) -> u32;
type Reload = unsafe extern "C" fn(*mut u32, usize, *mut u8, usize, *const u8, usize) -> u32;
#[rustfmt::skip]
type Call = unsafe extern "C" fn(*mut u32, usize, *mut u8, usize, u32, u32, u32, u32, u32, *mut u8, usize) -> Answer;

type View = unsafe extern "C" fn(*const u32, usize, *const u8, usize, u32, u32, u32) -> Part;

/// The functions of monitor.h, as loaded.
struct Library {
    setup: Setup,
    check: Check,
    call: Call,
    view: View,
    tray: Tray,
    work_length: WorkLength,
    work: Work,
    quick_tray: QuickTray,
    image_length: ImageLength,
    image: Image,
    reload: Reload,
}

impl Library {
    fn load(path: &Path) -> Library {
        let name = |text: &str| CString::new(text).expect("no zero byte");
        // SAFETY: the path ends in a zero byte; the library is one that stand-in.sh made.
        let library = unsafe { dlopen(name(path.to_str().expect("a plain path")).as_ptr(), RTLD_NOW) };
        let find = |function: &str| {
            // SAFETY: the name ends in a zero byte; a library that was not loaded is not asked.
            let found = if library.is_null() { library } else { unsafe { dlsym(library, name(function).as_ptr()) } };
            if found.is_null() {
                nothing_to_try(&format!("no {function} in {}", path.display()));
            }
            found
        };
        let (setup, check, call) = (find("monitor_setup"), find("monitor_check"), find("monitor_call"));
        let (view, tray) = (find("monitor_view"), find("monitor_tray"));
        let (work_length, work) = (find("monitor_work_length"), find("monitor_work"));
        let quick_tray = find("monitor_quick_tray");
        let (length, image, reload) = (find("monitor_image_length"), find("monitor_image"), find("monitor_reload"));
        // SAFETY: the functions have the types of monitor.h.
        unsafe {
            Library {
                setup: std::mem::transmute::<*mut c_void, Setup>(setup),
                check: std::mem::transmute::<*mut c_void, Check>(check),
                call: std::mem::transmute::<*mut c_void, Call>(call),
                view: std::mem::transmute::<*mut c_void, View>(view),
                tray: std::mem::transmute::<*mut c_void, Tray>(tray),
                work_length: std::mem::transmute::<*mut c_void, WorkLength>(work_length),
                work: std::mem::transmute::<*mut c_void, Work>(work),
                quick_tray: std::mem::transmute::<*mut c_void, QuickTray>(quick_tray),
                image_length: std::mem::transmute::<*mut c_void, ImageLength>(length),
                image: std::mem::transmute::<*mut c_void, Image>(image),
                reload: std::mem::transmute::<*mut c_void, Reload>(reload),
            }
        }
    }
}

impl Monitor for Library {
    fn setup(&self, table: &mut [u32], store_bytes: usize) -> u32 {
        // SAFETY: here and below, pointers and lengths are those of slices that are lent to this call alone.
        unsafe { (self.setup)(table.as_mut_ptr(), table.len(), store_bytes) }
    }

    fn check(&self, table: &[u32], store_bytes: usize) -> u32 {
        // SAFETY: as above.
        unsafe { (self.check)(table.as_ptr(), table.len(), store_bytes) }
    }

    fn call(&self, table: &mut [u32], store: &mut [u8], request: &plain::Request, buffer: &mut [u8]) -> [u32; 3] {
        let &plain::Request { caller, code, a, b, c } = request;
        let (words, bytes, length) = (table.len(), store.len(), buffer.len());
        let (table, store, buffer) = (table.as_mut_ptr(), store.as_mut_ptr(), buffer.as_mut_ptr());
        // SAFETY: as above.
        let Answer { error, first, second } =
            unsafe { (self.call)(table, words, store, bytes, caller, code, a, b, c, buffer, length) };
        [error, first, second]
    }

    fn view(&self, table: &[u32], store: &[u8], caller: u32, descriptor: u32, block: u32) -> (u32, usize, usize) {
        let (words, bytes) = (table.len(), store.len());
        // SAFETY: as above.
        let Part { error, from, count } =
            unsafe { (self.view)(table.as_ptr(), words, store.as_ptr(), bytes, caller, descriptor, block) };
        (error, from, count)
    }

    fn tray(&self, table: &mut [u32], store: &mut [u8], records: &mut [plain::Record], bytes: &mut [u8]) -> u32 {
        let lengths = (table.len(), store.len(), records.len(), bytes.len());
        let (table, store) = (table.as_mut_ptr(), store.as_mut_ptr());
        let (records, bytes) = (records.as_mut_ptr(), bytes.as_mut_ptr());
        // SAFETY: as above; a record has the ten words of monitor.h.
        unsafe { (self.tray)(table, lengths.0, store, lengths.1, records, lengths.2, bytes, lengths.3) }
    }

    fn work_length(&self, table: &[u32], store_bytes: usize) -> usize {
        // SAFETY: as above.
        unsafe { (self.work_length)(table.as_ptr(), table.len(), store_bytes) }
    }

    fn work(&self, table: &[u32], store_bytes: usize, work: &mut [u32]) -> u32 {
        // SAFETY: as above.
        unsafe { (self.work)(table.as_ptr(), table.len(), store_bytes, work.as_mut_ptr(), work.len()) }
    }

    fn quick_tray(
        &self,
        table: &mut [u32],
        store: &mut [u8],
        records: &mut [plain::Record],
        bytes: &mut [u8],
        work: &mut [u32],
    ) -> u32 {
        let lengths = (table.len(), store.len(), records.len(), bytes.len(), work.len());
        let (table, store) = (table.as_mut_ptr(), store.as_mut_ptr());
        let (records, bytes, work) = (records.as_mut_ptr(), bytes.as_mut_ptr(), work.as_mut_ptr());
        let (words, size, count, length, work_words) = lengths;
        // SAFETY: as above; a record has the ten words of monitor.h.
        unsafe { (self.quick_tray)(table, words, store, size, records, count, bytes, length, work, work_words) }
    }

    fn image_length(&self, table: &[u32], store_bytes: usize) -> usize {
        // SAFETY: as above.
        unsafe { (self.image_length)(table.as_ptr(), table.len(), store_bytes) }
    }

    fn image(&self, table: &[u32], store: &[u8], out: &mut [u8]) -> u32 {
        // SAFETY: as above.
        unsafe { (self.image)(table.as_ptr(), table.len(), store.as_ptr(), store.len(), out.as_mut_ptr(), out.len()) }
    }

    fn reload(&self, table: &mut [u32], store: &mut [u8], image: &[u8]) -> u32 {
        let (words, bytes) = (table.len(), store.len());
        // SAFETY: as above.
        unsafe { (self.reload)(table.as_mut_ptr(), words, store.as_mut_ptr(), bytes, image.as_ptr(), image.len()) }
    }
}

fn nothing_to_try(why: &str) -> ! {
    eprintln!("{why}");
    exit(2);
}

fn main() {
    let words: Vec<String> = env::args().skip(1).collect();
    let [folder, trial] = &words[..] else {
        nothing_to_try("try_library FOLDER (differential | secrecy | trays | quick | images | replay)");
    };
    let folder = PathBuf::from(folder);
    let library = || Library::load(&folder.join("libmonitor.so"));
    let mut rng = Rng::for_trial(trial, 18);
    match &**trial {
        "differential" => Differ::new(&library(), rng).everything(setting("TRIAL_CALLS", 1_000_000)),
        "secrecy" => {
            let (library, mut met) = (library(), secrecy::Met::default());
            for _ in 0..setting("TRIAL_RUNS", 4_000) {
                let limits = tables::limits(&mut rng);
                secrecy::pair_of_runs(&library, &mut rng, limits, 40, &mut met);
            }
        }
        "trays" => {
            let mut met = trays::Met::default();
            trays::everything(&library(), &mut rng, setting("TRIAL_TRAYS", 3_000), &mut met);
        }
        "quick" => Quick::new(&library(), rng).everything(setting("TRIAL_QUICK", 3_000)),
        "images" => Images::new(&library(), rng).everything(setting("TRIAL_IMAGES", 60)),
        "replay" => {
            let program = folder.join("replay");
            if !program.exists() {
                nothing_to_try(&format!("no {}", program.display()));
            }
            let program = Program { program, folder, names: &Plain };
            drop(program.listings_agree(&mut rng, setting("TRIAL_SCRIPTS", 1_500)));
        }
        _ => nothing_to_try(&format!("no such trial: {trial}")),
    }
}
