//! The trials' reports: a monitor with a fault is tried, and the calls that show it come out few and readable.

use plain::table::{FILE_WORDS, LINKS};
use std::path::PathBuf;
use std::process::Command;
use trial::shrink::{found, shrink};
use trial::{Call, Monitor, Plain, Rng, World, calls, scripts, tables};

/// Says which answers are wrong: the table before, the call, the right answer.
type Wrong = fn(&[u32], &plain::Request, [u32; 3]) -> bool;

/// The plain monitor, which refuses with 3 where it is wrong, and changes nothing there.
struct Faulty(Wrong);

impl Monitor for Faulty {
    fn setup(&self, table: &mut [u32], store_bytes: usize) -> u32 {
        Plain.setup(table, store_bytes)
    }

    fn check(&self, table: &[u32], store_bytes: usize) -> u32 {
        Plain.check(table, store_bytes)
    }

    fn view(&self, table: &[u32], store: &[u8], caller: u32, descriptor: u32, block: u32) -> (u32, usize, usize) {
        Plain.view(table, store, caller, descriptor, block)
    }

    fn tray(&self, table: &mut [u32], store: &mut [u8], records: &mut [plain::Record], bytes: &mut [u8]) -> u32 {
        Plain.tray(table, store, records, bytes)
    }

    fn call(&self, table: &mut [u32], store: &mut [u8], request: &plain::Request, buffer: &mut [u8]) -> [u32; 3] {
        let (mut after, mut stored, mut shown) = (table.to_vec(), store.to_vec(), buffer.to_vec());
        let answer = Plain.call(&mut after, &mut stored, request, &mut shown);
        if (self.0)(table, request, answer) {
            return [3, 0, 0];
        }
        table.copy_from_slice(&after);
        store.copy_from_slice(&stored);
        buffer.copy_from_slice(&shown);
        answer
    }

    fn work_length(&self, table: &[u32], store_bytes: usize) -> usize {
        Plain.work_length(table, store_bytes)
    }

    fn work(&self, table: &[u32], store_bytes: usize, work: &mut [u32]) -> u32 {
        Plain.work(table, store_bytes, work)
    }

    fn quick_tray(
        &self,
        table: &mut [u32],
        store: &mut [u8],
        records: &mut [plain::Record],
        bytes: &mut [u8],
        work: &mut [u32],
    ) -> u32 {
        Plain.quick_tray(table, store, records, bytes, work)
    }

    fn image_length(&self, table: &[u32], store_bytes: usize) -> usize {
        Plain.image_length(table, store_bytes)
    }

    fn image(&self, table: &[u32], store: &[u8], out: &mut [u8]) -> u32 {
        Plain.image(table, store, out)
    }

    fn reload(&self, table: &mut [u32], store: &mut [u8], image: &[u8]) -> u32 {
        Plain.reload(table, store, image)
    }

    fn name(&self, code: u32) -> Option<String> {
        (code == 10).then(|| "link".to_string())
    }
}

/// Random calls on a table, of which the last shows the fault.
fn run(rng: &mut Rng, monitor: &Faulty, start: &World, calls: usize) -> Option<Vec<Call>> {
    let shape = start.shape();
    let mut world = start.clone();
    let mut made = Vec::new();
    for _ in 0..calls {
        let call = calls::any(rng, &world, &shape);
        let before = world.table.clone();
        let answer = Plain.call(&mut world.table, &mut world.store, &call.request, &mut call.buffer.clone());
        let wrong = (monitor.0)(&before, &call.request, answer);
        made.push(call);
        if wrong {
            return Some(made);
        }
    }
    None
}

/// A second link is refused. Of some hundred calls few are left, and they are told as a script that stands for the same bytes.
#[test]
fn from_setup() {
    let monitor = Faulty(|table, request, [error, ..]| {
        let last = table[3] - 1;
        let links = table[table.len() - FILE_WORDS + LINKS];
        request.code == 10 && error == 0 && links == 1 && request.a >> 16 & 255 == last
    });
    let mut rng = Rng::for_trial("from_setup", 4);
    let found = loop {
        let start = tables::fresh(&mut rng, tables::SMALL);
        if let Some(calls) = run(&mut rng, &monitor, &start, 1_000).filter(|calls| calls.len() > 100) {
            break found(&monitor, &start, &calls);
        }
    };
    assert!(found.from_setup);
    let codes: Vec<u32> = found.calls.iter().map(|call| call.request.code).collect();
    let links = codes.iter().filter(|&&code| code == 10).count();
    assert!(codes.len() < 20 && links == 2 && codes.last() == Some(&10), "{codes:?}");
    let report = found.report(&monitor);
    assert!(report.contains("answer [3, 0, 0], plain [0, 0, 0]") && report.contains(" link f"), "{report}");

    let bytes = found.script().bytes;
    let told = scripts::text(&bytes, &monitor);
    let shape = found.start.shape();
    assert_eq!(told.lines().count(), 1 + shape.cells + shape.subtypes().len() + codes.len());
    assert_eq!(by_tool(&told, "from_setup"), bytes);
}

/// What tools/script.py makes of a text.
fn by_tool(text: &str, name: &str) -> Vec<u8> {
    let path = PathBuf::from(env!("CARGO_TARGET_TMPDIR")).join(name);
    std::fs::write(&path, text).expect("the text can be written");
    let tool = PathBuf::from(env!("CARGO_MANIFEST_DIR")).join("../../tools/script.py");
    let output = Command::new(tool).arg(&path).output().expect("the tool runs");
    assert!(output.status.success(), "{output:?}");
    output.stdout
}

/// A fault that only a stale descriptor shows, on a table that set-up does not leave: few records are left beside the call.
#[test]
fn from_a_random_table() {
    let monitor = Faulty(|_, request, [error, ..]| request.code == 13 && error == 12);
    let mut rng = Rng::for_trial("from_a_random_table", 5);
    let found = loop {
        let start = tables::well_formed(&mut rng, tables::SMALL);
        if let Some(calls) = run(&mut rng, &monitor, &start, 1) {
            break found(&monitor, &start, &calls);
        }
    };
    assert!(!found.from_setup && found.calls.len() == 1);
    let report = found.report(&monitor);
    let records: Vec<&str> = report.lines().filter(|line| line.starts_with("# ")).collect();
    let processes: Vec<&&str> = records.iter().filter(|line| line.starts_with("# Process")).collect();
    assert_eq!(processes.len(), 1, "the caller alone: {report}");
    assert!(records.len() <= 2, "and at most the file's serial: {report}");
}

/// Whatever the inputs, their texts stand for the same bytes.
#[test]
fn texts_stand_for_their_bytes() {
    let mut rng = Rng::for_trial("texts_stand_for_their_bytes", 6);
    let (mut all_bytes, mut all_text) = (Vec::new(), String::new());
    for round in 0..100 {
        let mut script = scripts::valid(&mut rng, tables::SMALL, 20);
        if round % 3 > 0 {
            scripts::damage(&mut rng, &mut script);
        }
        all_text += &scripts::text(&script.bytes, &Plain);
        all_bytes.extend(script.bytes);
    }
    assert!(by_tool(&all_text, "texts") == all_bytes);
}

#[test]
fn shrinking() {
    let mut items: Vec<u32> = (0..1_000).collect();
    let mut tried = 0;
    shrink(&mut items, |fewer| {
        tried += 1;
        [17, 18, 500, 999].iter().all(|item| fewer.contains(item))
    });
    assert_eq!(items, [17, 18, 500, 999]);
    assert!(tried < 200, "{tried}");
    shrink(&mut items, |_| true);
    assert!(items.is_empty());
}
