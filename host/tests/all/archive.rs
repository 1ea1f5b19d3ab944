//! The proved archive as a monitor that can be tried.

use trial::Monitor;

pub struct Archive;

impl Monitor for Archive {
    fn setup(&self, table: &mut [u32], store_bytes: usize) -> u32 {
        monitor::setup(table, store_bytes).map_or_else(|error| error.number(), |()| 0)
    }

    fn check(&self, table: &[u32], store_bytes: usize) -> u32 {
        u32::from(!monitor::well_formed(table, store_bytes))
    }

    fn call(&self, table: &mut [u32], store: &mut [u8], request: &plain::Request, buffer: &mut [u8]) -> [u32; 3] {
        let &plain::Request { caller, code, a, b, c } = request;
        let answer = monitor::call(table, store, caller, code, [a, b, c], buffer);
        [answer.error, answer.first, answer.second]
    }

    fn view(&self, table: &[u32], store: &[u8], caller: u32, descriptor: u32, block: u32) -> (u32, usize, usize) {
        // The wrapper shows nothing of a refusal's first byte and count.
        let monitor::Part { error, from, count } = monitor::view_part(table, store, caller, descriptor, block);
        let wrapped = monitor::view(table, store, caller, descriptor, block).map_err(|error| error.number());
        assert_eq!(trial::shown(store, wrapped), (error, from, count), "the wrapper's view, and the library's");
        (error, from, count)
    }

    fn tray(&self, table: &mut [u32], store: &mut [u8], records: &mut [plain::Record], bytes: &mut [u8]) -> u32 {
        as_ours(records, |ours| monitor::tray(table, store, ours, bytes))
    }

    fn work_length(&self, table: &[u32], store_bytes: usize) -> usize {
        monitor::work_length(table, store_bytes).unwrap_or(0)
    }

    fn work(&self, table: &[u32], store_bytes: usize, work: &mut [u32]) -> u32 {
        monitor::work(table, store_bytes, work).map_or_else(|error| error.number(), |()| 0)
    }

    fn quick_tray(
        &self,
        table: &mut [u32],
        store: &mut [u8],
        records: &mut [plain::Record],
        bytes: &mut [u8],
        work: &mut [u32],
    ) -> u32 {
        as_ours(records, |ours| monitor::quick_tray(table, store, ours, bytes, work))
    }

    fn image_length(&self, table: &[u32], store_bytes: usize) -> usize {
        monitor::image_length(table, store_bytes).unwrap_or(0)
    }

    fn image(&self, table: &[u32], store: &[u8], out: &mut [u8]) -> u32 {
        monitor::image(table, store, out).map_or_else(|error| error.number(), |()| 0)
    }

    fn reload(&self, table: &mut [u32], store: &mut [u8], image: &[u8]) -> u32 {
        monitor::reload(table, store, image).map_or_else(|error| error.number(), |()| 0)
    }

    fn name(&self, code: u32) -> Option<String> {
        Some(monitor::Code::of(code)?.name().to_string())
    }

    fn words(&self, request: &plain::Request) -> Option<String> {
        Some(monitor::explain::asked(request.code, [request.a, request.b, request.c]).to_string())
    }
}

/// Runs a tray on the same records as the wrapper has them; the tray's own answer.
fn as_ours(
    records: &mut [plain::Record],
    run: impl FnOnce(&mut [monitor::Record]) -> Result<(), monitor::Error>,
) -> u32 {
    let mut ours: Vec<monitor::Record> = records.iter().map(record).collect();
    let answer = run(&mut ours);
    for (record, monitor::Record { caller, code, a, b, c, offset, length, answer }) in records.iter_mut().zip(ours) {
        let monitor::Answer { error, first, second } = answer;
        *record = plain::Record { caller, code, a, b, c, offset, length, error, first, second };
    }
    answer.map_or_else(|error| error.number(), |()| 0)
}

fn record(record: &plain::Record) -> monitor::Record {
    let &plain::Record { caller, code, a, b, c, offset, length, error, first, second } = record;
    monitor::Record { caller, code, a, b, c, offset, length, answer: monitor::Answer { error, first, second } }
}
