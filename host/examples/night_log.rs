//! A host on a quiet night: two tenants, a handful of calls, and a log that can be read half asleep.
//!
//! The front desk runs at security 1, the auditor at security 3. What the desk writes the auditor may read; what the auditor does
//! the desk must never notice.

use monitor::{Answer, Caller, Cell, Code, Error, Hall, Kind, Level, Monitor, Seid, explain};

fn main() -> Result<(), Error> {
    let hall = Hall {
        blocks: 2,
        cells: vec![
            Cell { level: Level::new(1, 0, 0), processes: 2, files: 2, segments: 1, owner: 10, group: 10 },
            Cell { level: Level::new(3, 0, 0), processes: 2, files: 2, segments: 1, owner: 20, group: 20 },
        ],
        ..Hall::default()
    };
    let [desk, auditor] = [0, 1].map(|cell| hall.first_process(cell));
    let tenants = [(desk, "front desk"), (desk + 1, "clerk"), (auditor, "auditor")];
    let mut night = Night::open(&hall, &tenants)?;
    let first_use = |slot: u32| u32::from(Seid::new(Kind::Process, slot as u8, 1));

    let ledger = night.call(desk, Code::CreateFile, [0o644, 3, 0], &mut []).first;
    night.call(desk, Code::WriteBlock, [0, 0, 0], &mut [b'*'; 512]);
    night.call(auditor, Code::Open, [ledger, 1, 0], &mut []);
    night.call(auditor, Code::ReadBlock, [0, 0, 0], &mut [0; 512]);
    night.call(auditor, Code::Open, [ledger, 3, 0], &mut []);
    night.call(desk, Code::Post, [first_use(auditor), 0, 0], &mut b"all is quiet".to_owned());
    night.call(auditor, Code::Receive, [0; 3], &mut [0; 16]);
    night.call(auditor, Code::Post, [first_use(desk), 0, 0], &mut [0; 12]);
    night.call(auditor, Code::Status, [ledger, 0, 0], &mut [0; 16]);
    let clerk = Seid::from(night.call(desk, Code::Spawn, [10, 10, 0o600], &mut []).first).slot();
    night.call(desk, Code::Spawn, [10, 10, 0o600], &mut []);
    night.call(desk, Code::SetBits, [0, 0o400, 0], &mut []);
    night.call(clerk, Code::Post, [first_use(desk), 0, 0], &mut b"come quickly".to_owned());
    night.call(desk, Code::Close, [0; 3], &mut []);
    night.call(auditor, Code::ReadBlock, [0, 0, 0], &mut [0; 512]);
    night.close();
    Ok(())
}

/// The host's state and its log.
struct Night<'a> {
    monitor: Monitor,
    tenants: &'a [(u32, &'a str)],
    made: u32,
    refused: u32,
}

impl<'a> Night<'a> {
    fn open(hall: &Hall, tenants: &'a [(u32, &'a str)]) -> Result<Night<'a>, Error> {
        let monitor = Monitor::set_up(hall)?;
        let (words, bytes) = (monitor.table().len(), monitor.store().len());
        println!("HOST UP      table of {words} words, store of {bytes} bytes");
        println!();
        println!("  n  outcome  who         what was asked                                      what came back");
        Ok(Night { monitor, tenants, made: 0, refused: 0 })
    }

    /// Makes a call and writes one line about it.
    fn call(&mut self, caller: u32, code: Code, arguments: [u32; 3], buffer: &mut [u8]) -> Answer {
        let code = code.number();
        let answer = self.monitor.call(Caller(caller), code, arguments, buffer);
        let call = explain::Call { caller, code, arguments, answer, buffer };
        self.made += 1;
        self.refused += u32::from(call.refused());
        let who = self.tenants.iter().find(|(process, _)| *process == caller).map_or("?", |(_, name)| name);
        let (outcome, back) = match answer.result() {
            Ok(_) => ("ok", call.came_back().to_string()),
            Err(why) => ("REFUSED", why.to_string()),
        };
        let asked = call.asked().to_string();
        println!("{:>3}  {outcome:<7}  {who:<10}  {asked:<50}  {back}", self.made);
        answer
    }

    fn close(self) {
        println!();
        let why = || explain::table(self.monitor.table(), self.monitor.store().len()).unwrap_or_default();
        let well = match self.monitor.well_formed() {
            true => "well formed".to_string(),
            false => format!("DAMAGED, CALL SOMEBODY: {}", why()),
        };
        println!("HOST DOWN    {} calls, {} of them refused; the table is {well}", self.made, self.refused);
    }
}
