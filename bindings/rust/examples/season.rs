//! A dig of more than twenty terms in a log that keeps three: the trench writes, the tent and the archive read, each at its own pace. What both have read is
//! cleared and written again. `cargo run --example season`; what it prints stands in season.txt.

use logbuffer::{Error, Log, Reader};

const MESSAGES: u32 = 9_000;

/// Reading number n, of 4 to 250 bytes.
fn reading(n: u32) -> Vec<u8> {
    let mut message = n.to_le_bytes().to_vec();
    message.resize(4 + n as usize * 37 % 247, n as u8);
    message
}

/// A place that reads on, and checks that every reading comes once and in order.
struct Station {
    name: &'static str,
    reader: Reader,
    read: u32,
}

impl Station {
    fn read(&mut self, log: &Log) -> Result<(), Error> {
        let read = &mut self.read;
        self.reader.messages(log, |message| {
            assert_eq!(message, reading(*read));
            *read += 1;
        })?;
        Ok(())
    }
}

fn main() -> Result<(), Error> {
    let mut log = Log::builder().term_length(65_536).mtu_length(160).session_id(11).stream_id(22).open()?;
    let mut tent = Station { name: "tent", reader: log.register_reader(0)?, read: 0 };
    let mut archive = Station { name: "archive", reader: log.register_reader(0)?, read: 0 };
    let mut pressed = 0;
    for n in 0..MESSAGES {
        if n % 100 == 0 {
            tent.read(&log)?; // often; the archive only when the trench is pressed back
        }
        // Nothing is lost and nothing overwritten: who writes is pressed back until the slowest has read on.
        while let Err(error) = log.append(&reading(n)) {
            assert_eq!(error, Error::BackPressured);
            pressed += 1;
            archive.read(&log)?;
        }
    }
    for station in [&mut tent, &mut archive] {
        station.read(&log)?;
        println!("{}: {} readings, each once, up to {}", station.name, station.read, station.reader.position());
    }
    let terms = log.record().active_term_count;
    println!("trench: {MESSAGES} readings in {terms} full terms and a part, pressed back {pressed} times");
    // A reader that nobody registered finds its place gone.
    println!("from the start: {}", log.poller(0).poll(&log, 1, |_| ()).unwrap_err());
    println!("from the oldest term that is left: {} readings", log.count_from(oldest(&log))?.messages);
    Ok(())
}

/// The beginning of the oldest term that is not cleared.
fn oldest(log: &Log) -> i64 {
    let record = log.record();
    let terms = if record.is_cleared(record.due_partition()) { 1 } else { 2 };
    i64::from((record.active_term_count - terms).max(0)) * i64::from(record.term_length)
}
