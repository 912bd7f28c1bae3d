//! Two devices of an excavation sync into one log: the trench offers its finds, the tent writes its own in place. A reader follows and
//! lets them go on, and a replay shows what came in. `cargo run --example sync`; what it prints stands in sync.txt.

use logbuffer::{Error, FrameLength, Log, OpenClaim, Poller};

/// Asks for a block: ten find numbers for every 32 bytes of the log. No two blocks overlap (theorem `blocks-apart` of the project).
fn request_block(log: &mut Log, device: &str) -> Result<i64, Error> {
    let position = log.append(format!("{device} asks for a block").as_bytes())?;
    let first = (position - 32) / 32 * 10;
    println!("{device}: request at {position}, finds {first} to {}", first + 9);
    Ok(first)
}

/// Writes a find in place and leaves it open: the photograph is still missing.
fn claim_find(log: &mut Log, text: &str) -> Result<OpenClaim, Error> {
    let mut claim = log.try_claim(text.len())?;
    claim.copy_from_slice(text.as_bytes());
    println!("tent: claim up to {}", claim.position());
    Ok(claim.into_open())
}

fn show(log: &Log, title: &str) -> Result<(), Error> {
    println!("{title}:");
    let mut replay = log.replay();
    while let Some(message) = replay.next_message() {
        println!("  {}", String::from_utf8_lossy(message?));
    }
    Ok(())
}

/// Says whether a reader has come to the end or to a claim that nobody has finished.
fn stopped(log: &Log, poller: &Poller) -> Result<(), Error> {
    match poller.ahead(log)? {
        FrameLength::Free => println!("reader: nothing more at {}", poller.position()),
        FrameLength::Writing(size) => println!("reader: a frame of {size} bytes is being written at {}", poller.position()),
        FrameLength::Finished(size) => println!("reader: a frame of {size} bytes to read at {}", poller.position()),
    }
    Ok(())
}

/// A device is carried off with its claim open. The reader tells the base, which aborts the claim, and goes on.
fn rescue(log: &mut Log) -> Result<(), Error> {
    let mut poller = log.poller(log.position()?);
    let lost = claim_find(log, "a find that nobody enters")?;
    log.append(b"behind the lost find")?;
    poller.poll(log, 10, |_| ())?;
    stopped(log, &poller)?;
    log.abort(lost)?;
    let messages = poller.poll(log, 10, |_| ())?;
    println!("reader: {messages} more after the abort");
    stopped(log, &poller)
}

fn sync(log: &mut Log) -> Result<(), Error> {
    let trench = request_block(log, "trench")?;
    let tent = request_block(log, "tent")?;
    log.append(format!("{trench}: coin").as_bytes())?;
    let pin = claim_find(log, &format!("{tent}: pin"))?;
    let slip = claim_find(log, &format!("{}: written by mistake", tent + 1))?;
    let sherds = format!("{}: sherds of one pot, rim and base among them, and a handle that may be of another", trench + 1);
    log.append(sherds.as_bytes())?; // longer than a frame's 64 bytes
    show(log, "replay with two claims open")?;
    log.abort(slip)?;
    log.commit(pin)?;
    show(log, "replay after commit and abort")
}

fn main() -> Result<(), Error> {
    let mut log = Log::builder().term_length(65_536).mtu_length(96).session_id(11).stream_id(22).open()?;
    sync(&mut log)?;
    rescue(&mut log)?;

    // The log knows the reader: what it has read is cleared, and the writer goes two terms past it.
    let mut reader = log.register_reader(0)?;
    let mut read = 0;
    for n in 0..10_000 {
        let message = format!("reading {n}");
        if let Err(error) = log.append(message.as_bytes()) {
            assert_eq!(error, Error::BackPressured);
            println!("trench: pressed back at {}", log.position()?);
            read += reader.messages(&log, |_| ())?;
            log.append(message.as_bytes())?;
        }
    }
    read += reader.messages(&log, |_| ())?;
    println!("reader: {read} messages up to {}", reader.position());

    log.close()?;
    println!("after closing: {}", log.append(b"too late").unwrap_err());
    Ok(())
}
