//! A log as a file, laid out as Aeron lays it out: the three terms, then the metadata section of 320 bytes, padded with zeros to 4,096. A log is written, put into
//! a file, read back, replayed and gone on with. `cargo run --example file`; what it prints stands in file.txt.
//!
//! Two numbers of the section are there for Aeron's own clients. A Java client wants the page size, a power of two from 4,096 to 2^30, and refuses a log without
//! one; and the correlation id, the number by which its driver registered the publication. Opening leaves both 0, and no offer, claim or other call of the log sets
//! them: they are the caller's, here set with [`Log::set_page_size`] and [`Log::set_correlation_id`].

use logbuffer::{Beside, Error, Log, Record};
use std::path::Path;
use std::{env, fs, process};

const TERM: usize = 65_536;

/// Message number i, of 0 to 2,999 bytes, some of them longer than one frame holds.
fn message(i: usize) -> Vec<u8> {
    (0..i * 37 % 3_000).map(|k| (i * 31 + k) as u8).collect()
}

/// Two terms full, and a message in the third. Answers how many there are.
fn write(log: &mut Log) -> Result<usize, Error> {
    let (mut written, mut bytes, mut position) = (0, 0, 0);
    while log.record().active_term_count < 2 {
        position = log.append(&message(written))?;
        bytes += message(written).len();
        written += 1;
    }
    println!("written: {written} messages, {bytes} bytes, up to position {position}");
    Ok(written)
}

/// The three terms, the section, zeros. What the section does not have is answered, to be kept beside the file.
fn save(log: &Log, path: &Path) -> Result<Beside, Box<dyn std::error::Error>> {
    let mut file = log.as_bytes().to_vec();
    file.extend(log.record().metadata()?);
    file.resize(3 * TERM + Record::METADATA_FILE_LENGTH, 0);
    fs::write(path, &file)?;
    println!("file: {} bytes, three terms of {TERM}, a section of 320, zeros up to 4096", file.len());
    Ok(log.record().beside())
}

/// The same back: the section says how long the terms are.
fn load(path: &Path, beside: Beside) -> Result<Log, Box<dyn std::error::Error>> {
    let mut file = fs::read(path)?;
    let end = file.len().checked_sub(Record::METADATA_FILE_LENGTH).ok_or("no place for a section in the file")?;
    let record = Record::from_metadata(&file[end..end + Record::METADATA_LENGTH], beside)?;
    file.truncate(end);
    let log = Log::from_parts(record, file)?; // refuses bytes that are not three terms
    let Record { term_length, mtu_length, initial_term_id, active_term_count, page_size, correlation_id, .. } = record;
    println!(
        "read back: term length {term_length}, mtu {mtu_length}, initial term id {initial_term_id}, count {active_term_count}, page size {page_size}, correlation id {correlation_id}"
    );
    Ok(log)
}

fn replay(log: &Log, written: usize) -> Result<(), Error> {
    let messages = log.replay().collect::<Result<Vec<_>, _>>()?;
    assert!(messages.len() == written && (0..written).all(|i| messages[i] == message(i)));
    let bytes: usize = messages.iter().map(Vec::len).sum();
    println!("replayed: {written} messages, {bytes} bytes, each as it was written");
    Ok(())
}

fn main() -> Result<(), Box<dyn std::error::Error>> {
    let mut log = Log::builder()
        .term_length(TERM as i32)
        .initial_term_id(7)
        .session_id(11)
        .stream_id(22)
        .publication_limit(3 * TERM as i64)
        .open()?;
    log.set_page_size(4_096);
    log.set_correlation_id(1_926);
    let written = write(&mut log)?;
    let path = env::temp_dir().join(format!("logbuffer-{}.log", process::id()));
    let beside = save(&log, &path)?;
    let loaded = load(&path, beside);
    fs::remove_file(&path)?;
    let mut log = loaded?;
    replay(&log, written)?;
    println!("one message more: position {}", log.append(&message(written))?);
    replay(&log, written + 1)?;
    let mut section = log.record().metadata()?;
    section[319] = 1;
    println!("a byte where no field is: {}", Record::from_metadata(&section, beside).unwrap_err());
    Ok(())
}
