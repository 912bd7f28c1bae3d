//! Rows of the shelf, beside `copy_from_slice`, a call of memcpy, of as many bytes. The terms are filled here, frame by frame: the two
//! calls judge lengths alone.

use crate::row;

/// The record: three tails, count, initial id, term length, mtu, session, stream, connected, limit, end of stream, closed, slowest reader, marks,
/// transports and page size, correlation id.
#[repr(C)]
#[derive(Clone, Copy)]
struct Record {
    tails: [i64; 3],
    numbers: [i32; 7],
    publication_limit: i64,
    end_of_stream_position: i64,
    is_closed: bool,
    slowest_position: i64,
    cleared_marks: u64,
    section: [i32; 2],
    correlation_id: i64,
}

extern "C" {
    fn logbuffer_shelve(rec: *const Record, log: *const u8, log_length: usize, partition: i32, out: *mut u8, out_length: usize) -> i32;
    fn logbuffer_unshelve(rec: *const Record, shelf: *const u8, shelf_length: usize, out: *mut u8, out_length: usize) -> i32;
}

fn record(term: usize) -> Record {
    Record {
        tails: [0; 3],
        numbers: [0, 0, term as i32, 1_408, 11, 22, 1],
        publication_limit: 0,
        end_of_stream_position: i64::MAX,
        is_closed: false,
        slowest_position: 0,
        cleared_marks: 6,
        section: [0; 2],
        correlation_id: 0,
    }
}

/// Three terms, the first of them full of frames of such bodies, with padding at its end.
fn log_of(term: usize, body: usize) -> Vec<u8> {
    let mut log = vec![0u8; 3 * term];
    let (length, aligned) = (body + 32, (body + 63) / 32 * 32);
    let mut at = 0;
    while at < term {
        let (size, kind) = if at + aligned <= term { (length, 1) } else { (term - at, 0) };
        log[at..at + 4].copy_from_slice(&(size as u32).to_le_bytes());
        log[at + 6] = kind;
        log[at + 8..at + 12].copy_from_slice(&(at as u32).to_le_bytes());
        log[(at + 32).min(term)..(at + size).min(term)].fill(5);
        at += if kind == 1 { aligned } else { size };
    }
    log
}

/// A term on the shelf and back, for each KiB; the last argument says how often in a round.
fn term(name: &str, term: usize, body: usize, times: usize) {
    let log = log_of(term, body);
    let (rec, kib) = (record(term), term / 1024 * times);
    let (mut shelf, mut back, mut copy) = (vec![0u8; term + 4], vec![0u8; term], vec![0u8; term]);
    let shelve = |shelf: &mut [u8]| unsafe { logbuffer_shelve(&rec, log.as_ptr(), log.len(), 0, shelf.as_mut_ptr(), shelf.len()) };
    let unshelve = |shelf: &[u8], back: &mut [u8]| unsafe {
        logbuffer_unshelve(&rec, shelf.as_ptr(), shelf.len(), back.as_mut_ptr(), back.len())
    };
    assert_eq!((shelve(&mut shelf), unshelve(&shelf, &mut back)), (0, 0));
    assert!(back == log[..term]);
    let mut copied =
        || (0..times).for_each(|_| std::hint::black_box(&mut copy).copy_from_slice(std::hint::black_box(&log[..term])));
    row(&format!("shelve, bodies of {body}, {name}, beside memcpy, a KiB"), kib, &mut copied, || {
        (0..times).for_each(|_| assert_eq!(shelve(std::hint::black_box(&mut shelf)), 0))
    });
    let shelf = shelf.clone();
    row(&format!("unshelve, bodies of {body}, {name}, beside memcpy, a KiB"), kib, &mut copied, || {
        (0..times).for_each(|_| assert_eq!(unshelve(&shelf, std::hint::black_box(&mut back)), 0))
    });
}

pub fn rows() {
    for body in [64, 1_024] {
        term("64 KiB", 64 << 10, body, 100);
        term("16 MiB", 16 << 20, body, 1);
    }
}
