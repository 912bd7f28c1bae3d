//! Finished terms on the shelf: a term full of mixed frames, byte by byte; terms that are not filled; shelves that no term gives.

mod common;

use common::{log, made, put_frame, Random, TERM};
use logbuffer::{Error, Log, Record};

const LENGTH: usize = TERM as usize;

/// A log whose first term is full: messages of one frame and of several, committed and aborted claims, padding at the end.
fn full() -> Log {
    let (mut log, mut random) = (log(), Random(7));
    while log.record().active_term_count == 0 {
        let message = vec![random.next() as u8; (random.next() % 200) as usize];
        let refused = match random.next() % 4 {
            0 => log.try_claim(message.len() % 65).map(|claim| drop(claim.into_open())),
            _ => log.offer(&message).map(drop),
        };
        assert!(matches!(refused, Ok(()) | Err(Error::AdminAction)));
    }
    log
}

/// The same with every open claim committed or aborted in turn, by its length word, so that all frames are finished.
fn finished() -> Log {
    let (record, mut bytes) = full().into_parts();
    let (mut at, mut turn) = (0, 0);
    while at < LENGTH {
        let length = i32::from_le_bytes(bytes[at..at + 4].try_into().unwrap());
        if length < 0 {
            bytes[at..at + 4].copy_from_slice(&(-length).to_le_bytes());
            bytes[at + 6] = turn % 2;
            turn += 1;
        }
        at += (length.unsigned_abs() as usize).next_multiple_of(32);
    }
    assert!(turn > 20);
    Log::from_parts(record, bytes).unwrap()
}

/// Where the frames of a term start.
fn starts(term: &[u8]) -> Vec<usize> {
    let (mut starts, mut at) = (Vec::new(), 0);
    while at < term.len() {
        starts.push(at);
        at += (u32::from_le_bytes(term[at..at + 4].try_into().unwrap()) as usize).next_multiple_of(32);
    }
    starts
}

#[test]
fn a_full_term_lies_there_column_by_column_and_comes_back() {
    let log = finished();
    let (shelf, term) = (log.shelve(0).unwrap(), &log.as_bytes()[..LENGTH]);
    let starts = starts(term);
    let n = starts.len();
    assert_eq!((shelf.len(), &shelf[..4]), (LENGTH + 4, &(n as u32).to_le_bytes()[..]));
    for b in 0..32 {
        let column: Vec<u8> = starts.iter().map(|at| term[at + b]).collect();
        assert_eq!(shelf[4 + b * n..][..n], column);
    }
    let ends = starts.iter().skip(1).chain([&LENGTH]);
    let bodies: Vec<u8> = starts.iter().zip(ends).flat_map(|(at, end)| &term[at + 32..*end]).copied().collect();
    assert_eq!(shelf[4 + 32 * n..], bodies);
    assert_eq!(log.record().unshelve(&shelf).unwrap(), term);
}

#[test]
fn a_term_with_an_open_claim_is_not_filled() {
    let log = full();
    for partition in 0..3 {
        assert_eq!(log.shelve(partition), Err(Error::NotFilled));
    }
    for partition in [-1, 3, i32::MIN, i32::MAX] {
        assert_eq!(log.shelve(partition), Err(Error::IllegalArgument));
    }
}

#[test]
fn a_term_stays_until_it_is_cleared_and_is_filled_anew() {
    let mut log = log();
    while log.append(&[9; 64]) != Err(Error::NotCleared) {}
    let first = log.shelve(0).unwrap();
    log.set_slowest_position(i64::from(TERM)).unwrap();
    log.clear_partition(0).unwrap();
    assert_eq!(log.shelve(0), Err(Error::NotFilled));
    while log.append(&[9; 64]) != Err(Error::NotCleared) {}
    assert_eq!(log.shelve(0), Err(Error::NotFilled));
    assert_eq!(log.offer(&[9; 64]), Err(Error::NotCleared)); // pads the term, which an append leaves
    let fourth = log.shelve(0).unwrap();
    let n = u32::from_le_bytes(first[..4].try_into().unwrap()) as usize;
    let ids = 4 + 20 * n..4 + 21 * n; // the lowest bytes of the term ids
    assert!(first[ids.clone()].iter().all(|id| *id == 7) && fourth[ids.clone()].iter().all(|id| *id == 10));
    assert_eq!((&first[..ids.start], &first[ids.end..]), (&fourth[..ids.start], &fourth[ids.end..]));
}

/// A log with one frame over the whole first term, changed in one place.
fn one_frame(change: impl FnOnce(&mut [u8])) -> Result<Vec<u8>, Error> {
    let log = made(|_, bytes| {
        put_frame(bytes, 0, TERM, 0xc0, 11);
        change(bytes);
    });
    log.unwrap().shelve(0)
}

#[test]
fn frames_are_judged_by_their_length_alone() {
    assert_eq!(one_frame(|_| ()).unwrap()[..4], [1, 0, 0, 0]);
    assert!(one_frame(|bytes| bytes[4..32].fill(0xff)).is_ok());
    assert!(one_frame(|bytes| bytes[..4].copy_from_slice(&(TERM - 31).to_le_bytes())).is_ok()); // 31 bytes of slack
    for length in [0, 1, 31, 32, TERM - 32, TERM + 1, i32::MAX, -TERM, i32::MIN] {
        assert_eq!(one_frame(|bytes| bytes[..4].copy_from_slice(&length.to_le_bytes())), Err(Error::NotFilled), "{length}");
    }
}

#[test]
fn shelves_that_no_term_gives_are_refused_and_leave_the_output() {
    let log = finished();
    let (record, shelf) = (*log.record(), log.shelve(0).unwrap());
    let n = u32::from_le_bytes(shelf[..4].try_into().unwrap()) as usize;
    let refused = |shelf: &[u8]| {
        let mut out = vec![0xa7; LENGTH];
        assert_eq!(record.unshelve_into(shelf, &mut out), Err(Error::NotFilled));
        assert!(out.iter().all(|byte| *byte == 0xa7));
    };
    refused(&shelf[..LENGTH + 3]);
    refused(&[&shelf[..], &[0]].concat());
    refused(&[]);
    for count in [0, n - 1, n + 1, LENGTH / 32 + 1, u32::MAX as usize] {
        refused(&[&(count as u32).to_le_bytes(), &shelf[4..]].concat());
    }
    for at in [4, 4 + n, 4 + 2 * n, 4 + 3 * n + n / 2] {
        let mut other = shelf.clone();
        other[at] ^= 0xc0; // a frame 64 or more bytes longer or shorter, or one being written
        refused(&other);
    }
}

#[test]
fn sizes_and_record_come_first() {
    let log = finished();
    let shelf = log.shelve(0).unwrap();
    let mut out = vec![0; LENGTH + 5];
    for length in [0, LENGTH, LENGTH + 3, LENGTH + 5] {
        assert_eq!(log.shelve_into(0, &mut out[..length]), Err(Error::IllegalArgument));
    }
    for length in [0, LENGTH - 1, LENGTH + 1, LENGTH + 4] {
        assert_eq!(log.record().unshelve_into(&shelf, &mut out[..length]), Err(Error::IllegalArgument));
    }
    let broken = Record { mtu_length: 65, ..*log.record() };
    assert_eq!(broken.unshelve(&shelf), Err(Error::IllegalRecord));
    assert_eq!(broken.unshelve_into(&shelf, &mut out), Err(Error::IllegalArgument));
    assert_eq!(Record { term_length: -1, ..broken }.unshelve(&shelf), Err(Error::IllegalRecord));
    let longer = Record { term_length: 2 * TERM, ..*log.record() };
    assert_eq!(longer.unshelve(&shelf), Err(Error::NotFilled));
}
