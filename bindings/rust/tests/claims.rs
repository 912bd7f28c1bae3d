//! What becomes of a claim: committed, aborted, dropped, laid by.

mod common;

use common::log;
use logbuffer::{Error, GapScan};

#[test]
fn a_dropped_claim_is_aborted() {
    let mut log = log();
    log.offer(b"coin").unwrap();
    let mut claim = log.try_claim(10).unwrap();
    claim.fill(7);
    drop(claim);
    log.offer(b"behind it").unwrap();
    let header = log.header_at(0, 64).unwrap();
    assert_eq!((header.frame_length, header.frame_type), (42, 0));
    assert_eq!(log.replay().map(Result::unwrap).collect::<Vec<_>>(), [&b"coin"[..], b"behind it"]);
}

#[test]
fn a_lost_claim_is_found_where_a_reader_stops() {
    let mut log = log();
    log.offer(b"coin").unwrap();
    let _lost = log.try_claim(10).unwrap().into_open();
    log.offer(b"behind it").unwrap();
    let mut poller = log.poller(0);
    poller.poll(&log, 10, |_| ()).unwrap();
    let mut claim = log.resume(log.open_claim_at(poller.position()).unwrap()).unwrap();
    claim.copy_from_slice(b"found back");
    assert_eq!(claim.commit(), Ok(128));
    assert_eq!(log.replay().map(Result::unwrap).collect::<Vec<_>>(), [&b"coin"[..], b"found back", b"behind it"]);
    for position in [0, 64, 128, 192, -32, 8, 1 << 50] {
        assert_eq!(log.open_claim_at(position).err(), Some(Error::ClaimMismatch));
    }
}

#[test]
fn a_claim_laid_by_stays_open_and_readers_stop_before_it() {
    let mut log = log();
    log.offer(b"coin").unwrap();
    let mut claim = log.try_claim(10).unwrap();
    claim.fill(7);
    let _open = claim.into_open();
    log.offer(b"behind it").unwrap();

    assert_eq!(log.header_at(0, 64).unwrap().frame_length, -42);
    assert_eq!(log.replay().map(Result::unwrap).collect::<Vec<_>>(), [b"coin"]);
    let mut poller = log.poller(0);
    assert_eq!(poller.poll(&log, 10, |_| ()), Ok(1));
    assert_eq!(poller.poll(&log, 10, |_| ()), Ok(0));
    assert_eq!(poller.position(), 64);
    assert_eq!(log.scan(0, 0, 192), Ok(64));
    assert!(matches!(log.scan_for_gap(0, 7, 0, 192), Ok(GapScan::Gap { offset: 64, .. })));
}

#[test]
fn a_claim_laid_by_is_finished_in_any_order() {
    let mut log = log();
    let mut claim = log.try_claim(4).unwrap();
    claim.copy_from_slice(b"coin");
    let first = claim.into_open();
    let second = log.try_claim(3).unwrap().into_open();
    assert_eq!((first.position(), second.position()), (64, 128));

    let mut claim = log.resume(second).unwrap();
    assert_eq!(claim.len(), 3);
    claim.copy_from_slice(b"pin");
    assert_eq!(claim.commit(), Ok(128));
    assert_eq!(log.count().unwrap().messages, 0);
    assert_eq!(log.commit(first), Ok(64));
    assert_eq!(log.replay().map(Result::unwrap).collect::<Vec<_>>(), [b"coin".to_vec(), b"pin".to_vec()]);
}

#[test]
fn an_aborted_claim_is_passed() {
    let mut log = log();
    log.try_claim(10).unwrap().abort().unwrap();
    log.offer(b"coin").unwrap();
    let mut poller = log.poller(0);
    assert_eq!(poller.poll(&log, 10, |fragment| assert_eq!(fragment.body, b"coin")), Ok(1));
    assert_eq!(poller.position(), 128);
}

#[test]
fn a_claim_is_taken_up_in_a_log_made_of_its_parts() {
    let mut log = log();
    let before = log.try_claim(0).unwrap().into_open();
    let (record, bytes) = log.into_parts();
    let mut log = logbuffer::Log::from_parts(record, bytes).unwrap();
    assert_eq!(log.commit(before), Err(Error::ClaimMismatch)); // of another log, as far as anybody can tell
    let open = log.open_claim_at(0).unwrap();
    assert_eq!(log.commit(open), Ok(32));
    assert_eq!(log.replay().next(), Some(Ok(Vec::new())));
}

#[test]
fn a_commit_asks_of_the_active_tail_alone() {
    let mut log = log();
    let _ = log.try_claim(0).unwrap().into_open();
    let (mut record, bytes) = log.into_parts();
    record.tails[2] |= 1; // no multiple of 32, but of a partition that is not active
    let mut log = logbuffer::Log::from_parts(record, bytes).unwrap();
    let open = log.open_claim_at(0).unwrap();
    assert_eq!(log.commit(open), Ok(32));
}

#[test]
fn a_length_that_no_claim_has_is_refused_and_not_added_up_past_32_bits() {
    let mut log = log();
    log.offer(b"coin").unwrap();
    let (record, mut bytes) = log.into_parts();
    bytes[..4].copy_from_slice(&(-i32::MAX).to_le_bytes());
    let mut log = logbuffer::Log::from_parts(record, bytes).unwrap();
    let open = log.open_claim_at(0).unwrap();
    assert_eq!(open.position(), 1 << 31);
    assert_eq!(log.commit(open), Err(Error::ClaimMismatch));
}
