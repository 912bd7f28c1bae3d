//! Every refusal that the crate's calls can reach, by the small input of document 01's table where there is one.
//! No call reaches 13, which is an appender's: it is met on a partition and a term id of the caller's choice.

mod common;

use common::{log, made, put_frame, raw_tail, TERM};
use logbuffer::{Action, Assembler, Error, Log, Place, Rule};

#[test]
fn illegal_argument_1() {
    let log = log();
    assert_eq!(log.header_at(3, 0), Err(Error::IllegalArgument));
    assert_eq!(log.header_at(-1, 0), Err(Error::IllegalArgument));
    assert_eq!(log.header_at(0, 8), Err(Error::IllegalArgument));
    assert_eq!(log.header_at(0, TERM), Err(Error::IllegalArgument));
    assert_eq!(log.scan(0, 0, TERM + 1), Err(Error::IllegalArgument));
    assert_eq!(log.scan_for_gap(0, 7, 0, 33), Err(Error::IllegalArgument));
    assert_eq!(log.scan_for_availability(0, -32, 64), Err(Error::IllegalArgument));
    assert_eq!(logbuffer::descriptor::compute_position(7, 0, 31, 7), Err(Error::IllegalArgument));
}

#[test]
#[ignore = "takes 2 GiB of address space"]
fn illegal_argument_1_for_a_message_over_2147483647() {
    assert_eq!(log().offer(&vec![0; 1 << 31]), Err(Error::IllegalArgument));
}

#[test]
fn illegal_record_2_at_opening() {
    for term_length in [65_537, 0, -65_536, 32_768, i32::MIN, i32::MAX, (1 << 30) + 1] {
        assert_eq!(Log::open(term_length, 96, 7, 11, 22).err(), Some(Error::IllegalRecord));
    }
    for mtu_length in [0, 32, 97, 65_536, -64] {
        assert_eq!(Log::open(TERM, mtu_length, 7, 11, 22).err(), Some(Error::IllegalRecord));
    }
    for initial_term_id in [i32::MIN, -1, i32::MAX] {
        assert!(Log::open(TERM, 96, initial_term_id, 11, 22).is_ok());
    }
    assert_eq!(Log::builder().publication_limit(-1).open().err(), Some(Error::IllegalRecord));
}

#[test]
fn illegal_record_2_of_a_log_made_by_hand() {
    let refused = |change: fn(&mut logbuffer::Record)| made(|record, _| change(record)).err() == Some(Error::IllegalRecord);
    assert!(refused(|record| record.term_length = 0));
    assert!(refused(|record| record.term_length = 131_072)); // the bytes are not three of these
    assert!(refused(|record| record.active_term_count = -1));
    assert!(refused(|record| record.tails[0] = raw_tail(7, 8)));
    assert!(refused(|record| record.tails[0] = raw_tail(7, 1 << 31)));
    assert!(refused(|record| record.publication_limit = (1 << 62) + 1));
    assert!(refused(|record| record.slowest_position = -32));
    assert!(refused(|record| record.slowest_position = 33));
    assert!(refused(|record| record.slowest_position = (i64::from(TERM) << 31) + 32));
    assert!(!refused(|record| record.slowest_position = i64::from(TERM) << 31));
    assert_eq!(made(|_, bytes| bytes.truncate(5)).err(), Some(Error::IllegalRecord));
    assert!(made(|_, _| ()).is_ok());
}

#[test]
fn illegal_record_2_for_a_limit() {
    let mut log = log();
    assert_eq!(log.set_publication_limit(-1), Err(Error::IllegalRecord));
    assert_eq!(log.set_publication_limit((1 << 62) + 1), Err(Error::IllegalRecord));
    assert_eq!(log.publication_limit(), Ok(1 << 40));
    assert_eq!(log.set_publication_limit(1 << 62), Ok(()));
}

#[test]
fn position_out_of_range_3() {
    let log = log();
    for position in [8, -32, i64::MIN, i64::MAX, (i64::from(TERM) << 31) + 32] {
        let mut poller = log.poller(position);
        assert_eq!(poller.poll(&log, 1, |_| ()), Err(Error::PositionOutOfRange));
        assert_eq!(poller.controlled_poll(&log, 1, |_| Action::Continue), Err(Error::PositionOutOfRange));
        assert_eq!(poller.block_poll(&log, 1), Err(Error::PositionOutOfRange));
        assert_eq!(poller.is_end_of_stream(&log), Err(Error::PositionOutOfRange));
        assert_eq!(poller.fragments(&log).collect::<Vec<_>>(), [Err(Error::PositionOutOfRange)]);
        assert_eq!(poller.position(), position);
    }
    assert_eq!(log.poller(i64::from(TERM) << 31).poll(&log, 1, |_| ()), Ok(0));
}

#[test]
fn exceeds_max_payload_length_4() {
    let mut log = log();
    assert_eq!(log.try_claim(65).err(), Some(Error::ExceedsMaxPayloadLength));
    assert_eq!(log.try_claim(usize::MAX).err(), Some(Error::ExceedsMaxPayloadLength));
    log.close().unwrap();
    // Closed comes before too long.
    assert_eq!(log.try_claim(65).err(), Some(Error::PublicationClosed));
    assert_eq!(log.try_claim(usize::MAX).err(), Some(Error::PublicationClosed));
    assert_eq!(log.position(), Err(Error::PublicationClosed));
}

#[test]
fn publication_closed_5() {
    let mut log = log();
    let open = log.try_claim(10).unwrap().into_open();
    log.close().unwrap();
    assert_eq!(log.offer(b""), Err(Error::PublicationClosed));
    assert_eq!(log.try_claim(0).err(), Some(Error::PublicationClosed));
    assert_eq!(log.position(), Err(Error::PublicationClosed));
    assert_eq!(log.publication_limit(), Err(Error::PublicationClosed));
    assert_eq!(log.available_window(), Err(Error::PublicationClosed));
    assert_eq!(log.set_publication_limit(1), Ok(()));
    assert_eq!(log.close(), Ok(()));
    assert_eq!(log.commit(open), Ok(64));
    assert_eq!(log.poller(0).poll(&log, 10, |_| ()), Ok(1));
}

#[test]
fn admin_action_6() {
    let mut log = made(|record, _| record.tails[0] = raw_tail(7, 65_472)).unwrap();
    assert_eq!(log.offer(&[1; 64]), Err(Error::AdminAction));
    assert_eq!(log.rule(), Some(Rule::TermRotated));
    assert_eq!(log.record().active_term_count, 1);
    assert_eq!(log.header_at(0, 65_472).unwrap().frame_length, 64);
    assert_eq!(log.offer(b""), Ok(65_568));

    let mut log = made(|record, _| record.active_term_count = 3).unwrap();
    assert_eq!(log.try_claim(0).err(), Some(Error::AdminAction)); // count and id differ
    assert_eq!(log.rule(), Some(Rule::CountOutOfStep));
}

#[test]
fn max_position_exceeded_7() {
    let mut log = made(|record, _| {
        record.initial_term_id = 0;
        record.active_term_count = i32::MAX;
        record.tails[1] = raw_tail(i64::from(i32::MAX), 65_536);
        record.publication_limit = 0;
    })
    .unwrap();
    assert_eq!(log.offer(b""), Err(Error::MaxPositionExceeded));
    assert_eq!(log.try_claim(0).err(), Some(Error::MaxPositionExceeded));
}

#[test]
fn back_pressured_8_and_not_connected_9() {
    let mut log = log();
    log.set_publication_limit(0).unwrap();
    assert_eq!(log.offer(b""), Err(Error::BackPressured));
    assert_eq!(log.try_claim(0).err(), Some(Error::BackPressured));

    let mut log = made(|record, _| {
        record.publication_limit = 0;
        record.is_connected = 0;
    })
    .unwrap();
    assert_eq!(log.offer(b""), Err(Error::NotConnected));
}

#[test]
fn exceeds_max_message_length_10() {
    let mut log = log();
    assert_eq!(log.offer(&[1; 8_193]), Err(Error::ExceedsMaxMessageLength));
    assert_eq!(log.offer(&[1; 8_192]), Ok(12_288));
    assert_eq!(log.replay().next(), Some(Ok(vec![1; 8_192])));
}

#[test]
fn tail_overflow_11() {
    let mut log = made(|record, _| record.tails[0] = raw_tail(7, 2_147_483_616)).unwrap();
    assert_eq!(log.offer(b""), Err(Error::TailOverflow));
    assert_eq!(log.try_claim(0).err(), Some(Error::TailOverflow));
}

#[test]
fn last_term_12() {
    let mut log = made(|record, _| {
        record.mtu_length = 65_504;
        record.active_term_count = i32::MAX;
        record.publication_limit = 1 << 62;
        record.tails[1] = raw_tail(i64::from(7i32.wrapping_add(i32::MAX)), 32_768);
    })
    .unwrap();
    assert_eq!(log.try_claim(65_472).err(), Some(Error::LastTerm));
    assert_eq!(log.record().tails[1] & 0xffff_ffff, 32_768 + 65_504); // the tail stays moved
}

/// The largest term id is not the last: the season goes on at the lowest, and replays like any other.
#[test]
fn no_last_term_at_the_largest_id() {
    let mut log = Log::open(TERM, 96, i32::MAX, 11, 22).unwrap();
    log.set_publication_limit(1 << 40).unwrap();
    while log.position().unwrap() < i64::from(TERM) {
        log.offer(b"").unwrap();
    }
    assert_eq!(log.offer(b"over"), Err(Error::AdminAction));
    assert_eq!(log.offer(b"over"), Ok(i64::from(TERM) + 64));
    assert_eq!(log.record().tails[1] >> 32, i64::from(i32::MIN));
    let last = log.replay().last().unwrap().unwrap();
    assert_eq!(last, b"over");
}

#[test]
fn claim_mismatch_14() {
    let mut log = log();
    let open = log.try_claim(10).unwrap().into_open();
    let mut other = Log::open(TERM, 96, 7, 12, 22).unwrap();
    other.set_publication_limit(1 << 40).unwrap();
    let same_place = other.try_claim(10).unwrap().into_open();
    assert_eq!(other.commit(open.clone()), Err(Error::ClaimMismatch)); // of another session
    assert_eq!(other.commit(same_place), Ok(64));

    assert_eq!(log.commit(open.clone()), Ok(64));
    assert_eq!(log.commit(open.clone()), Err(Error::ClaimMismatch));
    assert_eq!(log.abort(open.clone()), Err(Error::ClaimMismatch));
    assert_eq!(log.resume(open).err(), Some(Error::ClaimMismatch));
    assert_eq!(log.count().unwrap().messages, 1);
}

#[test]
fn claim_mismatch_14_in_a_shorter_log() {
    let mut long = Log::builder().term_length(2 * TERM).open().unwrap();
    while long.offer(&[1; 1_000]).unwrap() < i64::from(TERM) {}
    let open = long.try_claim(10).unwrap().into_open();
    let mut short = Log::builder().term_length(TERM).open().unwrap();
    assert_eq!(short.commit(open), Err(Error::ClaimMismatch)); // its offset is past the term here
}

#[test]
fn new_position_out_of_range_15_and_not_aligned_16() {
    let mut log = log();
    log.offer(&[1; 64]).unwrap();
    let mut poller = log.poller(64);
    assert_eq!(poller.set_position(&log, 32), Err(Error::NewPositionOutOfRange));
    assert_eq!(poller.set_position(&log, 65_568), Err(Error::NewPositionOutOfRange));
    assert_eq!(poller.set_position(&log, 72), Err(Error::NewPositionNotAligned));
    let mut peek = |start| poller.controlled_peek(&log, start, i64::MAX, 1, |_| Action::Continue);
    assert_eq!(peek(32), Err(Error::NewPositionOutOfRange));
    assert_eq!(peek(72), Err(Error::NewPositionNotAligned));
    assert_eq!(poller.position(), 64);
    assert_eq!(log.poller(0).controlled_peek(&log, 65_568, i64::MAX, 0, |_| Action::Continue), Err(Error::NewPositionOutOfRange));
}

#[test]
fn position_out_of_range_3_and_new_position_out_of_range_15_of_the_slowest_reader() {
    let mut log = log();
    for position in [8, -32, i64::MIN, i64::MAX, (i64::from(TERM) << 31) + 32] {
        assert_eq!(log.set_slowest_position(position), Err(Error::PositionOutOfRange));
        assert_eq!(log.register_reader(position).err(), Some(Error::PositionOutOfRange));
    }
    log.close().unwrap();
    assert_eq!(
        [64, 64, 32, 96].map(|position| log.set_slowest_position(position)),
        [Ok(()), Ok(()), Err(Error::NewPositionOutOfRange), Ok(())]
    );
    assert_eq!(log.record().slowest_position, 96);
}

#[test]
fn not_cleared_19() {
    let mut log = made(|record, _| {
        record.tails = [raw_tail(7, 65_568), raw_tail(8, 65_568), raw_tail(9, 65_472)];
        record.active_term_count = 2;
        record.cleared_marks = 0;
    })
    .unwrap();
    // an append looks first, and nothing has moved
    assert_eq!((log.append(&[1; 64]), log.rule()), (Err(Error::NotCleared), Some(Rule::NotCleared)));
    assert_eq!(log.record().tails[2], raw_tail(9, 65_472));
    assert_eq!((log.offer(&[1; 64]), log.rule()), (Err(Error::NotCleared), Some(Rule::NotCleared)));
    assert_eq!((log.record().tails[2], log.record().active_term_count), (raw_tail(9, 65_568), 2));
    assert_eq!(log.header_at(2, 65_472).unwrap().frame_length, 64); // padding
    assert_eq!((log.try_claim(0).err(), log.rule()), (Some(Error::NotCleared), Some(Rule::NotCleared)));
    assert_eq!(log.record().tails[2], raw_tail(9, 65_600));
    log.set_slowest_position(i64::from(TERM)).unwrap();
    log.clear_partition(0).unwrap();
    assert_eq!((log.offer(&[1; 64]), log.rule()), (Err(Error::AdminAction), Some(Rule::TermRotated)));
    assert_eq!([0, 1, 2].map(|partition| log.record().is_cleared(partition)), [false; 3]);
    assert_eq!(log.offer(&[1; 64]), Ok(3 * i64::from(TERM) + 96));
}

/// Who goes on calling moves the tail up to the limit, and then every call is pressed back for good.
#[test]
fn retries_after_19_run_into_the_limit() {
    let mut log = log();
    while log.append(&[1; 64]) != Err(Error::NotCleared) {}
    assert_eq!(log.offer(&[1; 64]), Err(Error::NotCleared)); // pads the third term
    log.set_slowest_position(3 * i64::from(TERM)).unwrap(); // all readers are at the end
    log.set_publication_limit(4 * i64::from(TERM)).unwrap();
    let refused = std::iter::repeat_with(|| log.offer(&[1; 64])).take_while(|answer| *answer == Err(Error::NotCleared)).count();
    assert_eq!(refused, 683);
    assert_eq!(log.position(), Ok(3 * i64::from(TERM)));
    log.clear_partition(0).unwrap();
    assert_eq!(log.offer(&[1; 64]), Err(Error::BackPressured)); // too late
}

#[test]
fn not_due_20() {
    let mut log = log();
    for partition in [-1, 3, i32::MIN, i32::MAX] {
        assert_eq!(log.clear_partition(partition), Err(Error::IllegalArgument));
    }
    assert_eq!([0, 1, 2].map(|partition| log.clear_partition(partition)), [Err(Error::NotDue), Ok(()), Err(Error::NotDue)]);
    while log.append(&[1; 64]) != Err(Error::NotCleared) {}
    for (slowest, answer) in [(0, Err(Error::NotDue)), (TERM - 32, Err(Error::NotDue)), (TERM, Ok(())), (TERM, Ok(()))] {
        log.set_slowest_position(slowest.into()).unwrap();
        assert_eq!(log.clear_partition(0), answer);
    }
    assert!(log.as_bytes()[..TERM as usize].iter().all(|byte| *byte == 0));
    log.close().unwrap();
    assert_eq!(log.clear_partition(0), Ok(()));
}

/// A log whose second frame, at 64, has this length.
fn damaged(length: i32) -> Log {
    let mut log = log();
    log.offer(b"coin").unwrap();
    log.offer(b"").unwrap();
    let (record, mut bytes) = log.into_parts();
    put_frame(&mut bytes, 64, length, 0xc0, 11);
    Log::from_parts(record, bytes).unwrap()
}

fn refuses_frame(log: &Log, refused: impl Fn(Place) -> Error) {
    let offset = 64;
    let error = refused(Place { partition: Some(0), offset });
    let mut poller = log.poller(64);
    assert_eq!(poller.poll(log, 1, |_| ()), Err(error));
    assert_eq!(poller.controlled_poll(log, 1, |_| Action::Continue), Err(error));
    assert_eq!(poller.block_poll(log, 64), Err(error));
    assert_eq!(poller.controlled_peek(log, 64, i64::MAX, 1, |_| Action::Continue), Err(error));
    assert_eq!(log.poller(0).controlled_peek(log, 64, i64::MAX, 1, |_| Action::Continue), Err(error));
    assert_eq!(poller.fragments(log).collect::<Vec<_>>(), [Err(error)]);
    assert_eq!(log.replay().collect::<Vec<_>>(), [Ok(b"coin".to_vec()), Err(error)]);
    let mut replay = log.replay();
    assert_eq!(replay.next_batch(8).unwrap().unwrap().collect::<Vec<_>>(), [b"coin"]);
    assert_eq!(replay.next_batch(8).unwrap().err(), Some(error));
    assert!(replay.next_batch(8).is_none());
    assert_eq!(log.count(), Err(refused(Place { partition: None, offset })));
    assert_eq!(log.scan(0, 64, 128), Err(error));
    assert_eq!(log.scan_for_gap(0, 7, 64, 128), Err(error));
    assert_eq!(log.scan_for_availability(0, 64, 64), Err(error));
    assert_eq!(error.place(), Some(Place { partition: Some(0), offset }));
    assert!(error.to_string().contains(", at offset 64 of partition 0: "));
}

#[test]
fn frame_too_short_22() {
    refuses_frame(&damaged(5), Error::FrameTooShort);
    refuses_frame(&damaged(31), Error::FrameTooShort);
}

#[test]
fn frame_past_term_23() {
    refuses_frame(&damaged(65_473), Error::FramePastTerm);
    refuses_frame(&damaged(i32::MAX), Error::FramePastTerm);
}

#[test]
fn assembly_full_18_for_a_long_message() {
    let log = made(|record, bytes| {
        put_frame(bytes, 0, 40, 0x80, 11);
        put_frame(bytes, 64, 33, 0x40, 11);
        record.tails[0] = raw_tail(7, 128);
    })
    .unwrap();
    let mut assembler = Assembler::with_part_length(8);
    let fragments: Result<Vec<_>, _> = log.poller(0).fragments(&log).collect();
    let [begin, end] = fragments.unwrap()[..] else { panic!("two fragments") };
    assert_eq!(assembler.on_fragment(&log, &begin), Ok(None));
    assert_eq!(assembler.on_fragment(&log, &end), Err(Error::AssemblyFull));
    assert_eq!(assembler.on_fragment(&log, &end), Ok(None)); // emptied, so it is ignored
}

#[test]
fn assembly_full_18_for_a_17th_session() {
    let log = made(|record, bytes| {
        for session in 0..17 {
            put_frame(bytes, 64 * session, 40, 0x80, session as i32);
        }
        record.tails[0] = raw_tail(7, 64 * 17);
    })
    .unwrap();
    let mut assembler = Assembler::new(&log);
    let mut poller = log.poller(0);
    let answers: Vec<_> = poller.fragments(&log).map(|fragment| assembler.on_fragment(&log, &fragment.unwrap()).err()).collect();
    assert_eq!(answers[..16], [None; 16]);
    assert_eq!(answers[16..], [Some(Error::AssemblyFull)]);
    assert_eq!(log.replay().collect::<Vec<_>>(), [Err(Error::AssemblyFull)]);
}
