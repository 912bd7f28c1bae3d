//! Readers beyond the small inputs: a reader that follows a log round its three terms, padding, blocks, peeks, and closing.

mod common;

use common::{log, made, raw_tail, Random, TERM};
use logbuffer::{Action, Assembler, Availability, Error, FrameLength, Log};

/// An offer made again where the term was full.
fn append(log: &mut Log, message: &[u8]) -> i64 {
    match log.offer(message) {
        Err(Error::AdminAction) => log.offer(message).unwrap(),
        answer => answer.unwrap(),
    }
}

#[test]
fn a_reader_follows_the_log_round_its_terms() {
    let (mut log, mut random) = (log(), Random(5));
    let (mut poller, mut assembler) = (log.poller(0), Assembler::new(&log));
    let mut reader = log.register_reader(0).unwrap();
    while poller.position() < 20 * i64::from(TERM) {
        let messages: Vec<_> = (0..random.below(20)).map(|_| random.message(2_000)).collect();
        for message in &messages {
            log.append(message).unwrap();
        }
        let mut known = Vec::new();
        assert_eq!(reader.messages(&log, |message| known.push(message.to_vec())), Ok(messages.len()));
        assert_eq!(known, messages);
        let mut read = Vec::new();
        for fragment in poller.fragments(&log) {
            read.extend(assembler.on_fragment(&log, &fragment.unwrap()).unwrap().map(<[u8]>::to_vec));
        }
        assert_eq!(read, messages);
        assert_eq!(Ok(poller.position()), log.position());
    }
}

#[test]
fn a_reader_tells_an_empty_place_from_an_open_claim() {
    let mut log = log();
    let mut poller = log.poller(0);
    assert_eq!(poller.ahead(&log), Ok(FrameLength::Free));
    log.offer(b"coin").unwrap();
    let open = log.try_claim(10).unwrap().into_open();
    log.offer(b"pin").unwrap();
    assert_eq!(poller.ahead(&log), Ok(FrameLength::Finished(36)));
    assert_eq!(poller.fragments(&log).count(), 1);
    assert_eq!(poller.ahead(&log), Ok(FrameLength::Writing(42)));
    log.abort(open).unwrap();
    assert_eq!(poller.fragments(&log).count(), 1);
    assert_eq!((poller.position(), poller.ahead(&log)), (192, Ok(FrameLength::Free)));
    assert_eq!([-32, 8].map(|at| log.poller(at).ahead(&log)), [Err(Error::PositionOutOfRange); 2]);
    assert_eq!([(3, 0), (0, 8), (0, TERM)].map(|(k, at)| log.frame_length(k, at)), [Err(Error::IllegalArgument); 3]);
}

#[test]
fn nothing_is_ahead_where_an_older_term_left_frames() {
    let mut log = log();
    let end = 3 * i64::from(TERM);
    while log.position().unwrap() < end {
        log.offer(b"").ok();
    }
    assert_eq!(log.frame_length(0, 0), Ok(FrameLength::Finished(32)));
    assert_eq!(log.poller(end).ahead(&log), Ok(FrameLength::Free));
}

#[test]
fn no_call_reads_what_an_older_term_left() {
    let mut log = log();
    while log.position().unwrap() < 3 * i64::from(TERM) {
        log.offer(b"").ok();
    }
    let end = log.position().unwrap();
    assert_eq!(end, 3 * i64::from(TERM)); // which is in the first partition, full of old frames
    let mut poller = log.poller(end);
    assert_eq!(poller.poll(&log, 10, |_| ()), Ok(0));
    assert_eq!(poller.bounded_poll(&log, i64::MAX, 10, |_| ()), Ok(0));
    assert_eq!(poller.controlled_poll(&log, 10, |_| Action::Continue), Ok(0));
    assert_eq!(poller.controlled_peek(&log, end, i64::MAX, 10, |_| Action::Continue), Ok(end));
    assert_eq!(poller.block_poll(&log, 1_000), Ok(None));
    assert_eq!(poller.position(), end);

    log.set_slowest_position(end).unwrap();
    log.clear_partition(0).unwrap();
    let after = log.append(&[1; 64]).unwrap();
    assert_eq!(after, end + 96);
    log.close().unwrap();
    assert_eq!(poller.controlled_peek(&log, end, i64::MAX, 10, |_| Action::Continue), Ok(after));
    assert_eq!(poller.clone().controlled_poll(&log, 10, |_| Action::Continue), Ok(1));
    assert_eq!(poller.clone().block_poll(&log, 1_000).unwrap().unwrap().bytes.len(), 96);
    assert_eq!(poller.clone().fragments(&log).count(), 1);
    assert_eq!(poller.poll(&log, 10, |_| ()), Ok(1));
    assert_eq!(poller.position(), after);
}

/// Behind the aborted claim the first term's frames lie again.
#[test]
fn three_terms_that_end_with_an_aborted_claim_replay_once() {
    let mut log = log();
    let mut written = Vec::new();
    while log.position().unwrap() < 3 * i64::from(TERM) - 64 {
        written.extend(log.offer(&[1; 32]).ok());
    }
    log.try_claim(32).unwrap().abort().unwrap();
    assert_eq!(log.position(), Ok(3 * i64::from(TERM)));
    assert_eq!(log.replay().count(), written.len());
    assert_eq!(log.count().unwrap().messages, written.len());
    for most in [7, written.len(), 10_000] {
        let (mut replay, mut positions) = (log.replay(), Vec::new());
        while let Some(batch) = replay.next_batch(most) {
            let before = positions.len();
            positions.extend(batch.unwrap().with_positions().map(|(position, _)| position));
            assert!(positions.len() > before);
        }
        assert_eq!(positions, written);
        assert_eq!(replay.position(), 3 * i64::from(TERM));
    }
}

#[test]
fn a_reader_that_was_overrun_is_told_and_handed_nothing() {
    let mut log = log();
    let mut written = Vec::new();
    while log.position().unwrap() < 3 * i64::from(TERM) {
        let left = i64::from(TERM) - log.position().unwrap() % i64::from(TERM);
        written.extend(log.offer(if left > 8_000 { &[1; 4_000] } else { b"" }).ok());
    }
    // Three full terms replay whole, and not once more from the first.
    let count = log.count().unwrap();
    assert_eq!(count.messages, written.len());
    let mut replay = log.replay();
    let mut positions = Vec::new();
    while let Some(batch) = replay.next_batch(7) {
        positions.extend(batch.unwrap().with_positions().map(|(position, _)| position));
    }
    assert_eq!(positions, written);
    let mut replay = log.replay();
    for position in &written {
        replay.next_message().unwrap().unwrap();
        assert_eq!(replay.position(), *position);
    }
    assert_eq!(replay.next_message(), None);

    log.set_slowest_position(i64::from(TERM)).unwrap();
    log.clear_partition(0).unwrap();
    overrun(&log);
    log.offer(&[2; 64]).ok(); // rotates: the first term's place is the fourth's
    assert_eq!(log.record().active_term_count, 3);
    overrun(&log);
}

/// Of the first term nothing is left; of the second all.
fn overrun(log: &Log) {
    for position in [0, 32, i64::from(TERM) - 32] {
        let mut poller = log.poller(position);
        assert_eq!(poller.poll(log, 10, |_| ()), Err(Error::Overrun));
        assert_eq!(poller.controlled_poll(log, 10, |_| Action::Continue), Err(Error::Overrun));
        assert_eq!(poller.controlled_peek(log, position, i64::MAX, 10, |_| Action::Continue), Err(Error::Overrun));
        assert_eq!(poller.block_poll(log, 1_000), Err(Error::Overrun));
        assert_eq!(poller.ahead(log), Err(Error::Overrun));
        assert_eq!(poller.fragments(log).next().unwrap(), Err(Error::Overrun));
        assert_eq!(poller.position(), position);
    }
    assert_eq!(log.replay().collect::<Vec<_>>(), [Err(Error::Overrun)]);
    assert_eq!(log.count(), Err(Error::Overrun));
    assert!(log.poller(i64::from(TERM)).poll(log, 10, |_| ()).unwrap() > 0);
}

#[test]
fn a_fragment_has_position_body_and_header() {
    let mut log = log();
    log.offer_with_reserved_value(&[5; 70], 99).unwrap();
    let mut poller = log.poller(0);
    let fragments: Result<Vec<_>, _> = poller.fragments(&log).collect();
    let [begin, end] = fragments.unwrap()[..] else { panic!("two fragments") };
    assert_eq!((begin.position, begin.body, begin.is_begin(), begin.is_end()), (96, &[5; 64][..], true, false));
    assert_eq!((end.position, end.body, end.is_begin(), end.is_end()), (160, &[5; 6][..], false, true));
    assert_eq!((end.header.frame_length, end.header.version, end.header.frame_type), (38, 0, 1));
    assert_eq!((end.header.term_offset, end.header.term_id, end.header.reserved_value), (96, 7, 99));
    assert_eq!((end.header.session_id, end.header.stream_id), (11, 22));
}

#[test]
fn padding_is_passed() {
    let mut log = made(|record, _| record.tails[0] = raw_tail(7, 65_472)).unwrap();
    append(&mut log, &[1; 64]);
    let mut poller = log.poller(65_472);
    assert_eq!(poller.clone().poll(&log, 10, |_| ()), Ok(0));
    assert_eq!(poller.fragments(&log).map(|fragment| fragment.unwrap().position).collect::<Vec<_>>(), [65_632]);
    let block = log.poller(65_472).block_poll(&log, 1).unwrap().unwrap();
    assert_eq!((block.term_offset, block.bytes.len(), block.session_id, block.term_id), (65_472, 64, 11, 7));
}

#[test]
fn availability_parts_frames_and_padding() {
    let log = made(|_, bytes| bytes[0] = 96).unwrap(); // a frame of type 0
    assert_eq!(log.scan_for_availability(0, 0, 64), Ok(Availability { available: 32, padding: 64 }));
}

#[test]
fn a_limit_of_0_reads_nothing_and_a_huge_one_a_term() {
    let mut log = log();
    for _ in 0..10 {
        append(&mut log, b"coin");
    }
    let mut poller = log.poller(0);
    assert_eq!(poller.poll(&log, 0, |_| ()), Ok(0));
    assert_eq!(poller.poll(&log, usize::MAX, |_| ()), Ok(10));
    assert_eq!(poller.position(), 640);
    assert_eq!(log.poller(0).block_poll(&log, usize::MAX).unwrap().unwrap().bytes, &log.as_bytes()[..640]);
}

#[test]
fn a_peek_answers_the_end_of_whole_messages() {
    let mut log = log();
    log.offer(b"coin").unwrap();
    log.offer(&[1; 160]).unwrap(); // three fragments, up to 320
    let mut poller = log.poller(0);
    let mut peek = |limit, actions: &[Action]| {
        let mut actions = actions.iter();
        poller.controlled_peek(&log, 0, i64::MAX, limit, |_| *actions.next().unwrap()).unwrap()
    };
    assert_eq!(peek(0, &[]), 0);
    assert_eq!(peek(9, &[Action::Abort]), 0);
    assert_eq!(peek(9, &[Action::Break]), 64);
    assert_eq!(peek(9, &[Action::Continue, Action::Commit, Action::Break]), 64);
    assert_eq!(peek(9, &[Action::Continue; 4]), 320);
    assert_eq!(poller.position(), 0);
}

#[test]
fn a_closed_reader_stays_and_remembers() {
    let log = made(|record, _| record.end_of_stream_position = 32).unwrap();
    let mut poller = log.poller(0);
    assert_eq!(poller.is_end_of_stream(&log), Ok(false));
    poller.set_position(&log, 32).unwrap();
    assert_eq!(poller.is_end_of_stream(&log), Ok(true));
    poller.close(&log).unwrap();
    assert!(poller.is_closed());
    assert_eq!(poller.set_position(&log, 64), Ok(()));
    assert_eq!((poller.position(), poller.is_end_of_stream(&log)), (32, Ok(true)));
}
