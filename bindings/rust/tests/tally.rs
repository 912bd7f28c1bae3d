//! The tally: every reason for which a walk ends, over the end of a term and of the log, and the order of its refusals. The same as the partitions lie.

mod common;

use common::{log, made, put_frame, TERM};
use logbuffer::{Error, Log, Place, Stop, Sums, Tally};

const END: i64 = TERM as i64;

fn tally(body: usize, headers: usize, slack: usize, padding: usize, end: i64, stop: Stop) -> Tally {
    Tally { body, headers, slack, padding, end, stop }
}

/// A message of 5, an aborted claim of 33, a message of 100 in two frames, an open claim of 10.
fn mixed() -> Log {
    let mut log = log();
    log.offer(&[1; 5]).unwrap();
    log.try_claim(33).unwrap().abort().unwrap();
    log.offer(&[2; 100]).unwrap();
    let _open = log.try_claim(10).unwrap().into_open();
    log
}

#[test]
fn each_sum_has_its_own_meaning() {
    let log = mixed();
    assert_eq!(log.tally(0, END), Ok(tally(105, 96, 55, 96, 352, Stop::Writing(42))));
    assert_eq!(log.tally(0, 352), Ok(tally(105, 96, 55, 96, 352, Stop::Reached)));
    assert_eq!(log.tally(0, 160), Ok(tally(5, 32, 27, 96, 160, Stop::Reached)));
    assert_eq!(log.tally(64, 160), Ok(tally(0, 0, 0, 96, 160, Stop::Reached)));
    assert_eq!(log.tally(64, 128), Ok(tally(0, 0, 0, 0, 64, Stop::PastSecond)));
    assert_eq!(log.tally(416, END), Ok(tally(0, 0, 0, 0, 416, Stop::Free)));
    assert_eq!(log.tally(352, 352), Ok(tally(0, 0, 0, 0, 352, Stop::Reached)));
}

/// Messages of 40 bytes, 682 to a term and then 64 of padding, until a count of terms, 3 or more, is full: the last three lie in the log, and the trip from
/// the last of them is refused.
fn filled(terms: i32) -> Log {
    let mut log = log();
    loop {
        let before = i64::from(log.record().active_term_count) - 1;
        if (1..i64::from(terms) - 2).contains(&before) && !log.record().is_cleared(log.record().due_partition()) {
            log.set_slowest_position(before * END).unwrap();
            log.clear_partition(log.record().due_partition()).unwrap();
        }
        if log.offer(&[3; 40]) == Err(Error::NotCleared) {
            assert_eq!(log.record().active_term_count, terms - 1);
            return log;
        }
    }
}

fn sums(messages: usize, padding: usize) -> Sums {
    Sums { body: 40 * messages, headers: 32 * messages, slack: 24 * messages, padding }
}

#[test]
fn each_partition_has_the_sums_of_its_part_for_every_starting_term() {
    for terms in 3..9 {
        let log = filled(terms);
        let end = i64::from(terms) * END;
        let (from, to) = (end - 3 * END + 96, end - 64);
        let answer = log.tally_by_partition(from, to).unwrap();
        assert_eq!(Ok(answer.whole), log.tally(from, to));
        assert_eq!((answer.whole.end, answer.whole.stop), (to, Stop::Reached));
        let mut should = [sums(682, 64); 3];
        should[terms as usize % 3] = sums(681, 64);
        should[(terms as usize + 2) % 3] = sums(682, 0);
        assert_eq!(answer.partitions, should, "{terms}");
    }
}

#[test]
fn a_part_that_stops_short_stops_those_that_follow_it_in_the_stream() {
    let mut log = filled(4);
    log.set_slowest_position(2 * END).unwrap();
    log.clear_partition(1).unwrap();
    assert_eq!(log.try_claim(10).err(), Some(Error::AdminAction));
    let open = log.try_claim(10).unwrap().into_open();
    // the claim is in partition 1, of the term that comes after those in partitions 2 and 0
    let answer = log.tally_by_partition(2 * END, 5 * END).unwrap();
    assert_eq!(Ok(answer.whole), log.tally(2 * END, 5 * END));
    assert_eq!((answer.whole.end, answer.whole.stop), (4 * END, Stop::Writing(42)));
    assert_eq!(answer.partitions, [sums(682, 64), sums(0, 0), sums(682, 64)]);
    // from it on there is nothing, though partitions 2 and 0 hold older frames
    let answer = log.tally_by_partition(4 * END, 7 * END).unwrap();
    assert_eq!((answer.partitions, answer.whole.end), ([Sums::default(); 3], 4 * END));
    drop(open);
}

#[test]
fn bytes_in_four_terms_come_after_row_3_and_before_the_frame() {
    let log = log();
    for (from, to) in [(32, 32 + 3 * END), (END - 32, 4 * END - 32), (32, 0), (0, 3 * END + 1), (i64::MIN, i64::MAX)] {
        assert_eq!(log.tally_by_partition(from, to), Err(Error::IllegalArgument), "{from} {to}");
    }
    for (from, to) in [(8, 8 + 3 * END), (8, 8), (-32, 0)] {
        assert_eq!(log.tally_by_partition(from, to), Err(Error::PositionOutOfRange), "{from} {to}");
    }
    assert_eq!(log.tally_by_partition(0, 3 * END).unwrap().whole.stop, Stop::Free);
    let broken = made(|_, bytes| put_frame(bytes, 64, 5, 0xc0, 11)).unwrap();
    assert_eq!(broken.tally_by_partition(64, 64 + 3 * END), Err(Error::IllegalArgument));
    assert_eq!(broken.tally_by_partition(64, 3 * END), Err(Error::FrameTooShort(Place { partition: Some(0), offset: 64 })));
}

#[test]
fn a_walk_goes_over_the_ends_of_terms_and_of_the_log() {
    let log = filled(4);
    let end = log.position().unwrap();
    assert_eq!(end, 4 * END);
    // 682 messages of 40 bytes fill a term but for 64 bytes, which are padding
    let whole = tally(3 * 682 * 40, 3 * 682 * 32, 3 * 682 * 24, 3 * 64, end, Stop::Reached);
    assert_eq!(log.tally(END, end), Ok(whole));
    assert_eq!(log.tally(END, end + 32), Err(Error::IllegalArgument));
    // the fourth term lies where the first did, and the second where the fifth will
    assert_eq!(log.tally(0, END), Ok(tally(0, 0, 0, 0, 0, Stop::OtherTerm)));
    assert_eq!(log.tally(end, end + END), Ok(tally(0, 0, 0, 0, end, Stop::OtherTerm)));
}

#[test]
fn an_unsound_frame_comes_before_its_id_and_refuses_only_first() {
    let broken = |at: usize, length: i32| {
        made(|_, bytes| {
            put_frame(bytes, 0, 64, 0xc0, 11);
            bytes[20] = 7;
            put_frame(bytes, at, length, 0xc0, 11);
        })
        .unwrap()
    };
    let place = |offset| Place { partition: Some(0), offset };
    assert_eq!(broken(64, 5).tally(0, END), Ok(tally(32, 32, 0, 0, 64, Stop::Unsound)));
    assert_eq!(broken(64, 5).tally(64, 96), Err(Error::FrameTooShort(place(64))));
    assert_eq!(broken(64, 70_000).tally(64, 96), Err(Error::FramePastTerm(place(64))));
    assert_eq!(broken(64, 5).tally(64, 64), Ok(tally(0, 0, 0, 0, 64, Stop::Reached)));
    assert_eq!(broken(64, 64).tally(64, 96), Ok(tally(0, 0, 0, 0, 64, Stop::OtherTerm)));
}

#[test]
fn order_and_distance_come_first_and_then_the_positions() {
    let log = log();
    for (from, to) in [(32, 0), (8, 7), (0, 3 * END + 1), (i64::MIN, i64::MAX), (-1, 3 * END)] {
        assert_eq!(log.tally(from, to), Err(Error::IllegalArgument), "{from} {to}");
    }
    let greatest = END << 31;
    for (from, to) in [(8, 8), (0, 8), (-32, 0), (greatest, greatest + 32), (8, 8 + 3 * END), (i64::MIN, i64::MIN)] {
        assert_eq!(log.tally(from, to), Err(Error::PositionOutOfRange), "{from} {to}");
    }
    assert_eq!(log.tally(greatest, greatest).unwrap().stop, Stop::Reached);
    assert_eq!(log.tally(32, 32 + 3 * END).unwrap().stop, Stop::Free);
}

#[test]
fn it_prints_as_a_table() {
    let printed = mixed().tally(0, END).unwrap().to_string();
    let rows: Vec<_> = printed.lines().collect();
    assert_eq!(rows[0], "body                105");
    assert_eq!(rows[4], "together            352");
    assert_eq!(rows[5], "ended at position 352: a frame of 42 bytes being written");
    assert!(rows[..5].iter().all(|row| row.len() == 23));

    let printed = mixed().tally_by_partition(0, END).unwrap().to_string();
    let rows: Vec<_> = printed.lines().collect();
    assert_eq!(rows[1], "0                   105           96           55           96");
    assert_eq!(rows[4].replace("together", "0       "), rows[1]);
    assert_eq!(rows[5], "ended at position 352: a frame of 42 bytes being written");
    assert!(rows[..5].iter().all(|row| row.len() == 62));
}
