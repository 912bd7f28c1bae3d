//! The metadata section: its places, both round trips, its refusals in their order, and three numbers that every call carries.

mod common;

use common::{log, Random, TERM};
use logbuffer::{Beside, Error, Log, Record};

const LENGTH: usize = Record::METADATA_LENGTH;

/// Where fields are, each with its size; 268 is the header length.
const FIELDS: [(usize, usize); 13] =
    [(0, 8), (8, 8), (16, 8), (24, 4), (128, 8), (136, 4), (140, 4), (256, 8), (264, 4), (268, 4), (272, 4), (276, 4), (280, 4)];

/// A log with the caller's numbers set, each another in every byte.
fn marked() -> Log {
    let mut log = log();
    log.set_active_transport_count(0x0c0b_0a09);
    log.set_page_size(i32::MIN + 0x0d_0e0f);
    log.set_correlation_id(-0x0102_0304_0506_0708);
    log
}

/// Random numbers in the record's ranges, and any in fields that have none.
fn record(random: &mut Random) -> Record {
    let term_length = 1 << (16 + random.below(15));
    Record {
        tails: [0; 3].map(|_| (random.next() << 32 | random.next() >> 33 & !31) as i64),
        active_term_count: random.below(1 << 31) as i32,
        initial_term_id: random.next() as i32,
        term_length,
        mtu_length: 64 + 32 * random.below(2_046) as i32,
        session_id: random.next() as i32,
        stream_id: random.next() as i32,
        is_connected: random.next() as i32,
        publication_limit: (random.next() >> 2) as i64,
        end_of_stream_position: random.next() as i64,
        is_closed: random.below(2) == 1,
        slowest_position: ((random.next() % (1 << 47)) & !31) as i64,
        cleared_marks: random.next() % 8,
        active_transport_count: random.next() as i32,
        page_size: random.next() as i32,
        correlation_id: random.next() as i64,
    }
}

#[test]
fn each_field_has_its_place_and_all_else_is_zero() {
    let mut random = Random(11);
    for _ in 0..1_000 {
        let r = record(&mut random);
        let section = r.metadata().unwrap();
        let mut wanted = [0; LENGTH];
        let longs =
            [(0, r.tails[0]), (8, r.tails[1]), (16, r.tails[2]), (128, r.end_of_stream_position), (256, r.correlation_id)];
        let ints = [
            (24, r.active_term_count),
            (136, r.is_connected),
            (140, r.active_transport_count),
            (264, r.initial_term_id),
            (268, 32),
            (272, r.mtu_length),
            (276, r.term_length),
            (280, r.page_size),
        ];
        longs.iter().for_each(|(at, n)| wanted[*at..at + 8].copy_from_slice(&n.to_le_bytes()));
        ints.iter().for_each(|(at, n)| wanted[*at..at + 4].copy_from_slice(&n.to_le_bytes()));
        assert_eq!(section, wanted);
    }
}

#[test]
fn a_record_that_is_written_is_read_back_and_a_section_that_is_read_is_written_back() {
    let mut random = Random(12);
    for _ in 0..1_000 {
        let (r, beside) = (record(&mut random), record(&mut random).beside());
        let section = r.metadata().unwrap();
        assert_eq!(Record::from_metadata(&section, r.beside()), Ok(r));
        // With other numbers beside it the section stays the same.
        let other = Record::from_metadata(&section, beside).unwrap();
        assert_eq!((other.metadata(), other.beside()), (Ok(section), beside));
    }
}

#[test]
fn illegal_metadata_25_for_another_size() {
    let log = marked();
    let section = log.record().metadata().unwrap();
    for length in [0, 1, 32, 284, 319, 321, 384, 4_096] {
        let mut out = vec![0xa7; length];
        assert_eq!(log.record().metadata_into(&mut out), Err(Error::IllegalMetadata), "{length}");
        assert!(out.iter().all(|byte| *byte == 0xa7));
        let mut bytes = section.to_vec();
        bytes.resize(length, 0);
        assert_eq!(Record::from_metadata(&bytes, log.record().beside()), Err(Error::IllegalMetadata), "{length}");
    }
}

#[test]
fn illegal_metadata_25_for_a_gap_byte_or_another_header_length() {
    let log = marked();
    let section = log.record().metadata().unwrap();
    let mut gaps = 0;
    for at in 0..LENGTH {
        let field = FIELDS.iter().find(|(start, size)| (*start..start + size).contains(&at));
        for bit in 0..8 {
            let mut other = section;
            other[at] ^= 1 << bit;
            let answer = Record::from_metadata(&other, log.record().beside());
            match field {
                None | Some((268, _)) => assert_eq!(answer, Err(Error::IllegalMetadata), "byte {at}, bit {bit}"),
                // A field's own change shows, or puts the record out of its ranges.
                Some(_) => assert!(answer.map_or_else(|error| error == Error::IllegalRecord, |r| r != *log.record())),
            }
        }
        gaps += usize::from(field.is_none());
    }
    assert_eq!(gaps, 100 + 112 + 36);
}

#[test]
fn illegal_record_2_comes_last() {
    let broken = Record { mtu_length: 65, ..*log().record() };
    assert_eq!(broken.metadata(), Err(Error::IllegalRecord));
    let mut out = [0xa7; 321];
    assert_eq!(broken.metadata_into(&mut out[..LENGTH]), Err(Error::IllegalRecord));
    assert_eq!(broken.metadata_into(&mut out), Err(Error::IllegalMetadata));
    assert_eq!(out, [0xa7; 321]);

    let (sound, beside) = (log().record().metadata().unwrap(), log().record().beside());
    let with = |at: usize, number: i32| {
        let mut section = sound;
        section[at..at + 4].copy_from_slice(&number.to_le_bytes());
        Record::from_metadata(&section, beside).err()
    };
    for (at, number) in [
        (0, 8),
        (0, i32::MIN),
        (24, -1),
        (272, 65),
        (272, 32),
        (272, 65_536),
        (276, 65_537),
        (276, 32_768),
        (276, 0),
        (276, i32::MIN),
    ] {
        assert_eq!(with(at, number), Some(Error::IllegalRecord), "{number} at {at}");
    }
    // No number of these is out of its range; page size 0 is what opening leaves.
    for at in [136, 140, 264, 280] {
        for number in [0, -1, 4_096, 4_097, i32::MIN, i32::MAX] {
            assert_eq!(with(at, number), None, "{number} at {at}");
        }
    }
    // Nor do the tails of partitions that are not active matter.
    assert_eq!((with(8, 8), with(16, 8)), (None, None));
    for given in [
        Beside { publication_limit: -1, ..beside },
        Beside { publication_limit: (1 << 62) + 1, ..beside },
        Beside { slowest_position: 33, ..beside },
        Beside { slowest_position: -32, ..beside },
        Beside { slowest_position: (i64::from(TERM) << 31) + 32, ..beside },
    ] {
        assert_eq!(Record::from_metadata(&sound, given), Err(Error::IllegalRecord));
        assert_eq!(Record::from_metadata(&sound[..319], given), Err(Error::IllegalMetadata));
    }
    let edge = Beside { publication_limit: 1 << 62, slowest_position: i64::from(TERM) << 31, ..beside };
    assert_eq!(Record::from_metadata(&sound, edge).map(|r| r.beside()), Ok(edge));
}

#[test]
#[ignore = "takes 2 GiB of address space"]
fn illegal_argument_1_for_more_than_2147483647_bytes() {
    let mut bytes = vec![0; 1 << 31];
    let broken = Record { mtu_length: 65, ..*log().record() };
    assert_eq!(broken.metadata_into(&mut bytes), Err(Error::IllegalArgument));
    assert_eq!(broken.metadata_into(&mut bytes[1..]), Err(Error::IllegalMetadata));
    assert_eq!(Record::from_metadata(&bytes, Beside::default()), Err(Error::IllegalArgument));
    assert_eq!(Record::from_metadata(&bytes[1..], Beside::default()), Err(Error::IllegalMetadata));
}

/// A fresh log's are 0; once set, no call changes them, through full terms, clearings and a close.
#[test]
fn every_call_carries_the_caller_s_numbers() {
    let mine = |log: &Log| (log.record().active_transport_count, log.record().page_size, log.record().correlation_id);
    assert_eq!(mine(&log()), (0, 0, 0));
    let mut log = marked();
    let set = mine(&log);
    let mut reader = log.register_reader(0).unwrap();
    let mut rotations = 0;
    while log.record().active_term_count < 7 {
        let before = log.record().active_term_count;
        match log.append(&[9; 700]) {
            Ok(_) => (),
            Err(Error::NotCleared) => drop(reader.messages(&log, |_| ()).unwrap()),
            Err(error) => panic!("{error}"),
        }
        rotations += log.record().active_term_count - before;
        assert_eq!(mine(&log), set);
    }
    assert!(rotations == 7 && log.record().slowest_position > 0);
    log.try_claim(9).unwrap().abort().unwrap();
    log.set_publication_limit(1 << 41).unwrap();
    log.close().unwrap();
    assert_eq!(log.offer(b"coin"), Err(Error::PublicationClosed));
    assert_eq!(mine(&log), set);
    // And a log of the section and the bytes is the same log.
    let (record, bytes) = log.into_parts();
    let again = Record::from_metadata(&record.metadata().unwrap(), record.beside()).unwrap();
    assert_eq!(again, record);
    assert!(Log::from_parts(again, bytes).unwrap().is_closed());
}
