//! Seasons of many terms: registered readers that lag behind each other, claims committed and aborted, and every message once for each of them.

mod common;

use common::{log, Random, TERM};
use logbuffer::{Assembler, Error, Log, Reader};
use std::collections::VecDeque;

/// A reader and the messages that it has not met yet.
struct Station {
    reader: Reader,
    waiting: VecDeque<Vec<u8>>,
    met: usize,
}

impl Station {
    fn read(&mut self, log: &Log) -> usize {
        let (waiting, met) = (&mut self.waiting, &mut self.met);
        let read = self.reader.messages(log, |message| {
            assert_eq!(waiting.pop_front().as_deref(), Some(message));
            *met += 1;
        });
        read.unwrap()
    }
}

fn opened(seed: u64, stations: usize) -> (Log, Random, Vec<Station>) {
    let mut random = Random(seed);
    let initial_term_id = [0, 7, i32::MIN, i32::MAX - 2][random.below(4)];
    let mtu_length = [64, 96, 1_408, 8_192][random.below(4)];
    let mut log = Log::builder().term_length(TERM).mtu_length(mtu_length).initial_term_id(initial_term_id).open().unwrap();
    let readers: Vec<_> = (0..stations).map(|_| log.register_reader(0).unwrap()).collect();
    let stations = readers.into_iter().map(|reader| Station { reader, waiting: VecDeque::new(), met: 0 }).collect();
    (log, random, stations)
}

/// A message offered or claimed. Pressed back, some station reads on; all of them do in the end.
fn write(log: &mut Log, random: &mut Random, stations: &mut [Station]) {
    let most = [40, 400, log.max_message_length().min(4_000)][random.below(3)];
    let message = random.message(most);
    let is_claimed = message.len() <= log.max_payload_length() && random.below(3) == 0;
    loop {
        let answer = match is_claimed {
            true => log.try_claim(message.len()).and_then(|mut claim| {
                claim.copy_from_slice(&message);
                claim.commit()
            }),
            false => log.append(&message),
        };
        match answer {
            Ok(_) => break,
            Err(Error::AdminAction) if is_claimed => {}
            Err(Error::BackPressured) => {
                let station = random.below(stations.len());
                stations[station].read(log);
            }
            Err(error) => panic!("{error:?}"),
        }
        log.housekeep().unwrap();
    }
    for station in stations {
        station.waiting.push_back(message.clone());
    }
}

#[test]
fn every_reader_meets_every_message_once() {
    for seed in 0..30 {
        let (mut log, mut random, mut stations) = opened(seed, 3);
        let mut written = 0;
        while log.record().active_term_count < 12 {
            write(&mut log, &mut random, &mut stations);
            written += 1;
            if random.below(50) == 0 {
                log.try_claim(random.below(30)).map(drop).ok(); // aborted, or refused for the term's end or the limit
                log.housekeep().unwrap();
            }
            if random.below(20) == 0 {
                let station = random.below(3);
                stations[station].read(&log);
            }
        }
        for station in &mut stations {
            station.read(&log);
            assert_eq!((station.met, station.waiting.len()), (written, 0));
            assert_eq!(Ok(station.reader.position()), log.position());
        }
    }
}

#[test]
fn polls_and_replays_from_where_a_reader_stands_agree() {
    let (mut log, mut random, mut stations) = opened(99, 1);
    let mut poller = log.poller(0);
    let mut assembler = Assembler::new(&log);
    while log.record().active_term_count < 15 {
        let start = poller.position();
        for _ in 0..random.below(30) {
            write(&mut log, &mut random, &mut stations);
        }
        let replayed: Vec<_> = log.replay_from(start).map(Result::unwrap).collect();
        let count = log.count_from(start).unwrap();
        assert_eq!((count.messages, count.bytes), (replayed.len(), replayed.iter().map(Vec::len).sum()));
        let (mut replay, mut batched) = (log.replay_from(start), Vec::new());
        while let Some(batch) = replay.next_batch(5) {
            batched.extend(batch.unwrap().map(<[u8]>::to_vec));
        }
        assert_eq!(batched, replayed);
        let mut polled = Vec::new();
        for fragment in poller.fragments(&log) {
            polled.extend(assembler.on_fragment(&log, &fragment.unwrap()).unwrap().map(<[u8]>::to_vec));
        }
        assert_eq!(polled, replayed);
        stations[0].read(&log);
        log.housekeep().unwrap();
    }
}

#[test]
fn a_reader_holds_the_log_back_until_it_reads_or_goes() {
    let mut log = Log::builder().term_length(TERM).open().unwrap();
    let (mut fast, slow) = (log.register_reader(0).unwrap(), log.register_reader(0).unwrap());
    while log.append(&[1; 1_000]).is_ok() {}
    fast.messages(&log, |_| ()).unwrap();
    assert_eq!(log.append(&[1; 1_000]), Err(Error::BackPressured));
    assert_eq!((log.record().slowest_position, log.position()), (0, Ok(2 * i64::from(TERM))));
    drop(slow);
    assert!(log.append(&[1; 1_000]).is_ok());
    assert_eq!(log.record().slowest_position, 2 * i64::from(TERM));
}

#[test]
fn a_poll_of_one_fragment_moves_the_place_that_the_log_keeps() {
    let mut log = log();
    let mut reader = log.register_reader(0).unwrap();
    log.offer(b"coin").unwrap();
    log.offer(b"pin").unwrap();
    assert_eq!(reader.poll(&log, 1, |_| ()), Ok(1));
    log.housekeep().unwrap();
    assert_eq!((reader.position(), log.record().slowest_position), (64, 64));
    let late = log.register_reader(0);
    assert_eq!(late.err(), Some(Error::NewPositionOutOfRange));
    assert_eq!(log.register_reader(160).err(), Some(Error::NewPositionOutOfRange)); // past the publisher's
    assert!(log.register_reader(64).is_ok());
}

#[test]
fn a_reader_is_of_one_log() {
    let (mut one, other) = (log(), log());
    let mut reader = one.register_reader(0).unwrap();
    assert_eq!(reader.poll(&other, 1, |_| ()), Err(Error::IllegalArgument));
    assert_eq!(reader.messages(&other, |_| ()), Err(Error::IllegalArgument));
    assert_eq!(reader.messages(&one, |_| ()), Ok(0));
}

#[test]
fn a_season_goes_on_in_a_log_made_of_parts() {
    let mut log = Log::builder().term_length(TERM).open().unwrap();
    let mut reader = log.register_reader(0).unwrap();
    let mut met = 0;
    for n in 0..2_000u32 {
        while log.append(&[n.to_le_bytes(); 50].concat()).is_err() {
            met += reader.messages(&log, |_| ()).unwrap();
        }
    }
    let place = reader.position();
    let (record, bytes) = log.into_parts();
    let mut log = Log::from_parts(record, bytes).unwrap();
    assert_eq!(reader.messages(&log, |_| ()), Err(Error::IllegalArgument)); // the log made of parts does not know it
    let mut reader = log.register_reader(place).unwrap();
    met += reader.messages(&log, |_| ()).unwrap();
    assert_eq!((met, reader.position()), (2_000, log.position().unwrap()));
    assert!(log.record().active_term_count > 5);
}

#[test]
fn an_open_claim_holds_readers_and_so_the_log() {
    let mut log = Log::builder().term_length(TERM).open().unwrap();
    let mut reader = log.register_reader(0).unwrap();
    log.append(b"coin").unwrap();
    let open = log.try_claim(10).unwrap().into_open();
    while log.append(&[1; 1_000]).is_ok() {}
    assert_eq!(reader.messages(&log, |message| assert_eq!(message, b"coin")), Ok(1));
    assert_eq!((reader.position(), log.append(&[1; 1_000])), (64, Err(Error::BackPressured)));
    log.commit(open).unwrap();
    assert!(reader.messages(&log, |_| ()).unwrap() > 1);
    assert!(log.append(&[1; 1_000]).is_ok());
}
