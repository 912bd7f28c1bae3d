//! A log goes from thread to thread, and threads that write share one behind a lock.

mod common;

use common::log;
use logbuffer::{Assembler, Error, Log, OpenClaim, Poller, Reader};
use std::sync::Mutex;
use std::thread;

#[test]
fn all_owned_values_are_send_and_sync() {
    fn check<T: Send + Sync + 'static>() {}
    check::<Log>();
    check::<OpenClaim>();
    check::<Poller>();
    check::<Reader>();
    check::<Assembler>();
    check::<Error>();
}

#[test]
fn a_log_is_handed_over_with_an_open_claim() {
    let mut log = log();
    let open = log.try_claim(4).unwrap().into_open();
    let log = thread::spawn(move || {
        log.commit(open).unwrap();
        log
    });
    assert_eq!(log.join().unwrap().count().unwrap().messages, 1);
}

#[test]
fn writers_behind_a_lock_lose_nothing() {
    let shared = Mutex::new(log());
    thread::scope(|scope| {
        for writer in 0..4u8 {
            let shared = &shared;
            scope.spawn(move || {
                for n in 0..100 {
                    shared.lock().unwrap().offer(&[writer, n]).unwrap();
                }
            });
        }
    });
    let log = shared.into_inner().unwrap();
    let messages: Vec<_> = log.replay().map(Result::unwrap).collect();
    assert_eq!(messages.len(), 400);
    for writer in 0..4 {
        let own: Vec<_> = messages.iter().filter(|message| message[0] == writer).map(|message| message[1]).collect();
        assert_eq!(own, (0..100).collect::<Vec<_>>());
    }
}
