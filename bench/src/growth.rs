//! Cost as the work grows: rows that are the same work for each unit, over more of it. Each should be flat, on both sides.

use aeron_rs::concurrent::atomic_buffer::AtomicBuffer;
use aeron_rs::concurrent::logbuffer::header::Header;
use aeron_rs::utils::types::Index;

use crate::{filled, offers, original, over_terms, port, replayed, row, MTU};

/// A log of such a length, whole messages of 1,024 bytes in it.
fn replays_of(megabytes: usize) {
    let count = megabytes * 1_000_000 / 1_056;
    let (log, ours) = filled(64 << 20, 1_024, count);
    let (mut buffer, mut numbers) = (vec![0; 16 << 20], vec![0; 4 * 256]);
    assert_eq!(replayed(&log, 256, 1 << 20), ours.batch_all(&mut buffer, &mut numbers));
    let name = format!("replay of {megabytes} MB, batches of 256, a message of 1024");
    row(&name, count, || replayed(&log, 256, 1 << 20), || ours.batch_all(&mut buffer, &mut numbers));
}

/// As many logs as sessions, polled in turns, 10 fragments a poll; as many fragments in all.
fn polls_of(sessions: usize) {
    let count = 64_000 / sessions;
    let logs: Vec<_> = (0..sessions).map(|_| filled(8 << 20, 64, count)).collect();
    let mut entries = vec![0; 20];
    let read = || {
        let mut images: Vec<_> = logs.iter().map(|(log, _)| log.image(0)).collect();
        let (mut fragments, mut before) = (0, usize::MAX);
        while before != fragments {
            before = fragments;
            for (image, _) in &mut images {
                fragments += image.poll(&mut |_: &AtomicBuffer, _: Index, _: Index, _: &Header| {}, 10) as usize;
            }
        }
        fragments
    };
    let ours: Vec<_> = logs.iter().map(|(_, ours)| ours).collect();
    assert_eq!(read(), port::poll_in_turns(&ours, &mut entries, 10));
    let name = format!("poll of 64, limit 10, sessions in turns: {sessions}, a fragment");
    row(&name, sessions * count, read, || port::poll_in_turns(&ours, &mut entries, 10));
}

/// A frame with a body of so many bytes at a place of a log.
fn put_frame(log: &mut [u8], at: usize, body: usize, flags: u8, session: i32) {
    let frame = &mut log[at..at + 32 + body];
    frame[..4].copy_from_slice(&(32 + body as u32).to_le_bytes());
    frame[4..8].copy_from_slice(&[0, flags, 1, 0]);
    frame[8..12].copy_from_slice(&(at as u32).to_le_bytes());
    frame[12..16].copy_from_slice(&session.to_le_bytes());
    frame[16..20].copy_from_slice(&22i32.to_le_bytes());
    frame[20..24].copy_from_slice(&7i32.to_le_bytes());
    frame[32..].fill(5);
}

/// Messages of four fragments each, those of so many sessions interleaved. The last fragment is shorter, so that messages begin at every place of a page.
fn assembles(sessions: usize) {
    let (term, count, mut at) = (64 << 20, 8_000, 0);
    let log = original(term, MTU);
    let mut ours = over_terms(&log, term, MTU);
    for k in 0..4 * count {
        let part = k / sessions % 4;
        let body = [1_376, 1_376, 1_376, 1_344][part];
        put_frame(log.terms_mut(), at, body, [0x80, 0, 0, 0x40][part], 100 + (k % sessions) as i32);
        at += 32 + body;
    }
    ours.set_tail(at);
    let mut buffer = vec![0; 16 * 8_192];
    assert_eq!(replayed(&log, 256, 8_192), ours.count_all(&mut buffer));
    assert_eq!(ours.count_all(&mut buffer), (count, count * 5_472));
    let name = format!("assembling 4 fragments of 1376, the last of 1344, sessions interleaved: {sessions}, a message");
    row(&name, count, || replayed(&log, 256, 8_192), || ours.count_all(&mut buffer));
}

/// Messages in fragments of a log that the cache holds, many times over.
fn replays_in_cache(length: usize) {
    let count = 700_000 / length;
    let (log, ours) = filled(1 << 20, length, count);
    let mut buffer = vec![0; 32 * length];
    let read = || (0..40).map(|_| replayed(&log, 256, 2 * length as isize).0).sum::<usize>();
    let mut count_all = || (0..40).map(|_| ours.count_all(&mut buffer).0).sum::<usize>();
    assert_eq!(read(), count_all());
    row(&format!("replay of {length} in cache, counted, a message"), 40 * count, read, count_all);
}

pub fn rows() {
    for (name, term) in [("64 KiB", 64 << 10), ("16 MiB", 16 << 20), ("1 GiB", 1 << 30)] {
        offers(&format!("terms of {name}"), 64, term, MTU, 50_000);
    }
    offers("terms of 256 KiB", 1_024, 256 << 10, MTU, 20_000);
    offers("terms of 256 KiB", 8_192, 256 << 10, MTU, 4_000);
    replays_in_cache(8_192);
    [1, 10, 100].into_iter().for_each(replays_of);
    [1, 16].into_iter().for_each(polls_of);
    [1, 16].into_iter().for_each(assembles);
}
