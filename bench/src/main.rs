//! How long the port and the given Rust take for the same calls on the same inputs, in one run: a table of nanoseconds and ratios.
//! The two sides take turns, round by round; a row tells the medians of its rounds. With `--instructions` each side of a row is run once, in
//! `measured`, which run.sh has callgrind count. Read port.rs, growth.rs, limits.rs and shelves.rs next.

mod growth;
mod limits;
mod port;
mod shelves;

use std::hint::black_box;
use std::time::Instant;

use aeron_rs::concurrent::atomic_buffer::AtomicBuffer;
use aeron_rs::concurrent::logbuffer::buffer_claim::BufferClaim;
use aeron_rs::concurrent::logbuffer::header::Header;
use aeron_rs::concurrent::logbuffer::term_scan;
use aeron_rs::fragment_assembler::FragmentAssembler;
use aeron_rs::harness::{over, Log as Original};
use aeron_rs::utils::types::Index;

const TERM: i32 = 16 << 20;
const MTU: i32 = 1_408;
const ROUNDS: usize = 41;

fn original(term: i32, mtu: i32) -> Original {
    let log = Original::open(term, mtu, 7, 11, 22);
    log.limit.set_ordered(1 << 62);
    for k in 0..3 {
        log.term(k).set_memory(0, term, 0);
    }
    log
}

fn reserved(_: AtomicBuffer, _: Index, _: Index) -> i64 {
    0
}

fn timed<T>(run: impl FnOnce() -> T) -> f64 {
    let start = Instant::now();
    black_box(run());
    start.elapsed().as_nanos() as f64
}

fn median(times: &mut [f64]) -> f64 {
    times.sort_by(f64::total_cmp);
    times[times.len() / 2]
}

/// What callgrind counts; a function of its own, so that it finds it.
#[inline(never)]
fn measured(run: &mut dyn FnMut()) {
    run();
}

/// Times both sides in turns, each of them first in every other round, and prints the row, in nanoseconds for each of `units`.
fn row<A, B>(name: &str, units: usize, mut rust: impl FnMut() -> A, mut port: impl FnMut() -> B) {
    if std::env::args().any(|word| word == "--instructions") {
        measured(&mut || _ = black_box(rust()));
        measured(&mut || _ = black_box(port()));
        println!("{name}|{units}");
        return;
    }
    let (mut theirs, mut ours) = (Vec::new(), Vec::new());
    for round in 0..ROUNDS {
        if round % 2 == 0 {
            theirs.push(timed(&mut rust));
        }
        ours.push(timed(&mut port));
        if round % 2 == 1 {
            theirs.push(timed(&mut rust));
        }
    }
    let (a, b) = (median(&mut theirs) / units as f64, median(&mut ours) / units as f64);
    println!("| {name} | {a:.1} | {b:.1} | {:.2} |", b / a);
}

/// A log of the port's over the Rust's own memory.
fn over_terms(log: &Original, term: i32, mtu: i32) -> port::Log {
    port::Log::open(port::Memory::over(log.terms_mut()), term, mtu)
}

/// Which of two memories a side writes into: the other one in the next round, so that where a memory happens to lie speaks for neither side.
fn swapped(next: &mut usize) -> usize {
    *next = 1 - *next;
    *next
}

/// Where in a page a message begins: at another multiple of 64 in each round, for the same reason.
fn moved(from: &mut usize) -> usize {
    *from = (*from + 5 * 64) % 4_096;
    *from
}

/// Offers go through the three terms again and again; nothing is cleared in between, on either side (`Log::mark`).
fn offers(name: &str, length: usize, term: i32, mtu: i32, count: usize) {
    let (mut message, mut copy) = (port::Memory::zeroed(length + 4_096), port::Memory::zeroed(length + 4_096));
    message.fill(5);
    copy.fill(5);
    let logs = [original(term, mtu), original(term, mtu)];
    let publications = [logs[0].publication(), logs[1].publication()];
    let mut ours = [over_terms(&logs[0], term, mtu), over_terms(&logs[1], term, mtu)];
    let (mut theirs, mut mine, mut from, mut copied_from) = (1, 0, 0, 0);
    row(
        &format!("offer of {length}, {name}"),
        count,
        || {
            let publication = &publications[swapped(&mut theirs)];
            let message = &mut message[moved(&mut from)..][..length];
            (0..count).for_each(|_| _ = black_box(publication.offer_opt(over(message), 0, length as Index, reserved)))
        },
        || {
            let log = &mut ours[swapped(&mut mine)];
            let message = &copy[moved(&mut copied_from)..][..length];
            (0..count).for_each(|_| _ = black_box(log.offer(message)))
        },
    );
}

fn claims(count: usize) {
    let logs = [original(TERM, MTU), original(TERM, MTU)];
    let mut publications = [logs[0].publication(), logs[1].publication()];
    let mut ours = [over_terms(&logs[0], TERM, MTU), over_terms(&logs[1], TERM, MTU)];
    let (mut theirs, mut mine) = (1, 0);
    row(
        "claim of 64 and commit",
        count,
        || {
            let publication = &mut publications[swapped(&mut theirs)];
            for _ in 0..count {
                let mut claim = BufferClaim::default();
                if publication.try_claim(64, &mut claim).is_ok() {
                    claim.commit();
                }
            }
        },
        || {
            let log = &mut ours[swapped(&mut mine)];
            (0..count).for_each(|_| _ = log.claim_and_commit(64))
        },
    );
}

/// Both logs after the same offers into cleared memory; their bytes are equal, and both sides then read the Rust's.
fn filled(term: i32, length: usize, count: usize) -> (Original, port::Log) {
    let mut message = vec![5u8; length];
    let (log, mut ours) = (original(term, MTU), port::Log::open(port::Memory::zeroed(3 * term as usize), term, MTU));
    let publication = log.publication();
    for _ in 0..count {
        let _ = publication.offer_opt(over(&mut message), 0, length as Index, reserved);
        ours.offer(&message);
    }
    drop(publication);
    assert!(*log.terms() == *ours.bytes);
    ours.bytes = port::Memory::over(log.terms_mut());
    (log, ours)
}

fn polls(length: usize, limit: i32, count: usize) {
    let (log, ours) = filled(TERM, length, count);
    let mut entries = vec![0; 512];
    let read = || {
        let ((mut image, _place), mut fragments, mut sum) = (log.image(0), 0, 0);
        loop {
            let n = image.poll(&mut |_: &AtomicBuffer, offset: Index, length: Index, _: &Header| sum += (offset + length) as i64, limit);
            if n == 0 {
                return (fragments, sum);
            }
            fragments += n as usize;
        }
    };
    assert_eq!(read(), ours.poll_all(&mut entries, limit));
    row(&format!("poll of {length}, limit {limit}, a fragment"), read().0, read, || ours.poll_all(&mut entries, limit));
}

/// Messages and their bytes by polls of such a limit into the Rust's assembler, which clears so many bytes for each session that it meets.
fn replayed(log: &Original, limit: i32, initial: isize) -> (usize, usize) {
    let (mut messages, mut bytes) = (0, 0);
    {
        let mut delegate = |_: &AtomicBuffer, _: Index, length: Index, _: &Header| {
            messages += 1;
            bytes += length as usize;
        };
        let mut assembler = FragmentAssembler::new(&mut delegate, Some(initial));
        let mut handler = assembler.handler();
        let (mut image, _place) = log.image(0);
        // A poll may pass a term's padding alone and answer 0; behind it the next poll goes on.
        let mut zeros = 0;
        while zeros < 2 {
            zeros = if image.poll(&mut handler, limit) > 0 { 0 } else { zeros + 1 };
        }
    }
    (messages, bytes)
}

/// Like beside like: a message a call beside polls of one fragment, batches and a count beside polls of many; the Rust's all go into its
/// assembler.
fn replays(length: usize, count: usize) {
    let (log, ours) = filled(TERM, length, count);
    let mut buffer = vec![0; 16 << 20];
    let mut numbers = vec![0; 4 * 256];
    let read = |limit: i32| replayed(&log, limit, 1 << 20);
    assert_eq!(read(1), ours.replay_all(&mut buffer));
    assert_eq!(read(256), ours.batch_all(&mut buffer, &mut numbers));
    assert_eq!(read(256), ours.count_all(&mut buffer));
    row(&format!("replay of {length}, a message a call"), count, || read(1), || ours.replay_all(&mut buffer));
    row(&format!("replay of {length}, batches of 256"), count, || read(256), || ours.batch_all(&mut buffer, &mut numbers));
    row(&format!("replay of {length}, counted in one call"), count, || read(256), || ours.count_all(&mut buffer));
}

fn scans(count: usize) {
    let (log, ours) = filled(TERM, 64, count);
    let end = 96 * count as i32;
    row("scan, a frame", count, || term_scan::scan(&log.term(0), 0, end), || ours.scan(end));
    row("tally, beside a scan, a frame", count, || term_scan::scan(&log.term(0), 0, end), || ours.tally(end.into()));
    row("tally by partition, beside a scan, a frame", count, || term_scan::scan(&log.term(0), 0, end), || ours.tally_by_partition(end.into()));
    let available = || term_scan::scan_for_availability(&log.term(0), 0, end);
    row("scan_for_availability, a frame", count, available, || ours.scan_for_availability(end));
    let gap = || term_scan::scan_for_gap(&log.term(0), 7, 0, TERM, |_, _, _, _| {});
    row("scan_for_gap, frames and then zeros, a frame", count, gap, || ours.scan_for_gap(TERM));
}

/// The Rust has no opening; its side is `fill(0)`, a call of memset, over as much memory.
fn opening() {
    let mut memories = [port::Memory::zeroed(3 * TERM as usize), port::Memory::zeroed(3 * TERM as usize)];
    memories.iter_mut().for_each(|memory| memory.fill(1));
    let [first, second] = &mut memories;
    let mut ours = [port::Log::open(port::Memory::over(first), TERM, MTU), port::Log::open(port::Memory::over(second), TERM, MTU)];
    let (mut theirs, mut mine) = (1, 0);
    let fill = || {
        black_box(&mut *memories[swapped(&mut theirs)]).fill(0);
    };
    row("opening, beside memset, a KiB", 3 * TERM as usize / 1024, fill, || ours[swapped(&mut mine)].reopen(TERM, MTU));
}

fn main() {
    offers("mtu 1408", 0, TERM, MTU, 50_000);
    offers("mtu 1408", 64, TERM, MTU, 50_000);
    offers("mtu 1408", 1_024, TERM, MTU, 20_000);
    offers("mtu 1408", 8_192, TERM, MTU, 4_000);
    offers("mtu 65504", 8_192, TERM, 65_504, 4_000);
    offers("mtu 65504", 65_472, TERM, 65_504, 400);
    claims(50_000);
    polls(64, 1, 100_000);
    polls(64, 256, 100_000);
    polls(1_024, 1, 20_000);
    polls(1_024, 256, 20_000);
    replays(64, 100_000);
    replays(1_024, 20_000);
    replays(8_192, 4_000);
    scans(100_000);
    opening();
    growth::rows();
    limits::rows();
    shelves::rows();
}
