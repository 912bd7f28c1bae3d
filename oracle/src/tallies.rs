//! Both tallies of the port, through include/logbuffer.h, held against a second reading of "R-1. Season tally" and "R-12. Tally in partition order" of
//! document 02.
//!
//!   tallies [--logs N] [--seed S]
//!
//! Makes N logs (1,000): frames of any length, data and padding, with the id of the term that a position gives, then up to a place where they break
//! off: free, being written, of another term, unsound, or the end. Some are random bytes. From each it asks 40 tallies between boundaries of frames and other
//! numbers, in order and not, near and far, up to the greatest position and past every end of 64 bits, with sound and broken records and logs, in stream order
//! and in partition order. Compared: number, place, the four sums, those of each partition, where the walk ended and why. Prints what was met and `0 differences`, or the first difference, and
//! then ends with 1.

use std::collections::BTreeMap;

#[repr(C)]
#[derive(Clone, Copy, Debug)]
struct Record {
    tails: [i64; 3],
    active_term_count: i32,
    initial_term_id: i32,
    term_length: i32,
    mtu_length: i32,
    session_id: i32,
    stream_id: i32,
    is_connected: i32,
    publication_limit: i64,
    end_of_stream_position: i64,
    is_closed: bool,
    slowest_position: i64,
    cleared_marks: u64,
    /// Transports and page size, then the correlation id.
    section: [i32; 2],
    correlation_id: i64,
}

#[repr(C)]
#[derive(Clone, Copy, Debug, Default, PartialEq, Eq)]
struct Reply {
    code: i32,
    stop: i32,
    position: i64,
    writing: usize,
    sums: [usize; 4],
}

#[repr(C)]
#[derive(Clone, Copy, Debug, Default, PartialEq, Eq)]
struct PartitionReply {
    all: Reply,
    partitions: [[usize; 4]; 3],
}

extern "C" {
    fn logbuffer_tally(rec: *const Record, log: *const u8, n: usize, from: i64, to: i64) -> Reply;
    fn logbuffer_tally_by_partition(rec: *const Record, log: *const u8, n: usize, from: i64, to: i64) -> PartitionReply;
}

fn port(rec: &Record, log: &[u8], from: i64, to: i64) -> (Reply, PartitionReply) {
    unsafe {
        (
            logbuffer_tally(rec, log.as_ptr(), log.len(), from, to),
            logbuffer_tally_by_partition(rec, log.as_ptr(), log.len(), from, to),
        )
    }
}

/// 01's ranges of a record and its log, as document 02 amends them, read a second time; the tail is the active partition's.
fn is_sound(rec: &Record, log: &[u8]) -> bool {
    let is_term = rec.term_length.count_ones() == 1 && (65_536..=1 << 30).contains(&rec.term_length);
    let is_mtu = (64..=65_504).contains(&rec.mtu_length) && rec.mtu_length % 32 == 0;
    let is_tail = |count: usize| {
        let offset = rec.tails[count % 3] as u32;
        offset % 32 == 0 && offset <= i32::MAX as u32
    };
    is_term
        && is_mtu
        && (0..=1i64 << 62).contains(&rec.publication_limit)
        && (0..=i64::from(rec.term_length) << 31).contains(&rec.slowest_position)
        && rec.slowest_position % 32 == 0
        && usize::try_from(rec.active_term_count).is_ok_and(is_tail)
        && log.len() as i64 == 3 * i64::from(rec.term_length)
}

/// What stands at a place of a term.
#[derive(Clone, Copy, Debug, PartialEq, Eq)]
enum Stands {
    Free,
    Writing(usize),
    Unsound(i32),
    Frame { length: usize, is_padding: bool, id: i32 },
}

fn stands(term: &[u8], offset: usize) -> Stands {
    let word = |at: usize| i32::from_le_bytes(term[offset + at..offset + at + 4].try_into().unwrap());
    let length = i64::from(word(0));
    match length {
        0 => Stands::Free,
        _ if length < 0 => Stands::Writing((-length) as usize),
        1..=31 => Stands::Unsound(22),
        _ if offset as i64 + (length + 31) / 32 * 32 > term.len() as i64 => Stands::Unsound(23),
        _ => Stands::Frame { length: length as usize, is_padding: term[offset + 6] == 0 && term[offset + 7] == 0, id: word(20) },
    }
}

/// The walk in stream order, which tells of each frame that it passes.
fn walk(rec: &Record, log: &[u8], from: i64, to: i64, mut passed: impl FnMut(i64, [usize; 4])) -> Reply {
    let (term_length, mut at, mut sums) = (i64::from(rec.term_length), from, [0; 4]);
    while at < to {
        let (count, offset) = (at / term_length, (at % term_length) as usize);
        let term = &log[(count % 3 * term_length) as usize..][..term_length as usize];
        let ended = |stop: i32, writing: usize| Reply { code: 0, stop, position: at, writing, sums };
        match stands(term, offset) {
            Stands::Unsound(code) if at == from => return Reply { code, position: offset as i64, ..Reply::default() },
            Stands::Unsound(_) => return ended(5, 0),
            Stands::Free => return ended(2, 0),
            Stands::Writing(size) => return ended(1, size),
            Stands::Frame { length, is_padding, id } => {
                let aligned = length.next_multiple_of(32);
                if id != rec.initial_term_id.wrapping_add(count as i32) {
                    return ended(3, 0);
                }
                if at + aligned as i64 > to {
                    return ended(4, 0);
                }
                let share = match is_padding {
                    true => [0, 0, 0, aligned],
                    false => [length - 32, 32, aligned - length, 0],
                };
                add(&mut sums, share);
                passed(at, share);
                at += aligned as i64;
            }
        }
    }
    Reply { code: 0, stop: 0, position: at, writing: 0, sums }
}

fn add(sums: &mut [usize; 4], share: [usize; 4]) {
    sums.iter_mut().zip(share).for_each(|(sum, more)| *sum += more);
}

/// 02 read a second time. In partition order it is read by its last sentence, which tells every answer by the frames that the stream order passed.
fn by_02(rec: &Record, log: &[u8], from: i64, to: i64) -> (Reply, PartitionReply) {
    let refused = |code: i32| {
        let reply = Reply { code, ..Reply::default() };
        (reply, PartitionReply { all: reply, ..PartitionReply::default() })
    };
    let length = i128::from(rec.term_length);
    if from > to || i128::from(to) - i128::from(from) > 3 * length {
        return refused(1);
    }
    if !is_sound(rec, log) {
        return refused(2);
    }
    let greatest = i64::from(rec.term_length) << 31;
    if [from, to].iter().any(|p| *p < 0 || *p > greatest || p % 32 != 0) {
        return refused(3);
    }
    let term_length = i64::from(rec.term_length);
    let mut partitions = [[0; 4]; 3];
    let all = walk(rec, log, from, to, |at, share| add(&mut partitions[(at / term_length % 3) as usize], share));
    // the term of the last byte between
    if from < to && (to - 1) / term_length - from / term_length > 2 {
        return (all, refused(1).1);
    }
    (all, PartitionReply { all, partitions })
}

struct Random(u64);

impl Random {
    /// splitmix64
    fn next(&mut self) -> u64 {
        self.0 = self.0.wrapping_add(0x9e37_79b9_7f4a_7c15);
        let mut z = self.0;
        z = (z ^ (z >> 30)).wrapping_mul(0xbf58_476d_1ce4_e5b9);
        z = (z ^ (z >> 27)).wrapping_mul(0x94d0_49bb_1331_11eb);
        z ^ (z >> 31)
    }

    fn below(&mut self, n: u64) -> u64 {
        self.next() % n
    }

    fn of<T: Copy>(&mut self, choice: &[T]) -> T {
        choice[self.below(choice.len() as u64) as usize]
    }

    fn fill(&mut self, bytes: &mut [u8]) {
        bytes.chunks_mut(8).for_each(|chunk| chunk.copy_from_slice(&self.next().to_le_bytes()[..chunk.len()]));
    }

    fn record(&mut self, term_length: i32) -> Record {
        Record {
            tails: [0, 1, 2].map(|_| (self.next() << 32 | self.next() >> 33 & !31) as i64),
            active_term_count: self.below(1 << 31) as i32,
            initial_term_id: self.of(&[7, 0, -1, i32::MAX, i32::MAX - 1, -2_147_483_646]),
            term_length,
            mtu_length: 64 + 32 * self.below(2_000) as i32,
            session_id: self.next() as i32,
            stream_id: self.next() as i32,
            is_connected: self.next() as i32,
            publication_limit: (self.next() >> 2) as i64,
            end_of_stream_position: self.next() as i64,
            is_closed: self.below(2) == 1,
            slowest_position: (self.next() >> 18 & !31) as i64, // below 65,536 * 2^31
            cleared_marks: self.next(),
            section: [4_096; 2],
            correlation_id: 1_926,
        }
    }

    fn damage_record(&mut self, rec: &mut Record) {
        match self.below(7) {
            0 => rec.mtu_length += 1,
            1 => rec.active_term_count = -1 - self.below(3) as i32,
            2 => rec.publication_limit = self.of(&[-1, (1 << 62) + 1]),
            3 => rec.tails[rec.active_term_count as usize % 3] ^= self.of(&[1, 16, 1 << 31]),
            4 => rec.term_length = self.of(&[-4, -1, 0, 32_768, 65_537, 98_304, i32::MAX, i32::MIN]),
            5 => rec.slowest_position = self.of(&[-32, 8, (i64::from(rec.term_length) << 31) + 32, i64::MIN, i64::MAX]),
            _ => rec.term_length *= 2,
        }
    }

    /// Frames from a position on, of terms with their own ids, for three terms or until they break off; answers their boundaries.
    fn write(&mut self, rec: &Record, log: &mut [u8], first: i64) -> Vec<i64> {
        let term_length = i64::from(rec.term_length);
        let (mut at, mut boundaries) = (first, vec![first]);
        let longest = self.of(&[1, 40, 300, 5_000, 40_000]);
        let end = (first / term_length + 3) * term_length;
        let breaks_off = self.below(2) == 0;
        while at < end {
            let (count, offset) = (at / term_length, at % term_length);
            let left = term_length - offset;
            let length = (32 + self.below(longest) as i64).min(left);
            let index = (count % 3 * term_length + offset) as usize;
            let id = rec.initial_term_id.wrapping_add(count as i32);
            let (mut word, mut shown) = (length as i32, id);
            let breaks = breaks_off && self.below(40) == 0;
            if breaks {
                match self.below(6) {
                    0 => word = -word,
                    1 => word = 0,
                    2 => word = 1 + self.below(31) as i32,
                    3 => word = (left + 1 + self.below(100) as i64) as i32,
                    4 => shown = shown.wrapping_add(self.of(&[1, -1, 3, -3, i32::MIN])),
                    _ => word = self.of(&[i32::MIN, i32::MAX, -1, -5]),
                }
            }
            log[index..index + 4].copy_from_slice(&word.to_le_bytes());
            let kind = self.of(&[0u16, 1, 1, 1, 2, 256]);
            log[index + 6..index + 8].copy_from_slice(&kind.to_le_bytes());
            log[index + 20..index + 24].copy_from_slice(&shown.to_le_bytes());
            at += (length + 31) / 32 * 32;
            boundaries.push(at);
            if breaks && self.below(2) == 0 {
                break;
            }
        }
        boundaries
    }
}

/// One log and its tallies.
fn log(random: &mut Random, met: &mut BTreeMap<String, u64>) -> Result<(), String> {
    let term_length = random.of(&[65_536, 65_536, 131_072]);
    let mut rec = random.record(term_length);
    let mut bytes = vec![0; 3 * term_length as usize];
    if random.below(8) == 0 {
        random.fill(&mut bytes);
    }
    let count = random.of(&[0, 0, 1, 2, 3, 5, 1 << 20, (1 << 31) - 3, (1 << 31) - 1]);
    let first = (count * i64::from(term_length) + 32 * random.below(2_048) as i64).min(i64::from(term_length) << 31);
    let boundaries = random.write(&rec, &mut bytes, first);
    if random.below(10) == 0 {
        random.damage_record(&mut rec);
    }
    for _ in 0..40 {
        let boundary = |random: &mut Random| random.of(&boundaries);
        let (mut from, mut to) = (if random.below(2) == 0 { first } else { boundary(random) }, boundary(random));
        match random.below(12) {
            0 => to = from + random.of(&[0, 32, -32, 1, 3 * i64::from(term_length), 3 * i64::from(term_length) + 32]),
            1 => from = random.of(&[i64::MIN, -32, -1, 8, i64::MAX, (i64::from(term_length) << 31) + 32]),
            2 => to = random.of(&[i64::MIN, -32, 8, i64::MAX, i64::from(term_length) << 31, (i64::from(term_length) << 31) + 32]),
            3 => to += 32,
            4 => (from, to) = (from.max(to), from.min(to)),
            _ => (from, to) = (from.min(to), from.max(to)),
        }
        let cut = if random.below(60) == 0 { random.below(40) as usize } else { 0 };
        let lent = &bytes[cut..];
        let (answer, should) = (port(&rec, lent, from, to), by_02(&rec, lent, from, to));
        if answer != should {
            return Err(format!("tally from {from} to {to}, {rec:?}, log of {}: {answer:?}, by 02 {should:?}", lent.len()));
        }
        let (stream, parts) = answer;
        let many = parts.partitions.iter().filter(|sums| **sums != [0; 4]).count();
        for (order, reply) in [(String::from("stream"), stream), (format!("partitions, frames in {many}"), parts.all)] {
            *met.entry(match reply.code {
                0 => format!("{order}: answered, stop {}{}", reply.stop, if reply.position == from { ", nothing passed" } else { "" }),
                code => format!("{}: refused {code}", order.split(',').next().unwrap_or_default()),
            })
            .or_default() += 1;
        }
    }
    Ok(())
}

fn main() {
    let mut arguments = std::env::args().skip(1);
    let (mut logs, mut seed) = (1_000, 1);
    while let Some(argument) = arguments.next() {
        let mut number = || arguments.next().and_then(|text| text.parse().ok()).expect("a number after the option");
        match argument.as_str() {
            "--logs" => logs = number(),
            "--seed" => seed = number(),
            _ => panic!("tallies [--logs N] [--seed S]"),
        }
    }
    let (mut met, mut random) = (BTreeMap::new(), Random(seed));
    for k in 0..logs {
        if let Err(what) = log(&mut random, &mut met) {
            println!("a difference in log {k}: {what}");
            std::process::exit(1);
        }
    }
    met.iter().for_each(|(what, n)| println!("{what}: {n}"));
    println!("{} tallies in each order of {logs} logs from seed {seed}, 0 differences", 40 * logs);
}
