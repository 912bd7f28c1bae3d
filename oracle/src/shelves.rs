//! Finished terms on the shelf of the port, through include/logbuffer.h, held against a second reading of "R-13. Finished terms on the
//! shelf" of document 02.
//!
//!   shelves [--terms N] [--seed S] [--large]
//!
//! Lays N terms (2,000) on the shelf: full of random frames, damaged in one place, or random bytes, in any partition, with sound and broken
//! records and outputs of every kind of length. What was laid is taken back, as it is and damaged in one place: count, length, any other
//! byte, size. Whatever is accepted, damaged or not, is laid again and must give the same bytes. Compared: number, every byte of the
//! output and the margins around it. --large adds slices of 2147483647 bytes and one more. Prints what was met and `0 differences`, or the
//! first difference, and then ends with 1.

use std::collections::BTreeMap;

#[repr(C)]
#[derive(Clone, Copy, Debug)]
struct Record {
    tails: [i64; 3],
    active_term_count: i32,
    initial_term_id: i32,
    term_length: i32,
    mtu_length: i32,
    session_id: i32,
    stream_id: i32,
    is_connected: i32,
    publication_limit: i64,
    end_of_stream_position: i64,
    is_closed: bool,
    slowest_position: i64,
    cleared_marks: u64,
    /// Transports and page size, then the correlation id.
    section: [i32; 2],
    correlation_id: i64,
}

extern "C" {
    fn logbuffer_shelve(rec: *const Record, log: *const u8, n: usize, partition: i32, out: *mut u8, m: usize) -> i32;
    fn logbuffer_unshelve(rec: *const Record, shelf: *const u8, n: usize, out: *mut u8, m: usize) -> i32;
}

fn port_shelve(rec: Record, log: &[u8], partition: i32, out: &mut [u8]) -> i32 {
    unsafe { logbuffer_shelve(&rec, log.as_ptr(), log.len(), partition, out.as_mut_ptr(), out.len()) }
}

fn port_unshelve(rec: Record, shelf: &[u8], out: &mut [u8]) -> i32 {
    unsafe { logbuffer_unshelve(&rec, shelf.as_ptr(), shelf.len(), out.as_mut_ptr(), out.len()) }
}

/// 01's ranges of a record, read a second time; the tail is the active partition's.
fn is_sound(rec: &Record) -> bool {
    let is_term = rec.term_length.count_ones() == 1 && (65_536..=1 << 30).contains(&rec.term_length);
    let is_mtu = (64..=65_504).contains(&rec.mtu_length) && rec.mtu_length % 32 == 0;
    let is_tail = |count: usize| {
        let offset = rec.tails[count % 3] as u32;
        offset % 32 == 0 && offset <= i32::MAX as u32
    };
    is_term
        && is_mtu
        && (0..=1i64 << 62).contains(&rec.publication_limit)
        && (0..=i64::from(rec.term_length) << 31).contains(&rec.slowest_position)
        && rec.slowest_position % 32 == 0
        && usize::try_from(rec.active_term_count).is_ok_and(is_tail)
}

/// The whole frames of a term, each with its slack; none where they do not reach its end.
fn frames(term: &[u8]) -> Option<Vec<&[u8]>> {
    let (mut rest, mut frames) = (term, Vec::new());
    while !rest.is_empty() {
        let length = i32::from_le_bytes(*rest.first_chunk::<4>()?);
        let size = usize::try_from(length).ok().filter(|n| *n >= 32)?.next_multiple_of(32);
        let (frame, others) = rest.split_at_checked(size)?;
        frames.push(frame);
        rest = others;
    }
    Some(frames)
}

/// 02 read a second time: the shelf of a term; none is 26.
fn shelf_of(term: &[u8]) -> Option<Vec<u8>> {
    let frames = frames(term)?;
    let mut shelf = (frames.len() as u32).to_le_bytes().to_vec();
    for b in 0..32 {
        shelf.extend(frames.iter().map(|frame| frame[b]));
    }
    frames.iter().for_each(|frame| shelf.extend_from_slice(&frame[32..]));
    Some(shelf)
}

/// The term of so many bytes that a shelf came from: rebuilt without asking, and then laid on the shelf again; none is 26.
fn term_of(shelf: &[u8], term_length: usize) -> Option<Vec<u8>> {
    let (count, rest) = shelf.split_first_chunk::<4>()?;
    let n = u32::from_le_bytes(*count) as usize;
    let (columns, mut bodies) = rest.split_at_checked(32 * n)?;
    let mut term = Vec::new();
    for k in 0..n {
        let header: Vec<u8> = (0..32).map(|b| columns[b * n + k]).collect();
        let length = u32::from_le_bytes(*header.first_chunk::<4>()?) as usize;
        let (body, others) = bodies.split_at_checked(length.next_multiple_of(32).checked_sub(32)?)?;
        term.extend(header);
        term.extend_from_slice(body);
        bodies = others;
    }
    (term.len() == term_length && shelf_of(&term)? == shelf).then_some(term)
}

/// How often each outcome was met.
#[derive(Default)]
struct Table {
    met: BTreeMap<String, u64>,
}

impl Table {
    fn count(&mut self, what: String) {
        *self.met.entry(what).or_default() += 1;
    }
}

const MARGIN: usize = 16;
const FILL: u8 = 0xa7;

/// Runs a call of the port into `room` bytes between margins; answers its number and the output, which holds what the second reading says.
fn into(room: usize, should: Result<Vec<u8>, i32>, call: impl FnOnce(&mut [u8]) -> i32) -> Result<(i32, Vec<u8>), String> {
    let mut block = vec![FILL; room + 2 * MARGIN];
    let number = call(&mut block[MARGIN..MARGIN + room]);
    let mut expected = vec![FILL; room + 2 * MARGIN];
    if let Ok(bytes) = &should {
        expected[MARGIN..MARGIN + room].copy_from_slice(bytes);
    }
    let by_02 = should.err().unwrap_or(0);
    if number != by_02 {
        return Err(format!("{number}, by 02 {by_02}"));
    }
    if block != expected {
        let at = (0..block.len()).find(|i| block[*i] != expected[*i]);
        return Err(format!("{number}, and byte {at:?} of the output is another, margins of {MARGIN} counted"));
    }
    Ok((number, block[MARGIN..MARGIN + room].to_vec()))
}

fn compare_shelve(rec: Record, log: &[u8], partition: i32, room: usize, table: &mut Table) -> Result<Option<Vec<u8>>, String> {
    let length = i64::from(rec.term_length);
    let is_good = (0..3).contains(&partition) && room as i64 == length + 4;
    let should = match (is_good, is_sound(&rec) && log.len() as i64 == 3 * length) {
        (false, _) => Err(1),
        (_, false) => Err(2),
        _ => shelf_of(&log[partition as usize * length as usize..][..length as usize]).ok_or(26),
    };
    let (number, out) = into(room, should, |out| port_shelve(rec, log, partition, out))
        .map_err(|what| format!("shelve of partition {partition}, output of {room}, {rec:?}: {what}"))?;
    table.count(format!("shelve {number}"));
    Ok((number == 0).then_some(out))
}

fn compare_unshelve(rec: Record, shelf: &[u8], room: usize, table: &mut Table) -> Result<Option<Vec<u8>>, String> {
    let should = match (room as i64 == i64::from(rec.term_length), is_sound(&rec)) {
        (false, _) => Err(1),
        (_, false) => Err(2),
        _ => term_of(shelf, room).ok_or(26),
    };
    let (number, out) = into(room, should, |out| port_unshelve(rec, shelf, out))
        .map_err(|what| format!("unshelve of {}, output of {room}, {rec:?}: {what}", shelf.len()))?;
    table.count(format!("unshelve {number}"));
    Ok((number == 0).then_some(out))
}

struct Random(u64);

impl Random {
    /// splitmix64
    fn next(&mut self) -> u64 {
        self.0 = self.0.wrapping_add(0x9e37_79b9_7f4a_7c15);
        let mut z = self.0;
        z = (z ^ (z >> 30)).wrapping_mul(0xbf58_476d_1ce4_e5b9);
        z = (z ^ (z >> 27)).wrapping_mul(0x94d0_49bb_1331_11eb);
        z ^ (z >> 31)
    }

    fn below(&mut self, n: usize) -> usize {
        (self.next() % n as u64) as usize
    }

    fn fill(&mut self, bytes: &mut [u8]) {
        bytes.chunks_mut(8).for_each(|chunk| chunk.copy_from_slice(&self.next().to_le_bytes()[..chunk.len()]));
    }

    /// Random bytes with lengths laid over them, so that frames reach the end: short ones, long ones, or both.
    fn fill_term(&mut self, term: &mut [u8]) {
        self.fill(term);
        let (mut at, longest) = (0, [32, 64, 200, 2_000, 70_000][self.below(5)]);
        while at < term.len() {
            let body = if self.below(4) == 0 { 0 } else { self.below(longest) };
            let length = (32 + body).min(term.len() - at);
            term[at..at + 4].copy_from_slice(&(length as i32).to_le_bytes());
            at += length.next_multiple_of(32);
        }
    }

    /// A length that is none, or another one, at the start of some frame.
    fn damage_term(&mut self, term: &mut [u8]) {
        let starts: Vec<usize> = frames(term).map_or(vec![0], |frames| {
            frames.iter().scan(0, |at, frame| Some(std::mem::replace(at, *at + frame.len()))).collect()
        });
        let at = starts[self.below(starts.len())];
        let was = i32::from_le_bytes(*term[at..].first_chunk().unwrap());
        let others = [0, 1, 31, 32, was - 1, was - 32, was + 1, was + 32, -was, i32::MIN, i32::MAX, term.len() as i32 + 1];
        term[at..at + 4].copy_from_slice(&others[self.below(others.len())].to_le_bytes());
    }

    /// Another count, length, byte or size.
    fn damage_shelf(&mut self, shelf: &mut Vec<u8>) {
        let n = u32::from_le_bytes(*shelf.first_chunk().unwrap());
        let at = self.below(shelf.len());
        match self.below(8) {
            0 => drop(shelf.pop()),
            1 => shelf.push(self.next() as u8),
            2 => shelf.truncate(at),
            3 => shelf[..4]
                .copy_from_slice(&[0, n - 1, n + 1, n | 1 << 31, u32::MAX, self.next() as u32][self.below(6)].to_le_bytes()),
            4 => self.fill(shelf),
            5 => shelf[at] = self.next() as u8,
            // a byte of some length word, by one bit or by any
            6 => shelf[4 + at % (4 * n as usize)] ^= 1 << self.below(8),
            _ => shelf[4 + at % (4 * n as usize)] = self.next() as u8,
        }
    }

    /// Sound but for one number in eight.
    fn record(&mut self, term_length: i32) -> Record {
        let mut rec = Record {
            tails: [0, 1, 2].map(|_| (self.next() << 32 | self.next() >> 33 & !31) as i64),
            active_term_count: self.below(1 << 31) as i32,
            initial_term_id: self.next() as i32 & i32::MAX,
            term_length,
            mtu_length: 64 + 32 * self.below(2_000) as i32,
            session_id: self.next() as i32,
            stream_id: self.next() as i32,
            is_connected: self.next() as i32,
            publication_limit: (self.next() >> 2) as i64,
            end_of_stream_position: self.next() as i64,
            is_closed: self.below(2) == 1,
            slowest_position: (self.next() >> 18 & !31) as i64, // below 65,536 * 2^31
            cleared_marks: self.next(),
            section: [4_096; 2],
            correlation_id: 1_926,
        };
        match self.below(64) {
            0 => rec.mtu_length += 1,
            1 => rec.mtu_length = [0, 32, 65_536, -64][self.below(4)],
            2 => rec.initial_term_id = i32::MIN + self.below(4) as i32,
            3 => rec.active_term_count = -1 - self.below(3) as i32,
            4 => rec.publication_limit = [-1, (1 << 62) + 1][self.below(2)],
            5 => rec.tails[rec.active_term_count as usize % 3] ^= [1, 16, 1 << 31][self.below(3)],
            6 => rec.term_length = [-4, -1, 0, 32_768, 65_537, 98_304, i32::MAX, i32::MIN][self.below(8)],
            7 => rec.term_length *= 2,
            8 => rec.slowest_position = [-32, 8, (i64::from(term_length) << 31) + 32, i64::MIN, i64::MAX][self.below(5)],
            _ => {}
        }
        rec
    }

    /// Mostly `length`, at times another one near it or none.
    fn room(&mut self, length: i64) -> usize {
        let others = [length - 1, length + 1, length - 4, length + 4, 0, 3];
        let room = if self.below(16) == 0 { others[self.below(6)] } else { length };
        room.clamp(0, 1 << 21) as usize
    }
}

/// One term there and back, and its shelf damaged.
fn term(random: &mut Random, table: &mut Table) -> Result<(), String> {
    let length = [65_536, 65_536, 65_536, 131_072, 1 << 20][random.below(5)];
    let (mut log, partition) = (vec![0; 3 * length], random.below(3));
    let place = partition * length..(partition + 1) * length;
    match random.below(16) {
        0 => random.fill(&mut log),
        1 => random.fill(&mut log[place.clone()]),
        _ => random.fill_term(&mut log[place.clone()]),
    }
    if random.below(4) == 0 {
        random.damage_term(&mut log[place.clone()]);
    }
    let rec = random.record(length as i32);
    let asked = if random.below(32) == 0 { [-1, 3, i32::MIN, i32::MAX][random.below(4)] } else { partition as i32 };
    let lent = match random.below(64) {
        0 => &log[1..],
        1 => &log[random.below(length)..],
        _ => &log[..],
    };
    let room = random.room(i64::from(rec.term_length) + 4);
    let Some(shelf) = compare_shelve(rec, lent, asked, room, table)? else { return Ok(()) };
    let back = compare_unshelve(rec, &shelf, length, table)?;
    if back.as_deref() != Some(&log[place]) {
        return Err("what was laid did not come back".to_owned());
    }
    let (mut damaged, other) = (shelf, random.record(length as i32));
    random.damage_shelf(&mut damaged);
    let room = random.room(i64::from(other.term_length));
    let Some(taken) = compare_unshelve(other, &damaged, room, table)? else { return Ok(()) };
    table.count("unshelve 0 of a damaged shelf".to_owned());
    log[..length].copy_from_slice(&taken);
    let again = compare_shelve(rec, &log, 0, length + 4, table)?;
    if again != Some(damaged) {
        return Err("what was taken back is not laid as it was".to_owned());
    }
    Ok(())
}

/// 2147483647 is the longest slice, and one more is 1 before anything else, a broken record too.
fn large() -> Result<(), String> {
    const MOST: usize = 2_147_483_647;
    let mut zeros = vec![0u8; MOST + 1];
    let sound = Record { term_length: 65_536, mtu_length: 64, tails: [0; 3], ..Random(1).record(0) };
    let broken = Record { mtu_length: 0, ..sound };
    let most = Record { term_length: i32::MAX, ..sound };
    let answers = [
        port_unshelve(sound, &zeros[..MOST], &mut [0; 65_536]),
        port_unshelve(sound, &zeros, &mut [0; 65_536]),
        port_unshelve(broken, &zeros, &mut [0; 65_536]),
        port_unshelve(most, &[], &mut zeros[..MOST]),
        port_unshelve(most, &[], &mut zeros),
        port_shelve(Record { term_length: i32::MAX - 4, ..sound }, &[], 0, &mut zeros[..MOST]),
        port_shelve(Record { term_length: i32::MAX - 3, ..sound }, &[], 0, &mut zeros),
    ];
    let should = [26, 1, 1, 2, 1, 2, 1];
    if answers != should {
        return Err(format!("large slices: {answers:?}, by 02 {should:?}"));
    }
    println!("slices of 2147483647 and one more as 02 says");
    Ok(())
}

fn run(terms: u64, seed: u64, is_large: bool) -> Result<(), String> {
    let (mut table, mut random) = (Table::default(), Random(seed));
    for k in 0..terms {
        term(&mut random, &mut table).map_err(|what| format!("term {k}: {what}"))?;
    }
    table.met.iter().for_each(|(what, n)| println!("{what}: {n}"));
    if is_large {
        large()?;
    }
    println!("{terms} terms on the shelf and back from seed {seed}, 0 differences");
    Ok(())
}

fn main() {
    let mut arguments = std::env::args().skip(1);
    let (mut terms, mut seed, mut is_large) = (2_000, 1, false);
    while let Some(argument) = arguments.next() {
        let mut number = || arguments.next().and_then(|text| text.parse().ok()).expect("a number after the option");
        match argument.as_str() {
            "--terms" => terms = number(),
            "--seed" => seed = number(),
            "--large" => is_large = true,
            _ => panic!("shelves [--terms N] [--seed S] [--large]"),
        }
    }
    if let Err(what) = run(terms, seed, is_large) {
        println!("a difference: {what}");
        std::process::exit(1);
    }
}
