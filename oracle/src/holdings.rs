//! Which card holds, by the port, through include/logbuffer.h, held against a second reading of "R-9. Which card holds" of document 02.
//!
//!   holdings [--logs N] [--seed S]
//!
//! Makes N logs (1,000) of frames with the id of the term that a position gives: find cards of a few finds, whole and cut into frames, with other bytes, padding
//! and frames with any flags put between, over the ends of terms, up to a place where they break off or to the end of the third term. From each it asks 20 times
//! for the card that holds, of finds that are there and that are not, between boundaries of frames and other numbers, with sound and broken records and
//! logs. The second reading walks first and keeps all frames; it then tries every begin frame with the next end frame behind it, reads a card by
//! the format alone, and looks for each field from the last message back. Compared: every field of the reply. Prints what was met and
//! `0 differences`, or the first difference, and then ends with 1.

use std::collections::BTreeMap;

#[repr(C)]
#[derive(Clone, Copy, Debug)]
struct Record {
    tails: [i64; 3],
    active_term_count: i32,
    initial_term_id: i32,
    term_length: i32,
    mtu_length: i32,
    session_id: i32,
    stream_id: i32,
    is_connected: i32,
    publication_limit: i64,
    end_of_stream_position: i64,
    is_closed: bool,
    slowest_position: i64,
    cleared_marks: u64,
    /// Transports and page size, then the correlation id.
    section: [i32; 2],
    correlation_id: i64,
}

#[repr(C)]
#[derive(Clone, Copy, Debug, Default, PartialEq, Eq)]
struct Card {
    bits: u8,
    find: u32,
    trench: u16,
    context: u16,
    material: u8,
    weight: u32,
}

#[repr(C)]
#[derive(Clone, Copy, Debug, PartialEq, Eq)]
struct Reply {
    code: i32,
    stop: i32,
    position: i64,
    writing: usize,
    card: Card,
    ends: [usize; 6],
    note_length: usize,
    note: [u8; 255],
}

extern "C" {
    fn logbuffer_holding(rec: *const Record, log: *const u8, n: usize, find: u32, from: i64, to: i64) -> Reply;
}

fn port(rec: &Record, log: &[u8], find: u32, from: i64, to: i64) -> Reply {
    unsafe { logbuffer_holding(rec, log.as_ptr(), log.len(), find, from, to) }
}

fn empty(code: i32, stop: i32, position: i64, writing: usize) -> Reply {
    Reply { code, stop, position, writing, card: Card::default(), ends: [0; 6], note_length: 0, note: [0; 255] }
}

/// 01's ranges of a record and its log, as document 02 amends them, read a second time; the tail is the active partition's.
fn is_sound(rec: &Record, log: &[u8]) -> bool {
    let is_term = rec.term_length.count_ones() == 1 && (65_536..=1 << 30).contains(&rec.term_length);
    let is_mtu = (64..=65_504).contains(&rec.mtu_length) && rec.mtu_length % 32 == 0;
    let is_tail = |count: usize| {
        let offset = rec.tails[count % 3] as u32;
        offset % 32 == 0 && offset <= i32::MAX as u32
    };
    is_term
        && is_mtu
        && (0..=1i64 << 62).contains(&rec.publication_limit)
        && (0..=i64::from(rec.term_length) << 31).contains(&rec.slowest_position)
        && rec.slowest_position % 32 == 0
        && usize::try_from(rec.active_term_count).is_ok_and(is_tail)
        && log.len() as i64 == 3 * i64::from(rec.term_length)
}

/// A frame that was walked.
struct Frame<'a> {
    end: i64,
    is_padding: bool,
    begins: bool,
    ends: bool,
    body: &'a [u8],
}

/// The walked frames, where the walk ended, why and the size of a frame being written; or the refusal of the first frame.
fn walk<'a>(rec: &Record, log: &'a [u8], from: i64, to: i64) -> Result<(Vec<Frame<'a>>, i64, i32, usize), Reply> {
    let (term_length, mut at, mut frames) = (i64::from(rec.term_length), from, Vec::new());
    loop {
        if at == to {
            return Ok((frames, at, 0, 0));
        }
        let (count, offset) = (at / term_length, at % term_length);
        let bytes = &log[(count % 3 * term_length + offset) as usize..];
        let word = |i: usize| i32::from_le_bytes(bytes[i..i + 4].try_into().unwrap());
        let length = i64::from(word(0));
        let aligned = (length + 31) / 32 * 32;
        let unsound = if length < 32 { 22 } else { 23 };
        match length {
            0 => return Ok((frames, at, 2, 0)),
            _ if length < 0 => return Ok((frames, at, 1, (-length) as usize)),
            _ if length < 32 || offset + aligned > term_length => {
                return if at == from { Err(empty(unsound, 0, offset, 0)) } else { Ok((frames, at, 5, 0)) };
            }
            _ if word(20) != rec.initial_term_id.wrapping_add(count as i32) => return Ok((frames, at, 3, 0)),
            _ if at + aligned > to => return Ok((frames, at, 4, 0)),
            _ => {}
        }
        at += aligned;
        frames.push(Frame {
            end: at,
            is_padding: bytes[6] == 0 && bytes[7] == 0,
            begins: bytes[5] & 0x80 != 0,
            ends: bytes[5] & 0x40 != 0,
            body: &bytes[32..length as usize],
        });
    }
}

/// Messages in the order of their ends, each with its end.
fn messages(frames: &[Frame]) -> Vec<(Vec<u8>, i64)> {
    let mut found = Vec::new();
    for (i, first) in frames.iter().enumerate() {
        if first.is_padding || !first.begins {
            continue;
        }
        if first.ends {
            found.push((first.body.to_vec(), first.end));
            continue;
        }
        let Some(n) = frames[i + 1..].iter().position(|frame| !frame.is_padding && frame.ends && !frame.begins) else { continue };
        let run = &frames[i..i + 1 + n + 1];
        if run[1..].iter().all(|frame| !frame.is_padding && !frame.begins) {
            found.push((run.iter().flat_map(|frame| frame.body.iter().copied()).collect(), run[n + 1].end));
        }
    }
    found.sort_by_key(|message| message.1);
    found
}

/// A card's fields and its note, by the format of R-6.
fn card(bytes: &[u8]) -> Option<(Card, Vec<u8>)> {
    let (&bits, mut rest) = bytes.split_first()?;
    let mut take = |bit: u8, n: usize| -> Option<u32> {
        if bits >> bit & 1 == 0 {
            return Some(0);
        }
        let (number, left) = rest.split_at_checked(n)?;
        rest = left;
        Some(number.iter().rev().fold(0, |sum, byte| sum << 8 | u32::from(*byte)))
    };
    let (find, trench, context, material, weight, length) = (take(0, 4)?, take(1, 2)?, take(2, 2)?, take(3, 1)?, take(4, 4)?, take(5, 1)?);
    let is_card = bits & 1 == 1
        && bits < 64
        && (bits & 8 == 0 || (1..=9).contains(&material))
        && (bits & 32 == 0 || length > 0)
        && rest.len() == length as usize;
    let card = Card { bits, find, trench: trench as u16, context: context as u16, material: material as u8, weight };
    is_card.then(|| (card, rest.to_vec()))
}

/// 02 read a second time.
fn by_02(rec: &Record, log: &[u8], find: u32, from: i64, to: i64) -> Reply {
    let length = i128::from(rec.term_length);
    if from > to || i128::from(to) - i128::from(from) > 3 * length {
        return empty(1, 0, 0, 0);
    }
    if !is_sound(rec, log) {
        return empty(2, 0, 0, 0);
    }
    let greatest = i64::from(rec.term_length) << 31;
    if [from, to].iter().any(|p| *p < 0 || *p > greatest || p % 32 != 0) {
        return empty(3, 0, 0, 0);
    }
    let (frames, end, stop, writing) = match walk(rec, log, from, to) {
        Ok(walked) => walked,
        Err(refused) => return refused,
    };
    let cards: Vec<_> = messages(&frames).into_iter().filter_map(|(body, end)| card(&body).map(|(card, note)| (card, note, end))).collect();
    let with = |bit: u8| cards.iter().rev().find(|(card, _, _)| card.find == find && card.bits >> bit & 1 == 1);
    let mut reply = empty(24, stop, end, writing);
    for bit in 0..6 {
        let Some((card, note, end)) = with(bit) else { continue };
        reply.code = 0;
        reply.card.bits |= 1 << bit;
        reply.ends[bit as usize] = *end as usize;
        match bit {
            0 => reply.card.find = card.find,
            1 => reply.card.trench = card.trench,
            2 => reply.card.context = card.context,
            3 => reply.card.material = card.material,
            4 => reply.card.weight = card.weight,
            _ => {
                reply.note_length = note.len();
                reply.note[..note.len()].copy_from_slice(note);
            }
        }
    }
    reply
}

struct Random(u64);

impl Random {
    /// splitmix64
    fn next(&mut self) -> u64 {
        self.0 = self.0.wrapping_add(0x9e37_79b9_7f4a_7c15);
        let mut z = self.0;
        z = (z ^ (z >> 30)).wrapping_mul(0xbf58_476d_1ce4_e5b9);
        z = (z ^ (z >> 27)).wrapping_mul(0x94d0_49bb_1331_11eb);
        z ^ (z >> 31)
    }

    fn below(&mut self, n: u64) -> u64 {
        self.next() % n
    }

    fn of<T: Copy>(&mut self, choice: &[T]) -> T {
        choice[self.below(choice.len() as u64) as usize]
    }

    fn record(&mut self, term_length: i32) -> Record {
        Record {
            tails: [0, 1, 2].map(|_| (self.next() << 32 | self.next() >> 33 & !31) as i64),
            active_term_count: self.below(1 << 31) as i32,
            initial_term_id: self.of(&[7, 0, -1, i32::MAX, i32::MAX - 1, -2_147_483_646]),
            term_length,
            mtu_length: 64 + 32 * self.below(2_000) as i32,
            session_id: self.next() as i32,
            stream_id: self.next() as i32,
            is_connected: self.next() as i32,
            publication_limit: (self.next() >> 2) as i64,
            end_of_stream_position: self.next() as i64,
            is_closed: self.below(2) == 1,
            slowest_position: (self.next() >> 18 & !31) as i64, // below 65,536 * 2^31
            cleared_marks: self.next(),
            section: [4_096; 2],
            correlation_id: 1_926,
        }
    }

    fn damage_record(&mut self, rec: &mut Record) {
        match self.below(5) {
            0 => rec.mtu_length += 1,
            1 => rec.active_term_count = -1 - self.below(3) as i32,
            2 => rec.publication_limit = self.of(&[-1, (1 << 62) + 1]),
            3 => rec.slowest_position = self.of(&[-32, 8, (i64::from(rec.term_length) << 31) + 32, i64::MIN, i64::MAX]),
            _ => rec.term_length = self.of(&[-4, -1, 0, 32_768, 65_537, 131_072, i32::MAX, i32::MIN]),
        }
    }

    /// A card of one of four finds, some with a fault.
    fn card(&mut self) -> Vec<u8> {
        let bits = 1 | self.next() as u8 & 62;
        let mut bytes = vec![bits];
        bytes.extend((1000 + self.below(4) as u32).to_le_bytes());
        for (bit, n) in [(1, 2), (2, 2), (3, 1), (4, 4)] {
            if bits >> bit & 1 == 1 {
                let number = if bit == 3 { 1 + self.below(9) } else { self.next() };
                bytes.extend(&number.to_le_bytes()[..n]);
            }
        }
        if bits & 32 != 0 {
            let n = self.of(&[1, 2, 30, 100, 254, 255]);
            bytes.push(n);
            (0..n).for_each(|_| bytes.push(self.next() as u8));
        }
        match self.below(12) {
            0 => bytes.push(0),
            1 => drop(bytes.pop()),
            2 => bytes[0] |= 64,
            _ => {}
        }
        bytes
    }

    /// The frames of a message: flags, type and body, cut anywhere, now and then with something put between or left out.
    fn frames(&mut self) -> Vec<(u8, u16, Vec<u8>)> {
        let body = match self.below(8) {
            0 => (0..self.below(400)).map(|_| self.next() as u8).collect(),
            _ => self.card(),
        };
        let pieces = self.of(&[1, 1, 1, 2, 2, 3, 5]);
        let mut cuts: Vec<usize> = (1..pieces).map(|_| self.below(body.len() as u64 + 1) as usize).collect();
        cuts.extend([0, body.len()]);
        cuts.sort_unstable();
        let last = cuts.len() - 2;
        let mut frames: Vec<_> = (0..=last)
            .map(|k| (if k == 0 { 0x80 } else { 0 } | if k == last { 0x40 } else { 0 }, self.of(&[1u16, 1, 1, 2, 256]), body[cuts[k]..cuts[k + 1]].to_vec()))
            .collect();
        if self.below(5) == 0 {
            let at = self.below(frames.len() as u64 + 1) as usize;
            let other = (self.of(&[0xc0, 0x80, 0x40, 0, 0xff, 0x3f]), self.of(&[0, 0, 1]), self.card());
            frames.insert(at, other);
        }
        if self.below(10) == 0 {
            frames.remove(self.below(frames.len() as u64) as usize);
        }
        frames
    }

    /// Frames from a position on, of terms with their own ids, up to a place where they break off or for three terms; answers their boundaries.
    fn write(&mut self, rec: &Record, log: &mut [u8], first: i64) -> Vec<i64> {
        let term_length = i64::from(rec.term_length);
        let (mut at, mut boundaries) = (first, vec![first]);
        let end = (first / term_length + 3) * term_length;
        let least = if self.below(3) == 0 { i64::MAX } else { first + self.below(2_000) as i64 * 32 };
        while at < end {
            for (flags, kind, body) in self.frames() {
                let (count, offset) = (at / term_length, at % term_length);
                if at >= end {
                    break;
                }
                let left = term_length - offset;
                let index = (count % 3 * term_length + offset) as usize;
                let fits = (body.len() as i64 + 63) / 32 * 32 <= left;
                let (mut length, kind, body) = if fits { (32 + body.len() as i64, kind, body) } else { (left, 0, Vec::new()) };
                let mut id = rec.initial_term_id.wrapping_add(count as i32);
                let aligned = (length + 31) / 32 * 32;
                let breaks = at >= least && self.below(4) == 0;
                if breaks {
                    match self.below(5) {
                        0 => length = -length,
                        1 => length = 0,
                        2 => length = 1 + self.below(31) as i64,
                        3 => length = left + 1,
                        _ => id = id.wrapping_add(self.of(&[1, -1, 3])),
                    }
                }
                log[index..index + 4].copy_from_slice(&(length as i32).to_le_bytes());
                log[index + 5] = flags;
                log[index + 6..index + 8].copy_from_slice(&kind.to_le_bytes());
                log[index + 12] = self.next() as u8 % 2;
                log[index + 20..index + 24].copy_from_slice(&id.to_le_bytes());
                log[index + 32..index + 32 + body.len()].copy_from_slice(&body);
                at += aligned;
                boundaries.push(at);
                if breaks {
                    return boundaries;
                }
            }
        }
        boundaries
    }
}

/// One log and its calls.
fn log(random: &mut Random, met: &mut BTreeMap<String, u64>) -> Result<(), String> {
    let mut rec = random.record(65_536);
    let mut bytes = vec![0; 3 * 65_536];
    let count = random.of(&[0, 0, 1, 2, 3, 5, 1 << 20, (1 << 31) - 3]);
    let first = count * 65_536 + 32 * if random.below(2) == 0 { 0 } else { random.below(2_048) as i64 };
    let boundaries = random.write(&rec, &mut bytes, first);
    if random.below(10) == 0 {
        random.damage_record(&mut rec);
    }
    for _ in 0..20 {
        let boundary = |random: &mut Random| random.of(&boundaries);
        let (mut from, mut to) = (if random.below(2) == 0 { first } else { boundary(random) }, boundary(random));
        match random.below(12) {
            0 => to = from + random.of(&[0, 32, -32, 1, 3 * 65_536, 3 * 65_536 + 32]),
            1 => from = random.of(&[i64::MIN, -32, 8, i64::MAX]),
            2 => to += 32,
            // the frame at which they break off, if they do, comes first
            3 => (from, to) = (boundaries[boundaries.len() - 2], first + 3 * 65_536),
            _ => (from, to) = (from.min(to), from.max(to)),
        }
        let find = 1000 + random.below(5) as u32;
        let lent = &bytes[if random.below(60) == 0 { 1 } else { 0 }..];
        let (answer, should) = (port(&rec, lent, find, from, to), by_02(&rec, lent, find, from, to));
        if answer != should {
            return Err(format!("find {find} from {from} to {to}, {rec:?}, log of {}: {answer:?}, by 02 {should:?}", lent.len()));
        }
        *met.entry(match answer.code {
            0 => format!("held, {} fields", answer.card.bits.count_ones()),
            code => format!("refused {code}"),
        })
        .or_default() += 1;
    }
    Ok(())
}

fn main() {
    let mut arguments = std::env::args().skip(1);
    let (mut logs, mut seed) = (1_000, 1);
    while let Some(argument) = arguments.next() {
        let mut number = || arguments.next().and_then(|text| text.parse().ok()).expect("a number after the option");
        match argument.as_str() {
            "--logs" => logs = number(),
            "--seed" => seed = number(),
            _ => panic!("holdings [--logs N] [--seed S]"),
        }
    }
    let (mut met, mut random) = (BTreeMap::new(), Random(seed));
    for k in 0..logs {
        if let Err(what) = log(&mut random, &mut met) {
            println!("a difference in log {k}: {what}");
            std::process::exit(1);
        }
    }
    met.iter().for_each(|(what, n)| println!("{what}: {n}"));
    println!("{} calls on {logs} logs from seed {seed}, 0 differences", 20 * logs);
}
