//! Find cards of the port, through include/logbuffer.h, held against a second reading of "R-6. Find cards" of document 02.
//!
//!   cards [--strings N] [--seed S] [--large]
//!
//! Reads every string of up to 3 bytes and N longer ones (500,000): cards, cards damaged in one place, and random bytes. What is
//! accepted is written again and must give the same bytes. Writes N cards, sound and broken, into outputs that are too short, just long
//! enough or longer. Compared: number, every value, every byte of the output and the margins around it. --large adds slices of
//! 2147483647 bytes and one more. Prints what was met and `0 differences`, or the first difference, and then ends with 1.

use std::collections::BTreeMap;

#[repr(C)]
#[derive(Clone, Copy, Debug, Default, PartialEq, Eq)]
struct Card {
    bits: u8,
    find: u32,
    trench: u16,
    context: u16,
    material: u8,
    weight: u32,
}

mod c {
    use super::Card;

    #[repr(C)]
    pub struct CardWriteReply {
        pub code: i32,
        pub length: usize,
    }

    #[repr(C)]
    pub struct CardReadReply {
        pub code: i32,
        pub card: Card,
        pub note_start: usize,
        pub note_length: usize,
    }

    extern "C" {
        pub fn logbuffer_card_write(card: Card, note: *const u8, n: usize, out: *mut u8, m: usize) -> CardWriteReply;
        pub fn logbuffer_card_read(bytes: *const u8, n: usize) -> CardReadReply;
    }
}

/// A card and its note's place, or the refusal.
type Read = Result<(Card, usize, usize), i32>;

fn port_read(bytes: &[u8]) -> Read {
    let reply = unsafe { c::logbuffer_card_read(bytes.as_ptr(), bytes.len()) };
    if reply.code != 0 {
        let others = (reply.card, reply.note_start, reply.note_length);
        assert_eq!(others, (Card::default(), 0, 0), "values beside a refusal");
        return Err(reply.code);
    }
    Ok((reply.card, reply.note_start, reply.note_length))
}

fn port_write(card: Card, note: &[u8], out: &mut [u8]) -> Result<usize, i32> {
    let reply = unsafe { c::logbuffer_card_write(card, note.as_ptr(), note.len(), out.as_mut_ptr(), out.len()) };
    assert!(reply.code == 0 || reply.length == 0, "a length beside a refusal");
    if reply.code == 0 {
        Ok(reply.length)
    } else {
        Err(reply.code)
    }
}

/// What is left of a string while it is taken apart.
struct Rest<'a> {
    bytes: &'a [u8],
}

impl Rest<'_> {
    fn take<const N: usize>(&mut self) -> Option<[u8; N]> {
        let (first, rest) = self.bytes.split_first_chunk::<N>()?;
        self.bytes = rest;
        Some(*first)
    }

    /// A number of N bytes where the bit is on, else 0.
    fn number<const N: usize>(&mut self, bits: u8, bit: u32) -> Option<u32> {
        if bits >> bit & 1 == 0 {
            return Some(0);
        }
        Some(self.take::<N>()?.iter().rev().fold(0, |sum, byte| sum << 8 | u32::from(*byte)))
    }
}

/// 02 read a second time, field by field; none is 21.
fn read(bytes: &[u8]) -> Option<(Card, usize, usize)> {
    let mut rest = Rest { bytes };
    let [bits] = rest.take::<1>()?;
    let has = |bit: u32| bits >> bit & 1 == 1;
    if !has(0) || has(6) || has(7) {
        return None;
    }
    let find = rest.number::<4>(bits, 0)?;
    let trench = rest.number::<2>(bits, 1)? as u16;
    let context = rest.number::<2>(bits, 2)? as u16;
    let material = rest.number::<1>(bits, 3)? as u8;
    let weight = rest.number::<4>(bits, 4)?;
    let length = rest.number::<1>(bits, 5)? as usize;
    let is_sound = (!has(3) || (1..=9).contains(&material)) && (!has(5) || length >= 1) && rest.bytes.len() == length;
    let card = Card { bits, find, trench, context, material, weight };
    is_sound.then(|| (card, bytes.len() - length, length))
}

/// The only encoding of a card; none is 21.
fn written(card: &Card, note: &[u8]) -> Option<Vec<u8>> {
    let has = |bit: u32| card.bits >> bit & 1 == 1;
    let is_broken = !has(0) || has(6) || has(7) || has(3) && !(1..=9).contains(&card.material);
    if is_broken || has(5) && !(1..=255).contains(&note.len()) {
        return None;
    }
    let mut bytes = vec![card.bits];
    let fields: [(u32, &[u8]); 5] = [
        (0, &card.find.to_le_bytes()),
        (1, &card.trench.to_le_bytes()),
        (2, &card.context.to_le_bytes()),
        (3, &[card.material]),
        (4, &card.weight.to_le_bytes()),
    ];
    for (bit, field) in fields {
        if has(bit) {
            bytes.extend_from_slice(field);
        }
    }
    if has(5) {
        bytes.push(note.len() as u8);
        bytes.extend_from_slice(note);
    }
    Some(bytes)
}

/// How often each outcome was met.
#[derive(Default)]
struct Table {
    met: BTreeMap<String, u64>,
}

impl Table {
    fn count(&mut self, what: &str) {
        match self.met.get_mut(what) {
            Some(n) => *n += 1,
            None => drop(self.met.insert(what.to_owned(), 1)),
        }
    }
}

const MARGIN: usize = 16;
const FILL: u8 = 0xa7;

/// Writes on the port into `room` bytes between margins and holds all of them against the second reading.
fn compare_write(card: Card, note: &[u8], room: usize, table: &mut Table) -> Result<(), String> {
    let mut block = vec![FILL; room + 2 * MARGIN];
    let answer = port_write(card, note, &mut block[MARGIN..MARGIN + room]);
    let mut expected = vec![FILL; room + 2 * MARGIN];
    let should = match written(&card, note) {
        None => Err(21),
        Some(bytes) if bytes.len() > room => Err(1),
        Some(bytes) => {
            expected[MARGIN..MARGIN + bytes.len()].copy_from_slice(&bytes);
            Ok(bytes.len())
        }
    };
    table.count(match answer {
        Ok(_) => "cards written",
        Err(1) => "cards refused 1, no room",
        Err(_) => "cards refused 21",
    });
    if answer != should || block != expected {
        return Err(format!("writing {card:?}, note {note:?}, room {room}: {answer:?}, by 02 {should:?}; bytes {block:?}"));
    }
    Ok(())
}

/// Reads on the port; what it accepts must be written as the same bytes, in outputs of that length and of one more.
fn compare_read(bytes: &[u8], table: &mut Table) -> Result<bool, String> {
    let answer = port_read(bytes);
    let should = read(bytes).ok_or(21);
    if answer != should {
        return Err(format!("reading {bytes:?}: {answer:?}, by 02 {should:?}"));
    }
    let Ok((card, start, length)) = answer else { return Ok(false) };
    let note = &bytes[start..start + length];
    if written(&card, note).as_deref() != Some(bytes) {
        return Err(format!("{bytes:?} was read as {card:?}, whose encoding it is not"));
    }
    compare_write(card, note, bytes.len(), table)?;
    compare_write(card, note, bytes.len() + 1, table)?;
    Ok(true)
}

struct Random(u64);

impl Random {
    /// splitmix64
    fn next(&mut self) -> u64 {
        self.0 = self.0.wrapping_add(0x9e37_79b9_7f4a_7c15);
        let mut z = self.0;
        z = (z ^ (z >> 30)).wrapping_mul(0xbf58_476d_1ce4_e5b9);
        z = (z ^ (z >> 27)).wrapping_mul(0x94d0_49bb_1331_11eb);
        z ^ (z >> 31)
    }

    fn below(&mut self, n: usize) -> usize {
        (self.next() % n as u64) as usize
    }

    /// Any number, or one of the ends of its range.
    fn edge(&mut self) -> u32 {
        match self.below(4) {
            0 => 0,
            1 => u32::MAX,
            2 => self.below(12) as u32,
            _ => self.next() as u32,
        }
    }

    fn bytes(&mut self, n: usize) -> Vec<u8> {
        (0..n).map(|_| self.next() as u8).collect()
    }

    /// Mostly short, at times at the ends: 0, 1, 255, 256 and more.
    fn note(&mut self) -> Vec<u8> {
        let n = match self.below(16) {
            0 => 0,
            1 => 255,
            2 => 256,
            3 => self.below(600),
            _ => 1 + self.below(12),
        };
        self.bytes(n)
    }

    /// Mostly sound.
    fn card(&mut self) -> Card {
        let bits = if self.below(8) == 0 { self.next() as u8 } else { self.next() as u8 & 0x3f | 1 };
        let material = if self.below(8) == 0 { self.edge() as u8 } else { 1 + self.below(9) as u8 };
        let (trench, context) = (self.edge() as u16, self.edge() as u16);
        Card { bits, find: self.edge(), trench, context, material, weight: self.edge() }
    }

    /// A string of 4 bytes or more.
    fn string(&mut self) -> Vec<u8> {
        let (card, note) = (self.card(), self.note());
        let mut bytes = match written(&card, &note) {
            Some(bytes) if self.below(10) != 0 => bytes,
            _ => {
                let n = 4 + self.below(30);
                self.bytes(n)
            }
        };
        let at = self.below(bytes.len());
        match self.below(8) {
            0 => bytes[at] = self.next() as u8,
            1 => bytes[at] ^= 1 << self.below(8),
            2 => bytes[0] ^= 1 << self.below(8),
            3 => bytes.truncate(4.max(at)),
            4 => bytes.push(self.next() as u8),
            _ => {}
        }
        bytes
    }
}

/// Every string of up to 3 bytes, once each; how many there are, and how many of them are cards.
fn short_strings(table: &mut Table) -> Result<(u64, u64), String> {
    let (mut strings, mut accepted) = (0, 0);
    for length in 0..=3 {
        for number in 0..1u32 << (8 * length) {
            strings += 1;
            accepted += u64::from(compare_read(&number.to_le_bytes()[..length], table)?);
        }
    }
    Ok((strings, accepted))
}

fn long_strings(strings: u64, seed: u64, table: &mut Table) -> Result<(), String> {
    let mut random = Random(seed);
    for _ in 0..strings {
        let bytes = random.string();
        let is_card = compare_read(&bytes, table)?;
        table.count(if is_card { "longer strings accepted" } else { "longer strings refused 21" });
    }
    Ok(())
}

fn cards(cards: u64, seed: u64, table: &mut Table) -> Result<(), String> {
    let mut random = Random(!seed);
    for _ in 0..cards {
        let (card, note) = (random.card(), random.note());
        let length = written(&card, &note).map_or(20, |bytes| bytes.len());
        let room = match random.below(8) {
            0 => length - 1,
            1 => random.below(length),
            2 => 0,
            _ => length + random.below(4),
        };
        compare_write(card, &note, room, table)?;
    }
    Ok(())
}

/// 2147483647 is the longest slice, and one more is 1 before anything else.
fn large() -> Result<(), String> {
    const MOST: usize = 2_147_483_647;
    let mut zeros = vec![0u8; MOST + 1];
    let (sound, broken) = (Card { bits: 1, ..Card::default() }, Card::default());
    let answers = [
        port_read(&zeros[..MOST]).err(),
        port_read(&zeros).err(),
        port_write(sound, &zeros[..MOST], &mut [0; 8]).err(),
        port_write(sound, &zeros, &mut [0; 8]).err(),
        port_write(broken, &zeros, &mut []).err(),
        port_write(sound, &[], &mut zeros[..MOST]).err(),
        port_write(broken, &[], &mut zeros[..MOST]).err(),
        port_write(sound, &[], &mut zeros).err(),
        port_write(broken, &[], &mut zeros).err(),
    ];
    let should = [Some(21), Some(1), None, Some(1), Some(1), None, Some(21), Some(1), Some(1)];
    if answers != should {
        return Err(format!("large slices: {answers:?}, by 02 {should:?}"));
    }
    println!("slices of 2147483647 and one more as 02 says");
    Ok(())
}

fn run(strings: u64, seed: u64, is_large: bool) -> Result<(), String> {
    let mut table = Table::default();
    let (short, accepted) = short_strings(&mut table)?;
    println!("strings of up to 3 bytes, all {short}: {accepted} accepted");
    long_strings(strings, seed, &mut table)?;
    cards(strings, seed, &mut table)?;
    table.met.iter().for_each(|(what, n)| println!("{what}: {n}"));
    if is_large {
        large()?;
    }
    println!("{strings} longer strings and {strings} cards from seed {seed}, 0 differences");
    Ok(())
}

fn main() {
    let mut arguments = std::env::args().skip(1);
    let (mut strings, mut seed, mut is_large) = (500_000, 1, false);
    while let Some(argument) = arguments.next() {
        let mut number = || arguments.next().and_then(|text| text.parse().ok()).expect("a number after the option");
        match argument.as_str() {
            "--strings" => strings = number(),
            "--seed" => seed = number(),
            "--large" => is_large = true,
            _ => panic!("cards [--strings N] [--seed S] [--large]"),
        }
    }
    if let Err(what) = run(strings, seed, is_large) {
        println!("a difference: {what}");
        std::process::exit(1);
    }
}
