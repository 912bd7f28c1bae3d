//! The metadata section of the port, through include/logbuffer.h, held against the given Rust's own descriptor and against a second reading of
//! "R-11. The metadata section" of document 02.
//!
//!   metadata [--records N] [--seed S] [--large]
//!
//! Takes N records (100,000), random and at the edges of their ranges, some out of them. The port's section of each is read through the Rust's getters and
//! constants, field by field, and read back by the port. A section that the Rust's setters and constants make of another record is read by the port and
//! written again. Then one is damaged: size, a gap's byte, the header length, a field, or two of them. Whatever the port accepts, it must write again byte
//! for byte. Compared: number, every byte of the output and around it, every byte of the record, those between its fields too. Last, whole logs: written by the
//! Rust's publication and read by the port, written by the port and read by the Rust's image. --large adds slices of 2147483647 bytes and one more. Prints
//! what was met and `0 differences`, or the first difference, and then ends with 1.

use std::collections::BTreeMap;

use aeron_rs::concurrent::atomic_buffer::AtomicBuffer;
use aeron_rs::concurrent::logbuffer::header::Header;
use aeron_rs::concurrent::logbuffer::log_buffer_descriptor as descriptor;
use aeron_rs::harness::{over, Log};

/// Memory for a record of include/logbuffer.h.
#[repr(C, align(8))]
#[derive(Clone, Copy, PartialEq)]
struct Lent([u8; 112]);

#[repr(C)]
struct OfferReply {
    code: i32,
    rule: u32,
    position: i64,
}

#[repr(C)]
struct CountReply {
    code: i32,
    messages: usize,
    bytes: usize,
}

extern "C" {
    fn logbuffer_write_metadata(rec: *const Lent, out: *mut u8, n: usize) -> i32;
    fn logbuffer_read_metadata(rec: *mut Lent, bytes: *const u8, n: usize) -> i32;
    fn logbuffer_open(rec: *mut Lent, log: *mut u8, n: usize, term: i32, mtu: i32, initial: i32, session: i32, stream: i32) -> i32;
    fn logbuffer_set_publication_limit(rec: *mut Lent, limit: i64) -> i32;
    fn logbuffer_offer(rec: *mut Lent, log: *mut u8, n: usize, message: *const u8, m: usize, reserved: i64) -> OfferReply;
    #[rustfmt::skip]
    fn logbuffer_replay_count(rec: *const Lent, log: *const u8, n: usize, position: i64, session: i32, buffer: *mut u8, m: usize) -> CountReply;
}

fn port_write(rec: &Lent, out: &mut [u8]) -> i32 {
    unsafe { logbuffer_write_metadata(rec, out.as_mut_ptr(), out.len()) }
}

fn port_read(rec: &mut Lent, bytes: &[u8]) -> i32 {
    unsafe { logbuffer_read_metadata(rec, bytes.as_ptr(), bytes.len()) }
}

/// What a section says.
#[derive(Clone, Copy, Debug, PartialEq)]
struct Numbers {
    tails: [i64; 3],
    active_term_count: i32,
    end_of_stream_position: i64,
    is_connected: i32,
    active_transport_count: i32,
    correlation_id: i64,
    initial_term_id: i32,
    header_length: i32,
    mtu_length: i32,
    term_length: i32,
    page_size: i32,
}

/// What is given separately.
#[derive(Clone, Copy, Debug, PartialEq)]
struct Beside {
    session_id: i32,
    stream_id: i32,
    publication_limit: i64,
    is_closed: bool,
    slowest_position: i64,
    marks: u64,
}

/// A record as include/logbuffer.h lays it out; the bytes between the fields are `gap`, a closed one's flag is `flag`.
fn lent(n: &Numbers, b: &Beside, gap: u8, flag: u8) -> Lent {
    let mut bytes = [gap; 112];
    let mut put = |at: usize, number: &[u8]| bytes[at..at + number.len()].copy_from_slice(number);
    (0..3).for_each(|k| put(8 * k, &n.tails[k].to_le_bytes()));
    put(24, &n.active_term_count.to_le_bytes());
    put(28, &n.initial_term_id.to_le_bytes());
    put(32, &n.term_length.to_le_bytes());
    put(36, &n.mtu_length.to_le_bytes());
    put(40, &b.session_id.to_le_bytes());
    put(44, &b.stream_id.to_le_bytes());
    put(48, &n.is_connected.to_le_bytes());
    put(56, &b.publication_limit.to_le_bytes());
    put(64, &n.end_of_stream_position.to_le_bytes());
    put(72, &[if b.is_closed { flag } else { 0 }]);
    put(80, &b.slowest_position.to_le_bytes());
    put(88, &b.marks.to_le_bytes());
    put(96, &n.active_transport_count.to_le_bytes());
    put(100, &n.page_size.to_le_bytes());
    put(104, &n.correlation_id.to_le_bytes());
    Lent(bytes)
}

// ---- 02 read a second time

/// 01's ranges of a record, and R-4's of the slowest reader; the tail is the active partition's.
fn is_sound(n: &Numbers, b: &Beside) -> bool {
    let is_term = n.term_length.count_ones() == 1 && (65_536..=1 << 30).contains(&n.term_length);
    let is_mtu = (64..=65_504).contains(&n.mtu_length) && n.mtu_length % 32 == 0;
    let is_tail = |count: usize| {
        let offset = n.tails[count % 3] as u32;
        offset % 32 == 0 && offset <= i32::MAX as u32
    };
    is_term
        && is_mtu
        && (0..=1i64 << 62).contains(&b.publication_limit)
        && (0..=i64::from(n.term_length) << 31).contains(&b.slowest_position)
        && b.slowest_position % 32 == 0
        && usize::try_from(n.active_term_count).is_ok_and(is_tail)
}

/// The places that 02 lists, in its order, each with the bytes of its number.
fn places(n: &Numbers) -> [(usize, Vec<u8>); 13] {
    [
        (0, n.tails[0].to_le_bytes().to_vec()),
        (8, n.tails[1].to_le_bytes().to_vec()),
        (16, n.tails[2].to_le_bytes().to_vec()),
        (24, n.active_term_count.to_le_bytes().to_vec()),
        (128, n.end_of_stream_position.to_le_bytes().to_vec()),
        (136, n.is_connected.to_le_bytes().to_vec()),
        (140, n.active_transport_count.to_le_bytes().to_vec()),
        (256, n.correlation_id.to_le_bytes().to_vec()),
        (264, n.initial_term_id.to_le_bytes().to_vec()),
        (268, n.header_length.to_le_bytes().to_vec()),
        (272, n.mtu_length.to_le_bytes().to_vec()),
        (276, n.term_length.to_le_bytes().to_vec()),
        (280, n.page_size.to_le_bytes().to_vec()),
    ]
}

fn section_of(n: &Numbers) -> Vec<u8> {
    let mut section = vec![0; 320];
    places(n).into_iter().for_each(|(at, number)| section[at..at + number.len()].copy_from_slice(&number));
    section
}

/// The numbers of a section; none is 25: its size, its header length, or bytes that the numbers do not account for.
fn numbers_of(s: &[u8]) -> Option<Numbers> {
    if s.len() != 320 {
        return None;
    }
    let int = |at: usize| i32::from_le_bytes(*s[at..].first_chunk().unwrap());
    let long = |at: usize| i64::from_le_bytes(*s[at..].first_chunk().unwrap());
    let n = Numbers {
        tails: [long(0), long(8), long(16)],
        active_term_count: int(24),
        end_of_stream_position: long(128),
        is_connected: int(136),
        active_transport_count: int(140),
        correlation_id: long(256),
        initial_term_id: int(264),
        header_length: int(268),
        mtu_length: int(272),
        term_length: int(276),
        page_size: int(280),
    };
    (n.header_length == 32 && section_of(&n) == s).then_some(n)
}

// ---- the Rust's own descriptor

/// A section of the Rust's, at a cache line as it has them.
#[repr(C, align(64))]
struct Memory([u8; 320]);

/// The place of the correlation id, for which the Rust has neither a constant nor a getter: right before the initial id.
fn correlation_place() -> i32 {
    *descriptor::LOG_INITIAL_TERM_ID_OFFSET - 8
}

/// By getters; where the Rust has none, by its constants.
fn shown_by_the_rust(meta: &AtomicBuffer) -> Numbers {
    Numbers {
        tails: [0, 1, 2].map(|k| descriptor::raw_tail_by_partition_index(meta, k)),
        active_term_count: descriptor::active_term_count(meta),
        end_of_stream_position: descriptor::end_of_stream_position(meta),
        is_connected: meta.get::<i32>(*descriptor::LOG_IS_CONNECTED_OFFSET),
        active_transport_count: descriptor::active_transport_count(meta),
        correlation_id: meta.get::<i64>(correlation_place()),
        initial_term_id: descriptor::initial_term_id(meta),
        header_length: meta.get::<i32>(*descriptor::LOG_DEFAULT_FRAME_HEADER_LENGTH_OFFSET),
        mtu_length: descriptor::mtu_length(meta),
        term_length: descriptor::term_length(meta),
        page_size: descriptor::page_size(meta),
    }
}

/// By setters; where the Rust has none, by its constants.
fn set_by_the_rust(meta: &AtomicBuffer, n: &Numbers) -> Result<(), String> {
    for k in 0..3 {
        let (raw, id) = (n.tails[k as usize], descriptor::term_id(n.tails[k as usize]));
        descriptor::initialize_tail_with_term_id(meta, k, id);
        if !descriptor::cas_raw_tail(meta, k, i64::from(id) << 32, raw) {
            return Err(format!("the Rust does not set tail {k} to {raw}"));
        }
    }
    descriptor::set_active_term_count_ordered(meta, n.active_term_count);
    descriptor::set_end_of_stream_position(meta, n.end_of_stream_position);
    match n.is_connected {
        0 | 1 => descriptor::set_is_connected(meta, n.is_connected == 1),
        number => meta.put::<i32>(*descriptor::LOG_IS_CONNECTED_OFFSET, number),
    }
    descriptor::set_active_transport_count(meta, n.active_transport_count);
    meta.put::<i64>(correlation_place(), n.correlation_id);
    meta.put::<i32>(*descriptor::LOG_INITIAL_TERM_ID_OFFSET, n.initial_term_id);
    meta.put::<i32>(*descriptor::LOG_DEFAULT_FRAME_HEADER_LENGTH_OFFSET, n.header_length);
    meta.put::<i32>(*descriptor::LOG_MTU_LENGTH_OFFSET, n.mtu_length);
    meta.put::<i32>(*descriptor::LOG_TERM_LENGTH_OFFSET, n.term_length);
    meta.put::<i32>(*descriptor::LOG_PAGE_SIZE_OFFSET, n.page_size);
    Ok(())
}

/// The getters that answer something else than a number of the section.
fn other_getters_hold(meta: &AtomicBuffer, n: &Numbers) -> bool {
    let active = n.tails[n.active_term_count as usize % 3];
    descriptor::is_connected(meta) == (n.is_connected == 1)
        && descriptor::raw_tail(meta) == active
        && descriptor::raw_tail_volatile(meta) == active
        && descriptor::check_term_length(descriptor::term_length(meta)).is_ok()
}

// ---- records

struct Random(u64);

impl Random {
    /// splitmix64
    fn next(&mut self) -> u64 {
        self.0 = self.0.wrapping_add(0x9e37_79b9_7f4a_7c15);
        let mut z = self.0;
        z = (z ^ (z >> 30)).wrapping_mul(0xbf58_476d_1ce4_e5b9);
        z = (z ^ (z >> 27)).wrapping_mul(0x94d0_49bb_1331_11eb);
        z ^ (z >> 31)
    }

    fn below(&mut self, n: usize) -> usize {
        (self.next() % n as u64) as usize
    }

    fn of<T: Copy>(&mut self, choice: &[T]) -> T {
        choice[self.below(choice.len())]
    }

    /// Any number, at times one at an end.
    fn int(&mut self) -> i32 {
        let any = self.next() as i32;
        self.of(&[any, any, any, 0, 1, -1, i32::MIN, i32::MAX])
    }

    fn long(&mut self) -> i64 {
        let any = self.next() as i64;
        self.of(&[any, any, any, 0, 1, -1, i64::MIN, i64::MAX])
    }

    fn numbers(&mut self) -> Numbers {
        let most = i32::MAX;
        let term_length = 1 << (16 + self.below(15));
        let any = self.below(1 << 31) as i32;
        let active_term_count = self.of(&[any, any, 0, 1, 2, 3, most, most - 1, most - 2]);
        let mtu = 64 + 32 * self.below(2_046) as i32;
        let page = 1 << (12 + self.below(19));
        let page_size = [self.int(), 0, 4_096, 1 << 30, page, page][self.below(6)];
        let mut n = Numbers {
            tails: [0; 3].map(|_| self.long() & !0xffff_ffff | [self.next() >> 33 & !31, 0, 0x7fff_ffe0][self.below(3)] as i64),
            active_term_count,
            end_of_stream_position: self.long(),
            is_connected: self.int(),
            active_transport_count: self.int(),
            correlation_id: self.long(),
            initial_term_id: self.int(),
            header_length: 32,
            mtu_length: self.of(&[mtu, mtu, 64, 65_504]),
            term_length,
            page_size,
        };
        let active = n.active_term_count as usize % 3;
        match self.below(48) {
            0 => n.mtu_length += self.of(&[1, 16, 31]),
            1 => n.mtu_length = self.of(&[0, 32, 65_536, -64, i32::MIN]),
            2 => n.active_term_count = -1 - self.of(&[0, 1, 2, i32::MAX]),
            3 => n.tails[active] ^= self.of(&[1, 16, 1 << 31]),
            4 => n.tails[(active + 1 + self.below(2)) % 3] ^= self.of(&[1, 16, 1 << 31]), // sound: another partition's
            5 => n.term_length = self.of(&[-4, -1, 0, 32_768, 65_535, 65_537, 98_304, i32::MAX, i32::MIN]),
            _ => {}
        }
        n
    }

    fn beside(&mut self, term_length: i32) -> Beside {
        let greatest = i64::from(term_length.max(1)) << 31;
        let (any, limit) = ((self.next() % (greatest as u64 + 1) & !31) as i64, (self.next() >> 2) as i64);
        let mut b = Beside {
            session_id: self.int(),
            stream_id: self.int(),
            publication_limit: self.of(&[limit, limit, 0, 1 << 62]),
            is_closed: self.below(2) == 1,
            slowest_position: self.of(&[any, any, 0, 32, greatest & !31]),
            marks: self.next() >> self.of(&[0, 61]),
        };
        match self.below(32) {
            0 => b.publication_limit = self.of(&[-1, (1 << 62) + 1, i64::MIN, i64::MAX]),
            1 => b.slowest_position = self.of(&[-32, 8, greatest + 32, i64::MIN, i64::MAX]),
            _ => {}
        }
        b
    }

    /// One fault, or a field's byte that may be none.
    fn damage(&mut self, s: &mut Vec<u8>) -> &'static str {
        let (bit, length) = (1u8 << self.below(8), s.len());
        let gaps: [std::ops::Range<usize>; 3] = [28..128, 144..256, 284..320];
        match self.below(8) {
            0 => {
                s.truncate([319, 318, 288, 256, 64, 0, self.below(320)][self.below(7)].min(length));
                "cut"
            }
            1 => {
                s.extend(vec![0; self.of(&[1, 32, 64, 4_096 - 320])]);
                "longer"
            }
            2..=4 => {
                let gap = gaps[self.below(3)].clone();
                let any = gap.start + self.below(gap.len());
                let at = self.of(&[any, any, gap.start, gap.end - 1]);
                s.get_mut(at).map(|byte| *byte ^= bit);
                "a gap's byte"
            }
            5 => {
                let at = 268 + self.below(4);
                s.get_mut(at).map(|byte| *byte ^= bit);
                "the header length"
            }
            _ => {
                let at = self.below(320);
                s.get_mut(at).map(|byte| *byte = self.next() as u8);
                "any byte"
            }
        }
    }
}

// ---- the comparison

/// How often each outcome was met.
#[derive(Default)]
struct Table {
    met: BTreeMap<String, u64>,
}

impl Table {
    fn count(&mut self, what: String) {
        *self.met.entry(what).or_default() += 1;
    }
}

const MARGIN: usize = 16;
const FILL: u8 = 0xa7;

/// Writes a section into `room` bytes between margins, and answers it where the port does as 02 says.
fn compare_write(n: &Numbers, b: &Beside, room: usize, table: &mut Table) -> Result<Option<Vec<u8>>, String> {
    let by_02 = match (room, is_sound(n, b)) {
        (320, true) => 0,
        (320, false) => 2,
        _ => 25,
    };
    let rec = lent(n, b, 0x5c, 3);
    let mut block = vec![FILL; room + 2 * MARGIN];
    let number = port_write(&rec, &mut block[MARGIN..MARGIN + room]);
    let mut expected = vec![FILL; room + 2 * MARGIN];
    if by_02 == 0 {
        expected[MARGIN..MARGIN + room].copy_from_slice(&section_of(n));
    }
    if number != by_02 || block != expected {
        let at = (0..block.len()).find(|i| block[*i] != expected[*i]);
        return Err(format!("write into {room}, {n:?}, {b:?}: {number}, by 02 {by_02}; first other byte {at:?}, margins of {MARGIN} counted"));
    }
    table.count(format!("write {number}"));
    Ok((number == 0).then(|| block[MARGIN..MARGIN + room].to_vec()))
}

/// Reads a section into a record that holds what is given and other bytes everywhere else, and answers what was read.
fn compare_read(s: &[u8], b: &Beside, fill: u8, table: &mut Table) -> Result<Option<Numbers>, String> {
    let read = numbers_of(s);
    let by_02 = match read {
        None => 25,
        Some(n) if !is_sound(&n, b) => 2,
        Some(_) => 0,
    };
    let other = i64::from_le_bytes([fill; 8]);
    let filled = Numbers {
        tails: [other; 3],
        active_term_count: other as i32,
        end_of_stream_position: other,
        is_connected: other as i32,
        active_transport_count: other as i32,
        correlation_id: other,
        initial_term_id: other as i32,
        header_length: 0,
        mtu_length: other as i32,
        term_length: other as i32,
        page_size: other as i32,
    };
    let before = lent(&filled, b, fill, 1 + fill % 255);
    let mut rec = before;
    let number = port_read(&mut rec, s);
    let expected = match (by_02, read) {
        (0, Some(n)) => lent(&n, &Beside { marks: b.marks % 8, ..*b }, 0, 1),
        _ => before,
    };
    if number != by_02 || rec != expected {
        let at = (0..112).find(|i| rec.0[*i] != expected.0[*i]);
        return Err(format!("read of {} bytes, {read:?}, {b:?}: {number}, by 02 {by_02}; first other byte of the record {at:?}", s.len()));
    }
    table.count(format!("read {number}"));
    Ok(read.filter(|_| number == 0))
}

fn record(random: &mut Random, memory: &mut Memory, table: &mut Table) -> Result<(), String> {
    // A record of the port's, through the Rust's getters, and back.
    let n = random.numbers();
    let b = random.beside(n.term_length);
    let room = if random.below(16) == 0 { random.of(&[0, 1, 319, 321, 640, 4_096]) } else { 320 };
    if let Some(section) = compare_write(&n, &b, room, table)? {
        memory.0.copy_from_slice(&section);
        let meta = over(&mut memory.0);
        let shown = shown_by_the_rust(&meta);
        if shown != n || !other_getters_hold(&meta, &n) {
            return Err(format!("the port's section of {n:?}: the Rust shows {shown:?}"));
        }
        let is_page = n.page_size.count_ones() == 1 && (4_096..=1 << 30).contains(&n.page_size);
        if descriptor::check_page_size(descriptor::page_size(&meta)).is_ok() != is_page {
            return Err(format!("page size {} before the Rust's own check", n.page_size));
        }
        table.count(format!("sections that the Rust shows as written, page size {}", if is_page { "good" } else { "refused by the Rust's own check" }));
        if compare_read(&section, &b, random.next() as u8, table)? != Some(n) {
            return Err("what was written did not come back".to_owned());
        }
    }

    // A section of the Rust's, read by the port and written again.
    let mut n = random.numbers();
    if random.below(16) == 0 {
        n.header_length = random.of(&[0, 31, 33, 24, 64, 32 << 8, 32 << 24, -32, i32::MIN + 32]);
    }
    memory.0.fill(0);
    set_by_the_rust(&over(&mut memory.0), &n)?;
    let mut section = memory.0.to_vec();
    if section != section_of(&n) {
        return Err(format!("the Rust's section of {n:?} is another than 02's"));
    }
    let b = random.beside(n.term_length);
    if let Some(read) = compare_read(&section, &b, random.next() as u8, table)? {
        if read != n || compare_write(&read, &b, 320, table)?.as_deref() != Some(&section[..]) {
            return Err(format!("the Rust's section of {n:?}: the port reads {read:?}"));
        }
        table.count("sections of the Rust's read by the port and written again".to_owned());
    }

    // The same damaged.
    let mut what = random.damage(&mut section);
    if random.below(4) == 0 {
        random.damage(&mut section);
        what = "two faults";
    }
    let read = compare_read(&section, &b, random.next() as u8, table)?;
    if let Some(n) = read {
        if compare_write(&n, &b, 320, table)?.as_deref() != Some(&section[..]) {
            return Err("what was read is not written as it was".to_owned());
        }
    }
    table.count(format!("damaged, {what}: {}", if read.is_some() { "read" } else { "refused" }));
    Ok(())
}

/// Where the Rust has its fields, and what it says of a section as opening leaves it.
fn constants() -> Result<(), String> {
    let places = [
        *descriptor::TERM_TAIL_COUNTER_OFFSET,
        *descriptor::LOG_ACTIVE_TERM_COUNT_OFFSET,
        *descriptor::LOG_END_OF_STREAM_POSITION_OFFSET,
        *descriptor::LOG_IS_CONNECTED_OFFSET,
        *descriptor::LOG_ACTIVE_TRANSPORT_COUNT,
        correlation_place(),
        *descriptor::LOG_INITIAL_TERM_ID_OFFSET,
        *descriptor::LOG_DEFAULT_FRAME_HEADER_LENGTH_OFFSET,
        *descriptor::LOG_MTU_LENGTH_OFFSET,
        *descriptor::LOG_TERM_LENGTH_OFFSET,
        *descriptor::LOG_PAGE_SIZE_OFFSET,
        descriptor::LOG_DEFAULT_FRAME_HEADER_OFFSET,
    ];
    if places != [0, 24, 128, 136, 140, 256, 264, 268, 272, 276, 280, 320] || descriptor::LOG_META_DATA_LENGTH != 4_096 {
        return Err(format!("the Rust's places are {places:?}"));
    }
    let (mut rec, mut log, mut memory) = (Lent([0xee; 112]), vec![0; 3 * 65_536], Memory([0xee; 320]));
    let code = unsafe { logbuffer_open(&mut rec, log.as_mut_ptr(), log.len(), 65_536, 96, 7, 11, 22) };
    let opened = (code, port_write(&rec, &mut memory.0));
    let meta = over(&mut memory.0);
    let shown = shown_by_the_rust(&meta);
    let carried = (shown.active_transport_count, shown.page_size, shown.correlation_id);
    if opened != (0, 0) || carried != (0, 0, 0) || descriptor::check_page_size(shown.page_size).is_ok() {
        return Err(format!("a log just opened: {opened:?}, {shown:?}"));
    }
    println!("the Rust has its fields where 02 says; a log just opened has page size 0, which its own check refuses");
    Ok(())
}

// ---- whole logs

const TERM: usize = 65_536;

fn message(random: &mut Random) -> Vec<u8> {
    let length = random.of(&[0, 1, 33, 64, 65, 200, 1_000, 3_000]);
    vec![random.next() as u8; length]
}

/// Written by the Rust's publication; the port reads the section and replays the terms.
fn log_of_the_rust(random: &mut Random) -> Result<u64, String> {
    let log = Log::open(TERM as i32, 96, random.of(&[7, 0, -1, i32::MAX - 9]), 11, 22);
    log.limit.set_ordered(1 << 40);
    log.set_carried(random.int(), 4_096, random.long());
    // The harness leaves the header length 0; a driver sets it.
    log.meta().put::<i32>(*descriptor::LOG_DEFAULT_FRAME_HEADER_LENGTH_OFFSET, 32);
    let publication = log.publication();
    let (mut messages, mut bytes) = (0, 0);
    let most = random.below(700);
    while log.count() < 3 && messages < most {
        let mut message = message(random);
        // The log stays within its three terms.
        if log.count() == 2 && log.tail(2).1 as usize + 3 * message.len() + 64 > TERM {
            break;
        }
        let length = message.len() as i32;
        if publication.offer_part(over(&mut message), 0, length).is_ok() {
            messages += 1;
            bytes += message.len();
        }
    }
    let section: Vec<u8> = (0..320).map(|at| log.meta().get::<u8>(at)).collect();
    let b = Beside { session_id: 11, stream_id: 22, publication_limit: 1 << 40, is_closed: false, slowest_position: 0, marks: 0 };
    let mut rec = lent(&random.numbers(), &b, 0, 1);
    let code = port_read(&mut rec, &section);
    let (terms, mut buffer) = (log.terms(), vec![0; 16 * TERM / 8]);
    let count = unsafe { logbuffer_replay_count(&rec, terms.as_ptr(), terms.len(), 0, 11, buffer.as_mut_ptr(), buffer.len()) };
    let mut again = vec![0; 320];
    if (code, count.code, count.messages, count.bytes, port_write(&rec, &mut again)) != (0, 0, messages, bytes, 0) || again != section {
        return Err(format!("a log of the Rust's with {messages} messages of {bytes} bytes: {code}, {}, {} of {}", count.code, count.messages, count.bytes));
    }
    Ok(messages as u64)
}

/// Written by the port; the Rust is handed terms and section and polls it, and its publication goes on from there.
fn log_of_the_port(random: &mut Random) -> Result<u64, String> {
    let (mut rec, mut bytes) = (Lent([0; 112]), vec![0; 3 * TERM]);
    let initial = random.of(&[7, 0, -1, i32::MAX - 9]);
    let opened = unsafe { logbuffer_open(&mut rec, bytes.as_mut_ptr(), bytes.len(), TERM as i32, 96, initial, 11, 22) };
    let limited = unsafe { logbuffer_set_publication_limit(&mut rec, 2 * TERM as i64) };
    let (mut written, mut position) = (0, 0);
    let most = random.below(700);
    while written < most {
        let message = vec![random.next() as u8; random.below(65)];
        let o = unsafe { logbuffer_offer(&mut rec, bytes.as_mut_ptr(), bytes.len(), message.as_ptr(), message.len(), 5) };
        match (o.code, o.rule) {
            (0, _) => (written, position) = (written + 1, o.position),
            (6, 14) => (),
            (8, _) => break,
            other => return Err(format!("an offer is answered {other:?}")),
        }
    }
    let mut section = vec![0; 320];
    let code = port_write(&rec, &mut section);
    // Session and stream are in the Rust's default frame header, behind the section, where the harness puts them.
    let log = Log::open(TERM as i32, 96, 0, 11, 22);
    log.terms_mut().copy_from_slice(&bytes);
    log.meta().put_bytes(0, &section);
    let (mut image, place) = log.image(0);
    let mut fragments = 0;
    loop {
        let before = aeron_rs::concurrent::position::ReadablePosition::get(&place);
        fragments += image.poll(&mut |_: &AtomicBuffer, _: i32, _: i32, _: &Header| (), 10) as usize;
        if aeron_rs::concurrent::position::ReadablePosition::get(&place) == before {
            break;
        }
    }
    let reached = log.publication().position();
    let is_there = position == 0 || reached.as_ref().is_ok_and(|p| *p == position);
    if (opened, limited, code, fragments) != (0, 0, 0, written) || !is_there {
        return Err(format!("a log of the port's with {written} messages up to {position}: {code}, the Rust reads {fragments}, stands at {reached:?}"));
    }
    // The Rust's publication offers where the port would.
    log.limit.set_ordered(1 << 40);
    let mut more = vec![1; 40];
    let theirs = log.publication().offer_part(over(&mut more), 0, 40).ok();
    unsafe { logbuffer_set_publication_limit(&mut rec, 1 << 40) };
    let ours = unsafe { logbuffer_offer(&mut rec, bytes.as_mut_ptr(), bytes.len(), more.as_ptr(), 40, 0) };
    let ours = (ours.code == 0).then_some(ours.position as u64);
    if theirs != ours {
        return Err(format!("one message more: the Rust is at {theirs:?}, the port at {ours:?}"));
    }
    Ok(written as u64)
}

/// 2147483647 is the longest slice, and one more is 1 before anything else, a broken record too.
fn large() -> Result<(), String> {
    const MOST: usize = 2_147_483_647;
    let mut zeros = vec![0u8; MOST + 1];
    let broken = Lent([0; 112]);
    let mut rec = broken;
    let answers = [
        port_write(&broken, &mut zeros[..MOST]),
        port_write(&broken, &mut zeros),
        port_read(&mut rec, &zeros[..MOST]),
        port_read(&mut rec, &zeros),
    ];
    if answers != [25, 1, 25, 1] || rec != broken {
        return Err(format!("large slices: {answers:?}, by 02 [25, 1, 25, 1]"));
    }
    println!("slices of 2147483647 and one more as 02 says");
    Ok(())
}

fn run(records: u64, seed: u64, is_large: bool) -> Result<(), String> {
    let (mut table, mut random, mut memory) = (Table::default(), Random(seed), Memory([0; 320]));
    constants()?;
    for k in 0..records {
        record(&mut random, &mut memory, &mut table).map_err(|what| format!("record {k}: {what}"))?;
    }
    let logs = records.div_ceil(500);
    let (mut theirs, mut ours) = (0, 0);
    for k in 0..logs {
        theirs += log_of_the_rust(&mut random).map_err(|what| format!("log {k}: {what}"))?;
        ours += log_of_the_port(&mut random).map_err(|what| format!("log {k}: {what}"))?;
    }
    table.met.iter().for_each(|(what, n)| println!("{what}: {n}"));
    println!("{logs} logs of the Rust's with {theirs} messages replayed by the port, {logs} of the port's with {ours} polled by the Rust");
    if is_large {
        large()?;
    }
    println!("{records} records and sections there and back from seed {seed}, 0 differences");
    Ok(())
}

fn main() {
    let mut arguments = std::env::args().skip(1);
    let (mut records, mut seed, mut is_large) = (100_000, 1, false);
    while let Some(argument) = arguments.next() {
        let mut number = || arguments.next().and_then(|text| text.parse().ok()).expect("a number after the option");
        match argument.as_str() {
            "--records" => records = number(),
            "--seed" => seed = number(),
            "--large" => is_large = true,
            _ => panic!("metadata [--records N] [--seed S] [--large]"),
        }
    }
    if let Err(what) = run(records, seed, is_large) {
        println!("a difference: {what}");
        std::process::exit(1);
    }
}
