//! The functions of include/logbuffer.h that main.rs measures, and the port's side of each row.

use std::ops::{Deref, DerefMut};

#[repr(C)]
#[derive(Clone, Copy, Default)]
pub struct Record {
    tails: [i64; 3],
    numbers: [i32; 7],
    publication_limit: i64,
    end_of_stream_position: i64,
    is_closed: bool,
    slowest_position: i64,
    cleared_marks: u64,
    section: [i32; 2],
    correlation_id: i64,
}

#[repr(C)]
#[derive(Clone, Copy)]
pub struct Claim([i32; 4]);

#[repr(C)]
#[derive(Clone, Copy, Default)]
pub struct Image {
    position: i64,
    session_id: i32,
    is_closed: bool,
    is_eos: bool,
}

#[repr(C)]
#[derive(Clone, Copy, Default)]
pub struct Replay {
    image: Image,
    count: usize,
    ids: [i32; 16],
    held: [usize; 16],
}

#[repr(C)]
pub struct OfferReply {
    code: i32,
    rule: u32,
    position: i64,
}

#[repr(C)]
pub struct ClaimReply {
    code: i32,
    rule: u32,
    position: i64,
    claim: Claim,
}

#[repr(C)]
pub struct PollReply {
    code: i32,
    fragments: u32,
    entries: u32,
    partition: i32,
}

#[repr(C)]
pub struct NextReply {
    code: i32,
    place: i32,
    start: usize,
    length: usize,
}

#[repr(C)]
pub struct BatchReply {
    code: i32,
    messages: usize,
}

#[repr(C)]
pub struct CountReply {
    code: i32,
    messages: usize,
    bytes: usize,
}

#[repr(C)]
pub struct ScanReply {
    code: i32,
    offset: usize,
}

#[repr(C)]
pub struct TallyReply {
    code: i32,
    stop: i32,
    position: i64,
    writing: usize,
    sums: [usize; 4],
}

#[repr(C)]
struct PartitionTallyReply {
    all: TallyReply,
    partitions: [[usize; 4]; 3],
}

#[repr(C)]
pub struct GapReply {
    code: i32,
    is_gap: bool,
    is_being_written: bool,
    term_id: i32,
    offset: usize,
    length: usize,
}

#[repr(C)]
pub struct AvailabilityReply {
    code: i32,
    padding: u32,
    available: usize,
}

extern "C" {
    fn logbuffer_open(rec: *mut Record, log: *mut u8, n: usize, term: i32, mtu: i32, initial: i32, session: i32, stream: i32) -> i32;
    fn logbuffer_set_publication_limit(rec: *mut Record, limit: i64) -> i32;
    fn logbuffer_offer(rec: *mut Record, log: *mut u8, n: usize, message: *const u8, m: usize, reserved: i64) -> OfferReply;
    fn logbuffer_try_claim(rec: *mut Record, log: *mut u8, n: usize, length: i32) -> ClaimReply;
    fn logbuffer_commit(rec: *const Record, log: *mut u8, n: usize, claim: Claim) -> i32;
    fn logbuffer_image_new(image: *mut Image, position: i64, session: i32);
    fn logbuffer_image_poll(image: *mut Image, rec: *const Record, log: *const u8, n: usize, limit: i32, entries: *mut i32, e: usize) -> PollReply;
    fn logbuffer_replay_new(replay: *mut Replay, position: i64, session: i32);
    fn logbuffer_replay_next(replay: *mut Replay, rec: *const Record, log: *const u8, n: usize, buffer: *mut u8, b: usize) -> NextReply;
    fn logbuffer_replay_next_batch(
        replay: *mut Replay, rec: *const Record, log: *const u8, n: usize, buffer: *mut u8, b: usize, numbers: *mut usize, m: usize,
    ) -> BatchReply;
    fn logbuffer_replay_count(rec: *const Record, log: *const u8, n: usize, position: i64, session: i32, buffer: *mut u8, b: usize) -> CountReply;
    fn logbuffer_scan(rec: *const Record, log: *const u8, n: usize, partition: i32, offset: i32, limit: i32) -> ScanReply;
    fn logbuffer_scan_for_gap(rec: *const Record, log: *const u8, n: usize, partition: i32, id: i32, offset: i32, high: i32) -> GapReply;
    fn logbuffer_tally(rec: *const Record, log: *const u8, n: usize, from: i64, to: i64) -> TallyReply;
    fn logbuffer_tally_by_partition(rec: *const Record, log: *const u8, n: usize, from: i64, to: i64) -> PartitionTallyReply;
    fn logbuffer_scan_for_availability(rec: *const Record, log: *const u8, n: usize, partition: i32, offset: i32, most: i32) -> AvailabilityReply;
}

/// Polls logs in turns until none gives a fragment; how many there were.
pub fn poll_in_turns(logs: &[&Log], entries: &mut [i32], limit: i32) -> usize {
    let mut images = vec![Image::default(); logs.len()];
    images.iter_mut().for_each(|image| unsafe { logbuffer_image_new(image, 0, 11) });
    let (mut fragments, mut before) = (0, usize::MAX);
    while before != fragments {
        before = fragments;
        for (image, log) in images.iter_mut().zip(logs) {
            let (bytes, n) = (log.bytes.as_ptr(), log.bytes.len());
            let reply = unsafe { logbuffer_image_poll(image, &log.record, bytes, n, limit, entries.as_mut_ptr(), entries.len()) };
            fragments += if reply.code == 0 { reply.fragments as usize } else { 0 };
        }
    }
    fragments
}

/// Zeroed memory, used from the first multiple of 64 on, as the Rust's log is: asked for alike, and copies cross the lines of the cache alike. Where
/// it begins is worked out once, so that a call of the port has its pointer at hand as the Rust's buffers have theirs.
pub struct Memory {
    _held: Vec<u8>,
    start: *mut u8,
    length: usize,
}

impl Memory {
    pub fn zeroed(length: usize) -> Self {
        let mut held = vec![0; length + 64];
        let skipped = held.as_ptr().align_offset(64);
        let start = held[skipped..skipped + length].as_mut_ptr();
        Memory { _held: held, start, length }
    }

    /// Memory that somebody else holds, for as long as it is used.
    pub fn over(bytes: &mut [u8]) -> Self {
        Memory { _held: Vec::new(), start: bytes.as_mut_ptr(), length: bytes.len() }
    }
}

impl Deref for Memory {
    type Target = [u8];

    fn deref(&self) -> &[u8] {
        unsafe { std::slice::from_raw_parts(self.start, self.length) }
    }
}

impl DerefMut for Memory {
    fn deref_mut(&mut self) -> &mut [u8] {
        unsafe { std::slice::from_raw_parts_mut(self.start, self.length) }
    }
}

/// A log and its record.
pub struct Log {
    pub bytes: Memory,
    record: Record,
}

impl Log {
    pub fn open(mut bytes: Memory, term: i32, mtu: i32) -> Self {
        let mut record = Record::default();
        assert_eq!(unsafe { logbuffer_open(&mut record, bytes.as_mut_ptr(), bytes.len(), term, mtu, 7, 11, 22) }, 0);
        assert_eq!(unsafe { logbuffer_set_publication_limit(&mut record, 1 << 62) }, 0);
        Log { bytes, record }
    }

    /// Opens the same memory again.
    pub fn reopen(&mut self, term: i32, mtu: i32) -> i32 {
        let mut record = Record::default();
        unsafe { logbuffer_open(&mut record, self.bytes.as_mut_ptr(), self.bytes.len(), term, mtu, 7, 11, 22) }
    }

    pub fn offer(&mut self, message: &[u8]) -> i64 {
        let (log, n) = (self.bytes.as_mut_ptr(), self.bytes.len());
        let reply = unsafe { logbuffer_offer(&mut self.record, log, n, message.as_ptr(), message.len(), 0) };
        self.mark(reply.code);
        reply.position - reply.code as i64
    }

    /// After a rotation every partition is marked as cleared, by hand: the Rust clears nothing, and what is measured are offers and claims.
    fn mark(&mut self, code: i32) {
        if code == 6 {
            self.record.cleared_marks = 7;
        }
    }

    /// The publisher has come so far in the first term, for frames written by hand: replays stop at its position.
    pub fn set_tail(&mut self, offset: usize) {
        self.record.tails[0] = (7 << 32) + offset as i64;
    }

    pub fn claim_and_commit(&mut self, length: i32) -> i32 {
        let (log, n) = (self.bytes.as_mut_ptr(), self.bytes.len());
        let reply = unsafe { logbuffer_try_claim(&mut self.record, log, n, length) };
        if reply.code != 0 {
            return self.refused(reply);
        }
        unsafe { logbuffer_commit(&self.record, log, n, reply.claim) }
    }

    /// Apart, so that a claim that is accepted asks for one number alone, as the Rust's side does.
    #[cold]
    fn refused(&mut self, reply: ClaimReply) -> i32 {
        self.mark(reply.code);
        (reply.code as i64 - reply.position) as i32
    }

    /// Polls all of the log; fragments, and a sum over the entries.
    pub fn poll_all(&self, entries: &mut [i32], limit: i32) -> (usize, i64) {
        let (mut image, mut fragments, mut sum) = (Image::default(), 0, 0);
        unsafe { logbuffer_image_new(&mut image, 0, 11) };
        loop {
            let (log, n) = (self.bytes.as_ptr(), self.bytes.len());
            let reply = unsafe { logbuffer_image_poll(&mut image, &self.record, log, n, limit, entries.as_mut_ptr(), entries.len()) };
            if reply.code != 0 || reply.fragments == 0 {
                return (fragments, sum);
            }
            sum += entries[..2 * reply.entries as usize].iter().map(|&x| x as i64).sum::<i64>();
            fragments += reply.fragments as usize;
        }
    }

    /// Replays all of the log message by message: how many, and their bytes.
    pub fn replay_all(&self, buffer: &mut [u8]) -> (usize, usize) {
        let (mut replay, mut messages, mut bytes) = (Replay::default(), 0, 0);
        unsafe { logbuffer_replay_new(&mut replay, 0, 11) };
        loop {
            let (log, n) = (self.bytes.as_ptr(), self.bytes.len());
            let reply = unsafe { logbuffer_replay_next(&mut replay, &self.record, log, n, buffer.as_mut_ptr(), buffer.len()) };
            if reply.code != 0 || reply.place == 0 {
                return (messages, bytes);
            }
            messages += 1;
            bytes += reply.length;
            std::hint::black_box(reply.start);
        }
    }

    /// The same with so many messages a call as the numbers hold.
    pub fn batch_all(&self, buffer: &mut [u8], numbers: &mut [usize]) -> (usize, usize) {
        let (mut replay, mut messages, mut bytes) = (Replay::default(), 0, 0);
        unsafe { logbuffer_replay_new(&mut replay, 0, 11) };
        loop {
            let (log, n, out) = (self.bytes.as_ptr(), self.bytes.len(), numbers.as_mut_ptr());
            let reply = unsafe {
                logbuffer_replay_next_batch(&mut replay, &self.record, log, n, buffer.as_mut_ptr(), buffer.len(), out, numbers.len())
            };
            if reply.code != 0 || reply.messages == 0 {
                return (messages, bytes);
            }
            for message in numbers[..4 * reply.messages].chunks_exact(4) {
                messages += 1;
                bytes += message[2];
            }
        }
    }

    /// The same in one call.
    pub fn count_all(&self, buffer: &mut [u8]) -> (usize, usize) {
        let (log, n) = (self.bytes.as_ptr(), self.bytes.len());
        let reply = unsafe { logbuffer_replay_count(&self.record, log, n, 0, 11, buffer.as_mut_ptr(), buffer.len()) };
        assert_eq!(reply.code, 0);
        (reply.messages, reply.bytes)
    }

    pub fn scan(&self, limit: i32) -> usize {
        let reply = unsafe { logbuffer_scan(&self.record, self.bytes.as_ptr(), self.bytes.len(), 0, 0, limit) };
        reply.offset + reply.code as usize
    }

    /// All that the four sums add up to: where the walk came to, from 0.
    pub fn tally(&self, to: i64) -> usize {
        let reply = unsafe { logbuffer_tally(&self.record, self.bytes.as_ptr(), self.bytes.len(), 0, to) };
        assert!(reply.code == 0 && reply.stop == 0);
        reply.sums.iter().sum()
    }

    pub fn tally_by_partition(&self, to: i64) -> usize {
        let reply = unsafe { logbuffer_tally_by_partition(&self.record, self.bytes.as_ptr(), self.bytes.len(), 0, to) };
        assert!(reply.all.code == 0 && reply.all.stop == 0 && reply.partitions[0] == reply.all.sums);
        reply.all.sums.iter().sum()
    }

    pub fn scan_for_gap(&self, high_mark: i32) -> usize {
        let reply = unsafe { logbuffer_scan_for_gap(&self.record, self.bytes.as_ptr(), self.bytes.len(), 0, 7, 0, high_mark) };
        reply.offset + reply.length + reply.code as usize + reply.is_gap as usize + reply.is_being_written as usize + reply.term_id as usize
    }

    pub fn scan_for_availability(&self, most: i32) -> i64 {
        let reply = unsafe { logbuffer_scan_for_availability(&self.record, self.bytes.as_ptr(), self.bytes.len(), 0, 0, most) };
        ((reply.padding as i64) << 32) + reply.available as i64 + reply.code as i64
    }
}
