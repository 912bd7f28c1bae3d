//! What the tests share: a small log, a log made by hand, and a seeded generator.
#![allow(dead_code)] // no test uses all of it

use logbuffer::{Error, Log, Record};

pub const TERM: i32 = 65_536;

/// Term length 65,536, mtu 96, initial id 7, a large limit, empty: the log of document 01's small inputs.
pub fn log() -> Log {
    let mut log = Log::open(TERM, 96, 7, 11, 22).unwrap();
    log.set_publication_limit(1 << 40).unwrap();
    log
}

/// The same log after its record and bytes were changed.
pub fn made(change: impl FnOnce(&mut Record, &mut Vec<u8>)) -> Result<Log, Error> {
    let (mut record, mut bytes) = log().into_parts();
    change(&mut record, &mut bytes);
    Log::from_parts(record, bytes)
}

pub fn raw_tail(term_id: i64, offset: i64) -> i64 {
    (term_id << 32) + offset
}

/// Writes the fields of a frame's header that readers look at.
pub fn put_frame(bytes: &mut [u8], offset: usize, length: i32, flags: u8, session_id: i32) {
    bytes[offset..offset + 4].copy_from_slice(&length.to_le_bytes());
    bytes[offset + 5] = flags;
    bytes[offset + 6] = 1;
    bytes[offset + 12..offset + 16].copy_from_slice(&session_id.to_le_bytes());
}

/// SplitMix64: the same seed gives the same numbers.
pub struct Random(pub u64);

impl Random {
    pub fn next(&mut self) -> u64 {
        self.0 = self.0.wrapping_add(0x9e37_79b9_7f4a_7c15);
        let mut z = self.0;
        z = (z ^ (z >> 30)).wrapping_mul(0xbf58_476d_1ce4_e5b9);
        z = (z ^ (z >> 27)).wrapping_mul(0x94d0_49bb_1331_11eb);
        z ^ (z >> 31)
    }

    pub fn below(&mut self, end: usize) -> usize {
        (self.next() % end as u64) as usize
    }

    /// Of a random length below an end.
    pub fn message(&mut self, end: usize) -> Vec<u8> {
        let length = self.below(end);
        self.bytes(length)
    }

    pub fn bytes(&mut self, length: usize) -> Vec<u8> {
        (0..length).map(|_| self.next() as u8).collect()
    }
}
