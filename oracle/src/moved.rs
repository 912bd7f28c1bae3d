//! A call whose term ids wrap (`wrapped.rs`), held to the given Rust on the same record and log with every id moved by one number, so that none wraps.
//! `world.rs` moves the ids, runs the call, and moves them back.

use crate::calls::{Answer, Call, Record};
use crate::domain::align;

/// The number that takes a call's ids to where they do not wrap.
pub fn moved_by(call: &Call, record: &Record) -> i32 {
    match call {
        Call::RotateLog { term_id, .. } => 5i32.wrapping_sub(*term_id),
        Call::ComputePosition { initial_term_id, .. } => initial_term_id.wrapping_neg(),
        _ => record.initial_term_id.wrapping_neg(),
    }
}

pub fn moved_record(record: &Record, by: i32) -> Record {
    let tail = |raw: i64| (((raw >> 32) as i32).wrapping_add(by) as i64) << 32 | (raw & 0xffff_ffff);
    Record { initial_term_id: record.initial_term_id.wrapping_add(by), tails: record.tails.map(tail), ..*record }
}

pub fn moved_call(call: &Call, by: i32) -> Call {
    let mut moved = call.clone();
    match &mut moved {
        Call::RotateLog { term_id, .. } => *term_id = term_id.wrapping_add(by),
        Call::ComputePosition { term_id, initial_term_id, .. } => {
            (*term_id, *initial_term_id) = (term_id.wrapping_add(by), initial_term_id.wrapping_add(by))
        }
        _ => {}
    }
    moved
}

/// The answer's own term id: that of an accepted claim and of a header.
pub fn moved_answer(call: &Call, mut answer: Answer, by: i32) -> Answer {
    let place = match call {
        Call::TryClaim { .. } if answer.code == 0 => 4,
        Call::HeaderFields { .. } => 7,
        _ => return answer,
    };
    answer.values[place] = (answer.values[place] as i32).wrapping_add(by) as i64;
    answer
}

/// The ids of the frames of a term between two offsets.
pub fn move_frames(term: &mut [u8], from: usize, to: usize, by: i32) {
    let mut at = from;
    while at + 32 <= to.min(term.len()) {
        move_id(&mut term[at + 20..at + 24], by);
        let length = i32::from_le_bytes(term[at..at + 4].try_into().expect("four bytes"));
        at += align((length as i64).abs().max(1)) as usize;
    }
}

pub fn move_id(bytes: &mut [u8], by: i32) {
    let id = i32::from_le_bytes((&*bytes).try_into().expect("four bytes"));
    bytes.copy_from_slice(&id.wrapping_add(by).to_le_bytes());
}
