//! Calls in which term ids wrap (R-8 of document 02): there the given Rust overflows, or goes on counting past 32 bits, so equality with it
//! leaves them out. Part of `domain.rs`; `moved.rs` has how they are held to the Rust all the same.

use crate::calls::Call;
use crate::domain::{rule, State};

fn fits(number: i64) -> bool {
    i32::try_from(number).is_ok()
}

/// Of a call that rows 1 and 2 let through: an id too far from the initial one, or a rotation that leaves the ids' range, upwards or by the id
/// of two terms before.
pub fn wraps(call: &Call, s: &State) -> bool {
    let r = s.record;
    let id = r.tails[(r.active_term_count % 3).max(0) as usize] >> 32;
    let is_far = |id: i64| !fits(id - r.initial_term_id as i64);
    let is_turned = |id: i64| !fits(id + 1) || !fits(id - 2);
    match call {
        // The rules from the fifth on come after the count; by the thirteenth and the fourteenth the Rust rotates.
        Call::Offer { .. } | Call::TryClaim { .. } => {
            let place = rule(call, s).map_or(0, |(place, _)| place);
            place >= 5 && (is_far(id) || (13..=14).contains(&place) && is_turned(id))
        }
        Call::RotateLog { term_id, .. } => is_turned(*term_id as i64),
        Call::Position | Call::AvailableWindow => !r.is_closed && is_far(id),
        Call::HeaderFields { partition, offset } => is_far(s.term_id(*partition as i64, *offset as i64) as i64),
        Call::ComputePosition { term_id, initial_term_id, .. } => !fits(*term_id as i64 - *initial_term_id as i64),
        _ => false,
    }
}
