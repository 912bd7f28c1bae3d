//! What long messages in fragments can at best come to: their bodies copied one by one to or from where they lie, and no header written or read. The Rust's
//! side of these rows is `copy_from_slice`, a call of memcpy, for each body.

use std::hint::black_box;

use crate::{filled, moved, original, over_terms, port, row, swapped, MTU, TERM};

const BODY: usize = MTU as usize - 32;

/// The bytes of the log that a message takes, each frame a multiple of 32.
fn framed(length: usize) -> usize {
    length.next_multiple_of(32) + 32 * length.div_ceil(BODY)
}

fn writes(length: usize, count: usize) {
    let (mut message, mut copy) = (port::Memory::zeroed(length + 4_096), port::Memory::zeroed(length + 4_096));
    message.fill(5);
    copy.fill(5);
    let logs = [original(TERM, MTU), original(TERM, MTU)];
    let mut ours = [over_terms(&logs[0], TERM, MTU), over_terms(&logs[1], TERM, MTU)];
    let (mut theirs, mut mine, mut from, mut copied_from, mut places) = (1, 0, 0, 0, [0, 0]);
    let copies = || {
        let k = swapped(&mut theirs);
        let (terms, message) = (logs[k].terms_mut(), &message[moved(&mut from)..][..length]);
        for _ in 0..count {
            let at = if places[k] + framed(length) > terms.len() { 0 } else { places[k] };
            for (i, body) in message.chunks(BODY).enumerate() {
                terms[at + i * MTU as usize + 32..][..body.len()].copy_from_slice(black_box(body));
            }
            places[k] = at + framed(length);
        }
    };
    let offers = || {
        let log = &mut ours[swapped(&mut mine)];
        let message = &copy[moved(&mut copied_from)..][..length];
        (0..count).for_each(|_| _ = black_box(log.offer(message)))
    };
    row(&format!("offer of {length}, mtu {MTU}, beside memcpy of its bodies"), count, copies, offers);
}

fn reads(length: usize, count: usize) {
    let (log, ours) = filled(TERM, length, count);
    let (mut buffer, mut lent) = (vec![0u8; length], vec![0; 16 << 20]);
    let in_a_term = TERM as usize / framed(length);
    let copies = || {
        for k in 0..count {
            let at = k / in_a_term * TERM as usize + k % in_a_term * framed(length);
            for (i, body) in buffer.chunks_mut(BODY).enumerate() {
                body.copy_from_slice(&log.terms()[at + i * MTU as usize + 32..][..body.len()]);
            }
            black_box(&mut buffer);
        }
    };
    row(&format!("replay of {length}, counted in one call, beside memcpy of its bodies"), count, copies, || ours.count_all(&mut lent));
}

pub fn rows() {
    writes(8_192, 4_000);
    reads(8_192, 4_000);
}
