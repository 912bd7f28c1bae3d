//! The assembler's part of `domain.rs`, from document 01: its bookkeeping, and where a fragment or a replay is refused 18, 22 or 23.

use crate::calls::{Assembler, Call, Image, Record};
use crate::domain::{align, State, Verdict};

/// What a frame does to the bookkeeping: the number, the session's part that its body goes to, from where, and whether a message ends.
pub struct Fragment {
    pub next: Assembler,
    pub code: i32,
    /// Part, offset in it, and length held afterwards, where the body is taken.
    pub taken: Option<(usize, usize, usize)>,
    pub is_delivered: bool,
}

/// 01: an unfragmented message touches no session; a begin frame enters its session and drops what it held; any other frame is
/// ignored unless its session holds at least one byte.
pub fn fragment(assembler: &Assembler, flags: u8, session: i32, body: usize, part: usize) -> Fragment {
    let mut all = Fragment { next: *assembler, code: 0, taken: None, is_delivered: false };
    let (is_begin, is_end) = (flags & 0x80 != 0, flags & 0x40 != 0);
    if is_begin && is_end {
        return all;
    }
    let known = (0..assembler.count.min(16)).find(|k| assembler.ids[*k] == session);
    let place = match known {
        Some(k) => k,
        None if !is_begin => return all,
        None if assembler.count >= 16 => {
            all.code = 18;
            return all;
        }
        None => {
            all.next.ids[assembler.count] = session;
            all.next.held[assembler.count] = 0;
            all.next.count += 1;
            assembler.count
        }
    };
    let held = if is_begin { 0 } else { assembler.held[place] };
    if !is_begin && held == 0 {
        return all;
    }
    if held > part || body > part - held {
        all.code = 18;
        all.next.held[place] = 0;
        return all;
    }
    all.taken = Some((place, held, held + body));
    all.is_delivered = is_end;
    all.next.held[place] = if is_end { 0 } else { held + body };
    all
}

fn on_fragment(s: &State, partition: i32, offset: i32) -> Verdict {
    if let Some(verdict) = s.fragment(partition, offset) {
        return verdict;
    }
    let (partition, offset) = (partition as i64, offset as i64);
    let (length, _, is_sound) = s.frame(partition, offset);
    if !is_sound {
        return s.bad_frame(partition, offset);
    }
    let (flags, session) = s.flags(partition, offset);
    match fragment(s.assembler, flags, session, length as usize - 32, s.buffer / 16).code {
        0 => Verdict::Inside,
        code => Verdict::Refused(code),
    }
}

/// So many polls of one fragment make a call of a replay at most, and so many messages a count: the bytes of the log, and one. Only a log and a record that no
/// calls made come to it, where the publisher's position is far ahead and finished frames go all round.
pub fn most(record: &Record) -> usize {
    3 * record.term_length.max(0) as usize + 1
}

/// A replay polls one fragment at a time into its assembler, only while below the publisher's position (R-4 of document 02);
/// `whole` goes on after a message.
fn replay(s: &State, image: &Image, assembler: &Assembler, buffer: usize, whole: bool) -> Verdict {
    if let Some(verdict) = s.replayable(image) {
        return verdict;
    }
    let (mut at, mut assembler) = (image.position, *assembler);
    let (end, most) = (s.record.publisher_position(), most(s.record));
    let (mut polls, mut messages, mut is_polling) = (0, 0, false);
    loop {
        let (partition, offset) = (at / s.term() % 3, at % s.term());
        // A poll goes on over padding up to the term's end.
        if !is_polling || offset == 0 {
            if at >= end || polls == most || messages == most {
                return Verdict::Inside;
            }
            polls += 1;
        }
        let (length, is_padding, is_sound) = s.frame(partition, offset);
        if length > 0 && !is_sound {
            // Behind padding the poll stops there, and the next one begins there, if it is made.
            let is_made = !is_polling || (at < end && polls < most);
            let stopped = Verdict::Stopped((partition * s.term() + offset) as usize);
            return if is_made { s.bad_frame(partition, offset) } else { stopped };
        }
        if length <= 0 {
            return Verdict::Inside;
        }
        at += align(length);
        is_polling = is_padding;
        if is_padding {
            continue;
        }
        let (flags, session) = s.flags(partition, offset);
        let step = fragment(&assembler, flags, session, length as usize - 32, buffer / 16);
        if step.code != 0 {
            return Verdict::Refused(step.code);
        }
        assembler = step.next;
        let is_message = step.is_delivered || flags & 0xc0 == 0xc0;
        if is_message && !whole {
            return Verdict::Inside;
        }
        if is_message {
            (polls, messages) = (0, messages + 1);
        }
    }
}

pub fn judge(call: &Call, s: &State) -> Option<Verdict> {
    Some(match call {
        Call::AssemblerNew { .. } | Call::ReplayNew { .. } => Verdict::Inside,
        Call::OnFragment { partition, offset } => on_fragment(s, *partition, *offset),
        Call::ReplayNext => replay(s, s.replay.0, s.replay.1, s.replay.2, false),
        Call::ReplayCount { position, buffer, .. } => {
            let image = Image { position: *position, ..Image::default() };
            replay(s, &image, &Assembler::default(), *buffer, true)
        }
        _ => return None,
    })
}
