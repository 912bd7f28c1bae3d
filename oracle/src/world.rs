//! Both sides in step: each call is judged by `domain.rs`, run on the port and, where it is inside the domain, on the given Rust,
//! and everything that the two show is compared. `compare.rs` runs lists of calls on it; `lists.rs` makes them.

use crate::assemblies;
use crate::calls::{Answer, Assembler, Call, Record, IMAGES, UNWRITTEN};
use crate::domain::{judge, rule, season, State, Verdict};
use crate::moved;
use crate::original::{Original, Outcome};
use crate::port::Port;
use crate::wrapped::wraps;

/// Logs up to this length are compared whole after every call; of longer ones the parts that calls write, and all at a list's end.
const WHOLE: usize = 4 << 20;
const WINDOW: usize = 128 << 10;

/// How a log is opened.
#[derive(Clone, Copy, Debug)]
pub struct Start {
    pub term_length: i32,
    pub mtu_length: i32,
    pub initial_term_id: i32,
    pub session_id: i32,
    pub stream_id: i32,
}

/// What became of a call.
#[derive(Clone, Copy, PartialEq, Eq, Hash, PartialOrd, Ord, Debug)]
pub enum Told {
    /// Both sides answered the same; the number, 0 for none.
    Compared(i32),
    /// The port stopped before an unsound frame, as the Rust does where that frame's length is 0.
    Stopped,
    /// Outside: the port answered the number that 01 gives.
    Refused(i32),
    /// Outside: a peek without bytes, or a `bounded_poll` far below its position; the port read nothing.
    Empty,
    /// Left out: a sum of the Rust overflowed, or a number does not fit its i32 or i64.
    Overflowed,
    /// Left out, by R-8 of document 02: term ids wrap. The Rust answered the same with its ids moved.
    Wrapped,
    /// Left out, by R-3 of document 02: the port refused 5 where the Rust refused 4.
    ClosedAndLong,
    /// A clearing done, or the slowest reader raised, which the Rust has not (R-4 of document 02).
    Alone,
    ByHand,
}

pub struct World {
    pub port: Port,
    original: Original,
    /// The assembler's lent buffer as document 01 would have it.
    buffer: Vec<u8>,
    /// The values of the port's last answer.
    pub answered: [i64; 10],
}

impl World {
    /// Two logs just opened.
    pub fn open(start: &Start) -> Result<Self, String> {
        let terms = 3 * start.term_length as usize;
        let mut port = Port::new(terms);
        if terms <= WHOLE {
            port.log.get_mut().fill(0xee);
        }
        let record = Record {
            term_length: start.term_length,
            mtu_length: start.mtu_length,
            initial_term_id: start.initial_term_id,
            ..Record::default()
        };
        let mut world = World { port, original: Original::new(&record), buffer: Vec::new(), answered: [0; 10] };
        let Start { term_length, mtu_length, initial_term_id, session_id, stream_id } = *start;
        world.step(&Call::Open { term_length, mtu_length, initial_term_id, session_id, stream_id })?;
        world.whole_log()?;
        Ok(world)
    }

    pub fn state(&self) -> State<'_> {
        let port = &self.port;
        State {
            record: &port.record,
            log: port.lent_log(),
            images: &port.images,
            assembler: &port.assembler,
            buffer: port.buffer.get().len(),
            replay: (&port.replay.image, &port.replay.assembler, port.replay_buffer.get().len()),
        }
    }

    /// Runs a call on both sides; an error tells the first difference.
    pub fn step(&mut self, call: &Call) -> Result<Told, String> {
        if call.is_by_hand() {
            self.port.call(call);
            self.original.call(call);
            if let Call::SetAssembler { .. } = call {
                self.original.set_assembler(&self.port.assembler, self.port.buffer.get());
            }
            return Ok(Told::ByHand);
        }
        let verdict = judge(call, &self.state());
        let rule = rule(call, &self.state());
        let left = season(call, &self.state(), verdict, rule);
        let by = if verdict == Verdict::Refused(19) && wraps(call, &self.state()) { moved::moved_by(call, &self.port.record) } else { 0 };
        let fragment = self.expected_fragment(call, verdict);
        let before = self.port.record;
        let answer = self.port.call(call);
        self.answered = answer.values;
        self.decided(rule, &answer)?;
        self.marked(left)?;
        let told = match verdict {
            Verdict::Inside => self.inside(call, &answer)?,
            Verdict::Stopped(at) => self.stopped(call, &answer, at)?,
            Verdict::Refused(19) => self.not_cleared(call, &answer, &before, by)?,
            Verdict::Refused(number) => self.refused(call, &answer, Answer::refusal(number))?,
            Verdict::BadFrame(number, place) => self.refused(call, &answer, Answer::bad_frame(number, place))?,
            Verdict::Empty => self.empty(call, &answer)?,
            Verdict::Overflows => self.overflows(call)?,
            Verdict::Wrapped => self.wrapped(call, &answer, &before)?,
            Verdict::ClosedAndLong => self.closed_and_long(call, &answer)?,
            Verdict::Alone => self.alone(call, &answer)?,
        };
        self.assembled(call, fragment)?;
        self.same_state(before.tails, call).map_err(|what| format!("{what}; port answered {answer:?}"))?;
        Ok(told)
    }

    /// The port's rule is the papers', and so is its number.
    fn decided(&self, rule: Option<(u32, i32)>, answer: &Answer) -> Result<(), String> {
        match rule {
            Some(rule) if rule != (self.port.rule, answer.code) => {
                Err(format!("decided by rule {} with {}: R-10 of 02 has {rule:?}", self.port.rule, answer.code))
            }
            _ => Ok(()),
        }
    }

    /// The slowest reader and the marks are the papers'; the Rust has neither, so they are kept beside its record.
    fn marked(&mut self, left: (i64, u64)) -> Result<(), String> {
        let r = &self.port.record;
        if (r.slowest_position, r.cleared_marks) != left {
            return Err(format!("slowest reader {} and marks {:x}: R-4 of 02 has {left:x?}", r.slowest_position, r.cleared_marks));
        }
        self.original.set_season(left);
        Ok(())
    }

    /// Done by the port alone. What it clears is cleared in the Rust's log by hand.
    fn alone(&mut self, call: &Call, answer: &Answer) -> Result<Told, String> {
        same(answer, &Answer::default(), "R-4 of 02")?;
        if let Call::ClearPartition { partition } = call {
            let term = self.port.record.term_length as usize;
            self.original.log.terms_mut()[*partition as usize * term..][..term].fill(0);
        }
        Ok(Told::Alone)
    }

    /// The Rust knows no marks: it trips too, and rotates. Tail and padding have to be the same; its count and the next partition's tail are set back. Where
    /// ids wrap it runs with every id moved.
    fn not_cleared(&mut self, call: &Call, answer: &Answer, before: &Record, by: i32) -> Result<Told, String> {
        same(answer, &Answer::refusal(19), "R-4 of 02")?;
        let back = by.wrapping_neg();
        self.original.set_record(&moved::moved_record(before, by));
        match self.original.call(call) {
            Outcome::Answered(given) if given == Answer::refusal(6) => {}
            _ => return Err("19, but the Rust does not trip and rotate".to_string()),
        }
        let given = moved::moved_record(&self.original.record(), back);
        let k = (before.active_term_count % 3) as usize;
        let mut left = *before;
        left.tails[k] = given.tails[k];
        if left != self.port.record || given.active_term_count != before.active_term_count + 1 {
            return Err(format!("19; records differ: port {:?}, Rust {given:?}", self.port.record));
        }
        if by != 0 {
            let term = before.term_length as usize;
            let [from, to] = [before.tails[k], left.tails[k]].map(|raw| (raw & 0xffff_ffff) as usize);
            moved::move_frames(&mut self.original.log.terms_mut()[k * term..(k + 1) * term], from, to, back);
        }
        self.original.set_record(&self.port.record);
        Ok(Told::Refused(19))
    }

    fn inside(&mut self, call: &Call, answer: &Answer) -> Result<Told, String> {
        match self.original.call(call) {
            Outcome::Answered(given) if given == *answer => Ok(Told::Compared(answer.code)),
            Outcome::Answered(given) => Err(format!("answers differ: port {answer:?}, Rust {given:?}")),
            Outcome::Overflowed => Err(format!("an overflow in the Rust that was not foreseen; port {answer:?}")),
            Outcome::Panicked(text) => Err(format!("the Rust panicked inside the domain: {text}; port {answer:?}")),
        }
    }

    /// Left out; the Rust is run all the same, to see that it does overflow.
    fn overflows(&mut self, call: &Call) -> Result<Told, String> {
        if !matches!(self.original.call(call), Outcome::Overflowed) {
            return Err("an overflow was foreseen, and the Rust has none".to_string());
        }
        self.set_original();
        Ok(Told::Overflowed)
    }

    /// Left out of equality; the Rust runs with every id moved, and then answer, record and frames have their ids moved back. In the last term it
    /// overflows by its count, with tail and padding left as 12 leaves them.
    fn wrapped(&mut self, call: &Call, answer: &Answer, before: &Record) -> Result<Told, String> {
        let by = moved::moved_by(call, before);
        let back = by.wrapping_neg();
        self.original.set_record(&moved::moved_record(before, by));
        let term = before.term_length as usize;
        if let Call::HeaderFields { partition, offset } = call {
            let at = *partition as usize * term + *offset as usize + 20;
            moved::move_id(&mut self.original.log.terms_mut()[at..at + 4], by);
        }
        match self.original.call(&moved::moved_call(call, by)) {
            Outcome::Answered(given) => same(answer, &moved::moved_answer(call, given, back), "the Rust, its ids moved,")?,
            Outcome::Overflowed if answer.code == 12 => {}
            _ => return Err(format!("ids wrap: the Rust, its ids moved, has no answer; port {answer:?}")),
        }
        self.original.set_season((self.port.record.slowest_position, self.port.record.cleared_marks));
        let record = moved::moved_record(&self.original.record(), back);
        if record != self.port.record {
            return Err(format!("ids wrap; records differ: port {:?}, Rust {record:?}", self.port.record));
        }
        if let Call::Offer { .. } | Call::TryClaim { .. } = call {
            let k = (before.active_term_count % 3) as usize;
            let [from, to] = [before.tails[k], record.tails[k]].map(|raw| (raw & 0xffff_ffff) as usize);
            if to > from {
                moved::move_frames(&mut self.original.log.terms_mut()[k * term..(k + 1) * term], from, to, back);
            }
            self.windows(before.tails, call)?;
        }
        self.set_original();
        Ok(Told::Wrapped)
    }

    /// Left out of equality; both run all the same, and each has to refuse with its own number. Neither changes anything.
    fn closed_and_long(&mut self, call: &Call, answer: &Answer) -> Result<Told, String> {
        same(answer, &Answer::refusal(5), "R-3 of 02")?;
        match self.original.call(call) {
            Outcome::Answered(given) if given == Answer::refusal(4) => Ok(Told::ClosedAndLong),
            _ => Err("a claim over the payload limit on a closed publication: the Rust does not refuse 4".to_string()),
        }
    }

    /// The Rust is set again from the port.
    fn set_original(&mut self) {
        self.original.set_record(&self.port.record);
        self.original.log.terms_mut().copy_from_slice(self.port.log.get());
        (0..IMAGES).for_each(|k| self.original.set_image(k, self.port.images[k]));
        self.original.set_assembler(&self.port.assembler, self.port.buffer.get());
        let replay = self.port.replay;
        self.original.set_replay(replay.image, &replay.assembler, self.port.replay_buffer.get());
    }

    /// The Rust runs with that frame's length 0, so that it stops there too. A gap scan would then report a gap, the port none.
    fn stopped(&mut self, call: &Call, answer: &Answer, at: usize) -> Result<Told, String> {
        if let Call::ScanForGap { .. } = call {
            let offset = at as i64 % self.port.record.term_length as i64;
            let expected = Answer::of(&[0, 0, offset, 0]);
            return same(answer, &expected, "01").map(|()| Told::Stopped);
        }
        let word: [u8; 4] = self.original.log.terms()[at..at + 4].try_into().expect("four bytes");
        self.original.log.terms_mut()[at..at + 4].fill(0);
        self.inside(call, answer)?;
        self.original.log.terms_mut()[at..at + 4].copy_from_slice(&word);
        Ok(Told::Stopped)
    }

    fn refused(&mut self, call: &Call, answer: &Answer, expected: Answer) -> Result<Told, String> {
        let number = expected.code;
        same(answer, &Answer { entries: lent(call), ..expected }, "the papers")?;
        match call {
            // Tail and padding stay: so they do in the Rust, which overflows only after them.
            Call::Offer { .. } | Call::TryClaim { .. } if number == 12 => {
                if !matches!(self.original.call(call), Outcome::Overflowed) {
                    return Err("row 12, but no overflow in the Rust".to_string());
                }
            }
            Call::OnFragment { .. } if number == 18 => {
                self.original.set_assembler(&self.port.assembler, self.port.buffer.get());
            }
            // A replay may have moved before the frame that it refuses; 01 leaves that open.
            Call::ReplayNext if number >= 18 => {
                let replay = self.port.replay;
                self.original.set_replay(replay.image, &replay.assembler, self.port.replay_buffer.get());
            }
            _ => {}
        }
        Ok(Told::Refused(number))
    }

    fn empty(&mut self, call: &Call, answer: &Answer) -> Result<Told, String> {
        let first = if let Call::ControlledPeek { start, .. } = call { *start } else { 0 };
        same(answer, &Answer { entries: lent(call), ..Answer::of(&[first, 0]) }, "01").map(|()| Told::Empty)
    }

    /// The bookkeeping that 01 asks for after a fragment that reaches it.
    fn expected_fragment(&mut self, call: &Call, verdict: Verdict) -> Option<assemblies::Fragment> {
        if let Call::AssemblerNew { buffer } = call {
            self.buffer = vec![0; *buffer];
        }
        let Call::OnFragment { partition, offset } = call else { return None };
        if !matches!(verdict, Verdict::Inside | Verdict::Refused(18)) {
            return None;
        }
        let state = self.state();
        let (partition, offset) = (*partition as i64, *offset as i64);
        let (flags, session) = state.flags(partition, offset);
        let length = state.frame(partition, offset).0 as usize - 32;
        let part = self.buffer.len() / 16;
        let step = assemblies::fragment(&self.port.assembler, flags, session, length, part);
        if let Some((k, from, to)) = step.taken {
            let start = (partition * self.port.record.term_length as i64 + offset) as usize + 32;
            self.buffer[k * part + from..k * part + to].copy_from_slice(&self.port.log.get()[start..start + length]);
        }
        Some(step)
    }

    fn assembled(&mut self, call: &Call, fragment: Option<assemblies::Fragment>) -> Result<(), String> {
        let Some(fragment) = fragment else { return Ok(()) };
        // A count over 16, made by hand, is taken as 16; whether it is also written back so is left open.
        let counted = |assembler: &Assembler| Assembler { count: assembler.count.min(16), ..*assembler };
        if counted(&fragment.next) != counted(&self.port.assembler) {
            return Err(format!("bookkeeping after {call:?}: port {:?}, 01 {:?}", self.port.assembler, fragment.next));
        }
        if self.buffer != self.port.buffer.get() {
            return Err("the assembler's buffer differs".to_string());
        }
        match fragment.taken {
            Some((k, ..)) if fragment.is_delivered && self.port.start != k * (self.buffer.len() / 16) => {
                Err(format!("message at {} of the buffer, part {k}", self.port.start))
            }
            _ => Ok(()),
        }
    }

    fn same_state(&self, tails: [i64; 3], call: &Call) -> Result<(), String> {
        let record = self.original.record();
        if record != self.port.record {
            return Err(format!("records differ: port {:?}, Rust {record:?}", self.port.record));
        }
        for k in 0..IMAGES {
            let (port, given) = (self.port.images[k], self.original.image(k));
            if port != given {
                return Err(format!("images {k} differ: port {port:?}, Rust {given:?}"));
            }
        }
        let given = self.original.replay_image();
        if self.port.replay.image != given {
            return Err(format!("replays differ: port {:?}, Rust {given:?}", self.port.replay.image));
        }
        if self.original.log.near_margins_touched() || self.port.margins_touched() {
            return Err("bytes outside the log were written".to_string());
        }
        if self.port.log.get().len() <= WHOLE {
            return self.whole_log();
        }
        self.windows(tails, call)
    }

    /// The margins and every byte of the three terms.
    pub fn whole_log(&self) -> Result<(), String> {
        if self.original.log.margins_touched() {
            return Err("bytes outside the log were written".to_string());
        }
        self.same_bytes(0, self.port.log.get().len())
    }

    fn same_bytes(&self, from: usize, to: usize) -> Result<(), String> {
        let (port, given) = (&self.port.log.get()[from..to], &self.original.log.terms()[from..to]);
        if port == given {
            return Ok(());
        }
        let at = from + port.iter().zip(given).position(|(a, b)| a != b).unwrap_or(0);
        let end = (at + 40).min(to);
        let (a, b) = (&self.port.log.get()[at..end], &self.original.log.terms()[at..end]);
        Err(format!("logs differ from byte {at}: port {a:02x?}, Rust {b:02x?}"))
    }

    /// Around each tail before and after the call, and around a claim.
    fn windows(&self, before: [i64; 3], call: &Call) -> Result<(), String> {
        let term = self.port.record.term_length.max(1) as usize;
        let mut places: Vec<usize> = (0..3)
            .flat_map(|k| [before[k], self.port.record.tails[k]].map(|tail| k * term + (tail as u32 as usize).min(term)))
            .collect();
        if let Call::WriteBody { claim, .. } | Call::Commit { claim } | Call::Abort { claim } = call {
            places.push((claim.partition.max(0) as usize).min(3) * term + (claim.offset.max(0) as usize).min(term));
        }
        places.into_iter().try_for_each(|at| {
            let end = self.port.log.get().len();
            self.same_bytes(at.saturating_sub(WINDOW).min(end), (at + WINDOW).min(end))
        })
    }
}

/// The lent entries of a call, all unwritten.
fn lent(call: &Call) -> Vec<i32> {
    match call {
        Call::Read { entries, .. }
        | Call::Poll { entries, .. }
        | Call::BoundedPoll { entries, .. }
        | Call::ControlledPoll { entries, .. }
        | Call::ControlledPeek { entries, .. } => vec![UNWRITTEN; *entries],
        _ => Vec::new(),
    }
}

fn same(answer: &Answer, expected: &Answer, whose: &str) -> Result<(), String> {
    if answer == expected {
        return Ok(());
    }
    Err(format!("answers differ: port {answer:?}, {whose} {expected:?}"))
}
