//! The domain of the differential runs, judged from the papers' text alone, document 01 as document 02 amends it: whether a call on a
//! state is inside it, and else the number that they give. Rows 4 to 10, 13, 15 and 16 are inside, so of them only their place in the
//! order matters here. `rule` reads the order of offers and claims a second time, for the rule that they answer.
//! `assemblies.rs` has the assembler's rows, `overflows.rs` the sums that overflow; `world.rs` uses the three.

use crate::assemblies;
use crate::overflows::overflows;
use crate::wrapped::wraps;
use crate::calls::{Assembler, Call, Claim, Image, Record};

/// What a call is judged on.
pub struct State<'a> {
    pub record: &'a Record,
    pub log: &'a [u8],
    pub images: &'a [Image],
    pub assembler: &'a Assembler,
    pub buffer: usize,
    pub replay: (&'a Image, &'a Assembler, usize),
}

#[derive(Clone, Copy, PartialEq, Eq, Debug)]
pub enum Verdict {
    Inside,
    /// Refused by a number that is outside the domain.
    Refused(i32),
    /// The first frame is unsound: 22 or 23, with its offset in its term (R-7 of document 02).
    BadFrame(i32, i64),
    /// Not refused, and outside: a peek without bytes, or a `bounded_poll` far below the position. Nothing is read.
    Empty,
    /// Let through, but a sum of the Rust overflows.
    Overflows,
    /// Stopped by an unsound frame at this index of the log, which is not the first frame met.
    Stopped(usize),
    /// Term ids wrap (R-8 of document 02): the Rust overflows, or counts on past 32 bits.
    Wrapped,
    /// A claim over the payload limit on a closed publication: by R-3 of document 02 it refuses 5, and in the Rust 4.
    ClosedAndLong,
    /// Done, by a call that the Rust has not: a clearing, or the slowest reader raised (R-4 of document 02).
    Alone,
}

use Verdict::{Alone, BadFrame, ClosedAndLong, Empty, Inside, Refused, Stopped};

const MOST: i64 = 2_147_483_647;

pub fn align(length: i64) -> i64 {
    (length + 31).div_euclid(32) * 32
}

/// A verdict that ends the judging, or nothing.
type Step = Option<Verdict>;

fn refuse_if(is_broken: bool, number: i32) -> Step {
    is_broken.then_some(Refused(number))
}

impl State<'_> {
    fn term_length(&self) -> i64 {
        self.record.term_length as i64
    }

    fn greatest(&self) -> i64 {
        self.term_length() << 31
    }

    fn tail(&self, partition: usize) -> (i64, i64) {
        let raw = self.record.tails[partition];
        (raw >> 32, raw & 0xffff_ffff)
    }

    fn active(&self) -> usize {
        (self.record.active_term_count % 3).max(0) as usize
    }

    /// Row 2 without the log. `tail` is the partition whose tail offset is judged.
    fn breaks_record(&self, tail: usize) -> bool {
        let r = self.record;
        let length = r.term_length as i64;
        let is_power = (16..=30).any(|bits| length == 1 << bits);
        let is_mtu = r.mtu_length % 32 == 0 && (64..=65_504).contains(&r.mtu_length);
        let offset = self.tail(tail).1;
        !is_power
            || !is_mtu
            || r.active_term_count < 0
            || offset % 32 != 0
            || offset > MOST
            || !(0..=1 << 62).contains(&r.publication_limit)
            || self.off_position(r.slowest_position)
    }

    /// Row 3: a position that no reader may have.
    fn off_position(&self, position: i64) -> bool {
        position < 0 || position > self.greatest() || position % 32 != 0
    }

    /// Whether a partition is marked as cleared.
    fn is_marked(&self, partition: u32) -> bool {
        self.record.cleared_marks >> partition & 1 == 1
    }

    /// Row 2 with the log: exactly three terms.
    fn breaks(&self, tail: usize) -> Step {
        refuse_if(self.breaks_record(tail) || self.log.len() as i64 != 3 * self.term_length(), 2)
    }

    /// Row 1 of a partition and an offset that is a multiple of 32 up to a last one.
    fn off_range(&self, partition: i32, offset: i32, last: i64) -> Step {
        let is_offset = offset >= 0 && offset % 32 == 0 && (offset as i64) <= last;
        refuse_if(!(0..=2).contains(&partition) || !is_offset, 1)
    }

    fn word(&self, index: usize) -> i32 {
        i32::from_le_bytes(self.log[index..index + 4].try_into().expect("four bytes"))
    }

    /// Length and type of the frame at an offset of a partition, and whether it is sound.
    pub fn frame(&self, partition: i64, offset: i64) -> (i64, bool, bool) {
        let index = (partition * self.term_length() + offset) as usize;
        let length = self.word(index) as i64;
        let is_padding = self.log[index + 6] == 0 && self.log[index + 7] == 0;
        let is_unsound = (1..32).contains(&length) || (length > 0 && offset + align(length) > self.term_length());
        (length, is_padding, !is_unsound)
    }

    /// The refusal of an unsound frame: by its length, and with its place.
    pub fn bad_frame(&self, partition: i64, offset: i64) -> Verdict {
        let length = self.frame(partition, offset).0;
        BadFrame(if length < 32 { 22 } else { 23 }, offset)
    }

    fn unsound(&self, partition: i64, offset: i64, is_first: bool) -> Verdict {
        if is_first {
            self.bad_frame(partition, offset)
        } else {
            Stopped((partition * self.term_length() + offset) as usize)
        }
    }
}

/// Where a reader walks: partition, offset, the end that it stays below, how many fragments, and the answers to them.
struct Walk<'a> {
    partition: i64,
    offset: i64,
    end: i64,
    fragments: i64,
    actions: &'a [u8],
}

/// Polls, reads and peeks.
fn read(s: &State, walk: &Walk) -> Verdict {
    let (mut at, mut fragments) = (walk.offset, 0);
    while fragments < walk.fragments && at < walk.end {
        let (length, is_padding, is_sound) = s.frame(walk.partition, at);
        if length <= 0 {
            break;
        }
        if !is_sound {
            return s.unsound(walk.partition, at, at == walk.offset);
        }
        at += align(length);
        if is_padding {
            continue;
        }
        fragments += 1;
        if matches!(walk.actions.get(fragments as usize - 1), Some(1 | 2)) {
            break;
        }
    }
    Inside
}

/// Scans and blocks: padding ends them, as does a frame that would end past the limit.
fn scan(s: &State, partition: i64, offset: i64, limit: i64) -> Verdict {
    let mut at = offset;
    while at < limit {
        let (length, is_padding, is_sound) = s.frame(partition, at);
        if length <= 0 {
            break;
        }
        if !is_sound {
            return s.unsound(partition, at, at == offset);
        }
        if is_padding || at + align(length) > limit {
            break;
        }
        at += align(length);
    }
    Inside
}

fn scan_for_gap(s: &State, partition: i64, offset: i64, high_mark: i64) -> Verdict {
    let mut at = offset;
    loop {
        let (length, _, is_sound) = s.frame(partition, at);
        if length <= 0 {
            return Inside;
        }
        if !is_sound {
            return s.unsound(partition, at, at == offset);
        }
        at += align(length);
        if at >= high_mark {
            return Inside;
        }
    }
}

/// Padding counts with its header only, so the scan goes on inside it.
fn scan_for_availability(s: &State, partition: i64, offset: i64, maximum: i64) -> Verdict {
    let maximum = maximum.min(s.term_length() - offset);
    let mut available = 0;
    loop {
        let (length, is_padding, is_sound) = s.frame(partition, offset + available);
        if length <= 0 {
            return Inside;
        }
        if !is_sound {
            return s.unsound(partition, offset + available, available == 0);
        }
        let aligned = if is_padding { 32 } else { align(length) };
        let padding = if is_padding { align(length) - 32 } else { availability_padding(s, partition, offset, available) };
        if available + aligned > maximum || available + aligned + padding >= maximum {
            return Inside;
        }
        available += aligned;
    }
}

/// The padding kept from before the frame at `until`: that of the last padding frame passed.
fn availability_padding(s: &State, partition: i64, offset: i64, until: i64) -> i64 {
    let (mut available, mut padding) = (0, 0);
    while available < until {
        let (length, is_padding, _) = s.frame(partition, offset + available);
        if is_padding {
            padding = align(length) - 32;
        }
        available += if is_padding { 32 } else { align(length) };
    }
    padding
}

/// What a message needs: its frames' aligned lengths.
pub fn need(length: i64, payload_limit: i64) -> i64 {
    if length <= payload_limit {
        return align(length + 32);
    }
    let rest = length % payload_limit;
    length / payload_limit * (payload_limit + 32) + if rest > 0 { align(rest + 32) } else { 0 }
}

/// Offers and claims after rows 1, 2, 5 and 4: only 11, and 12 and 19 after a trip, are outside.
fn publish(s: &State, length: i64, is_offer: bool) -> Verdict {
    let r = s.record;
    let (id, offset) = s.tail(s.active());
    let (count, payload_limit) = (r.active_term_count as i64, r.mtu_length as i64 - 32);
    if count != id.wrapping_sub(r.initial_term_id as i64) as i32 as i64 {
        return Inside;
    }
    let position = count * s.term_length() + offset;
    if position >= r.publication_limit {
        return Inside;
    }
    let message_limit = (s.term_length() / 8).min(16_777_216);
    if is_offer && length > payload_limit && length > message_limit {
        return Inside;
    }
    let need = need(length, payload_limit);
    if offset + need > MOST {
        return Refused(11);
    }
    let is_tripped = offset + need > s.term_length();
    if !is_tripped || position + offset > s.greatest() {
        return Inside;
    }
    match (count == MOST, s.is_marked(Record::due(r.active_term_count))) {
        (true, _) => Refused(12),
        (false, false) => Refused(19),
        (false, true) => Inside,
    }
}

/// The slowest reader and the marks that a call leaves (R-4 of document 02), by the state before it, its verdict and its rule.
pub fn season(call: &Call, s: &State, verdict: Verdict, rule: Option<(u32, i32)>) -> (i64, u64) {
    let (slowest, marks) = (s.record.slowest_position, s.record.cleared_marks);
    let without = |partition: u32| marks & !(1 << partition);
    match call {
        _ if matches!(verdict, Refused(_) | BadFrame(..)) => (slowest, marks),
        Call::Open { .. } => (0, 6),
        Call::SetSlowestPosition { position } => (*position, marks),
        Call::ClearPartition { partition } => (slowest, marks | 1 << *partition),
        Call::RotateLog { count, .. } => (slowest, without(Record::due(*count))),
        _ if rule == Some((14, 6)) => (slowest, without(Record::due(s.record.active_term_count))),
        _ => (slowest, marks),
    }
}

/// The rule of an offer or a claim (R-10 of document 02), by its place in the order, and its number: every check of 01's order as amended, one
/// after the other, each by itself; the first that applies.
pub fn rule(call: &Call, s: &State) -> Option<(u32, i32)> {
    let (length, is_offer) = match call {
        Call::Offer { message, .. } => (message.len() as i64, true),
        Call::TryClaim { length } => (*length as i64, false),
        _ => return None,
    };
    if !(0..=MOST).contains(&length) {
        return Some((1, 1));
    }
    if s.breaks(s.active()).is_some() {
        return Some((2, 2));
    }
    let r = s.record;
    let (id, offset) = s.tail(s.active());
    let (count, payload_limit) = (r.active_term_count as i64, r.mtu_length as i64 - 32);
    let position = count * s.term_length() + offset;
    let (is_at_limit, is_connected) = (position >= r.publication_limit, r.is_connected == 1);
    let need = if is_offer { need(length, payload_limit) } else { align(length + 32) };
    let is_tripped = offset + need > s.term_length();
    let checks = [
        (3, 5, r.is_closed),
        (4, 4, !is_offer && length > payload_limit),
        (5, 6, count != id.wrapping_sub(r.initial_term_id as i64) as i32 as i64),
        (6, 7, is_at_limit && position + length >= s.greatest()),
        (7, 8, is_at_limit && is_connected),
        (8, 9, is_at_limit && !is_connected),
        (9, 10, is_offer && length > payload_limit && length > (s.term_length() / 8).min(16_777_216)),
        (10, 11, offset + need > MOST),
        (11, 7, is_tripped && position + offset > s.greatest()),
        (12, 12, is_tripped && count == MOST),
        (13, 19, is_tripped && !s.is_marked(Record::due(r.active_term_count))),
        (14, 6, is_tripped),
        (15, 0, is_offer && length <= payload_limit),
        (16, 0, is_offer),
        (17, 0, true),
    ];
    checks.into_iter().find(|check| check.2).map(|(place, number, _)| (place, number))
}

fn on_record(call: &Call, s: &State) -> Step {
    let broken = |s: &State| refuse_if(s.breaks_record(s.active()), 2);
    Some(match call {
        Call::Open { term_length, mtu_length, initial_term_id, .. } => {
            let record = Record {
                term_length: *term_length,
                mtu_length: *mtu_length,
                initial_term_id: *initial_term_id,
                ..Record::default()
            };
            let opened = State { record: &record, ..*s };
            return opened.breaks(0).or(Some(Inside));
        }
        Call::SetPublicationLimit { limit } => {
            let record = Record { publication_limit: *limit, ..*s.record };
            broken(&State { record: &record, ..*s }).unwrap_or(Inside)
        }
        Call::RotateLog { count, .. } => {
            let last = *count as i64 == MOST;
            let step = refuse_if(*count < 0, 1).or_else(|| broken(s)).or_else(|| refuse_if(last, 12));
            step.unwrap_or(Inside)
        }
        Call::Close | Call::Position | Call::PublicationLimit | Call::AvailableWindow => broken(s).unwrap_or(Inside),
        Call::SetSlowestPosition { position } => {
            let step = broken(s).or_else(|| refuse_if(s.off_position(*position), 3));
            step.or_else(|| refuse_if(*position < s.record.slowest_position, 15)).unwrap_or(Alone)
        }
        Call::ClearPartition { partition } => {
            let step = refuse_if(!(0..=2).contains(partition), 1).or_else(|| s.breaks(s.active()));
            step.or_else(|| refuse_if(not_due(s, *partition), 20)).unwrap_or(Alone)
        }
        _ => return None,
    })
}

/// Another partition than the one due next, or, from count 2 on, the slowest reader below the end of the term before the last full one.
fn not_due(s: &State, partition: i32) -> bool {
    let count = s.record.active_term_count as i64;
    let is_needed = count >= 2 && s.record.slowest_position < (count - 1) * s.term_length();
    partition as u32 != Record::due(s.record.active_term_count) || is_needed
}

fn open_claim(s: &State, claim: &Claim) -> Verdict {
    let (offset, length) = (claim.offset as i64, claim.length as i64);
    let is_claim = (0..=2).contains(&claim.partition)
        && offset >= 0
        && offset % 32 == 0
        && length >= 32
        && offset + align(length) <= s.term_length();
    let step = refuse_if(!is_claim, 1).or_else(|| s.breaks(s.active())).or_else(|| {
        let at = (claim.partition as i64 * s.term_length() + offset) as usize;
        refuse_if(s.word(at) as i64 != -length || s.word(at + 20) != claim.term_id, 14)
    });
    step.unwrap_or(Inside)
}

fn writing(call: &Call, s: &State) -> Step {
    let broken = |s: &State| s.breaks(s.active());
    Some(match call {
        Call::Offer { message, .. } => {
            let length = message.len() as i64;
            let step = refuse_if(length > MOST, 1).or_else(|| broken(s)).or_else(|| s.record.is_closed.then_some(Inside));
            step.unwrap_or_else(|| publish(s, length, true))
        }
        Call::TryClaim { length } => {
            let is_long = *length as i64 > s.record.mtu_length as i64 - 32;
            refuse_if(*length < 0, 1).or_else(|| broken(s)).unwrap_or_else(|| match (s.record.is_closed, is_long) {
                (true, true) => ClosedAndLong,
                (true, false) | (false, true) => Inside,
                (false, false) => publish(s, *length as i64, false),
            })
        }
        Call::WriteBody { claim, .. } | Call::Commit { claim } | Call::Abort { claim } => open_claim(s, claim),
        Call::AppendUnfragmented { partition, message, .. } => append(s, *partition, message.len() as i64, None),
        Call::AppendFragmented { partition, message, payload_limit, .. } => {
            append(s, *partition, message.len() as i64, Some(*payload_limit as i64))
        }
        Call::AppendClaim { partition, length, .. } => append(s, *partition, *length as i64, None),
        _ => return None,
    })
}

/// Appenders: 1, 2 (their own partition's tail), 11; 13 is inside.
fn append(s: &State, partition: i32, length: i64, payload_limit: Option<i64>) -> Verdict {
    let is_fragmented = payload_limit.is_none_or(|limit| length > 0 && limit > 0 && limit % 32 == 0);
    let is_argument = (0..=2).contains(&partition) && (0..=MOST).contains(&length) && is_fragmented;
    let step = refuse_if(!is_argument, 1).or_else(|| s.breaks(partition as usize)).or_else(|| {
        let need = need(length, payload_limit.unwrap_or(length));
        refuse_if(s.tail(partition as usize).1 + need > MOST, 11)
    });
    step.unwrap_or(Inside)
}

/// Too few entries for a fragment limit; a limit of 0 or less needs none.
fn few(entries: usize, fragment_limit: i32) -> bool {
    ((entries / 2) as i64) < fragment_limit as i64
}

fn frames(call: &Call, s: &State) -> Step {
    let judged = |partition: &i32, offset: &i32, is_broken: bool| {
        let step = s.off_range(*partition, *offset, s.term_length() - 1).or_else(|| refuse_if(is_broken, 1));
        step.or_else(|| s.breaks(s.active()))
    };
    // A read may also start at the term's end.
    let judged_read = |partition: &i32, offset: &i32, is_broken: bool| {
        let step = s.off_range(*partition, *offset, s.term_length()).or_else(|| refuse_if(is_broken, 1));
        step.or_else(|| s.breaks(s.active()))
    };
    Some(match call {
        Call::HeaderFields { partition, offset } => judged(partition, offset, false).unwrap_or(Inside),
        Call::Read { partition, offset, fragment_limit, entries } => judged_read(partition, offset, few(*entries, *fragment_limit))
            .unwrap_or_else(|| {
                let (partition, offset) = (*partition as i64, *offset as i64);
                read(s, &Walk { partition, offset, end: s.term_length(), fragments: *fragment_limit as i64, actions: &[] })
            }),
        Call::View { partition, offset, length } => {
            let (offset, length) = (*offset as i64, *length as i64);
            let is_inside = offset >= 0 && length >= 0 && offset + length <= s.term_length();
            let step = refuse_if(!(0..=2).contains(partition) || !is_inside, 1);
            step.or_else(|| s.breaks(s.active())).unwrap_or(Inside)
        }
        Call::Scan { partition, offset, limit } => judged(partition, offset, *limit as i64 > s.term_length())
            .unwrap_or_else(|| scan(s, *partition as i64, *offset as i64, *limit as i64)),
        Call::ScanForGap { partition, offset, high_mark, .. } => {
            let high = *high_mark as i64;
            let is_mark = high >= 0 && high % 32 == 0 && high <= s.term_length();
            judged(partition, offset, !is_mark)
                .unwrap_or_else(|| scan_for_gap(s, *partition as i64, *offset as i64, high))
        }
        Call::ScanForAvailability { partition, offset, maximum } => judged(partition, offset, false)
            .unwrap_or_else(|| scan_for_availability(s, *partition as i64, *offset as i64, *maximum as i64)),
        _ => return None,
    })
}

/// Row 3, which a closed image does not reach.
fn misplaced(s: &State, image: &Image) -> Step {
    let position = image.position;
    if image.is_closed {
        return Some(Inside);
    }
    refuse_if(s.off_position(position), 3)
}

fn bad_actions(actions: &[u8]) -> bool {
    actions.iter().any(|byte| !(1..=4).contains(byte))
}

/// Rows 1, 2 and 3 of an image's call.
fn judged_image(s: &State, image: usize, is_broken: bool) -> Step {
    let step = refuse_if(is_broken, 1).or_else(|| s.breaks(s.active()));
    step.or_else(|| misplaced(s, &s.images[image]))
}

fn place(s: &State, position: i64) -> (i64, i64) {
    (position / s.term_length() % 3, position % s.term_length())
}

fn poll(s: &State, position: i64, end: i64, fragments: i32, actions: &[u8]) -> Verdict {
    let (partition, offset) = place(s, position);
    read(s, &Walk { partition, offset, end, fragments: fragments as i64, actions })
}

fn images(call: &Call, s: &State) -> Step {
    let position = |image: &usize| s.images[*image].position;
    Some(match call {
        Call::ImageNew { .. } => Inside,
        Call::Poll { image, entries, fragment_limit } => judged_image(s, *image, few(*entries, *fragment_limit))
            .unwrap_or_else(|| poll(s, position(image), s.term_length(), *fragment_limit, &[])),
        Call::BoundedPoll { image, entries, limit_position, fragment_limit } => {
            judged_image(s, *image, few(*entries, *fragment_limit)).unwrap_or_else(|| {
                let above = *limit_position as i128 - position(image) as i128;
                if above < -(1 << 31) {
                    return Empty;
                }
                let end = (above + place(s, position(image)).1 as i128).min(s.term_length() as i128) as i64;
                poll(s, position(image), end, *fragment_limit, &[])
            })
        }
        Call::ControlledPoll { image, entries, actions, fragment_limit } => {
            let is_short = few(*entries, *fragment_limit) || (actions.len() as i64) < *fragment_limit as i64;
            judged_image(s, *image, is_short || bad_actions(actions))
                .unwrap_or_else(|| poll(s, position(image), s.term_length(), *fragment_limit, actions))
        }
        Call::ControlledPeek { image, entries, actions, start, limit_position } => {
            let step = judged_image(s, *image, entries / 2 < actions.len() || bad_actions(actions));
            step.unwrap_or_else(|| peek(s, position(image), *start, *limit_position, actions))
        }
        Call::BlockPoll { image, limit } => judged_image(s, *image, false).unwrap_or_else(|| {
            let (partition, offset) = place(s, position(image));
            scan(s, partition, offset, (offset + *limit as i64).min(s.term_length()))
        }),
        Call::SetPosition { image, .. } | Call::IsEndOfStream { image } => judged_image(s, *image, false).unwrap_or(Inside),
        Call::ImageClose { .. } => s.breaks(s.active()).unwrap_or(Inside),
        _ => return None,
    })
}

/// After row 3: 15 and 16 are inside; a peek without bytes is not, and reads nothing.
fn peek(s: &State, position: i64, start: i64, limit_position: i64, actions: &[u8]) -> Verdict {
    let end = position - position % s.term_length() + s.term_length();
    if start < position || start > end || start % 32 != 0 {
        return Inside;
    }
    if actions.is_empty() {
        return Empty;
    }
    let (partition, offset) = place(s, start);
    // The walk stays below the limit position; a frame that starts below it may end past it.
    let end = (limit_position as i128 - start as i128 + offset as i128).clamp(-1, s.term_length() as i128) as i64;
    read(s, &Walk { partition, offset, end, fragments: actions.len() as i64, actions })
}

/// The plain numbers: only `compute_position` refuses, 1.
fn numbers(call: &Call) -> Verdict {
    match call {
        Call::ComputePosition { bits, .. } if *bits > 30 => Refused(1),
        _ => Inside,
    }
}

pub fn judge(call: &Call, s: &State) -> Verdict {
    let step = on_record(call, s).or_else(|| writing(call, s)).or_else(|| frames(call, s)).or_else(|| images(call, s));
    match step.or_else(|| assemblies::judge(call, s)).unwrap_or_else(|| numbers(call)) {
        Inside | Stopped(_) if overflows(call, s) => Verdict::Overflows,
        Inside if wraps(call, s) => Verdict::Wrapped,
        Refused(12) if matches!(call, Call::Offer { .. } | Call::TryClaim { .. }) && wraps(call, s) => Verdict::Wrapped,
        verdict => verdict,
    }
}

impl State<'_> {
    /// Rows 1 and 2 of the assembler: a frame of positive length at a multiple of 32 inside the term.
    pub fn fragment(&self, partition: i32, offset: i32) -> Step {
        let step = self.off_range(partition, offset, self.term_length() - 1).or_else(|| {
            let index = (partition as i64 * self.term_length() + offset as i64) as usize;
            refuse_if(index + 4 > self.log.len() || self.word(index) <= 0, 1)
        });
        step.or_else(|| self.breaks(self.active()))
    }

    /// Rows 2 and 3 of a replay's image.
    pub fn replayable(&self, image: &Image) -> Step {
        self.breaks(self.active()).or_else(|| misplaced(self, image))
    }

    pub fn term(&self) -> i64 {
        self.term_length()
    }

    /// The term id of the frame at an offset of a partition.
    pub fn term_id(&self, partition: i64, offset: i64) -> i32 {
        self.word((partition * self.term_length() + offset) as usize + 20)
    }

    /// Flags and session of the frame at an offset of a partition.
    pub fn flags(&self, partition: i64, offset: i64) -> (u8, i32) {
        let index = (partition * self.term_length() + offset) as usize;
        (self.log[index + 5], self.word(index + 12))
    }
}
