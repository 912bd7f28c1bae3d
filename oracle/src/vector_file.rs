//! The file of vectors: how a call and its answer become bytes. crates/vectors/src/main.rt has the layout, and reads it.
//! `vectors.rs` says what goes into the file.

use crate::calls::{body_bytes, Answer, Call, Claim, Image, Record, UNWRITTEN};

pub const TERM: i32 = 65_536;
pub const LOG: usize = 3 * TERM as usize;

/// What the reading program takes for a number that is not there, and puts into entries before a call.
const UNTOUCHED: i64 = -7;

/// A range begins anew after so many bytes that stay, for its head takes as many.
const APART: usize = 6;

/// Whose answer a vector holds.
#[derive(Clone, Copy)]
pub enum Source {
    Rust = 0,
    Papers = 1,
}

/// Calls and their names in the report; a kind's number is its place, from 1 on. crates/vectors/src/kinds.rt has the same order.
const KINDS: [(&str, &str); 44] = [
    ("SetPublicationLimit", "set_publication_limit"),
    ("Close", "close"),
    ("RotateLog", "rotate_log"),
    ("Position", "position"),
    ("PublicationLimit", "publication_limit"),
    ("AvailableWindow", "available_window"),
    ("Open", "open_log"),
    ("Offer", "offer"),
    ("TryClaim", "try_claim"),
    ("WriteBody", "body"),
    ("Commit", "commit"),
    ("Abort", "abort"),
    ("AppendUnfragmented", "append_unfragmented"),
    ("AppendFragmented", "append_fragmented"),
    ("AppendClaim", "append_claim"),
    ("HeaderFields", "header_fields"),
    ("Read", "read"),
    ("View", "view"),
    ("Scan", "scan"),
    ("ScanForGap", "scan_for_gap"),
    ("ScanForAvailability", "scan_for_availability"),
    ("Poll", "poll"),
    ("BoundedPoll", "bounded_poll"),
    ("ControlledPoll", "controlled_poll"),
    ("ControlledPeek", "controlled_peek"),
    ("BlockPoll", "block_poll"),
    ("SetPosition", "set_position"),
    ("IsEndOfStream", "is_end_of_stream"),
    ("ImageClose", "close of an image"),
    ("AssemblerNew", "new assembler"),
    ("OnFragment", "on_fragment"),
    ("ReplayNew", "new replay"),
    ("ReplayNext", "next of a replay"),
    ("ReplayCount", "count of a replay"),
    ("Align", "align"),
    ("IsPowerOfTwo", "is_power_of_two"),
    ("PositionBitsToShift", "position_bits_to_shift"),
    ("TermId", "term_id"),
    ("TermOffset", "term_offset"),
    ("IndexByTermCount", "index_by_term_count"),
    ("IndexByPosition", "index_by_position"),
    ("ComputePosition", "compute_position"),
    ("SetRecord", "fields set by hand"),
    ("PutBytes", "bytes put by hand"),
];

/// The file so far, and the record and the log that the reading program expects at its end.
pub struct File {
    vectors: Vec<u8>,
    count: u32,
    fields: [i64; 13],
    log: Vec<u8>,
}

/// The record's fields in the order of the struct.
fn fields(r: &Record) -> [i64; 13] {
    let numbers = [r.initial_term_id, r.term_length, r.mtu_length, r.session_id, r.stream_id, r.is_connected];
    let [initial, term, mtu, session, stream, connected] = numbers.map(i64::from);
    let [a, b, c] = r.tails;
    let (limit, end, closed) = (r.publication_limit, r.end_of_stream_position, r.is_closed as i64);
    [a, b, c, r.active_term_count as i64, initial, term, mtu, session, stream, connected, limit, end, closed]
}

/// The bytes that differ, as (first, last + 1).
fn ranges(before: &[u8], after: &[u8]) -> Vec<(usize, usize)> {
    let mut all: Vec<(usize, usize)> = Vec::new();
    let differing = (0..after.len()).filter(|i| before[*i] != after[*i]);
    for i in differing {
        match all.last_mut() {
            Some((first, end)) if i <= *end + APART && i - *first < 65_535 => *end = i + 1,
            _ => all.push((i, i + 1)),
        }
    }
    all
}

impl File {
    pub fn new() -> Self {
        File { vectors: Vec::new(), count: 0, fields: [0; 13], log: vec![0; LOG] }
    }

    pub fn count(&self) -> u32 {
        self.count
    }

    /// A call, what it answered, and the record and the log that it left.
    pub fn put(&mut self, source: Source, told: &Told, record: &Record, log: &[u8]) {
        let kind = told.kind();
        let (arguments, mut results) = (told.arguments(), told.results());
        while results.last() == Some(&UNTOUCHED) {
            results.pop();
        }
        if matches!(told.call, Call::Open { .. }) && told.answer.code == 0 {
            self.log.fill(0);
        }
        let after = fields(record);
        let changed: Vec<usize> = (0..13).filter(|k| self.fields[*k] != after[*k]).collect();
        let ranges = ranges(&self.log, log);
        let payload = told.payload();
        let counts = [kind, arguments.len(), results.len(), changed.len()];
        self.vectors.extend(counts.map(|n| u8::try_from(n).expect("a byte")));
        self.vectors.extend([payload.len(), ranges.len()].map(|n| u16::try_from(n).expect("two bytes").to_le_bytes()).concat());
        self.vectors.extend([source as u8, 0]);
        arguments.iter().chain(&results).for_each(|n| self.vectors.extend(n.to_le_bytes()));
        for k in changed {
            self.vectors.push(k as u8);
            self.vectors.extend(after[k].to_le_bytes());
        }
        self.vectors.extend(payload);
        for (first, end) in ranges {
            self.vectors.extend((first as u32).to_le_bytes());
            self.vectors.extend(((end - first) as u16).to_le_bytes());
            self.vectors.extend(&log[first..end]);
        }
        (self.fields, self.count) = (after, self.count + 1);
        self.log.copy_from_slice(log);
    }

    /// The head, then the vectors.
    pub fn bytes(&self) -> Vec<u8> {
        let mut all = b"LBV1".to_vec();
        all.extend(self.count.to_le_bytes());
        for k in 0..48 {
            let name = if (1..=KINDS.len()).contains(&k) { KINDS[k - 1].1 } else { "" };
            let mut room = [0; 24];
            room[0] = name.len() as u8;
            room[1..=name.len()].copy_from_slice(name.as_bytes());
            all.extend(room);
        }
        all.extend(&self.vectors);
        all
    }
}

/// A call with its answer, and the image that it was on before and after it.
pub struct Told {
    pub call: Call,
    pub answer: Answer,
    pub before: Image,
    pub after: Image,
    /// The length of the assembler's lent buffer.
    pub buffer: usize,
}

fn of_image(i: &Image) -> [i64; 4] {
    [i.position, i.session_id as i64, i.is_closed as i64, i.is_eos as i64]
}

fn of_claim(c: &Claim) -> Vec<i64> {
    [c.partition, c.offset, c.length, c.term_id].map(i64::from).to_vec()
}

fn ints<const N: usize>(numbers: [&i32; N]) -> Vec<i64> {
    numbers.map(|n| *n as i64).to_vec()
}

impl Told {
    fn kind(&self) -> usize {
        let name = self.call.name();
        1 + KINDS.iter().position(|(call, _)| *call == name).expect("a kind of vector")
    }

    fn payload(&self) -> Vec<u8> {
        match &self.call {
            Call::Offer { message, .. } | Call::AppendUnfragmented { message, .. } => message.clone(),
            Call::AppendFragmented { message, .. } => message.clone(),
            Call::ControlledPoll { actions, .. } | Call::ControlledPeek { actions, .. } => actions.clone(),
            Call::WriteBody { claim, first } => body_bytes(*first, (claim.length - 32).max(0) as usize),
            Call::View { .. } | Call::OnFragment { .. } | Call::ReplayNext => self.answer.bytes.clone(),
            _ => Vec::new(),
        }
    }

    fn arguments(&self) -> Vec<i64> {
        match &self.call {
            Call::Open { term_length, mtu_length, initial_term_id, session_id, stream_id } => {
                ints([term_length, mtu_length, initial_term_id, session_id, stream_id])
            }
            Call::SetPublicationLimit { limit } => vec![*limit],
            Call::RotateLog { count, term_id } => ints([count, term_id]),
            Call::Offer { reserved_value, .. } => vec![*reserved_value],
            Call::TryClaim { length } => ints([length]),
            Call::WriteBody { claim, .. } | Call::Commit { claim } | Call::Abort { claim } => of_claim(claim),
            Call::AppendUnfragmented { partition, reserved_value, term_id, .. } => {
                vec![*partition as i64, *reserved_value, *term_id as i64]
            }
            Call::AppendFragmented { partition, reserved_value, payload_limit, term_id, .. } => {
                vec![*partition as i64, *reserved_value, *term_id as i64, *payload_limit as i64]
            }
            Call::AppendClaim { partition, length, term_id } => ints([partition, length, term_id]),
            _ => self.reading_arguments().or_else(|| self.image_arguments()).unwrap_or_else(|| self.number_arguments()),
        }
    }

    fn reading_arguments(&self) -> Option<Vec<i64>> {
        Some(match &self.call {
            Call::HeaderFields { partition, offset } => ints([partition, offset]),
            Call::Read { partition, offset, fragment_limit, entries } => ints([partition, offset, &(*entries as i32), fragment_limit]),
            Call::View { partition, offset, length } => ints([partition, offset, length]),
            Call::Scan { partition, offset, limit } => ints([partition, offset, limit]),
            Call::ScanForGap { partition, term_id, offset, high_mark } => ints([partition, offset, term_id, high_mark]),
            Call::ScanForAvailability { partition, offset, maximum } => ints([partition, offset, maximum]),
            Call::OnFragment { partition, offset } => ints([partition, offset, &(self.buffer as i32)]),
            // Every replay of the file begins at 0.
            Call::ReplayNew { session_id, .. } | Call::ReplayCount { session_id, .. } => ints([session_id]),
            _ => return None,
        })
    }

    /// The image, then the call's own.
    fn image_arguments(&self) -> Option<Vec<i64>> {
        let own = match &self.call {
            Call::Poll { entries, fragment_limit, .. } => vec![*entries as i64, *fragment_limit as i64],
            Call::BoundedPoll { entries, limit_position, fragment_limit, .. } => {
                vec![*entries as i64, *fragment_limit as i64, *limit_position]
            }
            Call::ControlledPoll { entries, fragment_limit, .. } => vec![*entries as i64, *fragment_limit as i64],
            Call::ControlledPeek { entries, start, limit_position, .. } => vec![*entries as i64, *start, *limit_position],
            Call::BlockPoll { limit, .. } => vec![*limit as i64],
            Call::SetPosition { new_position, .. } => vec![*new_position],
            Call::IsEndOfStream { .. } | Call::ImageClose { .. } => Vec::new(),
            _ => return None,
        };
        Some([of_image(&self.before).to_vec(), own].concat())
    }

    fn number_arguments(&self) -> Vec<i64> {
        match &self.call {
            Call::Align { value } | Call::IsPowerOfTwo { value } => vec![*value as i64],
            Call::PositionBitsToShift { term_length } => vec![*term_length as i64],
            Call::TermId { raw_tail } => vec![*raw_tail],
            Call::TermOffset { raw_tail, term_length } => vec![*raw_tail, *term_length],
            Call::IndexByTermCount { count } => vec![*count as i64],
            Call::IndexByPosition { position, bits } => vec![*position as i64, *bits as i64],
            Call::ComputePosition { term_id, offset, bits, initial_term_id } => {
                vec![*term_id as i64, *offset as i64, *bits as i64, *initial_term_id as i64]
            }
            _ => Vec::new(),
        }
    }

    /// In the order in which the program of crates/vectors makes its row of numbers.
    fn results(&self) -> Vec<i64> {
        let (code, values) = (self.answer.code as i64, &self.answer.values);
        if code != 0 && !self.tells_image() {
            return match self.call {
                Call::View { .. } => vec![code, 1],
                _ if code >= 22 => vec![code, values[0]],
                _ => vec![code],
            };
        }
        match &self.call {
            Call::Position | Call::PublicationLimit | Call::AvailableWindow | Call::Offer { .. } => self.first(1),
            Call::Scan { .. } | Call::ScanForAvailability { .. } | Call::IsEndOfStream { .. } => self.first(1),
            Call::ComputePosition { .. } => self.first(1),
            Call::ReplayCount { .. } => self.first(2),
            Call::TryClaim { .. } => self.first(5),
            Call::HeaderFields { .. } => self.first(10),
            Call::AppendUnfragmented { .. } | Call::AppendFragmented { .. } | Call::AppendClaim { .. } if values[0] == 1 => vec![0, -2],
            Call::AppendUnfragmented { .. } | Call::AppendFragmented { .. } => vec![0, values[1]],
            Call::AppendClaim { .. } => [&[0], &values[1..6]].concat(),
            Call::View { .. } => vec![0, 1],
            Call::ScanForGap { .. } if values[0] == 1 => vec![0, 1, values[2], values[3], values[1]],
            Call::ScanForGap { .. } => vec![0, 0, values[2]],
            Call::Read { .. } | Call::ControlledPeek { .. } => self.with_entries(&[0, values[0], values[1], UNTOUCHED]),
            Call::OnFragment { .. } | Call::ReplayNext if values[0] == 0 => vec![0, 0],
            Call::OnFragment { .. } | Call::ReplayNext => vec![0, values[0], values[1], values[2], 1],
            _ => self.image_results().unwrap_or_else(|| self.other_results()),
        }
    }

    fn tells_image(&self) -> bool {
        let polls = matches!(self.call, Call::Poll { .. } | Call::BoundedPoll { .. } | Call::ControlledPoll { .. });
        polls || matches!(self.call, Call::BlockPoll { .. } | Call::SetPosition { .. } | Call::ImageClose { .. })
    }

    /// The number, and so many values.
    fn first(&self, n: usize) -> Vec<i64> {
        [&[0], &self.answer.values[..n]].concat()
    }

    /// Up to eight numbers, then the entries.
    fn with_entries(&self, numbers: &[i64]) -> Vec<i64> {
        let mut row = numbers.to_vec();
        row.resize(8, UNTOUCHED);
        row.extend(self.answer.entries.iter().map(|n| if *n == UNWRITTEN { UNTOUCHED } else { *n as i64 }));
        row
    }

    fn image_results(&self) -> Option<Vec<i64>> {
        if !self.tells_image() {
            return None;
        }
        let (code, values) = (self.answer.code as i64, &self.answer.values);
        let head = [&[code, values[0], values[1]][..], &of_image(&self.after)].concat();
        Some(match &self.call {
            Call::BlockPoll { .. } if code == 0 => [&head[..], &values[2..4]].concat(),
            _ => self.with_entries(&head),
        })
    }

    /// Plain numbers answer one; all else only that it was done.
    fn other_results(&self) -> Vec<i64> {
        match &self.call {
            Call::Align { .. } | Call::IsPowerOfTwo { .. } | Call::PositionBitsToShift { .. } => vec![self.answer.values[0]],
            Call::TermId { .. } | Call::TermOffset { .. } => vec![self.answer.values[0]],
            Call::IndexByTermCount { .. } | Call::IndexByPosition { .. } => vec![self.answer.values[0]],
            _ => vec![0],
        }
    }
}
