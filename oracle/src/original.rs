//! The given Rust under the calls of `calls.rs`: one log with its publication, images, assembler and replay, kept between calls.
//! A panic is caught and told apart: an arithmetic overflow, which document 01 leaves out, or any other. Read `assembly.rs` next.

use std::cell::Cell;
use std::panic::{catch_unwind, AssertUnwindSafe};

use aeron_rs::concurrent::atomic_buffer::AtomicBuffer;
use aeron_rs::concurrent::logbuffer::buffer_claim::BufferClaim;
use aeron_rs::concurrent::logbuffer::header::Header;
use aeron_rs::concurrent::logbuffer::{log_buffer_descriptor, term_reader, term_scan};
use aeron_rs::concurrent::position::{ReadablePosition, UnsafeBufferPosition};
use aeron_rs::harness::{over, Log};
use aeron_rs::image::{ControlledPollAction, Image as GivenImage};
use aeron_rs::publication::Publication;
use aeron_rs::utils::bit_utils;
use aeron_rs::utils::errors::{AeronError, IllegalArgumentError, IllegalStateError};
use aeron_rs::utils::types::Index;

use crate::assemblies::most;
use crate::assembly::Assembly;
use crate::calls::{body_bytes, fill, Answer, Assembler, Call, Claim, Image, Record, IMAGES, UNWRITTEN};

pub enum Outcome {
    Answered(Answer),
    /// An i32 or i64 sum, product or shift of the Rust overflowed.
    Overflowed,
    Panicked(String),
}

struct Reader {
    image: GivenImage,
    place: UnsafeBufferPosition,
    /// Kept for an open image, whose flag the Rust does not show.
    is_eos: bool,
}

pub struct Original {
    pub log: Log,
    publication: Publication,
    readers: Vec<Reader>,
    assembly: Assembly,
    replay: (Reader, Assembly),
    /// A record whose term length is not the log's: no call with the log can run on it.
    foreign: Option<Record>,
    /// The slowest reader and the marks, which the Rust has not; `world.rs` keeps them here, so that whole records are compared.
    season: (i64, u64),
}

thread_local! {
    static RESERVED: Cell<i64> = const { Cell::new(0) };
    static BLOCK: Cell<[i64; 4]> = const { Cell::new([0; 4]) };
}

fn reserved(_: AtomicBuffer, _: Index, _: Index) -> i64 {
    RESERVED.get()
}

fn on_block(_: &AtomicBuffer, offset: Index, length: Index, session: i32, term_id: i32) {
    BLOCK.set([offset as i64, length as i64, session as i64, term_id as i64]);
}

/// 01's number of an error; -1 where it has none.
fn number(error: &AeronError) -> i32 {
    match error {
        AeronError::IllegalArgument(IllegalArgumentError::EncodedMessageExceedsMaxPayloadLength { .. }) => 4,
        AeronError::PublicationClosed => 5,
        AeronError::AdminAction => 6,
        AeronError::MaxPositionExceeded => 7,
        AeronError::BackPressured => 8,
        AeronError::NotConnected => 9,
        AeronError::IllegalArgument(IllegalArgumentError::EncodedMessageExceedsMaxMessageLength { .. }) => 10,
        AeronError::IllegalState(IllegalStateError::ActionPossiblyDelayed { .. }) => 13,
        AeronError::IllegalArgument(IllegalArgumentError::NewPositionOutOfRange { .. }) => 15,
        AeronError::IllegalArgument(IllegalArgumentError::NewPositionNotAlignedToFrameAlignment { .. }) => 16,
        _ => -1,
    }
}

fn told<T>(result: Result<T, AeronError>, values: impl FnOnce(T) -> Answer) -> Answer {
    match result {
        Ok(value) => values(value),
        Err(error) => Answer::refusal(number(&error)),
    }
}

fn action(byte: u8) -> ControlledPollAction {
    match byte {
        1 => ControlledPollAction::Abort,
        2 => ControlledPollAction::Break,
        3 => ControlledPollAction::Commit,
        _ => ControlledPollAction::Continue,
    }
}

/// Lent entries, and how many of them are written.
struct Entries {
    numbers: Vec<i32>,
    written: usize,
}

impl Entries {
    fn lent(numbers: usize) -> Self {
        Entries { numbers: vec![UNWRITTEN; numbers], written: 0 }
    }

    fn put(&mut self, offset: Index, length: Index) {
        self.numbers[2 * self.written] = offset;
        self.numbers[2 * self.written + 1] = length;
        self.written += 1;
    }

    fn answer(self, first: i64) -> Answer {
        Answer { entries: self.numbers, ..Answer::of(&[first, self.written as i64]) }
    }
}

fn reader(log: &Log, value: Image) -> Reader {
    let (mut image, place) = log.image_of(value.position, value.session_id);
    if value.is_closed {
        // Closing keeps the flag that the end of stream gives at that moment.
        let end = log.end_of_stream();
        log.set_end_of_stream(if value.is_eos { i64::MIN } else { i64::MAX });
        image.close();
        log.set_end_of_stream(end);
    }
    Reader { image, place, is_eos: value.is_eos }
}

impl Reader {
    fn value(&self) -> Image {
        let is_closed = self.image.is_closed();
        Image {
            position: if is_closed { self.image.position() } else { self.place.get() },
            session_id: self.image.session_id(),
            is_closed,
            is_eos: if is_closed { self.image.is_end_of_stream() } else { self.is_eos },
        }
    }
}

impl Original {
    /// A log of zeros under a sound record, with closed images at 0.
    pub fn new(record: &Record) -> Self {
        let log = Log::open(record.term_length, record.mtu_length, record.initial_term_id, record.session_id, record.stream_id);
        let closed = Image { is_closed: true, ..Image::default() };
        let readers = (0..IMAGES).map(|_| reader(&log, closed)).collect();
        let replay = (reader(&log, closed), Assembly::new());
        let publication = log.publication();
        let mut original = Original { log, publication, readers, assembly: Assembly::new(), replay, foreign: None, season: (0, 0) };
        original.set_record(record);
        original
    }

    /// Every field as the metadata, the shared limit and the publication show it.
    pub fn record(&self) -> Record {
        if let Some(record) = self.foreign {
            return record;
        }
        let [initial_term_id, mtu_length, term_length, session_id, stream_id] = self.log.numbers();
        Record {
            tails: [0, 1, 2].map(|k| self.log.raw_tail(k)),
            active_term_count: self.log.count(),
            initial_term_id,
            term_length,
            mtu_length,
            session_id,
            stream_id,
            is_connected: self.log.connected(),
            publication_limit: self.log.limit.get(),
            end_of_stream_position: self.log.end_of_stream(),
            is_closed: self.publication.is_closed(),
            slowest_position: self.season.0,
            cleared_marks: self.season.1,
            active_transport_count: self.log.transports(),
            page_size: self.log.page_size(),
            correlation_id: self.log.correlation_id(),
        }
    }

    pub fn set_season(&mut self, season: (i64, u64)) {
        self.season = season;
        if let Some(record) = &mut self.foreign {
            (record.slowest_position, record.cleared_marks) = season;
        }
    }

    pub fn set_record(&mut self, record: &Record) {
        self.season = (record.slowest_position, record.cleared_marks);
        if record.term_length != self.log.term_length {
            self.foreign = Some(*record);
            return;
        }
        self.foreign = None;
        self.log.set_numbers([
            record.initial_term_id,
            record.mtu_length,
            record.term_length,
            record.session_id,
            record.stream_id,
        ]);
        (0..3).for_each(|k| self.log.set_raw_tail(k, record.tails[k as usize]));
        self.log.set_count(record.active_term_count);
        self.log.set_connected(record.is_connected);
        self.log.limit.set_ordered(record.publication_limit);
        self.log.set_end_of_stream(record.end_of_stream_position);
        self.log.set_carried(record.active_transport_count, record.page_size, record.correlation_id);
        // The publication reads initial id and mtu once. A subtraction may overflow there for an unsound mtu.
        let publication = catch_unwind(AssertUnwindSafe(|| self.log.publication()));
        self.publication = publication.unwrap_or_else(|_| {
            self.log.set_numbers([0, 96, record.term_length, 0, 0]);
            let stand_in = self.log.publication();
            self.foreign = Some(*record);
            stand_in
        });
        if record.is_closed {
            self.publication.close();
        }
    }

    pub fn image(&self, image: usize) -> Image {
        self.readers[image].value()
    }

    pub fn set_image(&mut self, image: usize, value: Image) {
        self.readers[image] = reader(&self.log, value);
    }

    pub fn replay_image(&self) -> Image {
        self.replay.0.value()
    }

    /// The assembler with what its sessions hold, as bookkeeping and lent buffer show it.
    pub fn set_assembler(&mut self, assembler: &Assembler, buffer: &[u8]) {
        self.assembly = Assembly::holding(assembler, buffer);
    }

    pub fn set_replay(&mut self, image: Image, assembler: &Assembler, buffer: &[u8]) {
        self.replay = (reader(&self.log, image), Assembly::holding(assembler, buffer));
    }

    /// Runs a call. After anything but an answer the state must be set again.
    pub fn call(&mut self, call: &Call) -> Outcome {
        match catch_unwind(AssertUnwindSafe(|| self.run(call))) {
            Ok(Some(answer)) => Outcome::Answered(answer),
            Ok(None) => Outcome::Overflowed,
            Err(cause) => {
                let text = cause.downcast_ref::<&str>().map(|s| s.to_string());
                let text = text.or_else(|| cause.downcast_ref::<String>().cloned()).unwrap_or_default();
                if text.contains("with overflow") {
                    Outcome::Overflowed
                } else {
                    Outcome::Panicked(text)
                }
            }
        }
    }

    /// None where an argument does not fit the Rust's i32 or i64.
    fn run(&mut self, call: &Call) -> Option<Answer> {
        let group = self.by_hand(call).or_else(|| self.on_record(call)).or_else(|| self.writing(call));
        let group = group.or_else(|| self.appending(call)).or_else(|| self.frames(call)).or_else(|| self.scans(call));
        let group = group.or_else(|| self.polling(call)).or_else(|| self.imaging(call)).or_else(|| self.assembling(call));
        group.or_else(|| numbers(call))
    }

    fn by_hand(&mut self, call: &Call) -> Option<Answer> {
        match call {
            Call::SetRecord { record } => self.set_record(record),
            Call::PutBytes { at, bytes } => self.log.terms_mut()[*at..*at + bytes.len()].copy_from_slice(bytes),
            Call::Fill { seed } => fill(self.log.terms_mut(), *seed),
            Call::SetImage { image, value } => self.set_image(*image, *value),
            // The first is for `set_assembler`, which needs the lent buffer too; the second has no meaning here.
            Call::SetAssembler { .. } | Call::LendLog { .. } => {}
            Call::Open { term_length, mtu_length, initial_term_id, session_id, stream_id } => {
                self.open([*term_length, *mtu_length, *initial_term_id, *session_id, *stream_id]);
            }
            _ => return None,
        }
        Some(Answer::default())
    }

    /// The Rust has no opening; this is the harness's, as document 01 says it. The images stay.
    fn open(&mut self, [term_length, mtu_length, initial_term_id, session_id, stream_id]: [i32; 5]) {
        let values: Vec<Image> = self.readers.iter().map(Reader::value).collect();
        let replay = self.replay.0.value();
        self.log = Log::open(term_length, mtu_length, initial_term_id, session_id, stream_id);
        self.foreign = None;
        self.publication = self.log.publication();
        self.readers = values.into_iter().map(|value| reader(&self.log, value)).collect();
        self.replay.0 = reader(&self.log, replay);
    }

    fn on_record(&mut self, call: &Call) -> Option<Answer> {
        if !matches!(
            call,
            Call::SetPublicationLimit { .. }
                | Call::Close
                | Call::RotateLog { .. }
                | Call::Position
                | Call::PublicationLimit
                | Call::AvailableWindow
        ) {
            return None;
        }
        if let Some(record) = self.foreign {
            let mut alone = Original::new(&record);
            let answer = alone.on_record(call);
            self.foreign = Some(alone.record());
            return answer;
        }
        Some(match call {
            Call::SetPublicationLimit { limit } => {
                self.log.limit.set_ordered(*limit);
                Answer::default()
            }
            Call::Close => {
                self.publication.close();
                Answer::default()
            }
            Call::RotateLog { count, term_id } => {
                log_buffer_descriptor::rotate_log(&self.log.meta(), *count, *term_id);
                Answer::default()
            }
            Call::Position => told(self.publication.position(), |p| Answer::of(&[p])),
            Call::PublicationLimit => told(self.publication.publication_limit(), |p| Answer::of(&[p])),
            _ => told(self.publication.available_window(), |p| Answer::of(&[p])),
        })
    }

    fn writing(&mut self, call: &Call) -> Option<Answer> {
        Some(match call {
            Call::Offer { message, reserved_value } => {
                RESERVED.set(*reserved_value);
                let mut bytes = message.clone();
                let length = bytes.len() as Index;
                told(self.publication.offer_opt(over(&mut bytes), 0, length, reserved), |p| Answer::of(&[p as i64]))
            }
            Call::TryClaim { length } => {
                let mut claim = BufferClaim::default();
                let result = self.publication.try_claim(*length, &mut claim);
                told(result, |p| self.claimed(&[p as i64], &claim))
            }
            Call::WriteBody { claim, first } => {
                let claim = self.wrapped(claim);
                let length = claim.length();
                claim.buffer().put_bytes(claim.offset(), &body_bytes(*first, length as usize));
                let start = claim.buffer().buffer() as usize - self.log.terms().as_ptr() as usize;
                Answer::of(&[start as i64 + claim.offset() as i64, length as i64])
            }
            Call::Commit { claim } => {
                self.wrapped(claim).commit();
                Answer::default()
            }
            Call::Abort { claim } => {
                self.wrapped(claim).abort();
                Answer::default()
            }
            _ => return None,
        })
    }

    fn wrapped(&self, claim: &Claim) -> BufferClaim {
        let mut wrapped = BufferClaim::default();
        wrapped.wrap_with_offset(&self.log.term(claim.partition), claim.offset, claim.length);
        wrapped
    }

    /// The values given, and the claim's four. The Rust's claim has no term id: it is the one of the header just written.
    fn claimed(&self, values: &[i64], claim: &BufferClaim) -> Answer {
        let at = claim.buffer().buffer() as i64 - self.log.terms().as_ptr() as i64;
        let length = self.log.term_length as i64;
        let term_id = claim.buffer().get::<i32>(20) as i64;
        let mut all = values.to_vec();
        all.extend([at / length, at % length, claim.buffer().capacity() as i64, term_id]);
        Answer::of(&all)
    }

    fn appending(&mut self, call: &Call) -> Option<Answer> {
        let appended = |offset: Index| if offset == -2 { Answer::of(&[1]) } else { Answer::of(&[0, offset as i64]) };
        let writer = self.log.header_writer();
        Some(match call {
            Call::AppendUnfragmented { partition, message, reserved_value, term_id } => {
                RESERVED.set(*reserved_value);
                let mut bytes = message.clone();
                let (length, appender) = (bytes.len() as Index, self.log.appender(*partition));
                let buffer = over(&mut bytes);
                told(appender.append_unfragmented_message(&writer, &buffer, 0, length, reserved, *term_id), appended)
            }
            Call::AppendFragmented { partition, message, reserved_value, payload_limit, term_id } => {
                RESERVED.set(*reserved_value);
                let mut bytes = message.clone();
                let (length, appender) = (bytes.len() as Index, self.log.appender(*partition));
                let buffer = over(&mut bytes);
                let result =
                    appender.append_fragmented_message(&writer, &buffer, 0, length, *payload_limit, reserved, *term_id);
                told(result, appended)
            }
            Call::AppendClaim { partition, length, term_id } => {
                let mut claim = BufferClaim::default();
                let result = self.log.appender(*partition).claim(&writer, *length, &mut claim, *term_id);
                told(result, |offset| if offset == -2 { appended(offset) } else { self.claimed(&[0, offset as i64], &claim) })
            }
            _ => return None,
        })
    }

    fn frames(&mut self, call: &Call) -> Option<Answer> {
        Some(match call {
            Call::HeaderFields { partition, offset } => self.header_fields(*partition, *offset),
            Call::Read { partition, offset, fragment_limit, entries } => {
                let mut lent = Entries::lent(*entries);
                let mut header = self.log.header(*partition, *offset);
                let mut handler = |_: &AtomicBuffer, o, l, _: &Header| lent.put(o, l);
                let outcome =
                    term_reader::read(self.log.term(*partition), *offset, &mut handler, *fragment_limit, &mut header);
                let values = [outcome.offset as i64, outcome.fragments_read as i64];
                Answer { entries: lent.numbers, ..Answer::of(&values) }
            }
            Call::View { partition, offset, length } => {
                let term = self.log.term(*partition);
                let view = term.as_sub_slice(*offset, *length);
                let start = view.as_ptr() as i64 - self.log.terms().as_ptr() as i64;
                Answer { bytes: view.to_vec(), ..Answer::of(&[start, view.len() as i64]) }
            }
            _ => return None,
        })
    }

    /// Version and term offset are read here, from bytes 4 and 8 to 11: the Rust's own getters of them answer other things.
    fn header_fields(&self, partition: Index, offset: Index) -> Answer {
        let header = self.log.header(partition, offset);
        let term = self.log.term(partition);
        Answer::of(&[
            header.frame_length() as i64,
            term.get::<u8>(offset + 4) as i64,
            header.flags() as i64,
            header.frame_type() as i64,
            term.get::<i32>(offset + 8) as i64,
            header.session_id() as i64,
            header.stream_id() as i64,
            header.term_id() as i64,
            header.reserved_value(),
            header.position(),
        ])
    }

    fn scans(&mut self, call: &Call) -> Option<Answer> {
        Some(match call {
            Call::Scan { partition, offset, limit } => {
                Answer::of(&[term_scan::scan(&self.log.term(*partition), *offset, *limit) as i64])
            }
            Call::ScanForGap { partition, term_id, offset, high_mark } => {
                let mut gap = None;
                let handler = |id: i32, _: &AtomicBuffer, at: Index, length: Index| gap = Some((id, at, length));
                let end = term_scan::scan_for_gap(&self.log.term(*partition), *term_id, *offset, *high_mark, handler);
                match gap {
                    Some((id, at, length)) if at == end => Answer::of(&[1, id as i64, at as i64, length as i64]),
                    Some(_) => Answer::refusal(-1),
                    None => Answer::of(&[0, 0, end as i64, 0]),
                }
            }
            Call::ScanForAvailability { partition, offset, maximum } => {
                Answer::of(&[term_scan::scan_for_availability(&self.log.term(*partition), *offset, *maximum)])
            }
            _ => return None,
        })
    }

    fn polling(&mut self, call: &Call) -> Option<Answer> {
        Some(match call {
            Call::Poll { image, entries, fragment_limit } => {
                let mut lent = Entries::lent(*entries);
                let mut handler = |_: &AtomicBuffer, o, l, _: &Header| lent.put(o, l);
                let fragments = self.readers[*image].image.poll(&mut handler, *fragment_limit);
                lent.answer(fragments as i64)
            }
            Call::BoundedPoll { image, entries, limit_position, fragment_limit } => {
                let mut lent = Entries::lent(*entries);
                let handler = |_: &AtomicBuffer, o, l, _: &Header| lent.put(o, l);
                let fragments = self.readers[*image].image.bounded_poll(handler, *limit_position, *fragment_limit);
                lent.answer(fragments as i64)
            }
            Call::ControlledPoll { image, entries, actions, fragment_limit } => {
                let mut lent = Entries::lent(*entries);
                let handler = |_: &AtomicBuffer, o, l, _: &Header| {
                    lent.put(o, l);
                    Ok(action(actions[lent.written - 1]))
                };
                let fragments = self.readers[*image].image.controlled_poll(handler, *fragment_limit);
                lent.answer(fragments as i64)
            }
            Call::ControlledPeek { image, entries, actions, start, limit_position } => {
                let mut lent = Entries::lent(*entries);
                let handler = |_: &AtomicBuffer, o, l, _: &Header| {
                    lent.put(o, l);
                    // The last byte ends the peek: 3 and 4 act as 2 there.
                    let byte = actions[lent.written - 1];
                    Ok(action(if lent.written == actions.len() && byte != 1 { 2 } else { byte }))
                };
                let result = self.readers[*image].image.controlled_peek(*start, handler, *limit_position);
                told(result, |position| lent.answer(position))
            }
            _ => return None,
        })
        .map(|answer| with_entries(answer, call))
    }

    fn imaging(&mut self, call: &Call) -> Option<Answer> {
        Some(match call {
            Call::ImageNew { image, position, session_id } => {
                let value = Image { position: *position, session_id: *session_id, ..Image::default() };
                self.set_image(*image, value);
                Answer::default()
            }
            Call::BlockPoll { image, limit } => {
                BLOCK.set([0; 4]);
                let length = self.readers[*image].image.block_poll(on_block, *limit);
                if length as i64 == BLOCK.get()[1] {
                    Answer::of(&BLOCK.get())
                } else {
                    Answer::refusal(-1)
                }
            }
            Call::SetPosition { image, new_position } => {
                told(self.readers[*image].image.set_position(*new_position), |()| Answer::default())
            }
            Call::IsEndOfStream { image } => Answer::of(&[self.readers[*image].image.is_end_of_stream() as i64]),
            Call::ImageClose { image } => {
                self.readers[*image].image.close();
                Answer::default()
            }
            _ => return None,
        })
    }

    fn assembling(&mut self, call: &Call) -> Option<Answer> {
        Some(match call {
            Call::AssemblerNew { .. } => {
                self.assembly = Assembly::new();
                Answer::default()
            }
            Call::OnFragment { partition, offset } => {
                let header = self.log.header(*partition, *offset);
                let message = self.assembly.on_fragment(&self.log.term(*partition), *offset, &header);
                message.map_or(Answer::default(), |m| m.answer(0))
            }
            Call::ReplayNew { position, session_id, .. } => {
                let image = Image { position: *position, session_id: *session_id, ..Image::default() };
                self.replay = (reader(&self.log, image), Assembly::new());
                Answer::default()
            }
            Call::ReplayNext => {
                let record = self.record();
                replay_next(&self.log, &record, &mut self.replay)
            }
            Call::ReplayCount { position, session_id, .. } => {
                let image = Image { position: *position, session_id: *session_id, ..Image::default() };
                let (record, mut replay) = (self.record(), (reader(&self.log, image), Assembly::new()));
                let mut counts = [0, 0];
                while counts[0] < most(&record) as i64 {
                    let message = replay_next(&self.log, &record, &mut replay);
                    if message.values[0] == crate::calls::NOTHING {
                        break;
                    }
                    counts = [counts[0] + 1, counts[1] + message.values[2]];
                }
                Answer::of(&counts)
            }
            _ => return None,
        })
    }
}

/// A refused peek leaves its lent entries as they were.
fn with_entries(mut answer: Answer, call: &Call) -> Answer {
    if let Call::ControlledPeek { entries, .. } = call {
        answer.entries.resize(*entries, UNWRITTEN);
    }
    answer
}

/// Polls one fragment at a time into the assembler until it hands out a message, or nothing moves, or the publisher's position is reached.
fn replay_next(log: &Log, record: &Record, (reader, assembly): &mut (Reader, Assembly)) -> Answer {
    for _ in 0..most(record) {
        let before = reader.place.get();
        if before >= record.publisher_position() {
            return Answer::default();
        }
        let mut message = None;
        let mut handler = |buffer: &AtomicBuffer, offset: Index, length: Index, header: &Header| {
            message = assembly.hand(buffer, offset, length, header);
        };
        reader.image.poll(&mut handler, 1);
        if let Some(message) = message {
            return message.answer(before / log.term_length as i64 % 3 * log.term_length as i64);
        }
        if reader.place.get() == before {
            return Answer::default();
        }
    }
    Answer::default()
}

fn numbers(call: &Call) -> Option<Answer> {
    let answer = match call {
        Call::Align { value } => bit_utils::align(i32::try_from(*value).ok()?, 32) as i64,
        Call::IsPowerOfTwo { value } => bit_utils::is_power_of_two(i32::try_from(*value).ok()?) as i64,
        Call::TermId { raw_tail } => log_buffer_descriptor::term_id(*raw_tail) as i64,
        Call::TermOffset { raw_tail, term_length } => log_buffer_descriptor::term_offset(*raw_tail, *term_length) as i64,
        Call::IndexByTermCount { count } => log_buffer_descriptor::index_by_term_count(i64::try_from(*count).ok()?) as i64,
        Call::IndexByPosition { position, bits } => {
            log_buffer_descriptor::index_by_position(i64::try_from(*position).ok()?, i32::try_from(*bits).ok()?) as i64
        }
        Call::PositionBitsToShift { term_length } => bit_utils::number_of_trailing_zeroes(*term_length as i32) as i64,
        Call::ComputePosition { term_id, offset, bits, initial_term_id } => log_buffer_descriptor::compute_position(
            *term_id,
            i32::try_from(*offset).ok()?,
            i32::try_from(*bits).ok()?,
            *initial_term_id,
        ),
        _ => return None,
    };
    Some(Answer::of(&[answer]))
}
