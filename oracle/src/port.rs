//! The port under the calls of `calls.rs`: the functions of include/logbuffer.h over memory kept here.
//! Log, buffers and entries lie between margins, which `margins_touched` looks at. Read `domain.rs` next.

use crate::calls::{body_bytes, fill, Answer, Assembler, Call, Claim, Image, Record, IMAGES, IN_BUFFER, UNWRITTEN};

const MARGIN: usize = 1024;
const MARGIN_BYTE: u8 = 0xa7;

#[repr(C)]
#[derive(Clone, Copy, PartialEq, Eq, Debug, Default)]
pub struct Replay {
    pub image: Image,
    pub assembler: Assembler,
}

mod c {
    //! include/logbuffer.h, declaration by declaration.
    use super::Replay;
    use crate::calls::{Assembler, Claim, Image, Record};

    macro_rules! reply {
        ($name:ident { $($field:ident: $kind:ty),* }) => {
            #[repr(C)]
            pub struct $name { $(pub $field: $kind),* }
        };
    }
    reply!(PositionReply { code: i32, position: i64 });
    reply!(OfferReply { code: i32, rule: u32, position: i64 });
    reply!(ClaimReply { code: i32, rule: u32, position: i64, claim: Claim });
    reply!(SpanReply { code: i32, start: usize, length: usize });
    reply!(AppendReply { code: i32, is_tripped: bool, offset: usize });
    reply!(AppendClaimReply { code: i32, is_tripped: bool, offset: usize, claim: Claim });
    reply!(Header {
        frame_length: i32, version: u8, flags: u8, frame_type: u16, term_offset: i32, session_id: i32, stream_id: i32,
        term_id: i32, reserved_value: i64, position: i64
    });
    reply!(HeaderReply { code: i32, fields: Header });
    reply!(ReadReply { code: i32, fragments: u32, offset: usize });
    reply!(ScanReply { code: i32, offset: usize });
    reply!(FrameLengthReply { code: i32, state: i32, length: usize });
    reply!(GapReply { code: i32, is_gap: bool, is_being_written: bool, term_id: i32, offset: usize, length: usize });
    reply!(AvailabilityReply { code: i32, padding: u32, available: usize });
    reply!(PollReply { code: i32, fragments: u32, entries: u32, partition: i32 });
    reply!(PeekReply { code: i32, entries: u32, position: i64, partition: i32 });
    reply!(BlockReply { code: i32, partition: i32, offset: usize, length: usize, session_id: i32, term_id: i32 });
    reply!(EndOfStreamReply { code: i32, is_eos: bool });
    reply!(AssemblyReply { code: i32, place: i32, start: usize, length: usize });
    reply!(NextReply { code: i32, place: i32, start: usize, length: usize });
    reply!(CountReply { code: i32, messages: usize, bytes: usize });

    type In = *const u8;
    type Out = *mut u8;
    extern "C" {
        pub fn logbuffer_open(
            rec: *mut Record, log: Out, n: usize, term: i32, mtu: i32, initial: i32, session: i32, stream: i32,
        ) -> i32;
        pub fn logbuffer_set_publication_limit(rec: *mut Record, limit: i64) -> i32;
        pub fn logbuffer_set_slowest_position(rec: *mut Record, position: i64) -> i32;
        pub fn logbuffer_clear_partition(rec: *mut Record, log: Out, n: usize, partition: i32) -> i32;
        pub fn logbuffer_close(rec: *mut Record) -> i32;
        pub fn logbuffer_rotate_log(rec: *mut Record, count: i32, term_id: i32) -> i32;
        pub fn logbuffer_position(rec: *const Record) -> PositionReply;
        pub fn logbuffer_publication_limit(rec: *const Record) -> PositionReply;
        pub fn logbuffer_available_window(rec: *const Record) -> PositionReply;
        pub fn logbuffer_align(value: u32) -> usize;
        pub fn logbuffer_is_power_of_two(value: u32) -> bool;
        pub fn logbuffer_term_id(raw_tail: i64) -> i32;
        pub fn logbuffer_term_offset(raw_tail: i64, term_length: usize) -> usize;
        pub fn logbuffer_index_by_term_count(count: usize) -> usize;
        pub fn logbuffer_index_by_position(position: u64, bits: u32) -> usize;
        pub fn logbuffer_position_bits_to_shift(term_length: u32) -> u32;
        pub fn logbuffer_compute_position(term_id: i32, offset: u32, bits: u32, initial: i32) -> PositionReply;
        pub fn logbuffer_offer(rec: *mut Record, log: Out, n: usize, message: In, length: usize, reserved: i64) -> OfferReply;
        pub fn logbuffer_try_claim(rec: *mut Record, log: Out, n: usize, length: i32) -> ClaimReply;
        pub fn logbuffer_claim_body(rec: *const Record, log: In, n: usize, claim: Claim) -> SpanReply;
        pub fn logbuffer_claim_body_number(rec: *const Record, log: In, n: usize, claim: Claim) -> i32;
        pub fn logbuffer_commit(rec: *const Record, log: Out, n: usize, claim: Claim) -> i32;
        pub fn logbuffer_abort(rec: *const Record, log: Out, n: usize, claim: Claim) -> i32;
        pub fn logbuffer_append_unfragmented_message(
            rec: *mut Record, log: Out, n: usize, partition: i32, message: In, length: usize, reserved: i64, term_id: i32,
        ) -> AppendReply;
        pub fn logbuffer_append_fragmented_message(
            rec: *mut Record, log: Out, n: usize, partition: i32, message: In, length: usize, reserved: i64, payload: i32, term_id: i32,
        ) -> AppendReply;
        pub fn logbuffer_append_claim(rec: *mut Record, log: Out, n: usize, partition: i32, length: i32, term_id: i32) -> AppendClaimReply;
        pub fn logbuffer_header_fields(rec: *const Record, log: In, n: usize, partition: i32, offset: i32) -> HeaderReply;
        pub fn logbuffer_frame_length(rec: *const Record, log: In, n: usize, partition: i32, offset: i32) -> FrameLengthReply;
        pub fn logbuffer_read(
            rec: *const Record, log: In, n: usize, partition: i32, offset: i32, limit: i32, entries: *mut i32, m: usize,
        ) -> ReadReply;
        pub fn logbuffer_view(rec: *const Record, log: In, n: usize, partition: i32, offset: i32, length: i32) -> SpanReply;
        pub fn logbuffer_view_number(rec: *const Record, log: In, n: usize, partition: i32, offset: i32, length: i32) -> i32;
        pub fn logbuffer_scan(rec: *const Record, log: In, n: usize, partition: i32, offset: i32, limit: i32) -> ScanReply;
        pub fn logbuffer_scan_for_gap(
            rec: *const Record, log: In, n: usize, partition: i32, term_id: i32, offset: i32, high_mark: i32,
        ) -> GapReply;
        pub fn logbuffer_scan_for_availability(
            rec: *const Record, log: In, n: usize, partition: i32, offset: i32, maximum: i32,
        ) -> AvailabilityReply;
        pub fn logbuffer_image_new(image: *mut Image, position: i64, session_id: i32);
        pub fn logbuffer_image_poll(
            image: *mut Image, rec: *const Record, log: In, n: usize, limit: i32, entries: *mut i32, m: usize,
        ) -> PollReply;
        pub fn logbuffer_image_bounded_poll(
            image: *mut Image, rec: *const Record, log: In, n: usize, limit_position: i64, limit: i32, entries: *mut i32, m: usize,
        ) -> PollReply;
        pub fn logbuffer_image_controlled_poll(
            image: *mut Image, rec: *const Record, log: In, n: usize, limit: i32, entries: *mut i32, m: usize, actions: In, a: usize,
        ) -> PollReply;
        pub fn logbuffer_image_controlled_peek(
            image: *const Image, rec: *const Record, log: In, n: usize, start: i64, limit_position: i64, entries: *mut i32, m: usize,
            actions: In, a: usize,
        ) -> PeekReply;
        pub fn logbuffer_image_block_poll(image: *mut Image, rec: *const Record, log: In, n: usize, limit: i32) -> BlockReply;
        pub fn logbuffer_image_set_position(image: *mut Image, rec: *const Record, log: In, n: usize, new_position: i64) -> i32;
        pub fn logbuffer_image_is_end_of_stream(image: *const Image, rec: *const Record, log: In, n: usize) -> EndOfStreamReply;
        pub fn logbuffer_image_close(image: *mut Image, rec: *const Record, log: In, n: usize) -> i32;
        pub fn logbuffer_assembler_new(assembler: *mut Assembler);
        pub fn logbuffer_assembler_on_fragment(
            assembler: *mut Assembler, rec: *const Record, log: In, n: usize, partition: i32, offset: i32, buffer: Out, m: usize,
        ) -> AssemblyReply;
        pub fn logbuffer_replay_new(replay: *mut Replay, position: i64, session_id: i32);
        pub fn logbuffer_replay_next(replay: *mut Replay, rec: *const Record, log: In, n: usize, buffer: Out, m: usize) -> NextReply;
        pub fn logbuffer_replay_count(
            rec: *const Record, log: In, n: usize, position: i64, session_id: i32, buffer: Out, m: usize,
        ) -> CountReply;
    }
}

/// Bytes between two margins.
pub struct Lent {
    bytes: Vec<u8>,
}

impl Lent {
    pub fn zeroed(length: usize) -> Self {
        let mut bytes = vec![0; length + 2 * MARGIN];
        bytes[..MARGIN].fill(MARGIN_BYTE);
        bytes[MARGIN + length..].fill(MARGIN_BYTE);
        Lent { bytes }
    }

    pub fn get(&self) -> &[u8] {
        &self.bytes[MARGIN..self.bytes.len() - MARGIN]
    }

    pub fn get_mut(&mut self) -> &mut [u8] {
        let end = self.bytes.len() - MARGIN;
        &mut self.bytes[MARGIN..end]
    }

    fn margins_touched(&self) -> bool {
        let end = self.bytes.len() - MARGIN;
        let written = |margin: &[u8]| margin.iter().fold(0, |all, byte| all | (byte ^ MARGIN_BYTE)) != 0;
        written(&self.bytes[..MARGIN]) || written(&self.bytes[end..])
    }
}

pub struct Port {
    pub record: Record,
    pub log: Lent,
    /// How many bytes of the log are lent; up to `MARGIN` more than there are.
    pub lent: usize,
    pub images: [Image; IMAGES],
    pub assembler: Assembler,
    pub buffer: Lent,
    pub replay: Replay,
    pub replay_buffer: Lent,
    /// Where the last message put together lies in the buffer.
    pub start: usize,
    /// The rule that decided the last offer or claim, by its place in the order.
    pub rule: u32,
    strayed: bool,
}

impl Port {
    pub fn new(terms: usize) -> Self {
        let closed = Image { is_closed: true, ..Image::default() };
        Port {
            record: Record::default(),
            log: Lent::zeroed(terms),
            lent: terms,
            images: [closed; IMAGES],
            assembler: Assembler::default(),
            buffer: Lent::zeroed(0),
            replay: Replay { image: closed, assembler: Assembler::default() },
            replay_buffer: Lent::zeroed(0),
            start: 0,
            rule: 0,
            strayed: false,
        }
    }

    pub fn margins_touched(&self) -> bool {
        let lent = [&self.log, &self.buffer, &self.replay_buffer];
        self.strayed || lent.iter().any(|bytes| bytes.margins_touched())
    }

    /// The bytes that the calls are lent as the log.
    pub fn lent_log(&self) -> &[u8] {
        &self.log.bytes[MARGIN..MARGIN + self.lent]
    }

    fn log(&self) -> (*const u8, usize) {
        (self.log.get().as_ptr(), self.lent)
    }

    fn log_mut(&mut self) -> (*mut u8, usize) {
        (self.log.get_mut().as_mut_ptr(), self.lent)
    }

    pub fn call(&mut self, call: &Call) -> Answer {
        let group = self.by_hand(call).or_else(|| self.on_record(call)).or_else(|| self.writing(call));
        let group = group.or_else(|| self.claims(call)).or_else(|| self.appending(call));
        let group = group.or_else(|| self.frames(call)).or_else(|| self.scans(call)).or_else(|| self.polling(call));
        let group = group.or_else(|| self.imaging(call)).or_else(|| self.assembling(call)).or_else(|| numbers(call));
        placed_first(call, group.expect("every call has a group"))
    }

    fn by_hand(&mut self, call: &Call) -> Option<Answer> {
        match call {
            Call::SetRecord { record } => self.record = *record,
            Call::PutBytes { at, bytes } => self.log.get_mut()[*at..*at + bytes.len()].copy_from_slice(bytes),
            Call::Fill { seed } => fill(self.log.get_mut(), *seed),
            Call::SetImage { image, value } => self.images[*image] = *value,
            Call::SetAssembler { assembler } => self.assembler = *assembler,
            Call::LendLog { length } => self.lent = *length,
            _ => return None,
        }
        Some(Answer::default())
    }

    fn on_record(&mut self, call: &Call) -> Option<Answer> {
        let (log, n) = self.log_mut();
        let record: *mut Record = &mut self.record;
        let position = |reply: c::PositionReply| Answer { code: reply.code, ..Answer::of(&[reply.position]) };
        Some(match call {
            Call::Open { term_length, mtu_length, initial_term_id, session_id, stream_id } => Answer::refusal(unsafe {
                c::logbuffer_open(record, log, n, *term_length, *mtu_length, *initial_term_id, *session_id, *stream_id)
            }),
            Call::SetPublicationLimit { limit } => {
                Answer::refusal(unsafe { c::logbuffer_set_publication_limit(record, *limit) })
            }
            Call::SetSlowestPosition { position } => {
                Answer::refusal(unsafe { c::logbuffer_set_slowest_position(record, *position) })
            }
            Call::ClearPartition { partition } => {
                Answer::refusal(unsafe { c::logbuffer_clear_partition(record, log, n, *partition) })
            }
            Call::Close => Answer::refusal(unsafe { c::logbuffer_close(record) }),
            Call::RotateLog { count, term_id } => {
                Answer::refusal(unsafe { c::logbuffer_rotate_log(record, *count, *term_id) })
            }
            Call::Position => position(unsafe { c::logbuffer_position(record) }),
            Call::PublicationLimit => position(unsafe { c::logbuffer_publication_limit(record) }),
            Call::AvailableWindow => position(unsafe { c::logbuffer_available_window(record) }),
            _ => return None,
        })
    }

    fn writing(&mut self, call: &Call) -> Option<Answer> {
        let (log, n) = self.log_mut();
        let record: *mut Record = &mut self.record;
        Some(match call {
            Call::Offer { message, reserved_value } => {
                let reply =
                    unsafe { c::logbuffer_offer(record, log, n, message.as_ptr(), message.len(), *reserved_value) };
                self.rule = reply.rule;
                Answer { code: reply.code, ..Answer::of(&[reply.position]) }
            }
            Call::TryClaim { length } => {
                let reply = unsafe { c::logbuffer_try_claim(record, log, n, *length) };
                self.rule = reply.rule;
                Answer { code: reply.code, ..claimed(&[reply.position], reply.claim) }
            }
            _ => return None,
        })
    }

    fn claims(&mut self, call: &Call) -> Option<Answer> {
        let (log, n) = self.log_mut();
        let record: *mut Record = &mut self.record;
        Some(match call {
            Call::WriteBody { claim, first } => {
                let span = unsafe { c::logbuffer_claim_body(record, log, n, *claim) };
                let number = unsafe { c::logbuffer_claim_body_number(record, log, n, *claim) };
                if span.code == 0 {
                    let body = &mut self.log.get_mut()[span.start..span.start + span.length];
                    body.copy_from_slice(&body_bytes(*first, span.length));
                }
                Answer { code: both(span.code, number), ..Answer::of(&[span.start as i64, span.length as i64]) }
            }
            Call::Commit { claim } => Answer::refusal(unsafe { c::logbuffer_commit(record, log, n, *claim) }),
            Call::Abort { claim } => Answer::refusal(unsafe { c::logbuffer_abort(record, log, n, *claim) }),
            _ => return None,
        })
    }

    fn appending(&mut self, call: &Call) -> Option<Answer> {
        let (log, n) = self.log_mut();
        let record: *mut Record = &mut self.record;
        Some(match call {
            Call::AppendUnfragmented { partition, message: m, reserved_value, term_id } => {
                let reply = unsafe {
                    c::logbuffer_append_unfragmented_message(
                        record, log, n, *partition, m.as_ptr(), m.len(), *reserved_value, *term_id,
                    )
                };
                Answer { code: reply.code, ..Answer::of(&[reply.is_tripped as i64, reply.offset as i64]) }
            }
            Call::AppendFragmented { partition, message: m, reserved_value, payload_limit, term_id } => {
                let reply = unsafe {
                    c::logbuffer_append_fragmented_message(
                        record, log, n, *partition, m.as_ptr(), m.len(), *reserved_value, *payload_limit, *term_id,
                    )
                };
                Answer { code: reply.code, ..Answer::of(&[reply.is_tripped as i64, reply.offset as i64]) }
            }
            Call::AppendClaim { partition, length, term_id } => {
                let reply = unsafe { c::logbuffer_append_claim(record, log, n, *partition, *length, *term_id) };
                let values = [reply.is_tripped as i64, reply.offset as i64];
                Answer { code: reply.code, ..claimed(&values, reply.claim) }
            }
            _ => return None,
        })
    }

    fn frames(&mut self, call: &Call) -> Option<Answer> {
        let (record, (log, n)) = (&self.record as *const Record, self.log());
        Some(match call {
            Call::HeaderFields { partition, offset } => {
                let told = unsafe { c::logbuffer_frame_length(record, log, n, *partition, *offset) };
                let header = unsafe { c::logbuffer_header_fields(record, log, n, *partition, *offset) };
                let code = both(header.code, length_told(told, header.fields.frame_length));
                Answer { code, ..header_answer(header) }
            }
            Call::Read { partition, offset, fragment_limit, entries } => self.with_entries(*entries, |lent, m| {
                let reply =
                    unsafe { c::logbuffer_read(record, log, n, *partition, *offset, *fragment_limit, lent, m) };
                Answer { code: reply.code, ..Answer::of(&[reply.offset as i64, reply.fragments as i64]) }
            }),
            Call::View { partition, offset, length } => {
                let span = unsafe { c::logbuffer_view(record, log, n, *partition, *offset, *length) };
                let number = unsafe { c::logbuffer_view_number(record, log, n, *partition, *offset, *length) };
                let bytes = self.log.get().get(span.start..span.start + span.length).unwrap_or(&[]).to_vec();
                Answer { code: both(span.code, number), bytes, ..Answer::of(&[span.start as i64, span.length as i64]) }
            }
            _ => return None,
        })
    }

    /// A gap's number, and -2 where it does not say of its start what the length word there says: the Rust has no such answer.
    fn gap_told(&self, partition: i32, r: &c::GapReply) -> i32 {
        let sign = |at: usize| self.log.get()[at + 3] >= 0x80;
        let is_right = match r.is_gap {
            true => r.is_being_written == sign(partition as usize * self.record.term_length as usize + r.offset),
            false => !r.is_being_written,
        };
        if is_right {
            r.code
        } else {
            -2
        }
    }

    fn scans(&mut self, call: &Call) -> Option<Answer> {
        let (record, (log, n)) = (&self.record as *const Record, self.log());
        Some(match call {
            Call::Scan { partition, offset, limit } => {
                let reply = unsafe { c::logbuffer_scan(record, log, n, *partition, *offset, *limit) };
                Answer { code: reply.code, ..Answer::of(&[reply.offset as i64]) }
            }
            Call::ScanForGap { partition, term_id, offset, high_mark } => {
                let r = unsafe { c::logbuffer_scan_for_gap(record, log, n, *partition, *term_id, *offset, *high_mark) };
                let code = both(r.code, self.gap_told(*partition, &r));
                Answer { code, ..Answer::of(&[r.is_gap as i64, r.term_id as i64, r.offset as i64, r.length as i64]) }
            }
            Call::ScanForAvailability { partition, offset, maximum } => {
                let reply = unsafe { c::logbuffer_scan_for_availability(record, log, n, *partition, *offset, *maximum) };
                Answer { code: reply.code, ..Answer::of(&[((reply.padding as i64) << 32) + reply.available as i64]) }
            }
            _ => return None,
        })
    }

    /// The partition of a position, by division.
    fn partition_of(&self, position: i64) -> i32 {
        (position as u64 / self.record.term_length.max(1) as u64 % 3) as i32
    }

    /// Lends entries that end in a margin of their own. Of very many only the number counts: they are zeros, and not answered.
    fn with_entries(&mut self, entries: usize, run: impl FnOnce(*mut i32, usize) -> Answer) -> Answer {
        if entries > 1 << 28 {
            return run(vec![0; entries].as_mut_ptr(), entries);
        }
        let mut lent = vec![UNWRITTEN; entries + 8];
        let mut answer = run(lent.as_mut_ptr(), entries);
        self.strayed |= lent[entries..].iter().any(|number| *number != UNWRITTEN);
        lent.truncate(entries);
        answer.entries = lent;
        answer
    }

    fn polled(&mut self, image: usize, entries: usize, run: impl FnOnce(*mut Image, *mut i32, usize) -> c::PollReply) -> Answer {
        let mut next = self.images[image];
        let wanted = self.partition_of(next.position);
        let answer = self.with_entries(entries, |lent, m| {
            let reply = run(&mut next, lent, m);
            Answer { code: in_partition(reply.code, reply.partition, wanted), ..Answer::of(&[reply.fragments as i64, reply.entries as i64]) }
        });
        self.images[image] = next;
        answer
    }

    fn polling(&mut self, call: &Call) -> Option<Answer> {
        let (record, (log, n)) = (&self.record as *const Record, self.log());
        Some(match call {
            Call::Poll { image, entries, fragment_limit } => self.polled(*image, *entries, |image, lent, m| unsafe {
                c::logbuffer_image_poll(image, record, log, n, *fragment_limit, lent, m)
            }),
            Call::BoundedPoll { image, entries, limit_position, fragment_limit } => {
                self.polled(*image, *entries, |image, lent, m| unsafe {
                    c::logbuffer_image_bounded_poll(image, record, log, n, *limit_position, *fragment_limit, lent, m)
                })
            }
            Call::ControlledPoll { image, entries, actions, fragment_limit } => {
                let (bytes, a) = (actions.as_ptr(), actions.len());
                self.polled(*image, *entries, |image, lent, m| unsafe {
                    c::logbuffer_image_controlled_poll(image, record, log, n, *fragment_limit, lent, m, bytes, a)
                })
            }
            Call::ControlledPeek { image, entries, actions, start, limit_position } => {
                let (bytes, a) = (actions.as_ptr(), actions.len());
                let from: *const Image = &self.images[*image];
                let wanted = self.partition_of(*start);
                self.with_entries(*entries, |lent, m| {
                    let reply = unsafe {
                        c::logbuffer_image_controlled_peek(from, record, log, n, *start, *limit_position, lent, m, bytes, a)
                    };
                    let code = in_partition(reply.code, reply.partition, wanted);
                    Answer { code, ..Answer::of(&[reply.position, reply.entries as i64]) }
                })
            }
            _ => return None,
        })
    }

    fn imaging(&mut self, call: &Call) -> Option<Answer> {
        let (record, (log, n)) = (&self.record as *const Record, self.log());
        Some(match call {
            Call::ImageNew { image, position, session_id } => {
                unsafe { c::logbuffer_image_new(&mut self.images[*image], *position, *session_id) };
                Answer::default()
            }
            Call::BlockPoll { image, limit } => {
                let wanted = self.partition_of(self.images[*image].position);
                let r = unsafe { c::logbuffer_image_block_poll(&mut self.images[*image], record, log, n, *limit) };
                let code = in_partition(r.code, r.partition, wanted);
                Answer { code, ..Answer::of(&[r.offset as i64, r.length as i64, r.session_id as i64, r.term_id as i64]) }
            }
            Call::SetPosition { image, new_position } => {
                let image = &mut self.images[*image];
                Answer::refusal(unsafe { c::logbuffer_image_set_position(image, record, log, n, *new_position) })
            }
            Call::IsEndOfStream { image } => {
                let reply = unsafe { c::logbuffer_image_is_end_of_stream(&self.images[*image], record, log, n) };
                Answer { code: reply.code, ..Answer::of(&[reply.is_eos as i64]) }
            }
            Call::ImageClose { image } => {
                Answer::refusal(unsafe { c::logbuffer_image_close(&mut self.images[*image], record, log, n) })
            }
            _ => return None,
        })
    }

    fn assembling(&mut self, call: &Call) -> Option<Answer> {
        let (record, (log, n)) = (&self.record as *const Record, self.log());
        Some(match call {
            Call::AssemblerNew { buffer } => {
                unsafe { c::logbuffer_assembler_new(&mut self.assembler) };
                self.buffer = Lent::zeroed(*buffer);
                Answer::default()
            }
            Call::OnFragment { partition, offset } => self.on_fragment(*partition, *offset),
            Call::ReplayNew { position, session_id, buffer } => {
                unsafe { c::logbuffer_replay_new(&mut self.replay, *position, *session_id) };
                self.replay_buffer = Lent::zeroed(*buffer);
                Answer::default()
            }
            Call::ReplayNext => self.replay_next(),
            Call::ReplayCount { position, session_id, buffer } => {
                let mut lent = Lent::zeroed(*buffer);
                let out = lent.get_mut().as_mut_ptr();
                let reply = unsafe { c::logbuffer_replay_count(record, log, n, *position, *session_id, out, *buffer) };
                self.strayed |= lent.margins_touched();
                Answer { code: reply.code, ..Answer::of(&[reply.messages as i64, reply.bytes as i64]) }
            }
            _ => return None,
        })
    }

    fn on_fragment(&mut self, partition: i32, offset: i32) -> Answer {
        let (record, (log, n)) = (self.record, self.log());
        let (buffer, m) = (self.buffer.get_mut().as_mut_ptr(), self.buffer.get().len());
        let reply = unsafe {
            c::logbuffer_assembler_on_fragment(&mut self.assembler, &record, log, n, partition, offset, buffer, m)
        };
        let term = (partition.max(0) as usize).wrapping_mul(record.term_length.max(0) as usize);
        let bytes = self.message(reply.place as i64, reply.start, term + reply.start, reply.length, false);
        self.placed(reply.code, reply.place as i64, reply.start, bytes)
    }

    fn replay_next(&mut self) -> Answer {
        let (log, n) = self.log();
        let (buffer, m) = (self.replay_buffer.get_mut().as_mut_ptr(), self.replay_buffer.get().len());
        let reply = unsafe { c::logbuffer_replay_next(&mut self.replay, &self.record, log, n, buffer, m) };
        let bytes = self.message(reply.place as i64, reply.start, reply.start, reply.length, true);
        self.placed(reply.code, reply.place as i64, reply.start, bytes)
    }

    /// The message's bytes, from the log or a buffer.
    fn message(&self, place: i64, start: usize, index: usize, length: usize, of_replay: bool) -> Vec<u8> {
        let buffer = if of_replay { self.replay_buffer.get() } else { self.buffer.get() };
        let (bytes, start) = if place == IN_BUFFER { (buffer, start) } else { (self.log.get(), index) };
        bytes.get(start..start + length).unwrap_or(&[]).to_vec()
    }

    fn placed(&mut self, code: i32, place: i64, start: usize, bytes: Vec<u8>) -> Answer {
        let length = bytes.len() as i64;
        let shown = if place == IN_BUFFER {
            self.start = start;
            0
        } else {
            start as i64
        };
        Answer { code, bytes, ..Answer::of(&[place, shown, length]) }
    }
}

/// A reply refused 22 or 23 has the place in its first number, a gap's in its offset, the assembler's and a replay's in its start. It is told as the first
/// value here, and the number is -3 where any other number of the reply is not 0.
fn placed_first(call: &Call, mut answer: Answer) -> Answer {
    if ![22, 23].contains(&answer.code) {
        return answer;
    }
    let k = match call {
        Call::ScanForGap { .. } => 2,
        Call::OnFragment { .. } | Call::ReplayNext => 1,
        _ => 0,
    };
    let place = std::mem::take(&mut answer.values[k]);
    if answer.values.iter().any(|value| *value != 0) {
        answer.code = -3;
    }
    answer.values[0] = place;
    answer
}

/// A reader's number, and -2 where its partition is another one, or not 0 beside a refusal: the Rust does not answer it.
fn in_partition(code: i32, partition: i32, wanted: i32) -> i32 {
    if partition == if code == 0 { wanted } else { 0 } {
        code
    } else {
        -2
    }
}

/// A call's number and its companion's: -1 where they differ.
fn both(code: i32, number: i32) -> i32 {
    if code == number {
        code
    } else {
        -1
    }
}

fn claimed(values: &[i64], claim: Claim) -> Answer {
    let mut all = values.to_vec();
    all.extend([claim.partition, claim.offset, claim.length, claim.term_id].map(i64::from));
    Answer::of(&all)
}

/// The frame length reader's number, and -2 where it does not say what the length word says: the Rust has no such answer.
fn length_told(reply: c::FrameLengthReply, word: i32) -> i32 {
    let wanted = match (reply.code, word) {
        (0, 1..) => (2, word as usize),
        (0, ..=-1) => (1, word.unsigned_abs() as usize),
        _ => (0, 0),
    };
    if (reply.state, reply.length) == wanted {
        reply.code
    } else {
        -2
    }
}

fn header_answer(reply: c::HeaderReply) -> Answer {
    let f = reply.fields;
    let values = [
        f.frame_length as i64,
        f.version as i64,
        f.flags as i64,
        f.frame_type as i64,
        f.term_offset as i64,
        f.session_id as i64,
        f.stream_id as i64,
        f.term_id as i64,
        f.reserved_value,
        f.position,
    ];
    Answer { code: reply.code, ..Answer::of(&values) }
}

fn numbers(call: &Call) -> Option<Answer> {
    let answer = match call {
        Call::Align { value } => unsafe { c::logbuffer_align(*value) as i64 },
        Call::IsPowerOfTwo { value } => unsafe { c::logbuffer_is_power_of_two(*value) as i64 },
        Call::TermId { raw_tail } => unsafe { c::logbuffer_term_id(*raw_tail) as i64 },
        Call::TermOffset { raw_tail, term_length } => unsafe {
            c::logbuffer_term_offset(*raw_tail, *term_length as usize) as i64
        },
        Call::IndexByTermCount { count } => unsafe { c::logbuffer_index_by_term_count(*count as usize) as i64 },
        Call::IndexByPosition { position, bits } => unsafe { c::logbuffer_index_by_position(*position, *bits) as i64 },
        Call::PositionBitsToShift { term_length } => unsafe { c::logbuffer_position_bits_to_shift(*term_length) as i64 },
        Call::ComputePosition { term_id, offset, bits, initial_term_id } => {
            let reply = unsafe { c::logbuffer_compute_position(*term_id, *offset, *bits, *initial_term_id) };
            return Some(Answer { code: reply.code, ..Answer::of(&[reply.position]) });
        }
        _ => return None,
    };
    Some(Answer::of(&[answer]))
}
