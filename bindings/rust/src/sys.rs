//! The C face, include/logbuffer.h, declaration by declaration, and all unsafe code of the crate: a safe function over slices for each
//! function that takes some. Functions that take numbers and references alone are safe as they are. Read log.rs next.
//!
//! What the face asks, and why every wrapper keeps it: a pointer is valid for its count of elements, for both come from one slice; one to a
//! struct is a reference; nothing that is written overlaps anything else, for it is a `&mut`. It keeps no pointer past the call, writes
//! through `*mut` and `&mut` alone, takes any number and any bytes, and leaves a bool 0 or 1 where it found one so.

/// A log's record: all that is known of a log beside its bytes. [`Log::record`](crate::Log::record) shows it, and
/// [`Log::from_parts`](crate::Log::from_parts) takes one that was kept.
#[repr(C)]
#[derive(Clone, Copy, Debug, PartialEq, Eq)]
pub struct Record {
    /// Raw tails of the three partitions: the term id in the upper 32 bits, the offset in the lower.
    pub tails: [i64; 3],
    /// How many terms were full before the active one.
    pub active_term_count: i32,
    /// The first term's id.
    pub initial_term_id: i32,
    /// Bytes of a term.
    pub term_length: i32,
    /// The longest frame; the payload limit is 32 less.
    pub mtu_length: i32,
    /// The publication's session.
    pub session_id: i32,
    /// Its stream.
    pub stream_id: i32,
    /// 1 is yes, any other number no. No call sets it.
    pub is_connected: i32,
    /// Nothing that begins at or past this position is accepted.
    pub publication_limit: i64,
    /// Where the stream ends for readers: 2^63 - 1 unless set by hand.
    pub end_of_stream_position: i64,
    /// Whether the publication is closed.
    pub is_closed: bool,
    /// How far the slowest reader has come: terms that end at or before it may be cleared.
    pub slowest_position: i64,
    /// Bit k says that partition k, 0 to 2, is cleared; the other bits mean nothing.
    pub cleared_marks: u64,
    /// Of the metadata section, the caller's: 0 at opening, carried and never looked at.
    pub active_transport_count: i32,
    /// The same. Aeron's own clients want a power of two from 4,096 to 2^30 here.
    pub page_size: i32,
    /// The same. Aeron's own clients want the number by which their driver registered the publication.
    pub correlation_id: i64,
}

/// The 32 bytes of a frame's header as they stand, and the position past the frame.
#[repr(C)]
#[derive(Clone, Copy, Debug, PartialEq, Eq)]
pub struct Header {
    /// Header and body: 0 is free, negative being written, positive finished.
    pub frame_length: i32,
    /// 0.
    pub version: u8,
    /// 0x80 begins a message, 0x40 ends it.
    pub flags: u8,
    /// 0 is padding, 1 data.
    pub frame_type: u16,
    /// The frame's offset in its term.
    pub term_offset: i32,
    /// The writer's session.
    pub session_id: i32,
    /// The writer's stream.
    pub stream_id: i32,
    /// The id of the frame's term.
    pub term_id: i32,
    /// A number of the writer's, set by offers, left alone by claims and padding.
    pub reserved_value: i64,
    /// The position past the frame.
    pub position: i64,
}

#[repr(C)]
#[derive(Clone, Copy, Debug, PartialEq, Eq)]
pub struct Claim {
    pub partition: i32,
    pub offset: i32,
    pub length: i32,
    pub term_id: i32,
}

#[repr(C)]
#[derive(Clone, Copy, Debug, Default, PartialEq, Eq)]
pub struct Image {
    pub position: i64,
    pub session_id: i32,
    pub is_closed: bool,
    pub is_eos: bool,
}

#[repr(C)]
#[derive(Clone, Copy, Debug, Default, PartialEq, Eq)]
pub struct Assembler {
    pub count: usize,
    pub ids: [i32; 16],
    pub held: [usize; 16],
}

#[repr(C)]
#[derive(Clone, Copy, Debug, Default, PartialEq, Eq)]
pub struct Replay {
    pub image: Image,
    pub assembler: Assembler,
}

#[repr(C)]
#[derive(Clone, Copy, Debug, PartialEq, Eq)]
pub struct Card {
    pub bits: u8,
    pub find: u32,
    pub trench: u16,
    pub context: u16,
    pub material: u8,
    pub weight: u32,
}

/// Where bytes went.
#[repr(C)]
#[derive(Clone, Copy, Debug, Default, PartialEq, Eq, Hash)]
pub struct Sums {
    /// Body bytes of data frames.
    pub body: usize,
    /// 32 for each data frame.
    pub headers: usize,
    /// The bytes between the ends of data frames and the next multiples of 32.
    pub slack: usize,
    /// Padding frames at their aligned length, aborted claims among them.
    pub padding: usize,
}

#[repr(C)]
#[derive(Clone, Copy, Debug, PartialEq, Eq)]
pub struct Partitions {
    pub p0: Sums,
    pub p1: Sums,
    pub p2: Sums,
}

#[repr(C)]
#[derive(Clone, Copy, Debug, PartialEq, Eq)]
pub struct Ends {
    pub find: usize,
    pub trench: usize,
    pub context: usize,
    pub material: usize,
    pub weight: usize,
    pub note: usize,
}

pub const IN_LOG: i32 = 1;
pub const IN_BUFFER: i32 = 2;

/// States of a frame length other than 0, free.
pub const WRITING: i32 = 1;
pub const FINISHED: i32 = 2;

macro_rules! replies {
    ($($name:ident { $($field:ident: $kind:ty),* })*) => {
        $(
            #[repr(C)]
            #[derive(Clone, Copy, Debug)]
            pub struct $name { $(pub $field: $kind),* }
        )*
    };
}

replies! {
    PositionReply { code: i32, position: i64 }
    OfferReply { code: i32, rule: u32, position: i64 }
    ClaimReply { code: i32, rule: u32, position: i64, claim: Claim }
    SpanReply { code: i32, start: usize, length: usize }
    AppendReply { code: i32, is_tripped: bool, offset: usize }
    AppendClaimReply { code: i32, is_tripped: bool, offset: usize, claim: Claim }
    HeaderReply { code: i32, fields: Header }
    FrameLengthReply { code: i32, state: i32, length: usize }
    ReadReply { code: i32, fragments: u32, offset: usize }
    ScanReply { code: i32, offset: usize }
    GapReply { code: i32, is_gap: bool, is_being_written: bool, term_id: i32, offset: usize, length: usize }
    AvailabilityReply { code: i32, padding: u32, available: usize }
    PollReply { code: i32, fragments: u32, entries: u32, partition: i32 }
    PeekReply { code: i32, entries: u32, position: i64, partition: i32 }
    BlockReply { code: i32, partition: i32, offset: usize, length: usize, session_id: i32, term_id: i32 }
    EndOfStreamReply { code: i32, is_eos: bool }
    AssemblyReply { code: i32, place: i32, start: usize, length: usize }
    NextReply { code: i32, place: i32, start: usize, length: usize }
    BatchReply { code: i32, messages: usize }
    CountReply { code: i32, messages: usize, bytes: usize }
    CardWriteReply { code: i32, length: usize }
    CardReadReply { code: i32, card: Card, note_start: usize, note_length: usize }
    TallyReply { code: i32, stop: i32, position: i64, writing: usize, sums: Sums }
    PartitionTallyReply { code: i32, stop: i32, position: i64, writing: usize, sums: Sums, partitions: Partitions }
    HoldingReply {
        code: i32, stop: i32, position: i64, writing: usize, card: Card, ends: Ends, note_length: usize, note: [u8; 255]
    }
}

/// Functions of the face that take no slice.
pub use face::{
    logbuffer_align as align, logbuffer_available_window as available_window, logbuffer_close as close,
    logbuffer_compute_position as compute_position, logbuffer_index_by_position as index_by_position,
    logbuffer_index_by_term_count as index_by_term_count, logbuffer_is_power_of_two as is_power_of_two,
    logbuffer_position as position, logbuffer_position_bits_to_shift as position_bits_to_shift,
    logbuffer_publication_limit as publication_limit, logbuffer_set_publication_limit as set_publication_limit,
    logbuffer_set_slowest_position as set_slowest_position, logbuffer_term_id as term_id, logbuffer_term_offset as term_offset,
};

/// What makes the linker look for the face's version: an archive of another one does not link.
#[used]
static FACE: extern "C" fn() -> u32 = face::logbuffer_face_4;

#[allow(dead_code)] // the whole face stands here; what the safe calls have no use for too
mod face {
    use super::*;

    type In = *const u8;
    type Out = *mut u8;
    type Entries = *mut i32;
    type Numbers = *mut usize;

    #[rustfmt::skip]
    unsafe extern "C" {
        pub safe fn logbuffer_set_publication_limit(rec: &mut Record, limit: i64) -> i32;
        pub safe fn logbuffer_set_slowest_position(rec: &mut Record, position: i64) -> i32;
        pub safe fn logbuffer_close(rec: &mut Record) -> i32;
        pub safe fn logbuffer_rotate_log(rec: &mut Record, count: i32, term_id: i32) -> i32;
        pub safe fn logbuffer_position(rec: &Record) -> PositionReply;
        pub safe fn logbuffer_publication_limit(rec: &Record) -> PositionReply;
        pub safe fn logbuffer_available_window(rec: &Record) -> PositionReply;
        pub safe fn logbuffer_face_4() -> u32;
        pub safe fn logbuffer_align(value: u32) -> usize;
        pub safe fn logbuffer_is_power_of_two(value: u32) -> bool;
        pub safe fn logbuffer_term_id(raw_tail: i64) -> i32;
        pub safe fn logbuffer_term_offset(raw_tail: i64, term_length: usize) -> usize;
        pub safe fn logbuffer_index_by_term_count(count: usize) -> usize;
        pub safe fn logbuffer_index_by_position(position: u64, bits: u32) -> usize;
        pub safe fn logbuffer_position_bits_to_shift(term_length: u32) -> u32;
        pub safe fn logbuffer_compute_position(term_id: i32, offset: u32, bits: u32, initial_term_id: i32) -> PositionReply;
        pub safe fn logbuffer_image_new(image: &mut Image, position: i64, session_id: i32);
        pub safe fn logbuffer_assembler_new(assembler: &mut Assembler);
        pub safe fn logbuffer_replay_new(replay: &mut Replay, position: i64, session_id: i32);

        pub fn logbuffer_open(
            rec: &mut Record, log: Out, log_length: usize, term_length: i32, mtu_length: i32, initial_term_id: i32, session_id: i32,
            stream_id: i32,
        ) -> i32;
        pub fn logbuffer_clear_partition(rec: &mut Record, log: Out, log_length: usize, partition: i32) -> i32;
        pub fn logbuffer_offer(
            rec: &mut Record, log: Out, log_length: usize, message: In, message_length: usize, reserved_value: i64,
        ) -> OfferReply;
        pub fn logbuffer_try_claim(rec: &mut Record, log: Out, log_length: usize, length: i32) -> ClaimReply;
        pub fn logbuffer_claim_body(rec: &Record, log: In, log_length: usize, claim: Claim) -> SpanReply;
        pub fn logbuffer_claim_body_number(rec: &Record, log: In, log_length: usize, claim: Claim) -> i32;
        pub fn logbuffer_claim_write(
            rec: &Record, log: Out, log_length: usize, claim: Claim, bytes: In, bytes_length: usize,
        ) -> i32;
        pub fn logbuffer_commit(rec: &Record, log: Out, log_length: usize, claim: Claim) -> i32;
        pub fn logbuffer_abort(rec: &Record, log: Out, log_length: usize, claim: Claim) -> i32;
        pub fn logbuffer_append_unfragmented_message(
            rec: &mut Record, log: Out, log_length: usize, partition: i32, message: In, message_length: usize, reserved_value: i64,
            term_id: i32,
        ) -> AppendReply;
        pub fn logbuffer_append_fragmented_message(
            rec: &mut Record, log: Out, log_length: usize, partition: i32, message: In, message_length: usize, reserved_value: i64,
            payload_limit: i32, term_id: i32,
        ) -> AppendReply;
        pub fn logbuffer_append_claim(
            rec: &mut Record, log: Out, log_length: usize, partition: i32, length: i32, term_id: i32,
        ) -> AppendClaimReply;
        pub fn logbuffer_header_fields(rec: &Record, log: In, log_length: usize, partition: i32, offset: i32) -> HeaderReply;
        pub fn logbuffer_frame_length(rec: &Record, log: In, log_length: usize, partition: i32, offset: i32) -> FrameLengthReply;
        pub fn logbuffer_read(
            rec: &Record, log: In, log_length: usize, partition: i32, offset: i32, fragment_limit: i32, entries: Entries,
            entries_length: usize,
        ) -> ReadReply;
        pub fn logbuffer_view(rec: &Record, log: In, log_length: usize, partition: i32, offset: i32, length: i32) -> SpanReply;
        pub fn logbuffer_view_number(rec: &Record, log: In, log_length: usize, partition: i32, offset: i32, length: i32) -> i32;
        pub fn logbuffer_scan(rec: &Record, log: In, log_length: usize, partition: i32, offset: i32, limit: i32) -> ScanReply;
        pub fn logbuffer_scan_for_gap(
            rec: &Record, log: In, log_length: usize, partition: i32, term_id: i32, offset: i32, high_mark: i32,
        ) -> GapReply;
        pub fn logbuffer_scan_for_availability(
            rec: &Record, log: In, log_length: usize, partition: i32, offset: i32, maximum: i32,
        ) -> AvailabilityReply;
        pub fn logbuffer_image_poll(
            image: &mut Image, rec: &Record, log: In, log_length: usize, fragment_limit: i32, entries: Entries, entries_length: usize,
        ) -> PollReply;
        pub fn logbuffer_image_bounded_poll(
            image: &mut Image, rec: &Record, log: In, log_length: usize, limit_position: i64, fragment_limit: i32, entries: Entries,
            entries_length: usize,
        ) -> PollReply;
        pub fn logbuffer_image_controlled_poll(
            image: &mut Image, rec: &Record, log: In, log_length: usize, fragment_limit: i32, entries: Entries, entries_length: usize,
            actions: In, actions_length: usize,
        ) -> PollReply;
        pub fn logbuffer_image_controlled_peek(
            image: &Image, rec: &Record, log: In, log_length: usize, start: i64, limit_position: i64, entries: Entries,
            entries_length: usize, actions: In, actions_length: usize,
        ) -> PeekReply;
        pub fn logbuffer_image_block_poll(image: &mut Image, rec: &Record, log: In, log_length: usize, limit: i32) -> BlockReply;
        pub fn logbuffer_image_set_position(
            image: &mut Image, rec: &Record, log: In, log_length: usize, new_position: i64,
        ) -> i32;
        pub fn logbuffer_image_is_end_of_stream(image: &Image, rec: &Record, log: In, log_length: usize) -> EndOfStreamReply;
        pub fn logbuffer_image_close(image: &mut Image, rec: &Record, log: In, log_length: usize) -> i32;
        pub fn logbuffer_assembler_on_fragment(
            assembler: &mut Assembler, rec: &Record, log: In, log_length: usize, partition: i32, offset: i32, buffer: Out,
            buffer_length: usize,
        ) -> AssemblyReply;
        pub fn logbuffer_replay_next(
            replay: &mut Replay, rec: &Record, log: In, log_length: usize, buffer: Out, buffer_length: usize,
        ) -> NextReply;
        pub fn logbuffer_replay_next_batch(
            replay: &mut Replay, rec: &Record, log: In, log_length: usize, buffer: Out, buffer_length: usize, numbers: Numbers,
            numbers_length: usize,
        ) -> BatchReply;
        pub fn logbuffer_replay_count(
            rec: &Record, log: In, log_length: usize, position: i64, session_id: i32, buffer: Out, buffer_length: usize,
        ) -> CountReply;
        pub fn logbuffer_card_write(
            card: Card, note: In, note_length: usize, out: Out, out_length: usize,
        ) -> CardWriteReply;
        pub fn logbuffer_card_read(bytes: In, bytes_length: usize) -> CardReadReply;
        pub fn logbuffer_shelve(
            rec: &Record, log: In, log_length: usize, partition: i32, out: Out, out_length: usize,
        ) -> i32;
        pub fn logbuffer_unshelve(rec: &Record, shelf: In, shelf_length: usize, out: Out, out_length: usize) -> i32;
        pub fn logbuffer_write_metadata(rec: &Record, out: Out, out_length: usize) -> i32;
        pub fn logbuffer_read_metadata(rec: &mut Record, bytes: In, bytes_length: usize) -> i32;
        pub fn logbuffer_tally(rec: &Record, log: In, log_length: usize, from: i64, to: i64) -> TallyReply;
        pub fn logbuffer_tally_by_partition(
            rec: &Record, log: In, log_length: usize, from: i64, to: i64,
        ) -> PartitionTallyReply;
        pub fn logbuffer_holding(
            rec: &Record, log: In, log_length: usize, find: u32, from: i64, to: i64,
        ) -> HoldingReply;
    }
}

// Safe functions over slices. Each hands a slice on as pointer and length, which is all that the face asks (see the top).

/// Nothing but zeros, which every call refuses: for calls that fill a record.
pub const EMPTY: Record = Record {
    tails: [0; 3],
    active_term_count: 0,
    initial_term_id: 0,
    term_length: 0,
    mtu_length: 0,
    session_id: 0,
    stream_id: 0,
    is_connected: 0,
    publication_limit: 0,
    end_of_stream_position: 0,
    is_closed: false,
    slowest_position: 0,
    cleared_marks: 0,
    active_transport_count: 0,
    page_size: 0,
    correlation_id: 0,
};

/// The record of an opened log, or the refusal's number.
pub fn open(
    log: &mut [u8],
    term_length: i32,
    mtu_length: i32,
    initial_term_id: i32,
    session_id: i32,
    stream_id: i32,
) -> Result<Record, i32> {
    let mut rec = EMPTY;
    // SAFETY: pointers and lengths are those of the slices.
    let code = unsafe {
        face::logbuffer_open(
            &mut rec,
            log.as_mut_ptr(),
            log.len(),
            term_length,
            mtu_length,
            initial_term_id,
            session_id,
            stream_id,
        )
    };
    if code == 0 {
        Ok(rec)
    } else {
        Err(code)
    }
}

pub fn image_new(position: i64, session_id: i32) -> Image {
    let mut image = Image::default();
    face::logbuffer_image_new(&mut image, position, session_id);
    image
}

pub fn assembler_new() -> Assembler {
    let mut assembler = Assembler::default();
    face::logbuffer_assembler_new(&mut assembler);
    assembler
}

pub fn replay_new(position: i64, session_id: i32) -> Replay {
    let mut replay = Replay::default();
    face::logbuffer_replay_new(&mut replay, position, session_id);
    replay
}

pub fn clear_partition(rec: &mut Record, log: &mut [u8], partition: i32) -> i32 {
    // SAFETY: pointers and lengths are those of the slices.
    unsafe { face::logbuffer_clear_partition(rec, log.as_mut_ptr(), log.len(), partition) }
}

pub fn offer(rec: &mut Record, log: &mut [u8], message: &[u8], reserved_value: i64) -> OfferReply {
    // SAFETY: pointers and lengths are those of the slices.
    unsafe { face::logbuffer_offer(rec, log.as_mut_ptr(), log.len(), message.as_ptr(), message.len(), reserved_value) }
}

pub fn try_claim(rec: &mut Record, log: &mut [u8], length: i32) -> ClaimReply {
    // SAFETY: pointers and lengths are those of the slices.
    unsafe { face::logbuffer_try_claim(rec, log.as_mut_ptr(), log.len(), length) }
}

pub fn claim_body(rec: &Record, log: &[u8], claim: Claim) -> SpanReply {
    // SAFETY: pointers and lengths are those of the slices.
    unsafe { face::logbuffer_claim_body(rec, log.as_ptr(), log.len(), claim) }
}

pub fn claim_write(rec: &Record, log: &mut [u8], claim: Claim, bytes: &[u8]) -> i32 {
    // SAFETY: pointers and lengths are those of the slices.
    unsafe { face::logbuffer_claim_write(rec, log.as_mut_ptr(), log.len(), claim, bytes.as_ptr(), bytes.len()) }
}

pub fn commit(rec: &Record, log: &mut [u8], claim: Claim) -> i32 {
    // SAFETY: pointers and lengths are those of the slices.
    unsafe { face::logbuffer_commit(rec, log.as_mut_ptr(), log.len(), claim) }
}

pub fn abort(rec: &Record, log: &mut [u8], claim: Claim) -> i32 {
    // SAFETY: pointers and lengths are those of the slices.
    unsafe { face::logbuffer_abort(rec, log.as_mut_ptr(), log.len(), claim) }
}

pub fn header_fields(rec: &Record, log: &[u8], partition: i32, offset: i32) -> HeaderReply {
    // SAFETY: pointers and lengths are those of the slices.
    unsafe { face::logbuffer_header_fields(rec, log.as_ptr(), log.len(), partition, offset) }
}

pub fn frame_length(rec: &Record, log: &[u8], partition: i32, offset: i32) -> FrameLengthReply {
    // SAFETY: pointers and lengths are those of the slices.
    unsafe { face::logbuffer_frame_length(rec, log.as_ptr(), log.len(), partition, offset) }
}

pub fn view(rec: &Record, log: &[u8], partition: i32, offset: i32, length: i32) -> SpanReply {
    // SAFETY: pointers and lengths are those of the slices.
    unsafe { face::logbuffer_view(rec, log.as_ptr(), log.len(), partition, offset, length) }
}

pub fn scan(rec: &Record, log: &[u8], partition: i32, offset: i32, limit: i32) -> ScanReply {
    // SAFETY: pointers and lengths are those of the slices.
    unsafe { face::logbuffer_scan(rec, log.as_ptr(), log.len(), partition, offset, limit) }
}

pub fn scan_for_gap(rec: &Record, log: &[u8], partition: i32, term_id: i32, offset: i32, high_mark: i32) -> GapReply {
    // SAFETY: pointers and lengths are those of the slices.
    unsafe { face::logbuffer_scan_for_gap(rec, log.as_ptr(), log.len(), partition, term_id, offset, high_mark) }
}

pub fn scan_for_availability(rec: &Record, log: &[u8], partition: i32, offset: i32, maximum: i32) -> AvailabilityReply {
    // SAFETY: pointers and lengths are those of the slices.
    unsafe { face::logbuffer_scan_for_availability(rec, log.as_ptr(), log.len(), partition, offset, maximum) }
}

pub fn image_bounded_poll(
    image: &mut Image,
    rec: &Record,
    log: &[u8],
    limit_position: i64,
    fragment_limit: i32,
    entries: &mut [i32],
) -> PollReply {
    // SAFETY: pointers and lengths are those of the slices.
    unsafe {
        face::logbuffer_image_bounded_poll(
            image,
            rec,
            log.as_ptr(),
            log.len(),
            limit_position,
            fragment_limit,
            entries.as_mut_ptr(),
            entries.len(),
        )
    }
}

pub fn image_controlled_poll(
    image: &mut Image,
    rec: &Record,
    log: &[u8],
    fragment_limit: i32,
    entries: &mut [i32],
    actions: &[u8],
) -> PollReply {
    // SAFETY: pointers and lengths are those of the slices.
    unsafe {
        face::logbuffer_image_controlled_poll(
            image,
            rec,
            log.as_ptr(),
            log.len(),
            fragment_limit,
            entries.as_mut_ptr(),
            entries.len(),
            actions.as_ptr(),
            actions.len(),
        )
    }
}

pub fn image_controlled_peek(
    image: &Image,
    rec: &Record,
    log: &[u8],
    start: i64,
    limit_position: i64,
    entries: &mut [i32],
    actions: &[u8],
) -> PeekReply {
    // SAFETY: pointers and lengths are those of the slices.
    unsafe {
        face::logbuffer_image_controlled_peek(
            image,
            rec,
            log.as_ptr(),
            log.len(),
            start,
            limit_position,
            entries.as_mut_ptr(),
            entries.len(),
            actions.as_ptr(),
            actions.len(),
        )
    }
}

pub fn image_block_poll(image: &mut Image, rec: &Record, log: &[u8], limit: i32) -> BlockReply {
    // SAFETY: pointers and lengths are those of the slices.
    unsafe { face::logbuffer_image_block_poll(image, rec, log.as_ptr(), log.len(), limit) }
}

pub fn image_set_position(image: &mut Image, rec: &Record, log: &[u8], new_position: i64) -> i32 {
    // SAFETY: pointers and lengths are those of the slices.
    unsafe { face::logbuffer_image_set_position(image, rec, log.as_ptr(), log.len(), new_position) }
}

pub fn image_is_end_of_stream(image: &Image, rec: &Record, log: &[u8]) -> EndOfStreamReply {
    // SAFETY: pointers and lengths are those of the slices.
    unsafe { face::logbuffer_image_is_end_of_stream(image, rec, log.as_ptr(), log.len()) }
}

pub fn image_close(image: &mut Image, rec: &Record, log: &[u8]) -> i32 {
    // SAFETY: pointers and lengths are those of the slices.
    unsafe { face::logbuffer_image_close(image, rec, log.as_ptr(), log.len()) }
}

pub fn assembler_on_fragment(
    assembler: &mut Assembler,
    rec: &Record,
    log: &[u8],
    partition: i32,
    offset: i32,
    buffer: &mut [u8],
) -> AssemblyReply {
    // SAFETY: pointers and lengths are those of the slices.
    unsafe {
        face::logbuffer_assembler_on_fragment(
            assembler,
            rec,
            log.as_ptr(),
            log.len(),
            partition,
            offset,
            buffer.as_mut_ptr(),
            buffer.len(),
        )
    }
}

pub fn replay_next(replay: &mut Replay, rec: &Record, log: &[u8], buffer: &mut [u8]) -> NextReply {
    // SAFETY: pointers and lengths are those of the slices.
    unsafe { face::logbuffer_replay_next(replay, rec, log.as_ptr(), log.len(), buffer.as_mut_ptr(), buffer.len()) }
}

pub fn replay_next_batch(replay: &mut Replay, rec: &Record, log: &[u8], buffer: &mut [u8], numbers: &mut [usize]) -> BatchReply {
    // SAFETY: pointers and lengths are those of the slices.
    unsafe {
        face::logbuffer_replay_next_batch(
            replay,
            rec,
            log.as_ptr(),
            log.len(),
            buffer.as_mut_ptr(),
            buffer.len(),
            numbers.as_mut_ptr(),
            numbers.len(),
        )
    }
}

pub fn replay_count(rec: &Record, log: &[u8], position: i64, session_id: i32, buffer: &mut [u8]) -> CountReply {
    // SAFETY: pointers and lengths are those of the slices.
    unsafe { face::logbuffer_replay_count(rec, log.as_ptr(), log.len(), position, session_id, buffer.as_mut_ptr(), buffer.len()) }
}

pub fn card_write(card: Card, note: &[u8], out: &mut [u8]) -> CardWriteReply {
    // SAFETY: pointers and lengths are those of the slices.
    unsafe { face::logbuffer_card_write(card, note.as_ptr(), note.len(), out.as_mut_ptr(), out.len()) }
}

pub fn card_read(bytes: &[u8]) -> CardReadReply {
    // SAFETY: pointers and lengths are those of the slices.
    unsafe { face::logbuffer_card_read(bytes.as_ptr(), bytes.len()) }
}

pub fn shelve(rec: &Record, log: &[u8], partition: i32, out: &mut [u8]) -> i32 {
    // SAFETY: pointers and lengths are those of the slices.
    unsafe { face::logbuffer_shelve(rec, log.as_ptr(), log.len(), partition, out.as_mut_ptr(), out.len()) }
}

pub fn unshelve(rec: &Record, shelf: &[u8], out: &mut [u8]) -> i32 {
    // SAFETY: pointers and lengths are those of the slices.
    unsafe { face::logbuffer_unshelve(rec, shelf.as_ptr(), shelf.len(), out.as_mut_ptr(), out.len()) }
}

pub fn write_metadata(rec: &Record, out: &mut [u8]) -> i32 {
    // SAFETY: pointers and lengths are those of the slices.
    unsafe { face::logbuffer_write_metadata(rec, out.as_mut_ptr(), out.len()) }
}

pub fn read_metadata(rec: &mut Record, bytes: &[u8]) -> i32 {
    // SAFETY: pointers and lengths are those of the slices.
    unsafe { face::logbuffer_read_metadata(rec, bytes.as_ptr(), bytes.len()) }
}

pub fn tally(rec: &Record, log: &[u8], from: i64, to: i64) -> TallyReply {
    // SAFETY: pointers and lengths are those of the slices.
    unsafe { face::logbuffer_tally(rec, log.as_ptr(), log.len(), from, to) }
}

pub fn tally_by_partition(rec: &Record, log: &[u8], from: i64, to: i64) -> PartitionTallyReply {
    // SAFETY: pointers and lengths are those of the slices.
    unsafe { face::logbuffer_tally_by_partition(rec, log.as_ptr(), log.len(), from, to) }
}

pub fn holding(rec: &Record, log: &[u8], find: u32, from: i64, to: i64) -> HoldingReply {
    // SAFETY: pointers and lengths are those of the slices.
    unsafe { face::logbuffer_holding(rec, log.as_ptr(), log.len(), find, from, to) }
}
