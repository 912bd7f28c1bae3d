//! The calls of the log, their answers, and the values that they take and leave: one list for every program of this folder.
//! `original.rs` runs a call on the given Rust, `port.rs` on the port; `domain.rs` says what document 01 expects of it.

/// Images are kept in so many places, named by index.
pub const IMAGES: usize = 4;

/// What an entry holds before a poll; both sides start with it, so that unwritten entries are compared too.
pub const UNWRITTEN: i32 = 0x5555_5555;

/// The record of a log, in the order of include/logbuffer.h.
#[repr(C)]
#[derive(Clone, Copy, PartialEq, Eq, Debug, Default)]
pub struct Record {
    pub tails: [i64; 3],
    pub active_term_count: i32,
    pub initial_term_id: i32,
    pub term_length: i32,
    pub mtu_length: i32,
    pub session_id: i32,
    pub stream_id: i32,
    pub is_connected: i32,
    pub publication_limit: i64,
    pub end_of_stream_position: i64,
    pub is_closed: bool,
    pub slowest_position: i64,
    /// Bit k is the mark of partition k; the Rust has neither marks nor a slowest reader (R-4 of document 02).
    pub cleared_marks: u64,
    /// Three numbers of the metadata that every call carries (R-11 of document 02).
    pub active_transport_count: i32,
    pub page_size: i32,
    pub correlation_id: i64,
}

impl Record {
    /// The publisher's position of any record, also of a closed publication: the active tail's, its offset cut to the term.
    pub fn publisher_position(&self) -> i64 {
        let raw = self.tails[(self.active_term_count % 3).max(0) as usize];
        let (id, offset, term) = ((raw >> 32) as i32, raw & 0xffff_ffff, self.term_length as i64);
        id.wrapping_sub(self.initial_term_id) as i64 * term + offset.min(term)
    }

    /// The partition due next of a count of terms.
    pub fn due(count: i32) -> u32 {
        ((count as i64 + 1) % 3) as u32
    }
}

#[repr(C)]
#[derive(Clone, Copy, PartialEq, Eq, Debug, Default)]
pub struct Claim {
    pub partition: i32,
    pub offset: i32,
    pub length: i32,
    pub term_id: i32,
}

#[repr(C)]
#[derive(Clone, Copy, PartialEq, Eq, Debug, Default)]
pub struct Image {
    pub position: i64,
    pub session_id: i32,
    pub is_closed: bool,
    pub is_eos: bool,
}

/// An assembler's bookkeeping. The given Rust keeps its own in a map that nobody can see.
#[repr(C)]
#[derive(Clone, Copy, PartialEq, Eq, Debug, Default)]
pub struct Assembler {
    pub count: usize,
    pub ids: [i32; 16],
    pub held: [usize; 16],
}

/// A call with its arguments. Lengths of lent slices are arguments too: `entries` counts numbers, two to an entry.
#[derive(Clone, PartialEq, Eq, Debug)]
pub enum Call {
    // The record, and what is done by hand beside the calls of document 01.
    Open { term_length: i32, mtu_length: i32, initial_term_id: i32, session_id: i32, stream_id: i32 },
    SetPublicationLimit { limit: i64 },
    Close,
    RotateLog { count: i32, term_id: i32 },
    /// The two calls of R-4 of document 02, which the Rust has not.
    SetSlowestPosition { position: i64 },
    ClearPartition { partition: i32 },
    Position,
    PublicationLimit,
    AvailableWindow,
    SetRecord { record: Record },
    /// Bytes put into the log at an index of the whole log.
    PutBytes { at: usize, bytes: Vec<u8> },
    /// The whole log filled: 0 zeroes, 1 0xEE, any other number seeds random bytes.
    Fill { seed: u64 },
    SetImage { image: usize, value: Image },
    /// Bookkeeping made by hand, over the buffer that is there.
    SetAssembler { assembler: Assembler },
    /// So many bytes of the log are lent from now on, more or fewer than three terms.
    LendLog { length: usize },

    // Writing.
    Offer { message: Vec<u8>, reserved_value: i64 },
    TryClaim { length: i32 },
    /// An open claim's body lent out and filled with bytes that begin at `first` and rise by one.
    WriteBody { claim: Claim, first: u8 },
    Commit { claim: Claim },
    Abort { claim: Claim },
    AppendUnfragmented { partition: i32, message: Vec<u8>, reserved_value: i64, term_id: i32 },
    AppendFragmented { partition: i32, message: Vec<u8>, reserved_value: i64, payload_limit: i32, term_id: i32 },
    AppendClaim { partition: i32, length: i32, term_id: i32 },

    // Frames of one term.
    HeaderFields { partition: i32, offset: i32 },
    Read { partition: i32, offset: i32, fragment_limit: i32, entries: usize },
    View { partition: i32, offset: i32, length: i32 },
    Scan { partition: i32, offset: i32, limit: i32 },
    ScanForGap { partition: i32, term_id: i32, offset: i32, high_mark: i32 },
    ScanForAvailability { partition: i32, offset: i32, maximum: i32 },

    // Images.
    ImageNew { image: usize, position: i64, session_id: i32 },
    Poll { image: usize, entries: usize, fragment_limit: i32 },
    BoundedPoll { image: usize, entries: usize, limit_position: i64, fragment_limit: i32 },
    ControlledPoll { image: usize, entries: usize, actions: Vec<u8>, fragment_limit: i32 },
    ControlledPeek { image: usize, entries: usize, actions: Vec<u8>, start: i64, limit_position: i64 },
    BlockPoll { image: usize, limit: i32 },
    SetPosition { image: usize, new_position: i64 },
    IsEndOfStream { image: usize },
    ImageClose { image: usize },

    // Messages put together again. A new assembler has a lent buffer of this length.
    AssemblerNew { buffer: usize },
    OnFragment { partition: i32, offset: i32 },
    ReplayNew { position: i64, session_id: i32, buffer: usize },
    ReplayNext,
    /// A whole replay with its own buffer.
    ReplayCount { position: i64, session_id: i32, buffer: usize },

    // Plain numbers.
    Align { value: u32 },
    IsPowerOfTwo { value: u32 },
    TermId { raw_tail: i64 },
    TermOffset { raw_tail: i64, term_length: i64 },
    IndexByTermCount { count: u64 },
    IndexByPosition { position: u64, bits: u32 },
    PositionBitsToShift { term_length: u32 },
    ComputePosition { term_id: i32, offset: u32, bits: u32, initial_term_id: i32 },
}

/// Where a message lies, as in include/logbuffer.h.
pub const NOTHING: i64 = 0;
pub const IN_LOG: i64 = 1;
pub const IN_BUFFER: i64 = 2;

/// 01's number, 0 for none, and the values in the order of the reply's fields in include/logbuffer.h (without `next`).
///
/// - `ScanForGap`: is a gap, term id, offset, length. Appenders: tripped, offset, then the claim's four.
/// - `OnFragment`, `ReplayNext`: place, start (0 for a message in the buffer), length; the message's bytes are in `bytes`.
/// - `ReplayCount`: messages, bytes; `bytes` holds a sum over all messages.
/// - `WriteBody`, `View`: start and length in the whole log.
#[derive(Clone, PartialEq, Eq, Debug, Default)]
pub struct Answer {
    pub code: i32,
    pub values: [i64; 10],
    /// The lent entries after the call, unwritten ones included.
    pub entries: Vec<i32>,
    pub bytes: Vec<u8>,
}

impl Answer {
    pub fn refusal(code: i32) -> Self {
        Answer { code, ..Answer::default() }
    }

    /// 22 or 23, and the place of the frame, its offset in its term.
    pub fn bad_frame(code: i32, place: i64) -> Self {
        Answer { code, ..Answer::of(&[place]) }
    }

    pub fn of(values: &[i64]) -> Self {
        let mut answer = Answer::default();
        answer.values[..values.len()].copy_from_slice(values);
        answer
    }
}

impl Call {
    /// The call's name, for tables. It writes the whole call first, so it is not for every call of a long run.
    pub fn name(&self) -> String {
        let text = format!("{self:?}");
        text.split([' ', '{']).next().unwrap_or("").to_string()
    }

    /// Made by hand, so that neither side answers anything.
    pub fn is_by_hand(&self) -> bool {
        let log = matches!(self, Call::SetRecord { .. } | Call::PutBytes { .. } | Call::Fill { .. } | Call::LendLog { .. });
        log || matches!(self, Call::SetImage { .. } | Call::SetAssembler { .. })
    }
}

/// The bytes written into an open claim's body.
pub fn body_bytes(first: u8, length: usize) -> Vec<u8> {
    (0..length).map(|i| first.wrapping_add(i as u8)).collect()
}

/// Fills a log as `Call::Fill` says.
pub fn fill(log: &mut [u8], seed: u64) {
    match seed {
        0 => log.fill(0),
        1 => log.fill(0xee),
        _ => {
            let mut state = seed;
            for chunk in log.chunks_mut(8) {
                state ^= state << 13;
                state ^= state >> 7;
                state ^= state << 17;
                chunk.copy_from_slice(&state.to_le_bytes()[..chunk.len()]);
            }
        }
    }
}
