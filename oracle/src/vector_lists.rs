//! Random lists of calls for the file of vectors, the same at every run. They look at the Rust's own log and record to reach real frames,
//! claims and positions. Part of `vectors.rs`, which judges each call and leaves out what has no answer.

use crate::calls::{Call, Claim, Image, Record, IMAGES};
use crate::vector_file::{LOG, TERM};
use crate::{claim_of, replay, Recorder};

const LISTS: u64 = 100;
const CALLS: usize = 75;

struct List<'a> {
    w: &'a mut Recorder,
    state: u64,
    claims: Vec<Claim>,
}

type Make = fn(&mut List) -> Call;

/// Each call with its weight.
const CALLS_BY_WEIGHT: [(u64, Make); 40] = [
    (130, |l| l.offer()),
    (60, |l| Call::TryClaim { length: l.short_length() as i32 }),
    (45, |l| Call::WriteBody { claim: l.claim(), first: l.below(256) as u8 }),
    (50, |l| Call::Commit { claim: l.claim() }),
    (30, |l| Call::Abort { claim: l.claim() }),
    (30, |l| l.append_unfragmented()),
    (30, |l| l.append_fragmented()),
    (30, |l| l.append_claim()),
    (30, |l| l.set_limit()),
    (3, |_| Call::Close),
    (25, |l| l.rotate()),
    (20, |_| Call::Position),
    (15, |_| Call::PublicationLimit),
    (20, |_| Call::AvailableWindow),
    (30, |l| l.at_place(|partition, offset| Call::HeaderFields { partition, offset })),
    (40, |l| l.read()),
    (25, |l| l.view()),
    (35, |l| l.scan()),
    (40, |l| l.scan_for_gap()),
    (40, |l| l.scan_for_availability()),
    (50, |l| l.new_image()),
    (60, |l| l.poll()),
    (45, |l| l.bounded_poll()),
    (45, |l| l.controlled_poll()),
    (50, |l| l.controlled_peek()),
    (45, |l| Call::BlockPoll { image: l.image(), limit: l.block_limit() }),
    (40, |l| Call::SetPosition { image: l.image(), new_position: l.new_position() }),
    (25, |l| Call::IsEndOfStream { image: l.image() }),
    (15, |l| Call::ImageClose { image: l.image() }),
    (15, |l| Call::AssemblerNew { buffer: l.pick(&[131_072, 4_096, 1_600, 160]) }),
    (70, |l| l.at_place(|partition, offset| Call::OnFragment { partition, offset })),
    (12, |l| Call::Align { value: l.number() }),
    (12, |l| Call::IsPowerOfTwo { value: l.number() }),
    (12, |l| Call::PositionBitsToShift { term_length: 1 << l.below(31) }),
    (12, |l| Call::TermId { raw_tail: l.next() as i64 }),
    (12, |l| Call::TermOffset { raw_tail: l.next() as i64, term_length: l.pick(&[65_536, 131_072, 1 << 30]) }),
    (20, |l| l.indices()),
    (20, |l| l.compute_position()),
    (45, |l| l.by_hand()),
    (40, |l| l.damage()),
];

pub fn run(w: &mut Recorder) {
    for seed in 1..=LISTS {
        let mut list = List { w: &mut *w, state: seed.wrapping_mul(0x9e37_79b9_7f4a_7c15), claims: Vec::new() };
        list.begin();
        for _ in 0..CALLS {
            let call = list.weighted();
            list.make(&call);
        }
        if seed % 3 == 0 {
            let session_id = w.record().session_id;
            replay(w, session_id);
        }
    }
}

impl List<'_> {
    fn next(&mut self) -> u64 {
        self.state ^= self.state << 13;
        self.state ^= self.state >> 7;
        self.state ^= self.state << 17;
        self.state.wrapping_mul(0x2545_f491_4f6c_dd1d)
    }

    fn below(&mut self, n: u64) -> u64 {
        (self.next() >> 11) % n
    }

    fn pick<T: Copy>(&mut self, all: &[T]) -> T {
        all[self.below(all.len() as u64) as usize]
    }

    fn weighted(&mut self) -> Call {
        let mut at = self.below(CALLS_BY_WEIGHT.iter().map(|(weight, _)| weight).sum());
        for (weight, make) in CALLS_BY_WEIGHT {
            if at < weight {
                return make(self);
            }
            at -= weight;
        }
        Call::Position
    }

    fn make(&mut self, call: &Call) {
        let Some(answer) = self.w.any(call) else { return };
        let claim = match call {
            Call::TryClaim { .. } if answer.code == 0 => claim_of(&answer, 1),
            Call::AppendClaim { .. } if answer.code == 0 && answer.values[0] == 0 => claim_of(&answer, 2),
            _ => return,
        };
        self.claims.insert(0, claim);
        self.claims.truncate(4);
    }

    /// A log just opened, with a limit and four images.
    fn begin(&mut self) {
        let mtu = self.pick(&[64, 96, 96, 128, 288, 1_408]);
        let initial = self.pick(&[7, 7, 0, -1, -2_147_483_646, 2_147_483_640, 1_000_000]);
        let (session, stream) = (self.pick(&[11, -5, i32::MIN, i32::MAX]), self.below(1_000) as i32);
        self.w.open(mtu, initial, session, stream);
        let limit = if self.below(4) == 0 { self.below(20_000) as i64 } else { 1 << 62 };
        self.make(&Call::SetPublicationLimit { limit });
        (0..IMAGES).for_each(|image| self.make(&Call::ImageNew { image, position: 0, session_id: session }));
        self.make(&Call::AssemblerNew { buffer: 131_072 });
        for _ in 0..6 {
            let call = self.offer();
            self.make(&call);
        }
    }

    fn record(&self) -> Record {
        self.w.record()
    }

    fn image(&mut self) -> usize {
        self.below(IMAGES as u64) as usize
    }

    fn bytes(&mut self, length: usize) -> Vec<u8> {
        (0..length).map(|_| self.next() as u8).collect()
    }

    /// Up to the payload limit and one more.
    fn short_length(&mut self) -> usize {
        let payload = self.record().mtu_length as usize - 32;
        match self.below(4) {
            0 => payload - self.below(2) as usize,
            1 => payload + 1,
            _ => self.below(payload.min(100) as u64 + 1) as usize,
        }
    }

    fn length(&mut self) -> usize {
        let payload = self.record().mtu_length as usize - 32;
        match self.below(60) {
            0 => 8_193,
            1 => 1_000 + self.below(2_000) as usize,
            2..=12 => (1 + self.below(3) as usize) * payload.min(256) + self.below(3) as usize - 1,
            13..=20 => self.below(400) as usize,
            _ => self.below(70) as usize,
        }
    }

    fn offer(&mut self) -> Call {
        let length = self.length();
        Call::Offer { message: self.bytes(length), reserved_value: self.next() as i64 }
    }

    fn claim(&mut self) -> Claim {
        if self.claims.is_empty() {
            return Claim { partition: 0, offset: 0, length: 32, term_id: self.record().initial_term_id };
        }
        let count = if self.below(4) > 0 { 1 } else { self.claims.len() as u64 };
        let k = self.below(count) as usize;
        self.claims[k]
    }

    /// A partition, most often the active one, and its tail's id, seldom another.
    fn tail(&mut self) -> (i32, i32) {
        let record = self.record();
        let partition = if self.below(3) > 0 { record.active_term_count.rem_euclid(3) } else { self.below(3) as i32 };
        let id = (record.tails[partition as usize] >> 32) as i32;
        (partition, if self.below(8) == 0 { id.wrapping_add(1) } else { id })
    }

    fn append_unfragmented(&mut self) -> Call {
        let ((partition, term_id), length) = (self.tail(), self.below(120) as usize);
        Call::AppendUnfragmented { partition, message: self.bytes(length), reserved_value: self.next() as i64, term_id }
    }

    fn append_fragmented(&mut self) -> Call {
        let ((partition, term_id), length) = (self.tail(), self.below(300) as usize);
        let payload_limit = self.pick(&[32, 64, 64, 96, 40, 0]);
        let message = self.bytes(length);
        Call::AppendFragmented { partition, message, reserved_value: self.next() as i64, payload_limit, term_id }
    }

    fn append_claim(&mut self) -> Call {
        let (partition, term_id) = self.tail();
        let length = if self.below(12) == 0 { self.pick(&[-1, 2_147_483_615, 2_147_483_584]) } else { self.below(200) as i32 };
        Call::AppendClaim { partition, length, term_id }
    }

    fn set_limit(&mut self) -> Call {
        let limit = match self.below(4) {
            0 => self.pick(&[0, -1, 1 << 62, (1 << 62) + 1]),
            1 => self.below(40_000) as i64,
            _ => 1 << 62,
        };
        Call::SetPublicationLimit { limit }
    }

    fn rotate(&mut self) -> Call {
        let record = self.record();
        let (_, term_id) = self.tail();
        let count = record.active_term_count.wrapping_add(self.pick(&[0, 0, 0, 1, -1]));
        Call::RotateLog { count, term_id }
    }
}

/// Places to read at.
impl List<'_> {
    /// The offsets of a partition's frames, one after the other from 0, and where they end.
    fn boundaries(&self, partition: i32) -> Vec<i32> {
        let term = &self.w.log()[(partition * TERM) as usize..][..TERM as usize];
        let (mut all, mut at) = (vec![0], 0);
        while at < TERM as usize && all.len() < 400 {
            let length = i32::from_le_bytes(term[at..at + 4].try_into().expect("four bytes"));
            let aligned = (length.unsigned_abs() as usize).div_ceil(32) * 32;
            if aligned == 0 || at + aligned >= TERM as usize {
                break;
            }
            at += aligned;
            all.push(at as i32);
        }
        all
    }

    fn place(&mut self) -> (i32, i32) {
        let active = self.record().active_term_count.rem_euclid(3);
        let partition = if self.below(4) > 0 { active } else { self.below(3) as i32 };
        let boundaries = self.boundaries(partition);
        let offset = match self.below(24) {
            0 => self.pick(&[65_504, 65_536, -32, 8]),
            1 => 32 * self.below(2_048) as i32,
            _ => self.pick(&boundaries),
        };
        (partition, offset)
    }

    fn at_place(&mut self, call: fn(i32, i32) -> Call) -> Call {
        let (partition, offset) = self.place();
        call(partition, offset)
    }

    /// A fragment limit, and entries for it, seldom too few.
    fn limits(&mut self) -> (i32, usize) {
        let limit = self.pick(&[1, 1, 2, 3, 5, 10, 30, 0, -1]);
        let entries = 2 * limit.max(0) as usize + self.pick(&[0, 0, 1, 4]);
        (limit, if self.below(20) == 0 { entries.saturating_sub(2) } else { entries })
    }

    fn read(&mut self) -> Call {
        let ((partition, offset), (fragment_limit, entries)) = (self.place(), self.limits());
        Call::Read { partition, offset, fragment_limit, entries }
    }

    fn view(&mut self) -> Call {
        let (partition, offset) = self.place();
        Call::View { partition, offset: offset + self.pick(&[0, 32, 32, 5]), length: self.below(80) as i32 - 1 }
    }

    /// An offset near another one, or anywhere.
    fn end(&mut self, offset: i32) -> i32 {
        match self.below(4) {
            0 => self.pick(&[0, -1, 1, 65_536, 65_537, 65_504]),
            _ => offset + 32 * self.below(24) as i32,
        }
    }

    fn scan(&mut self) -> Call {
        let (partition, offset) = self.place();
        Call::Scan { partition, offset, limit: self.end(offset) }
    }

    fn scan_for_gap(&mut self) -> Call {
        let (partition, offset) = self.place();
        Call::ScanForGap { partition, term_id: self.next() as i32, offset, high_mark: self.end(offset) }
    }

    fn scan_for_availability(&mut self) -> Call {
        let (partition, offset) = self.place();
        let maximum = if self.below(3) == 0 { self.pick(&[-1, 0, 31, 32, 1_408, 65_536, i32::MAX]) } else { 32 * self.below(40) as i32 };
        Call::ScanForAvailability { partition, offset, maximum }
    }

    /// A position at a frame: its partition in the present round of three terms or an earlier or later one.
    fn position(&mut self) -> i64 {
        let (partition, offset) = self.place();
        let round = self.pick(&[0, 0, 0, 1, 5_000]);
        (3 * round + partition as i64) * TERM as i64 + offset as i64
    }

    fn new_image(&mut self) -> Call {
        let (image, session_id) = (self.image(), self.pick(&[11, 12, -5]));
        let position = if self.below(24) == 0 { self.pick(&[8, -32, 1 << 47, (1 << 47) + 32]) } else { self.position() };
        if self.below(10) == 0 {
            let value = Image { position, session_id, is_closed: true, is_eos: self.below(2) == 0 };
            return Call::SetImage { image, value };
        }
        Call::ImageNew { image, position, session_id }
    }

    fn poll(&mut self) -> Call {
        let (image, (fragment_limit, entries)) = (self.image(), self.limits());
        Call::Poll { image, entries, fragment_limit }
    }

    fn bounded_poll(&mut self) -> Call {
        let (image, (fragment_limit, entries)) = (self.image(), self.limits());
        let limit_position = self.w.image_value(image).position.wrapping_add(self.below(700) as i64 - 40);
        Call::BoundedPoll { image, entries, limit_position, fragment_limit }
    }

    /// Seldom one that is no action.
    fn actions(&mut self, count: usize) -> Vec<u8> {
        (0..count).map(|_| if self.below(150) == 0 { 5 } else { self.pick(&[4, 4, 4, 4, 3, 3, 2, 1]) }).collect()
    }

    fn controlled_poll(&mut self) -> Call {
        let (image, (fragment_limit, entries)) = (self.image(), self.limits());
        let actions = self.actions(fragment_limit.max(0) as usize);
        Call::ControlledPoll { image, entries, actions, fragment_limit }
    }

    fn controlled_peek(&mut self) -> Call {
        let image = self.image();
        let count = self.pick(&[1, 1, 2, 3, 5, 9]);
        let (actions, start) = (self.actions(count), self.start(image));
        let entries = 2 * count + self.pick(&[0, 0, 1]) - if self.below(25) == 0 { 2 } else { 0 };
        let limit_position = start.wrapping_add(self.below(900) as i64 - 30);
        Call::ControlledPeek { image, entries, actions, start, limit_position }
    }

    /// The image's position, or one near it.
    fn start(&mut self, image: usize) -> i64 {
        let near = self.pick(&[0, 0, 0, 32, 64, 96, -32, 8]);
        self.w.image_value(image).position.wrapping_add(near)
    }

    fn new_position(&mut self) -> i64 {
        let image = self.image();
        self.start(image).wrapping_add(self.pick(&[0, 0, 64, 65_536]))
    }

    fn block_limit(&mut self) -> i32 {
        if self.below(3) == 0 {
            return self.pick(&[0, -1, 1, 32, 65_536, i32::MAX]);
        }
        self.below(600) as i32
    }
}

/// Plain numbers, and what is set by hand.
impl List<'_> {
    fn number(&mut self) -> u32 {
        match self.below(3) {
            0 => 1 << self.below(31),
            1 => self.below(70_000) as u32,
            _ => self.below(1 << 31) as u32,
        }
    }

    fn indices(&mut self) -> Call {
        if self.below(2) == 0 {
            return Call::IndexByTermCount { count: self.below(1 << 31) };
        }
        Call::IndexByPosition { position: self.below(1 << 62), bits: 16 + self.below(15) as u32 }
    }

    fn compute_position(&mut self) -> Call {
        let initial_term_id = self.pick(&[7i32, 0, -2_147_483_646, 2_000_000_000]);
        let term_id = initial_term_id.wrapping_add(self.below(1_000_000) as i32);
        let (offset, bits) = (self.below(1 << 30) as u32, self.pick(&[16, 16, 20, 30, 31]));
        Call::ComputePosition { term_id, offset, bits, initial_term_id }
    }

    /// The active tail near its term's end, or connected, end of stream, closed, session, seldom a record that breaks a range.
    fn by_hand(&mut self) -> Call {
        let mut record = self.record();
        let partition = record.active_term_count.rem_euclid(3) as usize;
        let id = record.initial_term_id.wrapping_add(record.active_term_count);
        match self.below(12) {
            0..=4 => record.tails[partition] = ((id as i64) << 32) + 65_536 - 32 * self.below(12) as i64,
            5 => record.is_connected = self.pick(&[0, 1, 2]),
            6 | 7 => record.end_of_stream_position = self.position(),
            8 => (record.is_closed, record.is_connected) = (false, 1),
            9 => record.session_id = self.pick(&[11, 12, -5]),
            10 => record.tails[partition] = ((id as i64) << 32) + 32 * self.below(2_048) as i64,
            _ => record.tails[(partition + 1) % 3] = ((id.wrapping_sub(2) as i64) << 32) + self.pick(&[0, 64, 65_536]),
        }
        Call::SetRecord { record }
    }

    /// A frame's length, flags, type or session, at a frame or behind the last.
    fn damage(&mut self) -> Call {
        let (partition, offset) = self.place();
        let at = (partition * TERM + (offset & !31).clamp(0, TERM - 32)) as usize;
        let length = self.pick(&[32i32, 33, 64, 96, 160, -64, 0, 0, 5, 65_536]);
        let (field, bytes) = match self.below(8) {
            0 | 1 => (0, length.to_le_bytes().to_vec()),
            2..=4 => (5, vec![self.pick(&[0x80, 0x40, 0, 0xc0])]),
            5 => (6, self.pick(&[0u16, 1, 7]).to_le_bytes().to_vec()),
            6 => (12, self.pick(&[11i32, 12, 13, -5]).to_le_bytes().to_vec()),
            _ => (20, self.pick(&[7i32, 8, 99]).to_le_bytes().to_vec()),
        };
        assert!(at + field + bytes.len() <= LOG);
        Call::PutBytes { at: at + field, bytes }
    }
}
