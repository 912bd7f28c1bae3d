//! Random lists of calls, seeded and repeatable: fresh logs, damaged ones, and the edges of every range.
//! A list looks at the port's state to reach real frames, claims and positions. `arguments.rs` has the single arguments.

use std::collections::VecDeque;

use crate::arguments::Arguments;
use crate::calls::{Call, Claim, Image, Record, IMAGES};
use crate::port::Port;
use crate::world::Start;

/// What a list is for.
#[derive(Clone, Copy, PartialEq, Eq, Debug)]
pub enum Kind {
    Fresh,
    Damaged,
    Limits,
    /// Many terms one after the other, each cleared when it is due.
    Season,
}

pub struct List {
    pub kind: Kind,
    pub start: Start,
    pub length: usize,
    pub a: Arguments,
    queue: VecDeque<Call>,
    claims: Vec<Claim>,
    tails: [i64; 3],
}

type Make = fn(&mut List, &Port) -> Call;

/// Each call with its weight in a list.
const WEIGHTS: [(u32, Make); 46] = [
    (200, |l, p| l.offer(p)),
    (70, |l, p| Call::TryClaim { length: l.a.claim_length(p) }),
    (40, |l, p| Call::WriteBody { claim: l.claim(p), first: l.a.below(256) as u8 }),
    (55, |l, p| Call::Commit { claim: l.claim(p) }),
    (25, |l, p| Call::Abort { claim: l.claim(p) }),
    (40, |l, p| Call::SetPublicationLimit { limit: l.a.limit(p) }),
    (4, |_, _| Call::Close),
    (14, |l, p| l.rotate(p)),
    (20, |l, p| Call::SetSlowestPosition { position: l.a.slowest(&p.record) }),
    (20, |l, p| l.clear(p)),
    (10, |l, p| l.clear_due(p)),
    (20, |_, _| Call::Position),
    (8, |_, _| Call::PublicationLimit),
    (14, |_, _| Call::AvailableWindow),
    (30, |l, p| l.append_unfragmented(p)),
    (35, |l, p| l.append_fragmented(p)),
    (25, |l, p| l.append_claim(p)),
    (25, |l, p| l.header_fields(p)),
    (40, |l, p| l.read(p)),
    (10, |l, p| l.view(p)),
    (45, |l, p| l.scan(p)),
    (60, |l, p| l.scan_for_gap(p)),
    (60, |l, p| l.scan_for_availability(p)),
    (75, |l, p| l.image_new(p)),
    (80, |l, p| l.poll(p)),
    (60, |l, p| l.bounded_poll(p)),
    (60, |l, p| l.controlled_poll(p)),
    (75, |l, p| l.controlled_peek(p)),
    (60, |l, p| l.block_poll(p)),
    (50, |l, p| l.set_position(p)),
    (20, |l, _| Call::IsEndOfStream { image: l.a.image() }),
    (6, |l, _| Call::ImageClose { image: l.a.image() }),
    (10, |l, _| Call::AssemblerNew { buffer: l.a.buffer() }),
    (45, |l, p| l.on_fragment(p)),
    (40, |l, p| l.fragments(p)),
    (7, |l, p| Call::ReplayNew { position: l.replay_start(p), session_id: l.a.session(), buffer: l.a.buffer() }),
    (40, |_, _| Call::ReplayNext),
    (4, |l, p| l.replay(p)),
    (4, |l, p| Call::ReplayCount { position: l.replay_start(p), session_id: l.a.session(), buffer: l.a.buffer() }),
    (50, |l, _| l.a.number()),
    (25, |l, p| l.retouch(p)),
    (20, |l, p| Call::SetRecord { record: l.moved(p) }),
    (14, |l, p| Call::SetRecord { record: l.ends(p) }),
    (3, |l, _| l.open()),
    (3, |l, _| Call::Fill { seed: l.a.fill() }),
    (6, |l, p| l.set_image(p)),
];

/// A season: long messages, claims finished soon, readers, and the partition that is due cleared, at times too late or too early.
const SEASON: [(u32, Make); 18] = [
    (400, |l, p| l.long_offer(p)),
    (60, |l, p| l.offer(p)),
    (60, |l, p| Call::TryClaim { length: l.a.claim_length(p) }),
    (40, |l, p| Call::WriteBody { claim: l.claim(p), first: l.a.below(256) as u8 }),
    (60, |l, p| Call::Commit { claim: l.claim(p) }),
    (30, |l, p| Call::Abort { claim: l.claim(p) }),
    (90, |l, p| l.clear_due(p)),
    (15, |l, p| Call::SetSlowestPosition { position: l.a.slowest(&p.record) }),
    (15, |l, p| l.clear(p)),
    (20, |_, _| Call::Position),
    (40, |l, p| l.image_new(p)),
    (60, |l, p| l.poll(p)),
    (40, |l, p| l.bounded_poll(p)),
    (20, |l, p| l.controlled_poll(p)),
    (20, |l, p| l.block_poll(p)),
    (30, |l, p| l.replay(p)),
    (20, |l, p| Call::ReplayCount { position: l.replay_start(p), session_id: l.a.session(), buffer: l.a.buffer() }),
    (20, |l, p| l.on_fragment(p)),
];

/// Damage, added to the lists that are for it.
const DAMAGE: [(u32, Make); 6] = [
    (40, |l, p| l.damaged_frame(p)),
    (30, |l, p| l.damaged_record(p)),
    (6, |l, p| l.damaged_log(p)),
    (14, |l, p| l.damaged_image(p)),
    (6, |l, p| l.damaged_assembler(p)),
    (4, |l, p| l.damaged_opening(p)),
];

impl List {
    pub fn new(seed: u64, is_long: bool) -> Self {
        let mut a = Arguments::new(seed);
        let mut kind = a.pick(&[Kind::Fresh, Kind::Fresh, Kind::Fresh, Kind::Damaged, Kind::Limits]);
        if a.below(20) == 0 {
            kind = Kind::Season;
        }
        let size = a.below(if is_long { 4000 } else { 1000 });
        let (term_length, length) = match size {
            _ if kind == Kind::Season => (65_536, 2_000),
            0 => (16 << 20, 120),
            1..=10 => (1 << 20, 150),
            11..=60 => (131_072, 300),
            _ => (65_536, 300),
        };
        let start = Start {
            term_length,
            mtu_length: a.mtu(),
            initial_term_id: a.initial(),
            session_id: a.session(),
            stream_id: a.any_i32(),
        };
        let mut list = List { kind, start, length, a, queue: VecDeque::new(), claims: Vec::new(), tails: [0; 3] };
        list.begin();
        list
    }

    /// The one list at 2^30.
    pub fn largest(seed: u64) -> Self {
        let mut list = List::new(seed, false);
        list.kind = Kind::Limits;
        list.start.term_length = 1 << 30;
        list.length = 400;
        // Only here a term's eighth is over the greatest message limit.
        for length in [16_777_216, 16_777_217] {
            list.queue.push_back(Call::Offer { message: list.a.bytes(length), reserved_value: 5 });
        }
        list
    }

    /// What every list starts with: bytes in the log, a limit, images, buffers.
    fn begin(&mut self) {
        let limit = if self.kind == Kind::Season || self.a.chance(80) { 1 << 62 } else { self.a.below(400_000) as i64 };
        if self.start.term_length <= 1 << 20 {
            self.queue.push_back(Call::Fill { seed: self.a.fill() });
        }
        self.queue.push_back(Call::SetPublicationLimit { limit });
        (0..IMAGES).for_each(|image| self.queue.push_back(Call::ImageNew { image, position: 0, session_id: 11 }));
        let (buffer, session_id) = (self.a.buffer(), self.a.session());
        self.queue.push_back(Call::AssemblerNew { buffer });
        self.queue.push_back(Call::ReplayNew { position: 0, session_id, buffer });
    }

    pub fn next(&mut self, port: &Port) -> Call {
        self.tails = port.record.tails;
        if let Some(call) = self.queue.pop_front() {
            return call;
        }
        if port.record.is_closed && self.a.chance(30) {
            return Call::SetRecord { record: Record { is_closed: false, ..port.record } };
        }
        let is_damage = match self.kind {
            Kind::Fresh | Kind::Season => false,
            Kind::Damaged => self.a.chance(25),
            Kind::Limits => self.a.chance(6),
        };
        if self.kind == Kind::Limits && self.a.chance(10) {
            return Call::SetRecord { record: self.a.edge_record(&port.record) };
        }
        let table: &[(u32, Make)] = match (self.kind, is_damage) {
            (Kind::Season, _) => &SEASON,
            (_, true) => &DAMAGE,
            (_, false) => &WEIGHTS,
        };
        let make = self.a.weighted(table);
        make(self, port)
    }

    /// Keeps the claims that the port answered, the last eight, committed ones too, and where the last frames were written.
    pub fn note(&mut self, call: &Call, values: &[i64; 10], port: &Port) {
        for k in 0..3 {
            let (old, new) = (self.tails[k], port.record.tails[k]);
            if old != new && old >> 32 == new >> 32 && !call.is_by_hand() {
                self.a.recent.insert(0, (k as i32, (old as u32).min(i32::MAX as u32) as i32 & !31));
                self.a.recent.truncate(12);
            }
        }
        let four = match call {
            Call::TryClaim { .. } => &values[1..5],
            Call::AppendClaim { .. } => &values[2..6],
            _ => return,
        };
        let claim = [0, 1, 2, 3].map(|k| four[k] as i32);
        let [partition, offset, length, term_id] = claim;
        if length > 0 {
            self.claims.insert(0, Claim { partition, offset, length, term_id });
            self.claims.truncate(8);
        }
    }

    fn offer(&mut self, p: &Port) -> Call {
        let length = self.a.message_length(p);
        Call::Offer { message: self.a.bytes(length), reserved_value: self.a.any_i64() }
    }

    /// Of a size that a term holds a few of.
    fn long_offer(&mut self, p: &Port) -> Call {
        let length = self.a.below((p.record.term_length.max(8) / 8) as u64 + 1) as usize;
        Call::Offer { message: self.a.bytes(length), reserved_value: self.a.any_i64() }
    }

    /// The slowest reader where the term that is due ends, or further on, and that partition cleared.
    fn clear_due(&mut self, p: &Port) -> Call {
        let r = &p.record;
        let end = (r.active_term_count.max(0) as i64 - 1).max(0) * r.term_length.max(1) as i64;
        let further = if self.a.chance(20) { 32 * self.a.below(2_048) as i64 } else { 0 };
        self.queue.push_back(Call::ClearPartition { partition: Record::due(r.active_term_count.max(0)) as i32 });
        Call::SetSlowestPosition { position: (end + further).max(r.slowest_position) }
    }

    /// The partition that is due, or any number.
    fn clear(&mut self, p: &Port) -> Call {
        let due = Record::due(p.record.active_term_count.max(0)) as i32;
        let partition = match self.a.below(10) {
            0 => self.a.edge_i32(),
            1..=3 => self.a.pick(&[-1, 0, 1, 2, 3]),
            _ => due,
        };
        Call::ClearPartition { partition }
    }

    /// The start of the log, of a term that is still there, or any place of a reader.
    fn replay_start(&mut self, p: &Port) -> i64 {
        let (count, term) = (p.record.active_term_count.max(0) as i64, p.record.term_length.max(1) as i64);
        match self.a.below(6) {
            0 | 1 => 0,
            2 => count.saturating_sub(self.a.below(3) as i64).max(0) * term,
            3 => p.record.slowest_position,
            _ => self.a.image_position(p),
        }
    }

    /// Most often a claim whose frame still shows a negative length.
    fn claim(&mut self, p: &Port) -> Claim {
        let is_open = |c: &&Claim| {
            let at = c.partition as usize * p.record.term_length.max(0) as usize + c.offset as usize;
            p.log.get().get(at..at + 4).is_some_and(|word| word == (-c.length).to_le_bytes())
        };
        let open: Vec<Claim> = self.claims.iter().filter(is_open).copied().collect();
        let mut claim = Claim { partition: 0, offset: 0, length: 32, term_id: p.record.initial_term_id };
        if !open.is_empty() && self.a.chance(80) {
            claim = self.a.pick(&open);
        } else if !self.claims.is_empty() {
            claim = self.a.pick(&self.claims);
        }
        if self.kind == Kind::Damaged && self.a.chance(30) {
            let near = self.a.near();
            match self.a.below(4) {
                0 => claim.partition = self.a.pick(&[-1, 0, 1, 2, 3]),
                1 => claim.offset = claim.offset.wrapping_add(near),
                2 => claim.length = claim.length.wrapping_add(near),
                _ => claim.term_id = claim.term_id.wrapping_add(near),
            }
        }
        claim
    }

    fn rotate(&mut self, p: &Port) -> Call {
        let r = &p.record;
        let id = (r.tails[(r.active_term_count.max(0) % 3) as usize] >> 32) as i32;
        let (near, is_near) = (self.a.pick(&[-2, -1, 0, 1, 2]), self.a.chance(30));
        let (count, term_id) = if is_near {
            (r.active_term_count.wrapping_add(near), id.wrapping_add(self.a.pick(&[-1, 0, 1])))
        } else {
            (r.active_term_count, id)
        };
        match self.a.below(20) {
            0 => Call::RotateLog { count: self.a.edge_i32(), term_id },
            1 => Call::RotateLog { count, term_id: self.a.edge_i32() },
            _ => Call::RotateLog { count, term_id },
        }
    }

    fn append_unfragmented(&mut self, p: &Port) -> Call {
        let partition = self.a.partition();
        let length = self.a.append_length(p, partition);
        let term_id = self.a.tail_id(p, partition);
        Call::AppendUnfragmented { partition, message: self.a.bytes(length), reserved_value: self.a.any_i64(), term_id }
    }

    fn append_fragmented(&mut self, p: &Port) -> Call {
        let partition = self.a.partition();
        let length = self.a.append_length(p, partition);
        let (term_id, payload_limit) = (self.a.tail_id(p, partition), self.a.payload_limit(p));
        let message = self.a.bytes(length);
        Call::AppendFragmented { partition, message, reserved_value: self.a.any_i64(), payload_limit, term_id }
    }

    fn append_claim(&mut self, p: &Port) -> Call {
        let partition = self.a.partition();
        let length = match self.a.below(20) {
            0 => self.a.edge_i32(),
            1 => self.a.pick(&[2147483584, 2147483585, 2147483615, 2147483616, -1, -31, -32]),
            _ => self.a.append_length(p, partition) as i32,
        };
        Call::AppendClaim { partition, length, term_id: self.a.tail_id(p, partition) }
    }

    fn header_fields(&mut self, p: &Port) -> Call {
        let (partition, offset) = self.a.place(p);
        Call::HeaderFields { partition, offset }
    }

    fn read(&mut self, p: &Port) -> Call {
        let ((partition, offset), fragment_limit) = (self.a.place(p), self.a.fragment_limit());
        Call::Read { partition, offset, fragment_limit, entries: self.a.entries(fragment_limit) }
    }

    fn view(&mut self, p: &Port) -> Call {
        let (partition, offset) = self.a.place(p);
        let term = p.record.term_length;
        let length = match self.a.below(4) {
            0 => term.wrapping_sub(offset).wrapping_add(self.a.pick(&[-1, 0, 1])),
            1 => self.a.pick(&[-1, 0, 1]),
            _ => self.a.below(2000) as i32,
        };
        Call::View { partition, offset: offset.wrapping_add(self.a.below(40) as i32), length }
    }

    fn scan(&mut self, p: &Port) -> Call {
        let (partition, offset) = self.a.place(p);
        Call::Scan { partition, offset, limit: self.a.scan_limit(p, partition, offset) }
    }

    fn scan_for_gap(&mut self, p: &Port) -> Call {
        let (partition, offset) = self.a.place(p);
        let high_mark = self.a.scan_limit(p, partition, offset);
        let high_mark = if self.a.chance(97) { high_mark & !31 } else { high_mark };
        Call::ScanForGap { partition, term_id: self.a.any_i32(), offset, high_mark }
    }

    fn scan_for_availability(&mut self, p: &Port) -> Call {
        let (partition, offset) = self.a.place(p);
        let maximum = if self.a.chance(50) {
            self.a.pick(&[-1, 0, 1, 31, 32, 33, 64, 96, 1408, 65_536, i32::MAX, i32::MIN, p.record.mtu_length])
        } else {
            self.a.scan_limit(p, partition, offset).wrapping_sub(offset)
        };
        Call::ScanForAvailability { partition, offset, maximum }
    }

    fn image_new(&mut self, p: &Port) -> Call {
        Call::ImageNew { image: self.a.image(), position: self.a.image_position(p), session_id: self.a.session() }
    }

    fn poll(&mut self, p: &Port) -> Call {
        let fragment_limit = self.a.fragment_limit();
        Call::Poll { image: self.a.reading_image(p), entries: self.a.entries(fragment_limit), fragment_limit }
    }

    fn bounded_poll(&mut self, p: &Port) -> Call {
        let (image, fragment_limit) = (self.a.reading_image(p), self.a.fragment_limit());
        let limit_position = self.a.limit_position(p, p.images[image].position);
        Call::BoundedPoll { image, entries: self.a.entries(fragment_limit), limit_position, fragment_limit }
    }

    fn controlled_poll(&mut self, p: &Port) -> Call {
        let fragment_limit = self.a.fragment_limit();
        let actions = self.a.actions(fragment_limit);
        Call::ControlledPoll { image: self.a.reading_image(p), entries: self.a.entries(fragment_limit), actions, fragment_limit }
    }

    fn controlled_peek(&mut self, p: &Port) -> Call {
        let image = self.a.reading_image(p);
        let count = self.a.pick(&[0, 1, 1, 2, 3, 4, 8, 20]);
        let actions = self.a.actions(count);
        let start = self.a.new_position(p, image);
        let limit_position = self.a.limit_position(p, start);
        let entries = 2 * actions.len() + self.a.pick(&[0, 0, 0, 1, 2, 5]);
        let entries = if self.a.chance(3) { entries.saturating_sub(3) } else { entries };
        Call::ControlledPeek { image, entries, actions, start, limit_position }
    }

    fn block_poll(&mut self, p: &Port) -> Call {
        let image = self.a.reading_image(p);
        let limit = match self.a.below(4) {
            0 => self.a.pick(&[0, -1, 1, 31, 32, 33, 64, 96, 4096, 65_536, i32::MAX, i32::MIN]),
            1 => p.record.term_length,
            _ => self.a.below(600) as i32,
        };
        Call::BlockPoll { image, limit }
    }

    fn set_position(&mut self, p: &Port) -> Call {
        let image = self.a.image();
        Call::SetPosition { image, new_position: self.a.new_position(p, image) }
    }

    fn on_fragment(&mut self, p: &Port) -> Call {
        let (mut partition, mut offset) = self.a.place(p);
        for _ in 0..6 {
            let is_inside = (0..3).contains(&partition) && (0..p.record.term_length).contains(&offset);
            if is_inside && self.a.frame_at(p, partition, offset).is_none() {
                (partition, offset) = self.a.boundary(p);
            }
        }
        Call::OnFragment { partition, offset }
    }

    /// Frames one after the other, as a poll would hand them on, some with session or flags changed by hand.
    fn fragments(&mut self, p: &Port) -> Call {
        let (mut partition, mut offset) = self.a.boundary(p);
        // Better a frame that begins a fragmented message.
        for _ in 0..8 {
            let at = partition as usize * p.record.term_length.max(0) as usize + offset as usize;
            if p.log.get().get(at + 5).is_some_and(|flags| flags & 0xc0 == 0x80) {
                break;
            }
            (partition, offset) = self.a.boundary(p);
        }
        if self.a.frame_at(p, partition, offset).is_none() {
            return self.on_fragment(p);
        }
        let first = Call::OnFragment { partition, offset };
        for _ in 0..self.a.below(12) {
            let Some((length, _)) = self.a.frame_at(p, partition, offset) else { break };
            offset += length;
            if offset >= p.record.term_length {
                break;
            }
            if self.a.chance(20) {
                let call = self.retouched(p, partition, offset);
                self.queue.push_back(call);
            }
            self.queue.push_back(Call::OnFragment { partition, offset });
        }
        first
    }

    /// Message by message, most often to the end.
    fn replay(&mut self, p: &Port) -> Call {
        (0..self.a.below(40)).for_each(|_| self.queue.push_back(Call::ReplayNext));
        Call::ReplayNew { position: self.replay_start(p), session_id: self.a.session(), buffer: self.a.buffer() }
    }

    fn retouch(&mut self, p: &Port) -> Call {
        let (partition, offset) = self.a.boundary(p);
        self.retouched(p, partition, offset)
    }

    /// Another session, flags, type, term id or reserved value in a frame.
    fn retouched(&mut self, p: &Port, partition: i32, offset: i32) -> Call {
        let at = partition as usize * p.record.term_length as usize + offset as usize;
        if p.log.get().len() < at + 32 || partition < 0 {
            return Call::Position;
        }
        let (field, bytes) = match self.a.below(8) {
            0..=2 => (12, self.a.session().to_le_bytes().to_vec()),
            3..=5 => (5, vec![self.a.pick(&[0x80, 0x40, 0, 0xc0, 0x80, 0x40, 0, 0xff])]),
            6 => (6, self.a.pick(&[0u16, 1, 7, 0x100]).to_le_bytes().to_vec()),
            _ => (20, self.a.any_i32().to_le_bytes().to_vec()),
        };
        Call::PutBytes { at: at + field, bytes }
    }

    /// The active tail elsewhere in its term, most often near the end; the record stays consistent.
    fn moved(&mut self, p: &Port) -> Record {
        let mut record = p.record;
        let partition = (record.active_term_count.max(0) % 3) as usize;
        let id = record.initial_term_id.wrapping_add(record.active_term_count);
        let offset = self.a.tail_offset(&record);
        record.tails[partition] = ((id as i64) << 32) | offset;
        if self.a.chance(30) {
            record.tails[(partition + 1) % 3] = (id.wrapping_sub(2) as i64) << 32;
        }
        if self.a.chance(70) {
            record.cleared_marks = self.a.marks();
        }
        record
    }

    /// Connected, end of stream, session and stream by hand; with these the numbers that every call carries, made of the stream.
    fn ends(&mut self, p: &Port) -> Record {
        let mut record = p.record;
        match self.a.below(6) {
            0 | 1 => record.is_connected = self.a.pick(&[0, 1, 1, 2, -1]),
            2 => record.end_of_stream_position = self.a.image_position(p),
            3 => record.end_of_stream_position = self.a.pick(&p.images).position.saturating_add(self.a.pick(&[0, 0, -1, 1])),
            4 => record.end_of_stream_position = i64::MAX,
            _ => {
                (record.session_id, record.stream_id) = (self.a.session(), self.a.any_i32());
                let n = record.stream_id;
                (record.active_transport_count, record.page_size, record.correlation_id) = (!n, n.rotate_left(13), (n as i64) << 29 ^ n as i64);
            }
        }
        record
    }

    fn open(&mut self) -> Call {
        let Start { term_length, mtu_length, initial_term_id, session_id, stream_id } = self.start;
        self.queue.push_back(Call::SetPublicationLimit { limit: 1 << 62 });
        Call::Open { term_length, mtu_length, initial_term_id, session_id, stream_id }
    }

    fn set_image(&mut self, p: &Port) -> Call {
        let (is_closed, is_eos) = (self.a.chance(30), self.a.chance(50));
        let (position, session_id) = (self.a.image_position(p), self.a.session());
        // The Rust cannot show a closed image that stands at 2^63 - 1 before the end of its stream.
        let position = position.min(i64::MAX - 1);
        Call::SetImage { image: self.a.image(), value: Image { position, session_id, is_closed, is_eos } }
    }

    /// A frame's length, type or flags, sound or not.
    fn damaged_frame(&mut self, p: &Port) -> Call {
        let (partition, offset) = self.a.boundary(p);
        let term = p.record.term_length;
        let at = partition as usize * term as usize + offset as usize;
        if p.log.get().len() < at + 32 {
            return Call::Position;
        }
        if self.a.chance(25) {
            return self.retouched(p, partition, offset);
        }
        Call::PutBytes { at, bytes: self.a.frame_length(term, offset).to_le_bytes().to_vec() }
    }

    /// A few calls on a record with one field at or past its edge, and the old record again.
    fn damaged_record(&mut self, p: &Port) -> Call {
        let record = self.a.broken_record(&p.record);
        for _ in 0..1 + self.a.below(3) {
            let make = self.a.weighted(&WEIGHTS);
            let call = make(self, p);
            if !matches!(call, Call::SetRecord { .. } | Call::Open { .. }) {
                self.queue.push_back(call);
            }
        }
        self.queue.push_back(Call::SetRecord { record: p.record });
        Call::SetRecord { record }
    }

    /// A few calls with more or fewer bytes lent than three terms.
    fn damaged_log(&mut self, p: &Port) -> Call {
        let whole = p.log.get().len();
        let length = self.a.pick(&[0, 1, 31, 32, whole / 3, whole / 3 * 2, whole - 32, whole - 1, whole + 1, whole + 32]);
        for _ in 0..1 + self.a.below(4) {
            let make = self.a.weighted(&WEIGHTS);
            let call = make(self, p);
            self.queue.push_back(call);
        }
        self.queue.push_back(Call::LendLog { length: whole });
        Call::LendLog { length }
    }

    fn damaged_opening(&mut self, p: &Port) -> Call {
        let mtu_length = if self.a.chance(70) { self.a.mtu() } else { self.a.pick(&[0, 32, 63, 65, 65_505, 65_536, i32::MIN]) };
        let initial_term_id = if self.a.chance(80) { self.a.initial() } else { self.a.edge_i32() };
        Call::Open { term_length: self.a.broken_term(p), mtu_length, initial_term_id, session_id: 1, stream_id: 2 }
    }

    fn damaged_image(&mut self, p: &Port) -> Call {
        let mut position = self.a.image_position(p);
        position = position.wrapping_add(self.a.pick(&[0, 8, 1, -32, -8, 32]));
        let greatest = (p.record.term_length as i64) << 31;
        if self.a.chance(30) {
            position = self.a.pick(&[greatest, greatest + 32, greatest - 32, -32, -196_608, i64::MIN, i64::MAX - 31, 8]);
        }
        Call::ImageNew { image: self.a.image(), position, session_id: self.a.session() }
    }

    fn damaged_assembler(&mut self, p: &Port) -> Call {
        let mut assembler = p.assembler;
        let part = p.buffer.get().len() / 16;
        let k = self.a.below(16) as usize;
        match self.a.below(3) {
            0 => assembler.count = self.a.pick(&[0, 1, 15, 16, 17, usize::MAX]),
            1 => assembler.held[k] = self.a.pick(&[0, 1, part, part + 1, usize::MAX, part.saturating_sub(1)]),
            _ => assembler.ids[k] = self.a.session(),
        }
        Call::SetAssembler { assembler }
    }
}
