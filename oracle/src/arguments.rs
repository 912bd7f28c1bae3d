//! Single arguments for the lists of `lists.rs`: small numbers most often, and the edges of every range.

use crate::calls::{Call, Image, Record, IMAGES};
use crate::port::Port;

/// A seeded source of numbers.
pub struct Arguments {
    state: u64,
    /// Partition and offset of the latest frames written.
    pub recent: Vec<(i32, i32)>,
}

impl Arguments {
    pub fn new(seed: u64) -> Self {
        Arguments { state: seed, recent: Vec::new() }
    }

    /// splitmix64
    pub fn any_u64(&mut self) -> u64 {
        self.state = self.state.wrapping_add(0x9e37_79b9_7f4a_7c15);
        let mut z = self.state;
        z = (z ^ (z >> 30)).wrapping_mul(0xbf58_476d_1ce4_e5b9);
        z = (z ^ (z >> 27)).wrapping_mul(0x94d0_49bb_1331_11eb);
        z ^ (z >> 31)
    }

    pub fn below(&mut self, n: u64) -> u64 {
        self.any_u64() % n.max(1)
    }

    pub fn chance(&mut self, percent: u64) -> bool {
        self.below(100) < percent
    }

    pub fn pick<T: Copy>(&mut self, from: &[T]) -> T {
        from[self.below(from.len() as u64) as usize]
    }

    pub fn weighted<T: Copy>(&mut self, table: &[(u32, T)]) -> T {
        let all: u32 = table.iter().map(|(weight, _)| weight).sum();
        let mut left = self.below(all as u64) as u32;
        for (weight, value) in table {
            if left < *weight {
                return *value;
            }
            left -= weight;
        }
        table[0].1
    }

    pub fn any_i32(&mut self) -> i32 {
        if self.chance(50) {
            self.below(100) as i32
        } else {
            self.any_u64() as i32
        }
    }

    pub fn any_i64(&mut self) -> i64 {
        self.any_u64() as i64
    }

    pub fn edge_i32(&mut self) -> i32 {
        self.pick(&[i32::MIN, i32::MIN + 1, -3, -2, -1, 0, 1, 2, 3, i32::MAX - 3, i32::MAX - 2, i32::MAX - 1, i32::MAX])
    }

    /// A step away from a sound number.
    pub fn near(&mut self) -> i32 {
        self.pick(&[-64, -33, -32, -31, -1, 1, 8, 31, 32, 33, 64, 65_536, i32::MIN, i32::MAX])
    }

    pub fn bytes(&mut self, length: usize) -> Vec<u8> {
        let mut bytes = vec![0; length];
        crate::calls::fill(&mut bytes, self.any_u64() | 2);
        bytes
    }

    // The log.

    pub fn mtu(&mut self) -> i32 {
        match self.below(4) {
            0 => 64 + 32 * self.below(2046) as i32,
            1 => self.pick(&[64, 96, 128, 160, 65_472, 65_504]),
            _ => self.pick(&[64, 96, 96, 128, 256, 1408, 4096, 8224]),
        }
    }

    pub fn initial(&mut self) -> i32 {
        match self.below(6) {
            0 => self.pick(&[i32::MIN, i32::MIN + 1, i32::MIN + 2, i32::MIN + 3, 2_147_483_640, 2_147_483_645, i32::MAX - 1, i32::MAX]),
            1 => self.any_i32(),
            _ => self.pick(&[0, 1, 7, -1, -5]),
        }
    }

    pub fn fill(&mut self) -> u64 {
        match self.below(20) {
            0..=12 => 0,
            13..=17 => 1,
            _ => self.any_u64() | 2,
        }
    }

    /// One of 20 sessions, so that a 17th is met.
    pub fn session(&mut self) -> i32 {
        if self.chance(50) {
            11
        } else {
            self.below(20) as i32 - 2
        }
    }

    pub fn partition(&mut self) -> i32 {
        if self.chance(98) {
            self.below(3) as i32
        } else {
            self.pick(&[-1, 3, i32::MIN, i32::MAX])
        }
    }

    pub fn image(&mut self) -> usize {
        self.below(IMAGES as u64) as usize
    }

    /// Most often one that stands before a frame.
    pub fn reading_image(&mut self, p: &Port) -> usize {
        let term = p.record.term_length.max(1) as i64;
        let mut image = self.image();
        for _ in 0..3 {
            let Image { position, is_closed, .. } = p.images[image];
            let (partition, offset) = ((position / term).rem_euclid(3) as i32, position.rem_euclid(term) as i32);
            if !is_closed && self.frame_at(p, partition, offset).is_some() {
                break;
            }
            image = self.image();
        }
        image
    }

    /// A lent buffer: 16 parts and a rest.
    pub fn buffer(&mut self) -> usize {
        let part = self.pick(&[0, 1, 8, 64, 100, 500, 1024, 4096, 8192, 8192, 8192, 16_384, 16_384]);
        16 * part + self.below(16) as usize
    }

    /// Length and type of the frame at an offset, where it is sound and finished; the length is the aligned one.
    pub fn frame_at(&self, p: &Port, partition: i32, offset: i32) -> Option<(i32, u16)> {
        let at = partition as usize * p.record.term_length as usize + offset as usize;
        let header = p.log.get().get(at..at + 8)?;
        let length = i32::from_le_bytes(header[..4].try_into().expect("four bytes")) as i64;
        let aligned = (length + 31) / 32 * 32;
        let is_sound = length >= 32 && offset as i64 + aligned <= p.record.term_length as i64;
        is_sound.then_some((aligned as i32, u16::from_le_bytes([header[6], header[7]])))
    }

    /// The start of a frame, or of the free bytes after the last one.
    pub fn boundary(&mut self, p: &Port) -> (i32, i32) {
        let r = &p.record;
        if !self.recent.is_empty() && self.chance(60) {
            let recent = std::mem::take(&mut self.recent);
            let (partition, offset) = self.pick(&recent);
            self.recent = recent;
            return (partition, offset.min(r.term_length.saturating_sub(32)).max(0));
        }
        let active = (r.active_term_count.max(0) % 3) as i32;
        let partition = if self.chance(60) { active } else { self.below(3) as i32 };
        let tail = (r.tails[partition as usize] as u32).min(r.term_length.max(0) as u32) as i32;
        if self.chance(15) {
            return (partition, (tail & !31).saturating_sub(32 * self.below(8) as i32).max(0));
        }
        let mut offset = self.pick(&p.images).position.rem_euclid(r.term_length.max(1) as i64) as i32 & !31;
        if self.chance(50) {
            offset = 0;
        }
        for _ in 0..self.pick(&[0, 1, 2, 3, 8, 40, 3000]) {
            match self.frame_at(p, partition, offset) {
                Some((length, _)) if offset + length < r.term_length => offset += length,
                _ => break,
            }
        }
        (partition, offset)
    }

    /// A frame's place, or any multiple of 32, or a place out of range.
    pub fn place(&mut self, p: &Port) -> (i32, i32) {
        let term = p.record.term_length;
        let (partition, offset) = self.boundary(p);
        match self.below(40) {
            0 => (partition, self.pick(&[-32, -1, 1, 8, term, term.wrapping_add(32), term.wrapping_sub(1), i32::MAX, i32::MIN])),
            1 => (self.pick(&[-1, 3, i32::MAX, i32::MIN]), offset),
            2 | 3 => (partition, term.wrapping_sub(32 * (1 + self.below(4) as i32))),
            4 | 5 => (partition, 32 * self.below((term.max(64) / 32) as u64) as i32),
            _ => (partition, offset),
        }
    }

    // Lengths.

    /// Sizes at the edges: payload limit, message limit, multiples of 32, the rest of the term, one either side.
    pub fn message_length(&mut self, p: &Port) -> usize {
        let r = &p.record;
        let payload = (r.mtu_length.clamp(64, 65_504) - 32) as i64;
        let most = (r.term_length.max(65_536) as i64 / 8).min(16_777_216);
        let partition = (r.active_term_count.max(0) % 3) as usize;
        let rest = (r.term_length as i64 - (r.tails[partition] as u32 as i64)).max(0);
        let near = self.pick(&[-1, 0, 1]);
        let length = match self.below(17) {
            16 => rest + near,
            0..=4 => self.below(130) as i64,
            5 => payload + near,
            6 => 2 * payload + near,
            7 => 32 * self.below(40) as i64 + near,
            8 => most + near,
            9 | 10 => self.filling(rest, payload) + near,
            11 => self.below(most as u64 + 2) as i64,
            12 => payload * (1 + self.below(6) as i64) + self.below(64) as i64,
            13 => 0,
            _ => self.below(2 * payload as u64) as i64,
        };
        // Above 4 MiB only now and then: such a message is most of a run.
        let cap = if self.chance(2) { most + 1 } else { 1 << 18 };
        length.clamp(0, cap.max(0)) as usize
    }

    /// The longest message whose frames need at most `rest` bytes.
    fn filling(&self, rest: i64, payload: i64) -> i64 {
        let (frames, left) = (rest / (payload + 32), rest % (payload + 32));
        frames * payload + (left - 32).max(0)
    }

    pub fn claim_length(&mut self, p: &Port) -> i32 {
        let payload = p.record.mtu_length.clamp(64, 65_504) - 32;
        match self.below(12) {
            0 => payload + self.pick(&[-1, 0, 1, 2]),
            1 => self.pick(&[-1, 0, 1, -32, i32::MIN, i32::MAX, payload]),
            _ => (self.message_length(p) as i32).min(payload),
        }
    }

    /// An appender's length: also longer than the payload limit, up to the partition's rest.
    pub fn append_length(&mut self, p: &Port, partition: i32) -> usize {
        let tail = p.record.tails[partition.clamp(0, 2) as usize] as u32 as i64;
        let rest = (p.record.term_length as i64 - tail).max(0);
        let near = self.pick(&[-32, -1, 0, 1]);
        match self.below(5) {
            0 if rest <= 1 << 18 => (rest - 32 + near).max(0) as usize,
            1 => self.below(200) as usize,
            _ => self.message_length(p),
        }
    }

    pub fn tail_id(&mut self, p: &Port, partition: i32) -> i32 {
        let id = (p.record.tails[partition.clamp(0, 2) as usize] >> 32) as i32;
        if self.chance(85) {
            id
        } else {
            id.wrapping_add(self.pick(&[-3, -1, 1, 3]))
        }
    }

    pub fn payload_limit(&mut self, p: &Port) -> i32 {
        match self.below(20) {
            0 => self.pick(&[0, -32, 40, 1, i32::MIN, i32::MAX, 33]),
            1..=6 => 32 * (1 + self.below(60) as i32),
            _ => p.record.mtu_length.wrapping_sub(32),
        }
    }

    // Limits.

    pub fn limit(&mut self, p: &Port) -> i64 {
        let position = p.record.active_term_count as i64 * p.record.term_length as i64;
        let tail = p.record.tails[(p.record.active_term_count.max(0) % 3) as usize] & 0xffff_ffff;
        match self.below(20) {
            0 => self.pick(&[-1, 0, 1, 1 << 62, (1 << 62) + 1, i64::MAX, i64::MIN]),
            1..=4 => position + self.below(p.record.term_length.max(1) as u64) as i64,
            5 => position,
            6 | 7 => position + tail + self.pick(&[-1, 0, 1, 32]),
            _ => 1 << 62,
        }
    }

    pub fn fragment_limit(&mut self) -> i32 {
        match self.below(20) {
            0 => self.pick(&[0, -1, i32::MIN]),
            1 => self.pick(&[3000, 100, 1_073_741_824, i32::MAX]),
            2..=6 => 1,
            _ => self.below(12) as i32,
        }
    }

    /// Enough entries, now and then one too few; never more than the longest lists need.
    pub fn entries(&mut self, fragment_limit: i32) -> usize {
        let enough = 2 * (fragment_limit.clamp(0, 3000) as usize);
        if self.chance(3) {
            return enough.saturating_sub(1 + self.below(2) as usize);
        }
        enough + self.pick(&[0, 0, 0, 1, 2, 7])
    }

    pub fn actions(&mut self, fragment_limit: i32) -> Vec<u8> {
        let mut length = fragment_limit.clamp(0, 3000) as u64 + self.pick(&[0, 0, 0, 1, 3]);
        if self.chance(3) {
            length = length.saturating_sub(1);
        }
        let mut actions: Vec<u8> = (0..length).map(|_| self.pick(&[1, 2, 3, 3, 4, 4, 4, 4, 4, 4])).collect();
        if length > 0 && self.chance(3) {
            let k = self.below(length) as usize;
            actions[k] = self.pick(&[0, 5, 255]);
        }
        actions
    }

    /// A scan's limit: at a frame's end or beside it, at the term's end or past it, anywhere.
    pub fn scan_limit(&mut self, p: &Port, partition: i32, offset: i32) -> i32 {
        let term = p.record.term_length;
        let mut end = offset;
        if (0..3).contains(&partition) && (0..term).contains(&offset) {
            for _ in 0..self.below(6) {
                match self.frame_at(p, partition, end) {
                    Some((length, _)) if end + length < term => end += length,
                    _ => break,
                }
            }
        }
        match self.below(12) {
            0 => self.pick(&[term, term.wrapping_add(1), term.wrapping_add(32), 0, -1, i32::MIN, i32::MAX, term.wrapping_sub(32)]),
            1 => end.wrapping_add(self.pick(&[-33, -1, 1, 31, 33])),
            2 | 3 => end.wrapping_add(32 * self.below(20) as i32).min(term),
            4 => term,
            _ => end.wrapping_add(self.pick(&[-32, 0, 0, 32, 64])),
        }
    }

    // Positions.

    pub fn image_position(&mut self, p: &Port) -> i64 {
        let (r, term) = (&p.record, p.record.term_length.max(1) as i64);
        let (partition, offset) = self.boundary(p);
        let count = r.active_term_count.max(0) as i64;
        // The latest count whose term lies in that partition.
        let at = (count - (count - partition as i64).rem_euclid(3)).max(partition as i64);
        match self.below(12) {
            0 => self.pick(&[0, term, 2 * term, (term << 31) - 32, term << 31, (term << 31) + 32, (term << 31) - term]),
            1 => at * term + (offset as i64 + self.pick(&[-32, 8, 32, 64])),
            2 => self.below(3) as i64 * term + offset as i64,
            _ => at * term + offset as i64,
        }
    }

    /// Where an image may be set to, or a peek may start.
    pub fn new_position(&mut self, p: &Port, image: usize) -> i64 {
        let (position, term) = (p.images[image].position, p.record.term_length.max(1) as i64);
        let end = position.saturating_sub(position.rem_euclid(term)).saturating_add(term);
        let partition = (position / term).rem_euclid(3) as i32;
        let next = self.frame_at(p, partition, position.rem_euclid(term) as i32).map_or(0, |(length, _)| length as i64);
        match self.below(14) {
            0..=4 => position,
            5..=7 => position.saturating_add(next),
            8 => position.saturating_add(32 * self.below(40) as i64),
            9 => end.saturating_add(self.pick(&[-32, 0, 0, 1, 32, 64])),
            10 => position.saturating_add(self.pick(&[-64, -32, -8, -1, 1, 8, 31])),
            11 => self.image_position(p),
            12 => self.pick(&[i64::MIN, i64::MAX, 0, -1]),
            _ => end,
        }
    }

    pub fn limit_position(&mut self, p: &Port, position: i64) -> i64 {
        let far = self.pick(&[1 << 31, (1 << 31) + 1, (1 << 31) - 1, (1 << 31) + 32, 1 << 32]);
        let term = p.record.term_length.max(1) as i64;
        let (partition, offset) = ((position / term).rem_euclid(3) as i32, position.rem_euclid(term) as i32);
        // The end of one of the next frames.
        let mut end = offset;
        for _ in 0..1 + self.below(3) {
            end += self.frame_at(p, partition, end).map_or(0, |(length, _)| length);
        }
        match self.below(20) {
            16..=19 => position.saturating_add((end - offset) as i64 + self.pick(&[0, 0, -1, 1])),
            0 => self.pick(&[i64::MIN, i64::MAX, 0, -1]),
            1 => position.saturating_sub(far),
            2 => position.saturating_add(far),
            3..=6 => position.saturating_add(self.pick(&[-64, -32, -1, 0, 1, 31, 32, 33, 64, 65, 96])),
            7..=10 => position.saturating_add(self.below(2000) as i64),
            _ => position.saturating_add(p.record.term_length as i64),
        }
    }

    // Records.

    /// A multiple of 32: anywhere, near the term's end, past it, or near 2^31.
    pub fn tail_offset(&mut self, record: &Record) -> i64 {
        let term = record.term_length.max(65_536) as i64;
        let mtu = record.mtu_length.max(32) as i64;
        match self.below(12) {
            0 | 1 => 32 * self.below((term / 32) as u64) as i64,
            2 => term / 2 + 32 * self.pick(&[-1, 0, 1]),
            3 => term,
            4 => term + 32 * self.below(40) as i64,
            5 => 0,
            6 => (term - mtu).max(0) / 32 * 32,
            _ => term - 32 * (1 + self.below(12) as i64),
        }
    }

    /// Most often all, so that a trip rotates as the Rust does; the bits above the three are nobody's.
    pub fn marks(&mut self) -> u64 {
        let marks = if self.chance(60) { 7 } else { self.below(8) };
        let others = if self.chance(10) { self.any_u64() & !7 } else { 0 };
        marks | others
    }

    /// A position for the slowest reader: around the end of the term that is due, where it is, the publisher's, and the ends of its range.
    pub fn slowest(&mut self, r: &Record) -> i64 {
        let (term, count) = (r.term_length.max(1) as i64, r.active_term_count.max(0) as i64);
        match self.below(12) {
            0..=4 => ((count - 1) * term).max(r.slowest_position),
            5 => (count - 1) * term + self.pick(&[-64, -32, 0, 32]),
            6 | 7 => r.slowest_position.saturating_add(self.pick(&[-32, 0, 0, 8, 32, 64])),
            8 => r.publisher_position(),
            9 => (count * term).saturating_add(32 * self.below(2_000) as i64),
            10 => self.pick(&[0, 32, 8, -32, -1]),
            _ => self.pick(&[term << 31, (term << 31) + 32, (term << 31) - 32, i64::MAX, i64::MIN]),
        }
    }

    /// Counts, ids and tails at the ends of their ranges, in step with each other.
    pub fn edge_record(&mut self, from: &Record) -> Record {
        let mut record = *from;
        record.initial_term_id = self.initial();
        // The count at which the id is the largest, and those around it, where ids wrap.
        let most = (i32::MAX as i64 - record.initial_term_id as i64).min(i32::MAX as i64) as i32;
        let picked = self.pick(&[0, 1, 2, 3, most, most.saturating_add(1), most.saturating_add(2), most - 1, most - 2, most / 2, i32::MAX, i32::MAX - 1]);
        record.active_term_count = picked.max(0);
        let id = record.initial_term_id.wrapping_add(record.active_term_count);
        let partition = (record.active_term_count % 3) as usize;
        let offset = match self.below(6) {
            0 => 2_147_483_616 - 32 * self.below(5) as i64,
            _ => self.tail_offset(&record),
        };
        record.tails[partition] = ((id as i64) << 32) | offset;
        record.tails[(partition + 1) % 3] = (id.wrapping_sub(2) as i64) << 32;
        record.tails[(partition + 2) % 3] = ((id.wrapping_sub(1) as i64) << 32) | self.tail_offset(&record);
        record.publication_limit = self.pick(&[0, 1 << 62, 1 << 62, 1 << 62, 1 << 46, 65_536]);
        record.slowest_position = self.slowest(&record).clamp(0, (record.term_length.max(1) as i64) << 31) & !31;
        record.cleared_marks = self.marks();
        record.is_connected = self.pick(&[0, 1, 1, 1, 2]);
        record
    }

    pub fn broken_term(&mut self, p: &Port) -> i32 {
        let term = p.record.term_length;
        self.pick(&[term.wrapping_add(1), term.wrapping_sub(1), term / 2, term.wrapping_mul(2), 0, -1, term, i32::MIN, i32::MAX, 32_768])
    }

    /// One field at its edge or just outside.
    pub fn broken_record(&mut self, from: &Record) -> Record {
        let mut r = *from;
        let k = self.below(3) as usize;
        match self.below(14) {
            0 => r.term_length = self.pick(&[r.term_length + 1, r.term_length / 2, r.term_length.wrapping_mul(2), 0, -1, 32_768, i32::MIN, 1 << 20]),
            1 => r.mtu_length = self.pick(&[0, 32, 63, 64, 65, 65_504, 65_505, 65_536, -32, i32::MAX, i32::MIN]),
            2 => r.initial_term_id = self.pick(&[-2_147_483_648, -2_147_483_647, -2_147_483_646, 2_147_483_647]),
            3 | 4 => r.active_term_count = self.edge_i32(),
            5 => r.publication_limit = self.pick(&[-1, 0, 1 << 62, (1 << 62) + 1, i64::MAX, i64::MIN]),
            6 | 7 => {
                let offset = self.pick(&[8, 1, 31, 2_147_483_616, 2_147_483_647, 2_147_483_648, 0xffff_ffff, 0xffff_ffe0]);
                r.tails[k] = (r.tails[k] & !0xffff_ffff) | offset;
            }
            8 => r.tails[k] = ((self.edge_i32() as i64) << 32) | (r.tails[k] & 0xffff_ffff),
            9 => r.is_connected = self.edge_i32(),
            10 => r.end_of_stream_position = self.pick(&[i64::MIN, -1, 0, 32, i64::MAX]),
            11 => r.slowest_position = self.slowest(from),
            12 => r.cleared_marks = self.marks(),
            _ => r.tails.swap(k, (k + 1) % 3),
        }
        r
    }

    /// A length to put at a frame's start.
    pub fn frame_length(&mut self, term: i32, offset: i32) -> i32 {
        let rest = term.wrapping_sub(offset);
        match self.below(8) {
            0 => 1 + self.below(31) as i32,
            1 => self.pick(&[0, -1, -32, i32::MIN, 32, 33, 64]),
            2 => rest.wrapping_add(self.pick(&[-32, -1, 0, 1, 32])),
            3 => self.pick(&[i32::MAX, 2_147_483_616, 2_147_483_617, 1 << 30]),
            4 => self.any_i32(),
            5 => self.any_i32().wrapping_neg(),
            _ => 32 + self.below(600) as i32,
        }
    }

    pub fn number(&mut self) -> Call {
        let bits = self.pick(&[0, 1, 16, 17, 20, 29, 30, 30, 31, 32, 63, 64, u32::MAX]);
        let raw_tail = if self.chance(70) { self.any_i64() } else { self.pick(&[i64::MIN, -1, 0, -4_294_967_296, i64::MAX]) };
        let value = match self.below(4) {
            0 => 1 << self.below(32),
            1 => (1u64 << self.below(32)).wrapping_add(self.any_u64() % 3).wrapping_sub(1) as u32,
            2 => self.below(100_000) as u32 / self.pick(&[1, 1000, 100_000]),
            _ => self.any_u64() as u32,
        };
        match self.below(8) {
            0 => Call::Align { value },
            1 => Call::IsPowerOfTwo { value },
            2 => Call::TermId { raw_tail },
            3 => Call::TermOffset { raw_tail, term_length: 1 << (16 + self.below(15)) },
            4 => Call::IndexByTermCount { count: self.any_u64() >> (1 + self.below(62)) },
            5 => Call::IndexByPosition { position: self.any_u64() >> (1 + self.below(40)), bits },
            6 => Call::PositionBitsToShift { term_length: value },
            _ => Call::ComputePosition { term_id: self.any_i32(), offset: value >> 1, bits, initial_term_id: self.any_i32() },
        }
    }
}
