//! Memory for a log, and the calls that the original keeps inside its crate. Read `original.rs` next, or `observe.rs`.
//!
//! The three terms and the metadata lie in the middle of one larger block. Its margins stay zero unless the
//! original writes outside the log, which `margins_touched` tells.

use std::alloc::{alloc_zeroed, dealloc, handle_alloc_error, Layout};
use std::ffi::CString;
use std::sync::{Arc, Mutex};

use crate::client_conductor::ClientConductor;
use crate::concurrent::atomic_buffer::AtomicBuffer;
use crate::concurrent::logbuffer::header::{Header, HeaderWriter};
use crate::concurrent::logbuffer::log_buffer_descriptor as descriptor;
use crate::concurrent::logbuffer::term_appender::TermAppender;
use crate::concurrent::position::UnsafeBufferPosition;
use crate::image::Image;
use crate::publication::Publication;
use crate::utils::log_buffers::LogBuffers;
use crate::utils::types::Index;

const MARGIN: usize = 65_536;

/// Zeroed memory that may be longer than an `Index` counts, as three terms of 2^30 are.
struct Block {
    memory: *mut u8,
    layout: Layout,
}

impl Block {
    /// Asked for with an alignment of 16, so that the system's zeroed pages are used as they come.
    fn zeroed(length: usize) -> Self {
        let layout = Layout::from_size_align(length + 64, 16).expect("a sound layout");
        let memory = unsafe { alloc_zeroed(layout) };
        if memory.is_null() {
            handle_alloc_error(layout)
        }
        Block { memory, layout }
    }

    /// The first byte at a multiple of 64.
    fn start(&self) -> *mut u8 {
        unsafe { self.memory.add(self.memory.align_offset(64)) }
    }
}

impl Drop for Block {
    fn drop(&mut self) {
        unsafe { dealloc(self.memory, self.layout) }
    }
}

/// A log of three terms and its metadata, opened as document 01 says.
pub struct Log {
    block: Block,
    buffers: Arc<LogBuffers>,
    pub limit: UnsafeBufferPosition,
    pub term_length: Index,
}

impl Log {
    /// Everything zero but: tails (initial, 0), (initial - 2, 0), (initial - 1, 0), connected 1, end of stream
    /// 2^63 - 1, and the numbers given. The publication limit is 0.
    pub fn open(term_length: Index, mtu: i32, initial_id: i32, session: i32, stream: i32) -> Self {
        let terms = 3 * term_length as usize;
        let block = Block::zeroed(MARGIN + terms + descriptor::LOG_META_DATA_LENGTH as usize + MARGIN);
        let at = |offset: usize| unsafe { block.start().add(MARGIN + offset) };
        let term = |k: usize| AtomicBuffer::new(at(k * term_length as usize), term_length);
        let meta = AtomicBuffer::new(at(terms), descriptor::LOG_META_DATA_LENGTH);
        let log = Log {
            buffers: Arc::new(LogBuffers([term(0), term(1), term(2), meta])),
            block,
            limit: UnsafeBufferPosition::default(),
            term_length,
        };
        log.set_numbers([initial_id, mtu, term_length, session, stream]);
        log.set_tail(0, initial_id, 0);
        log.set_tail(1, initial_id.wrapping_sub(2), 0);
        log.set_tail(2, initial_id.wrapping_sub(1), 0);
        descriptor::set_is_connected(&meta, true);
        descriptor::set_end_of_stream_position(&meta, i64::MAX);
        log
    }

    /// The numbers that never change in an open log: initial id, mtu, term length, session, stream.
    pub fn numbers(&self) -> [i32; 5] {
        let (meta, header) = (self.meta(), descriptor::default_frame_header(&self.meta()));
        let of = |offset: Index| meta.get::<i32>(offset);
        [
            of(*descriptor::LOG_INITIAL_TERM_ID_OFFSET),
            of(*descriptor::LOG_MTU_LENGTH_OFFSET),
            of(*descriptor::LOG_TERM_LENGTH_OFFSET),
            header.get::<i32>(12),
            header.get::<i32>(16),
        ]
    }

    /// A publication made before this still has the old ones.
    pub fn set_numbers(&self, numbers: [i32; 5]) {
        let (meta, header) = (self.meta(), descriptor::default_frame_header(&self.meta()));
        meta.put::<i32>(*descriptor::LOG_INITIAL_TERM_ID_OFFSET, numbers[0]);
        meta.put::<i32>(*descriptor::LOG_MTU_LENGTH_OFFSET, numbers[1]);
        meta.put::<i32>(*descriptor::LOG_TERM_LENGTH_OFFSET, numbers[2]);
        header.put::<i32>(12, numbers[3]);
        header.put::<i32>(16, numbers[4]);
    }

    pub fn raw_tail(&self, partition: Index) -> i64 {
        self.meta().get::<i64>(8 * partition)
    }

    pub fn set_raw_tail(&self, partition: Index, raw_tail: i64) {
        self.meta().put::<i64>(8 * partition, raw_tail);
    }

    /// The number itself, of which only 1 is yes.
    pub fn connected(&self) -> i32 {
        self.meta().get::<i32>(*descriptor::LOG_IS_CONNECTED_OFFSET)
    }

    pub fn set_connected(&self, number: i32) {
        self.meta().put::<i32>(*descriptor::LOG_IS_CONNECTED_OFFSET, number);
    }

    pub fn end_of_stream(&self) -> i64 {
        descriptor::end_of_stream_position(&self.meta())
    }

    pub fn set_end_of_stream(&self, position: i64) {
        descriptor::set_end_of_stream_position(&self.meta(), position);
    }

    pub fn transports(&self) -> i32 {
        descriptor::active_transport_count(&self.meta())
    }

    pub fn page_size(&self) -> i32 {
        descriptor::page_size(&self.meta())
    }

    /// The Rust has neither a constant nor a getter for it: it stands right before the initial id.
    pub fn correlation_id(&self) -> i64 {
        self.meta().get::<i64>(*descriptor::LOG_INITIAL_TERM_ID_OFFSET - 8)
    }

    /// The three numbers that no call looks at: transports, page size, correlation id.
    pub fn set_carried(&self, transports: i32, page_size: i32, correlation_id: i64) {
        descriptor::set_active_transport_count(&self.meta(), transports);
        self.meta().put::<i32>(*descriptor::LOG_PAGE_SIZE_OFFSET, page_size);
        self.meta().put::<i64>(*descriptor::LOG_INITIAL_TERM_ID_OFFSET - 8, correlation_id);
    }

    /// The bytes of the three terms.
    pub fn terms(&self) -> &[u8] {
        unsafe { std::slice::from_raw_parts(self.term(0).buffer(), 3 * self.term_length as usize) }
    }

    /// The same, to be written; no other borrow of them may be alive.
    #[allow(clippy::mut_from_ref)]
    pub fn terms_mut(&self) -> &mut [u8] {
        unsafe { std::slice::from_raw_parts_mut(self.term(0).buffer(), 3 * self.term_length as usize) }
    }

    pub fn term(&self, partition: Index) -> AtomicBuffer {
        self.buffers.atomic_buffer(partition)
    }

    pub fn meta(&self) -> AtomicBuffer {
        self.buffers.atomic_buffer(3)
    }

    pub fn set_tail(&self, partition: Index, id: i32, offset: u32) {
        self.meta().put::<i64>(8 * partition, ((id as i64) << 32) | offset as i64);
    }

    /// Term id and offset of a raw tail.
    pub fn tail(&self, partition: Index) -> (i32, u32) {
        let raw = self.meta().get::<i64>(8 * partition);
        ((raw >> 32) as i32, raw as u32)
    }

    pub fn set_count(&self, count: i32) {
        descriptor::set_active_term_count_ordered(&self.meta(), count);
    }

    pub fn count(&self) -> i32 {
        descriptor::active_term_count(&self.meta())
    }

    pub fn bytes(&self, partition: Index, offset: Index, length: Index) -> Vec<u8> {
        self.term(partition).as_sub_slice(offset, length).to_vec()
    }

    pub fn put(&self, partition: Index, offset: Index, bytes: &[u8]) {
        self.term(partition).put_bytes(offset, bytes);
    }

    /// A frame written by hand: length, flags and type; term offset, ids as the log's first term has them.
    pub fn put_frame(&self, partition: Index, offset: Index, length: i32, flags: u8, kind: u16) {
        let term = self.term(partition);
        term.put::<i32>(offset, length);
        term.put::<u8>(offset + 5, flags);
        term.put::<u16>(offset + 6, kind);
        term.put::<i32>(offset + 8, offset);
        let [initial_id, _, _, session, stream] = self.numbers();
        term.put::<i32>(offset + 12, session);
        term.put::<i32>(offset + 16, stream);
        term.put::<i32>(offset + 20, initial_id + partition);
    }

    pub fn appender(&self, partition: Index) -> TermAppender {
        TermAppender::new(self.term(partition), self.meta(), partition)
    }

    pub fn header_writer(&self) -> HeaderWriter {
        HeaderWriter::new(descriptor::default_frame_header(&self.meta()))
    }

    /// The publication reads initial id and mtu once, here.
    pub fn publication(&self) -> Publication {
        Publication::new(
            Arc::new(Mutex::new(ClientConductor)),
            CString::default(),
            0,
            0,
            self.numbers()[4],
            self.numbers()[3],
            self.limit.clone(),
            0,
            self.buffers.clone(),
        )
    }

    /// An image at a position, with the shared number that holds the position.
    pub fn image(&self, position: i64) -> (Image, UnsafeBufferPosition) {
        self.image_of(position, self.numbers()[3])
    }

    /// The same, of a session.
    pub fn image_of(&self, position: i64, session: i32) -> (Image, UnsafeBufferPosition) {
        let place = UnsafeBufferPosition::at(position);
        let image = Image::create(session, 0, 0, CString::default(), &place, self.buffers.clone(), Box::new(|_| {}));
        (image, place)
    }

    /// A header as readers hand it out, at an offset of a term.
    pub fn header(&self, partition: Index, offset: Index) -> Header {
        let mut header = Header::new(self.numbers()[0], self.term_length);
        header.set_buffer(self.term(partition));
        header.set_offset(offset);
        header
    }

    /// Has a byte outside the terms and the metadata been written?
    pub fn margins_touched(&self) -> bool {
        self.margins(MARGIN)
    }

    /// The same, of the bytes next to them only.
    pub fn near_margins_touched(&self) -> bool {
        self.margins(1024)
    }

    fn margins(&self, length: usize) -> bool {
        let end = MARGIN + 3 * self.term_length as usize + descriptor::LOG_META_DATA_LENGTH as usize;
        let written = |at: usize| {
            let margin = unsafe { std::slice::from_raw_parts(self.block.start().add(at), length) };
            margin.iter().fold(0, |all, byte| all | byte) != 0
        };
        written(MARGIN - length) || written(end)
    }

    /// The number of bytes before the metadata, for the one row that writes there; they lie in term 2.
    pub fn before_meta(&self, length: Index) -> AtomicBuffer {
        self.term(2).view(self.term_length - length, length)
    }
}

/// An `AtomicBuffer` over lent bytes.
pub fn over(bytes: &mut [u8]) -> AtomicBuffer {
    AtomicBuffer::wrap_slice(bytes)
}
