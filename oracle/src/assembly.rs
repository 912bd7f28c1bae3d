//! The given Rust's fragment assembler kept alive between calls, with the messages that it hands out. Part of `original.rs`.
//!
//! Its handler borrows the assembler, and that the delegate, each for its whole life, so the two lie behind raw pointers here.

use std::cell::RefCell;
use std::rc::Rc;

use aeron_rs::concurrent::atomic_buffer::AtomicBuffer;
use aeron_rs::concurrent::logbuffer::header::Header;
use aeron_rs::fragment_assembler::FragmentAssembler;
use aeron_rs::harness::over;
use aeron_rs::utils::types::Index;

use crate::calls::{Answer, Assembler, IN_BUFFER, IN_LOG};

/// The first length of a session's buffer; short, so that it has to grow.
const FIRST_LENGTH: isize = 64;

type Handler = Box<dyn FnMut(&AtomicBuffer, Index, Index, &Header)>;

/// A message handed out: the buffer it lies in, its offset there, its bytes.
pub struct Message {
    buffer: *mut u8,
    in_log: bool,
    start: Index,
    bytes: Vec<u8>,
}

impl Message {
    /// `base` is the index of the message's term, or 0 where the answer's start is an offset in the term.
    pub fn answer(self, base: i64) -> Answer {
        let length = self.bytes.len() as i64;
        let values = if self.in_log { [IN_LOG, base + self.start as i64, length] } else { [IN_BUFFER, 0, length] };
        Answer { bytes: self.bytes, ..Answer::of(&values) }
    }
}

pub struct Assembly {
    handler: Option<Handler>,
    assembler: *mut FragmentAssembler<'static>,
    delegate: *mut Handler,
    message: Rc<RefCell<Option<Message>>>,
}

impl Assembly {
    pub fn new() -> Self {
        let message = Rc::new(RefCell::new(None));
        let out = message.clone();
        let delegate: Handler = Box::new(move |buffer: &AtomicBuffer, start: Index, length: Index, _: &Header| {
            let bytes = buffer.as_sub_slice(start, length).to_vec();
            *out.borrow_mut() = Some(Message { buffer: buffer.buffer(), in_log: false, start, bytes });
        });
        let delegate = Box::into_raw(Box::new(delegate));
        // Both pointers stay valid until `drop`, which lets the handler go first.
        let assembler = Box::into_raw(Box::new(FragmentAssembler::new(unsafe { &mut *delegate }, Some(FIRST_LENGTH))));
        let handler: Handler = Box::new(unsafe { (*assembler).handler() });
        Assembly { handler: Some(handler), assembler, delegate, message }
    }

    /// The sessions of a bookkeeping, each fed one begin frame of what it holds in its part of the lent buffer.
    pub fn holding(assembler: &Assembler, buffer: &[u8]) -> Self {
        let mut assembly = Assembly::new();
        let part = buffer.len() / 16;
        for k in (0..assembler.count.min(16)).rev() {
            let held = &buffer[k * part..k * part + assembler.held[k].min(part)];
            assembly.begin(assembler.ids[k], held);
        }
        assembly
    }

    /// A begin frame made by hand: the session is entered and holds these bytes.
    fn begin(&mut self, session: i32, body: &[u8]) {
        let mut frame = vec![0u8; 32];
        frame[5] = 0x80;
        frame[12..16].copy_from_slice(&session.to_le_bytes());
        frame.extend_from_slice(body);
        let buffer = over(&mut frame);
        let mut header = Header::new(0, 65_536);
        header.set_buffer(buffer);
        self.hand(&buffer, 32, body.len() as Index, &header);
    }

    /// The frame at an offset, as a reader would hand it on.
    pub fn on_fragment(&mut self, term: &AtomicBuffer, offset: Index, header: &Header) -> Option<Message> {
        self.hand(term, offset + 32, header.frame_length() - 32, header)
    }

    pub fn hand(&mut self, buffer: &AtomicBuffer, offset: Index, length: Index, header: &Header) -> Option<Message> {
        (self.handler.as_mut()?)(buffer, offset, length, header);
        let mut message = self.message.borrow_mut().take()?;
        message.in_log = message.buffer == buffer.buffer();
        Some(message)
    }
}

impl Drop for Assembly {
    fn drop(&mut self) {
        self.handler = None;
        unsafe {
            drop(Box::from_raw(self.assembler));
            drop(Box::from_raw(self.delegate));
        }
    }
}
