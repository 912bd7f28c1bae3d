//! A reader at a position: polls, the peek, blocks, and fragments one by one. Read assembler.rs and replay.rs next.
//!
//! Readers of the C face do not compare a frame's term id with their position, and until the next partition is cleared it holds an older term.
//! So every call here is bounded by the publisher's position: what lies past it is of an older term, or nothing.

use crate::log::Bytes;
use crate::sys::{self, Header, Image, PollReply};
use crate::{Error, FrameLength, Log};

/// A frame's body that a reader came by, and its header. A message longer than the payload limit comes in several:
/// [`Assembler`](crate::Assembler) puts them together.
///
/// ```
/// let mut log = logbuffer::Log::builder().session_id(11).open()?;
/// log.offer_with_reserved_value(b"coin", 1_926)?;
/// let mut poller = log.poller(0);
/// let fragment = poller.fragments(&log).next().unwrap()?;
/// assert_eq!((fragment.position, fragment.body), (64, &b"coin"[..]));
/// assert_eq!((fragment.header.session_id, fragment.header.reserved_value), (11, 1_926));
/// assert!(fragment.is_begin() && fragment.is_end());
/// # Ok::<(), logbuffer::Error>(())
/// ```
#[derive(Clone, Copy, Debug, PartialEq, Eq)]
pub struct Fragment<'a> {
    /// The position past the frame.
    pub position: i64,
    /// The body, where it lies in the log.
    pub body: &'a [u8],
    /// The header.
    pub header: Header,
    pub(crate) partition: i32,
    pub(crate) offset: i32,
}

impl Fragment<'_> {
    /// Whether a message begins here.
    pub fn is_begin(&self) -> bool {
        self.header.flags & 0x80 != 0
    }

    /// Whether a message ends here.
    pub fn is_end(&self) -> bool {
        self.header.flags & 0x40 != 0
    }
}

/// What the handler of a controlled poll or peek answers for a fragment.
#[derive(Clone, Copy, Debug, PartialEq, Eq)]
#[repr(u8)]
pub enum Action {
    /// It is not read after all, and nothing behind it.
    Abort = 1,
    /// It is read, and nothing behind it.
    Break = 2,
    /// It is read, and the reader goes on.
    Commit = 3,
    /// The same.
    Continue = 4,
}

/// Whole frames, headers and padding included, as they lie in a term.
#[derive(Clone, Copy, Debug, PartialEq, Eq)]
#[non_exhaustive]
pub struct Block<'a> {
    /// The frames.
    pub bytes: &'a [u8],
    /// The block's offset in its term.
    pub term_offset: usize,
    /// The reader's session.
    pub session_id: i32,
    /// The id of the first frame's term.
    pub term_id: i32,
}

/// A reader at a position of a log. Made by [`Log::poller`]; it borrows nothing, so each call is handed the log.
///
/// The log does not wait for it: a reader whose term was cleared, or written anew, is refused [`Error::Overrun`], for what it did not read is gone. A
/// [`Reader`](crate::Reader) is one that the log waits for.
///
/// Its calls refuse a position that is negative, over the greatest, or not a multiple of 32 with [`Error::PositionOutOfRange`], and a
/// damaged frame at their start with [`Error::FrameTooShort`] or [`Error::FramePastTerm`] and its place.
///
/// ```
/// let mut log = logbuffer::Log::builder().open()?;
/// let mut poller = log.poller(0);
/// log.offer(b"coin")?;
/// log.offer(b"pin")?;
///
/// let mut bodies = Vec::new();
/// assert_eq!(poller.poll(&log, 10, |fragment| bodies.push(fragment.body))?, 2);
/// assert_eq!(bodies, [&b"coin"[..], b"pin"]);
/// assert_eq!(poller.position(), 128);
/// # Ok::<(), logbuffer::Error>(())
/// ```
#[derive(Clone, Debug)]
pub struct Poller {
    image: Image,
    entries: Vec<i32>,
}

impl Poller {
    pub(crate) fn new(position: i64, session_id: i32) -> Poller {
        Poller { image: sys::image_new(position, session_id), entries: Vec::new() }
    }

    /// The position of the next frame to be read.
    pub fn position(&self) -> i64 {
        self.image.position
    }

    /// Reads at most `limit` fragments, never past the end of a term, moves past them, and then hands them out in order. Answers how
    /// many; 0 may also mean that padding was passed, and then the position has moved.
    ///
    /// ```
    /// let mut log = logbuffer::Log::builder().open()?;
    /// log.offer(b"coin")?;
    /// log.offer(b"pin")?;
    /// let mut poller = log.poller(0);
    /// assert_eq!(poller.poll(&log, 1, |fragment| assert_eq!(fragment.body, b"coin"))?, 1);
    /// assert_eq!(poller.poll(&log, 1, |fragment| assert_eq!(fragment.body, b"pin"))?, 1);
    /// assert_eq!(poller.poll(&log, 1, |_| ())?, 0);
    /// # Ok::<(), logbuffer::Error>(())
    /// ```
    pub fn poll<'a, B: Bytes>(
        &mut self,
        log: &'a Log<B>,
        limit: usize,
        handler: impl FnMut(Fragment<'a>),
    ) -> Result<usize, Error> {
        self.bounded_poll(log, i64::MAX, limit, handler)
    }

    /// The same, reading no frame that begins at or past `limit_position`.
    ///
    /// ```
    /// let mut log = logbuffer::Log::builder().open()?;
    /// log.offer(b"coin")?;
    /// log.offer(b"pin")?;
    /// assert_eq!(log.poller(0).bounded_poll(&log, 64, 10, |_| ())?, 1);
    /// # Ok::<(), logbuffer::Error>(())
    /// ```
    pub fn bounded_poll<'a, B: Bytes>(
        &mut self,
        log: &'a Log<B>,
        limit_position: i64,
        limit: usize,
        mut handler: impl FnMut(Fragment<'a>),
    ) -> Result<usize, Error> {
        let (next, reply) = self.look(log, limit_position, limit)?;
        self.image = next;
        let count = reply.entries as usize;
        for index in 0..count {
            handler(self.fragment(log, reply.partition, index)?);
        }
        Ok(count)
    }

    /// Reads as [`poll`](Poller::poll) does, but hands each fragment to the handler first, and goes on, stops or takes it back as the
    /// handler says. Answers how many were read.
    ///
    /// ```
    /// use logbuffer::{Action, Log};
    ///
    /// let mut log = Log::builder().open()?;
    /// log.offer(b"coin")?;
    /// log.offer(b"pin")?;
    /// let mut poller = log.poller(0);
    /// let read = poller.controlled_poll(&log, 10, |f| if f.body == b"pin" { Action::Abort } else { Action::Continue })?;
    /// assert_eq!((read, poller.position()), (1, 64)); // the pin comes again
    /// # Ok::<(), logbuffer::Error>(())
    /// ```
    pub fn controlled_poll<'a, B: Bytes>(
        &mut self,
        log: &'a Log<B>,
        limit: usize,
        handler: impl FnMut(Fragment<'a>) -> Action,
    ) -> Result<usize, Error> {
        let (next, looked) = self.look(log, i64::MAX, limit)?;
        let count = looked.entries as usize;
        let actions = self.ask(log, looked.partition, count, handler)?;
        // With nothing stopped, a controlled poll is a poll, which has been made.
        if !is_stopped(&actions) {
            self.image = next;
            return Ok(count);
        }
        let limit = actions.len() as i32;
        let reply =
            sys::image_controlled_poll(&mut self.image, &log.record, log.bytes.as_ref(), limit, &mut self.entries, &actions);
        Error::check_frame(reply.code, looked.partition, reply.fragments as usize)?;
        Ok(reply.fragments as usize)
    }

    /// Looks from `start`, at or after the reader's position in the same term, at no more than `limit` fragments that begin before
    /// `limit_position`, and answers the position after the last whole message or padding. The reader stays. Refuses a start elsewhere
    /// with [`Error::NewPositionOutOfRange`] or [`Error::NewPositionNotAligned`].
    ///
    /// ```
    /// use logbuffer::{Action, Log};
    ///
    /// let mut log = Log::builder().mtu_length(96).open()?;
    /// log.offer(b"coin")?;
    /// log.offer(&[7; 100])?; // two fragments
    /// let mut poller = log.poller(0);
    /// assert_eq!(poller.controlled_peek(&log, 0, i64::MAX, 2, |_| Action::Continue)?, 64);
    /// assert_eq!(poller.controlled_peek(&log, 0, i64::MAX, 3, |_| Action::Continue)?, log.position()?);
    /// assert_eq!(poller.position(), 0);
    /// # Ok::<(), logbuffer::Error>(())
    /// ```
    pub fn controlled_peek<'a, B: Bytes>(
        &mut self,
        log: &'a Log<B>,
        start: i64,
        limit_position: i64,
        limit: usize,
        handler: impl FnMut(Fragment<'a>) -> Action,
    ) -> Result<i64, Error> {
        self.check_place(log, start)?;
        let limit_position = limit_position.min(log.publisher_position());
        let onward = vec![Action::Continue as u8; self.reserve(log, start, limit)];
        let peek = |image: &Image, entries: &mut [i32], actions: &[u8]| {
            let reply =
                sys::image_controlled_peek(image, &log.record, log.bytes.as_ref(), start, limit_position, entries, actions);
            Error::check_frame(reply.code, log.partition_of(start), reply.position as usize).map(|()| reply)
        };
        let first = peek(&self.image, &mut self.entries, &onward)?;
        let actions = self.ask(log, first.partition, first.entries as usize, handler)?;
        if !is_stopped(&actions) {
            return Ok(first.position);
        }
        Ok(peek(&self.image, &mut self.entries, &actions)?.position)
    }

    /// Moves past whole frames of at most `limit` bytes and answers them as they lie; none where there are none. Padding at the front is
    /// taken whole, even where it is longer than the limit.
    ///
    /// ```
    /// let mut log = logbuffer::Log::builder().open()?;
    /// log.offer(b"coin")?;
    /// log.offer(b"pin")?;
    /// let block = log.poller(0).block_poll(&log, 1_024)?.unwrap();
    /// assert_eq!(block.bytes, &log.as_bytes()[..128]);
    /// # Ok::<(), logbuffer::Error>(())
    /// ```
    pub fn block_poll<'a, B: Bytes>(&mut self, log: &'a Log<B>, limit: usize) -> Result<Option<Block<'a>>, Error> {
        self.check_place(log, self.image.position)?;
        let limit = limit.min(i32::MAX as usize).min(log.written_after(self.image.position)) as i32;
        let place = log.partition_of(self.image.position);
        let reply = sys::image_block_poll(&mut self.image, &log.record, log.bytes.as_ref(), limit);
        Error::check_frame(reply.code, place, reply.offset)?;
        if reply.length == 0 {
            return Ok(None);
        }
        let bytes = log.view(reply.partition, reply.offset as i32, reply.length as i32)?;
        Ok(Some(Block { bytes, term_offset: reply.offset, session_id: reply.session_id, term_id: reply.term_id }))
    }

    /// Moves within the term, forward. Refuses [`Error::NewPositionOutOfRange`] and [`Error::NewPositionNotAligned`].
    ///
    /// ```
    /// use logbuffer::{Error, Log};
    ///
    /// let mut log = Log::builder().open()?;
    /// let mut poller = log.poller(64);
    /// assert_eq!(poller.set_position(&log, 32), Err(Error::NewPositionOutOfRange));
    /// assert_eq!(poller.set_position(&log, 72), Err(Error::NewPositionNotAligned));
    /// assert_eq!(poller.set_position(&log, 96), Ok(()));
    /// # Ok::<(), Error>(())
    /// ```
    pub fn set_position<B: Bytes>(&mut self, log: &Log<B>, new_position: i64) -> Result<(), Error> {
        Error::check(sys::image_set_position(&mut self.image, &log.record, log.bytes.as_ref(), new_position))
    }

    /// Whether the position is at or past the record's end-of-stream position.
    ///
    /// ```
    /// use logbuffer::Log;
    ///
    /// let (mut record, bytes) = Log::builder().open()?.into_parts();
    /// record.end_of_stream_position = 64;
    /// let log = Log::from_parts(record, bytes)?;
    /// assert!(!log.poller(32).is_end_of_stream(&log)?);
    /// assert!(log.poller(64).is_end_of_stream(&log)?);
    /// # Ok::<(), logbuffer::Error>(())
    /// ```
    pub fn is_end_of_stream<B: Bytes>(&self, log: &Log<B>) -> Result<bool, Error> {
        let reply = sys::image_is_end_of_stream(&self.image, &log.record, log.bytes.as_ref());
        Error::check(reply.code).map(|()| reply.is_eos)
    }

    /// Closes the reader: from then on it reads nothing, stays, and remembers whether it was at the end of the stream.
    ///
    /// ```
    /// let mut log = logbuffer::Log::builder().open()?;
    /// log.offer(b"coin")?;
    /// let mut poller = log.poller(0);
    /// poller.close(&log)?;
    /// assert_eq!(poller.poll(&log, 10, |_| ())?, 0);
    /// # Ok::<(), logbuffer::Error>(())
    /// ```
    pub fn close<B: Bytes>(&mut self, log: &Log<B>) -> Result<(), Error> {
        Error::check(sys::image_close(&mut self.image, &log.record, log.bytes.as_ref()))
    }

    /// What stands where the reader is: nothing, a frame that is still being written, or a finished one, which the next poll reads. A reader
    /// that comes no further can so tell the end of the log from a claim that nobody has finished; that one is the publisher's to commit
    /// or abort. At and past the publisher's position there is nothing. Refuses a position that is out of range, as a poll does.
    ///
    /// ```
    /// use logbuffer::{FrameLength, Log};
    ///
    /// let mut log = Log::builder().open()?;
    /// let open = log.try_claim(10)?.into_open();
    /// log.offer(b"behind it")?;
    /// let mut poller = log.poller(0);
    /// assert_eq!(poller.poll(&log, 10, |_| ())?, 0);
    /// assert_eq!(poller.ahead(&log)?, FrameLength::Writing(42));
    /// log.abort(open)?;
    /// assert_eq!(poller.poll(&log, 10, |_| ())?, 1);
    /// assert_eq!(poller.ahead(&log)?, FrameLength::Free);
    /// # Ok::<(), logbuffer::Error>(())
    /// ```
    pub fn ahead<B: Bytes>(&self, log: &Log<B>) -> Result<FrameLength, Error> {
        let position = self.image.position;
        // A poll of nothing, for the refusals of its position.
        let nothing = sys::image_bounded_poll(&mut self.image.clone(), &log.record, log.bytes.as_ref(), position, 0, &mut []);
        Error::check(nothing.code)?;
        self.check_place(log, position)?;
        if position >= log.publisher_position() {
            return Ok(FrameLength::Free);
        }
        let offset = position % i64::from(log.record.term_length);
        log.frame_length(log.partition_of(position), offset as i32)
    }

    /// Whether the reader is closed.
    pub fn is_closed(&self) -> bool {
        self.image.is_closed
    }

    /// Fragments one by one, up to the publisher's position or the first claim still open. The reader moves as they are taken.
    ///
    /// ```
    /// let mut log = logbuffer::Log::builder().open()?;
    /// log.offer(b"coin")?;
    /// log.offer(b"pin")?;
    /// let mut poller = log.poller(0);
    /// assert_eq!(poller.fragments(&log).next().unwrap()?.body, b"coin");
    /// assert_eq!(poller.fragments(&log).count(), 1); // the pin
    /// # Ok::<(), logbuffer::Error>(())
    /// ```
    pub fn fragments<'p, 'a, B: Bytes>(&'p mut self, log: &'a Log<B>) -> Fragments<'p, 'a, B> {
        Fragments { poller: self, log, is_ended: false }
    }

    /// An open reader must not have been overrun.
    fn check_place<B: Bytes>(&self, log: &Log<B>, position: i64) -> Result<(), Error> {
        if self.image.is_closed {
            return Ok(());
        }
        log.check_place(position)
    }

    /// A bounded poll that leaves the reader where it is: the image that it answers, and the reply.
    fn look<B: Bytes>(&mut self, log: &Log<B>, limit_position: i64, limit: usize) -> Result<(Image, PollReply), Error> {
        self.check_place(log, self.image.position)?;
        let limit_position = limit_position.min(log.publisher_position());
        let limit = self.reserve(log, self.image.position, limit) as i32;
        let mut next = self.image;
        let reply = sys::image_bounded_poll(&mut next, &log.record, log.bytes.as_ref(), limit_position, limit, &mut self.entries);
        let partition = log.partition_of(self.image.position);
        Error::check_frame(reply.code, partition, reply.fragments as usize).map(|()| (next, reply))
    }

    /// Makes room for as many entries as a limit asks for, or as frames can lie between a position and the publisher's, or in a term, if
    /// those are fewer: no call reads more.
    fn reserve<B: Bytes>(&mut self, log: &Log<B>, position: i64, limit: usize) -> usize {
        let written = log.written_after(position).min(log.record.term_length as usize);
        let limit = limit.min(written.div_ceil(32));
        if self.entries.len() < 2 * limit {
            self.entries.resize(2 * limit, 0);
        }
        limit
    }

    /// The fragment of an entry, two numbers: offset and length of its body.
    fn fragment<'a, B: Bytes>(&self, log: &'a Log<B>, partition: i32, index: usize) -> Result<Fragment<'a>, Error> {
        let (offset, length) = (self.entries[2 * index], self.entries[2 * index + 1]);
        let header = log.header_at(partition, offset - 32)?;
        let body = log.view(partition, offset, length)?;
        Ok(Fragment { position: header.position, body, header, partition, offset: offset - 32 })
    }

    /// The handler's actions, up to the one that stops.
    fn ask<'a, B: Bytes>(
        &self,
        log: &'a Log<B>,
        partition: i32,
        count: usize,
        mut handler: impl FnMut(Fragment<'a>) -> Action,
    ) -> Result<Vec<u8>, Error> {
        let mut actions = Vec::new();
        for index in 0..count {
            actions.push(handler(self.fragment(log, partition, index)?) as u8);
            if is_stopped(&actions) {
                break;
            }
        }
        Ok(actions)
    }
}

fn is_stopped(actions: &[u8]) -> bool {
    actions.last().is_some_and(|&last| last == Action::Abort as u8 || last == Action::Break as u8)
}

/// Fragments one by one. Made by [`Poller::fragments`]. After a refusal there are no more.
#[derive(Debug)]
pub struct Fragments<'p, 'a, B: Bytes = Vec<u8>> {
    poller: &'p mut Poller,
    log: &'a Log<B>,
    is_ended: bool,
}

impl<'a, B: Bytes> Iterator for Fragments<'_, 'a, B> {
    type Item = Result<Fragment<'a>, Error>;

    fn next(&mut self) -> Option<Result<Fragment<'a>, Error>> {
        while !self.is_ended {
            let before = self.poller.position();
            let mut found = None;
            match self.poller.poll(self.log, 1, |fragment| found = Some(fragment)) {
                Err(error) => {
                    self.is_ended = true;
                    return Some(Err(error));
                }
                Ok(0) if self.poller.position() == before => self.is_ended = true,
                // A poll that passed padding alone is made again.
                Ok(_) => {}
            }
            if found.is_some() {
                return found.map(Ok);
            }
        }
        None
    }
}
