//! A log that lives on past its three terms: readers that it knows, the slowest of them told to the record, the partition that is due cleared. Read replay.rs next.

use crate::log::Bytes;
use crate::sys::{self, Record};
use crate::{Error, Fragment, Log, Poller, Rule};
use std::sync::atomic::{AtomicI64, Ordering};
use std::sync::{Arc, Weak};

/// A reader that the log knows: nothing that it has not read is cleared. Made by [`Log::register_reader`]; it borrows nothing, so each call is handed the log.
/// When it is dropped the log waits for it no longer.
///
/// ```
/// use logbuffer::Log;
///
/// let mut log = Log::builder().term_length(65_536).open()?;
/// let mut reader = log.register_reader(0)?;
/// for n in 0..10_000u32 {
///     // Pressed back: the reader reads on, and the same call is made again.
///     while log.append(&n.to_le_bytes()).is_err() {
///         assert!(reader.messages(&log, |_| ())? > 0);
///     }
/// }
/// assert!(log.record().active_term_count >= 9); // of 1,024 messages each
/// # Ok::<(), logbuffer::Error>(())
/// ```
#[derive(Debug)]
pub struct Reader {
    poller: Poller,
    // Shared with the log, which looks for the lowest.
    place: Arc<AtomicI64>,
    log: u64,
}

impl Reader {
    /// The position up to which it has read: where the next frame comes from, and what the log keeps for it.
    pub fn position(&self) -> i64 {
        self.poller.position()
    }

    /// Reads fragments as [`Poller::poll`] does, and tells the log how far it came.
    ///
    /// ```
    /// let mut log = logbuffer::Log::builder().open()?;
    /// let mut reader = log.register_reader(0)?;
    /// log.offer(b"coin")?;
    /// assert_eq!(reader.poll(&log, 10, |fragment| assert_eq!(fragment.body, b"coin"))?, 1);
    /// assert_eq!(reader.position(), 64);
    /// # Ok::<(), logbuffer::Error>(())
    /// ```
    pub fn poll<'a, B: Bytes>(
        &mut self,
        log: &'a Log<B>,
        limit: usize,
        handler: impl FnMut(Fragment<'a>),
    ) -> Result<usize, Error> {
        self.check_log(log)?;
        let read = self.poller.poll(log, limit, handler)?;
        self.tell();
        Ok(read)
    }

    /// Hands out whole messages, fragments put together, up to the publisher's position or the first claim still open, and tells the log how far it came.
    /// Answers how many.
    ///
    /// ```
    /// let mut log = logbuffer::Log::builder().mtu_length(96).open()?;
    /// let mut reader = log.register_reader(0)?;
    /// log.offer(&[7; 100])?; // two fragments
    /// assert_eq!(reader.messages(&log, |message| assert_eq!(message, [7; 100]))?, 1);
    /// assert_eq!(reader.position(), log.position()?);
    /// # Ok::<(), logbuffer::Error>(())
    /// ```
    pub fn messages<B: Bytes>(&mut self, log: &Log<B>, mut handler: impl FnMut(&[u8])) -> Result<usize, Error> {
        self.check_log(log)?;
        let (mut replay, mut read) = (log.replay_from(self.position()), 0);
        while let Some(message) = replay.next_message() {
            handler(message?);
            read += 1;
            self.stand(log, replay.position());
        }
        // Padding behind the last message is passed too; fragments of a message that is not whole are not.
        if !replay.is_between_fragments() {
            self.stand(log, replay.position());
        }
        Ok(read)
    }

    fn stand<B: Bytes>(&mut self, log: &Log<B>, position: i64) {
        self.poller = log.poller(position);
        self.tell();
    }

    fn tell(&self) {
        self.place.store(self.poller.position(), Ordering::Release);
    }

    /// Another log would move the place that this one's log keeps.
    fn check_log<B: Bytes>(&self, log: &Log<B>) -> Result<(), Error> {
        match self.log == log.identity {
            true => Ok(()),
            false => Err(Error::IllegalArgument),
        }
    }
}

/// The readers that a log knows, each by the place that it shares.
#[derive(Default)]
pub(crate) struct Readers(Vec<Weak<AtomicI64>>);

impl Readers {
    fn add(&mut self, place: &Arc<AtomicI64>) {
        self.0.push(Arc::downgrade(place));
    }

    /// The lowest place of the readers that are still there.
    fn slowest(&mut self) -> Option<i64> {
        self.0.retain(|place| place.strong_count() > 0);
        self.0.iter().filter_map(Weak::upgrade).map(|place| place.load(Ordering::Acquire)).min()
    }
}

impl Record {
    /// Whether a partition, 0 to 2, is marked as cleared: zeros, and not written yet. At opening 1 and 2 are.
    ///
    /// ```
    /// let log = logbuffer::Log::builder().open()?;
    /// assert_eq!([0, 1, 2, 3].map(|partition| log.record().is_cleared(partition)), [false, true, true, false]);
    /// # Ok::<(), logbuffer::Error>(())
    /// ```
    pub fn is_cleared(&self, partition: i32) -> bool {
        (0..3).contains(&partition) && (self.cleared_marks >> partition) & 1 == 1
    }

    /// The partition that the log is rotated into next, which has to be cleared by then: the remainder of the count of terms and 1 by 3.
    ///
    /// ```
    /// assert_eq!(logbuffer::Log::builder().open()?.record().due_partition(), 1);
    /// # Ok::<(), logbuffer::Error>(())
    /// ```
    pub fn due_partition(&self) -> i32 {
        ((i64::from(self.active_term_count) + 1) % 3) as i32
    }
}

impl<B: Bytes> Log<B> {
    /// A reader at a position that an offer, claim or reader answered, or at 0, that the log knows from now on: [`housekeep`](Log::housekeep) clears nothing that it
    /// has not read. Refuses a position out of range with [`Error::PositionOutOfRange`], one in a term that is gone with [`Error::Overrun`], and one
    /// below the record's slowest position or past the publisher's with [`Error::NewPositionOutOfRange`].
    ///
    /// ```
    /// use logbuffer::{Error, Log};
    ///
    /// let mut log = Log::builder().open()?;
    /// let position = log.offer(b"coin")?;
    /// let reader = log.register_reader(position)?;
    /// log.housekeep()?;
    /// assert_eq!(log.record().slowest_position, position);
    /// assert_eq!(log.register_reader(0).err(), Some(Error::NewPositionOutOfRange)); // too late
    /// drop(reader);
    /// # Ok::<(), Error>(())
    /// ```
    pub fn register_reader(&mut self, position: i64) -> Result<Reader, Error> {
        let poller = self.poller(position);
        poller.ahead(self)?;
        if position < self.record.slowest_position || position > self.publisher_position() {
            return Err(Error::NewPositionOutOfRange);
        }
        let place = Arc::new(AtomicI64::new(position));
        self.readers.add(&place);
        Ok(Reader { poller, place, log: self.identity })
    }

    /// Tells the record how far the slowest registered reader has come, clears the partition that is due if no reader needs it any more, and raises the publication
    /// limit to two terms past the beginning of the slowest reader's; a limit that is higher stays. Answers the partition that was cleared. With no reader
    /// registered the slowest position stays as it was set last.
    ///
    /// Call it when readers have moved on, or write with [`append`](Log::append), which does. With that limit and this clearing no offer is ever refused
    /// [`Error::NotCleared`]: writers that are ahead are refused [`Error::BackPressured`], which leaves everything as it was.
    ///
    /// A partition that is cleared takes its open claims with it: finish the claims of a term while it is there.
    ///
    /// ```
    /// use logbuffer::Log;
    ///
    /// let mut log = Log::builder().term_length(65_536).open()?;
    /// let mut reader = log.register_reader(0)?;
    /// while log.record().active_term_count < 2 {
    ///     log.offer(&[7; 1_000]).ok();
    /// }
    /// assert_eq!(log.housekeep()?, None); // the reader still needs the first term
    /// reader.messages(&log, |_| ())?;
    /// assert_eq!(log.housekeep()?, Some(0));
    /// assert_eq!(log.publication_limit()?, 4 * 65_536);
    /// # Ok::<(), logbuffer::Error>(())
    /// ```
    pub fn housekeep(&mut self) -> Result<Option<i32>, Error> {
        let slowest = self.readers.slowest().unwrap_or(0).max(self.record.slowest_position);
        self.set_slowest_position(slowest)?;
        let cleared = self.clear_due()?;
        let term = i64::from(self.record.term_length);
        self.set_publication_limit(self.record.publication_limit.max((slowest / term + 2) * term))?;
        Ok(cleared)
    }

    /// Appends a message as [`offer`](Log::offer) does, and keeps the log going: it [housekeeps](Log::housekeep) where the next partition is not cleared or the
    /// limit is reached, and makes the call again where the log was rotated. Refuses as an offer, but never [`Error::AdminAction`] by
    /// [`Rule::TermRotated`]; and where the term is full and the next partition can't be cleared yet, [`Error::NotCleared`] comes before the call
    /// is made, so that the tail stays: read on with the slowest reader, and call again.
    ///
    /// ```
    /// use logbuffer::{Error, Log};
    ///
    /// let mut log = Log::builder().term_length(65_536).open()?;
    /// let mut reader = log.register_reader(0)?;
    /// while log.append(&[7; 1_000]).is_ok() {}
    /// assert_eq!(log.append(&[7; 1_000]), Err(Error::BackPressured)); // two terms ahead of the reader
    /// reader.messages(&log, |_| ())?;
    /// assert_eq!(log.append(&[7; 1_000]), Ok(2 * 65_536 + 1_056));
    /// # Ok::<(), Error>(())
    /// ```
    pub fn append(&mut self, message: &[u8]) -> Result<i64, Error> {
        if !self.record.is_cleared(self.record.due_partition()) || self.is_pressed() {
            self.housekeep()?;
        }
        loop {
            if self.would_be_in_vain(message.len()) {
                self.rule = Rule::NotCleared.place();
                return Err(Error::NotCleared);
            }
            match self.offer(message) {
                Err(_) if self.rule() == Some(Rule::TermRotated) => self.housekeep()?,
                answer => return answer,
            };
        }
    }

    /// Says how far the slowest reader has come, for callers who keep the places of their readers themselves; with registered readers
    /// [`housekeep`](Log::housekeep) does it. It may only rise: refuses a lower one with [`Error::NewPositionOutOfRange`], and one that is no multiple of 32
    /// from 0 to the greatest position with [`Error::PositionOutOfRange`]. Also after a close.
    ///
    /// ```
    /// use logbuffer::{Error, Log};
    ///
    /// let mut log = Log::builder().open()?;
    /// log.set_slowest_position(64)?;
    /// assert_eq!(log.set_slowest_position(32), Err(Error::NewPositionOutOfRange));
    /// assert_eq!(log.set_slowest_position(72), Err(Error::PositionOutOfRange));
    /// # Ok::<(), Error>(())
    /// ```
    pub fn set_slowest_position(&mut self, position: i64) -> Result<(), Error> {
        Error::check(sys::set_slowest_position(&mut self.record, position))
    }

    /// Zeroes the partition that is due, [`Record::due_partition`], and marks it as cleared, so that the log can be rotated into it; again it is harmless. Refuses any
    /// other with [`Error::NotDue`], and that one too while the slowest position is below the end of the term in it; a number that is no
    /// partition's with [`Error::IllegalArgument`]. It looks at the record's slowest position alone, not at readers registered since: those are
    /// [`housekeep`](Log::housekeep)'s. Also after a close.
    ///
    /// ```
    /// use logbuffer::{Error, Log};
    ///
    /// let mut log = Log::builder().open()?;
    /// assert_eq!(log.clear_partition(0), Err(Error::NotDue));
    /// log.clear_partition(1)?;
    /// # Ok::<(), Error>(())
    /// ```
    pub fn clear_partition(&mut self, partition: i32) -> Result<(), Error> {
        Error::check(sys::clear_partition(&mut self.record, self.bytes.as_mut(), partition))
    }

    fn clear_due(&mut self) -> Result<Option<i32>, Error> {
        let due = self.record.due_partition();
        if self.record.is_cleared(due) {
            return Ok(None);
        }
        match self.clear_partition(due) {
            Ok(()) => Ok(Some(due)),
            Err(Error::NotDue) => Ok(None), // the slowest reader is still in it
            Err(error) => Err(error),
        }
    }

    /// Whether the limit is reached.
    fn is_pressed(&self) -> bool {
        let reply = sys::available_window(&self.record);
        reply.code == 0 && reply.position <= 0
    }

    /// Whether an offer would be refused 19, which moves the tail: nothing before that refuses it, the message does not fit, and the next partition is not cleared.
    /// In the last terms of all, where 7 and 12 come before 19, the offer is made.
    fn would_be_in_vain(&self, length: usize) -> bool {
        let record = &self.record;
        let offset = (record.tails[record.active_term_count as usize % 3] & 0xffff_ffff) as usize;
        let need = length.next_multiple_of(32) + 32 * length.div_ceil(self.max_payload_length()).max(1);
        let is_last = record.active_term_count > i32::MAX - 3;
        let is_too_long = length > self.max_payload_length() && length > self.max_message_length();
        !is_last
            && !is_too_long
            && !record.is_closed
            && !self.is_pressed()
            && !record.is_cleared(record.due_partition())
            && offset + need > record.term_length as usize
    }
}
