//! A log and its memory: opening, offers, claims, limit, close, positions. Read claim.rs and poller.rs next.

use crate::claim::{Claim, OpenClaim};
use crate::season::Readers;
use crate::sys::{self, Header, Record};
use crate::{Builder, Error, FrameLength, Poller, Rule};
use std::fmt;
use std::sync::atomic::{AtomicU64, Ordering};

/// Memory that a log lies in: owned, lent or mapped. Everything is that hands out its bytes, both to be read and to be written, and always the same ones: a `Vec<u8>`, a
/// `Box<[u8]>`, a `&mut [u8]`, a mapped file.
pub trait Bytes: AsRef<[u8]> + AsMut<[u8]> {}

impl<B: AsRef<[u8]> + AsMut<[u8]>> Bytes for B {}

/// A log of three terms, with the record that says how far it was written. It lies in a `Vec<u8>` of its own, or in any [`Bytes`] that it is given with
/// [`open_in`](Log::open_in) or [`from_parts`](Log::from_parts).
///
/// ```
/// use logbuffer::{Error, Log};
///
/// let mut log = Log::open(65_536, 96, 7, 11, 22)?;
/// assert_eq!(log.offer(b"coin"), Err(Error::BackPressured)); // a fresh log has limit 0
/// log.set_publication_limit(2 * 65_536)?; // two terms ahead of the slowest reader, here at 0
/// assert_eq!(log.offer(b"coin"), Ok(64));
/// # Ok::<(), Error>(())
/// ```
pub struct Log<B: Bytes = Vec<u8>> {
    // Sound, and bytes are three terms: opening or `from_parts` judged both, and every call keeps them so.
    pub(crate) record: Record,
    pub(crate) bytes: B,
    // Of the last offer or claim: a place in the order, 0 before the first.
    pub(crate) rule: u32,
    pub(crate) readers: Readers,
    // No two logs of a process share it, so that a claim of one is no claim of another.
    pub(crate) identity: u64,
}

fn new_identity() -> u64 {
    static LOGS: AtomicU64 = AtomicU64::new(0);
    LOGS.fetch_add(1, Ordering::Relaxed)
}

impl Log {
    /// Opens an empty log with publication limit 0. Refuses a number out of its range ([`Builder`] has the ranges) with
    /// [`Error::IllegalRecord`].
    ///
    /// ```
    /// use logbuffer::{Error, Log};
    /// assert_eq!(Log::open(65_537, 96, 7, 11, 22).err(), Some(Error::IllegalRecord));
    /// ```
    pub fn open(term_length: i32, mtu_length: i32, initial_term_id: i32, session_id: i32, stream_id: i32) -> Result<Log, Error> {
        // No memory is taken for a term length that is going to be refused.
        let is_in_range = (65_536..=1 << 30).contains(&term_length) && sys::is_power_of_two(term_length as u32);
        let bytes = vec![0; if is_in_range { 3 * term_length as usize } else { 0 }];
        Log::open_in(bytes, term_length, mtu_length, initial_term_id, session_id, stream_id)
    }

    /// A log with defaults for whatever is not said.
    ///
    /// ```
    /// let log = logbuffer::Log::builder().open()?;
    /// assert_eq!(log.as_bytes().len(), 3 << 20);
    /// # Ok::<(), logbuffer::Error>(())
    /// ```
    pub fn builder() -> Builder {
        Builder::new()
    }
}

impl<B: Bytes> Log<B> {
    /// A log that knows no reader yet.
    fn new(record: Record, bytes: B, rule: u32) -> Log<B> {
        Log { record, bytes, rule, readers: Readers::default(), identity: new_identity() }
    }

    /// Opens an empty log in memory that is given: exactly three terms, which are zeroed. Refuses as [`open`](Log::open), and any other length, with
    /// [`Error::IllegalRecord`]; then nothing is written.
    ///
    /// ```
    /// use logbuffer::Log;
    ///
    /// let mut lent = [7u8; 3 * 65_536];
    /// let mut log = Log::open_in(&mut lent[..], 65_536, 1_408, 7, 11, 22)?;
    /// log.set_publication_limit(2 * 65_536)?;
    /// log.offer(b"coin")?;
    /// assert_eq!(log.count()?.messages, 1);
    /// let (record, _) = log.into_parts(); // to be kept beside the bytes
    /// assert_eq!(Log::from_parts(record, &mut lent[..])?.count()?.messages, 1);
    /// # Ok::<(), logbuffer::Error>(())
    /// ```
    pub fn open_in(
        mut bytes: B,
        term_length: i32,
        mtu_length: i32,
        initial_term_id: i32,
        session_id: i32,
        stream_id: i32,
    ) -> Result<Log<B>, Error> {
        match sys::open(bytes.as_mut(), term_length, mtu_length, initial_term_id, session_id, stream_id) {
            Ok(record) => Ok(Log::new(record, bytes, 0)),
            Err(code) => Err(Error::check(code).expect_err("a number that is not 0 is a refusal's")),
        }
    }

    /// A log that was kept, of what [`into_parts`](Log::into_parts) gave or [`record`](Log::record) and [`as_bytes`](Log::as_bytes)
    /// showed. Refuses a record out of its ranges, or bytes that are not three terms, with [`Error::IllegalRecord`]. The frames are
    /// not judged: readers do that.
    ///
    /// ```
    /// use logbuffer::{Error, Log};
    ///
    /// let mut log = Log::builder().open()?;
    /// log.offer(b"coin")?;
    /// let (record, bytes) = log.into_parts();
    /// assert_eq!(Log::from_parts(record, vec![0; 5]).err(), Some(Error::IllegalRecord));
    /// let log = Log::from_parts(record, bytes)?;
    /// assert_eq!(log.position(), Ok(64));
    /// # Ok::<(), Error>(())
    /// ```
    pub fn from_parts(record: Record, bytes: B) -> Result<Log<B>, Error> {
        // A scan with limit 0 judges record and log and looks at no frame. Its only other refusal, 1, is for a term length below 1.
        Error::check(sys::scan(&record, bytes.as_ref(), 0, 0, 0).code).map_err(|_| Error::IllegalRecord)?;
        Ok(Log::new(record, bytes, 0))
    }

    /// The record and the bytes, to be kept for [`from_parts`](Log::from_parts).
    ///
    /// ```
    /// let (record, bytes) = logbuffer::Log::builder().open()?.into_parts();
    /// assert_eq!(bytes.len(), 3 * record.term_length as usize);
    /// # Ok::<(), logbuffer::Error>(())
    /// ```
    pub fn into_parts(self) -> (Record, B) {
        (self.record, self.bytes)
    }

    /// A second log that goes on from this one's record and bytes. Two logs that do are answered the same positions: use it to try something
    /// out or to keep a state, never for a second writer.
    ///
    /// ```
    /// let log = logbuffer::Log::builder().open()?;
    /// assert_eq!(log.snapshot().record(), log.record());
    /// # Ok::<(), logbuffer::Error>(())
    /// ```
    pub fn snapshot(&self) -> Log {
        Log::new(self.record, self.bytes.as_ref().to_vec(), self.rule)
    }

    /// The record as the last call left it.
    ///
    /// ```
    /// let log = logbuffer::Log::open(65_536, 96, 7, 11, 22)?;
    /// assert_eq!(log.record().tails, [7 << 32, 5 << 32, 6 << 32]);
    /// # Ok::<(), logbuffer::Error>(())
    /// ```
    pub fn record(&self) -> &Record {
        &self.record
    }

    /// The three terms, one after another.
    ///
    /// ```
    /// let mut log = logbuffer::Log::builder().open()?;
    /// log.offer(b"coin")?;
    /// assert_eq!(&log.as_bytes()[32..36], b"coin"); // behind the header
    /// # Ok::<(), logbuffer::Error>(())
    /// ```
    pub fn as_bytes(&self) -> &[u8] {
        self.bytes.as_ref()
    }

    /// Lets offers and claims through that begin below a position from 0 to 2^62; any other is refused with [`Error::IllegalRecord`]. A
    /// limit may also be set lower, and after a close.
    ///
    /// Keep it at two terms past the beginning of the slowest reader's term, as [`housekeep`](Log::housekeep) does. Further on a writer that trips into a partition which is
    /// not cleared is refused [`Error::NotCleared`], and its tail moves; nothing that the slowest reader needs is ever overwritten.
    ///
    /// ```
    /// use logbuffer::{Error, Log};
    ///
    /// let mut log = Log::builder().publication_limit(64).open()?;
    /// assert_eq!(log.offer(&[1; 100]), Ok(160)); // begins below the limit
    /// assert_eq!(log.offer(&[2; 100]), Err(Error::BackPressured));
    /// log.set_publication_limit(65_536)?;
    /// assert_eq!(log.offer(&[2; 100]), Ok(320));
    /// # Ok::<(), Error>(())
    /// ```
    pub fn set_publication_limit(&mut self, limit: i64) -> Result<(), Error> {
        Error::check(sys::set_publication_limit(&mut self.record, limit))
    }

    /// Closes the publication: offers, claims and the three positions below refuse [`Error::PublicationClosed`] from then on. Reading,
    /// commits and aborts still work. Closing again changes nothing.
    ///
    /// ```
    /// use logbuffer::{Error, Log};
    ///
    /// let mut log = Log::builder().open()?;
    /// log.close()?;
    /// assert_eq!(log.offer(b"coin"), Err(Error::PublicationClosed));
    /// # Ok::<(), Error>(())
    /// ```
    pub fn close(&mut self) -> Result<(), Error> {
        Error::check(sys::close(&mut self.record))
    }

    /// Whether the publication is closed.
    ///
    /// ```
    /// assert!(!logbuffer::Log::builder().open()?.is_closed());
    /// # Ok::<(), logbuffer::Error>(())
    /// ```
    pub fn is_closed(&self) -> bool {
        self.record.is_closed
    }

    /// The publisher's position: where the next frame goes.
    ///
    /// ```
    /// let mut log = logbuffer::Log::builder().open()?;
    /// log.offer(b"coin")?;
    /// assert_eq!(log.position(), Ok(64));
    /// # Ok::<(), logbuffer::Error>(())
    /// ```
    pub fn position(&self) -> Result<i64, Error> {
        let reply = sys::position(&self.record);
        Error::check(reply.code).map(|()| reply.position)
    }

    /// The limit set last.
    ///
    /// ```
    /// assert_eq!(logbuffer::Log::builder().publication_limit(96).open()?.publication_limit(), Ok(96));
    /// # Ok::<(), logbuffer::Error>(())
    /// ```
    pub fn publication_limit(&self) -> Result<i64, Error> {
        let reply = sys::publication_limit(&self.record);
        Error::check(reply.code).map(|()| reply.position)
    }

    /// What is left up to the limit; below 0 where the position is past it.
    ///
    /// ```
    /// let mut log = logbuffer::Log::builder().publication_limit(96).open()?;
    /// log.offer(&[0; 100])?;
    /// assert_eq!(log.available_window(), Ok(-64));
    /// # Ok::<(), logbuffer::Error>(())
    /// ```
    pub fn available_window(&self) -> Result<i64, Error> {
        let reply = sys::available_window(&self.record);
        Error::check(reply.code).map(|()| reply.position)
    }

    /// Appends a message, in fragments where it is longer than the payload limit (mtu - 32), and answers the position after it. No two
    /// accepted calls on one log are answered the same position.
    ///
    /// Refuses [`PublicationClosed`](Error::PublicationClosed), [`AdminAction`](Error::AdminAction) where the term was full (by
    /// [`Rule::TermRotated`]: make the call again), [`BackPressured`](Error::BackPressured) or [`NotConnected`](Error::NotConnected) at the limit,
    /// [`ExceedsMaxMessageLength`](Error::ExceedsMaxMessageLength), at the very end of a stream
    /// [`MaxPositionExceeded`](Error::MaxPositionExceeded) or [`LastTerm`](Error::LastTerm), where the term was full and the next partition is not
    /// cleared [`NotCleared`](Error::NotCleared) (the tail has moved, so clear before the next call; [`append`](Log::append) does), in a record made by hand
    /// [`TailOverflow`](Error::TailOverflow), and a message over 2147483647 bytes as [`IllegalArgument`](Error::IllegalArgument).
    ///
    /// ```
    /// use logbuffer::{Error, Log, Rule};
    ///
    /// fn append(log: &mut Log, message: &[u8]) -> Result<i64, Error> {
    ///     match log.offer(message) {
    ///         Err(_) if log.rule() == Some(Rule::TermRotated) => log.offer(message), // the next term is empty
    ///         answer => answer,
    ///     }
    /// }
    ///
    /// let mut log = Log::builder().term_length(65_536).open()?;
    /// for _ in 0..100 {
    ///     append(&mut log, &[7; 1_000])?;
    /// }
    /// assert_eq!(log.count()?.messages, 100);
    /// # Ok::<(), Error>(())
    /// ```
    pub fn offer(&mut self, message: &[u8]) -> Result<i64, Error> {
        self.offer_with_reserved_value(message, 0)
    }

    /// The same, with a number of the writer's in the header of every frame.
    ///
    /// ```
    /// let mut log = logbuffer::Log::builder().open()?;
    /// log.offer_with_reserved_value(b"coin", 1_926)?;
    /// assert_eq!(log.header_at(0, 0)?.reserved_value, 1_926);
    /// # Ok::<(), logbuffer::Error>(())
    /// ```
    pub fn offer_with_reserved_value(&mut self, message: &[u8], reserved_value: i64) -> Result<i64, Error> {
        let reply = sys::offer(&mut self.record, self.bytes.as_mut(), message, reserved_value);
        self.rule = reply.rule;
        Error::check(reply.code).map(|()| reply.position)
    }

    /// Claims a frame for a body of this length, to be written in place. Refuses as [`offer`](Log::offer), and a length over the payload
    /// limit (mtu - 32) with [`Error::ExceedsMaxPayloadLength`], but on a closed publication with [`Error::PublicationClosed`]. [`Claim`]
    /// says what becomes of it.
    ///
    /// ```
    /// let mut log = logbuffer::Log::builder().open()?;
    /// let mut claim = log.try_claim(4)?;
    /// claim.copy_from_slice(b"coin");
    /// assert_eq!(claim.commit(), Ok(64));
    /// # Ok::<(), logbuffer::Error>(())
    /// ```
    pub fn try_claim(&mut self, length: usize) -> Result<Claim<'_, B>, Error> {
        // A length past i32 is past every payload limit, as is the greatest i32.
        let length = i32::try_from(length).unwrap_or(i32::MAX);
        let reply = sys::try_claim(&mut self.record, self.bytes.as_mut(), length);
        self.rule = reply.rule;
        Error::check(reply.code)?;
        let open = OpenClaim::new(reply.claim, reply.position, self.identity);
        Claim::new(self, open)
    }

    /// The rule that decided the last offer or claim on this log; none before the first. It tells the two kinds of 6 and of 7 apart, and
    /// whether the tail has moved.
    ///
    /// ```
    /// use logbuffer::{Error, Log, Rule};
    ///
    /// let mut log = Log::builder().term_length(65_536).mtu_length(96).open()?;
    /// assert_eq!(log.rule(), None);
    /// log.offer(&[1; 65])?;
    /// assert_eq!(log.rule(), Some(Rule::Fragmented));
    /// while log.offer(&[1; 64]).is_ok() {}
    /// assert_eq!(log.rule(), Some(Rule::TermRotated)); // refused 6: make the same call again
    /// log.offer(&[1; 64])?;
    /// # Ok::<(), logbuffer::Error>(())
    /// ```
    pub fn rule(&self) -> Option<Rule> {
        Rule::from_place(self.rule)
    }

    /// The claim that is open at a position, where a reader stands that comes no further ([`Poller::ahead`] says so): one whose owner is gone, after a
    /// restart say. It can then be resumed, committed or aborted. Refuses [`Error::ClaimMismatch`] where no frame is being written.
    ///
    /// ```
    /// use logbuffer::{Error, Log};
    ///
    /// let mut log = Log::builder().open()?;
    /// log.offer(b"coin")?;
    /// let _lost = log.try_claim(10)?.into_open();
    /// let (record, bytes) = log.into_parts(); // kept, and taken up again
    /// let mut log = Log::from_parts(record, bytes)?;
    /// assert_eq!(log.open_claim_at(0).err(), Some(Error::ClaimMismatch)); // the coin is finished
    /// let open = log.open_claim_at(64)?;
    /// assert_eq!(open.position(), 128);
    /// log.abort(open)?;
    /// # Ok::<(), Error>(())
    /// ```
    pub fn open_claim_at(&self, position: i64) -> Result<OpenClaim, Error> {
        if let Ok(FrameLength::Writing(size)) = self.poller(position).ahead(self) {
            let (partition, offset) = (self.partition_of(position), (position % i64::from(self.record.term_length)) as i32);
            let term_id = self.header_at(partition, offset)?.term_id;
            let length = i32::try_from(size).map_err(|_| Error::ClaimMismatch)?;
            let claim = sys::Claim { partition, offset, length, term_id };
            return Ok(OpenClaim::new(claim, position + ((i64::from(length) + 31) & !31), self.identity));
        }
        Err(Error::ClaimMismatch)
    }

    /// Takes up a claim that was laid by with [`Claim::into_open`]. Refuses [`Error::ClaimMismatch`] if it was committed or aborted
    /// since, or is of another log. A log made of parts is another one: its open claims are found with [`open_claim_at`](Log::open_claim_at).
    ///
    /// ```
    /// let mut log = logbuffer::Log::builder().open()?;
    /// let open = log.try_claim(4)?.into_open();
    /// log.offer(b"pin")?; // stands behind the claim
    /// let mut claim = log.resume(open)?;
    /// claim.copy_from_slice(b"coin");
    /// claim.commit()?;
    /// # Ok::<(), logbuffer::Error>(())
    /// ```
    pub fn resume(&mut self, open: OpenClaim) -> Result<Claim<'_, B>, Error> {
        Claim::new(self, open)
    }

    /// Makes an open claim a message, and answers the position after it. Refuses as [`resume`](Log::resume).
    ///
    /// ```
    /// use logbuffer::{Error, Log};
    ///
    /// let mut log = Log::builder().open()?;
    /// let open = log.try_claim(4)?.into_open();
    /// assert_eq!(log.commit(open.clone()), Ok(64));
    /// assert_eq!(log.commit(open), Err(Error::ClaimMismatch));
    /// # Ok::<(), Error>(())
    /// ```
    pub fn commit(&mut self, open: OpenClaim) -> Result<i64, Error> {
        self.resume(open)?.commit()
    }

    /// Makes an open claim padding, which readers pass. Refuses as [`resume`](Log::resume).
    ///
    /// ```
    /// let mut log = logbuffer::Log::builder().open()?;
    /// let open = log.try_claim(4)?.into_open();
    /// log.abort(open)?;
    /// assert_eq!(log.count()?.messages, 0);
    /// # Ok::<(), logbuffer::Error>(())
    /// ```
    pub fn abort(&mut self, open: OpenClaim) -> Result<(), Error> {
        self.resume(open)?.abort()
    }

    /// A reader at a position that an offer, claim or reader answered, or at 0. Any position is taken; its calls refuse one that is out
    /// of range.
    ///
    /// ```
    /// let mut log = logbuffer::Log::builder().open()?;
    /// let after = log.offer(b"coin")?;
    /// log.offer(b"pin")?;
    /// assert_eq!(log.poller(after).poll(&log, 10, |fragment| assert_eq!(fragment.body, b"pin"))?, 1);
    /// # Ok::<(), logbuffer::Error>(())
    /// ```
    pub fn poller(&self, position: i64) -> Poller {
        Poller::new(position, self.record.session_id)
    }

    /// The header at an offset, a multiple of 32 below the term length, of a partition, 0 to 2. Refuses others with
    /// [`Error::IllegalArgument`].
    ///
    /// ```
    /// let mut log = logbuffer::Log::builder().open()?;
    /// let open = log.try_claim(10)?.into_open();
    /// assert_eq!(log.header_at(0, 0)?.frame_length, -42); // being written
    /// log.abort(open)?;
    /// # Ok::<(), logbuffer::Error>(())
    /// ```
    pub fn header_at(&self, partition: i32, offset: i32) -> Result<Header, Error> {
        let reply = sys::header_fields(&self.record, self.bytes.as_ref(), partition, offset);
        Error::check(reply.code).map(|()| reply.fields)
    }

    /// A part of a term.
    pub(crate) fn view(&self, partition: i32, offset: i32, length: i32) -> Result<&[u8], Error> {
        let span = sys::view(&self.record, self.bytes.as_ref(), partition, offset, length);
        Error::check(span.code)?;
        Ok(&self.bytes.as_ref()[span.start..span.start + span.length])
    }

    /// The partition of a position that a reader has accepted.
    pub(crate) fn partition_of(&self, position: i64) -> i32 {
        let bits = sys::position_bits_to_shift(self.record.term_length as u32);
        sys::index_by_position(position as u64, bits) as i32
    }

    /// The publisher's position, also after a close.
    pub(crate) fn publisher_position(&self) -> i64 {
        sys::position(&Record { is_closed: false, ..self.record }).position
    }

    /// A reader's place that has been cleared or written anew is refused: three terms on the partition holds another term, two terms on it may be cleared for that.
    /// Positions out of range are left to the calls.
    pub(crate) fn check_place(&self, position: i64) -> Result<(), Error> {
        let behind = i64::from(self.record.active_term_count) - position.div_euclid(i64::from(self.record.term_length));
        let is_cleared = behind == 2 && self.record.is_cleared(self.record.due_partition());
        match position >= 0 && (behind >= 3 || is_cleared) {
            true => Err(Error::Overrun),
            false => Ok(()),
        }
    }

    /// How many bytes were written after a position.
    pub(crate) fn written_after(&self, position: i64) -> usize {
        self.publisher_position().saturating_sub(position).max(0) as usize
    }
}

/// Shows the record, not the bytes.
impl<B: Bytes> fmt::Debug for Log<B> {
    fn fmt(&self, f: &mut fmt::Formatter<'_>) -> fmt::Result {
        f.debug_struct("Log").field("record", &self.record).finish_non_exhaustive()
    }
}
