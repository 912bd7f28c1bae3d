//! A log's messages from the start or a position, one after another or in batches. The last of the files; tests/ has the calls in use.

use crate::log::Bytes;
use crate::sys;
use crate::{Error, Log};

/// The messages of a log from position 0 or another one, whole, up to the publisher's position or the first claim still open. Made by [`Log::replay`] and
/// [`Log::replay_from`].
///
/// These are the messages accepted after the start, in order, byte for byte, each once. A start in a term that has been cleared is refused
/// [`Error::Overrun`].
///
/// It ends with the first refusal: that one, or [`Error::FrameTooShort`], [`Error::FramePastTerm`] or [`Error::AssemblyFull`], which only a log damaged or made by hand brings.
///
/// ```
/// let mut log = logbuffer::Log::builder().mtu_length(96).open()?;
/// log.offer(b"coin")?;
/// log.offer(&[7; 100])?;
///
/// let mut replay = log.replay(); // without copies
/// while let Some(message) = replay.next_message() {
///     println!("{} bytes", message?.len());
/// }
/// let messages: Result<Vec<Vec<u8>>, _> = log.replay().collect(); // with copies, as an iterator
/// assert_eq!(messages?.len(), 2);
/// # Ok::<(), logbuffer::Error>(())
/// ```
#[derive(Debug)]
pub struct Replay<'a, B: Bytes = Vec<u8>> {
    log: &'a Log<B>,
    replay: sys::Replay,
    buffer: Vec<u8>,
    numbers: Vec<usize>,
    is_ended: bool,
}

/// Messages one after another, where they lie. Made by [`Replay::next_batch`].
#[derive(Clone, Debug)]
pub struct Batch<'a> {
    log: &'a [u8],
    buffer: &'a [u8],
    messages: std::slice::ChunksExact<'a, usize>,
}

/// What a whole replay gives.
#[derive(Clone, Copy, Debug, PartialEq, Eq)]
pub struct Count {
    /// How many messages.
    pub messages: usize,
    /// How many bytes they have together.
    pub bytes: usize,
}

impl<B: Bytes> Replay<'_, B> {
    /// The position behind the last message that was handed out, or the last batch; the start before the first.
    ///
    /// ```
    /// let mut log = logbuffer::Log::builder().open()?;
    /// let position = log.offer(b"coin")?;
    /// let mut replay = log.replay();
    /// assert_eq!(replay.next_message(), Some(Ok(&b"coin"[..])));
    /// assert_eq!(replay.position(), position);
    /// # Ok::<(), logbuffer::Error>(())
    /// ```
    pub fn position(&self) -> i64 {
        self.replay.image.position
    }

    /// Whether fragments were read of a message that has not come whole.
    pub(crate) fn is_between_fragments(&self) -> bool {
        self.replay.assembler.held.iter().any(|&held| held > 0)
    }

    /// Whether nothing more comes: all was handed out, or the place was cleared or written anew, which is told once.
    fn end(&mut self) -> Option<Result<(), Error>> {
        if self.is_ended {
            return Some(Ok(()));
        }
        let place = self.log.check_place(self.replay.image.position);
        self.is_ended = place.is_err();
        place.err().map(Err)
    }

    /// The next message, where it lies in the log or in the replay's own buffer.
    ///
    /// ```
    /// let mut log = logbuffer::Log::builder().open()?;
    /// log.offer(b"coin")?;
    /// let mut replay = log.replay();
    /// assert_eq!(replay.next_message(), Some(Ok(&b"coin"[..])));
    /// assert_eq!(replay.next_message(), None);
    /// # Ok::<(), logbuffer::Error>(())
    /// ```
    pub fn next_message(&mut self) -> Option<Result<&[u8], Error>> {
        if let Some(end) = self.end() {
            return end.err().map(Err);
        }
        let reply = sys::replay_next(&mut self.replay, &self.log.record, self.log.bytes.as_ref(), &mut self.buffer);
        let message = reply.start..reply.start + reply.length;
        let partition = self.log.partition_of(self.replay.image.position);
        match (Error::check_frame(reply.code, partition, reply.start), reply.place) {
            (Ok(()), sys::IN_LOG) => Some(Ok(&self.log.bytes.as_ref()[message])),
            (Ok(()), sys::IN_BUFFER) => Some(Ok(&self.buffer[message])),
            (answer, _) => {
                self.is_ended = true;
                answer.err().map(Err)
            }
        }
    }

    /// The next messages, up to `most` of them and at least one, in one call: for readers of long logs. A batch ends early at a message in
    /// fragments, which lies in the replay's own buffer. The limit is taken as 1 where it is 0, and as 536,870,911 where it is more.
    ///
    /// ```
    /// let mut log = logbuffer::Log::builder().open()?;
    /// log.offer(b"coin")?;
    /// log.offer(b"pin")?;
    /// let mut replay = log.replay();
    /// while let Some(batch) = replay.next_batch(256) {
    ///     for message in batch? {
    ///         println!("{} bytes", message.len());
    ///     }
    /// }
    /// # Ok::<(), logbuffer::Error>(())
    /// ```
    pub fn next_batch(&mut self, most: usize) -> Option<Result<Batch<'_>, Error>> {
        if let Some(end) = self.end() {
            return end.err().map(Err);
        }
        self.numbers.resize(4 * most.clamp(1, 536_870_911), 0);
        let reply = sys::replay_next_batch(
            &mut self.replay,
            &self.log.record,
            self.log.bytes.as_ref(),
            &mut self.buffer,
            &mut self.numbers,
        );
        let partition = self.log.partition_of(self.replay.image.position);
        let answer = Error::check_frame(reply.code, partition, reply.messages);
        if answer.is_err() || reply.messages == 0 {
            self.is_ended = true;
            return answer.err().map(Err);
        }
        let messages = self.numbers[..4 * reply.messages].chunks_exact(4);
        Some(Ok(Batch { log: self.log.bytes.as_ref(), buffer: &self.buffer, messages }))
    }
}

impl<'a> Batch<'a> {
    /// The messages, each with the position behind it.
    ///
    /// ```
    /// let mut log = logbuffer::Log::builder().open()?;
    /// log.offer(b"coin")?;
    /// log.offer(b"pin")?;
    /// let mut replay = log.replay();
    /// let batch = replay.next_batch(256).unwrap()?;
    /// assert_eq!(batch.with_positions().collect::<Vec<_>>(), [(64, &b"coin"[..]), (128, &b"pin"[..])]);
    /// # Ok::<(), logbuffer::Error>(())
    /// ```
    pub fn with_positions(self) -> impl Iterator<Item = (i64, &'a [u8])> {
        let positions = self.messages.clone().map(|message| message[3] as i64);
        positions.zip(self)
    }
}

impl<'a> Iterator for Batch<'a> {
    type Item = &'a [u8];

    fn next(&mut self) -> Option<&'a [u8]> {
        let message = self.messages.next()?;
        let (place, start, length) = (message[0], message[1], message[2]);
        let bytes = if place == sys::IN_LOG as usize { self.log } else { self.buffer };
        Some(&bytes[start..start + length])
    }

    fn size_hint(&self) -> (usize, Option<usize>) {
        self.messages.size_hint()
    }
}

impl ExactSizeIterator for Batch<'_> {}

impl std::iter::FusedIterator for Batch<'_> {}

/// Copies of the messages.
impl<B: Bytes> Iterator for Replay<'_, B> {
    type Item = Result<Vec<u8>, Error>;

    fn next(&mut self) -> Option<Result<Vec<u8>, Error>> {
        self.next_message().map(|message| message.map(<[u8]>::to_vec))
    }
}

impl<B: Bytes> std::iter::FusedIterator for Replay<'_, B> {}

impl<B: Bytes> Log<B> {
    /// The log's messages from the start. [`Replay`] says how far they go.
    ///
    /// ```
    /// let mut log = logbuffer::Log::builder().open()?;
    /// log.offer(b"coin")?;
    /// assert_eq!(log.replay().collect::<Vec<_>>(), [Ok(b"coin".to_vec())]);
    /// # Ok::<(), logbuffer::Error>(())
    /// ```
    pub fn replay(&self) -> Replay<'_, B> {
        self.replay_from(0)
    }

    /// The log's messages from a position that an offer or a claim answered, as the position behind a whole message is: from between two fragments the message
    /// that they are of is missed. Any position is taken; a replay from one that is out of range is
    /// refused [`Error::PositionOutOfRange`].
    ///
    /// ```
    /// let mut log = logbuffer::Log::builder().open()?;
    /// let after = log.offer(b"coin")?;
    /// log.offer(b"pin")?;
    /// assert_eq!(log.replay_from(after).collect::<Vec<_>>(), [Ok(b"pin".to_vec())]);
    /// # Ok::<(), logbuffer::Error>(())
    /// ```
    pub fn replay_from(&self, position: i64) -> Replay<'_, B> {
        let replay = sys::replay_new(position, self.record.session_id);
        Replay { log: self, replay, buffer: self.assembly_buffer(), numbers: Vec::new(), is_ended: false }
    }

    /// How many messages a whole [`replay`](Log::replay) gives, and how many bytes they have together. Refuses what ends a replay, [`Error::Overrun`] too.
    ///
    /// ```
    /// use logbuffer::{Count, Log};
    ///
    /// let mut log = Log::builder().open()?;
    /// log.offer(b"coin")?;
    /// log.offer(b"pin")?;
    /// assert_eq!(log.count()?, Count { messages: 2, bytes: 7 });
    /// # Ok::<(), logbuffer::Error>(())
    /// ```
    pub fn count(&self) -> Result<Count, Error> {
        self.count_from(0)
    }

    /// The same of a [`replay_from`](Log::replay_from) a position.
    ///
    /// ```
    /// let mut log = logbuffer::Log::builder().open()?;
    /// let after = log.offer(b"coin")?;
    /// log.offer(b"pin")?;
    /// assert_eq!(log.count_from(after)?.bytes, 3);
    /// # Ok::<(), logbuffer::Error>(())
    /// ```
    pub fn count_from(&self, position: i64) -> Result<Count, Error> {
        self.check_place(position)?;
        let mut buffer = self.assembly_buffer();
        let reply = sys::replay_count(&self.record, self.bytes.as_ref(), position, self.record.session_id, &mut buffer);
        Error::check_frame(reply.code, None, reply.messages).map(|()| Count { messages: reply.messages, bytes: reply.bytes })
    }

    /// The longest body of one frame: mtu - 32.
    ///
    /// ```
    /// assert_eq!(logbuffer::Log::builder().mtu_length(96).open()?.max_payload_length(), 64);
    /// # Ok::<(), logbuffer::Error>(())
    /// ```
    pub fn max_payload_length(&self) -> usize {
        self.record.mtu_length as usize - 32
    }

    /// The longest message in fragments: an eighth of a term, at most 16 MiB. A message of one frame may be longer, up to
    /// [`max_payload_length`](Log::max_payload_length).
    ///
    /// ```
    /// assert_eq!(logbuffer::Log::builder().term_length(65_536).open()?.max_message_length(), 8_192);
    /// # Ok::<(), logbuffer::Error>(())
    /// ```
    pub fn max_message_length(&self) -> usize {
        (self.record.term_length as usize / 8).min(16 << 20)
    }

    /// A buffer of 16 parts, each for the longest message in fragments. Only the parts of sessions met are ever written.
    fn assembly_buffer(&self) -> Vec<u8> {
        vec![0; 16 * self.max_message_length()]
    }
}
