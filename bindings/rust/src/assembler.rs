//! Messages put together out of fragments, for readers that poll. Read replay.rs next.

use crate::log::Bytes;
use crate::sys;
use crate::{Error, Fragment, Log};

/// Puts the fragments of up to 16 sessions together into messages.
///
/// ```
/// use logbuffer::{Assembler, Log};
///
/// let mut log = Log::builder().mtu_length(96).open()?;
/// log.offer(b"coin")?;
/// log.offer(&[7; 100])?; // two fragments
///
/// let mut assembler = Assembler::new(&log);
/// let mut poller = log.poller(0);
/// let mut lengths = Vec::new();
/// for fragment in poller.fragments(&log) {
///     if let Some(message) = assembler.on_fragment(&log, &fragment?)? {
///         lengths.push(message.len());
///     }
/// }
/// assert_eq!(lengths, [4, 100]);
/// # Ok::<(), logbuffer::Error>(())
/// ```
#[derive(Clone, Debug)]
pub struct Assembler {
    sessions: sys::Assembler,
    buffer: Vec<u8>,
}

impl Assembler {
    /// An assembler for the longest message that a log takes in fragments.
    pub fn new<B: Bytes>(log: &Log<B>) -> Assembler {
        Assembler::with_part_length(log.max_message_length())
    }

    /// An assembler that holds messages in fragments of at most so many bytes, for each of 16 sessions. One of more than 134,217,727
    /// bytes refuses every fragment with [`Error::IllegalArgument`].
    pub fn with_part_length(part_length: usize) -> Assembler {
        Assembler { sessions: sys::assembler_new(), buffer: vec![0; part_length.saturating_mul(16)] }
    }

    /// Takes the next fragment of a log and answers the message that it ends, if it ends one. Refuses [`Error::AssemblyFull`] for a 17th
    /// session, which changes nothing, or for a message longer than its part, of which nothing is then held; and for a fragment of another
    /// log [`Error::IllegalArgument`], [`Error::FrameTooShort`] or [`Error::FramePastTerm`] where no such frame lies here.
    ///
    /// ```
    /// use logbuffer::{Assembler, Error, Log};
    ///
    /// let mut log = Log::builder().mtu_length(64).open()?;
    /// log.offer(&[7; 33])?; // fragments of 32 and 1
    /// let mut assembler = Assembler::with_part_length(32);
    /// let mut poller = log.poller(0);
    /// let mut fragments = poller.fragments(&log);
    /// assert_eq!(assembler.on_fragment(&log, &fragments.next().unwrap()?), Ok(None));
    /// assert_eq!(assembler.on_fragment(&log, &fragments.next().unwrap()?), Err(Error::AssemblyFull));
    /// # Ok::<(), Error>(())
    /// ```
    pub fn on_fragment<'a, B: Bytes>(&'a mut self, log: &'a Log<B>, fragment: &Fragment<'_>) -> Result<Option<&'a [u8]>, Error> {
        let (partition, offset) = (fragment.partition, fragment.offset);
        let reply =
            sys::assembler_on_fragment(&mut self.sessions, &log.record, log.bytes.as_ref(), partition, offset, &mut self.buffer);
        Error::check_frame(reply.code, partition, reply.start)?;
        Ok(match reply.place {
            sys::IN_LOG => Some(log.view(partition, reply.start as i32, reply.length as i32)?),
            sys::IN_BUFFER => Some(&self.buffer[reply.start..reply.start + reply.length]),
            _ => None,
        })
    }
}
