//! Where a log's bytes went between two positions. Read log.rs for the rest of a log's calls.

use crate::log::Bytes;
use crate::sys;
use crate::{Error, Log, Sums};
use std::fmt;

/// Why a walk, of a tally or for the card that holds, ended where it did.
#[derive(Clone, Copy, Debug, PartialEq, Eq, Hash)]
#[non_exhaustive]
pub enum Stop {
    /// It came to the second position.
    Reached,
    /// A frame of a size, 1 to 2147483648, is being written: a claim that is still open, or an offer that broke off.
    Writing(usize),
    /// Nothing is written there yet.
    Free,
    /// The frame there is of another term: an older one, or the place was used again since.
    OtherTerm,
    /// The frame there would pass the second position, which is then no frame's boundary.
    PastSecond,
    /// The frame there is unsound; a call from its position refuses it and tells its place.
    Unsound,
}

impl Stop {
    /// By the number of the C face, with the size of a frame being written.
    pub(crate) fn of(number: i32, writing: usize) -> Stop {
        match number {
            1 => Stop::Writing(writing),
            2 => Stop::Free,
            3 => Stop::OtherTerm,
            4 => Stop::PastSecond,
            5 => Stop::Unsound,
            _ => Stop::Reached,
        }
    }
}

impl fmt::Display for Stop {
    fn fmt(&self, f: &mut fmt::Formatter<'_>) -> fmt::Result {
        match self {
            Stop::Reached => write!(f, "the second position"),
            Stop::Writing(size) => write!(f, "a frame of {size} bytes being written"),
            Stop::Free => write!(f, "a free place"),
            Stop::OtherTerm => write!(f, "a frame of another term"),
            Stop::PastSecond => write!(f, "a frame that would pass the second position"),
            Stop::Unsound => write!(f, "an unsound frame"),
        }
    }
}

/// Where the bytes between two positions went: four sums that together are the distance walked, where the walk ended, and why.
///
/// It prints as a table:
///
/// ```
/// let mut log = logbuffer::Log::builder().open()?;
/// log.offer(b"coin")?;
/// log.try_claim(10)?.abort()?;
/// let _open = log.try_claim(1)?.into_open();
/// assert_eq!(
///     log.tally(0, 65_536)?.to_string(),
///     "body                  4\n\
///      headers              32\n\
///      slack                28\n\
///      padding              64\n\
///      together            128\n\
///      ended at position 128: a frame of 33 bytes being written"
/// );
/// # Ok::<(), logbuffer::Error>(())
/// ```
#[derive(Clone, Copy, Debug, PartialEq, Eq, Hash)]
pub struct Tally {
    /// Body bytes of data frames.
    pub body: usize,
    /// 32 for each data frame.
    pub headers: usize,
    /// The bytes between the ends of data frames and the next multiples of 32.
    pub slack: usize,
    /// Padding frames at their aligned length, aborted claims among them.
    pub padding: usize,
    /// The position where the walk ended.
    pub end: i64,
    /// Why it ended there.
    pub stop: Stop,
}

impl Tally {
    /// The four sums together: the distance walked.
    ///
    /// ```
    /// let mut log = logbuffer::Log::builder().open()?;
    /// let end = log.offer(b"coin")?;
    /// assert_eq!(log.tally(0, end)?.total(), 64);
    /// # Ok::<(), logbuffer::Error>(())
    /// ```
    pub fn total(&self) -> usize {
        self.body + self.headers + self.slack + self.padding
    }
}

impl fmt::Display for Tally {
    fn fmt(&self, f: &mut fmt::Formatter<'_>) -> fmt::Result {
        let rows = [
            ("body", self.body),
            ("headers", self.headers),
            ("slack", self.slack),
            ("padding", self.padding),
            ("together", self.total()),
        ];
        for (name, bytes) in rows {
            writeln!(f, "{name:<10}{bytes:>13}")?;
        }
        write!(f, "ended at position {}: {}", self.end, self.stop)
    }
}

/// Where the bytes between two positions went, as the partitions lie: the sums of each, and the tally of the stream order.
///
/// It prints as a table:
///
/// ```
/// let mut log = logbuffer::Log::builder().open()?;
/// log.offer(b"coin")?;
/// log.try_claim(10)?.abort()?;
/// assert_eq!(
///     log.tally_by_partition(0, 128)?.to_string(),
///     "partition          body      headers        slack      padding\n\
///      0                     4           32           28           64\n\
///      1                     0            0            0            0\n\
///      2                     0            0            0            0\n\
///      together              4           32           28           64\n\
///      ended at position 128: the second position"
/// );
/// # Ok::<(), logbuffer::Error>(())
/// ```
#[derive(Clone, Copy, Debug, PartialEq, Eq, Hash)]
#[non_exhaustive]
pub struct PartitionTally {
    /// The sums of partitions 0, 1 and 2, over the frames that the walk passed there.
    pub partitions: [Sums; 3],
    /// All of them added up, where the walk ended, and why: what [`Log::tally`] answers.
    pub whole: Tally,
}

impl fmt::Display for PartitionTally {
    fn fmt(&self, f: &mut fmt::Formatter<'_>) -> fmt::Result {
        let Tally { body, headers, slack, padding, end, stop } = self.whole;
        let rows = ["0", "1", "2", "together"].into_iter().zip(self.partitions.into_iter().chain([Sums {
            body,
            headers,
            slack,
            padding,
        }]));
        writeln!(f, "{:<10}{:>13}{:>13}{:>13}{:>13}", "partition", "body", "headers", "slack", "padding")?;
        for (name, Sums { body, headers, slack, padding }) in rows {
            writeln!(f, "{name:<10}{body:>13}{headers:>13}{slack:>13}{padding:>13}")?;
        }
        write!(f, "ended at position {end}: {stop}")
    }
}

impl<B: Bytes> Log<B> {
    /// The partition of a position, if the record has terms.
    pub(crate) fn partition_at(&self, position: i64) -> Option<i32> {
        position.checked_div(self.record.term_length.into()).map(|count| (count % 3) as i32)
    }

    /// Where the bytes between two positions went, both boundaries of frames, as 0 and every position that was answered are. The walk ends at
    /// the second, or before it for one of the reasons of [`Stop`]. Refuses positions that are not in order or more than three terms apart with
    /// [`Error::IllegalArgument`], one that is no multiple of 32 or past the greatest with [`Error::PositionOutOfRange`], and a damaged first
    /// frame with [`Error::FrameTooShort`] or [`Error::FramePastTerm`] and its place.
    ///
    /// ```
    /// use logbuffer::{Error, Log, Stop};
    ///
    /// let mut log = Log::builder().open()?;
    /// let first = log.offer(b"coin")?;
    /// let second = log.offer(&[7; 32])?;
    /// let tally = log.tally(first, second)?;
    /// assert_eq!((tally.body, tally.headers, tally.slack, tally.padding), (32, 32, 0, 0));
    /// assert_eq!((tally.end, tally.stop), (second, Stop::Reached));
    /// assert_eq!(log.tally(first, first)?.total(), 0);
    /// assert_eq!(log.tally(second, first), Err(Error::IllegalArgument));
    /// # Ok::<(), Error>(())
    /// ```
    pub fn tally(&self, from: i64, to: i64) -> Result<Tally, Error> {
        let reply = sys::tally(&self.record, self.bytes.as_ref(), from, to);
        self.check_walk(reply.code, from, reply.position)?;
        let Sums { body, headers, slack, padding } = reply.sums;
        Ok(Tally { body, headers, slack, padding, end: reply.position, stop: Stop::of(reply.stop, reply.writing) })
    }

    /// The tally as the partitions lie, with the sums of each: none where a partition has no part of the bytes between. Where the walk ends, why, all
    /// four sums and the refusals are those of [`Log::tally`]; and, after [`Error::PositionOutOfRange`], [`Error::IllegalArgument`] where the
    /// bytes between lie in more than three terms.
    ///
    /// ```
    /// use logbuffer::{Error, Log};
    ///
    /// let mut log = Log::builder().open()?;
    /// let first = log.offer(b"coin")?;
    /// let second = log.offer(&[7; 32])?;
    /// let tally = log.tally_by_partition(first, second)?;
    /// assert_eq!((tally.partitions[0].body, tally.partitions[1].body), (32, 0));
    /// assert_eq!(tally.whole, log.tally(first, second)?);
    /// let three_terms = 3 * i64::from(log.record().term_length);
    /// assert_eq!(log.tally_by_partition(64, 64 + three_terms), Err(Error::IllegalArgument));
    /// # Ok::<(), Error>(())
    /// ```
    pub fn tally_by_partition(&self, from: i64, to: i64) -> Result<PartitionTally, Error> {
        let reply = sys::tally_by_partition(&self.record, self.bytes.as_ref(), from, to);
        self.check_walk(reply.code, from, reply.position)?;
        let Sums { body, headers, slack, padding } = reply.sums;
        let sys::Partitions { p0, p1, p2 } = reply.partitions;
        let whole = Tally { body, headers, slack, padding, end: reply.position, stop: Stop::of(reply.stop, reply.writing) };
        Ok(PartitionTally { partitions: [p0, p1, p2], whole })
    }

    /// The refusal of a walk from a position; a frame's place is in that position's partition.
    fn check_walk(&self, code: i32, from: i64, offset: i64) -> Result<(), Error> {
        Error::check_frame(code, self.partition_at(from), offset as usize)
    }
}
