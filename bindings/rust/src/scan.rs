//! Scans of one term, for those who send or repair a log. Read log.rs for the rest of a log's calls.

use crate::log::Bytes;
use crate::sys;
use crate::{Error, Log};

/// What a frame's length says of its place. Both lengths count the header's 32 bytes; whether they are sound is not judged.
#[derive(Clone, Copy, Debug, PartialEq, Eq)]
pub enum FrameLength {
    /// Nothing is written there.
    Free,
    /// A frame of a size, 1 to 2147483648, is being written: a claim that is still open, or an offer that broke off.
    Writing(usize),
    /// A finished frame of a length.
    Finished(usize),
}

/// What a scan for a gap found.
#[derive(Clone, Copy, Debug, PartialEq, Eq)]
pub enum GapScan {
    /// No finished frame from an offset on, and free places over a length.
    Gap {
        /// The term id that was given.
        term_id: i32,
        /// Where the gap begins in the term.
        offset: usize,
        /// Its bytes.
        length: usize,
        /// Whether it begins on a frame being written, not on an empty place.
        is_being_written: bool,
    },
    /// Finished frames up to an offset, at or past the high mark or before an unsound frame.
    NoGap {
        /// The offset that the scan came to.
        offset: usize,
    },
}

/// What can be sent.
#[derive(Clone, Copy, Debug, PartialEq, Eq)]
pub struct Availability {
    /// Bytes of finished frames; of a padding frame, its header.
    pub available: usize,
    /// Bytes of the last padding frame behind its header, which need not be sent.
    pub padding: usize,
}

impl<B: Bytes> Log<B> {
    /// Whether the place at an offset, a multiple of 32 below the term length, of a partition, 0 to 2, is free, being written or finished.
    /// Refuses others with [`Error::IllegalArgument`]. [`Poller::ahead`](crate::Poller::ahead) asks it of the place where a reader stands.
    ///
    /// ```
    /// use logbuffer::{FrameLength, Log};
    ///
    /// let mut log = Log::builder().open()?;
    /// log.offer(b"coin")?;
    /// let open = log.try_claim(10)?.into_open();
    /// assert_eq!(log.frame_length(0, 0), Ok(FrameLength::Finished(36)));
    /// assert_eq!(log.frame_length(0, 64), Ok(FrameLength::Writing(42)));
    /// assert_eq!(log.frame_length(0, 128), Ok(FrameLength::Free));
    /// log.abort(open)?;
    /// assert_eq!(log.frame_length(0, 64), Ok(FrameLength::Finished(42)));
    /// # Ok::<(), logbuffer::Error>(())
    /// ```
    pub fn frame_length(&self, partition: i32, offset: i32) -> Result<FrameLength, Error> {
        let reply = sys::frame_length(&self.record, self.bytes.as_ref(), partition, offset);
        Error::check(reply.code)?;
        Ok(match reply.state {
            sys::WRITING => FrameLength::Writing(reply.length),
            sys::FINISHED => FrameLength::Finished(reply.length),
            _ => FrameLength::Free,
        })
    }

    /// The end of the finished frames of a partition, from an offset up to a limit. Refuses [`Error::IllegalArgument`] for a partition
    /// not 0 to 2, an offset not a multiple of 32 below the term length, or a limit past the term, and [`Error::FrameTooShort`] or
    /// [`Error::FramePastTerm`], with the place, where the first frame is damaged.
    ///
    /// ```
    /// let mut log = logbuffer::Log::builder().open()?;
    /// log.offer(b"coin")?;
    /// assert_eq!(log.scan(0, 0, 1_024), Ok(64));
    /// # Ok::<(), logbuffer::Error>(())
    /// ```
    pub fn scan(&self, partition: i32, offset: i32, limit: i32) -> Result<usize, Error> {
        let reply = sys::scan(&self.record, self.bytes.as_ref(), partition, offset, limit);
        Error::check_frame(reply.code, partition, reply.offset).map(|()| reply.offset)
    }

    /// The first gap in a partition from an offset up to a high mark, a multiple of 32 up to the term length; `term_id` is handed back
    /// with it. Refuses as [`scan`](Log::scan).
    ///
    /// ```
    /// use logbuffer::{GapScan, Log};
    ///
    /// let mut log = Log::builder().open()?;
    /// log.offer(b"coin")?;
    /// assert_eq!(log.scan_for_gap(0, 7, 0, 64), Ok(GapScan::NoGap { offset: 64 }));
    /// let empty = GapScan::Gap { term_id: 7, offset: 64, length: 64, is_being_written: false };
    /// assert_eq!(log.scan_for_gap(0, 7, 0, 128), Ok(empty));
    /// let _open = log.try_claim(4)?.into_open();
    /// let claimed = GapScan::Gap { term_id: 7, offset: 64, length: 64, is_being_written: true };
    /// assert_eq!(log.scan_for_gap(0, 7, 0, 128), Ok(claimed));
    /// # Ok::<(), logbuffer::Error>(())
    /// ```
    pub fn scan_for_gap(&self, partition: i32, term_id: i32, offset: i32, high_mark: i32) -> Result<GapScan, Error> {
        let reply = sys::scan_for_gap(&self.record, self.bytes.as_ref(), partition, term_id, offset, high_mark);
        Error::check_frame(reply.code, partition, reply.offset)?;
        Ok(match reply.is_gap {
            true => GapScan::Gap {
                term_id: reply.term_id,
                offset: reply.offset,
                length: reply.length,
                is_being_written: reply.is_being_written,
            },
            false => GapScan::NoGap { offset: reply.offset },
        })
    }

    /// How many bytes of whole frames can be sent from an offset on, at most `maximum`. Refuses as [`scan`](Log::scan).
    ///
    /// ```
    /// use logbuffer::{Availability, Log};
    ///
    /// let mut log = Log::builder().open()?;
    /// log.offer(b"coin")?;
    /// assert_eq!(log.scan_for_availability(0, 0, 1_024), Ok(Availability { available: 64, padding: 0 }));
    /// # Ok::<(), logbuffer::Error>(())
    /// ```
    pub fn scan_for_availability(&self, partition: i32, offset: i32, maximum: i32) -> Result<Availability, Error> {
        let reply = sys::scan_for_availability(&self.record, self.bytes.as_ref(), partition, offset, maximum);
        Error::check_frame(reply.code, partition, reply.available)?;
        Ok(Availability { available: reply.available, padding: reply.padding as usize })
    }
}
