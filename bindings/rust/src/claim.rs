//! Claims: a frame that is written in place and then committed or aborted. Read poller.rs next.

use crate::log::Bytes;
use crate::sys;
use crate::{Error, Log};
use std::ops::{Deref, DerefMut, Range};

/// A claimed frame, as the bytes of its body. Made by [`Log::try_claim`].
///
/// Readers stop before the frame until [`commit`](Claim::commit) makes it a message or [`abort`](Claim::abort) makes it padding.
/// Dropping a claim aborts it, so that no reader waits for a claim that somebody forgot. To let go of the log and finish later, lay the claim by with
/// [`into_open`](Claim::into_open): then it stays open, and every reader stops before it until it is finished.
///
/// A body holds what lay there before, zeros in a term that was never written.
///
/// ```
/// use logbuffer::Log;
///
/// let mut log = Log::builder().open()?;
/// let mut claim = log.try_claim(8)?;
/// claim[..4].copy_from_slice(b"coin");
/// claim[4..].copy_from_slice(&1_926u32.to_le_bytes());
/// claim.commit()?;
///
/// drop(log.try_claim(8)?); // aborted
/// log.offer(b"behind it")?;
/// assert_eq!(log.count()?.messages, 2);
/// # Ok::<(), logbuffer::Error>(())
/// ```
#[derive(Debug)]
#[must_use = "a claim that is dropped is aborted"]
pub struct Claim<'a, B: Bytes = Vec<u8>> {
    log: &'a mut Log<B>,
    body: Range<usize>,
    open: OpenClaim,
    is_settled: bool,
}

/// A claim laid by, which borrows nothing. [`Log::commit`], [`Log::abort`] and [`Log::resume`] take it; a copy of it that comes second
/// is refused [`Error::ClaimMismatch`].
///
/// ```
/// let mut log = logbuffer::Log::builder().open()?;
/// let first = log.try_claim(4)?.into_open();
/// let second = log.try_claim(4)?.into_open();
/// log.commit(second)?; // readers still stop before the first
/// assert_eq!(log.count()?.messages, 0);
/// log.commit(first)?;
/// assert_eq!(log.count()?.messages, 2);
/// # Ok::<(), logbuffer::Error>(())
/// ```
#[derive(Clone, Debug, PartialEq, Eq)]
#[must_use = "an open claim that is dropped stays open, and readers stop before it"]
pub struct OpenClaim {
    claim: sys::Claim,
    position: i64,
    log: u64,
}

impl OpenClaim {
    pub(crate) fn new(claim: sys::Claim, position: i64, log: u64) -> OpenClaim {
        OpenClaim { claim, position, log }
    }

    /// The position after the claimed frame.
    pub fn position(&self) -> i64 {
        self.position
    }
}

impl<'a, B: Bytes> Claim<'a, B> {
    /// Refuses the claim of another log, whose header could look the same.
    pub(crate) fn new(log: &'a mut Log<B>, open: OpenClaim) -> Result<Claim<'a, B>, Error> {
        if open.log != log.identity {
            return Err(Error::ClaimMismatch);
        }
        let span = sys::claim_body(&log.record, log.bytes.as_ref(), open.claim);
        match span.code {
            // Out of its range in this log, though its own log answered it: it is of another log.
            1 => Err(Error::ClaimMismatch),
            code => {
                Error::check(code).map(|()| Claim { log, body: span.start..span.start + span.length, open, is_settled: false })
            }
        }
    }

    /// The position after the claimed frame.
    ///
    /// ```
    /// let mut log = logbuffer::Log::builder().open()?;
    /// let claim = log.try_claim(4)?;
    /// assert_eq!(claim.position(), 64);
    /// claim.abort()?;
    /// # Ok::<(), logbuffer::Error>(())
    /// ```
    pub fn position(&self) -> i64 {
        self.open.position
    }

    /// Writes bytes over the body, from its start on. Bytes that it has no room for are left out, and what they do not reach stays as
    /// it was.
    ///
    /// ```
    /// let mut log = logbuffer::Log::builder().open()?;
    /// let mut claim = log.try_claim(4)?;
    /// claim.write(b"coins and pins")?;
    /// claim.write(b"C")?;
    /// assert_eq!(&claim[..], b"Coin");
    /// claim.commit()?;
    /// # Ok::<(), logbuffer::Error>(())
    /// ```
    pub fn write(&mut self, bytes: &[u8]) -> Result<(), Error> {
        Error::check(sys::claim_write(&self.log.record, self.log.bytes.as_mut(), self.open.claim, bytes))
    }

    /// Makes the frame a message and answers the position after it. A claim that was not committed before is never refused.
    ///
    /// ```
    /// let mut log = logbuffer::Log::builder().open()?;
    /// assert_eq!(log.try_claim(4)?.commit(), Ok(64));
    /// assert_eq!(log.replay().next(), Some(Ok(vec![0; 4])));
    /// # Ok::<(), logbuffer::Error>(())
    /// ```
    pub fn commit(mut self) -> Result<i64, Error> {
        self.is_settled = true;
        Error::check(sys::commit(&self.log.record, self.log.bytes.as_mut(), self.open.claim))?;
        Ok(self.open.position)
    }

    /// Makes the frame padding, which readers pass.
    ///
    /// ```
    /// let mut log = logbuffer::Log::builder().open()?;
    /// log.try_claim(4)?.abort()?;
    /// assert_eq!(log.replay().next(), None);
    /// # Ok::<(), logbuffer::Error>(())
    /// ```
    pub fn abort(mut self) -> Result<(), Error> {
        self.is_settled = true;
        Error::check(sys::abort(&self.log.record, self.log.bytes.as_mut(), self.open.claim))
    }

    /// Lays the claim by, with what was written so far, and lets go of the log.
    ///
    /// ```
    /// let mut log = logbuffer::Log::builder().open()?;
    /// let mut claim = log.try_claim(4)?;
    /// claim.copy_from_slice(b"coin");
    /// let open = claim.into_open();
    /// log.offer(b"behind it")?;
    /// assert_eq!(log.commit(open), Ok(64));
    /// # Ok::<(), logbuffer::Error>(())
    /// ```
    pub fn into_open(mut self) -> OpenClaim {
        self.is_settled = true;
        self.open.clone()
    }
}

/// Aborts it, unless it was committed, aborted or laid by.
impl<B: Bytes> Drop for Claim<'_, B> {
    fn drop(&mut self) {
        if !self.is_settled {
            // A claim that this log answered and nobody finished is never refused.
            let _ = sys::abort(&self.log.record, self.log.bytes.as_mut(), self.open.claim);
        }
    }
}

/// The body.
impl<B: Bytes> Deref for Claim<'_, B> {
    type Target = [u8];

    fn deref(&self) -> &[u8] {
        &self.log.bytes.as_ref()[self.body.clone()]
    }
}

impl<B: Bytes> DerefMut for Claim<'_, B> {
    fn deref_mut(&mut self) -> &mut [u8] {
        &mut self.log.bytes.as_mut()[self.body.clone()]
    }
}
