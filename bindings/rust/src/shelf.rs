//! Finished terms on the shelf: all headers of a term together, and back. Read log.rs next.

use crate::log::Bytes;
use crate::sys::{self, Record};
use crate::{Error, Log};

/// Finished terms on the shelf: a term, every frame of which is finished, with all its headers together.
///
/// A shelf of n frames has its count, n, in 4 bytes, little-endian; then byte 0 of every header in order, then byte 1, up to byte 31, so
/// that byte b of header k is at `4 + b * n + k`; then every body with its slack. It is 4 bytes longer than the term.
impl<B: Bytes> Log<B> {
    /// The term of a partition, 0 to 2, as a shelf. Refuses another partition with [`Error::IllegalArgument`], and a term whose sound,
    /// finished frames do not reach its end with [`Error::NotFilled`].
    ///
    /// ```
    /// use logbuffer::{Error, Log};
    ///
    /// let mut log = Log::open(65_536, 1_408, 7, 11, 22)?;
    /// log.set_publication_limit(2 * 65_536)?;
    /// while log.offer(b"coin") != Err(Error::AdminAction) {} // until the log goes on in the next term
    /// let shelf = log.shelve(0)?;
    /// assert_eq!(shelf[..4], 1_024u32.to_le_bytes());
    /// assert!(shelf[4..4 + 1_024].iter().all(|lowest| *lowest == 36)); // byte 0 of every frame length
    /// assert_eq!(&shelf[4 + 32 * 1_024..][..4], b"coin"); // the first body
    /// assert_eq!(log.record().unshelve(&shelf)?, log.as_bytes()[..65_536]);
    /// assert_eq!(log.shelve(1), Err(Error::NotFilled));
    /// # Ok::<(), Error>(())
    /// ```
    pub fn shelve(&self, partition: i32) -> Result<Vec<u8>, Error> {
        let mut shelf = vec![0; self.record.term_length as usize + 4];
        self.shelve_into(partition, &mut shelf)?;
        Ok(shelf)
    }

    /// The same into bytes of one's own, of the term length and 4 more. Refuses others with [`Error::IllegalArgument`] too, and a refusal
    /// leaves them as they were.
    ///
    /// ```
    /// use logbuffer::{Error, Log};
    ///
    /// let log = Log::open(65_536, 1_408, 7, 11, 22)?;
    /// let mut out = vec![255; 65_540];
    /// assert_eq!(log.shelve_into(0, &mut out[1..]), Err(Error::IllegalArgument));
    /// assert_eq!(log.shelve_into(0, &mut out), Err(Error::NotFilled));
    /// assert!(out.iter().all(|byte| *byte == 255));
    /// # Ok::<(), Error>(())
    /// ```
    pub fn shelve_into(&self, partition: i32, out: &mut [u8]) -> Result<(), Error> {
        Error::check(sys::shelve(&self.record, self.bytes.as_ref(), partition, out))
    }
}

/// Shelves taken back into terms. No log is needed, only a record of its term length.
impl Record {
    /// The term that a shelf came from: every byte of it. Refuses a record out of its ranges with [`Error::IllegalRecord`], and bytes that
    /// no term of the record's term length gives with [`Error::NotFilled`]; [`Log::shelve`] has an example.
    ///
    /// ```
    /// use logbuffer::{Error, Log};
    ///
    /// let log = Log::builder().open()?;
    /// assert_eq!(log.record().unshelve(&[0; 4]), Err(Error::NotFilled));
    /// # Ok::<(), Error>(())
    /// ```
    pub fn unshelve(&self, shelf: &[u8]) -> Result<Vec<u8>, Error> {
        let length = usize::try_from(self.term_length).map_err(|_| Error::IllegalRecord)?;
        let mut term = vec![0; length];
        self.unshelve_into(shelf, &mut term)?;
        Ok(term)
    }

    /// The same into bytes of one's own, of the record's term length. Refuses others, and a shelf over 2147483647 bytes, with
    /// [`Error::IllegalArgument`] first, and a refusal leaves them as they were.
    ///
    /// ```
    /// use logbuffer::{Error, Log};
    ///
    /// let log = Log::builder().open()?;
    /// assert_eq!(log.record().unshelve_into(&[], &mut [0; 5]), Err(Error::IllegalArgument));
    /// # Ok::<(), Error>(())
    /// ```
    pub fn unshelve_into(&self, shelf: &[u8], out: &mut [u8]) -> Result<(), Error> {
        Error::check(sys::unshelve(self, shelf, out))
    }
}
