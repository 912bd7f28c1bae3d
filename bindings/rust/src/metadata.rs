//! The metadata section of a log: the 320 bytes that Aeron keeps behind the three terms, written and read. Read log.rs next.

use crate::log::Bytes;
use crate::sys::{self, Record};
use crate::{Error, Log};

/// What a record has that its metadata section has not: whoever reads a section gives it. [`Record::beside`] shows it, to be kept beside the section.
///
/// The default, all zeros, is a log whose readers are not known: nobody writes past limit 0, and nothing is overwritten before it is cleared.
#[derive(Clone, Copy, Debug, Default, PartialEq, Eq, Hash)]
pub struct Beside {
    /// The publication's session.
    pub session_id: i32,
    /// Its stream.
    pub stream_id: i32,
    /// Nothing that begins at or past this position is accepted.
    pub publication_limit: i64,
    /// Whether the publication is closed.
    pub is_closed: bool,
    /// How far the slowest reader has come.
    pub slowest_position: i64,
    /// Which partitions are cleared and not written yet.
    pub is_cleared: [bool; 3],
}

/// The metadata section of a record. Numbers are little-endian, and every byte that no field has is 0:
///
/// | at | bytes | field |
/// |---|---|---|
/// | 0 | 24 | the tails of partitions 0, 1 and 2 |
/// | 24 | 4 | active term count |
/// | 128 | 8 | end of stream position |
/// | 136 | 4 | is connected |
/// | 140 | 4 | active transport count |
/// | 256 | 8 | correlation id |
/// | 264 | 4 | initial term id |
/// | 268 | 4 | the length of a frame's header: 32 |
/// | 272 | 4 | mtu length |
/// | 276 | 4 | term length |
/// | 280 | 4 | page size |
impl Record {
    /// The bytes of a section.
    pub const METADATA_LENGTH: usize = 320;

    /// The bytes that Aeron gives a section in a log's file, behind the three terms. What is behind the section is 0 here.
    pub const METADATA_FILE_LENGTH: usize = 4_096;

    /// The section of this record. Refuses a record out of its ranges with [`Error::IllegalRecord`].
    ///
    /// ```
    /// use logbuffer::{Log, Record};
    ///
    /// let mut log = Log::builder().term_length(65_536).session_id(11).open()?;
    /// log.offer(b"coin")?;
    /// let section = log.record().metadata()?;
    /// assert_eq!(section[276..280], 65_536i32.to_le_bytes());
    /// let record = Record::from_metadata(&section, log.record().beside())?;
    /// assert_eq!(record, *log.record());
    /// # Ok::<(), logbuffer::Error>(())
    /// ```
    pub fn metadata(&self) -> Result<[u8; Record::METADATA_LENGTH], Error> {
        let mut section = [0; Record::METADATA_LENGTH];
        self.metadata_into(&mut section)?;
        Ok(section)
    }

    /// The same into bytes of one's own. Refuses more than 2147483647 of them with [`Error::IllegalArgument`], any other count than 320 with
    /// [`Error::IllegalMetadata`], both before a look at the record, and a refusal leaves them as they were.
    ///
    /// ```
    /// use logbuffer::{Error, Log};
    ///
    /// let log = Log::builder().open()?;
    /// let mut out = [255; 321];
    /// assert_eq!(log.record().metadata_into(&mut out), Err(Error::IllegalMetadata));
    /// assert_eq!(out, [255; 321]);
    /// log.record().metadata_into(&mut out[..320])?;
    /// # Ok::<(), Error>(())
    /// ```
    pub fn metadata_into(&self, out: &mut [u8]) -> Result<(), Error> {
        Error::check(sys::write_metadata(self, out))
    }

    /// The record of a section, with what is given beside it. Refuses bytes of another size than 320, with a byte that is not 0 where no field is, or with
    /// another header length than 32, with [`Error::IllegalMetadata`]; more than 2147483647 of them before that with [`Error::IllegalArgument`]; and
    /// last a record out of its ranges, by the section's numbers or by those given, with [`Error::IllegalRecord`].
    ///
    /// ```
    /// use logbuffer::{Beside, Error, Log, Record};
    ///
    /// let mut section = Log::builder().open()?.record().metadata()?;
    /// assert_eq!(Record::from_metadata(&section, Beside::default())?.publication_limit, 0);
    /// assert_eq!(Record::from_metadata(&section[1..], Beside::default()), Err(Error::IllegalMetadata));
    /// section[28] = 1; // behind the count
    /// assert_eq!(Record::from_metadata(&section, Beside::default()), Err(Error::IllegalMetadata));
    /// # Ok::<(), Error>(())
    /// ```
    pub fn from_metadata(bytes: &[u8], beside: Beside) -> Result<Record, Error> {
        let marks = beside.is_cleared.map(u64::from);
        let mut record = Record {
            session_id: beside.session_id,
            stream_id: beside.stream_id,
            publication_limit: beside.publication_limit,
            is_closed: beside.is_closed,
            slowest_position: beside.slowest_position,
            cleared_marks: marks[0] | marks[1] << 1 | marks[2] << 2,
            ..sys::EMPTY
        };
        Error::check(sys::read_metadata(&mut record, bytes))?;
        Ok(record)
    }

    /// What this record has beside its section.
    ///
    /// ```
    /// let log = logbuffer::Log::builder().session_id(11).open()?;
    /// assert_eq!(log.record().beside().session_id, 11);
    /// # Ok::<(), logbuffer::Error>(())
    /// ```
    pub fn beside(&self) -> Beside {
        Beside {
            session_id: self.session_id,
            stream_id: self.stream_id,
            publication_limit: self.publication_limit,
            is_closed: self.is_closed,
            slowest_position: self.slowest_position,
            is_cleared: [0, 1, 2].map(|partition| self.is_cleared(partition)),
        }
    }
}

/// Three numbers of the metadata section that are the caller's. Opening leaves them 0, every call carries them, and none looks at them; any number is taken.
/// [`Log::record`] shows them.
impl<B: Bytes> Log<B> {
    /// The page size. Aeron's own clients refuse a log without one: they want a power of two from 4,096 to 2^30.
    ///
    /// ```
    /// let mut log = logbuffer::Log::builder().open()?;
    /// log.set_page_size(4_096);
    /// log.offer(b"coin")?;
    /// assert_eq!(log.record().page_size, 4_096);
    /// # Ok::<(), logbuffer::Error>(())
    /// ```
    pub fn set_page_size(&mut self, page_size: i32) {
        self.record.page_size = page_size;
    }

    /// The correlation id. Aeron's own clients want the number by which their driver registered the publication.
    ///
    /// ```
    /// let mut log = logbuffer::Log::builder().open()?;
    /// log.set_correlation_id(1_926);
    /// assert_eq!(log.record().metadata()?[256..264], 1_926i64.to_le_bytes());
    /// # Ok::<(), logbuffer::Error>(())
    /// ```
    pub fn set_correlation_id(&mut self, correlation_id: i64) {
        self.record.correlation_id = correlation_id;
    }

    /// How many transports are active.
    ///
    /// ```
    /// let mut log = logbuffer::Log::builder().open()?;
    /// log.set_active_transport_count(2);
    /// assert_eq!(log.record().active_transport_count, 2);
    /// # Ok::<(), logbuffer::Error>(())
    /// ```
    pub fn set_active_transport_count(&mut self, count: i32) {
        self.record.active_transport_count = count;
    }
}
