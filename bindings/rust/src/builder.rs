//! How a log is opened with more or less than the defaults. Read log.rs next.

use crate::{Error, Log};

/// What a log is opened with. Made by [`Log::builder`].
///
/// ```
/// let log = logbuffer::Log::builder().term_length(65_536).session_id(11).stream_id(22).open()?;
/// assert_eq!(log.record().mtu_length, 1_408);
/// assert_eq!(log.publication_limit()?, 131_072);
/// # Ok::<(), logbuffer::Error>(())
/// ```
#[derive(Clone, Debug)]
#[must_use]
pub struct Builder {
    term_length: i32,
    mtu_length: i32,
    initial_term_id: i32,
    session_id: i32,
    stream_id: i32,
    publication_limit: Option<i64>,
}

impl Builder {
    pub(crate) fn new() -> Builder {
        Builder {
            term_length: 1 << 20,
            mtu_length: 1_408,
            initial_term_id: 0,
            session_id: 0,
            stream_id: 0,
            publication_limit: None,
        }
    }

    /// A power of two from 65,536 to 2^30; 2^20 if not said. The log takes three times as much memory.
    pub fn term_length(mut self, term_length: i32) -> Builder {
        self.term_length = term_length;
        self
    }

    /// The longest frame: a multiple of 32 from 64 to 65,504; 1,408 if not said.
    pub fn mtu_length(mut self, mtu_length: i32) -> Builder {
        self.mtu_length = mtu_length;
        self
    }

    /// The first term's id, any number; 0 if not said. After 2147483647 comes -2147483648.
    pub fn initial_term_id(mut self, initial_term_id: i32) -> Builder {
        self.initial_term_id = initial_term_id;
        self
    }

    /// The publication's session, which every frame carries; 0 if not said.
    pub fn session_id(mut self, session_id: i32) -> Builder {
        self.session_id = session_id;
        self
    }

    /// The stream, which every frame carries; 0 if not said.
    pub fn stream_id(mut self, stream_id: i32) -> Builder {
        self.stream_id = stream_id;
        self
    }

    /// How far writers may go at first, 0 to 2^62; two terms if not said, at which writers are pressed back until readers have moved on.
    pub fn publication_limit(mut self, limit: i64) -> Builder {
        self.publication_limit = Some(limit);
        self
    }

    /// Opens the log. Refuses any number out of its range with [`Error::IllegalRecord`].
    pub fn open(self) -> Result<Log, Error> {
        let mut log = Log::open(self.term_length, self.mtu_length, self.initial_term_id, self.session_id, self.stream_id)?;
        log.set_publication_limit(self.publication_limit.unwrap_or(2 * i64::from(self.term_length)))?;
        Ok(log)
    }
}
