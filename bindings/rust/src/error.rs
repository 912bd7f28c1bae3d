//! The refusals, in the words of docs/ERRORS.md. Read log.rs next.

use std::fmt;

/// Where a frame lies that was refused: its offset in its term, and the term's partition where the call knows it.
#[derive(Clone, Copy, Debug, Default, PartialEq, Eq, Hash, PartialOrd, Ord)]
pub struct Place {
    /// Partition 0, 1 or 2; [`Log::count`](crate::Log::count) does not know it.
    pub partition: Option<i32>,
    /// The offset in the term, a multiple of 32.
    pub offset: i32,
}

impl fmt::Display for Place {
    fn fmt(&self, f: &mut fmt::Formatter<'_>) -> fmt::Result {
        match self.partition {
            Some(partition) => write!(f, "offset {} of partition {partition}", self.offset),
            None => write!(f, "offset {} of its term", self.offset),
        }
    }
}

macro_rules! overrun {
    () => {
        "the reader's place has been cleared or written anew"
    };
}

macro_rules! go_on {
    () => {
        "what it did not read is gone: go on at the publisher's position, with a reader that is registered"
    };
}

macro_rules! refusals {
    ($($number:literal $name:ident $cause:literal $remedy:literal)* frames $($at:literal $frame:ident $what:literal $then:literal)* walks $($past:literal $walk:ident $none:literal $later:literal)*) => {
        /// Why a call was refused. Unless the remedy says that something stays, a refused call has changed nothing.
        ///
        /// ```
        /// use logbuffer::Error;
        ///
        /// let error = Error::from_number(5).unwrap();
        /// assert_eq!(error, Error::PublicationClosed);
        /// assert_eq!(error.to_string(), "the publication is closed: stop writing; reading, commits and aborts still work");
        /// ```
        #[derive(Clone, Copy, Debug, PartialEq, Eq, Hash, PartialOrd, Ord)]
        #[non_exhaustive]
        pub enum Error {
            $(#[doc = concat!("No. ", $number, ": ", $cause, ". Next: ", $remedy, ".")] $name,)*
            $(#[doc = concat!("No. ", $at, ", with the frame's place: ", $what, ". Next: ", $then, ".")] $frame(Place),)*
            $(#[doc = concat!("No. ", $past, ", with the position where the walk ended: ", $none, ". Next: ", $later, ".")] $walk(i64),)*
            #[doc = concat!("This crate's own, without a number: ", overrun!(), ". Next: ", go_on!(), ".")]
            Overrun,
        }

        impl Error {
            /// Every refusal that has a number; those of a frame, at offset 0, and of a walk, at position 0, come last.
            pub const ALL: [Error; 25] = [$(Error::$name,)* $(Error::$frame(Place { partition: None, offset: 0 }),)* $(Error::$walk(0)),*];

            /// The refusal's number: 1 to 20 without 17, which is retired, 21 for a card, 22 and 23 for a frame, 24 for the card that
            /// holds, 25 for the metadata section, 26 for the shelf; 0 for [`Overrun`](Error::Overrun), which only this crate answers.
            ///
            /// ```
            /// assert_eq!(logbuffer::Error::BackPressured.number(), 8);
            /// ```
            pub fn number(self) -> i32 {
                match self { $(Error::$name => $number,)* $(Error::$frame(_) => $at,)* $(Error::$walk(_) => $past,)* Error::Overrun => 0 }
            }

            /// What the refusal is given for, in one line.
            ///
            /// ```
            /// assert_eq!(logbuffer::Error::BackPressured.cause(), "the publication limit is reached");
            /// ```
            pub fn cause(self) -> &'static str {
                match self { $(Error::$name => $cause,)* $(Error::$frame(_) => $what,)* $(Error::$walk(_) => $none,)* Error::Overrun => overrun!() }
            }

            /// What the call has left, if anything, and what to do next, in one line.
            ///
            /// ```
            /// assert_eq!(logbuffer::Error::NewPositionNotAligned.remedy(), "set the position of a frame");
            /// ```
            pub fn remedy(self) -> &'static str {
                match self { $(Error::$name => $remedy,)* $(Error::$frame(_) => $then,)* $(Error::$walk(_) => $later,)* Error::Overrun => go_on!() }
            }
        }
    };
}

#[rustfmt::skip]
refusals! {
    1 IllegalArgument
        "an argument is out of its range"
        "a mistake of the caller: look the range up in the call's description and mend the argument"
    2 IllegalRecord
        "the record or the log breaks its ranges"
        "the record is not one that the last call answered, or the slice is not three terms long: go back to the last good record"
    3 PositionOutOfRange
        "a position of an image, of a tally or of the slowest reader is negative, over the greatest, or not a multiple of 32"
        "make a new image at a position that a reader answered; tally between such positions; raise the slowest reader to one"
    4 ExceedsMaxPayloadLength
        "claim longer than the payload limit, mtu - 32"
        "offer the message instead, which cuts it into fragments"
    5 PublicationClosed
        "the publication is closed"
        "stop writing; reading, commits and aborts still work"
    6 AdminAction
        "the term was full and the log has been rotated (rule TermRotated), or count and term id differ (rule CountOutOfStep)"
        "by TermRotated tail, padding and rotation stay: make the same call again; by CountOutOfStep nothing has changed: the record is not this log's or was damaged, so do not call again"
    7 MaxPositionExceeded
        "the greatest position is reached, at the limit (rule LimitPastMaxPosition) or after a trip (rule TripPastMaxPosition)"
        "after a trip tail and padding stay: the stream is at its end, so open a new log with a new session"
    8 BackPressured
        "the publication limit is reached"
        "wait until readers have moved on, raise the limit, make the call again"
    9 NotConnected
        "the publication limit is reached and nobody is connected"
        "wait for a connection, then as for BackPressured"
    10 ExceedsMaxMessageLength
        "message longer than the payload limit and than the message limit"
        "cut the message up, or open a log with longer terms: the limit is an eighth of a term, at most 16 MiB"
    11 TailOverflow
        "tail offset and need together over 2147483647"
        "too many calls went on after the term was full: rotate the log, or go back to the last good record"
    12 LastTerm
        "the term is full and there is no next one"
        "tail and padding stay: the stream is at its end, so open a new log with a new session"
    13 ActionPossiblyDelayed
        "the tail's term id is not the one given to the appender"
        "the tail has moved: read the term id again from the record that was answered"
    14 ClaimMismatch
        "the frame's header does not show this open claim"
        "it was committed or aborted before, or is of another log: drop the claim"
    15 NewPositionOutOfRange
        "the new position is before the current one or past the term's end, or the slowest reader's is lower than it was"
        "set a position between the two; leave the slowest reader's, which only rises"
    16 NewPositionNotAligned
        "the new position is not a multiple of 32"
        "set the position of a frame"
    18 AssemblyFull
        "begin frame of a 17th session, or fragments longer together than their part of the buffer"
        "a session of too long fragments stays entered, emptied; a 17th changes nothing: lend 16 times the longest message, or a fresh assembler"
    19 NotCleared
        "the term is full and the next partition is not cleared"
        "tail and padding stay, and each such call moves the tail on: raise the slowest reader and clear the partition due next before the call is made again"
    20 NotDue
        "the partition is not the one due next, or the slowest reader may still read it"
        "clear the partition of the count and 1, by 3; from count 2 on wait until the slowest reader has reached (count - 1) × term length, and say so first"
    21 BrokenCard
        "a find card, or bytes, that break its format"
        "of a card, mend the material (1 to 9) or the note (1 to 255 bytes); of bytes, pass the message over: it is no card"
    25 IllegalMetadata
        "no metadata section: another size than 320, a byte that is not 0 where no field is, or another header length than 32"
        "lend 320 bytes to be written; of bytes that are read, the file was damaged, or its section lies elsewhere: in Aeron's files behind the three terms"
    26 NotFilled
        "frames that do not fill the term, or shelf bytes that no term of that length gives"
        "of a term, wait until it is full and every claim in it is committed or aborted; of a shelf, it was damaged or is of another term length"
    frames
    22 FrameTooShort
        "the first frame has a length of 1 to 31"
        "the log was damaged at that place: what lies before is good, mend the frame there or go on in the next term"
    23 FramePastTerm
        "the first frame runs past its term's end"
        "the log was damaged at that place: what lies before is good, mend the frame there or go on in the next term"
    walks
    24 NoCard
        "no finished card with that find number lies in the walked part"
        "look from the position where the walk ended on later, or in an earlier part"
}

impl Error {
    /// Where the frame lies that was refused, with 22 and 23.
    ///
    /// ```
    /// use logbuffer::{Error, Place};
    ///
    /// let place = Place { partition: Some(1), offset: 64 };
    /// assert_eq!(Error::FrameTooShort(place).place(), Some(place));
    /// assert!(Error::FrameTooShort(place).to_string().starts_with("the first frame has a length of 1 to 31, at offset 64 of partition 1: "));
    /// assert_eq!(Error::BackPressured.place(), None);
    /// ```
    pub fn place(self) -> Option<Place> {
        match self {
            Error::FrameTooShort(place) | Error::FramePastTerm(place) => Some(place),
            _ => None,
        }
    }

    /// The refusal of a number; none for any but those of [`ALL`](Error::ALL). A number does not tell a frame's place: it is at offset 0.
    ///
    /// ```
    /// use logbuffer::Error;
    /// assert_eq!(Error::from_number(18), Some(Error::AssemblyFull));
    /// assert_eq!(Error::from_number(0), None);
    /// ```
    pub fn from_number(number: i32) -> Option<Error> {
        Error::ALL.into_iter().find(|error| error.number() == number)
    }

    /// The answer to a code of the C face, in which 0 is none.
    pub(crate) fn check(code: i32) -> Result<(), Error> {
        match code {
            0 => Ok(()),
            _ => Err(Error::from_number(code).expect("the C face answers 0 or a refusal's number")),
        }
    }

    /// The same of a call that reads frames, whose reply has the offset of a frame that it refuses.
    pub(crate) fn check_frame(code: i32, partition: impl Into<Option<i32>>, offset: usize) -> Result<(), Error> {
        let place = || Place { partition: partition.into(), offset: offset as i32 };
        match code {
            22 => Err(Error::FrameTooShort(place())),
            23 => Err(Error::FramePastTerm(place())),
            _ => Error::check(code),
        }
    }
}

impl fmt::Display for Error {
    fn fmt(&self, f: &mut fmt::Formatter<'_>) -> fmt::Result {
        match self {
            Error::FrameTooShort(place) | Error::FramePastTerm(place) => {
                write!(f, "{}, at {place}: {}", self.cause(), self.remedy())
            }
            Error::NoCard(end) => write!(f, "{}, which ends at {end}: {}", self.cause(), self.remedy()),
            _ => write!(f, "{}: {}", self.cause(), self.remedy()),
        }
    }
}

impl std::error::Error for Error {}

impl TryFrom<i32> for Error {
    /// The number that is no refusal's.
    type Error = i32;

    fn try_from(number: i32) -> Result<Error, i32> {
        Error::from_number(number).ok_or(number)
    }
}
