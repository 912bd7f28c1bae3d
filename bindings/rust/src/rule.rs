//! The rule that decided an offer or a claim, in the words of docs/ERRORS.md. Read log.rs next.

use std::fmt;

use crate::Error;

macro_rules! rules {
    ($($place:literal $name:ident $number:literal $told:literal $advice:literal)*) => {
        /// Which check decided an offer or a claim: the first in the order of the checks that applies. Two rules each give 6
        /// ([`Error::AdminAction`]) and 7 ([`Error::MaxPositionExceeded`]). [`Log::rule`](crate::Log::rule) tells it of the last call.
        ///
        /// ```
        /// use logbuffer::Rule;
        ///
        /// assert_eq!(Rule::TermRotated.number(), Rule::CountOutOfStep.number());
        /// assert_eq!(Rule::TermRotated.advice(), "make the same call again, with the record that was answered");
        /// assert!(Rule::CountOutOfStep.advice().starts_with("do not call again"));
        /// ```
        #[derive(Clone, Copy, Debug, PartialEq, Eq, Hash, PartialOrd, Ord)]
        #[non_exhaustive]
        pub enum Rule {
            $(#[doc = concat!("Place ", $place, ", number ", $number, ": ", $told, ". Advice: ", $advice, ".")] $name = $place,)*
        }

        impl Rule {
            /// Every rule, in the order of the checks.
            pub const ALL: [Rule; 17] = [$(Rule::$name),*];

            /// The number of the answer: that of the refusal, 0 where it accepts.
            ///
            /// ```
            /// assert_eq!(logbuffer::Rule::LimitPastMaxPosition.number(), 7);
            /// ```
            pub fn number(self) -> i32 {
                match self { $(Rule::$name => $number,)* }
            }

            /// Its name, in plain words.
            ///
            /// ```
            /// assert_eq!(logbuffer::Rule::CountOutOfStep.name(), "count out of step");
            /// ```
            pub fn name(self) -> &'static str {
                match self { $(Rule::$name => $told,)* }
            }

            /// What to do next, in one line.
            ///
            /// ```
            /// assert_eq!(logbuffer::Rule::PublicationClosed.advice(), "stop writing");
            /// ```
            pub fn advice(self) -> &'static str {
                match self { $(Rule::$name => $advice,)* }
            }
        }
    };
}

#[rustfmt::skip]
rules! {
    1 IllegalArgument 1 "illegal argument" "mend the argument: a message or claim of 0 to 2147483647 bytes"
    2 IllegalRecord 2 "illegal record" "go back to the last good record, and lend the whole log"
    3 PublicationClosed 5 "publication closed" "stop writing"
    4 ExceedsMaxPayloadLength 4 "claim over the payload limit" "offer the message instead of claiming it"
    5 CountOutOfStep 6 "count out of step" "do not call again: the record is not this log's, or was damaged"
    6 LimitPastMaxPosition 7 "at the limit, past the greatest position" "the stream is at its end: open a new log"
    7 BackPressured 8 "back pressured" "wait until readers have moved on, raise the limit, call again"
    8 NotConnected 9 "not connected" "wait for a connection, then as for BackPressured"
    9 ExceedsMaxMessageLength 10 "message over its limits" "cut the message up"
    10 TailOverflow 11 "tail overflow" "too many calls after the term was full: rotate, or go back to the last good record"
    11 TripPastMaxPosition 7 "tripped, past the greatest position" "the stream is at its end: open a new log"
    12 LastTerm 12 "last term" "the stream is at its end: open a new log"
    13 NotCleared 19 "not cleared" "clear the partition due next before the next call: each call that is refused so moves the tail"
    14 TermRotated 6 "term rotated" "make the same call again, with the record that was answered"
    15 Unfragmented 0 "unfragmented" "accepted, as one frame"
    16 Fragmented 0 "fragmented" "accepted, as several frames"
    17 Claimed 0 "claimed" "accepted: write the body, then commit or abort"
}

impl Rule {
    /// Its place in the order of the checks, 1 to 17.
    ///
    /// ```
    /// assert_eq!(logbuffer::Rule::CountOutOfStep.place(), 5);
    /// ```
    pub fn place(self) -> u32 {
        self as u32
    }

    /// The rule at a place in the order.
    ///
    /// ```
    /// use logbuffer::Rule;
    /// assert_eq!(Rule::from_place(14), Some(Rule::TermRotated));
    /// assert_eq!(Rule::from_place(0), None);
    /// ```
    pub fn from_place(place: u32) -> Option<Rule> {
        Rule::ALL.into_iter().find(|rule| rule.place() == place)
    }

    /// Whether the tail has moved: the append tripped, or was accepted. By any other rule nothing has changed.
    ///
    /// ```
    /// use logbuffer::Rule;
    /// assert!(Rule::TermRotated.moves() && Rule::Claimed.moves() && !Rule::CountOutOfStep.moves());
    /// ```
    pub fn moves(self) -> bool {
        self.place() > Rule::TailOverflow.place()
    }

    /// The refusal that it gives, if it gives one.
    ///
    /// ```
    /// use logbuffer::{Error, Rule};
    /// assert_eq!(Rule::TermRotated.error(), Some(Error::AdminAction));
    /// assert_eq!(Rule::Fragmented.error(), None);
    /// ```
    pub fn error(self) -> Option<Error> {
        Error::from_number(self.number())
    }
}

impl fmt::Display for Rule {
    fn fmt(&self, f: &mut fmt::Formatter<'_>) -> fmt::Result {
        write!(f, "{}: {}", self.name(), self.advice())
    }
}
