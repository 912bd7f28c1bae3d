//! A log buffer as Aeron lays it out: writers append messages to a log of three terms, readers poll or replay it, and every answer is
//! that of a function proved equal to a definition. This crate owns the memory and calls those functions through the C face.
//!
//! ```
//! use logbuffer::{Error, Log};
//!
//! # fn main() -> Result<(), Error> {
//! let mut log = Log::builder().mtu_length(96).open()?;
//! assert_eq!(log.offer(b"a coin")?, 64); // the position after the message
//!
//! let mut claim = log.try_claim(5)?; // written in place
//! claim.copy_from_slice(b"a pin");
//! claim.commit()?;
//!
//! let messages: Result<Vec<_>, _> = log.replay().collect();
//! assert_eq!(messages?, [b"a coin".to_vec(), b"a pin".to_vec()]);
//! # Ok(())
//! # }
//! ```
//!
//! - [`Log`]: opening, offers, claims, limit, close, scans, replay.
//! - [`Reader`], [`Log::append`], [`Log::housekeep`]: a log that lives on past its three terms, which are used again when every registered reader has left them.
//! - [`Claim`] and [`OpenClaim`]: a frame to be written in place.
//! - [`Poller`]: a reader at a position. [`Assembler`]: messages out of fragments. [`Replay`]: both, from the start or a position, a message or a
//!   [`Batch`] at a time.
//! - [`Card`]: a find card, a message body of one format.
//! - [`Log::shelve`], [`Record::unshelve`]: a finished term with all its headers together, and back.
//! - [`Record::metadata`], [`Record::from_metadata`]: the metadata section that Aeron keeps of a log behind its terms, for a log as a file.
//! - [`Log::holding`]: which card of a find holds, field by field, as a [`Holding`].
//! - [`Log::tally`]: where the bytes between two positions went, as a [`Tally`] that prints as a table. [`Log::tally_by_partition`]: the same
//!   as the partitions lie, with the sums of each.
//! - [`Error`]: the refusals, with cause and remedy. [`Rule`]: which check decided an offer or a claim, with a line of advice. Refused by
//!   [`Rule::TermRotated`] it is to be made again.
//!
//! A [`Log`] lies in a `Vec<u8>`, or in any [`Bytes`]: a lent slice, a mapped file. It is `Send` and `Sync` where its memory is: writing takes `&mut`, so threads
//! that write share it behind a lock.
//!
//! A log keeps three terms. A term is used again once its partition is cleared, which a record allows when the slowest reader has left it: register the
//! readers and write with [`Log::append`], or keep their places and call [`Log::set_slowest_position`], [`Log::clear_partition`] and
//! [`Log::set_publication_limit`]. [`Builder`] sets a publication limit of two terms, at which writers are pressed back.

#![deny(unsafe_code)]
#![deny(missing_docs)]

mod assembler;
mod builder;
mod card;
mod claim;
pub mod descriptor;
mod error;
mod holding;
mod log;
mod metadata;
mod poller;
mod replay;
mod rule;
mod scan;
mod season;
mod shelf;
#[allow(unsafe_code)]
mod sys;
mod tally;

#[cfg(test)]
mod layout;

pub use assembler::Assembler;
pub use builder::Builder;
pub use card::Card;
pub use claim::{Claim, OpenClaim};
pub use error::{Error, Place};
pub use holding::{Field, Holding};
pub use log::{Bytes, Log};
pub use metadata::Beside;
pub use poller::{Action, Block, Fragment, Fragments, Poller};
pub use replay::{Batch, Count, Replay};
pub use rule::Rule;
pub use scan::{Availability, FrameLength, GapScan};
pub use season::Reader;
pub use sys::{Header, Record, Sums};
pub use tally::{PartitionTally, Stop, Tally};
