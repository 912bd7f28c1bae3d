//! Root of the crate in which the given files of aeron-rs compile unchanged.
//! Only the files listed in `given.sha256` are the original's; all others here are stand-ins.

#![allow(dead_code, unused_imports, unused_variables, unused_macros, mismatched_lifetime_syntaxes)]

/// Stand-in for the logging macro: it does nothing.
#[macro_export]
macro_rules! log {
    ($($anything:tt)*) => {};
}

/// Stand-in for `memoffset::offset_of`: the compiler's own.
macro_rules! offset_of {
    ($ty:ty, $field:ident) => {
        std::mem::offset_of!($ty, $field)
    };
}

pub mod buffer_builder;
pub mod channel_uri;
pub mod client_conductor;
pub mod concurrent;
pub mod fragment_assembler;
pub mod image;
pub mod publication;
pub mod utils;

/// Not of the original: memory for a log, and what the crate keeps to itself made reachable.
pub mod harness;
