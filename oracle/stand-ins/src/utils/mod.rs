//! Stand-in: the list of modules.

pub mod bit_utils;
pub mod errors;
pub mod log_buffers;
pub mod misc;
pub mod types;
