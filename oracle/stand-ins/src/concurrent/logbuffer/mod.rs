//! Stand-in: the list of modules.

pub mod buffer_claim;
pub mod data_frame_header;
pub mod frame_descriptor;
pub mod header;
pub mod log_buffer_descriptor;
pub mod term_appender;
pub mod term_reader;
pub mod term_scan;
