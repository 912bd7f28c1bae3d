//! Stand-in for the mapped log: three terms and the metadata over memory that the harness lends.
//! It hides the mapping, and the checks of a file's length.

use crate::concurrent::atomic_buffer::AtomicBuffer;
use crate::utils::types::Index;

pub struct LogBuffers(pub(crate) [AtomicBuffer; 4]);

impl LogBuffers {
    pub fn atomic_buffer(&self, index: Index) -> AtomicBuffer {
        self.0[index as usize]
    }
}
