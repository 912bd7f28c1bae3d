//! Stand-in: the cache line that the metadata's layout rests on, and aligned zeroed memory.

use std::alloc::{alloc_zeroed, dealloc, handle_alloc_error, Layout};

use crate::utils::types::Index;

pub const CACHE_LINE_LENGTH: Index = 64;

fn layout(length: Index) -> Layout {
    // At least one cache line, so that a length of 0 is no special case.
    Layout::from_size_align((length as usize).max(64), CACHE_LINE_LENGTH as usize).expect("a sound layout")
}

pub fn alloc_buffer_aligned(length: Index) -> *mut u8 {
    let layout = layout(length);
    let memory = unsafe { alloc_zeroed(layout) };
    if memory.is_null() {
        handle_alloc_error(layout)
    }
    memory
}

/// # Safety
/// `memory` came from `alloc_buffer_aligned` with this length.
pub unsafe fn dealloc_buffer_aligned(memory: *mut u8, length: Index) {
    dealloc(memory, layout(length))
}
