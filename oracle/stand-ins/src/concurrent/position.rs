//! Stand-in for the counters: a position is one shared i64. It hides any fault of the real counters.
//! It loads and stores as the given `AtomicBuffer` does: `get` is a plain read, `get_volatile` one with an acquire fence behind it, `put_ordered` a
//! plain write with a release fence before it. None of them empties the store buffer, so none may be `SeqCst`, which would make the Rust look slow.
//! Only the bounds check that the buffer makes at each of them is left out, in favour of the Rust.

use std::sync::atomic::{AtomicI64, Ordering};
use std::sync::Arc;

pub trait ReadablePosition {
    fn id(&self) -> i32;
    fn get(&self) -> i64;
    fn get_volatile(&self) -> i64;
}

/// Clones share the number, as copies of the original share one counter.
#[derive(Clone, Default)]
pub struct UnsafeBufferPosition(Arc<AtomicI64>);

impl UnsafeBufferPosition {
    pub fn at(position: i64) -> Self {
        Self(Arc::new(AtomicI64::new(position)))
    }

    pub fn set_ordered(&self, position: i64) {
        self.0.store(position, Ordering::Release);
    }
}

impl ReadablePosition for UnsafeBufferPosition {
    fn id(&self) -> i32 {
        0
    }

    fn get(&self) -> i64 {
        self.0.load(Ordering::Relaxed)
    }

    fn get_volatile(&self) -> i64 {
        self.0.load(Ordering::Acquire)
    }
}
