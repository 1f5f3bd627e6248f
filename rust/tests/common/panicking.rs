//! Shared values that panic. The stand-in for `sharded-slab` has its tests use them too.

use std::panic::{catch_unwind, AssertUnwindSafe};
use std::sync::atomic::{AtomicUsize, Ordering};
use std::sync::Arc;
use teurlaks::Clear;

/// A value that panics as it is dropped or cleared, if it is to. How many were dropped is counted.
#[derive(Default)]
pub struct Panics {
    pub in_drop: bool,
    pub in_clear: bool,
    pub dropped: Arc<AtomicUsize>,
}

impl Panics {
    /// A value that panics as it is dropped, or never.
    pub fn in_drop(in_drop: bool, dropped: &Arc<AtomicUsize>) -> Panics {
        Panics {
            in_drop,
            in_clear: false,
            dropped: dropped.clone(),
        }
    }
}

impl Drop for Panics {
    fn drop(&mut self) {
        self.dropped.fetch_add(1, Ordering::Relaxed);
        assert!(!self.in_drop, "as it should");
    }
}

impl Clear for Panics {
    fn clear(&mut self) {
        assert!(!self.in_clear, "as it should");
    }
}

/// Whether the call panics.
pub fn panics(call: impl FnOnce()) -> bool {
    catch_unwind(AssertUnwindSafe(call)).is_err()
}
