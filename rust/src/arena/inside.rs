//! Which sessions a thread is in. A thread that is in one does not wait for another: else it might
//! wait for itself, or for a thread that waits for it.

use std::cell::Cell;
use std::sync::atomic::{AtomicU64, Ordering};

/// The number of no thread.
pub(super) const NO_THREAD: u64 = 0;

thread_local! {
    static NUMBER: Cell<u64> = const { Cell::new(NO_THREAD) };
    static SESSIONS: Cell<usize> = const { Cell::new(0) };
}

/// The number of this thread, which no other has or had.
pub(super) fn this_thread() -> u64 {
    static LAST: AtomicU64 = AtomicU64::new(NO_THREAD);
    NUMBER.with(|number| {
        if number.get() == NO_THREAD {
            number.set(LAST.fetch_add(1, Ordering::Relaxed) + 1);
        }
        number.get()
    })
}

/// Whether this thread is in a session, of whichever arena.
pub(super) fn is_in_session() -> bool {
    SESSIONS.with(Cell::get) > 0
}

/// Whether a seat is in a session, and of which thread.
pub(super) struct Inside(Cell<u64>);

impl Inside {
    pub fn nothing() -> Inside {
        Inside(Cell::new(NO_THREAD))
    }

    #[inline]
    pub fn is_in_session(&self) -> bool {
        self.0.get() != NO_THREAD
    }

    /// Begins a session of this thread, and gives its number.
    pub fn begin(&self) -> u64 {
        self.end();
        SESSIONS.with(|sessions| sessions.set(sessions.get() + 1));
        self.0.set(this_thread());
        self.0.get()
    }

    /// Ends the session, if there is one. One that was forgotten may end in another thread, whose
    /// sessions stay as many.
    pub fn end(&self) {
        if self.0.replace(NO_THREAD) == this_thread() {
            SESSIONS.with(|sessions| sessions.set(sessions.get() - 1));
        }
    }
}

impl Drop for Inside {
    fn drop(&mut self) {
        self.end();
    }
}
