//! The lock of a shard that threads share.
//!
//! Most often nobody waits for it. So a thread lets it go by a store, which costs less than an
//! exchange, and then looks whether another thread waits. The processor may do that look before
//! others see the store, so it may miss a thread that is about to sleep. Therefore no thread sleeps
//! for long at a time.
//!
//! `models/locks.py` tries all interleavings of threads at one lock.

use std::cell::UnsafeCell;
use std::hint;
use std::marker::PhantomData;
use std::ops::{Deref, DerefMut};
use std::panic::{RefUnwindSafe, UnwindSafe};
use std::sync::atomic::{AtomicBool, AtomicUsize, Ordering};
use std::sync::{Condvar, Mutex, MutexGuard, PoisonError};
use std::thread;
use std::time::Duration;

/// How often a lock is asked for again, after 1, 2, 4 and so on pauses, before a thread sleeps.
/// Most calls have it for some 20 ns.
const MOST_PAUSES: u32 = 6;

/// How long a thread sleeps at most before it asks again: about as long as a compaction in the
/// background has a lock.
const SLEEP: Duration = Duration::from_micros(100);

/// How often a thread lets others run that wait for the lock, which it would have again before they
/// are awake; then it goes on all the same.
const MOST_YIELDS: usize = 200;

/// A lock whose waiters look again before they sleep. What is behind it is sound between any two
/// calls, so a panic of a thread that had it does no harm.
pub(crate) struct Lock<S> {
    is_held: AtomicBool,
    // How many threads sleep until it is free, or are about to.
    waiting: AtomicUsize,
    // Where they sleep, and what wakes them.
    bed: Mutex<()>,
    freed: Condvar,
    behind: UnsafeCell<S>,
}

// SAFETY: one thread at a time has what is behind it, which goes from one to the next.
unsafe impl<S: Send> Sync for Lock<S> {}

// A panic leaves nothing half done behind it, as said above.
impl<S> UnwindSafe for Lock<S> {}
impl<S> RefUnwindSafe for Lock<S> {}

/// What is behind a lock, for the thread that has it until this is dropped.
pub(crate) struct Held<'l, S> {
    lock: &'l Lock<S>,
    // It stays with its thread.
    behind: PhantomData<*mut S>,
}

impl<S> Lock<S> {
    pub fn new(behind: S) -> Lock<S> {
        Lock {
            is_held: AtomicBool::new(false),
            waiting: AtomicUsize::new(0),
            bed: Mutex::new(()),
            freed: Condvar::new(),
            behind: UnsafeCell::new(behind),
        }
    }

    /// What is behind it, for which it waits.
    #[inline]
    pub fn lock(&self) -> Held<'_, S> {
        if !self.take() {
            self.wait();
        }
        Held {
            lock: self,
            behind: PhantomData,
        }
    }

    /// Takes it if nobody has it, and says whether it did.
    #[inline]
    fn take(&self) -> bool {
        !self.is_held.swap(true, Ordering::Acquire)
    }

    /// Takes it, after longer and longer pauses and then after sleep.
    #[cold]
    fn wait(&self) {
        for pauses in (0..MOST_PAUSES).map(|times| 1 << times) {
            (0..pauses).for_each(|_| hint::spin_loop());
            if self.take() {
                return;
            }
        }
        self.waiting.fetch_add(1, Ordering::Relaxed);
        let mut bed = self.bed();
        while !self.take() {
            let woken = self.freed.wait_timeout(bed, SLEEP);
            bed = woken.unwrap_or_else(PoisonError::into_inner).0;
        }
        drop(bed);
        self.waiting.fetch_sub(1, Ordering::Relaxed);
    }

    /// Lets it go, for the thread that has it.
    #[inline]
    fn let_go(&self) {
        self.is_held.store(false, Ordering::Release);
        if self.waiting.load(Ordering::Relaxed) > 0 {
            self.wake();
        }
    }

    /// Wakes a thread that sleeps. One that has the bed asked for the lock too early, and sleeps
    /// once it lets the bed go.
    #[cold]
    fn wake(&self) {
        drop(self.bed());
        self.freed.notify_one();
    }

    fn bed(&self) -> MutexGuard<'_, ()> {
        self.bed.lock().unwrap_or_else(PoisonError::into_inner)
    }

    /// Lets those run that wait for it, for a thread that is about to lock it again.
    pub fn let_others(&self) {
        for _ in 0..MOST_YIELDS {
            if self.waiting.load(Ordering::Relaxed) == 0 {
                return;
            }
            thread::yield_now();
        }
    }

    /// What is behind it, for whoever has it alone.
    pub fn get_mut(&mut self) -> &mut S {
        self.behind.get_mut()
    }
}

impl<S> Deref for Held<'_, S> {
    type Target = S;

    #[inline]
    fn deref(&self) -> &S {
        // SAFETY: this thread alone has the lock.
        unsafe { &*self.lock.behind.get() }
    }
}

impl<S> DerefMut for Held<'_, S> {
    #[inline]
    fn deref_mut(&mut self) -> &mut S {
        // SAFETY: as above.
        unsafe { &mut *self.lock.behind.get() }
    }
}

impl<S> Drop for Held<'_, S> {
    #[inline]
    fn drop(&mut self) {
        self.lock.let_go();
    }
}

#[cfg(test)]
mod tests {
    use super::Lock;
    use std::panic::catch_unwind;
    use std::sync::atomic::Ordering;
    use std::thread;
    use std::time::Duration;

    /// Now and then a thread has the lock for so long that the others sleep.
    #[test]
    fn one_thread_has_it_at_a_time() {
        let lock = &Lock::new(0);
        let work = || {
            for call in 0..5000 {
                let mut count = lock.lock();
                let before = *count;
                if call % 1000 == 0 {
                    thread::sleep(Duration::from_millis(3));
                }
                *count = before + 1;
                drop(count);
                lock.let_others();
            }
        };
        thread::scope(|scope| (0..4).for_each(|_| drop(scope.spawn(work))));
        assert_eq!(
            (*lock.lock(), lock.waiting.load(Ordering::Relaxed)),
            (20_000, 0)
        );
    }

    #[test]
    fn a_panic_lets_it_go() {
        let lock = Lock::new(7);
        let caught = catch_unwind(|| {
            *lock.lock() += 1;
            let _held = lock.lock();
            panic!("with the lock");
        });
        assert!(caught.is_err());
        assert_eq!(*lock.lock(), 8);
    }
}
