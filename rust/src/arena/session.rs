//! A seat that keeps its shard over many calls.

use super::seat::Seat;
use crate::names::{Group, Key};
use crate::refused::Refused;
use std::fmt;
use std::marker::PhantomData;

/// A [`Seat`] whose thread has the seat's shard, until the session is dropped: [`Seat::session`]
/// says what it is for, who waits for it, and which calls its thread can't make meanwhile. A shard
/// that the seat keeps of itself is taken back by whoever asks for it; that of a session is not.
///
/// Its calls are those of the seat. A call on what is in the shard takes no lock; one on what is
/// elsewhere tries the lock of that place, and where another thread has it the session lets go of
/// its own shard until the call is made, as it does for [`Session::tend`], [`Session::end`],
/// [`Session::begin`], [`Session::retire`], [`Session::trim`], [`Session::gather`] and
/// [`Session::adopt`].
///
/// Of the calls on what is in the shard it is proved that each does there exactly what the shard's
/// own call does: an insert keeps the value under a key that was never given out, and a look-up
/// finds what the shard shows of the key.
///
/// A session is of the thread that began it, which other calls of that thread rest on, so it is not
/// `Send`:
///
/// ```compile_fail
/// fn send<S: Send>() {}
/// send::<teurlaks::arena::Session<'static, u64>>();
/// ```
pub struct Session<'s, T> {
    seat: &'s mut Seat<T>,
    of_this_thread: PhantomData<*const ()>,
}

impl<'s, T> Session<'s, T> {
    /// A session of the seat, which keeps its shard.
    pub(super) fn new(seat: &'s mut Seat<T>) -> Session<'s, T> {
        Session {
            seat,
            of_this_thread: PhantomData,
        }
    }
}

impl<T: Copy> Session<'_, T> {
    /// As [`Seat::insert`].
    ///
    /// # Errors
    ///
    /// As of [`Seat::insert`].
    #[doc(alias = "put")]
    #[inline]
    pub fn insert(&mut self, value: T) -> Result<Key, Refused> {
        self.seat.insert(value)
    }

    /// As [`Seat::get`].
    #[inline]
    #[must_use]
    pub fn get(&self, key: Key) -> Option<T> {
        self.seat.get(key)
    }

    /// As [`Seat::set`].
    ///
    /// # Errors
    ///
    /// As of [`Seat::set`].
    #[inline]
    pub fn set(&mut self, key: Key, value: T) -> Result<bool, Refused> {
        self.seat.set(key, value)
    }

    /// As [`Seat::remove`].
    #[inline]
    pub fn remove(&mut self, key: Key) -> Option<T> {
        self.seat.remove(key)
    }
}

impl<T> Session<'_, T> {
    /// As [`Seat::contains`].
    #[inline]
    #[must_use]
    pub fn contains(&self, key: Key) -> bool {
        self.seat.contains(key)
    }

    /// As [`Seat::free`].
    #[inline]
    pub fn free(&mut self, key: Key) -> bool {
        self.seat.free(key)
    }

    /// As [`Seat::free_later`].
    ///
    /// # Errors
    ///
    /// As of [`Seat::free_later`].
    #[inline]
    pub fn free_later(&mut self, key: Key) -> Result<(), Refused> {
        self.seat.free_later(key)
    }

    /// As [`Seat::hand_over`].
    pub fn hand_over(&mut self) {
        self.seat.hand_over();
    }

    /// As [`Seat::tend`].
    ///
    /// # Errors
    ///
    /// As of [`Seat::tend`].
    pub fn tend(&mut self) -> Result<usize, Refused> {
        self.seat.tend()
    }

    /// As [`Seat::end`].
    ///
    /// # Errors
    ///
    /// As of [`Seat::end`].
    pub fn end(&mut self) -> Result<(), Refused> {
        self.seat.end()
    }

    /// As [`Seat::begin`].
    ///
    /// # Errors
    ///
    /// As of [`Seat::begin`].
    pub fn begin(&mut self) -> Result<(), Refused> {
        self.seat.begin()
    }

    /// As [`Seat::retire`].
    ///
    /// # Errors
    ///
    /// As of [`Seat::retire`].
    pub fn retire(&mut self, most: usize) -> Result<usize, Refused> {
        self.seat.retire(most)
    }

    /// As [`Seat::trim`].
    pub fn trim(&mut self) -> usize {
        self.seat.trim()
    }

    /// As [`Seat::gather`].
    ///
    /// # Errors
    ///
    /// As of [`Seat::gather`].
    pub fn gather(&mut self) -> Result<(), Refused> {
        self.seat.gather()
    }

    /// As [`Seat::adopt`].
    ///
    /// # Errors
    ///
    /// As of [`Seat::adopt`].
    pub fn adopt(&mut self) -> Result<Group, Refused> {
        self.seat.adopt()
    }
}

impl<T> Drop for Session<'_, T> {
    fn drop(&mut self) {
        self.seat.pause();
    }
}

impl<T> fmt::Debug for Session<'_, T> {
    fn fmt(&self, f: &mut fmt::Formatter<'_>) -> fmt::Result {
        f.debug_struct("Session").finish_non_exhaustive()
    }
}
