//! Arenas whose run is recorded, and audited when it is over.

use super::standing::Numbers;
use super::{Arena, Seat, RING};
use crate::core::Limits;
use crate::raw;
use crate::refused::Refused;
use std::error::Error;
use std::fmt;

/// The part of the agreement between what seats were told and what stands in the logs that fails
/// first. They are looked at in this order.
#[derive(Clone, Copy, Debug, PartialEq, Eq, Hash)]
pub enum AuditCause {
    /// A log is not legal, or a span has two.
    Log,
    /// A change has no receipt or two, or a receipt that makes a change has none.
    Change,
    /// A call was not answered as the changes before it say.
    Reply,
    /// The calls of a seat are not in the order of their changes.
    Order,
    /// A call stands before one of an earlier section. All calls of an arena here are of one.
    Barrier,
}

impl AuditCause {
    /// What fails, in words.
    fn words(self) -> &'static str {
        match self {
            AuditCause::Log => "a log is not legal, or a span has two",
            AuditCause::Change => "changes and receipts are not one to one",
            AuditCause::Reply => "a call was not answered as the changes before it say",
            AuditCause::Order => "the calls of a seat are not in the order of their changes",
            AuditCause::Barrier => "a call stands before one of an earlier section",
        }
    }
}

impl fmt::Display for AuditCause {
    fn fmt(&self, f: &mut fmt::Formatter<'_>) -> fmt::Result {
        f.write_str(match self {
            AuditCause::Log => "log",
            AuditCause::Change => "change",
            AuditCause::Reply => "reply",
            AuditCause::Order => "order",
            AuditCause::Barrier => "barrier",
        })
    }
}

/// Why an audit was not passed.
#[derive(Clone, Copy, Debug, PartialEq, Eq, Hash)]
#[non_exhaustive]
pub enum AuditError {
    /// The receipts of the seats do not agree with the logs of the spans: the first part that
    /// fails.
    Fault(AuditCause),
    /// A seat is not back with the arena ([`Arena::take_back`]). Nothing has changed. A seat that
    /// was dropped took its receipts along and never comes back, so its arena is never audited.
    Unfinished,
    /// The run of the arena is not recorded ([`Arena::open_recorded`]). Nothing has changed.
    NotRecorded,
    /// Memory ran out: the audit may be asked for again.
    OutOfMemory,
    /// A status that no contract allows here: the archive is not the one that this crate is written
    /// for.
    Unknown(u32),
}

impl AuditError {
    fn of(status: u32) -> AuditError {
        match status {
            raw::LOG_FAULT => AuditError::Fault(AuditCause::Log),
            raw::CHANGE_FAULT => AuditError::Fault(AuditCause::Change),
            raw::REPLY_FAULT => AuditError::Fault(AuditCause::Reply),
            raw::ORDER_FAULT => AuditError::Fault(AuditCause::Order),
            raw::BARRIER_FAULT => AuditError::Fault(AuditCause::Barrier),
            raw::UNFINISHED => AuditError::Unfinished,
            raw::NO_CORE => AuditError::NotRecorded,
            raw::OUT_OF_MEMORY => AuditError::OutOfMemory,
            other => AuditError::Unknown(other),
        }
    }
}

impl fmt::Display for AuditError {
    fn fmt(&self, f: &mut fmt::Formatter<'_>) -> fmt::Result {
        match self {
            AuditError::Fault(cause) => write!(f, "audit: {cause}: {}", cause.words()),
            AuditError::Unfinished => {
                f.write_str("a seat is not back: have the arena take it back first")
            }
            AuditError::NotRecorded => f.write_str("the run is not recorded: open such an arena"),
            AuditError::OutOfMemory => f.write_str("out of memory: free some and try again"),
            AuditError::Unknown(status) => {
                write!(
                    f,
                    "the archive answered {status}, which this crate does not know"
                )
            }
        }
    }
}

impl Error for AuditError {}

/// A seat that an arena did not take back, and why.
pub struct NotTaken<T> {
    /// The seat, as it was; or, where memory was refused for one of several shards, with those that
    /// were not taken back.
    pub seat: Seat<T>,
    /// [`Refused::Config`] where it is of another arena, and [`Refused::OutOfMemory`] where memory
    /// was refused.
    pub refused: Refused,
}

impl<T> fmt::Display for NotTaken<T> {
    fn fmt(&self, f: &mut fmt::Formatter<'_>) -> fmt::Result {
        match self.refused {
            Refused::Config => f.write_str("the seat was not taken back: it is of another arena"),
            refused => write!(f, "the seat was not taken back: {refused}"),
        }
    }
}

impl<T> fmt::Debug for NotTaken<T> {
    fn fmt(&self, f: &mut fmt::Formatter<'_>) -> fmt::Result {
        f.debug_struct("NotTaken")
            .field("refused", &self.refused)
            .finish_non_exhaustive()
    }
}

impl<T> Error for NotTaken<T> {}

impl<T: Copy> Arena<T> {
    /// As [`Arena::open`], an arena whose run is recorded: each span keeps the log of its changes,
    /// and each seat a receipt of each call on a key, until [`Arena::audit`] holds these against
    /// the logs. Arena and seats have the calls of any other; a [`Session`](super::Session) keeps
    /// no shard, and a walk ([`Arena::keys`]) makes no receipt.
    ///
    /// A receipt takes 48 bytes and those of the value. Where memory is refused for one, a call
    /// that can answer so answers [`Refused::OutOfMemory`], and the others (a look-up, a free) end
    /// the process, as [`std::alloc::handle_alloc_error`] does.
    ///
    /// ```
    /// use teurlaks::{Arena, Limits};
    ///
    /// let mut arena = Arena::open_recorded(Limits { shards: 2, ..Limits::default() })?;
    /// let (mut here, mut there) = (arena.seat()?, arena.seat()?);
    /// let worker = std::thread::spawn(move || {
    ///     let key = there.insert(7).expect("there is memory");
    ///     (there, key)
    /// });
    /// let mine = here.insert(8)?;
    /// let (there, key) = worker.join().expect("it does not panic");
    /// assert_eq!((here.get(key), here.free(mine)), (Some(7), true));
    /// arena.take_back(here)?;
    /// arena.take_back(there)?;
    /// arena.audit()?; // both got replies that one thread could get from a plain map
    /// # Ok::<(), Box<dyn std::error::Error>>(())
    /// ```
    ///
    /// # Errors
    ///
    /// As of [`Arena::open`].
    pub fn open_recorded(limits: Limits) -> Result<Arena<T>, Refused> {
        let () = Self::FITS;
        Arena::of(Numbers {
            limits,
            ring_keys: RING,
            lanes: 1,
            is_recorded: true,
        })
    }
}

impl<T> Arena<T> {
    /// Takes a seat back, to hand it out again ([`Arena::seat`]): mostly to another thread than the
    /// one that had it. What waits there for others is handed over, and its shard, or all that it
    /// has, stays as it is, running or ended.
    ///
    /// # Errors
    ///
    /// [`NotTaken`] with the seat, where it is of another arena or memory was refused.
    pub fn take_back(&mut self, mut seat: Seat<T>) -> Result<(), NotTaken<T>> {
        let standing = self.standing.get_mut();
        let Some(standing) = standing.filter(|standing| standing.turn.is_of(seat.turn())) else {
            let refused = Refused::Config;
            return Err(NotTaken { seat, refused });
        };
        // One that was forgotten.
        seat.pause();
        let steward = standing.share.handle();
        // SAFETY: the one handle has a steward, the other a seat, and no other call runs on either.
        let leave = |lane| unsafe { raw::teurlaks_seat_leave(steward, lane) };
        match seat.lanes().leave(&mut standing.vacant, leave) {
            raw::OK => {
                standing.vacant.push(seat.into_lanes().into_here());
                Ok(())
            }
            other => Err(NotTaken {
                seat,
                refused: Refused::of(other),
            }),
        }
    }

    /// Ends a recorded arena, whose seats are all back, and holds the receipts of all seats against
    /// the logs of all spans. `Ok` says that they agree, which the library is proved to say only
    /// then: each span has one history, in which every call was answered as by a plain map that one
    /// thread uses, and which respects the order of each seat's calls.
    ///
    /// Once it has ended, the arena has no page and no seat, and its other calls are refused with
    /// [`Refused::Over`]; the audit is made anew whenever it is asked for. A key that was left to a
    /// seat ([`Seat::free_later`]) and that it has not tended is not freed any more.
    ///
    /// # Errors
    ///
    /// - [`AuditError::Fault`]: they do not agree, with the first part that fails;
    /// - [`AuditError::NotRecorded`] and [`AuditError::Unfinished`], with nothing changed;
    /// - [`AuditError::OutOfMemory`]: it may be asked again.
    pub fn audit(&mut self) -> Result<(), AuditError> {
        if !self.numbers.is_recorded {
            return Err(AuditError::NotRecorded);
        }
        let standing = self.standing().map_err(|_| AuditError::OutOfMemory)?;
        // SAFETY: the handle has a steward or a run, and no other call runs on it.
        match standing.call(|share| unsafe { raw::teurlaks_arena_audit(share) }) {
            raw::OK => Ok(()),
            other => Err(AuditError::of(other)),
        }
    }
}
