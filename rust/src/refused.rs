//! Why a call is refused.

use crate::raw;
use std::error::Error;
use std::fmt;

/// Why a call is refused. Nothing has changed then.
#[derive(Clone, Copy, Debug, PartialEq, Eq, Hash)]
#[non_exhaustive]
pub enum Refused {
    /// Memory ran out: the call may be tried again.
    OutOfMemory,
    /// The shard may have no further page ([`Limits::pages`](crate::Limits::pages)), or has opened
    /// as many as it may in its life ([`Limits::spans`](crate::Limits::spans)); or, of a call that
    /// names no shard, this holds of each ([`Limits::shards`](crate::Limits::shards)).
    PagesSpent,
    /// The shard has ended, and takes no value.
    Ended,
    /// The shard that is to begin again has not ended.
    Running,
    /// A plan is open: a mark and an adoption wait for its close, and so do the end and the
    /// retirements of a shard that has a group of the plan.
    PlanOpen,
    /// A mark would see more than 4,096 groups on a side; `mark_some` takes that many of them.
    TooMany,
    /// No group of the pool has a page.
    NothingToAdopt,
    /// A number is out of its range, or there is no shard of this number; or a seat that is to be
    /// taken back is of another arena.
    Config,
    /// No plan is open.
    NoPlan,
    /// The ring to another seat holds as many keys as it may: that seat is to tend first, or the
    /// key is freed here.
    RingFull,
    /// Each seat of the arena was handed out: one is to be taken back first
    /// ([`Arena::take_back`](crate::Arena::take_back)).
    NoSeatLeft,
    /// The run of the arena is recorded, so that nothing is forgotten.
    Recorded,
    /// The recorded arena has ended.
    Over,
    /// The call would wait for a session of an arena, and its thread is in one
    /// ([`Seat::session`](crate::arena::Seat::session)): that is to be dropped first.
    Busy,
    /// A status that no contract allows here: the archive is not the one that this crate is written
    /// for.
    Unknown(u32),
}

impl Refused {
    /// The status of which `of` makes this, if a put may have it.
    #[cold]
    pub(crate) fn status_of_put(self) -> u32 {
        match self {
            Refused::OutOfMemory => raw::OUT_OF_MEMORY,
            Refused::PagesSpent => raw::PAGES_SPENT,
            Refused::Ended => raw::ENDED,
            Refused::Config => raw::CONFIG,
            Refused::Unknown(status) => status,
            _ => raw::OK,
        }
    }

    #[cold]
    pub(crate) fn of(status: u32) -> Refused {
        match status {
            raw::OUT_OF_MEMORY => Refused::OutOfMemory,
            raw::PAGES_SPENT => Refused::PagesSpent,
            raw::ENDED => Refused::Ended,
            raw::RUNNING => Refused::Running,
            raw::PLAN_OPEN => Refused::PlanOpen,
            raw::TOO_MANY => Refused::TooMany,
            raw::NOTHING_TO_ADOPT => Refused::NothingToAdopt,
            raw::CONFIG => Refused::Config,
            raw::NO_PLAN => Refused::NoPlan,
            raw::RING_FULL => Refused::RingFull,
            raw::RECORDED => Refused::Recorded,
            raw::NO_CORE => Refused::Over,
            raw::BUSY => Refused::Busy,
            other => Refused::Unknown(other),
        }
    }
}

impl fmt::Display for Refused {
    fn fmt(&self, f: &mut fmt::Formatter<'_>) -> fmt::Result {
        f.write_str(match self {
            Refused::OutOfMemory => "out of memory: free some and try again",
            Refused::PagesSpent => {
                "each page that the limits allow is full: free keys, ask another shard, or set `Limits::pages`, `Limits::spans` or `Limits::shards` higher"
            }
            Refused::Ended => "the shard has ended: let it begin again, or ask another shard",
            Refused::Running => "the shard has not ended: end it before it begins again",
            Refused::PlanOpen => "a plan is open: close it first",
            Refused::TooMany => "a side has more than 4096 groups, too many for a plan: take `mark_some`",
            Refused::NothingToAdopt => "no group of the pool has a page: there is nothing to adopt",
            Refused::Config => "a number is out of its range, or there is no such shard",
            Refused::NoPlan => "no plan is open: mark first",
            Refused::RingFull => "the ring is full: free the key here, or try again once the other seat has tended",
            Refused::NoSeatLeft => "each seat of the arena was handed out: take one back, or set `Limits::shards` higher",
            Refused::Recorded => "the run is recorded: nothing is forgotten",
            Refused::Over => "the recorded arena has ended: open another one",
            Refused::Busy => "the call would wait for a session, and its thread is in one: drop that first",
            Refused::Unknown(status) => {
                return write!(f, "the archive answered {status}, which this crate does not know")
            }
        })
    }
}

impl Error for Refused {}

/// A value that was not kept, and why: of [`Slab::try_insert`](crate::Slab::try_insert) and
/// [`Slab::try_extend`](crate::Slab::try_extend). It gives the value back, as
/// [`SendError`](std::sync::mpsc::SendError) does, and `?` makes a [`Refused`] of it.
#[derive(Clone, Copy, PartialEq, Eq, Hash)]
pub struct InsertError<T> {
    /// The value, which was not kept.
    pub value: T,
    /// Why it was not.
    pub refused: Refused,
}

impl<T> From<InsertError<T>> for Refused {
    fn from(error: InsertError<T>) -> Refused {
        error.refused
    }
}

impl<T> fmt::Display for InsertError<T> {
    fn fmt(&self, f: &mut fmt::Formatter<'_>) -> fmt::Result {
        write!(f, "the value was not kept: {}", self.refused)
    }
}

impl<T> fmt::Debug for InsertError<T> {
    fn fmt(&self, f: &mut fmt::Formatter<'_>) -> fmt::Result {
        f.debug_struct("InsertError")
            .field("refused", &self.refused)
            .finish_non_exhaustive()
    }
}

impl<T> Error for InsertError<T> {}

#[cfg(test)]
mod tests {
    use super::Refused;

    /// What refuses a put comes back by its status as it was.
    #[test]
    fn refusals_of_puts_come_back() {
        for refused in [
            Refused::OutOfMemory,
            Refused::PagesSpent,
            Refused::Ended,
            Refused::Config,
            Refused::Unknown(99),
        ] {
            assert_eq!(Refused::of(refused.status_of_put()), refused);
        }
    }
}
