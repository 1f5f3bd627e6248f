//! Walks over the live keys of an arena.

use super::lane::Owner;
use super::share::{no_wait_in_a_session, Place, Turn};
use super::standing::Standing;
use crate::names::Key;
use crate::raw;
use std::fmt;

/// The live keys of an arena, while its threads go on: of [`Arena::keys`](super::Arena::keys) and
/// [`Seat::keys`](super::Seat::keys).
///
/// Its `next` panics when it would wait for a session of its own thread
/// ([`Seat::session`](super::Seat::session)).
#[must_use = "iterators are lazy and do nothing unless consumed"]
pub struct Keys<'a> {
    whose: Whose<'a>,
    // Before the next key that comes.
    walk: raw::RawWalk,
}

/// Whose handle the walk goes by.
#[derive(Clone, Copy)]
enum Whose<'a> {
    Seat(&'a Owner, &'a Turn),
    Steward(&'a Standing),
    /// An arena that was asked for nothing yet.
    Nobody,
}

impl<'a> Keys<'a> {
    pub(super) fn of_seat(lane: &'a Owner, turn: &'a Turn) -> Keys<'a> {
        Keys::new(Whose::Seat(lane, turn))
    }

    pub(super) fn of_arena(standing: Option<&'a Standing>) -> Keys<'a> {
        Keys::new(standing.map_or(Whose::Nobody, Whose::Steward))
    }

    fn new(whose: Whose<'a>) -> Keys<'a> {
        Keys {
            whose,
            walk: raw::RawWalk {
                shard: 0,
                serial: 0,
                slot: 0,
            },
        }
    }
}

impl Iterator for Keys<'_> {
    type Item = Key;

    fn next(&mut self) -> Option<Key> {
        let walk = &mut self.walk;
        let next = match self.whose {
            Whose::Seat(lane, turn) => turn.at_seat(lane, Place::Anywhere, |handle| {
                // SAFETY: the handle has a seat, no other call runs on it, and a walk stands there.
                unsafe { raw::teurlaks_seat_next(handle, walk) }
            }),
            Whose::Steward(standing) => standing.call(|handle| {
                // SAFETY: the same of a steward.
                unsafe { raw::teurlaks_steward_next(handle, walk) }
            }),
            Whose::Nobody => return None,
        };
        if next.status == raw::BUSY {
            no_wait_in_a_session();
        }
        (next.status == raw::OK)
            .then(|| Key::of(next.key))
            .flatten()
    }
}

impl fmt::Debug for Keys<'_> {
    fn fmt(&self, f: &mut fmt::Formatter<'_>) -> fmt::Result {
        f.debug_struct("Keys").finish_non_exhaustive()
    }
}
