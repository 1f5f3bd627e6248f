//! What an arena has from the first call on that needs it.

use super::lane::Owner;
use super::share::{Answer, Share, Turn};
use crate::core::{Limits, MOST_SHARDS};
use crate::raw;
use crate::refused::Refused;
use std::ops::RangeInclusive;

/// How many keys a ring may have room for.
const RING_KEYS: RangeInclusive<u32> = 1..=1024;

/// The numbers of an arena, each in its range.
#[derive(Clone, Copy)]
pub(super) struct Numbers {
    /// Of these the shards are one for each seat.
    pub limits: Limits,
    pub ring_keys: u32,
    /// How many shards a seat has.
    pub lanes: u32,
    pub is_recorded: bool,
}

/// The steward of an arena, and what has no seat.
pub(super) struct Standing {
    pub share: Share,
    pub turn: Turn,
    /// The lanes that have no proved seat, in the order of the steward's seats: the last is handed
    /// out first.
    pub vacant: Vec<Owner>,
    /// The lanes of the next seat that are there so far, if memory was refused for the others.
    pub next: Vec<Owner>,
}

impl Numbers {
    /// That each is in its range.
    pub fn check(self) -> Result<(), Refused> {
        self.limits.check()?;
        let shards = self.limits.shards.checked_mul(self.lanes);
        let most = MOST_SHARDS as u32;
        let has_rings = RING_KEYS.contains(&self.ring_keys);
        if shards.is_some_and(|shards| (1..=most).contains(&shards)) && has_rings {
            Ok(())
        } else {
            Err(Refused::Config)
        }
    }

    fn shards(self) -> u32 {
        self.limits.shards * self.lanes
    }

    /// A steward of shards of these numbers.
    pub fn open(self) -> Result<Standing, Refused> {
        let Limits {
            pages,
            spans,
            slots,
            generations,
            ..
        } = self.limits;
        let open = if self.is_recorded {
            raw::teurlaks_arena_open_recorded_with_slots
        } else {
            raw::teurlaks_arena_open_with_slots
        };
        // SAFETY: the handle has nothing yet.
        let share = Share::new(|out| unsafe {
            open(
                out,
                self.shards(),
                pages,
                spans,
                slots,
                self.ring_keys,
                generations,
            )
        });
        let share = share.map_err(Refused::of)?;
        let (turn, vacant) = Turn::new(self.shards());
        Ok(Standing {
            share,
            turn,
            vacant,
            next: Vec::new(),
        })
    }
}

impl Standing {
    /// Makes the call of the steward, which gets its handle.
    pub fn call<A: Answer>(&self, mut call: impl FnMut(*mut raw::ShareHandle) -> A) -> A {
        self.turn.at_steward(|| call(self.share.handle()))
    }

    /// Closes the open plan, and says what came of that.
    pub fn close(&self) -> u32 {
        // SAFETY: the handle has a steward, and no other call runs on it.
        self.call(|share| unsafe { raw::teurlaks_steward_close(share) })
    }

    /// The lane of a shard that nobody has, with its proved seat.
    pub fn lane(&mut self) -> Result<Owner, Refused> {
        let lane = self.vacant.pop().ok_or(Refused::NoSeatLeft)?;
        // SAFETY: the handle has a steward, no other call runs on it, and the other one has nothing
        // yet.
        let sits = lane.sit(|out| unsafe { raw::teurlaks_steward_seat(self.share.handle(), out) });
        match sits {
            Ok(()) => Ok(lane),
            Err(status) => {
                self.vacant.push(lane);
                Err(match status {
                    raw::NONE => Refused::NoSeatLeft,
                    other => Refused::of(other),
                })
            }
        }
    }
}
