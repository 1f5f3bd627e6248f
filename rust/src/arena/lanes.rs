//! The shards of a seat: one, or several that take its values in turn.

use super::lane::Owner;
use crate::core::MOST_SHARDS;
use crate::raw;
use std::iter;
use std::mem;

/// How many values a shard takes before it is the next one's turn: a seat of few values is so on
/// one page, and one of many behind all locks.
const RUN: u32 = 64;

/// No place among the others.
const NOT_HERE: u8 = u8::MAX;

/// The shards of a seat. A value goes to the one whose turn it is, and what a key of another one
/// asks goes by that, which may keep its shard.
pub(super) struct Lanes {
    here: Owner,
    others: Vec<Owner>,
    // Where each shard's lane is among the others: nothing where there are none.
    places: Box<[u8]>,
    // A bit for each of the seat's shards, by its number.
    shards: u64,
    // Which of the others comes next.
    next: usize,
    // How many values this one has taken in its turn.
    taken: u32,
}

impl Lanes {
    pub fn new(here: Owner, others: Vec<Owner>) -> Lanes {
        let count = if others.is_empty() { 0 } else { MOST_SHARDS };
        let mut places = vec![NOT_HERE; count].into_boxed_slice();
        let mut shards = 1 << here.shard();
        here.sit_with(&here);
        for (other, place) in others.iter().zip(0..) {
            other.sit_with(&here);
            places[other.shard() as usize] = place;
            shards |= 1 << other.shard();
        }
        Lanes {
            here,
            others,
            places,
            shards,
            next: 0,
            taken: 0,
        }
    }

    /// The one whose turn it is.
    #[inline]
    pub fn here(&self) -> &Owner {
        &self.here
    }

    /// Whether there is no other one.
    #[inline]
    pub fn is_one(&self) -> bool {
        self.others.is_empty()
    }

    /// The one that has the shard of this number, or else the one whose turn it is.
    #[inline]
    pub fn of(&self, shard: u32) -> &Owner {
        // A branch of its own, by which the look-up of another seat's value waits for no table.
        if self.shards.checked_shr(shard).unwrap_or(0) & 1 == 0 {
            return &self.here;
        }
        let place = self.places.get(shard as usize).copied().unwrap_or(NOT_HERE);
        self.others.get(usize::from(place)).unwrap_or(&self.here)
    }

    pub fn len(&self) -> usize {
        1 + self.others.len()
    }

    /// All of them, this one first.
    pub fn all(&self) -> impl Iterator<Item = &Owner> {
        iter::once(&self.here).chain(&self.others)
    }

    /// Those whose turn it is not.
    pub fn others(&self) -> &[Owner] {
        &self.others
    }

    /// Has each of them go back by this call, until it answers another status than `OK`, and leaves
    /// those but the last to `back`. Those that are left then go on, and the last that is left is
    /// there in any case.
    pub fn leave(
        &mut self,
        back: &mut Vec<Owner>,
        mut call: impl FnMut(*mut raw::ShareHandle) -> u32,
    ) -> u32 {
        while let Some(other) = self.others.pop() {
            let status = other.alone(&mut call);
            if status != raw::OK {
                self.others.push(other);
                return status;
            }
            self.places[other.shard() as usize] = NOT_HERE;
            self.shards &= !(1 << other.shard());
            self.next = 0;
            back.push(other);
        }
        self.here.alone(call)
    }

    /// The last that is left.
    pub fn into_here(self) -> Owner {
        self.here
    }

    /// Counts a value that this one took, and says whether it is the next one's turn.
    #[inline]
    pub fn count(&mut self) -> bool {
        if self.others.is_empty() {
            return false;
        }
        self.taken += 1;
        self.taken >= RUN
    }

    /// From now on it is the turn of the next one. This one may go on to keep its shard, for calls
    /// on what is there. What was left to others here is handed over, since no further call counts
    /// for it.
    #[cold]
    pub fn turn(&mut self) {
        self.taken = 0;
        if self.others.is_empty() {
            return;
        }
        // SAFETY: the handle has a seat, and no other call runs on it.
        self.here
            .at_once(|handle| unsafe { raw::teurlaks_seat_hand_over(handle) });
        let next = &mut self.others[self.next];
        self.places
            .swap(self.here.shard() as usize, next.shard() as usize);
        mem::swap(&mut self.here, next);
        self.next = (self.next + 1) % self.others.len();
    }
}
