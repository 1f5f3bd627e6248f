//! A walk over a store that threads share.

use super::shard::Shard;
use crate::names::Key;
use crate::walk::Place;
use std::collections::VecDeque;
use std::fmt;
use std::iter::FusedIterator;

/// How many values are looked at under one hold of a lock.
pub(super) const PIECE: usize = 64;

/// Each key of a store with its value: of [`SharedStore::iter`](crate::SharedStore::iter).
#[must_use = "iterators are lazy and do nothing unless consumed"]
pub struct Iter<'s, T> {
    // The shards that neither end is done with, and the number of the first.
    shards: &'s [Shard<T>],
    number: u8,
    // Where the walk from the front is in the first of them, and the one from the end in the last.
    place: Place,
    // What comes next from either end, in the order of keys.
    front: VecDeque<(Key, T)>,
    back: VecDeque<(Key, T)>,
}

impl<'s, T: Copy> Iter<'s, T> {
    pub(super) fn new(shards: &'s [Shard<T>]) -> Iter<'s, T> {
        Iter {
            shards,
            number: 0,
            place: Place::first(),
            front: VecDeque::with_capacity(PIECE),
            back: VecDeque::new(),
        }
    }

    /// Copies the next values of the first shard, and says whether there was any.
    fn copy_some(&mut self, shard: &Shard<T>) -> bool {
        let held = shard.lock();
        let Some(store) = held.as_ref() else {
            return false;
        };
        // Where the walk from the end is in another shard, it came to nothing here.
        let is_last = self.shards.len() == 1;
        while self.front.len() < PIECE {
            let key = store.next_of(&mut self.place, is_last);
            let Some((key, value)) = key.and_then(|key| Some((key, store.get(key)?))) else {
                break;
            };
            self.front.push_back((key.with_shard(self.number), value));
        }
        !self.front.is_empty()
    }

    /// The same of the last shard, from its end.
    fn copy_some_back(&mut self, shard: &Shard<T>) -> bool {
        let held = shard.lock();
        let Some(store) = held.as_ref() else {
            return false;
        };
        let is_first = self.shards.len() == 1;
        let number = self.number + (self.shards.len() - 1) as u8;
        while self.back.len() < PIECE {
            let key = store.next_back_of(&mut self.place, is_first);
            let Some((key, value)) = key.and_then(|key| Some((key, store.get(key)?))) else {
                break;
            };
            self.back.push_front((key.with_shard(number), value));
        }
        !self.back.is_empty()
    }
}

impl<T: Copy> Iterator for Iter<'_, T> {
    type Item = (Key, T);

    fn next(&mut self) -> Option<(Key, T)> {
        while self.front.is_empty() {
            let Some((shard, rest)) = self.shards.split_first() else {
                return self.back.pop_front();
            };
            if !self.copy_some(shard) {
                self.shards = rest;
                self.place.begin();
                self.number += 1;
            }
        }
        self.front.pop_front()
    }
}

impl<T: Copy> DoubleEndedIterator for Iter<'_, T> {
    fn next_back(&mut self) -> Option<(Key, T)> {
        while self.back.is_empty() {
            let Some((shard, rest)) = self.shards.split_last() else {
                return self.front.pop_back();
            };
            if !self.copy_some_back(shard) {
                self.shards = rest;
                self.place.begin_back();
            }
        }
        self.back.pop_back()
    }
}

impl<T: Copy> FusedIterator for Iter<'_, T> {}

impl<T> fmt::Debug for Iter<'_, T> {
    fn fmt(&self, f: &mut fmt::Formatter<'_>) -> fmt::Result {
        f.debug_struct("Iter")
            .field("shard", &self.number)
            .finish_non_exhaustive()
    }
}
