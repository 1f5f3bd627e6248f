//! A walk over a slab that nobody shares meanwhile.

use super::page::Page;
use super::table::key_of;
use super::SharedSlab;
use crate::names::Key;
use std::fmt;
use std::iter::FusedIterator;

/// Each key with its value, to be changed: of [`SharedSlab::unique_iter`].
#[must_use = "iterators are lazy and do nothing unless consumed"]
pub struct UniqueIter<'s, T> {
    slab: &'s mut SharedSlab<T>,
    shard: usize,
    page: usize,
    slot: usize,
}

impl<'s, T> UniqueIter<'s, T> {
    pub(super) fn new(slab: &'s mut SharedSlab<T>) -> UniqueIter<'s, T> {
        UniqueIter {
            slab,
            shard: 0,
            page: 0,
            slot: 0,
        }
    }
}

impl<'s, T> Iterator for UniqueIter<'s, T> {
    type Item = (Key, &'s mut T);

    fn next(&mut self) -> Option<(Key, &'s mut T)> {
        while let Some(shard) = self.slab.shards.get_mut(self.shard) {
            let table = shard.get_mut().as_deref();
            let Some(table) = table.filter(|table| self.page < table.page_count()) else {
                (self.shard, self.page, self.slot) = (self.shard + 1, 0, 0);
                continue;
            };
            let Some(page) = table.page_with_values(self.page) else {
                self.page += 1;
                continue;
            };
            let Some(slot) = (self.slot..Page::<T>::SLOTS).find(|slot| page.slot(*slot).is_live())
            else {
                (self.page, self.slot) = (self.page + 1, 0);
                continue;
            };
            self.slot = slot + 1;
            let key = key_of(page.slot(slot).name(), slot)?;
            // SAFETY: an open slot has a value. Nobody has a pin of it, since the slab is borrowed
            // to be changed; one that was forgotten lends nothing any more. A walk comes to it
            // once.
            let value = unsafe { page.value(slot).as_mut() };
            return Some((key.with_shard(self.shard as u8), value));
        }
        None
    }
}

impl<T> FusedIterator for UniqueIter<'_, T> {}

impl<T> fmt::Debug for UniqueIter<'_, T> {
    fn fmt(&self, f: &mut fmt::Formatter<'_>) -> fmt::Result {
        f.debug_struct("UniqueIter")
            .field("shard", &self.shard)
            .finish_non_exhaustive()
    }
}
