//! One shard of a store that threads share: a store behind a lock, and its compaction in pieces,
//! between which others have the lock.

use super::lock::{self, Lock};
use crate::compact::Compacted;
use crate::core::Limits;
use crate::refused::Refused;
use crate::store::Store;
use std::sync::{Mutex, MutexGuard, PoisonError};
use std::time::{Duration, Instant};

/// How long a hold of the lock takes steps of a compaction, of which the last one may take longer:
/// of some 1,000 pages retirements take up to 0.1 ms, and marks up to 0.4.
const HOLD: Duration = Duration::from_micros(50);

/// How many groups a trim and a retirement take at most, and the budget by which plans are bounded.
const PIECE: usize = 64;

/// The fewest pages for which a core gets a pool, which takes some memory of its own.
const FEWEST_PAGES: usize = 4;

/// A store behind a lock. It has two lines of a cache to itself, since processors fetch these in
/// pairs.
#[repr(align(128))]
pub(super) struct Shard<T> {
    // There is none until the first insert.
    store: Lock<Option<Store<T>>>,
    // Whoever compacts holds this lock throughout, and the one of the store piece by piece.
    pool: Mutex<Pool>,
}

/// What is known of a core's compactions.
#[derive(Default)]
struct Pool {
    // Whether the core has a pool, which stays.
    is_there: bool,
    // Whether a compaction has begun and is not done.
    is_under_way: bool,
    // The group that is trimmed next, as long as the compaction trims.
    trims: Option<usize>,
    // The pages that went in parts that were refused later.
    pages: usize,
}

/// The store of a shard under its lock.
pub(super) type Held<'s, T> = lock::Held<'s, Option<Store<T>>>;

impl<T> Shard<T> {
    pub fn new() -> Shard<T> {
        Shard {
            store: Lock::new(None),
            pool: Mutex::default(),
        }
    }

    /// The store, for which it waits. A thread that panicked while it had it was between two calls
    /// of the store, which is sound.
    #[inline]
    pub fn lock(&self) -> Held<'_, T> {
        self.store.lock()
    }

    /// Does a piece of work on the store, where there is one, and lets others have it then.
    pub fn piece<R>(&self, work: impl FnOnce(&mut Store<T>) -> R) -> Option<R> {
        let done = self.lock().as_mut().map(work);
        self.store.let_others();
        done
    }

    /// Gives back the pages on which nothing is live, in pieces, and says how many went.
    pub fn trim(&self) -> usize {
        let (mut went, mut next) = (0, Some(0));
        while let Some(from) = next {
            let pages;
            (pages, next) = self.trim_from(from);
            went += pages;
        }
        went
    }

    /// Does so with some groups from this one on, and says which one comes next.
    fn trim_from(&self, from: usize) -> (usize, Option<usize>) {
        // It is refused only if there is no such shard.
        let trimmed = self.piece(|store| store.trim_some(0, from, PIECE).unwrap_or((0, 0)));
        let (groups, pages) = trimmed.unwrap_or((0, 0));
        (pages, (groups == PIECE).then_some(from + groups))
    }

    /// Whoever has it compacts or forgets alone.
    fn lock_pool(&self) -> MutexGuard<'_, Pool> {
        self.pool.lock().unwrap_or_else(PoisonError::into_inner)
    }

    /// Compacts as `Core::compact` does, in pieces, and says how many pages went.
    pub fn compact(&self) -> Result<usize, Refused> {
        let mut pool = self.lock_pool();
        let mut left = usize::MAX;
        let done = self.compact_pieces(&mut pool, &mut left);
        if done.is_err() {
            self.give_up_in(&mut pool);
        }
        done.map(|done| done.pages)
    }

    /// Takes so many steps of a compaction at most, in pieces, and takes them off what is left.
    pub fn compact_within(&self, left: &mut usize) -> Result<Compacted, Refused> {
        self.compact_pieces(&mut self.lock_pool(), left)
    }

    /// Ends a compaction that is under way, where it is.
    pub fn give_up(&self) {
        self.give_up_in(&mut self.lock_pool());
    }

    /// The pages that went in refused parts of it are not counted any more.
    fn give_up_in(&self, pool: &mut Pool) {
        (pool.pages, pool.trims) = (0, None);
        if std::mem::take(&mut pool.is_under_way) {
            self.piece(Store::give_up_compaction);
        }
    }

    /// Forgets before the first piece, since what is forgotten need not move.
    fn compact_pieces(&self, pool: &mut Pool, left: &mut usize) -> Result<Compacted, Refused> {
        if !pool.is_under_way {
            let Some((pages, _)) = self.lock().as_ref().map(Store::pages_and_most_folds) else {
                return Ok(Compacted::default());
            };
            *left = left.saturating_sub(1);
            self.forget_some()?;
            if pages < FEWEST_PAGES && !pool.is_there {
                let pages = self.trim();
                return Ok(Compacted { pages, more: false });
            }
            (pool.is_there, pool.is_under_way, pool.trims) = (true, true, Some(0));
        }
        while let (Some(from), 1..) = (pool.trims, *left) {
            let pages;
            (pages, pool.trims) = self.trim_from(from);
            pool.pages += pages;
            *left -= 1;
        }
        while pool.is_under_way && *left > 0 {
            let done = self
                .piece(|store| {
                    let start = Instant::now();
                    store.compact_until(left, PIECE, || start.elapsed() >= HOLD)
                })
                .transpose()?;
            pool.pages += done.map_or(0, |done| done.pages);
            pool.is_under_way = done.is_some_and(|done| done.more);
        }
        Ok(Compacted {
            pages: std::mem::take(&mut pool.pages),
            more: pool.is_under_way,
        })
    }

    /// Forgets as `Core::forget` does, behind a compaction that is under way, and says how many
    /// spans went: none while a compaction in parts has a plan open, which forgets at its end.
    pub fn forget(&self) -> usize {
        let _alone = self.lock_pool();
        self.forget_some().unwrap_or(0)
    }

    fn forget_some(&self) -> Result<usize, Refused> {
        self.piece(Store::forget).unwrap_or(Ok(0))
    }

    /// How many pages it has.
    pub fn pages(&self) -> usize {
        self.lock().as_ref().map_or(0, Store::pages)
    }

    /// How many pages it has, and how many of them can go at most.
    pub fn pages_and_most_folds(&self) -> (usize, usize) {
        self.lock()
            .as_ref()
            .map_or((0, 0), Store::pages_and_most_folds)
    }
}

impl<T: Copy> Shard<T> {
    /// The store of these limits, where there was none.
    pub fn open(held: &mut Option<Store<T>>, limits: Limits) -> Result<&mut Store<T>, Refused> {
        match held {
            Some(store) => Ok(store),
            None => Ok(held.insert(Store::with_limits(limits)?)),
        }
    }
}

#[cfg(test)]
mod tests {
    use super::Shard;
    use crate::core::Limits;
    use crate::refused::Refused;

    /// What went in a compaction that was given up is no part of the next one.
    #[test]
    fn what_is_given_up_is_not_counted() -> Result<(), Refused> {
        let shard = Shard::new();
        Shard::open(&mut shard.lock(), Limits::default())?.insert(7)?;
        let mut pool = shard.lock_pool();
        (pool.is_there, pool.is_under_way, pool.pages) = (true, true, 3);
        drop(pool);
        shard.give_up();
        assert_eq!(shard.compact(), Ok(0));
        Ok(())
    }
}
