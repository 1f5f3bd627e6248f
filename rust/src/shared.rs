//! Plain values that threads share.

pub(crate) mod homes;
mod iter;
pub(crate) mod lock;
mod shard;
pub(crate) mod turns;

pub use iter::Iter;

use crate::background::{Background, Compacts, Policy};
use crate::compact::Compacted;
use crate::core::{ends_turn, Limits};
use crate::names::Key;
use crate::refused::Refused;
use crate::store::Store;
use homes::{Home, Homes};
use iter::PIECE;
use shard::Shard;
use std::fmt;
use std::io;
use std::sync::Arc;
use turns::Turns;

/// Plain values of one type, 1 to 256 bytes each, that any thread keeps, reads, sets and takes out,
/// all through `&self`; and whose pages are given back while others go on.
///
/// It has up to 64 shards, each with a lock and a core of its own, which comes with the first
/// value. A thread keeps its values in up to four shards of its own in turn, which it finds by
/// itself, and in others where these are full, so that threads hardly wait for each other. A key
/// says which shard it is of, so a call under a key takes one lock. Values are handed out by copy:
/// nothing is lent, and no lock is held between calls.
///
/// It is not `Clone`, for the reason that [`Core`](crate::Core) has: share it by reference, or by
/// an [`Arc`].
///
/// ```
/// use std::thread;
/// use teurlaks::SharedStore;
///
/// let sessions = SharedStore::new()?;
/// let keys = thread::scope(|scope| {
///     let workers: Vec<_> = (0..4).map(|user| scope.spawn({
///         let sessions = &sessions;
///         move || sessions.insert(user)
///     })).collect();
///     workers.into_iter().map(|worker| worker.join().unwrap()).collect::<Result<Vec<_>, _>>()
/// })?;
/// assert_eq!(sessions.get(keys[3]), Some(3));
/// assert_eq!(sessions.remove(keys[3]), Some(3)); // by whichever thread
/// assert_eq!(sessions.get(keys[3]), None); // now and for ever
/// assert_eq!(sessions.len(), 3);
/// # Ok::<(), teurlaks::Refused>(())
/// ```
///
/// # What is proved, and what is tested
///
/// Under its lock each core answers as a plain map of keys: that is the proved library. That a call
/// finds the core of its key, and that the locks are taken as they should be, is tested
/// (`tests/shared.rs`). There is no `unsafe` in it.
///
/// # Threads
///
/// It is `Send` and `Sync` where its values are `Send`:
///
/// ```compile_fail
/// fn share<T: Sync>() {}
/// share::<teurlaks::SharedStore<*const u8>>(); // a pointer is not `Send`
/// ```
///
/// Calls under one key are in one order, which all threads see. [`SharedStore::len`],
/// [`SharedStore::pages`] and [`SharedStore::iter`] go from shard to shard, so beside other threads
/// they are of no single moment.
///
/// # Closures that panic
///
/// [`SharedStore::update`] and [`SharedStore::retain`] call a closure under the lock of a shard, so
/// that it decides about the value that is there. Where it panics, that value stays as it was, what
/// was done before stays done, and the lock is let go of: no later call of any thread panics
/// because of it. The closure must not call the store itself, which may wait for its own lock for
/// ever. An [`Iter`] holds no lock while its user works.
pub struct SharedStore<T> {
    shards: Box<[Shard<T>]>,
    homes: Homes,
    // Of each core by itself.
    limits: Limits,
    turns: Turns,
}

/// How many pages a shard has if it leaves the next ones to another shard at the end of its turn.
const LARGE: usize = 512;

impl<T: Copy> SharedStore<T> {
    /// A store of 64 shards with no value, whose limits are those of memory: each shard has as many
    /// pages as one may have. So it may hold as many values as 67,108,864 pages have room for:
    /// 17,179,869,184 of up to 16 bytes, or 1,073,741,824 of 256.
    ///
    /// # Errors
    ///
    /// [`Refused::OutOfMemory`] where memory was refused.
    pub fn new() -> Result<SharedStore<T>, Refused> {
        SharedStore::with_limits(Limits::most())
    }

    /// A store of these limits. A shard takes some 8 KB with its first value, and nothing before.
    ///
    /// As many threads as twice the processors have shards of their own, four each, or fewer where
    /// there are not so many; a thread beyond that begins at those of an earlier one.
    ///
    /// # Errors
    ///
    /// [`Refused::Config`] exactly where a number is out of its range, and [`Refused::OutOfMemory`]
    /// where memory was refused.
    pub fn with_limits(limits: Limits) -> Result<SharedStore<T>, Refused> {
        // What a core with these numbers would be refused.
        Store::<T>::with_limits(limits)?;
        Ok(SharedStore {
            shards: (0..limits.shards).map(|_| Shard::new()).collect(),
            homes: Homes::new(limits.shards as usize),
            limits: Limits {
                shards: 1,
                ..limits
            },
            turns: Turns::default(),
        })
    }

    /// Keeps a value, and gives its key, which was never given out before.
    ///
    /// # Errors
    ///
    /// - [`Refused::PagesSpent`] only where no shard has room: each was asked, and may have no
    ///   further page;
    /// - [`Refused::OutOfMemory`] where memory was refused.
    #[inline]
    pub fn insert(&self, value: T) -> Result<Key, Refused> {
        let home = self.homes.next();
        match self.insert_in(home.shard(), value) {
            Ok(key) => {
                if ends_turn(key) {
                    self.move_on_if_large(home);
                }
                Ok(key)
            }
            Err(Refused::PagesSpent) => self.insert_beyond(home, value),
            refused => refused,
        }
    }

    /// Leaves a shard that has many pages. One that opened as many in its life and gave them back
    /// goes on, since a core that gets no more values keeps some memory for ever.
    #[cold]
    fn move_on_if_large(&self, home: Home<'_>) {
        let shard = &self.shards[usize::from(home.shard())];
        if shard.pages() >= LARGE {
            home.move_on();
        }
    }

    /// Keeps a value in the shard, which has a core from then on.
    #[inline]
    fn insert_in(&self, shard: u8, value: T) -> Result<Key, Refused> {
        let mut held = self.shards[usize::from(shard)].lock();
        let key = Shard::open(&mut held, self.limits)?.insert_in(0, value)?;
        Ok(key.with_shard(shard))
    }

    /// Keeps a value in the next shard that has room: of those beside the home, and then of all,
    /// first in those that have a core. That is the thread's home from then on.
    #[cold]
    fn insert_beyond(&self, home: Home<'_>, value: T) -> Result<Key, Refused> {
        let has_core = |shard: &u8| self.shards[usize::from(*shard)].lock().is_some();
        let beside = home.beside().filter(has_core).chain(home.beside());
        let all = home.all().filter(has_core).chain(home.all());
        for shard in beside.chain(all) {
            match self.insert_in(shard, value) {
                Err(Refused::PagesSpent) => {}
                done => {
                    home.move_to(shard);
                    return done;
                }
            }
        }
        Err(Refused::PagesSpent)
    }

    /// The value of the key, where it is live.
    #[inline]
    #[must_use]
    pub fn get(&self, key: Key) -> Option<T> {
        self.find(key)?.lock().as_ref()?.get(inner(key))
    }

    /// Sets the key to the value in place, and says whether it did: where it is live. It takes
    /// memory only for the first value on a page whose bytes are not all zeros.
    ///
    /// # Errors
    ///
    /// As of [`Core::set`](crate::Core::set).
    #[inline]
    pub fn set(&self, key: Key, value: T) -> Result<bool, Refused> {
        let set = self.with(key, |store, key| Some(store.set(key, value)));
        set.unwrap_or(Ok(false))
    }

    /// Sets the key to the value, and gives the one that it had, where it is live; else nothing
    /// changes. No other call comes between the two.
    ///
    /// # Errors
    ///
    /// As of [`Core::set`](crate::Core::set).
    #[inline]
    pub fn replace(&self, key: Key, value: T) -> Result<Option<T>, Refused> {
        self.with(key, |store, key| store.replace(key, value).transpose())
            .transpose()
    }

    /// Changes the value of the key by the closure, and gives what that returns, where the key is
    /// live. No other call comes between.
    ///
    /// The closure runs under the lock of the key's shard, so it must not call this store. Where it
    /// panics the value stays as it was.
    ///
    /// # Errors
    ///
    /// As of [`Core::set`](crate::Core::set).
    ///
    /// ```
    /// # use teurlaks::SharedStore;
    /// let hits = SharedStore::new()?;
    /// let page = hits.insert(0_u64)?;
    /// std::thread::scope(|scope| {
    ///     for _ in 0..4 {
    ///         let visit = |_| hits.update(page, |count| *count += 1).map(drop);
    ///         scope.spawn(move || (0..100).try_for_each(visit));
    ///     }
    /// });
    /// assert_eq!(hits.get(page), Some(400));
    /// # Ok::<(), teurlaks::Refused>(())
    /// ```
    pub fn update<R>(
        &self,
        key: Key,
        change: impl FnOnce(&mut T) -> R,
    ) -> Result<Option<R>, Refused> {
        self.with(key, |store, key| store.update(key, change).transpose())
            .transpose()
    }

    /// Takes the value of the key out, where it is live. The key finds nothing from then on. Of
    /// threads that take out one key, one gets the value.
    #[inline]
    pub fn remove(&self, key: Key) -> Option<T> {
        self.with(key, Store::remove)
    }

    /// Each key with its value, by shards, the serial numbers of spans, and slots.
    ///
    /// No lock is held while the caller works with what it was given, so it may call the store, and
    /// others go on. A key that is live all the while comes once, with a value that it had
    /// meanwhile; one that comes or goes meanwhile may come or not, and none comes twice. It goes
    /// from both ends; from the last one, each value costs as of [`Core::keys`](crate::Core::keys).
    ///
    /// ```
    /// # use teurlaks::SharedStore;
    /// let store = SharedStore::new()?;
    /// for n in 0..100 {
    ///     store.insert(n)?;
    /// }
    /// store.iter().for_each(|(key, n)| {
    ///     if n % 2 == 1 {
    ///         store.remove(key);
    ///     }
    /// });
    /// assert_eq!(store.iter().map(|(_, n)| n).sum::<i32>(), 2450);
    /// # Ok::<(), teurlaks::Refused>(())
    /// ```
    pub fn iter(&self) -> Iter<'_, T> {
        Iter::new(&self.shards)
    }

    /// Takes out each value that the test does not keep, in the order of [`SharedStore::iter`]. Of
    /// those that come meanwhile the test may be asked or not.
    ///
    /// The test runs under the lock of a shard, so it must not call this store; that is let go of
    /// after each 64 values. Where the test panics, all that it has not come to stays.
    pub fn retain(&self, mut keeps: impl FnMut(Key, T) -> bool) {
        for (shard, number) in self.shards.iter().zip(0..) {
            let mut keeps = |key: Key, value| keeps(key.with_shard(number), value);
            let mut after = None;
            while let Some(Some(key)) = shard.piece(|store| retain_some(store, after, &mut keeps)) {
                after = Some(key);
            }
        }
    }

    /// Takes all values out, and keeps the pages, which [`SharedStore::trim`] gives back. Values
    /// that come meanwhile may stay.
    pub fn clear(&self) {
        self.retain(|_, _| false);
    }
}

impl<T> SharedStore<T> {
    /// The shard of the key, where there is such a one.
    #[inline]
    fn find(&self, key: Key) -> Option<&Shard<T>> {
        self.shards.get(key.shard() as usize)
    }

    /// What the call on the key's store gives, where there is such a one, with the key as it is
    /// known there.
    #[inline]
    fn with<R>(&self, key: Key, call: impl FnOnce(&mut Store<T>, Key) -> Option<R>) -> Option<R> {
        call(self.find(key)?.lock().as_mut()?, inner(key))
    }

    /// Frees the key, and says whether it was live: as [`SharedStore::remove`], but for the value.
    #[inline]
    pub fn free(&self, key: Key) -> bool {
        self.with(key, |store, key| store.free(key).then_some(()))
            .is_some()
    }

    /// Whether the key is live.
    #[inline]
    #[must_use]
    pub fn contains(&self, key: Key) -> bool {
        self.with(key, |store, key| store.contains(key).then_some(()))
            .is_some()
    }

    /// How many values there are.
    #[must_use]
    pub fn len(&self) -> usize {
        self.sum(Store::len)
    }

    /// Whether there is no value.
    #[must_use]
    pub fn is_empty(&self) -> bool {
        self.len() == 0
    }

    /// How many pages of up to 4,096 bytes there are.
    #[must_use]
    pub fn pages(&self) -> usize {
        self.sum(Store::pages)
    }

    fn sum(&self, count: impl Fn(&Store<T>) -> usize) -> usize {
        self.shards
            .iter()
            .map(|shard| shard.lock().as_ref().map_or(0, &count))
            .sum()
    }

    /// How many shards there are, with those that have no value yet.
    #[must_use]
    pub fn shards(&self) -> u32 {
        self.shards.len() as u32
    }

    /// Gives back the pages on which nothing is live, shard by shard, and says how many went. It
    /// takes no memory and moves no value.
    pub fn trim(&self) -> usize {
        self.shards.iter().map(Shard::trim).sum()
    }

    /// Compacts each shard in turn, as [`SharedStore::compact_shard`] does one, and says how many
    /// pages went.
    ///
    /// # Errors
    ///
    /// [`Refused::OutOfMemory`] where memory was refused. It stops where it is then, and may be
    /// tried again.
    ///
    /// ```
    /// # use teurlaks::SharedStore;
    /// let store = SharedStore::new()?;
    /// for n in 0..50_000_u64 {
    ///     store.insert(n)?;
    /// }
    /// store.retain(|_, n| n % 11 == 0); // one in eleven stays, on each of some 391 pages
    /// std::thread::scope(|scope| {
    ///     let compacts = scope.spawn(|| store.compact());
    ///     assert_eq!(store.iter().count(), 4546); // others go on
    ///     assert!(compacts.join().unwrap().unwrap() > 300);
    /// });
    /// assert!(store.pages() < 91);
    /// # Ok::<(), teurlaks::Refused>(())
    /// ```
    pub fn compact(&self) -> Result<usize, Refused> {
        self.shards.iter().map(Shard::compact).sum()
    }

    /// Takes at most so many steps of a compaction of one shard after the other, at least one, and
    /// says how many pages went and whether there is more to do. The next call, of whichever
    /// thread, goes on where this one stopped; once there is no more to do, the next one begins
    /// anew.
    ///
    /// What a step is, and what a plan looks at, is as of
    /// [`Core::compact_within`](crate::Core::compact_within), of a budget of 64. The lock of a
    /// shard is held for 50 µs and one step at a time. Between two calls every key stays valid, and
    /// no call of this type is refused because of it: but [`SharedStore::forget_shard`] forgets
    /// nothing of the shard in which the compaction has a plan open, and
    /// [`SharedStore::compact_shard`] goes on with it.
    ///
    /// # Errors
    ///
    /// [`Refused::OutOfMemory`] where memory was refused. Every key has its value, and the next
    /// call goes on from there. It also counts the pages that went in this one.
    ///
    /// ```
    /// # use teurlaks::SharedStore;
    /// let store = SharedStore::new()?;
    /// for n in 0..100_000_u64 {
    ///     store.insert(n)?;
    /// }
    /// store.retain(|_, n| n % 11 == 0);
    /// let (before, mut gone) = (store.pages(), 0);
    /// loop {
    ///     let done = store.compact_within(32)?; // between other work
    ///     gone += done.pages;
    ///     if !done.more {
    ///         break;
    ///     }
    /// }
    /// assert!(gone > 300 && store.pages() == before - gone);
    /// # Ok::<(), teurlaks::Refused>(())
    /// ```
    pub fn compact_within(&self, budget: usize) -> Result<Compacted, Refused> {
        self.turns
            .compact_within(self.shards.len(), budget, |shard, left| {
                self.shards[shard].compact_within(left)
            })
    }

    /// Ends a compaction by a budget where it is.
    fn give_up(&self) {
        self.turns.give_up(|shard| self.shards[shard].give_up());
    }

    /// How many pages there are, and how many of them can go at most.
    fn pages_and_most_folds(&self) -> (usize, usize) {
        self.shards
            .iter()
            .map(Shard::pages_and_most_folds)
            .fold((0, 0), |(pages, folds), (more, most)| {
                (pages + more, folds + most)
            })
    }

    /// Gives back the pages of one shard on which no key is live, folds its sparse pages onto
    /// others until that hardly gives any back, and says how many pages went. Every key stays
    /// valid. Pages are folded from four of them on, or once they have been. At its end it forgets,
    /// as [`SharedStore::forget_shard`] does.
    ///
    /// Others go on meanwhile, in this shard too. Its lock is held for 50 µs and one step at a
    /// time, which may be a trim of 64 pages, or a plan of 64 groups beside the others; then it is
    /// let go of for those who wait. A value that is kept there meanwhile may take a new page.
    /// Another compaction of the shard waits for this one.
    ///
    /// As of [`Core::compact`](crate::Core::compact), each fold uses up one of the 4,294,967,295
    /// pages that a shard may open in its life.
    ///
    /// # Errors
    ///
    /// [`Refused::Config`] where there is no such shard, and [`Refused::OutOfMemory`] as of
    /// [`SharedStore::compact`].
    pub fn compact_shard(&self, shard: u32) -> Result<usize, Refused> {
        self.shards
            .get(shard as usize)
            .ok_or(Refused::Config)?
            .compact()
    }

    /// Forgets of each shard in turn what [`SharedStore::forget_shard`] does of one, and says how
    /// many pages that were folded were forgotten.
    ///
    /// It takes no memory and is not refused. [`SharedStore::compact`] does so too.
    ///
    /// ```
    /// # use teurlaks::SharedStore;
    /// let store = SharedStore::new()?;
    /// for n in 0..200_000_u64 {
    ///     store.insert(n)?;
    /// }
    /// store.retain(|_, n| n % 17 == 0);
    /// assert!(store.compact()? > 100); // the pages that were folded onto others have values there
    /// assert_eq!(store.forget(), 0);
    /// store.clear();
    /// assert!(store.forget() > 100); // and now they have none
    /// # Ok::<(), teurlaks::Refused>(())
    /// ```
    pub fn forget(&self) -> usize {
        self.shards.iter().map(Shard::forget).sum()
    }

    /// Forgets the pages of one shard that were folded onto others and whose keys are all gone,
    /// with the generations that are kept of them, and says how many. Nothing else changes, and it
    /// takes no memory: keys of what was forgotten find nothing, as before, and none is given out
    /// again.
    ///
    /// It holds the shard's lock meanwhile, and waits for a compaction of the shard.
    ///
    /// # Errors
    ///
    /// [`Refused::Config`] alone, when there is no such shard.
    pub fn forget_shard(&self, shard: u32) -> Result<usize, Refused> {
        Ok(self
            .shards
            .get(shard as usize)
            .ok_or(Refused::Config)?
            .forget())
    }
}

impl<T: Copy + Send + 'static> SharedStore<T> {
    /// Compacts the store on a thread of its own for as long as the guard lives that is returned:
    /// it looks now and then how many pages could go, sleeps as long as that does not pay, and else
    /// compacts in parts, as [`SharedStore::compact_within`]. A drop of the guard ends the thread,
    /// and waits for that: for a part at most.
    ///
    /// It holds no lock but as that call does. If memory is refused, it tries again later.
    ///
    /// # Errors
    ///
    /// The system's, if it refuses a thread.
    ///
    /// ```
    /// use std::sync::Arc;
    /// use std::time::Duration;
    /// use teurlaks::{Policy, SharedStore};
    ///
    /// let store = Arc::new(SharedStore::new()?);
    /// let policy = Policy { interval: Duration::from_millis(1), ..Policy::default() };
    /// let compacts = store.compact_in_background(policy)?;
    /// for n in 0..50_000_u64 {
    ///     store.insert(n)?;
    /// }
    /// store.retain(|_, n| n % 11 == 0); // one in eleven stays, on each of some 391 pages
    /// while store.pages() > 100 {
    ///     std::thread::yield_now(); // other work
    /// }
    /// drop(compacts);
    /// assert_eq!(store.len(), 4546);
    /// # Ok::<(), Box<dyn std::error::Error>>(())
    /// ```
    pub fn compact_in_background(self: &Arc<Self>, policy: Policy) -> io::Result<Background> {
        Background::begin(policy, Arc::clone(self))
    }
}

impl<T: Copy + Send + 'static> Compacts for Arc<SharedStore<T>> {
    fn pages_and_most_folds(&self) -> (usize, usize) {
        SharedStore::pages_and_most_folds(self)
    }

    fn live(&self) -> Option<usize> {
        Some(self.len())
    }

    fn compact_part(&self, budget: usize) -> Result<Compacted, Refused> {
        self.compact_within(budget)
    }

    fn give_up(&self) {
        SharedStore::give_up(self);
    }
}

/// The key as the core of its shard knows it, of which it is the only one.
#[inline]
fn inner(key: Key) -> Key {
    key.with_shard(0)
}

/// Takes out of the next values those that are not to be kept, and gives the last key that it came
/// to, if any.
fn retain_some<T: Copy>(
    store: &mut Store<T>,
    after: Option<Key>,
    mut keeps: impl FnMut(Key, T) -> bool,
) -> Option<Key> {
    let mut last = after;
    for _ in 0..PIECE {
        let key = store.next_live(last)?;
        if store.get(key).is_some_and(|value| !keeps(key, value)) {
            store.free(key);
        }
        last = Some(key);
    }
    last
}

impl<'s, T: Copy> IntoIterator for &'s SharedStore<T> {
    type Item = (Key, T);
    type IntoIter = Iter<'s, T>;

    fn into_iter(self) -> Iter<'s, T> {
        self.iter()
    }
}

impl<T: Copy + fmt::Debug> fmt::Debug for SharedStore<T> {
    fn fmt(&self, f: &mut fmt::Formatter<'_>) -> fmt::Result {
        f.debug_map().entries(self).finish()
    }
}
