//! Values of any type that threads share by reference.
//!
//! # How it works
//!
//! **The problem.** A thread that looks a value up must be sure of it until it is done, while
//! others remove the value, give its slot to another one, or fold its page onto another page. A
//! lock for each look-up would be sound. But threads that look up what others keep would then wait
//! for each other, and a lock is two exchanges of a line of the cache beside the look-up.
//!
//! **Two halves.** What is true stands behind the lock of a shard: a core, which gives out each key
//! once, and a table of which page has the values of a span. Beside it stand *slots*, which any
//! thread may touch without the lock, and *hints*, by which it finds a slot:
//!
//! ```text
//!   key 3.7/41/2 ──► hints of shard 3 ──► page ──► slot 41:  name 7/2, state
//!                    (may be wrong)                 value 41
//! ```
//!
//! A look-up *pins* the slot to which its hint leads, and then compares the slot's name with its
//! key. Slots are never freed before the slab, so a hint may be as old as it likes. If the slot is
//! closed, or has another name, the look-up asks under the lock. So only a hit goes without it.
//!
//! **States of a slot.** Its state is one word, with a number of pins:
//!
//! | State | Pins | The value | Who changes it |
//! |---|---|---|---|
//! | closed | none | none, or one thread's | the lock; or the thread that closed it |
//! | open | any | there | pins; the lock closes it if there is no pin |
//! | open, removed | at least 1, or soon claimed | there | pins; the last one claims it |
//! | open, removed, awaited | any | there | pins; the waiting thread claims it |
//!
//! To close is one exchange, from *open with no pin* to *closed*; to claim is one from *removed
//! with no pin*. So of all threads one alone has a closed slot, and only one without pins is ever
//! closed. A pin is an exchange too, of a slot that is *open*: nobody pins a closed one, which is
//! therefore opened by a store. A pin that finds another name is let go of as any other, so it may
//! be the one that claims.
//!
//! **Who may drop.** The thread that closed or claimed the slot takes the value out of it, then
//! frees its key under the lock, and then drops the value without any lock. So a value whose drop
//! panics, or calls the slab, finds it as if the value had never been there. A guard that is
//! forgotten keeps its pin, so nobody drops that value before the slab is dropped, and then nobody
//! can have a guard.
//!
//! **What a fold moves.** The core folds as it likes: no two keys of a group have one slot,
//! wherever their values are. The table follows: it closes all slots of the page that was folded,
//! copies the values to the same slots of the other page, and opens these. If one slot can't be
//! closed, it opens the others again, and the page *stays behind*, with its values where they were,
//! until a later compaction finds it without pins.
//!
//! **What is proved.** That no key is given out twice, which keys share a group, and that no two of
//! these have one slot: the core. All that stands here is tested: `models/pinned_slots.py` tries
//! each interleaving of pins, removals, waits, folds and inserts at two slots, and finds each wrong
//! step that it lists.

mod clear;
mod guards;
mod hints;
mod page;
mod slot;
mod table;
mod unique;

pub use clear::Clear;
pub use guards::{Entry, OwnedEntry, VacantEntry};
pub use unique::UniqueIter;

use crate::background::{Background, Compacts, Policy};
use crate::boxed::boxed;
use crate::compact::Compacted;
use crate::core::{ends_turn, Limits};
use crate::names::Key;
use crate::refused::{InsertError, Refused};
use crate::shared::homes::{Home, Homes};
use crate::shared::lock::Lock;
use crate::shared::turns::Turns;
use guards::Pinned;
use hints::Hints;
use page::{Owned, Page, Room};
use slot::{Claim, Pin, Slot};
use std::fmt;
use std::hint;
use std::io;
use std::ops::{Deref, DerefMut};
use std::sync::{Arc, OnceLock};
use std::thread;
use std::time::Duration;
use table::{key_of, name_of, slot_of, Removed, Table};

/// How many steps of a compaction are taken under one hold of a lock.
const PIECE: usize = 16;

/// How often a thread looks again, after longer and longer pauses and then after others have run,
/// whether a value that it waits for is still pinned; then it sleeps for that long each time.
const MOST_PAUSES: u32 = 6;
const MOST_YIELDS: u32 = 100;
const SLEEP: Duration = Duration::from_micros(50);

/// Values of any type that any thread keeps, looks up by reference and takes out, all through
/// `&self`; and whose pages are given back while others go on.
///
/// [`SharedSlab::get`] lends a value by a guard, an [`Entry`]. As long as that is there the value
/// stays, also when its key is removed, and no compaction moves it: the last guard drops what was
/// removed. A look-up that finds its value takes no lock. A call that keeps or takes out a value,
/// or that finds none, takes the lock of one shard of up to 64. A page has room for all its values
/// from the first one on, since a value with a guard could not move as it grows.
///
/// ```
/// use std::thread;
/// use teurlaks::SharedSlab;
///
/// let users = SharedSlab::new()?;
/// let ann = users.insert(String::from("Ann"))?;
/// thread::scope(|scope| {
///     for _ in 0..4 {
///         scope.spawn(|| assert_eq!(users.get(ann).unwrap().as_str(), "Ann"));
///     }
/// });
/// let guard = users.get(ann).unwrap();
/// assert!(users.remove(ann) && users.get(ann).is_none()); // nobody finds it any more
/// assert_eq!(guard.as_str(), "Ann"); // and it is dropped with its last guard
/// # Ok::<(), teurlaks::Refused>(())
/// ```
///
/// It has the habits of `sharded_slab`'s `Slab` and `Pool`: [`SharedSlab::vacant_entry`],
/// [`SharedSlab::take`], [`SharedSlab::get_owned`], [`SharedSlab::unique_iter`], and
/// [`SharedSlab::create_with`] and [`SharedSlab::clear`] for values that are used again.
///
/// # What is proved, and what is tested
///
/// That no key is given out twice is proved of the core in each shard; that a value is neither
/// dropped nor moved while it has a guard is tested, by threads and by a model of all
/// interleavings.
///
/// # Threads
///
/// It is `Send` where its values are `Send`, and `Sync` where they are `Send` and `Sync`, since any
/// thread may drop a value:
///
/// ```compile_fail
/// fn share<T: Sync>() {}
/// share::<teurlaks::SharedSlab<std::cell::Cell<u8>>>(); // a cell is not `Sync`
/// ```
///
/// Calls under one key are in one order, which all threads see. [`SharedSlab::len`] and
/// [`SharedSlab::pages`] go from shard to shard, so beside other threads they are of no single
/// moment.
///
/// # Panics in the code of users
///
/// No closure, no [`Clear`] and no drop of a value runs under a lock, so each may call the slab,
/// and one that panics leaves all other values as they were: no later call panics because of it.
pub struct SharedSlab<T> {
    shards: Box<[Shard<T>]>,
    // Of each shard.
    hints: Arc<[Hints<T>]>,
    homes: Homes,
    // Of each core by itself.
    limits: Limits,
    // How values are cleared, once one was to be.
    clear: OnceLock<fn(&mut T)>,
    turns: Turns,
}

/// The table of a shard, which comes with its first value. It has two lines of a cache to itself,
/// since processors fetch these in pairs. No code of a user runs under its lock.
#[repr(align(128))]
struct Shard<T>(Lock<Option<Box<Table<T>>>>);

impl<T> Deref for Shard<T> {
    type Target = Lock<Option<Box<Table<T>>>>;

    #[inline]
    fn deref(&self) -> &Lock<Option<Box<Table<T>>>> {
        &self.0
    }
}

impl<T> DerefMut for Shard<T> {
    fn deref_mut(&mut self) -> &mut Lock<Option<Box<Table<T>>>> {
        &mut self.0
    }
}

impl<T> SharedSlab<T> {
    /// A slab of 64 shards with no value, whose limits are those of memory: each shard has as many
    /// pages as one may have. So it may hold 17,179,869,184 values of fewer than 16 bytes, or
    /// 1,073,741,824 of 4,096.
    ///
    /// # Errors
    ///
    /// None: the limits are in range.
    pub fn new() -> Result<SharedSlab<T>, Refused> {
        SharedSlab::with_limits(Limits::most())
    }

    /// A slab of these limits. A shard has no core until its first value.
    ///
    /// # Errors
    ///
    /// [`Refused::Config`] exactly where a number is out of its range.
    pub fn with_limits(limits: Limits) -> Result<SharedSlab<T>, Refused> {
        limits.check()?;
        Ok(SharedSlab {
            shards: (0..limits.shards).map(|_| Shard(Lock::new(None))).collect(),
            hints: (0..limits.shards).map(|_| Hints::new()).collect(),
            homes: Homes::new(limits.shards as usize),
            limits: Limits {
                shards: 1,
                ..limits
            },
            clear: OnceLock::new(),
            turns: Turns::default(),
        })
    }

    /// Keeps a value, and gives its key, which was never given out before. A value that is refused
    /// is dropped, and [`SharedSlab::try_insert`] gives it back.
    ///
    /// # Errors
    ///
    /// - [`Refused::PagesSpent`] only where no shard has room: each was asked, and may have no
    ///   further page;
    /// - [`Refused::OutOfMemory`] where memory was refused.
    #[inline]
    pub fn insert(&self, value: T) -> Result<Key, Refused> {
        let entry = self.vacant_entry()?;
        let key = entry.key();
        entry.insert(value);
        Ok(key)
    }

    /// As [`SharedSlab::insert`], and gives a value that is refused back.
    ///
    /// # Errors
    ///
    /// As of [`SharedSlab::insert`], with the value.
    pub fn try_insert(&self, value: T) -> Result<Key, InsertError<T>> {
        match self.vacant_entry() {
            Ok(entry) => {
                let key = entry.key();
                entry.insert(value);
                Ok(key)
            }
            Err(refused) => Err(InsertError { value, refused }),
        }
    }

    /// Keeps the value that is made with its own key. Where that panics, nothing is kept.
    ///
    /// # Errors
    ///
    /// As of [`SharedSlab::insert`]; no value is made then.
    pub fn insert_with_key(&self, value: impl FnOnce(Key) -> T) -> Result<Key, Refused> {
        let entry = self.vacant_entry()?;
        let key = entry.key();
        entry.insert(value(key));
        Ok(key)
    }

    /// A key for a value that is still to come. Any number of entries may be vacant at once. Each
    /// counts as a value in [`SharedSlab::len`] until it is dropped.
    ///
    /// # Errors
    ///
    /// As of [`SharedSlab::insert`].
    ///
    /// ```
    /// # use teurlaks::SharedSlab;
    /// let slab = SharedSlab::new()?;
    /// let entry = slab.vacant_entry()?;
    /// let key = entry.key();
    /// assert!(slab.get(key).is_none());
    /// entry.insert((key, "hello"));
    /// assert_eq!(*slab.get(key).unwrap(), (key, "hello"));
    /// # Ok::<(), teurlaks::Refused>(())
    /// ```
    #[inline]
    pub fn vacant_entry(&self) -> Result<VacantEntry<'_, T>, Refused> {
        let room = Room::new()?;
        let home = self.homes.next();
        let (key, page) = match self.insert_vacant(home.shard()) {
            Ok((key, page)) => {
                if ends_turn(key) {
                    home.move_on();
                }
                (key, page)
            }
            Err(Refused::PagesSpent) => self.insert_vacant_beyond(home)?,
            Err(refused) => return Err(refused),
        };
        Ok(VacantEntry::new(self, page, key, room))
    }

    /// A key of the shard, which has a core from then on.
    #[inline]
    fn insert_vacant(&self, shard: u8) -> Result<(Key, Page<T>), Refused> {
        let mut held = self.shards[usize::from(shard)].lock();
        let table = match &mut *held {
            Some(table) => table,
            none => none.insert(self.open_table(shard)?),
        };
        let (key, page) = table.insert_vacant()?;
        Ok((key.with_shard(shard), page))
    }

    /// A table for the shard, which has none.
    #[cold]
    fn open_table(&self, shard: u8) -> Result<Box<Table<T>>, Refused> {
        boxed(Table::open(self.limits, &self.hints, shard)?)
    }

    /// A key of the next shard that has room: of those beside the home, and then of all, first of
    /// those that have a core. That is the thread's home from then on.
    #[cold]
    fn insert_vacant_beyond(&self, home: Home<'_>) -> Result<(Key, Page<T>), Refused> {
        let has_core = |shard: &u8| self.shards[usize::from(*shard)].lock().is_some();
        let beside = home.beside().filter(has_core).chain(home.beside());
        let all = home.all().filter(has_core).chain(home.all());
        for shard in beside.chain(all) {
            match self.insert_vacant(shard) {
                Err(Refused::PagesSpent) => {}
                done => {
                    home.move_to(shard);
                    return done;
                }
            }
        }
        Err(Refused::PagesSpent)
    }

    /// A cleared value of the key's shard, if there is one.
    fn spare(&self, key: Key) -> Option<T> {
        self.with(key, |table, _| table.take_spare())?
    }

    /// Gives up a key whose value will not come.
    fn vacate(&self, key: Key) {
        self.with(key, Table::vacate);
    }

    /// Lends the value of the key, where it is live.
    #[inline]
    #[must_use]
    pub fn get(&self, key: Key) -> Option<Entry<'_, T>> {
        Some(Entry::new(self, self.pin(key)?))
    }

    /// Lends the value of the key, where it is live, with a share of the slab. So the guard borrows
    /// nothing, and the slab is there as long as it is.
    ///
    /// ```
    /// # use std::sync::Arc;
    /// # use teurlaks::SharedSlab;
    /// let slab = Arc::new(SharedSlab::new()?);
    /// let key = slab.insert("a")?;
    /// let entry = slab.get_owned(key).unwrap();
    /// drop(slab);
    /// std::thread::spawn(move || assert_eq!(entry, "a")).join().unwrap();
    /// # Ok::<(), teurlaks::Refused>(())
    /// ```
    #[must_use]
    pub fn get_owned(self: &Arc<Self>, key: Key) -> Option<OwnedEntry<T>> {
        let pinned = self.pin(key)?;
        Some(OwnedEntry::new(Arc::clone(self), pinned))
    }

    /// Whether the key is live.
    #[inline]
    #[must_use]
    pub fn contains(&self, key: Key) -> bool {
        self.get(key).is_some()
    }

    /// Pins the value of the key.
    #[inline]
    fn pin(&self, key: Key) -> Option<Pinned<T>> {
        let page = self.page_with_pin(key)?;
        // SAFETY: its slot has the key's name, and is pinned.
        Some(unsafe { Pinned::new(page, key) })
    }

    /// The page where the value of the key stands, which is pinned: by its hint, or else under the
    /// lock.
    // The page alone, which is in a register whoever finds it.
    #[inline]
    fn page_with_pin(&self, key: Key) -> Option<Page<T>> {
        let slot = slot_of(key);
        if slot >= Page::<T>::SLOTS {
            return None;
        }
        if let Some(page) = self.hints.get(key.shard() as usize)?.find(key.serial()) {
            match page.slot(slot).pin(name_of(key)) {
                Pin::Held => return Some(page),
                Pin::Failed(None) => {}
                Pin::Failed(Some(claim)) => self.finish(key.shard(), page, slot, claim),
            }
        }
        self.pin_under_lock(key)
    }

    #[cold]
    fn pin_under_lock(&self, key: Key) -> Option<Page<T>> {
        self.with(key, |table, inner| {
            let page = table.find_live(inner)?;
            page.slot(slot_of(inner)).pin_live();
            table.hint(inner, page);
            Some(page)
        })?
    }

    /// Lets go of a pin that is given up with this.
    #[inline]
    fn let_go(&self, pinned: Pinned<T>) {
        let (page, slot) = (pinned.page(), slot_of(pinned.key()));
        if let Some(claim) = page.slot(slot).unpin() {
            self.finish(pinned.key().shard(), page, slot, claim);
        }
    }

    /// Takes the value of a claimed slot out, and does with it what is to be done. It may be the
    /// value of another key than the one whose pin was let go of.
    #[cold]
    fn finish(&self, shard: u32, page: Page<T>, slot: usize, claim: Claim) {
        // SAFETY: the slot was claimed with its value, which this thread has alone from then on.
        let value = unsafe { page.take(slot) };
        let mut held = self.shards[shard as usize].lock();
        if let (Some(table), Some(key)) = (held.as_mut(), key_of(page.slot(slot).name(), slot)) {
            table.vacate_removed(key);
        }
        drop(held);
        self.let_go_of_value(shard, value, claim);
    }

    /// Drops a value that was removed, or clears it and keeps it as a spare.
    fn let_go_of_value(&self, shard: u32, value: Owned<T>, then: Claim) {
        let (Claim::Clear, Some(clear)) = (then, self.clear.get()) else {
            return;
        };
        let mut value = value.into_value();
        clear(&mut value);
        let mut held = self.shards[shard as usize].lock();
        let refused = match held.as_mut() {
            Some(table) => table.keep_spare(value),
            None => Some(value),
        };
        drop(held);
        drop(refused);
    }

    /// What the call on the table of the key's shard gives, where there is such a one, with the key
    /// as it is known there.
    #[inline]
    fn with<R>(&self, key: Key, call: impl FnOnce(&mut Table<T>, Key) -> R) -> Option<R> {
        let mut held = self.shards.get(key.shard() as usize)?.lock();
        held.as_mut().map(|table| call(table, key.with_shard(0)))
    }

    /// Removes the value of the key, and says whether there was one. Nobody finds it from then on.
    /// It is dropped here if it has no guard, and else by its last one. It does not wait.
    ///
    /// ```
    /// # use teurlaks::SharedSlab;
    /// let slab = SharedSlab::new()?;
    /// let key = slab.insert(7)?;
    /// assert!(slab.remove(key) && !slab.remove(key));
    /// # Ok::<(), teurlaks::Refused>(())
    /// ```
    pub fn remove(&self, key: Key) -> bool {
        self.remove_and(key, Claim::Drop)
    }

    fn remove_and(&self, key: Key, then: Claim) -> bool {
        match self.with(key, |table, key| table.remove(key, then)) {
            None | Some(Removed::Nothing) => false,
            Some(Removed::Pinned(_)) => true,
            Some(Removed::Value(value)) => {
                self.let_go_of_value(key.shard(), value, then);
                true
            }
        }
    }

    /// Takes the value of the key out, where it is live. Nobody finds it from then on. Of threads
    /// that take or remove one key, one gets it.
    ///
    /// It waits until each guard of the value is dropped. So it never returns if its own thread has
    /// one, or one was forgotten: [`SharedSlab::remove`] does not wait.
    ///
    /// ```
    /// # use teurlaks::SharedSlab;
    /// let slab = SharedSlab::new()?;
    /// let key = slab.insert(String::from("a"))?;
    /// assert_eq!(slab.take(key), Some(String::from("a")));
    /// assert_eq!(slab.take(key), None);
    /// # Ok::<(), teurlaks::Refused>(())
    /// ```
    pub fn take(&self, key: Key) -> Option<T> {
        match self.with(key, Table::remove_awaited)? {
            Removed::Nothing => None,
            Removed::Value(value) => Some(value.into_value()),
            Removed::Pinned(page) => {
                await_pins(page.slot(slot_of(key)));
                // SAFETY: the slot was claimed with its value.
                let value = unsafe { page.take(slot_of(key)) };
                self.with(key, Table::vacate_removed);
                Some(value.into_value())
            }
        }
    }

    /// Each key with its value, to be changed, in no particular order. Values that were removed
    /// while a guard was there that was forgotten do not come.
    ///
    /// ```
    /// # use teurlaks::SharedSlab;
    /// let mut slab = SharedSlab::new()?;
    /// let key = slab.insert(1)?;
    /// for (_, value) in slab.unique_iter() {
    ///     *value += 1;
    /// }
    /// assert_eq!(slab.get(key).unwrap(), 2);
    /// # Ok::<(), teurlaks::Refused>(())
    /// ```
    pub fn unique_iter(&mut self) -> UniqueIter<'_, T> {
        UniqueIter::new(self)
    }

    /// How many values there are, with those that are still to come in a [`VacantEntry`] and
    /// without those that are removed.
    #[must_use]
    pub fn len(&self) -> usize {
        self.sum(Table::len)
    }

    /// Whether there is no value.
    #[must_use]
    pub fn is_empty(&self) -> bool {
        self.len() == 0
    }

    /// How many pages of up to 4,096 bytes the cores have.
    #[must_use]
    pub fn pages(&self) -> usize {
        self.sum(Table::pages)
    }

    /// How many pages of values there are: one for each page of a core with a value, and one for
    /// each that stayed behind a fold, since one of its values had a guard.
    #[must_use]
    pub fn value_pages(&self) -> usize {
        self.sum(Table::value_pages)
    }

    fn sum(&self, count: impl Fn(&Table<T>) -> usize) -> usize {
        self.shards
            .iter()
            .map(|shard| shard.lock().as_deref().map_or(0, &count))
            .sum()
    }

    /// How many shards there are, with those that have no value yet.
    #[must_use]
    pub fn shards(&self) -> u32 {
        self.shards.len() as u32
    }

    /// Gives back the pages on which no value is, drops the values that were cleared and not used
    /// again, and says how many pages went. No value moves.
    pub fn trim(&self) -> usize {
        let mut went = 0;
        for shard in &*self.shards {
            let spares = shard.lock().as_mut().map(|table| {
                went += table.trim();
                table.take_spares()
            });
            drop(spares);
        }
        went
    }

    /// Forgets what is kept of pages that were folded onto others and whose keys are all gone, and
    /// says how many. [`SharedSlab::compact`] does so too.
    pub fn forget(&self) -> usize {
        self.shards
            .iter()
            .map(|shard| shard.lock().as_deref_mut().map_or(0, Table::forget))
            .sum()
    }

    /// Gives back the pages on which no value is, folds sparse pages of each shard onto others
    /// until that hardly gives any back, and says how many pages went. Every key stays valid.
    ///
    /// It goes as [`Core::compact`](crate::Core::compact). Others go on meanwhile: the lock of a
    /// shard is held for up to 16 steps at a time, and no value with a guard moves. If one such
    /// value is on a page that is folded, the core's page goes back, and its page of values when a
    /// later compaction finds no guard there.
    ///
    /// # Errors
    ///
    /// [`Refused::OutOfMemory`] where memory was refused. It stops where it is then, and may be
    /// tried again.
    ///
    /// ```
    /// # use teurlaks::SharedSlab;
    /// let slab = SharedSlab::new()?;
    /// let keys = (0..100_000).map(|n| slab.insert(n.to_string()));
    /// let keys: Vec<_> = keys.collect::<Result<_, _>>()?;
    /// for (n, key) in keys.iter().enumerate().filter(|(n, _)| n % 11 != 0) {
    ///     slab.remove(*key); // one in eleven stays, on each of some 782 pages
    /// }
    /// let guard = slab.get(keys[22]).unwrap();
    /// assert!(slab.compact()? > 600);
    /// assert_eq!((guard.as_str(), slab.get(keys[33]).unwrap().as_str()), ("22", "33"));
    /// # Ok::<(), teurlaks::Refused>(())
    /// ```
    pub fn compact(&self) -> Result<usize, Refused> {
        self.shards.iter().map(compact_shard).sum()
    }

    /// Takes at most so many steps of a compaction of one shard after the other, at least one, and
    /// says how many pages went and whether there is more to do. The next call, of whichever
    /// thread, goes on where this one stopped; once there is no more to do, the next one begins
    /// anew.
    ///
    /// What a step is, and what a plan looks at, is as of
    /// [`Core::compact_within`](crate::Core::compact_within), of a budget of 16.
    ///
    /// # Errors
    ///
    /// [`Refused::OutOfMemory`] where memory was refused. Every key has its value, and the next
    /// call goes on from there. It also counts the pages that went in this one.
    pub fn compact_within(&self, budget: usize) -> Result<Compacted, Refused> {
        self.turns
            .compact_within(self.shards.len(), budget, |shard, left| {
                let piece = PIECE.min(*left);
                *left -= piece;
                compact_piece(&self.shards[shard], piece)
            })
    }
}

impl<T: Default> SharedSlab<T> {
    /// Keeps a value that was [cleared](SharedSlab::clear) before or, where there is none, a
    /// default one, once the closure has made of it what it is to be; and gives its key.
    ///
    /// Where the closure panics, nothing is kept, and the value is dropped.
    ///
    /// # Errors
    ///
    /// As of [`SharedSlab::insert`]; the closure is not called then.
    ///
    /// ```
    /// # use teurlaks::SharedSlab;
    /// let lines = SharedSlab::<String>::new()?;
    /// let key = lines.create_with(|line| line.push_str("hello"))?;
    /// let room = lines.get(key).unwrap().capacity();
    /// assert!(lines.clear(key) && lines.get(key).is_none());
    /// # Ok::<(), teurlaks::Refused>(())
    /// ```
    pub fn create_with(&self, init: impl FnOnce(&mut T)) -> Result<Key, Refused> {
        let entry = self.vacant_entry()?;
        let key = entry.key();
        let mut value = entry.spare_or_default();
        init(&mut value);
        entry.insert(value);
        Ok(key)
    }
}

impl<T: Clear> SharedSlab<T> {
    /// Removes the value of the key as [`SharedSlab::remove`] does, but clears it in place of
    /// dropping it, and keeps it for the next [`SharedSlab::create_with`] in its shard; and says
    /// whether there was one.
    ///
    /// The thread that drops its last guard clears it. Where that panics, the value is dropped.
    pub fn clear(&self, key: Key) -> bool {
        self.clear.get_or_init(|| T::clear);
        self.remove_and(key, Claim::Clear)
    }
}

impl<T: Send + Sync + 'static> SharedSlab<T> {
    /// Compacts the slab on a thread of its own for as long as the guard lives that is returned, as
    /// [`SharedStore::compact_in_background`](crate::SharedStore::compact_in_background) does.
    ///
    /// # Errors
    ///
    /// The system's, if it refuses a thread.
    pub fn compact_in_background(self: &Arc<Self>, policy: Policy) -> io::Result<Background> {
        Background::begin(policy, Arc::clone(self))
    }
}

impl<T: Send + Sync + 'static> Compacts for Arc<SharedSlab<T>> {
    fn pages_and_most_folds(&self) -> (usize, usize) {
        self.shards
            .iter()
            .map(|shard| {
                shard
                    .lock()
                    .as_deref()
                    .map_or((0, 0), Table::pages_and_most_folds)
            })
            .fold((0, 0), |(pages, folds), (more, most)| {
                (pages + more, folds + most)
            })
    }

    fn live(&self) -> Option<usize> {
        Some(self.len())
    }

    fn compact_part(&self, budget: usize) -> Result<Compacted, Refused> {
        self.compact_within(budget)
    }

    fn give_up(&self) {
        self.turns.give_up(|shard| give_up(&self.shards[shard]));
    }
}

/// Compacts one shard to its end.
fn compact_shard<T>(shard: &Shard<T>) -> Result<usize, Refused> {
    let mut pages = 0;
    loop {
        match compact_piece(shard, PIECE) {
            Ok(done) => {
                pages += done.pages;
                if !done.more {
                    return Ok(pages);
                }
            }
            Err(refused) => {
                give_up(shard);
                return Err(refused);
            }
        }
    }
}

/// Takes so many steps of the compaction of one shard, and lets others have its lock.
fn compact_piece<T>(shard: &Shard<T>, budget: usize) -> Result<Compacted, Refused> {
    let done = shard
        .lock()
        .as_mut()
        .map(|table| table.compact_within(budget));
    shard.let_others();
    done.unwrap_or(Ok(Compacted::default()))
}

/// Ends the compaction of one shard where it is.
fn give_up<T>(shard: &Shard<T>) {
    if let Some(table) = shard.lock().as_mut() {
        table.give_up_compaction();
    }
}

/// Waits until nobody pins the removed value of the slot, and claims it.
#[cold]
fn await_pins(slot: &Slot) {
    let mut tries = 0;
    while !slot.claim_awaited() {
        match tries {
            0..=MOST_PAUSES => (0..1 << tries).for_each(|_| hint::spin_loop()),
            _ if tries < MOST_YIELDS => thread::yield_now(),
            _ => thread::sleep(SLEEP),
        }
        tries = (tries + 1).min(MOST_YIELDS);
    }
}

// SAFETY: it owns its values, and all else that it has may go to another thread.
unsafe impl<T: Send> Send for SharedSlab<T> {}
// SAFETY: through `&SharedSlab` values are lent, which needs `T: Sync`, and kept and taken out,
// which needs `T: Send`. Whoever touches a value has a pin of it or its slot alone, as is said
// above.
unsafe impl<T: Send + Sync> Sync for SharedSlab<T> {}

impl<T> Default for SharedSlab<T> {
    /// A slab as of [`SharedSlab::new`].
    fn default() -> SharedSlab<T> {
        SharedSlab::new().expect("the limits are in range")
    }
}

impl<T> fmt::Debug for SharedSlab<T> {
    fn fmt(&self, f: &mut fmt::Formatter<'_>) -> fmt::Result {
        f.debug_struct("SharedSlab")
            .field("len", &self.len())
            .finish_non_exhaustive()
    }
}

#[cfg(test)]
mod tests {
    use super::table::{name_of, slot_of};
    use super::SharedSlab;
    use crate::background::Compacts;
    use crate::core::Limits;
    use crate::names::Key;
    use crate::refused::Refused;
    use std::sync::Arc;

    /// A slab of one shard with so many values, and their keys.
    fn filled(values: u64) -> Result<(Arc<SharedSlab<u64>>, Vec<Key>), Refused> {
        let slab = SharedSlab::with_limits(Limits::default())?;
        let keys = (0..values).map(|value| slab.insert(value));
        let keys = keys.collect::<Result<_, _>>()?;
        Ok((Arc::new(slab), keys))
    }

    /// A look-up whose hint is wrong leaves the right one.
    #[test]
    fn hints_are_mended() -> Result<(), Refused> {
        let (slab, keys) = filled(1000)?;
        let hints = &slab.hints[0];
        let (first, last) = (keys[0], keys[999]);
        let page = hints.find(last.serial()).expect("it has a hint");
        let other = hints.find(first.serial()).expect("it has one too");
        assert!(page != other);
        hints.set(last.serial(), other);
        assert_eq!(slab.get(last).as_deref(), Some(&999));
        assert!(hints.find(last.serial()) == Some(page));
        Ok(())
    }

    /// A larger table of hints has all of them.
    #[test]
    fn hints_grow() -> Result<(), Refused> {
        let (slab, keys) = filled(100 * 256)?;
        assert!(slab.hints[0].len() >= 100);
        for key in keys.iter().step_by(256) {
            let page = slab.hints[0].find(key.serial()).expect("it has a hint");
            assert_eq!(page.slot(slot_of(*key)).name(), name_of(*key));
        }
        Ok(())
    }

    /// Nothing is left in the pool, and no plan open, wherever a compaction is given up.
    #[test]
    fn nothing_is_left_of_what_is_given_up() -> Result<(), Refused> {
        let mut has_begun = false;
        for parts in 1..60 {
            let (slab, keys) = filled(5000)?;
            for key in keys.iter().filter(|key| key.slot() % 23 > 0) {
                assert!(slab.remove(*key));
            }
            for _ in 0..parts {
                let _ = slab.compact_within(1)?;
            }
            let is_pooled = || {
                let held = slab.shards[0].lock();
                let table = held.as_deref().expect("it has a table");
                !table.pool_is_empty()
            };
            has_begun |= is_pooled();
            Compacts::give_up(&slab);
            assert!(!is_pooled());
            let (pages, gone) = (slab.pages(), slab.compact()?);
            assert_eq!(slab.pages(), pages - gone);
            assert_eq!(slab.get(keys[0]).as_deref(), Some(&0));
        }
        assert!(has_begun);
        Ok(())
    }
}
