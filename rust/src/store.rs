//! Plain values in the pages themselves, and the iterators over them.

mod iterators;

pub use iterators::{Drain, IntoIter, Iter, Keys, Values};

use crate::bytes::{slots_for, words_for, MOST_BYTES, MOST_WORDS};
use crate::compact::Compacted;
use crate::core::{ends_turn, Core, Limits, SHARDS};
use crate::names::Key;
use crate::refused::Refused;
use crate::walk::Place;
use std::fmt;
use std::marker::PhantomData;
use std::mem::{size_of, MaybeUninit};

/// Plain values of one type, 1 to 256 bytes each, whose bytes stand in the pages: what folds give
/// back is theirs.
///
/// A value takes as few words of 16 bytes as hold it, and as many share a page as fit its 256
/// words: 85 values of 33 to 48 bytes, for example. It is handed out by copy. For values that are
/// to be borrowed, or dropped, there is [`Slab`](crate::Slab). As there, an insert may be refused:
/// `extend` and `collect` panic then, and [`Store::try_extend`] and [`Store::try_from_iter`] do
/// not.
///
/// It is not `Clone`, for the reason that [`Core`] has: copies of its values have other keys.
///
/// It is `Send` and `Sync` if its values are: many threads may look values up at once, for example
/// as readers of an [`RwLock`](std::sync::RwLock), and one at a time changes it.
///
/// ```compile_fail,E0277
/// fn share<T: Sync>() {}
/// share::<teurlaks::Store<*const u8>>(); // a pointer is not `Sync`
/// ```
///
/// ```
/// use teurlaks::Store;
///
/// #[derive(Clone, Copy, Debug, PartialEq)]
/// struct Session {
///     user: u64,
///     token: [u8; 24],
/// }
///
/// let mut sessions = Store::new()?;
/// let key = sessions.insert(Session { user: 7, token: [1; 24] })?;
/// assert_eq!(sessions.get(key).map(|session| session.user), Some(7));
/// assert!(sessions.remove(key).is_some());
/// assert_eq!(sessions.get(key), None); // now and for ever
/// # Ok::<(), teurlaks::Refused>(())
/// ```
pub struct Store<T> {
    // SAFETY: only `keep_in` puts into it, and what is set is a `T`, so that each live key's object
    // begins with the bytes of one, but for a key of `insert_with_key`, which has zeros for as long
    // as nobody may ask for it.
    core: Core,
    // The shard that an insert without a shard asks before the others: the last that had room.
    first: u32,
    // Whether a shard with many pages leaves the next ones to the next shard.
    takes_turns: bool,
    values: PhantomData<T>,
}

impl<T: Copy> Store<T> {
    const FITS: () = assert!(
        1 <= size_of::<T>() && size_of::<T>() <= MOST_BYTES,
        "a value of a store has 1 to 256 bytes"
    );

    /// How many values share a page.
    const SLOTS: usize = slots_for(words_for(size_of::<T>()));

    /// A store with no value, whose limits are those of memory: of 16 shards, each of as many pages
    /// as a shard may have. So it may hold as many values at once as 16,777,216 pages have room
    /// for: 4,294,967,296 of up to 16 bytes, or 268,435,456 of 256. It asks for nothing but a
    /// [`Store::compact`] now and then, if most of what it held is gone and the memory is wanted
    /// back.
    ///
    /// A shard that has opened 1,024 pages leaves the next ones to the next shard, since a
    /// compaction goes by how many pages a shard has. [`Slab::new`](crate::Slab::new) says why
    /// there are no more shards.
    ///
    /// # Errors
    ///
    /// None: it takes no memory until its first value.
    pub fn new() -> Result<Store<T>, Refused> {
        let mut store = Store::with_limits(Limits {
            shards: SHARDS,
            ..Limits::default()
        })?;
        store.takes_turns = true;
        Ok(store)
    }

    /// A store of these limits. It takes no memory until its first value.
    ///
    /// # Errors
    ///
    /// [`Refused::Config`] exactly where a number is out of its range.
    pub fn with_limits(limits: Limits) -> Result<Store<T>, Refused> {
        let () = Self::FITS;
        Ok(Store {
            core: Core::new(limits)?,
            first: 0,
            takes_turns: false,
            values: PhantomData,
        })
    }

    /// A store as of [`Store::new`] that may hold so many values at once, of more shards if it
    /// takes them. Its pages come as they are filled.
    ///
    /// # Errors
    ///
    /// [`Refused::Config`] if 64 shards are too few: for more values than 67,108,864 pages have
    /// room for.
    pub fn with_capacity(capacity: usize) -> Result<Store<T>, Refused> {
        let limits = Limits::default();
        let of_a_shard = limits.pages as usize * limits.slots_of(Self::SLOTS);
        let shards = capacity / of_a_shard + usize::from(capacity % of_a_shard != 0);
        let mut store = Store::with_limits(Limits {
            shards: u32::try_from(shards)
                .map_err(|_| Refused::Config)?
                .max(SHARDS),
            ..limits
        })?;
        store.takes_turns = true;
        Ok(store)
    }

    /// How many values it may hold at once at most: as many as there are slots on the pages that
    /// the shards which have not ended may have. It is not what it has memory for. Fewer fit where
    /// slots have given out all their generations, or shards have opened all spans that they open
    /// in their life.
    #[must_use]
    pub fn capacity(&self) -> usize {
        let limits = self.core.limits();
        self.core.running_shards() * limits.pages as usize * limits.slots_of(Self::SLOTS)
    }

    /// Keeps a value in the shard that the last such value went to, or where that has no room, in
    /// the first that has; and gives its key, which was never given out before.
    ///
    /// # Errors
    ///
    /// - [`Refused::Ended`] only where each shard has ended;
    /// - [`Refused::PagesSpent`] only where each that has not may have no further page;
    /// - [`Refused::OutOfMemory`] where memory was refused.
    #[inline]
    pub fn insert(&mut self, value: T) -> Result<Key, Refused> {
        self.keep(value)
    }

    /// Keeps a value, or the bytes of one, where `insert` does.
    #[inline]
    fn keep<V: Copy>(&mut self, value: V) -> Result<Key, Refused> {
        match self.keep_in(self.first, value) {
            Ok(key) => {
                if self.takes_turns && ends_turn(key) {
                    self.first = (self.first + 1) % self.core.shards();
                }
                Ok(key)
            }
            Err(Refused::PagesSpent | Refused::Ended) => self.keep_elsewhere(value),
            refused => refused,
        }
    }

    /// Keeps it in another shard than the first that was to be asked.
    #[cold]
    fn keep_elsewhere<V: Copy>(&mut self, value: V) -> Result<Key, Refused> {
        let mut why = Refused::Ended;
        for shard in 0..self.core.shards() {
            match self.keep_in(shard, value) {
                Ok(key) => {
                    self.first = shard;
                    return Ok(key);
                }
                Err(Refused::Ended) => {}
                Err(Refused::PagesSpent) => why = Refused::PagesSpent,
                Err(refused) => return Err(refused),
            }
        }
        Err(why)
    }

    /// Keeps it in the shard.
    #[inline]
    fn keep_in<V: Copy>(&mut self, shard: u32, value: V) -> Result<Key, Refused> {
        // SAFETY: so many words stand there.
        as_words(value, |first, len| unsafe {
            self.core.put_words(shard, first, len)
        })
    }

    /// Keeps a value in the shard.
    ///
    /// # Errors
    ///
    /// As of [`Core::insert`](crate::Core::insert).
    #[inline]
    pub fn insert_in(&mut self, shard: u32, value: T) -> Result<Key, Refused> {
        self.keep_in(shard, value)
    }

    /// Keeps the value that is made with its own key, where [`Store::insert`] would. Where that
    /// panics, nothing is kept.
    ///
    /// # Errors
    ///
    /// As of [`Store::insert`]; no value is made then.
    ///
    /// ```
    /// # use teurlaks::{Key, Store};
    /// #[derive(Clone, Copy)]
    /// struct Node {
    ///     next: Key,
    /// }
    /// let mut ring = Store::new()?;
    /// let first = ring.insert_with_key(|own| Node { next: own })?;
    /// assert_eq!(ring.get(first).map(|node| node.next), Some(first));
    /// # Ok::<(), teurlaks::Refused>(())
    /// ```
    pub fn insert_with_key(&mut self, value: impl FnOnce(Key) -> T) -> Result<Key, Refused> {
        let key = self.keep(MaybeUninit::<T>::zeroed())?;
        let waiting = Waiting {
            core: &mut self.core,
            key,
        };
        // SAFETY: so many words stand there.
        as_words(value(key), |first, len| unsafe {
            waiting.core.set_all_words(key, first, len)
        })?;
        std::mem::forget(waiting);
        Ok(key)
    }

    /// Keeps each value in turn, until one is refused. Those before it stay, and of an iterator
    /// that is lent, those after it are left.
    ///
    /// # Errors
    ///
    /// As of [`Store::insert`].
    pub fn try_extend(&mut self, values: impl IntoIterator<Item = T>) -> Result<(), Refused> {
        values
            .into_iter()
            .try_for_each(|value| self.insert(value).map(drop))
    }

    /// A store of these values, as [`Store::new`] and [`Store::try_extend`] make it.
    ///
    /// # Errors
    ///
    /// As of [`Store::new`] and [`Store::insert`].
    ///
    /// ```
    /// # use teurlaks::Store;
    /// let mut store = Store::try_from_iter(0..10)?;
    /// store.retain(|_, value| value > 6);
    /// for (key, value) in &store {
    ///     assert_eq!(store.get(key), Some(value));
    /// }
    /// assert!(store.drain().map(|(_, value)| value).eq(7..10));
    /// # Ok::<(), teurlaks::Refused>(())
    /// ```
    pub fn try_from_iter(values: impl IntoIterator<Item = T>) -> Result<Store<T>, Refused> {
        let mut store = Store::new()?;
        store.try_extend(values)?;
        Ok(store)
    }

    /// Sets the key to the value in place, and says whether it did: where it is live. It takes
    /// memory only for the first value on a page whose bytes are not all zeros.
    ///
    /// # Errors
    ///
    /// As of [`Core::set`](crate::Core::set).
    #[inline]
    pub fn set(&mut self, key: Key, value: T) -> Result<bool, Refused> {
        // SAFETY: so many words stand there.
        as_words(value, |first, len| unsafe {
            self.core.set_all_words(key, first, len)
        })
    }

    /// Sets the key to the value, and gives the one that it had, where it is live; else nothing
    /// changes.
    ///
    /// # Errors
    ///
    /// As of [`Core::set`](crate::Core::set).
    #[inline]
    pub fn replace(&mut self, key: Key, value: T) -> Result<Option<T>, Refused> {
        let before = self.get(key);
        Ok(if self.set(key, value)? { before } else { None })
    }

    /// Changes the value of the key by the closure, and gives what that returns, where the key is
    /// live. Where the closure panics the value stays as it was.
    ///
    /// # Errors
    ///
    /// As of [`Core::set`](crate::Core::set).
    ///
    /// ```
    /// # use teurlaks::Store;
    /// let mut hits = Store::new()?;
    /// let page = hits.insert(0_u64)?;
    /// let before = hits.update(page, |count| std::mem::replace(count, 7))?;
    /// assert_eq!((before, hits.get(page)), (Some(0), Some(7)));
    /// # Ok::<(), teurlaks::Refused>(())
    /// ```
    pub fn update<R>(
        &mut self,
        key: Key,
        change: impl FnOnce(&mut T) -> R,
    ) -> Result<Option<R>, Refused> {
        let Some(mut value) = self.get(key) else {
            return Ok(None);
        };
        let answer = change(&mut value);
        Ok(self.set(key, value)?.then_some(answer))
    }

    /// The value of the key, where it is live.
    #[inline]
    #[must_use]
    pub fn get(&self, key: Key) -> Option<T> {
        // SAFETY: the library is proved to find what was put, and only values were.
        let read = |first: *const u128| unsafe { first.cast::<T>().read_unaligned() };
        if Self::SLOTS == 256 {
            self.core.get(key).map(|word| read(&word))
        } else {
            self.core.read_words(key, read)
        }
    }

    /// Takes the value of the key out, where it is live. The key finds nothing from then on.
    #[doc(alias = "try_remove")]
    pub fn remove(&mut self, key: Key) -> Option<T> {
        let value = self.get(key)?;
        self.core.free_live(key);
        Some(value)
    }

    /// Takes out each value that the test does not keep, in the order of [`Store::iter`]. Where the
    /// test panics, all that it has not come to stays.
    pub fn retain(&mut self, mut keeps: impl FnMut(Key, T) -> bool) {
        let mut place = Place::first();
        while let Some(key) = place.next(&self.core) {
            if self.get(key).is_some_and(|value| !keeps(key, value)) {
                self.core.free_live(key);
            }
        }
    }

    /// Takes all values out, and gives each with the key that it had, in the order of
    /// [`Store::iter`]. Those that are not asked for go with the iterator.
    pub fn drain(&mut self) -> Drain<'_, T> {
        Drain::new(self)
    }

    /// Each key with its value, by the ids of their spans and then by slots, which is the order of
    /// keys; or back from the end, at the cost that [`Core::keys`] has.
    pub fn iter(&self) -> Iter<'_, T> {
        Iter::new(self)
    }

    /// Each value, in the order of [`Store::iter`].
    pub fn values(&self) -> Values<'_, T> {
        Values::new(self.iter())
    }
}

impl<T> Store<T> {
    /// Each key, in the order of [`Store::iter`].
    pub fn keys(&self) -> Keys<'_, T> {
        Keys::new(self.core.keys())
    }

    /// Whether the key is live.
    #[must_use]
    pub fn contains(&self, key: Key) -> bool {
        self.core.contains(key)
    }

    /// As [`Store::contains`], under the name that maps have for it.
    #[must_use]
    pub fn contains_key(&self, key: Key) -> bool {
        self.contains(key)
    }

    /// How many values there are.
    #[must_use]
    pub fn len(&self) -> usize {
        self.core.len()
    }

    /// Whether there is no value.
    #[must_use]
    pub fn is_empty(&self) -> bool {
        self.core.is_empty()
    }

    /// Takes all values out, and keeps the pages, which [`Store::shrink_to_fit`] gives back.
    pub fn clear(&mut self) {
        self.core.drain();
        self.first = 0;
    }

    /// Gives back the pages on which no value is, and says how many went. No value moves:
    /// [`Store::compact`] does more. It takes no memory.
    pub fn shrink_to_fit(&mut self) -> usize {
        self.core.trim_all()
    }

    crate::core::meshing!();
}

/// A key whose value is still to come. It is freed where none does.
struct Waiting<'c> {
    core: &'c mut Core,
    key: Key,
}

impl Drop for Waiting<'_> {
    fn drop(&mut self) {
        self.core.free_live(self.key);
    }
}

impl<T> Store<T> {
    /// Frees the key, and says whether it was live: as [`Store::remove`], but for the value.
    pub fn free(&mut self, key: Key) -> bool {
        self.core.free(key)
    }

    /// How many pages it has, and how many of them can go at most.
    pub(crate) fn pages_and_most_folds(&self) -> (usize, usize) {
        self.core.pages_and_most_folds()
    }

    /// Trims some groups, as [`Core::trim_some`] says.
    pub(crate) fn trim_some(
        &mut self,
        shard: u32,
        from: usize,
        most: usize,
    ) -> Result<(usize, usize), Refused> {
        self.core.trim_some(shard, from, most)
    }

    /// Takes steps of a compaction until the caller has had enough, as [`Core::compact_until`].
    pub(crate) fn compact_until(
        &mut self,
        left: &mut usize,
        budget: usize,
        is_enough: impl Fn() -> bool,
    ) -> Result<Compacted, Refused> {
        self.first = 0;
        self.core.compact_until(left, budget, is_enough)
    }

    /// Ends a compaction in parts where it is.
    pub(crate) fn give_up_compaction(&mut self) {
        self.first = 0;
        self.core.give_up_compaction();
    }

    /// The live key that comes next in a walk: if it is bounded, before where the walk from the end
    /// is.
    pub(crate) fn next_of(&self, place: &mut Place, is_bounded: bool) -> Option<Key> {
        if is_bounded {
            place.next_between(&self.core)
        } else {
            place.next(&self.core)
        }
    }

    /// The same from the end, and if it is bounded, behind where the walk from the front is.
    pub(crate) fn next_back_of(&self, place: &mut Place, is_bounded: bool) -> Option<Key> {
        if is_bounded {
            place.next_back_between(&self.core)
        } else {
            place.next_back(&self.core)
        }
    }

    /// The live key that comes next after this one, as [`Core::next_live`].
    pub(crate) fn next_live(&self, after: Option<Key>) -> Option<Key> {
        self.core.next_live(after)
    }
}

/// Lends as few words as hold the value, and says how many they are.
#[inline]
pub(crate) fn as_words<T: Copy, R>(value: T, keep: impl FnOnce(*const u128, usize) -> R) -> R {
    let mut words = [MaybeUninit::uninit(); MOST_WORDS];
    let len = write_words(&mut words, value);
    keep(words.as_ptr().cast(), len)
}

/// Writes as few words as hold the value into the first of these, and says how many they are.
// A call of it would have the value go through memory once more.
#[allow(clippy::inline_always)]
#[inline(always)]
pub(crate) fn write_words<T: Copy>(words: &mut [MaybeUninit<u128>; MOST_WORDS], value: T) -> usize {
    let first = words.as_mut_ptr().cast::<u128>();
    let len = words_for(size_of::<T>());
    // SAFETY: the words have room for the value, whatever its alignment. The last one, which alone
    // it may not fill, is a zero before; bytes within the value that it does not use are copied and
    // never read, since the library looks into no word.
    unsafe {
        first.add(len - 1).write(0);
        first.cast::<T>().write_unaligned(value);
    }
    len
}

impl<T: Copy> Extend<T> for Store<T> {
    /// As [`Store::try_extend`].
    ///
    /// # Panics
    ///
    /// If a value is refused.
    fn extend<I: IntoIterator<Item = T>>(&mut self, values: I) {
        self.try_extend(values)
            .expect("there is room for each value");
    }
}

impl<T: Copy> FromIterator<T> for Store<T> {
    /// As [`Store::try_from_iter`].
    ///
    /// # Panics
    ///
    /// If a value is refused.
    fn from_iter<I: IntoIterator<Item = T>>(values: I) -> Store<T> {
        Store::try_from_iter(values).expect("there is room for each value")
    }
}

impl<T: Copy> Default for Store<T> {
    /// A store as of [`Store::new`].
    fn default() -> Store<T> {
        Store::new().expect("the limits are in range")
    }
}

impl<T: Copy + fmt::Debug> fmt::Debug for Store<T> {
    fn fmt(&self, f: &mut fmt::Formatter<'_>) -> fmt::Result {
        f.debug_map().entries(self.iter()).finish()
    }
}
