//! Inserts, each of which takes a key of the core and then keeps the value beside it.

use super::{Slab, VacantEntry};
use crate::core::{ends_turn, Core};
use crate::names::Key;
use crate::raw::PutReply;
use crate::refused::{InsertError, Refused};
use crate::values::Values;

impl<T> Slab<T> {
    /// Keeps a value in the first shard that has room for it, and gives its key, which was never
    /// given out before. A value that is refused is dropped, and [`Slab::try_insert`] gives it
    /// back.
    ///
    /// # Errors
    ///
    /// - [`Refused::Ended`] only where each shard has ended;
    /// - [`Refused::PagesSpent`] only where each that has not may have no further page;
    /// - [`Refused::OutOfMemory`] where memory was refused.
    // So that the halves become a key in registers, where it is used.
    #[allow(clippy::inline_always)]
    #[inline(always)]
    pub fn insert(&mut self, value: T) -> Result<Key, Refused> {
        let (low, high) = self.insert_apart(value);
        // A status has 32 bits.
        #[allow(clippy::cast_possible_truncation)]
        Key::of_halves(low, high).ok_or_else(|| Refused::of(high as u32))
    }

    /// The halves of the key, or a zero and the status of why the value is refused. A key itself
    /// would come back through memory, written in parts and read as a whole, for which a processor
    /// waits.
    #[inline]
    fn insert_apart(&mut self, value: T) -> (u64, u64) {
        let key = match self.insert_key_plainly() {
            Ok(key) => key,
            Err(put) => return self.insert_again(put, value),
        };
        let (low, high) = key.halves();
        let Some(place) = self.values.place(key) else {
            return self.keep_first(low, high, value);
        };
        place.fill(value);
        (low, high)
    }

    /// The same of a key whose span has no page yet, by its halves.
    #[cold]
    #[inline(never)]
    fn keep_first(&mut self, low: u64, high: u64, value: T) -> (u64, u64) {
        if let Some(key) = Key::of_halves(low, high) {
            self.keep(key, value);
        }
        (low, high)
    }

    /// The same after that answer to the call for a key.
    // All that an insert seldom does is one call, for which no register is kept.
    #[cold]
    #[inline(never)]
    fn insert_again(&mut self, put: Option<PutReply>, value: T) -> (u64, u64) {
        match self.insert_key_again(put) {
            Ok(key) => {
                self.keep(key, value);
                key.halves()
            }
            Err(refused) => (0, refused.status_of_put().into()),
        }
    }

    /// As [`Slab::insert`], and gives a value that is refused back.
    ///
    /// # Errors
    ///
    /// As of [`Slab::insert`], with the value.
    ///
    /// ```
    /// # use teurlaks::{Limits, Refused, Slab};
    /// let mut slab = Slab::with_limits(Limits { pages: 1, ..Limits::default() })?;
    /// slab.try_extend((0..128).map(|i| i.to_string()))?;
    /// let refused = slab.try_insert("one more".to_string()).unwrap_err();
    /// assert_eq!((refused.refused, refused.value.as_str()), (Refused::PagesSpent, "one more"));
    /// # Ok::<(), Refused>(())
    /// ```
    #[inline]
    pub fn try_insert(&mut self, value: T) -> Result<Key, InsertError<T>> {
        match self.insert_key() {
            Ok(key) => {
                self.keep(key, value);
                Ok(key)
            }
            Err(refused) => Err(InsertError { value, refused }),
        }
    }

    /// Keeps the value that is made with its own key. Where that panics, nothing is kept.
    ///
    /// # Errors
    ///
    /// As of [`Slab::insert`]; no value is made then.
    ///
    /// ```
    /// # use teurlaks::{Key, Slab};
    /// struct Node {
    ///     own: Key,
    /// }
    /// let mut slab = Slab::new()?;
    /// let key = slab.insert_with_key(|own| Node { own })?;
    /// assert_eq!(slab[key].own, key);
    /// # Ok::<(), teurlaks::Refused>(())
    /// ```
    pub fn insert_with_key(&mut self, value: impl FnOnce(Key) -> T) -> Result<Key, Refused> {
        let entry = self.vacant_entry()?;
        let key = entry.key();
        entry.insert(value(key));
        Ok(key)
    }

    /// A key for a value that is still to come. Where the entry is dropped without one, nothing is
    /// kept, and the key finds nothing, now and for ever: it has used up a generation of its slot.
    ///
    /// # Errors
    ///
    /// As of [`Slab::insert`].
    ///
    /// ```
    /// # use teurlaks::Slab;
    /// let mut slab = Slab::new()?;
    /// let entry = slab.vacant_entry()?;
    /// let key = entry.key();
    /// entry.insert((key, "hello"));
    /// assert_eq!(slab[key], (key, "hello"));
    /// # Ok::<(), teurlaks::Refused>(())
    /// ```
    pub fn vacant_entry(&mut self) -> Result<VacantEntry<'_, T>, Refused> {
        self.give_up_vacant();
        let key = self.insert_key()?;
        self.vacant = Some(key);
        let shard = u32::from(self.first);
        self.end_turn_with(key);
        Ok(VacantEntry::new(self, shard, key))
    }

    /// Frees the key of an entry that has come to nothing.
    pub(super) fn give_up_vacant(&mut self) {
        if let Some(key) = self.vacant.take() {
            self.core.free_live(key);
        }
    }

    /// Keeps each value in turn, until one is refused. Those before it stay, and of an iterator
    /// that is lent, those after it are left. [`Iterator::collect`] over [`Slab::insert`] gives
    /// their keys.
    ///
    /// # Errors
    ///
    /// As of [`Slab::insert`], with the first value that was refused.
    ///
    /// ```
    /// # use teurlaks::Slab;
    /// let mut slab = Slab::new()?;
    /// slab.try_extend(["a", "b"])?;
    /// let keys = ["c", "d"].into_iter().map(|value| slab.insert(value));
    /// let keys = keys.collect::<Result<Vec<_>, _>>()?;
    /// assert_eq!((slab.len(), slab[keys[1]]), (4, "d"));
    /// # Ok::<(), teurlaks::Refused>(())
    /// ```
    pub fn try_extend(
        &mut self,
        values: impl IntoIterator<Item = T>,
    ) -> Result<(), InsertError<T>> {
        values
            .into_iter()
            .try_for_each(|value| self.try_insert(value).map(drop))
    }

    /// A slab of these values, as [`Slab::new`] and [`Slab::try_extend`] make it.
    ///
    /// # Errors
    ///
    /// As of [`Slab::new`] and [`Slab::insert`]; all values are dropped then.
    ///
    /// ```
    /// # use teurlaks::Slab;
    /// let slab = Slab::try_from_iter("a b c".split(' '))?;
    /// assert_eq!(slab.values().copied().collect::<String>(), "abc");
    /// # Ok::<(), teurlaks::Refused>(())
    /// ```
    pub fn try_from_iter(values: impl IntoIterator<Item = T>) -> Result<Slab<T>, Refused> {
        let mut slab = Slab::new()?;
        slab.try_extend(values)?;
        Ok(slab)
    }

    /// Keeps a value in the shard. A value that is refused is dropped, and [`Slab::try_insert_in`]
    /// gives it back.
    ///
    /// # Errors
    ///
    /// - [`Refused::PagesSpent`]: no page of the shard has a usable slot, and it may have no
    ///   further one;
    /// - [`Refused::Ended`]: the shard has ended;
    /// - [`Refused::Config`]: there is no such shard;
    /// - [`Refused::OutOfMemory`]: memory was refused.
    #[inline]
    pub fn insert_in(&mut self, shard: u32, value: T) -> Result<Key, Refused> {
        let key = self.insert_key_in(shard)?;
        self.values.put(key, value, || shard);
        Ok(key)
    }

    /// As [`Slab::insert_in`], and gives a value that is refused back.
    ///
    /// # Errors
    ///
    /// As of [`Slab::insert_in`], with the value.
    #[inline]
    pub fn try_insert_in(&mut self, shard: u32, value: T) -> Result<Key, InsertError<T>> {
        match self.insert_key_in(shard) {
            Ok(key) => {
                self.values.put(key, value, || shard);
                Ok(key)
            }
            Err(refused) => Err(InsertError { value, refused }),
        }
    }

    /// Keeps the value of a key that the first shard has just put, for which there is room.
    #[inline]
    fn keep(&mut self, key: Key, value: T) {
        let Slab {
            core,
            values,
            first,
            takes_turns,
            ..
        } = self;
        // A turn is over with the first key of a span, for which `put` opens a page, and forgets
        // what there is room for.
        values.put(key, value, || {
            let shard = *first;
            *first = first_after(core, shard, *takes_turns, key);
            u32::from(shard)
        });
    }

    /// Has the next shard be the first if the turn of this one is over with the key.
    fn end_turn_with(&mut self, key: Key) {
        let first = first_after(&self.core, self.first, self.takes_turns, key);
        if first != self.first {
            self.first = first;
            self.values.forget_room();
        }
    }

    /// A key of the first shard, for whose value there is room. If that has none, the next one that
    /// has one is the first from now on.
    #[inline]
    fn insert_key(&mut self) -> Result<Key, Refused> {
        self.insert_key_plainly()
            .or_else(|put| self.insert_key_again(put))
    }

    /// The same, if there is room already and nothing to do but to count the key; or else what the
    /// library answers, if it was asked.
    // Inlined, it leaves the key in registers.
    #[allow(clippy::inline_always)]
    #[inline(always)]
    fn insert_key_plainly(&mut self) -> Result<Key, Option<PutReply>> {
        if !self.values.has_room(&self.core) {
            return Err(None);
        }
        Values::<T>::insert_key_plainly(&mut self.core, self.first.into()).map_err(Some)
    }

    /// The same after that answer.
    #[cold]
    fn insert_key_again(&mut self, put: Option<PutReply>) -> Result<Key, Refused> {
        let first = self.first.into();
        let key = match put {
            Some(put) => self.values.insert_key_after(&mut self.core, put, first),
            None => self.insert_key_in(first),
        };
        match key {
            Err(Refused::PagesSpent | Refused::Ended) => self.insert_key_elsewhere(),
            key => key,
        }
    }

    /// A key of another shard than the first that was to be asked.
    #[cold]
    fn insert_key_elsewhere(&mut self) -> Result<Key, Refused> {
        let mut why = Refused::Ended;
        let first = u32::from(self.first);
        for shard in (first..self.core.shards()).chain(0..first) {
            match self.insert_key_in(shard) {
                Ok(key) => {
                    self.first = shard as u8;
                    return Ok(key);
                }
                Err(Refused::Ended) => {}
                Err(Refused::PagesSpent) => why = Refused::PagesSpent,
                Err(refused) => return Err(refused),
            }
        }
        Err(why)
    }

    /// A key of the shard's, for whose value there is room.
    #[inline]
    fn insert_key_in(&mut self, shard: u32) -> Result<Key, Refused> {
        self.values.insert_key_with_room(&mut self.core, shard)
    }
}

/// The shard that is asked first after this one has put the key: the next one if its turn is over.
#[cold]
fn first_after(core: &Core, first: u8, takes_turns: bool, key: Key) -> u8 {
    if takes_turns && ends_turn(key) {
        ((u32::from(first) + 1) % core.shards()) as u8
    } else {
        first
    }
}
