//! A slab that owns its values, its iterators, and an entry of it that waits for its value.

mod folding;
mod inserting;
mod iterators;
mod operators;
mod vacant;

pub use iterators::{Drain, IntoIter, Iter, IterMut, Keys, Values, ValuesMut};
pub use vacant::VacantEntry;

use crate::core::{Core, Limits, SHARDS};
use crate::names::Key;
use crate::refused::Refused;
use crate::values::{self, Spot, Walk, WalkMut};
use std::ptr::NonNull;

/// Values of one type under keys that never lie.
///
/// The values stand in pages of their own, one beside each page of the core, and move with its
/// folds: so any type will do, what is found is a reference, each value is dropped once, and a fold
/// gives the memory of a page of values back to the system. [`Slab::compact`] folds as much as can
/// be. Beside a value there are 4 bytes of its key, and the core's object of zeros, which take no
/// memory: one word or, from 16 bytes on, more. For then a page has fewer slots, and more pages fit
/// each other: 256, or 128 of 16 bytes, or 64 of 240, or 16 of 4,096. The first page begins with
/// room for 4 values, and gets twice as much each time that it is full. A value of more bytes
/// stands in a block of the global allocator.
///
/// A look-up compares the key's generation with the one beside the value, and does not ask the
/// core, which is proved never to give a key out twice; with debug assertions it asks, and panics
/// if the answers differ. With the feature `lean` no generation stands there: the core alone is
/// asked whether a key is live, which takes thrice the instructions, and for each key of a
/// walk. Values that are copied and have up to 256 bytes stand in the core's pages in a
/// [`Store`](crate::Store).
///
/// It is `Send` and `Sync` where its values are: many threads may look values up at once, as by an
/// [`RwLock`](std::sync::RwLock), and one at a time changes it.
///
/// It is not `Clone`, for the reason that [`Core`] has: copies of its values have other keys.
///
/// An insert may be refused: `extend` and `collect` panic then, and [`Slab::try_extend`] and
/// [`Slab::try_from_iter`] do not. Either way the keys are those of [`Slab::iter`]; to have them in
/// the order of the values, map [`Slab::insert`] over these.
///
/// ```
/// use teurlaks::Slab;
///
/// let mut slab = Slab::new()?;
/// let key = slab.insert(String::from("a"))?;
/// assert_eq!(slab[key], "a");
/// assert_eq!(slab.remove(key), Some(String::from("a")));
/// let other = slab.insert(String::from("b"))?; // takes the slot again
/// assert_eq!(slab.get(key), None);
/// for (key, value) in &slab {
///     assert_eq!((key, value.as_str()), (other, "b"));
/// }
/// # Ok::<(), teurlaks::Refused>(())
/// ```
// The core first, where a reference to the slab is one to its handle.
#[repr(C)]
pub struct Slab<T> {
    // A key is live here exactly where it has a value there, but for the one below.
    core: Core,
    values: values::Values<T>,
    // The key of a vacant entry, which has no value yet. It stays where such an entry is forgotten.
    vacant: Option<Key>,
    // The shard that an insert without a shard asks first.
    first: u8,
    // Whether a shard with many pages leaves the next ones to the next shard.
    takes_turns: bool,
    // Whether a compaction in parts has taken its steps and has pages of values to move.
    is_packing: bool,
}

impl<T> Slab<T> {
    /// A slab with no value, whose limits are those of memory: of 16 shards, each of as many pages
    /// as a shard may have. So it may hold 4,294,967,296 values of fewer than 16 bytes at once, or
    /// 268,435,456 of 4,096. Pages come as they are filled. It asks for nothing but a
    /// [`Slab::compact`] now and then, if most of what it held is gone and the memory is wanted
    /// back.
    ///
    /// A shard that has opened 1,024 pages leaves the next ones to the next shard, since a
    /// compaction goes by how many pages a shard has. A compaction asks each shard, used or not:
    /// with 64 shards that of four pages would take twice as long. And keys of 16 shards fit
    /// [`KeyBits::BALANCED`](crate::KeyBits::BALANCED).
    ///
    /// # Errors
    ///
    /// None: it takes no memory until its first value.
    pub fn new() -> Result<Slab<T>, Refused> {
        let mut slab = Slab::with_limits(Limits {
            shards: SHARDS,
            ..Limits::default()
        })?;
        slab.takes_turns = true;
        Ok(slab)
    }

    /// A slab of these limits. It takes no memory until its first value.
    ///
    /// # Errors
    ///
    /// [`Refused::Config`] exactly where a number is out of its range.
    pub fn with_limits(limits: Limits) -> Result<Slab<T>, Refused> {
        Ok(Slab {
            core: values::Values::<T>::core(limits)?,
            values: values::Values::new(),
            first: 0,
            takes_turns: false,
            vacant: None,
            is_packing: false,
        })
    }

    /// A slab as of [`Slab::new`] that may hold so many values at once, of more shards if it takes
    /// them. Room is made for their pages as by [`Slab::reserve`].
    ///
    /// In `slab` a capacity is how many values there is memory for, and is exceeded by the next
    /// insert. Here it is how many values the limits allow, and no insert exceeds it.
    ///
    /// # Errors
    ///
    /// [`Refused::Config`] if 64 shards are too few: for more values than 67,108,864 pages have
    /// slots for; [`Refused::OutOfMemory`] if memory was refused.
    ///
    /// ```
    /// # use teurlaks::Slab;
    /// let mut slab = Slab::with_capacity(5_000_000)?;
    /// assert!(slab.capacity() >= 5_000_000);
    /// slab.insert('a')?;
    /// # Ok::<(), teurlaks::Refused>(())
    /// ```
    pub fn with_capacity(capacity: usize) -> Result<Slab<T>, Refused> {
        let limits = Limits::default();
        let of_a_shard = limits.pages as usize * limits.slots_of(values::Values::<T>::SLOTS);
        let shards = capacity / of_a_shard + usize::from(capacity % of_a_shard != 0);
        let mut slab = Slab::with_limits(Limits {
            shards: u32::try_from(shards)
                .map_err(|_| Refused::Config)?
                .max(SHARDS),
            ..limits
        })?;
        slab.takes_turns = true;
        slab.reserve(capacity)?;
        Ok(slab)
    }

    /// How many values it may hold at once at most: as many as there are slots on the pages that
    /// the shards which have not ended may have. It is not what it has memory for. Fewer fit where
    /// slots have given out all their generations, or shards have opened all spans that they open
    /// in their life.
    #[must_use]
    pub fn capacity(&self) -> usize {
        let limits = self.core.limits();
        let slots = limits.slots_of(values::Values::<T>::SLOTS);
        self.core.running_shards() * limits.pages as usize * slots
    }

    /// Makes room beside the core for the pages of so many further values. They take memory as they
    /// are filled, and so do the core's: so an insert may be refused memory all the same. There is
    /// no need of it: a slab grows page by page, and as it grows only the values of its first page
    /// move.
    ///
    /// # Errors
    ///
    /// [`Refused::PagesSpent`] where there would be more values than [`Slab::capacity`] tells, and
    /// [`Refused::OutOfMemory`] where address space was refused.
    pub fn reserve(&mut self, additional: usize) -> Result<(), Refused> {
        let values = self
            .len()
            .checked_add(additional)
            .ok_or(Refused::PagesSpent)?;
        if values > self.capacity() {
            return Err(Refused::PagesSpent);
        }
        self.values.reserve_pages(&self.core, additional)
    }

    /// Gives back the pages on which no value is, and says how many went. No value moves:
    /// [`Slab::compact`] does more. It takes no memory.
    ///
    /// ```
    /// # use teurlaks::Slab;
    /// let mut slab = Slab::try_from_iter(0..1000)?;
    /// slab.clear();
    /// assert_eq!((slab.shrink_to_fit(), slab.pages()), (8, 0));
    /// # Ok::<(), teurlaks::Refused>(())
    /// ```
    pub fn shrink_to_fit(&mut self) -> usize {
        self.give_up_vacant();
        let went = self.core.trim_all();
        self.values.cool();
        went
    }

    /// The value of the key, where it is live.
    #[inline]
    #[must_use]
    pub fn get(&self, key: Key) -> Option<&T> {
        let value = self.find(key)?;
        // SAFETY: the value is there, and it is lent as long as the slab is.
        Some(unsafe { value.as_ref() })
    }

    /// Where the value of the key is, if it is live.
    #[inline]
    fn find(&self, key: Key) -> Option<NonNull<T>> {
        let found = self
            .values
            .find(key)
            .filter(|_| !values::LEAN || self.core.contains(key));
        debug_assert_eq!(
            found.is_some(),
            self.core.contains(key) && self.vacant != Some(key)
        );
        found
    }

    /// The value of the key, to be changed, where it is live.
    #[inline]
    pub fn get_mut(&mut self, key: Key) -> Option<&mut T> {
        let mut value = self.find(key)?;
        // SAFETY: as in `get`, and nothing else is lent meanwhile.
        Some(unsafe { value.as_mut() })
    }

    /// The value of a live key, of which nothing is asked but that.
    ///
    /// # Safety
    ///
    /// The key is live.
    #[inline]
    #[must_use]
    pub unsafe fn get_unchecked(&self, key: Key) -> &T {
        // SAFETY: as of this call.
        unsafe { self.values.get_unchecked(key).as_ref() }
    }

    /// The value of a live key, to be changed, of which nothing is asked but that.
    ///
    /// # Safety
    ///
    /// The key is live.
    #[inline]
    pub unsafe fn get_unchecked_mut(&mut self, key: Key) -> &mut T {
        // SAFETY: as of this call, and nothing else is lent meanwhile.
        unsafe { self.values.get_unchecked(key).as_mut() }
    }

    /// The values of these keys, to be changed, in their order: `None` where one is not live, or
    /// two are the same.
    ///
    /// ```
    /// # use teurlaks::Slab;
    /// let mut slab = Slab::new()?;
    /// let (a, b) = (slab.insert(1)?, slab.insert(2)?);
    /// let [one, two] = slab.get_disjoint_mut([a, b]).unwrap();
    /// std::mem::swap(one, two);
    /// assert_eq!((slab[a], slab[b]), (2, 1));
    /// assert_eq!(slab.get_disjoint_mut([a, a]), None);
    /// # Ok::<(), teurlaks::Refused>(())
    /// ```
    #[doc(alias = "get2_mut")]
    pub fn get_disjoint_mut<const N: usize>(&mut self, keys: [Key; N]) -> Option<[&mut T; N]> {
        let mut found = [NonNull::dangling(); N];
        for (place, key) in keys.iter().enumerate() {
            if keys[..place].contains(key) {
                return None;
            }
            found[place] = self.find(*key)?;
        }
        // SAFETY: as in `get_mut`, of each: no two live keys have one slot, so these are as many
        // values.
        Some(found.map(|mut value| unsafe { value.as_mut() }))
    }

    /// Whether the key is live.
    #[inline]
    #[must_use]
    pub fn contains(&self, key: Key) -> bool {
        self.find(key).is_some()
    }

    /// As [`Slab::contains`], under the name that maps have for it.
    #[inline]
    #[must_use]
    pub fn contains_key(&self, key: Key) -> bool {
        self.contains(key)
    }

    /// The key of a value of this slab that is lent, or `None` if it is none of them. Values of no
    /// bytes all stand at one place, so of these it finds none.
    ///
    /// It looks at each 4 MB of the slab's memory, and at each value if these stand in blocks of
    /// their own (of more than 4,096 bytes, or aligned to more than 64).
    ///
    /// ```
    /// # use teurlaks::Slab;
    /// let mut slab = Slab::new()?;
    /// let key = slab.insert("a")?;
    /// assert_eq!(slab.key_of(&slab[key]), Some(key));
    /// assert_eq!(slab.key_of(&"a"), None); // another "a"
    /// # Ok::<(), teurlaks::Refused>(())
    /// ```
    #[must_use]
    pub fn key_of(&self, value: &T) -> Option<Key> {
        self.key_at(value)
    }

    /// As [`Slab::key_of`], of the value that stands at an address. Any address may be given: it is
    /// compared, and nothing is read there.
    #[must_use]
    pub fn key_at(&self, at: *const T) -> Option<Key> {
        self.values.spot_at(at).map(|spot| spot.key(&self.core))
    }

    /// Takes the value of the key out, where it is live. The key finds nothing from then on.
    #[doc(alias = "try_remove")]
    #[inline]
    pub fn remove(&mut self, key: Key) -> Option<T> {
        if values::LEAN {
            return self.remove_again(key);
        }
        let Some((value, page)) = self.values.take_plainly(key) else {
            return self.remove_again(key);
        };
        self.note_room_on(page);
        self.core.free_live(key);
        Some(value)
    }

    /// The same, also of the last value of a span. A lean slab asks the core before.
    #[cold]
    #[inline(never)]
    fn remove_again(&mut self, key: Key) -> Option<T> {
        if values::LEAN && (self.values.find(key).is_none() || !self.core.free(key)) {
            return None;
        }
        let (value, page) = self.values.take(key)?;
        self.note_room_on(page);
        if !values::LEAN {
            self.core.free_live(key);
        }
        Some(value)
    }

    /// Notes that the page has room, whose shard is then not passed over.
    #[inline]
    fn note_room_on(&mut self, page: u32) {
        if self.first > 0 {
            self.first = self.first.min(self.values.shard_of(page) as u8);
        }
    }

    /// Takes the value of a spot of a walk out.
    fn remove_at(&mut self, spot: Spot) -> Option<(Key, T)> {
        let key = spot.key(&self.core);
        Some((key, self.remove(key)?))
    }

    /// Takes out each value that the test does not keep. Where the test or the drop of a value
    /// panics, all that it has not come to stays.
    ///
    /// ```
    /// # use teurlaks::Slab;
    /// let mut slab = Slab::try_from_iter(0..10)?;
    /// slab.retain(|_, value| *value % 2 == 0);
    /// assert!(slab.values().eq(&[0, 2, 4, 6, 8]));
    /// # Ok::<(), teurlaks::Refused>(())
    /// ```
    pub fn retain(&mut self, mut keeps: impl FnMut(Key, &mut T) -> bool) {
        let mut walk = self.walk();
        while let Some(spot) = walk.next_in(&self.values) {
            let key = spot.key(&self.core);
            if !keeps(key, self.values.at_mut(spot)) {
                self.remove(key);
            }
        }
    }

    /// Takes all values out, and keeps the core's pages, which [`Slab::shrink_to_fit`] gives back.
    /// Where the drop of a value panics, those after it stay.
    pub fn clear(&mut self) {
        self.retain(|_, _| false);
    }

    /// Takes all values out, and gives each with the key that it had, in no particular order.
    /// Values that are not asked for are dropped with the iterator.
    ///
    /// ```
    /// # use teurlaks::Slab;
    /// let mut slab = Slab::new()?;
    /// let key = slab.insert("a")?;
    /// assert!(slab.drain().eq([(key, "a")]));
    /// assert!(slab.is_empty());
    /// # Ok::<(), teurlaks::Refused>(())
    /// ```
    pub fn drain(&mut self) -> Drain<'_, T> {
        let walk = self.walk();
        Drain::new(self, walk)
    }

    /// How many values there are.
    #[must_use]
    pub fn len(&self) -> usize {
        self.core.len() - usize::from(self.vacant.is_some())
    }

    /// Whether there is no value.
    #[must_use]
    pub fn is_empty(&self) -> bool {
        self.len() == 0
    }

    /// The beginning of a walk over the values.
    fn walk(&self) -> Walk {
        self.values.walk(self.len())
    }

    /// Each key with its value, in no particular order.
    pub fn iter(&self) -> Iter<'_, T> {
        Iter::new(&self.core, &self.values, self.walk())
    }

    /// Each key with its value, to be changed, in no particular order.
    ///
    /// ```
    /// # use teurlaks::{Key, Slab};
    /// let mut slab = Slab::new()?;
    /// let key = slab.insert(1)?;
    /// for (_, value) in &mut slab {
    ///     *value += 1;
    /// }
    /// for value in slab.values_mut() {
    ///     *value *= 10;
    /// }
    /// assert_eq!(slab.into_iter().collect::<Vec<(Key, i32)>>(), [(key, 20)]);
    /// # Ok::<(), teurlaks::Refused>(())
    /// ```
    pub fn iter_mut(&mut self) -> IterMut<'_, T> {
        let left = self.len();
        IterMut::new(&self.core, WalkMut::new(&mut self.values, left))
    }

    /// Each key, in no particular order.
    pub fn keys(&self) -> Keys<'_, T> {
        Keys::new(self.iter())
    }

    /// Each value, in no particular order.
    pub fn values(&self) -> Values<'_, T> {
        Values::new(&self.values, self.walk())
    }

    /// Each value, to be changed, in no particular order.
    pub fn values_mut(&mut self) -> ValuesMut<'_, T> {
        let left = self.len();
        ValuesMut::new(WalkMut::new(&mut self.values, left))
    }
}
