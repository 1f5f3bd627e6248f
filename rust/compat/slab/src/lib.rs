//! The interface of `slab` 0.4 over a [`teurlaks::Slab`], which another program takes in place of
//! `slab` by `[patch]`. Keys are the same numbers as there: the lowest come first, and a key that
//! was freed last is the next one. What differs is where the values stand. Their pages leave the
//! process again once many values are gone, and no value gets another key by that.
//!
//! ```
//! use slab::Slab;
//!
//! let mut slab = Slab::new();
//! let keys: Vec<_> = (0..100_000_u64).map(|n| slab.insert([n; 30])).collect();
//! slab.retain(|_, value| value[0] % 11 == 0);
//! slab.shrink_to_fit(); // or by itself, in parts, while values are removed
//! assert_eq!(slab[keys[22]], [22; 30]);
//! ```
#![warn(missing_docs, missing_debug_implementations)]

mod iterators;
mod plain;

pub use iterators::{Drain, IntoIter, Iter, IterMut};

use plain::Plain;
use std::fmt;
use std::mem;
use std::ops::{Index, IndexMut};
use teurlaks::Key;

/// How many values are removed between two parts of a compaction, and how many steps a part has.
const BETWEEN_PARTS: usize = 64;
const PART: usize = 16;

/// Fewer values than this are not worth a compaction.
const FEW: usize = 4096;

/// Up to so many keys stand with their values in one vector, as in `slab`: hardly a page could be
/// given back of them.
const IN_VECTOR: usize = if cfg!(feature = "always-in-pages") {
    0
} else {
    256
};

/// Values of one type under keys that are numbers, the lowest first.
pub struct Slab<T>(Values<T>);

/// Where the values stand. What only many of them need has a box, so that a slab is no larger than
/// one of `slab`.
enum Values<T> {
    InVector(Plain<T>),
    InPages(Box<Paged<T>>),
}

/// Values in pages, under keys of Teurlaks.
struct Paged<T> {
    names: Plain<Key>,
    values: teurlaks::Slab<Node<T>>,
    // How many values were removed since the last compaction.
    removed: usize,
}

/// A value and its key. The value is first, so that its address is the node's.
#[repr(C)]
struct Node<T> {
    value: T,
    key: usize,
}

/// A key whose value is still to come: of [`Slab::vacant_entry`].
#[derive(Debug)]
pub struct VacantEntry<'a, T> {
    slab: &'a mut Slab<T>,
    key: usize,
}

impl<T> Paged<T> {
    /// The values of these keys.
    fn of(values: Plain<T>) -> Paged<T> {
        let mut kept = teurlaks::Slab::default();
        Paged {
            names: values.map(|key, value| keep(&mut kept, key, value)),
            values: kept,
            removed: 0,
        }
    }

    #[inline(never)] // So that the calls on few values are short.
    fn get(&self, key: usize) -> Option<&T> {
        Some(&self.values.get(*self.names.get(key)?)?.value)
    }

    #[inline(never)]
    fn get_mut(&mut self, key: usize) -> Option<&mut T> {
        Some(&mut self.values.get_mut(*self.names.get(key)?)?.value)
    }

    fn get2_mut(&mut self, key1: usize, key2: usize) -> Option<(&mut T, &mut T)> {
        let names = [*self.names.get(key1)?, *self.names.get(key2)?];
        let [one, two] = self.values.get_disjoint_mut(names)?;
        Some((&mut one.value, &mut two.value))
    }

    #[inline(never)]
    fn insert(&mut self, value: T) -> usize {
        self.names.reserve(1);
        let name = keep(&mut self.values, self.names.next(), value);
        self.names.insert(name)
    }

    #[inline(never)]
    fn remove(&mut self, key: usize) -> Option<T> {
        let name = self.names.remove(key)?;
        let node = self.values.remove(name)?;
        self.note_removed();
        Some(node.value)
    }

    fn compact(&mut self, mut rekey: impl FnMut(&mut T, usize, usize) -> bool) {
        let values = &mut self.values;
        self.names.compact(|name, from, to| {
            let lost = Lost {
                values,
                name: *name,
            };
            let node = lost.values.get_mut(*name).expect("the key has a value");
            let agrees = rekey(&mut node.value, from, to);
            node.key = if agrees { to } else { from };
            mem::forget(lost);
            agrees
        });
    }

    /// Does a part of a compaction now and then, once as many values are gone as are left.
    fn note_removed(&mut self) {
        self.removed += 1;
        if self.removed >= self.names.len().max(FEW) && self.removed % BETWEEN_PARTS == 0 {
            // If memory is refused, it goes on later.
            let is_done = self
                .values
                .compact_within(PART)
                .is_ok_and(|done| !done.more);
            if is_done {
                self.removed = 0;
            }
        }
    }

    /// Gives back all pages that can be done without.
    fn give_back(&mut self) {
        self.removed = 0;
        // If memory is refused, the pages stay.
        let _ = self.values.compact();
    }

    /// The values in one vector.
    fn into_vector(mut self) -> Plain<T> {
        let values = &mut self.values;
        self.names
            .map(|_, name| values.remove(name).expect("the key has a value").value)
    }
}

/// Keeps a value, and gives its name.
fn keep<T>(values: &mut teurlaks::Slab<Node<T>>, key: usize, value: T) -> Key {
    values
        .insert(Node { value, key })
        .expect("there is memory for a value")
}

/// Drops all values, also if the drop of one panics: none has a name any more.
fn drop_all<T>(values: &mut teurlaks::Slab<Node<T>>) {
    struct Rest<'v, T>(&'v mut teurlaks::Slab<Node<T>>);
    impl<T> Drop for Rest<'_, T> {
        fn drop(&mut self) {
            self.0.clear();
        }
    }
    Rest(values).0.clear();
}

/// A value that goes if the closure panics that is asked for it.
struct Lost<'v, T> {
    values: &'v mut teurlaks::Slab<Node<T>>,
    name: Key,
}

impl<T> Drop for Lost<'_, T> {
    fn drop(&mut self) {
        self.values.remove(self.name);
    }
}

/// Makes the same call wherever the values stand: of the keys, or of the values.
macro_rules! either {
    ($slab:expr, keys.$($call:tt)*) => {
        match $slab {
            Values::InVector(values) => values.$($call)*,
            Values::InPages(paged) => paged.names.$($call)*,
        }
    };
    ($slab:expr, values.$($call:tt)*) => {
        match $slab {
            Values::InVector(values) => values.$($call)*,
            Values::InPages(paged) => paged.$($call)*,
        }
    };
}

impl<T> Slab<T> {
    /// A slab with no value, which takes no memory.
    #[must_use]
    pub const fn new() -> Slab<T> {
        Slab(Values::InVector(Plain::new()))
    }

    /// A slab with room for so many keys. If these are more than 256, values have memory as they
    /// come.
    #[must_use]
    pub fn with_capacity(capacity: usize) -> Slab<T> {
        if capacity <= IN_VECTOR {
            return Slab(Values::InVector(Plain::with_capacity(capacity)));
        }
        Slab(Values::InPages(Box::new(Paged {
            names: Plain::with_capacity(capacity),
            values: teurlaks::Slab::default(),
            removed: 0,
        })))
    }

    /// For how many keys there is room.
    #[must_use]
    pub fn capacity(&self) -> usize {
        either!(&self.0, keys.capacity())
    }

    /// Makes room for so many further keys.
    ///
    /// # Panics
    ///
    /// If there can't be so many.
    pub fn reserve(&mut self, additional: usize) {
        self.make_way(additional);
        either!(&mut self.0, keys.reserve(additional));
    }

    /// Makes room for so many further keys, and no more.
    ///
    /// # Panics
    ///
    /// If there can't be so many.
    pub fn reserve_exact(&mut self, additional: usize) {
        self.make_way(additional);
        either!(&mut self.0, keys.reserve_exact(additional));
    }

    /// Has values stand in pages if so many further keys are too many for a vector.
    fn make_way(&mut self, additional: usize) {
        if let Values::InVector(values) = &mut self.0 {
            if values.len().saturating_add(additional) > IN_VECTOR {
                self.0 = Values::InPages(Box::new(Paged::of(mem::replace(values, Plain::new()))));
            }
        }
    }

    /// Gives back the room of the last keys that have no value, and the pages of values that can be
    /// done without. Each value keeps its key.
    pub fn shrink_to_fit(&mut self) {
        either!(&mut self.0, keys.shrink());
        self.give_back();
    }

    /// Moves values to lower keys, as far as the closure agrees, and gives back what is not used
    /// any more. The closure has the value, its key, and the key that it may have: as in `slab`.
    ///
    /// To give memory back without other keys there is [`Slab::shrink_to_fit`].
    pub fn compact<F>(&mut self, rekey: F)
    where
        F: FnMut(&mut T, usize, usize) -> bool,
    {
        either!(&mut self.0, values.compact(rekey));
        self.give_back();
    }

    /// Takes all values out, and keeps the room of their keys.
    pub fn clear(&mut self) {
        match &mut self.0 {
            Values::InVector(values) => values.clear(),
            Values::InPages(paged) => {
                paged.names.clear();
                drop_all(&mut paged.values);
                paged.give_back();
            }
        }
    }

    /// Gives back all pages that can be done without, and takes few values back into a vector.
    fn give_back(&mut self) {
        if let Values::InPages(paged) = &mut self.0 {
            if paged.names.keys() > IN_VECTOR / 2 {
                paged.give_back();
            } else if let Values::InPages(few) =
                mem::replace(&mut self.0, Values::InVector(Plain::new()))
            {
                let mut values = few.into_vector();
                values.shrink();
                self.0 = Values::InVector(values);
            }
        }
    }

    /// How many values there are.
    #[inline]
    #[must_use]
    pub fn len(&self) -> usize {
        either!(&self.0, keys.len())
    }

    /// Whether there is no value.
    #[must_use]
    pub fn is_empty(&self) -> bool {
        self.len() == 0
    }

    /// Each value with its key, from the lowest key on.
    pub fn iter(&self) -> Iter<'_, T> {
        Iter::new(&self.0)
    }

    /// Each value with its key, from the lowest key on, to be changed. It takes memory for a list
    /// of these if there are more than 256.
    pub fn iter_mut(&mut self) -> IterMut<'_, T> {
        IterMut::new(&mut self.0)
    }

    /// The value of the key, if it has one.
    #[inline]
    #[must_use]
    pub fn get(&self, key: usize) -> Option<&T> {
        either!(&self.0, values.get(key))
    }

    /// The value of the key, if it has one, to be changed.
    #[inline]
    pub fn get_mut(&mut self, key: usize) -> Option<&mut T> {
        either!(&mut self.0, values.get_mut(key))
    }

    /// The values of two keys, to be changed, if both have one.
    ///
    /// # Panics
    ///
    /// If the keys are the same.
    pub fn get2_mut(&mut self, key1: usize, key2: usize) -> Option<(&mut T, &mut T)> {
        assert!(key1 != key2);
        either!(&mut self.0, values.get2_mut(key1, key2))
    }

    /// The value of the key. It is checked all the same.
    ///
    /// # Panics
    ///
    /// If the key has no value.
    ///
    /// # Safety
    ///
    /// It is safe. In `slab` it is not, so a caller writes `unsafe`.
    #[must_use]
    pub unsafe fn get_unchecked(&self, key: usize) -> &T {
        self.get(key).expect("invalid key")
    }

    /// The value of the key, to be changed. It is checked all the same.
    ///
    /// # Panics
    ///
    /// If the key has no value.
    ///
    /// # Safety
    ///
    /// As of [`Slab::get_unchecked`].
    pub unsafe fn get_unchecked_mut(&mut self, key: usize) -> &mut T {
        self.get_mut(key).expect("invalid key")
    }

    /// The values of two keys, to be changed. They are checked all the same.
    ///
    /// # Panics
    ///
    /// If a key has no value, or both are the same.
    ///
    /// # Safety
    ///
    /// As of [`Slab::get_unchecked`].
    pub unsafe fn get2_unchecked_mut(&mut self, key1: usize, key2: usize) -> (&mut T, &mut T) {
        self.get2_mut(key1, key2).expect("invalid key")
    }

    /// The key of a value of this slab that is lent.
    ///
    /// # Panics
    ///
    /// If it is none of them.
    #[must_use]
    pub fn key_of(&self, present_element: &T) -> usize {
        let at: *const T = present_element;
        let key = match &self.0 {
            Values::InVector(values) => values.key_at(at),
            Values::InPages(paged) => {
                let name = paged.values.key_at(at.cast());
                name.and_then(|name| Some(paged.values.get(name)?.key))
            }
        };
        key.expect("The reference points to a value outside this slab")
    }

    /// Keeps a value, and gives its key.
    ///
    /// # Panics
    ///
    /// If memory is refused for it.
    #[inline]
    pub fn insert(&mut self, val: T) -> usize {
        if let Values::InVector(values) = &mut self.0 {
            if values.len() < IN_VECTOR {
                return values.insert(val);
            }
            self.make_way(1);
        }
        either!(&mut self.0, values.insert(val))
    }

    /// The key that the next value will have.
    #[inline]
    #[must_use]
    pub fn vacant_key(&self) -> usize {
        either!(&self.0, keys.next())
    }

    /// A key for a value that is still to come.
    pub fn vacant_entry(&mut self) -> VacantEntry<'_, T> {
        let key = self.vacant_key();
        VacantEntry { slab: self, key }
    }

    /// Takes the value of the key out, if it has one.
    #[inline]
    pub fn try_remove(&mut self, key: usize) -> Option<T> {
        either!(&mut self.0, values.remove(key))
    }

    /// Takes the value of the key out.
    ///
    /// # Panics
    ///
    /// If it has none.
    #[inline]
    #[track_caller]
    pub fn remove(&mut self, key: usize) -> T {
        self.try_remove(key).expect("invalid key")
    }

    /// Whether the key has a value.
    #[inline]
    #[must_use]
    pub fn contains(&self, key: usize) -> bool {
        either!(&self.0, keys.get(key).is_some())
    }

    /// Takes out each value that the test does not keep, from the lowest key on.
    pub fn retain<F>(&mut self, mut f: F)
    where
        F: FnMut(usize, &mut T) -> bool,
    {
        for key in 0..either!(&self.0, keys.keys()) {
            let keeps = self.get_mut(key).map_or(true, |value| f(key, value));
            if !keeps {
                self.try_remove(key);
            }
        }
    }

    /// Takes all values out, and gives each, from the lowest key on.
    pub fn drain(&mut self) -> Drain<'_, T> {
        Drain::new(&mut self.0)
    }
}

impl<'a, T> VacantEntry<'a, T> {
    /// Keeps the value, and lends it.
    pub fn insert(self, val: T) -> &'a mut T {
        self.slab.insert(val);
        self.slab.get_mut(self.key).expect("the value was kept")
    }

    /// The key that the value will have.
    #[must_use]
    pub fn key(&self) -> usize {
        self.key
    }
}

impl<T> Default for Slab<T> {
    fn default() -> Slab<T> {
        Slab::new()
    }
}

impl<T: Clone> Clone for Slab<T> {
    /// The values with the keys that they have here.
    fn clone(&self) -> Slab<T> {
        Slab(match &self.0 {
            Values::InVector(values) => Values::InVector(values.clone()),
            Values::InPages(paged) => {
                let mut kept = teurlaks::Slab::default();
                let names = paged.names.clone().map(|key, name| {
                    let node: &Node<T> = &paged.values[name];
                    keep(&mut kept, key, node.value.clone())
                });
                Values::InPages(Box::new(Paged {
                    names,
                    values: kept,
                    removed: 0,
                }))
            }
        })
    }
}

impl<T> Index<usize> for Slab<T> {
    type Output = T;

    #[inline]
    #[track_caller]
    fn index(&self, key: usize) -> &T {
        self.get(key).expect("invalid key")
    }
}

impl<T> IndexMut<usize> for Slab<T> {
    #[inline]
    #[track_caller]
    fn index_mut(&mut self, key: usize) -> &mut T {
        self.get_mut(key).expect("invalid key")
    }
}

impl<T> FromIterator<(usize, T)> for Slab<T> {
    /// The values under these keys. Of several under one key the last one stays, and a key that is
    /// missing below the greatest one is vacant.
    fn from_iter<I: IntoIterator<Item = (usize, T)>>(pairs: I) -> Slab<T> {
        let pairs = pairs.into_iter();
        let mut slab = Slab::with_capacity(pairs.size_hint().0);
        // The vacant entries are in the order in which they came until one of them is taken.
        let mut in_order = true;
        for (key, value) in pairs {
            if let Some(old) = slab.get_mut(key) {
                *old = value;
                continue;
            }
            // What is next after a vacant entry has 32 bits.
            assert!(key < u32::MAX as usize, "capacity overflow");
            in_order &= key >= either!(&slab.0, keys.keys());
            slab.make_way(if key < IN_VECTOR { 0 } else { IN_VECTOR + 1 });
            match &mut slab.0 {
                Values::InVector(values) => values.insert_at(key, value),
                Values::InPages(paged) => {
                    let name = keep(&mut paged.values, key, value);
                    paged.names.insert_at(key, name);
                }
            }
        }
        either!(&mut slab.0, keys.end_vacant(in_order));
        slab
    }
}

impl<T: fmt::Debug> fmt::Debug for Slab<T> {
    fn fmt(&self, f: &mut fmt::Formatter<'_>) -> fmt::Result {
        if f.alternate() {
            f.debug_map().entries(self.iter()).finish()
        } else {
            f.debug_struct("Slab")
                .field("len", &self.len())
                .field("cap", &self.capacity())
                .finish()
        }
    }
}
