//! The map and its iterators.

use crate::key::{DefaultKey, Key, KeyData};
use std::fmt;
use std::iter::FusedIterator;
use std::marker::PhantomData;
use std::ops::{Index, IndexMut};
use teurlaks::{slab, Limits, Refused, Slab};

/// Values of one type under keys that the map gives out.
pub struct SlotMap<K: Key, V> {
    values: Slab<V>,
    // For how many values the caller asked for room.
    capacity: usize,
    keys: PhantomData<fn(K) -> K>,
}

/// Limits within which a key has a number, until a shard has opened 2^28 pages.
const LIMITS: Limits = Limits::compact_keys();

impl<V> SlotMap<DefaultKey, V> {
    /// A map with no value, which takes no memory.
    #[must_use]
    pub fn new() -> SlotMap<DefaultKey, V> {
        SlotMap::with_key()
    }

    /// A map with no value. Values have memory as they come.
    #[must_use]
    pub fn with_capacity(capacity: usize) -> SlotMap<DefaultKey, V> {
        SlotMap::with_capacity_and_key(capacity)
    }
}

impl<K: Key, V> SlotMap<K, V> {
    /// As [`SlotMap::new`], with keys of any type.
    #[must_use]
    pub fn with_key() -> SlotMap<K, V> {
        SlotMap::with_capacity_and_key(0)
    }

    /// As [`SlotMap::with_capacity`], with keys of any type.
    #[must_use]
    pub fn with_capacity_and_key(capacity: usize) -> SlotMap<K, V> {
        SlotMap {
            values: or_panic(Slab::with_limits(LIMITS)),
            capacity,
            keys: PhantomData,
        }
    }

    /// How many values there are.
    #[must_use]
    pub fn len(&self) -> usize {
        self.values.len()
    }

    /// Whether there is no value.
    #[must_use]
    pub fn is_empty(&self) -> bool {
        self.values.is_empty()
    }

    /// For how many values the caller asked for room, or how many there are if these are more.
    #[must_use]
    pub fn capacity(&self) -> usize {
        self.capacity.max(self.len())
    }

    /// Counts as room for so many further values, which have memory as they come.
    ///
    /// # Panics
    ///
    /// If that are more than a `usize` counts.
    pub fn reserve(&mut self, additional: usize) {
        let needed = self
            .len()
            .checked_add(additional)
            .expect("capacity overflow");
        self.capacity = self.capacity.max(needed);
    }

    /// Whether the key has a value.
    #[must_use]
    pub fn contains_key(&self, key: K) -> bool {
        self.get(key).is_some()
    }

    /// Keeps a value, and gives its key.
    ///
    /// # Panics
    ///
    /// If memory is refused, or no key is left that has a number.
    pub fn insert(&mut self, value: V) -> K {
        self.insert_with_key(|_| value)
    }

    /// Keeps the value that is made with its own key.
    ///
    /// # Panics
    ///
    /// As [`SlotMap::insert`].
    pub fn insert_with_key<F>(&mut self, f: F) -> K
    where
        F: FnOnce(K) -> V,
    {
        let entry = or_panic(self.values.vacant_entry());
        let key = KeyData::of(entry.key())
            .expect("no key is left that has a number")
            .into();
        entry.insert(f(key));
        key
    }

    /// Takes the value of the key out.
    pub fn remove(&mut self, key: K) -> Option<V> {
        self.values.remove(key.data().key()?)
    }

    /// Takes out each value that the closure does not keep.
    pub fn retain<F>(&mut self, mut f: F)
    where
        F: FnMut(K, &mut V) -> bool,
    {
        self.values.retain(|key, value| f(outer(key), value));
    }

    /// Takes all values out.
    pub fn clear(&mut self) {
        self.values.clear();
    }

    /// Takes all values out, and gives each with the key that it had.
    pub fn drain(&mut self) -> Drain<'_, K, V> {
        Drain(self.values.drain(), PhantomData)
    }

    /// The value of the key, if there is one.
    #[must_use]
    pub fn get(&self, key: K) -> Option<&V> {
        self.values.get(key.data().key()?)
    }

    /// The value of the key.
    ///
    /// # Safety
    ///
    /// None is asked: it panics if there is no value.
    #[must_use]
    pub unsafe fn get_unchecked(&self, key: K) -> &V {
        &self[key]
    }

    /// The value of the key, to be changed, if there is one.
    pub fn get_mut(&mut self, key: K) -> Option<&mut V> {
        self.values.get_mut(key.data().key()?)
    }

    /// The value of the key, to be changed.
    ///
    /// # Safety
    ///
    /// None is asked: it panics if there is no value.
    pub unsafe fn get_unchecked_mut(&mut self, key: K) -> &mut V {
        &mut self[key]
    }

    /// The values of the keys, to be changed, if each has one and no two are the same.
    pub fn get_disjoint_mut<const N: usize>(&mut self, keys: [K; N]) -> Option<[&mut V; N]> {
        let keys = keys.map(|key| key.data().key());
        if keys.contains(&None) {
            return None;
        }
        self.values
            .get_disjoint_mut(keys.map(|key| key.expect("each is one")))
    }

    /// The values of the keys, to be changed.
    ///
    /// # Safety
    ///
    /// None is asked: it panics if one has no value, or two are the same.
    pub unsafe fn get_disjoint_unchecked_mut<const N: usize>(
        &mut self,
        keys: [K; N],
    ) -> [&mut V; N] {
        self.get_disjoint_mut(keys)
            .expect("the keys have values, and no two are the same")
    }

    /// Each key with its value, in no particular order.
    pub fn iter(&self) -> Iter<'_, K, V> {
        Iter(self.values.iter(), PhantomData)
    }

    /// Each key with its value, to be changed, in no particular order.
    pub fn iter_mut(&mut self) -> IterMut<'_, K, V> {
        IterMut(self.values.iter_mut(), PhantomData)
    }

    /// Each key, in no particular order.
    pub fn keys(&self) -> Keys<'_, K, V> {
        Keys(self.values.keys(), PhantomData)
    }

    /// Each value, in no particular order.
    pub fn values(&self) -> Values<'_, K, V> {
        Values(self.values.values(), PhantomData)
    }

    /// Each value, to be changed, in no particular order.
    pub fn values_mut(&mut self) -> ValuesMut<'_, K, V> {
        ValuesMut(self.values.values_mut(), PhantomData)
    }

    /// Folds sparse pages onto others, and says how many pages went. No key changes.
    ///
    /// # Errors
    ///
    /// If memory is refused.
    pub fn compact(&mut self) -> Result<usize, Refused> {
        self.values.compact()
    }
}

/// What a call gives that can't be refused here.
fn or_panic<R>(done: Result<R, Refused>) -> R {
    done.unwrap_or_else(|refused| panic!("{refused}"))
}

/// The key as its user knows it. It was given out, so it has a number.
fn outer<K: Key>(key: teurlaks::Key) -> K {
    KeyData::of(key).unwrap_or_default().into()
}

/// The iterators: what each is over in a slab, and what it gives.
macro_rules! iterators {
    ($(
        $(#[$doc:meta])* $name:ident, [$($life:lifetime)?], $inner:ty, $item:ty,
        $next:ident => $gives:expr;
    )*) => {$(
        $(#[$doc])*
        #[must_use = "iterators are lazy and do nothing unless consumed"]
        pub struct $name<$($life,)? K: Key, V>($inner, PhantomData<fn(K) -> K>);

        impl<$($life,)? K: Key, V> Iterator for $name<$($life,)? K, V> {
            type Item = $item;

            fn next(&mut self) -> Option<$item> {
                self.0.next().map(|$next| $gives)
            }

            fn size_hint(&self) -> (usize, Option<usize>) {
                self.0.size_hint()
            }
        }

        impl<$($life,)? K: Key, V> ExactSizeIterator for $name<$($life,)? K, V> {}

        impl<$($life,)? K: Key, V> FusedIterator for $name<$($life,)? K, V> {}

        impl<$($life,)? K: Key, V> fmt::Debug for $name<$($life,)? K, V> {
            fn fmt(&self, f: &mut fmt::Formatter<'_>) -> fmt::Result {
                f.debug_struct(stringify!($name)).field("left", &self.len()).finish()
            }
        }
    )*};
}

iterators! {
    /// Each key with its value: of [`SlotMap::iter`].
    Iter, ['a], slab::Iter<'a, V>, (K, &'a V), next => (outer(next.0), next.1);
    /// Each key with its value, to be changed: of [`SlotMap::iter_mut`].
    IterMut, ['a], slab::IterMut<'a, V>, (K, &'a mut V), next => (outer(next.0), next.1);
    /// Each key: of [`SlotMap::keys`].
    Keys, ['a], slab::Keys<'a, V>, K, next => outer(next);
    /// Each value: of [`SlotMap::values`].
    Values, ['a], slab::Values<'a, V>, &'a V, next => next;
    /// Each value, to be changed: of [`SlotMap::values_mut`].
    ValuesMut, ['a], slab::ValuesMut<'a, V>, &'a mut V, next => next;
    /// Each key with its value, which is taken out: of [`SlotMap::drain`].
    Drain, ['a], slab::Drain<'a, V>, (K, V), next => (outer(next.0), next.1);
    /// Each key with its value, of a map that is no more.
    IntoIter, [], slab::IntoIter<V>, (K, V), next => (outer(next.0), next.1);
}

impl<'a, K: Key, V> Clone for Iter<'a, K, V> {
    fn clone(&self) -> Iter<'a, K, V> {
        Iter(self.0.clone(), PhantomData)
    }
}

impl<'a, K: Key, V> Clone for Keys<'a, K, V> {
    fn clone(&self) -> Keys<'a, K, V> {
        Keys(self.0.clone(), PhantomData)
    }
}

impl<'a, K: Key, V> Clone for Values<'a, K, V> {
    fn clone(&self) -> Values<'a, K, V> {
        Values(self.0.clone(), PhantomData)
    }
}

impl<'a, K: Key, V> IntoIterator for &'a SlotMap<K, V> {
    type Item = (K, &'a V);
    type IntoIter = Iter<'a, K, V>;

    fn into_iter(self) -> Iter<'a, K, V> {
        self.iter()
    }
}

impl<'a, K: Key, V> IntoIterator for &'a mut SlotMap<K, V> {
    type Item = (K, &'a mut V);
    type IntoIter = IterMut<'a, K, V>;

    fn into_iter(self) -> IterMut<'a, K, V> {
        self.iter_mut()
    }
}

impl<K: Key, V> IntoIterator for SlotMap<K, V> {
    type Item = (K, V);
    type IntoIter = IntoIter<K, V>;

    fn into_iter(self) -> IntoIter<K, V> {
        IntoIter(self.values.into_iter(), PhantomData)
    }
}

impl<K: Key, V> Index<K> for SlotMap<K, V> {
    type Output = V;

    fn index(&self, key: K) -> &V {
        self.get(key).expect("invalid SlotMap key used")
    }
}

impl<K: Key, V> IndexMut<K> for SlotMap<K, V> {
    fn index_mut(&mut self, key: K) -> &mut V {
        self.get_mut(key).expect("invalid SlotMap key used")
    }
}

impl<K: Key, V> Default for SlotMap<K, V> {
    fn default() -> SlotMap<K, V> {
        SlotMap::with_key()
    }
}

impl<K: Key, V: fmt::Debug> fmt::Debug for SlotMap<K, V> {
    fn fmt(&self, f: &mut fmt::Formatter<'_>) -> fmt::Result {
        f.debug_map().entries(self).finish()
    }
}
