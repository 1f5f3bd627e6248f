//! The iterators of a store, in the order of keys and back.

use super::Store;
use crate::names::Key;
use crate::walk::{self, Place};
use std::fmt;
use std::iter::FusedIterator;
use std::marker::PhantomData;

/// Each key with a copy of its value: of [`Store::iter`].
#[must_use = "iterators are lazy and do nothing unless consumed"]
pub struct Iter<'s, T> {
    store: &'s Store<T>,
    keys: walk::Keys<'s>,
}

impl<'s, T> Iter<'s, T> {
    pub(super) fn new(store: &'s Store<T>) -> Iter<'s, T> {
        let keys = store.core.keys();
        Iter { store, keys }
    }
}

impl<T> Clone for Iter<'_, T> {
    fn clone(&self) -> Self {
        let (store, keys) = (self.store, self.keys.clone());
        Iter { store, keys }
    }
}

impl<T: Copy> Iterator for Iter<'_, T> {
    type Item = (Key, T);

    fn next(&mut self) -> Option<(Key, T)> {
        let key = self.keys.next()?;
        Some((key, self.store.get(key)?))
    }

    fn size_hint(&self) -> (usize, Option<usize>) {
        self.keys.size_hint()
    }
}

impl<T: Copy + fmt::Debug> fmt::Debug for Iter<'_, T> {
    fn fmt(&self, f: &mut fmt::Formatter<'_>) -> fmt::Result {
        f.debug_map().entries(self.clone()).finish()
    }
}

/// Each key: of [`Store::keys`].
#[must_use = "iterators are lazy and do nothing unless consumed"]
pub struct Keys<'s, T> {
    walk: walk::Keys<'s>,
    values: PhantomData<&'s T>,
}

impl<'s, T> Keys<'s, T> {
    pub(super) fn new(walk: walk::Keys<'s>) -> Keys<'s, T> {
        let values = PhantomData;
        Keys { walk, values }
    }
}

impl<T> Clone for Keys<'_, T> {
    fn clone(&self) -> Self {
        Keys::new(self.walk.clone())
    }
}

impl<T> Iterator for Keys<'_, T> {
    type Item = Key;

    fn next(&mut self) -> Option<Key> {
        self.walk.next()
    }

    fn size_hint(&self) -> (usize, Option<usize>) {
        self.walk.size_hint()
    }
}

impl<T> fmt::Debug for Keys<'_, T> {
    fn fmt(&self, f: &mut fmt::Formatter<'_>) -> fmt::Result {
        fmt::Debug::fmt(&self.walk, f)
    }
}

/// A copy of each value: of [`Store::values`].
#[must_use = "iterators are lazy and do nothing unless consumed"]
pub struct Values<'s, T> {
    iter: Iter<'s, T>,
}

impl<'s, T> Values<'s, T> {
    pub(super) fn new(iter: Iter<'s, T>) -> Values<'s, T> {
        Values { iter }
    }
}

impl<T> Clone for Values<'_, T> {
    fn clone(&self) -> Self {
        Values::new(self.iter.clone())
    }
}

impl<T: Copy> Iterator for Values<'_, T> {
    type Item = T;

    fn next(&mut self) -> Option<T> {
        self.iter.next().map(|(_, value)| value)
    }

    fn size_hint(&self) -> (usize, Option<usize>) {
        self.iter.size_hint()
    }
}

impl<T: Copy + fmt::Debug> fmt::Debug for Values<'_, T> {
    fn fmt(&self, f: &mut fmt::Formatter<'_>) -> fmt::Result {
        f.debug_list().entries(self.clone()).finish()
    }
}

/// Takes the values out of a store, and gives each with the key that it had: of [`Store::drain`].
/// Those that are not asked for go with it, and where it is forgotten, they stay.
pub struct Drain<'s, T> {
    store: &'s mut Store<T>,
    place: Place,
}

impl<'s, T> Drain<'s, T> {
    pub(super) fn new(store: &'s mut Store<T>) -> Drain<'s, T> {
        let place = Place::first();
        Drain { store, place }
    }
}

impl<T: Copy> Iterator for Drain<'_, T> {
    type Item = (Key, T);

    fn next(&mut self) -> Option<(Key, T)> {
        let key = self.place.next(&self.store.core)?;
        Some((key, self.store.remove(key)?))
    }

    fn size_hint(&self) -> (usize, Option<usize>) {
        (self.store.len(), Some(self.store.len()))
    }
}

impl<T> Drop for Drain<'_, T> {
    fn drop(&mut self) {
        self.store.clear();
    }
}

impl<T: Copy + fmt::Debug> fmt::Debug for Drain<'_, T> {
    fn fmt(&self, f: &mut fmt::Formatter<'_>) -> fmt::Result {
        fmt::Debug::fmt(&self.store.iter(), f)
    }
}

/// Each key with its value, of a store that is no more: of [`IntoIterator`] for `Store<T>`.
#[must_use = "iterators are lazy and do nothing unless consumed"]
pub struct IntoIter<T> {
    store: Store<T>,
    place: Place,
}

impl<T: Copy> Iterator for IntoIter<T> {
    type Item = (Key, T);

    fn next(&mut self) -> Option<(Key, T)> {
        let key = self.place.next(&self.store.core)?;
        Some((key, self.store.remove(key)?))
    }

    fn size_hint(&self) -> (usize, Option<usize>) {
        (self.store.len(), Some(self.store.len()))
    }
}

impl<T: Copy + fmt::Debug> fmt::Debug for IntoIter<T> {
    fn fmt(&self, f: &mut fmt::Formatter<'_>) -> fmt::Result {
        fmt::Debug::fmt(&self.store.iter(), f)
    }
}

impl<T: Copy> DoubleEndedIterator for Iter<'_, T> {
    fn next_back(&mut self) -> Option<(Key, T)> {
        let key = self.keys.next_back()?;
        Some((key, self.store.get(key)?))
    }
}

impl<T> DoubleEndedIterator for Keys<'_, T> {
    fn next_back(&mut self) -> Option<Key> {
        self.walk.next_back()
    }
}

impl<T: Copy> DoubleEndedIterator for Values<'_, T> {
    fn next_back(&mut self) -> Option<T> {
        self.iter.next_back().map(|(_, value)| value)
    }
}

impl<T: Copy> DoubleEndedIterator for Drain<'_, T> {
    fn next_back(&mut self) -> Option<(Key, T)> {
        let key = self.place.next_back(&self.store.core)?;
        Some((key, self.store.remove(key)?))
    }
}

impl<T: Copy> DoubleEndedIterator for IntoIter<T> {
    fn next_back(&mut self) -> Option<(Key, T)> {
        let key = self.place.next_back(&self.store.core)?;
        Some((key, self.store.remove(key)?))
    }
}

impl<T: Copy> ExactSizeIterator for Iter<'_, T> {}
impl<T> ExactSizeIterator for Keys<'_, T> {}
impl<T: Copy> ExactSizeIterator for Values<'_, T> {}
impl<T: Copy> ExactSizeIterator for Drain<'_, T> {}
impl<T: Copy> ExactSizeIterator for IntoIter<T> {}

impl<T: Copy> FusedIterator for Iter<'_, T> {}
impl<T> FusedIterator for Keys<'_, T> {}
impl<T: Copy> FusedIterator for Values<'_, T> {}
impl<T: Copy> FusedIterator for Drain<'_, T> {}
impl<T: Copy> FusedIterator for IntoIter<T> {}

impl<'s, T: Copy> IntoIterator for &'s Store<T> {
    type Item = (Key, T);
    type IntoIter = Iter<'s, T>;

    fn into_iter(self) -> Iter<'s, T> {
        self.iter()
    }
}

impl<T: Copy> IntoIterator for Store<T> {
    type Item = (Key, T);
    type IntoIter = IntoIter<T>;

    fn into_iter(self) -> IntoIter<T> {
        let (store, place) = (self, Place::first());
        IntoIter { store, place }
    }
}
