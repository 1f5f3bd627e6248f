//! Entries under keys that are numbers, as `slab` has them: in one vector, with a list of the
//! vacant ones.

use std::iter::{Enumerate, FusedIterator};
use std::mem;
use std::{slice, vec};

/// What stands for a key: what it has, or the vacant entry that is taken after this one.
#[derive(Clone, Copy)]
enum Entry<V> {
    Occupied(V),
    Vacant(u32),
}

/// Entries, the lowest keys first. A key that was freed last is the next one.
#[derive(Clone)]
pub(crate) struct Plain<V> {
    entries: Vec<Entry<V>>,
    len: usize,
    // The vacant entry that is taken next, or the number of all.
    next: usize,
}

impl<V> Plain<V> {
    pub const fn new() -> Plain<V> {
        Plain {
            entries: Vec::new(),
            len: 0,
            next: 0,
        }
    }

    pub fn with_capacity(capacity: usize) -> Plain<V> {
        Plain {
            entries: Vec::with_capacity(capacity),
            ..Plain::new()
        }
    }

    pub fn capacity(&self) -> usize {
        self.entries.capacity()
    }

    /// How many keys there are, with those that are vacant.
    pub fn keys(&self) -> usize {
        self.entries.len()
    }

    /// How many keys have something.
    #[inline]
    pub fn len(&self) -> usize {
        self.len
    }

    /// The key that comes next.
    #[inline]
    pub fn next(&self) -> usize {
        self.next
    }

    /// How many further keys take room that is not there yet as vacant entries.
    fn beyond(&self, additional: usize) -> usize {
        additional.saturating_sub(self.entries.len() - self.len)
    }

    pub fn reserve(&mut self, additional: usize) {
        self.entries.reserve(self.beyond(additional));
    }

    pub fn reserve_exact(&mut self, additional: usize) {
        self.entries.reserve_exact(self.beyond(additional));
    }

    #[inline]
    pub fn get(&self, key: usize) -> Option<&V> {
        match self.entries.get(key) {
            Some(Entry::Occupied(value)) => Some(value),
            _ => None,
        }
    }

    #[inline]
    pub fn get_mut(&mut self, key: usize) -> Option<&mut V> {
        match self.entries.get_mut(key) {
            Some(Entry::Occupied(value)) => Some(value),
            _ => None,
        }
    }

    /// What two different keys have, if both have something.
    pub fn get2_mut(&mut self, key1: usize, key2: usize) -> Option<(&mut V, &mut V)> {
        if key1 > key2 {
            let (two, one) = self.get2_mut(key2, key1)?;
            return Some((one, two));
        }
        if key2 >= self.entries.len() {
            return None;
        }
        let (before, from) = self.entries.split_at_mut(key2);
        match (before.get_mut(key1)?, from.first_mut()?) {
            (Entry::Occupied(one), Entry::Occupied(two)) => Some((one, two)),
            _ => None,
        }
    }

    /// The key whose value stands at the address.
    pub fn key_at(&self, at: *const V) -> Option<usize> {
        let offset = (at as usize).checked_sub(self.entries.as_ptr() as usize)?;
        let key = offset / mem::size_of::<Entry<V>>();
        self.get(key).map(|_| key)
    }

    /// Keeps it under the key that comes next, and gives that.
    #[allow(clippy::inline_always)] // So that a large value is not copied on its way.
    #[inline(always)]
    pub fn insert(&mut self, value: V) -> usize {
        let key = self.next;
        // What is next after a vacant entry has 32 bits.
        assert!(key < u32::MAX as usize, "capacity overflow");
        self.next = match self.entries.get_mut(key) {
            None => {
                self.entries.push(Entry::Occupied(value));
                key + 1
            }
            Some(entry) => {
                let Entry::Vacant(next) = *entry else {
                    unreachable!("a vacant entry is next");
                };
                *entry = Entry::Occupied(value);
                next as usize
            }
        };
        self.len += 1;
        key
    }

    /// Takes out what the key has.
    #[inline]
    pub fn remove(&mut self, key: usize) -> Option<V> {
        self.get(key)?;
        let vacant = Entry::Vacant(self.next as u32);
        let Entry::Occupied(value) = mem::replace(&mut self.entries[key], vacant) else {
            unreachable!("the key has something");
        };
        self.next = key;
        self.len -= 1;
        Some(value)
    }

    pub fn clear(&mut self) {
        (self.len, self.next) = (0, 0);
        self.entries.clear();
    }

    /// Gives back the room of the last keys that are vacant.
    pub fn shrink(&mut self) {
        let before = self.entries.len();
        while let Some(Entry::Vacant(_)) = self.entries.last() {
            self.entries.pop();
        }
        if self.entries.len() != before {
            self.list_vacant();
        }
        self.entries.shrink_to_fit();
    }

    /// Moves what the greatest keys have to lower ones, as far as the closure agrees, which has the
    /// key that it has and the one that it may have.
    pub fn compact(&mut self, mut rekey: impl FnMut(&mut V, usize, usize) -> bool) {
        let moving = Moving { plain: self };
        let mut to = 0;
        while moving.plain.entries.len() > moving.plain.len {
            let Some(Entry::Occupied(mut value)) = moving.plain.entries.pop() else {
                continue;
            };
            while let Some(Entry::Occupied(_)) = moving.plain.entries.get(to) {
                to += 1;
            }
            let from = moving.plain.entries.len();
            // What the closure panics for goes.
            moving.plain.len -= 1;
            let agrees = rekey(&mut value, from, to);
            moving.plain.len += 1;
            if !agrees {
                moving.plain.entries.push(Entry::Occupied(value));
                break;
            }
            moving.plain.entries[to] = Entry::Occupied(value);
        }
        drop(moving);
        self.entries.shrink_to_fit();
    }

    /// Lists the vacant entries anew, the lowest first.
    fn list_vacant(&mut self) {
        self.next = self.entries.len();
        for (key, entry) in self.entries.iter_mut().enumerate().rev() {
            if let Entry::Vacant(next) = entry {
                *next = self.next as u32;
                self.next = key;
            }
        }
    }

    /// The same keys, with what the closure makes of what they have.
    pub fn map<W>(self, mut make: impl FnMut(usize, V) -> W) -> Plain<W> {
        let entries = self.entries.into_iter().enumerate();
        let entries = entries.map(|(key, entry)| match entry {
            Entry::Occupied(value) => Entry::Occupied(make(key, value)),
            Entry::Vacant(next) => Entry::Vacant(next),
        });
        Plain {
            entries: entries.collect(),
            len: self.len,
            next: self.next,
        }
    }

    /// Keeps it under a key that has nothing; those below it that are new are vacant. The list of
    /// vacant entries is whole again once `end_vacant` was called.
    pub fn insert_at(&mut self, key: usize, value: V) {
        for vacant in self.entries.len()..key {
            self.entries.push(Entry::Vacant(self.next as u32));
            self.next = vacant;
        }
        match self.entries.get_mut(key) {
            Some(entry) => *entry = Entry::Occupied(value),
            None => self.entries.push(Entry::Occupied(value)),
        }
        self.len += 1;
    }

    /// Has the list of vacant entries, the last of which came first, end with what comes after all:
    /// if none of them was taken, they are in the order in which they came.
    pub fn end_vacant(&mut self, in_order: bool) {
        let count = self.entries.len();
        let vacant = |entry: &&mut Entry<V>| matches!(entry, Entry::Vacant(_));
        if self.len == count {
            self.next = count;
        } else if !in_order {
            self.list_vacant();
        } else if let Some(Entry::Vacant(next)) = self.entries.iter_mut().find(vacant) {
            *next = count as u32;
        }
    }

    pub fn iter(&self) -> Iter<'_, V> {
        Iter {
            entries: self.entries.iter().enumerate(),
            left: self.len,
        }
    }

    pub fn iter_mut(&mut self) -> IterMut<'_, V> {
        IterMut {
            entries: self.entries.iter_mut().enumerate(),
            left: self.len,
        }
    }

    pub fn into_entries(self) -> IntoIter<V> {
        IntoIter {
            entries: self.entries.into_iter().enumerate(),
            left: self.len,
        }
    }

    pub fn drain(&mut self) -> Drain<'_, V> {
        let left = mem::take(&mut self.len);
        self.next = 0;
        Drain {
            entries: self.entries.drain(..).enumerate(),
            left,
        }
    }
}

/// Entries that get other keys.
struct Moving<'p, V> {
    plain: &'p mut Plain<V>,
}

impl<V> Drop for Moving<'_, V> {
    fn drop(&mut self) {
        self.plain.list_vacant();
    }
}

/// Iterators over what keys have, from both ends.
macro_rules! by_entries {
    ($($name:ident<$($lifetime:lifetime)?>, $entries:ty, $item:ty;)*) => {$(
        pub(crate) struct $name<$($lifetime,)? V> {
            entries: Enumerate<$entries>,
            left: usize,
        }

        impl<$($lifetime,)? V> Iterator for $name<$($lifetime,)? V> {
            type Item = (usize, $item);

            fn next(&mut self) -> Option<Self::Item> {
                loop {
                    if let (key, Entry::Occupied(value)) = self.entries.next()? {
                        self.left -= 1;
                        return Some((key, value));
                    }
                }
            }

            fn size_hint(&self) -> (usize, Option<usize>) {
                (self.left, Some(self.left))
            }
        }

        impl<$($lifetime,)? V> DoubleEndedIterator for $name<$($lifetime,)? V> {
            fn next_back(&mut self) -> Option<Self::Item> {
                loop {
                    if let (key, Entry::Occupied(value)) = self.entries.next_back()? {
                        self.left -= 1;
                        return Some((key, value));
                    }
                }
            }
        }

        impl<$($lifetime,)? V> ExactSizeIterator for $name<$($lifetime,)? V> {}
        impl<$($lifetime,)? V> FusedIterator for $name<$($lifetime,)? V> {}
    )*};
}

by_entries! {
    Iter<'p>, slice::Iter<'p, Entry<V>>, &'p V;
    IterMut<'p>, slice::IterMut<'p, Entry<V>>, &'p mut V;
    IntoIter<>, vec::IntoIter<Entry<V>>, V;
    Drain<'p>, vec::Drain<'p, Entry<V>>, V;
}

impl<V> Clone for Iter<'_, V> {
    fn clone(&self) -> Self {
        Iter {
            entries: self.entries.clone(),
            left: self.left,
        }
    }
}
