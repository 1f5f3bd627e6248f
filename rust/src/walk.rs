//! Walks over the live keys of a [`Core`], in the order of [`Core::next_live`] and back.
//!
//! Each step from the front is one call of the library. A step from the end finds the key before a
//! slot by calls that begin further and further in front of it. That is one call if the slot before
//! is live, and else about twice the binary logarithm of how many slots lie between. It takes no
//! memory.

use crate::bytes::Words;
use crate::core::{Core, MOST_SHARDS, NO_KEY};
use crate::names::{Key, Position};
use crate::raw::RawKey;
use std::fmt;
use std::iter::FusedIterator;

/// Where a walk over the live keys of a core is, from both ends.
#[derive(Clone)]
pub(crate) struct Place {
    // The key that came last from the front, or what stands for none.
    after: RawKey,
    // Where the key stands that came last from the end, or what is behind all.
    end: Position,
}

impl Place {
    /// Before the first key, and behind the last one.
    pub(crate) fn first() -> Place {
        Place {
            after: NO_KEY,
            end: Position::behind(MOST_SHARDS),
        }
    }

    /// The live key that comes next. Where none does, none comes later, unless more are put.
    #[inline]
    pub(crate) fn next(&mut self, core: &Core) -> Option<Key> {
        self.after = core.next_after(self.after)?;
        Key::of(self.after)
    }

    /// The live key that comes next from the end, be it one that came from the front or not.
    pub(crate) fn next_back(&mut self, core: &Core) -> Option<Key> {
        let key = last_before(core, self.end)?;
        self.end = key.position();
        Some(key)
    }

    /// The live key that comes next, if the walk from the end has not come to it.
    pub(crate) fn next_between(&mut self, core: &Core) -> Option<Key> {
        let key = self.clone().next(core)?;
        if key.position() >= self.end {
            return None;
        }
        self.after = key.raw();
        Some(key)
    }

    /// The live key that comes next from the end, if the walk from the front has not come to it.
    pub(crate) fn next_back_between(&mut self, core: &Core) -> Option<Key> {
        let key = last_before(core, self.end)?;
        if Key::of(self.after).is_some_and(|after| key.position() <= after.position()) {
            return None;
        }
        self.end = key.position();
        Some(key)
    }

    /// The walk from the front begins with another core.
    pub(crate) fn begin(&mut self) {
        self.after = NO_KEY;
    }

    /// The walk from the end begins with another core.
    pub(crate) fn begin_back(&mut self) {
        self.end = Place::first().end;
    }
}

/// The last live key that stands before there.
fn last_before(core: &Core, end: Position) -> Option<Key> {
    // No key is live from here on up to the end.
    let mut none_from = end;
    let mut reach = 1;
    let mut last = loop {
        let from = end.back(reach);
        match core.first_between(from, none_from) {
            Some(key) => break key,
            None if from == Position::FIRST => return None,
            None => (none_from, reach) = (from, 2 * reach),
        }
    };
    while let Some(middle) = last.position().middle(none_from) {
        match core.first_between(middle, none_from) {
            Some(key) => last = key,
            None => none_from = middle,
        }
    }
    Some(last)
}

/// The live keys of a core: of [`Core::keys`].
#[derive(Clone)]
#[must_use = "iterators are lazy and do nothing unless consumed"]
pub struct Keys<'c> {
    core: &'c Core,
    place: Place,
    left: usize,
}

impl Keys<'_> {
    pub(crate) fn new(core: &Core) -> Keys<'_> {
        Keys {
            core,
            place: Place::first(),
            left: core.len(),
        }
    }
}

impl Iterator for Keys<'_> {
    type Item = Key;

    #[inline]
    fn next(&mut self) -> Option<Key> {
        self.left = self.left.checked_sub(1)?;
        self.place.next(self.core)
    }

    fn size_hint(&self) -> (usize, Option<usize>) {
        (self.left, Some(self.left))
    }
}

impl DoubleEndedIterator for Keys<'_> {
    fn next_back(&mut self) -> Option<Key> {
        self.left = self.left.checked_sub(1)?;
        self.place.next_back(self.core)
    }
}

impl ExactSizeIterator for Keys<'_> {}
impl FusedIterator for Keys<'_> {}

impl fmt::Debug for Keys<'_> {
    fn fmt(&self, f: &mut fmt::Formatter<'_>) -> fmt::Result {
        f.debug_list().entries(self.clone()).finish()
    }
}

/// The live keys of a core, each with the words of its object: of [`Core::iter`].
#[derive(Clone)]
#[must_use = "iterators are lazy and do nothing unless consumed"]
pub struct Iter<'c> {
    keys: Keys<'c>,
}

impl Iter<'_> {
    pub(crate) fn new(core: &Core) -> Iter<'_> {
        Iter {
            keys: Keys::new(core),
        }
    }
}

impl Iterator for Iter<'_> {
    type Item = (Key, Words);

    fn next(&mut self) -> Option<(Key, Words)> {
        let key = self.keys.next()?;
        Some((key, self.keys.core.get_words(key)?))
    }

    fn size_hint(&self) -> (usize, Option<usize>) {
        self.keys.size_hint()
    }
}

impl DoubleEndedIterator for Iter<'_> {
    fn next_back(&mut self) -> Option<(Key, Words)> {
        let key = self.keys.next_back()?;
        Some((key, self.keys.core.get_words(key)?))
    }
}

impl ExactSizeIterator for Iter<'_> {}
impl FusedIterator for Iter<'_> {}

impl fmt::Debug for Iter<'_> {
    fn fmt(&self, f: &mut fmt::Formatter<'_>) -> fmt::Result {
        f.debug_map().entries(self.clone()).finish()
    }
}

impl<'c> IntoIterator for &'c Core {
    type Item = (Key, Words);
    type IntoIter = Iter<'c>;

    fn into_iter(self) -> Iter<'c> {
        self.iter()
    }
}

/// Frees the keys of a core, and gives each with the words of its object: of [`Core::drain`].
pub struct Drain<'c> {
    core: &'c mut Core,
    place: Place,
}

impl Drain<'_> {
    pub(crate) fn new(core: &mut Core) -> Drain<'_> {
        let place = Place::first();
        Drain { core, place }
    }

    /// Frees a live key, and gives it with its words.
    fn take(&mut self, key: Key) -> Option<(Key, Words)> {
        let words = self.core.get_words(key)?;
        self.core.free_live(key);
        Some((key, words))
    }
}

impl Iterator for Drain<'_> {
    type Item = (Key, Words);

    fn next(&mut self) -> Option<(Key, Words)> {
        let key = self.place.next(self.core)?;
        self.take(key)
    }

    fn size_hint(&self) -> (usize, Option<usize>) {
        (self.core.len(), Some(self.core.len()))
    }
}

impl DoubleEndedIterator for Drain<'_> {
    fn next_back(&mut self) -> Option<(Key, Words)> {
        let key = self.place.next_back(self.core)?;
        self.take(key)
    }
}

impl ExactSizeIterator for Drain<'_> {}
impl FusedIterator for Drain<'_> {}

impl Drop for Drain<'_> {
    fn drop(&mut self) {
        self.for_each(drop);
    }
}

impl fmt::Debug for Drain<'_> {
    fn fmt(&self, f: &mut fmt::Formatter<'_>) -> fmt::Result {
        fmt::Debug::fmt(&self.core.iter(), f)
    }
}
