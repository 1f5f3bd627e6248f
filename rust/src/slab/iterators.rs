//! The iterators of a slab. They come to the values page by page, in no particular order.

use super::Slab;
use crate::core::Core;
use crate::names::Key;
use crate::values::{self, Spot, Walk, WalkMut};
use std::fmt;
use std::iter::FusedIterator;

/// Each key with its value: of [`Slab::iter`].
#[must_use = "iterators are lazy and do nothing unless consumed"]
pub struct Iter<'s, T> {
    core: &'s Core,
    values: &'s values::Values<T>,
    walk: Walk,
}

impl<'s, T> Iter<'s, T> {
    pub(super) fn new(core: &'s Core, values: &'s values::Values<T>, walk: Walk) -> Iter<'s, T> {
        Iter { core, values, walk }
    }

    /// The key and the value of a spot of its walk.
    #[inline]
    fn at(&self, spot: Spot) -> (Key, &'s T) {
        (spot.key(self.core), self.values.at(spot))
    }
}

impl<T> Clone for Iter<'_, T> {
    fn clone(&self) -> Self {
        Iter::new(self.core, self.values, self.walk.clone())
    }
}

impl<'s, T> Iterator for Iter<'s, T> {
    type Item = (Key, &'s T);

    #[inline]
    fn next(&mut self) -> Option<(Key, &'s T)> {
        let spot = self.walk.next_in(self.values)?;
        Some(self.at(spot))
    }

    fn size_hint(&self) -> (usize, Option<usize>) {
        exactly(self.walk.left())
    }
}

impl<T: fmt::Debug> fmt::Debug for Iter<'_, T> {
    fn fmt(&self, f: &mut fmt::Formatter<'_>) -> fmt::Result {
        f.debug_map().entries(self.clone()).finish()
    }
}

/// Each key with its value, to be changed: of [`Slab::iter_mut`].
#[must_use = "iterators are lazy and do nothing unless consumed"]
pub struct IterMut<'s, T> {
    core: &'s Core,
    walk: WalkMut<'s, T>,
}

impl<'s, T> IterMut<'s, T> {
    pub(super) fn new(core: &'s Core, walk: WalkMut<'s, T>) -> IterMut<'s, T> {
        IterMut { core, walk }
    }

    /// What is still to come.
    fn rest(&self) -> Iter<'_, T> {
        let (values, walk) = self.walk.rest();
        Iter::new(self.core, values, walk)
    }
}

impl<'s, T> Iterator for IterMut<'s, T> {
    type Item = (Key, &'s mut T);

    #[inline]
    fn next(&mut self) -> Option<(Key, &'s mut T)> {
        let (spot, value) = self.walk.next()?;
        Some((spot.key(self.core), value))
    }

    fn size_hint(&self) -> (usize, Option<usize>) {
        exactly(self.walk.left())
    }
}

impl<T: fmt::Debug> fmt::Debug for IterMut<'_, T> {
    fn fmt(&self, f: &mut fmt::Formatter<'_>) -> fmt::Result {
        fmt::Debug::fmt(&self.rest(), f)
    }
}

/// Each key: of [`Slab::keys`].
#[must_use = "iterators are lazy and do nothing unless consumed"]
pub struct Keys<'s, T> {
    iter: Iter<'s, T>,
}

impl<'s, T> Keys<'s, T> {
    pub(super) fn new(iter: Iter<'s, T>) -> Keys<'s, T> {
        Keys { iter }
    }
}

impl<T> Clone for Keys<'_, T> {
    fn clone(&self) -> Self {
        Keys::new(self.iter.clone())
    }
}

impl<T> Iterator for Keys<'_, T> {
    type Item = Key;

    #[inline]
    fn next(&mut self) -> Option<Key> {
        self.iter.next().map(|(key, _)| key)
    }

    fn size_hint(&self) -> (usize, Option<usize>) {
        self.iter.size_hint()
    }
}

impl<T> fmt::Debug for Keys<'_, T> {
    fn fmt(&self, f: &mut fmt::Formatter<'_>) -> fmt::Result {
        f.debug_list().entries(self.clone()).finish()
    }
}

/// Each value: of [`Slab::values`].
#[must_use = "iterators are lazy and do nothing unless consumed"]
pub struct Values<'s, T> {
    values: &'s values::Values<T>,
    walk: Walk,
}

impl<'s, T> Values<'s, T> {
    pub(super) fn new(values: &'s values::Values<T>, walk: Walk) -> Values<'s, T> {
        Values { values, walk }
    }
}

impl<T> Clone for Values<'_, T> {
    fn clone(&self) -> Self {
        Values::new(self.values, self.walk.clone())
    }
}

impl<'s, T> Iterator for Values<'s, T> {
    type Item = &'s T;

    #[inline]
    fn next(&mut self) -> Option<&'s T> {
        let spot = self.walk.next_in(self.values)?;
        Some(self.values.at(spot))
    }

    fn size_hint(&self) -> (usize, Option<usize>) {
        exactly(self.walk.left())
    }
}

impl<T: fmt::Debug> fmt::Debug for Values<'_, T> {
    fn fmt(&self, f: &mut fmt::Formatter<'_>) -> fmt::Result {
        f.debug_list().entries(self.clone()).finish()
    }
}

/// Each value, to be changed: of [`Slab::values_mut`].
#[must_use = "iterators are lazy and do nothing unless consumed"]
pub struct ValuesMut<'s, T> {
    walk: WalkMut<'s, T>,
}

impl<'s, T> ValuesMut<'s, T> {
    pub(super) fn new(walk: WalkMut<'s, T>) -> ValuesMut<'s, T> {
        ValuesMut { walk }
    }
}

impl<'s, T> Iterator for ValuesMut<'s, T> {
    type Item = &'s mut T;

    #[inline]
    fn next(&mut self) -> Option<&'s mut T> {
        self.walk.next().map(|(_, value)| value)
    }

    fn size_hint(&self) -> (usize, Option<usize>) {
        exactly(self.walk.left())
    }
}

impl<T: fmt::Debug> fmt::Debug for ValuesMut<'_, T> {
    fn fmt(&self, f: &mut fmt::Formatter<'_>) -> fmt::Result {
        let (values, walk) = self.walk.rest();
        fmt::Debug::fmt(&Values::new(values, walk), f)
    }
}

/// Each key with its value, of a slab that is no more: of [`IntoIterator`] for `Slab<T>`. Values
/// that are not asked for are dropped with it.
#[must_use = "the values are dropped where they are not asked for"]
pub struct IntoIter<T> {
    // Whose values are taken out, and whose keys are left as they are.
    slab: Slab<T>,
    walk: Walk,
}

impl<T> IntoIter<T> {
    pub(super) fn new(slab: Slab<T>, walk: Walk) -> IntoIter<T> {
        IntoIter { slab, walk }
    }

    /// The key of a spot of its walk, with the value, which is taken out.
    #[inline]
    fn take(&mut self, spot: Spot) -> Option<(Key, T)> {
        let key = spot.key(&self.slab.core);
        let (value, _) = self.slab.values.take(key)?;
        Some((key, value))
    }
}

impl<T> Iterator for IntoIter<T> {
    type Item = (Key, T);

    #[inline]
    fn next(&mut self) -> Option<(Key, T)> {
        let spot = self.walk.next_in(&self.slab.values)?;
        self.take(spot)
    }

    fn size_hint(&self) -> (usize, Option<usize>) {
        exactly(self.walk.left())
    }
}

impl<T: fmt::Debug> fmt::Debug for IntoIter<T> {
    fn fmt(&self, f: &mut fmt::Formatter<'_>) -> fmt::Result {
        let Slab { core, values, .. } = &self.slab;
        fmt::Debug::fmt(&Iter::new(core, values, self.walk.clone()), f)
    }
}

/// Takes the values out of a slab, and gives each with the key that it had: of [`Slab::drain`].
/// Values that are not asked for are dropped with it, and where it is forgotten, they stay.
pub struct Drain<'s, T> {
    slab: &'s mut Slab<T>,
    walk: Walk,
}

impl<'s, T> Drain<'s, T> {
    pub(super) fn new(slab: &'s mut Slab<T>, walk: Walk) -> Drain<'s, T> {
        Drain { slab, walk }
    }
}

impl<T> Iterator for Drain<'_, T> {
    type Item = (Key, T);

    fn next(&mut self) -> Option<(Key, T)> {
        let spot = self.walk.next_in(&self.slab.values)?;
        self.slab.remove_at(spot)
    }

    fn size_hint(&self) -> (usize, Option<usize>) {
        exactly(self.walk.left())
    }
}

impl<T> Drop for Drain<'_, T> {
    fn drop(&mut self) {
        self.for_each(drop);
    }
}

impl<T: fmt::Debug> fmt::Debug for Drain<'_, T> {
    fn fmt(&self, f: &mut fmt::Formatter<'_>) -> fmt::Result {
        let Slab { core, values, .. } = &*self.slab;
        fmt::Debug::fmt(&Iter::new(core, values, self.walk.clone()), f)
    }
}

/// The size hint of an iterator that knows how many are left.
fn exactly(left: usize) -> (usize, Option<usize>) {
    (left, Some(left))
}

impl<'s, T> DoubleEndedIterator for Iter<'s, T> {
    #[inline]
    fn next_back(&mut self) -> Option<(Key, &'s T)> {
        let spot = self.walk.next_back_in(self.values)?;
        Some(self.at(spot))
    }
}

impl<'s, T> DoubleEndedIterator for IterMut<'s, T> {
    #[inline]
    fn next_back(&mut self) -> Option<(Key, &'s mut T)> {
        let (spot, value) = self.walk.next_back()?;
        Some((spot.key(self.core), value))
    }
}

impl<T> DoubleEndedIterator for Keys<'_, T> {
    #[inline]
    fn next_back(&mut self) -> Option<Key> {
        self.iter.next_back().map(|(key, _)| key)
    }
}

impl<'s, T> DoubleEndedIterator for Values<'s, T> {
    #[inline]
    fn next_back(&mut self) -> Option<&'s T> {
        let spot = self.walk.next_back_in(self.values)?;
        Some(self.values.at(spot))
    }
}

impl<'s, T> DoubleEndedIterator for ValuesMut<'s, T> {
    #[inline]
    fn next_back(&mut self) -> Option<&'s mut T> {
        self.walk.next_back().map(|(_, value)| value)
    }
}

impl<T> DoubleEndedIterator for IntoIter<T> {
    #[inline]
    fn next_back(&mut self) -> Option<(Key, T)> {
        let spot = self.walk.next_back_in(&self.slab.values)?;
        self.take(spot)
    }
}

impl<T> DoubleEndedIterator for Drain<'_, T> {
    fn next_back(&mut self) -> Option<(Key, T)> {
        let spot = self.walk.next_back_in(&self.slab.values)?;
        self.slab.remove_at(spot)
    }
}

impl<T> ExactSizeIterator for Iter<'_, T> {}
impl<T> ExactSizeIterator for IterMut<'_, T> {}
impl<T> ExactSizeIterator for Keys<'_, T> {}
impl<T> ExactSizeIterator for Values<'_, T> {}
impl<T> ExactSizeIterator for ValuesMut<'_, T> {}
impl<T> ExactSizeIterator for IntoIter<T> {}
impl<T> ExactSizeIterator for Drain<'_, T> {}

impl<T> FusedIterator for Iter<'_, T> {}
impl<T> FusedIterator for IterMut<'_, T> {}
impl<T> FusedIterator for Keys<'_, T> {}
impl<T> FusedIterator for Values<'_, T> {}
impl<T> FusedIterator for ValuesMut<'_, T> {}
impl<T> FusedIterator for IntoIter<T> {}
impl<T> FusedIterator for Drain<'_, T> {}

impl<'s, T> IntoIterator for &'s Slab<T> {
    type Item = (Key, &'s T);
    type IntoIter = Iter<'s, T>;

    fn into_iter(self) -> Iter<'s, T> {
        self.iter()
    }
}

impl<'s, T> IntoIterator for &'s mut Slab<T> {
    type Item = (Key, &'s mut T);
    type IntoIter = IterMut<'s, T>;

    fn into_iter(self) -> IterMut<'s, T> {
        self.iter_mut()
    }
}

impl<T> IntoIterator for Slab<T> {
    type Item = (Key, T);
    type IntoIter = IntoIter<T>;

    fn into_iter(self) -> IntoIter<T> {
        let walk = self.walk();
        IntoIter::new(self, walk)
    }
}

impl<T> Extend<T> for Slab<T> {
    /// As [`Slab::try_extend`].
    ///
    /// # Panics
    ///
    /// If a value is refused.
    fn extend<I: IntoIterator<Item = T>>(&mut self, values: I) {
        self.try_extend(values)
            .expect("there is room for each value");
    }
}

impl<T> FromIterator<T> for Slab<T> {
    /// As [`Slab::try_from_iter`].
    ///
    /// # Panics
    ///
    /// If a value is refused.
    fn from_iter<I: IntoIterator<Item = T>>(values: I) -> Slab<T> {
        Slab::try_from_iter(values).expect("there is room for each value")
    }
}
