//! A slab's operators, its default and its text.

use super::Slab;
use crate::names::Key;
use std::fmt;
use std::ops::{Index, IndexMut};

impl<T> Default for Slab<T> {
    /// A slab as of [`Slab::new`].
    fn default() -> Slab<T> {
        Slab::new().expect("the limits are in range")
    }
}

impl<T> Index<Key> for Slab<T> {
    type Output = T;

    /// # Panics
    ///
    /// Where the key is not live.
    #[inline]
    fn index(&self, key: Key) -> &T {
        self.get(key).expect("the key is not live")
    }
}

impl<T> IndexMut<Key> for Slab<T> {
    /// # Panics
    ///
    /// Where the key is not live.
    #[inline]
    fn index_mut(&mut self, key: Key) -> &mut T {
        self.get_mut(key).expect("the key is not live")
    }
}

impl<T: fmt::Debug> fmt::Debug for Slab<T> {
    fn fmt(&self, f: &mut fmt::Formatter<'_>) -> fmt::Result {
        f.debug_map().entries(self.iter()).finish()
    }
}
