//! An entry of a slab that waits for its value.

use super::Slab;
use crate::names::Key;
use std::fmt;

/// A key whose value is still to come: of [`Slab::vacant_entry`].
#[must_use = "an entry that is dropped uses up a key"]
pub struct VacantEntry<'s, T> {
    // Until the value comes.
    slab: Option<&'s mut Slab<T>>,
    shard: u32,
    key: Key,
}

impl<'s, T> VacantEntry<'s, T> {
    /// The entry of a key of the shard, which the slab has noted as vacant. There is room for the
    /// value.
    pub(super) fn new(slab: &'s mut Slab<T>, shard: u32, key: Key) -> VacantEntry<'s, T> {
        let slab = Some(slab);
        VacantEntry { slab, shard, key }
    }

    /// The key that the value will have.
    #[must_use]
    pub fn key(&self) -> Key {
        self.key
    }

    /// Keeps the value, and lends it.
    // The slab goes with the value, and the value is found under the key that it was kept under.
    #[allow(clippy::missing_panics_doc)]
    pub fn insert(mut self, value: T) -> &'s mut T {
        let slab = self.slab.take().expect("the value comes once");
        slab.vacant = None;
        slab.values.put(self.key, value, || self.shard);
        slab.get_mut(self.key).expect("the value was kept")
    }
}

impl<T> Drop for VacantEntry<'_, T> {
    fn drop(&mut self) {
        if let Some(slab) = &mut self.slab {
            slab.give_up_vacant();
            slab.first = slab.first.min(self.shard as u8);
        }
    }
}

impl<T> fmt::Debug for VacantEntry<'_, T> {
    fn fmt(&self, f: &mut fmt::Formatter<'_>) -> fmt::Result {
        f.debug_struct("VacantEntry")
            .field("key", &self.key)
            .finish_non_exhaustive()
    }
}
