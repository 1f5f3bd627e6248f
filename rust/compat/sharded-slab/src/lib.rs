//! The interface of `sharded-slab` 0.1 over a [`teurlaks::SharedSlab`], which another program takes
//! in place of `sharded-slab` by `[patch]`. A look-up takes no lock if it finds its value; an
//! insert and a removal take that of one shard. The pages of a slab leave the process when its
//! values are gone, and [`Slab::compact`] folds those that are sparse.
//!
//! ```
//! use sharded_slab::Slab;
//!
//! let slab = Slab::new();
//! let key = slab.insert("hello world").unwrap();
//! assert_eq!(slab.get(key).unwrap(), "hello world");
//! assert!(slab.remove(key) && slab.get(key).is_none());
//! ```
#![warn(missing_docs, missing_debug_implementations)]

mod config;
pub mod pool;

pub use config::{Config, DefaultConfig};
#[doc(inline)]
pub use pool::Pool;
pub use teurlaks::Clear;

use config::Numbers;
use std::fmt;
use std::marker::PhantomData;
use std::ops::Deref;
use std::sync::Arc;
use teurlaks::{shared_slab, Refused, SharedSlab};

/// Values of one type that threads share, under keys that are numbers.
pub struct Slab<T, C: Config = DefaultConfig> {
    values: Arc<SharedSlab<T>>,
    config: PhantomData<fn() -> C>,
}

/// A value that is lent: of [`Slab::get`]. A value that is removed meanwhile is dropped with its
/// last entry.
pub struct Entry<'a, T, C: Config = DefaultConfig> {
    entry: shared_slab::Entry<'a, T>,
    key: usize,
    config: PhantomData<fn() -> C>,
}

/// A value that is lent with a share of its slab: of [`Slab::get_owned`].
pub struct OwnedEntry<T, C: Config = DefaultConfig> {
    // Before the slab, so that it is dropped first.
    entry: shared_slab::OwnedEntry<T>,
    // So that nobody has the slab alone meanwhile.
    _slab: Arc<Slab<T, C>>,
    key: usize,
}

/// A key whose value is still to come: of [`Slab::vacant_entry`].
pub struct VacantEntry<'a, T, C: Config = DefaultConfig> {
    entry: shared_slab::VacantEntry<'a, T>,
    key: usize,
    config: PhantomData<fn() -> C>,
}

impl<T> Slab<T> {
    /// A slab with no value.
    #[must_use]
    pub fn new() -> Slab<T> {
        Slab::new_with_config()
    }

    /// A slab with no value, which is as the type says.
    ///
    /// # Panics
    ///
    /// If more than 24 bits are reserved.
    #[must_use]
    pub fn new_with_config<C: Config>() -> Slab<T, C> {
        Slab {
            values: Arc::new(
                SharedSlab::with_limits(C::limits()).expect("the limits are in range"),
            ),
            config: PhantomData,
        }
    }
}

impl<T, C: Config> Slab<T, C> {
    /// How many bits a key has at most: a program may use those above.
    pub const USED_BITS: usize = C::USED_BITS;

    /// Keeps a value, and gives its key, or `None` if there is no memory or no key left.
    pub fn insert(&self, value: T) -> Option<usize> {
        let entry = self.vacant_entry()?;
        let key = entry.key;
        entry.insert(value);
        Some(key)
    }

    /// A key for a value that is still to come, or `None` if there is no memory or no key left.
    pub fn vacant_entry(&self) -> Option<VacantEntry<'_, T, C>> {
        let entry = self.values.vacant_entry().ok()?;
        // A key that has no number is given up with its entry.
        let key = C::number(entry.key())?;
        let config = PhantomData;
        Some(VacantEntry { entry, key, config })
    }

    /// Removes the value of the key, and says whether there was one. It is dropped when it has no
    /// entry any more.
    pub fn remove(&self, key: usize) -> bool {
        C::key(key).is_some_and(|key| self.values.remove(key))
    }

    /// Takes the value of the key out, once it has no entry any more.
    pub fn take(&self, key: usize) -> Option<T> {
        self.values.take(C::key(key)?)
    }

    /// Lends the value of the key, if there is one.
    pub fn get(&self, key: usize) -> Option<Entry<'_, T, C>> {
        let entry = self.values.get(C::key(key)?)?;
        let config = PhantomData;
        Some(Entry { entry, key, config })
    }

    /// Lends the value of the key, if there is one, with a share of the slab.
    pub fn get_owned(self: Arc<Self>, key: usize) -> Option<OwnedEntry<T, C>> {
        let entry = self.values.get_owned(C::key(key)?)?;
        let _slab = self;
        Some(OwnedEntry { entry, _slab, key })
    }

    /// Whether the key has a value.
    pub fn contains(&self, key: usize) -> bool {
        self.get(key).is_some()
    }

    /// Each value, in no particular order.
    ///
    /// # Panics
    ///
    /// Never: who has the slab alone has its values alone.
    pub fn unique_iter(&mut self) -> UniqueIter<'_, T> {
        let values =
            Arc::get_mut(&mut self.values).expect("an owned entry has a share of the slab");
        UniqueIter(values.unique_iter())
    }

    /// Folds sparse pages onto others, and says how many pages went. No key changes.
    ///
    /// # Errors
    ///
    /// If memory is refused.
    pub fn compact(&self) -> Result<usize, Refused> {
        self.values.compact()
    }
}

/// Each value of a slab: of [`Slab::unique_iter`].
#[derive(Debug)]
pub struct UniqueIter<'a, T>(shared_slab::UniqueIter<'a, T>);

impl<'a, T> Iterator for UniqueIter<'a, T> {
    type Item = &'a T;

    fn next(&mut self) -> Option<&'a T> {
        self.0.next().map(|(_, value)| &*value)
    }
}

impl<T, C: Config> VacantEntry<'_, T, C> {
    /// The key that the value will have.
    pub fn key(&self) -> usize {
        self.key
    }

    /// Keeps the value.
    pub fn insert(self, value: T) {
        self.entry.insert(value);
    }
}

impl<T, C: Config> Entry<'_, T, C> {
    /// The key under which it was found.
    pub fn key(&self) -> usize {
        self.key
    }
}

impl<T, C: Config> OwnedEntry<T, C> {
    /// The key under which it was found.
    pub fn key(&self) -> usize {
        self.key
    }
}

impl<T, C: Config> Deref for Entry<'_, T, C> {
    type Target = T;

    fn deref(&self) -> &T {
        &self.entry
    }
}

impl<T, C: Config> Deref for OwnedEntry<T, C> {
    type Target = T;

    fn deref(&self) -> &T {
        &self.entry
    }
}

impl<T: fmt::Debug, C: Config> fmt::Debug for Entry<'_, T, C> {
    fn fmt(&self, f: &mut fmt::Formatter<'_>) -> fmt::Result {
        T::fmt(self, f)
    }
}

impl<T: fmt::Debug, C: Config> fmt::Debug for OwnedEntry<T, C> {
    fn fmt(&self, f: &mut fmt::Formatter<'_>) -> fmt::Result {
        T::fmt(self, f)
    }
}

impl<T: PartialEq, C: Config> PartialEq<T> for Entry<'_, T, C> {
    fn eq(&self, other: &T) -> bool {
        **self == *other
    }
}

impl<T: PartialEq, C: Config> PartialEq<T> for OwnedEntry<T, C> {
    fn eq(&self, other: &T) -> bool {
        **self == *other
    }
}

impl<T, C: Config> fmt::Debug for VacantEntry<'_, T, C> {
    fn fmt(&self, f: &mut fmt::Formatter<'_>) -> fmt::Result {
        f.debug_struct("VacantEntry")
            .field("key", &self.key)
            .finish_non_exhaustive()
    }
}

impl<T> Default for Slab<T> {
    fn default() -> Slab<T> {
        Slab::new()
    }
}

impl<T: fmt::Debug, C: Config> fmt::Debug for Slab<T, C> {
    fn fmt(&self, f: &mut fmt::Formatter<'_>) -> fmt::Result {
        f.debug_struct("Slab")
            .field("values", &self.values)
            .finish()
    }
}
