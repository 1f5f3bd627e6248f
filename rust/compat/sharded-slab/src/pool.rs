//! Values that are cleared and used again.

use crate::config::Numbers;
use crate::{Clear, Config, DefaultConfig};
use std::fmt;
use std::marker::PhantomData;
use std::mem::{self, ManuallyDrop};
use std::ops::{Deref, DerefMut};
use std::sync::Arc;
use teurlaks::{shared_slab, SharedSlab};

/// Values of one type that threads share, under keys that are numbers: a value that is removed is
/// cleared, and comes again.
pub struct Pool<T: Clear + Default, C: Config = DefaultConfig> {
    values: Arc<SharedSlab<T>>,
    config: PhantomData<fn() -> C>,
}

/// A value that is lent: of [`Pool::get`].
pub struct Ref<'a, T: Clear + Default, C: Config = DefaultConfig> {
    entry: shared_slab::Entry<'a, T>,
    key: usize,
    config: PhantomData<fn() -> C>,
}

/// A value that is lent with a share of its pool: of [`Pool::get_owned`].
pub struct OwnedRef<T: Clear + Default, C: Config = DefaultConfig> {
    // Before the pool, so that it is dropped first.
    entry: shared_slab::OwnedEntry<T>,
    _pool: Arc<Pool<T, C>>,
    key: usize,
}

/// A new value, which others find once this is dropped: of [`Pool::create`].
pub struct RefMut<'a, T: Clear + Default, C: Config = DefaultConfig> {
    // Both are taken once, by the drop or by `downgrade`.
    entry: ManuallyDrop<shared_slab::VacantEntry<'a, T>>,
    value: ManuallyDrop<T>,
    key: usize,
    config: PhantomData<fn() -> C>,
}

/// As [`RefMut`], with a share of the pool: of [`Pool::create_owned`].
pub struct OwnedRefMut<T: Clear + Default + 'static, C: Config + 'static = DefaultConfig> {
    // Before the pool, so that it is dropped first. It borrows the pool's values, which are where
    // they are as long as the pool is.
    created: ManuallyDrop<RefMut<'static, T, C>>,
    pool: ManuallyDrop<Arc<Pool<T, C>>>,
}

impl<T: Clear + Default> Pool<T> {
    /// A pool with no value.
    #[must_use]
    pub fn new() -> Pool<T> {
        Pool::new_with_config()
    }

    /// A pool with no value, which is as the type says.
    ///
    /// # Panics
    ///
    /// If more than 24 bits are reserved.
    #[must_use]
    pub fn new_with_config<C: Config>() -> Pool<T, C> {
        Pool {
            values: Arc::new(
                SharedSlab::with_limits(C::limits()).expect("the limits are in range"),
            ),
            config: PhantomData,
        }
    }
}

impl<T: Clear + Default, C: Config> Pool<T, C> {
    /// How many bits a key has at most: a program may use those above.
    pub const USED_BITS: usize = C::USED_BITS;

    /// A new value, to be changed before others find it; or `None` if there is no memory or no key
    /// left.
    pub fn create(&self) -> Option<RefMut<'_, T, C>> {
        let entry = self.values.vacant_entry().ok()?;
        // A key that has no number is given up with its entry.
        let key = C::number(entry.key())?;
        Some(RefMut {
            value: ManuallyDrop::new(entry.spare_or_default()),
            entry: ManuallyDrop::new(entry),
            key,
            config: PhantomData,
        })
    }

    /// As [`Pool::create`], with a share of the pool.
    pub fn create_owned(self: Arc<Self>) -> Option<OwnedRefMut<T, C>>
    where
        T: 'static,
        C: 'static,
    {
        let created = self.create()?;
        // SAFETY: it borrows what the `Arc` has, which it is dropped before, and which does not
        // move.
        let created = unsafe { mem::transmute::<RefMut<'_, T, C>, RefMut<'static, T, C>>(created) };
        Some(OwnedRefMut {
            created: ManuallyDrop::new(created),
            pool: ManuallyDrop::new(self),
        })
    }

    /// Keeps a new value once the closure has made of it what it is to be, and gives its key.
    pub fn create_with(&self, init: impl FnOnce(&mut T)) -> Option<usize> {
        let mut created = self.create()?;
        init(&mut created);
        Some(created.key())
    }

    /// Lends the value of the key, if there is one.
    pub fn get(&self, key: usize) -> Option<Ref<'_, T, C>> {
        let entry = self.values.get(C::key(key)?)?;
        let config = PhantomData;
        Some(Ref { entry, key, config })
    }

    /// Lends the value of the key, if there is one, with a share of the pool.
    pub fn get_owned(self: Arc<Self>, key: usize) -> Option<OwnedRef<T, C>> {
        let entry = self.values.get_owned(C::key(key)?)?;
        let _pool = self;
        Some(OwnedRef { entry, _pool, key })
    }

    /// Removes the value of the key, and says whether there was one. It is cleared, to come again,
    /// when it is not lent any more.
    pub fn clear(&self, key: usize) -> bool {
        C::key(key).is_some_and(|key| self.values.clear(key))
    }
}

impl<'a, T: Clear + Default, C: Config> RefMut<'a, T, C> {
    /// The key of the value.
    pub fn key(&self) -> usize {
        self.key
    }

    /// Lets others find the value, and lends it.
    pub fn downgrade(self) -> Ref<'a, T, C> {
        let mut created = ManuallyDrop::new(self);
        // SAFETY: its drop does not run, so both are taken once.
        let (entry, value) = unsafe {
            (
                ManuallyDrop::take(&mut created.entry),
                ManuallyDrop::take(&mut created.value),
            )
        };
        Ref {
            entry: entry.insert_entry(value),
            key: created.key,
            config: PhantomData,
        }
    }
}

impl<T: Clear + Default, C: Config> Drop for RefMut<'_, T, C> {
    fn drop(&mut self) {
        // SAFETY: both are taken once, since nobody has this any more.
        let (entry, value) = unsafe {
            (
                ManuallyDrop::take(&mut self.entry),
                ManuallyDrop::take(&mut self.value),
            )
        };
        entry.insert(value);
    }
}

impl<T: Clear + Default, C: Config> OwnedRefMut<T, C> {
    /// The key of the value.
    pub fn key(&self) -> usize {
        self.created.key
    }

    /// Lets others find the value, and lends it.
    pub fn downgrade(self) -> OwnedRef<T, C> {
        let mut owned = ManuallyDrop::new(self);
        // SAFETY: its drop does not run, so both are taken once; and what borrows the pool is
        // dropped before it.
        let (created, pool) = unsafe {
            (
                ManuallyDrop::take(&mut owned.created),
                ManuallyDrop::take(&mut owned.pool),
            )
        };
        let key = created.key;
        let entry = created.downgrade().entry.into_owned(&pool.values);
        OwnedRef {
            entry,
            _pool: pool,
            key,
        }
    }
}

impl<T: Clear + Default, C: Config> Drop for OwnedRefMut<T, C> {
    fn drop(&mut self) {
        // SAFETY: each is dropped once, and what borrows the pool before it.
        unsafe {
            ManuallyDrop::drop(&mut self.created);
            ManuallyDrop::drop(&mut self.pool);
        }
    }
}

impl<T: Clear + Default, C: Config> Ref<'_, T, C> {
    /// The key under which it was found.
    pub fn key(&self) -> usize {
        self.key
    }
}

impl<T: Clear + Default, C: Config> OwnedRef<T, C> {
    /// The key under which it was found.
    pub fn key(&self) -> usize {
        self.key
    }
}

/// What is said of the guards by the value that they lend.
macro_rules! as_the_value {
    ($($guard:ty, $self:ident => $value:expr;)*) => {$(
        impl<T: Clear + Default, C: Config> Deref for $guard {
            type Target = T;

            fn deref(&$self) -> &T {
                $value
            }
        }

        impl<T: Clear + Default + fmt::Debug, C: Config> fmt::Debug for $guard {
            fn fmt(&self, f: &mut fmt::Formatter<'_>) -> fmt::Result {
                T::fmt(self, f)
            }
        }

        impl<T: Clear + Default + PartialEq, C: Config> PartialEq<T> for $guard {
            fn eq(&self, other: &T) -> bool {
                **self == *other
            }
        }
    )*};
}

as_the_value! {
    Ref<'_, T, C>, self => &self.entry;
    OwnedRef<T, C>, self => &self.entry;
    RefMut<'_, T, C>, self => &self.value;
    OwnedRefMut<T, C>, self => &self.created.value;
}

impl<T: Clear + Default, C: Config> DerefMut for RefMut<'_, T, C> {
    fn deref_mut(&mut self) -> &mut T {
        &mut self.value
    }
}

impl<T: Clear + Default, C: Config> DerefMut for OwnedRefMut<T, C> {
    fn deref_mut(&mut self) -> &mut T {
        &mut self.created.value
    }
}

impl<T: Clear + Default> Default for Pool<T> {
    fn default() -> Pool<T> {
        Pool::new()
    }
}

impl<T: Clear + Default + fmt::Debug, C: Config> fmt::Debug for Pool<T, C> {
    fn fmt(&self, f: &mut fmt::Formatter<'_>) -> fmt::Result {
        f.debug_struct("Pool")
            .field("values", &self.values)
            .finish()
    }
}
