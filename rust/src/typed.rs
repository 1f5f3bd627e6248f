//! Keys with a type of their own, and a slab of such keys.

use crate::compact::Compacted;
use crate::core::Limits;
use crate::names::Key;
use crate::refused::{InsertError, Refused};
use crate::slab::Slab;
use std::fmt;
use std::marker::PhantomData;
use std::ops::{Index, IndexMut};

/// A [`Key`] with a type of its own, as [`new_key_type!`](crate::new_key_type) makes one.
pub trait TypedKey: Copy + From<Key> + Into<Key> {}

impl TypedKey for Key {}

/// Makes types of keys, each a [`Key`] of a name of its own, so that the keys of two slabs are not
/// taken for each other. It takes 12 bytes, as a `Key` does, and costs nothing. It is after the
/// macro of this name in `slotmap`.
///
/// ```
/// use teurlaks::{new_key_type, Key, TypedSlab};
///
/// new_key_type! {
///     /// The key of a player.
///     pub struct PlayerKey;
///     struct TeamKey;
/// }
/// let mut players = TypedSlab::<PlayerKey, _>::new()?;
/// let mut teams = TypedSlab::<TeamKey, _>::new()?;
/// let red = teams.insert("red")?;
/// let ann = players.insert(("Ann", red))?;
/// assert_eq!(teams[players[ann].1], "red");
/// assert_eq!(format!("{ann:?} {ann}"), "PlayerKey(0.0/0/1) 0.0/0/1");
/// assert_eq!("0.0/0/1".parse(), Ok(ann));
/// assert_eq!(std::mem::size_of::<Option<PlayerKey>>(), 12);
/// let of_any_type: Key = ann.into();
/// assert_eq!(PlayerKey::from(of_any_type), ann);
/// # Ok::<(), teurlaks::Refused>(())
/// ```
///
/// ```compile_fail
/// # teurlaks::new_key_type! { struct PlayerKey; struct TeamKey; }
/// # let players = teurlaks::TypedSlab::<PlayerKey, char>::new().unwrap();
/// # let mut teams = teurlaks::TypedSlab::<TeamKey, char>::new().unwrap();
/// let red = teams.insert('r').unwrap();
/// players.get(red); // no key of a player
/// ```
#[macro_export]
macro_rules! new_key_type {
    ($($(#[$attribute:meta])* $visibility:vis struct $name:ident;)*) => {$(
        $(#[$attribute])*
        #[derive(Clone, Copy, PartialEq, Eq, PartialOrd, Ord, Hash)]
        #[repr(transparent)]
        $visibility struct $name($crate::Key);

        impl ::std::convert::From<$crate::Key> for $name {
            fn from(key: $crate::Key) -> $name {
                $name(key)
            }
        }

        impl ::std::convert::From<$name> for $crate::Key {
            fn from(key: $name) -> $crate::Key {
                key.0
            }
        }

        impl ::std::str::FromStr for $name {
            type Err = $crate::ParseKeyError;

            fn from_str(text: &str) -> ::std::result::Result<$name, $crate::ParseKeyError> {
                ::std::str::FromStr::from_str(text).map($name)
            }
        }

        impl ::std::fmt::Display for $name {
            fn fmt(&self, f: &mut ::std::fmt::Formatter<'_>) -> ::std::fmt::Result {
                ::std::fmt::Display::fmt(&self.0, f)
            }
        }

        impl ::std::fmt::Debug for $name {
            fn fmt(&self, f: &mut ::std::fmt::Formatter<'_>) -> ::std::fmt::Result {
                f.debug_tuple(::std::stringify!($name)).field(&self.0).finish()
            }
        }

        impl $crate::TypedKey for $name {}
    )*};
}

/// A [`Slab`] whose keys have a type of their own ([`new_key_type!`](crate::new_key_type)). Its
/// calls are the slab's; those that are not here are made on [`TypedSlab::as_slab`] and
/// [`TypedSlab::as_mut_slab`].
pub struct TypedSlab<K, T> {
    slab: Slab<T>,
    // It takes and gives keys, and has none.
    keys: PhantomData<fn(K) -> K>,
}

impl<K: TypedKey, T> TypedSlab<K, T> {
    /// As [`Slab::new`].
    ///
    /// # Errors
    ///
    /// As of [`Slab::new`].
    pub fn new() -> Result<Self, Refused> {
        Slab::new().map(Self::from)
    }

    /// As [`Slab::with_limits`].
    ///
    /// # Errors
    ///
    /// As of [`Slab::with_limits`].
    pub fn with_limits(limits: Limits) -> Result<Self, Refused> {
        Slab::with_limits(limits).map(Self::from)
    }

    /// As [`Slab::insert`].
    ///
    /// # Errors
    ///
    /// As of [`Slab::insert`].
    #[inline]
    pub fn insert(&mut self, value: T) -> Result<K, Refused> {
        self.slab.insert(value).map(K::from)
    }

    /// As [`Slab::try_insert`].
    ///
    /// # Errors
    ///
    /// As of [`Slab::try_insert`].
    #[inline]
    pub fn try_insert(&mut self, value: T) -> Result<K, InsertError<T>> {
        self.slab.try_insert(value).map(K::from)
    }

    /// As [`Slab::insert_with_key`].
    ///
    /// # Errors
    ///
    /// As of [`Slab::insert_with_key`].
    pub fn insert_with_key(&mut self, value: impl FnOnce(K) -> T) -> Result<K, Refused> {
        self.slab
            .insert_with_key(|key| value(key.into()))
            .map(K::from)
    }

    /// As [`Slab::get`].
    #[inline]
    #[must_use]
    pub fn get(&self, key: K) -> Option<&T> {
        self.slab.get(key.into())
    }

    /// As [`Slab::get_mut`].
    #[inline]
    pub fn get_mut(&mut self, key: K) -> Option<&mut T> {
        self.slab.get_mut(key.into())
    }

    /// As [`Slab::get_disjoint_mut`].
    pub fn get_disjoint_mut<const N: usize>(&mut self, keys: [K; N]) -> Option<[&mut T; N]> {
        self.slab.get_disjoint_mut(keys.map(K::into))
    }

    /// As [`Slab::key_of`].
    #[must_use]
    pub fn key_of(&self, value: &T) -> Option<K> {
        self.slab.key_of(value).map(K::from)
    }

    /// As [`Slab::contains`].
    #[inline]
    #[must_use]
    pub fn contains(&self, key: K) -> bool {
        self.slab.contains(key.into())
    }

    /// As [`Slab::remove`].
    #[inline]
    pub fn remove(&mut self, key: K) -> Option<T> {
        self.slab.remove(key.into())
    }

    /// As [`Slab::retain`].
    pub fn retain(&mut self, mut keeps: impl FnMut(K, &mut T) -> bool) {
        self.slab.retain(|key, value| keeps(key.into(), value));
    }

    /// As [`Slab::clear`].
    pub fn clear(&mut self) {
        self.slab.clear();
    }

    /// As [`Slab::drain`].
    pub fn drain(&mut self) -> impl DoubleEndedIterator<Item = (K, T)> + ExactSizeIterator + '_ {
        self.slab.drain().map(|(key, value)| (key.into(), value))
    }

    /// As [`Slab::len`].
    #[must_use]
    pub fn len(&self) -> usize {
        self.slab.len()
    }

    /// As [`Slab::is_empty`].
    #[must_use]
    pub fn is_empty(&self) -> bool {
        self.slab.is_empty()
    }

    /// As [`Slab::iter`].
    pub fn iter(&self) -> impl DoubleEndedIterator<Item = (K, &T)> + ExactSizeIterator + '_ {
        self.slab.iter().map(|(key, value)| (key.into(), value))
    }

    /// As [`Slab::iter_mut`].
    pub fn iter_mut(
        &mut self,
    ) -> impl DoubleEndedIterator<Item = (K, &mut T)> + ExactSizeIterator + '_ {
        self.slab.iter_mut().map(|(key, value)| (key.into(), value))
    }

    /// As [`Slab::keys`].
    pub fn keys(&self) -> impl DoubleEndedIterator<Item = K> + ExactSizeIterator + '_ {
        self.slab.keys().map(K::from)
    }

    /// As [`Slab::values`].
    pub fn values(&self) -> crate::slab::Values<'_, T> {
        self.slab.values()
    }

    /// As [`Slab::values_mut`].
    pub fn values_mut(&mut self) -> crate::slab::ValuesMut<'_, T> {
        self.slab.values_mut()
    }

    /// As [`Slab::compact`].
    ///
    /// # Errors
    ///
    /// As of [`Slab::compact`].
    pub fn compact(&mut self) -> Result<usize, Refused> {
        self.slab.compact()
    }

    /// As [`Slab::compact_within`].
    ///
    /// # Errors
    ///
    /// As of [`Slab::compact_within`].
    pub fn compact_within(&mut self, budget: usize) -> Result<Compacted, Refused> {
        self.slab.compact_within(budget)
    }

    /// The slab, whose keys are of any type.
    #[must_use]
    pub fn as_slab(&self) -> &Slab<T> {
        &self.slab
    }

    /// The slab, to be changed.
    pub fn as_mut_slab(&mut self) -> &mut Slab<T> {
        &mut self.slab
    }

    /// The slab, which is no more one of such keys.
    #[must_use]
    pub fn into_slab(self) -> Slab<T> {
        self.slab
    }
}

impl<K: TypedKey, T> From<Slab<T>> for TypedSlab<K, T> {
    fn from(slab: Slab<T>) -> Self {
        TypedSlab {
            slab,
            keys: PhantomData,
        }
    }
}

impl<K: TypedKey, T> Index<K> for TypedSlab<K, T> {
    type Output = T;

    /// # Panics
    ///
    /// If the key is not live.
    #[inline]
    fn index(&self, key: K) -> &T {
        &self.slab[key.into()]
    }
}

impl<K: TypedKey, T> IndexMut<K> for TypedSlab<K, T> {
    /// # Panics
    ///
    /// If the key is not live.
    #[inline]
    fn index_mut(&mut self, key: K) -> &mut T {
        &mut self.slab[key.into()]
    }
}

impl<K: TypedKey + fmt::Debug, T: fmt::Debug> fmt::Debug for TypedSlab<K, T> {
    fn fmt(&self, f: &mut fmt::Formatter<'_>) -> fmt::Result {
        f.debug_map().entries(self.iter()).finish()
    }
}
