//! Values that are cleared in place and used again.

use std::collections::{BinaryHeap, HashMap, HashSet, VecDeque};
use std::hash::{BuildHasher, Hash};
use std::sync::{Mutex, PoisonError, RwLock};

/// What can be cleared in place and keeps the memory that it has, to be used again:
/// [`SharedSlab::clear`](crate::SharedSlab::clear) does so with a value that is removed. It is
/// after the trait of this name in `sharded-slab`.
///
/// ```
/// use teurlaks::Clear;
///
/// #[derive(Default)]
/// struct Request {
///     path: String,
///     tags: Vec<u8>,
/// }
/// impl Clear for Request {
///     fn clear(&mut self) {
///         self.path.clear();
///         self.tags.clear();
///     }
/// }
/// let mut request = Request { path: "/".into(), tags: vec![1, 2, 3] };
/// request.clear();
/// assert!(request.path.is_empty() && request.tags.capacity() >= 3);
/// ```
pub trait Clear {
    /// Takes out all that is in it.
    fn clear(&mut self);
}

impl<T> Clear for Option<T> {
    fn clear(&mut self) {
        *self = None;
    }
}

impl<T: Clear + ?Sized> Clear for Box<T> {
    fn clear(&mut self) {
        T::clear(self);
    }
}

/// Of a type with a `clear` of its own, by that.
macro_rules! by_their_own {
    ($($type:ty, [$($parameter:tt)*];)*) => {$(
        impl<$($parameter)*> Clear for $type {
            fn clear(&mut self) {
                <$type>::clear(self);
            }
        }
    )*};
}

by_their_own! {
    String, [];
    Vec<T>, [T];
    VecDeque<T>, [T];
    BinaryHeap<T>, [T];
    HashMap<K, V, S>, [K: Eq + Hash, V, S: BuildHasher];
    HashSet<T, S>, [T: Eq + Hash, S: BuildHasher];
}

impl<T: Clear> Clear for Mutex<T> {
    fn clear(&mut self) {
        self.get_mut()
            .unwrap_or_else(PoisonError::into_inner)
            .clear();
    }
}

impl<T: Clear> Clear for RwLock<T> {
    fn clear(&mut self) {
        self.get_mut()
            .unwrap_or_else(PoisonError::into_inner)
            .clear();
    }
}
