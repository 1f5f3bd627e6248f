//! The iterators, from the lowest key on.

use super::plain::{self, Plain};
use super::{drop_all, Node, Slab, Values};
use std::fmt;
use std::iter::FusedIterator;
use std::mem;
use std::vec;
use teurlaks::Key;

/// Each value with its key: of [`Slab::iter`].
pub struct Iter<'a, T>(Borrowed<'a, T>);

enum Borrowed<'a, T> {
    InVector(plain::Iter<'a, T>),
    InPages(plain::Iter<'a, Key>, &'a teurlaks::Slab<Node<T>>),
}

/// Each value with its key, to be changed: of [`Slab::iter_mut`].
pub struct IterMut<'a, T>(Changed<'a, T>);

enum Changed<'a, T> {
    InVector(plain::IterMut<'a, T>),
    InPages(vec::IntoIter<&'a mut Node<T>>),
}

/// Each value with its key, of a slab that is no more.
pub struct IntoIter<T>(Owned<T>);

enum Owned<T> {
    InVector(plain::IntoIter<T>),
    InPages(plain::IntoIter<Key>, Box<teurlaks::Slab<Node<T>>>),
}

/// Takes the values out: of [`Slab::drain`].
pub struct Drain<'a, T>(Drained<'a, T>);

enum Drained<'a, T> {
    InVector(plain::Drain<'a, T>),
    InPages(plain::Drain<'a, Key>, &'a mut teurlaks::Slab<Node<T>>),
}

impl<'a, T> Iter<'a, T> {
    pub(super) fn new(values: &'a Values<T>) -> Iter<'a, T> {
        Iter(match values {
            Values::InVector(values) => Borrowed::InVector(values.iter()),
            Values::InPages(paged) => Borrowed::InPages(paged.names.iter(), &paged.values),
        })
    }
}

impl<T> Clone for Iter<'_, T> {
    fn clone(&self) -> Self {
        Iter(match &self.0 {
            Borrowed::InVector(values) => Borrowed::InVector(values.clone()),
            Borrowed::InPages(names, values) => Borrowed::InPages(names.clone(), values),
        })
    }
}

impl<'a, T> IterMut<'a, T> {
    pub(super) fn new(values: &'a mut Values<T>) -> IterMut<'a, T> {
        IterMut(match values {
            Values::InVector(values) => Changed::InVector(values.iter_mut()),
            Values::InPages(paged) => {
                let mut nodes: Vec<_> = paged.values.values_mut().collect();
                nodes.sort_by_key(|node| node.key);
                Changed::InPages(nodes.into_iter())
            }
        })
    }
}

impl<'a, T> Drain<'a, T> {
    pub(super) fn new(values: &'a mut Values<T>) -> Drain<'a, T> {
        Drain(match values {
            Values::InVector(values) => Drained::InVector(values.drain()),
            Values::InPages(paged) => Drained::InPages(paged.names.drain(), &mut paged.values),
        })
    }
}

impl<T> Drop for Drain<'_, T> {
    fn drop(&mut self) {
        if let Drained::InPages(_, values) = &mut self.0 {
            drop_all(values);
        }
    }
}

/// From both ends: of the values in a vector what comes next, and of those in pages what is found
/// of that.
macro_rules! from_both_ends {
    ($(
        $name:ident<$($lifetime:lifetime)?>, $of:ident, $item:ty, $in_vector:expr, $in_pages:expr;
    )*) => {$(
        impl<$($lifetime,)? T> Iterator for $name<$($lifetime,)? T> {
            type Item = $item;

            fn next(&mut self) -> Option<$item> {
                match &mut self.0 {
                    $of::InVector(values) => values.next().map($in_vector),
                    $of::InPages(names, values) => {
                        names.next().and_then(|entry| $in_pages(values, entry))
                    }
                }
            }

            fn size_hint(&self) -> (usize, Option<usize>) {
                match &self.0 {
                    $of::InVector(values) => values.size_hint(),
                    $of::InPages(names, _) => names.size_hint(),
                }
            }
        }

        impl<$($lifetime,)? T> DoubleEndedIterator for $name<$($lifetime,)? T> {
            fn next_back(&mut self) -> Option<$item> {
                match &mut self.0 {
                    $of::InVector(values) => values.next_back().map($in_vector),
                    $of::InPages(names, values) => {
                        names.next_back().and_then(|entry| $in_pages(values, entry))
                    }
                }
            }
        }

        impl<$($lifetime,)? T> ExactSizeIterator for $name<$($lifetime,)? T> {}
        impl<$($lifetime,)? T> FusedIterator for $name<$($lifetime,)? T> {}
    )*};
}

/// The value of a name, under its key.
fn found<'a, T>(
    values: &mut &'a teurlaks::Slab<Node<T>>,
    (key, name): (usize, &Key),
) -> Option<(usize, &'a T)> {
    Some((key, &values.get(*name)?.value))
}

/// The value of a name, which is taken out, under its key.
fn taken<T>(values: &mut teurlaks::Slab<Node<T>>, (key, name): (usize, Key)) -> Option<(usize, T)> {
    Some((key, values.remove(name)?.value))
}

from_both_ends! {
    Iter<'a>, Borrowed, (usize, &'a T), |entry| entry, found;
    IntoIter<>, Owned, (usize, T), |entry| entry, taken;
    Drain<'a>, Drained, T, |(_, value)| value, |values: &mut teurlaks::Slab<Node<T>>, entry| {
        taken(values, entry).map(|(_, value)| value)
    };
}

impl<'a, T> Iterator for IterMut<'a, T> {
    type Item = (usize, &'a mut T);

    fn next(&mut self) -> Option<(usize, &'a mut T)> {
        match &mut self.0 {
            Changed::InVector(values) => values.next(),
            Changed::InPages(nodes) => nodes.next().map(|node| (node.key, &mut node.value)),
        }
    }

    fn size_hint(&self) -> (usize, Option<usize>) {
        match &self.0 {
            Changed::InVector(values) => values.size_hint(),
            Changed::InPages(nodes) => nodes.size_hint(),
        }
    }
}

impl<T> DoubleEndedIterator for IterMut<'_, T> {
    fn next_back(&mut self) -> Option<Self::Item> {
        match &mut self.0 {
            Changed::InVector(values) => values.next_back(),
            Changed::InPages(nodes) => nodes.next_back().map(|node| (node.key, &mut node.value)),
        }
    }
}

impl<T> ExactSizeIterator for IterMut<'_, T> {}
impl<T> FusedIterator for IterMut<'_, T> {}

macro_rules! debug {
    ($($type:ty, $name:literal;)*) => {$(
        impl<T: fmt::Debug> fmt::Debug for $type {
            fn fmt(&self, f: &mut fmt::Formatter<'_>) -> fmt::Result {
                f.debug_struct($name).field("remaining", &self.len()).finish()
            }
        }
    )*};
}

debug! {
    Iter<'_, T>, "Iter";
    IterMut<'_, T>, "IterMut";
    IntoIter<T>, "Iter";
}

impl<T> fmt::Debug for Drain<'_, T> {
    fn fmt(&self, f: &mut fmt::Formatter<'_>) -> fmt::Result {
        f.debug_struct("Drain").finish()
    }
}

impl<T> IntoIterator for Slab<T> {
    type Item = (usize, T);
    type IntoIter = IntoIter<T>;

    fn into_iter(mut self) -> IntoIter<T> {
        IntoIter(
            match mem::replace(&mut self.0, Values::InVector(Plain::new())) {
                Values::InVector(values) => Owned::InVector(values.into_entries()),
                Values::InPages(paged) => {
                    Owned::InPages(paged.names.into_entries(), Box::new(paged.values))
                }
            },
        )
    }
}

impl<'a, T> IntoIterator for &'a Slab<T> {
    type Item = (usize, &'a T);
    type IntoIter = Iter<'a, T>;

    fn into_iter(self) -> Iter<'a, T> {
        self.iter()
    }
}

impl<'a, T> IntoIterator for &'a mut Slab<T> {
    type Item = (usize, &'a mut T);
    type IntoIter = IterMut<'a, T>;

    fn into_iter(self) -> IterMut<'a, T> {
        self.iter_mut()
    }
}
