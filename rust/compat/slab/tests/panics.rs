//! A panic in the drop of a value, or in a closure, loses no other value, be they in a vector or in
//! pages; and a value that is gone is not seen again.

#[path = "../../panicking.rs"]
mod panicking;

use panicking::{panics, Panics};
use slab::Slab;
use std::cell::Cell;
use std::rc::Rc;

/// So many values, of which number 50 panics: 100 stand in a vector, and 1,000 in pages.
fn each_size(test: impl Fn(usize, Slab<Panics>, Rc<Cell<usize>>)) {
    for count in [100, 1000] {
        let dropped = Rc::new(Cell::new(0));
        let mut slab = Slab::new();
        (0..count).for_each(|n| assert_eq!(slab.insert(Panics(n == 50, dropped.clone())), n));
        test(count, slab, dropped);
    }
}

/// What is seen of a slab without values, which takes new ones then.
fn is_empty(slab: &mut Slab<Panics>, dropped: &Rc<Cell<usize>>) {
    assert!(slab.is_empty() && slab.iter().next().is_none() && slab.iter_mut().next().is_none());
    let key = slab.insert(Panics(false, dropped.clone()));
    assert!(key == 0 && slab.iter_mut().count() == 1 && !slab.remove(key).0);
}

#[test]
fn as_all_is_dropped() {
    each_size(|count, slab, dropped| {
        assert!(panics(|| drop(slab)));
        assert_eq!(dropped.get(), count);
    });
    each_size(|count, mut slab, dropped| {
        assert!(panics(|| slab.clear()));
        assert_eq!(dropped.get(), count);
        is_empty(&mut slab, &dropped);
    });
}

#[test]
fn as_all_is_taken_out() {
    each_size(|count, mut slab, dropped| {
        assert!(panics(|| drop(slab.drain())));
        assert_eq!(dropped.get(), count);
        is_empty(&mut slab, &dropped);
    });
    each_size(|count, mut slab, dropped| {
        let mut values = slab.drain();
        assert!(values.by_ref().take(10).all(|value| !value.0));
        assert!(panics(|| drop(values)));
        assert_eq!(dropped.get(), count);
        is_empty(&mut slab, &dropped);
    });
    each_size(|count, slab, dropped| {
        let mut values = slab.into_iter();
        assert!(values.by_ref().rev().take(10).all(|(_, value)| !value.0));
        assert!(panics(|| drop(values)));
        assert_eq!(dropped.get(), count);
    });
}

#[test]
fn as_one_is_removed() {
    each_size(|count, mut slab, dropped| {
        assert!(panics(|| drop(slab.remove(50))));
        assert!((dropped.get(), slab.len()) == (1, count - 1) && !slab.contains(50));
        assert_eq!(slab.iter_mut().count(), count - 1);
        assert_eq!(slab.insert(Panics(false, dropped.clone())), 50);
    });
    each_size(|count, mut slab, dropped| {
        assert!(panics(|| slab.retain(|_, value| !value.0)));
        assert_eq!((dropped.get(), slab.len()), (1, count - 1));
    });
}

#[test]
fn in_a_closure_that_is_asked_what_to_keep() {
    each_size(|count, mut slab, dropped| {
        assert!(panics(|| slab.retain(|key, _| {
            assert!(key != 20, "as it should");
            false
        })));
        assert_eq!((dropped.get(), slab.len()), (20, count - 20));
        assert!(slab.contains(20) && !slab.contains(19));
        slab[50].0 = false;
    });
}

#[test]
fn in_a_closure_that_is_asked_for_other_keys() {
    each_size(|count, mut slab, dropped| {
        slab[50].0 = false;
        (0..10).for_each(|key| drop(slab.remove(key)));
        let mut asked = 0;
        assert!(panics(|| slab.compact(|_, from, to| {
            assert!(to < from && asked < 5, "as it should");
            asked += 1;
            true
        })));
        // Five moved, and the one that it panicked for went.
        assert_eq!((dropped.get(), slab.len()), (11, count - 11));
        assert!((0..5).all(|key| slab.contains(key)) && !slab.contains(5));
        assert_eq!(slab.iter().count(), count - 11);
        assert_eq!(slab.iter_mut().count(), count - 11);
    });
}

#[test]
fn in_an_iterator_of_pairs() {
    for count in [100, 1000] {
        let dropped = Rc::new(Cell::new(0));
        assert!(panics(|| {
            let pairs = (0..count).map(|n| {
                assert!(n < count - 1, "as it should");
                (n * 7 % count, Panics(false, dropped.clone()))
            });
            drop(pairs.collect::<Slab<_>>());
        }));
        assert_eq!(dropped.get(), count - 1);
    }
}

#[test]
fn in_a_clone() {
    /// A value of which some copies panic.
    struct Copied(Rc<Cell<usize>>);
    impl Clone for Copied {
        fn clone(&self) -> Copied {
            self.0.set(self.0.get() + 1);
            assert!(self.0.get() < 90, "as it should");
            Copied(self.0.clone())
        }
    }
    for count in [100, 1000] {
        let copied = Rc::new(Cell::new(0));
        let slab: Slab<_> = (0..count).map(|n| (n, Copied(copied.clone()))).collect();
        assert!(panics(|| drop(slab.clone())));
        assert_eq!((slab.len(), Rc::strong_count(&copied)), (count, count + 1));
    }
}
