//! A panic in the drop of a value, or in a test, loses no other value of a slab.

use std::cell::Cell;
use std::panic::{catch_unwind, AssertUnwindSafe};
use std::rc::Rc;
use teurlaks::{Key, Refused, Slab, Store};

/// One that panics as it is dropped, where it is to. How many were dropped is counted.
struct Panics(bool, Rc<Cell<usize>>);

impl Drop for Panics {
    fn drop(&mut self) {
        self.1.set(self.1.get() + 1);
        assert!(!self.0, "as it should");
    }
}

/// 300 values on two pages, of which number 100 panics.
fn with_one_that_panics(dropped: &Rc<Cell<usize>>) -> Result<(Slab<Panics>, Vec<Key>), Refused> {
    let mut slab = Slab::new()?;
    let keys = (0..300).map(|n| slab.insert(Panics(n == 100, dropped.clone())));
    let keys = keys.collect::<Result<_, _>>()?;
    Ok((slab, keys))
}

fn panics(call: impl FnOnce()) -> bool {
    catch_unwind(AssertUnwindSafe(call)).is_err()
}

#[test]
fn as_a_slab_is_dropped() -> Result<(), Refused> {
    let dropped = Rc::new(Cell::new(0));
    let (slab, _) = with_one_that_panics(&dropped)?;
    assert!(panics(|| drop(slab)));
    assert_eq!(dropped.get(), 300);
    Ok(())
}

#[test]
fn as_all_is_taken_out() -> Result<(), Refused> {
    let dropped = Rc::new(Cell::new(0));
    let (mut slab, keys) = with_one_that_panics(&dropped)?;
    assert!(panics(|| slab.clear()));
    assert_eq!((dropped.get(), slab.len()), (101, 199));
    assert!(slab.get(keys[100]).is_none() && slab.get(keys[101]).is_some());
    slab.clear();
    assert_eq!((dropped.get(), slab.len()), (300, 0));
    Ok(())
}

#[test]
fn as_a_drain_is_dropped() -> Result<(), Refused> {
    let dropped = Rc::new(Cell::new(0));
    let (mut slab, _) = with_one_that_panics(&dropped)?;
    assert!(panics(|| drop(slab.drain())));
    assert_eq!((dropped.get(), slab.len()), (101, 199));
    drop(slab);
    assert_eq!(dropped.get(), 300);
    Ok(())
}

#[test]
fn in_a_test_that_is_asked_which_to_keep() -> Result<(), Refused> {
    let dropped = Rc::new(Cell::new(0));
    let (mut slab, keys) = with_one_that_panics(&dropped)?;
    assert!(panics(|| slab.retain(|key, _| {
        assert!(key != keys[50], "as it should");
        false
    })));
    assert_eq!((dropped.get(), slab.len()), (50, 250));
    assert!(slab.get(keys[50]).is_some());
    assert!(panics(|| drop(slab)));
    assert_eq!(dropped.get(), 300);
    Ok(())
}

#[test]
fn as_a_slab_is_taken_apart() -> Result<(), Refused> {
    let dropped = Rc::new(Cell::new(0));
    let (slab, keys) = with_one_that_panics(&dropped)?;
    let mut values = slab.into_iter();
    assert!(values
        .by_ref()
        .take(50)
        .map(|(key, _)| key)
        .eq(keys[..50].iter().copied()));
    assert_eq!((dropped.get(), values.len()), (50, 250));
    assert!(panics(|| drop(values)));
    assert_eq!(dropped.get(), 300);
    Ok(())
}

#[test]
fn in_the_making_of_a_value_with_its_key() -> Result<(), Refused> {
    let dropped = Rc::new(Cell::new(0));
    let mut slab = Slab::new()?;
    let mut shown = None;
    assert!(panics(|| {
        let made = slab.insert_with_key(|key| {
            shown = Some(key);
            let _made = Panics(false, dropped.clone());
            panic!("as it should")
        });
        made.map(drop).expect("there is room");
    }));
    let shown = shown.expect("it was shown");
    assert!(dropped.get() == 1 && slab.is_empty() && slab.get(shown).is_none());
    assert!(slab.iter().next().is_none() && slab.remove(shown).is_none());
    let next = slab.insert(Panics(false, dropped.clone()))?;
    assert_eq!((next.slot(), next.generation(), slab.len()), (0, 2, 1));
    Ok(())
}

#[test]
fn in_the_making_of_a_value_of_a_store() -> Result<(), Refused> {
    let mut store = Store::try_from_iter([7_u64])?;
    let mut shown = None;
    assert!(panics(|| {
        let made = store.insert_with_key(|key| {
            shown = Some(key);
            panic!("as it should")
        });
        made.map(drop).expect("there is room");
    }));
    let shown = shown.expect("it was shown");
    assert!(store.len() == 1 && store.get(shown).is_none() && store.values().eq([7]));
    let next = store.insert(8)?;
    assert_eq!((next.slot(), next.generation()), (shown.slot(), 2));
    Ok(())
}

#[test]
fn in_an_iterator_whose_values_are_kept() -> Result<(), Refused> {
    /// One whose third clone panics.
    struct Cloned(Rc<Cell<usize>>);
    impl Clone for Cloned {
        fn clone(&self) -> Cloned {
            self.0.set(self.0.get() + 1);
            assert!(self.0.get() != 3, "as it should");
            Cloned(self.0.clone())
        }
    }
    let values = vec![Cloned(Rc::new(Cell::new(0))); 2];
    let count = Rc::clone(&values[0].0);
    assert_eq!(count.get(), 1);
    let mut slab = Slab::new()?;
    assert!(panics(|| drop(slab.try_extend(values.iter().cloned()))));
    assert_eq!(
        (slab.len(), slab.iter().count(), Rc::strong_count(&count)),
        (1, 1, 4)
    );
    slab.try_extend(values.iter().cloned())?;
    drop((values, slab));
    assert_eq!(Rc::strong_count(&count), 1);
    Ok(())
}

#[test]
fn in_a_test_of_what_a_store_is_to_keep() -> Result<(), Refused> {
    let mut store = Store::try_from_iter(0..300)?;
    assert!(panics(|| store.retain(|_, value| {
        assert!(value != 50, "as it should");
        false
    })));
    assert!(store.len() == 250 && store.values().eq(50..300));
    Ok(())
}

#[test]
fn a_drain_that_is_forgotten_leaves_the_rest() -> Result<(), Refused> {
    let mut slab = Slab::new()?;
    for n in 0..5 {
        slab.insert(n.to_string())?;
    }
    let mut drain = slab.drain();
    assert_eq!(drain.next().map(|(_, value)| value), Some("0".into()));
    std::mem::forget(drain);
    assert_eq!(slab.len(), 4);
    assert!(slab.values().eq(["1", "2", "3", "4"].iter()));
    Ok(())
}
