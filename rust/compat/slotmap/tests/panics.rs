//! A panic in the drop of a value, or in a closure, loses no other value.

#[path = "../../panicking.rs"]
mod panicking;

use panicking::{panics, Panics};
use slotmap::{DefaultKey, SlotMap};
use std::cell::Cell;
use std::rc::Rc;

type Map = SlotMap<DefaultKey, Panics>;

/// 1,000 values, of which number 50 panics.
fn with_one_that_panics() -> (Map, Vec<DefaultKey>, Rc<Cell<usize>>) {
    let (mut map, dropped) = (SlotMap::new(), Rc::new(Cell::new(0)));
    let keys = (0..1000).map(|n| map.insert(Panics(n == 50, dropped.clone())));
    let keys = keys.collect();
    (map, keys, dropped)
}

#[test]
fn as_all_is_dropped() {
    let (map, _, dropped) = with_one_that_panics();
    assert!(panics(|| drop(map)));
    assert_eq!(dropped.get(), 1000);
    let (map, _, dropped) = with_one_that_panics();
    assert!(panics(|| drop(map.into_iter())));
    assert_eq!(dropped.get(), 1000);
}

#[test]
fn as_all_is_taken_out() {
    for drains in [false, true] {
        let (mut map, keys, dropped) = with_one_that_panics();
        assert!(panics(|| if drains {
            drop(map.drain())
        } else {
            map.clear()
        }));
        // Those after it stay, under their keys.
        assert_eq!((dropped.get(), map.len()), (51, 949));
        assert!(map.get(keys[50]).is_none() && map.get(keys[51]).is_some());
        assert_eq!(map.iter_mut().count(), 949);
        map.clear();
        assert!((dropped.get(), map.len()) == (1000, 0) && map.iter().next().is_none());
    }
}

#[test]
fn in_a_closure() {
    let (mut map, keys, dropped) = with_one_that_panics();
    assert!(panics(|| map.retain(|key, _| {
        assert!(key != keys[20], "as it should");
        false
    })));
    assert_eq!((dropped.get(), map.len()), (20, 980));
    map[keys[50]].0 = false;
    let mut shown = None;
    assert!(panics(|| {
        map.insert_with_key(|key| {
            shown = Some(key);
            panic!("as it should")
        });
    }));
    assert!(map.len() == 980 && !map.contains_key(shown.expect("it was shown")));
    let key = map.insert(Panics(false, dropped.clone()));
    assert!(Some(key) != shown && map.len() == 981);
}
