//! A panic in the drop of a value, in a `Clear`, or in a closure, loses no other value, and no
//! later call panics because of it.

#[path = "../../../tests/common/panicking.rs"]
mod panicking;

use panicking::{panics, Panics};
use sharded_slab::{Clear, Pool, Slab};
use std::sync::atomic::{AtomicUsize, Ordering};
use std::sync::Arc;
use std::thread;

/// 300 values, of which each hundredth panics as it is dropped.
fn with_three_that_panic() -> (Slab<Panics>, Vec<usize>, Arc<AtomicUsize>) {
    let (slab, dropped) = (Slab::new(), Arc::new(AtomicUsize::new(0)));
    let keys = (0..300).map(|n| slab.insert(Panics::in_drop(n % 100 == 0, &dropped)));
    let keys = keys.collect::<Option<_>>().expect("there is room");
    (slab, keys, dropped)
}

#[test]
fn as_a_value_is_removed() {
    let (slab, keys, dropped) = with_three_that_panic();
    assert!(panics(|| assert!(slab.remove(keys[0]))));
    assert!(panics(|| drop(slab.take(keys[100]))));
    let guard = slab.get(keys[200]).expect("it is there");
    assert!(slab.remove(keys[200]) && panics(|| drop(guard)));
    assert_eq!(dropped.load(Ordering::Relaxed), 3);
    assert!([0, 100, 200].iter().all(|n| !slab.contains(keys[*n])));
    assert!(slab.compact().is_ok() && slab.contains(keys[1]));
    drop(slab);
    assert_eq!(dropped.load(Ordering::Relaxed), 300);
}

#[test]
fn as_a_slab_is_dropped() {
    let (slab, keys, dropped) = with_three_that_panic();
    // Two of them would end the process.
    slab.take(keys[0]).expect("it is there").in_drop = false;
    slab.take(keys[200]).expect("it is there").in_drop = false;
    assert!(panics(|| drop(slab)));
    assert_eq!(dropped.load(Ordering::Relaxed), 300);
}

#[test]
fn as_the_last_guard_goes_on_another_thread() {
    let (slab, keys, dropped) = with_three_that_panic();
    let slab = Arc::new(slab);
    let owned = slab.clone().get_owned(keys[100]).expect("it is there");
    assert!(slab.remove(keys[100]));
    assert!(thread::spawn(move || drop(owned)).join().is_err());
    assert!(dropped.load(Ordering::Relaxed) == 1 && slab.contains(keys[101]));
    for key in [keys[0], keys[200]] {
        slab.take(key).expect("it is there").in_drop = false;
    }
}

#[test]
fn in_a_clear() {
    let (pool, dropped) = (Pool::new(), Arc::new(AtomicUsize::new(0)));
    let create = |in_clear| {
        let made = pool.create_with(|value: &mut Panics| {
            (value.in_clear, value.dropped) = (in_clear, dropped.clone());
        });
        made.expect("there is room")
    };
    let [first, second, third] = [true, true, false].map(create);
    assert!(panics(|| assert!(pool.clear(first))));
    let guard = pool.get(second).expect("it is there");
    assert!(pool.clear(second) && panics(|| drop(guard)));
    // These two were dropped, and the third comes again.
    assert_eq!(dropped.load(Ordering::Relaxed), 2);
    assert!(pool.get(first).is_none() && pool.get(second).is_none() && pool.clear(third));
    drop(pool);
    assert_eq!(dropped.load(Ordering::Relaxed), 3);
}

#[test]
fn in_the_making_of_a_value() {
    /// A value of which there is no default.
    #[derive(Clone)]
    struct Never;
    impl Default for Never {
        fn default() -> Never {
            panic!("as it should")
        }
    }
    impl Clear for Never {
        fn clear(&mut self) {}
    }
    let pool = Pool::<Never>::new();
    assert!((0..3).all(|_| panics(|| assert!(pool.create().is_none()))));

    let (pool, mut key) = (Arc::new(Pool::<String>::new()), None);
    assert!(panics(|| {
        let mut made = pool.create().expect("there is room");
        key = Some(made.key());
        made.push('a');
        panic!("as it should");
    }));
    // Others find it once its guard is dropped, as in `sharded-slab`.
    assert_eq!(
        pool.get(key.expect("it has one")).as_deref(),
        Some(&"a".to_string())
    );
    assert!(panics(|| {
        let mut made = pool.clone().create_owned().expect("there is room");
        key = Some(made.key());
        made.push('b');
        panic!("as it should");
    }));
    assert_eq!(
        pool.get(key.expect("it has one")).as_deref(),
        Some(&"b".to_string())
    );
    assert_eq!(Arc::strong_count(&pool), 1);
}
