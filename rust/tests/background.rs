//! Compaction on a thread of its own, beside threads that go on.

mod common;

use common::Random;
use std::sync::atomic::{AtomicBool, Ordering};
use std::sync::{Arc, Mutex};
use std::thread;
use std::time::{Duration, Instant};
use teurlaks::{Arena, Background, Limits, Policy, Refused, SharedStore};

const SOON: Policy = Policy {
    interval: Duration::from_millis(1),
    budget: 16,
    least_percent: 25,
};

/// Waits until it is so, four minutes at most: valgrind on a busy machine takes some.
fn waits_until(mut is_so: impl FnMut() -> bool) {
    let begun = Instant::now();
    while !is_so() {
        assert!(
            begun.elapsed() < Duration::from_secs(240),
            "it waits for ever"
        );
        thread::sleep(Duration::from_millis(1));
    }
}

/// Threads put, take and look up while the store is compacted, and each finds what it expects.
#[test]
fn beside_threads() {
    let store = Arc::new(SharedStore::<[u64; 7]>::new().unwrap());
    let background = store.compact_in_background(SOON).unwrap();
    thread::scope(|scope| {
        for thread in 0..4 {
            let store = &store;
            scope.spawn(move || {
                let mut random = Random(thread + 1);
                for _ in 0..5 {
                    let mut keys: Vec<_> = (0..10_000_u64)
                        .map(|n| (store.insert([n ^ thread; 7]).unwrap(), n))
                        .collect();
                    while keys.len() > 500 {
                        let (key, n) = keys.swap_remove(random.below(keys.len()));
                        assert_eq!(store.remove(key), Some([n ^ thread; 7]));
                    }
                    thread::sleep(Duration::from_millis(5));
                    for (key, n) in keys {
                        assert_eq!(store.remove(key), Some([n ^ thread; 7]));
                        assert_eq!(store.get(key), None);
                    }
                }
            });
        }
    });
    let key = store.insert([7; 7]).unwrap();
    waits_until(|| background.pages() > 0);
    waits_until(|| store.pages() < 10);
    drop(background);
    assert_eq!((store.get(key), store.len()), (Some([7; 7]), 1));
    // No plan is left open, and nothing in a pool.
    store.compact().unwrap();
    assert_eq!(store.pages(), 1);
}

/// It sleeps where nothing pays, also where the estimate is of what can't go.
#[test]
fn sleeps_where_nothing_pays() {
    let store = Arc::new(
        SharedStore::<u64>::with_limits(Limits {
            shards: 1,
            slots: 256,
            ..Limits::default()
        })
        .unwrap(),
    );
    let keys: Vec<_> = (0..51_200).map(|n| store.insert(n).unwrap()).collect();
    // The lowest 64 slots of each page stay, so none folds onto another.
    for key in keys.iter().filter(|key| key.slot() >= 64) {
        assert!(store.free(*key));
    }
    let background = store.compact_in_background(SOON).unwrap();
    thread::sleep(Duration::from_millis(200));
    assert_eq!((background.pages(), store.pages()), (0, 200));
    // Half of the slots that are left go on each page but the last, and then some pages pay.
    for key in keys
        .iter()
        .filter(|key| key.slot() < 64 && key.serial() < 190)
    {
        assert!(store.free(*key));
    }
    waits_until(|| store.pages() < 20);
    assert!(format!("{background:?}").starts_with("Background { pages: "));
}

/// It counts each page that it gives back, after the page is gone.
#[test]
fn counts_pages() {
    let limits = Limits {
        shards: 1,
        slots: 256,
        ..Limits::default()
    };
    let store = Arc::new(SharedStore::<u64>::with_limits(limits).unwrap());
    let keys: Vec<_> = (0..51_200).map(|n| store.insert(n).unwrap()).collect();
    for key in &keys[2560..] {
        assert!(store.free(*key));
    }
    let background = store.compact_in_background(SOON).unwrap();
    waits_until(|| background.pages() >= 190);
    assert_eq!((background.pages(), store.pages()), (190, 10));
}

/// A drop ends the thread, in whatever it is.
#[test]
fn ends_at_once() -> Result<(), Refused> {
    for round in 0..30 {
        let store = Arc::new(SharedStore::<u64>::new()?);
        let keys: Vec<_> = (0..60_000)
            .map(|n| store.insert(n))
            .collect::<Result<_, _>>()?;
        for (n, key) in keys.iter().enumerate().filter(|(n, _)| n % 11 != 0) {
            assert_eq!(store.remove(*key), Some(n as u64));
        }
        let background = store.compact_in_background(SOON).unwrap();
        thread::sleep(Duration::from_micros(200 * round));
        drop(background);
        assert_eq!(Arc::strong_count(&store), 1);
        assert!(keys
            .iter()
            .zip(0..)
            .all(|(key, n)| store.get(*key) == (n % 11 == 0).then_some(n)));
        store.compact()?;
        assert!(store.pages() < 100);
    }
    Ok(())
}

/// Seats that help have their arena compacted.
#[test]
fn seats_help() -> Result<(), Refused> {
    let arena = Arena::<u64>::open(Limits {
        shards: 3,
        slots: 256,
        ..Limits::default()
    })?;
    let arena = Arc::new(Mutex::new(arena));
    let background: Background = Arena::compact_in_background(&arena, SOON).unwrap();
    let seats: Vec<_> = (0..3)
        .map(|_| arena.lock().unwrap().seat())
        .collect::<Result<_, _>>()?;
    let done = Arc::new(AtomicBool::new(false));
    let workers = seats.into_iter().zip(0..).map(|(mut seat, thread)| {
        let done = Arc::clone(&done);
        thread::spawn(move || {
            let mut random = Random(thread + 1);
            let mut keys: Vec<_> = (0..20_000_u64)
                .map(|n| (seat.insert(n).unwrap(), n))
                .collect();
            while keys.len() > 600 {
                let (key, n) = keys.swap_remove(random.below(keys.len()));
                assert_eq!(seat.remove(key), Some(n));
            }
            while !done.load(Ordering::Relaxed) {
                seat.help_compact().unwrap();
                for (place, (key, n)) in keys.iter_mut().enumerate() {
                    assert_eq!(seat.get(*key), Some(*n));
                    if place % 100 == 0 {
                        assert_eq!(seat.remove(*key), Some(*n));
                        *key = seat.insert(*n).unwrap();
                    }
                }
            }
            keys.into_iter()
                .for_each(|(key, n)| assert_eq!(seat.get(key), Some(n)));
            seat
        })
    });
    let workers: Vec<_> = workers.collect();
    waits_until(|| background.pages() > 50);
    done.store(true, Ordering::Relaxed);
    for worker in workers {
        let seat = worker.join().unwrap();
        arena.lock().unwrap().take_back(seat).unwrap();
    }
    drop(background);
    let mut arena = arena.lock().unwrap();
    let totals = arena.totals();
    assert_eq!(totals.live, 1800);
    assert!(totals.pages < 3 * 79, "{totals:?}");
    assert!(arena.mark_some().is_ok());
    Ok(())
}
