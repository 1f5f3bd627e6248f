//! Walks over live keys from both ends: of cores, of stores, and of a store that threads share.

mod common;

use common::Random;
use std::collections::{BTreeMap, HashSet};
use std::sync::atomic::{AtomicBool, Ordering};
use std::thread;
use teurlaks::{Core, Key, Limits, Refused, SharedStore, Store};

/// What comes if each step is from one end or the other, at random, in the order of the front.
fn zigzag<I: DoubleEndedIterator>(mut iter: I, random: &mut Random) -> Vec<I::Item> {
    let (mut front, mut back) = (Vec::new(), Vec::new());
    loop {
        let (next, to) = match random.below(2) {
            0 => (iter.next(), &mut front),
            _ => (iter.next_back(), &mut back),
        };
        match next {
            Some(it) => to.push(it),
            None => break,
        }
    }
    assert!(iter.next().is_none() && iter.next_back().is_none());
    front.extend(back.into_iter().rev());
    front
}

/// The same of one that says each time how many are left.
fn zigzag_exactly<I>(mut iter: I, random: &mut Random) -> Vec<I::Item>
where
    I: DoubleEndedIterator + ExactSizeIterator,
{
    let (mut front, mut back) = (Vec::new(), Vec::new());
    for left in (0..iter.len()).rev() {
        match random.below(2) {
            0 => front.push(iter.next().expect("there is another one")),
            _ => back.push(iter.next_back().expect("there is another one")),
        }
        assert_eq!((iter.len(), iter.size_hint().1), (left, Some(left)));
    }
    assert!(iter.next().is_none() && iter.next_back().is_none());
    front.extend(back.into_iter().rev());
    front
}

/// A core of shards, objects of so many words, and so many puts in each, of which one in some
/// stays; with folds if it is to have any.
fn core(shards: u32, words: usize, puts: usize, stay: usize, folds: bool) -> Result<Core, Refused> {
    let mut core = Core::new(Limits {
        shards,
        ..Limits::default()
    })?;
    for shard in 0..shards {
        let keys: Result<Vec<_>, _> = (0..puts)
            .map(|word| core.insert_words(shard, &vec![word as u128; words]))
            .collect();
        for (_, key) in keys?.iter().enumerate().filter(|(n, _)| n % stay != 0) {
            assert!(core.free(*key));
        }
    }
    if folds {
        core.compact()?;
    }
    Ok(core)
}

/// Each live key, by `next_live`.
fn live(core: &Core) -> Vec<Key> {
    let mut keys = Vec::new();
    while let Some(key) = core.next_live(keys.last().copied()) {
        keys.push(key);
    }
    assert!(keys.windows(2).all(|two| two[0] < two[1]) && keys.len() == core.len());
    keys
}

#[test]
fn of_a_core() -> Result<(), Refused> {
    let mut random = Random(5);
    for (shards, words, puts) in [(1, 1, 0), (1, 1, 1), (3, 1, 900), (64, 4, 70), (2, 16, 200)] {
        for (stay, folds) in [(1, false), (7, false), (37, true), (300, true)] {
            let mut core = core(shards, words, puts, stay, folds)?;
            let keys = live(&core);
            assert!(core.keys().rev().eq(keys.iter().rev().copied()));
            for _ in 0..5 {
                assert_eq!(zigzag_exactly(core.keys(), &mut random), keys);
                let met = zigzag_exactly(core.iter(), &mut random);
                assert!(met.iter().map(|(key, _)| key).eq(&keys));
                let as_found = |(key, it): &(Key, _)| core.get_words(*key).as_ref() == Some(it);
                assert!(met.iter().all(as_found));
            }
            let half = keys.len() / 2;
            let from_end: Vec<_> = core.drain().rev().take(half).map(|(key, _)| key).collect();
            assert!(from_end.iter().eq(keys.iter().rev().take(half)));
            assert!(core.is_empty());
        }
    }
    let empty = Core::new(Limits::default())?;
    assert!(empty.keys().next_back().is_none() && empty.iter().next_back().is_none());
    Ok(())
}

#[test]
fn of_a_core_as_it_is_emptied() -> Result<(), Refused> {
    let mut random = Random(11);
    let mut core = core(3, 1, 900, 3, false)?;
    let keys = live(&core);
    let met = zigzag_exactly(core.drain(), &mut random);
    assert!(met.iter().map(|(key, _)| key).eq(&keys) && core.is_empty());
    Ok(())
}

/// A store of so many numbers, of which one in eleven stays, folded.
fn store(count: u64) -> Result<Store<u64>, Refused> {
    let mut store = Store::try_from_iter(0..count)?;
    store.retain(|_, value| value % 11 == 0);
    store.compact()?;
    Ok(store)
}

#[test]
fn of_a_store() -> Result<(), Refused> {
    let mut random = Random(7);
    for count in [0, 1, 12, 256, 257, 3000] {
        let mut store = store(count)?;
        let pairs: Vec<_> = store.iter().collect();
        assert!(store.iter().rev().eq(pairs.iter().rev().copied()));
        assert_eq!(zigzag_exactly(store.iter(), &mut random), pairs);
        let keys = zigzag_exactly(store.keys(), &mut random);
        assert!(keys.iter().eq(pairs.iter().map(|(key, _)| key)));
        let values = zigzag_exactly(store.values(), &mut random);
        assert!(values.iter().eq(pairs.iter().map(|(_, value)| value)));
        assert_eq!(zigzag_exactly(store.drain(), &mut random), pairs);
        assert!(store.is_empty());
        store.extend(0..count);
        let pairs: Vec<_> = store.iter().collect();
        assert_eq!(zigzag_exactly(store.into_iter(), &mut random), pairs);
    }
    Ok(())
}

/// One that threads share, whose values stand in many shards.
fn shared(count: u64, shards: u32) -> Result<(SharedStore<u64>, BTreeMap<Key, u64>), Refused> {
    let store = SharedStore::with_limits(Limits {
        shards,
        ..Limits::default()
    })?;
    let pairs = (0..count).map(|it| Ok((store.insert(it)?, it)));
    let pairs: Result<_, Refused> = pairs.collect();
    Ok((store, pairs?))
}

#[test]
fn of_a_shared_store() -> Result<(), Refused> {
    let mut random = Random(3);
    for (count, shards) in [
        (0, 1),
        (1, 1),
        (63, 1),
        (500, 1),
        (1, 64),
        (500, 4),
        (3000, 64),
    ] {
        let (store, mut pairs) = shared(count, shards)?;
        pairs.retain(|key, value| *value % 3 == 0 || !store.free(*key));
        let pairs: Vec<_> = pairs.into_iter().collect();
        assert!(store.iter().eq(pairs.iter().copied()));
        assert!(store.iter().rev().eq(pairs.iter().rev().copied()));
        for _ in 0..10 {
            assert_eq!(zigzag(store.iter(), &mut random), pairs);
        }
    }
    Ok(())
}

/// Beside a thread that keeps and frees, no key comes twice, and each that stays comes.
#[test]
fn of_a_shared_store_as_it_changes() -> Result<(), Refused> {
    let (store, pairs) = shared(2000, 4)?;
    let stay: HashSet<_> = pairs.keys().copied().collect();
    let (is_done, mut random) = (AtomicBool::new(false), Random(1));
    thread::scope(|scope| {
        scope.spawn(|| {
            while !is_done.load(Ordering::Relaxed) {
                let keys: Vec<_> = (0..100).filter_map(|it| store.insert(it).ok()).collect();
                keys.into_iter().for_each(|key| assert!(store.free(key)));
            }
        });
        for _ in 0..100 {
            let met: Vec<_> = zigzag(store.iter(), &mut random);
            let keys: HashSet<_> = met.iter().map(|(key, _)| *key).collect();
            assert!(keys.len() == met.len() && keys.is_superset(&stay));
        }
        is_done.store(true, Ordering::Relaxed);
    });
    Ok(())
}
