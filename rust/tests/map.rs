//! Beside a map of std, on random calls; and each value is dropped once.

mod common;

use common::Random;
use std::collections::HashMap;
use std::panic::{catch_unwind, AssertUnwindSafe};
use std::rc::Rc;
use teurlaks::{Core, Key, Limits, Refused, Slab, Stepped, Store};

fn sorted<'k>(keys: impl Iterator<Item = &'k Key>) -> impl Iterator<Item = Key> {
    let mut keys: Vec<Key> = keys.copied().collect();
    keys.sort_unstable();
    keys.into_iter()
}

/// Words of an object of some class, which tell the call.
fn words(call: u128, random: &mut Random) -> Vec<u128> {
    let len = match random.below(40) {
        0 => 16,
        1 | 2 => 4,
        _ => 1,
    };
    (0..len).map(|word| (call << 70 | call) + word).collect()
}

/// Whether each kind of look-up finds these words, or nothing where there are none.
fn finds(core: &Core, key: Key, wanted: Option<&Vec<u128>>) -> bool {
    let word = wanted
        .filter(|words| words.len() == 1)
        .map(|words| words[0]);
    core.get_words(key).map(|words| words.to_vec()).as_ref() == wanted
        && core.get(key) == word
        && core.contains(key) == wanted.is_some()
}

/// A million puts, frees, sets, look-ups, ends, adoptions and meshes, of live keys, stale ones and
/// made-up ones, and of objects of each class.
#[test]
fn a_million_calls_as_a_map() -> Result<(), Refused> {
    let mut random = Random(7);
    let mut core = Core::new(Limits {
        shards: 64,
        slots: 256,
        ..Limits::default()
    })?;
    let mut map: HashMap<Key, Vec<u128>> = HashMap::new();
    let mut keys: Vec<Key> = Vec::new();
    let mut running = 0;
    for call in 0..1_000_000_u128 {
        let chosen = keys.get(random.below(keys.len().max(1))).copied();
        match (random.below(16), chosen) {
            (0..=5, _) | (_, None) => {
                let words = words(call, &mut random);
                let key = core.insert_words(running, &words)?;
                assert_eq!(map.insert(key, words), None, "{key} was given out twice");
                keys.push(key);
            }
            (6..=9, Some(key)) => assert!(finds(&core, key, map.get(&key)), "{key}"),
            (10, Some(key)) => {
                let words = words(call, &mut random);
                let fits = map.get(&key).is_some_and(|held| held.len() == words.len());
                assert_eq!(core.set_words(key, &words)?, fits, "{key}");
                if fits {
                    map.insert(key, words);
                }
            }
            (11..=14, Some(key)) => assert_eq!(core.free(key), map.remove(&key).is_some()),
            (_, Some(key)) => {
                if let Some(key) = Key::from_bits(key.to_bits() ^ 1 << random.below(80)) {
                    assert!(finds(&core, key, map.get(&key)), "{key}");
                }
            }
        }
        // As the library counts, too: `pages` compares the two.
        assert_eq!(core.len(), map.len());
        if call % 17_000 == 16_999 {
            let pages = core.pages();
            assert!(!core.is_ended(running));
            core.end(running)?;
            assert!(core.is_ended(running) && core.end(running) == Err(Refused::Ended));
            running += 1;
            core.insert(running, 0)
                .map(|key| map.insert(key, vec![0]))?;
            let regained = core.mesh()?;
            assert_eq!(core.pages() + regained, pages + 1);
            if call % 2 == 1 {
                let _ = core.adopt(running);
            }
        }
    }
    assert_eq!(core.len(), map.len());
    assert!(map
        .iter()
        .all(|(key, words)| finds(&core, *key, Some(words))));
    // The walk meets each live key once, in order, and a drain frees all.
    assert!(core.keys().eq(sorted(map.keys())));
    assert!(core
        .iter()
        .map(|(key, words)| (key, words.to_vec()))
        .eq(sorted(map.keys()).map(|key| (key, map[&key].clone()))));
    assert_eq!(
        (core.keys().len(), core.iter().len()),
        (map.len(), map.len())
    );
    let some: Vec<Key> = core.drain().take(100).map(|(key, _)| key).collect();
    assert!(some.into_iter().eq(sorted(map.keys()).take(100)));
    assert_eq!((core.len(), core.next_live(None)), (0, None));
    Ok(())
}

/// A set finds its key wherever it is: at home, in the pool, as a guest, and between a mark and its
/// step at each side of the pair.
#[test]
fn sets_in_place() -> Result<(), Refused> {
    let mut core = Core::new(Limits {
        shards: 2,
        slots: 256,
        ..Limits::default()
    })?;
    let stale = core.insert(0, 1)?;
    let pooled = core.insert(0, 2)?;
    let wide = core.insert_words(0, &[3; 4])?;
    core.free(stale);
    let owned = core.insert(1, 4)?;
    assert!(core.set(pooled, 12)? && core.set(owned, 14)?);
    core.end(0)?;
    assert!(core.set(pooled, 22)? && core.set_words(wide, &[23; 4])?);
    core.mark()?;
    assert!(core.set(pooled, 32)? && core.set(owned, 34)?);
    while core.step()? != Stepped::NoPairLeft {}
    core.close()?;
    assert!(core.set(pooled, 42)?);
    assert_eq!((core.set(stale, 41)?, core.set(wide, 43)?), (false, false));
    assert!(!core.set_words(wide, &[1; 3])?);
    assert_eq!(
        core.get_words(wide).map(|words| words.to_vec()),
        Some(vec![23; 4])
    );
    assert_eq!(
        (core.replace(owned, 44)?, core.replace(stale, 41)?),
        (Some(34), None)
    );
    assert_eq!(
        (core.remove(pooled), core.remove(owned)),
        (Some(42), Some(44))
    );
    Ok(())
}

#[test]
fn a_store_sets_in_place() -> Result<(), Refused> {
    let mut store = Store::new()?;
    let key = store.insert([1u64; 5])?;
    assert!(store.set(key, [2; 5])?);
    assert_eq!(store.replace(key, [3; 5])?, Some([2; 5]));
    assert_eq!(store.update(key, |value| value[0] += 4)?, Some(()));
    let panics = |value: &mut [u64; 5]| {
        value[0] = 9;
        assert_eq!(value[1], 9);
    };
    assert!(catch_unwind(AssertUnwindSafe(|| store.update(key, panics))).is_err());
    assert_eq!(store.remove(key), Some([7, 3, 3, 3, 3]));
    assert_eq!(
        (store.set(key, [4; 5])?, store.replace(key, [4; 5])?),
        (false, None)
    );
    assert_eq!(store.update(key, |_| unreachable!())?, None::<()>);
    Ok(())
}

#[test]
fn a_hundred_thousand_forged_keys() -> Result<(), Refused> {
    let mut random = Random(11);
    let mut slab = Slab::new()?;
    let live: HashMap<Key, u64> = (0..1000)
        .map(|i| Ok((slab.insert(i)?, i)))
        .collect::<Result<_, Refused>>()?;
    for _ in 0..100_000 {
        let Some(key) = Key::from_bits(random.bits()) else {
            continue;
        };
        assert_eq!(slab.get(key), live.get(&key));
        if !live.contains_key(&key) {
            assert_eq!(slab.remove(key), None);
        }
    }
    assert_eq!(slab.len(), 1000);
    Ok(())
}

#[test]
fn each_value_is_dropped_once() -> Result<(), Refused> {
    let value = Rc::new(());
    let mut slab = Slab::with_limits(Limits {
        pages: 1,
        slots: 256,
        ..Limits::default()
    })?;
    let keys = (0..128)
        .map(|_| slab.insert(value.clone()))
        .collect::<Result<Vec<_>, _>>()?;
    assert_eq!(slab.insert(value.clone()), Err(Refused::PagesSpent));
    assert_eq!(Rc::strong_count(&value), 129);
    keys[..50].iter().for_each(|key| drop(slab.remove(*key)));
    assert_eq!(Rc::strong_count(&value), 79);
    slab.retain(|key, _| keys[..100].contains(&key));
    assert_eq!((Rc::strong_count(&value), slab.len()), (51, 50));
    drop(slab);
    assert_eq!(Rc::strong_count(&value), 1);
    Ok(())
}
