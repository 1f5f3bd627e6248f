//! Slabs whose slots are worn out soon go on as long as their shards may open pages.

use std::collections::HashMap;
use teurlaks::{Arena, Core, Key, Limits, Refused, SharedSlab, SharedStore, Slab, Store};

/// One shard of few pages, whose slots are used so often.
fn few(pages: u32, generations: u32) -> Limits {
    Limits {
        shards: 1,
        pages,
        generations,
        slots: 256,
        ..Limits::default()
    }
}

/// Keeps and takes out one value at a time.
fn one_at_a_time(
    times: u32,
    mut turn: impl FnMut(u32) -> Result<Key, Refused>,
) -> Result<(), Refused> {
    let mut last = None;
    for time in 0..times {
        let key = turn(time)?;
        assert!(last.replace(key) != Some(key));
    }
    let spans = last.map_or(0, |key| key.serial());
    assert!(spans > 4, "{spans} spans are no more than there are pages");
    Ok(())
}

#[test]
fn one_value_at_a_time() -> Result<(), Refused> {
    let limits = few(4, 9);
    let mut slab = Slab::with_limits(limits)?;
    one_at_a_time(30_000, |value| {
        let key = slab.insert(value)?;
        assert_eq!(slab.remove(key), Some(value));
        Ok(key)
    })?;
    assert_eq!((slab.capacity(), slab.len()), (512, 0));
    let mut core = Core::new(limits)?;
    one_at_a_time(30_000, |value| {
        let key = core.insert_words(0, &[value.into(); 4])?;
        assert!(core.free(key));
        Ok(key)
    })?;
    let mut store = Store::with_limits(few(1, 1))?;
    one_at_a_time(3_000, |value| {
        let key = store.insert([u64::from(value); 30])?;
        assert_eq!(store.remove(key), Some([u64::from(value); 30]));
        Ok(key)
    })
}

#[test]
fn one_value_at_a_time_of_what_threads_share() -> Result<(), Refused> {
    let store = SharedStore::with_limits(few(4, 2))?;
    one_at_a_time(10_000, |value| {
        let key = store.insert(value)?;
        assert_eq!(store.remove(key), Some(value));
        Ok(key)
    })?;
    let slab = SharedSlab::with_limits(few(4, 2))?;
    one_at_a_time(10_000, |value| {
        let key = slab.insert(value.to_string())?;
        assert_eq!(slab.take(key), Some(value.to_string()));
        Ok(key)
    })
}

#[test]
fn many_by_one_call() -> Result<(), Refused> {
    let mut core = Core::new(few(3, 1))?;
    let mut keys = Vec::new();
    for _ in 0..50 {
        core.insert_many(0, &[7; 300], &mut keys)?;
        assert!(keys.len() == 300 && core.get_many(&keys).all(|word| word == Some(7)));
        assert_eq!(core.free_many(&keys), 300);
        keys.clear();
    }
    assert_eq!(
        core.insert_many(0, &[7; 800], &mut keys),
        Err(Refused::PagesSpent)
    );
    assert!(keys.len() > 512 && core.len() == keys.len());
    Ok(())
}

/// Pages with a live value stay, and a refusal still comes when there is no other.
#[test]
fn what_is_live_stays() -> Result<(), Refused> {
    let mut slab = Slab::with_limits(few(3, 1))?;
    let kept = slab.insert(0)?;
    for value in 1..2_000 {
        let key = slab.insert(value)?;
        assert_eq!((slab.remove(key), slab[kept]), (Some(value), 0));
    }
    // On each of the pages one value is left, whose other slots are worn.
    let mut live = vec![kept];
    loop {
        match slab.insert(9) {
            Ok(key) if key.slot() == 127 => live.push(key),
            Ok(key) => assert_eq!(slab.remove(key), Some(9)),
            Err(refused) => {
                assert_eq!(refused, Refused::PagesSpent);
                break;
            }
        }
    }
    assert_eq!(
        (live.len(), slab.len(), slab.insert(9)),
        (3, 3, Err(Refused::PagesSpent))
    );
    // One that goes makes way, and a fold too.
    assert_eq!(slab.remove(live[1]), Some(9));
    let more = slab.insert(10)?;
    assert_eq!((slab[kept], slab[live[2]], slab[more]), (0, 9, 10));
    Ok(())
}

#[test]
fn compactions_give_up_what_is_worn() -> Result<(), Refused> {
    let mut core = Core::new(few(100, 1))?;
    let mut keys = Vec::new();
    core.insert_many(0, &[7; 20 * 256], &mut keys)?;
    assert_eq!(core.free_many(&keys[256..]), 19 * 256);
    assert_eq!((core.trim(0)?, core.forget()?, core.forget()?), (19, 19, 0));
    assert_eq!(
        (core.pages(), core.get(keys[0]), core.get(keys[256])),
        (1, Some(7), None)
    );
    // What is not worn takes values again.
    let mut core = Core::new(few(100, 2))?;
    let key = core.insert(0, 7)?;
    assert!(core.free(key));
    assert_eq!(
        (core.compact()?, core.forget()?, core.insert(0, 7)?.serial()),
        (1, 0, key.serial())
    );
    Ok(())
}

/// So do those that fold: nothing is left for a forgetting.
#[test]
fn folds_give_up_what_is_worn() -> Result<(), Refused> {
    let mut core = Core::new(few(64, 1))?;
    let keys: Vec<_> = (0..40 * 256)
        .map(|word| core.insert(0, word))
        .collect::<Result<_, _>>()?;
    // Each second page has nothing, and each other one an object at another slot.
    let stays = |key: Key| key.serial() % 2 == 0 && key.slot() == key.serial();
    for key in keys.iter().filter(|key| !stays(**key)) {
        assert!(core.free(*key));
    }
    assert!(core.compact()? > 30);
    assert_eq!((core.forget()?, core.len()), (0, 20));
    Ok(())
}

/// Limits whose keys are numbers are kept to: no key has a span beyond them.
#[test]
fn spans_are_counted() -> Result<(), Refused> {
    let limits = Limits {
        spans: 3,
        ..few(100, 1)
    };
    let bits = limits.key_bits().expect("they are short");
    let mut slab = Slab::with_limits(limits)?;
    let keys: Vec<_> = (0..3 * 128)
        .map(|value| slab.insert(value))
        .collect::<Result<_, _>>()?;
    assert!(keys.iter().all(|key| key
        .to_u64(bits)
        .is_some_and(|number| number.get() < 1 << 11)));
    for _ in 0..3 {
        assert_eq!(
            (slab.insert(7), slab.len(), slab.pages()),
            (Err(Refused::PagesSpent), 384, 3)
        );
    }
    slab.clear();
    assert_eq!(
        (slab.insert(7), slab.shrink_to_fit(), slab.len()),
        (Err(Refused::PagesSpent), 0, 0)
    );
    let mut core = Core::new(limits)?;
    let mut keys = Vec::new();
    assert_eq!(
        core.insert_many(0, &[7; 800], &mut keys),
        Err(Refused::PagesSpent)
    );
    assert_eq!((keys.len(), core.len(), core.pages()), (768, 768, 3));
    let shared = SharedSlab::with_limits(Limits { spans: 1, ..limits })?;
    let taken = (0..300)
        .map(|value| shared.insert(value))
        .filter(Result::is_ok)
        .count();
    assert_eq!((taken, shared.len()), (128, 128));
    assert_eq!(
        Slab::<u8>::with_limits(Limits { spans: 0, ..limits }).err(),
        Some(Refused::Config)
    );
    assert_eq!(Limits::default().key_bits(), None);
    Ok(())
}

/// The same of an arena, recorded or not.
#[test]
fn spans_of_an_arena_are_counted() -> Result<(), Refused> {
    let limits = Limits {
        spans: 1,
        ..few(100, 3)
    };
    let bits = limits.key_bits().expect("they are short");
    for open in [Arena::open, Arena::open_recorded] {
        let mut arena = open(limits)?;
        let mut seat = arena.seat()?;
        for value in 0..256_u64 {
            let key = seat.insert(value)?;
            assert!(key.to_u64(bits).is_some() && seat.get(key) == Some(value));
        }
        assert_eq!(seat.insert(7), Err(Refused::PagesSpent));
        assert_eq!(
            (seat.insert(8), arena.totals().live),
            (Err(Refused::PagesSpent), 256)
        );
        let wrong = Limits { spans: 0, ..limits };
        assert_eq!(open(wrong).err(), Some(Refused::Config));
    }
    let limits = Limits::compact_keys();
    let mut arena = Arena::open(limits)?;
    let key = arena.seat()?.insert(7_u64)?;
    assert!(limits
        .key_bits()
        .is_some_and(|bits| key.to_u64(bits).is_some()));
    Ok(())
}

/// Each call as a map answers it, in a slab that has to make way all the time.
#[test]
fn as_a_map() -> Result<(), Refused> {
    let mut slab = Slab::with_limits(few(3, 2))?;
    let (mut map, mut gone) = (HashMap::new(), Vec::new());
    let mut random = 88_172_645_463_325_252_u64;
    for value in 0..40_000_u64 {
        random ^= random << 13;
        random ^= random >> 7;
        random ^= random << 17;
        if map.len() < 40 && random % 3 > 0 {
            match slab.insert(value) {
                Ok(key) => assert_eq!(map.insert(key, value), None),
                Err(refused) => {
                    assert_eq!(refused, Refused::PagesSpent);
                    slab.compact()?;
                }
            }
        } else if let Some(key) = map.keys().next().copied() {
            assert_eq!(slab.remove(key), map.remove(&key));
            gone.push(key);
        }
        if value % 500 == 0 {
            assert!(
                slab.len() == map.len()
                    && map.iter().all(|(key, value)| slab.get(*key) == Some(value))
            );
            assert!(gone.iter().all(|key| !slab.contains(*key)));
        }
    }
    Ok(())
}
