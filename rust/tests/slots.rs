//! Inserts that take few slots of a page, beside a plain map.

use std::collections::HashMap;
use teurlaks::{Arena, Core, Key, Limits, Refused, SharedSlab, SharedStore, Slab, Store};

const LIMITS: [u32; 8] = [1, 3, 5, 16, 100, 128, 255, 256];

fn of_slots(slots: u32) -> Limits {
    Limits {
        shards: 2,
        pages: 1000,
        slots,
        ..Limits::default()
    }
}

/// Inserts and takes out in turn, more often the first, and looks at all.
fn churn<V: PartialEq + std::fmt::Debug>(
    mut insert: impl FnMut(u64) -> Result<Key, Refused>,
    mut remove: impl FnMut(Key) -> bool,
    get: impl Fn(Key) -> Option<V>,
    value: impl Fn(u64) -> V,
    slots: u32,
) -> Result<HashMap<Key, u64>, Refused> {
    let (mut map, mut keys) = (HashMap::new(), Vec::new());
    let mut random = 7_u64;
    for number in 0..600 {
        let key = insert(number)?;
        assert!(key.slot() < slots);
        assert_eq!(map.insert(key, number), None);
        keys.push(key);
        random = random
            .wrapping_mul(6_364_136_223_846_793_005)
            .wrapping_add(1);
        if random >> 62 == 0 {
            let gone = keys.swap_remove((random >> 33) as usize % keys.len());
            assert!(remove(gone) && !remove(gone));
            map.remove(&gone);
        }
    }
    for (&key, &number) in &map {
        assert_eq!(get(key), Some(value(number)));
    }
    Ok(map)
}

#[test]
fn of_a_core_and_a_store() -> Result<(), Refused> {
    for slots in LIMITS {
        let core = std::cell::RefCell::new(Core::new(of_slots(slots))?);
        churn(
            |n| core.borrow_mut().insert(0, n.into()),
            |key| core.borrow_mut().free(key),
            |key| core.borrow().get(key),
            u128::from,
            slots,
        )?;
        let mut core = core.into_inner();
        let live = core.len();
        core.compact()?;
        assert!(core.len() == live && core.pages() >= live.div_ceil(slots as usize));

        let store = std::cell::RefCell::new(Store::<u64>::with_limits(of_slots(slots))?);
        assert_eq!(store.borrow().capacity(), 2 * 1000 * slots as usize);
        churn(
            |n| store.borrow_mut().insert(n),
            |key| store.borrow_mut().remove(key).is_some(),
            |key| store.borrow().get(key),
            |n| n,
            slots,
        )?;
    }
    Ok(())
}

#[test]
fn of_slabs() -> Result<(), Refused> {
    for slots in LIMITS {
        let slab = std::cell::RefCell::new(Slab::<String>::with_limits(of_slots(slots))?);
        let map = churn(
            |n| slab.borrow_mut().insert(n.to_string()),
            |key| slab.borrow_mut().remove(key).is_some(),
            |key| slab.borrow().get(key).cloned(),
            |n| n.to_string(),
            slots,
        )?;
        let mut slab = slab.into_inner();
        slab.compact()?;
        for (&key, &number) in &map {
            assert_eq!(slab.get(key), Some(&number.to_string()));
        }
        slab.reserve(300)?;
        for number in 0..300 {
            slab.insert(number.to_string())?;
        }

        let shared = SharedSlab::<String>::with_limits(of_slots(slots))?;
        churn(
            |n| shared.insert(n.to_string()),
            |key| shared.remove(key),
            |key| shared.get(key).map(|value| value.clone()),
            |n| n.to_string(),
            slots,
        )?;
    }
    Ok(())
}

#[test]
fn of_a_shared_store_and_an_arena() -> Result<(), Refused> {
    for slots in LIMITS {
        let store = SharedStore::<u64>::with_limits(of_slots(slots))?;
        churn(
            |n| store.insert(n),
            |key| store.remove(key).is_some(),
            |key| store.get(key),
            |n| n,
            slots,
        )?;
        let mut arena = Arena::<u64>::open(of_slots(slots))?;
        let seat = std::cell::RefCell::new(arena.seat()?);
        churn(
            |n| seat.borrow_mut().insert(n),
            |key| seat.borrow_mut().free(key),
            |key| seat.borrow_mut().get(key),
            |n| n,
            slots,
        )?;
    }
    Ok(())
}

/// A limit of no slot or of more than a page has is refused.
#[test]
fn are_1_to_256() {
    for slots in [0, 257, u32::MAX] {
        assert_eq!(Core::new(of_slots(slots)).err(), Some(Refused::Config));
        assert_eq!(
            Arena::<u64>::open(of_slots(slots)).err(),
            Some(Refused::Config)
        );
    }
}

/// Pages of 1,024 bytes move to lower blocks after a compaction, and when that is asked for.
#[test]
fn small_pages_are_gathered() -> Result<(), Refused> {
    let mut core = Core::new(of_slots(64))?;
    let keys: Vec<Key> = (0..40_000_u128)
        .map(|n| core.insert(n as u32 % 2, n))
        .collect::<Result<_, _>>()?;
    let is_kept = |n: usize| n % 9 == 0;
    for (_, &key) in keys.iter().enumerate().filter(|(n, _)| !is_kept(*n)) {
        assert!(core.free(key));
    }
    let pages = core.pages();
    assert!(core.compact()? > pages / 2);
    assert_eq!((core.gather(0), core.gather(1)), (Ok(()), Ok(())));
    assert_eq!(core.gather(2), Err(Refused::Config));
    for (n, &key) in keys.iter().enumerate() {
        assert_eq!(core.get(key), is_kept(n).then_some(n as u128));
    }
    Ok(())
}

/// The same in parts, also of what threads share: each key has its value after each part.
#[test]
fn small_pages_are_gathered_in_parts() -> Result<(), Refused> {
    let is_kept = |n: usize| n % 9 == 0;
    let value = |n: usize| is_kept(n).then_some(n as u64);
    for (slots, budget) in [(64, 1), (128, 7), (64, usize::MAX)] {
        let mut store = Store::<u64>::with_limits(of_slots(slots))?;
        let shared = SharedStore::<u64>::with_limits(of_slots(slots))?;
        let keys: Vec<(Key, Key)> = (0..20_000)
            .map(|n| Ok((store.insert(n)?, shared.insert(n)?)))
            .collect::<Result<_, Refused>>()?;
        for (_, &(key, of_shared)) in keys.iter().enumerate().filter(|(n, _)| !is_kept(*n)) {
            assert!(store.free(key) && shared.remove(of_shared).is_some());
        }
        let before = (store.pages(), shared.pages());
        let (mut gone, mut number) = ((0, 0), 0);
        loop {
            let done = store.compact_within(budget)?;
            gone.0 += done.pages;
            number = (number + 7919) % keys.len();
            assert_eq!(store.get(keys[number].0), value(number));
            if !done.more {
                break;
            }
        }
        loop {
            let done = shared.compact_within(budget)?;
            gone.1 += done.pages;
            number = (number + 7919) % keys.len();
            assert_eq!(shared.get(keys[number].1), value(number));
            if !done.more {
                break;
            }
        }
        assert!(gone.0 > before.0 / 2 && gone.1 > before.1 / 2);
        assert_eq!(store.pages(), before.0 - gone.0);
        assert_eq!(shared.pages(), before.1 - gone.1);
        for (n, &(key, of_shared)) in keys.iter().enumerate() {
            assert_eq!(
                (store.get(key), shared.get(of_shared)),
                (value(n), value(n))
            );
        }
    }
    Ok(())
}

/// A seat gathers its shards, and when a compaction is over each seat that helps does.
#[test]
fn seats_gather_small_pages() -> Result<(), Refused> {
    let mut arena = Arena::<u64>::with_lanes(of_slots(64), 16, 2)?;
    let mut seats = [arena.seat()?, arena.seat()?];
    let keys: Vec<Key> = (0..20_000)
        .map(|n| seats[n as usize % 2].insert(n))
        .collect::<Result<_, _>>()?;
    let is_kept = |n: usize| n % 9 == 0;
    for (_, &key) in keys.iter().enumerate().filter(|(n, _)| !is_kept(*n)) {
        assert!(seats[0].free(key));
    }
    seats[0].gather()?;
    seats[1].session().gather()?;
    let before = arena.totals().pages;
    arena.ask_to_retire(100);
    for seat in &mut seats {
        assert_eq!(seat.help_compact(), Ok(100));
    }
    while arena.compact_within(16)?.more {}
    arena.ask_to_retire(0);
    for seat in &mut seats {
        assert_eq!(seat.help_compact(), Ok(0));
    }
    assert!(arena.totals().pages < before - 50);
    for (n, &key) in keys.iter().enumerate() {
        assert_eq!(seats[1].get(key), is_kept(n).then_some(n as u64));
    }
    Ok(())
}
