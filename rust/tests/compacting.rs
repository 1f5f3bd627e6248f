//! Compaction in parts: all keys stay valid between them, and they come to what one call comes to.

mod common;

use common::Random;
use std::collections::{BTreeSet, HashMap};
use teurlaks::{Arena, Compacted, Core, Key, Limits, Refused, SharedStore, Slab, Stepped, Store};

const BUDGETS: [usize; 6] = [1, 2, 7, 16, 100, usize::MAX];

/// What is compacted, with values that are numbers.
trait Compacts: Sized {
    fn new() -> Self;
    fn put(&mut self, value: u64) -> Result<Key, Refused>;
    fn take(&mut self, key: Key) -> Option<u64>;
    fn find(&self, key: Key) -> Option<u64>;
    fn page_count(&self) -> usize;
    fn part(&mut self, budget: usize) -> Result<Compacted, Refused>;
    fn whole(&mut self) -> Result<usize, Refused>;

    /// All parts that there are to do, and how many pages went and how many calls it took.
    fn parts(&mut self, budget: usize) -> Result<(usize, usize), Refused> {
        let (mut gone, mut calls) = (0, 0);
        loop {
            let done = self.part(budget)?;
            gone += done.pages;
            calls += 1;
            if !done.more {
                return Ok((gone, calls));
            }
        }
    }
}

const FEW: Limits = Limits {
    shards: 3,
    pages: 400,
    generations: u32::MAX,
    spans: u32::MAX,
    slots: 256,
};

impl Compacts for Core {
    fn new() -> Core {
        Core::new(FEW).unwrap()
    }
    fn put(&mut self, value: u64) -> Result<Key, Refused> {
        // Objects of one size, so that the estimate is that of their pages.
        self.insert_words(value as u32 % 3, &[value.into(); 4])
    }
    fn take(&mut self, key: Key) -> Option<u64> {
        let value = self.find(key)?;
        self.free(key).then_some(value)
    }
    fn find(&self, key: Key) -> Option<u64> {
        self.get_words(key).map(|words| words[3] as u64)
    }
    fn page_count(&self) -> usize {
        self.pages()
    }
    fn part(&mut self, budget: usize) -> Result<Compacted, Refused> {
        self.compact_within(budget)
    }
    fn whole(&mut self) -> Result<usize, Refused> {
        self.compact()
    }
}

macro_rules! compacts {
    ($type:ty, $new:expr, $find:expr) => {
        impl Compacts for $type {
            fn new() -> Self {
                $new
            }
            fn put(&mut self, value: u64) -> Result<Key, Refused> {
                self.insert([value; 7])
            }
            fn take(&mut self, key: Key) -> Option<u64> {
                self.remove(key).map(|value| value[6])
            }
            fn find(&self, key: Key) -> Option<u64> {
                let find: fn(&$type, Key) -> Option<u64> = $find;
                find(self, key)
            }
            fn page_count(&self) -> usize {
                self.pages()
            }
            fn part(&mut self, budget: usize) -> Result<Compacted, Refused> {
                self.compact_within(budget)
            }
            fn whole(&mut self) -> Result<usize, Refused> {
                self.compact()
            }
        }
    };
}

compacts!(
    Store<[u64; 7]>,
    Store::with_limits(FEW).unwrap(),
    |store, key| store.get(key).map(|value| value[6])
);
compacts!(
    Slab<[u64; 7]>,
    Slab::with_limits(FEW).unwrap(),
    |slab, key| slab.get(key).map(|value| value[6])
);
compacts!(
    SharedStore<[u64; 7]>,
    SharedStore::with_limits(FEW).unwrap(),
    |store, key| store.get(key).map(|value| value[6])
);

/// So many values of which one in so many stays, at random, and those that stay.
fn sparse<C: Compacts>(count: u64, one_in: usize) -> Result<(C, Vec<(Key, u64)>), Refused> {
    let (mut values, mut random) = (C::new(), Random(0x2545_f491_4f6c_dd1d));
    let keys = (0..count)
        .map(|value| Ok((values.put(value)?, value)))
        .collect::<Result<Vec<_>, Refused>>()?;
    let (stay, go): (Vec<_>, Vec<_>) = keys.into_iter().partition(|_| random.below(one_in) == 0);
    for (key, value) in go {
        assert_eq!(values.take(key), Some(value));
    }
    Ok((values, stay))
}

fn finds_all<C: Compacts>(values: &C, stay: &[(Key, u64)]) {
    assert!(stay
        .iter()
        .all(|(key, value)| values.find(*key) == Some(*value)));
}

/// Parts of whatever budget come to about as few pages as one call does, and each says what went.
fn parts_as_one_call<C: Compacts>() -> Result<(), Refused> {
    for one_in in [3, 12, 60] {
        let (mut at_once, _) = sparse::<C>(30_000, one_in)?;
        at_once.whole()?;
        for budget in BUDGETS {
            let (mut values, stay) = sparse::<C>(30_000, one_in)?;
            let before = values.page_count();
            let (gone, calls) = values.parts(budget)?;
            finds_all(&values, &stay);
            assert_eq!(values.page_count(), before - gone);
            let (here, there) = (values.page_count(), at_once.page_count());
            assert!(
                here <= there + there / 4 + 4,
                "one in {one_in}, by {budget}: {here} and {there}"
            );
            assert!(gone <= budget.saturating_mul(calls));
        }
    }
    Ok(())
}

#[test]
fn parts_of_a_core() -> Result<(), Refused> {
    parts_as_one_call::<Core>()
}

#[test]
fn parts_of_a_store() -> Result<(), Refused> {
    parts_as_one_call::<Store<[u64; 7]>>()
}

#[test]
fn parts_of_a_slab() -> Result<(), Refused> {
    parts_as_one_call::<Slab<[u64; 7]>>()
}

#[test]
fn parts_of_a_shared_store() -> Result<(), Refused> {
    parts_as_one_call::<SharedStore<[u64; 7]>>()
}

/// Between the parts values come, go and are found as in a map.
fn as_a_map_between_parts<C: Compacts>(seed: u64) -> Result<(), Refused> {
    let (mut values, stay) = sparse::<C>(20_000, 9)?;
    let mut map: HashMap<Key, u64> = stay.into_iter().collect();
    let mut keys: Vec<Key> = map.keys().copied().collect();
    let mut gone_keys = Vec::new();
    let mut random = Random(seed);
    for value in 0..6000 {
        let _ = values.part(1 + random.below(12))?;
        for _ in 0..random.below(8) {
            if random.below(5) < 2 {
                let key = values.put(value)?;
                assert!(map.insert(key, value).is_none());
                keys.push(key);
            } else if !keys.is_empty() {
                let key = keys.swap_remove(random.below(keys.len()));
                assert_eq!(values.take(key), map.remove(&key));
                gone_keys.push(key);
            }
        }
        if value % 500 == 0 {
            assert!(map
                .iter()
                .all(|(key, value)| values.find(*key) == Some(*value)));
            assert!(gone_keys.iter().all(|key| values.find(*key).is_none()));
        }
    }
    values.parts(3)?;
    assert!(map
        .iter()
        .all(|(key, value)| values.find(*key) == Some(*value)));
    assert!(gone_keys.iter().all(|key| values.find(*key).is_none()));
    // What is left to the pool by nobody: all groups take values again.
    values.whole()?;
    Ok(())
}

#[test]
fn maps_between_parts() -> Result<(), Refused> {
    as_a_map_between_parts::<Core>(1)?;
    as_a_map_between_parts::<Store<[u64; 7]>>(2)?;
    as_a_map_between_parts::<Slab<[u64; 7]>>(3)?;
    as_a_map_between_parts::<SharedStore<[u64; 7]>>(4)
}

/// Which calls are refused while a plan is open between two parts, and how a caller ends it.
#[test]
fn a_plan_stays_open() -> Result<(), Refused> {
    let (mut core, stay) = sparse::<Core>(30_000, 20)?;
    // The first plan folds what is in the pool, onto all that is in shards.
    for shard in 0..3 {
        core.retire(shard, 120)?;
    }
    while core.mark_some() != Err(Refused::PlanOpen) {
        if core.close().is_ok() {
            let done = core.compact_within(1)?;
            assert!(done.more, "the plan is open at some time");
        }
    }
    assert_eq!(
        (core.mark(), core.mesh(), core.adopt(0), core.forget()),
        (
            Err(Refused::PlanOpen),
            Err(Refused::PlanOpen),
            Err(Refused::PlanOpen),
            Err(Refused::PlanOpen)
        )
    );
    assert!((0..3).any(|shard| core.retire(shard, 1) == Err(Refused::PlanOpen)));
    finds_all(&core, &stay);
    assert!(matches!(core.step()?, Stepped::Folded(..)));
    core.close()?;
    // It goes on behind the plan that was closed.
    core.parts(5)?;
    finds_all(&core, &stay);
    assert_eq!((core.close(), core.forget()), (Err(Refused::NoPlan), Ok(0)));
    Ok(())
}

/// A plan of the caller's stays, and what needs none is done.
#[test]
fn a_plan_of_the_caller() -> Result<(), Refused> {
    let (mut slab, stay) = sparse::<Slab<[u64; 7]>>(3000, 20)?;
    slab.retire(0, 10)?;
    slab.mark()?;
    assert_eq!(
        (slab.compact_within(100), slab.compact()),
        (Err(Refused::PlanOpen), Err(Refused::PlanOpen))
    );
    while slab.step()? != Stepped::NoPairLeft {}
    slab.close()?;
    slab.parts(4)?;
    finds_all(&slab, &stay);
    assert_eq!(slab.adopt(0), Err(Refused::NothingToAdopt));
    Ok(())
}

/// One call goes on where parts have stopped.
#[test]
fn one_call_ends_parts() -> Result<(), Refused> {
    for calls in 0..40 {
        let (mut slab, stay) = sparse::<Slab<[u64; 7]>>(10_000, 15)?;
        let before = slab.pages();
        let mut gone = 0;
        for _ in 0..calls {
            gone += slab.compact_within(5)?.pages;
        }
        gone += slab.compact()?;
        assert_eq!(slab.pages(), before - gone);
        finds_all(&slab, &stay);
        let mut again = slab.compact_within(usize::MAX)?;
        assert!(!again.more);
        again.pages = 0;
        assert_eq!((again, slab.forget()), (Compacted::default(), Ok(0)));
    }
    Ok(())
}

/// After the last step pages of values move together, at most so many a call, and where they end no
/// call moves any further.
#[test]
fn parts_move_values_together() -> Result<(), Refused> {
    let (mut slab, stay) = sparse::<Slab<[u64; 7]>>(10_000, 15)?;
    let (mut at, mut moves) = (places(&slab, &stay), 0);
    loop {
        let done = slab.compact_within(1)?;
        finds_all(&slab, &stay);
        let now = places(&slab, &stay);
        moves += usize::from(done.pages == 0 && now != at);
        at = now;
        if !done.more {
            break;
        }
    }
    assert!(moves > 1);
    assert_eq!((slab.compact()?, places(&slab, &stay)), (0, at));
    finds_all(&slab, &stay);
    Ok(())
}

/// One call moves all of them: no part moves any further.
#[test]
fn one_call_moves_values_together() -> Result<(), Refused> {
    let (mut slab, stay) = sparse::<Slab<[u64; 7]>>(10_000, 15)?;
    slab.compact()?;
    let at = places(&slab, &stay);
    assert_eq!((slab.parts(1)?.0, places(&slab, &stay)), (0, at));
    Ok(())
}

/// Where each of the values stands.
fn places(slab: &Slab<[u64; 7]>, stay: &[(Key, u64)]) -> Vec<Option<*const u64>> {
    stay.iter()
        .map(|(key, _)| slab.get(*key).map(|value| value.as_ptr()))
        .collect()
}

/// Where no two pages fit by their numbers, nothing is retired: the pool stays empty.
#[test]
fn full_pages_stay() -> Result<(), Refused> {
    let mut slab = Slab::with_limits(FEW)?;
    let keys: Vec<_> = (0..40_192)
        .map(|n| slab.insert(n))
        .collect::<Result<_, _>>()?;
    // More than half of each page stays.
    slab.retain(|_, n| *n % 9 < 5);
    let before = slab.pages();
    assert_eq!((slab.compact()?, slab.pages()), (0, before));
    // A page that was in the pool would have come to the last shard, in its turn.
    assert!(slab.retire(1, 1) == Ok(0) && slab.retire(2, 1) == Ok(0));
    assert!(keys
        .iter()
        .enumerate()
        .all(|(n, key)| slab.contains(*key) == (n % 9 < 5)));

    let mut core = Core::new(FEW)?;
    for n in 0..51_200 {
        core.insert(0, n)?;
    }
    let pages = core.pages();
    assert_eq!(
        (core.compact()?, core.pages(), core.retire(1, 1)),
        (0, pages, Ok(0))
    );
    assert_eq!((slab.certificate()?, core.certificate()?), (None, None)); // nothing was planned
    Ok(())
}

/// As few pages stay as can be expected: several are folded onto each, and not pair by pair alone.
#[test]
fn few_pages_stay() -> Result<(), Refused> {
    for (one_in, percent) in [(20, 13), (10, 24), (6, 41)] {
        let (mut core, stay) = sparse::<Core>(60_000, one_in)?;
        let before = core.pages();
        core.compact()?;
        let after = core.pages();
        assert!(
            after * 100 <= before * percent,
            "one in {one_in}: {after} of {before}"
        );
        finds_all(&core, &stay);
    }
    Ok(())
}

/// Pages that only fit others of their own half by heads are found by rounds that divide them
/// elsewhere.
#[test]
fn halves_differ() -> Result<(), Refused> {
    const PAGES: usize = 600;
    // A page of each quarter fits those of one other quarter alone.
    const OCCUPIED: [[usize; 2]; 4] = [[0, 2], [1, 3], [0, 1], [2, 3]];
    let mut core = Core::new(Limits {
        slots: 256,
        ..Limits::default()
    })?;
    let keys = (0..PAGES * 16)
        .map(|place| core.insert_words(0, &[place as u128; 16]))
        .collect::<Result<Vec<_>, _>>()?;
    for (place, key) in keys.iter().enumerate() {
        if !OCCUPIED[place / 16 * 4 / PAGES].contains(&(place % 16)) {
            core.free(*key);
        }
    }
    core.compact()?;
    assert!(core.pages() <= PAGES * 5 / 8, "{} of {PAGES}", core.pages());
    Ok(())
}

/// Where the sparser half fits the fuller one, and both halves fit better among themselves, a round
/// that divides the pages by shards leaves fewer.
#[test]
fn halves_are_of_shards() -> Result<(), Refused> {
    const PAGES: usize = 400;
    // Every second page has 8 objects, and the others 2, those of the shards at other slots.
    let stays = |shard: usize, page: usize, slot: usize| {
        slot / 8 == shard && (page % 2 == 1 || slot % 8 / 2 == page / 2 % 2)
    };
    let mut core = Core::new(Limits {
        shards: 2,
        slots: 256,
        ..Limits::default()
    })?;
    for shard in 0..2 {
        let keys = (0..PAGES * 16)
            .map(|place| core.insert_words(shard as u32, &[place as u128; 16]))
            .collect::<Result<Vec<_>, _>>()?;
        for (place, key) in keys.iter().enumerate() {
            assert!(stays(shard, place / 16, place % 16) || core.free(*key));
        }
    }
    core.compact()?;
    assert!(core.pages() < PAGES * 7 / 8, "{} pages", core.pages());
    Ok(())
}

/// One that is asked whether it pays touches no group until so much could go, and then compacts;
/// and what a compaction has left it leaves, until more was freed.
#[test]
fn compacts_if_it_pays() -> Result<(), Refused> {
    let limits = Limits {
        shards: 1,
        slots: 256,
        ..Limits::default()
    };
    let mut store = Store::<u64>::with_limits(limits)?;
    let keys: Vec<_> = (0..25_600)
        .map(|n| store.insert(n))
        .collect::<Result<_, _>>()?;
    let adopts = |store: &mut Store<u64>| store.adopt(0).is_ok();
    // What was asked moves no group: one that somebody has retired is still in the pool.
    store.retire(0, 1)?;
    assert_eq!((store.compact_if_pays(1)?, adopts(&mut store)), (0, true));
    // All but the lowest 128 slots of each page go, and no page fits another one.
    let free = |store: &mut Store<u64>, goes: &dyn Fn(Key) -> bool| {
        keys.iter().filter(|key| goes(**key)).for_each(|key| {
            store.free(*key);
        });
    };
    free(&mut store, &|key| key.slot() >= 128);
    store.retire(0, 1)?;
    assert_eq!((store.compact_if_pays(51)?, adopts(&mut store)), (0, true));
    store.retire(0, 1)?;
    assert_eq!((store.compact_if_pays(50)?, adopts(&mut store)), (0, false));
    store.retire(0, 1)?;
    assert_eq!((store.compact_if_pays(1)?, adopts(&mut store)), (0, true));
    // An empty page goes in any case.
    free(&mut store, &|key| key.serial() == 7);
    assert_eq!((store.compact_if_pays(101)?, store.pages()), (1, 99));
    // Once another quarter could go it looks again, and this time pages fit.
    free(&mut store, &|key| {
        key.slot() < 128 && key.serial() % 2 == key.slot() / 64
    });
    assert_eq!((store.compact_if_pays(26)?, store.pages()), (0, 99));
    assert!(store.compact_if_pays(24)? >= 48);
    assert!(keys.iter().zip(0..).all(|(key, n)| {
        let stays = key.slot() < 128 && key.serial() % 2 != key.slot() / 64;
        store.get(*key) == (stays && key.serial() != 7).then_some(n)
    }));
    Ok(())
}

/// What a compaction has left is not held against what was put since, once that is sparse; and
/// the pages that went before its folds are counted with those that the folds gave back.
#[test]
fn what_was_filled_since_may_fold() -> Result<(), Refused> {
    const PAGES: usize = 100;
    let mut store = Store::<u64>::with_limits(Limits {
        shards: 1,
        slots: 256,
        ..Limits::default()
    })?;
    for n in 0..PAGES as u64 * 256 {
        store.insert(n)?;
    }
    // No two pages fit, though three of four could go by the numbers.
    store.retain(|key, _| key.slot() < 64);
    assert_eq!((store.compact()?, store.compact_if_pays(25)?), (0, 0));
    for n in store.len()..PAGES * 256 {
        store.insert(n as u64)?;
    }
    assert_eq!((store.compact_if_pays(25)?, store.pages()), (0, PAGES));
    // A quarter of the pages has nothing, and each other one a value at another slot.
    store.retain(|key, _| key.serial() % 4 > 0 && key.slot() == key.serial());
    let gone = store.compact_if_pays(50)?;
    assert!(gone > PAGES * 9 / 10, "{gone} pages went");
    assert_eq!((store.pages(), store.len()), (PAGES - gone, PAGES * 3 / 4));
    Ok(())
}

/// A compaction of full pages forgets what was folded onto them and is gone.
#[test]
fn full_pages_forget() -> Result<(), Refused> {
    let mut core = Core::new(Limits {
        shards: 1,
        ..Limits::default()
    })?;
    let keys: Vec<_> = (0..20 * 256)
        .map(|n| core.insert(0, n))
        .collect::<Result<_, _>>()?;
    let stays = |key: &&Key| key.slot() == key.serial();
    for key in keys.iter().filter(|key| !stays(key)) {
        assert!(core.free(*key));
    }
    assert!(core.compact()? > 15);
    for key in keys.iter().filter(stays) {
        assert!(core.free(*key));
    }
    for n in 0..core.pages() as u128 * 256 {
        core.insert(0, n)?;
    }
    assert_eq!((core.compact()?, core.forget()?), (0, 0));
    Ok(())
}

/// A store that is full is trimmed, and what it counts is what went.
#[test]
fn full_pages_are_passed_over() -> Result<(), Refused> {
    let mut core = Core::new(FEW)?;
    let keys: Vec<_> = (0..3 * 2560)
        .map(|n| core.insert(n as u32 % 3, n))
        .collect::<Result<_, _>>()?;
    let mark = core.mark_some()?;
    core.close()?;
    let text = core.certificate()?;
    for key in keys.iter().filter(|key| key.serial() == 4) {
        core.free(*key);
    }
    // The certificate stays that of the caller.
    assert_eq!((core.compact()?, core.pages(), mark.owned), (3, 27, 30));
    assert_eq!((core.certificate()?, core.compact()?), (text, 0));
    assert_eq!(core.get(keys[0]), Some(0));
    core.retire(0, 1)?;
    assert_eq!(
        (core.compact()?, core.adopt(0)),
        (0, Err(Refused::NothingToAdopt))
    );
    Ok(())
}

/// Each call retires, adopts and folds at most as many groups as its budget says.
#[test]
fn budgets_are_kept() -> Result<(), Refused> {
    for budget in [1, 5, 40] {
        let (mut core, _) = sparse::<Core>(30_000, 10)?;
        let (mut pages, mut pool) = (core.pages(), Some(0));
        loop {
            let done = core.compact_within(budget)?;
            assert_eq!(pages - core.pages(), done.pages);
            // How many groups the pool has is seen while no plan of the compaction is open.
            let now = core.mark_some().ok().map(|marked| marked.abandoned);
            if now.is_some() {
                core.close()?;
            }
            if let (Some(before), Some(now)) = (pool, now) {
                let moved = usize::abs_diff(before, now);
                assert!(moved <= budget, "{moved} groups by a budget of {budget}");
            }
            (pages, pool) = (core.pages(), now);
            if !done.more {
                break;
            }
        }
        assert_eq!(pool, Some(0));
    }
    Ok(())
}

/// A few pages that are nearly empty go from among full ones.
#[test]
fn few_sparse_pages_among_full_ones() -> Result<(), Refused> {
    let mut store = Store::with_limits(FEW)?;
    let keys: Vec<_> = (0..25_600_u64)
        .map(|n| store.insert(n))
        .collect::<Result<_, _>>()?;
    // One value stays on each of three pages, at slots of their own.
    for (place, key) in keys
        .iter()
        .enumerate()
        .filter(|(place, _)| [7, 50, 93].contains(&(place / 256)))
    {
        if place % 256 != place / 256 {
            store.free(*key);
        }
    }
    assert_eq!(
        (store.pages(), store.compact()?, store.pages()),
        (100, 2, 98)
    );
    assert!(keys.iter().enumerate().all(|(place, key)| {
        let page = place / 256;
        store.contains(*key) == (![7, 50, 93].contains(&page) || place % 256 == page)
    }));
    Ok(())
}

/// Values that were all put into one of many shards are compacted as those of one shard are.
#[test]
fn one_shard_of_many() -> Result<(), Refused> {
    let mut store = Store::<u64>::new()?;
    for n in 0..100_000 {
        store.insert(n)?;
    }
    let before = store.pages();
    store.retain(|_, n| n % 37 == 0);
    let gone = store.compact()?;
    assert!(gone > before * 9 / 10, "{gone} of {before}");
    Ok(())
}

/// Of an arena the seats retire and the steward folds in parts.
#[test]
fn parts_of_an_arena() -> Result<(), Refused> {
    let mut arena = Arena::open(FEW)?;
    let mut seats: Vec<_> = (0..3).map(|_| arena.seat()).collect::<Result<_, _>>()?;
    let mut keys = Vec::new();
    for n in 0..30_000_u64 {
        keys.push((seats[n as usize % 3].insert(n)?, n));
    }
    let stays = |n: u64| n * 7919 % 100 < 5;
    for (key, n) in &keys {
        assert!(stays(*n) || seats[0].free(*key));
    }
    let before = arena.totals().pages;
    let mut gone = 0;
    for _ in 0..4 {
        let pages = arena.totals().pages;
        arena.ask_to_retire(pages as u32 / 6);
        for seat in &mut seats {
            seat.help_compact()?;
            assert_eq!(seat.help_compact()?, 0);
        }
        loop {
            let done = arena.compact_within(3)?;
            gone += done.pages;
            if !done.more {
                break;
            }
            // While a plan is open a seat helps later.
            arena.ask_to_retire(1);
            assert!(seats[1].help_compact()? <= 1);
            assert!(keys
                .iter()
                .all(|(key, n)| seats[2].get(*key) == stays(*n).then_some(*n)));
        }
        arena.ask_to_retire(0);
        for seat in &mut seats {
            seat.help_compact()?;
        }
    }
    assert_eq!(arena.totals().pages, before - gone);
    assert!(gone > before / 2, "{gone} of {before}");
    Ok(())
}

/// The steward may close a plan of parts, and a plan of its own refuses them.
#[test]
fn plans_of_an_arena() -> Result<(), Refused> {
    let mut arena = Arena::open(FEW)?;
    let mut seat = arena.seat()?;
    let keys: Vec<_> = (0..25_600_u64)
        .map(|n| seat.insert(n))
        .collect::<Result<_, _>>()?;
    for key in &keys[1..] {
        if key.slot() != key.serial() {
            seat.free(*key);
        }
    }
    assert_eq!(seat.retire(50)?, 50);
    assert!(arena.compact_within(2)?.more);
    assert_eq!(
        (arena.mark(), arena.forget(), seat.adopt()),
        (
            Err(Refused::PlanOpen),
            Err(Refused::PlanOpen),
            Err(Refused::PlanOpen)
        )
    );
    arena.close()?;
    assert_eq!(arena.close(), Err(Refused::NoPlan));
    arena.mark()?;
    assert_eq!(arena.compact_within(2), Err(Refused::PlanOpen));
    arena.close()?;
    // It goes on behind the plan that was closed, and then begins anew.
    assert!(!arena.compact_within(1000)?.more);
    assert!(!arena.compact_within(1000)?.more);
    assert_eq!(arena.totals().pages, 50);
    Ok(())
}

/// Where nobody has set limits, a shard with many pages leaves the next ones to the next shard, and
/// none is full.
#[test]
fn shards_take_turns() -> Result<(), Refused> {
    const PAGES: usize = 1024;
    let (mut slab, mut store, shared) = (Slab::new()?, Store::new()?, SharedStore::new()?);
    let (mut of_slab, mut of_store, mut of_shared) = ([0; 64], [0; 64], [0; 64]);
    // Values of 256 bytes, 16 of which share a page of a store.
    for n in 0..16 * (5 * PAGES as u64 + 10) {
        of_slab[slab.insert(n)?.shard() as usize] += 1;
        of_store[store.insert([n; 32])?.shard() as usize] += 1;
        of_shared[shared.insert([n; 32])?.shard() as usize] += 1;
    }
    assert!(of_slab[0] == slab.len() && of_slab[1] == 0);
    assert_eq!(of_store[..5], [16 * PAGES + 1; 5]);
    assert!(of_shared.iter().filter(|count| **count > 0).count() >= 4);
    // Each of five shards has one page more than its turn has, with one value.
    assert_eq!((slab.pages(), store.pages()), (642, 5 * (PAGES + 1) + 10));
    Ok(())
}

/// A shard of a shared store that folds its pages keeps its turn, however many it opens in its
/// life: a core to which no value comes any more would keep its memory.
#[test]
fn a_shard_that_folds_keeps_its_turn() -> Result<(), Refused> {
    let store = SharedStore::new()?;
    let mut random = Random(88_172_645_463_325_252);
    let mut round = || -> Result<BTreeSet<u32>, Refused> {
        let keys: Vec<_> = (0..16 * 400)
            .map(|n| store.insert([n; 64]))
            .collect::<Result<_, _>>()?;
        store.retain(|_, _| random.below(20) == 0);
        store.compact()?;
        Ok(keys.iter().map(|key| key.shard()).collect())
    };
    let first = round()?;
    for _ in 0..30 {
        assert_eq!(round()?, first);
    }
    // Each has opened more pages than a turn has.
    let last = store.insert([0; 64])?;
    assert!(last.serial() > 1024, "{last}");
    Ok(())
}
