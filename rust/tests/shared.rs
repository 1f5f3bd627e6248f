//! A store that threads share: each thread's values are what it expects of them, beside other
//! threads and a compaction.

mod common;

use common::numbered::{Handed, Value};
use common::Random;
use std::collections::{BTreeMap, BTreeSet};
use std::ops::Range;
use std::panic::{catch_unwind, AssertUnwindSafe};
use std::sync::atomic::{AtomicBool, Ordering};
use std::sync::Barrier;
use std::thread;
use std::time::Duration;
use teurlaks::{Key, Limits, Refused, SharedStore};

/// One thread with what it expects.
struct Worker<'s, const WORDS: usize> {
    store: &'s SharedStore<Value<WORDS>>,
    inboxes: &'s [Handed],
    here: usize,
    random: Random,
    live: Vec<(Key, u64)>,
    stale: Vec<Key>,
    // Whether it becomes more, and how many it becomes at most.
    grows: bool,
    aim: usize,
    // The number of its next value.
    number: u64,
    calls: usize,
}

impl<const WORDS: usize> Worker<'_, WORDS> {
    /// Some calls, about half of them inserts or removals.
    fn work(&mut self, most: usize) -> Result<(), Refused> {
        for _ in 0..most / 4 {
            self.calls += 4;
            self.insert_or_remove()?;
            self.look_up();
            self.change()?;
            self.hand_over();
        }
        Ok(())
    }

    /// Grows to as many values as it aims at, and shrinks to a twentieth of that.
    fn insert_or_remove(&mut self) -> Result<(), Refused> {
        if self.grows || self.live.is_empty() {
            let key = self.store.insert(Value::new(self.number))?;
            self.live.push((key, self.number));
            self.number += 1;
            self.grows = self.live.len() < self.aim;
            return Ok(());
        }
        let (key, number) = self.live.swap_remove(self.random.below(self.live.len()));
        if number % 2 == 0 {
            assert_eq!(self.store.remove(key), Some(Value::new(number)));
        } else {
            assert!(self.store.free(key));
        }
        self.stale.push(key);
        self.grows = self.live.len() * 20 < self.aim;
        if self.grows {
            self.aim = 500 + self.random.below(8000);
            self.stale.drain(..self.stale.len() / 2);
        }
        Ok(())
    }

    fn look_up(&mut self) {
        if let Some((key, number)) = self.any() {
            assert_eq!(self.store.get(key), Some(Value::new(number)));
            assert!(self.store.contains(key));
        }
        if !self.stale.is_empty() {
            let key = self.stale[self.random.below(self.stale.len())];
            assert_eq!(self.store.get(key), None);
        }
    }

    /// Sets, replaces or updates one, and tries that with a stale key.
    fn change(&mut self) -> Result<(), Refused> {
        if self.live.is_empty() {
            return Ok(());
        }
        let at = self.random.below(self.live.len());
        let (key, before) = self.live[at];
        let after = Value::new(self.number);
        match self.number % 3 {
            0 => assert!(self.store.set(key, after)?),
            1 => assert_eq!(self.store.replace(key, after)?, Some(Value::new(before))),
            _ => {
                let seen = self
                    .store
                    .update(key, |value| std::mem::replace(value, after));
                assert_eq!(seen?, Some(Value::new(before)));
            }
        }
        self.live[at].1 = self.number;
        self.number += 1;
        if let Some(key) = self.stale.last() {
            assert!(
                !self.store.set(*key, after)?
                    && !self.store.free(*key)
                    && !self.store.contains(*key)
            );
            assert_eq!(self.store.replace(*key, after)?, None);
            assert_eq!(self.store.update(*key, |_| unreachable!())?, None::<()>);
            assert_eq!(self.store.remove(*key), None);
        }
        Ok(())
    }

    /// Hands a key to another thread now and then, and takes what came in.
    fn hand_over(&mut self) {
        let to = self.random.below(16 * self.inboxes.len());
        if to < self.inboxes.len() && !self.live.is_empty() {
            let handed = self.live.swap_remove(self.random.below(self.live.len()));
            self.inboxes[to].lock().unwrap().push(handed);
            self.live
                .append(&mut self.inboxes[self.here].lock().unwrap());
        }
    }

    fn any(&mut self) -> Option<(Key, u64)> {
        let len = self.live.len();
        (len > 0).then(|| self.live[self.random.below(len)])
    }
}

/// So many threads make so many calls in all, each thread in several lives, and one compacts beside
/// them. Then all is taken out.
fn threads_find_what_they_expect<const WORDS: usize>(threads: usize, limits: Limits, calls: usize) {
    const LIVES: usize = 4;
    let store = SharedStore::<Value<WORDS>>::with_limits(limits).unwrap();
    let inboxes: Vec<Handed> = (0..threads).map(|_| Handed::default()).collect();
    let (store, inboxes) = (&store, &inboxes[..]);
    let live_of = move |here: usize, life: usize, mut live: Vec<(Key, u64)>| {
        let number = (here * LIVES + life) as u64 * 1_000_000_000;
        live.append(&mut inboxes[here].lock().unwrap());
        let mut worker = Worker {
            store,
            inboxes,
            here,
            random: Random(number + 88_172_645_463_325_252),
            live,
            stale: Vec::new(),
            grows: true,
            aim: 4000,
            number,
            calls: 0,
        };
        worker.work(calls / threads / LIVES).unwrap();
        worker.live
    };
    let (left, gone) = thread::scope(|scope| {
        // One thread of each is there at a time, and its heir has its keys.
        let workers: Vec<_> = (0..threads)
            .map(|here| {
                scope.spawn(move || {
                    (0..LIVES).fold(Vec::new(), |live, life| {
                        let one = scope.spawn(move || live_of(here, life, live));
                        one.join().unwrap()
                    })
                })
            })
            .collect();
        let mut gone = 0;
        while !workers.iter().all(|worker| worker.is_finished()) {
            // Each fold uses up one of the pages that a shard opens in its life, which are to last
            // for all calls.
            if gone < 300 * limits.shards as usize {
                gone += store.compact().unwrap();
            }
            thread::sleep(Duration::from_millis(1));
        }
        let left: Vec<_> = workers
            .into_iter()
            .map(|worker| worker.join().unwrap())
            .collect();
        (left, gone)
    });
    let handed = inboxes
        .iter()
        .map(|inbox| std::mem::take(&mut *inbox.lock().unwrap()));
    let left: BTreeMap<Key, u64> = left.into_iter().chain(handed).flatten().collect();
    // A short run has no sparse page.
    assert!(gone > 0 || calls < 1_000_000);
    assert_eq!(store.len(), left.len());
    assert!(store
        .iter()
        .all(|(key, value)| value.is_whole() && left.get(&key) == Some(&value.number)));
    assert_eq!(store.iter().count(), left.len());
    for (key, number) in &left {
        assert_eq!(store.remove(*key), Some(Value::new(*number)));
    }
    assert!(store.is_empty());
    store.trim();
    assert_eq!(store.pages(), 0);
}

/// Two million calls are asked for, where no variable says how many.
fn calls() -> usize {
    let asked = std::env::var("CALLS")
        .ok()
        .and_then(|calls| calls.parse().ok());
    asked.unwrap_or(2_000_000)
}

#[test]
fn by_four_threads() {
    threads_find_what_they_expect::<29>(4, limits(64, 1024), calls() / 2);
}

#[test]
fn by_eight_threads_on_seven_shards() {
    threads_find_what_they_expect::<7>(8, limits(7, 1024), calls() / 2);
}

fn limits(shards: u32, pages: u32) -> Limits {
    Limits {
        shards,
        pages,
        slots: 256,
        ..Limits::default()
    }
}

/// The serial number of the span of a key, and its slot.
fn place(key: Key) -> (usize, usize) {
    let key = key.to_string();
    let mut numbers = key
        .split(['.', '/'])
        .skip(1)
        .map_while(|number| number.parse().ok());
    numbers
        .next()
        .zip(numbers.next())
        .expect("a key is printed so")
}

/// So many values that each page keeps one of 16, at another slot than the next page does.
fn sparse(store: &SharedStore<Value<31>>) -> Result<Vec<(Key, u64)>, Refused> {
    let all: Vec<(Key, u64)> = (0..64_000)
        .map(|number| Ok((store.insert(Value::new(number))?, number)))
        .collect::<Result<_, Refused>>()?;
    let stays = |(key, _): &(Key, u64)| {
        let (serial, slot) = place(*key);
        slot == serial % 16
    };
    let (stay, go): (Vec<_>, Vec<_>) = all.into_iter().partition(stays);
    for (key, _) in go {
        assert!(store.free(key));
    }
    assert_eq!((stay.len(), store.pages(), store.trim()), (4000, 4000, 0));
    Ok(stay)
}

#[test]
fn pages_fold_beside_those_who_look_up_and_change() -> Result<(), Refused> {
    let store = SharedStore::new()?;
    let stay = sparse(&store)?;
    let compacting = AtomicBool::new(true);
    let start = Barrier::new(4);
    let gone = thread::scope(|scope| {
        let (store, stay, compacting, start) = (&store, &stay, &compacting, &start);
        for thread in 0..3_usize {
            scope.spawn(move || {
                let own = || stay.iter().skip(thread).step_by(3);
                let mut times = 0;
                start.wait();
                while compacting.load(Ordering::Relaxed) || times < 3 {
                    times += 1;
                    for (key, number) in own() {
                        assert_eq!(store.get(*key), Some(Value::new(number + times - 1)));
                        let done = store.update(*key, |value| *value = Value::new(number + times));
                        assert_eq!(done, Ok(Some(())));
                        let other =
                            store.get(stay[(*number as usize + times as usize) % stay.len()].0);
                        assert!(other.is_some_and(|value| value.is_whole()));
                    }
                }
                for (key, number) in own() {
                    assert_eq!(
                        store.replace(*key, Value::new(*number)),
                        Ok(Some(Value::new(number + times)))
                    );
                }
            });
        }
        start.wait();
        // Nobody empties a page meanwhile, so all that goes is folded.
        let gone = store.compact();
        compacting.store(false, Ordering::Relaxed);
        gone
    })?;
    assert!(gone > 3000, "{gone} of 4000 pages went");
    assert_eq!(store.pages(), 4000 - gone);
    assert!(stay
        .iter()
        .all(|(key, number)| store.get(*key) == Some(Value::new(*number))));
    Ok(())
}

#[test]
fn few_pages_fold_where_their_shard_has_folded() -> Result<(), Refused> {
    let store = SharedStore::new()?;
    let stay = sparse(&store)?;
    assert!(store.compact()? > 3000);
    // Two of 16 stay on each page, of hardly more than 60 in each of four shards or more.
    let (stay, go): (Vec<_>, Vec<_>) = stay
        .into_iter()
        .partition(|(_, number)| number.wrapping_mul(0x9e37_79b9_7f4a_7c15) >> 61 == 0);
    assert!(go.iter().all(|(key, _)| store.free(*key)));
    store.trim();
    assert!(store.compact()? > 0);
    assert!(stay
        .iter()
        .all(|(key, number)| store.get(*key) == Some(Value::new(*number))));
    Ok(())
}

#[test]
fn what_is_compacted_takes_values_again() -> Result<(), Refused> {
    const PAGES: usize = 1000;
    let store = SharedStore::with_limits(limits(1, 1024))?;
    let mut random = Random(7);
    for number in 0..16 * PAGES as u64 {
        store.insert(Value::<31>::new(number))?;
    }
    // On each page at least one stays: a group that was trimmed may take a value on a new page.
    store.retain(|key, _| {
        let (serial, slot) = place(key);
        slot == serial % 16 || random.below(16) == 0
    });
    store.compact()?;
    let (pages, free) = (store.pages(), 16 * store.pages() - store.len());
    assert!(pages < PAGES / 2);
    for number in 0..free as u64 {
        store.insert(Value::new(number))?;
    }
    // No group was left in the pool, so no place on any page.
    assert_eq!(store.pages(), pages);
    store.insert(Value::new(0))?;
    assert_eq!(store.pages(), pages + 1);
    Ok(())
}

#[test]
fn a_walk_goes_by_shards_serial_numbers_and_slots() -> Result<(), Refused> {
    let store = SharedStore::new()?;
    sparse(&store)?;
    let shard = |key: Key| {
        key.to_string()
            .split('.')
            .next()
            .and_then(|shard| shard.parse::<u8>().ok())
    };
    let places: Vec<_> = store
        .iter()
        .map(|(key, _)| (shard(key), place(key)))
        .collect();
    assert!(places.len() == 4000 && places.windows(2).all(|two| two[0] < two[1]));
    Ok(())
}

/// Each step from one end or the other, at random: the ends meet within each shard, and between
/// two.
#[test]
fn a_walk_goes_from_both_ends() -> Result<(), Refused> {
    let mut random = Random(3);
    for (shards, count) in [(1, 0), (1, 3), (1, 1000), (3, 200), (64, 1000)] {
        let store = SharedStore::with_limits(limits(shards, 1024))?;
        for number in 0..count {
            store.insert(number)?;
        }
        store.retain(|_, number| number % 3 > 0);
        let all: Vec<_> = store.iter().collect();
        assert_eq!(all.len(), store.len());
        assert!(store.iter().rev().eq(all.iter().rev().copied()));
        for _ in 0..20 {
            let (mut walk, mut back) = (store.iter(), Vec::new());
            let mut front = Vec::new();
            while front.len() + back.len() < all.len() {
                if random.below(2) == 0 {
                    front.extend(walk.next());
                } else {
                    back.extend(walk.next_back());
                }
            }
            assert_eq!((walk.next(), walk.next_back()), (None, None));
            front.extend(back.into_iter().rev());
            assert_eq!(front, all);
        }
    }
    Ok(())
}

/// A shard that was folded once has its pages folded, however few these are.
#[test]
fn the_fewest_pages_fold_where_their_shard_has_folded() -> Result<(), Refused> {
    let store = SharedStore::with_limits(limits(1, 1024))?;
    // One value stays on each page, each at another slot.
    let fold = |pages: usize| -> Result<usize, Refused> {
        for number in 0..16 * pages as u64 {
            store.insert(Value::<31>::new(number))?;
        }
        let mut number = 0..;
        store.retain(|_, _| number.next().is_some_and(|number| number % 17 == 0));
        let gone = store.compact()?;
        assert_eq!((store.len(), store.pages()), (pages, pages - gone));
        store.clear();
        store.trim();
        Ok(gone)
    };
    assert_eq!((fold(3)?, fold(8)?, fold(3)?), (0, 7, 2));
    Ok(())
}

/// A thread whose home is full has another one from then on, also once its first has room again.
#[test]
fn a_full_home_is_left() -> Result<(), Refused> {
    let store = SharedStore::with_limits(limits(2, 1))?;
    let first = store.insert(7_u8)?;
    let mut keys = vec![first];
    while keys.len() < 256 {
        keys.push(store.insert(7)?);
    }
    assert!(keys.iter().all(|key| key.shard() == first.shard()));
    // A thread has four homes at most.
    for _ in 0..4 {
        assert_ne!(store.insert(7)?.shard(), first.shard());
    }
    assert!(store.free(first));
    assert_ne!(store.insert(7)?.shard(), first.shard());
    Ok(())
}

/// A shard of many pages is left for another one, though it has room.
#[test]
fn a_large_home_is_left() -> Result<(), Refused> {
    let few = Limits {
        slots: 1,
        ..limits(64, 1 << 20)
    };
    let store = SharedStore::with_limits(few)?;
    let shards = |count| -> Result<BTreeSet<u32>, Refused> {
        (0..count)
            .map(|_| store.insert(7_u8).map(Key::shard))
            .collect()
    };
    let homes = shards(64)?;
    assert!((1..=4).contains(&homes.len()));
    let later = shards(4 * 1024)?;
    assert!(later.is_superset(&homes) && later.len() > homes.len());
    Ok(())
}

#[test]
fn few_pages_are_trimmed_alone() -> Result<(), Refused> {
    let store = SharedStore::with_limits(limits(1, 9))?;
    let keys: Vec<Key> = (0..512_u32)
        .map(|number| store.insert(number))
        .collect::<Result<_, _>>()?;
    assert!(
        keys[1..256].iter().all(|key| store.free(*key))
            && keys[258..].iter().all(|key| store.free(*key))
    );
    assert_eq!((store.compact(), store.pages()), (Ok(0), 2));
    assert!(store.free(keys[0]));
    assert_eq!((store.compact(), store.pages()), (Ok(1), 1));
    assert_eq!(
        (store.get(keys[256]), store.get(keys[257])),
        (Some(256), Some(257))
    );
    Ok(())
}

#[test]
fn compactions_wait_for_each_other() -> Result<(), Refused> {
    let store = SharedStore::with_limits(limits(4, 1024))?;
    let stay = sparse(&store)?;
    let compact_all_from = |first: u32| -> Result<usize, Refused> {
        let shards = (0..4).map(|shard| (first + shard) % 4);
        shards.map(|shard| store.compact_shard(shard)).sum()
    };
    let gone: usize = thread::scope(|scope| {
        let compact_all_from = &compact_all_from;
        let all: Vec<_> = (0..4)
            .map(|first| scope.spawn(move || compact_all_from(first)))
            .collect();
        let gone: Result<usize, Refused> = all.into_iter().map(|one| one.join().unwrap()).sum();
        gone
    })?;
    assert!(gone > 3000, "{gone} of 4000 pages went");
    assert_eq!(store.pages(), 4000 - gone);
    assert!(stay
        .iter()
        .all(|(key, number)| store.remove(*key) == Some(Value::new(*number))));
    assert_eq!(store.compact_shard(4), Err(Refused::Config));
    Ok(())
}

#[test]
fn values_of_a_thread_that_ended() -> Result<(), Refused> {
    let store = SharedStore::new()?;
    let keep = |numbers: Range<u64>| -> Result<Vec<Key>, Refused> {
        numbers.map(|number| store.insert(number)).collect()
    };
    let keys = thread::scope(|scope| scope.spawn(|| keep(0..1000)).join().unwrap())?;
    let others = keep(1000..2000)?;
    assert!(keys.iter().all(|key| !others.contains(key)));
    thread::scope(|scope| {
        for part in 0..4 {
            let (store, keys) = (&store, &keys);
            scope.spawn(move || {
                for (key, number) in keys.iter().zip(0..).skip(part).step_by(4) {
                    assert_eq!(store.get(*key), Some(number));
                    assert_eq!(
                        (store.remove(*key), store.remove(*key)),
                        (Some(number), None)
                    );
                }
            });
        }
    });
    assert_eq!(store.len(), 1000);
    assert!(others
        .iter()
        .zip(1000..)
        .all(|(key, number)| store.get(*key) == Some(number)));
    Ok(())
}

#[test]
fn one_of_all_who_remove_a_key_has_its_value() -> Result<(), Refused> {
    let store = SharedStore::new()?;
    let keys: Vec<Key> = (0..10_000)
        .map(|number| store.insert(number))
        .collect::<Result<_, _>>()?;
    let sums = thread::scope(|scope| {
        let all: Vec<_> = (0..4)
            .map(|_| {
                scope.spawn(|| {
                    keys.iter()
                        .filter_map(|key| store.remove(*key))
                        .sum::<u64>()
                })
            })
            .collect();
        all.into_iter().map(|one| one.join().unwrap()).sum::<u64>()
    });
    assert_eq!((sums, store.len()), (49_995_000, 0));
    Ok(())
}

#[test]
fn a_full_shard_passes_on() -> Result<(), Refused> {
    for shards in [1, 3, 10, 64] {
        let store = SharedStore::with_limits(limits(shards, 2))?;
        let room = shards as usize * 512;
        // Together they keep as many as there is room for, whatever the homes are where they began.
        let keys: Vec<Key> = thread::scope(|scope| {
            let all: Vec<_> = (0..4)
                .map(|_| {
                    scope.spawn(|| {
                        (0..=room)
                            .map_while(|_| store.insert(7_u8).ok())
                            .collect::<Vec<_>>()
                    })
                })
                .collect();
            all.into_iter()
                .flat_map(|one| one.join().unwrap())
                .collect()
        });
        assert_eq!(keys.iter().collect::<BTreeSet<_>>().len(), room);
        assert_eq!((store.len(), store.pages()), (room, 2 * shards as usize));
        assert_eq!(store.insert(7), Err(Refused::PagesSpent));
        // Wherever a place becomes free, any thread finds it.
        for key in keys.iter().step_by(97) {
            assert!(store.free(*key));
            let again = store.insert(8)?;
            assert!(again != *key && store.get(again) == Some(8));
            assert_eq!(
                (store.get(*key), store.insert(7)),
                (None, Err(Refused::PagesSpent))
            );
        }
    }
    Ok(())
}

#[test]
fn limits_out_of_range() {
    let refused = |limits| {
        SharedStore::<u8>::with_limits(limits)
            .map(drop)
            .unwrap_err()
    };
    for bad in [
        limits(0, 9),
        limits(65, 9),
        limits(9, 0),
        limits(9, 1_048_577),
    ] {
        assert_eq!(refused(bad), Refused::Config);
    }
    let generations = 0;
    assert_eq!(
        refused(Limits {
            generations,
            ..limits(9, 9)
        }),
        Refused::Config
    );
    let store = SharedStore::<u8>::with_limits(limits(9, 9)).unwrap();
    assert_eq!((store.shards(), store.len(), store.pages()), (9, 0, 0));
}

#[test]
fn keys_of_no_shard_find_nothing() -> Result<(), Refused> {
    let [small, large] = [limits(1, 9), limits(64, 9)].map(SharedStore::with_limits);
    let (small, large) = (small?, large?);
    let keys: Vec<Key> = (0..100)
        .map(|n| large.insert(n))
        .collect::<Result<_, _>>()?;
    let of_another_shard = |key: &&Key| !key.to_string().starts_with("0.");
    assert!(keys.iter().filter(of_another_shard).count() > 0);
    for key in &keys {
        assert_eq!(
            (small.get(*key), small.contains(*key), small.free(*key)),
            (None, false, false)
        );
        assert_eq!(
            (small.set(*key, 7), small.replace(*key, 7)),
            (Ok(false), Ok(None))
        );
        assert_eq!(
            (small.remove(*key), small.update(*key, |_| ())),
            (None, Ok(None))
        );
    }
    Ok(())
}

#[test]
fn a_closure_that_panics_leaves_the_store_to_all() -> Result<(), Refused> {
    let store = SharedStore::with_limits(limits(1, 9))?;
    let keys: Vec<Key> = (0..300_u32)
        .map(|number| store.insert(number))
        .collect::<Result<_, _>>()?;
    let panics = |call: &(dyn Fn() + Sync)| {
        let in_another_thread = thread::scope(|scope| scope.spawn(call).join());
        assert!(in_another_thread.is_err() && catch_unwind(AssertUnwindSafe(call)).is_err());
    };
    panics(&|| {
        let _ = store.update(keys[7], |number| {
            *number = 1000;
            panic!("as it should");
        });
    });
    assert_eq!(store.get(keys[7]), Some(7));
    panics(&|| {
        store.retain(|key, _| {
            assert!(key != keys[200], "as it should");
            key != keys[100]
        });
    });
    assert_eq!((store.get(keys[100]), store.len()), (None, 299));
    panics(&|| {
        store
            .iter()
            .for_each(|(_, number)| assert!(number < 50, "as it should"))
    });

    // All goes on, here and elsewhere.
    thread::scope(|scope| {
        let goes_on = || {
            let key = store.insert(5)?;
            assert_eq!(
                (store.replace(key, 6)?, store.remove(key)),
                (Some(5), Some(6))
            );
            store.compact()
        };
        assert_eq!(
            (scope.spawn(goes_on).join().unwrap(), goes_on()),
            (Ok(0), Ok(0))
        );
    });
    assert_eq!(store.iter().count(), 299);
    store.retain(|_, number| number % 2 == 0);
    assert_eq!(store.len(), 149);
    Ok(())
}

#[test]
fn a_test_is_asked_about_each_value_under_its_key() -> Result<(), Refused> {
    let store = SharedStore::new()?;
    let keys: Vec<Key> = (0..1000_usize)
        .map(|number| store.insert(number))
        .collect::<Result<_, _>>()?;
    let mut asked = 0;
    store.retain(|key, number| {
        asked += 1;
        assert_eq!(key, keys[number]);
        number % 3 == 0
    });
    assert_eq!((asked, store.len()), (1000, 334));
    for (key, number) in keys.iter().zip(0..) {
        assert_eq!(store.get(*key), (number % 3 == 0).then_some(number));
    }
    Ok(())
}

#[test]
fn a_walk_holds_no_lock_and_meets_each_key_once() -> Result<(), Refused> {
    let store = SharedStore::new()?;
    let stay: BTreeSet<u64> = sparse(&store)?
        .into_iter()
        .map(|(_, number)| number)
        .collect();
    let walking = AtomicBool::new(true);
    thread::scope(|scope| {
        let (store, walking, stay) = (&store, &walking, &stay);
        // Others keep and take out values meanwhile, of greater numbers, and pages fold.
        scope.spawn(move || {
            for number in 1_000_000.. {
                let key = store.insert(Value::new(number)).unwrap();
                assert!(store.free(key));
                if !walking.load(Ordering::Relaxed) {
                    break;
                }
            }
        });
        scope.spawn(move || store.compact().unwrap());
        for _ in 0..5 {
            let mut met = BTreeMap::new();
            for (key, value) in store {
                assert!(value.is_whole());
                *met.entry(value.number).or_insert(0) += 1;
                assert!(value.number >= 1_000_000 || store.get(key) == Some(value));
            }
            let of_those_that_stay: Vec<u32> = stay
                .iter()
                .filter_map(|number| met.get(number).copied())
                .collect();
            assert_eq!(of_those_that_stay, vec![1; stay.len()]);
            assert!(met.values().all(|times| *times == 1));
        }
        walking.store(false, Ordering::Relaxed);
    });
    Ok(())
}

/// A number of so many bytes, on whose alignment nothing depends.
fn keeps<T: Copy + Send + std::fmt::Debug + PartialEq>(values: [T; 2]) -> Result<(), Refused> {
    let store = SharedStore::new()?;
    let [first, second] = values.map(|value| store.insert(value));
    let (first, second) = (first?, second?);
    assert_eq!(
        (store.get(first), store.get(second)),
        (Some(values[0]), Some(values[1]))
    );
    assert!(store.set(first, values[1])?);
    assert_eq!(store.remove(first), Some(values[1]));
    assert_eq!(
        format!("{store:?}"),
        format!("{{{second:?}: {:?}}}", values[1])
    );
    store.clear();
    assert!(store.is_empty() && !store.contains(second));
    assert_eq!(
        (store.pages() > 0, store.trim() > 0, store.pages()),
        (true, true, 0)
    );
    Ok(())
}

#[test]
fn values_of_each_size() -> Result<(), Refused> {
    #[derive(Clone, Copy, Debug, PartialEq)]
    #[repr(align(64))]
    struct Aligned([u8; 64]);
    keeps([1_u8, 2])?;
    keeps([1_u128, 2])?;
    keeps([[1_u8; 17], [2; 17]])?;
    keeps([Aligned([1; 64]), Aligned([2; 64])])?;
    keeps([[1_u64; 32], [2; 32]])
}

#[test]
fn it_may_be_shared_and_sent() {
    fn shared<T: Send + Sync + std::panic::UnwindSafe + std::panic::RefUnwindSafe>() {}
    shared::<SharedStore<[u8; 256]>>();
    shared::<SharedStore<&'static str>>();
    shared::<teurlaks::shared::Iter<'static, u8>>();
}
