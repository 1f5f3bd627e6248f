//! A slab that threads share: what is lent stays, each value is dropped once, and every key finds
//! its own value.

mod common;

use common::panicking::{panics, Panics};
use common::Random;
use std::collections::{BTreeMap, BTreeSet};
use std::mem;
use std::sync::atomic::{AtomicBool, AtomicUsize, Ordering};
use std::sync::mpsc::channel;
use std::sync::{Arc, Mutex};
use std::thread;
use teurlaks::shared_slab::{Entry, OwnedEntry, VacantEntry};
use teurlaks::{Key, Limits, Refused, SharedSlab};

/// A value that says which it is, and counts itself as it goes.
#[derive(Debug)]
struct Counted<P> {
    number: u64,
    text: String,
    _padding: P,
    gone: Arc<AtomicUsize>,
}

impl<P: Default> Counted<P> {
    fn new(number: u64, gone: &Arc<AtomicUsize>) -> Counted<P> {
        Counted {
            number,
            text: number.to_string(),
            _padding: P::default(),
            gone: gone.clone(),
        }
    }

    fn is(&self, number: u64) -> bool {
        self.number == number && self.text == number.to_string()
    }
}

impl<P> Drop for Counted<P> {
    fn drop(&mut self) {
        assert_eq!(self.text, self.number.to_string());
        self.text.clear();
        self.gone.fetch_add(1, Ordering::Relaxed);
    }
}

/// Of so many bytes, which do nothing.
struct Bytes<const BYTES: usize>([u8; BYTES]);

impl<const BYTES: usize> Default for Bytes<BYTES> {
    fn default() -> Self {
        Bytes([0; BYTES])
    }
}

#[derive(Default)]
#[repr(align(128))]
struct Aligned {
    _byte: u8,
}

fn limits(shards: u32) -> Limits {
    Limits {
        shards,
        ..Limits::default()
    }
}

fn count(gone: &Arc<AtomicUsize>) -> usize {
    gone.load(Ordering::Relaxed)
}

/// What one thread expects of a slab.
struct Expected<'s, P> {
    slab: &'s Arc<SharedSlab<Counted<P>>>,
    gone: Arc<AtomicUsize>,
    live: BTreeMap<Key, u64>,
    stale: Vec<Key>,
    guards: Vec<(Entry<'s, Counted<P>>, u64)>,
    owned: Vec<(OwnedEntry<Counted<P>>, u64)>,
    vacant: Vec<(VacantEntry<'s, Counted<P>>, u64)>,
    made: u64,
    // Whether it becomes more.
    grows: bool,
    random: Random,
}

impl<P: Default + Send + Sync> Expected<'_, P> {
    fn next(&mut self) -> Counted<P> {
        self.made += 1;
        Counted::new(self.made, &self.gone)
    }

    fn any(&mut self) -> Option<(Key, u64)> {
        let place = self.random.below(self.live.len().max(1));
        self.live
            .iter()
            .nth(place)
            .map(|(key, number)| (*key, *number))
    }

    fn act(&mut self) -> Result<(), Refused> {
        match self.random.below(100) {
            0..=39 => self.insert_or_remove()?,
            40..=59 => self.lend(),
            60..=79 => self.let_go(),
            80..=85 => self.leave_vacant()?,
            86..=97 => self.look_up(),
            98 => _ = self.slab.compact_within(1 + self.random.below(40))?,
            _ => _ = self.slab.trim(),
        }
        self.agrees();
        Ok(())
    }

    fn insert_or_remove(&mut self) -> Result<(), Refused> {
        if self.grows || self.live.is_empty() {
            let value = self.next();
            self.live.insert(self.slab.insert(value)?, self.made);
            self.grows = self.live.len() < 1500;
            return Ok(());
        }
        self.grows = self.live.len() < 60;
        let (key, number) = self.any().expect("there is one");
        self.live.remove(&key);
        self.stale.push(key);
        let is_lent = self
            .guards
            .iter()
            .map(|(guard, _)| guard.key())
            .any(|lent| lent == key)
            || self.owned.iter().any(|(guard, _)| guard.key() == key);
        if !is_lent && number % 2 == 0 {
            assert!(self.slab.take(key).expect("it is live").is(number));
        } else {
            let before = count(&self.gone);
            assert!(self.slab.remove(key));
            assert_eq!(count(&self.gone) - before, usize::from(!is_lent));
        }
        assert!(!self.slab.remove(key) && self.slab.take(key).is_none());
        Ok(())
    }

    fn lend(&mut self) {
        let Some((key, number)) = self.any() else {
            return;
        };
        if number % 3 == 0 {
            self.owned
                .push((self.slab.get_owned(key).expect("it is live"), number));
        } else {
            self.guards
                .push((self.slab.get(key).expect("it is live"), number));
        }
    }

    fn let_go(&mut self) {
        if self.guards.len() > self.random.below(30) {
            let (guard, number) = self
                .guards
                .swap_remove(self.random.below(self.guards.len()));
            assert!(guard.is(number));
        }
        if self.owned.len() > self.random.below(30) {
            let (guard, number) = self.owned.swap_remove(self.random.below(self.owned.len()));
            assert!(guard.is(number));
        }
    }

    /// Leaves an entry vacant, or fills or drops one.
    fn leave_vacant(&mut self) -> Result<(), Refused> {
        if self.vacant.len() < 5 {
            self.made += 1;
            let entry = self.slab.vacant_entry()?;
            assert!(self.slab.get(entry.key()).is_none() && !self.slab.remove(entry.key()));
            self.vacant.push((entry, self.made));
            return Ok(());
        }
        let (entry, number) = self.vacant.swap_remove(self.random.below(5));
        let key = entry.key();
        if number % 3 == 0 {
            self.stale.push(key);
            return Ok(());
        }
        let value = Counted::new(number, &self.gone);
        if number % 3 == 1 {
            entry.insert(value);
        } else {
            self.guards.push((entry.insert_entry(value), number));
        }
        self.live.insert(key, number);
        Ok(())
    }

    fn look_up(&mut self) {
        if let Some((key, number)) = self.any() {
            assert!(self.slab.get(key).is_some_and(|value| value.is(number)));
        }
        if !self.stale.is_empty() {
            let key = self.stale[self.random.below(self.stale.len())];
            assert!(self.slab.get(key).is_none() && !self.slab.contains(key));
        }
    }

    /// Nothing that is lent has gone.
    fn agrees(&self) {
        assert_eq!(self.slab.len(), self.live.len() + self.vacant.len());
        assert!(self.guards.iter().all(|(value, number)| value.is(*number)));
        assert!(self.owned.iter().all(|(value, number)| value.is(*number)));
    }
}

/// One thread alone, beside a map.
fn as_a_map<P: Default + Send + Sync>(shards: u32, acts: usize, seed: u64) -> Result<(), Refused> {
    let slab = Arc::new(SharedSlab::with_limits(limits(shards))?);
    let gone = Arc::new(AtomicUsize::new(0));
    let mut expected = Expected::<P> {
        slab: &slab,
        gone: gone.clone(),
        live: BTreeMap::new(),
        stale: Vec::new(),
        guards: Vec::new(),
        owned: Vec::new(),
        vacant: Vec::new(),
        made: 0,
        grows: true,
        random: Random(seed),
    };
    for _ in 0..acts {
        expected.act()?;
    }
    for (key, number) in &expected.live {
        assert!(slab.get(*key).expect("it is live").is(*number));
    }
    let live = mem::take(&mut expected.live);
    let made = count(&gone) + live.len();
    drop(expected);
    slab.compact()?;
    assert!(slab.value_pages() <= slab.pages());
    let mut slab = Arc::try_unwrap(slab).expect("nobody else has a share");
    let mut seen = BTreeMap::new();
    for (key, value) in slab.unique_iter() {
        assert!(seen.insert(key, value.number).is_none());
    }
    assert_eq!(seen, live);
    assert!(count(&gone) <= made + 60);
    let before = count(&gone);
    drop(slab);
    assert_eq!(count(&gone), before + live.len());
    Ok(())
}

/// So much is done, or less if a variable says so.
fn acts(most: usize) -> usize {
    let asked = std::env::var("CALLS")
        .ok()
        .and_then(|calls| calls.parse().ok());
    asked.unwrap_or(most).min(most)
}

#[test]
fn as_a_map_of_small_values() -> Result<(), Refused> {
    as_a_map::<()>(64, acts(30_000), 88_172_645_463_325_252)?;
    as_a_map::<()>(1, acts(30_000), 2_463_534_242)
}

#[test]
fn as_a_map_of_large_values() -> Result<(), Refused> {
    as_a_map::<Bytes<300>>(2, acts(20_000), 362_436_069)
}

#[test]
fn as_a_map_of_values_in_blocks_of_their_own() -> Result<(), Refused> {
    as_a_map::<Bytes<5000>>(3, acts(10_000), 521_288_629)?;
    as_a_map::<Aligned>(1, acts(10_000), 88_675_123)
}

/// Threads keep, lend, hand over and remove values, while one compacts.
fn by_threads(threads: usize, shards: u32, calls: usize) {
    type Value = Counted<Bytes<60>>;
    let slab = &SharedSlab::<Value>::with_limits(limits(shards)).unwrap();
    let gone = &Arc::new(AtomicUsize::new(0));
    let shared: &[Mutex<Vec<(Key, u64)>>] =
        &(0..threads).map(|_| Mutex::default()).collect::<Vec<_>>();
    let is_over = &AtomicBool::new(false);
    let made: usize = thread::scope(|scope| {
        scope.spawn(|| {
            while !is_over.load(Ordering::Relaxed) {
                slab.compact().unwrap();
                thread::yield_now();
            }
        });
        let workers: Vec<_> = (0..threads)
            .map(|here| scope.spawn(move || work(slab, gone, shared, here, calls / threads)))
            .collect();
        let made = workers
            .into_iter()
            .map(|worker| worker.join().unwrap())
            .sum();
        is_over.store(true, Ordering::Relaxed);
        made
    });
    let left: BTreeMap<Key, u64> = shared
        .iter()
        .flat_map(|keys| mem::take(&mut *keys.lock().unwrap()))
        .collect();
    assert_eq!((slab.len(), count(gone)), (left.len(), made - left.len()));
    for (key, number) in left {
        assert!(slab.get(key).expect("it is live").is(number));
        assert!(slab.take(key).expect("it is live").is(number));
    }
    slab.trim();
    assert_eq!((slab.len(), slab.pages(), count(gone)), (0, 0, made));
}

/// What one of the threads does, and how many values it made. Keys that all may take stand in the
/// lists, each in one; whoever takes a key out of its list may remove it.
fn work<P: Default + Send + Sync>(
    slab: &SharedSlab<Counted<P>>,
    gone: &Arc<AtomicUsize>,
    shared: &[Mutex<Vec<(Key, u64)>>],
    here: usize,
    calls: usize,
) -> usize {
    let mut random = Random(88_172_645_463_325_252 + here as u64);
    let mut guards: Vec<(Entry<'_, Counted<P>>, u64)> = Vec::new();
    let (mut made, mut seen, mut grows) = (0, Vec::new(), true);
    for _ in 0..calls {
        let mut list = shared[random.below(shared.len())].lock().unwrap();
        let place = random.below(list.len().max(1));
        match random.below(8) {
            0..=3 if grows || list.is_empty() => {
                drop(list);
                let number = (here as u64) << 40 | made;
                made += 1;
                let key = slab.insert(Counted::new(number, gone)).unwrap();
                let mut list = shared[here].lock().unwrap();
                list.push((key, number));
                grows = list.len() < 3000;
            }
            0..=3 => {
                let (key, number) = list.swap_remove(place);
                grows = list.len() < 100;
                drop(list);
                if number % 5 == 0 {
                    // Each thread that waits for others has none of its own.
                    let_all_go(&mut guards);
                    assert!(slab
                        .take(key)
                        .expect("this thread alone takes it")
                        .is(number));
                } else {
                    assert!(slab.remove(key) && !slab.remove(key));
                }
                assert!(slab.get(key).is_none());
            }
            4..=5 if !list.is_empty() => {
                let (key, number) = list[place];
                drop(list);
                // It may be removed meanwhile.
                let guard = slab.get(key);
                seen.push(key);
                guards.extend(guard.map(|guard| (guard, number)));
                if guards.len() > 20 {
                    let_all_go(&mut guards);
                }
            }
            _ => {
                drop(list);
                if let Some(key) = seen.pop() {
                    assert!(slab
                        .get(key)
                        .map_or(true, |value| value.text == value.number.to_string()));
                }
            }
        }
        assert!(guards.iter().all(|(value, number)| value.is(*number)));
    }
    made as usize
}

fn let_all_go<P: Default>(guards: &mut Vec<(Entry<'_, Counted<P>>, u64)>) {
    for (guard, number) in guards.drain(..) {
        assert!(guard.is(number));
    }
}

#[test]
fn by_four_threads() {
    by_threads(4, 64, acts(400_000));
}

#[test]
fn by_four_threads_on_one_shard() {
    by_threads(4, 1, acts(400_000));
}

/// Threads that meet at the same few slots.
#[test]
fn by_threads_at_few_values() {
    let slab = &SharedSlab::<Counted<()>>::with_limits(limits(1)).unwrap();
    let gone = &Arc::new(AtomicUsize::new(0));
    let keys: &[Mutex<Option<Key>>] = &(0..4).map(|_| Mutex::new(None)).collect::<Vec<_>>();
    let calls = acts(200_000) / 4;
    let made: usize = thread::scope(|scope| {
        let work = |here: u64| {
            let (mut random, mut made) = (Random(2_463_534_242 + here), 0);
            for call in 0..calls as u64 {
                let mut key = keys[random.below(4)].lock().unwrap();
                match (*key, random.below(6)) {
                    (None, _) => {
                        *key = Some(slab.insert(Counted::new(here << 40 | call, gone)).unwrap());
                        made += 1;
                    }
                    (Some(removed), 0) => {
                        *key = None;
                        drop(key);
                        assert!(slab.remove(removed));
                    }
                    (Some(taken), 1) => {
                        *key = None;
                        drop(key);
                        assert!(slab.take(taken).is_some());
                    }
                    (Some(lent), _) => {
                        drop(key);
                        if let Some(value) = slab.get(lent) {
                            assert!(value.is(value.number));
                        }
                    }
                }
            }
            made
        };
        let workers: Vec<_> = (0..4).map(|here| scope.spawn(move || work(here))).collect();
        workers
            .into_iter()
            .map(|worker| worker.join().unwrap())
            .sum()
    });
    assert_eq!(made, count(gone) + slab.len());
    assert!(slab.len() <= 4);
}

/// So many values on one shard, of which one in so many stays.
fn sparse(values: usize, one_in: usize) -> (SharedSlab<Counted<()>>, Vec<Key>, Arc<AtomicUsize>) {
    let gone = Arc::new(AtomicUsize::new(0));
    let slab = SharedSlab::with_limits(limits(1)).unwrap();
    let insert = |number| slab.insert(Counted::new(number as u64, &gone)).unwrap();
    let keys: Vec<_> = (0..values).map(insert).collect();
    for key in keys
        .iter()
        .enumerate()
        .filter(|(n, _)| n % one_in != 0)
        .map(|(_, key)| key)
    {
        assert!(slab.remove(*key));
    }
    let keys = keys.into_iter().step_by(one_in).collect();
    (slab, keys, gone)
}

/// Whether each key finds its value, of those that one in so many left.
fn all_are_found(slab: &SharedSlab<Counted<()>>, keys: &[Key], one_in: usize) -> bool {
    let is_there = |(place, key): (usize, &Key)| {
        let value = slab.get(*key);
        value.is_some_and(|value| value.is((place * one_in) as u64))
    };
    keys.iter().enumerate().all(is_there)
}

#[test]
fn what_is_lent_does_not_move() {
    let (slab, keys, _) = sparse(50 * 256, 23);
    let guards: Vec<_> = keys
        .iter()
        .step_by(5)
        .map(|key| slab.get(*key).unwrap())
        .collect();
    let at = |guard: &Entry<'_, Counted<()>>| {
        let value: *const Counted<()> = &**guard;
        value as usize
    };
    let before: Vec<_> = guards.iter().map(at).collect();
    assert!(slab.compact().unwrap() > 30); // the core folds all the same
    assert!(all_are_found(&slab, &keys, 23));
    assert!(guards.iter().map(at).eq(before.iter().copied()));
    assert!(slab.value_pages() > slab.pages());
    drop(guards);
    slab.compact().unwrap();
    assert_eq!(slab.value_pages(), slab.pages());
    let now: Vec<_> = keys
        .iter()
        .step_by(5)
        .map(|key| at(&slab.get(*key).unwrap()))
        .collect();
    assert_ne!(now, before); // what stayed behind has moved
    assert!(all_are_found(&slab, &keys, 23) && slab.len() == keys.len());
}

/// A page that stayed behind a fold goes to the page of its group, wherever that is by then.
#[test]
fn what_stayed_behind_follows_its_group() {
    let gone = Arc::new(AtomicUsize::new(0));
    for removed in [1, 2] {
        let slab = SharedSlab::with_limits(limits(1)).unwrap();
        let insert = |number| slab.insert(Counted::<()>::new(number, &gone)).unwrap();
        let keys: Vec<_> = (0..3 * 256).map(insert).collect();
        // Of the first page one value stays, and of each other one two.
        let stays = |number: usize| [0, 258, 259, 516, 517].contains(&number);
        for number in (0..keys.len()).filter(|number| !stays(*number)) {
            assert!(slab.remove(keys[number]));
        }
        let guard = slab.get(keys[0]).unwrap();
        let folds = (0..1000).any(|_| slab.compact_within(1).is_ok() && slab.pages() == 2);
        assert!(folds && slab.value_pages() == 3);
        // Of one of the other pages nothing stays but, maybe, what was folded onto it.
        for number in (256 * removed..256 * (removed + 1)).filter(|number| stays(*number)) {
            assert!(slab.remove(keys[number]));
        }
        slab.compact().unwrap();
        slab.compact().unwrap();
        assert!(slab.pages() == 1 && guard.is(0));
        drop(guard);
        slab.compact().unwrap();
        assert_eq!((slab.value_pages(), slab.pages(), slab.len()), (1, 1, 3));
        let is_there = |number: usize| {
            slab.get(keys[number])
                .is_some_and(|value| value.is(number as u64))
        };
        assert_eq!(
            (0..keys.len()).filter(|number| is_there(*number)).count(),
            3
        );
    }
}

#[test]
fn what_stayed_behind_goes_without_a_move() {
    let (slab, keys, gone) = sparse(50 * 256, 23);
    let guards: Vec<_> = keys.iter().map(|key| slab.get(*key).unwrap()).collect();
    assert!(slab.compact().unwrap() > 30);
    let before = count(&gone);
    for key in &keys {
        assert!(slab.remove(*key));
    }
    assert_eq!((slab.len(), count(&gone)), (0, before));
    slab.compact().unwrap();
    assert!(guards
        .iter()
        .zip(0..)
        .all(|(guard, place)| guard.is(place * 23)));
    drop(guards);
    assert_eq!(count(&gone), 50 * 256);
    slab.trim();
    assert_eq!(slab.pages(), 0);
    let again = slab.insert(Counted::new(1, &gone)).unwrap();
    assert!(slab.get(again).unwrap().is(1) && slab.get(keys[0]).is_none());
}

#[test]
fn a_guard_that_is_forgotten_keeps_its_value() {
    let gone = Arc::new(AtomicUsize::new(0));
    let mut slab = SharedSlab::with_limits(limits(1)).unwrap();
    let [a, b] = [1, 2].map(|number| slab.insert(Counted::<()>::new(number, &gone)).unwrap());
    mem::forget(slab.get(a));
    mem::forget(slab.get(b));
    assert!(slab.remove(a) && slab.get(a).is_none() && !slab.remove(a));
    assert_eq!((count(&gone), slab.len()), (0, 1));
    assert!(slab.unique_iter().map(|(key, _)| key).eq([b]));
    let c = slab.insert(Counted::new(3, &gone)).unwrap();
    assert!(![a.slot(), b.slot()].contains(&c.slot()));
    mem::forget(slab.vacant_entry());
    drop(slab);
    assert_eq!(count(&gone), 3);
}

#[test]
fn a_taker_waits_for_guards() {
    let gone = Arc::new(AtomicUsize::new(0));
    let slab = &SharedSlab::with_limits(limits(1)).unwrap();
    let key = slab.insert(Counted::<()>::new(7, &gone)).unwrap();
    let lets_go = &AtomicBool::new(false);
    let (lends, lent) = channel();
    thread::scope(|scope| {
        scope.spawn(move || {
            let guard = slab.get(key).unwrap();
            lends.send(()).unwrap();
            while slab.get(key).is_some() {
                thread::yield_now(); // until the taker waits
            }
            lets_go.store(true, Ordering::SeqCst);
            assert!(guard.is(7));
        });
        lent.recv().unwrap();
        let value = slab.take(key).unwrap();
        assert!(lets_go.load(Ordering::SeqCst) && value.is(7));
    });
    assert_eq!((count(&gone), slab.len()), (1, 0));
}

#[test]
fn entries_go_to_other_threads() {
    let gone = Arc::new(AtomicUsize::new(0));
    let slab = Arc::new(SharedSlab::new().unwrap());
    let key = slab.insert(Counted::<()>::new(7, &gone)).unwrap();
    let owned = slab.get_owned(key).unwrap();
    assert!(slab.remove(key));
    drop(slab); // the guard has the last share
    assert_eq!((owned.key(), count(&gone)), (key, 0));
    thread::spawn(move || drop(owned)).join().unwrap();
    assert_eq!(count(&gone), 1);
    let slab = &SharedSlab::new().unwrap();
    let entry = slab.vacant_entry().unwrap();
    let key = entry.key();
    thread::scope(|scope| scope.spawn(|| entry.insert(8)).join().unwrap());
    assert_eq!(slab.get(key).unwrap(), 8);
}

/// Two values that panic as they are dropped, and one that does not.
fn three(gone: &Arc<AtomicUsize>) -> (SharedSlab<Panics>, [Key; 3]) {
    let slab = SharedSlab::with_limits(limits(1)).unwrap();
    let insert = |in_drop| slab.insert(Panics::in_drop(in_drop, gone)).unwrap();
    let keys = [true, true, false].map(insert);
    (slab, keys)
}

#[test]
fn panics_in_drops() {
    let gone = Arc::new(AtomicUsize::new(0));
    let (slab, [a, b, c]) = three(&gone);
    assert!(panics(|| assert!(slab.remove(a))));
    assert!((count(&gone), slab.len()) == (1, 2) && slab.get(a).is_none());
    let guard = slab.get(b).unwrap();
    assert!(slab.remove(b));
    assert!(panics(|| drop(guard)));
    assert!((count(&gone), slab.len()) == (2, 1) && slab.get(c).is_some());
    let next = slab.insert(Panics::default()).unwrap();
    assert_eq!((next.slot(), next.generation()), (0, 2)); // each key was freed
    slab.compact().unwrap();
    assert!(slab.remove(c) && slab.remove(next));

    let gone = Arc::new(AtomicUsize::new(0));
    let (slab, [a, _, c]) = three(&gone);
    slab.take(a).unwrap().in_drop = false;
    assert!(count(&gone) == 1 && slab.contains(c) && panics(|| drop(slab)));
    assert_eq!(count(&gone), 3); // all that were left
}

#[test]
fn panics_in_closures() {
    let slab = SharedSlab::<String>::with_limits(limits(1)).unwrap();
    assert!(panics(|| assert!(slab
        .create_with(|_| panic!("as it should"))
        .is_err())));
    assert!(panics(|| assert!(slab
        .insert_with_key(|_| panic!("as it should"))
        .is_err())));
    assert!(slab.is_empty());
    let key = slab.insert_with_key(|key| key.to_string()).unwrap();
    assert_eq!(
        (key.to_string().as_str(), slab.get(key).unwrap().as_str()),
        ("0.0/0/3", "0.0/0/3")
    );
}

#[test]
fn panics_in_a_clear() {
    let gone = Arc::new(AtomicUsize::new(0));
    let slab = SharedSlab::with_limits(limits(1)).unwrap();
    let clears = |in_clear| Panics {
        in_clear,
        in_drop: false,
        dropped: gone.clone(),
    };
    let keys = [true, true, false].map(|in_clear| slab.insert(clears(in_clear)).unwrap());
    assert!(panics(|| assert!(slab.clear(keys[0]))));
    let guard = slab.get(keys[1]).unwrap();
    assert!(slab.clear(keys[1]) && panics(|| drop(guard)));
    assert_eq!((count(&gone), slab.len()), (2, 1)); // these are dropped
    assert!(slab.clear(keys[2]));
    assert_eq!((count(&gone), slab.len()), (2, 0)); // and this one is kept
    slab.create_with(|value| assert!(Arc::ptr_eq(&value.dropped, &gone)))
        .unwrap();
    drop(slab);
    assert_eq!(count(&gone), 3);
}

#[test]
fn values_that_are_cleared_come_again() {
    let slab = SharedSlab::<String>::with_limits(limits(1)).unwrap();
    let key = slab
        .create_with(|text| text.push_str("a line that takes memory"))
        .unwrap();
    let (at, guard) = (slab.get(key).unwrap().as_ptr(), slab.get(key).unwrap());
    assert!(slab.clear(key) && slab.get(key).is_none() && !slab.clear(key));
    assert_eq!(guard.as_str(), "a line that takes memory"); // until its last guard is gone
    drop(guard);
    let again = slab
        .create_with(|text| assert!(text.is_empty() && text.as_ptr() == at))
        .unwrap();
    assert!(again != key && slab.clear(again));
    slab.trim(); // drops it
    let other = slab
        .create_with(|text| assert_eq!(text.capacity(), 0))
        .unwrap();
    assert!(slab.remove(other));
}

/// A value that removes another one as it is dropped.
struct Chained(Arc<SharedSlab<Chained>>, Option<Key>);

impl Drop for Chained {
    fn drop(&mut self) {
        if let Some(key) = self.1 {
            assert!(self.0.remove(key) && self.0.get(key).is_none());
        }
    }
}

#[test]
fn a_drop_calls_the_slab() {
    let slab = Arc::new(SharedSlab::with_limits(limits(1)).unwrap());
    let mut last = None;
    for _ in 0..100 {
        last = Some(slab.insert(Chained(slab.clone(), last)).unwrap());
    }
    let guard = slab.get(last.unwrap()).unwrap();
    assert!(slab.remove(last.unwrap()) && slab.len() == 99);
    drop(guard);
    assert!(slab.is_empty() && Arc::strong_count(&slab) == 1);
}

#[test]
fn values_of_no_bytes() {
    let mut slab = SharedSlab::new().unwrap();
    let keys: Vec<_> = (0..1000).map(|_| slab.insert(()).unwrap()).collect();
    assert!(slab.get(keys[7]).unwrap() == () && slab.unique_iter().count() == 1000);
    assert!(keys
        .iter()
        .all(|key| slab.take(*key) == Some(()) && !slab.contains(*key)));
}

#[test]
fn what_is_refused() {
    let of = |shards, pages| Limits {
        shards,
        pages,
        generations: 1,
        ..Limits::default()
    };
    for wrong in [of(0, 1), of(65, 1), of(1, 0), of(1, (1 << 20) + 1)] {
        assert!(matches!(
            SharedSlab::<u8>::with_limits(wrong),
            Err(Refused::Config)
        ));
    }
    let slab = SharedSlab::with_limits(of(3, 1)).unwrap();
    let keys: Vec<_> = (0..384)
        .map(|n| slab.insert(n.to_string()).unwrap())
        .collect();
    let refused = slab.try_insert("one more".to_string()).unwrap_err();
    assert_eq!(
        (refused.refused, refused.value.as_str()),
        (Refused::PagesSpent, "one more")
    );
    assert!(slab.vacant_entry().is_err() && slab.create_with(|_| unreachable!()).is_err());
    assert!((0..384)
        .zip(&keys)
        .all(|(n, key)| slab.get(*key).unwrap().as_str() == n.to_string()));
    // A key of a shard or a slot that there is not.
    for text in [
        "3.0/0/1",
        "0.9/0/1",
        "0.0/0/2",
        "255.4294967295/255/4294967295",
    ] {
        let key = text.parse().unwrap();
        assert!(
            slab.get(key).is_none()
                && !slab.remove(key)
                && slab.take(key).is_none()
                && !slab.clear(key)
        );
    }
    let large = SharedSlab::with_limits(limits(1)).unwrap();
    let key = large.insert([0_u64; 30]).unwrap();
    assert!(large.get(key).is_some());
    for slot in [64, 65, 255] {
        let key = format!("0.0/{slot}/1").parse().unwrap();
        assert!(large.get(key).is_none() && !large.remove(key) && large.take(key).is_none());
    }
}

/// A value that is lent goes on with a share of its own slab, and with none of another.
#[test]
fn what_is_lent_is_of_one_slab() {
    let slabs = [(); 2].map(|()| Arc::new(SharedSlab::new().unwrap()));
    let key = slabs[0].insert(7).unwrap();
    let owned = slabs[0].get(key).unwrap().into_owned(&slabs[0]);
    assert!(owned.key() == key && owned == 7 && Arc::strong_count(&slabs[0]) == 2);
    drop(owned);
    let guard = slabs[0].get(key).unwrap();
    assert!(panics(|| drop(guard.into_owned(&slabs[1]))));
    assert_eq!(slabs[0].take(key), Some(7)); // it is pinned no more
}

/// What folds brought to other pages is forgotten once its values are gone.
#[test]
fn what_was_folded_is_forgotten() {
    let (slab, keys, gone) = sparse(50 * 256, 23);
    assert!(slab.compact().unwrap() > 30);
    assert_eq!(slab.forget(), 0);
    assert!(keys.iter().all(|key| slab.remove(*key)));
    assert!(slab.forget() > 30 && slab.forget() == 0);
    assert!(keys.iter().all(|key| slab.get(*key).is_none()));
    assert_eq!(count(&gone), 50 * 256);
}

/// A shard of many pages is left for another one, though it has room.
#[test]
fn a_large_home_is_left() {
    let slab = SharedSlab::with_limits(Limits {
        slots: 1,
        pages: 1 << 20,
        ..limits(64)
    });
    let slab = slab.unwrap();
    let shards = |count| -> BTreeSet<u32> {
        (0..count)
            .map(|_| slab.insert(7_u8).unwrap().shard())
            .collect()
    };
    let homes = shards(64);
    assert!((1..=4).contains(&homes.len()));
    let later = shards(4 * 1024);
    assert!(later.is_superset(&homes) && later.len() > homes.len());
}
