//! Values that move with the folds: beside a map of std on random calls, with drops counted.

mod common;

use common::Random;
use std::cell::Cell;
use std::collections::{HashMap, HashSet};
use std::rc::Rc;
use teurlaks::{Key, Limits, Refused, Slab, Stepped};

/// A number, and as many bytes beside it as are asked for, which tell it. How many such values
/// there are is counted.
struct Value<const BYTES: usize> {
    number: u64,
    bytes: [u8; BYTES],
    live: Rc<Cell<i64>>,
}

impl<const BYTES: usize> Drop for Value<BYTES> {
    fn drop(&mut self) {
        self.live.set(self.live.get() - 1);
    }
}

/// As `Value<0>`, where it may lie at few places.
#[repr(align(128))]
struct Aligned(Value<0>);

trait Made {
    fn made(number: u64, live: &Rc<Cell<i64>>) -> Self;
    fn set(&mut self, number: u64);
    /// The number, where the value is whole.
    fn number(&self) -> u64;
}

impl<const BYTES: usize> Made for Value<BYTES> {
    fn made(number: u64, live: &Rc<Cell<i64>>) -> Self {
        live.set(live.get() + 1);
        let bytes = [number as u8; BYTES];
        let live = live.clone();
        Value {
            number,
            bytes,
            live,
        }
    }

    fn set(&mut self, number: u64) {
        self.number = number;
        self.bytes = [number as u8; BYTES];
    }

    fn number(&self) -> u64 {
        assert!(self.bytes.iter().all(|byte| *byte == self.number as u8));
        self.number
    }
}

impl Made for Aligned {
    fn made(number: u64, live: &Rc<Cell<i64>>) -> Self {
        Aligned(Value::made(number, live))
    }

    fn set(&mut self, number: u64) {
        self.0.set(number);
    }

    fn number(&self) -> u64 {
        assert_eq!(self as *const Self as usize % 128, 0);
        self.0.number()
    }
}

/// A slab, and what it should be.
struct Pair<T> {
    slab: Slab<T>,
    map: HashMap<Key, u64>,
    // Each key that was ever given out, or shown.
    keys: Vec<Key>,
    given: HashSet<Key>,
    live: Rc<Cell<i64>>,
    random: Random,
    running: Vec<u32>,
    is_marked: bool,
    folds: usize,
}

const SHARDS: u32 = 12;

/// The key of a number, or of one that has a generation.
fn made_up(bits: u128) -> Key {
    Key::from_bits(bits)
        .or(Key::from_bits(bits | 1))
        .expect("its generation is not 0")
}

impl<T: Made> Pair<T> {
    fn new(seed: u64) -> Result<Pair<T>, Refused> {
        Ok(Pair {
            slab: Slab::with_limits(Limits {
                shards: SHARDS,
                pages: 12,
                generations: 40,
                slots: 256,
                ..Limits::default()
            })?,
            map: HashMap::new(),
            keys: Vec::new(),
            given: HashSet::new(),
            live: Rc::new(Cell::new(0)),
            random: Random(88172645463325252 + seed * 7919),
            running: (0..SHARDS).collect(),
            is_marked: false,
            folds: 0,
        })
    }

    fn insert(&mut self) {
        let number = self.random.next();
        let value = T::made(number, &self.live);
        let put = match self.random.below(8) {
            0..=2 => self.slab.insert(value),
            3..=5 => {
                let shard = self.running[self.random.below(self.running.len())];
                self.slab.insert_in(shard, value)
            }
            6 => self.slab.insert_with_key(|_| value),
            _ => self.slab.try_insert(value).map_err(|error| {
                assert_eq!(error.value.number(), number);
                error.refused
            }),
        };
        if let Some(key) = self.note(put) {
            self.map.insert(key, number);
        }
    }

    /// Notes a key that was given out or shown, if it was, which is never again.
    fn note(&mut self, put: Result<Key, Refused>) -> Option<Key> {
        match put {
            Ok(key) => {
                assert!(self.given.insert(key), "{key} was given out twice");
                self.keys.push(key);
                Some(key)
            }
            Err(refused) => {
                assert_eq!(refused, Refused::PagesSpent);
                None
            }
        }
    }

    /// Takes an entry, and gives it a value, drops it or forgets it.
    fn vacant_entry(&mut self) {
        let way = self.random.below(3);
        let number = self.random.next();
        let shown = self.slab.vacant_entry().map(|entry| {
            let key = entry.key();
            match way {
                0 => assert_eq!(entry.insert(T::made(number, &self.live)).number(), number),
                1 => drop(entry),
                _ => std::mem::forget(entry),
            }
            key
        });
        if let Some(key) = self.note(shown) {
            assert_eq!(self.slab.contains_key(key), way == 0);
            if way == 0 {
                self.map.insert(key, number);
            }
        }
    }

    /// A key of some time, or one that looks like it.
    fn key(&mut self) -> Key {
        let place = self.random.below(self.keys.len().max(1));
        let key = self.keys.get(place).copied().unwrap_or(made_up(1));
        match self.random.below(12) {
            0 => made_up(key.to_bits() ^ 1 << self.random.below(80)),
            1 => made_up(self.random.bits()),
            _ => key,
        }
    }

    fn remove(&mut self) {
        let key = self.key();
        let value = self.slab.remove(key);
        assert_eq!(value.map(|value| value.number()), self.map.remove(&key));
        assert!(!self.slab.contains(key) && self.slab.remove(key).is_none());
    }

    fn look_up(&mut self) {
        let key = self.key();
        assert_eq!(self.slab.contains(key), self.map.contains_key(&key));
        assert_eq!(
            self.slab.get(key).map(T::number),
            self.map.get(&key).copied()
        );
        if let Some(value) = self.slab.get_mut(key) {
            let number = value.number() + 1;
            value.set(number);
            self.map.insert(key, number);
        }
    }

    /// As many values at once as there are keys, where all are live and no two are the same.
    fn look_up_several(&mut self) {
        let keys = [self.key(), self.key(), self.key()];
        let distinct = keys[0] != keys[1] && keys[0] != keys[2] && keys[1] != keys[2];
        let live = keys.iter().all(|key| self.map.contains_key(key));
        let found = self.slab.get_disjoint_mut(keys);
        assert_eq!(found.is_some(), distinct && live);
        let Some(values) = found else { return };
        for (value, key) in values.into_iter().zip(keys) {
            assert_eq!(self.map.get(&key), Some(&value.number()));
            let number = value.number() ^ 1;
            value.set(number);
            self.map.insert(key, number);
        }
    }

    fn retain(&mut self) {
        let odds = 2 + self.random.next() % 6;
        let (map, mut seen) = (&self.map, 0);
        self.slab.retain(|key, value| {
            assert_eq!(map.get(&key), Some(&value.number()));
            seen += 1;
            value.number() % odds != 0
        });
        assert_eq!(seen, self.map.len());
        self.map.retain(|_, number| *number % odds != 0);
    }

    fn drain(&mut self) {
        let most = self.random.below(2 * self.map.len().max(1));
        let mut drain = self.slab.drain();
        for left in (0..self.map.len()).rev().take(most) {
            let (key, value) = drain.next().expect("as many as were told");
            assert_eq!(self.map.remove(&key), Some(value.number()));
            assert_eq!(drain.len(), left);
        }
        drop(drain);
        self.map.clear();
    }

    /// A call of those that change no value.
    fn mesh(&mut self) -> Result<(), Refused> {
        match self.random.below(9) {
            0 if self.running.len() > 3 => {
                let place = self.random.below(self.running.len());
                match self.slab.end(self.running[place]) {
                    Ok(()) => {
                        self.running.swap_remove(place);
                    }
                    Err(refused) => assert!(self.is_marked && refused == Refused::PlanOpen),
                }
            }
            1 => {
                let shard = self.running[self.random.below(self.running.len())];
                let most = self.random.below(4);
                match self.slab.retire(shard, most) {
                    Ok(count) => assert!(count <= most),
                    Err(refused) => assert!(self.is_marked && refused == Refused::PlanOpen),
                }
            }
            2 => {
                let _ = self.slab.adopt(self.running[0]);
            }
            3 | 4 => {
                assert_eq!(self.slab.mark().is_err(), self.is_marked);
                self.is_marked = true;
            }
            5 if self.is_marked => {
                self.slab.close()?;
                self.is_marked = false;
            }
            6 => {
                let pages = self.slab.pages();
                let went = self.slab.shrink_to_fit();
                assert_eq!(self.slab.pages() + went, pages);
            }
            way => self.fold_all(way == 7),
        }
        Ok(())
    }

    fn fold_all(&mut self, meshes: bool) {
        let pages = self.slab.pages();
        let folded = if meshes {
            self.slab.mesh()
        } else {
            self.slab.compact()
        };
        match folded {
            Ok(regained) => {
                assert_eq!(self.slab.pages() + regained, pages);
                self.folds += regained;
            }
            Err(refused) => assert!(self.is_marked && refused == Refused::PlanOpen),
        }
    }

    fn step(&mut self) -> Result<(), Refused> {
        if self.is_marked {
            if let Stepped::Folded(..) = self.slab.step()? {
                self.folds += 1;
            }
        }
        Ok(())
    }

    fn check(&mut self) {
        let len = self.map.len();
        assert_eq!((self.slab.len(), self.live.get()), (len, len as i64));
        assert_eq!(
            (self.slab.iter().len(), self.slab.iter_mut().len()),
            (len, len)
        );
        assert!(self.slab.iter().count() == len && self.slab.keys().count() == len);
        for (key, value) in &self.slab {
            assert_eq!(self.map.get(&key), Some(&value.number()));
        }
        for value in self.slab.values_mut() {
            let number = value.number();
            value.set(number);
        }
        let (mut iter, mut left) = (self.slab.iter(), len);
        while iter.next().is_some() {
            left -= 1;
            assert_eq!(iter.len(), left);
        }
        assert!(left == 0 && iter.next().is_none());
    }

    /// Makes so many calls. It fills and empties by turns of so many, so that pages come, thin out
    /// and go.
    fn run(mut self, calls: usize, turn: usize) -> Result<usize, Refused> {
        for call in 0..calls {
            let fills = if call % turn < turn / 2 { 10 } else { 2 };
            match self.random.below(16) {
                n if n < fills => self.insert(),
                n if n < 13 => self.remove(),
                13 => self.look_up(),
                14 => match self.random.below(4) {
                    0 => self.vacant_entry(),
                    1 => self.look_up_several(),
                    _ => self.look_up(),
                },
                _ => match self.random.below(60) {
                    0 => self.retain(),
                    1 if self.random.below(5) == 0 => self.drain(),
                    2..=9 => self.mesh()?,
                    10 => self.check(),
                    _ => self.step()?,
                },
            }
        }
        self.check();
        let mut values = self.slab.into_iter();
        for (key, value) in values.by_ref().take(self.map.len() / 2) {
            assert_eq!(self.map.remove(&key), Some(value.number()));
        }
        assert_eq!(values.len(), self.map.len());
        drop(values);
        assert_eq!(self.live.get(), 0);
        Ok(self.folds)
    }
}

/// Slabs of some values, whose first page grows, of one shard or of all, and whose slots may be
/// worn soon.
fn few_as_a_map<T: Made>(seed: u64) -> Result<(), Refused> {
    for turn in 0..20 {
        let mut pair = Pair::<T>::new(20 * seed + turn)?;
        pair.slab = Slab::with_limits(Limits {
            generations: if turn % 3 == 0 { 3 } else { 10_000 },
            ..pair.slab.limits()
        })?;
        if turn % 4 > 0 {
            pair.running.truncate(1);
        }
        pair.run(500, 16 << (turn % 5))?;
    }
    Ok(())
}

/// The number that a variable has, or this one.
fn asked(name: &str, or: u64) -> u64 {
    let told = std::env::var(name).ok();
    told.and_then(|told| told.parse().ok()).unwrap_or(or)
}

/// Two runs of so many calls, or as many runs as `RUNS` says, of as many calls as `CALLS` says.
fn as_a_map<T: Made>(calls: u64) -> Result<(), Refused> {
    let calls = asked("CALLS", calls) as usize;
    for seed in 0..asked("RUNS", 2) {
        let folds = Pair::<T>::new(seed)?.run(calls, 8000)?;
        assert!(folds >= 3, "only {folds} folds");
        few_as_a_map::<T>(seed)?;
    }
    Ok(())
}

#[test]
fn values_of_16_bytes_as_a_map() -> Result<(), Refused> {
    as_a_map::<Value<0>>(50_000)
}

#[test]
fn values_of_64_bytes_as_a_map() -> Result<(), Refused> {
    as_a_map::<Value<48>>(50_000)
}

#[test]
fn values_of_240_bytes_as_a_map() -> Result<(), Refused> {
    as_a_map::<Value<224>>(50_000)
}

#[test]
fn values_in_blocks_of_their_own_as_a_map() -> Result<(), Refused> {
    as_a_map::<Value<5000>>(50_000)?;
    as_a_map::<Aligned>(50_000)
}

#[test]
fn values_that_take_no_bytes() -> Result<(), Refused> {
    #[derive(Debug, PartialEq)]
    #[repr(align(4096))]
    struct Nothing;
    let mut slab = Slab::new()?;
    let keys = (0..300)
        .map(|_| slab.insert(Nothing))
        .collect::<Result<Vec<_>, _>>()?;
    // One value on each of three pages, at slots 0, 1 and 2.
    slab.retain(|key, _| key == keys[0] || key == keys[129] || key == keys[258]);
    assert_eq!((slab.compact()?, slab.pages(), slab.len()), (2, 1, 3));
    assert_eq!(
        (slab.get(keys[129]), slab.get(keys[128])),
        (Some(&Nothing), None)
    );
    assert_eq!(slab.drain().count(), 3);
    Ok(())
}

/// The least of all keys finds nothing where no value was yet or where one is gone; there is none
/// of zeros.
#[test]
fn the_least_key_finds_nothing() -> Result<(), Refused> {
    assert_eq!(
        (Key::from_bits(0), Key::from_bits(u128::MAX << 32)),
        (None, None)
    );
    let least = made_up(1);
    let mut slab = Slab::new()?;
    assert!(slab.get(least).is_none() && slab.remove(least).is_none());
    let first = slab.insert("a")?;
    slab.insert("b")?;
    assert_eq!((least, slab.remove(first)), (first, Some("a")));
    assert!(slab.get(least).is_none() && !slab.contains(least));
    assert!(slab.remove(least).is_none() && slab.len() == 1);
    Ok(())
}

/// An insert that names no shard asks each, and a full one again once it has room.
#[test]
fn an_insert_goes_where_there_is_room() -> Result<(), Refused> {
    let span = |key: Key| key.to_bits() >> 32;
    let mut slab = Slab::with_limits(Limits {
        shards: 3,
        pages: 1,
        slots: 256,
        ..Limits::default()
    })?;
    let keys = (0..384)
        .map(|n| slab.insert(n))
        .collect::<Result<Vec<_>, _>>()?;
    assert_eq!(slab.insert(384), Err(Refused::PagesSpent));
    for key in [keys[150], keys[7]] {
        slab.remove(key);
    }
    assert_eq!(span(slab.insert(7)?), span(keys[7]));
    assert_eq!(span(slab.insert(150)?), span(keys[150]));
    assert_eq!(slab.insert(384), Err(Refused::PagesSpent));
    // A shard that has ended is passed over, and its values stay.
    slab.end(0)?;
    slab.remove(keys[300]);
    assert_eq!(span(slab.insert(300)?), span(keys[300]));
    assert_eq!((slab.len(), slab.get(keys[8])), (384, Some(&8)));
    assert_eq!(slab.insert_in(3, 0), Err(Refused::Config));
    assert_eq!(slab.insert_in(u32::MAX, 0), Err(Refused::Config));
    Ok(())
}

#[test]
fn a_slab_may_go_to_another_thread() {
    let mut slab = Slab::new().expect("there is memory");
    let key = slab.insert(vec![1, 2, 3]).expect("there is room");
    let taken = std::thread::spawn(move || slab.remove(key)).join();
    assert_eq!(taken.expect("no thread panicked"), Some(vec![1, 2, 3]));
}

/// On a page that spans share, a key that was removed does not find the value of another span at
/// its slot, whose key has the same generation.
#[test]
fn a_stale_key_of_a_folded_page() -> Result<(), Refused> {
    let mut slab = Slab::with_limits(Limits {
        shards: 2,
        slots: 256,
        ..Limits::default()
    })?;
    let folded: Vec<_> = (0..20)
        .map(|n| slab.insert_in(0, n))
        .collect::<Result<_, _>>()?;
    let own: Vec<_> = (100..110)
        .map(|n| slab.insert_in(1, n))
        .collect::<Result<_, _>>()?;
    assert!(folded[..10].iter().all(|key| slab.remove(*key).is_some()));
    slab.end(0)?;
    assert_eq!((slab.mesh()?, slab.pages()), (1, 1));
    assert_eq!(slab.remove(folded[10]), Some(10));
    let key = slab.insert_in(1, 200)?;
    assert_eq!(
        (key.slot(), key.generation()),
        (folded[10].slot(), folded[10].generation())
    );
    assert_eq!(slab.get(folded[10]), None);
    assert_eq!(slab.remove(folded[10]), None);
    assert_eq!((slab[key], slab[folded[11]], slab[own[9]]), (200, 11, 109));
    assert_eq!(slab.iter().filter(|(other, _)| *other == key).count(), 1);
    assert_eq!(
        (slab.iter().count(), slab.key_of(&slab[key])),
        (20, Some(key))
    );
    Ok(())
}

/// Slots that a page of few does not have find nothing, whatever bytes stand behind its slots.
#[test]
fn slots_that_no_page_has() -> Result<(), Refused> {
    let mut slab = Slab::new()?;
    let first = slab.insert([0x0000_0001_0000_0001_u64; 30])?;
    let others: Vec<_> = (1..64)
        .map(|_| slab.insert(slab[first]))
        .collect::<Result<_, _>>()?;
    assert_eq!((slab.pages(), others[62].slot()), (1, 63));
    for slot in 64..256 {
        let forged: Key = format!("0.0/{slot}/1").parse().expect("its numbers fit");
        assert!(!slab.contains(forged) && slab.get_mut(forged).is_none());
        assert_eq!(slab.remove(forged), None);
    }
    assert_eq!(slab.len(), 64);
    Ok(())
}
