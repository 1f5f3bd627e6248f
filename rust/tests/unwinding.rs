//! Panics in whatever a slab runs of its user's, at random: it holds exactly the values that live,
//! each under the key that it was given.

mod common;

use common::Random;
use std::cell::{Cell, RefCell};
use std::collections::{HashMap, HashSet};
use std::panic::{catch_unwind, AssertUnwindSafe};
use std::rc::Rc;
use std::thread;
use teurlaks::{Key, Limits, Refused, Slab};

/// What all values of a run share.
#[derive(Default)]
struct World {
    live: RefCell<HashSet<u64>>,
    // How many calls of the user's are left until one panics.
    fuse: Cell<u64>,
    panics: Cell<usize>,
}

impl World {
    /// Where the user's code may panic.
    fn burn(&self) {
        self.fuse.set(self.fuse.get().saturating_sub(1));
        if self.fuse.get() == 1 && !thread::panicking() {
            self.panics.set(self.panics.get() + 1);
            std::panic::resume_unwind(Box::new("as it should"));
        }
    }
}

struct Value<const BYTES: usize> {
    number: u64,
    bytes: [u8; BYTES],
    world: Rc<World>,
}

impl<const BYTES: usize> Value<BYTES> {
    fn new(number: u64, world: &Rc<World>) -> Self {
        world.burn();
        assert!(world.live.borrow_mut().insert(number));
        Value {
            number,
            bytes: [number as u8; BYTES],
            world: Rc::clone(world),
        }
    }

    fn number(&self) -> u64 {
        assert!(self.bytes.iter().all(|byte| *byte == self.number as u8));
        self.number
    }
}

impl<const BYTES: usize> Drop for Value<BYTES> {
    fn drop(&mut self) {
        assert!(self.world.live.borrow_mut().remove(&self.number));
        self.world.burn();
    }
}

struct Run<const BYTES: usize> {
    slab: Slab<Value<BYTES>>,
    world: Rc<World>,
    // The number of each value that a key was ever found to have.
    names: HashMap<Key, u64>,
    keys: Vec<Key>,
    random: Random,
}

impl<const BYTES: usize> Run<BYTES> {
    fn new(seed: u64) -> Result<Self, Refused> {
        Ok(Run {
            slab: Slab::with_limits(Limits {
                shards: 5,
                ..Limits::default()
            })?,
            world: Rc::default(),
            names: HashMap::new(),
            keys: Vec::new(),
            random: Random(88172645463325252 + seed * 7919),
        })
    }

    /// One call, in which something of the user's may panic.
    fn call(&mut self) {
        let Run {
            slab,
            world,
            random,
            ..
        } = self;
        let number = random.next();
        let key = self.keys.get(random.below(self.keys.len().max(1))).copied();
        match (random.below(24), key) {
            (0..=5, _) | (_, None) => drop(slab.insert(Value::new(number, world))),
            (6..=7, _) => drop(slab.insert_with_key(|_| Value::new(number, world))),
            (8, _) => {
                if let Ok(entry) = slab.vacant_entry() {
                    entry.insert(Value::new(number, world));
                }
            }
            (9..=10, _) => {
                let values = (0..random.below(20) as u64).map(|n| Value::new(number ^ n, world));
                drop(slab.try_extend(values));
            }
            (11..=18, Some(key)) => drop(slab.remove(key)),
            (19, Some(key)) => {
                if let Some(value) = slab.get_mut(key) {
                    *value = Value::new(number, world);
                    self.names.insert(key, number);
                }
            }
            (20, _) => slab.retain(|_, value| {
                world.burn();
                value.number() % 3 != 0
            }),
            (21, _) => drop(
                slab.drain()
                    .take(random.below(40))
                    .map(|_| world.burn())
                    .count(),
            ),
            (22, _) if number % 4 == 0 => slab.clear(),
            _ => drop(slab.compact()),
        }
    }

    /// The slab has the values that live, under the keys that they were given.
    fn check(&mut self) {
        let live = self.world.live.borrow();
        assert_eq!(
            (self.slab.len(), self.slab.iter().len()),
            (live.len(), live.len())
        );
        let mut found = HashSet::new();
        for (key, value) in &self.slab {
            assert!(found.insert(value.number()) && live.contains(&value.number()));
            if self.names.insert(key, value.number()).is_none() {
                self.keys.push(key);
            }
            assert_eq!(
                self.slab.get(key).map(|value| value.number),
                Some(value.number)
            );
        }
        assert_eq!(found.len(), live.len());
    }

    /// What each key finds is what it was found to have, or nothing for ever.
    fn check_names(&self) {
        let live = self.world.live.borrow();
        for (key, number) in &self.names {
            let wanted = live.contains(number).then_some(*number);
            assert_eq!(
                self.slab.get(*key).map(|value| value.number),
                wanted,
                "{key}"
            );
        }
    }

    fn run(mut self, calls: usize) -> usize {
        for call in 0..calls {
            self.world.fuse.set(2 + self.random.next() % 40);
            let outcome = catch_unwind(AssertUnwindSafe(|| self.call()));
            assert!(outcome.is_ok() || self.world.fuse.get() <= 1);
            self.world.fuse.set(u64::MAX);
            if outcome.is_err() || call % 20 == 19 {
                self.check();
            }
            if call % 100 == 99 {
                self.check_names();
            }
        }
        let Run { slab, world, .. } = self;
        world.fuse.set(2 + slab.len() as u64 / 2);
        // Where the slab is taken apart, each value goes, whichever panics.
        let outcome = catch_unwind(AssertUnwindSafe(|| slab.into_iter().take(10).count()));
        assert_eq!(outcome.is_err(), world.fuse.get() <= 1);
        assert!(world.live.borrow().is_empty());
        world.panics.get()
    }
}

/// Three runs of so many calls, or as many runs as `RUNS` says.
fn as_it_should<const BYTES: usize>(calls: usize) -> Result<(), Refused> {
    let runs = std::env::var("RUNS")
        .ok()
        .and_then(|runs| runs.parse().ok())
        .unwrap_or(3);
    for seed in 0..runs {
        let panics = Run::<BYTES>::new(seed)?.run(calls);
        assert!(panics > calls / 20, "only {panics} panics");
    }
    Ok(())
}

#[test]
fn in_pages_of_256() -> Result<(), Refused> {
    as_it_should::<8>(1500)
}

#[test]
fn in_pages_of_64() -> Result<(), Refused> {
    as_it_should::<200>(1500)
}

#[test]
fn in_blocks_of_their_own() -> Result<(), Refused> {
    as_it_should::<5000>(800)
}
