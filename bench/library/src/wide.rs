//! Values of many bytes, in stores beside each other. Each has all of a value written by a put, and
//! two bytes of it read by a look-up.

use beside::clock;
use beside::random::Random;
use std::hint::black_box;

/// As many shards as 100,000 values of 256 bytes need, and some room.
const SHARDS: u32 = 8;

/// A store of values of `N` bytes.
pub trait Values<const N: usize> {
    type Key: Copy;
    /// Keeps a value, which is one of the part of all values that has this number, 0 to 7.
    fn put(&mut self, part: u32, value: [u8; N]) -> Self::Key;
    /// The sum of its first and its last byte.
    fn get(&self, key: Self::Key) -> Option<u64>;
    fn free(&mut self, key: Self::Key) -> bool;
}

fn ends<const N: usize>(value: &[u8; N]) -> u64 {
    u64::from(value[0]) + u64::from(value[N - 1])
}

fn limits() -> teurlaks::Limits {
    teurlaks::Limits {
        shards: SHARDS,
        ..teurlaks::Limits::default()
    }
}

struct Pages<const N: usize>(teurlaks::Store<[u8; N]>);
impl<const N: usize> Values<N> for Pages<N> {
    type Key = teurlaks::Key;
    fn put(&mut self, part: u32, value: [u8; N]) -> Self::Key {
        self.0.insert_in(part, value).expect("it fits a shard")
    }
    fn get(&self, key: Self::Key) -> Option<u64> {
        self.0.get(key).map(|value| ends(&value))
    }
    fn free(&mut self, key: Self::Key) -> bool {
        self.0.remove(key).is_some()
    }
}

struct Owner<const N: usize>(teurlaks::Slab<[u8; N]>);
impl<const N: usize> Values<N> for Owner<N> {
    type Key = teurlaks::Key;
    fn put(&mut self, part: u32, value: [u8; N]) -> Self::Key {
        self.0.insert_in(part, value).expect("it fits a shard")
    }
    fn get(&self, key: Self::Key) -> Option<u64> {
        self.0.get(key).map(ends)
    }
    fn free(&mut self, key: Self::Key) -> bool {
        self.0.remove(key).is_some()
    }
}

struct Slab<const N: usize>(slab::Slab<[u8; N]>);
impl<const N: usize> Values<N> for Slab<N> {
    type Key = usize;
    fn put(&mut self, _: u32, value: [u8; N]) -> usize {
        self.0.insert(value)
    }
    fn get(&self, key: usize) -> Option<u64> {
        self.0.get(key).map(ends)
    }
    fn free(&mut self, key: usize) -> bool {
        self.0.try_remove(key).is_some()
    }
}

struct Sharded<const N: usize>(sharded_slab::Slab<[u8; N]>);
impl<const N: usize> Values<N> for Sharded<N> {
    type Key = usize;
    fn put(&mut self, _: u32, value: [u8; N]) -> usize {
        self.0.insert(value).expect("its limit is far above this")
    }
    fn get(&self, key: usize) -> Option<u64> {
        self.0.get(key).map(|entry| ends(&entry))
    }
    fn free(&mut self, key: usize) -> bool {
        self.0.remove(key)
    }
}

/// A box each, under the index of its place.
struct Boxes<const N: usize> {
    places: Vec<Option<Box<[u8; N]>>>,
    free: Vec<usize>,
}
impl<const N: usize> Values<N> for Boxes<N> {
    type Key = usize;
    fn put(&mut self, _: u32, value: [u8; N]) -> usize {
        let value = Some(Box::new(value));
        if let Some(place) = self.free.pop() {
            self.places[place] = value;
            return place;
        }
        self.places.push(value);
        self.places.len() - 1
    }
    fn get(&self, key: usize) -> Option<u64> {
        self.places[key].as_deref().map(ends)
    }
    fn free(&mut self, key: usize) -> bool {
        self.free.push(key);
        self.places[key].take().is_some()
    }
}

/// So many values, a part of them in each shard.
fn fill<const N: usize, S: Values<N>>(store: &mut S, live: usize) -> Vec<S::Key> {
    (0..live)
        .map(|at| store.put(part(at, live), [at as u8; N]))
        .collect()
}

fn part(at: usize, live: usize) -> u32 {
    (at * SHARDS as usize / live) as u32
}

/// Nanoseconds a call: of a free and a put of a random value, or of a look-up of one.
fn time<const N: usize, S: Values<N>>(mut store: S, puts: bool, live: usize, calls: usize) -> f64 {
    let mut random = Random::new(7);
    let mut keys = fill(&mut store, live);
    let mut sum = 0u64;
    let start = clock::used();
    for call in 0..calls {
        let at = random.below(live);
        if puts {
            sum += u64::from(store.free(keys[at]));
            keys[at] = store.put(part(at, live), [call as u8; N]);
        } else {
            sum += store.get(keys[at]).unwrap_or(0);
        }
    }
    let taken = clock::used() - start;
    black_box((sum, keys));
    taken.as_nanos() as f64 / calls as f64
}

/// Resident bytes a live value, without its key.
fn memory<const N: usize, S: Values<N>>(mut store: S, live: usize) -> f64 {
    let first = store.put(0, [1; N]);
    let mut keys = vec![first; live];
    // Where the first key is 0, the system has given the list no memory yet.
    keys.iter_mut().for_each(|key| *black_box(key) = first);
    let before = crate::resident();
    for (at, key) in keys.iter_mut().enumerate().skip(1) {
        *key = store.put(part(at, live), [1; N]);
    }
    let taken = crate::resident() - before;
    black_box(keys);
    taken / live as f64
}

fn measure<const N: usize, S: Values<N>>(
    store: S,
    kind: &str,
    live: usize,
    calls: usize,
) -> Option<f64> {
    match kind {
        "put+free" => Some(time(store, true, live, calls)),
        "get" => Some(time(store, false, live, calls)),
        "memory" => Some(memory(store, live)),
        _ => None,
    }
}

/// What the store of that name costs with values of `N` bytes.
pub fn of<const N: usize>(who: &str, kind: &str, live: usize, calls: usize) -> Option<f64> {
    match who {
        "teurlaks-store" => measure::<N, _>(
            Pages(teurlaks::Store::with_limits(limits()).ok()?),
            kind,
            live,
            calls,
        ),
        "teurlaks-slab" => measure::<N, _>(
            Owner(teurlaks::Slab::with_limits(limits()).ok()?),
            kind,
            live,
            calls,
        ),
        "slab" => measure::<N, _>(Slab(slab::Slab::new()), kind, live, calls),
        "sharded-slab" => measure::<N, _>(Sharded(sharded_slab::Slab::new()), kind, live, calls),
        "boxes" => {
            let boxes = Boxes {
                places: Vec::new(),
                free: Vec::new(),
            };
            measure::<N, _>(boxes, kind, live, calls)
        }
        _ => None,
    }
}
