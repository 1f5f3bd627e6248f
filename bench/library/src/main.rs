//! `library WHO KIND LIVE CALLS [BYTES]`: nanoseconds a call of one store, in a process of its own;
//! `library WHO memory LIVE 0`: resident bytes a live value. A value is a word of 128 bits, or has
//! 16, 64 or 240 bytes where that is said.

mod reference;
mod wide;

use beside::clock;
use beside::mixes::Store;
use beside::random::Random;
use reference::Reference;
use std::hint::black_box;
use std::process::ExitCode;

struct Teurlaks(teurlaks::Core);
impl Store for Teurlaks {
    type Key = teurlaks::Key;
    fn put(&mut self, value: u128) -> Self::Key {
        self.0.insert(0, value).expect("it fits a shard")
    }
    fn get(&mut self, key: Self::Key) -> Option<u128> {
        self.0.get(key)
    }
    fn free(&mut self, key: Self::Key) -> bool {
        self.0.free(key)
    }
}

struct Owner(teurlaks::Slab<u128>);
impl Store for Owner {
    type Key = teurlaks::Key;
    fn put(&mut self, value: u128) -> Self::Key {
        self.0.insert(value).expect("it fits a shard")
    }
    fn get(&mut self, key: Self::Key) -> Option<u128> {
        self.0.get(key).copied()
    }
    fn free(&mut self, key: Self::Key) -> bool {
        self.0.remove(key).is_some()
    }
}

struct Slab(slab::Slab<u128>);
impl Store for Slab {
    type Key = usize;
    fn put(&mut self, value: u128) -> usize {
        self.0.insert(value)
    }
    fn get(&mut self, key: usize) -> Option<u128> {
        self.0.get(key).copied()
    }
    fn free(&mut self, key: usize) -> bool {
        self.0.try_remove(key).is_some()
    }
}

struct SlotMap(slotmap::SlotMap<slotmap::DefaultKey, u128>);
impl Store for SlotMap {
    type Key = slotmap::DefaultKey;
    fn put(&mut self, value: u128) -> Self::Key {
        self.0.insert(value)
    }
    fn get(&mut self, key: Self::Key) -> Option<u128> {
        self.0.get(key).copied()
    }
    fn free(&mut self, key: Self::Key) -> bool {
        self.0.remove(key).is_some()
    }
}

impl Store for Reference {
    type Key = reference::Key;
    fn put(&mut self, value: u128) -> Self::Key {
        self.put(value)
    }
    fn get(&mut self, key: Self::Key) -> Option<u128> {
        Reference::get(self, key)
    }
    fn free(&mut self, key: Self::Key) -> bool {
        self.free(key)
    }
}

struct Sharded(sharded_slab::Slab<u128>);
impl Store for Sharded {
    type Key = usize;
    fn put(&mut self, value: u128) -> usize {
        self.0.insert(value).expect("its limit is far above this")
    }
    fn get(&mut self, key: usize) -> Option<u128> {
        self.0.get(key).map(|entry| *entry)
    }
    fn free(&mut self, key: usize) -> bool {
        self.0.remove(key)
    }
}

/// Nanoseconds a call: of a free and a put of a random value, or of a look-up of one.
fn time<S: Store>(mut store: S, puts: bool, live: usize, calls: usize) -> f64 {
    let mut random = Random::new(7);
    let mut keys = store.fill(live);
    let mut sum = 0u128;
    let start = clock::used();
    for call in 0..calls {
        let key = &mut keys[random.below(live)];
        if puts {
            sum += u128::from(store.free(*key));
            *key = store.put(call as u128);
        } else {
            sum += store.get(*key).unwrap_or(0);
        }
    }
    let taken = clock::used() - start;
    black_box((sum, keys));
    taken.as_nanos() as f64 / calls as f64
}

/// What is resident, in bytes.
fn resident() -> f64 {
    let pages = std::fs::read_to_string("/proc/self/statm").unwrap_or_default();
    let pages = pages
        .split_whitespace()
        .nth(1)
        .and_then(|pages| pages.parse::<f64>().ok());
    4096.0 * pages.unwrap_or(0.0)
}

/// Resident bytes a live value, without its key.
fn memory<S: Store>(mut store: S, live: usize) -> f64 {
    let first = store.put(0);
    let mut keys = vec![first; live];
    // Where the first key is 0, the system has given the list no memory yet.
    keys.iter_mut().for_each(|key| *black_box(key) = first);
    let before = resident();
    keys.iter_mut().skip(1).for_each(|key| *key = store.put(1));
    let taken = resident() - before;
    black_box(keys);
    taken / live as f64
}

fn measure<S: Store>(store: S, kind: &str, live: usize, calls: usize) -> Option<f64> {
    match kind {
        "put+free" => Some(time(store, true, live, calls)),
        "get" => Some(time(store, false, live, calls)),
        "memory" => Some(memory(store, live)),
        _ => None,
    }
}

fn of(who: &str, kind: &str, live: usize, calls: usize) -> Option<f64> {
    match who {
        "teurlaks" => {
            let core = teurlaks::Core::new(teurlaks::Limits::default()).ok()?;
            measure(Teurlaks(core), kind, live, calls)
        }
        "teurlaks-slab" => measure(Owner(teurlaks::Slab::new().ok()?), kind, live, calls),
        "reference" => measure(Reference::new(), kind, live, calls),
        "slab" => measure(Slab(slab::Slab::new()), kind, live, calls),
        "slotmap" => measure(SlotMap(slotmap::SlotMap::new()), kind, live, calls),
        "sharded-slab" => measure(Sharded(sharded_slab::Slab::new()), kind, live, calls),
        _ => None,
    }
}

/// The same with values of that many bytes.
fn of_wide(who: &str, kind: &str, live: usize, calls: usize, bytes: usize) -> Option<f64> {
    match bytes {
        16 => wide::of::<16>(who, kind, live, calls),
        64 => wide::of::<64>(who, kind, live, calls),
        240 => wide::of::<240>(who, kind, live, calls),
        _ => None,
    }
}

fn asked(words: &[String]) -> Option<f64> {
    let (calls, bytes) = match words {
        [_, _, _, calls] => (calls, None),
        [_, _, _, calls, bytes] => (calls, Some(bytes.parse().ok()?)),
        _ => return None,
    };
    let (who, kind, live, calls) = (
        &words[0],
        &words[1],
        words[2].parse().ok()?,
        calls.parse().ok()?,
    );
    match bytes {
        Some(bytes) => of_wide(who, kind, live, calls, bytes),
        None => of(who, kind, live, calls),
    }
}

fn main() -> ExitCode {
    let words: Vec<String> = std::env::args().skip(1).collect();
    match asked(&words) {
        Some(measured) => {
            println!("{measured:.1}");
            ExitCode::SUCCESS
        }
        None => {
            eprintln!("library WHO KIND LIVE CALLS [BYTES]");
            ExitCode::FAILURE
        }
    }
}
