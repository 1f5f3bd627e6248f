//! `slabs time MIX WHO` and `slabs memory WHO`: stores that do less than Teurlaks, on the same
//! calls.

use beside::class::Class;
use beside::clock;
use beside::core::Core;
use beside::ids::Key;
use beside::mixes::{Mix, Store, MIXES};
use beside::trace::Header;
use std::process::ExitCode;
use std::time::Duration;

impl Store for Slab {
    type Key = usize;
    fn put(&mut self, value: u128) -> usize {
        self.0.insert(value)
    }
    fn get(&mut self, key: usize) -> Option<u128> {
        self.0.get(key).copied()
    }
    fn free(&mut self, key: usize) -> bool {
        self.0.try_remove(key).is_some()
    }
}
struct Slab(slab::Slab<u128>);

struct SlotMap(slotmap::SlotMap<slotmap::DefaultKey, u128>);
impl Store for SlotMap {
    type Key = slotmap::DefaultKey;
    fn put(&mut self, value: u128) -> Self::Key {
        self.0.insert(value)
    }
    fn get(&mut self, key: Self::Key) -> Option<u128> {
        self.0.get(key).copied()
    }
    fn free(&mut self, key: Self::Key) -> bool {
        self.0.remove(key).is_some()
    }
}

struct Sharded(sharded_slab::Slab<u128>);
impl Store for Sharded {
    type Key = usize;
    fn put(&mut self, value: u128) -> usize {
        self.0
            .insert(value)
            .expect("its limit is far above these mixes")
    }
    fn get(&mut self, key: usize) -> Option<u128> {
        self.0.get(key).map(|entry| *entry)
    }
    fn free(&mut self, key: usize) -> bool {
        self.0.remove(key)
    }
}

/// `malloc` and `free` of whatever allocator the process was started with. A stale key would be
/// undefined behaviour here.
struct Malloc;
impl Store for Malloc {
    type Key = *mut u128;
    fn put(&mut self, value: u128) -> *mut u128 {
        Box::into_raw(Box::new(value))
    }
    fn get(&mut self, key: *mut u128) -> Option<u128> {
        // SAFETY: the mixes read only keys that were put and not freed.
        Some(unsafe { *key })
    }
    fn free(&mut self, key: *mut u128) -> bool {
        // SAFETY: the mixes free each key once.
        drop(unsafe { Box::from_raw(key) });
        true
    }
}

/// The plain program's store, in one shard of as many pages as a shard may have.
struct Plain<const LOG: bool>(Core<LOG>);
impl<const LOG: bool> Store for Plain<LOG> {
    type Key = Key;
    fn put(&mut self, value: u128) -> Key {
        self.0
            .put(0, Class::C16, value)
            .expect("the mixes fit a shard")
    }
    fn get(&mut self, key: Key) -> Option<u128> {
        self.0.get(key).map(|words| words[0])
    }
    fn free(&mut self, key: Key) -> bool {
        self.0.free(key)
    }
}

fn plain<const LOG: bool>() -> Plain<LOG> {
    Plain(Core::new(Header {
        shards: 1,
        pages: 1024,
        ring: 1,
        gens: u32::MAX,
    }))
}

/// The least of several runs, each with a store of its own.
fn time<S: Store>(mix: &Mix, new: impl Fn() -> S) -> Duration {
    let run = |_| {
        let mut store = new();
        let keys = mix.prepare(&mut store);
        let start = clock::used();
        std::hint::black_box(mix.run(&mut store, keys));
        clock::used() - start
    };
    (0..5).map(run).min().unwrap_or_default()
}

fn most_resident() -> u64 {
    let status = std::fs::read_to_string("/proc/self/status").unwrap_or_default();
    let line = status.lines().find_map(|line| line.strip_prefix("VmHWM:"));
    line.and_then(|line| line.split_whitespace().next()?.parse().ok())
        .unwrap_or(0)
}

/// Bytes a live value after a fill, and bytes a change after as many frees and puts again, without
/// the keys.
fn memory<S: Store>(mut store: S) -> (f64, f64) {
    let count = 262_144;
    let mut keys = Vec::with_capacity(count);
    // The list of keys is touched before, so that it is no part of the difference.
    keys.extend(std::iter::repeat_with(|| store.put(0)).take(1));
    keys.resize(count, keys[0]);
    let before = most_resident();
    keys.iter_mut().skip(1).for_each(|key| *key = store.put(1));
    let full = most_resident();
    let rounds = 8;
    for _ in 0..rounds {
        for key in &mut keys {
            store.free(*key);
            *key = store.put(2);
        }
    }
    std::hint::black_box(&keys);
    let each = |from: u64, to: u64, count: usize| (to - from) as f64 * 1024.0 / count as f64;
    (
        each(before, full, count),
        each(full, most_resident(), rounds * count * 2),
    )
}

fn time_of(mix: &Mix, who: &str) -> Option<Duration> {
    Some(match who {
        "slab" => time(mix, || Slab(slab::Slab::new())),
        "slotmap" => time(mix, || SlotMap(slotmap::SlotMap::new())),
        "sharded-slab" => time(mix, || Sharded(sharded_slab::Slab::new())),
        "malloc" => time(mix, || Malloc),
        "plain-no-log" => time(mix, plain::<false>),
        "plain" => time(mix, plain::<true>),
        _ => return None,
    })
}

fn memory_of(who: &str) -> Option<(f64, f64)> {
    Some(match who {
        "slab" => memory(Slab(slab::Slab::new())),
        "slotmap" => memory(SlotMap(slotmap::SlotMap::new())),
        "sharded-slab" => memory(Sharded(sharded_slab::Slab::new())),
        "malloc" => memory(Malloc),
        "plain-no-log" => memory(plain::<false>()),
        "plain" => memory(plain::<true>()),
        _ => return None,
    })
}

fn answer(words: &[&str]) -> Option<String> {
    match words {
        ["time", mix, who] => {
            let mix = MIXES.iter().find(|known| known.name == *mix)?;
            let nanos = time_of(mix, who)?.as_nanos() as f64 / mix.calls as f64;
            Some(format!("{nanos:.3}"))
        }
        ["memory", who] => {
            let (value, change) = memory_of(who)?;
            Some(format!("{value:.1} {change:.1}"))
        }
        _ => None,
    }
}

fn main() -> ExitCode {
    let words: Vec<String> = std::env::args().skip(1).collect();
    let words: Vec<&str> = words.iter().map(String::as_str).collect();
    match answer(&words) {
        Some(line) => {
            println!("{line}");
            ExitCode::SUCCESS
        }
        None => {
            eprintln!("slabs time MIX WHO | slabs memory WHO");
            ExitCode::from(2)
        }
    }
}
