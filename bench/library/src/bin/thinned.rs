//! `thinned WHO BYTES FREED`: what a store of 1,000,000 values of 16, 48, 64, 96 or 240 bytes keeps
//! resident, in a process of its own. So many of 100 values are freed at random, and the store
//! gives back what it can: by folds, or by `shrink_to_fit`, where it has either.
//!
//! It prints the kilobytes that the system tells (`VmRSS`), beyond what the process took before:
//! full, freed, and given back; and how many pages of Teurlaks there were, and are left. Before
//! each look but that at freed values the allocator is asked to hand back what it keeps free. At
//! the end each value that was kept is found by its key.
//!
//! WHO may be `teurlaks-shared-SLOTS`: a `SharedStore` whose inserts take so many slots of a page.

use beside::random::Random;
use std::hint::black_box;
use std::process::ExitCode;
use teurlaks::{Limits, Refused};

const VALUES: usize = 1_000_000;

/// How many pages a shard has at most.
const PAGES_OF_A_SHARD: usize = 1024;

type Keys<K> = [Option<K>];

/// A store of values of `N` bytes. Each value has a number, which its first bytes are.
trait Values<const N: usize> {
    type Key: Copy;
    fn put(&mut self, number: usize, value: [u8; N]) -> Self::Key;
    fn get(&self, number: usize, key: Self::Key) -> Option<[u8; N]>;
    fn free(&mut self, number: usize, key: Self::Key) -> bool;
    /// Gives back what can be. Where keys change, the new ones are written there.
    fn give_back(&mut self, _keys: &mut Keys<Self::Key>) {}
    fn pages(&self) -> usize {
        0
    }
}

fn value<const N: usize>(number: usize) -> [u8; N] {
    let mut value = [number as u8; N];
    value[..8].copy_from_slice(&number.to_le_bytes());
    value
}

fn number<const N: usize>(value: &[u8; N]) -> usize {
    usize::from_le_bytes(std::array::from_fn(|byte| value[byte]))
}

struct Slab<const N: usize>(teurlaks::Slab<[u8; N]>);

impl<const N: usize> Values<N> for Slab<N> {
    type Key = teurlaks::Key;
    fn put(&mut self, _: usize, value: [u8; N]) -> Self::Key {
        self.0.insert(value).expect("it has room")
    }
    fn get(&self, _: usize, key: Self::Key) -> Option<[u8; N]> {
        self.0.get(key).copied()
    }
    fn free(&mut self, _: usize, key: Self::Key) -> bool {
        self.0.remove(key).is_some()
    }
    fn give_back(&mut self, _: &mut Keys<Self::Key>) {
        self.0.compact().expect("there is memory");
    }
    fn pages(&self) -> usize {
        self.0.pages()
    }
}

/// A store of as few shards as have room, which are filled in turn.
struct Store<const N: usize> {
    store: teurlaks::Store<[u8; N]>,
    shards: u32,
}

impl<const N: usize> Store<N> {
    fn new() -> Result<Store<N>, Refused> {
        let slots = 256 / N.div_ceil(16);
        let shards = VALUES.div_ceil(slots).div_ceil(PAGES_OF_A_SHARD) as u32;
        let limits = Limits {
            shards,
            ..Limits::default()
        };
        Ok(Store {
            store: teurlaks::Store::with_limits(limits)?,
            shards,
        })
    }
}

impl<const N: usize> Values<N> for Store<N> {
    type Key = teurlaks::Key;
    fn put(&mut self, number: usize, value: [u8; N]) -> Self::Key {
        let shard = number as u32 % self.shards;
        self.store.insert_in(shard, value).expect("it has room")
    }
    fn get(&self, _: usize, key: Self::Key) -> Option<[u8; N]> {
        self.store.get(key)
    }
    fn free(&mut self, _: usize, key: Self::Key) -> bool {
        self.store.remove(key).is_some()
    }
    fn give_back(&mut self, _: &mut Keys<Self::Key>) {
        self.store.compact().expect("there is memory");
    }
    fn pages(&self) -> usize {
        self.store.pages()
    }
}

/// A store that threads share, whose inserts take so many slots of a page.
struct Shared<const N: usize>(teurlaks::SharedStore<[u8; N]>);

impl<const N: usize> Shared<N> {
    fn of(slots: &str) -> Option<Shared<N>> {
        let limits = Limits {
            shards: 16,
            slots: slots.parse().ok()?,
            ..Limits::default()
        };
        teurlaks::SharedStore::with_limits(limits).ok().map(Shared)
    }
}

impl<const N: usize> Values<N> for Shared<N> {
    type Key = teurlaks::Key;
    fn put(&mut self, _: usize, value: [u8; N]) -> Self::Key {
        self.0.insert(value).expect("it has room")
    }
    fn get(&self, _: usize, key: Self::Key) -> Option<[u8; N]> {
        self.0.get(key)
    }
    fn free(&mut self, _: usize, key: Self::Key) -> bool {
        self.0.remove(key).is_some()
    }
    fn give_back(&mut self, _: &mut Keys<Self::Key>) {
        self.0.compact().expect("there is memory");
    }
    fn pages(&self) -> usize {
        self.0.pages()
    }
}

/// `REKEYS`: by `Slab::compact`, which moves values and so changes keys, and otherwise by
/// `Slab::shrink_to_fit`, which cuts off a free end.
struct Plain<const N: usize, const REKEYS: bool>(slab::Slab<[u8; N]>);
impl<const N: usize, const REKEYS: bool> Values<N> for Plain<N, REKEYS> {
    type Key = usize;
    fn put(&mut self, _: usize, value: [u8; N]) -> usize {
        self.0.insert(value)
    }
    fn get(&self, _: usize, key: usize) -> Option<[u8; N]> {
        self.0.get(key).copied()
    }
    fn free(&mut self, _: usize, key: usize) -> bool {
        self.0.try_remove(key).is_some()
    }
    fn give_back(&mut self, keys: &mut Keys<usize>) {
        if REKEYS {
            self.0.compact(|value, _, to| {
                keys[number(value)] = Some(to);
                true
            });
        }
        self.0.shrink_to_fit();
    }
}

struct SlotMap<const N: usize>(slotmap::SlotMap<slotmap::DefaultKey, [u8; N]>);
impl<const N: usize> Values<N> for SlotMap<N> {
    type Key = slotmap::DefaultKey;
    fn put(&mut self, _: usize, value: [u8; N]) -> Self::Key {
        self.0.insert(value)
    }
    fn get(&self, _: usize, key: Self::Key) -> Option<[u8; N]> {
        self.0.get(key).copied()
    }
    fn free(&mut self, _: usize, key: Self::Key) -> bool {
        self.0.remove(key).is_some()
    }
}

struct Sharded<const N: usize>(sharded_slab::Slab<[u8; N]>);
impl<const N: usize> Values<N> for Sharded<N> {
    type Key = usize;
    fn put(&mut self, _: usize, value: [u8; N]) -> usize {
        self.0.insert(value).expect("its limit is far above this")
    }
    fn get(&self, _: usize, key: usize) -> Option<[u8; N]> {
        self.0.get(key).map(|entry| *entry)
    }
    fn free(&mut self, _: usize, key: usize) -> bool {
        self.0.remove(key)
    }
}

/// A box each, and the list of them.
struct Boxes<const N: usize>(Vec<Option<Box<[u8; N]>>>);
impl<const N: usize> Values<N> for Boxes<N> {
    type Key = usize;
    fn put(&mut self, _: usize, value: [u8; N]) -> usize {
        self.0.push(Some(Box::new(value)));
        self.0.len() - 1
    }
    fn get(&self, _: usize, key: usize) -> Option<[u8; N]> {
        self.0[key].as_deref().copied()
    }
    fn free(&mut self, _: usize, key: usize) -> bool {
        self.0[key].take().is_some()
    }
    fn give_back(&mut self, _: &mut Keys<usize>) {
        self.0.shrink_to_fit();
    }
}

mod allocator {
    use std::ffi::{c_char, c_int, c_void, CStr};
    use std::mem::transmute;
    use std::ptr::null_mut;

    extern "C" {
        fn dlsym(library: *mut c_void, name: *const c_char) -> *mut c_void;
        fn malloc_trim(pad: usize) -> c_int;
    }

    type Collect = unsafe extern "C" fn(bool);
    type Control =
        unsafe extern "C" fn(*const c_char, *mut c_void, *mut usize, *mut c_void, usize) -> c_int;

    fn text(bytes: &'static [u8]) -> *const c_char {
        CStr::from_bytes_with_nul(bytes)
            .expect("it ends with its only zero")
            .as_ptr()
    }

    /// Asks the allocator that the process was started with to hand what it keeps free to the
    /// system: mimalloc, jemalloc, or else glibc's.
    pub fn give_back() {
        // SAFETY: each function is called as its library declares it, and none touches a block that
        // is in use.
        unsafe {
            let collect = dlsym(null_mut(), text(b"mi_collect\0"));
            let control = dlsym(null_mut(), text(b"mallctl\0"));
            if !collect.is_null() {
                transmute::<*mut c_void, Collect>(collect)(true);
            } else if !control.is_null() {
                let control = transmute::<*mut c_void, Control>(control);
                // Those of all arenas, which have this number.
                for name in [&b"thread.tcache.flush\0"[..], b"arena.4096.purge\0"] {
                    assert_eq!(
                        control(text(name), null_mut(), null_mut(), null_mut(), 0),
                        0
                    );
                }
            } else {
                malloc_trim(0);
            }
        }
    }
}

/// What the system counts as resident, in kilobytes.
fn resident() -> i64 {
    let status = std::fs::read_to_string("/proc/self/status").unwrap_or_default();
    let line = status.lines().find_map(|line| line.strip_prefix("VmRSS:"));
    line.and_then(|line| line.split_whitespace().next()?.parse().ok())
        .expect("the system tells it")
}

fn settled() -> i64 {
    allocator::give_back();
    resident()
}

fn measure<const N: usize, S: Values<N>>(mut store: S, percent: usize) -> String {
    // Each key is touched before, so that they are no part of what is measured.
    let mut keys: Vec<Option<S::Key>> = vec![None; VALUES];
    keys.iter_mut().for_each(|key| *black_box(key) = None);
    let base = settled();
    for (number, key) in keys.iter_mut().enumerate() {
        *key = Some(store.put(number, value(number)));
    }
    let (full, pages) = (settled() - base, store.pages());
    let mut random = Random::new(7);
    for (number, key) in keys.iter_mut().enumerate() {
        if random.below(100) < percent {
            let freed = key.take().is_some_and(|key| store.free(number, key));
            assert!(freed, "a key was not live");
        }
    }
    let freed = resident() - base;
    store.give_back(&mut keys);
    let after = settled() - base;
    for (number, key) in keys.iter().enumerate() {
        if let Some(key) = *key {
            assert!(
                store.get(number, key) == Some(value(number)),
                "a value is lost"
            );
        }
    }
    format!("{full} {freed} {after} {pages} {}", store.pages())
}

fn measure_of<const N: usize>(who: &str, percent: usize) -> Option<String> {
    let why = "the limits are in their range";
    Some(match who {
        "teurlaks-slab" => measure(Slab::<N>(teurlaks::Slab::new().expect(why)), percent),
        "teurlaks-store" => measure(Store::<N>::new().expect(why), percent),
        "slab" => measure(Plain::<N, false>(slab::Slab::new()), percent),
        "slab-compact" => measure(Plain::<N, true>(slab::Slab::new()), percent),
        "slotmap" => measure(SlotMap::<N>(slotmap::SlotMap::new()), percent),
        "sharded-slab" => measure(Sharded::<N>(sharded_slab::Slab::new()), percent),
        "boxes" => measure(Boxes::<N>(Vec::new()), percent),
        _ => {
            let slots = who.strip_prefix("teurlaks-shared-")?;
            measure(Shared::<N>::of(slots)?, percent)
        }
    })
}

fn answer(words: &[String]) -> Option<String> {
    let [who, bytes, percent] = words else {
        return None;
    };
    let percent = percent.parse().ok().filter(|percent| *percent <= 100)?;
    match bytes.as_str() {
        "16" => measure_of::<16>(who, percent),
        "48" => measure_of::<48>(who, percent),
        "64" => measure_of::<64>(who, percent),
        "96" => measure_of::<96>(who, percent),
        "240" => measure_of::<240>(who, percent),
        _ => None,
    }
}

fn main() -> ExitCode {
    let words: Vec<String> = std::env::args().skip(1).collect();
    match answer(&words) {
        Some(line) => {
            println!("{line}");
            ExitCode::SUCCESS
        }
        None => {
            eprintln!("thinned WHO BYTES FREED, of 16, 48, 64, 96 or 240 bytes");
            ExitCode::from(2)
        }
    }
}
