//! `calls STORE ROUNDS`: makes calls on a store of 1,000 words of 128 bits, so many rounds. Each
//! kind of call is made by a function of its own, whose instructions callgrind counts. STORE is
//! `core`, `store`, `slab`, `shared`, `seat` (which keeps its shard), `session` or `recorded` (a
//! seat that makes a receipt of each call).

use beside::random::Random;
use std::hint::black_box;
use std::process::ExitCode;
use teurlaks::arena::{Seat, Session};
use teurlaks::{Arena, Core, Key, Limits, Refused, SharedStore, Slab, Store};

const VALUES: usize = 1000;

/// The calls of one kind of store, each in a function that is not inlined.
macro_rules! calls {
    ($name:ident, $store:ty, $insert:expr, $get:expr, $set:expr) => {
        mod $name {
            use super::*;

            #[inline(never)]
            pub fn insert(store: &mut $store, value: u128) -> Result<Key, Refused> {
                $insert(store, value)
            }

            #[inline(never)]
            pub fn get(store: &mut $store, key: Key) -> Option<u128> {
                $get(store, key)
            }

            #[inline(never)]
            pub fn contains(store: &mut $store, key: Key) -> bool {
                store.contains(key)
            }

            #[inline(never)]
            pub fn set(store: &mut $store, key: Key, value: u128) -> bool {
                $set(store, key, value)
            }

            #[inline(never)]
            pub fn free(store: &mut $store, key: Key) -> bool {
                store.free(key)
            }

            /// A round makes each call once, on a key at random.
            pub fn make(store: &mut $store, rounds: usize) -> Result<(), Refused> {
                let mut random = Random::new(7);
                let mut keys: Vec<Key> = Vec::with_capacity(VALUES);
                for value in 0..VALUES {
                    keys.push($insert(store, value as u128)?);
                }
                for round in 0..rounds as u128 {
                    let at = random.below(VALUES);
                    assert!(set(store, keys[at], round) && contains(store, keys[at]));
                    assert_eq!(get(store, keys[at]), Some(round));
                    assert!(free(store, keys[at]));
                    keys[at] = insert(store, round)?;
                }
                black_box(&keys);
                Ok(())
            }
        }
    };
}

/// Freed as a core frees it.
trait Free {
    fn free(&mut self, key: Key) -> bool;
}

impl Free for Slab<u128> {
    #[inline]
    fn free(&mut self, key: Key) -> bool {
        self.remove(key).is_some()
    }
}

fn at_first(core: &mut Core, value: u128) -> Result<Key, Refused> {
    core.insert(0, value)
}

fn copied(slab: &mut Slab<u128>, key: Key) -> Option<u128> {
    slab.get(key).copied()
}

fn changed(slab: &mut Slab<u128>, key: Key, value: u128) -> bool {
    slab.get_mut(key).map(|it| *it = value).is_some()
}

macro_rules! calls_of {
    ($name:ident, $store:ty) => {
        calls!(
            $name,
            $store,
            |store: &mut $store, value| store.insert(value),
            |store: &mut $store, key| store.get(key),
            |store: &mut $store, key, value| store.set(key, value).unwrap_or(false)
        );
    };
}

calls!(
    core,
    Core,
    at_first,
    |core: &mut Core, key| core.get(key),
    |core: &mut Core, key, value| core.set(key, value).unwrap_or(false)
);
calls!(
    slab,
    Slab<u128>,
    |slab: &mut Slab<u128>, value| slab.insert(value),
    copied,
    changed
);
calls_of!(store, Store<u128>);
calls_of!(shared, SharedStore<u128>);
calls_of!(seat, Seat<u128>);
calls_of!(session, Session<'_, u128>);
calls_of!(recorded, Seat<u128>);

fn limits() -> Limits {
    Limits {
        shards: 1,
        ..Limits::default()
    }
}

fn make(store: &str, rounds: usize) -> Result<(), Refused> {
    match store {
        "core" => core::make(&mut Core::new(limits())?, rounds),
        "store" => store::make(&mut Store::with_limits(limits())?, rounds),
        "slab" => slab::make(&mut Slab::with_limits(limits())?, rounds),
        "shared" => shared::make(&mut SharedStore::with_limits(limits())?, rounds),
        "seat" => seat::make(&mut Arena::open(limits())?.seat()?, rounds),
        "session" => session::make(&mut Arena::open(limits())?.seat()?.session(), rounds),
        "recorded" => recorded::make(&mut Arena::open_recorded(limits())?.seat()?, rounds),
        _ => Err(Refused::Config),
    }
}

fn main() -> ExitCode {
    let words: Vec<String> = std::env::args().skip(1).collect();
    let asked = match &words[..] {
        [store, rounds] => rounds.parse().ok().map(|rounds| make(store, rounds)),
        _ => None,
    };
    match asked {
        Some(Ok(())) => ExitCode::SUCCESS,
        Some(Err(refused)) => {
            eprintln!("calls: {refused}");
            ExitCode::FAILURE
        }
        None => {
            eprintln!("usage: calls STORE ROUNDS");
            ExitCode::from(2)
        }
    }
}
