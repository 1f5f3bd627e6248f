//! Threads that look up in one core at once, while none writes.

use std::sync::{Barrier, RwLock};
use std::thread;
use teurlaks::{Compacted, Core, Drain, Group, Key, Limits, Marked, Refused, Slab, Stepped, Store};

const READERS: usize = 4;
const ROUNDS: usize = 200;

/// Calls of each reader begin together.
fn by_readers(read: impl Fn(usize) + Sync) {
    let start = Barrier::new(READERS);
    thread::scope(|scope| {
        for reader in 0..READERS {
            let (read, start) = (&read, &start);
            scope.spawn(move || {
                start.wait();
                for round in 0..ROUNDS {
                    read(reader + round);
                }
            });
        }
    });
}

#[test]
fn a_core_and_a_store_are_shared_to_be_read() {
    fn shared<T: Send + Sync>() {}
    shared::<Core>();
    shared::<Store<u64>>();
    shared::<Slab<String>>();
}

/// The calls that write have the core to themselves: this compiles only if each takes `&mut self`.
#[test]
fn a_write_takes_the_core_alone() {
    let _: fn(&mut Core, u32, u128) -> Result<Key, Refused> = Core::insert;
    let _: fn(&mut Core, u32, &[u128]) -> Result<Key, Refused> = Core::insert_words;
    let _: fn(&mut Core, Key, u128) -> Result<bool, Refused> = Core::set;
    let _: fn(&mut Core, Key, &[u128]) -> Result<bool, Refused> = Core::set_words;
    let _: fn(&mut Core, Key) -> bool = Core::free;
    let _: for<'c> fn(&'c mut Core) -> Drain<'c> = Core::drain;
    let _: fn(&mut Core, u32) -> Result<(), Refused> = Core::end;
    let _: fn(&mut Core, u32) -> Result<(), Refused> = Core::begin;
    let _: fn(&mut Core, u32, usize) -> Result<usize, Refused> = Core::retire;
    let _: fn(&mut Core, u32) -> Result<usize, Refused> = Core::trim;
    let _: fn(&mut Core, u32) -> Result<Group, Refused> = Core::adopt;
    let _: fn(&mut Core) -> Result<Marked, Refused> = Core::mark;
    let _: fn(&mut Core) -> Result<Marked, Refused> = Core::mark_some;
    let _: fn(&mut Core) -> Result<Stepped, Refused> = Core::step;
    let _: fn(&mut Core) -> Result<(), Refused> = Core::close;
    let _: fn(&mut Core) -> Result<usize, Refused> = Core::mesh;
    let _: fn(&mut Core) -> Result<usize, Refused> = Core::compact;
    let _: fn(&mut Core) -> Result<usize, Refused> = Core::forget;
    let _: fn(&mut Core, usize) -> Result<Compacted, Refused> = Core::compact_within;

    let _: fn(&mut Store<u64>, u64) -> Result<Key, Refused> = Store::insert;
    let _: fn(&mut Store<u64>, Key, u64) -> Result<bool, Refused> = Store::set;
    let _: fn(&mut Store<u64>, Key) -> Option<u64> = Store::remove;
    let _: fn(&mut Store<u64>) -> Result<usize, Refused> = Store::compact;
}

/// Readers of a lock look up at once, and between them a writer inserts, removes and folds.
#[test]
fn threads_look_up_between_writes() -> Result<(), Refused> {
    const WRITES: u64 = 40;
    let store = RwLock::new(Store::new()?);
    let keys = RwLock::new(Vec::<(Key, Option<u64>)>::new());
    thread::scope(|scope| {
        for reader in 0..READERS {
            let (store, keys) = (&store, &keys);
            scope.spawn(move || loop {
                let (keys, store) = (keys.read().unwrap(), store.read().unwrap());
                for (key, value) in keys.iter().skip(reader) {
                    assert_eq!(store.get(*key), *value);
                }
                if keys.len() as u64 == WRITES * 1000 {
                    return;
                }
            });
        }
        for write in 0..WRITES {
            let (mut keys, mut store) = (keys.write().unwrap(), store.write().unwrap());
            for value in write * 1000..(write + 1) * 1000 {
                keys.push((store.insert(value).expect("there is room"), Some(value)));
            }
            if write % 8 != 7 {
                continue;
            }
            for (_, (key, value)) in keys.iter_mut().enumerate().filter(|(at, _)| at % 11 != 0) {
                assert_eq!(store.remove(*key), value.take());
            }
            assert!(store.compact().expect("there is memory") > 0);
        }
    });
    Ok(())
}

#[test]
fn threads_look_up_in_one_store() -> Result<(), Refused> {
    let mut store = Store::new()?;
    let keys = (0..3000_u64)
        .map(|value| store.insert(value))
        .collect::<Result<Vec<Key>, Refused>>()?;
    for key in keys.iter().step_by(3) {
        store.remove(*key);
    }
    let expected = |at: usize| (at % 3 != 0).then_some(at as u64);

    by_readers(|turn| {
        for at in (turn % 7..keys.len()).step_by(7) {
            assert_eq!(store.get(keys[at]), expected(at));
            assert_eq!(store.contains(keys[at]), expected(at).is_some());
        }
    });
    by_readers(|turn| {
        if turn % 50 == 0 {
            assert_eq!(store.iter().count(), store.len());
            assert!(store.pages() > 0);
        }
    });
    Ok(())
}

#[test]
fn threads_look_up_what_folds_have_moved() -> Result<(), Refused> {
    let mut core = Core::new(Limits {
        shards: 2,
        pages: 64,
        generations: 9,
        ..Limits::default()
    })?;
    let mut live = Vec::new();
    for word in 0..256 * 16 {
        let key = core.insert(0, word)?;
        if word % 5 == 0 {
            live.push((key, word));
        } else {
            core.free(key);
        }
    }
    for word in 0..256 {
        core.insert(1, word)?;
    }
    core.retire(0, 8)?;
    core.mark()?;
    while !matches!(core.step()?, teurlaks::Stepped::NoPairLeft) {}
    core.close()?;

    by_readers(|turn| {
        for (key, word) in live.iter().skip(turn % 11).step_by(11) {
            assert_eq!(core.get(*key), Some(*word));
            assert_eq!(core.get_words(*key).as_deref(), Some(&[*word][..]));
        }
    });
    by_readers(|turn| {
        if turn % 50 == 0 {
            assert_eq!(core.keys().count(), core.len());
            assert!(core.certificate().is_ok());
        }
    });
    Ok(())
}
