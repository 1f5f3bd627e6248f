//! What the system has again of a store that threads share, as they go on, and what happens where
//! it has none left. It is one test, since the limit is the process's.

mod common;

use common::{kilobytes, with_data_left, with_data_owed};
use std::mem;
use std::sync::atomic::{AtomicBool, Ordering};
use std::thread;
use teurlaks::{Key, Limits, Refused, SharedSlab, SharedStore};

const THREADS: u64 = 4;
const VALUES: u64 = 75_000;

/// Of what four threads have kept one of 20 stays, and most of the memory goes back while they look
/// that up.
fn most_of_it_leaves_the_process() -> Result<(), Refused> {
    let store = SharedStore::new()?;
    // The first key of each thread, and the places of the others.
    let mut keys: Vec<Vec<Key>> =
        vec![vec![store.insert([0; 30])?; VALUES as usize]; THREADS as usize];
    store.clear();
    let base = kilobytes("VmRSS:");
    thread::scope(|scope| {
        for (keys, thread) in keys.iter_mut().zip(0..) {
            let store = &store;
            scope.spawn(move || {
                for (key, number) in keys.iter_mut().zip(thread * VALUES..) {
                    *key = store.insert([number; 30]).expect("there is memory");
                }
            });
        }
    });
    let full = kilobytes("VmRSS:") - base;
    assert!(full > THREADS * VALUES * 240 / 1024, "{full} KB");
    store.retain(|_, value| value[0] * 7919 % 100 < 5);

    let compacting = AtomicBool::new(true);
    let gone = thread::scope(|scope| {
        for (keys, thread) in keys.iter().zip(0..) {
            let (store, compacting) = (&store, &compacting);
            scope.spawn(move || {
                while compacting.load(Ordering::Relaxed) {
                    for (key, number) in keys.iter().zip(thread * VALUES..).step_by(17) {
                        let stays = number * 7919 % 100 < 5;
                        assert_eq!(store.get(*key), stays.then_some([number; 30]));
                    }
                }
            });
        }
        let gone = store.compact();
        compacting.store(false, Ordering::Relaxed);
        gone
    })?;
    let left = kilobytes("VmRSS:") - base;
    assert_eq!(store.len() as u64, THREADS * VALUES / 20);
    assert!(
        left < full / 3,
        "of {full} KB {left} are left, and {gone} pages went"
    );
    Ok(())
}

/// Of a slab's values one of 20 stays, or one page of 20, and then most of the memory goes back.
fn values_of_a_slab_leave_the_process(
    stays: fn(Key) -> bool,
    give_back: fn(&SharedSlab<[u64; 30]>) -> Result<usize, Refused>,
) -> Result<(), Refused> {
    let slab = SharedSlab::new()?;
    let mut keys = vec![slab.insert([0; 30])?; VALUES as usize];
    let base = kilobytes("VmRSS:");
    for (key, number) in keys.iter_mut().zip(0..) {
        *key = slab.insert([number; 30])?;
    }
    let full = kilobytes("VmRSS:") - base;
    assert!(full > VALUES * 240 / 1024, "{full} KB");
    for key in keys.iter().filter(|key| !stays(**key)) {
        assert!(slab.remove(*key));
    }
    let gone = give_back(&slab)?;
    let left = kilobytes("VmRSS:").saturating_sub(base);
    assert!(
        left < full / 2,
        "of {full} KB {left} are left, and {gone} pages went"
    );
    let is_right = |key: Key, number| match slab.get(key) {
        Some(value) => stays(key) && *value == [number; 30],
        None => !stays(key),
    };
    assert!(keys
        .iter()
        .zip(0..)
        .all(|(key, number)| is_right(*key, number)));
    Ok(())
}

/// Each of 64 shards has four pages of values, so few that none goes by itself once it is free: all
/// go with the call.
fn the_last_pages_leave_the_process(
    give_back: fn(&SharedSlab<[u64; 512]>) -> Result<usize, Refused>,
) -> Result<(), Refused> {
    const PAGES: usize = 64 * 4;
    let slab = SharedSlab::with_limits(Limits {
        shards: 64,
        pages: 4,
        ..Limits::default()
    })?;
    let base = kilobytes("VmRSS:");
    let keys: Vec<_> = (0..PAGES as u64 * 16)
        .map(|number| slab.insert([number; 512]))
        .collect::<Result<_, _>>()?;
    assert_eq!((slab.pages(), slab.value_pages()), (PAGES, PAGES));
    let full = kilobytes("VmRSS:") - base;
    assert!(keys.iter().all(|key| slab.remove(*key)));
    assert_eq!(give_back(&slab)?, PAGES);
    let left = kilobytes("VmRSS:").saturating_sub(base);
    assert!(left < full / 2, "of {full} KB {left} are left");
    Ok(())
}

/// Takes all blocks that the allocator gives out.
fn take_all(blocks: &mut Vec<Vec<u8>>) {
    for bytes in [1 << 20, 1 << 16, 1 << 12, 1 << 8, 1 << 4] {
        let mut block = Vec::new();
        while blocks.len() < blocks.capacity() && block.try_reserve_exact(bytes).is_ok() {
            blocks.push(mem::take(&mut block));
        }
    }
}

/// Inserts until memory is refused, and compacts where hardly any is left: each may be tried again,
/// and no value is lost.
fn refused_where_there_is_none() -> Result<(), Refused> {
    let store = SharedStore::new()?;
    let mut keys = Vec::with_capacity(1 << 20);
    let refused = with_data_left(1 << 20, || loop {
        match store.insert([keys.len() as u64; 30]) {
            Ok(key) => keys.push(key),
            Err(refused) => return refused,
        }
    });
    assert_eq!((refused, store.len()), (Refused::OutOfMemory, keys.len()));
    let key = store.insert([1; 30])?;
    assert!(!keys.contains(&key) && store.remove(key) == Some([1; 30]));

    store.retain(|_, [number, ..]| number * 7919 % 100 < 5);
    // What one shard forgets would do for the next one, so nothing is left to the allocator either.
    let mut all = Vec::with_capacity(1 << 20);
    let refused = with_data_owed(16 << 20, || {
        take_all(&mut all);
        store.compact()
    });
    drop(all);
    assert_eq!(refused, Err(Refused::OutOfMemory));
    let found = || {
        keys.iter().zip(0..).all(|(key, number)| {
            let stays = number * 7919 % 100 < 5;
            store.get(*key) == stays.then_some([number; 30])
        })
    };
    assert!(found());
    assert!(store.compact()? > store.pages());
    assert!(found());
    Ok(())
}

#[test]
fn memory_goes_back_and_is_refused() -> Result<(), Refused> {
    most_of_it_leaves_the_process()?;
    values_of_a_slab_leave_the_process(|key| key.serial() % 20 == 3, |slab| Ok(slab.trim()))?;
    values_of_a_slab_leave_the_process(
        |key| (key.serial() * 64 + key.slot()) * 7919 % 100 < 5,
        SharedSlab::compact,
    )?;
    the_last_pages_leave_the_process(|slab| Ok(slab.trim()))?;
    the_last_pages_leave_the_process(SharedSlab::compact)?;
    refused_where_there_is_none()
}
