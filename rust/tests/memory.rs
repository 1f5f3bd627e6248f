//! What the system has again after a compaction and after trims, and what happens where it has none
//! left. It is one test, since the limit is the process's.

mod common;

use common::{kilobytes, with_bytes_left};
use teurlaks::{Core, Key, Limits, Refused, Slab, Stepped, Store};

type Fold = fn(&mut Slab<[u64; 30]>) -> Result<(), Refused>;

/// Of so many values five of 100 stay, and then pages fold.
fn most_of_it_leaves_the_process(values: usize, fold: Fold) -> Result<(), Refused> {
    let mut keys = vec![Key::from_bits(1).expect("its generation is 1"); values];
    let base = kilobytes("VmRSS:");
    let mut slab = Slab::new()?;
    for (number, key) in keys.iter_mut().enumerate() {
        *key = slab.insert([number as u64; 30])?;
    }
    let full = kilobytes("VmRSS:") - base;
    slab.retain(|_, value| value[0] * 7919 % 100 < 5);
    fold(&mut slab)?;
    let left = kilobytes("VmRSS:") - base;
    assert_eq!(slab.len(), values / 20);
    assert!(full > values as u64 * 240 / 1024, "{full} KB");
    // The pool, which comes with the first retirement, takes some of it.
    assert!(left < full / 2, "of {full} KB {left} are left");
    Ok(())
}

/// What a million values of 48 bytes take when full, and what they leave when nine of ten are
/// freed.
fn values_of_48_bytes_take_little_more() -> Result<(), Refused> {
    const VALUES: usize = 1_000_000;
    let mut keys = vec![Key::from_bits(1).expect("its generation is 1"); VALUES];
    let base = kilobytes("VmRSS:");
    let mut store = Store::new()?;
    for (number, key) in keys.iter_mut().enumerate() {
        *key = store.insert([number as u64; 6])?;
    }
    let full = kilobytes("VmRSS:") - base;
    // 85 share a page, and each of some shards has one that is not full.
    let pages = (VALUES + 84) / 85;
    assert!((pages..pages + 16).contains(&store.pages()));
    assert!((46_875..51_000).contains(&full), "{full} KB");
    store.retain(|_, value| value[0] * 7919 % 100 < 10);
    store.compact()?;
    let left = kilobytes("VmRSS:") - base;
    assert!(left < full / 2, "of {full} KB {left} are left");
    let stays = |number: &usize| number * 7919 % 100 < 10;
    assert!((0..VALUES)
        .filter(stays)
        .all(|number| store.get(keys[number]) == Some([number as u64; 6])));
    assert_eq!(store.len(), VALUES / 10);
    Ok(())
}

/// Each of some slabs has three pages of values, so few that none goes by itself once it is free:
/// all go with the call.
fn the_last_pages_leave_the_process(
    give_back: fn(&mut Slab<[u64; 512]>) -> Result<usize, Refused>,
) -> Result<(), Refused> {
    let base = kilobytes("VmRSS:");
    let mut slabs = (0..64)
        .map(|_| Slab::try_from_iter((0..48).map(|number| [number; 512])))
        .collect::<Result<Vec<_>, _>>()?;
    let full = kilobytes("VmRSS:") - base;
    for slab in &mut slabs {
        slab.clear();
        assert_eq!((give_back(slab)?, slab.pages()), (3, 0));
    }
    let left = kilobytes("VmRSS:").saturating_sub(base);
    assert!(left < full / 2, "of {full} KB {left} are left");
    Ok(())
}

fn by_steps(slab: &mut Slab<[u64; 30]>) -> Result<(), Refused> {
    for _ in 0..2 {
        for shard in 0..5 {
            slab.retire(shard, slab.pages() / 10)?;
        }
        slab.mark()?;
        while slab.step()? != Stepped::NoPairLeft {}
        slab.close()?;
        while slab.adopt(0).is_ok() {}
    }
    Ok(())
}

/// Three of four pages of a core have nothing live, and a trim of each shard takes them out of the
/// process; but for the few free ones that are kept for what is asked next (`c/pages.c`).
fn trimmed_pages_leave_the_process() -> Result<(), Refused> {
    const SHARDS: u32 = 4;
    const PAGES: usize = 1024;
    const KEPT_FREE: u64 = 63;
    let mut core = Core::new(Limits {
        shards: SHARDS,
        slots: 256,
        ..Limits::default()
    })?;
    let mut keys =
        vec![Key::from_bits(1).expect("its generation is 1"); SHARDS as usize * PAGES * 256];
    for (number, key) in keys.iter_mut().enumerate() {
        *key = core.insert(number as u32 % SHARDS, number as u128)?;
    }
    // A page holds 256 keys of its shard, and every fourth page stays as it is.
    let stays = |number: usize| number / SHARDS as usize / 256 % 4 == 0;
    for (number, key) in keys.iter().enumerate() {
        assert!(stays(number) || core.free(*key));
    }
    let full = kilobytes("VmRSS:");
    let mut gone = 0;
    for shard in 0..SHARDS {
        gone += core.trim(shard)?;
    }
    let left = kilobytes("VmRSS:");
    assert_eq!((gone, core.pages()), (3072, 1024));
    let (least, most) = (4 * (gone as u64 - KEPT_FREE), 4 * gone as u64);
    // The system counts by threads, and tells what it counted some pages late.
    assert!(
        full - left + 256 >= least && full - left <= most + 256,
        "of {full} KB {left} are left"
    );

    // What stayed is found, and what is put comes to the groups that were trimmed: no shard may
    // have a further one.
    for (number, key) in keys.iter().enumerate() {
        assert_eq!(core.get(*key), stays(number).then_some(number as u128));
    }
    for number in 0..SHARDS as usize * 256 {
        let key = core.insert(number as u32 % SHARDS, number as u128)?;
        assert_eq!(core.get(key), Some(number as u128));
    }
    assert_eq!(core.pages(), 1024 + SHARDS as usize);
    Ok(())
}

/// Inserts until memory is refused, which changes nothing.
fn refused_where_there_is_none<const BYTES: usize>() -> Result<(), Refused> {
    let mut slab = Slab::new()?;
    let mut keys = Vec::with_capacity(100_000);
    keys.push(slab.insert([0_u8; BYTES])?);
    let refused = with_bytes_left(16 << 20, || loop {
        match slab.insert([keys.len() as u8; BYTES]) {
            Ok(key) => keys.push(key),
            Err(refused) => {
                let given_back = slab.try_insert([7; BYTES]).unwrap_err();
                assert!(given_back.value == [7; BYTES]);
                return [
                    refused,
                    given_back.refused,
                    slab.vacant_entry().map(drop).unwrap_err(),
                    slab.insert_with_key(|_| unreachable!()).unwrap_err(),
                    slab.reserve(1_000_000).unwrap_err(),
                    Slab::<[u8; BYTES]>::with_capacity(1_000_000).unwrap_err(),
                    Slab::try_from_iter([[0_u64; 512]; 20]).unwrap_err(),
                ];
            }
        }
    });
    assert_eq!(refused, [Refused::OutOfMemory; 7]);
    assert!(keys.len() > 64 && slab.len() == keys.len());
    assert!(slab.iter().count() == keys.len());
    for (number, key) in keys.iter().enumerate() {
        assert_eq!(slab.get(*key), Some(&[number as u8; BYTES]));
    }
    let key = slab.insert([1; BYTES])?;
    assert!(!keys.contains(&key) && slab.remove(key) == Some([1; BYTES]));
    Ok(())
}

#[test]
fn memory_goes_back_and_is_refused() -> Result<(), Refused> {
    // On 4,688 pages, more than a plan has on a side.
    most_of_it_leaves_the_process(300_000, |slab| slab.compact().map(drop))?;
    most_of_it_leaves_the_process(300_000, by_steps)?;
    values_of_48_bytes_take_little_more()?;
    trimmed_pages_leave_the_process()?;
    the_last_pages_leave_the_process(|slab| Ok(slab.shrink_to_fit()))?;
    the_last_pages_leave_the_process(|slab| slab.compact_if_pays(100))?;
    the_last_pages_leave_the_process(Slab::compact)?;
    refused_where_there_is_none::<1000>()?;
    refused_where_there_is_none::<8192>()
}
