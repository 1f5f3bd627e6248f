//! Memory that stays flat over rounds of inserts, frees and folds, since what can never be live
//! again is forgotten. It is one test, since what is resident is the process's.

mod common;

use common::{kilobytes, Random};
use std::env;
use teurlaks::{Refused, SharedStore, Slab, Store};

/// How many values come in a round, of which one in 20 stays, as of those before. They are enough
/// for a shared store to fold.
const VALUES: u64 = 100_000;

/// The round after which memory grows no more.
const SETTLED: usize = 9;

/// How many rounds are held against as many.
const IN_TURN: usize = 6;

/// How many rounds there are, unless the variable `ROUNDS` says more.
fn rounds() -> usize {
    let asked = env::var("ROUNDS")
        .ok()
        .and_then(|rounds| rounds.parse().ok());
    asked.unwrap_or(20)
}

#[cfg(target_env = "gnu")]
extern "C" {
    fn malloc_trim(pad: usize) -> i32;
}

/// Asks malloc to hand back to the system what it keeps free. That grows for some hundred rounds,
/// and says nothing of the store.
fn hand_back_what_is_free() {
    #[cfg(target_env = "gnu")]
    // SAFETY: it takes a number, and moves no block that is in use.
    unsafe {
        malloc_trim(0);
    }
}

/// Does so many rounds, and holds the least that is resident after the last ones against the least
/// after those in which it had settled: some rounds leave more, in turn.
fn stays_flat<R>(name: &str, mut round: R) -> Result<(), Refused>
where
    R: FnMut(&mut Random) -> Result<(), Refused>,
{
    let mut random = Random(88_172_645_463_325_252);
    let base = kilobytes("VmRSS:");
    let mut resident = Vec::new();
    for _ in 0..rounds() {
        round(&mut random)?;
        hand_back_what_is_free();
        resident.push(kilobytes("VmRSS:").saturating_sub(base));
    }
    println!("{name}: {resident:?} KB");
    let least = |after: &[u64]| after.iter().copied().min().expect("there were rounds");
    let settled = least(&resident[SETTLED..SETTLED + IN_TURN]);
    let last = least(&resident[resident.len() - IN_TURN..]);
    // The system counts by threads, and tells what it counted some pages late.
    assert!(
        last <= settled + settled / 20 + 256,
        "{name}: {settled} KB, and {last} after {} rounds",
        rounds()
    );
    Ok(())
}

fn one_in_twenty(random: &mut Random) -> bool {
    random.below(20) == 0
}

fn a_shared_store() -> Result<(), Refused> {
    let store = SharedStore::new()?;
    stays_flat("SharedStore::compact", |random| {
        (0..VALUES).try_for_each(|value| store.insert(value).map(drop))?;
        store.retain(|_, _| one_in_twenty(random));
        store.compact()?;
        assert_eq!(store.forget(), 0, "a compaction has forgotten");
        Ok(())
    })
}

fn one_shard_of_a_shared_store() -> Result<(), Refused> {
    let store = SharedStore::new()?;
    stays_flat("SharedStore::compact_shard", |random| {
        (0..VALUES).try_for_each(|value| store.insert(value).map(drop))?;
        store.retain(|_, _| one_in_twenty(random));
        (0..store.shards()).try_for_each(|shard| store.compact_shard(shard).map(drop))?;
        assert_eq!(store.forget_shard(64), Err(Refused::Config));
        Ok(())
    })
}

/// Retires, folds and adopts by hand, and forgets.
macro_rules! fold_by_hand {
    ($store:expr) => {
        for shard in 0..$store.limits().shards {
            let half = $store.pages() / 2;
            $store.retire(shard, half)?;
        }
        $store.mesh()?;
        for shard in 0..$store.limits().shards {
            while $store.adopt(shard).is_ok() {}
        }
        $store.shrink_to_fit();
        $store.forget()?;
        assert_eq!($store.forget(), Ok(0));
    };
}

fn a_store_by_hand() -> Result<(), Refused> {
    let mut store = Store::new()?;
    stays_flat("Store::forget", |random| {
        (0..VALUES).try_for_each(|value| store.insert(value).map(drop))?;
        store.retain(|_, _| one_in_twenty(random));
        fold_by_hand!(store);
        (0..store.limits().shards).try_for_each(|shard| store.gather(shard))
    })
}

fn a_slab_by_hand() -> Result<(), Refused> {
    let mut slab = Slab::new()?;
    stays_flat("Slab::forget", |random| {
        (0..VALUES).try_for_each(|value| slab.insert(value).map(drop))?;
        slab.retain(|_, _| one_in_twenty(random));
        fold_by_hand!(slab);
        assert!(slab.iter().all(|(key, value)| slab.get(key) == Some(value)));
        Ok(())
    })
}

/// An open plan is no moment to forget.
fn not_while_a_plan_is_open() -> Result<(), Refused> {
    let (mut store, mut slab) = (Store::new()?, Slab::new()?);
    store.insert(1)?;
    store.mark()?;
    slab.insert(1)?;
    slab.mark()?;
    assert_eq!(store.forget(), Err(Refused::PlanOpen));
    assert_eq!(slab.forget(), Err(Refused::PlanOpen));
    Ok(())
}

#[test]
fn memory_stays_flat() -> Result<(), Refused> {
    a_shared_store()?;
    one_shard_of_a_shared_store()?;
    a_store_by_hand()?;
    a_slab_by_hand()?;
    not_while_a_plan_is_open()
}
