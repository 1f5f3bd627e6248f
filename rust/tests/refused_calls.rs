//! Each allocation that the library asks for in a call is refused in turn: the call says so, what
//! it leaves is sound, and it may be made again. `tests/refused_memory.rs` refuses what this crate
//! asks for by itself.

mod refusing;

use refusing::{with_refusal, By};
use teurlaks::arena::Seat;
use teurlaks::{Arena, Compacted, Core, Key, Limits, Refused, SharedStore, Store};

/// Makes the call on what is made anew each time, with each of its allocations refused, and has
/// what comes of that looked at; and says how many were refused. Of some the library can do
/// without.
fn each_refused<S, A>(
    make: impl Fn() -> Result<S, Refused>,
    call: impl Fn(&mut S) -> A,
    after: impl Fn(S, A, bool) -> Result<(), Refused>,
) -> Result<usize, Refused> {
    for number in 0.. {
        let mut made = make()?;
        let (done, was_refused) = with_refusal(By::Library, number, || call(&mut made));
        after(made, done, was_refused)?;
        if !was_refused {
            return Ok(number);
        }
    }
    unreachable!("some call is refused nothing")
}

const TWO_SHARDS: Limits = Limits {
    shards: 2,
    pages: 64,
    spans: u32::MAX,
    slots: 256,
    generations: u32::MAX,
};

const VALUES: usize = 2000;

/// Whether the number's value stays on a sparse page.
fn stays(number: usize) -> bool {
    number % 17 == 3
}

/// A core of two shards with some pages each, one in 17 of whose keys are live.
fn sparse_core() -> Result<(Core, Vec<Key>), Refused> {
    let mut core = Core::new(TWO_SHARDS)?;
    let keys: Vec<_> = (0..VALUES)
        .map(|number| core.insert(number as u32 % 2, number as u128))
        .collect::<Result<_, _>>()?;
    for (number, key) in keys.iter().enumerate() {
        assert!(stays(number) || core.free(*key));
    }
    Ok((core, keys))
}

fn finds(get: impl Fn(Key) -> Option<u128>, keys: &[Key]) -> bool {
    let mut all = keys.iter().enumerate();
    all.all(|(number, key)| get(*key) == stays(number).then_some(number as u128))
}

#[test]
fn meshes_of_a_core() -> Result<(), Refused> {
    let refusals = each_refused(
        || {
            let (mut core, keys) = sparse_core()?;
            core.end(0)?;
            Ok((core, keys))
        },
        |(core, _)| core.mesh(),
        |(mut core, keys), done, was_refused| {
            assert!(done.is_ok() || was_refused && done == Err(Refused::OutOfMemory));
            assert_eq!(core.close(), Err(Refused::NoPlan));
            assert!(finds(|key| core.get(key), &keys));
            let pages = core.pages();
            assert_eq!(core.mesh()? + core.pages(), pages);
            assert!(core.pages() == 4 && finds(|key| core.get(key), &keys));
            Ok(())
        },
    )?;
    assert!(refusals > 5, "{refusals}");
    Ok(())
}

/// A compaction that is refused has no plan open, and leaves what it can to the shards.
#[test]
fn compactions_of_a_core() -> Result<(), Refused> {
    let refusals = each_refused(
        sparse_core,
        |(core, _)| core.compact(),
        |(mut core, keys), done, was_refused| {
            assert!(done.is_ok() || was_refused && done == Err(Refused::OutOfMemory));
            assert_eq!(
                (core.close(), core.adopt(0)),
                (Err(Refused::NoPlan), Err(Refused::NothingToAdopt))
            );
            assert!(finds(|key| core.get(key), &keys));
            let pages = core.pages();
            assert_eq!(core.compact()? + core.pages(), pages);
            assert!(core.pages() < 4 && finds(|key| core.get(key), &keys));
            Ok(())
        },
    )?;
    assert!(refusals > 5, "{refusals}");
    Ok(())
}

/// Takes parts of a compaction, each of which may be refused, and says how many pages went.
fn in_parts(mut part: impl FnMut() -> Result<Compacted, Refused>) -> usize {
    let mut gone = 0;
    loop {
        match part() {
            Ok(done) => {
                gone += done.pages;
                if !done.more {
                    return gone;
                }
            }
            Err(refused) => assert_eq!(refused, Refused::OutOfMemory),
        }
    }
}

/// The pages that went in a part that was refused are counted by a later one.
#[test]
fn parts_of_compactions() -> Result<(), Refused> {
    let core = each_refused(
        sparse_core,
        |(core, _)| (core.pages(), in_parts(|| core.compact_within(4))),
        |(core, keys), (pages, gone), _| {
            assert_eq!(core.pages() + gone, pages);
            assert!(gone > 0 && finds(|key| core.get(key), &keys));
            Ok(())
        },
    )?;
    assert!(core > 5, "{core}");
    Ok(())
}

fn sparse_shared() -> Result<(SharedStore<[u128; 2]>, Vec<Key>), Refused> {
    let store = SharedStore::with_limits(TWO_SHARDS)?;
    let keys: Vec<_> = (0..VALUES as u128)
        .map(|number| store.insert([number; 2]))
        .collect::<Result<_, _>>()?;
    store.retain(|_, value| stays(value[0] as usize));
    Ok((store, keys))
}

#[test]
fn compactions_of_a_shared_store() -> Result<(), Refused> {
    let refusals = each_refused(
        sparse_shared,
        |(store, _)| store.compact(),
        |(store, keys), done, was_refused| {
            assert!(done.is_ok() || was_refused && done == Err(Refused::OutOfMemory));
            let pages = store.pages();
            assert_eq!(store.compact()? + store.pages(), pages);
            assert!(store.pages() < 8);
            assert!(finds(|key| store.get(key).map(|value| value[0]), &keys));
            // Nothing is left in a pool, where it would take no value.
            let pages = store.pages();
            for _ in store.len()..pages * 128 {
                store.insert([0; 2])?;
            }
            assert!(store.pages() <= pages + 1);
            Ok(())
        },
    )?;
    assert!(refusals > 5, "{refusals}");
    Ok(())
}

/// What was put before the refusal stays, and its keys are there.
#[test]
fn inserts() -> Result<(), Refused> {
    let words: Vec<u128> = (0..1000).collect();
    let many = each_refused(
        || Ok((Core::new(TWO_SHARDS)?, Vec::with_capacity(1000))),
        |(core, keys)| core.insert_many(0, &words, keys),
        |(core, keys), done, was_refused| {
            assert!(done.is_ok() || was_refused && core.len() < 1000);
            assert_eq!(core.len(), keys.len());
            assert!(core
                .get_many(&keys)
                .eq(words[..keys.len()].iter().map(|word| Some(*word))));
            Ok(())
        },
    )?;
    let with_key = each_refused(
        Store::new,
        |store| store.insert_with_key(|key| (key, 7_u64)),
        |mut store, done, was_refused| {
            assert!(done.is_ok() || was_refused);
            assert_eq!(store.len(), usize::from(done.is_ok()));
            let key = store.insert_with_key(|key| (key, 8))?;
            assert_eq!(store.get(key), Some((key, 8)));
            Ok(())
        },
    )?;
    // One page of one generation, which makes way for another one.
    let worn = each_refused(
        || {
            let limits = Limits {
                shards: 1,
                pages: 1,
                generations: 1,
                ..TWO_SHARDS
            };
            let mut core = Core::new(limits)?;
            let keys: Vec<_> = (0..256)
                .map(|word| core.insert(0, word))
                .collect::<Result<_, _>>()?;
            assert_eq!(core.free_many(&keys), 256);
            Ok(core)
        },
        |core| core.insert(0, 7),
        |mut core, done, was_refused| {
            match done {
                Ok(key) => assert_eq!(core.get(key), Some(7)),
                Err(refused) => assert!(was_refused && refused == Refused::OutOfMemory),
            }
            let live = usize::from(done.is_ok());
            assert_eq!((core.len(), core.is_ended(0)), (live, false));
            let key = core.insert(0, 8)?;
            assert_eq!(core.get(key), Some(8));
            Ok(())
        },
    )?;
    assert!(
        many > 2 && with_key > 2 && worn > 0,
        "{many}, {with_key} and {worn}"
    );
    Ok(())
}

/// No seat is lost that was not handed out, or not taken back.
#[test]
fn seats() -> Result<(), Refused> {
    let refusals = each_refused(
        || Arena::<u64>::with_lanes(TWO_SHARDS, 8, 3),
        Arena::seat,
        |mut arena, seat, was_refused| {
            assert!(seat.is_ok() || was_refused);
            let mut seats: Vec<Seat<u64>> = seat.into_iter().collect();
            while seats.len() < 2 {
                seats.push(arena.seat()?);
            }
            assert_eq!(arena.seat().err(), Some(Refused::NoSeatLeft));
            for seat in &mut seats {
                (0..192).try_for_each(|number| seat.insert(number).map(drop))?;
            }
            assert_eq!(arena.totals().pages, 6);
            Ok(())
        },
    )?;
    assert!(refusals > 2, "{refusals}");
    Ok(())
}

type Seated = (Arena<u128>, Vec<Seat<u128>>, Vec<Key>);

/// Two seats of three shards each, with sparse pages.
fn sparse_arena() -> Result<Seated, Refused> {
    let mut arena = Arena::with_lanes(TWO_SHARDS, 8, 3)?;
    let mut seats = vec![arena.seat()?, arena.seat()?];
    let keys: Vec<_> = (0..VALUES)
        .map(|number| seats[number % 2].insert(number as u128))
        .collect::<Result<_, _>>()?;
    for (number, key) in keys.iter().enumerate() {
        assert!(stays(number) || seats[0].free(*key));
    }
    Ok((arena, seats, keys))
}

#[test]
fn calls_of_an_arena() -> Result<(), Refused> {
    let mesh = each_refused(
        || {
            let mut made = sparse_arena()?;
            assert_eq!(made.1[0].retire(4)?, 4);
            Ok(made)
        },
        |(arena, ..)| arena.mesh(),
        |(mut arena, seats, keys), done, was_refused| {
            assert!(done.is_ok() || was_refused && done == Err(Refused::OutOfMemory));
            assert_eq!(arena.close(), Err(Refused::NoPlan));
            let pages = arena.totals().pages;
            assert_eq!(arena.mesh()? + arena.totals().pages, pages);
            assert!(finds(|key| seats[1].get(key), &keys));
            Ok(())
        },
    )?;
    // Of several shards all end or none.
    let end = each_refused(
        sparse_arena,
        |(_, seats, _)| seats[0].end(),
        |(_, mut seats, keys), done, was_refused| {
            assert!(done.is_ok() || was_refused);
            let kept = (0..192).try_for_each(|number| seats[0].insert(number).map(drop));
            assert_eq!(kept.is_ok(), done.is_err());
            assert!(finds(|key| seats[1].get(key), &keys));
            Ok(())
        },
    )?;
    // A refusal is told if no shard has moved a group before it.
    let retire = each_refused(
        sparse_arena,
        |(_, seats, _)| seats[0].retire(5),
        |(mut arena, mut seats, keys), done, was_refused| {
            let gone = done.unwrap_or(0);
            assert!(gone == 5 || was_refused);
            assert_eq!(done.is_err(), gone == 0);
            let pages = arena.totals().pages;
            let adopted = (0..9).map_while(|_| seats[1].adopt().ok()).count();
            assert_eq!((adopted, arena.totals().pages), (gone, pages));
            assert!(finds(|key| seats[1].get(key), &keys));
            Ok(())
        },
    )?;
    assert!(
        mesh > 5 && end > 2 && retire > 2,
        "{mesh}, {end} and {retire}"
    );
    Ok(())
}
