//! The tours of `docs/TOUR.md` and `docs/CALLING.md`, from Rust.

use std::sync::Mutex;
use std::thread;
use teurlaks::{Core, Limits, Refused, Slab, Stepped};

fn core(shards: u32, pages: u32, generations: u32) -> Core {
    Core::new(Limits {
        shards,
        pages,
        generations,
        slots: 256,
        ..Limits::default()
    })
    .expect("the numbers are within their ranges")
}

#[test]
fn a_shard() -> Result<(), Refused> {
    let mut core = core(1, 16, 2);
    let key = core.insert(0, 7)?;
    assert_eq!(
        (key.to_string(), core.get(key)),
        ("0.0/0/1".into(), Some(7))
    );
    assert!(core.free(key));
    let again = core.insert(0, 8)?;
    assert_eq!(again.to_string(), "0.0/0/2");
    assert_eq!((core.get(key), core.get(again)), (None, Some(8)));
    assert!(!core.free(key));
    // The slot is worn after its second generation.
    assert!(core.free(again));
    assert_eq!(core.insert(0, 9)?.to_string(), "0.0/1/1");
    Ok(())
}

#[test]
fn a_shard_ends_and_another_adopts() -> Result<(), Refused> {
    let mut core = core(2, 16, 2);
    let key = core.insert(0, 7)?;
    core.free(key);
    let again = core.insert(0, 8)?;
    core.end(0)?;
    assert_eq!(core.insert(0, 1), Err(Refused::Ended));
    assert_eq!(core.end(0), Err(Refused::Ended));
    assert_eq!(core.adopt(1)?.to_string(), "0.0");
    assert_eq!((core.get(again), core.get(key)), (Some(8), None));
    assert_eq!(core.adopt(1), Err(Refused::NothingToAdopt));
    assert_eq!(core.insert(2, 1), Err(Refused::Config));
    Ok(())
}

#[test]
fn the_core_folds() -> Result<(), Refused> {
    let mut core = core(2, 4, 9);
    assert_eq!(core.certificate()?, None);
    let first = core.insert(0, 10)?;
    let key = core.insert(0, 11)?;
    core.free(first);
    core.end(0)?;
    core.insert(1, 7)?;
    assert_eq!((core.pages(), core.len()), (2, 2));

    let marked = core.mark()?;
    assert_eq!(
        (
            marked.abandoned,
            marked.owned,
            marked.folds,
            marked.short_set
        ),
        (1, 1, 1, 0)
    );
    let refused = (core.mark().err(), core.adopt(1).err(), core.end(1).err());
    assert_eq!(
        refused,
        (
            Some(Refused::PlanOpen),
            Some(Refused::PlanOpen),
            Some(Refused::PlanOpen)
        )
    );
    let Stepped::Folded(abandoned, owned) = core.step()? else {
        panic!("nothing was folded")
    };
    assert_eq!(
        (abandoned.to_string(), owned.to_string()),
        ("0.0".into(), "1.0".into())
    );
    assert_eq!(core.step(), Ok(Stepped::NoPairLeft));
    core.close()?;
    assert_eq!(
        (core.close(), core.step()),
        (Err(Refused::NoPlan), Err(Refused::NoPlan))
    );

    assert_eq!((core.get(key), core.get(first)), (Some(11), None));
    assert_eq!((core.pages(), core.len()), (1, 2));
    Ok(())
}

/// A slot of its own on each side, in the text that `docs/FORMATS.md` describes.
#[test]
fn the_certificate_is_the_text_of_the_format() -> Result<(), Refused> {
    let mut core = core(2, 4, 9);
    core.insert(0, 10)?;
    let second = core.insert(0, 11)?;
    core.end(0)?;
    core.free(second);
    let slot_0 = core.insert(1, 7)?;
    core.insert(1, 8)?;
    core.free(slot_0);
    core.mark()?;
    // The first of the 64 digits' bytes has the slots 0 to 7.
    let (slot_0, slot_1) = (
        format!("01{}", "0".repeat(62)),
        format!("02{}", "0".repeat(62)),
    );
    let text =
        format!("meshcert 2\nabandoned 1\n0.0 16 {slot_0}\nowned 1\n1.0 16 {slot_1}\nfolds 1\n0.0 1.0\nshort 0\nend\n");
    assert_eq!(core.certificate()?, Some(text));
    Ok(())
}

/// As in `examples/cache_closes_down.trace`: eight workers keep two values each, which come to one
/// page.
#[test]
fn a_cache_closes_down() -> Result<(), Refused> {
    let mut cache = Slab::with_limits(Limits {
        shards: 8,
        pages: 4,
        generations: 9,
        slots: 256,
        ..Limits::default()
    })?;
    let mut kept = Vec::new();
    for worker in 0..8 {
        let mut keys = Vec::new();
        for i in 0..2 * worker + 2 {
            keys.push((cache.insert_in(worker, 100 * worker + i)?, 100 * worker + i));
        }
        let dropped = keys.len() - 2;
        kept.extend(keys.split_off(dropped));
        assert!(keys
            .iter()
            .all(|(key, value)| cache.remove(*key) == Some(*value)));
    }
    assert_eq!((cache.pages(), cache.len()), (8, 16));
    for (ended, pages) in [(4..8, 4), (2..4, 2), (1..2, 1)] {
        for worker in ended {
            cache.end(worker)?;
        }
        cache.mesh()?;
        assert_eq!((cache.pages(), cache.len()), (pages, 16));
        assert!(kept
            .iter()
            .all(|(key, value)| cache.get(*key) == Some(value)));
    }
    Ok(())
}

#[test]
fn refused_where_out_of_range() -> Result<(), Refused> {
    for (shards, pages, generations) in [
        (0, 1, 1),
        (65, 1, 1),
        (1, 0, 1),
        (1, 1_048_577, 1),
        (1, 1, 0),
    ] {
        let limits = Limits {
            shards,
            pages,
            generations,
            slots: 256,
            ..Limits::default()
        };
        assert_eq!(Core::new(limits).err(), Some(Refused::Config));
    }
    let mut core = core(1, 1, 1);
    let keys = (0..256)
        .map(|i| core.insert(0, i << 100 | i))
        .collect::<Result<Vec<_>, _>>()?;
    assert_eq!(core.insert(0, 0), Err(Refused::PagesSpent));
    assert!(keys
        .iter()
        .zip(0..)
        .all(|(key, i)| core.get(*key) == Some(i << 100 | i)));
    Ok(())
}

#[test]
fn between_threads_behind_a_lock() -> Result<(), Refused> {
    let shared = Mutex::new(core(4, 16, 9));
    let fill = |worker: u32| -> Result<Vec<_>, Refused> {
        let put = |word| {
            Ok((
                shared
                    .lock()
                    .expect("no thread panicked")
                    .insert(worker, word)?,
                word,
            ))
        };
        (0..500).map(put).collect()
    };
    let kept = thread::scope(|scope| {
        let threads: Vec<_> = (0..4)
            .map(|worker| scope.spawn(move || fill(worker)))
            .collect();
        threads
            .into_iter()
            .map(|thread| thread.join().expect("no thread panicked"))
            .collect::<Result<Vec<_>, _>>()
    })?;
    let core = shared.into_inner().expect("no thread panicked");
    let all_found = move || {
        core.len() == 2000
            && kept
                .iter()
                .flatten()
                .all(|(key, word)| core.get(*key) == Some(*word))
    };
    assert!(thread::spawn(all_found).join().expect("no thread panicked"));
    Ok(())
}
