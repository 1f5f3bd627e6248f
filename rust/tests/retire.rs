//! One shard that goes on, and whose pages fold.

use teurlaks::{Core, Key, Limits, Refused, Slab, Stepped};

/// Numbers that look random, the same in each run.
struct Numbers(u64);

impl Numbers {
    fn below(&mut self, bound: u64) -> u64 {
        self.0 ^= self.0 << 13;
        self.0 ^= self.0 >> 7;
        self.0 ^= self.0 << 17;
        self.0 % bound
    }
}

const PAGES: usize = 1024;
const SLOTS: usize = 128;

/// A slab whose one shard has 1,024 pages with 5 values of 100 left.
struct Thinned {
    slab: Slab<usize>,
    /// The values that are left.
    kept: Vec<(Key, usize)>,
    /// The keys of those that are gone.
    freed: Vec<Key>,
}

fn thinned() -> Result<Thinned, Refused> {
    let mut slab = Slab::with_limits(Limits {
        slots: 256,
        ..Limits::default()
    })?;
    let keys = (0..PAGES * SLOTS)
        .map(|value| slab.insert(value))
        .collect::<Result<Vec<_>, _>>()?;
    let mut numbers = Numbers(1);
    let (kept, freed): (Vec<_>, Vec<_>) = keys
        .into_iter()
        .enumerate()
        .map(|(value, key)| (key, value))
        .partition(|_| numbers.below(100) < 5);
    for (key, value) in &freed {
        assert_eq!(slab.remove(*key), Some(*value));
    }
    let freed = freed.into_iter().map(|(key, _)| key).collect();
    Ok(Thinned { slab, kept, freed })
}

#[test]
fn one_shard_gives_half_of_its_pages_back() -> Result<(), Refused> {
    let Thinned {
        mut slab,
        kept,
        freed,
    } = thinned()?;
    assert_eq!(slab.pages(), PAGES);

    assert_eq!(slab.retire(0, PAGES / 2)?, PAGES / 2);
    assert_eq!(slab.pages(), PAGES);
    assert_eq!(slab.mark()?.folds, PAGES / 2);
    assert_eq!(slab.retire(0, 1), Err(Refused::PlanOpen));
    for _ in 0..PAGES / 2 {
        slab.step()?;
    }
    slab.close()?;

    assert_eq!(slab.pages(), PAGES / 2);
    assert_eq!(slab.len(), kept.len());
    assert!(kept
        .iter()
        .all(|(key, value)| slab.get(*key) == Some(value)));
    assert!(freed.iter().all(|key| slab.get(*key).is_none()));
    Ok(())
}

#[test]
fn retires_what_has_a_live_key() -> Result<(), Refused> {
    let mut slab = Slab::with_limits(Limits {
        slots: 256,
        ..Limits::default()
    })?;
    assert_eq!(slab.retire(0, 5)?, 0);
    assert_eq!(slab.retire(1, 5), Err(Refused::Config));
    let key = slab.insert(7)?;
    assert_eq!(slab.retire(0, 0)?, 0);
    assert_eq!(slab.retire(0, usize::MAX)?, 1);
    assert_eq!((slab.pages(), slab[key]), (1, 7));
    let other = slab.insert(8)?; // the shard goes on, on a page of its own
    assert_eq!((slab.pages(), slab[other]), (2, 8));
    slab.end(0)?;
    assert_eq!(slab.retire(0, 5), Err(Refused::Ended));
    Ok(())
}

/// A plan has 4,096 groups on a side at most, and there are as many plans as it takes.
#[test]
fn more_pages_than_a_plan_has() -> Result<(), Refused> {
    const SLOTS: usize = 64;
    const PAGES: usize = 10_000;
    let mut slab = Slab::new()?;
    let keys = (0..PAGES * SLOTS)
        .map(|place| slab.insert((place, [0_u8; 184])))
        .collect::<Result<Vec<_>, _>>()?;
    // On each page four values stay, at four slots of its own of the sixteen fours.
    let stays = |place: usize| place % SLOTS / 4 == place / SLOTS % 16;
    for (place, key) in keys.iter().enumerate().filter(|(place, _)| !stays(*place)) {
        assert_eq!(slab.remove(*key).map(|value| value.0), Some(place));
    }
    // A shard that leaves the next pages to another one has a page that is not full.
    let pages = slab.pages();
    assert!((PAGES..PAGES + 16).contains(&pages));
    let went = slab.compact()?;
    assert!(slab.pages() <= PAGES / 8 && slab.pages() + went == pages);
    for (place, key) in keys.iter().enumerate() {
        assert_eq!(
            slab.get(*key).map(|value| value.0),
            stays(place).then_some(place)
        );
    }

    // Of pages with nothing on them there may be any number.
    slab.retain(|key, _| key == keys[0]);
    slab.compact()?;
    assert_eq!((slab.pages(), slab.len(), slab[keys[0]].0), (1, 1, 0));
    Ok(())
}

/// With more groups on a side than a plan may have a mark is refused, and a mark of some sees those
/// with the fewest live keys.
#[test]
fn marks_some_of_many() -> Result<(), Refused> {
    const SHARDS: u32 = 10;
    let mut core = Core::new(Limits {
        shards: SHARDS,
        slots: 256,
        ..Limits::default()
    })?;
    // Half of the shards end. On a page of theirs the first slot stays, on one of the others the
    // ninth; in the first and the last shard so do the two after it.
    let mut kept = Vec::new();
    for shard in 0..SHARDS {
        let first = if shard < SHARDS / 2 { 0 } else { 8 };
        let stay = if shard == 0 || shard == SHARDS - 1 {
            3
        } else {
            1
        };
        let words = |place: usize| [u128::from(shard) << 64 | place as u128; 16];
        let keys = (0..PAGES * 16)
            .map(|place| core.insert_words(shard, &words(place)))
            .collect::<Result<Vec<_>, _>>()?;
        for (place, key) in keys.into_iter().enumerate() {
            if (first..first + stay).contains(&(place % 16)) {
                kept.push((key, words(place)));
            } else {
                assert!(core.free(key));
            }
        }
    }
    for shard in 0..SHARDS / 2 {
        core.end(shard)?;
    }
    let pages = core.pages();
    assert_eq!((pages, core.mark()), (10 * PAGES, Err(Refused::TooMany)));

    let marked = core.mark_some()?;
    assert_eq!(
        (marked.abandoned, marked.owned, marked.folds),
        (4096, 4096, 4096)
    );
    assert_eq!(core.mark_some(), Err(Refused::PlanOpen));
    // Those of the first shard and of the last were left out.
    while let Stepped::Folded(abandoned, owned) = core.step()? {
        assert!(!abandoned.to_string().starts_with("0.") && !owned.to_string().starts_with("9."));
    }
    core.close()?;
    assert_eq!(core.pages(), pages - 4096);
    for (key, words) in &kept {
        assert_eq!(core.get_words(*key).as_deref(), Some(words.as_slice()));
    }
    Ok(())
}

/// A page on which nothing is live goes, and its group takes values again.
#[test]
fn trims_what_has_no_live_key() -> Result<(), Refused> {
    let mut slab = Slab::with_limits(Limits {
        shards: 1,
        pages: 2,
        generations: 9,
        slots: 256,
        ..Limits::default()
    })?;
    assert_eq!((slab.trim(0)?, slab.trim(1)), (0, Err(Refused::Config)));
    let keys = (0..2 * SLOTS)
        .map(|value| slab.insert(value))
        .collect::<Result<Vec<_>, _>>()?;
    for key in &keys[1..SLOTS] {
        slab.remove(*key);
    }
    assert_eq!((slab.trim(0)?, slab.pages()), (0, 2));
    slab.remove(keys[0]);
    assert_eq!((slab.trim(0)?, slab.pages(), slab.trim(0)?), (1, 1, 0));

    // The shard may have two pages, and has them again.
    let again = slab.insert(7)?;
    assert_eq!(
        (slab.pages(), slab.get(again), slab.get(keys[0])),
        (2, Some(&7), None)
    );
    assert!(keys[SLOTS..]
        .iter()
        .enumerate()
        .all(|(place, key)| slab[*key] == SLOTS + place));
    Ok(())
}
