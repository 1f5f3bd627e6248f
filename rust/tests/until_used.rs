//! What has no value takes no memory, and answers as what had values once.

use std::mem::size_of;
use std::panic::{RefUnwindSafe, UnwindSafe};
use teurlaks::arena::{AuditError, Totals};
use teurlaks::{Arena, Core, Key, Limits, Marked, Refused, SharedSlab, SharedStore, Slab, Store};

/// What glibc says of its memory, of all threads.
#[repr(C)]
struct Info {
    arena: usize,
    ordblks: usize,
    smblks: usize,
    hblks: usize,
    hblkhd: usize,
    usmblks: usize,
    fsmblks: usize,
    uordblks: usize,
    fordblks: usize,
    keepcost: usize,
}

extern "C" {
    fn mallinfo2() -> Info;
}

/// How many bytes the allocator has given out.
fn bytes_taken() -> usize {
    // SAFETY: it takes nothing.
    let info = unsafe { mallinfo2() };
    info.uordblks + info.hblkhd
}

/// How many bytes so many of these take, each with its own size.
fn bytes_each<S>(make: impl Fn() -> S) -> usize {
    const COUNT: usize = 1000;
    let mut made = Vec::with_capacity(COUNT);
    let before = bytes_taken();
    made.extend((0..COUNT).map(|_| make()));
    // What the harness of tests takes or frees meanwhile is less than a byte each.
    let beside = (bytes_taken().saturating_sub(before) + COUNT - 1) / COUNT;
    size_of::<S>() + beside
}

/// What a caller moves: `c/memory.c` counts what stands behind it.
fn each_is_small() {
    assert!(size_of::<Core>() <= 72 && size_of::<Store<u64>>() <= 80);
    assert!(size_of::<Slab<u64>>() <= 200);
}

fn no_value_takes_no_memory() {
    let limits = Limits {
        shards: 64,
        ..Limits::default()
    };
    for each in [
        bytes_each(|| Core::new(limits)),
        bytes_each(Store::<u64>::new),
        bytes_each(|| Store::<[u64; 30]>::with_limits(limits)),
        bytes_each(Slab::<u64>::new),
        bytes_each(|| Slab::<[u64; 30]>::with_limits(limits)),
        bytes_each(Slab::<[u64; 1000]>::default),
        bytes_each(|| Arena::<u64>::open(limits)),
        bytes_each(|| Arena::<u64>::open_recorded(limits)),
    ] {
        assert!(each <= 200, "{each} bytes");
    }
    // Nor does what is asked of it.
    let (mut slab, mut core) = (Slab::<String>::default(), Core::new(limits).unwrap());
    let before = bytes_taken();
    let key = "0.0/0/1".parse().unwrap();
    assert!(slab.get(key).is_none() && slab.remove(key).is_none() && slab.iter().next().is_none());
    assert_eq!(
        (slab.compact(), slab.shrink_to_fit(), slab.forget()),
        (Ok(0), 0, Ok(0))
    );
    assert_eq!(
        (core.compact(), core.get(key), core.free(key)),
        (Ok(0), None, false)
    );
    // A core takes more, and the harness of tests less.
    assert!(bytes_taken() < before + 1000);
}

/// With one value each takes some lists, one shard of its 16, and a short page.
fn one_value_takes_little() {
    let core = || {
        let mut core = Core::new(Limits {
            shards: 16,
            ..Limits::default()
        })?;
        core.insert(0, 7)?;
        Ok::<_, Refused>(core)
    };
    let slab = || {
        let mut slab = Slab::new()?;
        slab.insert(7_u64)?;
        Ok::<_, Refused>(slab)
    };
    let store = || {
        let mut store = Store::new()?;
        store.insert(7_u64)?;
        Ok::<_, Refused>(store)
    };
    let (core, slab, store) = (bytes_each(core), bytes_each(slab), bytes_each(store));
    // Each block is counted with what the allocator adds.
    for (each, most) in [(core, 1080), (slab, 1080), (store, 1088)] {
        assert!(each <= most, "{each} bytes");
    }
    // A slab has a block of four values and the home of one span beside its core, and no page.
    assert!(slab <= core + 256, "{slab} bytes, and a core {core}");
}

/// What a core that has no key answers to each call, as a text.
fn answers(core: &mut Core) -> Vec<String> {
    let key: Key = "0.0/7/9".parse().unwrap();
    let mut said = vec![
        format!(
            "{:?} {:?} {}",
            core.get(key),
            core.get_words(key),
            core.contains(key)
        ),
        format!(
            "{:?} {:?} {}",
            core.set(key, 7),
            core.replace(key, 7),
            core.free(key)
        ),
        format!(
            "{:?} {:?}",
            core.set_words(key, &[0; 4]),
            core.set_words(key, &[0; 2])
        ),
        format!(
            "{:?} {:?} {:?}",
            core.remove(key),
            core.next_live(None),
            core.next_live(Some(key))
        ),
        format!(
            "{:?} {:?} {:?}",
            core.len(),
            core.pages(),
            core.iter().next()
        ),
        format!("{:?}", core.drain().next()),
        format!("{:?}", core.certificate()),
        format!(
            "{:?} {:?}",
            core.insert_words(0, &[]),
            core.insert_words(2, &[0; 4])
        ),
        format!("{:?} {:?}", core.insert(2, 7), core.insert_bytes(2, b"a")),
        format!("{:?} {:?}", core.step(), core.close()),
        format!("{:?} {:?}", core.forget(), core.compact()),
    ];
    for shard in [0, 2] {
        said.push(format!("{:?} {:?}", core.begin(shard), core.trim(shard)));
        said.push(format!(
            "{:?} {:?}",
            core.retire(shard, 3),
            core.adopt(shard)
        ));
    }
    said
}

/// What comes after these answers, of calls that make the core's shards.
fn later_answers(core: &mut Core) -> Vec<String> {
    vec![
        format!("{:?} {:?} {:?}", core.end(2), core.end(1), core.end(1)),
        format!("{:?} {:?}", core.is_ended(1), core.insert(1, 7)),
        format!("{:?} {:?} {:?}", core.mark(), core.mark(), core.step()),
        format!("{:?} {:?} {:?}", core.forget(), core.close(), core.mesh()),
    ]
}

fn it_answers_as_one_that_had_values() -> Result<(), Refused> {
    let limits = Limits {
        shards: 2,
        ..Limits::default()
    };
    let (mut new, mut used) = (Core::new(limits)?, Core::new(limits)?);
    let key = used.insert(0, 7)?;
    assert!(used.free(key) && used.trim(0) == Ok(1));
    assert_eq!(answers(&mut new), answers(&mut used));
    assert_eq!(later_answers(&mut new), later_answers(&mut used));
    let mut new = Core::new(limits)?;
    assert_eq!(new.insert_words(1, &[7; 16])?.to_string(), "1.0/0/1");
    Ok(())
}

fn an_arena_without_seats_answers() -> Result<(), Refused> {
    let limits = Limits {
        shards: 4,
        ..Limits::default()
    };
    let mut arena = Arena::<u64>::open(limits)?;
    assert_eq!(
        (arena.limits(), arena.totals()),
        (limits, Totals::default())
    );
    assert_eq!(
        (arena.mesh(), arena.forget(), arena.close()),
        (Ok(0), Ok(0), Err(Refused::NoPlan))
    );
    assert_eq!((arena.keys().next(), arena.certificate()), (None, Ok(None)));
    let done = arena.compact_within(9)?;
    assert!(done.pages == 0 && !done.more);
    assert_eq!(arena.audit(), Err(AuditError::NotRecorded));
    let nothing = Marked {
        abandoned: 0,
        owned: 0,
        folds: 0,
        short_set: 0,
    };
    assert_eq!(
        (arena.mark()?, arena.forget()),
        (nothing, Err(Refused::PlanOpen))
    );
    arena.close()?;
    assert!((0..4).all(|_| arena.seat().is_ok()));
    assert!(matches!(arena.seat(), Err(Refused::NoSeatLeft)));
    let mut recorded = Arena::<u64>::open_recorded(limits)?;
    assert_eq!(
        (recorded.forget(), recorded.audit()),
        (Err(Refused::Recorded), Ok(()))
    );
    assert_eq!(recorded.mark(), Err(Refused::Over));
    for (keys, lanes) in [(0, 1), (1025, 1), (1, 0), (1, 17), (1, 1 << 30)] {
        assert!(matches!(
            Arena::<u64>::with_lanes(limits, keys, lanes),
            Err(Refused::Config)
        ));
    }
    Ok(())
}

/// A value that was lent to a call that panicked may be used again.
fn unwinds<T: UnwindSafe + RefUnwindSafe>(_: &T) {}

#[test]
fn until_used() -> Result<(), Refused> {
    each_is_small();
    no_value_takes_no_memory();
    one_value_takes_little();
    it_answers_as_one_that_had_values()?;
    an_arena_without_seats_answers()?;
    unwinds(&Slab::<String>::new()?);
    unwinds(&SharedSlab::<String>::new()?);
    unwinds(&(
        Store::<u8>::new()?,
        SharedStore::<u8>::new()?,
        Core::new(Limits::default())?,
    ));
    Ok(())
}
