//! Calls of a slab and of a store that their likes have, each once, with what refuses them.

mod common;

use common::Random;
use std::collections::BTreeMap;
use std::error::Error;
use std::rc::Rc;
use std::sync::RwLock;
use std::thread;
use teurlaks::{Core, Key, KeyBits, Limits, Refused, Slab, Store};

const ONE_PAGE: Limits = Limits {
    shards: 1,
    pages: 1,
    generations: 3,
    spans: u32::MAX,
    slots: 256,
};

#[test]
fn loops_over_a_slab() -> Result<(), Refused> {
    let mut slab = Slab::try_from_iter(["a".to_string(), "b".to_string()])?;
    for (_, value) in &mut slab {
        value.push('!');
    }
    let mut seen = Vec::new();
    for (key, value) in &slab {
        assert_eq!(slab[key], *value);
        seen.push(value.as_str());
    }
    assert_eq!(seen, ["a!", "b!"]);
    let keys: Vec<Key> = slab.keys().collect();
    let mut values = slab.into_iter();
    assert_eq!(
        (values.len(), values.next()),
        (2, Some((keys[0], "a!".into())))
    );
    assert_eq!(values.size_hint(), (1, Some(1)));
    assert!(values.by_ref().eq([(keys[1], "b!".to_string())]));
    assert!(values.next().is_none() && values.len() == 0);
    Ok(())
}

#[test]
fn iterators_tell_what_is_left() -> Result<(), Refused> {
    let mut slab = Slab::try_from_iter(1..4)?;
    let mut iter = slab.iter();
    iter.next();
    assert_eq!(format!("{iter:?}"), "{0.0/1/1: 2, 0.0/2/1: 3}");
    assert_eq!(iter.clone().len(), 2);
    let mut keys = slab.keys();
    keys.next();
    assert_eq!(
        (format!("{keys:?}"), keys.len()),
        ("[0.0/1/1, 0.0/2/1]".into(), 2)
    );
    let mut values = slab.values();
    values.next();
    assert_eq!(
        (format!("{values:?}"), values.clone().sum()),
        ("[2, 3]".into(), 5)
    );
    let mut iter = slab.iter_mut();
    let (_, first) = iter.next().expect("there are three");
    assert_eq!(
        (format!("{iter:?}"), iter.len()),
        ("{0.0/1/1: 2, 0.0/2/1: 3}".into(), 2)
    );
    *first = 7;
    let mut values = slab.values_mut();
    *values.next().expect("there are three") += 1;
    assert_eq!((format!("{values:?}"), values.len()), ("[2, 3]".into(), 2));
    let mut drain = slab.drain();
    assert_eq!(drain.next().map(|(_, value)| value), Some(8));
    assert_eq!(
        (format!("{drain:?}"), drain.len()),
        ("{0.0/1/1: 2, 0.0/2/1: 3}".into(), 2)
    );
    drop(drain);
    slab.insert(9)?;
    assert_eq!(format!("{:?}", slab.into_iter()), "{0.0/0/2: 9}");
    Ok(())
}

/// All values may be lent to be changed at once.
#[test]
fn values_that_are_changed_beside_each_other() -> Result<(), Refused> {
    let mut slab = Slab::try_from_iter(0..600)?;
    let mut values: Vec<&mut i32> = slab.values_mut().collect();
    values.reverse();
    for (place, value) in values.iter_mut().enumerate() {
        assert_eq!(**value + place as i32, 599);
        **value = 1;
    }
    assert_eq!(slab.values().sum::<i32>(), 600);
    let keys: Vec<Key> = slab.keys().collect();
    let [first, last] = slab
        .get_disjoint_mut([keys[0], keys[599]])
        .expect("both are live");
    (*first, *last) = (5, 6);
    assert_eq!((slab[keys[0]], slab[keys[599]]), (5, 6));
    assert_eq!(slab.get_disjoint_mut([keys[0], keys[1], keys[0]]), None);
    slab.remove(keys[1]);
    assert_eq!(slab.get_disjoint_mut([keys[0], keys[1]]), None);
    assert_eq!(slab.get_disjoint_mut([]), Some([]));
    Ok(())
}

#[test]
fn a_value_that_is_refused_comes_back() -> Result<(), Refused> {
    let mut slab = Slab::with_limits(ONE_PAGE)?;
    let values = (0..300).map(Rc::new);
    let mut values = values.collect::<Vec<_>>().into_iter();
    let error = slab.try_extend(values.by_ref()).unwrap_err();
    assert_eq!((*error.value, error.refused), (128, Refused::PagesSpent));
    assert_eq!(
        (slab.len(), values.len(), Rc::strong_count(&error.value)),
        (128, 171, 1)
    );
    assert!(error
        .to_string()
        .ends_with(&Refused::PagesSpent.to_string()));
    assert_eq!(
        format!("{error:?}"),
        "InsertError { refused: PagesSpent, .. }"
    );
    let error = slab.try_insert(error.value).unwrap_err();
    let error = slab.try_insert_in(0, error.value).unwrap_err();
    assert_eq!((*error.value, error.refused), (128, Refused::PagesSpent));
    let error = slab.try_insert_in(1, error.value).unwrap_err();
    assert_eq!((*error.value, Refused::from(error)), (128, Refused::Config));
    let gone = slab.keys().next().and_then(|key| slab.remove(key));
    assert!(gone.is_some_and(|value| slab.try_insert_in(0, value).is_ok()));
    slab.end(0)?;
    assert_eq!(
        slab.try_insert(Rc::new(1)).unwrap_err().refused,
        Refused::Ended
    );
    assert_eq!(
        slab.insert_with_key(|_| unreachable!()),
        Err(Refused::Ended)
    );
    assert_eq!(slab.vacant_entry().err(), Some(Refused::Ended));
    Ok(())
}

/// The question mark makes of each refusal what a program has for its errors.
#[test]
fn refusals_as_errors_of_a_program() {
    fn refused() -> Result<(), Refused> {
        let text = String::from("a");
        let mut slab = Slab::with_limits(ONE_PAGE)?;
        for _ in 0..300 {
            slab.try_insert(text.as_str())?;
        }
        Ok(())
    }
    fn boxed() -> Result<(), Box<dyn Error + Send + Sync>> {
        let text = Rc::new("a");
        let mut slab = Slab::with_limits(ONE_PAGE)?;
        for _ in 0..300 {
            slab.insert(&text)?;
        }
        Ok(())
    }
    assert_eq!(refused(), Err(Refused::PagesSpent));
    assert!(boxed().is_err_and(|error| error.is::<Refused>()));
}

#[test]
fn entries_that_wait_for_their_values() -> Result<(), Refused> {
    let mut slab = Slab::with_limits(ONE_PAGE)?;
    let entry = slab.vacant_entry()?;
    let key = entry.key();
    assert_eq!(format!("{entry:?}"), "VacantEntry { key: 0.0/0/1, .. }");
    let value = entry.insert((key, 1));
    value.1 += 1;
    assert_eq!((slab[key], slab.len()), ((key, 2), 1));

    // An entry that is dropped leaves its key to nobody, and its slot to the next generation.
    let entry = slab.vacant_entry()?;
    let shown = entry.key();
    drop(entry);
    assert!(slab.len() == 1 && !slab.contains(shown) && slab.remove(shown).is_none());
    let next = slab.insert_with_key(|own| (own, 3))?;
    assert_eq!((next.slot(), next.generation()), (shown.slot(), 2));
    assert_eq!(slab[next], (next, 3));

    // One that is forgotten too, as soon as there is another.
    let forgotten = slab.vacant_entry()?;
    let shown = forgotten.key();
    std::mem::forget(forgotten);
    assert!(slab.len() == 2 && slab.iter().len() == 2 && !slab.contains(shown));
    let other = slab.vacant_entry()?;
    assert_eq!(
        (other.key().slot(), other.key().generation()),
        (shown.slot(), 2)
    );
    other.insert((next, 4));
    assert_eq!((slab.len(), slab.into_iter().count()), (3, 3));
    Ok(())
}

/// If entries are dropped again and again, each uses up a generation, and in the end the page,
/// which makes way for another one.
#[test]
fn entries_that_are_dropped_use_up_their_slots() -> Result<(), Refused> {
    let mut slab = Slab::<u8>::with_limits(ONE_PAGE)?;
    for number in 0..4 * 3 * 128 {
        assert_eq!(slab.vacant_entry()?.key().serial(), number / (3 * 128));
    }
    assert!(slab.is_empty());
    Ok(())
}

#[test]
fn room_for_many() -> Result<(), Refused> {
    let small = Slab::<u64>::with_capacity(10)?;
    assert_eq!(
        (small.limits().shards, small.capacity()),
        (16, 16 * 1_048_576 * 128)
    );
    let large = Slab::<[u64; 30]>::with_capacity(1_048_577)?;
    assert_eq!(
        (large.limits().shards, large.capacity()),
        (16, 16 * 1_048_576 * 64)
    );
    for capacity in [64 * 1_048_576 * 128 + 1, usize::MAX] {
        assert_eq!(
            Slab::<u64>::with_capacity(capacity).err(),
            Some(Refused::Config)
        );
        assert_eq!(
            Store::<u64>::with_capacity(capacity).err(),
            Some(Refused::Config)
        );
    }
    assert_eq!(
        Store::<u64>::with_capacity(17 * 1_048_576 * 128)?
            .limits()
            .shards,
        17
    );
    let mut slab = Slab::with_limits(Limits {
        shards: 2,
        ..ONE_PAGE
    })?;
    slab.try_extend(0..128)?;
    assert_eq!(slab.capacity(), 256);
    slab.reserve(128)?;
    slab.reserve(0)?;
    assert_eq!(slab.reserve(129), Err(Refused::PagesSpent));
    assert_eq!(slab.reserve(usize::MAX), Err(Refused::PagesSpent));
    slab.end(0)?;
    assert_eq!((slab.capacity(), slab.len()), (128, 128));
    slab.try_extend(128..256)?;
    assert!(slab.values().copied().eq(0..256));
    Ok(())
}

#[test]
fn shrinks_to_what_has_values() -> Result<(), Refused> {
    let mut slab = Slab::try_from_iter(0..1024)?;
    let first = slab.keys().next().expect("there are some");
    slab.retain(|key, _| key == first);
    assert_eq!(
        (slab.pages(), slab.shrink_to_fit(), slab.pages()),
        (8, 7, 1)
    );
    slab.clear();
    assert_eq!((slab.shrink_to_fit(), slab.pages(), slab.len()), (1, 0, 0));
    slab.insert(1)?;
    assert_eq!(slab.pages(), 1);
    Ok(())
}

#[test]
fn defaults_are_empty() {
    let mut slab: Slab<String> = Slab::default();
    assert!(slab.is_empty() && slab.limits().shards == 16);
    slab.insert("a".into()).expect("there is room");
    let taken = std::mem::take(&mut slab);
    assert_eq!((taken.len(), slab.len()), (1, 0));
    assert!(Store::<u64>::default().is_empty());
}

/// Filled, thinned out at random and compacted again and again, a new slab gives most of its pages
/// back each time.
#[test]
fn a_new_slab_is_compacted_as_it_is() -> Result<(), Refused> {
    let mut random = Random(9);
    let mut slab = Slab::new()?;
    for round in 0..20 {
        slab.try_extend((0..20_000).map(|n| (round, n)))?;
        // Of each round one in a hundred stays, for two more rounds.
        slab.retain(|_, (of, _)| *of + 2 >= round && (*of != round || random.below(100) == 0));
        let pages = slab.pages();
        let went = slab.compact()?;
        assert!(
            4 * went >= 3 * pages,
            "round {round}: {went} of {pages} pages"
        );
    }
    assert!((450..750).contains(&slab.len()));
    Ok(())
}

#[test]
fn what_a_core_was_made_with() -> Result<(), Refused> {
    let limits = Limits {
        shards: 3,
        pages: 5,
        generations: 7,
        slots: 256,
        ..Limits::default()
    };
    let mut core = Core::new(limits)?;
    let mut slab = Slab::<u8>::with_limits(limits)?;
    let store = Store::<u8>::with_limits(limits)?;
    assert_eq!(
        (core.limits(), slab.limits(), store.limits()),
        (limits, limits, limits)
    );
    slab.end(2)?;
    assert_eq!(
        [0, 1, 2, 3].map(|shard| slab.is_ended(shard)),
        [false, false, true, false]
    );
    assert!(core.end(3).is_err() && !core.is_ended(3) && !core.is_ended(u32::MAX));
    assert_eq!(
        (core.begin(3), core.begin(0)),
        (Err(Refused::Config), Err(Refused::Running))
    );
    assert_eq!((slab.begin(2), slab.is_ended(2)), (Ok(()), false));
    assert_eq!(slab.begin(2), Err(Refused::Running));
    for word in 0..300 {
        core.insert(0, word)?;
    }
    assert_eq!(format!("{core:?}"), "Core { pages: 2, len: 300, .. }");
    assert!(core.into_iter().map(|(key, _)| key).eq(core.keys()));
    Ok(())
}

/// A slab may be read by many threads at once.
#[test]
fn behind_a_lock_for_readers() -> Result<(), Refused> {
    let slab = RwLock::new(Slab::try_from_iter(0..10_000_u64)?);
    let sum = || {
        let slab = slab.read().expect("no thread panicked");
        assert_eq!((slab.pages(), slab.len()), (79, 10_000));
        assert_eq!(slab.certificate(), Ok(None));
        slab.keys().filter_map(|key| slab.get(key)).sum::<u64>()
    };
    thread::scope(|scope| {
        let readers: Vec<_> = (0..4).map(|_| scope.spawn(sum)).collect();
        for reader in readers {
            assert_eq!(reader.join().expect("no thread panicked"), 49_995_000);
        }
    });
    Ok(())
}

/// The values of an iterator may be taken by another thread than that which has the slab.
#[test]
fn iterators_go_to_other_threads() -> Result<(), Refused> {
    let mut slab = Slab::try_from_iter(0..1000_u64)?;
    thread::scope(|scope| {
        let values = slab.values_mut();
        scope.spawn(|| values.for_each(|value| *value *= 2));
    });
    let sum = thread::scope(|scope| {
        let values = slab.values();
        scope.spawn(|| values.sum::<u64>()).join()
    });
    assert_eq!(sum.expect("no thread panicked"), 999_000);
    let values = slab.into_iter();
    let count = thread::spawn(|| values.count()).join();
    assert_eq!(count.expect("no thread panicked"), 1000);
    Ok(())
}

#[test]
fn a_store_puts_where_there_is_room() -> Result<(), Refused> {
    let mut store = Store::with_limits(Limits {
        shards: 3,
        pages: 1,
        slots: 256,
        ..Limits::default()
    })?;
    assert_eq!(store.capacity(), 48);
    let keys = (0..48_u8)
        .map(|n| store.insert([n; 250]))
        .collect::<Result<Vec<_>, _>>()?;
    assert_eq!(store.insert([1; 250]), Err(Refused::PagesSpent));
    assert_eq!(store.try_extend([[1; 250]]), Err(Refused::PagesSpent));
    assert_eq!([0, 20, 40].map(|place| keys[place].shard()), [0, 1, 2]);
    store.remove(keys[3]);
    assert_eq!(store.insert([3; 250])?.shard(), 0);
    store.end(0)?;
    assert_eq!(
        (store.capacity(), store.insert([1; 250])),
        (32, Err(Refused::PagesSpent))
    );
    store.remove(keys[20]);
    assert_eq!(store.insert([4; 250])?.shard(), 1);
    for shard in 1..3 {
        store.end(shard)?;
    }
    assert_eq!(store.insert([1; 250]), Err(Refused::Ended));
    assert_eq!((store.len(), store.get(keys[47])), (48, Some([47; 250])));
    // A shard that begins again has its page to give.
    store.begin(1)?;
    let again = store.insert([5; 250])?;
    assert!(again.shard() == 1 && !keys.contains(&again));
    assert_eq!((store.capacity(), store.get(again)), (16, Some([5; 250])));
    Ok(())
}

/// The first shard that has room takes a value of a slab: also one that was passed over, once one
/// of its values is gone, or it has adopted a page with room.
#[test]
fn a_slab_puts_where_there_is_room() -> Result<(), Refused> {
    let few = |shards, pages| Limits {
        shards,
        pages,
        ..Limits::default()
    };
    let mut slab = Slab::with_limits(few(3, 1))?;
    let keys = (0..48_u8)
        .map(|n| slab.insert([n; 2000]))
        .collect::<Result<Vec<_>, _>>()?;
    assert_eq!([0, 20, 40].map(|place| keys[place].shard()), [0, 1, 2]);
    for place in [40, 3, 20] {
        assert!(slab.remove(keys[place]).is_some());
    }
    let shards = [(); 3].map(|()| slab.insert([7; 2000]).map(Key::shard));
    assert_eq!(shards, [Ok(0), Ok(1), Ok(2)]);
    assert_eq!(slab.insert([7; 2000]), Err(Refused::PagesSpent));

    let mut slab = Slab::with_limits(few(2, 2))?;
    let keys = (0..33_u8)
        .map(|n| slab.insert([n; 2000]))
        .collect::<Result<Vec<_>, _>>()?;
    // A full page goes from the first shard to the second, and one with room comes.
    assert_eq!((slab.retire(1, 1)?, slab.retire(0, 1)?), (1, 1));
    let full = slab.adopt(1)?;
    let roomy = slab.adopt(0)?;
    assert_eq!((full.shard(), roomy.shard(), slab.pages()), (0, 1, 3));
    for n in 33..48 {
        slab.insert([n; 2000])?;
    }
    assert_eq!((slab.len(), slab.pages()), (48, 3));
    // The other shard opens a page, and is passed over once the first one has room again.
    slab.insert([48; 2000])?;
    assert_eq!(slab.pages(), 4);
    assert_eq!(slab.remove(keys[32]), Some([32; 2000]));
    let again = slab.insert([49; 2000])?;
    assert_eq!((again.shard(), again.serial(), again.slot()), (1, 0, 0));
    Ok(())
}

/// The shards of a new store take turns, and their keys are numbers of 64 bits.
#[test]
fn shards_take_turns() -> Result<(), Refused> {
    // A turn is over with the first of 16 values on a page.
    const TURN: usize = 1024 * 16 + 1;
    let mut store = Store::new()?;
    for number in 0..16 * TURN {
        let key = store.insert([number; 32])?;
        assert_eq!(key.shard() as usize, number / TURN);
        assert!(key.to_u64(KeyBits::BALANCED).is_some());
    }
    let key = store.insert([7; 32])?;
    assert_eq!((key.shard(), key.serial(), key.slot()), (0, 1024, 1));
    Ok(())
}

#[test]
fn values_of_a_store_that_know_their_keys() -> Result<(), Refused> {
    let mut store = Store::with_limits(ONE_PAGE)?;
    // A key and 200 bytes take 14 words, so 18 of them fill a page.
    let keys = (0..18_u32)
        .map(|n| store.insert_with_key(|own| (own, [n; 50])))
        .collect::<Result<Vec<_>, _>>()?;
    assert!(keys
        .iter()
        .zip(0..)
        .all(|(key, n)| store.get(*key) == Some((*key, [n; 50]))));
    assert_eq!(
        store.insert_with_key(|_| unreachable!()),
        Err(Refused::PagesSpent)
    );
    assert_eq!((store.len(), store.iter().count()), (18, 18));
    Ok(())
}

#[test]
fn room_in_a_store() -> Result<(), Refused> {
    assert_eq!(Store::<u64>::with_capacity(1)?.limits().shards, 16);
    assert_eq!(
        Store::<[u8; 64]>::with_capacity(1_073_741_825)?
            .limits()
            .shards,
        17
    );
    // 85 values of 48 bytes share a page, of which 64 shards may have 67,108,864.
    assert_eq!(
        Store::<[u8; 48]>::with_capacity(5_704_253_440)?
            .limits()
            .shards,
        64
    );
    assert_eq!(
        Store::<[u8; 48]>::with_capacity(5_704_253_441).err(),
        Some(Refused::Config)
    );
    assert_eq!(Store::<[u8; 48]>::new()?.capacity(), 16 * 1_048_576 * 85);
    Ok(())
}

/// A store beside a map of std: what stays, in which order, and what its iterators say.
#[test]
fn a_store_as_a_map() -> Result<(), Refused> {
    let mut random = Random(3);
    let mut store = Store::new()?;
    let mut map = BTreeMap::new();
    for round in 0..30 {
        for _ in 0..random.below(3000) {
            let value = [random.next(); 3];
            assert_eq!(map.insert(store.insert(value)?, value), None);
        }
        let odds = 2 + random.next() % 5;
        store.retain(|key, value| {
            assert_eq!(map.get(&key), Some(&value));
            value[0] % odds == 0
        });
        map.retain(|_, value| value[0] % odds == 0);
        let pages = store.pages();
        let went = if round % 3 == 0 {
            store.compact()?
        } else {
            store.shrink_to_fit()
        };
        assert_eq!(store.pages() + went, pages);
        assert_eq!((store.len(), store.iter().len()), (map.len(), map.len()));
        assert!(store
            .iter()
            .eq(map.iter().map(|(key, value)| (*key, *value))));
        assert!(store.keys().eq(map.keys().copied()) && store.values().eq(map.values().copied()));
        assert!(map.keys().all(|key| store.contains_key(*key)));
        if round % 10 == 9 {
            let half = map.len() / 2;
            assert!(store
                .drain()
                .take(half)
                .eq(std::mem::take(&mut map).into_iter().take(half)));
            assert!(store.is_empty());
        }
    }
    Ok(())
}

#[test]
fn loops_over_a_store() -> Result<(), Refused> {
    let mut store = Store::try_from_iter([3_u32, 4, 5])?;
    let mut sum = 0;
    for (key, value) in &store {
        assert_eq!(store.get(key), Some(value));
        sum += value;
    }
    assert_eq!(sum, 12);
    let mut iter = store.iter();
    iter.next();
    assert_eq!(format!("{iter:?}"), "{0.0/1/1: 4, 0.0/2/1: 5}");
    assert_eq!(format!("{:?}", store.keys()), "[0.0/0/1, 0.0/1/1, 0.0/2/1]");
    assert_eq!(
        (format!("{:?}", store.values()), store.values().len()),
        ("[3, 4, 5]".into(), 3)
    );
    let mut drain = store.drain();
    assert_eq!(
        (drain.next().map(|(_, value)| value), drain.len()),
        (Some(3), 2)
    );
    assert_eq!(format!("{drain:?}"), "{0.0/1/1: 4, 0.0/2/1: 5}");
    std::mem::forget(drain);
    assert_eq!(store.len(), 2);
    store.clear();
    assert!(store.is_empty() && store.pages() == 1);
    store.insert(6)?;
    let mut values = store.into_iter();
    assert_eq!(
        (format!("{values:?}"), values.len()),
        ("{0.0/0/2: 6}".into(), 1)
    );
    assert_eq!(values.next().map(|(_, value)| value), Some(6));
    assert!(values.next().is_none() && values.len() == 0);
    Ok(())
}
