//! Values of each width: each is found again, on pages that as many share as fit.

use teurlaks::{Arena, Core, Key, Limits, Refused, SharedStore, Store};

/// How many values of so many bytes share a page of 256 words.
const fn slots(bytes: usize) -> usize {
    256 / ((bytes + 15) / 16)
}

/// Bytes that tell their number and their value's.
fn value<const BYTES: usize>(number: usize) -> [u8; BYTES] {
    std::array::from_fn(|place| (31 * number + 7 * place + BYTES) as u8)
}

/// A page has its values, and one more opens another page. Each is found, also behind a fold.
fn in_a_store<const BYTES: usize>() -> Result<(), Refused> {
    let mut store = Store::with_limits(Limits {
        shards: 2,
        slots: 256,
        ..Limits::default()
    })?;
    let full = slots(BYTES);
    let keys: Vec<Key> = (0..=full)
        .map(|number| {
            assert_eq!(store.pages(), number.min(1));
            store.insert_in(0, value::<BYTES>(number))
        })
        .collect::<Result<_, _>>()?;
    assert_eq!((store.pages(), store.len()), (2, full + 1));
    assert_eq!(store.capacity(), 2 * 1_048_576 * full);
    let finds = |store: &Store<[u8; BYTES]>, number: usize| {
        assert_eq!(store.get(keys[number]), Some(value(number)));
    };
    (0..=full).for_each(|number| finds(&store, number));

    // The last value of the first page and the only one of the second fit on one page.
    for key in &keys[..full - 1] {
        assert!(store.free(*key));
    }
    assert!(store.set(keys[full - 1], value(full - 1))?);
    store.retire(0, 1)?;
    assert_eq!((store.mesh()?, store.pages()), (1, 1));
    finds(&store, full - 1);
    finds(&store, full);
    assert_eq!(store.remove(keys[full]), Some(value(full)));
    assert_eq!((store.get(keys[full]), store.get(keys[0])), (None, None));
    Ok(())
}

/// The same without a fold, from one thread.
fn shared<const BYTES: usize>() -> Result<(), Refused> {
    let limits = Limits {
        shards: 1,
        pages: 2,
        slots: 256,
        ..Limits::default()
    };
    let (store, mut arena) = (SharedStore::with_limits(limits)?, Arena::open(limits)?);
    let mut seat = arena.seat()?;
    for number in 0..2 * slots(BYTES) {
        let key = store.insert(value::<BYTES>(number))?;
        assert_eq!(store.get(key), Some(value(number)));
        let key = seat.insert(value::<BYTES>(number))?;
        assert_eq!(seat.get(key), Some(value(number)));
        assert!(seat.set(key, value(number + 1))?);
        assert_eq!(seat.get(key), Some(value(number + 1)));
    }
    assert_eq!(store.insert(value(0)), Err(Refused::PagesSpent));
    assert_eq!(seat.insert(value(0)), Err(Refused::PagesSpent));
    assert_eq!((store.pages(), arena.totals().pages), (2, 2));
    Ok(())
}

macro_rules! of_each {
    ($call:ident: $($bytes:literal)*) => {
        $($call::<$bytes>()?;)*
    };
}

#[test]
fn values_of_a_store() -> Result<(), Refused> {
    of_each!(in_a_store: 1 15 16 17 31 32 33 47 48 49 64 65 80 81 96 97 112 113 128 129 144 145);
    of_each!(in_a_store: 160 161 176 177 192 193 208 209 224 225 239 240 241 255 256);
    Ok(())
}

#[test]
fn values_that_threads_share() -> Result<(), Refused> {
    of_each!(shared: 1 16 17 32 33 48 49 64 65 80 81 96 97 112 113 128 129 144 145);
    of_each!(shared: 160 161 176 177 192 193 208 209 224 225 240 241 256);
    Ok(())
}

/// Objects of all widths in one shard: each page has those of one, and each key finds its own.
#[test]
fn objects_of_all_widths() -> Result<(), Refused> {
    let mut core = Core::new(Limits {
        slots: 256,
        ..Limits::default()
    })?;
    let words = |len: usize, number: usize| vec![(number << 8 | len) as u128; len];
    let mut keys = Vec::new();
    for number in 0..=85 {
        for len in 1..=16 {
            keys.push((core.insert_words(0, &words(len, number))?, len, number));
        }
    }
    let pages = (1..=16).map(|len| (86 + slots(16 * len) - 1) / slots(16 * len));
    assert_eq!(core.pages(), pages.sum::<usize>());
    for (key, len, number) in keys {
        assert_eq!(core.get_words(key).as_deref(), Some(&*words(len, number)));
        assert_eq!(core.get(key).is_some(), len == 1);
        assert!(!core.set_words(key, &words(len % 16 + 1, number))?);
        assert!(core.free(key) && !core.contains(key));
    }
    Ok(())
}
