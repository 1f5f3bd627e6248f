//! Bytes of each number, plain values of each size, and what is refused of them.

use teurlaks::{BytesKey, Core, Limits, Refused, Store};

/// Bytes that tell their number and place.
fn bytes(len: usize) -> Vec<u8> {
    (0..len).map(|place| (7 * len + place) as u8).collect()
}

#[test]
fn what_comes_back_is_what_went_in() -> Result<(), Refused> {
    let mut core = Core::new(Limits::default())?;
    let keys: Vec<BytesKey> = (1..=256)
        .map(|len| core.insert_bytes(0, &bytes(len)))
        .collect::<Result<_, _>>()?;
    for (place, key) in keys.iter().enumerate() {
        let len = place + 1;
        assert_eq!(key.len(), len);
        assert_eq!(core.get_bytes(*key).as_deref(), Some(&*bytes(len)));
        // The object has as few words as hold them, and zeros after them.
        let words = core.get_words(key.key()).expect("the key is live");
        assert_eq!(words.len(), (len + 15) / 16);
        assert!(words.as_bytes()[len..].iter().all(|byte| *byte == 0));
        assert_eq!(words.word(), core.get(key.key()));
    }
    // 16 of each number of words are on a page of their own.
    assert_eq!((core.len(), core.pages()), (256, 16));
    assert!(keys.iter().all(|key| core.free(key.key())));
    assert!(keys.iter().all(|key| core.get_bytes(*key).is_none()));
    Ok(())
}

#[test]
fn other_numbers_are_refused() -> Result<(), Refused> {
    let mut core = Core::new(Limits::default())?;
    assert_eq!(core.insert_bytes(0, &[]), Err(Refused::Config));
    assert_eq!(core.insert_bytes(0, &[0; 257]), Err(Refused::Config));
    let key = core.insert_words(0, &[1; 16])?;
    for len in [0, 17, 18, 256] {
        assert_eq!(core.insert_words(0, &vec![0; len]), Err(Refused::Config));
        assert_eq!(core.set_words(key, &vec![0; len]), Err(Refused::Config));
    }
    assert_eq!(core.get_words(key).as_deref(), Some(&[1; 16][..]));
    assert_eq!(core.len(), 1);
    Ok(())
}

/// Pages of objects of different width are never folded onto each other, and those of one width
/// are.
#[test]
fn folds_are_within_a_width() -> Result<(), Refused> {
    let mut core = Core::new(Limits {
        shards: 2,
        ..Limits::default()
    })?;
    for len in (16..=256).step_by(16) {
        let stale = core.insert_bytes(0, &bytes(len))?;
        let kept = core.insert_bytes(0, &bytes(len))?;
        core.free(stale.key());
        core.insert_bytes(1, &bytes(len))?;
        assert_eq!(core.get_bytes(kept).as_deref(), Some(&*bytes(len)));
    }
    core.end(0)?;
    assert_eq!(core.pages(), 32);
    assert_eq!((core.mesh()?, core.pages(), core.len()), (16, 16, 32));
    // The pool's only page has objects of four words now, and shard 1 has none of that width.
    let mut other = Core::new(Limits {
        shards: 2,
        ..Limits::default()
    })?;
    other.insert_bytes(0, &bytes(64))?;
    other.insert_bytes(1, &bytes(48))?;
    other.insert_bytes(1, &bytes(80))?;
    other.end(0)?;
    assert_eq!((other.mark()?.folds, other.pages()), (0, 3));
    Ok(())
}

fn round_trip<T: Copy + PartialEq + std::fmt::Debug>(value: T, other: T) -> Result<(), Refused> {
    let mut store = Store::new()?;
    let stale = store.insert(other)?;
    let key = store.insert(value)?;
    assert_eq!(store.remove(stale), Some(other));
    assert_eq!((store.get(stale), store.get(key)), (None, Some(value)));
    assert_eq!(store.iter().collect::<Vec<_>>(), [(key, value)]);
    assert_eq!((store.len(), store.pages()), (1, 1));
    Ok(())
}

#[test]
fn plain_values_of_each_size() -> Result<(), Refused> {
    #[derive(Clone, Copy, Debug, PartialEq)]
    struct Padded {
        small: u8,
        large: u64,
        even: Option<u16>,
    }
    round_trip(7_u8, 8)?;
    round_trip(u128::MAX, 0)?;
    round_trip("a", "b")?;
    round_trip([7_u8; 17], [8; 17])?;
    round_trip([7_u128; 16], [8; 16])?;
    let value = Padded {
        small: 1,
        large: 2,
        even: Some(3),
    };
    round_trip(
        value,
        Padded {
            even: None,
            ..value
        },
    )
}

/// Other bytes stand under the same key, if they take as many words.
#[test]
fn bytes_are_set_in_place() -> Result<(), Refused> {
    let mut core = Core::new(Limits::default())?;
    let key = core.insert_bytes(0, &[1; 17])?;
    let longer = core.set_bytes(key, &[2; 32])?.expect("both take two words");
    assert_eq!(core.set_bytes(longer, &[3; 33])?, None);
    assert_eq!(core.set_bytes(longer, &[3; 16])?, None);
    assert_eq!(core.set_bytes(longer, &[]), Err(Refused::Config));
    assert_eq!(core.get_bytes(longer).as_deref(), Some(&[2; 32][..]));
    core.free(longer.key());
    assert_eq!(core.set_bytes(longer, &[4; 32])?, None);
    Ok(())
}

/// A name may be put together of any key and number: what it finds was put under the key, with
/// zeros up to the end of its object.
#[test]
fn names_put_together() -> Result<(), Refused> {
    let mut core = Core::new(Limits::default())?;
    let name = core.insert_bytes(0, &[7; 20])?;
    let named = |len| BytesKey::from_parts(name.key(), len).expect("there may be so many");
    assert_eq!(named(20), name);
    assert_eq!(core.get_bytes(named(5)).as_deref(), Some(&[7; 5][..]));
    assert_eq!(
        core.get_bytes(named(32)).map(|bytes| bytes[20..].to_vec()),
        Some(vec![0; 12])
    );
    assert_eq!(core.get_bytes(named(33)), None);
    for len in [0, 257, usize::MAX] {
        assert_eq!(BytesKey::from_parts(name.key(), len), None);
    }
    Ok(())
}

/// What is folded stays where its key finds it.
#[test]
fn a_store_gives_pages_back() -> Result<(), Refused> {
    let mut store = Store::new()?;
    let keys: Vec<_> = (0..1024_u64)
        .map(|value| store.insert([value; 8]))
        .collect::<Result<_, _>>()?;
    let kept = |place: &usize| place % 8 == place / 64 % 8;
    for (place, key) in keys.iter().enumerate() {
        if !kept(&place) {
            store.remove(*key);
        }
    }
    assert_eq!(store.pages(), 16);
    store.retire(0, 8)?;
    assert_eq!((store.mesh()?, store.pages()), (8, 8));
    assert!((0..1024)
        .filter(kept)
        .all(|place| store.get(keys[place]) == Some([place as u64; 8])));
    Ok(())
}
