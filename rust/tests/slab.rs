//! The tests of the crate `slab` 0.4 (MIT), where the two agree.
//!
//! Left out, since there is nothing to stand beside them: `key_of`, `compact` (which gives values
//! other keys there), `from_iter` with keys of the caller's, `clone`, what is allocated when (pages
//! come and go by themselves), reversed iterators, iteration in the order of keys, and that a key
//! is an index that another slab may share. Where `slab` panics at a key that is not live, or gives
//! another value, this crate answers `None`; `slab[key]` panics in both.

use teurlaks::{Key, Limits, Refused, Slab};

#[test]
fn insert_get_remove_one() -> Result<(), Refused> {
    let mut slab = Slab::new()?;
    assert!(slab.is_empty());
    let key = slab.insert(10)?;
    assert_eq!(slab[key], 10);
    assert_eq!(slab.get(key), Some(&10));
    assert!(!slab.is_empty());
    assert!(slab.contains(key));
    assert_eq!(slab.remove(key), Some(10));
    assert!(!slab.contains(key));
    assert!(slab.get(key).is_none());
    Ok(())
}

#[test]
fn insert_get_many() -> Result<(), Refused> {
    let mut slab = Slab::with_limits(Limits {
        pages: 1,
        ..Limits::default()
    })?;
    for i in 0..11 {
        let key = slab.insert(i + 10)?;
        assert_eq!(slab[key], i + 10);
    }
    assert_eq!(slab.len(), 11);
    Ok(())
}

#[test]
fn insert_get_remove_many() -> Result<(), Refused> {
    let mut slab = Slab::new()?;
    for i in 0..10 {
        let mut keys = Vec::new();
        for j in 0..10 {
            let key = slab.insert(i * 10 + j)?;
            keys.push((key, i * 10 + j));
            assert_eq!(slab[key], i * 10 + j);
        }
        assert!(keys
            .iter()
            .all(|(key, value)| slab.remove(*key) == Some(*value)));
    }
    // No slot beyond the first ten was used.
    assert_eq!(slab.pages(), 1);
    Ok(())
}

#[test]
fn insert_with_vacant_entry() -> Result<(), Refused> {
    let mut slab = Slab::with_capacity(1)?;
    let entry = slab.vacant_entry()?;
    let key = entry.key();
    entry.insert(123);
    assert_eq!(slab[key], 123);
    Ok(())
}

/// In `slab` both have one key; here no key is shown twice.
#[test]
fn get_vacant_entry_without_using() -> Result<(), Refused> {
    let mut slab = Slab::<usize>::with_capacity(1)?;
    let key = slab.vacant_entry()?.key();
    assert_ne!(slab.vacant_entry()?.key(), key);
    assert!(slab.is_empty());
    Ok(())
}

/// Of `slab_get_mut` and `slab_get_mut_removed`.
#[test]
fn get_mut() -> Result<(), Refused> {
    let mut slab = Slab::new()?;
    let key = slab.insert(1)?;
    slab[key] = 2;
    assert_eq!(slab[key], 2);
    *slab.get_mut(key).expect("the key is live") = 3;
    assert_eq!(slab[key], 3);
    slab.remove(key);
    assert_eq!(slab.get_mut(key), None);
    Ok(())
}

#[test]
#[should_panic(expected = "the key is not live")]
fn invalid_index_panics() {
    let mut slab = Slab::new().expect("there is memory");
    let key = slab.insert(1).expect("there is room");
    slab.remove(key);
    let _ = slab[key];
}

/// `slab` panics here (`double_remove_panics`), and where the slot was taken again it removes the
/// new value.
#[test]
fn double_remove_finds_nothing() -> Result<(), Refused> {
    let mut slab = Slab::new()?;
    let key = slab.insert(123)?;
    assert_eq!((slab.remove(key), slab.remove(key)), (Some(123), None));
    let other = slab.insert(456)?;
    assert_eq!(slab.remove(key), None);
    assert_eq!(slab.get(other), Some(&456));
    Ok(())
}

/// Of `invalid_get_panics` and `invalid_remove_panics`.
#[test]
fn invalid_key_finds_nothing() -> Result<(), Refused> {
    let mut slab = Slab::new()?;
    slab.insert(1)?;
    let key = Key::from_bits(0x0001_0000_0001).expect("its generation is 1");
    assert_eq!(slab.get(key), None);
    assert_eq!(slab.remove(key), None);
    assert_eq!(slab.len(), 1);
    Ok(())
}

#[test]
fn retain() -> Result<(), Refused> {
    let mut slab = Slab::new()?;
    let keys = (0..4)
        .map(|i| slab.insert(i))
        .collect::<Result<Vec<_>, _>>()?;
    slab.retain(|_, value| *value % 2 == 0);
    assert_eq!(slab.len(), 2);
    assert_eq!(
        (slab.get(keys[0]), slab.get(keys[1]), slab.get(keys[2])),
        (Some(&0), None, Some(&2))
    );
    // Vacant places are taken again.
    slab.insert(4)?;
    slab.insert(5)?;
    assert_eq!((slab.len(), slab.pages()), (4, 1));
    Ok(())
}

#[test]
fn iter_and_iter_mut() -> Result<(), Refused> {
    let mut slab = Slab::new()?;
    let keys = (0..4)
        .map(|i| slab.insert(i))
        .collect::<Result<Vec<_>, _>>()?;
    assert!(slab.iter().eq(keys.iter().copied().zip(&[0, 1, 2, 3])));
    for (_, value) in slab.iter_mut() {
        *value += 1;
    }
    assert!(slab.values().eq(&[1, 2, 3, 4]));
    slab.remove(keys[1]);
    assert!(slab.values().eq(&[1, 3, 4]));
    assert!(slab.keys().eq([keys[0], keys[2], keys[3]]));
    Ok(())
}

#[test]
fn into_iter() -> Result<(), Refused> {
    let mut slab = Slab::new()?;
    let keys = (0..8)
        .map(|i| slab.insert(i))
        .collect::<Result<Vec<_>, _>>()?;
    for place in [0, 4, 5, 7] {
        slab.remove(keys[place]);
    }
    let values: Vec<_> = slab
        .into_iter()
        .inspect(|(key, value)| assert_eq!(*key, keys[*value]))
        .map(|(_, value)| value)
        .collect();
    assert_eq!(values, [1, 2, 3, 6]);
    Ok(())
}

#[test]
fn clear() -> Result<(), Refused> {
    let mut slab = Slab::new()?;
    for i in 0..4 {
        slab.insert(i)?;
    }
    slab.clear();
    assert!(slab.is_empty() && slab.iter().next().is_none());
    // The cleared places are taken again.
    for i in 0..4 {
        slab.insert(i)?;
    }
    assert_eq!((slab.len(), slab.pages()), (4, 1));
    Ok(())
}

/// Of `fully_consumed_drain` and `partially_consumed_drain`; a key comes with each value here.
#[test]
fn drain() -> Result<(), Refused> {
    let mut slab = Slab::new()?;
    let keys = (0..3)
        .map(|i| slab.insert(i))
        .collect::<Result<Vec<_>, _>>()?;
    assert!(slab.drain().eq(keys.iter().copied().zip(0..3)));
    assert!(slab.is_empty() && keys.iter().all(|key| slab.get(*key).is_none()));
    for i in 0..3 {
        slab.insert(i)?;
    }
    assert_eq!(slab.drain().next().map(|(_, value)| value), Some(0));
    assert!(slab.is_empty() && slab.iter().next().is_none());
    Ok(())
}

#[test]
fn debug() -> Result<(), Refused> {
    let mut slab = Slab::new()?;
    slab.insert('a')?;
    slab.insert('b')?;
    assert_eq!(format!("{slab:?}"), "{0.0/0/1: 'a', 0.0/1/1: 'b'}");
    Ok(())
}
