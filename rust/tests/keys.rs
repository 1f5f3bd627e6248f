//! Names: as numbers, as texts, in order, and in maps.

mod common;

use common::Random;
use std::collections::{BTreeSet, HashSet};
use std::mem::size_of;
use teurlaks::{BytesKey, Core, Key, Limits, ParseKeyError, Refused, Slab};

#[test]
fn no_key_takes_no_room_of_its_own() {
    assert_eq!((size_of::<Key>(), size_of::<Option<Key>>()), (12, 12));
    assert_eq!(
        (size_of::<BytesKey>(), size_of::<Option<BytesKey>>()),
        (16, 16)
    );
}

#[test]
fn parts_numbers_and_texts_of_any_key() {
    let mut random = Random(5);
    for _ in 0..100_000 {
        let bits = random.bits();
        let Some(key) = Key::from_bits(bits) else {
            assert_eq!(bits << 96, 0);
            continue;
        };
        assert_eq!(key.to_bits(), bits);
        let text = format!(
            "{}.{}/{}/{}",
            key.shard(),
            key.serial(),
            key.slot(),
            key.generation()
        );
        assert_eq!(
            (key.to_string(), format!("{key:?}")),
            (text.clone(), text.clone())
        );
        assert_eq!(text.parse(), Ok(key));
        let parts = [key.shard(), key.serial(), key.slot(), key.generation()].map(u128::from);
        assert_eq!(
            bits,
            parts[0] << 72 | parts[1] << 40 | parts[2] << 32 | parts[3]
        );
    }
}

/// A serial number has 32 bits in texts and numbers, and a key that no slab gave out finds nothing,
/// however large that is.
#[test]
fn serial_numbers_of_32_bits() -> Result<(), Refused> {
    let mut slab = Slab::new()?;
    let mut core = Core::new(Limits::default())?;
    let live = (slab.insert("a")?, core.insert(0, 7)?);
    for serial in [
        1,
        1023,
        1024,
        65_535,
        65_536,
        16_777_216,
        u32::MAX - 1,
        u32::MAX,
    ] {
        let text = format!("0.{serial}/0/1");
        let key: Key = text.parse().expect("a serial number has 32 bits");
        assert_eq!((key.serial(), key.to_string()), (serial, text));
        assert_eq!(Key::from_bits(key.to_bits()), Some(key));
        assert!(slab.get(key).is_none() && slab.remove(key).is_none());
        assert!(core.get(key).is_none() && !core.free(key));
        assert!(!core.set(key, 8)? && key > live.0);
    }
    assert_eq!((slab.get(live.0), core.get(live.1)), (Some(&"a"), Some(7)));
    Ok(())
}

#[test]
fn texts_of_another_form() {
    let texts = [
        "",
        "0",
        "0.0",
        "0.0/0",
        "0/0/0/1",
        "0.0/0/1/",
        "0.0/0/1/1",
        "0.0.0/0/1",
        " 0.0/0/1",
        "0.0/0/1\n",
        "+0.0/0/1",
        "0.-0/0/1",
        "00.0/0/1",
        "0.01/0/1",
        "0.0/0/01",
        "0.0/0/",
        ".0/0/1",
        "0./0/1",
        "0.0//1",
        "0.0/0/1x",
        "0.0/0/0x1",
        "0.0/٣/1",
    ];
    for text in texts {
        assert_eq!(text.parse::<Key>(), Err(ParseKeyError::Form), "{text}");
    }
}

#[test]
fn numbers_that_no_key_has() {
    for text in [
        "256.0/0/1",
        "0.4294967296/0/1",
        "0.0/256/1",
        "0.0/0/0",
        "0.0/0/4294967296",
        "0.0/0/99999999999999999999999",
    ] {
        assert_eq!(text.parse::<Key>(), Err(ParseKeyError::Range), "{text}");
    }
    let greatest = "255.4294967295/255/4294967295".parse::<Key>();
    assert_eq!(greatest.map(Key::to_bits), Ok(u128::MAX >> 48));
    assert_eq!(
        (Key::from_bits(1 << 80 | 1), Key::from_bits(u128::MAX << 32)),
        (None, None)
    );
    assert!(ParseKeyError::Form
        .to_string()
        .contains("shard.serial/slot/generation"));
    assert!(ParseKeyError::Range.to_string().contains("generation is 0"));
}

/// Keys are in the order of walks, whichever of their parts are large.
#[test]
fn in_the_order_of_a_walk() -> Result<(), Refused> {
    let mut core = Core::new(Limits {
        shards: 3,
        ..Limits::default()
    })?;
    let mut keys = Vec::new();
    for word in 0..1500_u32 {
        keys.push(core.insert(word % 3, word.into())?);
    }
    for key in keys.iter().step_by(3) {
        core.free(*key);
        keys_are_in_order(&core);
        core.insert(key.shard(), 7)?;
    }
    keys_are_in_order(&core);
    Ok(())
}

fn keys_are_in_order(core: &Core) {
    let walked: Vec<Key> = core.keys().take(50).collect();
    assert!(walked.windows(2).all(|pair| pair[0] < pair[1]));
    let sorted: BTreeSet<Key> = walked.iter().copied().collect();
    assert!(sorted.into_iter().eq(walked));
}

#[test]
fn in_a_map_that_hashes() -> Result<(), Refused> {
    let mut slab = Slab::new()?;
    let keys = (0..3000)
        .map(|n| slab.insert(n))
        .collect::<Result<HashSet<_>, _>>()?;
    assert!(keys.len() == 3000 && slab.keys().all(|key| keys.contains(&key)));
    let key = slab.keys().next().expect("there are some");
    slab.remove(key);
    let next = slab.insert(7)?;
    assert_eq!((next.slot(), next.generation()), (key.slot(), 2));
    assert!(!keys.contains(&next));
    Ok(())
}

#[test]
fn groups_tell_their_parts() -> Result<(), Refused> {
    let mut core = Core::new(Limits {
        shards: 2,
        ..Limits::default()
    })?;
    core.insert(1, 7)?;
    core.end(1)?;
    let group = core.adopt(0)?;
    assert_eq!(
        (group.shard(), group.serial(), group.to_string()),
        (1, 0, "1.0".into())
    );
    Ok(())
}
