//! Keys as numbers of 64 bits.

use teurlaks::{Key, KeyBits};

fn number(key: &str, bits: KeyBits) -> Option<u64> {
    let key: Key = key.parse().expect("a key");
    let number = key.to_u64(bits)?.get();
    assert_eq!(Key::from_u64(bits, number), Some(key));
    let index = key.to_usize(bits).map_or(0, |index| index.get());
    assert_eq!(
        (index as u64, Key::from_usize(bits, index)),
        (number, Some(key))
    );
    Some(number)
}

#[test]
fn a_number_has_the_bits_of_the_parts() {
    let bits = KeyBits::BALANCED;
    assert_eq!(number("0.0/0/1", bits), Some(1 << 40));
    assert_eq!(number("3.17/255/1", bits), Some(0x0130_0000_11ff));
    assert_eq!(number("15.268435455/255/16777215", bits), Some(u64::MAX));
    assert_eq!(
        number("7.262143/255/16777215", KeyBits::EXACT_IN_DOUBLE),
        Some((1 << 53) - 1)
    );
}

#[test]
fn a_key_beyond_its_layout_has_no_number() {
    for key in ["16.0/0/1", "0.268435456/0/1", "0.0/0/16777216"] {
        assert_eq!(number(key, KeyBits::BALANCED), None);
    }
    assert!(number("63.0/0/1", KeyBits::MANY_SHARDS).is_some());
    assert!(number("0.0/0/4294967295", KeyBits::MANY_GENERATIONS).is_some());
}

#[test]
fn a_number_of_no_key_is_refused() {
    for number in [0, 1, (1 << 40) - 1] {
        assert_eq!(Key::from_u64(KeyBits::BALANCED, number), None);
        assert_eq!(Key::from_usize(KeyBits::BALANCED, number as usize), None);
    }
    assert_eq!(Key::from_u64(KeyBits::EXACT_IN_DOUBLE, 1 << 53), None);
}

#[test]
fn a_layout_takes_64_bits_at_most() {
    assert_eq!(KeyBits::new(4, 28, 24), Some(KeyBits::BALANCED));
    assert_eq!(KeyBits::new(4, 28, 25), None);
    assert_eq!(KeyBits::new(0, 33, 0), None);
    assert_eq!(KeyBits::new(255, 255, 255), None);
    assert_eq!(
        KeyBits::for_limits(16, 1 << 28, (1 << 24) - 1),
        Some(KeyBits::BALANCED)
    );
    assert_eq!(KeyBits::for_limits(64, u32::MAX, u32::MAX), None);
}
