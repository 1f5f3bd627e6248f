//! Many values by one call are as many by so many calls.

use teurlaks::{Core, Key, Limits, Refused};

const LIMITS: Limits = Limits {
    shards: 2,
    pages: 4,
    generations: 9,
    spans: u32::MAX,
    slots: 256,
};

#[test]
fn gives_the_keys_of_so_many_calls() {
    let (mut core, mut twin) = (Core::new(LIMITS).unwrap(), Core::new(LIMITS).unwrap());
    let words: Vec<u128> = (0..300).map(|word| word << 64 | word).collect();
    let mut keys = Vec::new();
    core.insert_many(1, &words, &mut keys).unwrap();
    let one_by_one: Vec<Key> = words
        .iter()
        .map(|word| twin.insert(1, *word).unwrap())
        .collect();
    assert_eq!(keys, one_by_one);
    assert_eq!(core.len(), 300);
    assert!(core
        .get_many(&keys)
        .eq(words.iter().map(|word| Some(*word))));

    assert_eq!(core.free_many(&keys[100..250]), 150);
    assert_eq!(core.free_many(&keys[..200]), 100);
    assert_eq!(core.len(), 50);
    let left = |at: usize| (at >= 250).then_some(words[at]);
    assert!(core.get_many(&keys).eq((0..300).map(left)));
    assert_eq!(core.keys().collect::<Vec<_>>(), keys[250..]);
}

#[test]
fn keeps_what_comes_before_a_refusal() {
    let mut core = Core::new(LIMITS).unwrap();
    let words: Vec<u128> = (0..2000).collect();
    let mut keys = Vec::new();
    assert_eq!(
        core.insert_many(0, &words, &mut keys),
        Err(Refused::PagesSpent)
    );
    assert_eq!((keys.len(), core.len()), (1024, 1024));
    assert!(core.get_many(&keys).eq((0..1024).map(Some)));
    assert_eq!(core.insert_many(2, &words, &mut keys), Err(Refused::Config));
    core.end(1).unwrap();
    assert_eq!(core.insert_many(1, &words, &mut keys), Err(Refused::Ended));
    assert_eq!(keys.len(), 1024);
}

#[test]
fn a_wider_object_is_none() {
    let mut core = Core::new(LIMITS).unwrap();
    let wide = core.insert_words(0, &[1, 2, 3, 4]).unwrap();
    let one = core.insert(0, 5).unwrap();
    assert!(core.get_many(&[wide, one]).eq([None, Some(5)]));
    assert_eq!(core.insert_many(0, &[], &mut Vec::new()), Ok(()));
    assert_eq!(core.free_many(&[]), 0);
}

/// Pages of many words are folded as those of one by one: so few are live on each that all would
/// fit a few pages, if it is known that 256 share one.
#[test]
fn many_words_are_folded() {
    let mut core = Core::new(Limits::default()).unwrap();
    let (words, mut keys) = (vec![7; 64 * 256], Vec::new());
    core.insert_many(0, &words, &mut keys).unwrap();
    let goes = |key: &Key| key.slot() / 16 != key.serial() % 16;
    let gone: Vec<Key> = keys.iter().copied().filter(goes).collect();
    assert_eq!(core.free_many(&gone), 64 * 240);
    assert!(core.compact().unwrap() > 48);
    assert_eq!(core.len(), 64 * 16);
}
