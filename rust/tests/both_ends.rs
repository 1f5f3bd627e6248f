//! Iterators of a slab from both ends, keys of values that are lent, and keys with types of their
//! own.

mod common;

use common::Random;
use std::collections::HashSet;
use std::panic::{AssertUnwindSafe, RefUnwindSafe, UnwindSafe};
use std::rc::Rc;
use teurlaks::{new_key_type, Core, Key, Refused, SharedStore, Slab, Store, TypedSlab};

type Pairs = Vec<(Key, usize)>;

/// A slab of so many numbers of which one in three is gone, and its keys and values in order.
fn some(count: usize) -> Result<(Slab<usize>, Pairs), Refused> {
    let mut slab = Slab::try_from_iter(0..count)?;
    slab.retain(|_, value| *value % 3 != 0);
    let pairs = slab.iter().map(|(key, value)| (key, *value)).collect();
    Ok((slab, pairs))
}

/// What comes where each step is from one end or the other, at random, and how many are left each
/// time.
fn zigzag<I: DoubleEndedIterator + ExactSizeIterator>(
    mut iter: I,
    random: &mut Random,
) -> (Vec<I::Item>, Vec<I::Item>) {
    let (mut front, mut back) = (Vec::new(), Vec::new());
    let count = iter.len();
    for done in 1..=count {
        if random.below(2) == 0 {
            front.push(iter.next().expect("there is another one"));
        } else {
            back.push(iter.next_back().expect("there is another one"));
        }
        assert_eq!(iter.len(), count - done);
    }
    assert!(iter.next().is_none() && iter.next_back().is_none() && iter.next().is_none());
    (front, back)
}

fn in_order<T>((mut front, back): (Vec<T>, Vec<T>)) -> Vec<T> {
    front.extend(back.into_iter().rev());
    front
}

#[test]
fn both_ends_meet() -> Result<(), Refused> {
    let mut random = Random(7);
    for count in [0, 1, 2, 3, 200, 256, 257, 511, 513, 3000] {
        let (mut slab, pairs) = some(count)?;
        assert!(slab
            .iter()
            .rev()
            .map(|(key, value)| (key, *value))
            .eq(pairs.iter().rev().copied()));
        assert!(slab
            .keys()
            .rev()
            .eq(pairs.iter().rev().map(|(key, _)| *key)));
        assert!(slab
            .values()
            .rev()
            .eq(pairs.iter().rev().map(|(_, value)| value)));
        for _ in 0..10 {
            let met = in_order(zigzag(slab.iter(), &mut random));
            assert!(met
                .into_iter()
                .map(|(key, value)| (key, *value))
                .eq(pairs.iter().copied()));
            // All are lent at one time, each once.
            let met = in_order(zigzag(slab.iter_mut(), &mut random));
            assert_eq!(
                met.iter()
                    .map(|(key, _)| *key)
                    .collect::<HashSet<_>>()
                    .len(),
                pairs.len()
            );
            met.into_iter().for_each(|(_, value)| *value += 1);
            let met = in_order(zigzag(slab.values_mut(), &mut random));
            met.into_iter().for_each(|value| *value -= 1);
        }
        let met = in_order(zigzag(some(count)?.0.into_iter(), &mut random));
        assert_eq!(met, pairs);
        let met = in_order(zigzag(slab.drain(), &mut random));
        assert_eq!((met, slab.len()), (pairs, 0));
    }
    Ok(())
}

#[test]
fn both_ends_after_folds() -> Result<(), Refused> {
    let mut slab = Slab::try_from_iter(0..20_000)?;
    slab.retain(|_, value| *value % 37 == 0);
    slab.compact()?;
    let pairs: Vec<_> = slab.iter().map(|(key, value)| (key, *value)).collect();
    assert_eq!(pairs.len(), 541);
    assert!(slab
        .iter()
        .rev()
        .map(|(key, value)| (key, *value))
        .eq(pairs.iter().rev().copied()));
    assert!(pairs
        .iter()
        .all(|(key, value)| slab.key_of(&slab[*key]) == Some(*key) && slab[*key] == *value));
    let met = in_order(zigzag(slab.iter(), &mut Random(3)));
    assert_eq!(met.len(), 541);
    Ok(())
}

/// Values that are not asked for are dropped once, whichever end was asked.
#[test]
fn drops_each_once() -> Result<(), Refused> {
    let value = Rc::new(());
    for (front, back) in [(0, 0), (5, 0), (0, 5), (300, 299), (1, 1)] {
        let filled = || Slab::try_from_iter((0..600).map(|_| Rc::clone(&value)));
        let mut slab = filled()?;
        {
            let mut drain = slab.drain();
            (0..front).for_each(|_| drop(drain.next()));
            (0..back).for_each(|_| drop(drain.next_back()));
            assert_eq!(Rc::strong_count(&value), 601 - front - back);
        }
        assert_eq!((Rc::strong_count(&value), slab.len()), (1, 0));
        let mut all = filled()?.into_iter();
        (0..front).for_each(|_| drop(all.next()));
        (0..back).for_each(|_| drop(all.next_back()));
        assert_eq!(Rc::strong_count(&value), 601 - front - back);
        drop(all);
        assert_eq!(Rc::strong_count(&value), 1);
    }
    Ok(())
}

fn finds_keys<T>(values: impl IntoIterator<Item = T>, other: T) -> Result<(), Refused> {
    let slab = Slab::try_from_iter(values)?;
    for (key, value) in &slab {
        assert_eq!(slab.key_of(value), Some(key));
        let at: *const T = value;
        assert_eq!(slab.key_at(at.wrapping_add(1 << 30)), None);
        let within = at.cast::<u8>().wrapping_add(1);
        assert_eq!(slab.key_at(within.cast()), None);
    }
    assert_eq!(
        (slab.key_of(&other), slab.key_at(std::ptr::null())),
        (None, None)
    );
    Ok(())
}

#[test]
fn keys_of_values() -> Result<(), Refused> {
    finds_keys((0..2000).map(|n| n.to_string()), String::new())?;
    finds_keys((0..200).map(|n| [n as u8; 3000]), [0; 3000])?;
    // In blocks of their own.
    finds_keys((0..50).map(|n| [n as u8; 5000]), [0; 5000])?;
    // At one place.
    let slab = Slab::try_from_iter([(), ()])?;
    assert!(slab.values().all(|value| slab.key_of(value).is_none()));
    // A value that is gone has none, and a page that is gone has no value.
    let mut slab = Slab::new()?;
    let key = slab.insert(7_u64)?;
    let at: *const u64 = &slab[key];
    assert_eq!(slab.key_at(at), Some(key));
    slab.remove(key);
    assert_eq!(slab.key_at(at), None);
    Ok(())
}

new_key_type! {
    /// Of a player.
    struct PlayerKey;
    pub struct TeamKey;
}

#[test]
fn typed_keys() -> Result<(), Refused> {
    let mut players = TypedSlab::<PlayerKey, _>::new()?;
    let ann = players.insert("Ann")?;
    let bob = players.insert_with_key(|own| {
        assert_ne!(own, ann);
        "Bob"
    })?;
    players[bob] = "Rob";
    assert_eq!(
        (players.get(ann), players[bob], players.len()),
        (Some(&"Ann"), "Rob", 2)
    );
    assert!(
        players.keys().eq([ann, bob]) && players.iter().rev().map(|(key, _)| key).eq([bob, ann])
    );
    let [one, two] = players.get_disjoint_mut([ann, bob]).expect("both are live");
    std::mem::swap(one, two);
    assert_eq!(players.key_of(&players[ann]), Some(ann));
    assert_eq!(
        format!("{players:?}"),
        "{PlayerKey(0.0/0/1): \"Rob\", PlayerKey(0.0/1/1): \"Ann\"}"
    );
    players.retain(|key, _| key != ann);
    assert_eq!(
        (
            players.contains(ann),
            players.remove(bob),
            players.compact()?
        ),
        (false, Some("Ann"), 1)
    );
    assert_eq!(
        "1.2/3/4".parse::<TeamKey>().map(Key::from),
        "1.2/3/4".parse::<Key>()
    );
    assert!("1.2/3".parse::<TeamKey>().is_err());
    assert_eq!(players.into_slab().len(), 0);
    Ok(())
}

#[test]
fn collects_and_extends() {
    let mut slab: Slab<_> = (0..300).collect();
    slab.extend(300..600);
    assert!(slab.len() == 600 && slab.values().copied().eq(0..600));
    let mut store: Store<u64> = (0..300).collect();
    store.extend(300..600);
    assert!(store.values().eq(0..600));
}

/// What a panic leaves is looked at without a word.
#[test]
fn is_unwind_safe() {
    fn is<T: RefUnwindSafe + UnwindSafe>() {}
    is::<Core>();
    is::<Slab<String>>();
    is::<Store<u64>>();
    is::<SharedStore<u64>>();
    is::<TypedSlab<PlayerKey, String>>();
    let slab: Slab<_> = (0..10).collect();
    assert!(std::panic::catch_unwind(|| slab.values().sum::<i32>()).is_ok());
    let mut slab = AssertUnwindSafe(slab);
    assert!(std::panic::catch_unwind(
        move || slab.retain(|_, value| *value < 5 || panic!("at {value}"))
    )
    .is_err());
}
