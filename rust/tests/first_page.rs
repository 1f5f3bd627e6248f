//! The first page of a slab, whose room grows with its values: they stay under their keys, whatever
//! else is done meanwhile.

mod common;

use std::collections::HashMap;
use std::fmt::Debug;
use std::panic::{catch_unwind, AssertUnwindSafe};
use std::rc::Rc;
use teurlaks::{Key, Limits, Refused, Slab, Stepped};

/// Keeps so many values one after another, and finds all of them each time.
fn all_stay<T: Clone + Debug + PartialEq>(
    count: usize,
    value: impl Fn(usize) -> T,
) -> Result<(), Refused> {
    let mut slab = Slab::new()?;
    let mut keys = Vec::new();
    for number in 0..count {
        keys.push(slab.insert(value(number))?);
        assert_eq!(slab.len(), number + 1);
        for (number, key) in keys.iter().enumerate() {
            assert_eq!(slab.get(*key), Some(&value(number)));
            let at: *const T = &slab[*key];
            assert!(at as usize % std::mem::align_of::<T>() == 0);
            if std::mem::size_of::<T>() > 0 {
                assert_eq!(slab.key_of(&slab[*key]), Some(*key));
            }
        }
        assert!(slab.iter().map(|(key, _)| key).eq(keys.iter().copied()));
    }
    // From the last to the first, and once more.
    for (number, key) in keys.iter().enumerate().rev() {
        assert_eq!(slab.remove(*key), Some(value(number)));
        assert_eq!((slab.len(), slab.get(*key)), (number, None));
    }
    let again = slab.insert(value(7))?;
    assert!(!keys.contains(&again) && slab[again] == value(7));
    Ok(())
}

#[derive(Clone, Debug, PartialEq)]
#[repr(align(64))]
struct Aligned(u32);

#[derive(Clone, Debug, PartialEq)]
#[repr(align(128))]
struct Apart(u32);

#[test]
fn values_of_each_size() -> Result<(), Refused> {
    all_stay(300, |_| ())?;
    all_stay(300, |number| number as u8)?;
    all_stay(300, |number| number as u64)?;
    all_stay(300, |number| [number as u8; 15])?;
    all_stay(200, |number| number as u128)?;
    all_stay(200, |number| number.to_string())?;
    all_stay(100, |number| [number; 13])?;
    all_stay(100, |number| [number; 30])?;
    all_stay(40, |number| Aligned(number as u32))?;
    all_stay(40, |number| [number; 125])?;
    all_stay(40, |number| [number; 128])?;
    all_stay(40, |number| [number; 512])?;
    all_stay(300, |number| [number; 600])?;
    all_stay(300, |number| Apart(number as u32))
}

/// A key that no value of the first page ever had finds none, as long as the page is short too.
#[test]
fn slots_that_the_page_has_not_yet() -> Result<(), Refused> {
    for count in [1, 4, 5, 16, 64] {
        let mut slab = Slab::try_from_iter((0..count).map(|number| [number; 4]))?;
        for slot in count..256 {
            for generation in [1, 2, u32::MAX] {
                let forged = format!("0.0/{slot}/{generation}").parse::<Key>();
                let forged = forged.expect("its numbers fit");
                assert!(slab.get(forged).is_none() && !slab.contains(forged));
                assert!(slab.get_mut(forged).is_none() && slab.remove(forged).is_none());
            }
        }
        assert_eq!(slab.len(), count as usize);
    }
    Ok(())
}

/// A slab with values at some slots of its first page, and what it should have.
struct Some {
    slab: Slab<Rc<u32>>,
    map: HashMap<Key, u32>,
}

impl Some {
    /// Six values were kept, and those at the odd slots are gone.
    fn new(limits: Limits) -> Result<Some, Refused> {
        let mut slab = Slab::with_limits(limits)?;
        let keys = (0..6).map(|number| slab.insert(Rc::new(number)));
        let keys = keys.collect::<Result<Vec<_>, _>>()?;
        slab.retain(|_, value| **value % 2 == 0);
        let map = (0..6)
            .step_by(2)
            .map(|number| (keys[number as usize], number));
        Ok(Some {
            map: map.collect(),
            slab,
        })
    }

    fn insert(&mut self, shard: Option<u32>) -> Result<(), Refused> {
        let number = 100 + self.map.len() as u32;
        let value = Rc::new(number);
        let key = match shard {
            None => self.slab.insert(value)?,
            Some(shard) => self.slab.insert_in(shard, value)?,
        };
        assert!(self.map.insert(key, number).is_none());
        Ok(())
    }

    fn check(&self) {
        assert_eq!(self.slab.len(), self.map.len());
        assert_eq!(self.slab.iter().count(), self.map.len());
        for (key, value) in &self.slab {
            assert_eq!(self.map.get(&key), Some(&**value));
            assert_eq!(Rc::strong_count(value), 1);
        }
        for (key, number) in &self.map {
            assert_eq!(self.slab.get(*key).map(|value| **value), Some(*number));
        }
    }

    /// Keeps so many further values, in this shard or in any, and finds all of them each time.
    fn fill(mut self, count: usize, shard: Option<u32>) -> Result<(), Refused> {
        for _ in 0..count {
            self.insert(shard)?;
            self.check();
        }
        // A plan that is open would refuse it.
        let _ = self.slab.close();
        self.slab.compact()?;
        self.check();
        self.insert(None)?;
        self.check();
        Ok(())
    }
}

/// Two shards of few pages.
const TWO: Limits = Limits {
    shards: 2,
    pages: 4,
    spans: 1000,
    slots: 256,
    generations: 1000,
};

/// What a caller does with the groups between two values, which then come to another page.
#[test]
fn values_after_groups_have_moved() -> Result<(), Refused> {
    type Moves = fn(&mut Slab<Rc<u32>>) -> Result<(), Refused>;
    let moves: [Moves; 12] = [
        |slab| slab.end(0),
        |slab| slab.end(0).and_then(|()| slab.begin(0)),
        |slab| slab.retire(0, 1).map(drop),
        |slab| slab.mark().map(drop),
        |slab| slab.mark_some().map(drop),
        |slab| slab.mark().and_then(|_| slab.close()),
        |slab| {
            slab.retire(0, 1)?;
            slab.mark()?;
            assert_eq!(slab.step()?, Stepped::NoPairLeft);
            slab.close()?;
            slab.adopt(0).map(drop)
        },
        |slab| slab.retire(0, 1).and_then(|_| slab.mesh()).map(drop),
        |slab| {
            slab.end(0)?;
            slab.adopt(1)?;
            assert_eq!(slab.adopt(1), Err(Refused::NothingToAdopt));
            slab.begin(0)
        },
        |slab| slab.compact().map(drop),
        |slab| slab.compact_within(1).map(drop),
        |slab| {
            let _ = slab.compact_within(1)?;
            slab.end(0)?;
            slab.compact()?;
            slab.begin(0)
        },
    ];
    for (count, shard) in [
        (1, None),
        (20, None),
        (300, None),
        (20, Some(0)),
        (20, Some(1)),
    ] {
        for moves in moves {
            let mut some = Some::new(TWO)?;
            moves(&mut some.slab)?;
            some.check();
            if some.slab.is_ended(0) && shard == Some(0) {
                continue;
            }
            some.fill(count, shard)?;
        }
    }
    Ok(())
}

/// An entry that is forgotten keeps its slot, and the page grows past it.
#[test]
fn entries_that_are_forgotten() -> Result<(), Refused> {
    for before in 0..20 {
        let mut slab = Slab::new()?;
        let keys = (0..before).map(|number| slab.insert(number));
        let mut keys = keys.collect::<Result<Vec<_>, _>>()?;
        std::mem::forget(slab.vacant_entry()?);
        for number in before..before + 20 {
            keys.push(slab.insert(number)?);
            let found = keys.iter().map(|key| slab[*key]);
            assert!(found.eq(0..=number));
        }
        assert_eq!(slab.len(), keys.len());
    }
    Ok(())
}

/// Slots that have got all their generations are passed over, so that values come to higher ones
/// than there are values.
#[test]
fn slots_that_are_worn() -> Result<(), Refused> {
    let mut slab = Slab::with_limits(Limits {
        generations: 2,
        ..TWO
    })?;
    let stays = slab.insert(0)?;
    for number in 1..600 {
        let key = slab.insert(number)?;
        assert_eq!((slab[key], slab[stays]), (number, 0));
        assert_eq!(slab.remove(key), Some(number));
    }
    assert_eq!((slab.len(), slab.get(stays)), (1, Some(&0)));
    Ok(())
}

/// A slab that was emptied, and gave its memory back, begins anew.
#[test]
fn an_emptied_slab() -> Result<(), Refused> {
    for count in [1, 4, 20, 300] {
        let pages = 1 + count as usize / 129;
        let mut slab = Slab::new()?;
        for round in 0..4 {
            slab.try_extend((0..count).map(|number| number + round))?;
            let mut values: Vec<_> = slab.values().copied().collect();
            values.sort_unstable();
            assert!(values.into_iter().eq(round..count + round));
            slab.clear();
            match round {
                0 => assert_eq!(slab.shrink_to_fit(), pages),
                1 => assert_eq!(slab.compact()?, pages),
                _ => {}
            }
            assert!(slab.is_empty() && slab.iter().next().is_none());
        }
    }
    Ok(())
}

/// Room that was asked for is there, in few or in many slots.
#[test]
fn room_that_is_asked_for() -> Result<(), Refused> {
    for (room, count) in [(1, 1), (3, 40), (10, 300), (1000, 20), (130, 130)] {
        for before in [0, 1, 5, 127, 128, 129] {
            let mut slab = Slab::try_from_iter(0..before)?;
            slab.reserve(room)?;
            slab.try_extend(before..before + count)?;
            assert!(slab.values().copied().eq(0..before + count));
        }
        let mut slab = Slab::with_capacity(room)?;
        slab.try_extend(0..count)?;
        assert!(slab.values().copied().eq(0..count));
    }
    Ok(())
}

/// A panic in the drop of a value, in a test or in the making of one leaves all others.
#[test]
fn panics_while_the_page_is_short() -> Result<(), Refused> {
    struct Panics(Rc<u32>, bool);
    impl Drop for Panics {
        fn drop(&mut self) {
            assert!(!self.1, "as it should");
        }
    }
    let panics = |call: &mut dyn FnMut()| catch_unwind(AssertUnwindSafe(call)).is_err();
    for count in [2, 4, 9] {
        let shared = Rc::new(7);
        let mut slab = Slab::new()?;
        let keys = (0..count).map(|number| slab.insert(Panics(shared.clone(), number == 1)));
        let keys = keys.collect::<Result<Vec<_>, _>>()?;
        assert!(panics(&mut || {
            let _ = slab.insert_with_key(|_| panic!("as it should"));
        }));
        assert!(panics(&mut || slab.retain(|key, _| {
            assert!(key != keys[count - 1], "as it should");
            true
        })));
        assert_eq!((slab.len(), Rc::strong_count(&shared)), (count, count + 1));
        assert!(panics(&mut || drop(slab.remove(keys[1]))));
        let left = count - 1;
        assert_eq!((slab.len(), Rc::strong_count(&shared)), (left, left + 1));
        for _ in 0..3 {
            slab.insert(Panics(shared.clone(), false))?;
        }
        let first = slab.insert(Panics(shared.clone(), true))?;
        assert_eq!(slab.get(first).map(|value| *value.0), Some(7));
        assert!(panics(&mut || drop(std::mem::take(&mut slab))));
        assert_eq!(Rc::strong_count(&shared), 1);
    }
    Ok(())
}

/// The values of a drain, and those that it leaves, go once each.
#[test]
fn drains_of_a_short_page() -> Result<(), Refused> {
    let shared = Rc::new(());
    for (count, taken) in [(1, 0), (1, 1), (4, 2), (9, 9), (30, 3)] {
        let mut slab = Slab::new()?;
        slab.try_extend((0..count).map(|_| shared.clone()))?;
        assert_eq!(slab.drain().take(taken).count(), taken);
        assert!(slab.is_empty() && Rc::strong_count(&shared) == 1);
        slab.try_extend((0..count).map(|_| shared.clone()))?;
        let mut values = slab.into_iter();
        assert_eq!(values.by_ref().rev().take(taken).count(), taken);
        drop(values);
        assert_eq!(Rc::strong_count(&shared), 1);
    }
    Ok(())
}
