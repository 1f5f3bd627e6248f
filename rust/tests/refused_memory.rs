//! Each allocation of this crate for a slab is refused in turn: the call says so, and the slab is
//! what it was. The library asks for its memory elsewhere (`tests/memory.rs`).

mod refusing;

use refusing::{with_refusal, By};
use std::fmt::Debug;
use teurlaks::{Key, Refused, Slab};

/// Of slabs of so many values the next call is made with each of its allocations refused.
fn nothing_changes<T: Clone + Debug + PartialEq>(
    counts: &[usize],
    value: impl Fn(usize) -> T,
    call: impl Fn(&mut Slab<T>, T) -> Result<Option<Key>, Refused>,
) -> Result<usize, Refused> {
    let mut refusals = 0;
    for count in counts {
        for number in 0.. {
            let mut slab = Slab::new()?;
            let keys = (0..*count).map(|number| slab.insert(value(number)));
            let keys = keys.collect::<Result<Vec<_>, _>>()?;
            let next = value(*count);
            let (done, was_refused) = with_refusal(By::Rust, number, || call(&mut slab, next));
            assert_eq!(
                done.is_err(),
                was_refused,
                "{count} values, allocation {number}"
            );
            for (number, key) in keys.iter().enumerate() {
                assert_eq!(slab.get(*key), Some(&value(number)));
            }
            if !was_refused {
                break;
            }
            refusals += 1;
            assert_eq!(done, Err(Refused::OutOfMemory));
            assert_eq!((slab.len(), slab.iter().count()), (*count, *count));
            let key = slab.insert(value(99))?;
            assert_eq!(slab[key], value(99));
            // The key is the next one of its slot, as if nothing had been refused.
            assert_eq!(key.generation(), 1);
        }
    }
    Ok(refusals)
}

const COUNTS: [usize; 11] = [0, 1, 3, 4, 5, 8, 16, 64, 127, 128, 256];

#[test]
fn inserts_by_sizes() -> Result<(), Refused> {
    let insert = |slab: &mut Slab<_>, value| slab.insert(value).map(Some);
    assert!(nothing_changes(&COUNTS, |number| number as u128, insert)? >= 12);
    let insert = |slab: &mut Slab<_>, value| slab.insert(value).map(Some);
    assert!(nothing_changes(&COUNTS, |number| number as u8, insert)? >= 12);
    let insert = |slab: &mut Slab<_>, value| slab.insert(value).map(Some);
    assert!(nothing_changes(&COUNTS, |number| [number; 30], insert)? >= 12);
    // Each in a block of its own.
    let insert = |slab: &mut Slab<_>, value| slab.insert(value).map(Some);
    assert!(nothing_changes(&COUNTS, |number| [number; 600], insert)? >= 20);
    Ok(())
}

#[test]
fn inserts_into_another_shard() -> Result<(), Refused> {
    let insert = |slab: &mut Slab<_>, value| slab.insert_in(1, value).map(Some);
    assert!(nothing_changes(&COUNTS, |number| number as u128, insert)? >= 12);
    Ok(())
}

#[test]
fn room() -> Result<(), Refused> {
    for room in [1, 10, 100, 1000] {
        let reserve = |slab: &mut Slab<_>, _| slab.reserve(room).map(|()| None);
        nothing_changes(&COUNTS, |number| number as u128, reserve)?;
    }
    Ok(())
}
