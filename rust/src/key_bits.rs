//! Keys as numbers of 64 bits.

use crate::names::Key;
use crate::raw::{self, RawKeyBits};
use std::num::{NonZeroU64, NonZeroUsize};

/// How many bits the parts of a key take in a number of 64. The slot takes 8.
///
/// The token of an event loop and the user data of a kernel ring have room for such a number, and a
/// [`Key`] is larger. [`Key::to_u64`] gives its number and [`Key::from_u64`] the key of a number:
/// no two keys have one number, and none has 0. Highest bits first, a number has the generation,
/// the shard, the serial number and the slot. A key that does not fit its bits has no number.
///
/// | Layout | Shards | Pages a shard opens | Generations | Bits |
/// |---|---|---|---|---|
/// | [`BALANCED`](KeyBits::BALANCED) | 16 | 268,435,456 | 16,777,215 | 64 |
/// | [`MANY_SHARDS`](KeyBits::MANY_SHARDS) | 64 | 67,108,864 | 16,777,215 | 64 |
/// | [`MANY_GENERATIONS`](KeyBits::MANY_GENERATIONS) | 16 | 1,048,576 | 4,294,967,295 | 64 |
/// | [`EXACT_IN_DOUBLE`](KeyBits::EXACT_IN_DOUBLE) | 8 | 262,144 | 16,777,215 | 53 |
///
/// ```
/// # use teurlaks::{Key, KeyBits, Slab};
/// let mut slab = Slab::new()?;
/// let key = slab.insert("a")?;
/// let token = key.to_u64(KeyBits::BALANCED).expect("it fits");
/// assert_eq!(Key::from_u64(KeyBits::BALANCED, token.get()), Some(key));
/// assert_eq!(Key::from_u64(KeyBits::BALANCED, 0), None);
/// # Ok::<(), teurlaks::Refused>(())
/// ```
#[derive(Clone, Copy, Debug, PartialEq, Eq, Hash)]
pub struct KeyBits {
    shard: u8,
    serial: u8,
    generation: u8,
}

impl KeyBits {
    /// 16 shards, of 268,435,456 pages each, and 16,777,215 generations: 64 bits.
    pub const BALANCED: KeyBits = KeyBits {
        shard: 4,
        serial: 28,
        generation: 24,
    };

    /// 64 shards, which are all there can be, of 67,108,864 pages each, and 16,777,215 generations:
    /// 64 bits.
    pub const MANY_SHARDS: KeyBits = KeyBits {
        shard: 6,
        serial: 26,
        generation: 24,
    };

    /// 16 shards, of 1,048,576 pages each, and 4,294,967,295 generations, which are all there can
    /// be: 64 bits.
    pub const MANY_GENERATIONS: KeyBits = KeyBits {
        shard: 4,
        serial: 20,
        generation: 32,
    };

    /// 8 shards, of 262,144 pages each, and 16,777,215 generations: 53 bits, which an `f64` and a
    /// number of JSON keep exactly.
    pub const EXACT_IN_DOUBLE: KeyBits = KeyBits {
        shard: 3,
        serial: 18,
        generation: 24,
    };

    /// The layout with so many bits for the shard, the serial number and the generation, or `None`
    /// if one of them is above 32, or all and the slot's 8 come to more than 64.
    #[must_use]
    pub const fn new(shard: u8, serial: u8, generation: u8) -> Option<KeyBits> {
        if shard > 32 || serial > 32 || generation > 32 || shard + serial + generation > 56 {
            return None;
        }
        Some(KeyBits {
            shard,
            serial,
            generation,
        })
    }

    /// The layout with the fewest bits in which each key has a number whose shard is below
    /// `shards`, whose serial number is below `pages`, and whose generation is at most
    /// `generations`. `None` if these come to more than 64 bits with the slot's 8.
    #[must_use]
    pub fn for_limits(shards: u32, pages: u32, generations: u32) -> Option<KeyBits> {
        // SAFETY: numbers alone cross.
        let made = unsafe { raw::teurlaks_key_bits(shards, pages, generations) };
        let RawKeyBits {
            shard,
            serial,
            generation,
            ..
        } = made.bits;
        (made.status == raw::OK).then_some(KeyBits {
            shard,
            serial,
            generation,
        })
    }

    fn raw(self) -> RawKeyBits {
        RawKeyBits {
            shard: self.shard,
            serial: self.serial,
            generation: self.generation,
            reserved: 0,
        }
    }
}

impl Key {
    /// The number of the key in the layout, or `None` if a part of the key does not fit its bits.
    /// No other key has it.
    #[must_use]
    pub fn to_u64(self, bits: KeyBits) -> Option<NonZeroU64> {
        // SAFETY: numbers alone cross.
        let says = unsafe { raw::teurlaks_key_to_u64(bits.raw(), self.raw()) };
        NonZeroU64::new(says.number)
    }

    /// As [`Key::to_u64`], for programs that keep a `usize`; `None` also if it has too few bits.
    #[must_use]
    pub fn to_usize(self, bits: KeyBits) -> Option<NonZeroUsize> {
        self.to_u64(bits)?.try_into().ok()
    }

    /// The key of the number in the layout, or `None` if no key has it.
    #[must_use]
    pub fn from_u64(bits: KeyBits, number: u64) -> Option<Key> {
        // SAFETY: numbers alone cross.
        let says = unsafe { raw::teurlaks_key_from_u64(bits.raw(), number) };
        Key::of(says.key)
    }

    /// As [`Key::from_u64`].
    #[must_use]
    pub fn from_usize(bits: KeyBits, number: usize) -> Option<Key> {
        Key::from_u64(bits, number as u64)
    }
}
