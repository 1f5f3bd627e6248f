//! What a type says of a slab's keys.

use teurlaks::{Key, KeyBits, Limits};

/// What a slab is to be like.
///
/// Of this only [`Config::RESERVED_BITS`] changes anything here: a slab has 64 shards, which
/// threads share beyond that, and as many pages as memory allows, each of one size.
pub trait Config: Sized {
    /// How many threads may have the slab in `sharded-slab`. Here any number may.
    const MAX_THREADS: usize = DefaultConfig::MAX_THREADS;
    /// How many pages a shard has at most in `sharded-slab`.
    const MAX_PAGES: usize = DefaultConfig::MAX_PAGES;
    /// How large the first page of a shard is in `sharded-slab`.
    const INITIAL_PAGE_SIZE: usize = DefaultConfig::INITIAL_PAGE_SIZE;
    /// How many of the highest bits no key has, at most 24.
    const RESERVED_BITS: usize = 0;
}

/// A slab that is like any other.
#[derive(Clone, Copy, Debug)]
pub struct DefaultConfig {
    _private: (),
}

impl Config for DefaultConfig {
    const MAX_THREADS: usize = 4096;
    const MAX_PAGES: usize = 32;
    const INITIAL_PAGE_SIZE: usize = 32;
}

/// How many bits a number has.
const BITS: usize = usize::BITS as usize;

/// Keys as numbers.
pub(crate) trait Numbers: Config {
    /// How many bits a key has at most.
    const USED_BITS: usize = BITS - Self::RESERVED_BITS;

    /// How many bits the parts of a key take beside the 6 of its shard and the 8 of its slot.
    const SERIAL_BITS: u8 = 26 - (Self::RESERVED_BITS / 2) as u8;
    const GENERATION_BITS: u8 = 24 - (Self::RESERVED_BITS - Self::RESERVED_BITS / 2) as u8;

    const KEY_BITS: KeyBits = match KeyBits::new(6, Self::SERIAL_BITS, Self::GENERATION_BITS) {
        Some(bits) => bits,
        None => panic!("at most 24 bits are reserved"),
    };

    /// Limits within which each key has a number.
    fn limits() -> Limits {
        assert!(Self::RESERVED_BITS <= 24, "at most 24 bits are reserved");
        let pages = 1 << Self::SERIAL_BITS.min(20);
        Limits {
            shards: 64,
            pages,
            spans: 1 << Self::SERIAL_BITS,
            slots: 256,
            generations: (1 << Self::GENERATION_BITS) - 1,
        }
    }

    /// The number of a key, if it has one.
    fn number(key: Key) -> Option<usize> {
        usize::try_from(key.to_u64(Self::KEY_BITS)?.get()).ok()
    }

    /// The key of a number, if it is one's.
    fn key(number: usize) -> Option<Key> {
        Key::from_u64(Self::KEY_BITS, u64::try_from(number).ok()?)
    }
}

impl<C: Config> Numbers for C {}
