//! The numbers of a core.

use crate::bytes::{slots_for, MOST_WORDS};
use crate::key_bits::KeyBits;
use crate::names::Key;
use crate::refused::Refused;

/// The numbers of a core.
#[derive(Clone, Copy, Debug, PartialEq, Eq, Hash)]
pub struct Limits {
    /// How many shards there are, 1 to 64.
    pub shards: u32,
    /// How many pages of up to 4,096 bytes a shard may have, 1 to 1,048,576. It costs nothing until
    /// they are used. Each adoption by a shard costs a step for each page that it has, so many
    /// shards of few pages are compacted sooner than one of many, where much of what is retired
    /// comes back.
    pub pages: u32,
    /// How many pages a shard may open in its life, 1 to 4,294,967,295. Each insert that finds no
    /// room opens one, and a fold uses one up. Fewer make keys shorter ([`Limits::key_bits`]).
    pub spans: u32,
    /// How many slots of a page inserts may take, the lowest ones, 1 to 256: 128 if nobody says so.
    /// A page has 256 of values of up to 16 bytes, and 128 or fewer of larger ones. The fewer they
    /// take, the more pages fit each other once values are gone, so a compaction gives more back.
    /// Until then there are more pages. Smaller pages share pages of the system, and a compaction
    /// [brings them together](crate::Core::gather).
    pub slots: u32,
    /// How often a slot may be used, at least once. A slot that was used so often is never used
    /// again. A page of such slots makes way for another one once it has no value: when an insert
    /// finds no other room, and at each forgetting and compaction.
    pub generations: u32,
}

impl Default for Limits {
    /// One shard, with as many pages and generations as there can be, and 128 slots of each page.
    fn default() -> Limits {
        Limits {
            shards: 1,
            pages: MOST_PAGES,
            spans: u32::MAX,
            slots: SLOTS,
            generations: u32::MAX,
        }
    }
}

impl Limits {
    /// As many shards, pages and generations as there can be.
    pub(crate) fn most() -> Limits {
        Limits {
            shards: MOST_SHARDS as u32,
            ..Limits::default()
        }
    }

    /// Limits whose keys are numbers of 64 bits by [`KeyBits::BALANCED`]: 16 shards, each of which
    /// may have 1,048,576 pages and open 268,435,456, and 16,777,215 generations. No key beyond
    /// them is given out.
    ///
    /// ```
    /// # use teurlaks::{Key, KeyBits, Limits, Slab};
    /// let limits = Limits::compact_keys();
    /// let bits = limits.key_bits().expect("they come to 64 bits");
    /// assert_eq!(bits, KeyBits::BALANCED);
    /// let mut slab = Slab::with_limits(limits)?;
    /// let key = slab.insert("a")?;
    /// let number = key.to_u64(bits).expect("each key has one");
    /// assert_eq!(Key::from_u64(bits, number.get()), Some(key));
    /// # Ok::<(), teurlaks::Refused>(())
    /// ```
    #[must_use]
    pub const fn compact_keys() -> Limits {
        Limits {
            shards: SHARDS,
            pages: MOST_PAGES,
            spans: 1 << 28,
            slots: SLOTS,
            generations: (1 << 24) - 1,
        }
    }

    /// How many bits of a number the parts of a key take, whose slot takes 8: the fewest in which
    /// each key within these limits has one. `None` if they come to more than 64.
    #[must_use]
    pub fn key_bits(self) -> Option<KeyBits> {
        KeyBits::for_limits(self.shards, self.spans, self.generations)
    }

    /// How many slots inserts may take of a page that has so many.
    pub(crate) fn slots_of(self, page: usize) -> usize {
        page.min(self.slots as usize)
    }

    /// Whether pages of values of so many words take less than a page of the system, so that
    /// several share one.
    pub(crate) fn has_small_pages(self, words: usize) -> bool {
        let words_of_page = self.slots_of(slots_for(words)) * words;
        (1..=MOST_SMALL).contains(&words_of_page)
    }

    /// That each number is in its range, as the library has it.
    pub(crate) fn check(self) -> Result<(), Refused> {
        let in_range = (1..=MOST_SHARDS as u32).contains(&self.shards)
            && (1..=MOST_PAGES).contains(&self.pages)
            && self.spans >= 1
            && (1..=MOST_SLOTS).contains(&self.slots)
            && self.generations >= 1;
        if in_range {
            Ok(())
        } else {
            Err(Refused::Config)
        }
    }
}

/// Limits that are within their ranges, and how many words the least object has, in 16 bytes.
#[derive(Clone, Copy)]
pub(super) struct Numbers {
    pages: u32,
    spans: u32,
    pub generations: u32,
    slots: u16,
    shards: u8,
    /// How many words the least object has that was put.
    pub least_words: u8,
}

impl Numbers {
    /// These limits, and no object yet.
    ///
    /// # Errors
    ///
    /// `Config` where one is out of its range.
    pub fn new(limits: Limits) -> Result<Numbers, Refused> {
        limits.check()?;
        Ok(Numbers {
            pages: limits.pages,
            spans: limits.spans,
            generations: limits.generations,
            slots: limits.slots as u16,
            shards: limits.shards as u8,
            least_words: MOST_WORDS as u8,
        })
    }

    /// The limits as they were given.
    #[inline]
    pub fn limits(self) -> Limits {
        Limits {
            shards: self.shards.into(),
            pages: self.pages,
            spans: self.spans,
            slots: self.slots.into(),
            generations: self.generations,
        }
    }
}

/// How many shards there are at most.
pub(crate) const MOST_SHARDS: usize = 64;

/// How many pages a shard may have at most.
const MOST_PAGES: u32 = 1 << 20;

/// How many slots a page has at most.
const MOST_SLOTS: u32 = 256;

/// How many slots of a page inserts take where nobody says so: of values of 16 bytes half as many
/// as there are. Full, a page is so filled up to its half, and twice as many pages cost 4 % more;
/// but with four of five values freed most pages fit each other, where hardly two of 256 slots do.
const SLOTS: u32 = 128;

/// How many words a page may reach that takes less than a page of the system: beyond them it has
/// room for 256.
const MOST_SMALL: usize = 128;

/// How many shards a slab or a store has where nobody says so: so many that each has few pages,
/// whose number an adoption goes by, and so few that a compaction soon has asked each, and keys fit
/// `KeyBits::BALANCED`. Each takes 224 bytes from its first value on.
pub(crate) const SHARDS: u32 = 16;

/// How many pages a shard opens until it is the turn of the next one, where nobody has set limits.
const TURN: u32 = 1024;

/// Whether a key is the first of a page with which the turn of its shard is over.
#[inline]
pub(crate) fn ends_turn(key: Key) -> bool {
    key.serial() % TURN == 0 && key.slot() == 0 && key.generation() == 1 && key.serial() > 0
}
