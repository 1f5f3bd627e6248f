//! Sets of slots of a page.

use std::iter;
use std::mem;

/// How many slots a page has at most.
const MOST_SLOTS: usize = 256;

/// A set of slots, a bit for each.
#[derive(Clone, Copy, PartialEq, Eq)]
pub(crate) struct Slots([u64; MOST_SLOTS / 64]);

impl Slots {
    /// No slots.
    pub const NONE: Slots = Slots([0; MOST_SLOTS / 64]);

    /// The places of the numbers that are not 0, at most 256.
    pub fn of_nonzero(numbers: &[u32]) -> Slots {
        let mut slots = Slots::NONE;
        let words = numbers.chunks_exact(64);
        let rest = words.remainder();
        for (word, numbers) in slots.0.iter_mut().zip(words) {
            *word = bits_of_nonzero(numbers);
        }
        if !rest.is_empty() {
            slots.0[numbers.len() / 64] = bits_of_few(rest);
        }
        slots
    }

    /// Whether the slot is one of them.
    #[inline]
    pub fn contains(&self, slot: u32) -> bool {
        let word = self.0.get(word_of(slot));
        word.is_some_and(|word| word & bit_of(slot) != 0)
    }

    /// Adds a slot.
    #[inline]
    pub fn insert(&mut self, slot: u32) {
        self.0[word_of(slot)] |= bit_of(slot);
    }

    /// Takes a slot out.
    #[inline]
    pub fn remove(&mut self, slot: u32) {
        self.0[word_of(slot)] &= !bit_of(slot);
    }

    /// Whether there are none.
    #[inline]
    pub fn is_empty(&self) -> bool {
        self.0 == [0; MOST_SLOTS / 64]
    }

    /// Adds those of another set, and says whether none of them was here.
    pub fn unite(&mut self, other: &Slots) -> bool {
        let mut are_new = true;
        for (word, more) in self.0.iter_mut().zip(other.0) {
            are_new &= *word & more == 0;
            *word |= more;
        }
        are_new
    }

    /// Takes the lowest slot out.
    #[inline]
    pub fn pop_first(&mut self) -> Option<u32> {
        for (number, word) in self.0.iter_mut().enumerate() {
            if *word != 0 {
                let slot = slot_at(number, word.trailing_zeros());
                *word &= *word - 1;
                return Some(slot);
            }
        }
        None
    }

    /// Each slot, from the lowest on.
    pub fn iter(mut self) -> impl Iterator<Item = u32> {
        iter::from_fn(move || self.pop_first())
    }

    /// Takes the lowest slots out that share a word.
    #[inline]
    pub fn take_first(&mut self) -> Word {
        let number = self.0.iter().position(|word| *word != 0);
        number.map_or(Word::NONE, |number| self.take_word(number))
    }

    /// Takes the highest slots out that share a word.
    #[inline]
    pub fn take_last(&mut self) -> Word {
        let number = self.0.iter().rposition(|word| *word != 0);
        number.map_or(Word::NONE, |number| self.take_word(number))
    }

    #[inline]
    fn take_word(&mut self, number: usize) -> Word {
        let bits = mem::take(&mut self.0[number]);
        let first = slot_at(number, 0);
        Word { first, bits }
    }

    /// How many there are.
    pub fn count(&self) -> usize {
        self.0.iter().map(|word| word.count_ones() as usize).sum()
    }

    /// Adds slots that were taken out.
    pub fn give_back(&mut self, word: Word) {
        self.0[word_of(word.first)] |= word.bits;
    }
}

/// Slots that share a word of a set.
#[derive(Clone, Copy)]
pub(crate) struct Word {
    // The slot of the lowest bit.
    first: u32,
    bits: u64,
}

impl Word {
    /// No slots.
    pub const NONE: Word = Word { first: 0, bits: 0 };

    /// Whether there are none.
    #[inline]
    pub fn is_empty(&self) -> bool {
        self.bits == 0
    }

    /// Takes the lowest slot out, of which there is one.
    #[inline]
    pub fn pop_first(&mut self) -> u32 {
        let slot = self.first | self.bits.trailing_zeros();
        self.bits &= self.bits.wrapping_sub(1);
        slot
    }

    /// Takes the highest slot out, of which there is one.
    #[inline]
    pub fn pop_last(&mut self) -> u32 {
        let bit = 63_u32.wrapping_sub(self.bits.leading_zeros());
        self.bits &= !(1_u64.wrapping_shl(bit));
        self.first | bit
    }

    /// How many there are.
    pub fn count(&self) -> usize {
        self.bits.count_ones() as usize
    }
}

/// How many numbers are looked at together.
const PIECE: usize = 16;

/// The bits at the places of the numbers that are not 0, at most 64.
#[inline]
fn bits_of_nonzero(numbers: &[u32]) -> u64 {
    let pieces = numbers.chunks_exact(PIECE);
    let rest = bits_one_by_one(pieces.remainder());
    pieces
        .rev()
        .fold(rest, |bits, piece| bits << PIECE | bits_of_piece(piece))
}

/// The same, not in line.
#[inline(never)]
fn bits_of_few(numbers: &[u32]) -> u64 {
    bits_of_nonzero(numbers)
}

/// The same, in as many steps.
#[inline]
fn bits_one_by_one(numbers: &[u32]) -> u64 {
    let numbers = numbers.iter().rev();
    numbers.fold(0, |bits, number| bits << 1 | u64::from(*number != 0))
}

/// The same of a piece, in as many instructions.
// Of the mask the lower 16 bits count, and a load asks for no alignment.
#[cfg(target_arch = "x86_64")]
#[allow(clippy::cast_possible_truncation, clippy::cast_sign_loss)]
#[allow(clippy::cast_ptr_alignment)]
#[inline]
fn bits_of_piece(numbers: &[u32]) -> u64 {
    use std::arch::x86_64::{
        _mm_cmpeq_epi32, _mm_loadu_si128, _mm_movemask_epi8, _mm_packs_epi16, _mm_packs_epi32,
        _mm_setzero_si128,
    };
    assert!(numbers.len() == PIECE);
    let first = numbers.as_ptr();
    // SAFETY: four numbers are read from each of these places on, of 16. Each processor of this
    // kind has the instructions.
    let zeros = unsafe {
        let are_zero =
            |at| _mm_cmpeq_epi32(_mm_loadu_si128(first.add(at).cast()), _mm_setzero_si128());
        let low = _mm_packs_epi32(are_zero(0), are_zero(4));
        let high = _mm_packs_epi32(are_zero(8), are_zero(12));
        _mm_movemask_epi8(_mm_packs_epi16(low, high))
    };
    u64::from(!zeros as u16)
}

#[cfg(not(target_arch = "x86_64"))]
use self::bits_one_by_one as bits_of_piece;

#[inline]
fn word_of(slot: u32) -> usize {
    slot as usize / 64
}

#[inline]
fn bit_of(slot: u32) -> u64 {
    1 << (slot % 64)
}

// A set has four words of 64 bits.
#[allow(clippy::cast_possible_truncation)]
#[inline]
fn slot_at(word: usize, bit: u32) -> u32 {
    word as u32 * 64 + bit
}

#[cfg(test)]
mod tests {
    use super::Slots;
    use std::collections::BTreeSet;

    #[test]
    fn slots_as_a_set() {
        let (mut slots, mut set) = (Slots::NONE, BTreeSet::new());
        let mut random = 88_172_645_463_325_252_u64;
        for _ in 0..20_000 {
            random ^= random << 13;
            random ^= random >> 7;
            random ^= random << 17;
            let slot = (random >> 20) as u32 % 256;
            match random >> 60 {
                0 => assert_eq!(slots.pop_first(), set.pop_first()),
                1 => {
                    let mut word = slots.take_last();
                    let last = set.pop_last();
                    assert_eq!((!word.is_empty()).then(|| word.pop_last()), last);
                    slots.give_back(word);
                }
                2..=5 => {
                    slots.remove(slot);
                    set.remove(&slot);
                }
                _ => {
                    slots.insert(slot);
                    set.insert(slot);
                }
            }
            assert_eq!(
                (slots.contains(slot), slots.is_empty()),
                (set.contains(&slot), set.is_empty())
            );
        }
        assert!(slots.iter().eq(set));
    }

    #[test]
    fn places_that_are_not_0() {
        for len in [0, 4, 31, 32, 33, 64, 100, 128, 255, 256] {
            for step in [1, 2, 3, 7, 64] {
                let number = |place: u32| u32::from(place % step == 0) << (place % 32);
                let numbers: Vec<u32> = (0..len).map(number).collect();
                let places = (0..len).filter(|place| place % step == 0);
                assert!(Slots::of_nonzero(&numbers).iter().eq(places));
            }
        }
    }

    #[test]
    fn united() {
        let (mut first, mut second) = (Slots::NONE, Slots::NONE);
        first.insert(3);
        second.insert(200);
        assert!(first.unite(&second) && first.contains(3) && first.contains(200));
        assert!(!first.unite(&second) && first.iter().count() == 2);
    }
}
