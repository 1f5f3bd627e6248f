//! What the rule of the library costs at least: a hand-written program whose inserts take the
//! lowest usable slot of the lowest page too, and whose stale keys find nothing. It has no proof,
//! one size of objects, no folds, and generations of a byte.
//!
//! The usable slots of all pages are one list of words, four a page. A bit of `some` says which of
//! these is not 0, and a bit of `top` the same of `some`.

use std::iter;

const SLOTS: usize = 256;
/// Words of usable slots, of 1,024 pages: so many have a bit of `some`, and each of its words one
/// of `top`.
const WORDS: usize = 64 * 64;

#[derive(Clone, Copy)]
pub struct Key {
    serial: u32,
    generation: u32,
    shard: u8,
    slot: u8,
}

struct Page {
    words: Box<[u128; SLOTS]>,
    generations: Box<[u8; SLOTS]>,
    id: u64,
    changes: u64,
}

pub struct Reference {
    pages: Vec<Page>,
    usable: Vec<u64>,
    some: [u64; WORDS / 64],
    top: u64,
}

impl Reference {
    pub fn new() -> Reference {
        Reference {
            pages: Vec::new(),
            usable: Vec::new(),
            some: [0; WORDS / 64],
            top: 0,
        }
    }

    #[cold]
    #[inline(never)]
    fn open(&mut self) {
        let first = self.usable.len();
        assert!(first < WORDS, "it has room for 262,144 words");
        self.pages.push(Page {
            words: Box::new([0; SLOTS]),
            generations: Box::new([0; SLOTS]),
            id: self.pages.len() as u64,
            changes: 0,
        });
        self.usable.extend(iter::repeat(u64::MAX).take(4));
        self.some[first / 64] |= 0xf << (first % 64);
        self.top |= 1 << (first / 64);
    }

    #[inline(always)]
    pub fn put(&mut self, value: u128) -> Key {
        if self.top == 0 {
            self.open();
        }
        let block = self.top.trailing_zeros() as usize;
        // SAFETY: each bit of `top` has its word in `some`, whose bits have theirs in `usable`, and
        // four of these have a page.
        unsafe {
            let some = *self.some.get_unchecked(block);
            let at = 64 * block + some.trailing_zeros() as usize;
            let word = *self.usable.get_unchecked(at);
            let left = word & (word - 1);
            *self.usable.get_unchecked_mut(at) = left;
            let some = if left == 0 { some & (some - 1) } else { some };
            *self.some.get_unchecked_mut(block) = some;
            if some == 0 {
                self.top &= self.top - 1;
            }
            let slot = 64 * (at % 4) + word.trailing_zeros() as usize;
            let page = self.pages.get_unchecked_mut(at / 4);
            let generation = page.generations.get_unchecked_mut(slot);
            *generation = generation.wrapping_add(1);
            page.changes += 1;
            *page.words.get_unchecked_mut(slot) = value;
            Key {
                serial: page.id as u32,
                generation: u32::from(*generation),
                shard: 0,
                slot: slot as u8,
            }
        }
    }

    #[inline(always)]
    fn is_live(&self, key: Key) -> bool {
        let Some(page) = self.pages.get(key.serial as usize) else {
            return false;
        };
        let at = 4 * key.serial as usize + usize::from(key.slot) / 64;
        // SAFETY: each page has four words in `usable`.
        let usable = unsafe { *self.usable.get_unchecked(at) };
        page.id == u64::from(key.shard) << 32 | u64::from(key.serial)
            && usable >> (key.slot % 64) & 1 == 0
            && u32::from(page.generations[usize::from(key.slot)]) == key.generation
    }

    #[inline(always)]
    pub fn get(&self, key: Key) -> Option<u128> {
        if !self.is_live(key) {
            return None;
        }
        // SAFETY: its page was found.
        let page = unsafe { self.pages.get_unchecked(key.serial as usize) };
        Some(page.words[usize::from(key.slot)])
    }

    #[inline(always)]
    pub fn free(&mut self, key: Key) -> bool {
        if !self.is_live(key) {
            return false;
        }
        let at = 4 * key.serial as usize + usize::from(key.slot) / 64;
        // SAFETY: its page was found, and has four words in `usable`, each with a bit above it.
        unsafe {
            self.pages.get_unchecked_mut(key.serial as usize).changes += 1;
            *self.usable.get_unchecked_mut(at) |= 1 << (key.slot % 64);
            *self.some.get_unchecked_mut(at / 64) |= 1 << (at % 64);
        }
        self.top |= 1 << (at / 64);
        true
    }
}
