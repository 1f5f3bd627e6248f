//! Values that say which they are, and keys that threads hand to each other.

use std::sync::Mutex;
use teurlaks::Key;

/// A value whose every word says which it is.
#[derive(Clone, Copy, Debug, PartialEq)]
pub struct Value<const WORDS: usize> {
    pub number: u64,
    pub words: [u64; WORDS],
}

impl<const WORDS: usize> Value<WORDS> {
    pub fn new(number: u64) -> Value<WORDS> {
        let words = [number ^ 0x55; WORDS];
        Value { number, words }
    }

    pub fn is_whole(&self) -> bool {
        *self == Value::new(self.number)
    }
}

/// Keys with the numbers of their values, from one thread to another.
pub type Handed = Mutex<Vec<(Key, u64)>>;
