//! Words and bytes that a core keeps, as they are looked up, and the names of bytes.

use crate::names::Key;
use std::fmt;
use std::mem::MaybeUninit;
use std::ops::Deref;
use std::slice;

#[cfg(not(target_endian = "little"))]
compile_error!(
    "the bytes of a word are those of a processor of level x86-64-v2, which has the lowest first"
);

/// How many words an object has at most.
pub(crate) const MOST_WORDS: usize = 16;

/// How many bytes an object has at most.
pub(crate) const MOST_BYTES: usize = 16 * MOST_WORDS;

/// How many words a page has.
const PAGE_WORDS: usize = 256;

/// How many words the least object has that holds so many bytes, 1 to 256.
pub(crate) const fn words_for(bytes: usize) -> usize {
    (bytes + 15) / 16
}

/// How many objects of so many words share a page.
pub(crate) const fn slots_for(words: usize) -> usize {
    PAGE_WORDS / words
}

/// The words of one object, 1 to 16: of [`Core::get_words`](crate::Core::get_words). They are read
/// as a slice.
#[derive(Clone, Copy)]
pub struct Words {
    // SAFETY: the first `len` are initialised.
    words: [MaybeUninit<u128>; MOST_WORDS],
    len: usize,
}

impl Words {
    /// The words that `write` writes to the beginning of 16, and says how many, if any.
    pub(crate) fn written(write: impl FnOnce(*mut u128) -> Option<usize>) -> Option<Words> {
        let mut words = [MaybeUninit::uninit(); MOST_WORDS];
        let len = write(words.as_mut_ptr().cast())?;
        debug_assert!(len <= MOST_WORDS);
        Some(Words { words, len })
    }

    /// The word of an object of one word.
    #[must_use]
    pub fn word(&self) -> Option<u128> {
        match **self {
            [word] => Some(word),
            _ => None,
        }
    }

    /// The object's bytes, 16 of each word, from its lowest byte on.
    #[must_use]
    pub fn as_bytes(&self) -> &[u8] {
        // SAFETY: so many bytes are initialised, and any bytes are bytes.
        unsafe { slice::from_raw_parts(self.words.as_ptr().cast(), 16 * self.len) }
    }
}

impl Deref for Words {
    type Target = [u128];

    fn deref(&self) -> &[u128] {
        // SAFETY: so many words are initialised.
        unsafe { slice::from_raw_parts(self.words.as_ptr().cast(), self.len) }
    }
}

impl PartialEq for Words {
    fn eq(&self, other: &Words) -> bool {
        **self == **other
    }
}

impl Eq for Words {}

impl fmt::Debug for Words {
    fn fmt(&self, f: &mut fmt::Formatter<'_>) -> fmt::Result {
        fmt::Debug::fmt(&**self, f)
    }
}

/// The name of bytes that a core keeps: their key, and how many they are. It is 16 bytes.
///
/// Their number stands here and nowhere else: the page has the bytes, and zeros up to the end of
/// the object that holds them.
#[derive(Clone, Copy, PartialEq, Eq, PartialOrd, Ord, Hash, Debug)]
pub struct BytesKey {
    key: Key,
    len: u16,
}

impl BytesKey {
    /// The name of so many bytes, 1 to 256.
    #[allow(clippy::cast_possible_truncation)]
    pub(crate) fn new(key: Key, len: usize) -> BytesKey {
        debug_assert!((1..=MOST_BYTES).contains(&len));
        BytesKey {
            key,
            len: len as u16,
        }
    }

    /// The name of so many bytes under the key, as where the two were kept apart: `None` where
    /// there are no such names, of no bytes or of more than 256. Nothing is found where the key is
    /// not live or has fewer bytes.
    ///
    /// ```
    /// # use teurlaks::{BytesKey, Core, Limits};
    /// let mut core = Core::new(Limits::default())?;
    /// let name = core.insert_bytes(0, b"page")?;
    /// assert_eq!(BytesKey::from_parts(name.key(), name.len()), Some(name));
    /// assert_eq!(BytesKey::from_parts(name.key(), 257), None);
    /// # Ok::<(), teurlaks::Refused>(())
    /// ```
    #[must_use]
    pub fn from_parts(key: Key, len: usize) -> Option<BytesKey> {
        (1..=MOST_BYTES)
            .contains(&len)
            .then(|| BytesKey::new(key, len))
    }

    /// The key of the object that holds them.
    #[must_use]
    pub fn key(self) -> Key {
        self.key
    }

    /// How many there are, 1 to 256.
    #[allow(clippy::len_without_is_empty)]
    #[must_use]
    pub fn len(self) -> usize {
        usize::from(self.len)
    }
}

/// Bytes that were looked up: of [`Core::get_bytes`](crate::Core::get_bytes). They are read as a
/// slice.
#[derive(Clone, Copy)]
pub struct Bytes {
    words: Words,
    len: usize,
}

impl Bytes {
    /// The first bytes of the object, or `None` where it has not so many.
    // The words go into what is made.
    #[allow(clippy::large_types_passed_by_value)]
    pub(crate) fn of(words: Words, len: usize) -> Option<Bytes> {
        (len <= words.as_bytes().len()).then_some(Bytes { words, len })
    }
}

impl Deref for Bytes {
    type Target = [u8];

    fn deref(&self) -> &[u8] {
        &self.words.as_bytes()[..self.len]
    }
}

impl AsRef<[u8]> for Bytes {
    fn as_ref(&self) -> &[u8] {
        self
    }
}

impl PartialEq for Bytes {
    fn eq(&self, other: &Bytes) -> bool {
        **self == **other
    }
}

impl Eq for Bytes {}

impl fmt::Debug for Bytes {
    fn fmt(&self, f: &mut fmt::Formatter<'_>) -> fmt::Result {
        fmt::Debug::fmt(&**self, f)
    }
}
