//! Objects of several words, and bytes in as few words as hold them.

use super::{is_length_of_object, was_put, was_set, Core};
use crate::bytes::{words_for, Bytes, BytesKey, Words, MOST_BYTES, MOST_WORDS};
use crate::names::Key;
use crate::raw;
use crate::refused::Refused;
use std::mem::MaybeUninit;

static NO_WORDS: [u128; MOST_WORDS] = [0; MOST_WORDS];

impl Core {
    /// Keeps an object of 1 to 16 words in the shard, and gives its key.
    ///
    /// A page has objects of one number of words, as many as fit its 256 words. Only such pages are
    /// folded onto each other.
    ///
    /// # Errors
    ///
    /// As of [`Core::insert`], and [`Refused::Config`] if there are no words, or more than 16.
    ///
    /// ```
    /// # use teurlaks::{Core, Limits};
    /// let mut core = Core::new(Limits::default())?;
    /// for place in 0..86 {
    ///     let key = core.insert_words(0, &[place, 7, 9])?;
    ///     assert_eq!(core.get_words(key).as_deref(), Some(&[place, 7, 9][..]));
    /// }
    /// assert_eq!(core.pages(), 2); // 85 objects of three words fill one
    /// # Ok::<(), teurlaks::Refused>(())
    /// ```
    #[inline]
    pub fn insert_words(&mut self, shard: u32, words: &[u128]) -> Result<Key, Refused> {
        // SAFETY: so many words are there.
        unsafe { self.put_words(shard, words.as_ptr(), words.len()) }
    }

    /// Keeps an object of the words that stand there.
    ///
    /// # Safety
    ///
    /// So many words stand there. Bytes of them may be uninitialised where no [`Words`] is made of
    /// them.
    // Inlined, it leaves the key in registers.
    #[allow(clippy::inline_always)]
    #[inline(always)]
    pub(crate) unsafe fn put_words(
        &mut self,
        shard: u32,
        first: *const u128,
        len: usize,
    ) -> Result<Key, Refused> {
        // SAFETY: as of this call.
        match unsafe { self.put_words_plainly(shard, first, len) } {
            Ok(key) => Ok(key),
            // SAFETY: as of this call.
            Err(put) => was_put(unsafe { self.put_words_again(put, shard, first, len) }),
        }
    }

    /// The key that such a put gives, if it is plain; or else what the library answers, of which
    /// `put_words_again` makes what the put answers in the end.
    ///
    /// # Safety
    ///
    /// As of [`Core::put_words`].
    #[allow(clippy::inline_always)]
    #[inline(always)]
    unsafe fn put_words_plainly(
        &mut self,
        shard: u32,
        first: *const u128,
        len: usize,
    ) -> Result<Key, raw::PutReply> {
        // SAFETY: as in `insert`, and a word is its two halves, the lower one first.
        let put = unsafe { raw::teurlaks_put_words(&mut self.handle, shard, first.cast(), len) };
        match self.plain_key(put, len) {
            Some(key) => Ok(key),
            None => Err(put),
        }
    }

    /// As `put_again`, of words that stand there.
    ///
    /// # Safety
    ///
    /// As of [`Core::put_words`].
    #[cold]
    #[allow(improper_ctypes_definitions)]
    unsafe extern "C" fn put_words_again(
        &mut self,
        put: raw::PutReply,
        shard: u32,
        first: *const u128,
        len: usize,
    ) -> raw::PutReply {
        self.again(put, shard, len, |core| {
            // SAFETY: as of this call.
            unsafe { raw::teurlaks_put_words(&mut core.handle, shard, first.cast(), len) }
        })
    }

    /// The key of an object of so many zeros in the shard, if it is plain; or else what the library
    /// answers, of which `put_zeros_again` makes what the put answers in the end. The core is one
    /// of such objects alone (`of_objects`).
    #[allow(clippy::inline_always)]
    #[inline(always)]
    pub(crate) fn put_zeros(&mut self, shard: u32, len: usize) -> Result<Key, raw::PutReply> {
        debug_assert_eq!(usize::from(self.numbers.least_words), len);
        let put = self.ask_for_zeros(shard, len);
        match self.plain_key_of_least(put) {
            Some(key) => Ok(key),
            None => Err(put),
        }
    }

    /// As `put_again`, of zeros.
    #[cold]
    #[allow(improper_ctypes_definitions)]
    pub(crate) extern "C" fn put_zeros_again(
        &mut self,
        put: raw::PutReply,
        shard: u32,
        len: usize,
    ) -> raw::PutReply {
        self.again(put, shard, len, |core| core.ask_for_zeros(shard, len))
    }

    /// What the library answers to such a put.
    #[allow(clippy::inline_always)]
    #[inline(always)]
    fn ask_for_zeros(&mut self, shard: u32, len: usize) -> raw::PutReply {
        let first = NO_WORDS[..len].as_ptr().cast();
        // SAFETY: as in `insert`, and so many words are there.
        unsafe {
            match len {
                1 => raw::teurlaks_put(&mut self.handle, shard, 0, 0),
                _ => raw::teurlaks_put_words(&mut self.handle, shard, first, len),
            }
        }
    }

    /// The words of the key's object, where it is live.
    #[inline]
    #[must_use]
    pub fn get_words(&self, key: Key) -> Option<Words> {
        let (low, high) = key.numbers();
        Words::written(|first| {
            // SAFETY: as in `get`, and there is room for 16 words, of which it writes as many as it
            // says.
            let got = unsafe {
                raw::teurlaks_get_words(&self.handle, low, high, first.cast(), MOST_WORDS)
            };
            (got.status == raw::OK).then_some(got.len)
        })
    }

    /// What is read of the words of the key's object, where it is live, as they are written for
    /// this call.
    #[inline]
    pub(crate) fn read_words<R>(&self, key: Key, read: impl FnOnce(*const u128) -> R) -> Option<R> {
        let mut words = [MaybeUninit::<u128>::uninit(); MOST_WORDS];
        let first = words.as_mut_ptr().cast();
        let (low, high) = key.numbers();
        // SAFETY: as in `get_words`.
        let got = unsafe { raw::teurlaks_get_words(&self.handle, low, high, first, MOST_WORDS) };
        if got.status != raw::OK {
            return None;
        }
        Some(read(words.as_ptr().cast()))
    }

    /// Sets the key to an object of these words, as [`Core::set`] does with one, where its object
    /// has as many.
    ///
    /// # Errors
    ///
    /// As of [`Core::set`], and [`Refused::Config`] if there are no words, or more than 16.
    #[inline]
    pub fn set_words(&mut self, key: Key, words: &[u128]) -> Result<bool, Refused> {
        // SAFETY: so many words are there.
        unsafe { self.set_all_words(key, words.as_ptr(), words.len()) }
    }

    /// Sets the key to an object of the words that stand there.
    ///
    /// # Safety
    ///
    /// As of [`Core::put_words`].
    #[inline]
    pub(crate) unsafe fn set_all_words(
        &mut self,
        key: Key,
        first: *const u128,
        len: usize,
    ) -> Result<bool, Refused> {
        let (key, key_high) = key.numbers();
        // SAFETY: as in `put_words`.
        let status =
            unsafe { raw::teurlaks_set_words(&mut self.handle, key, key_high, first.cast(), len) };
        if status == raw::NO_CORE {
            return is_length_of_object(len).map(|()| false);
        }
        was_set(status)
    }

    /// Keeps 1 to 256 bytes in the shard, in as few words as hold them, and gives their name.
    ///
    /// # Errors
    ///
    /// As of [`Core::insert`], and [`Refused::Config`] where the bytes are none, or more than 256.
    ///
    /// ```
    /// # use teurlaks::{Core, Limits};
    /// let mut core = Core::new(Limits::default())?;
    /// let key = core.insert_bytes(0, b"a cached page, as it was fetched")?;
    /// assert_eq!(&core.get_bytes(key).unwrap()[..8], b"a cached");
    /// core.free(key.key());
    /// assert_eq!(core.get_bytes(key), None);
    /// # Ok::<(), teurlaks::Refused>(())
    /// ```
    #[inline]
    pub fn insert_bytes(&mut self, shard: u32, bytes: &[u8]) -> Result<BytesKey, Refused> {
        // SAFETY: so many words stand there.
        let key = words_of(bytes, |first, len| unsafe {
            self.put_words(shard, first, len)
        })?;
        Ok(BytesKey::new(key, bytes.len()))
    }

    /// The bytes of this name, where their key is live.
    #[inline]
    #[must_use]
    pub fn get_bytes(&self, key: BytesKey) -> Option<Bytes> {
        Bytes::of(self.get_words(key.key())?, key.len())
    }

    /// Sets the key of this name to 1 to 256 bytes, and gives the name that they have from now on:
    /// if the key is live, and they take as many words as its object has.
    ///
    /// # Errors
    ///
    /// As of [`Core::set`], and [`Refused::Config`] where the bytes are none, or more than 256.
    #[inline]
    pub fn set_bytes(&mut self, key: BytesKey, bytes: &[u8]) -> Result<Option<BytesKey>, Refused> {
        // SAFETY: so many words stand there.
        let done = words_of(bytes, |first, len| unsafe {
            self.set_all_words(key.key(), first, len)
        })?;
        Ok(done.then(|| BytesKey::new(key.key(), bytes.len())))
    }
}

// Lends the words of the least object that holds the bytes, and how many they are.
#[inline]
fn words_of<R>(
    bytes: &[u8],
    keep: impl FnOnce(*const u128, usize) -> Result<R, Refused>,
) -> Result<R, Refused> {
    if bytes.is_empty() || bytes.len() > MOST_BYTES {
        return Err(Refused::Config);
    }
    let mut words = [MaybeUninit::<u128>::uninit(); MOST_WORDS];
    let first = words.as_mut_ptr().cast::<u128>();
    let len = words_for(bytes.len());
    // SAFETY: there is room for the bytes in so many words, of which they fill all but the last,
    // which is a zero before.
    unsafe {
        first.add(len - 1).write(0);
        first
            .cast::<u8>()
            .copy_from_nonoverlapping(bytes.as_ptr(), bytes.len());
    }
    keep(first, len)
}
