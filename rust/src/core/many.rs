//! Many values by one call.

use super::{done, Core, NO_KEY};
use crate::names::Key;
use crate::raw::{self, GetReply, RawKey, RawWord};
use crate::refused::Refused;
use std::iter;

/// How many values cross at once: so many keys and replies have room on the stack.
const BLOCK: usize = 64;

const NOTHING: GetReply = GetReply {
    value: RawWord { low: 0, high: 0 },
    status: raw::NONE,
};

impl Core {
    /// Keeps an object of one word for each of the words in the shard, in their order, and appends
    /// their keys in the same order: as so many calls of [`Core::insert`] do, in less time.
    ///
    /// # Errors
    ///
    /// As of [`Core::insert`], for the first word that is refused: those before it are kept, and
    /// their keys appended.
    ///
    /// ```
    /// # use teurlaks::{Core, Limits};
    /// let mut core = Core::new(Limits::default())?;
    /// let mut keys = Vec::new();
    /// core.insert_many(0, &[7, 8, 9], &mut keys)?;
    /// core.free(keys[1]);
    /// assert_eq!(core.get_many(&keys).collect::<Vec<_>>(), [Some(7), None, Some(9)]);
    /// assert_eq!(core.free_many(&keys), 2);
    /// # Ok::<(), teurlaks::Refused>(())
    /// ```
    pub fn insert_many(
        &mut self,
        shard: u32,
        words: &[u128],
        keys: &mut Vec<Key>,
    ) -> Result<(), Refused> {
        if keys.try_reserve(words.len()).is_err() {
            return Err(Refused::OutOfMemory);
        }
        for mut words in words.chunks(BLOCK) {
            while !words.is_empty() {
                let (count, status) = self.insert_some(shard, words, keys);
                words = &words[count..];
                if status != raw::OK {
                    done(self.make_way(status, shard, 1))?;
                }
            }
        }
        Ok(())
    }

    /// Keeps objects for a block of words until one is refused, and gives how many were kept, and
    /// the status.
    fn insert_some(&mut self, shard: u32, words: &[u128], keys: &mut Vec<Key>) -> (usize, u32) {
        let mut room = [NO_KEY; BLOCK];
        let (first, len) = (words.as_ptr().cast(), words.len());
        // SAFETY: no other call runs, a word is its two halves, the lower one first, and so many
        // words and places are there.
        let reply = unsafe {
            raw::teurlaks_put_many(&mut self.handle, shard, first, len, room.as_mut_ptr(), len)
        };
        self.live += reply.count;
        if reply.count > 0 {
            self.numbers.least_words = 1;
        }
        for key in room
            .iter()
            .take(reply.count)
            .filter_map(|key| Key::of(*key))
        {
            self.note_put(key);
            keys.push(key);
        }
        (reply.count, reply.status)
    }

    /// Frees each of the keys that is live, in their order, and counts these: as so many calls of
    /// [`Core::free`] do. It takes no memory.
    pub fn free_many(&mut self, keys: &[Key]) -> usize {
        let mut count = 0;
        for keys in keys.chunks(BLOCK) {
            let room = raws(keys);
            // SAFETY: as in `insert_many`.
            count += unsafe {
                raw::teurlaks_free_many(&mut self.handle, room.as_ptr(), keys.len()).count
            };
        }
        self.live -= count;
        count
    }

    /// What [`Core::get`] gives for each of the keys, in their order.
    pub fn get_many<'a>(&'a self, keys: &'a [Key]) -> impl Iterator<Item = Option<u128>> + 'a {
        keys.chunks(BLOCK).flat_map(move |keys| {
            let room = raws(keys);
            let mut replies = [NOTHING; BLOCK];
            let len = keys.len();
            // SAFETY: no call that writes runs beside this one, and so many keys and places are
            // there.
            unsafe {
                raw::teurlaks_get_many(&self.handle, room.as_ptr(), len, replies.as_mut_ptr(), len)
            };
            let mut place = 0;
            iter::from_fn(move || {
                let GetReply { value, status } = (place < len).then(|| replies[place])?;
                place += 1;
                Some(
                    (status == raw::OK)
                        .then(|| u128::from(value.high) << 64 | u128::from(value.low)),
                )
            })
        })
    }
}

/// At most a block of keys, as the library has them.
fn raws(keys: &[Key]) -> [RawKey; BLOCK] {
    let mut room = [NO_KEY; BLOCK];
    for (raw, key) in iter::zip(&mut room, keys) {
        *raw = key.raw();
    }
    room
}
