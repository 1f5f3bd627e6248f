//! All shards as one value.

mod compacting;
mod gathering;
mod lent;
mod limits;
mod many;
mod meshing;
mod words;
mod worn;

use self::limits::Numbers;
pub(crate) use lent::{letting_go, meshing};
pub use limits::Limits;
pub(crate) use limits::{ends_turn, MOST_SHARDS, SHARDS};
pub(crate) use meshing::{certificate_text, done, marked, stepped, MOST_GROUPS};
pub use meshing::{Marked, Stepped};

use self::gathering::Gathering;
use crate::bytes::{slots_for, MOST_WORDS};
use crate::names::{Key, Position, Span};
use crate::occupancy::Occupancy;
use crate::raw;
use crate::refused::Refused;
use crate::walk::{Drain, Iter, Keys};
use std::fmt;
use std::ptr;

/// Objects of 1 to 16 words of 16 bytes under keys, in shards: the proved library as it is.
///
/// Each page that a shard opens has a *span* of keys. The spans that stand on one page are a
/// *group*: one at first, and more once pages were folded onto it.
///
/// A shard that ends leaves its groups to a pool, and one that goes on may leave its sparsest ones
/// there. A mark plans as many folds of the pool's groups onto those of the shards as can be, and
/// each step carries one out, which gives one page back. Every key stays valid.
///
/// ```
/// use teurlaks::{Core, Limits, Stepped};
///
/// let mut core = Core::new(Limits { shards: 2, pages: 4, generations: 9, ..Limits::default() })?;
/// let first = core.insert(0, 10)?;
/// let key = core.insert(0, 11)?;
/// core.free(first);
/// core.end(0)?; // its group 0.0 goes to the pool, with its page
/// core.insert(1, 7)?;
///
/// assert_eq!(core.mark()?.folds, 1);
/// assert!(matches!(core.step()?, Stepped::Folded(..)));
/// core.close()?;
/// assert_eq!(core.pages(), 1); // one page less
/// assert_eq!(core.get(key), Some(11)); // the key finds its word
/// assert_eq!(core.get(first), None);
/// # Ok::<(), teurlaks::Refused>(())
/// ```
///
/// It is not `Clone`. A copy that finds the same keys would be one of all that the library keeps of
/// them, with the generations of each slot and the folds, and the library has no such call that is
/// proved. A copy by inserts has other keys, since a core chooses its keys by itself, each once:
///
/// ```
/// # use std::collections::HashMap;
/// # use teurlaks::{Core, Limits, Refused};
/// # let mut core = Core::new(Limits::default())?;
/// # core.insert(0, 7)?;
/// let mut copy = Core::new(core.limits())?;
/// let keys: Result<HashMap<_, _>, Refused> = (core.iter())
///     .map(|(key, words)| Ok((key, copy.insert_words(0, &words)?))) // the old key with the new
///     .collect();
/// # assert_eq!(keys?.len(), 1);
/// # Ok::<(), teurlaks::Refused>(())
/// ```
///
/// It is `Send` and `Sync`: calls through `&self` only read, so many threads may make them at once.
/// No call that writes can run beside them:
///
/// ```compile_fail,E0502
/// # let mut core = teurlaks::Core::new(teurlaks::Limits::default()).unwrap();
/// # let key = core.insert(0, 7).unwrap();
/// std::thread::scope(|scope| {
///     scope.spawn(|| core.get(key));
///     core.insert(0, 8) // the other thread may still look up
/// });
/// ```
// The handle first, where a reference to the core is one to it: no call has to add.
#[repr(C)]
pub struct Core {
    // SAFETY: only this module has it. It is null until `open`, and then what
    // `teurlaks_new_with_slots` left there until `drop`. Of a handle without a core the library
    // answers `NO_CORE`, counts nothing, and drops nothing.
    handle: raw::Handle,
    numbers: Numbers,
    // Whose plan is open.
    plan: Plan,
    // Whether groups may be in the pool: ends and retirements leave some there.
    pool: bool,
    order: Order,
    // The shard, and the group of it, that the next part of a trim in turn begins with.
    next_trimmed: u8,
    next_group: u32,
    gathering: Gathering,
    // How many pages could have gone, by their counts, after the last compaction: fewer than 2^26.
    stay: u32,
    // How many pages went in calls of a compaction that were refused, and were not counted yet:
    // fewer than 2^26.
    gone: u32,
    // How many keys are live: a put makes one live, and a free takes one away, as each tells.
    live: usize,
    // A bit for each shard that has ended.
    ended: u64,
    // A bit for each shard of which a trim has left groups without a page since such were given up.
    emptied: u64,
}

/// Whose plan is open.
#[derive(Clone, Copy, PartialEq)]
pub(crate) enum Plan {
    None,
    Caller,
    /// One of a compaction that is under way may be.
    Compaction,
}

/// Whether the first shard has filled its pages one after another, each from its lowest free slot
/// on, and does so still.
#[derive(Clone, Copy, PartialEq, Eq, PartialOrd, Ord)]
enum Order {
    Kept,
    /// A caller has ended a shard or moved groups by hand, or another shard than the first has
    /// adopted one.
    Regrouped,
    /// A slot has got all its generations.
    Worn,
}

impl Core {
    /// A core of new shards, numbered from 0 on. It takes no memory until its first object.
    ///
    /// # Errors
    ///
    /// [`Refused::Config`] exactly where a number is out of its range.
    pub fn new(limits: Limits) -> Result<Core, Refused> {
        let numbers = Numbers::new(limits)?;
        Ok(Core {
            handle: raw::Handle {
                at: ptr::null_mut(),
            },
            numbers,
            plan: Plan::None,
            pool: false,
            order: Order::Kept,
            live: 0,
            ended: 0,
            emptied: 0,
            gone: 0,
            gathering: Gathering::default(),
            next_trimmed: 0,
            next_group: 0,
            stay: 0,
        })
    }

    /// A core of objects of so many words alone, which `put_zeros` puts.
    ///
    /// # Errors
    ///
    /// As of [`Core::new`].
    pub(crate) fn of_objects(limits: Limits, words: usize) -> Result<Core, Refused> {
        let mut core = Core::new(limits)?;
        core.numbers.least_words = words as u8;
        Ok(core)
    }

    /// Whether its shards are there, which come with the first call that needs them.
    #[inline]
    fn is_open(&self) -> bool {
        !self.handle.at.is_null()
    }

    /// Sees to it that its shards are there.
    #[cold]
    fn open(&mut self) -> Result<(), Refused> {
        done(self.open_shards())
    }

    /// The same, by a status.
    fn open_shards(&mut self) -> u32 {
        if self.is_open() {
            return raw::OK;
        }
        let Limits {
            shards,
            pages,
            spans,
            slots,
            generations,
        } = self.limits();
        let handle = &mut self.handle;
        // SAFETY: the handle has no core yet. One that is refused stays null.
        unsafe { raw::teurlaks_new_with_slots(handle, shards, pages, spans, slots, 1, generations) }
    }

    /// The same for a put of so many words, if the shard and the number are in their ranges.
    fn open_for(&mut self, shard: u32, len: usize) -> u32 {
        match self.has_shard(shard).and(is_length_of_object(len)) {
            Ok(()) => self.open_shards(),
            Err(_) => raw::CONFIG,
        }
    }

    /// That there is such a shard.
    fn has_shard(&self, shard: u32) -> Result<(), Refused> {
        if shard < self.shards() {
            Ok(())
        } else {
            Err(Refused::Config)
        }
    }

    /// The numbers with which it was made.
    #[must_use]
    #[inline]
    pub fn limits(&self) -> Limits {
        self.numbers.limits()
    }

    /// Whether there is such a shard and it has ended.
    ///
    /// ```
    /// # use teurlaks::{Core, Limits};
    /// let mut core = Core::new(Limits { shards: 2, ..Limits::default() })?;
    /// core.end(1)?;
    /// assert!(!core.is_ended(0) && core.is_ended(1) && !core.is_ended(2));
    /// assert_eq!(core.limits().shards, 2);
    /// # Ok::<(), teurlaks::Refused>(())
    /// ```
    #[must_use]
    pub fn is_ended(&self, shard: u32) -> bool {
        self.ended.checked_shr(shard).unwrap_or(0) & 1 == 1
    }

    /// Keeps an object of one word in the shard, and gives its key, which was never given out
    /// before.
    ///
    /// # Errors
    ///
    /// - [`Refused::PagesSpent`]: no page of the shard has a usable slot, and it may have no
    ///   further one;
    /// - [`Refused::Ended`]: the shard has ended;
    /// - [`Refused::Config`]: there is no such shard;
    /// - [`Refused::OutOfMemory`]: none of these holds, and memory was refused.
    #[inline]
    pub fn insert(&mut self, shard: u32, word: u128) -> Result<Key, Refused> {
        let (low, high) = halves(word);
        // SAFETY: no other call runs.
        let put = unsafe { raw::teurlaks_put(&mut self.handle, shard, low, high) };
        self.plain_key(put, 1)
            .map_or_else(|| was_put(self.put_again(put, shard, low, high)), Ok)
    }

    /// The key that a put of so many words has made live, if there is nothing to do but to count
    /// it: no slot has given out its last key with this one, and no object with fewer words was put
    /// yet.
    // Whoever inlines this keeps the key in registers.
    #[allow(clippy::inline_always)]
    #[inline(always)]
    fn plain_key(&mut self, put: raw::PutReply, len: usize) -> Option<Key> {
        let is_plain = self.has_later_key(&put) && len >= self.numbers.least_words.into();
        self.count_plain(put, is_plain)
    }

    /// Whether a put was done, and its slot may give out another key later.
    #[allow(clippy::inline_always)]
    #[inline(always)]
    fn has_later_key(&self, put: &raw::PutReply) -> bool {
        // No key has generation 0, which is passed over here too.
        put.status == raw::OK && put.key.generation.wrapping_sub(1) < self.numbers.generations - 1
    }

    /// The same, if no object with fewer words is ever put: `of_objects` made the core.
    #[allow(clippy::inline_always)]
    #[inline(always)]
    fn plain_key_of_least(&mut self, put: raw::PutReply) -> Option<Key> {
        let is_plain = self.has_later_key(&put);
        self.count_plain(put, is_plain)
    }

    /// The key of the reply, which is counted, if it is plain.
    #[allow(clippy::inline_always)]
    #[inline(always)]
    fn count_plain(&mut self, put: raw::PutReply, is_plain: bool) -> Option<Key> {
        if !is_plain {
            return None;
        }
        let key = Key::of(put.key)?;
        self.live += 1;
        Some(key)
    }

    /// What a put answers in the end that answered this at first, which is no plain key. It comes
    /// back in registers, by the convention of the library's puts: for an answer in memory the
    /// caller would make room each time.
    #[cold]
    #[allow(improper_ctypes_definitions)]
    extern "C" fn put_again(
        &mut self,
        put: raw::PutReply,
        shard: u32,
        low: u64,
        high: u64,
    ) -> raw::PutReply {
        self.again(put, shard, 1, |core| {
            // SAFETY: as in `insert`.
            unsafe { raw::teurlaks_put(&mut core.handle, shard, low, high) }
        })
    }

    /// Makes a put of so many words again as long as it is refused and there is a way for it, and
    /// counts it.
    fn again(
        &mut self,
        mut reply: raw::PutReply,
        shard: u32,
        len: usize,
        mut put: impl FnMut(&mut Core) -> raw::PutReply,
    ) -> raw::PutReply {
        while reply.status != raw::OK {
            let status = self.make_way(reply.status, shard, len);
            if status != raw::OK {
                return refused_put(status);
            }
            reply = put(self);
        }
        let Some(key) = Key::of(reply.key) else {
            return reply;
        };
        self.live += 1;
        self.note_put(key);
        self.numbers.least_words = self.numbers.least_words.min(len as u8);
        reply
    }

    /// Notes whether a slot has given out its last key with this one.
    #[inline]
    fn note_put(&mut self, key: Key) {
        if key.generation() >= self.numbers.generations {
            self.order = Order::Worn;
        }
    }

    /// The word of the key, where it is live and has an object of one word.
    #[inline]
    #[must_use]
    pub fn get(&self, key: Key) -> Option<u128> {
        let (low, high) = key.numbers();
        // SAFETY: no call that writes runs beside this one.
        let got = unsafe { raw::teurlaks_get(&self.handle, low, high) };
        (got.status == raw::OK)
            .then(|| u128::from(got.value.high) << 64 | u128::from(got.value.low))
    }

    /// Whether the key is live.
    #[doc(alias = "contains_key")]
    #[inline]
    #[must_use]
    pub fn contains(&self, key: Key) -> bool {
        let (low, high) = key.numbers();
        // SAFETY: as in `get`.
        unsafe { raw::teurlaks_contains(&self.handle, low, high) == raw::OK }
    }

    /// The key of this slot of the span, if one is live: no other key stands between it and the
    /// last one that the slot before could have.
    pub(crate) fn key_at(&self, span: Span, slot: u8) -> Option<Key> {
        let next = self
            .next_after(span.before(slot).map_or(NO_KEY, Key::raw))
            .and_then(Key::of);
        next.filter(|key| key.span() == span && key.slot() == u32::from(slot))
    }

    /// Sets the key to an object of this word in place, and says whether it did: where the key is
    /// live and has an object of one word. The key stays as it is, also while a plan is open.
    ///
    /// # Errors
    ///
    /// [`Refused::OutOfMemory`], after 2^63 changes of a span, or if memory fails for the first
    /// object on its page that is not zeros. No other set takes memory.
    ///
    /// ```
    /// # use teurlaks::{Core, Limits};
    /// let mut core = Core::new(Limits::default())?;
    /// let key = core.insert(0, 7)?;
    /// assert!(core.set(key, 8)?);
    /// assert_eq!(core.replace(key, 9)?, Some(8));
    /// assert_eq!(core.remove(key), Some(9));
    /// assert!(!core.set(key, 10)?); // the key is not live
    /// # Ok::<(), teurlaks::Refused>(())
    /// ```
    #[inline]
    pub fn set(&mut self, key: Key, word: u128) -> Result<bool, Refused> {
        let (key, key_high) = key.numbers();
        let (low, high) = halves(word);
        // SAFETY: as in `insert`.
        let status = unsafe { raw::teurlaks_set(&mut self.handle, key, key_high, low, high) };
        if status == raw::NO_CORE {
            return Ok(false);
        }
        was_set(status)
    }

    /// Sets the key to an object of this word, and gives the one that it had, where it is live and
    /// has an object of one word; else nothing changes.
    ///
    /// # Errors
    ///
    /// As of [`Core::set`].
    #[inline]
    pub fn replace(&mut self, key: Key, word: u128) -> Result<Option<u128>, Refused> {
        let before = self.get(key);
        Ok(if self.set(key, word)? { before } else { None })
    }

    /// Frees the key, and says whether it was live. It takes no memory.
    #[inline]
    pub fn free(&mut self, key: Key) -> bool {
        let (low, high) = key.numbers();
        // SAFETY: as in `insert`.
        let was_live = unsafe { raw::teurlaks_free(&mut self.handle, low, high) == raw::OK };
        if was_live {
            self.live -= 1;
        }
        was_live
    }

    /// Frees a key that was found live.
    #[inline]
    pub(crate) fn free_live(&mut self, key: Key) {
        let (low, high) = key.numbers();
        // Before the call, so that nothing is to do after it.
        self.live -= 1;
        // SAFETY: as in `insert`.
        let status = unsafe { raw::teurlaks_free(&mut self.handle, low, high) };
        debug_assert_eq!(status, raw::OK, "{key} was found live");
    }

    /// Frees the key, and gives its word, where it was live and had an object of one word; else
    /// nothing changes.
    #[inline]
    pub fn remove(&mut self, key: Key) -> Option<u128> {
        let word = self.get(key)?;
        self.free_live(key);
        Some(word)
    }

    /// The live key that comes next after this one, which need not be live, or the first one where
    /// none is given. Keys come by the ids of their spans and then by slots, wherever folds have
    /// brought them.
    ///
    /// So a loop that goes from `None` to `None` meets each live key once, and may free keys on its
    /// way. Numbers that no key has, of [`Key::from_bits`], are as `None`.
    ///
    /// ```
    /// # use teurlaks::{Core, Limits};
    /// let mut core = Core::new(Limits::default())?;
    /// for word in 0..3 {
    ///     core.insert(0, word)?;
    /// }
    /// let mut after = None;
    /// while let Some(key) = core.next_live(after) {
    ///     core.free(key);
    ///     after = Some(key);
    /// }
    /// assert!(core.is_empty());
    /// # Ok::<(), teurlaks::Refused>(())
    /// ```
    #[must_use]
    pub fn next_live(&self, after: Option<Key>) -> Option<Key> {
        self.next_after(after.map_or(NO_KEY, Key::raw))
            .and_then(Key::of)
    }

    /// The numbers of the live key that comes next after these.
    #[inline]
    pub(crate) fn next_after(&self, after: raw::RawKey) -> Option<raw::RawKey> {
        // SAFETY: as in `get`.
        let next = unsafe { raw::teurlaks_next(&self.handle, after) };
        (next.status == raw::OK).then_some(next.key)
    }

    /// The first live key that stands there or behind it, and before the other position.
    pub(crate) fn first_between(&self, from: Position, end: Position) -> Option<Key> {
        let next = self.next_after(from.key_before().map_or(NO_KEY, Key::raw));
        next.and_then(Key::of).filter(|key| key.position() < end)
    }

    /// Each live key, in the order of [`Core::next_live`], or back from the end. A step from the
    /// front is one call of the library. One from the end is one if the slot before is live, and
    /// about twice the binary logarithm of how many slots lie between; it takes no memory.
    ///
    /// ```
    /// # use teurlaks::{Core, Limits};
    /// let mut core = Core::new(Limits::default())?;
    /// let keys = [core.insert(0, 7)?, core.insert(0, 8)?, core.insert(0, 9)?];
    /// core.free(keys[1]);
    /// assert!(core.keys().rev().eq([keys[2], keys[0]]));
    /// # Ok::<(), teurlaks::Refused>(())
    /// ```
    pub fn keys(&self) -> Keys<'_> {
        Keys::new(self)
    }

    /// Each live key with the words of its object, in the order of [`Core::next_live`].
    pub fn iter(&self) -> Iter<'_> {
        Iter::new(self)
    }

    /// Frees each live key, and gives it with the words of its object, in the order of
    /// [`Core::next_live`]. Those that are not asked for are freed when the iterator is dropped. So
    /// an owner of what the words name comes to each of them.
    pub fn drain(&mut self) -> Drain<'_> {
        Drain::new(self)
    }

    /// How many keys are live. It asks nothing of the library: what was put and freed is counted.
    #[must_use]
    pub fn len(&self) -> usize {
        self.live
    }

    /// Whether no key is live.
    #[must_use]
    pub fn is_empty(&self) -> bool {
        self.live == 0
    }

    /// How many pages of up to 4,096 bytes there are. The library counts them, shard by shard.
    #[must_use]
    pub fn pages(&self) -> usize {
        // SAFETY: as in `get`.
        let raw::TotalsReply { pages, live } = unsafe { raw::teurlaks_totals(&self.handle) };
        debug_assert_eq!(live, self.live, "puts and frees were counted");
        pages
    }

    /// How many pages there are, and how many keys are live on them.
    pub(crate) fn occupancy(&self) -> Occupancy {
        Occupancy {
            pages: self.pages(),
            live: self.live,
            ..self.unoccupied()
        }
    }

    // No page of the slots that pages have here.
    fn unoccupied(&self) -> Occupancy {
        Occupancy {
            pages: 0,
            live: 0,
            slots: (self.limits()).slots_of(slots_for(usize::from(self.numbers.least_words))),
        }
    }

    /// About how many pages there are, and about how many keys are live on them: exactly so of few
    /// groups. It takes no longer of many.
    pub(crate) fn estimate(&self) -> Occupancy {
        // SAFETY: as in `get`.
        let raw::TotalsReply { pages, live } = unsafe { raw::teurlaks_estimate(&self.handle) };
        Occupancy {
            pages,
            live,
            ..self.unoccupied()
        }
    }

    /// About how many pages there are, and how many of them can go at most.
    pub(crate) fn pages_and_most_folds(&self) -> (usize, usize) {
        let pages = self.estimate();
        (pages.pages, pages.most_folds())
    }
}

// SAFETY: that a handle may go to another thread is proved in `crates/teurlaks_c` (`unsafe impl
// Send for Handle`, with its proof), and `&mut` and `Drop` order the calls.
unsafe impl Send for Core {}

// SAFETY: through `&self` a core asks the library by a `*const Handle` alone, and that call reads
// the core where it lies. It is proved that such a call leaves handle and core as they were. That
// it writes to neither meanwhile is tested: `c/reading.c` protects both from writes. Every other
// call takes `&mut self`, so no thread has `&self` beside it.
unsafe impl Sync for Core {}

impl Drop for Core {
    fn drop(&mut self) {
        // SAFETY: nothing uses the handle after.
        unsafe { raw::teurlaks_drop(&mut self.handle) }
    }
}

impl fmt::Debug for Core {
    fn fmt(&self, f: &mut fmt::Formatter<'_>) -> fmt::Result {
        f.debug_struct("Core")
            .field("pages", &self.pages())
            .field("len", &self.len())
            .finish_non_exhaustive()
    }
}

// What stands for no key: a walk begins with it.
pub(crate) const NO_KEY: raw::RawKey = raw::RawKey {
    serial: 0,
    generation: 0,
    shard: 0,
    slot: 0,
    reserved: 0,
};

// That an object may have so many words.
#[cold]
fn is_length_of_object(len: usize) -> Result<(), Refused> {
    if (1..=MOST_WORDS).contains(&len) {
        Ok(())
    } else {
        Err(Refused::Config)
    }
}

// What a put answers that is refused.
fn refused_put(status: u32) -> raw::PutReply {
    raw::PutReply {
        status,
        key: NO_KEY,
    }
}

// What a put answers: its key, where it was done.
#[inline]
pub(crate) fn was_put(put: raw::PutReply) -> Result<Key, Refused> {
    if put.status != raw::OK {
        return Err(Refused::of(put.status));
    }
    Key::of(put.key).ok_or_else(|| Refused::of(put.status))
}

// What the status of a set says.
#[inline]
pub(crate) fn was_set(status: u32) -> Result<bool, Refused> {
    match status {
        raw::OK => Ok(true),
        raw::NONE => Ok(false),
        other => Err(Refused::of(other)),
    }
}

// Each half is cut out of the word.
#[allow(clippy::cast_possible_truncation)]
fn halves(word: u128) -> (u64, u64) {
    (word as u64, (word >> 64) as u64)
}
