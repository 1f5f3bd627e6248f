//! Names of values and of groups.

use crate::raw::{RawKey, RawSpan};
use std::error::Error;
use std::fmt;
use std::hash::{Hash, Hasher};
use std::mem::{align_of, size_of};
use std::num::NonZeroU64;
use std::str::FromStr;

/// The name of one stored value. It is 12 bytes, and no other value of the same slab ever has it.
///
/// A key is printed as `shard.serial/slot/generation`, as in the reports of `meshrun`, and read
/// from such a text. Keys are ordered as the walks of a [`Core`](crate::Core) and a
/// [`Store`](crate::Store) come to them: by shard, serial number, slot and generation. Since no
/// generation is 0, an `Option<Key>` is 12 bytes too. A key of another slab finds nothing, or what
/// has the same numbers here.
///
/// ```
/// # use teurlaks::{Key, Slab};
/// let mut slab = Slab::new()?;
/// let key = slab.insert("a")?;
/// assert_eq!(key.to_string(), "0.0/0/1");
/// assert_eq!("0.0/0/1".parse(), Ok(key));
/// assert_eq!((key.shard(), key.serial(), key.slot(), key.generation()), (0, 0, 0, 1));
/// assert_eq!(std::mem::size_of::<Option<Key>>(), 12);
/// # Ok::<(), teurlaks::Refused>(())
/// ```
// Two words, as a key is moved. A load of a word that was stored in parts just before would wait
// until these have reached the cache.
#[derive(Clone, Copy, PartialEq, Eq)]
#[repr(C, packed(4))]
pub struct Key {
    // The generation, which is never 0, above the serial number.
    low: NonZeroU64,
    // The slot above the shard, each of 8 bits.
    high: u32,
}

const _: () = assert!(size_of::<Key>() == 12 && size_of::<Option<Key>>() == 12);
const _: () = assert!(size_of::<RawKey>() == 12 && align_of::<RawKey>() == 4);

impl Key {
    /// How many bits of [`Key::to_bits`] a key has.
    const BITS: u32 = 80;

    /// The key as a number, as for a place that keeps numbers: from its 80th bit down 8 bits of the
    /// shard, 32 of the serial number, 8 of the slot and 32 of the generation. So numbers are
    /// ordered as keys are.
    ///
    /// ```
    /// # use teurlaks::{Key, Slab};
    /// let mut slab = Slab::new()?;
    /// let key = slab.insert("a")?;
    /// assert_eq!(Key::from_bits(key.to_bits()), Some(key));
    /// assert_eq!(Key::from_bits(0), None);
    /// # Ok::<(), teurlaks::Refused>(())
    /// ```
    #[must_use]
    pub fn to_bits(self) -> u128 {
        u128::from(self.shard()) << 72
            | u128::from(self.serial()) << 40
            | u128::from(self.slot()) << 32
            | u128::from(self.generation())
    }

    /// The key of a number, or `None` where no key has it: where the generation, which is its
    /// lowest 32 bits, is 0, or the number has more than 80 bits. Any number may be given: under a
    /// key that is not live nothing is found.
    #[must_use]
    // Each part is cut out of the number.
    #[allow(clippy::cast_possible_truncation)]
    pub fn from_bits(bits: u128) -> Option<Key> {
        if bits >> Self::BITS != 0 {
            return None;
        }
        Key::of_parts(
            (bits >> 72) as u8,
            (bits >> 40) as u32,
            (bits >> 32) as u8,
            bits as u32,
        )
    }

    /// The key of these parts, or `None` if the generation is 0.
    #[inline]
    fn of_parts(shard: u8, serial: u32, slot: u8, generation: u32) -> Option<Key> {
        if generation == 0 {
            return None;
        }
        Some(Key {
            low: NonZeroU64::new(u64::from(generation) << 32 | u64::from(serial))?,
            high: u32::from(slot) << 8 | u32::from(shard),
        })
    }

    /// The shard that opened its span. Another may have adopted that, and the pool may have it.
    #[must_use]
    pub fn shard(self) -> u32 {
        self.high & 0xff
    }

    /// The same but for the shard.
    #[inline]
    pub(crate) fn with_shard(self, shard: u8) -> Key {
        let high = self.high & !0xff | u32::from(shard);
        Key { high, ..self }
    }

    /// The serial number of its span among those that the shard has opened.
    #[must_use]
    // It is cut out of the number.
    #[allow(clippy::cast_possible_truncation)]
    pub fn serial(self) -> u32 {
        self.low.get() as u32
    }

    /// Its slot on the page, below 256. No fold changes it.
    #[must_use]
    pub fn slot(self) -> u32 {
        self.high >> 8 & 0xff
    }

    /// The same, for which no bit is cut out: above the slot there is none.
    #[inline]
    pub(crate) fn slot_number(self) -> u32 {
        self.high >> 8
    }

    /// Which key of its slot it is, from 1 on.
    #[must_use]
    pub fn generation(self) -> u32 {
        (self.low.get() >> 32) as u32
    }

    /// Where its slot stands in the order of walks.
    pub(crate) fn position(self) -> Position {
        Position(self.span().0 << 8 | u64::from(self.slot()))
    }

    /// The span that gave it out.
    #[inline]
    pub(crate) fn span(self) -> Span {
        Span::new(self.shard(), self.serial())
    }

    /// The key of the span, the slot and the generation, or `None` where that is 0.
    #[inline]
    // Each half is cut out of the number, and a key's shard has 8 bits.
    #[allow(clippy::cast_possible_truncation)]
    pub(crate) fn of_span(Span(span): Span, slot: u8, generation: u32) -> Option<Key> {
        Key::of_parts((span >> 32) as u8, span as u32, slot, generation)
    }

    /// The key as two numbers, of which the first is never 0: its serial number and generation, and
    /// its shard and slot.
    #[inline]
    pub(crate) fn halves(self) -> (u64, u64) {
        (self.low.get(), self.high.into())
    }

    /// The key of these halves, which one has, or `None` where the first is 0.
    #[inline]
    // The second half has 32 bits.
    #[allow(clippy::cast_possible_truncation)]
    pub(crate) fn of_halves(low: u64, high: u64) -> Option<Key> {
        let (low, high) = (NonZeroU64::new(low)?, high as u32);
        Some(Key { low, high })
    }

    /// The key as a call gets it, in two numbers: those of `raw` in the order of their bytes.
    #[inline]
    pub(crate) fn numbers(self) -> (u64, u32) {
        (self.low.get(), self.high)
    }

    /// The key as the library has it.
    #[inline]
    // A shard and a slot have 8 bits.
    #[allow(clippy::cast_possible_truncation)]
    pub(crate) fn raw(self) -> RawKey {
        RawKey {
            serial: self.serial(),
            generation: self.generation(),
            shard: self.shard() as u8,
            slot: self.slot() as u8,
            reserved: 0,
        }
    }

    /// The key that the library answers, or `None` where the generation is 0: a reply that has no
    /// key has zeros.
    #[inline]
    pub(crate) fn of(raw: RawKey) -> Option<Key> {
        Key::of_parts(raw.shard, raw.serial, raw.slot, raw.generation)
    }
}

impl PartialOrd for Key {
    fn partial_cmp(&self, other: &Key) -> Option<std::cmp::Ordering> {
        Some(self.cmp(other))
    }
}

impl Ord for Key {
    fn cmp(&self, other: &Key) -> std::cmp::Ordering {
        self.to_bits().cmp(&other.to_bits())
    }
}

impl Hash for Key {
    fn hash<H: Hasher>(&self, state: &mut H) {
        state.write_u64(self.low.get().rotate_left(32));
        state.write_u32(self.high);
    }
}

impl fmt::Display for Key {
    fn fmt(&self, f: &mut fmt::Formatter<'_>) -> fmt::Result {
        let (shard, serial) = (self.shard(), self.serial());
        let (slot, generation) = (self.slot(), self.generation());
        write!(f, "{shard}.{serial}/{slot}/{generation}")
    }
}

impl fmt::Debug for Key {
    fn fmt(&self, f: &mut fmt::Formatter<'_>) -> fmt::Result {
        fmt::Display::fmt(self, f)
    }
}

impl FromStr for Key {
    type Err = ParseKeyError;

    /// Reads a key as it is printed, `shard.serial/slot/generation`: so what is read is printed as
    /// the same text.
    ///
    /// # Errors
    ///
    /// [`ParseKeyError::Form`] where the text has another form, and else [`ParseKeyError::Range`]
    /// where a number does not fit a key.
    fn from_str(text: &str) -> Result<Key, ParseKeyError> {
        let (shard, rest) = text.split_once('.').ok_or(ParseKeyError::Form)?;
        let (serial, rest) = rest.split_once('/').ok_or(ParseKeyError::Form)?;
        let (slot, generation) = rest.split_once('/').ok_or(ParseKeyError::Form)?;
        if ![shard, serial, slot, generation].into_iter().all(is_number) {
            return Err(ParseKeyError::Form);
        }
        let (shard, serial) = (in_range(shard)?, in_range(serial)?);
        let (slot, generation) = (in_range(slot)?, in_range(generation)?);
        Key::of_parts(shard, serial, slot, generation).ok_or(ParseKeyError::Range)
    }
}

/// Whether these are decimal digits with no leading zero.
fn is_number(digits: &str) -> bool {
    digits == "0"
        || !digits.starts_with('0')
            && !digits.is_empty()
            && digits.bytes().all(|byte| byte.is_ascii_digit())
}

/// The number of these digits, where its type has it.
fn in_range<N: FromStr>(digits: &str) -> Result<N, ParseKeyError> {
    digits.parse().map_err(|_| ParseKeyError::Range)
}

/// Why a text is no key.
#[derive(Clone, Copy, Debug, PartialEq, Eq, Hash)]
#[non_exhaustive]
pub enum ParseKeyError {
    /// It is not of the form `shard.serial/slot/generation`, in decimal digits with no sign and no
    /// leading zero.
    Form,
    /// A shard or a slot is above 255, a serial number above 4,294,967,295, or a generation 0 or
    /// above that.
    Range,
}

impl fmt::Display for ParseKeyError {
    fn fmt(&self, f: &mut fmt::Formatter<'_>) -> fmt::Result {
        f.write_str(match self {
            ParseKeyError::Form => "a key has the form shard.serial/slot/generation, as 0.3/17/1",
            ParseKeyError::Range => "a number is greater than a key has it, or the generation is 0",
        })
    }
}

impl Error for ParseKeyError {}

/// The name of a span: the shard that opened it, and its serial number there, in one number.
#[derive(Clone, Copy, PartialEq, Eq)]
pub(crate) struct Span(u64);

impl Span {
    /// The name before all others.
    pub const LEAST: Span = Span(0);

    /// The name that the span of no key has, whose shard has 8 bits.
    pub const NONE: Span = Span(u64::MAX);

    /// A name that no span has, since its shard has 32 bits: with this as its serial number.
    pub fn freed(serial: u32) -> Span {
        Span::new(1 << 31, serial)
    }

    #[inline]
    pub fn new(shard: u32, serial: u32) -> Span {
        Span(u64::from(shard) << 32 | u64::from(serial))
    }

    #[inline]
    pub fn number(self) -> u64 {
        self.0
    }

    /// A key of the slot before this one, in the order of walks, which need not be one of this
    /// span; `None` for the first slot of all.
    pub fn before(self, slot: u8) -> Option<Key> {
        if slot > 0 {
            return Key::of_span(self, slot - 1, 1);
        }
        let mut before = self.0.checked_sub(1)?;
        // No span has the greatest serial number.
        if before as u32 == u32::MAX {
            before -= 1;
        }
        Key::of_span(Span(before), u8::MAX, 1)
    }

    /// The serial number in it.
    #[inline]
    // It is cut out of the name.
    #[allow(clippy::cast_possible_truncation)]
    pub fn serial(self) -> u32 {
        self.0 as u32
    }
}

/// Where a slot of a span stands in the order of walks: the span's name above the slot's number.
#[derive(Clone, Copy, PartialEq, Eq, PartialOrd, Ord)]
pub(crate) struct Position(u64);

impl Position {
    pub const FIRST: Position = Position(0);

    /// Behind each slot of these shards, numbered from 0 on.
    pub const fn behind(shards: usize) -> Position {
        Position((shards as u64) << 40)
    }

    /// So many slots before this one, or the first of all.
    pub fn back(self, slots: u64) -> Position {
        Position(self.0.saturating_sub(slots))
    }

    /// The middle of what stands between this and the other one, if something does.
    pub fn middle(self, other: Position) -> Option<Position> {
        let half = other.0.checked_sub(self.0)? / 2;
        (half > 0).then_some(Position(self.0 + half))
    }

    /// A key of the slot before this one, as of [`Span::before`].
    // The slot is cut out of the number.
    #[allow(clippy::cast_possible_truncation)]
    pub fn key_before(self) -> Option<Key> {
        let span = Span(self.0 >> 8);
        if span.serial() == u32::MAX {
            // No span has this name. The key is of the last one that a shard may have.
            return Key::of_span(Span(span.0 - 1), u8::MAX, 1);
        }
        span.before(self.0 as u8)
    }
}

/// The name of a group of spans on one page: the shard that opened its head, and the head's serial
/// number there. It is printed as `shard.serial`, as in certificates.
#[derive(Clone, Copy, PartialEq, Eq, PartialOrd, Ord, Hash)]
pub struct Group(pub(crate) RawSpan);

impl Group {
    /// Its head.
    // A shard has 8 bits, as in a key: so no head is `Span::NONE`, whatever the library answers.
    pub(crate) fn head(self) -> Span {
        Span::new(self.0.shard & 0xff, self.0.serial)
    }

    /// The shard that opened its head.
    #[must_use]
    pub fn shard(self) -> u32 {
        self.0.shard
    }

    /// The serial number of its head among the spans that the shard has opened.
    #[must_use]
    pub fn serial(self) -> u32 {
        self.0.serial
    }
}

impl fmt::Display for Group {
    fn fmt(&self, f: &mut fmt::Formatter<'_>) -> fmt::Result {
        write!(f, "{}.{}", self.0.shard, self.0.serial)
    }
}

impl fmt::Debug for Group {
    fn fmt(&self, f: &mut fmt::Formatter<'_>) -> fmt::Result {
        fmt::Display::fmt(self, f)
    }
}
