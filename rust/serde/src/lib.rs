//! Keys of a slab in texts and files, by `serde`. It is a crate of its own, so that `teurlaks` has
//! no dependencies.
//!
//! In a format for people a key is its text, `shard.serial/slot/generation`, and in others two
//! numbers: the upper 16 and the lower 64 of the 80 bits of [`Key::to_bits`]. Either way the key
//! that is read is the one that was written, also one of a type by `new_key_type!`.
//!
//! ```text
//! #[derive(serde::Serialize, serde::Deserialize)]
//! struct Player {
//!     #[serde(with = "teurlaks_serde::key")]
//!     team: TeamKey,
//!     #[serde(with = "teurlaks_serde::option", default)]
//!     captain: Option<PlayerKey>,
//!     others: Vec<teurlaks_serde::SerdeKey<PlayerKey>>,
//! }
//! ```
//!
//! A slab itself is neither written nor read: a slab gives out its keys by itself, each once, so
//! what is read could not have the keys that it had.
#![warn(missing_docs, missing_debug_implementations)]
#![forbid(unsafe_code)]

use serde::{Deserialize, Deserializer, Serialize, Serializer};
use std::fmt;
use teurlaks::{Key, TypedKey};

/// A key that is written and read: for keys in lists, maps and tuples.
#[derive(Clone, Copy, PartialEq, Eq, PartialOrd, Ord, Hash)]
pub struct SerdeKey<K = Key>(pub K);

impl<K: fmt::Debug> fmt::Debug for SerdeKey<K> {
    fn fmt(&self, f: &mut fmt::Formatter<'_>) -> fmt::Result {
        self.0.fmt(f)
    }
}

impl<K: TypedKey> Serialize for SerdeKey<K> {
    fn serialize<S: Serializer>(&self, to: S) -> Result<S::Ok, S::Error> {
        key::serialize(&self.0, to)
    }
}

impl<'de, K: TypedKey> Deserialize<'de> for SerdeKey<K> {
    fn deserialize<D: Deserializer<'de>>(from: D) -> Result<SerdeKey<K>, D::Error> {
        key::deserialize(from).map(SerdeKey)
    }
}

/// How a field that is a key is written and read: `#[serde(with = "teurlaks_serde::key")]`.
pub mod key {
    use serde::de::{Deserialize, Deserializer, Error, Visitor};
    use serde::ser::{Serialize, Serializer};
    use std::fmt;
    use teurlaks::{Key, TypedKey};

    /// Writes a key.
    ///
    /// # Errors
    ///
    /// Those of the format.
    pub fn serialize<K: TypedKey, S: Serializer>(key: &K, to: S) -> Result<S::Ok, S::Error> {
        let key: Key = (*key).into();
        if to.is_human_readable() {
            return to.collect_str(&key);
        }
        let bits = key.to_bits();
        // Each half is cut out of the number, which has 80 bits.
        #[allow(clippy::cast_possible_truncation)]
        let halves = ((bits >> 64) as u16, bits as u64);
        halves.serialize(to)
    }

    /// Reads a key.
    ///
    /// # Errors
    ///
    /// Those of the format, and one if what is read is no key.
    pub fn deserialize<'de, K: TypedKey, D: Deserializer<'de>>(from: D) -> Result<K, D::Error> {
        if from.is_human_readable() {
            return from.deserialize_str(Text).map(K::from);
        }
        let (high, low) = <(u16, u64)>::deserialize(from)?;
        let key = Key::from_bits(u128::from(high) << 64 | u128::from(low));
        key.map(K::from)
            .ok_or_else(|| D::Error::custom("no key has these bits"))
    }

    /// Reads the text of a key.
    struct Text;

    impl Visitor<'_> for Text {
        type Value = Key;

        fn expecting(&self, f: &mut fmt::Formatter<'_>) -> fmt::Result {
            f.write_str("a key as shard.serial/slot/generation")
        }

        fn visit_str<E: Error>(self, text: &str) -> Result<Key, E> {
            text.parse().map_err(E::custom)
        }
    }
}

/// How a field that may have a key is written and read: `#[serde(with =
/// "teurlaks_serde::option")]`.
pub mod option {
    use super::SerdeKey;
    use serde::{Deserialize, Deserializer, Serialize, Serializer};
    use teurlaks::TypedKey;

    /// Writes a key, or that there is none.
    ///
    /// # Errors
    ///
    /// Those of the format.
    pub fn serialize<K: TypedKey, S: Serializer>(
        key: &Option<K>,
        to: S,
    ) -> Result<S::Ok, S::Error> {
        key.map(SerdeKey).serialize(to)
    }

    /// Reads a key, or that there is none.
    ///
    /// # Errors
    ///
    /// As of [`key::deserialize`](super::key::deserialize).
    pub fn deserialize<'de, K: TypedKey, D: Deserializer<'de>>(
        from: D,
    ) -> Result<Option<K>, D::Error> {
        let key = Option::<SerdeKey<K>>::deserialize(from)?;
        Ok(key.map(|SerdeKey(key)| key))
    }
}
