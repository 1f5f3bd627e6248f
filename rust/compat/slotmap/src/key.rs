//! Keys of a map.

use std::fmt;
use std::hash::Hash;
use std::num::NonZeroU32;
use teurlaks::KeyBits;

/// The number of a key, in two halves.
#[derive(Clone, Copy, PartialEq, Eq, PartialOrd, Ord, Hash)]
pub struct KeyData {
    low: u32,
    high: NonZeroU32,
}

impl KeyData {
    /// How many bits the parts of a key take in its number.
    pub(crate) const BITS: KeyBits = KeyBits::BALANCED;

    /// A number that no key has: it has no generation, which is among the highest bits.
    const NULL: KeyData = KeyData {
        low: u32::MAX,
        high: NonZeroU32::MIN,
    };

    /// The number of a key of a slab, if it has one.
    pub(crate) fn of(key: teurlaks::Key) -> Option<KeyData> {
        key.to_u64(Self::BITS)
            .map(|number| KeyData::from_ffi(number.get()))
    }

    /// The key of a slab with this number, if there is one.
    pub(crate) fn key(self) -> Option<teurlaks::Key> {
        teurlaks::Key::from_u64(Self::BITS, self.as_ffi())
    }

    /// The number as one of 64 bits.
    #[must_use]
    pub fn as_ffi(self) -> u64 {
        u64::from(self.high.get()) << 32 | u64::from(self.low)
    }

    /// What has this number by [`KeyData::as_ffi`]. A number that no key has is that of the null
    /// key.
    #[must_use]
    pub fn from_ffi(value: u64) -> KeyData {
        match NonZeroU32::new((value >> 32) as u32) {
            Some(high) => KeyData {
                low: value as u32,
                high,
            },
            None => KeyData::NULL,
        }
    }
}

impl fmt::Debug for KeyData {
    fn fmt(&self, f: &mut fmt::Formatter<'_>) -> fmt::Result {
        write!(f, "{}v{}", self.low, self.high)
    }
}

impl Default for KeyData {
    fn default() -> KeyData {
        KeyData::NULL
    }
}

/// A key of a [`SlotMap`](crate::SlotMap).
///
/// # Safety
///
/// It is a [`KeyData`] with another name: [`new_key_type!`](crate::new_key_type) makes such a type.
/// Nothing here relies on that.
pub unsafe trait Key:
    From<KeyData> + Copy + Clone + Default + Eq + PartialEq + Ord + PartialOrd + Hash + fmt::Debug
{
    /// A key that never has a value.
    fn null() -> Self {
        KeyData::NULL.into()
    }

    /// Whether it is the null key.
    fn is_null(&self) -> bool {
        self.data() == KeyData::NULL
    }

    /// What it is.
    fn data(&self) -> KeyData;
}

/// Makes types of keys.
#[macro_export(local_inner_macros)]
macro_rules! new_key_type {
    ($($(#[$attribute:meta])* $visibility:vis struct $name:ident;)*) => {$(
        $(#[$attribute])*
        #[derive(Copy, Clone, Default, Eq, PartialEq, Ord, PartialOrd, Hash, Debug)]
        #[repr(transparent)]
        $visibility struct $name($crate::KeyData);

        impl ::std::convert::From<$crate::KeyData> for $name {
            fn from(data: $crate::KeyData) -> Self {
                $name(data)
            }
        }

        unsafe impl $crate::Key for $name {
            fn data(&self) -> $crate::KeyData {
                self.0
            }
        }
    )*};
}

new_key_type! {
    /// The key of a map where no other is asked for.
    pub struct DefaultKey;
}
