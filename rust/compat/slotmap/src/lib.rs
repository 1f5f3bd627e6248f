//! The interface of `slotmap` 1's [`SlotMap`] over a [`teurlaks::Slab`], which another program
//! takes in place of `slotmap` by `[patch]`. No key is ever given out twice, and the pages of a map
//! leave the process when its values are gone. There is no other map here: no `SecondaryMap`,
//! `HopSlotMap` or `DenseSlotMap`.
//!
//! ```
//! use slotmap::{new_key_type, SlotMap};
//!
//! new_key_type! { struct PlayerKey; }
//! let mut players = SlotMap::with_key();
//! let ann: PlayerKey = players.insert("Ann");
//! assert_eq!(players[ann], "Ann");
//! assert_eq!(players.remove(ann), Some("Ann"));
//! assert_eq!(players.get(ann), None); // now and for ever
//! ```
#![warn(missing_docs, missing_debug_implementations)]

pub mod basic;
mod key;

#[doc(inline)]
pub use basic::SlotMap;
pub use key::{DefaultKey, Key, KeyData};
