#![doc = include_str!("../README.md")]
#![warn(missing_docs, missing_debug_implementations)]

pub mod arena;
mod background;
mod blocks;
mod boxed;
mod bytes;
mod compact;
mod core;
mod key_bits;
mod names;
mod occupancy;
mod raw;
mod refused;
pub mod shared;
pub mod shared_slab;
pub mod slab;
mod slots;
mod spans;
pub mod store;
mod typed;
mod values;
pub mod walk;

pub use crate::compact::Compacted;
pub use crate::core::{Core, Limits, Marked, Stepped};
#[doc(inline)]
pub use arena::Arena;
pub use background::{Background, Policy};
pub use bytes::{Bytes, BytesKey, Words};
pub use key_bits::KeyBits;
pub use names::{Group, Key, ParseKeyError};
pub use refused::{InsertError, Refused};
#[doc(inline)]
pub use shared::SharedStore;
#[doc(inline)]
pub use shared_slab::{Clear, SharedSlab};
#[doc(inline)]
pub use slab::Slab;
#[doc(inline)]
pub use store::Store;
pub use typed::{TypedKey, TypedSlab};
pub use walk::Drain;

/// The front page's lines of Rust, so that they are tests.
#[cfg(doctest)]
#[doc = include_str!("../../README.md")]
struct FrontPage;
