//! A plain Rust program beside `meshrun`, and what measures the two.

pub mod child;
pub mod class;
pub mod clock;
pub mod core;
pub mod drawn;
pub mod ids;
pub mod mixes;
pub mod pages;
pub mod plan;
pub mod programs;
pub mod random;
pub mod replay;
pub mod report;
pub mod slots;
pub mod trace;
pub mod written;
