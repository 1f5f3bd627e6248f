//! Names of spans and of values.

use std::fmt;

/// The shard that opened a span, and how many it had opened before.
#[derive(Clone, Copy, Debug, PartialEq, Eq, PartialOrd, Ord)]
pub struct SpanId {
    pub shard: u16,
    pub serial: u16,
}

impl fmt::Display for SpanId {
    fn fmt(&self, out: &mut fmt::Formatter) -> fmt::Result {
        write!(out, "{}.{}", self.shard, self.serial)
    }
}

/// The name of one stored value.
#[derive(Clone, Copy, Debug, PartialEq, Eq)]
pub struct Key {
    pub span: SpanId,
    pub slot: u8,
    pub generation: u32,
}

impl fmt::Display for Key {
    fn fmt(&self, out: &mut fmt::Formatter) -> fmt::Result {
        write!(out, "{}/{}/{}", self.span, self.slot, self.generation)
    }
}
