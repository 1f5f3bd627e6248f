//! The calls of the archive, as `crates/teurlaks_c` exports them, but those that this crate never
//! makes. `tests/declarations.rs` compares the two, and `c/teurlaks.h` too. The parameter `alloc`
//! there takes no bytes, and stands nowhere here.
//!
//! The calls on one object get a key and a word as two numbers each. C's convention hands a struct
//! of 12 or 16 bytes over in the same two registers, and LLVM inlines a call only if both sides
//! name the same types.

#[repr(C)]
pub struct Handle {
    pub at: *mut u8,
}

#[repr(C)]
#[derive(Clone, Copy, PartialEq, Eq, PartialOrd, Ord, Hash)]
pub struct RawKey {
    pub serial: u32,
    pub generation: u32,
    pub shard: u8,
    pub slot: u8,
    pub reserved: u16,
}

#[repr(C)]
#[derive(Clone, Copy, PartialEq, Eq, PartialOrd, Ord, Hash)]
pub struct RawSpan {
    pub shard: u32,
    pub serial: u32,
}

#[repr(C)]
#[derive(Clone, Copy)]
pub struct RawKeyBits {
    pub shard: u8,
    pub serial: u8,
    pub generation: u8,
    pub reserved: u8,
}

#[repr(C)]
#[derive(Clone, Copy)]
pub struct KeyBitsReply {
    pub status: u32,
    pub bits: RawKeyBits,
}

#[repr(C)]
#[derive(Clone, Copy)]
pub struct NumberReply {
    pub number: u64,
    pub status: u32,
}

#[repr(C)]
#[derive(Clone, Copy)]
pub struct KeyReply {
    pub status: u32,
    pub key: RawKey,
}

#[repr(C)]
#[derive(Clone, Copy)]
pub struct RawWord {
    pub low: u64,
    pub high: u64,
}

#[repr(C)]
#[derive(Clone, Copy)]
pub struct PutReply {
    pub status: u32,
    pub key: RawKey,
}

#[repr(C)]
#[derive(Clone, Copy)]
pub struct ManyReply {
    pub status: u32,
    pub count: usize,
}

#[repr(C)]
#[derive(Clone, Copy)]
pub struct GetReply {
    pub value: RawWord,
    pub status: u32,
}

#[repr(C)]
#[derive(Clone, Copy)]
pub struct WordsReply {
    pub status: u32,
    pub len: usize,
}

#[repr(C)]
#[derive(Clone, Copy)]
pub struct RawWalk {
    pub shard: u32,
    pub serial: u32,
    pub slot: u32,
}

#[repr(C)]
#[derive(Clone, Copy)]
pub struct NextReply {
    pub status: u32,
    pub key: RawKey,
}

#[repr(C)]
#[derive(Clone, Copy)]
pub struct RetireReply {
    pub status: u32,
    pub count: usize,
}

#[repr(C)]
#[derive(Clone, Copy)]
pub struct TrimReply {
    pub status: u32,
    pub count: usize,
}

#[repr(C)]
#[derive(Clone, Copy)]
pub struct TrimPartReply {
    pub status: u32,
    pub groups: usize,
    pub pages: usize,
}

#[repr(C)]
#[derive(Clone, Copy)]
pub struct ForgetReply {
    pub status: u32,
    pub count: usize,
}

#[repr(C)]
#[derive(Clone, Copy)]
pub struct GatherReply {
    pub status: u32,
    pub count: usize,
}

#[repr(C)]
#[derive(Clone, Copy)]
pub struct CompactReply {
    pub status: u32,
    pub more: u32,
    pub pages: usize,
}

#[repr(C)]
#[derive(Clone, Copy)]
pub struct AdvanceReply {
    pub status: u32,
    pub more: u32,
    pub cost: usize,
    pub folded: u32,
    pub abandoned: RawSpan,
    pub owned: RawSpan,
}

#[repr(C)]
#[derive(Clone, Copy)]
pub struct AdoptReply {
    pub status: u32,
    pub head: RawSpan,
}

#[repr(C)]
#[derive(Clone, Copy)]
pub struct MarkReply {
    pub status: u32,
    pub abandoned: usize,
    pub owned: usize,
    pub folds: usize,
    pub short_set: usize,
}

#[repr(C)]
#[derive(Clone, Copy)]
pub struct StepReply {
    pub status: u32,
    pub abandoned: RawSpan,
    pub owned: RawSpan,
}

#[repr(C)]
#[derive(Clone, Copy)]
pub struct CertificateReply {
    pub status: u32,
    pub len: usize,
}

#[repr(C)]
#[derive(Clone, Copy)]
pub struct TotalsReply {
    pub pages: usize,
    pub live: usize,
}

/// Where a seat or a steward of an arena is.
#[repr(C)]
pub struct ShareHandle {
    pub at: *mut u8,
}

#[repr(C)]
#[derive(Clone, Copy)]
pub struct TendReply {
    pub status: u32,
    pub count: usize,
}

#[repr(C)]
#[derive(Clone, Copy)]
pub struct ArenaTotalsReply {
    pub status: u32,
    pub pages: usize,
    pub live: usize,
}

extern "C" {
    pub fn teurlaks_new_with_slots(
        out: *mut Handle,
        shards: u32,
        page_limit: u32,
        span_limit: u32,
        slot_limit: u32,
        ring_capacity: u32,
        gens: u32,
    ) -> u32;
    pub fn teurlaks_drop(handle: *mut Handle);
    pub fn teurlaks_put(handle: *mut Handle, shard: u32, value: u64, value_high: u64) -> PutReply;
    pub fn teurlaks_get(handle: *const Handle, key: u64, key_high: u32) -> GetReply;
    pub fn teurlaks_put_words(
        handle: *mut Handle,
        shard: u32,
        words: *const RawWord,
        words_len: usize,
    ) -> PutReply;
    pub fn teurlaks_get_words(
        handle: *const Handle,
        key: u64,
        key_high: u32,
        words: *mut RawWord,
        words_len: usize,
    ) -> WordsReply;
    pub fn teurlaks_set(
        handle: *mut Handle,
        key: u64,
        key_high: u32,
        value: u64,
        value_high: u64,
    ) -> u32;
    pub fn teurlaks_set_words(
        handle: *mut Handle,
        key: u64,
        key_high: u32,
        words: *const RawWord,
        words_len: usize,
    ) -> u32;
    pub fn teurlaks_free(handle: *mut Handle, key: u64, key_high: u32) -> u32;
    pub fn teurlaks_put_many(
        handle: *mut Handle,
        shard: u32,
        words: *const RawWord,
        words_len: usize,
        keys: *mut RawKey,
        keys_len: usize,
    ) -> ManyReply;
    pub fn teurlaks_free_many(
        handle: *mut Handle,
        keys: *const RawKey,
        keys_len: usize,
    ) -> ManyReply;
    pub fn teurlaks_get_many(
        handle: *const Handle,
        keys: *const RawKey,
        keys_len: usize,
        replies: *mut GetReply,
        replies_len: usize,
    ) -> ManyReply;
    pub fn teurlaks_next(handle: *const Handle, after: RawKey) -> NextReply;
    pub fn teurlaks_contains(handle: *const Handle, key: u64, key_high: u32) -> u32;
    pub fn teurlaks_totals(handle: *const Handle) -> TotalsReply;
    pub fn teurlaks_estimate(handle: *const Handle) -> TotalsReply;
    pub fn teurlaks_key_bits(shards: u32, spans: u32, generations: u32) -> KeyBitsReply;
    pub fn teurlaks_key_to_u64(bits: RawKeyBits, key: RawKey) -> NumberReply;
    pub fn teurlaks_key_from_u64(bits: RawKeyBits, number: u64) -> KeyReply;
    pub fn teurlaks_end(handle: *mut Handle, shard: u32) -> u32;
    pub fn teurlaks_begin(handle: *mut Handle, shard: u32) -> u32;
    pub fn teurlaks_retire(handle: *mut Handle, shard: u32, most: usize) -> RetireReply;
    pub fn teurlaks_trim(handle: *mut Handle, shard: u32) -> TrimReply;
    pub fn teurlaks_trim_some(
        handle: *mut Handle,
        shard: u32,
        from: usize,
        most: usize,
    ) -> TrimPartReply;
    pub fn teurlaks_forget(handle: *mut Handle) -> ForgetReply;
    pub fn teurlaks_gather(
        handle: *mut Handle,
        shard: u32,
        from: usize,
        most: usize,
    ) -> GatherReply;
    pub fn teurlaks_compact_within(handle: *mut Handle, budget: usize) -> CompactReply;
    #[allow(dead_code)]
    pub fn teurlaks_compact_if_pays(handle: *mut Handle, percent: usize) -> CompactReply;
    pub fn teurlaks_compaction_step(
        handle: *mut Handle,
        left: usize,
        budget: usize,
    ) -> AdvanceReply;
    pub fn teurlaks_compaction_give_up(handle: *mut Handle) -> u32;
    pub fn teurlaks_adopt(handle: *mut Handle, shard: u32) -> AdoptReply;
    pub fn teurlaks_mark(handle: *mut Handle) -> MarkReply;
    pub fn teurlaks_mark_some(handle: *mut Handle) -> MarkReply;
    pub fn teurlaks_step(handle: *mut Handle) -> StepReply;
    pub fn teurlaks_close(handle: *mut Handle) -> u32;
    pub fn teurlaks_certificate(
        handle: *const Handle,
        text: *mut u8,
        text_len: usize,
    ) -> CertificateReply;
    pub fn teurlaks_arena_open_with_slots(
        out: *mut ShareHandle,
        shards: u32,
        page_limit: u32,
        span_limit: u32,
        slot_limit: u32,
        ring_capacity: u32,
        gens: u32,
    ) -> u32;
    pub fn teurlaks_arena_open_recorded_with_slots(
        out: *mut ShareHandle,
        shards: u32,
        page_limit: u32,
        span_limit: u32,
        slot_limit: u32,
        ring_capacity: u32,
        gens: u32,
    ) -> u32;
    pub fn teurlaks_arena_audit(handle: *mut ShareHandle) -> u32;
    pub fn teurlaks_seat_leave(handle: *mut ShareHandle, seat: *mut ShareHandle) -> u32;
    pub fn teurlaks_steward_seat(handle: *mut ShareHandle, out: *mut ShareHandle) -> u32;
    pub fn teurlaks_share_drop(handle: *mut ShareHandle);
    pub fn teurlaks_seat_session(handle: *mut ShareHandle) -> u32;
    pub fn teurlaks_seat_pause(handle: *mut ShareHandle) -> u32;
    pub fn teurlaks_seat_put_words(
        handle: *mut ShareHandle,
        words: *const RawWord,
        words_len: usize,
    ) -> PutReply;
    pub fn teurlaks_seat_get_words(
        handle: *mut ShareHandle,
        key: RawKey,
        words: *mut RawWord,
        words_len: usize,
    ) -> WordsReply;
    pub fn teurlaks_seat_set_words(
        handle: *mut ShareHandle,
        key: RawKey,
        words: *const RawWord,
        words_len: usize,
    ) -> u32;
    pub fn teurlaks_seat_free(handle: *mut ShareHandle, key: RawKey) -> u32;
    pub fn teurlaks_seat_free_later(handle: *mut ShareHandle, key: RawKey) -> u32;
    pub fn teurlaks_seat_hand_over(handle: *mut ShareHandle) -> u32;
    pub fn teurlaks_seat_tend(handle: *mut ShareHandle) -> TendReply;
    pub fn teurlaks_seat_end(handle: *mut ShareHandle) -> u32;
    pub fn teurlaks_seat_begin(handle: *mut ShareHandle) -> u32;
    pub fn teurlaks_seat_retire(handle: *mut ShareHandle, most: usize) -> RetireReply;
    pub fn teurlaks_seat_trim(handle: *mut ShareHandle) -> TrimReply;
    pub fn teurlaks_seat_gather(handle: *mut ShareHandle, from: usize, most: usize) -> GatherReply;
    pub fn teurlaks_seat_next(handle: *mut ShareHandle, walk: *mut RawWalk) -> NextReply;
    pub fn teurlaks_steward_next(handle: *mut ShareHandle, walk: *mut RawWalk) -> NextReply;
    pub fn teurlaks_seat_adopt(handle: *mut ShareHandle) -> AdoptReply;
    pub fn teurlaks_steward_mark(handle: *mut ShareHandle) -> MarkReply;
    pub fn teurlaks_steward_mark_some(handle: *mut ShareHandle) -> MarkReply;
    pub fn teurlaks_steward_step(handle: *mut ShareHandle) -> StepReply;
    pub fn teurlaks_steward_close(handle: *mut ShareHandle) -> u32;
    pub fn teurlaks_steward_forget(handle: *mut ShareHandle) -> ForgetReply;
    pub fn teurlaks_steward_gather(
        handle: *mut ShareHandle,
        from: usize,
        most: usize,
    ) -> GatherReply;
    pub fn teurlaks_steward_certificate(
        handle: *mut ShareHandle,
        text: *mut u8,
        text_len: usize,
    ) -> CertificateReply;
    pub fn teurlaks_steward_totals(handle: *mut ShareHandle) -> ArenaTotalsReply;
}

pub const OK: u32 = 0;
pub const NONE: u32 = 1;
pub const OUT_OF_MEMORY: u32 = 2;
pub const PAGES_SPENT: u32 = 3;
pub const ENDED: u32 = 4;
pub const PLAN_OPEN: u32 = 5;
pub const TOO_MANY: u32 = 6;
pub const NOTHING_TO_ADOPT: u32 = 7;
pub const CONFIG: u32 = 8;
pub const EMPTIED: u32 = 9;
pub const NO_PAIR_LEFT: u32 = 10;
pub const NO_PLAN: u32 = 11;
pub const TOO_SMALL: u32 = 12;
pub const RING_FULL: u32 = 13;
// A handle of this crate has what its calls are for, but that of a recorded arena that has ended.
pub const NO_CORE: u32 = 14;
pub const BUSY: u32 = 16;
pub const RUNNING: u32 = 17;
pub const RECORDED: u32 = 18;
pub const UNFINISHED: u32 = 19;
pub const LOG_FAULT: u32 = 20;
pub const CHANGE_FAULT: u32 = 21;
pub const REPLY_FAULT: u32 = 22;
pub const ORDER_FAULT: u32 = 23;
pub const BARRIER_FAULT: u32 = 24;
