/* The calls of teurlaks.h with their pointers tested, the texts of what they answer, and one call
 * that is made of others. teurlaks.h includes this file.
 *
 * The archive's functions are proved for a pointer to a handle, with a core or without, and for
 * pointers to words, bytes and walks that are there, each apart from the others. What else C can
 * pass is tested for here: NULL, and one handle in two places. README.md's table says what each
 * call answers then. A compiler that sees that a pointer is not NULL leaves the test out. Define
 * TEURLAKS_UNTESTED before teurlaks.h is included to call the archive's functions by themselves. */
#ifndef TEURLAKS_CALLS_H
#define TEURLAKS_CALLS_H

#include "teurlaks.h"

/* What a status says, in words: a text that is there as long as the program is. */
TEURLAKS_INLINE const char *teurlaks_strerror(uint32_t status) {
    switch (status) {
    case TEURLAKS_OK:
        return "done";
    case TEURLAKS_NONE:
        return "there is none: no such live key, no certificate yet, or no seat left";
    case TEURLAKS_OUT_OF_MEMORY:
        return "out of memory: free some and try again";
    case TEURLAKS_PAGES_SPENT:
        return "the shard may have no further page: free keys and make way, or ask another shard";
    case TEURLAKS_ENDED:
        return "the shard has ended: begin it again, or ask another shard";
    case TEURLAKS_PLAN_OPEN:
        return "a plan is open: close it first";
    case TEURLAKS_TOO_MANY:
        return "a side has more than 4096 groups, too many for a plan: mark some of them";
    case TEURLAKS_NOTHING_TO_ADOPT:
        return "no group of the pool has a page: there is nothing to adopt";
    case TEURLAKS_CONFIG:
        return "a number is out of its range, a pointer is NULL, or the seat is of another arena";
    case TEURLAKS_EMPTIED:
        return "the pair's abandoned group had no live key left";
    case TEURLAKS_NO_PAIR_LEFT:
        return "the open plan is done with: close it";
    case TEURLAKS_NO_PLAN:
        return "no plan is open: mark first";
    case TEURLAKS_TOO_SMALL:
        return "the text or the object takes more room, or has fewer bytes than asked for";
    case TEURLAKS_RING_FULL:
        return "the ring is full: free the key here, or try again once the other seat has tended";
    case TEURLAKS_NO_CORE:
        return "the handle has not what the call is for: none was made, or it was dropped";
    case TEURLAKS_HAS_CORE:
        return "the handle has something already: drop it first";
    case TEURLAKS_BUSY:
        return "another thread has a lock that the call needs: try again";
    case TEURLAKS_RUNNING:
        return "the shard has not ended: end it before it begins again";
    case TEURLAKS_RECORDED:
        return "the run is recorded: nothing is forgotten";
    case TEURLAKS_UNFINISHED:
        return "a seat is not back: have it leave for the steward first, and drop none";
    case TEURLAKS_LOG_FAULT:
        return "audit: a log is not legal, or a span has two";
    case TEURLAKS_CHANGE_FAULT:
        return "audit: changes and receipts are not one to one";
    case TEURLAKS_REPLY_FAULT:
        return "audit: a call was not answered as the changes before it say";
    case TEURLAKS_ORDER_FAULT:
        return "audit: the calls of a seat are not in the order of their changes";
    case TEURLAKS_BARRIER_FAULT:
        return "audit: a call stands before one of an earlier section";
    default:
        return "no status of this library";
    }
}

#ifndef TEURLAKS_UNTESTED

TEURLAKS_INLINE uint32_t teurlaks_tested_new(struct teurlaks_handle *out, uint32_t shards,
                                             uint32_t page_limit, uint32_t ring_capacity,
                                             uint32_t gens) {
    return out ? teurlaks_new(out, shards, page_limit, ring_capacity, gens)
               : (uint32_t)TEURLAKS_NO_CORE;
}

TEURLAKS_INLINE uint32_t teurlaks_tested_new_with_spans(struct teurlaks_handle *out,
                                                        uint32_t shards, uint32_t page_limit,
                                                        uint32_t span_limit, uint32_t ring_capacity,
                                                        uint32_t gens) {
    return out ? teurlaks_new_with_spans(out, shards, page_limit, span_limit, ring_capacity, gens)
               : (uint32_t)TEURLAKS_NO_CORE;
}

TEURLAKS_INLINE uint32_t teurlaks_tested_new_with_slots(struct teurlaks_handle *out,
                                                        uint32_t shards, uint32_t page_limit,
                                                        uint32_t span_limit, uint32_t slot_limit,
                                                        uint32_t ring_capacity, uint32_t gens) {
    return out ? teurlaks_new_with_slots(out, shards, page_limit, span_limit, slot_limit,
                                         ring_capacity, gens)
               : (uint32_t)TEURLAKS_NO_CORE;
}

TEURLAKS_INLINE void teurlaks_tested_drop(struct teurlaks_handle *handle) {
    if (handle) teurlaks_drop(handle);
}

TEURLAKS_INLINE struct teurlaks_put_reply
teurlaks_tested_put(struct teurlaks_handle *handle, uint32_t shard, struct teurlaks_word value) {
    struct teurlaks_put_reply none = {TEURLAKS_NO_CORE, {0, 0, 0, 0, 0}};
    return handle ? teurlaks_put(handle, shard, value) : none;
}

TEURLAKS_INLINE struct teurlaks_get_reply teurlaks_tested_get(const struct teurlaks_handle *handle,
                                                              struct teurlaks_key key) {
    struct teurlaks_get_reply none = {{0, 0}, TEURLAKS_NO_CORE};
    return handle ? teurlaks_get(handle, key) : none;
}

TEURLAKS_INLINE struct teurlaks_put_reply
teurlaks_tested_put_words(struct teurlaks_handle *handle, uint32_t shard,
                          const struct teurlaks_word *words, size_t words_len) {
    struct teurlaks_put_reply none = {TEURLAKS_NO_CORE, {0, 0, 0, 0, 0}};
    struct teurlaks_word no_word = {0, 0};
    return handle
               ? teurlaks_put_words(handle, shard, words ? words : &no_word, words ? words_len : 0)
               : none;
}

TEURLAKS_INLINE struct teurlaks_words_reply
teurlaks_tested_get_words(const struct teurlaks_handle *handle, struct teurlaks_key key,
                          struct teurlaks_word *words, size_t words_len) {
    struct teurlaks_words_reply none = {TEURLAKS_NO_CORE, 0};
    struct teurlaks_word no_word = {0, 0};
    return handle ? teurlaks_get_words(handle, key, words ? words : &no_word, words ? words_len : 0)
                  : none;
}

TEURLAKS_INLINE uint32_t teurlaks_tested_set(struct teurlaks_handle *handle,
                                             struct teurlaks_key key, struct teurlaks_word value) {
    return handle ? teurlaks_set(handle, key, value) : (uint32_t)TEURLAKS_NO_CORE;
}

TEURLAKS_INLINE uint32_t teurlaks_tested_set_words(struct teurlaks_handle *handle,
                                                   struct teurlaks_key key,
                                                   const struct teurlaks_word *words,
                                                   size_t words_len) {
    struct teurlaks_word no_word = {0, 0};
    return handle ? teurlaks_set_words(handle, key, words ? words : &no_word, words ? words_len : 0)
                  : (uint32_t)TEURLAKS_NO_CORE;
}

TEURLAKS_INLINE uint32_t teurlaks_tested_free(struct teurlaks_handle *handle,
                                              struct teurlaks_key key) {
    return handle ? teurlaks_free(handle, key) : (uint32_t)TEURLAKS_NO_CORE;
}

TEURLAKS_INLINE struct teurlaks_many_reply
teurlaks_tested_put_many(struct teurlaks_handle *handle, uint32_t shard,
                         const struct teurlaks_word *words, size_t words_len,
                         struct teurlaks_key *keys, size_t keys_len) {
    struct teurlaks_many_reply none = {TEURLAKS_NO_CORE, 0};
    struct teurlaks_word no_word = {0, 0};
    struct teurlaks_key no_key = {0, 0, 0, 0, 0};
    return handle
               ? teurlaks_put_many(handle, shard, words ? words : &no_word, words ? words_len : 0,
                                   keys ? keys : &no_key, keys ? keys_len : 0)
               : none;
}

TEURLAKS_INLINE struct teurlaks_many_reply
teurlaks_tested_free_many(struct teurlaks_handle *handle, const struct teurlaks_key *keys,
                          size_t keys_len) {
    struct teurlaks_many_reply none = {TEURLAKS_NO_CORE, 0};
    struct teurlaks_key no_key = {0, 0, 0, 0, 0};
    return handle ? teurlaks_free_many(handle, keys ? keys : &no_key, keys ? keys_len : 0) : none;
}

TEURLAKS_INLINE struct teurlaks_many_reply
teurlaks_tested_get_many(const struct teurlaks_handle *handle, const struct teurlaks_key *keys,
                         size_t keys_len, struct teurlaks_get_reply *replies, size_t replies_len) {
    struct teurlaks_many_reply none = {TEURLAKS_NO_CORE, 0};
    struct teurlaks_key no_key = {0, 0, 0, 0, 0};
    struct teurlaks_get_reply no_reply = {{0, 0}, TEURLAKS_NO_CORE};
    return handle ? teurlaks_get_many(handle, keys ? keys : &no_key, keys ? keys_len : 0,
                                      replies ? replies : &no_reply, replies ? replies_len : 0)
                  : none;
}

TEURLAKS_INLINE struct teurlaks_next_reply
teurlaks_tested_next(const struct teurlaks_handle *handle, struct teurlaks_key after) {
    struct teurlaks_next_reply none = {TEURLAKS_NO_CORE, {0, 0, 0, 0, 0}};
    return handle ? teurlaks_next(handle, after) : none;
}

TEURLAKS_INLINE struct teurlaks_next_reply
teurlaks_tested_next_in_span(const struct teurlaks_handle *handle, struct teurlaks_span span,
                             uint32_t slot) {
    struct teurlaks_next_reply none = {TEURLAKS_NO_CORE, {0, 0, 0, 0, 0}};
    return handle ? teurlaks_next_in_span(handle, span, slot) : none;
}

TEURLAKS_INLINE uint32_t teurlaks_tested_contains(const struct teurlaks_handle *handle,
                                                  struct teurlaks_key key) {
    return handle ? teurlaks_contains(handle, key) : (uint32_t)TEURLAKS_NO_CORE;
}

TEURLAKS_INLINE struct teurlaks_totals_reply
teurlaks_tested_totals(const struct teurlaks_handle *handle) {
    struct teurlaks_totals_reply none = {0, 0};
    return handle ? teurlaks_totals(handle) : none;
}

TEURLAKS_INLINE struct teurlaks_totals_reply
teurlaks_tested_estimate(const struct teurlaks_handle *handle) {
    struct teurlaks_totals_reply none = {0, 0};
    return handle ? teurlaks_estimate(handle) : none;
}

TEURLAKS_INLINE uint32_t teurlaks_tested_end(struct teurlaks_handle *handle, uint32_t shard) {
    return handle ? teurlaks_end(handle, shard) : (uint32_t)TEURLAKS_NO_CORE;
}

TEURLAKS_INLINE uint32_t teurlaks_tested_begin(struct teurlaks_handle *handle, uint32_t shard) {
    return handle ? teurlaks_begin(handle, shard) : (uint32_t)TEURLAKS_NO_CORE;
}

TEURLAKS_INLINE struct teurlaks_retire_reply teurlaks_tested_retire(struct teurlaks_handle *handle,
                                                                    uint32_t shard, size_t most) {
    struct teurlaks_retire_reply none = {TEURLAKS_NO_CORE, 0};
    return handle ? teurlaks_retire(handle, shard, most) : none;
}

TEURLAKS_INLINE struct teurlaks_forget_reply
teurlaks_tested_forget(struct teurlaks_handle *handle) {
    struct teurlaks_forget_reply none = {TEURLAKS_NO_CORE, 0};
    return handle ? teurlaks_forget(handle) : none;
}

TEURLAKS_INLINE struct teurlaks_trim_reply teurlaks_tested_trim(struct teurlaks_handle *handle,
                                                                uint32_t shard) {
    struct teurlaks_trim_reply none = {TEURLAKS_NO_CORE, 0};
    return handle ? teurlaks_trim(handle, shard) : none;
}

TEURLAKS_INLINE struct teurlaks_trim_part_reply
teurlaks_tested_trim_some(struct teurlaks_handle *handle, uint32_t shard, size_t from,
                          size_t most) {
    struct teurlaks_trim_part_reply none = {TEURLAKS_NO_CORE, 0, 0};
    return handle ? teurlaks_trim_some(handle, shard, from, most) : none;
}

TEURLAKS_INLINE struct teurlaks_compact_reply
teurlaks_tested_compact_within(struct teurlaks_handle *handle, size_t budget) {
    struct teurlaks_compact_reply none = {TEURLAKS_NO_CORE, 0, 0};
    return handle ? teurlaks_compact_within(handle, budget) : none;
}

TEURLAKS_INLINE struct teurlaks_compact_reply
teurlaks_tested_compact_if_pays(struct teurlaks_handle *handle, size_t percent) {
    struct teurlaks_compact_reply none = {TEURLAKS_NO_CORE, 0, 0};
    return handle ? teurlaks_compact_if_pays(handle, percent) : none;
}

TEURLAKS_INLINE struct teurlaks_advance_reply
teurlaks_tested_compaction_step(struct teurlaks_handle *handle, size_t left, size_t budget) {
    struct teurlaks_advance_reply none = {TEURLAKS_NO_CORE, 0, 0, 0, {0, 0}, {0, 0}};
    return handle ? teurlaks_compaction_step(handle, left, budget) : none;
}

TEURLAKS_INLINE uint32_t teurlaks_tested_compaction_give_up(struct teurlaks_handle *handle) {
    return handle ? teurlaks_compaction_give_up(handle) : (uint32_t)TEURLAKS_NO_CORE;
}

TEURLAKS_INLINE struct teurlaks_gather_reply
teurlaks_tested_gather(struct teurlaks_handle *handle, uint32_t shard, size_t from, size_t most) {
    struct teurlaks_gather_reply none = {TEURLAKS_NO_CORE, 0};
    return handle ? teurlaks_gather(handle, shard, from, most) : none;
}

TEURLAKS_INLINE struct teurlaks_adopt_reply teurlaks_tested_adopt(struct teurlaks_handle *handle,
                                                                  uint32_t shard) {
    struct teurlaks_adopt_reply none = {TEURLAKS_NO_CORE, {0, 0}};
    return handle ? teurlaks_adopt(handle, shard) : none;
}

TEURLAKS_INLINE struct teurlaks_mark_reply teurlaks_tested_mark(struct teurlaks_handle *handle) {
    struct teurlaks_mark_reply none = {TEURLAKS_NO_CORE, 0, 0, 0, 0};
    return handle ? teurlaks_mark(handle) : none;
}

TEURLAKS_INLINE struct teurlaks_mark_reply
teurlaks_tested_mark_some(struct teurlaks_handle *handle) {
    struct teurlaks_mark_reply none = {TEURLAKS_NO_CORE, 0, 0, 0, 0};
    return handle ? teurlaks_mark_some(handle) : none;
}

TEURLAKS_INLINE struct teurlaks_step_reply teurlaks_tested_step(struct teurlaks_handle *handle) {
    struct teurlaks_step_reply none = {TEURLAKS_NO_CORE, {0, 0}, {0, 0}};
    return handle ? teurlaks_step(handle) : none;
}

TEURLAKS_INLINE uint32_t teurlaks_tested_close(struct teurlaks_handle *handle) {
    return handle ? teurlaks_close(handle) : (uint32_t)TEURLAKS_NO_CORE;
}

TEURLAKS_INLINE struct teurlaks_certificate_reply
teurlaks_tested_certificate(const struct teurlaks_handle *handle, uint8_t *text, size_t text_len) {
    struct teurlaks_certificate_reply none = {TEURLAKS_NO_CORE, 0};
    uint8_t no_text = 0;
    return handle ? teurlaks_certificate(handle, text ? text : &no_text, text ? text_len : 0)
                  : none;
}

TEURLAKS_INLINE uint32_t teurlaks_tested_arena_open(struct teurlaks_share_handle *out,
                                                    uint32_t shards, uint32_t page_limit,
                                                    uint32_t ring_capacity, uint32_t gens) {
    return out ? teurlaks_arena_open(out, shards, page_limit, ring_capacity, gens)
               : (uint32_t)TEURLAKS_NO_CORE;
}

TEURLAKS_INLINE uint32_t teurlaks_tested_arena_open_with_spans(struct teurlaks_share_handle *out,
                                                               uint32_t shards, uint32_t page_limit,
                                                               uint32_t span_limit,
                                                               uint32_t ring_capacity,
                                                               uint32_t gens) {
    return out ? teurlaks_arena_open_with_spans(out, shards, page_limit, span_limit, ring_capacity,
                                                gens)
               : (uint32_t)TEURLAKS_NO_CORE;
}

TEURLAKS_INLINE uint32_t teurlaks_tested_arena_open_with_slots(struct teurlaks_share_handle *out,
                                                               uint32_t shards, uint32_t page_limit,
                                                               uint32_t span_limit,
                                                               uint32_t slot_limit,
                                                               uint32_t ring_capacity,
                                                               uint32_t gens) {
    return out ? teurlaks_arena_open_with_slots(out, shards, page_limit, span_limit, slot_limit,
                                                ring_capacity, gens)
               : (uint32_t)TEURLAKS_NO_CORE;
}

TEURLAKS_INLINE uint32_t teurlaks_tested_arena_open_recorded(struct teurlaks_share_handle *out,
                                                             uint32_t shards, uint32_t page_limit,
                                                             uint32_t ring_capacity,
                                                             uint32_t gens) {
    return out ? teurlaks_arena_open_recorded(out, shards, page_limit, ring_capacity, gens)
               : (uint32_t)TEURLAKS_NO_CORE;
}

TEURLAKS_INLINE uint32_t
teurlaks_tested_arena_open_recorded_with_spans(struct teurlaks_share_handle *out, uint32_t shards,
                                               uint32_t page_limit, uint32_t span_limit,
                                               uint32_t ring_capacity, uint32_t gens) {
    return out ? teurlaks_arena_open_recorded_with_spans(out, shards, page_limit, span_limit,
                                                         ring_capacity, gens)
               : (uint32_t)TEURLAKS_NO_CORE;
}

TEURLAKS_INLINE uint32_t
teurlaks_tested_arena_open_recorded_with_slots(struct teurlaks_share_handle *out, uint32_t shards,
                                               uint32_t page_limit, uint32_t span_limit,
                                               uint32_t slot_limit, uint32_t ring_capacity,
                                               uint32_t gens) {
    return out ? teurlaks_arena_open_recorded_with_slots(out, shards, page_limit, span_limit,
                                                         slot_limit, ring_capacity, gens)
               : (uint32_t)TEURLAKS_NO_CORE;
}

TEURLAKS_INLINE uint32_t teurlaks_tested_arena_audit(struct teurlaks_share_handle *handle) {
    return handle ? teurlaks_arena_audit(handle) : (uint32_t)TEURLAKS_NO_CORE;
}

TEURLAKS_INLINE uint32_t teurlaks_tested_seat_arena(struct teurlaks_share_handle *handle,
                                                    struct teurlaks_place *out) {
    if (!handle) return TEURLAKS_NO_CORE;
    return out ? teurlaks_seat_arena(handle, out) : (uint32_t)TEURLAKS_CONFIG;
}

TEURLAKS_INLINE uint32_t teurlaks_tested_steward_arena(struct teurlaks_share_handle *handle,
                                                       struct teurlaks_place *out) {
    if (!handle) return TEURLAKS_NO_CORE;
    return out ? teurlaks_steward_arena(handle, out) : (uint32_t)TEURLAKS_CONFIG;
}

/* The archive tells arenas apart by counting shares, which two threads at two stewards can deceive.
 * So the places of the arenas are compared first: neither arena can go while its handle is here. */
TEURLAKS_INLINE uint32_t teurlaks_tested_seat_leave(struct teurlaks_share_handle *handle,
                                                    struct teurlaks_share_handle *seat) {
    struct teurlaks_place ours = {0}, theirs = {0};
    uint32_t status = teurlaks_tested_steward_arena(handle, &ours);
    if (status == TEURLAKS_OK) status = teurlaks_tested_seat_arena(seat, &theirs);
    if (status != TEURLAKS_OK) return status;
    return ours.at == theirs.at ? teurlaks_seat_leave(handle, seat) : (uint32_t)TEURLAKS_CONFIG;
}

TEURLAKS_INLINE uint32_t teurlaks_tested_steward_seat(struct teurlaks_share_handle *handle,
                                                      struct teurlaks_share_handle *out) {
    if (handle && handle == out) return handle->at ? TEURLAKS_HAS_CORE : TEURLAKS_NO_CORE;
    return handle && out ? teurlaks_steward_seat(handle, out) : (uint32_t)TEURLAKS_NO_CORE;
}

TEURLAKS_INLINE void teurlaks_tested_share_drop(struct teurlaks_share_handle *handle) {
    if (handle) teurlaks_share_drop(handle);
}

TEURLAKS_INLINE uint32_t teurlaks_tested_seat_session(struct teurlaks_share_handle *handle) {
    return handle ? teurlaks_seat_session(handle) : (uint32_t)TEURLAKS_NO_CORE;
}

TEURLAKS_INLINE uint32_t teurlaks_tested_seat_pause(struct teurlaks_share_handle *handle) {
    return handle ? teurlaks_seat_pause(handle) : (uint32_t)TEURLAKS_NO_CORE;
}

TEURLAKS_INLINE struct teurlaks_put_reply
teurlaks_tested_seat_put_words(struct teurlaks_share_handle *handle,
                               const struct teurlaks_word *words, size_t words_len) {
    struct teurlaks_put_reply none = {TEURLAKS_NO_CORE, {0, 0, 0, 0, 0}};
    struct teurlaks_word no_word = {0, 0};
    return handle ? teurlaks_seat_put_words(handle, words ? words : &no_word, words ? words_len : 0)
                  : none;
}

TEURLAKS_INLINE struct teurlaks_words_reply
teurlaks_tested_seat_get_words(struct teurlaks_share_handle *handle, struct teurlaks_key key,
                               struct teurlaks_word *words, size_t words_len) {
    struct teurlaks_words_reply none = {TEURLAKS_NO_CORE, 0};
    struct teurlaks_word no_word = {0, 0};
    return handle ? teurlaks_seat_get_words(handle, key, words ? words : &no_word,
                                            words ? words_len : 0)
                  : none;
}

TEURLAKS_INLINE uint32_t teurlaks_tested_seat_set_words(struct teurlaks_share_handle *handle,
                                                        struct teurlaks_key key,
                                                        const struct teurlaks_word *words,
                                                        size_t words_len) {
    struct teurlaks_word no_word = {0, 0};
    return handle ? teurlaks_seat_set_words(handle, key, words ? words : &no_word,
                                            words ? words_len : 0)
                  : (uint32_t)TEURLAKS_NO_CORE;
}

TEURLAKS_INLINE uint32_t teurlaks_tested_seat_free(struct teurlaks_share_handle *handle,
                                                   struct teurlaks_key key) {
    return handle ? teurlaks_seat_free(handle, key) : (uint32_t)TEURLAKS_NO_CORE;
}

TEURLAKS_INLINE uint32_t teurlaks_tested_seat_free_later(struct teurlaks_share_handle *handle,
                                                         struct teurlaks_key key) {
    return handle ? teurlaks_seat_free_later(handle, key) : (uint32_t)TEURLAKS_NO_CORE;
}

TEURLAKS_INLINE uint32_t teurlaks_tested_seat_hand_over(struct teurlaks_share_handle *handle) {
    return handle ? teurlaks_seat_hand_over(handle) : (uint32_t)TEURLAKS_NO_CORE;
}

TEURLAKS_INLINE struct teurlaks_tend_reply
teurlaks_tested_seat_tend(struct teurlaks_share_handle *handle) {
    struct teurlaks_tend_reply none = {TEURLAKS_NO_CORE, 0};
    return handle ? teurlaks_seat_tend(handle) : none;
}

TEURLAKS_INLINE uint32_t teurlaks_tested_seat_end(struct teurlaks_share_handle *handle) {
    return handle ? teurlaks_seat_end(handle) : (uint32_t)TEURLAKS_NO_CORE;
}

TEURLAKS_INLINE uint32_t teurlaks_tested_seat_begin(struct teurlaks_share_handle *handle) {
    return handle ? teurlaks_seat_begin(handle) : (uint32_t)TEURLAKS_NO_CORE;
}

TEURLAKS_INLINE struct teurlaks_retire_reply
teurlaks_tested_seat_retire(struct teurlaks_share_handle *handle, size_t most) {
    struct teurlaks_retire_reply none = {TEURLAKS_NO_CORE, 0};
    return handle ? teurlaks_seat_retire(handle, most) : none;
}

TEURLAKS_INLINE struct teurlaks_next_reply
teurlaks_tested_seat_next(struct teurlaks_share_handle *handle, struct teurlaks_walk *walk) {
    struct teurlaks_next_reply none = {TEURLAKS_NO_CORE, {0, 0, 0, 0, 0}};
    if (handle && !walk) none.status = TEURLAKS_CONFIG;
    return handle && walk ? teurlaks_seat_next(handle, walk) : none;
}

TEURLAKS_INLINE struct teurlaks_next_reply
teurlaks_tested_steward_next(struct teurlaks_share_handle *handle, struct teurlaks_walk *walk) {
    struct teurlaks_next_reply none = {TEURLAKS_NO_CORE, {0, 0, 0, 0, 0}};
    if (handle && !walk) none.status = TEURLAKS_CONFIG;
    return handle && walk ? teurlaks_steward_next(handle, walk) : none;
}

TEURLAKS_INLINE struct teurlaks_trim_reply
teurlaks_tested_seat_trim(struct teurlaks_share_handle *handle) {
    struct teurlaks_trim_reply none = {TEURLAKS_NO_CORE, 0};
    return handle ? teurlaks_seat_trim(handle) : none;
}

TEURLAKS_INLINE struct teurlaks_gather_reply
teurlaks_tested_seat_gather(struct teurlaks_share_handle *handle, size_t from, size_t most) {
    struct teurlaks_gather_reply none = {TEURLAKS_NO_CORE, 0};
    return handle ? teurlaks_seat_gather(handle, from, most) : none;
}

TEURLAKS_INLINE struct teurlaks_adopt_reply
teurlaks_tested_seat_adopt(struct teurlaks_share_handle *handle) {
    struct teurlaks_adopt_reply none = {TEURLAKS_NO_CORE, {0, 0}};
    return handle ? teurlaks_seat_adopt(handle) : none;
}

TEURLAKS_INLINE struct teurlaks_gather_reply
teurlaks_tested_steward_gather(struct teurlaks_share_handle *handle, size_t from, size_t most) {
    struct teurlaks_gather_reply none = {TEURLAKS_NO_CORE, 0};
    return handle ? teurlaks_steward_gather(handle, from, most) : none;
}

TEURLAKS_INLINE struct teurlaks_mark_reply
teurlaks_tested_steward_mark(struct teurlaks_share_handle *handle) {
    struct teurlaks_mark_reply none = {TEURLAKS_NO_CORE, 0, 0, 0, 0};
    return handle ? teurlaks_steward_mark(handle) : none;
}

TEURLAKS_INLINE struct teurlaks_mark_reply
teurlaks_tested_steward_mark_some(struct teurlaks_share_handle *handle) {
    struct teurlaks_mark_reply none = {TEURLAKS_NO_CORE, 0, 0, 0, 0};
    return handle ? teurlaks_steward_mark_some(handle) : none;
}

TEURLAKS_INLINE struct teurlaks_step_reply
teurlaks_tested_steward_step(struct teurlaks_share_handle *handle) {
    struct teurlaks_step_reply none = {TEURLAKS_NO_CORE, {0, 0}, {0, 0}};
    return handle ? teurlaks_steward_step(handle) : none;
}

TEURLAKS_INLINE uint32_t teurlaks_tested_steward_close(struct teurlaks_share_handle *handle) {
    return handle ? teurlaks_steward_close(handle) : (uint32_t)TEURLAKS_NO_CORE;
}

TEURLAKS_INLINE struct teurlaks_forget_reply
teurlaks_tested_steward_forget(struct teurlaks_share_handle *handle) {
    struct teurlaks_forget_reply none = {TEURLAKS_NO_CORE, 0};
    return handle ? teurlaks_steward_forget(handle) : none;
}

TEURLAKS_INLINE struct teurlaks_certificate_reply
teurlaks_tested_steward_certificate(struct teurlaks_share_handle *handle, uint8_t *text,
                                    size_t text_len) {
    struct teurlaks_certificate_reply none = {TEURLAKS_NO_CORE, 0};
    uint8_t no_text = 0;
    return handle
               ? teurlaks_steward_certificate(handle, text ? text : &no_text, text ? text_len : 0)
               : none;
}

TEURLAKS_INLINE struct teurlaks_arena_totals_reply
teurlaks_tested_steward_totals(struct teurlaks_share_handle *handle) {
    struct teurlaks_arena_totals_reply none = {TEURLAKS_NO_CORE, 0, 0};
    return handle ? teurlaks_steward_totals(handle) : none;
}

#define teurlaks_new teurlaks_tested_new
#define teurlaks_new_with_spans teurlaks_tested_new_with_spans
#define teurlaks_new_with_slots teurlaks_tested_new_with_slots
#define teurlaks_drop teurlaks_tested_drop
#define teurlaks_put teurlaks_tested_put
#define teurlaks_get teurlaks_tested_get
#define teurlaks_put_words teurlaks_tested_put_words
#define teurlaks_get_words teurlaks_tested_get_words
#define teurlaks_set teurlaks_tested_set
#define teurlaks_set_words teurlaks_tested_set_words
#define teurlaks_free teurlaks_tested_free
#define teurlaks_put_many teurlaks_tested_put_many
#define teurlaks_free_many teurlaks_tested_free_many
#define teurlaks_get_many teurlaks_tested_get_many
#define teurlaks_next teurlaks_tested_next
#define teurlaks_next_in_span teurlaks_tested_next_in_span
#define teurlaks_contains teurlaks_tested_contains
#define teurlaks_totals teurlaks_tested_totals
#define teurlaks_estimate teurlaks_tested_estimate
#define teurlaks_end teurlaks_tested_end
#define teurlaks_begin teurlaks_tested_begin
#define teurlaks_retire teurlaks_tested_retire
#define teurlaks_forget teurlaks_tested_forget
#define teurlaks_trim_some teurlaks_tested_trim_some
#define teurlaks_gather teurlaks_tested_gather
#define teurlaks_trim teurlaks_tested_trim
#define teurlaks_compact_within teurlaks_tested_compact_within
#define teurlaks_compact_if_pays teurlaks_tested_compact_if_pays
#define teurlaks_compaction_step teurlaks_tested_compaction_step
#define teurlaks_compaction_give_up teurlaks_tested_compaction_give_up
#define teurlaks_adopt teurlaks_tested_adopt
#define teurlaks_mark teurlaks_tested_mark
#define teurlaks_mark_some teurlaks_tested_mark_some
#define teurlaks_step teurlaks_tested_step
#define teurlaks_close teurlaks_tested_close
#define teurlaks_certificate teurlaks_tested_certificate
#define teurlaks_arena_open teurlaks_tested_arena_open
#define teurlaks_arena_open_with_spans teurlaks_tested_arena_open_with_spans
#define teurlaks_arena_open_with_slots teurlaks_tested_arena_open_with_slots
#define teurlaks_arena_open_recorded teurlaks_tested_arena_open_recorded
#define teurlaks_arena_open_recorded_with_spans teurlaks_tested_arena_open_recorded_with_spans
#define teurlaks_arena_open_recorded_with_slots teurlaks_tested_arena_open_recorded_with_slots
#define teurlaks_arena_audit teurlaks_tested_arena_audit
#define teurlaks_seat_leave teurlaks_tested_seat_leave
#define teurlaks_seat_arena teurlaks_tested_seat_arena
#define teurlaks_steward_arena teurlaks_tested_steward_arena
#define teurlaks_steward_seat teurlaks_tested_steward_seat
#define teurlaks_share_drop teurlaks_tested_share_drop
#define teurlaks_seat_session teurlaks_tested_seat_session
#define teurlaks_seat_pause teurlaks_tested_seat_pause
#define teurlaks_seat_put_words teurlaks_tested_seat_put_words
#define teurlaks_seat_get_words teurlaks_tested_seat_get_words
#define teurlaks_seat_set_words teurlaks_tested_seat_set_words
#define teurlaks_seat_free teurlaks_tested_seat_free
#define teurlaks_seat_free_later teurlaks_tested_seat_free_later
#define teurlaks_seat_hand_over teurlaks_tested_seat_hand_over
#define teurlaks_seat_tend teurlaks_tested_seat_tend
#define teurlaks_seat_end teurlaks_tested_seat_end
#define teurlaks_seat_begin teurlaks_tested_seat_begin
#define teurlaks_seat_retire teurlaks_tested_seat_retire
#define teurlaks_seat_trim teurlaks_tested_seat_trim
#define teurlaks_seat_gather teurlaks_tested_seat_gather
#define teurlaks_steward_gather teurlaks_tested_steward_gather
#define teurlaks_seat_next teurlaks_tested_seat_next
#define teurlaks_seat_adopt teurlaks_tested_seat_adopt
#define teurlaks_steward_mark teurlaks_tested_steward_mark
#define teurlaks_steward_mark_some teurlaks_tested_steward_mark_some
#define teurlaks_steward_step teurlaks_tested_steward_step
#define teurlaks_steward_close teurlaks_tested_steward_close
#define teurlaks_steward_forget teurlaks_tested_steward_forget
#define teurlaks_steward_certificate teurlaks_tested_steward_certificate
#define teurlaks_steward_next teurlaks_tested_steward_next
#define teurlaks_steward_totals teurlaks_tested_steward_totals

#endif

/* Gives up the groups of a running shard in which nothing is live, with what is worn of their
 * slots, and counts what was forgotten. So a shard goes on whose pages are spent though few of its
 * keys are live: if a put answers TEURLAKS_PAGES_SPENT, call this, and make the put again if the
 * count is not 0. After a compaction it gives back what worn groups take. Every key stays valid.
 *
 * The shard trims, ends, forgets, begins again and takes its groups back, so this takes time for
 * each of them. TEURLAKS_PLAN_OPEN, TEURLAKS_CONFIG and TEURLAKS_ENDED as of these calls. While the
 * pool has a page nothing is done, and the count is 0: mesh or adopt it first. If memory fails it
 * is TEURLAKS_OUT_OF_MEMORY, and groups may be left in the pool: adopt them. */
TEURLAKS_INLINE struct teurlaks_forget_reply teurlaks_make_way(struct teurlaks_handle *handle,
                                                               uint32_t shard) {
    struct teurlaks_forget_reply reply = {TEURLAKS_OK, 0};
    /* No core has this shard. So it says whether a plan is open or the pool has a page, and does
     * nothing. */
    uint32_t status = teurlaks_adopt(handle, 64).status;
    if (status == TEURLAKS_CONFIG) return reply;
    reply.status = status;
    if (status != TEURLAKS_NOTHING_TO_ADOPT) return reply;
    reply.status = teurlaks_trim(handle, shard).status;
    if (reply.status != TEURLAKS_OK) return reply;
    reply.status = teurlaks_end(handle, shard);
    if (reply.status != TEURLAKS_OK) return reply;
    reply = teurlaks_forget(handle);
    teurlaks_begin(handle, shard);
    do {
        status = teurlaks_adopt(handle, shard).status;
    } while (status == TEURLAKS_OK);
    if (status == TEURLAKS_OUT_OF_MEMORY) reply.status = status;
    return reply;
}

#endif
