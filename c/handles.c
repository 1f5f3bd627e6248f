/* The table of README.md of what is answered: handles that are NULL, that never had a core, a seat
 * or a steward, that have it no more, or that have another of these; pointers to words, bytes,
 * texts and walks that are NULL; and numbers that name nothing. With TEURLAKS_UNTESTED it is the
 * archive that answers, and no pointer but to bytes is NULL. */
#include "teurlaks.h"
#include "wanted.h"
#include <stdlib.h>

typedef uint32_t opens(struct teurlaks_share_handle *out, uint32_t shards, uint32_t page_limit,
                       uint32_t ring_capacity, uint32_t gens);

static const struct teurlaks_word one = {1, 2};

_Static_assert(sizeof(struct teurlaks_key) == 12 && _Alignof(struct teurlaks_key) == 4,
               "a key has no padding");

/* The key of the first object of a core. */
static const struct teurlaks_key least = {.generation = 1};

/* What each call says of a handle without a core. The key has numbers that some key has, or none
 * that any has. */
static void each_call(struct teurlaks_handle *none, struct teurlaks_key key) {
    struct teurlaks_word words[16] = {{7, 7}};
    uint8_t text[16] = {7}, bytes[16] = {7};
    WANT(teurlaks_put(none, 0, one).status == TEURLAKS_NO_CORE);
    for (size_t len = 0; len <= 16; len++)
        WANT(teurlaks_put_words(none, 0, words, len).status == TEURLAKS_NO_CORE);
    struct teurlaks_get_reply got = teurlaks_get(none, key);
    WANT(got.status == TEURLAKS_NO_CORE && got.value.low == 0 && got.value.high == 0);
    struct teurlaks_words_reply found = teurlaks_get_words(none, key, words, 16);
    WANT(found.status == TEURLAKS_NO_CORE && found.len == 0 && words[0].low == 7);
    WANT(teurlaks_set(none, key, one) == TEURLAKS_NO_CORE);
    for (size_t len = 0; len <= 16; len++)
        WANT(teurlaks_set_words(none, key, words, len) == TEURLAKS_NO_CORE);
    WANT(teurlaks_free(none, key) == TEURLAKS_NO_CORE);
    struct teurlaks_key keys[1] = {key};
    struct teurlaks_many_reply many = teurlaks_put_many(none, 0, words, 16, keys, 1);
    WANT(many.status == TEURLAKS_NO_CORE && many.count == 0 && !memcmp(keys, &key, sizeof key));
    many = teurlaks_free_many(none, keys, 1);
    WANT(many.status == TEURLAKS_NO_CORE && many.count == 0);
    many = teurlaks_get_many(none, keys, 1, &got, 1);
    WANT(many.status == TEURLAKS_NO_CORE && many.count == 0 && got.status == TEURLAKS_NO_CORE);
    WANT(teurlaks_next(none, key).status == TEURLAKS_NO_CORE);
    WANT(teurlaks_next_in_span(none, (struct teurlaks_span){0, 0}, 0).status == TEURLAKS_NO_CORE);
    WANT(teurlaks_contains(none, key) == TEURLAKS_NO_CORE);
    WANT(teurlaks_totals(none).pages == 0 && teurlaks_totals(none).live == 0);
    WANT(teurlaks_estimate(none).pages == 0 && teurlaks_estimate(none).live == 0);
    WANT(teurlaks_end(none, 0) == TEURLAKS_NO_CORE);
    WANT(teurlaks_begin(none, 0) == TEURLAKS_NO_CORE);
    WANT(teurlaks_retire(none, 0, 9).status == TEURLAKS_NO_CORE &&
         teurlaks_retire(none, 0, 9).count == 0);
    WANT(teurlaks_trim(none, 0).status == TEURLAKS_NO_CORE && teurlaks_trim(none, 0).count == 0);
    WANT(teurlaks_trim_some(none, 0, 0, 9).status == TEURLAKS_NO_CORE &&
         teurlaks_trim_some(none, 0, 0, 9).groups == 0);
    WANT(teurlaks_gather(none, 0, 0, 9).status == TEURLAKS_NO_CORE &&
         teurlaks_gather(none, 0, 0, 9).count == 0);
    WANT(teurlaks_forget(none).status == TEURLAKS_NO_CORE && teurlaks_forget(none).count == 0);
    struct teurlaks_compact_reply compacted = teurlaks_compact_within(none, 9);
    WANT(compacted.status == TEURLAKS_NO_CORE && compacted.more == 0 && compacted.pages == 0);
    compacted = teurlaks_compact_if_pays(none, 9);
    WANT(compacted.status == TEURLAKS_NO_CORE && compacted.more == 0 && compacted.pages == 0);
    struct teurlaks_advance_reply advanced = teurlaks_compaction_step(none, 9, 9);
    WANT(advanced.status == TEURLAKS_NO_CORE && advanced.more == 0 && advanced.folded == 0);
    WANT(teurlaks_compaction_give_up(none) == TEURLAKS_NO_CORE);
    WANT(teurlaks_adopt(none, 0).status == TEURLAKS_NO_CORE);
    WANT(teurlaks_mark(none).status == TEURLAKS_NO_CORE);
    WANT(teurlaks_mark_some(none).status == TEURLAKS_NO_CORE);
    WANT(teurlaks_step(none).status == TEURLAKS_NO_CORE);
    WANT(teurlaks_close(none) == TEURLAKS_NO_CORE);
    WANT(teurlaks_certificate(none, text, sizeof text).status == TEURLAKS_NO_CORE && text[0] == 7);
    for (size_t len = 0; len <= 300; len += 10) {
        const void *at = len <= sizeof bytes ? bytes : NULL;
        WANT(teurlaks_put_bytes(none, 0, at, len).status == TEURLAKS_NO_CORE);
        WANT(teurlaks_set_bytes(none, key, at, len) == TEURLAKS_NO_CORE);
    }
    WANT(teurlaks_get_bytes(none, key, bytes, sizeof bytes) == TEURLAKS_NO_CORE && bytes[0] == 7);
    WANT(teurlaks_get_bytes(none, key, NULL, 4) == TEURLAKS_NO_CORE);
    teurlaks_drop(none);
}

/* A key whose numbers no span, shard or slot has. */
static const struct teurlaks_key greatest = {
    .serial = UINT32_MAX, .generation = UINT32_MAX, .shard = 255, .slot = 255, .reserved = 65535};

static void each_key(struct teurlaks_handle *none) {
    each_call(none, (struct teurlaks_key){0});
    each_call(none, least);
    each_call(none, greatest);
    WANT(!none || !none->at);
}

/* What each call of a seat says of a handle without one. */
static void each_call_of_a_seat(struct teurlaks_share_handle *none, struct teurlaks_key key) {
    struct teurlaks_word words[16] = {{7, 7}};
    WANT(teurlaks_seat_session(none) == TEURLAKS_NO_CORE &&
         teurlaks_seat_pause(none) == TEURLAKS_NO_CORE);
    for (size_t len = 0; len <= 16; len++) {
        WANT(teurlaks_seat_put_words(none, words, len).status == TEURLAKS_NO_CORE);
        WANT(teurlaks_seat_set_words(none, key, words, len) == TEURLAKS_NO_CORE);
    }
    struct teurlaks_words_reply found = teurlaks_seat_get_words(none, key, words, 16);
    WANT(found.status == TEURLAKS_NO_CORE && found.len == 0 && words[0].low == 7);
    WANT(teurlaks_seat_free(none, key) == TEURLAKS_NO_CORE);
    WANT(teurlaks_seat_free_later(none, key) == TEURLAKS_NO_CORE);
    WANT(teurlaks_seat_hand_over(none) == TEURLAKS_NO_CORE);
    WANT(teurlaks_seat_tend(none).status == TEURLAKS_NO_CORE &&
         teurlaks_seat_tend(none).count == 0);
    WANT(teurlaks_seat_end(none) == TEURLAKS_NO_CORE);
    WANT(teurlaks_seat_begin(none) == TEURLAKS_NO_CORE);
    WANT(teurlaks_seat_retire(none, 9).status == TEURLAKS_NO_CORE &&
         teurlaks_seat_retire(none, 9).count == 0);
    WANT(teurlaks_seat_trim(none).status == TEURLAKS_NO_CORE &&
         teurlaks_seat_trim(none).count == 0);
    WANT(teurlaks_seat_gather(none, 0, 9).status == TEURLAKS_NO_CORE &&
         teurlaks_seat_gather(none, 0, 9).count == 0);
    WANT(teurlaks_seat_adopt(none).status == TEURLAKS_NO_CORE);
    struct teurlaks_walk walk = {1, 2, 3};
    WANT(teurlaks_seat_next(none, &walk).status == TEURLAKS_NO_CORE && walk.shard == 1 &&
         walk.serial == 2 && walk.slot == 3);
    struct teurlaks_place place = {(const uint8_t *)&walk};
    WANT(teurlaks_seat_arena(none, &place) == TEURLAKS_NO_CORE);
    WANT(place.at == (const uint8_t *)&walk);
}

/* The same of the steward's. */
static void each_call_of_a_steward(struct teurlaks_share_handle *none) {
    struct teurlaks_share_handle out = {0};
    WANT(teurlaks_steward_seat(none, &out) == TEURLAKS_NO_CORE && !out.at);
    WANT(teurlaks_steward_mark(none).status == TEURLAKS_NO_CORE);
    WANT(teurlaks_steward_mark_some(none).status == TEURLAKS_NO_CORE);
    WANT(teurlaks_steward_step(none).status == TEURLAKS_NO_CORE);
    WANT(teurlaks_steward_gather(none, 0, 9).status == TEURLAKS_NO_CORE &&
         teurlaks_steward_gather(none, 0, 9).count == 0);
    WANT(teurlaks_steward_close(none) == TEURLAKS_NO_CORE);
    WANT(teurlaks_steward_forget(none).status == TEURLAKS_NO_CORE &&
         teurlaks_steward_forget(none).count == 0);
    uint8_t text = 7;
    struct teurlaks_certificate_reply certificate = teurlaks_steward_certificate(none, &text, 1);
    WANT(certificate.status == TEURLAKS_NO_CORE && certificate.len == 0 && text == 7);
    struct teurlaks_walk walk = {1, 2, 3};
    WANT(teurlaks_steward_next(none, &walk).status == TEURLAKS_NO_CORE && walk.shard == 1 &&
         walk.serial == 2 && walk.slot == 3);
    struct teurlaks_arena_totals_reply totals = teurlaks_steward_totals(none);
    WANT(totals.status == TEURLAKS_NO_CORE && totals.pages == 0 && totals.live == 0);
    struct teurlaks_share_handle seat = {0};
    WANT(teurlaks_seat_leave(none, &seat) == TEURLAKS_NO_CORE);
    struct teurlaks_place place = {&text};
    WANT(teurlaks_steward_arena(none, &place) == TEURLAKS_NO_CORE && place.at == &text);
}

static void each_call_of_a_share(struct teurlaks_share_handle *none, struct teurlaks_key key) {
    each_call_of_a_seat(none, key);
    each_call_of_a_steward(none);
    WANT(teurlaks_arena_audit(none) == TEURLAKS_NO_CORE);
    teurlaks_share_drop(none);
    WANT(!none || !none->at);
}

/* What has something is given nothing more, whatever the numbers, and keeps what it has. */
static void has_share(struct teurlaks_share_handle *share, struct teurlaks_share_handle *steward) {
    const uint8_t *at = share->at;
    WANT(teurlaks_arena_open(share, 2, 4, 1, 9) == TEURLAKS_HAS_CORE);
    WANT(teurlaks_arena_open(share, 0, 0, 0, 0) == TEURLAKS_HAS_CORE);
    WANT(teurlaks_arena_open_recorded(share, 2, 4, 1, 9) == TEURLAKS_HAS_CORE);
    WANT(teurlaks_arena_open_with_spans(share, 2, 4, 8, 1, 9) == TEURLAKS_HAS_CORE);
    WANT(teurlaks_arena_open_recorded_with_spans(share, 0, 0, 0, 0, 0) == TEURLAKS_HAS_CORE);
    WANT(teurlaks_arena_open_with_slots(share, 2, 4, 8, 16, 1, 9) == TEURLAKS_HAS_CORE);
    WANT(teurlaks_arena_open_recorded_with_slots(share, 0, 0, 0, 0, 0, 0) == TEURLAKS_HAS_CORE);
    WANT(share == steward || teurlaks_steward_seat(steward, share) == TEURLAKS_HAS_CORE);
    WANT(share->at == at);
}

/* NULL beside a handle that has something, and one handle in two places. */
static void nowhere_at_shares(struct teurlaks_share_handle *steward,
                              struct teurlaks_share_handle *seat, struct teurlaks_key key) {
#ifndef TEURLAKS_UNTESTED
    each_call_of_a_share(NULL, key);
    WANT(teurlaks_arena_open(NULL, 1, 1, 1, 1) == TEURLAKS_NO_CORE);
    WANT(teurlaks_arena_open_recorded(NULL, 1, 1, 1, 1) == TEURLAKS_NO_CORE);
    WANT(teurlaks_arena_open_with_spans(NULL, 1, 1, 1, 1, 1) == TEURLAKS_NO_CORE);
    WANT(teurlaks_arena_open_recorded_with_spans(NULL, 1, 1, 1, 1, 1) == TEURLAKS_NO_CORE);
    WANT(teurlaks_arena_open_with_slots(NULL, 1, 1, 1, 1, 1, 1) == TEURLAKS_NO_CORE);
    WANT(teurlaks_arena_open_recorded_with_slots(NULL, 1, 1, 1, 1, 1, 1) == TEURLAKS_NO_CORE);
    WANT(teurlaks_steward_seat(steward, NULL) == TEURLAKS_NO_CORE);
    WANT(teurlaks_seat_leave(steward, NULL) == TEURLAKS_NO_CORE);
    WANT(teurlaks_seat_leave(NULL, seat) == TEURLAKS_NO_CORE);
    WANT(teurlaks_seat_put_words(seat, NULL, 4).status == TEURLAKS_CONFIG);
    WANT(teurlaks_seat_set_words(seat, key, NULL, 1) == TEURLAKS_CONFIG);
    WANT(teurlaks_seat_get_words(seat, key, NULL, 16).status == TEURLAKS_TOO_SMALL);
    WANT(teurlaks_steward_certificate(steward, NULL, 16).status == TEURLAKS_NONE);
    struct teurlaks_share_handle none = {0}, *some[] = {steward, seat, &none};
    for (size_t i = 0; i < sizeof some / sizeof some[0]; i++) {
        WANT(teurlaks_seat_next(some[i], NULL).status == TEURLAKS_CONFIG);
        WANT(teurlaks_steward_next(some[i], NULL).status == TEURLAKS_CONFIG);
    }
    for (size_t i = 0; i < sizeof some / sizeof some[0]; i++) {
        WANT(teurlaks_seat_arena(some[i], NULL) == TEURLAKS_CONFIG);
        WANT(teurlaks_steward_arena(some[i], NULL) == TEURLAKS_CONFIG);
    }
    WANT(teurlaks_seat_next(NULL, NULL).status == TEURLAKS_NO_CORE);
    WANT(teurlaks_steward_next(NULL, NULL).status == TEURLAKS_NO_CORE);
    WANT(teurlaks_seat_put_words(&none, NULL, 4).status == TEURLAKS_NO_CORE);
    WANT(teurlaks_seat_set_words(&none, key, NULL, 1) == TEURLAKS_NO_CORE);
    WANT(teurlaks_seat_get_words(&none, key, NULL, 16).status == TEURLAKS_NO_CORE);
    WANT(teurlaks_steward_certificate(&none, NULL, 16).status == TEURLAKS_NO_CORE);
    WANT(teurlaks_steward_seat(steward, steward) == TEURLAKS_HAS_CORE);
    WANT(teurlaks_steward_seat(seat, seat) == TEURLAKS_HAS_CORE);
    WANT(teurlaks_steward_seat(&none, &none) == TEURLAKS_NO_CORE);
    WANT(teurlaks_seat_leave(steward, steward) == TEURLAKS_NO_CORE);
    WANT(teurlaks_seat_leave(seat, seat) == TEURLAKS_NO_CORE);
    WANT(teurlaks_seat_leave(&none, &none) == TEURLAKS_NO_CORE);
#else
    (void)steward, (void)seat, (void)key;
#endif
}

/* Numbers that name no object, and no number of words that an object has. */
static void numbers_at_shares(struct teurlaks_share_handle *steward,
                              struct teurlaks_share_handle *seat, struct teurlaks_key key) {
    struct teurlaks_word words[34] = {{7, 7}};
    for (size_t len = 0; len <= 34; len += 17) {
        WANT(teurlaks_seat_put_words(seat, words, len).status == TEURLAKS_CONFIG);
        WANT(teurlaks_seat_set_words(seat, key, words, len) == TEURLAKS_CONFIG);
    }
    struct teurlaks_key wrong[] = {{0}, greatest, {.serial = 9, .generation = 1}};
    for (size_t i = 0; i < sizeof wrong / sizeof wrong[0]; i++) {
        WANT(teurlaks_seat_get_words(seat, wrong[i], words, 16).status == TEURLAKS_NONE);
        WANT(teurlaks_seat_set_words(seat, wrong[i], words, 1) == TEURLAKS_NONE);
        WANT(teurlaks_seat_free(seat, wrong[i]) == TEURLAKS_NONE);
    }
    WANT(teurlaks_seat_free_later(seat, greatest) == TEURLAKS_NONE);
    struct teurlaks_walk walk = {UINT32_MAX, UINT32_MAX, UINT32_MAX};
    WANT(teurlaks_seat_next(seat, &walk).status == TEURLAKS_NONE);
    WANT(teurlaks_steward_next(steward, &walk).status == TEURLAKS_NONE);
}

/* A seat in the place of the steward and the steward in that of a seat are answered as handles of
 * nothing, and so is what is dropped. */
static void shares(void) {
    struct teurlaks_share_handle steward = {0}, seat = {0};
    each_call_of_a_share(&seat, least);
    WANT(teurlaks_arena_open(&steward, 0, 4, 1, 9) == TEURLAKS_CONFIG && !steward.at);
    WANT(teurlaks_arena_open_with_spans(&steward, 1, 4, 0, 1, 9) == TEURLAKS_CONFIG);
    WANT(teurlaks_arena_open_recorded_with_spans(&steward, 1, 4, 0, 1, 9) == TEURLAKS_CONFIG);
    WANT(teurlaks_arena_open_with_slots(&steward, 1, 4, 1, 0, 1, 9) == TEURLAKS_CONFIG);
    WANT(teurlaks_arena_open_recorded_with_slots(&steward, 1, 4, 1, 257, 1, 9) == TEURLAKS_CONFIG);
    WANT(teurlaks_arena_open(&steward, 2, 4, 1, 9) == TEURLAKS_OK);
    WANT(teurlaks_steward_seat(&steward, &seat) == TEURLAKS_OK);
    has_share(&steward, &steward);
    has_share(&seat, &steward);
    struct teurlaks_put_reply put = teurlaks_seat_put_words(&seat, &one, 1);
    WANT(put.status == TEURLAKS_OK);
    each_call_of_a_seat(&steward, put.key);
    each_call_of_a_steward(&seat);
    WANT(teurlaks_seat_leave(&seat, &steward) == TEURLAKS_NO_CORE && seat.at && steward.at);
    WANT(teurlaks_arena_audit(&steward) == TEURLAKS_NO_CORE);
    WANT(teurlaks_arena_audit(&seat) == TEURLAKS_NO_CORE);
    nowhere_at_shares(&steward, &seat, put.key);
    numbers_at_shares(&steward, &seat, put.key);
    WANT(teurlaks_steward_totals(&steward).live == 1);

    /* The seat goes on without the steward. */
    teurlaks_share_drop(&steward);
    WANT(teurlaks_seat_free(&seat, put.key) == TEURLAKS_OK);
    teurlaks_share_drop(&seat);
    each_call_of_a_share(&seat, put.key);
    each_call_of_a_share(&steward, put.key);
}

static const uint8_t *place_of_steward(struct teurlaks_share_handle *steward) {
    struct teurlaks_place place = {NULL};
    WANT(teurlaks_steward_arena(steward, &place) == TEURLAKS_OK && place.at);
    return place.at;
}

static const uint8_t *place_of_seat(struct teurlaks_share_handle *seat) {
    struct teurlaks_place place = {NULL};
    WANT(teurlaks_seat_arena(seat, &place) == TEURLAKS_OK && place.at);
    return place.at;
}

/* All seats of an arena and its steward tell one place, in a session too, and those of another
 * arena another. */
static void places(opens *open) {
    struct teurlaks_share_handle steward = {0}, other = {0}, one_seat = {0}, two = {0},
                                 strange = {0};
    WANT(open(&steward, 2, 4, 1, 9) == TEURLAKS_OK && open(&other, 2, 4, 1, 9) == TEURLAKS_OK);
    WANT(teurlaks_steward_seat(&steward, &one_seat) == TEURLAKS_OK);
    WANT(teurlaks_steward_seat(&steward, &two) == TEURLAKS_OK);
    WANT(teurlaks_steward_seat(&other, &strange) == TEURLAKS_OK);
    const uint8_t *here = place_of_steward(&steward), *there = place_of_steward(&other);
    uint32_t held = teurlaks_seat_session(&two);
    WANT(held == TEURLAKS_OK || held == TEURLAKS_CONFIG);
    WANT(here != there && place_of_seat(&one_seat) == here && place_of_seat(&two) == here);
    WANT(place_of_seat(&strange) == there);
    teurlaks_share_drop(&other);
    teurlaks_share_drop(&steward);
    WANT(place_of_seat(&strange) == there && place_of_seat(&one_seat) == here);
    teurlaks_share_drop(&one_seat);
    teurlaks_share_drop(&two);
    teurlaks_share_drop(&strange);
}

/* A seat that has left is a handle of nothing, and one of another arena stays what it is. */
static void left_seats(void) {
    struct teurlaks_share_handle steward = {0}, other = {0}, seat = {0}, strange = {0};
    WANT(teurlaks_arena_open(&steward, 1, 4, 1, 9) == TEURLAKS_OK);
    WANT(teurlaks_arena_open(&other, 1, 4, 1, 9) == TEURLAKS_OK);
    WANT(teurlaks_steward_seat(&steward, &seat) == TEURLAKS_OK);
    WANT(teurlaks_steward_seat(&other, &strange) == TEURLAKS_OK);
    WANT(teurlaks_steward_seat(&steward, &(struct teurlaks_share_handle){0}) == TEURLAKS_NONE);
    WANT(teurlaks_seat_leave(&steward, &strange) == TEURLAKS_CONFIG && strange.at);
    WANT(teurlaks_seat_leave(&steward, &other) == TEURLAKS_NO_CORE && other.at);
    WANT(teurlaks_seat_leave(&steward, &seat) == TEURLAKS_OK);
    each_call_of_a_share(&seat, least);
    WANT(teurlaks_seat_leave(&steward, &seat) == TEURLAKS_NO_CORE);
    teurlaks_share_drop(&strange);
    teurlaks_share_drop(&other);
    teurlaks_share_drop(&steward);
}

/* A handle with an audited run has neither a steward nor a seat: it is audited again, and
 * dropped. */
static void audited_runs(void) {
    struct teurlaks_share_handle steward = {0}, run = {0}, seat = {0};
    WANT(teurlaks_arena_open_recorded(&run, 1, 4, 1, 9) == TEURLAKS_OK);
    WANT(teurlaks_arena_open(&steward, 1, 4, 1, 9) == TEURLAKS_OK);
    has_share(&run, &steward);
    WANT(teurlaks_steward_seat(&run, &seat) == TEURLAKS_OK);
    has_share(&seat, &run);
    WANT(teurlaks_seat_leave(&steward, &seat) == TEURLAKS_CONFIG);
    WANT(teurlaks_arena_audit(&run) == TEURLAKS_UNFINISHED);
    WANT(teurlaks_seat_leave(&run, &seat) == TEURLAKS_OK);
    WANT(teurlaks_arena_audit(&run) == TEURLAKS_OK);
    each_call_of_a_seat(&run, least);
    each_call_of_a_steward(&run);
    has_share(&run, &steward);
    WANT(teurlaks_seat_leave(&steward, &run) == TEURLAKS_NO_CORE);
    WANT(teurlaks_arena_audit(&run) == TEURLAKS_OK);
    teurlaks_share_drop(&run);
    each_call_of_a_share(&run, least);
    teurlaks_share_drop(&steward);
}

/* A recorded seat that is dropped never comes back, so its arena is never audited, and goes on
 * else. */
static void lost_seats(void) {
    struct teurlaks_share_handle steward = {0}, kept = {0}, lost = {0};
    WANT(teurlaks_arena_open_recorded(&steward, 2, 4, 1, 9) == TEURLAKS_OK);
    WANT(teurlaks_steward_seat(&steward, &kept) == TEURLAKS_OK);
    WANT(teurlaks_steward_seat(&steward, &lost) == TEURLAKS_OK);
    struct teurlaks_put_reply put = teurlaks_seat_put_words(&lost, &one, 1);
    WANT(put.status == TEURLAKS_OK);
    teurlaks_share_drop(&lost);
    WANT(teurlaks_arena_audit(&steward) == TEURLAKS_UNFINISHED);
    WANT(teurlaks_seat_free(&kept, put.key) == TEURLAKS_OK);
    WANT(teurlaks_seat_leave(&steward, &kept) == TEURLAKS_OK);
    WANT(teurlaks_arena_audit(&steward) == TEURLAKS_UNFINISHED);
    WANT(teurlaks_steward_seat(&steward, &kept) == TEURLAKS_OK);
    WANT(teurlaks_steward_seat(&steward, &lost) == TEURLAKS_NONE);
    WANT(teurlaks_seat_put_words(&kept, &one, 1).status == TEURLAKS_OK);
    WANT(teurlaks_seat_leave(&steward, &kept) == TEURLAKS_OK);
    WANT(teurlaks_arena_audit(&steward) == TEURLAKS_UNFINISHED);
    teurlaks_share_drop(&steward);
}

/* Numbers that name no shard of the core, no object of it, or no number of words that an object
 * has. */
static void numbers(struct teurlaks_handle *core, struct teurlaks_key key) {
    struct teurlaks_word words[34] = {{7, 7}};
    WANT(teurlaks_put(core, 2, one).status == TEURLAKS_CONFIG);
    WANT(teurlaks_put_words(core, 2, words, 4).status == TEURLAKS_CONFIG);
    WANT(teurlaks_put_bytes(core, 2, words, 9).status == TEURLAKS_CONFIG);
    WANT(teurlaks_end(core, 2) == TEURLAKS_CONFIG && teurlaks_begin(core, 2) == TEURLAKS_CONFIG);
    WANT(teurlaks_retire(core, 2, 1).status == TEURLAKS_CONFIG);
    WANT(teurlaks_trim(core, 2).status == TEURLAKS_CONFIG);
    for (size_t len = 0; len <= 34; len += 17) {
        WANT(teurlaks_put_words(core, 0, words, len).status == TEURLAKS_CONFIG);
        WANT(teurlaks_set_words(core, key, words, len) == TEURLAKS_CONFIG);
    }
    struct teurlaks_key wrong[] = {{0}, greatest, {.serial = 9, .generation = 1}};
    for (size_t i = 0; i < sizeof wrong / sizeof wrong[0]; i++) {
        WANT(teurlaks_get(core, wrong[i]).status == TEURLAKS_NONE);
        WANT(teurlaks_get_words(core, wrong[i], words, 16).status == TEURLAKS_NONE);
        WANT(teurlaks_get_bytes(core, wrong[i], words, 1) == TEURLAKS_NONE);
        WANT(teurlaks_set(core, wrong[i], one) == TEURLAKS_NONE);
        WANT(teurlaks_set_words(core, wrong[i], words, 1) == TEURLAKS_NONE);
        WANT(teurlaks_set_bytes(core, wrong[i], words, 1) == TEURLAKS_NONE);
        WANT(teurlaks_free(core, wrong[i]) == TEURLAKS_NONE);
        WANT(teurlaks_contains(core, wrong[i]) == TEURLAKS_NONE);
    }
    /* What is no key at all begins a walk, as a key of zeros does. */
    WANT(teurlaks_next(core, wrong[0]).status == TEURLAKS_OK);
    WANT(teurlaks_next(core, greatest).status == TEURLAKS_OK);
    WANT(teurlaks_next(core, wrong[2]).status == TEURLAKS_NONE);
}

/* Bytes at NULL, or of a number that no object holds, are refused, and those of the key stay. */
static void bytes_of(struct teurlaks_handle *core, struct teurlaks_key key) {
    uint8_t bytes[257] = {0}, kept[16];
    size_t live = teurlaks_totals(core).live;
    for (size_t len = 0; len <= 257; len++) {
        WANT(teurlaks_put_bytes(core, 0, NULL, len).status == TEURLAKS_CONFIG);
        WANT(teurlaks_set_bytes(core, key, NULL, len) == TEURLAKS_CONFIG);
    }
    for (size_t len = 0; len <= 257; len += 257) {
        WANT(teurlaks_put_bytes(core, 0, bytes, len).status == TEURLAKS_CONFIG);
        WANT(teurlaks_set_bytes(core, key, bytes, len) == TEURLAKS_CONFIG);
    }
    WANT(teurlaks_get_bytes(core, key, NULL, 0) == TEURLAKS_OK);
    WANT(teurlaks_get_bytes(core, key, bytes, 0) == TEURLAKS_OK && bytes[0] == 0);
    WANT(teurlaks_get_bytes(core, key, NULL, 16) == TEURLAKS_CONFIG);
    WANT(teurlaks_get_bytes(core, key, NULL, 17) == TEURLAKS_TOO_SMALL);
    WANT(teurlaks_get_bytes(core, least, kept, 16) == TEURLAKS_OK);
    WANT(!memcmp(kept, &one, sizeof kept) && teurlaks_totals(core).live == live);
}

/* NULL for the words of an object is no words, and for a room no room. */
static void nowhere(struct teurlaks_handle *core, struct teurlaks_key key) {
#ifndef TEURLAKS_UNTESTED
    struct teurlaks_handle none = {0};
    WANT(teurlaks_put_words(&none, 0, NULL, 4).status == TEURLAKS_NO_CORE);
    WANT(teurlaks_set_words(&none, key, NULL, 1) == TEURLAKS_NO_CORE);
    WANT(teurlaks_get_words(&none, key, NULL, 16).status == TEURLAKS_NO_CORE);
    WANT(teurlaks_certificate(&none, NULL, 16).status == TEURLAKS_NO_CORE);
    each_key(NULL);
    WANT(teurlaks_new(NULL, 1, 1, 1, 1) == TEURLAKS_NO_CORE);
    WANT(teurlaks_new_with_spans(NULL, 1, 1, 1, 1, 1) == TEURLAKS_NO_CORE);
    WANT(teurlaks_new_with_slots(NULL, 1, 1, 1, 1, 1, 1) == TEURLAKS_NO_CORE);
    WANT(teurlaks_put_words(core, 0, NULL, 4).status == TEURLAKS_CONFIG);
    WANT(teurlaks_set_words(core, key, NULL, 1) == TEURLAKS_CONFIG);
    struct teurlaks_words_reply found = teurlaks_get_words(core, key, NULL, 16);
    WANT(found.status == TEURLAKS_TOO_SMALL && found.len == 1);
    WANT(teurlaks_certificate(core, NULL, 16).status == TEURLAKS_NONE);
    WANT(teurlaks_mark(core).status == TEURLAKS_OK);
    struct teurlaks_certificate_reply told = teurlaks_certificate(core, NULL, 0);
    WANT(told.status == TEURLAKS_TOO_SMALL && told.len > 0 &&
         teurlaks_certificate(core, NULL, 99999).len == told.len);
    uint8_t *text = malloc(told.len);
    WANT(text && teurlaks_certificate(core, text, told.len).status == TEURLAKS_OK);
    free(text);
#else
    (void)core, (void)key;
#endif
}

/* An adoption by a shard that there is not is refused for the plan and for the pool before. */
static void adoptions(struct teurlaks_handle *core) {
    uint32_t marked = teurlaks_mark(core).status;
    WANT(marked == TEURLAKS_OK || marked == TEURLAKS_PLAN_OPEN);
    WANT(teurlaks_adopt(core, 2).status == TEURLAKS_PLAN_OPEN);
    WANT(teurlaks_close(core) == TEURLAKS_OK);
    WANT(teurlaks_adopt(core, 2).status == TEURLAKS_NOTHING_TO_ADOPT);
    WANT(teurlaks_end(core, 0) == TEURLAKS_OK);
    WANT(teurlaks_adopt(core, 2).status == TEURLAKS_CONFIG);
}

/* Each status has a text of its own, and no other number has one. */
static void texts(void) {
    const char *unknown = teurlaks_strerror(TEURLAKS_BARRIER_FAULT + 1);
    for (uint32_t status = 0; status <= TEURLAKS_BARRIER_FAULT; status++) {
        WANT(teurlaks_strerror(status) != unknown);
        for (uint32_t other = 0; other < status; other++)
            WANT(teurlaks_strerror(other) != teurlaks_strerror(status));
    }
}

int main(void) {
    struct teurlaks_handle core = {0};
    each_key(&core);
    WANT(teurlaks_new(&core, 0, 1, 1, 1) == TEURLAKS_CONFIG);
    WANT(teurlaks_new_with_spans(&core, 1, 1, 0, 1, 1) == TEURLAKS_CONFIG);
    WANT(teurlaks_new_with_slots(&core, 1, 1, 1, 0, 1, 1) == TEURLAKS_CONFIG);
    WANT(teurlaks_new_with_slots(&core, 1, 1, 1, 65792, 1, 1) == TEURLAKS_CONFIG);
    each_key(&core);
    WANT(teurlaks_new(&core, 2, 4, 1, 9) == TEURLAKS_OK);
    struct teurlaks_put_reply put = teurlaks_put(&core, 0, one);
    WANT(put.status == TEURLAKS_OK);

    /* A second core is refused, whatever its numbers, and the first stays. */
    WANT(teurlaks_new(&core, 2, 4, 1, 9) == TEURLAKS_HAS_CORE &&
         teurlaks_new_with_spans(&core, 0, 0, 0, 0, 0) == TEURLAKS_HAS_CORE &&
         teurlaks_new_with_slots(&core, 0, 0, 0, 0, 0, 0) == TEURLAKS_HAS_CORE);
    WANT(teurlaks_get(&core, put.key).value.low == one.low);
    numbers(&core, put.key);
    bytes_of(&core, put.key);
    nowhere(&core, put.key);
    adoptions(&core);

    teurlaks_drop(&core);
    each_key(&core);
    WANT(teurlaks_new(&core, 1, 1, 1, 1) == TEURLAKS_OK);
    teurlaks_drop(&core);
    shares();
    places(teurlaks_arena_open);
    places(teurlaks_arena_open_recorded);
    left_seats();
    audited_runs();
    lost_seats();
    texts();
    return 0;
}
