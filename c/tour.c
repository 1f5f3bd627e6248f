/* The tour of a core from C, and of a recorded arena, with each allocation failing in turn. Link it
 * with -Wl,--wrap=malloc,--wrap=realloc. */
#include "failing.h"
#include "teurlaks.h"
#include "wanted.h"
#include <stdio.h>
#include <stdlib.h>
#include <string.h>

/* The call, and once more where memory was refused: the totals are as they were, since a refusal
 * changes nothing. */
#define AGAIN(reply, status, call)                                                                 \
    do {                                                                                           \
        struct teurlaks_totals_reply was = teurlaks_totals(&core);                                 \
        reply = call;                                                                              \
        if ((status) == TEURLAKS_OUT_OF_MEMORY) {                                                  \
            struct teurlaks_totals_reply is = teurlaks_totals(&core);                              \
            WANT(has_failed &&is.pages == was.pages && is.live == was.live);                       \
            reply = call;                                                                          \
        }                                                                                          \
    } while (0)

static struct teurlaks_word word(uint64_t low) { return (struct teurlaks_word){low, ~low}; }

static void forged_keys(struct teurlaks_handle *core) {
    for (uint64_t i = 0; i < 100000; i++) {
        struct teurlaks_key key = {.serial = (uint32_t)(i * 2246822519u),
                                   .generation = (uint32_t)(i * 2654435761u),
                                   .shard = (uint8_t)(i * 37),
                                   .slot = (uint8_t)i};
        WANT(teurlaks_get(core, key).status <= TEURLAKS_NONE);
    }
}

/* A key of which one bit is another finds nothing, also where that is a bit that no number has. */
static void each_bit(struct teurlaks_handle *core, struct teurlaks_key key) {
    for (size_t bit = 0; bit < 8 * sizeof key; bit++) {
        struct teurlaks_key other;
        uint8_t bytes[sizeof key];
        memcpy(bytes, &key, sizeof key);
        bytes[bit / 8] ^= (uint8_t)(1 << bit % 8);
        memcpy(&other, bytes, sizeof key);
        WANT(teurlaks_get(core, other).status == TEURLAKS_NONE &&
             teurlaks_free(core, other) == TEURLAKS_NONE);
        WANT(teurlaks_set(core, other, word(1)) == TEURLAKS_NONE &&
             teurlaks_contains(core, other) == TEURLAKS_NONE);
    }
}

/* Bytes of each number, and what is refused of them. */
static void bytes_of_each_number(void) {
    struct teurlaks_handle core = {0};
    struct teurlaks_put_reply put[257];
    uint8_t bytes[256], found[256];
    if (teurlaks_new(&core, 1, 16, 1, 9) != TEURLAKS_OK) exit(1);
    for (size_t i = 0; i < sizeof bytes; i++) bytes[i] = (uint8_t)(i * 37);
    for (size_t len = 1; len <= sizeof bytes; len++) {
        put[len] = teurlaks_put_bytes(&core, 0, bytes, len);
        WANT(put[len].status == TEURLAKS_OK);
    }
    /* 16 of each number of words, on a page of their own. */
    WANT(teurlaks_totals(&core).live == 256 && teurlaks_totals(&core).pages == 16);
    for (size_t len = 1; len <= sizeof bytes; len++) {
        struct teurlaks_word words[16];
        size_t words_len = (len + 15) / 16;
        memset(words, 'x', sizeof words);
        WANT(teurlaks_words_of(bytes, len, words) == words_len && !memcmp(words, bytes, len));
        for (size_t i = len; i < 16 * words_len; i++) WANT(((const uint8_t *)words)[i] == 0);
        memset(found, 'x', sizeof found);
        WANT(teurlaks_get_bytes(&core, put[len].key, found, len) == TEURLAKS_OK &&
             !memcmp(found, bytes, len));
        WANT(len == sizeof found || found[len] == 'x');
        WANT(teurlaks_get_bytes(&core, put[len].key, found, 16 * words_len + 1) ==
             TEURLAKS_TOO_SMALL);
        WANT((teurlaks_get(&core, put[len].key).status == TEURLAKS_OK) == (words_len == 1));
        WANT(teurlaks_get_words(&core, put[len].key, words, 16).len == words_len);
        WANT(teurlaks_get_words(&core, put[len].key, words, words_len - 1).status ==
             TEURLAKS_TOO_SMALL);
        for (size_t i = 0; i < words_len; i++) words[i] = word(len + i);
        WANT(teurlaks_set_words(&core, put[len].key, words, words_len) == TEURLAKS_OK);
        WANT(teurlaks_get_words(&core, put[len].key, words, 16).len == words_len &&
             words[words_len - 1].low == len + words_len - 1);
        WANT(teurlaks_set(&core, put[len].key, word(7)) ==
             (words_len == 1 ? TEURLAKS_OK : TEURLAKS_NONE));
        WANT(teurlaks_set_words(&core, put[len].key, words, words_len % 16 + 1) == TEURLAKS_NONE);
        WANT(teurlaks_set_bytes(&core, put[len].key, bytes, len) == TEURLAKS_OK);
        WANT(teurlaks_get_bytes(&core, put[len].key, found, len) == TEURLAKS_OK &&
             !memcmp(found, bytes, len));
        WANT(teurlaks_free(&core, put[len].key) == TEURLAKS_OK);
        WANT(teurlaks_get_bytes(&core, put[len].key, found, len) == TEURLAKS_NONE);
        WANT(teurlaks_set_words(&core, put[len].key, words, words_len) == TEURLAKS_NONE);
    }
    WANT(teurlaks_put_bytes(&core, 0, bytes, 0).status == TEURLAKS_CONFIG);
    WANT(teurlaks_put_bytes(&core, 0, bytes, 257).status == TEURLAKS_CONFIG);
    WANT(teurlaks_set_bytes(&core, put[1].key, bytes, 257) == TEURLAKS_CONFIG);
    static const struct teurlaks_word many[17];
    WANT(teurlaks_put_words(&core, 0, many, 0).status == TEURLAKS_CONFIG);
    WANT(teurlaks_put_words(&core, 0, many, 17).status == TEURLAKS_CONFIG);
    WANT(teurlaks_set_words(&core, put[1].key, many, 17) == TEURLAKS_CONFIG);
    teurlaks_drop(&core);
}

/* A page has as many objects as fit its 256 words, and one more opens another page. Each finds its
 * own words. */
static void pages_of_each_width(void) {
    for (size_t len = 1; len <= 16; len++) {
        struct teurlaks_handle core = {0};
        struct teurlaks_key keys[257];
        struct teurlaks_word words[16];
        size_t slots = 256 / len;
        if (teurlaks_new(&core, 1, 2, 1, 9) != TEURLAKS_OK) exit(1);
        for (size_t number = 0; number <= slots; number++) {
            for (size_t i = 0; i < len; i++) words[i] = word(100 * number + i);
            struct teurlaks_put_reply put = teurlaks_put_words(&core, 0, words, len);
            WANT(put.status == TEURLAKS_OK);
            WANT(teurlaks_totals(&core).pages == (number < slots ? 1 : 2));
            keys[number] = put.key;
        }
        for (size_t number = 0; number <= slots; number++) {
            WANT(teurlaks_get_words(&core, keys[number], words, 16).len == len);
            for (size_t i = 0; i < len; i++) WANT(words[i].low == 100 * number + i);
        }
        teurlaks_drop(&core);
    }
}

/* Frees all live keys, and says how many there were. */
static size_t free_all(struct teurlaks_handle *core) {
    size_t freed = 0;
    struct teurlaks_next_reply next = {TEURLAKS_OK, {0, 0, 0, 0, 0}};
    while ((next = teurlaks_next(core, next.key)).status == TEURLAKS_OK) {
        WANT(teurlaks_free(core, next.key) == TEURLAKS_OK);
        freed++;
    }
    return freed;
}

static void tour(void) {
    static const char plan[] = "folds 1\n0.0 1.0\nshort 0\nend\n";
    struct teurlaks_handle core = {0};
    uint32_t status = teurlaks_new(&core, 2, 4, 1, 9);
    if (status == TEURLAKS_OUT_OF_MEMORY) {
        WANT(has_failed && !core.at);
        status = teurlaks_new(&core, 2, 4, 1, 9);
    }
    WANT(status == TEURLAKS_OK && core.at);

    uint8_t text[512];
    struct teurlaks_put_reply first, put, other;
    AGAIN(first, first.status, teurlaks_put(&core, 0, word(10)));
    AGAIN(put, put.status, teurlaks_put(&core, 0, word(11)));
    WANT(first.status == TEURLAKS_OK && put.status == TEURLAKS_OK && put.key.slot == 1 &&
         put.key.generation == 1);
    WANT(teurlaks_free(&core, first.key) == TEURLAKS_OK &&
         teurlaks_free(&core, first.key) == TEURLAKS_NONE);
    WANT(teurlaks_certificate(&core, text, sizeof text).status == TEURLAKS_NONE);
    AGAIN(status, status, teurlaks_end(&core, 0));
    WANT(status == TEURLAKS_OK && teurlaks_end(&core, 0) == TEURLAKS_ENDED &&
         teurlaks_end(&core, 2) == TEURLAKS_CONFIG);
    AGAIN(other, other.status, teurlaks_put(&core, 1, word(7)));
    WANT(other.status == TEURLAKS_OK);

    struct teurlaks_mark_reply marked;
    AGAIN(marked, marked.status, teurlaks_mark(&core));
    WANT(marked.status == TEURLAKS_OK && marked.abandoned == 1 && marked.owned == 1 &&
         marked.folds == 1 && marked.short_set == 0);
    WANT(teurlaks_mark(&core).status == TEURLAKS_PLAN_OPEN &&
         teurlaks_mark_some(&core).status == TEURLAKS_PLAN_OPEN);
    WANT(teurlaks_adopt(&core, 1).status == TEURLAKS_PLAN_OPEN);

    struct teurlaks_certificate_reply told;
    memset(text, 'x', sizeof text);
    AGAIN(told, told.status, teurlaks_certificate(&core, text, 0));
    WANT(told.status == TEURLAKS_TOO_SMALL && told.len < sizeof text && text[0] == 'x');
    size_t len = told.len;
    AGAIN(told, told.status, teurlaks_certificate(&core, text, len - 1));
    WANT(told.status == TEURLAKS_TOO_SMALL && text[0] == 'x');
    AGAIN(told, told.status, teurlaks_certificate(&core, text, sizeof text));
    WANT(told.status == TEURLAKS_OK && told.len == len && text[len] == 'x' &&
         !memcmp(text, "meshcert 2\n", 11));
    WANT(!memcmp(text + len - strlen(plan), plan, strlen(plan)));

    struct teurlaks_step_reply step;
    AGAIN(step, step.status, teurlaks_step(&core));
    WANT(step.status == TEURLAKS_OK && step.abandoned.shard == 0 && step.owned.shard == 1);
    WANT(teurlaks_step(&core).status == TEURLAKS_NO_PAIR_LEFT &&
         teurlaks_close(&core) == TEURLAKS_OK);
    WANT(teurlaks_close(&core) == TEURLAKS_NO_PLAN &&
         teurlaks_step(&core).status == TEURLAKS_NO_PLAN);
    WANT(teurlaks_adopt(&core, 1).status == TEURLAKS_NOTHING_TO_ADOPT);

    /* The one group that is left retires, and comes back. */
    struct teurlaks_retire_reply retired;
    AGAIN(retired, retired.status, teurlaks_retire(&core, 1, 9));
    WANT(retired.status == TEURLAKS_OK && retired.count == 1 && teurlaks_totals(&core).pages == 1);
    WANT(teurlaks_retire(&core, 0, 9).status == TEURLAKS_ENDED &&
         teurlaks_retire(&core, 2, 9).status == TEURLAKS_CONFIG);
    struct teurlaks_adopt_reply adopted;
    AGAIN(adopted, adopted.status, teurlaks_adopt(&core, 1));
    WANT(adopted.status == TEURLAKS_OK && adopted.head.shard == 1 && adopted.head.serial == 0);

    struct teurlaks_get_reply got = teurlaks_get(&core, put.key);
    WANT(got.status == TEURLAKS_OK && got.value.low == 11 && got.value.high == ~11ull);
    WANT(teurlaks_get(&core, first.key).status == TEURLAKS_NONE);
    WANT(teurlaks_contains(&core, put.key) == TEURLAKS_OK);
    WANT(teurlaks_contains(&core, first.key) == TEURLAKS_NONE);
    WANT(teurlaks_totals(&core).pages == 1 && teurlaks_totals(&core).live == 2);
    if (!has_failed) forged_keys(&core), each_bit(&core, put.key);
    /* The first live key is that of the group that was folded, at its own slot. */
    struct teurlaks_next_reply next = teurlaks_next(&core, first.key);
    WANT(next.status == TEURLAKS_OK && !memcmp(&next.key, &put.key, sizeof put.key));
    /* Its span has no other one, and no span has a shard behind the last. */
    struct teurlaks_span folded = {put.key.shard, put.key.serial}, no_span = {64, 0};
    next = teurlaks_next_in_span(&core, folded, 0);
    WANT(next.status == TEURLAKS_OK && !memcmp(&next.key, &put.key, sizeof put.key));
    WANT(teurlaks_next_in_span(&core, folded, put.key.slot + 1u).status == TEURLAKS_NONE);
    WANT(teurlaks_next_in_span(&core, no_span, 0).status == TEURLAKS_NONE);
    WANT(free_all(&core) == 2 && teurlaks_totals(&core).live == 0);
    /* The span that was folded has nothing live, and takes no put: it is forgotten, once. */
    WANT(teurlaks_forget(&core).count == 1 && teurlaks_forget(&core).count == 0);
    /* The page has nothing live, and goes; a put opens one anew. */
    struct teurlaks_trim_reply trimmed = teurlaks_trim(&core, 1);
    WANT(trimmed.status == TEURLAKS_OK && trimmed.count == 1 && teurlaks_totals(&core).pages == 0);
    WANT(teurlaks_trim(&core, 2).status == TEURLAKS_CONFIG && teurlaks_trim(&core, 1).count == 0);
    AGAIN(put, put.status, teurlaks_put(&core, 1, (struct teurlaks_word){3, 0}));
    WANT(put.status == TEURLAKS_OK && put.key.serial == 0 && teurlaks_totals(&core).pages == 1);
    WANT(teurlaks_get(&core, put.key).value.low == 3);
    /* Shard 0, which ended, begins again: what it gives out was never given out. */
    WANT(teurlaks_begin(&core, 2) == TEURLAKS_CONFIG &&
         teurlaks_begin(&core, 1) == TEURLAKS_RUNNING);
    WANT(teurlaks_begin(&core, 0) == TEURLAKS_OK && teurlaks_begin(&core, 0) == TEURLAKS_RUNNING);
    AGAIN(other, other.status, teurlaks_put(&core, 0, word(4)));
    WANT(other.status == TEURLAKS_OK && other.key.shard == 0 && other.key.serial == 1 &&
         other.key.generation == 1);
    WANT(teurlaks_get(&core, first.key).status == TEURLAKS_NONE &&
         teurlaks_get(&core, other.key).value.low == 4);
    teurlaks_drop(&core);
    WANT(!core.at);
}

/* The call, and once more where memory was refused. A refused call was not made: the audit at the
 * end would find one of which there is no receipt. */
#define ONCE_MORE(reply, status, call)                                                             \
    do {                                                                                           \
        reply = call;                                                                              \
        if ((status) == TEURLAKS_OUT_OF_MEMORY) {                                                  \
            WANT(has_failed);                                                                      \
            reply = call;                                                                          \
        }                                                                                          \
    } while (0)

/* Two seats of a recorded arena, of which one goes through two hands. */
static void recorded_tour(void) {
    struct teurlaks_share_handle steward = {0}, seats[2] = {{0}, {0}};
    struct teurlaks_word words[16];
    struct teurlaks_put_reply put, wide;
    struct teurlaks_words_reply got;
    struct teurlaks_tend_reply tended;
    struct teurlaks_mark_reply marked;
    struct teurlaks_step_reply step;
    uint32_t status;
    for (size_t i = 0; i < 16; i++) words[i] = word(i);
    ONCE_MORE(status, status, teurlaks_arena_open_recorded(&steward, 2, 4, 8, 9));
    WANT(status == TEURLAKS_OK &&
         teurlaks_arena_open_recorded(&steward, 2, 4, 8, 9) == TEURLAKS_HAS_CORE);
    for (int i = 0; i < 2; i++) {
        ONCE_MORE(status, status, teurlaks_steward_seat(&steward, &seats[i]));
        WANT(status == TEURLAKS_OK);
    }
    ONCE_MORE(put, put.status, teurlaks_seat_put_words(&seats[0], words, 1));
    ONCE_MORE(wide, wide.status, teurlaks_seat_put_words(&seats[1], words, 16));
    WANT(put.status == TEURLAKS_OK && wide.status == TEURLAKS_OK);
    ONCE_MORE(status, status, teurlaks_seat_set_words(&seats[0], put.key, words + 5, 1));
    WANT(status == TEURLAKS_OK);
    ONCE_MORE(got, got.status, teurlaks_seat_get_words(&seats[1], put.key, words, 16));
    WANT(got.status == TEURLAKS_OK && got.len == 1 && words[0].low == 5);
    ONCE_MORE(got, got.status, teurlaks_seat_get_words(&seats[0], wide.key, NULL, 0));
    WANT(got.status == TEURLAKS_TOO_SMALL && got.len == 16);
    ONCE_MORE(status, status, teurlaks_seat_end(&seats[0]));
    WANT(status == TEURLAKS_OK);
    ONCE_MORE(put, put.status, teurlaks_seat_put_words(&seats[1], words + 1, 1));
    WANT(put.status == TEURLAKS_OK);
    ONCE_MORE(marked, marked.status, teurlaks_steward_mark(&steward));
    WANT(marked.status == TEURLAKS_OK &&
         teurlaks_steward_forget(&steward).status == TEURLAKS_RECORDED);
    do ONCE_MORE(step, step.status, teurlaks_steward_step(&steward));
    while (step.status == TEURLAKS_OK);
    WANT(step.status == TEURLAKS_NO_PAIR_LEFT && teurlaks_steward_close(&steward) == TEURLAKS_OK);
    WANT(teurlaks_seat_free_later(&seats[0], wide.key) == TEURLAKS_OK);

    WANT(teurlaks_arena_audit(&steward) == TEURLAKS_UNFINISHED);
    ONCE_MORE(status, status, teurlaks_seat_leave(&steward, &seats[0]));
    WANT(status == TEURLAKS_OK && !seats[0].at);
    ONCE_MORE(status, status, teurlaks_steward_seat(&steward, &seats[0]));
    WANT(status == TEURLAKS_OK);
    ONCE_MORE(status, status, teurlaks_seat_free(&seats[0], put.key));
    WANT(status == TEURLAKS_OK);
    ONCE_MORE(tended, tended.status, teurlaks_seat_tend(&seats[1]));
    WANT(tended.status == TEURLAKS_OK && tended.count == 1);
    for (int i = 0; i < 2; i++) {
        ONCE_MORE(status, status, teurlaks_seat_leave(&steward, &seats[i]));
        WANT(status == TEURLAKS_OK);
    }
    ONCE_MORE(status, status, teurlaks_arena_audit(&steward));
    WANT(status == TEURLAKS_OK);
    teurlaks_share_drop(&steward);
}

/* The tour with each of its allocations failing in turn; how many there are. */
static long each_failing(void (*taken)(void)) {
    long runs = 0;
    do {
        before_failure = runs++;
        has_failed = 0;
        taken();
    } while (has_failed);
    return runs - 1;
}

int main(void) {
    bytes_of_each_number();
    pages_of_each_width();
    long core = each_failing(tour), recorded = each_failing(recorded_tour);
    printf("the tours were taken with each of %ld and %ld allocations failing in turn\n", core,
           recorded);
    return 0;
}
