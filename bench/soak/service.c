/* A core that is used without an end: `service EVENTS VALUES`. Puts and frees at random over up to
 * VALUES live values of one shard; of each million events the last thin the values out to a
 * twentieth, and then the sparse half of the pages goes through the pool and is folded, as often as
 * that gives pages back, and what can never be live again is forgotten. Each round every live value
 * is looked up, and keys that were freed find nothing. After the first ten rounds, and then each
 * tenth, it prints a line: events, spans opened so far, pages, live values, resident kilobytes; at
 * its end how much more is resident than after the first ten rounds, and what is once all is freed,
 * ended and forgotten. */
#include "common.h"
#include "teurlaks.h"

#include <inttypes.h>

enum { EVENTS_OF_A_ROUND = 1000000, ROUNDS_OF_A_LINE = 10, KEPT_OF = 20, STALE = 4096 };

struct held {
    struct teurlaks_key key;
    uint64_t value;
};

static struct teurlaks_handle core;
static struct held *live;
static size_t live_count;
static struct teurlaks_key stale[STALE];
static uint64_t stale_count, events, spans;

static void say_where(void) { printf("service: event %" PRIu64, events); }

static void put_one(void) {
    struct held held = {.value = draw(UINT64_MAX)};
    struct teurlaks_put_reply reply =
        teurlaks_put(&core, 0, (struct teurlaks_word){held.value, ~held.value});
    WANT(reply.status == TEURLAKS_OK);
    if (reply.key.serial >= spans) spans = (uint64_t)reply.key.serial + 1;
    held.key = reply.key;
    live[live_count++] = held;
    events++;
}

static void free_one(void) {
    size_t at = draw(live_count);
    WANT(teurlaks_free(&core, live[at].key) == TEURLAKS_OK);
    stale[stale_count++ % STALE] = live[at].key;
    live[at] = live[--live_count];
    events++;
}

static void look_at_all(void) {
    for (size_t at = 0; at < live_count; at++) {
        struct teurlaks_get_reply reply = teurlaks_get(&core, live[at].key);
        WANT(reply.status == TEURLAKS_OK && reply.value.low == live[at].value &&
             reply.value.high == ~live[at].value);
    }
    for (size_t at = 0; at < STALE && at < stale_count; at++) {
        WANT(teurlaks_get(&core, stale[at]).status == TEURLAKS_NONE);
        WANT(teurlaks_free(&core, stale[at]) == TEURLAKS_NONE);
    }
}

/* Folds the sparser half of the pages onto the other half, and says how many pages went. */
static size_t fold_half(void) {
    struct teurlaks_step_reply step;
    size_t pages = teurlaks_totals(&core).pages;
    WANT(teurlaks_retire(&core, 0, pages / 2).status == TEURLAKS_OK);
    WANT(teurlaks_mark_some(&core).status == TEURLAKS_OK);
    do {
        step = teurlaks_step(&core);
    } while (step.status == TEURLAKS_OK || step.status == TEURLAKS_EMPTIED);
    WANT(step.status == TEURLAKS_NO_PAIR_LEFT && teurlaks_close(&core) == TEURLAKS_OK);
    while (teurlaks_adopt(&core, 0).status == TEURLAKS_OK) {
    }
    return pages - teurlaks_totals(&core).pages;
}

static void compact(void) {
    WANT(teurlaks_trim(&core, 0).status == TEURLAKS_OK);
    while (fold_half() * 16 > teurlaks_totals(&core).pages) {
    }
    WANT(teurlaks_forget(&core).status == TEURLAKS_OK);
}

static void round_of(size_t values) {
    uint64_t end = events + EVENTS_OF_A_ROUND;
    while (live_count < values) put_one();
    while (events < end - values) {
        free_one();
        put_one();
    }
    while (live_count > values / KEPT_OF) free_one();
    compact();
    look_at_all();
}

int main(int count, char **words) {
    uint64_t wanted = count > 1 ? strtoull(words[1], NULL, 10) : 100000000;
    size_t values = count > 2 ? strtoull(words[2], NULL, 10) : 100000;
    long first = 0;
    if (values < KEPT_OF || values > EVENTS_OF_A_ROUND / 4) return 2;
    live = malloc(values * sizeof *live);
    if (!live) return 2;
    for (size_t at = 0; at < values; at++) live[at] = (struct held){{0}, 0};
    drawn = 1;
    WANT(teurlaks_new(&core, 1, 1024, 1, UINT32_MAX) == TEURLAKS_OK);
    for (uint64_t rounds = 1; events < wanted; rounds++) {
        round_of(values);
        if (rounds % ROUNDS_OF_A_LINE != 0) continue;
        if (first == 0) first = resident();
        printf("service: %" PRIu64 " events, %" PRIu64
               " spans, %zu pages, %zu live, %ld KB resident\n",
               events, spans, teurlaks_totals(&core).pages, live_count, resident());
        fflush(stdout);
    }
    if (first > 0)
        printf("service: %.3f of what was resident after the first ten rounds\n",
               (double)resident() / (double)first);
    while (live_count > 0) free_one();
    WANT(teurlaks_end(&core, 0) == TEURLAKS_OK && teurlaks_forget(&core).status == TEURLAKS_OK);
    WANT(teurlaks_forget(&core).count == 0);
    printf("service: %ld KB resident once all is freed, ended and forgotten\n", resident());
    teurlaks_drop(&core);
    free(live);
    return 0;
}
