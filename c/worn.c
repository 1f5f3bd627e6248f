/* A core whose slots are worn out soon goes on: teurlaks_make_way gives up what is worn, whatever
 * else is live, and with each allocation failing in turn. Link it with
 * -Wl,--wrap=malloc,--wrap=realloc. */
#include "failing.h"
#include "teurlaks.h"
#include "wanted.h"
#include <stdio.h>

enum { PAGES = 4, SLOTS = 256, GENERATIONS = 9 };

static struct teurlaks_handle open_core(uint32_t shards) {
    struct teurlaks_handle core = {0};
    WANT(teurlaks_new(&core, shards, PAGES, 1, GENERATIONS) == TEURLAKS_OK);
    return core;
}

static struct teurlaks_put_reply put(struct teurlaks_handle *core, uint64_t number) {
    struct teurlaks_word word = {number, 7};
    return teurlaks_put(core, 0, word);
}

/* Keeps a word in the first shard, which makes way if its pages are spent, and counts how often. */
static struct teurlaks_key keep(struct teurlaks_handle *core, uint64_t number, unsigned *ways) {
    struct teurlaks_put_reply reply = put(core, number);
    if (reply.status == TEURLAKS_PAGES_SPENT) {
        struct teurlaks_forget_reply way = teurlaks_make_way(core, 0);
        WANT(way.status == TEURLAKS_OK && 1 <= way.count && way.count <= PAGES);
        reply = put(core, number);
        ++*ways;
    }
    WANT(reply.status == TEURLAKS_OK);
    return reply.key;
}

static void look(struct teurlaks_handle *core, struct teurlaks_key key, uint64_t number) {
    struct teurlaks_get_reply got = teurlaks_get(core, key);
    WANT(got.status == TEURLAKS_OK && got.value.low == number && got.value.high == 7);
}

/* One word at a time, beside so many that stay on pages of their own. */
static void one_at_a_time(unsigned staying) {
    struct teurlaks_handle core = open_core(2);
    struct teurlaks_key stay[PAGES];
    unsigned ways = 0;
    for (unsigned number = 0; number < staying * SLOTS; number++) {
        struct teurlaks_key key = keep(&core, number, &ways);
        if (number % SLOTS == 0) stay[number / SLOTS] = key;
    }
    struct teurlaks_next_reply next = {0};
    while ((next = teurlaks_next(&core, next.key)).status == TEURLAKS_OK)
        if (next.key.slot != 0) WANT(teurlaks_free(&core, next.key) == TEURLAKS_OK);
    for (unsigned number = 0; number < 20000; number++) {
        struct teurlaks_key key = keep(&core, number, &ways);
        look(&core, key, number);
        WANT(teurlaks_free(&core, key) == TEURLAKS_OK);
        WANT(teurlaks_contains(&core, key) == TEURLAKS_NONE);
    }
    WANT(ways >= 2);
    for (unsigned page = 0; page < staying; page++) look(&core, stay[page], page * SLOTS);
    WANT(teurlaks_totals(&core).live == staying && teurlaks_totals(&core).pages <= PAGES);
    teurlaks_drop(&core);
}

/* What it answers, where it does nothing. */
static void answers(void) {
    struct teurlaks_handle core = {0};
    WANT(teurlaks_make_way(NULL, 0).status == TEURLAKS_NO_CORE);
    WANT(teurlaks_make_way(&core, 0).status == TEURLAKS_NO_CORE);
    core = open_core(2);
    WANT(teurlaks_make_way(&core, 2).status == TEURLAKS_CONFIG);
    WANT(teurlaks_make_way(&core, 0).status == TEURLAKS_OK);
    /* Of full pages none goes. */
    for (unsigned number = 0; number < PAGES * SLOTS; number++)
        WANT(put(&core, number).status == TEURLAKS_OK);
    struct teurlaks_forget_reply way = teurlaks_make_way(&core, 0);
    WANT(way.status == TEURLAKS_OK && way.count == 0);
    WANT(put(&core, 1).status == TEURLAKS_PAGES_SPENT && teurlaks_totals(&core).pages == PAGES);
    /* The pool has a page, and then a plan is open. */
    WANT(teurlaks_retire(&core, 0, 1).count == 1);
    way = teurlaks_make_way(&core, 0);
    WANT(way.status == TEURLAKS_OK && way.count == 0);
    WANT(teurlaks_mark(&core).status == TEURLAKS_OK);
    WANT(teurlaks_make_way(&core, 0).status == TEURLAKS_PLAN_OPEN);
    WANT(teurlaks_close(&core) == TEURLAKS_OK && teurlaks_adopt(&core, 0).status == TEURLAKS_OK);
    WANT(teurlaks_end(&core, 1) == TEURLAKS_OK);
    WANT(teurlaks_make_way(&core, 1).status == TEURLAKS_ENDED);
    WANT(teurlaks_totals(&core).live == PAGES * SLOTS);
    teurlaks_drop(&core);
}

/* Groups in which nothing is live are given up with their pages, and those of others stay. */
static void idle_pages(void) {
    struct teurlaks_handle core = open_core(1);
    struct teurlaks_key first = {0};
    for (unsigned number = 0; number < 3 * SLOTS; number++) {
        struct teurlaks_put_reply reply = put(&core, number);
        WANT(reply.status == TEURLAKS_OK);
        if (number == 0)
            first = reply.key;
        else
            WANT(teurlaks_free(&core, reply.key) == TEURLAKS_OK);
    }
    size_t pages = teurlaks_totals(&core).pages;
    struct teurlaks_forget_reply way = teurlaks_make_way(&core, 0);
    WANT(way.status == TEURLAKS_OK && way.count == pages - 1);
    WANT(teurlaks_totals(&core).pages == 1 && teurlaks_make_way(&core, 0).count == 0);
    look(&core, first, 0);
    teurlaks_drop(&core);
}

/* A way that is made with an allocation failing; whether one did. No key is lost, and once it is
 * made again all groups are back. */
static int failing_after(long allocations) {
    struct teurlaks_handle core = open_core(1);
    struct teurlaks_key stay[2];
    for (unsigned number = 0; number < PAGES * SLOTS; number++) {
        struct teurlaks_put_reply reply = put(&core, number);
        WANT(reply.status == TEURLAKS_OK);
        if (number == 0 || number == SLOTS)
            stay[number / SLOTS] = reply.key;
        else
            WANT(teurlaks_free(&core, reply.key) == TEURLAKS_OK);
    }
    before_failure = allocations;
    has_failed = 0;
    struct teurlaks_forget_reply way = teurlaks_make_way(&core, 0);
    before_failure = -1;
    WANT(way.status == TEURLAKS_OK || (has_failed && way.status == TEURLAKS_OUT_OF_MEMORY));
    /* Only if it says so may groups be left in the pool. */
    WANT(way.status != TEURLAKS_OK || teurlaks_adopt(&core, 0).status == TEURLAKS_NOTHING_TO_ADOPT);
    look(&core, stay[0], 0);
    look(&core, stay[1], SLOTS);
    while (teurlaks_adopt(&core, 0).status == TEURLAKS_OK) continue;
    WANT(teurlaks_make_way(&core, 0).status == TEURLAKS_OK);
    WANT(teurlaks_totals(&core).live == 2 && put(&core, 1).status == TEURLAKS_OK);
    teurlaks_drop(&core);
    return has_failed;
}

int main(void) {
    for (unsigned staying = 0; staying < PAGES; staying++) one_at_a_time(staying);
    answers();
    idle_pages();
    long runs = 0;
    while (failing_after(runs)) runs++;
    printf("worn slots made way, and with each of %ld allocations failing in turn\n", runs);
    return 0;
}
