#include "core_store.h"
#include <stdio.h>
#include <stdlib.h>

enum { MOST_SHARDS = 64, PAGES_OF_A_SHARD = 1024, GENERATIONS = 1 << 30 };

/* The share that Policy::default of the crate `teurlaks` names. */
enum { LEAST_PERCENT = 25 };

enum halving core_store_halving = SPARSER_HALF;

static struct shards cores[CLASSES];
static uint32_t next_shard[CLASSES];
static struct teurlaks_key *keys;

static void fail(const char *call, uint32_t status) {
    fprintf(stderr, "replay: %s: status %u\n", call, (unsigned)status);
    exit(1);
}

/* Shards for three times the pages that the objects of the class need at most: a page that is
 * folded is never opened again, and where objects are freed unevenly there are more. */
static uint32_t shards_for(const struct steps *steps, unsigned class) {
    size_t slots = 4096 / bytes_of_class(class);
    size_t shards = 3 * steps->most_live[class] / slots / PAGES_OF_A_SHARD + 1;
    return shards < MOST_SHARDS ? shards : MOST_SHARDS;
}

static void open_cores(const struct steps *steps, void *room) {
    keys = room;
    for (unsigned class = 0; class < CLASSES; class ++) {
        cores[class].count = shards_for(steps, class);
        uint32_t status =
            teurlaks_new(&cores[class].core, cores[class].count, PAGES_OF_A_SHARD, 1, GENERATIONS);
        if (status != TEURLAKS_OK) fail("teurlaks_new", status);
    }
}

/* The shards take objects in turn, so that their pages are alike; one that is full is passed
 * over. */
static void put(uint32_t object, const void *bytes, uint32_t len) {
    unsigned class = class_of(len);
    struct shards *shards = &cores[class];
    struct teurlaks_put_reply reply = {.status = TEURLAKS_PAGES_SPENT};
    for (uint32_t asked = 0; asked < shards->count && reply.status == TEURLAKS_PAGES_SPENT;
         asked++) {
        next_shard[class] = (next_shard[class] + 1) % shards->count;
        reply = teurlaks_put_bytes(&shards->core, next_shard[class], bytes, len);
    }
    if (reply.status != TEURLAKS_OK) fail("teurlaks_put_words", reply.status);
    keys[object] = reply.key;
}

static void free_object(uint32_t object, uint32_t len) {
    uint32_t status = teurlaks_free(&cores[class_of(len)].core, keys[object]);
    if (status != TEURLAKS_OK) fail("teurlaks_free", status);
}

static int get(uint32_t object, void *bytes, uint32_t len) {
    return teurlaks_get_bytes(&cores[class_of(len)].core, keys[object], bytes, len) == TEURLAKS_OK;
}

static void compact_cores(void) {
    for (unsigned class = 0; class < CLASSES; class ++) {
        struct teurlaks_totals_reply totals = teurlaks_totals(&cores[class].core);
        if (core_store_halving == SPARSER_HALF) {
            int always = compacted_below_percent > 100;
            if (always) cores[class].stay = 0;
            compact_if_pays(&cores[class], 4096 / bytes_of_class(class),
                            always ? 0 : LEAST_PERCENT);
        } else if (is_sparse(totals.live, totals.pages, class)) {
            compact(&cores[class], core_store_halving);
        }
    }
}

static struct pages pages(void) {
    struct pages pages;
    for (unsigned class = 0; class < CLASSES; class ++)
        pages.of_class[class] = teurlaks_totals(&cores[class].core).pages;
    return pages;
}

const struct store core_store = {"core",      sizeof *keys, open_cores,    put,
                                 free_object, get,          compact_cores, pages};

void core_store_trim(void) {
    for (unsigned class = 0; class < CLASSES; class ++) trim_all(&cores[class]);
}

void core_store_fold(void) {
    for (unsigned class = 0; class < CLASSES; class ++)
        fold_half(&cores[class], core_store_halving);
}

struct occupied *core_store_pages_of(unsigned class, const uint32_t *bytes_of_object,
                                     size_t objects, size_t *count) {
    *count = (size_t)cores[class].count * PAGES_OF_A_SHARD;
    struct occupied *occupied = calloc(*count, sizeof *occupied);
    if (!occupied) fail("calloc", 0);
    for (size_t object = 0; object < objects; object++) {
        if (!bytes_of_object[object] || class_of(bytes_of_object[object]) != class) continue;
        struct teurlaks_key key = keys[object];
        occupied_insert(&occupied[(size_t)key.shard * PAGES_OF_A_SHARD + key.serial], key.slot);
    }
    return occupied;
}
