/* `cache STORE WHEN [SECONDS]`: a cache of values of 100 to 250 bytes whose working set grows,
 * shrinks and shifts, by four threads, and what the system counts as resident (VmRSS) each second.
 *
 * STORE is `core`, a core for each thread, or `malloc`, a block for each value. WHEN is `compact`,
 * for a core that is compacted in small parts between requests whenever that can be expected to
 * pay, or `never`. The keys are drawn by Zipf's law, the least recently used value goes when there
 * is no room, and every value that is found is compared with what was put. The requests are the
 * same in each run, and those of rust/examples/cache.rs.
 *
 * A core is used by one thread at a time, so each thread has one, with the keys that a hash gives
 * it. A seat of an arena that all threads share would stand in its place in struct values, and
 * nothing else would change.
 *
 * Build it with c/pages.c and the archive, with -pthread -lm. */
#define _GNU_SOURCE
#include "teurlaks.h"
#include <math.h>
#include <pthread.h>
#include <stdbool.h>
#include <stdio.h>
#include <stdlib.h>
#include <string.h>
#include <sys/mman.h>
#include <time.h>
#include <unistd.h>

enum {
    THREADS = 4,
    MOST_VALUES = 40000,
    BUCKETS = 1 << 16,
    KEYS = 1000000,
    REQUESTS_A_SECOND = 100000
};
enum { LEAST_BYTES = 100, MOST_BYTES = 250, SHARDS = 32, PAGES_OF_A_SHARD = 1024, SLOTS = 16 };
/* So many steps of a compaction come after each so many requests. */
enum { BUDGET = 64, REQUESTS_A_PART = 256 };

static void die(const char *why, unsigned status) {
    fprintf(stderr, "cache: %s: status %u\n", why, status);
    exit(1);
}

/* ---- The values of one thread ---- */

/* By which a value is found: a key of the core, or a block. */
union name {
    struct teurlaks_key key;
    void *block;
};

/* When a core is compacted: not at each look, if the last time hardly paid. */
struct compaction {
    bool is_under_way;
    /* How many pages it has given back, and of how many. */
    size_t gone, pages;
    /* After how many looks the next compaction may begin, and how many the last one that hardly
     * paid had to wait. */
    unsigned looks, pause;
};

struct values {
    bool in_core;
    struct teurlaks_handle core;
    uint32_t next_shard;
    struct compaction compaction;
};

static void values_open(struct values *values, bool in_core) {
    *values = (struct values){.in_core = in_core};
    if (!in_core) return;
    uint32_t status = teurlaks_new(&values->core, SHARDS, PAGES_OF_A_SHARD, 1, UINT32_MAX);
    if (status != TEURLAKS_OK) die("teurlaks_new", status);
}

/* The shards of a core take values in turn. */
static union name values_put(struct values *values, const void *bytes, size_t len) {
    if (!values->in_core) {
        void *block = malloc(len);
        if (!block) die("malloc", 0);
        return (union name){.block = memcpy(block, bytes, len)};
    }
    struct teurlaks_put_reply put = {.status = TEURLAKS_PAGES_SPENT};
    for (int tried = 0; tried < SHARDS && put.status == TEURLAKS_PAGES_SPENT; tried++) {
        values->next_shard = (values->next_shard + 1) % SHARDS;
        put = teurlaks_put_bytes(&values->core, values->next_shard, bytes, len);
    }
    if (put.status != TEURLAKS_OK) die("teurlaks_put_bytes", put.status);
    return (union name){.key = put.key};
}

static bool values_has(struct values *values, union name name, const void *bytes, size_t len) {
    unsigned char found[MOST_BYTES];
    if (!values->in_core) return !memcmp(name.block, bytes, len);
    return teurlaks_get_bytes(&values->core, name.key, found, len) == TEURLAKS_OK &&
           !memcmp(found, bytes, len);
}

static void values_remove(struct values *values, union name name) {
    if (values->in_core) {
        teurlaks_free(&values->core, name.key);
    } else {
        free(name.block);
    }
}

/* Whether a quarter of the pages could go, be the others as full as they can. */
static bool pays(const struct values *values) {
    struct teurlaks_totals_reply totals = teurlaks_totals(&values->core);
    size_t needed = (totals.live + SLOTS - 1) / SLOTS;
    return (totals.pages - needed) * 4 >= totals.pages && totals.pages > needed;
}

/* Whether a compaction is to begin. */
static bool begins(struct values *values) {
    struct compaction *at = &values->compaction;
    if (!pays(values)) return false;
    if (at->looks) {
        at->looks--;
        return false;
    }
    at->is_under_way = true;
    at->gone = 0;
    at->pages = teurlaks_totals(&values->core).pages;
    return true;
}

/* Takes so many steps of a compaction, or none if it would not pay. Every key stays valid in
 * between. After one that gave less than an eighth of the pages back the next waits for twice as
 * many looks as before. */
static void values_compact_within(struct values *values, unsigned budget) {
    struct compaction *at = &values->compaction;
    if (!at->is_under_way && !begins(values)) return;
    struct teurlaks_compact_reply compacted = teurlaks_compact_within(&values->core, budget);
    if (compacted.status != TEURLAKS_OK) die("teurlaks_compact_within", compacted.status);
    at->gone += compacted.pages;
    if (compacted.more) return;
    at->is_under_way = false;
    at->pause = at->gone * 8 >= at->pages ? 0 : at->pause < 32 ? 2 * at->pause + 1 : 63;
    at->looks = at->pause;
}

/* ---- What is asked ---- */

static uint64_t mix(uint64_t number) {
    uint64_t a = (number ^ number >> 30) * 0xbf58476d1ce4e5b9u;
    uint64_t b = (a ^ a >> 27) * 0x94d049bb133111ebu;
    return b ^ b >> 31;
}

/* A rank from 0 on, from a state that is drawn from: rank r comes in proportion to 1 / (r + 1), by
 * Zipf's law. */
static uint64_t draw_rank(uint64_t *state) {
    *state += 0x9e3779b97f4a7c15u;
    double uniform = (double)(mix(*state) >> 11) / (double)((uint64_t)1 << 53);
    return (uint64_t)pow(KEYS, uniform) - 1;
}

/* How many values a thread may keep in a second, and the key of rank 0. It takes twenty seconds
 * until all comes again, under other keys. */
static size_t room_of(unsigned second) {
    unsigned at = second % 20;
    unsigned percent = at <= 7    ? 30 + 10 * at
                       : at <= 11 ? 100
                       : at <= 16 ? 100 - 16 * (at - 11)
                                  : 20;
    return MOST_VALUES * percent / 100;
}

static uint64_t first_key_of(unsigned second) { return second / 20 * 80000 + second % 20 * 4000; }

/* The value of a key, which is the same whenever it is fetched. Answers how many bytes it has. */
static size_t fetch(uint64_t key, unsigned char *bytes) {
    memset(bytes, (unsigned char)key, MOST_BYTES);
    memcpy(bytes, &key, sizeof key);
    return LEAST_BYTES + mix(~key) % (MOST_BYTES - LEAST_BYTES + 1);
}

/* ---- The cache of one thread ---- */

/* A place in the order of use, and in the chain of its bucket. The one that was used last is next
 * to the place ENDS, which also ends each chain. */
struct place {
    uint64_t key;
    union name name;
    uint32_t earlier, later, chained;
};

enum { ENDS = 0 };

struct cache {
    struct values values;
    struct place places[MOST_VALUES + 1];
    uint32_t buckets[BUCKETS], spare[MOST_VALUES], spare_len, len;
    size_t bytes, wrong;
    double compacting_ms;
};

/* All of it is touched, so that what is measured later is that of the values. */
static struct cache *cache_new(void) {
    struct cache *cache = mmap(NULL, sizeof *cache, PROT_READ | PROT_WRITE,
                               MAP_PRIVATE | MAP_ANONYMOUS | MAP_POPULATE, -1, 0);
    if (cache == MAP_FAILED) die("mmap", 0);
    for (uint32_t place = MOST_VALUES; place > 0; place--) cache->spare[cache->spare_len++] = place;
    return cache;
}

static uint32_t *bucket_of(struct cache *cache, uint64_t key) {
    return &cache->buckets[mix(key) / THREADS % BUCKETS];
}

static void unlink_place(struct cache *cache, uint32_t place) {
    struct place *at = &cache->places[place];
    cache->places[at->earlier].later = at->later;
    cache->places[at->later].earlier = at->earlier;
}

static void link_last(struct cache *cache, uint32_t place) {
    uint32_t earlier = cache->places[ENDS].earlier;
    cache->places[place].earlier = earlier;
    cache->places[place].later = ENDS;
    cache->places[earlier].later = cache->places[ENDS].earlier = place;
}

static uint32_t find(struct cache *cache, uint64_t key) {
    uint32_t place = *bucket_of(cache, key);
    while (place != ENDS && cache->places[place].key != key) place = cache->places[place].chained;
    return place;
}

/* Lets the value go that was used least recently. */
static void evict(struct cache *cache) {
    unsigned char bytes[MOST_BYTES];
    uint32_t place = cache->places[ENDS].later;
    uint64_t key = cache->places[place].key;
    uint32_t *link = bucket_of(cache, key);
    while (*link != place) link = &cache->places[*link].chained;
    *link = cache->places[place].chained;
    unlink_place(cache, place);
    values_remove(&cache->values, cache->places[place].name);
    cache->spare[cache->spare_len++] = place;
    cache->bytes -= fetch(key, bytes);
    cache->len--;
}

static void request(struct cache *cache, uint64_t key, size_t room) {
    unsigned char bytes[MOST_BYTES];
    size_t len = fetch(key, bytes);
    uint32_t place = find(cache, key);
    if (place != ENDS) {
        cache->wrong += !values_has(&cache->values, cache->places[place].name, bytes, len);
        unlink_place(cache, place);
        link_last(cache, place);
        return;
    }
    while (cache->len >= room) evict(cache);
    uint32_t *bucket = bucket_of(cache, key);
    place = cache->spare[--cache->spare_len];
    cache->places[place].key = key;
    cache->places[place].name = values_put(&cache->values, bytes, len);
    cache->places[place].chained = *bucket;
    *bucket = place;
    link_last(cache, place);
    cache->bytes += len;
    cache->len++;
}

/* ---- The threads ---- */

static bool in_core, compacts;
static unsigned seconds;

/* The threads and the one that measures wait here for each other: when there is work to do, and
 * when what is resident has been read. */
static pthread_barrier_t meeting;

/* What a thread tells of a second. */
struct told {
    size_t values, bytes, wrong, pages;
    double serving_ms, compacting_ms;
};

static struct told told[THREADS];

static double thread_ms(void) {
    struct timespec now;
    clock_gettime(CLOCK_THREAD_CPUTIME_ID, &now);
    return now.tv_sec * 1e3 + now.tv_nsec / 1e6;
}

/* Between two requests now and then some steps of a compaction. */
static void tend(struct cache *cache) {
    double start = thread_ms();
    values_compact_within(&cache->values, BUDGET);
    cache->compacting_ms += thread_ms() - start;
}

/* The requests of a second, for the keys that a hash gives this thread. */
static void serve(struct cache *cache, unsigned second, unsigned thread, uint64_t *state) {
    size_t room = room_of(second);
    while (cache->len > room) evict(cache);
    for (int served = 0; served < REQUESTS_A_SECOND; served++) {
        uint64_t key;
        do key = first_key_of(second) + draw_rank(state);
        while (mix(key) % THREADS != thread);
        request(cache, key, room);
        if (in_core && compacts && served % REQUESTS_A_PART == 0) tend(cache);
    }
}

static void meet(void) { pthread_barrier_wait(&meeting); }

static void *work(void *at) {
    struct told *mine = at;
    unsigned thread = mine - told;
    struct cache *cache = cache_new();
    uint64_t state = thread;
    meet(), meet();
    values_open(&cache->values, in_core);
    for (unsigned second = 0; second < seconds; second++) {
        double start = thread_ms();
        cache->compacting_ms = 0;
        serve(cache, second, thread, &state);
        *mine = (struct told){.values = cache->len,
                              .bytes = cache->bytes,
                              .wrong = cache->wrong,
                              .serving_ms = thread_ms() - start};
        meet(), meet();
        /* There are no requests in the rest of the second: what is under way is ended. */
        while (in_core && compacts && cache->values.compaction.is_under_way) tend(cache);
        mine->serving_ms -= cache->compacting_ms;
        mine->compacting_ms = cache->compacting_ms;
        mine->pages = in_core ? teurlaks_totals(&cache->values.core).pages : 0;
        meet(), meet();
    }
    while (cache->len) evict(cache);
    if (in_core) teurlaks_drop(&cache->values.core);
    munmap(cache, sizeof *cache);
    return NULL;
}

/* What the system counts as resident, in kilobytes. */
static long resident(void) {
    char line[256];
    long kilobytes = 0;
    FILE *file = fopen("/proc/self/status", "r");
    while (file && fgets(line, sizeof line, file))
        if (sscanf(line, "VmRSS: %ld", &kilobytes) == 1) break;
    if (file) fclose(file);
    return kilobytes;
}

/* A line for each second: the values and their bytes, in kilobytes what is resident beyond what the
 * program took at first, before and after compaction, the pages then, and the milliseconds of a
 * processor that requests and compactions took, of all threads together. Answers how many values
 * were wrong. */
static size_t measure(void) {
    struct told sum = {0};
    meet();
    long base = resident();
    meet();
    puts("second values kilobytes resident compacted pages serving-ms compacting-ms");
    for (unsigned second = 0; second < seconds; second++) {
        meet();
        long before = resident() - base;
        meet(), meet();
        long after = resident() - base;
        sum = (struct told){0};
        for (unsigned thread = 0; thread < THREADS; thread++) {
            sum.values += told[thread].values, sum.bytes += told[thread].bytes;
            sum.wrong += told[thread].wrong, sum.pages += told[thread].pages;
            sum.serving_ms += told[thread].serving_ms,
                sum.compacting_ms += told[thread].compacting_ms;
        }
        meet();
        printf("%u %zu %zu %ld %ld %zu %.0f %.0f\n", second, sum.values, sum.bytes / 1024, before,
               after, sum.pages, sum.serving_ms, sum.compacting_ms);
        fflush(stdout);
        if (second + 1 < seconds) sleep(1);
    }
    return sum.wrong;
}

int main(int argc, char **argv) {
    seconds = argc == 4 ? strtoul(argv[3], NULL, 10) : 20;
    in_core = argc >= 3 && !strcmp(argv[1], "core");
    compacts = argc >= 3 && !strcmp(argv[2], "compact");
    if (argc < 3 || argc > 4 || !seconds || (!in_core && strcmp(argv[1], "malloc")) ||
        (!compacts && strcmp(argv[2], "never"))) {
        fprintf(stderr, "cache core|malloc compact|never [SECONDS]\n");
        return 2;
    }
    pthread_t threads[THREADS];
    if (pthread_barrier_init(&meeting, NULL, THREADS + 1)) die("pthread_barrier_init", 0);
    for (unsigned thread = 0; thread < THREADS; thread++)
        if (pthread_create(&threads[thread], NULL, work, &told[thread])) die("pthread_create", 0);
    size_t wrong = measure();
    for (unsigned thread = 0; thread < THREADS; thread++) pthread_join(threads[thread], NULL);
    printf("%zu values were wrong\n", wrong);
    return wrong != 0;
}
