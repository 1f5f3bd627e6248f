/* Random calls of the C library for as long as told, beside a plain map of keys: `soak SECONDS
 * SEED`. One core lives after another, each of other numbers, under budgets of memory that change;
 * each call answers as the map does, a refused call has changed nothing and succeeds with memory,
 * and at its end a core has just the live keys of the map. The seed is printed at once, and what it
 * draws does not depend on the time, but for where it ends. Link it with c/pages.c and with --wrap
 * for rattle_alloc and rattle_realloc. */
#include "common.h"
#include "teurlaks.h"

#include <inttypes.h>
#include <stdbool.h>
#include <string.h>
#include <time.h>

enum { MOST_KEYS = 1 << 16, MOST_STALE = 4096, MOST_WORDS = 16, MOST_SHARDS = 12, MOST_PAGES = 24 };
enum { CALLS_OF_A_CORE = 200000, CALLS_OF_A_BUDGET = 2048, SECONDS_OF_A_LINE = 30 };

/* What an allocation answers: see c/pages.c. */
struct got {
    uint8_t ok;
    void *at;
};

struct got __real_rattle_alloc(size_t size, size_t least);
struct got __real_rattle_realloc(void *at, size_t old, size_t size, size_t least);
struct got __wrap_rattle_alloc(size_t size, size_t least);
struct got __wrap_rattle_realloc(void *at, size_t old, size_t size, size_t least);

static uint64_t seed;
static struct teurlaks_handle core;
static uint32_t shards;

/* Whether a call may be refused memory, and how many bytes it may still have. */
static bool has_budget;
static size_t budget;

static struct {
    uint64_t calls, refused, wanted, puts, sets, frees, cores, ends, retired, trimmed, adopted,
        marks, folds, emptied;
} counts;

static void say_where(void) { printf("soak: seed %" PRIu64 ", call %" PRIu64, seed, counts.calls); }

static bool is_refused(size_t size) {
    if (!has_budget) return false;
    if (size > budget) {
        counts.refused++;
        return true;
    }
    budget -= size;
    return false;
}

static uint8_t nothing[16];

struct got __wrap_rattle_alloc(size_t size, size_t least) {
    return is_refused(size) ? (struct got){0, nothing} : __real_rattle_alloc(size, least);
}

struct got __wrap_rattle_realloc(void *at, size_t old, size_t size, size_t least) {
    return is_refused(size) ? (struct got){0, nothing}
                            : __real_rattle_realloc(at, old, size, least);
}

/* Makes the call within the budget, and once more without where memory was refused it: then nothing
 * has changed. */
#define CALL(reply, status, call)                                                                  \
    do {                                                                                           \
        struct teurlaks_totals_reply before = teurlaks_totals(&core);                              \
        uint64_t refused = counts.refused;                                                         \
        has_budget = true;                                                                         \
        reply = call;                                                                              \
        has_budget = false;                                                                        \
        counts.calls++;                                                                            \
        if ((status) == TEURLAKS_OUT_OF_MEMORY) {                                                  \
            struct teurlaks_totals_reply after = teurlaks_totals(&core);                           \
            WANT(counts.refused > refused);                                                        \
            WANT(after.pages == before.pages && after.live == before.live);                        \
            look_anywhere();                                                                       \
            counts.wanted++;                                                                       \
            reply = call;                                                                          \
            WANT((status) != TEURLAKS_OUT_OF_MEMORY);                                              \
        }                                                                                          \
    } while (0)

/* The plain map: the live keys, each with how many words its object has and what tells them; and
 * keys that were freed. */
struct held {
    struct teurlaks_key key;
    size_t len;
    uint64_t value;
};

static struct held live[MOST_KEYS];
static size_t live_count;
static struct teurlaks_key stale[MOST_STALE];
static uint64_t stale_count;

static size_t len_of_a_class(void) { return draw(2) ? 1 : 1 + draw(MOST_WORDS); }

static void write_words(struct teurlaks_word *words, size_t len, uint64_t value) {
    for (size_t at = 0; at < len; at++) words[at] = (struct teurlaks_word){value ^ at, ~value};
}

static void look(const struct held *held) {
    struct teurlaks_word found[MOST_WORDS], wanted[MOST_WORDS];
    struct teurlaks_words_reply reply = teurlaks_get_words(&core, held->key, found, MOST_WORDS);
    counts.calls++;
    write_words(wanted, held->len, held->value);
    WANT(reply.status == TEURLAKS_OK && reply.len == held->len);
    WANT(memcmp(found, wanted, held->len * sizeof *found) == 0);
}

static void look_anywhere(void) {
    if (live_count > 0) look(&live[draw(live_count)]);
}

static void put(void) {
    struct teurlaks_word words[MOST_WORDS];
    struct teurlaks_put_reply reply;
    struct held held = {.len = len_of_a_class(), .value = draw(UINT64_MAX)};
    uint32_t shard = (uint32_t)draw(shards + 1);
    if (live_count == MOST_KEYS) return;
    write_words(words, held.len, held.value);
    CALL(reply, reply.status, teurlaks_put_words(&core, shard, words, held.len));
    if (reply.status == TEURLAKS_OK) {
        WANT(shard < shards && reply.key.shard < shards);
        held.key = reply.key;
        live[live_count++] = held;
        counts.puts++;
    } else {
        WANT(reply.status == TEURLAKS_PAGES_SPENT || reply.status == TEURLAKS_ENDED ||
             reply.status == TEURLAKS_CONFIG);
    }
}

static void set(struct held *held) {
    struct teurlaks_word words[MOST_WORDS];
    uint64_t value = draw(UINT64_MAX);
    size_t len = len_of_a_class();
    uint32_t status;
    write_words(words, len, value);
    CALL(status, status, teurlaks_set_words(&core, held->key, words, len));
    WANT(status == (len == held->len ? TEURLAKS_OK : TEURLAKS_NONE));
    if (status == TEURLAKS_OK) held->value = value;
    look(held);
    counts.sets++;
}

static void free_one(struct held *held) {
    look(held);
    counts.calls++;
    WANT(teurlaks_free(&core, held->key) == TEURLAKS_OK);
    stale[stale_count++ % MOST_STALE] = held->key;
    *held = live[--live_count];
    counts.frees++;
}

/* No call finds a key that was freed. */
static void use_stale(void) {
    struct teurlaks_word words[MOST_WORDS] = {{0, 0}};
    struct teurlaks_key key;
    if (stale_count == 0) return;
    key = stale[draw(stale_count < MOST_STALE ? stale_count : MOST_STALE)];
    counts.calls += 3;
    WANT(teurlaks_get_words(&core, key, words, MOST_WORDS).status == TEURLAKS_NONE);
    WANT(teurlaks_set_words(&core, key, words, len_of_a_class()) == TEURLAKS_NONE);
    WANT(teurlaks_free(&core, key) == TEURLAKS_NONE);
}

/* A key of any numbers is found where the map has it, and nowhere else. */
static void use_forged(void) {
    struct teurlaks_key key = {.serial = (uint32_t)draw(4),
                               .generation = (uint32_t)draw(4),
                               .shard = (uint8_t)draw(256),
                               .slot = (uint8_t)draw(256)};
    struct teurlaks_word words[MOST_WORDS];
    bool is_live = false;
    for (size_t at = 0; at < live_count && !is_live; at++)
        is_live = memcmp(&live[at].key, &key, sizeof key) == 0;
    counts.calls++;
    WANT(teurlaks_get_words(&core, key, words, MOST_WORDS).status ==
         (is_live ? TEURLAKS_OK : TEURLAKS_NONE));
}

static void end(void) {
    uint32_t status;
    CALL(status, status, teurlaks_end(&core, (uint32_t)draw(shards)));
    WANT(status == TEURLAKS_OK || status == TEURLAKS_ENDED || status == TEURLAKS_PLAN_OPEN);
    counts.ends += status == TEURLAKS_OK;
}

static void retire(void) {
    struct teurlaks_retire_reply reply;
    uint32_t shard = (uint32_t)draw(shards);
    size_t most = draw(4);
    CALL(reply, reply.status, teurlaks_retire(&core, shard, most));
    WANT(reply.status == TEURLAKS_OK || reply.status == TEURLAKS_ENDED ||
         reply.status == TEURLAKS_PLAN_OPEN);
    WANT(reply.count <= most);
    counts.retired += reply.count;
}

static void trim(void) {
    size_t pages = teurlaks_totals(&core).pages;
    struct teurlaks_trim_reply reply = teurlaks_trim(&core, (uint32_t)draw(shards));
    counts.calls++;
    WANT(reply.status == TEURLAKS_OK && teurlaks_totals(&core).pages == pages - reply.count);
    counts.trimmed += reply.count;
}

static void adopt(void) {
    struct teurlaks_adopt_reply reply;
    CALL(reply, reply.status, teurlaks_adopt(&core, (uint32_t)draw(shards)));
    WANT(reply.status == TEURLAKS_OK || reply.status == TEURLAKS_PAGES_SPENT ||
         reply.status == TEURLAKS_ENDED || reply.status == TEURLAKS_PLAN_OPEN ||
         reply.status == TEURLAKS_NOTHING_TO_ADOPT);
    counts.adopted += reply.status == TEURLAKS_OK;
}

static void mark(void) {
    struct teurlaks_mark_reply reply;
    CALL(reply, reply.status, teurlaks_mark(&core));
    WANT(reply.status == TEURLAKS_OK || reply.status == TEURLAKS_PLAN_OPEN);
    WANT(reply.folds <= reply.abandoned && reply.folds <= reply.owned);
    counts.marks += reply.status == TEURLAKS_OK;
}

static void step(void) {
    struct teurlaks_step_reply reply;
    size_t pages = teurlaks_totals(&core).pages;
    CALL(reply, reply.status, teurlaks_step(&core));
    WANT(reply.status == TEURLAKS_OK || reply.status == TEURLAKS_EMPTIED ||
         reply.status == TEURLAKS_NO_PAIR_LEFT || reply.status == TEURLAKS_NO_PLAN);
    WANT(teurlaks_totals(&core).pages == pages - (reply.status == TEURLAKS_OK));
    counts.folds += reply.status == TEURLAKS_OK;
    counts.emptied += reply.status == TEURLAKS_EMPTIED;
}

static void close_plan(void) {
    uint32_t status = teurlaks_close(&core);
    counts.calls++;
    WANT(status == TEURLAKS_OK || status == TEURLAKS_NO_PLAN);
}

/* A call on a key: more puts than frees while the map has fewer keys than wanted. */
static void work(size_t wanted) {
    uint64_t kind = draw(16);
    if (kind < (live_count < wanted ? 8u : 3u) || live_count == 0) {
        put();
    } else if (kind < 11) {
        free_one(&live[draw(live_count)]);
    } else if (kind < 13) {
        set(&live[draw(live_count)]);
    } else if (kind == 13) {
        use_stale();
    } else {
        look_anywhere();
    }
}

/* A call on groups, or now and then on a forged key. */
static void move(void) {
    uint64_t kind = draw(64);
    if (kind == 0 && draw(8) == 0)
        end();
    else if (kind < 3)
        retire();
    else if (kind < 5)
        trim();
    else if (kind < 7)
        adopt();
    else if (kind < 11)
        mark();
    else if (kind < 12)
        close_plan();
    else if (kind < 13)
        use_forged();
    else
        step();
}

/* From nothing to all that may be asked for. */
static void change_budget(void) {
    static const size_t budgets[] = {SIZE_MAX, SIZE_MAX, 1 << 20, 1 << 16, 1 << 13, 4096, 256, 0};
    budget = budgets[draw(sizeof budgets / sizeof *budgets)];
}

static int is_before(const void *a, const void *b) {
    const struct teurlaks_key *k = &((const struct held *)a)->key,
                              *l = &((const struct held *)b)->key;
    if (k->shard != l->shard) return k->shard < l->shard ? -1 : 1;
    if (k->serial != l->serial) return k->serial < l->serial ? -1 : 1;
    return k->slot < l->slot ? -1 : k->slot > l->slot;
}

/* The walk over the live keys gives those of the map, in order; then each is freed, and nothing is
 * left. */
static void settle(void) {
    struct teurlaks_next_reply next = {TEURLAKS_OK, {0, 0, 0, 0, 0}};
    size_t at = 0;
    qsort(live, live_count, sizeof *live, is_before);
    WANT(teurlaks_totals(&core).live == live_count);
    while ((next = teurlaks_next(&core, next.key)).status == TEURLAKS_OK) {
        WANT(at < live_count && memcmp(&next.key, &live[at].key, sizeof next.key) == 0);
        look(&live[at++]);
    }
    WANT(at == live_count);
    while (live_count > 0) free_one(&live[live_count - 1]);
    WANT(teurlaks_totals(&core).live == 0);
    stale_count = 0;
}

static void tell(time_t seconds) {
    printf("soak: %lld s: %" PRIu64 " calls, %" PRIu64 " of which wanted memory, %" PRIu64
           " growths refused; %" PRIu64 " cores, %" PRIu64 " puts, %" PRIu64 " sets, %" PRIu64
           " frees, %" PRIu64 " ends, %" PRIu64 " groups retired, %" PRIu64
           " pages trimmed, %" PRIu64 " groups adopted, %" PRIu64 " marks, %" PRIu64
           " folds, %" PRIu64 " pairs emptied\n",
           (long long)seconds, counts.calls, counts.wanted, counts.refused, counts.cores,
           counts.puts, counts.sets, counts.frees, counts.ends, counts.retired, counts.trimmed,
           counts.adopted, counts.marks, counts.folds, counts.emptied);
    fflush(stdout);
}

int main(int count, char **words) {
    time_t begun = time(NULL), told = begun, seconds = count > 1 ? atol(words[1]) : 60;
    seed = count > 2 ? strtoull(words[2], NULL, 10) : (uint64_t)begun;
    drawn = seed;
    printf("soak: seed %" PRIu64 ", %lld seconds\n", seed, (long long)seconds);
    fflush(stdout);
    while (time(NULL) - begun < seconds) {
        uint32_t pages = (uint32_t)(1 + draw(MOST_PAGES)), gens = draw(3) ? 1000000 : 3;
        size_t wanted = 0;
        shards = (uint32_t)(1 + draw(MOST_SHARDS));
        WANT(teurlaks_new(&core, shards, pages, 1, gens) == TEURLAKS_OK);
        for (long call = 0; call < CALLS_OF_A_CORE && time(NULL) - begun < seconds; call++) {
            if (call % CALLS_OF_A_BUDGET == 0) {
                change_budget();
                wanted = draw(shards * pages * 200);
            }
            work(wanted);
            if (call % 8 == 0) move();
        }
        settle();
        teurlaks_drop(&core);
        counts.cores++;
        if (time(NULL) - told >= SECONDS_OF_A_LINE) tell((told = time(NULL)) - begun);
    }
    tell(time(NULL) - begun);
    return 0;
}
