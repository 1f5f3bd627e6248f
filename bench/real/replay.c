/* `replay STORE WHEN RECORDING CHECKPOINT..`: replays what a process asked its allocator, of up to
 * 256 bytes, over a store: `core`, `split` or `malloc` (stores.h). Each checkpoint is a number of
 * records, in ascending order. WHEN is
 *
 *   never     nothing is given back
 *   compact   at each checkpoint the store gives back what it can
 *   compact-sparse   the same, but only of those pages, by the size of their objects, of whose
 *             slots less than two thirds hold one; of `core` those of which a quarter could go
 *
 * and of `core` alone
 *
 *   compact-halves, compact-halves-sparse   as these, of slots less than two thirds, by rounds of
 *             halves at random, in place of those that the library chooses
 *   rounds    at each checkpoint it is told what folds would give back, in a process that is forked
 *             there, and beside it what the search of Mesh would, on the same pages; the replay
 *             itself goes on with nothing folded
 *   rounds-64, rounds-256   as rounds, of objects of 65 to 256 bytes alone, each cut off at 64 or
 *   16 bytes, so that a page has so many slots
 *             for them, as it has in a `Slab` of Rust for values of more and of fewer than 128
 * bytes
 *
 * A line of JSON tells what was read, one tells each checkpoint, and one the processor time of all
 * steps and of all compactions. At each checkpoint each live object is compared with what was put,
 * which no time counts. Kilobytes are those of VmRSS beyond what the program took before the store,
 * after the allocator was asked to hand back what it keeps free. */
#define _DEFAULT_SOURCE
#include "allocator.h"
#include "core_store.h"
#include "stores.h"
#include <stdio.h>
#include <stdlib.h>
#include <string.h>
#include <sys/wait.h>
#include <time.h>
#include <unistd.h>

enum { ROUNDS = 3 };
enum when { NEVER, COMPACT, BY_ROUNDS };

static struct steps steps;
static const struct store *store;
static enum when when;
unsigned compacted_below_percent;

/* Of each object that is live its bytes, else 0; and which put it is of. */
static uint32_t *bytes_of_object;
static uint64_t *put_of_object;
static uint64_t puts_made;
static size_t live, live_bytes;

static long base;
static double steps_ms, compactions_ms;

static void fail(const char *why) {
    fprintf(stderr, "replay: %s\n", why);
    exit(1);
}

static double processor_ms(void) {
    struct timespec now;
    clock_gettime(CLOCK_PROCESS_CPUTIME_ID, &now);
    return now.tv_sec * 1e3 + now.tv_nsec / 1e6;
}

static long resident(void) {
    allocator_give_back();
    return resident_kilobytes() - base;
}

/* What a put keeps: its own number, as far as there is room, and then one byte of it. */
static void content(uint64_t put, uint32_t len, unsigned char *bytes) {
    memset(bytes, (unsigned char)put, len);
    memcpy(bytes, &put, len < sizeof put ? len : sizeof put);
}

static void take(const struct step *step) {
    unsigned char bytes[MOST_BYTES];
    uint32_t object = step->object;
    if (step->kind == STEP_FREE) {
        store->free(object, bytes_of_object[object]);
        live--;
        live_bytes -= bytes_of_object[object];
        bytes_of_object[object] = 0;
        return;
    }
    content(++puts_made, step->bytes, bytes);
    store->put(object, bytes, step->bytes);
    put_of_object[object] = puts_made;
    bytes_of_object[object] = step->bytes;
    live++;
    live_bytes += step->bytes;
}

static void compare_all(void) {
    for (size_t object = 0; object < steps.objects; object++) {
        unsigned char found[MOST_BYTES], wanted[MOST_BYTES];
        uint32_t len = bytes_of_object[object];
        if (!len) continue;
        content(put_of_object[object], len, wanted);
        if (!store->get(object, found, len) || memcmp(found, wanted, len))
            fail("an object is not what was put");
    }
}

static void print_pages(const char *name, struct pages pages) {
    printf(", \"%s\": [%zu", name, pages.of_class[0]);
    for (unsigned class = 1; class < CLASSES; class ++) printf(", %zu", pages.of_class[class]);
    printf("]");
}

/* In a process of its own: the pages after a trim, after each of some rounds, and after all that
 * pay, and how much less is resident then. */
static void fold_in_a_fork(const char *prefix, enum halving halving) {
    fflush(stdout);
    pid_t child = fork();
    if (child < 0) fail("no fork");
    if (child) {
        int status;
        waitpid(child, &status, 0);
        if (status) fail("the folds of a fork failed");
        return;
    }
    long before = resident();
    char name[32];
    core_store_halving = halving;
    core_store_trim();
    for (int round = 0; round < ROUNDS; round++) {
        core_store_fold();
        snprintf(name, sizeof name, "%s_%d", prefix, round + 1);
        print_pages(name, store->pages());
    }
    store->compact();
    print_pages(prefix, store->pages());
    printf(", \"%s_resident_gone\": %ld", prefix, before - resident());
    compare_all();
    fflush(stdout);
    _exit(0);
}

static size_t with_an_object(const struct occupied *pages, size_t count) {
    size_t found = 0;
    for (size_t page = 0; page < count; page++) found += occupied_count(&pages[page]) != 0;
    return found;
}

/* How many pages have an object, and what SplitMesher leaves of them after each of some rounds. */
static void search_beside(void) {
    static struct random random = {20261127};
    struct pages occupied, left[ROUNDS];
    for (unsigned class = 0; class < CLASSES; class ++) {
        size_t count, of_rounds[ROUNDS];
        struct occupied *pages = core_store_pages_of(class, bytes_of_object, steps.objects, &count);
        occupied.of_class[class] = with_an_object(pages, count);
        split_mesher_rounds(pages, count, 4096 / bytes_of_class(class), &random, ROUNDS, of_rounds);
        for (int round = 0; round < ROUNDS; round++) left[round].of_class[class] = of_rounds[round];
        free(pages);
    }
    print_pages("occupied", occupied);
    for (int round = 0; round < ROUNDS; round++) {
        char name[16];
        snprintf(name, sizeof name, "split_%d", round + 1);
        print_pages(name, left[round]);
    }
}

static void compact_store(void) {
    double start = processor_ms();
    store->compact();
    double took = processor_ms() - start;
    compactions_ms += took;
    print_pages("compacted", store->pages());
    printf(", \"compacted_resident\": %ld, \"ms\": %.2f", resident(), took);
}

static void check_in(size_t number) {
    printf("{\"checkpoint\": %zu, \"live\": %zu, \"bytes\": %zu", number, live, live_bytes);
    print_pages("pages", store->pages());
    printf(", \"resident\": %ld", resident());
    if (when == COMPACT) compact_store();
    if (when == BY_ROUNDS) {
        search_beside();
        fold_in_a_fork("sparser", SPARSER_HALF);
        fold_in_a_fork("halves", HIGHER_HEADS);
    }
    printf("}\n");
    fflush(stdout);
    compare_all();
}

static void replay(void) {
    size_t taken = 0;
    for (size_t number = 0; number < steps.checkpoints_len; number++) {
        double start = processor_ms();
        for (; taken < steps.checkpoints[number]; taken++) take(&steps.all[taken]);
        steps_ms += processor_ms() - start;
        check_in(number + 1);
    }
}

static const struct store *store_of(const char *name) {
    const struct store *all[] = {&core_store, &split_store, &malloc_store};
    for (size_t i = 0; i < sizeof all / sizeof all[0]; i++)
        if (!strcmp(all[i]->name, name)) return all[i];
    fail("there is no such store");
    return NULL;
}

/* The words that a replay may be asked by, and what each says. */
struct way {
    const char *name;
    enum when when;
    int of_core;
    enum halving halving;
    unsigned below_percent;
    struct selection selection;
};

static const struct way ways[] = {
    {"never", NEVER, 0, SPARSER_HALF, 101, {0, MOST_BYTES}},
    {"compact", COMPACT, 0, SPARSER_HALF, 101, {0, MOST_BYTES}},
    {"compact-sparse", COMPACT, 0, SPARSER_HALF, 66, {0, MOST_BYTES}},
    {"compact-halves", COMPACT, 1, HIGHER_HEADS, 101, {0, MOST_BYTES}},
    {"compact-halves-sparse", COMPACT, 1, HIGHER_HEADS, 66, {0, MOST_BYTES}},
    {"rounds", BY_ROUNDS, 1, SPARSER_HALF, 101, {0, MOST_BYTES}},
    {"rounds-64", BY_ROUNDS, 1, SPARSER_HALF, 101, {65, 64}},
    {"rounds-256", BY_ROUNDS, 1, SPARSER_HALF, 101, {65, 16}},
};

static const struct way *way_of(const char *name) {
    for (size_t i = 0; i < sizeof ways / sizeof ways[0]; i++)
        if (!strcmp(ways[i].name, name) && (!ways[i].of_core || store == &core_store))
            return &ways[i];
    fail("there is no such way to compact this store");
    return NULL;
}

int main(int argc, char **argv) {
    if (argc < 5) {
        fprintf(stderr, "replay STORE WHEN RECORDING CHECKPOINT..\n");
        return 2;
    }
    store = store_of(argv[1]);
    const struct way *way = way_of(argv[2]);
    when = way->when;
    core_store_halving = way->halving;
    compacted_below_percent = way->below_percent;
    size_t checkpoints[64], checkpoints_len = 0;
    for (int word = 4; word < argc && checkpoints_len < 64; word++)
        checkpoints[checkpoints_len++] = strtoull(argv[word], NULL, 10);
    steps = load_steps(argv[3], way->selection, checkpoints, checkpoints_len);
    bytes_of_object = touched_memory(steps.objects, sizeof *bytes_of_object);
    put_of_object = touched_memory(steps.objects, sizeof *put_of_object);
    printf("{\"store\": \"%s\", \"when\": \"%s\", \"records\": %zu, \"of_others\": %zu, "
           "\"too_large\": %zu, \"unknown\": %zu, \"steps\": %zu}\n",
           argv[1], argv[2], steps.records, steps.of_others, steps.too_large, steps.unknown,
           steps.count);
    void *keys = touched_memory(steps.objects, store->key_bytes);
    base = resident();
    store->open(&steps, keys);
    replay();
    printf("{\"steps_ms\": %.1f, \"compactions_ms\": %.1f}\n", steps_ms, compactions_ms);
    return 0;
}
