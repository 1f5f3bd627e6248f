/* `worth DRAWS SEED`: what a largest plan is worth beside the search that Mesh makes (SplitMesher),
 * in pages. For pages of 16, 64 and 256 slots and for 5 to 50 percent occupied, 4,096 pages are
 * drawn, each slot by itself, and what is left of them after one, two and three rounds is printed,
 * the mean of so many draws:
 *
 *   slots, percent; pages with an object; SplitMesher: three numbers; halves: three numbers;
 *   sparser: three numbers
 *
 * - SplitMesher shuffles the pages, splits them in halves of its own, and pairs pages that fit.
 * - halves: a core of 64 shards of 64 pages, all of which go to the pool in each round, and half of
 *   which the shards adopt again, so that a mark sees halves at random, as SplitMesher does; then
 *   the shards adopt what the plan leaves.
 * - sparser: the same core, whose shards retire the sparser half of their pages in each round, as
 *   `compact` of Rust does.
 *
 * Pages with no object are trimmed before, and count in no column. At the end of each draw every
 * key finds its object. */
#include "../real/compaction.h"
#include "../real/split_mesher.h"
#include <stdio.h>
#include <stdlib.h>

enum { PAGES = 4096, ROUNDS = 3, SHARDS = 64, PAGES_OF_A_SHARD = 1024 };

static struct occupied drawn[PAGES];

/* What is left after each round. */
struct left {
    size_t pages[ROUNDS];
};

static void fail(const char *why) {
    fprintf(stderr, "worth: %s\n", why);
    exit(1);
}

static size_t draw_pages(unsigned slots, unsigned percent, struct random *random) {
    size_t with_an_object = 0;
    for (size_t page = 0; page < PAGES; page++) {
        drawn[page] = (struct occupied){{0}};
        for (unsigned slot = 0; slot < slots; slot++)
            if (random_below(random, 100) < percent) occupied_insert(&drawn[page], slot);
        with_an_object += occupied_count(&drawn[page]) != 0;
    }
    return with_an_object;
}

static int is_drawn(size_t page, unsigned slot) {
    return drawn[page].words[slot / 64] >> slot % 64 & 1;
}

static struct left by_split_mesher(unsigned slots, struct random *random) {
    static struct occupied pages[PAGES];
    struct left left;
    for (size_t page = 0; page < PAGES; page++) pages[page] = drawn[page];
    split_mesher_rounds(pages, PAGES, slots, random, ROUNDS, left.pages);
    return left;
}

/* A core whose pages have the slots that were drawn: shard s has so many pages in a row. The object
 * of each slot is its number in the whole. */
static void fill(struct shards *shards, struct teurlaks_key *keys, unsigned slots) {
    struct teurlaks_word words[16] = {{0, 0}};
    shards->core = (struct teurlaks_handle){0};
    if (teurlaks_new(&shards->core, shards->count, PAGES_OF_A_SHARD, 1, 1) != TEURLAKS_OK)
        fail("no core");
    for (size_t number = 0; number < (size_t)PAGES * slots; number++) {
        words[0].low = number;
        struct teurlaks_put_reply put = teurlaks_put_words(
            &shards->core, number / slots / (PAGES / shards->count), words, 256 / slots);
        if (put.status != TEURLAKS_OK) fail("no put");
        keys[number] = put.key;
    }
    for (size_t number = 0; number < (size_t)PAGES * slots; number++)
        if (!is_drawn(number / slots, number % slots)) teurlaks_free(&shards->core, keys[number]);
    trim_all(shards);
}

static void look_up(struct shards *shards, const struct teurlaks_key *keys, unsigned slots) {
    for (size_t number = 0; number < (size_t)PAGES * slots; number++) {
        struct teurlaks_word words[16];
        uint32_t status = teurlaks_get_words(&shards->core, keys[number], words, 16).status;
        if (!is_drawn(number / slots, number % slots)) {
            if (status != TEURLAKS_NONE) fail("a stale key finds an object");
        } else if (status != TEURLAKS_OK || words[0].low != number) {
            fail("a key does not find its object");
        }
    }
}

static struct left by_plans(unsigned slots, enum halving halving) {
    static struct teurlaks_key keys[PAGES * 256];
    struct shards shards = {.count = SHARDS};
    struct left left;
    fill(&shards, keys, slots);
    for (unsigned round = 0; round < ROUNDS; round++) {
        fold_half(&shards, halving);
        left.pages[round] = teurlaks_totals(&shards.core).pages;
    }
    look_up(&shards, keys, slots);
    teurlaks_drop(&shards.core);
    return left;
}

static void add(struct left *sum, struct left left) {
    for (unsigned round = 0; round < ROUNDS; round++) sum->pages[round] += left.pages[round];
}

static void print_means(struct left sum, size_t draws) {
    printf(";");
    for (unsigned round = 0; round < ROUNDS; round++)
        printf(" %zu", (sum.pages[round] + draws / 2) / draws);
}

static void measure(unsigned slots, unsigned percent, size_t draws, struct random *random) {
    size_t with_an_object = 0;
    struct left split = {{0}}, halves = {{0}}, sparser = {{0}};
    for (size_t draw = 0; draw < draws; draw++) {
        with_an_object += draw_pages(slots, percent, random);
        add(&split, by_split_mesher(slots, random));
        add(&halves, by_plans(slots, HIGHER_HEADS));
        add(&sparser, by_plans(slots, SPARSER_HALF));
    }
    printf("%u %u; %zu", slots, percent, (with_an_object + draws / 2) / draws);
    print_means(split, draws);
    print_means(halves, draws);
    print_means(sparser, draws);
    printf("\n");
    fflush(stdout);
}

int main(int argc, char **argv) {
    size_t draws = argc == 3 ? strtoul(argv[1], NULL, 10) : 0;
    if (draws == 0) {
        fprintf(stderr, "worth DRAWS SEED\n");
        return 2;
    }
    struct random random = {strtoull(argv[2], NULL, 10)};
    for (unsigned slots = 16; slots <= 256; slots *= 4)
        for (unsigned percent = 5; percent <= 50; percent += 5)
            measure(slots, percent, draws, &random);
    return 0;
}
