/* What different divisions of the same pages are worth, in pages that are left.
 *
 *   divisions drawn SLOTS PERCENT PAGES SEED     prints pages that are drawn, each slot by itself
 *   divisions recorded RECORDING CLASS RECORDS   prints those of a recorded program after so many
 *                                                records, of class 0 to 15, with nothing folded
 *   divisions left SLOTS SEED                    reads such pages, and prints what is left of them
 *
 * A page is a line of four numbers in hexadecimal, its occupied slots. A page with no object is not
 * printed. `left` prints: pages; after three rounds: Mesh's search; the sparser half onto the
 * other; halves at random; alternate ranks of occupancy; and, for up to 300 pages, what a largest
 * matching among all pages leaves after one and three rounds, by Edmonds' algorithm, or 0 0 for
 * more pages. */
#include "../real/split_mesher.h"
#include "../real/split_store.h"
#include "../real/steps.h"
#include "matching.h"
#include <inttypes.h>
#include <stdio.h>
#include <stdlib.h>
#include <string.h>

enum { ROUNDS = 3, MOST_PAGES = 1 << 14, MOST_OF_EDMONDS = 300 };

/* Which half of the pages is folded onto the other one. */
enum division { SPARSER_HALF, RANDOM_HALF, ALTERNATE_RANKS };

unsigned compacted_below_percent;

static struct occupied read_pages[MOST_PAGES];
static size_t pages_len;
static struct random randomness;

static void fail(const char *why) {
    fprintf(stderr, "divisions: %s\n", why);
    exit(1);
}

static void print_page(const struct occupied *page) {
    if (!occupied_count(page)) return;
    for (int word = 0; word < 4; word++)
        printf("%" PRIx64 "%c", page->words[word], word < 3 ? ' ' : '\n');
}

static void print_drawn(unsigned slots, unsigned percent, size_t pages) {
    for (size_t page = 0; page < pages; page++) {
        struct occupied drawn = {{0}};
        for (unsigned slot = 0; slot < slots; slot++)
            if (random_below(&randomness, 100) < percent) occupied_insert(&drawn, slot);
        print_page(&drawn);
    }
}

static void print_recorded(const char *recording, unsigned class, size_t records) {
    struct selection all = {0, MOST_BYTES};
    struct steps steps = load_steps(recording, all, &records, 1);
    uint32_t *bytes = touched_memory(steps.objects, sizeof *bytes);
    unsigned char value[MOST_BYTES] = {0};
    size_t count;
    split_store.open(&steps, touched_memory(steps.objects, split_store.key_bytes));
    for (size_t taken = 0; taken < steps.checkpoints[0]; taken++) {
        struct step step = steps.all[taken];
        if (step.kind == STEP_FREE) {
            split_store.free(step.object, bytes[step.object]);
        } else {
            split_store.put(step.object, value, step.bytes);
            bytes[step.object] = step.bytes;
        }
    }
    const struct occupied *pages = split_store_pages(class, &count);
    for (size_t page = 0; page < count; page++) print_page(&pages[page]);
}

static void read_all(void) {
    struct occupied page;
    uint64_t *words = page.words;
    while (scanf("%" SCNx64 " %" SCNx64 " %" SCNx64 " %" SCNx64, &words[0], &words[1], &words[2],
                 &words[3]) == 4) {
        if (pages_len == MOST_PAGES) fail("these are too many pages");
        read_pages[pages_len++] = page;
    }
    if (!pages_len) fail("there is no page");
}

/* Pages that are divided: their numbers, and how many objects they have. */
struct ranked {
    uint32_t page, objects;
};

static int by_objects(const void *a, const void *b) {
    const struct ranked *one = a, *other = b;
    if (one->objects != other->objects) return one->objects < other->objects ? -1 : 1;
    return one->page < other->page ? -1 : one->page > other->page;
}

/* The pages with an object, in the order in which the division takes them: by occupancy, or at
 * random. */
static size_t ranks(const struct occupied *pages, enum division division, struct ranked *ranked) {
    size_t count = 0;
    for (size_t page = 0; page < pages_len; page++)
        if (occupied_count(&pages[page]))
            ranked[count++] = (struct ranked){page, occupied_count(&pages[page])};
    if (division != RANDOM_HALF) {
        qsort(ranked, count, sizeof *ranked, by_objects);
        return count;
    }
    for (size_t i = count; i > 1; i--) {
        size_t other = random_below(&randomness, i);
        struct ranked moved = ranked[i - 1];
        ranked[i - 1] = ranked[other];
        ranked[other] = moved;
    }
    return count;
}

static void fold_pairs(struct occupied *pages, const struct mesh_pair *pairs, size_t count) {
    for (size_t pair = 0; pair < count; pair++) {
        occupied_unite(&pages[pairs[pair].onto], &pages[pairs[pair].from]);
        pages[pairs[pair].from] = (struct occupied){{0}};
    }
}

static size_t with_an_object(const struct occupied *pages) {
    size_t found = 0;
    for (size_t page = 0; page < pages_len; page++) found += occupied_count(&pages[page]) != 0;
    return found;
}

static size_t left_by(enum division division) {
    static struct occupied pages[MOST_PAGES];
    static struct ranked ranked[MOST_PAGES];
    static uint32_t from[MOST_PAGES], onto[MOST_PAGES];
    static struct mesh_pair pairs[MOST_PAGES];
    memcpy(pages, read_pages, sizeof pages);
    for (int round = 0; round < ROUNDS; round++) {
        size_t count = ranks(pages, division, ranked), from_len = 0, onto_len = 0;
        for (size_t rank = 0; rank < count; rank++) {
            int is_from = division == ALTERNATE_RANKS ? rank % 2 == 0 : rank < count / 2;
            if (is_from) {
                from[from_len++] = ranked[rank].page;
            } else {
                onto[onto_len++] = ranked[rank].page;
            }
        }
        fold_pairs(pages, pairs, largest_plan(pages, from, from_len, onto, onto_len, pairs));
    }
    return with_an_object(pages);
}

static size_t left_by_edmonds(int rounds) {
    static struct occupied pages[MOST_PAGES];
    static struct mesh_pair pairs[MOST_PAGES];
    if (pages_len > MOST_OF_EDMONDS) return 0;
    memcpy(pages, read_pages, sizeof pages);
    for (int round = 0; round < rounds; round++)
        fold_pairs(pages, pairs, largest_matching(pages, pages_len, pairs));
    return with_an_object(pages);
}

static void print_left(unsigned slots) {
    static struct occupied pages[MOST_PAGES];
    size_t search[ROUNDS];
    memcpy(pages, read_pages, sizeof pages);
    split_mesher_rounds(pages, pages_len, slots, &randomness, ROUNDS, search);
    printf("%zu %zu", pages_len, search[ROUNDS - 1]);
    printf(" %zu %zu %zu", left_by(SPARSER_HALF), left_by(RANDOM_HALF), left_by(ALTERNATE_RANKS));
    printf(" %zu %zu\n", left_by_edmonds(1), left_by_edmonds(ROUNDS));
}

int main(int argc, char **argv) {
    if (argc == 6 && !strcmp(argv[1], "drawn")) {
        randomness.drawn = strtoull(argv[5], NULL, 10);
        print_drawn(strtoul(argv[2], NULL, 10), strtoul(argv[3], NULL, 10),
                    strtoul(argv[4], NULL, 10));
    } else if (argc == 5 && !strcmp(argv[1], "recorded")) {
        print_recorded(argv[2], strtoul(argv[3], NULL, 10), strtoul(argv[4], NULL, 10));
    } else if (argc == 4 && !strcmp(argv[1], "left")) {
        randomness.drawn = strtoull(argv[3], NULL, 10);
        read_all();
        print_left(strtoul(argv[2], NULL, 10));
    } else {
        fprintf(stderr, "divisions drawn SLOTS PERCENT PAGES SEED | recorded RECORDING CLASS "
                        "RECORDS | left SLOTS SEED\n");
        return 2;
    }
    return 0;
}
