/* The search by which Mesh finds pages that fit each other: SplitMesher of Powers, Tench, Berger
 * and McGregor (Mesh: compacting memory management for C/C++ applications, PLDI 2019). It is
 * written from its description, to stand beside largest plans. */
#ifndef BENCH_SPLIT_MESHER_H
#define BENCH_SPLIT_MESHER_H

#include "random.h"
#include <stddef.h>
#include <stdint.h>

/* How many pages of the other half each page is compared with. */
enum { SPLIT_MESHER_TRIES = 64 };

/* The slots of a page that hold an object, of up to 256. */
struct occupied {
    uint64_t words[4];
};

static inline void occupied_insert(struct occupied *set, unsigned slot) {
    set->words[slot / 64] |= (uint64_t)1 << slot % 64;
}

static inline void occupied_remove(struct occupied *set, unsigned slot) {
    set->words[slot / 64] &= ~((uint64_t)1 << slot % 64);
}

static inline unsigned occupied_count(const struct occupied *set) {
    unsigned count = 0;
    for (int word = 0; word < 4; word++) count += __builtin_popcountll(set->words[word]);
    return count;
}

static inline int occupied_fit(const struct occupied *a, const struct occupied *b) {
    return !((a->words[0] & b->words[0]) | (a->words[1] & b->words[1]) |
             (a->words[2] & b->words[2]) | (a->words[3] & b->words[3]));
}

static inline void occupied_unite(struct occupied *set, const struct occupied *with) {
    for (int word = 0; word < 4; word++) set->words[word] |= with->words[word];
}

/* Two pages that fit each other, by their numbers: what is on the first may go to the second. */
struct mesh_pair {
    uint32_t from, onto;
};

/* One search over all pages that have an object and are less than four fifths full of `slots`: they
 * are shuffled and split in two halves, and then page i of the one is compared with page i + j,
 * counted round, of the other, for j from 0 to SPLIT_MESHER_TRIES - 1. Pages that fit are a pair
 * and leave both halves. Writes the pairs, in which no page stands twice, into `pairs`, which has
 * room for count / 2, and answers how many they are. Ends the program where there is no memory. */
size_t split_mesher(const struct occupied *pages, size_t count, unsigned slots,
                    struct random *random, struct mesh_pair *pairs);

/* So many searches in a row, after each of which the pages of a pair are one page. Writes to
 * left[r] how many pages with an object there are after search r. The pages are changed. */
void split_mesher_rounds(struct occupied *pages, size_t count, unsigned slots,
                         struct random *random, unsigned rounds, size_t *left);

#endif
