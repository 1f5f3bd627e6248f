/* Rounds of folds of a core, by the public calls of teurlaks.h. Each ends the program where the
 * core refuses a call that should be answered. */
#ifndef BENCH_COMPACTION_H
#define BENCH_COMPACTION_H

#include "teurlaks.h"

/* A core, how many shards it has, none of which ended, and how many pages more could have gone, by
 * their number and that of live keys, when it was last compacted. */
struct shards {
    struct teurlaks_handle core;
    uint32_t count;
    size_t stay;
};

/* Gives back the pages on which nothing is live, and answers how many. */
size_t trim_all(struct shards *shards);

/* Marks, takes all steps and closes, and once more where the mark may not have seen all pages and
 * folded a sixteenth of what it saw of the pool. Answers how many pages went. */
size_t mesh(struct shards *shards);

/* The shards adopt up to so many pages of the pool, those of lowest heads, in turn. */
void adopt(struct shards *shards, size_t most);

/* Which half of the pages goes to the pool, to be folded onto the other one. */
enum halving {
    /* Of each shard the pages with the fewest live keys, as Core::compact of the crate `teurlaks`
     * does. */
    SPARSER_HALF,
    /* All pages go to the pool, and the shards adopt half of them again, in turn: those whose heads
     * are lowest, which were opened by the shards of lower numbers. Where shards take objects in
     * turn, their pages are alike, so these are halves at random. */
    HIGHER_HEADS
};

/* One round: half of the pages go to the pool, as many as can be are folded onto the other half,
 * and the shards adopt the rest. Answers how many pages went. */
size_t fold_half(struct shards *shards, enum halving halving);

/* Compacts as the library does, if at least so many percent of the pages could go, of so many slots
 * each: those that what is live does not need if the others are full, without as many as stayed the
 * last time. Else it trims alone. As Core::compact_if_pays of the crate `teurlaks`. */
void compact_if_pays(struct shards *shards, size_t slots, size_t least_percent);

/* Trims, and makes rounds as long as one gives a sixteenth of the pages back. Answers how many
 * pages went. */
size_t compact(struct shards *shards, enum halving halving);

#endif
