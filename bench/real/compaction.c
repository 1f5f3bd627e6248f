#include "compaction.h"
#include <stdio.h>
#include <stdlib.h>

/* How many groups a mark sees of a side at most. */
enum { MOST_GROUPS = 4096 };

static void want(int holds, const char *call, uint32_t status) {
    if (holds) return;
    fprintf(stderr, "%s: refused with status %u\n", call, (unsigned)status);
    exit(1);
}

static size_t pages_of(struct shards *shards) { return teurlaks_totals(&shards->core).pages; }

size_t trim_all(struct shards *shards) {
    size_t gone = 0;
    for (uint32_t shard = 0; shard < shards->count; shard++) {
        struct teurlaks_trim_reply reply = teurlaks_trim(&shards->core, shard);
        want(reply.status == TEURLAKS_OK, "teurlaks_trim", reply.status);
        gone += reply.count;
    }
    return gone;
}

static void take_steps(struct shards *shards) {
    uint32_t status;
    do status = teurlaks_step(&shards->core).status;
    while (status == TEURLAKS_OK || status == TEURLAKS_EMPTIED);
    want(status == TEURLAKS_NO_PAIR_LEFT, "teurlaks_step", status);
    status = teurlaks_close(&shards->core);
    want(status == TEURLAKS_OK, "teurlaks_close", status);
}

size_t mesh(struct shards *shards) {
    size_t before = pages_of(shards);
    for (;;) {
        struct teurlaks_mark_reply mark = teurlaks_mark_some(&shards->core);
        want(mark.status == TEURLAKS_OK, "teurlaks_mark_some", mark.status);
        take_steps(shards);
        int saw_all = mark.abandoned < MOST_GROUPS && mark.owned < MOST_GROUPS;
        if (saw_all || mark.folds == 0 || mark.folds * 16 < mark.abandoned)
            return before - pages_of(shards);
    }
}

void adopt(struct shards *shards, size_t most) {
    uint32_t full = 0;
    for (uint32_t shard = 0; most > 0 && full < shards->count;
         shard = (shard + 1) % shards->count) {
        uint32_t status = teurlaks_adopt(&shards->core, shard).status;
        if (status == TEURLAKS_NOTHING_TO_ADOPT) return;
        want(status == TEURLAKS_OK || status == TEURLAKS_PAGES_SPENT || status == TEURLAKS_ENDED,
             "teurlaks_adopt", status);
        full = status == TEURLAKS_OK ? 0 : full + 1;
        most -= status == TEURLAKS_OK;
    }
}

static void retire(struct shards *shards, uint32_t shard, size_t most) {
    uint32_t status = teurlaks_retire(&shards->core, shard, most).status;
    want(status == TEURLAKS_OK || status == TEURLAKS_ENDED, "teurlaks_retire", status);
}

static void retire_sparser_half(struct shards *shards) {
    size_t half = pages_of(shards) / 2;
    for (uint32_t shard = 0; shard < shards->count; shard++)
        retire(shards, shard, half / shards->count + (shard < half % shards->count));
}

static void retire_higher_heads(struct shards *shards) {
    for (uint32_t shard = 0; shard < shards->count; shard++) retire(shards, shard, SIZE_MAX);
    adopt(shards, pages_of(shards) / 2);
}

size_t fold_half(struct shards *shards, enum halving halving) {
    if (halving == SPARSER_HALF) {
        retire_sparser_half(shards);
    } else {
        retire_higher_heads(shards);
    }
    size_t gone = mesh(shards);
    adopt(shards, SIZE_MAX);
    return gone;
}

static size_t most_folds(struct shards *shards, size_t slots) {
    struct teurlaks_totals_reply totals = teurlaks_totals(&shards->core);
    return totals.pages - (totals.live + slots - 1) / slots;
}

void compact_if_pays(struct shards *shards, size_t slots, size_t least_percent) {
    trim_all(shards);
    size_t most = most_folds(shards, slots);
    if (shards->stay > most) shards->stay = most;
    if (most == 0 || (most - shards->stay) * 100 < pages_of(shards) * least_percent) return;
    struct teurlaks_compact_reply compacted = teurlaks_compact_within(&shards->core, SIZE_MAX);
    want(compacted.status == TEURLAKS_OK && !compacted.more, "teurlaks_compact_within",
         compacted.status);
    shards->stay = most_folds(shards, slots);
}

size_t compact(struct shards *shards, enum halving halving) {
    size_t before = pages_of(shards);
    trim_all(shards);
    for (;;) {
        size_t pages = pages_of(shards), gone = fold_half(shards, halving);
        if (gone == 0 || gone * 16 < pages) return before - pages_of(shards);
    }
}
