/* `resident SHARDS KEPT BYTES PAGES`: what a core keeps resident, in kilobytes as the system tells.
 * SHARDS shards are filled, to PAGES pages each, with objects of so many bytes; KEPT percent of
 * them stay, at random; then half of the running shards end, a mark plans, its steps are taken, and
 * so on until one shard runs. The keys of this program are touched before the first look, so none
 * of its own memory is counted. Each key is looked up at the end. */
#include "teurlaks.h"
#include <stdio.h>
#include <stdlib.h>

static long resident(void) {
    long all, resident = 0;
    FILE *file = fopen("/proc/self/statm", "r");
    if (!file || fscanf(file, "%ld %ld", &all, &resident) != 2) exit(2);
    fclose(file);
    return resident * 4;
}

/* Marsaglia's xorshift. */
static uint64_t next(void) {
    static uint64_t state = 88172645463325252ull;
    state ^= state << 13;
    state ^= state >> 7;
    state ^= state << 17;
    return state;
}

static struct teurlaks_handle core;
static struct teurlaks_key *keys;
static size_t count, bytes;

static void fill(unsigned shards) {
    unsigned char object[256] = {0};
    for (size_t i = 0; i < count; i++) {
        memcpy(object, &i, sizeof i);
        struct teurlaks_put_reply put = teurlaks_put_bytes(&core, i % shards, object, bytes);
        if (put.status != TEURLAKS_OK) exit(1);
        keys[i] = put.key;
    }
}

/* Frees all but so many percent; a freed key is all zeros. */
static void thin_out(unsigned kept) {
    for (size_t i = 0; i < count; i++)
        if (next() % 100 >= kept) {
            teurlaks_free(&core, keys[i]);
            keys[i] = (struct teurlaks_key){0};
        }
}

static size_t fold(void) {
    size_t folds = teurlaks_mark(&core).folds;
    uint32_t status;
    do status = teurlaks_step(&core).status;
    while (status == TEURLAKS_OK || status == TEURLAKS_EMPTIED);
    teurlaks_close(&core);
    return folds;
}

static void look_up(void) {
    for (size_t i = 0; i < count; i++) {
        size_t found;
        if (!keys[i].generation) continue;
        if (teurlaks_get_bytes(&core, keys[i], &found, sizeof found) != TEURLAKS_OK || found != i)
            exit(3);
    }
}

int main(int argc, char **argv) {
    if (argc != 5) return 2;
    unsigned shards = atoi(argv[1]), kept = atoi(argv[2]), pages = atoi(argv[4]), ended = 0,
             running = shards;
    bytes = atoi(argv[3]);
    count = (size_t)shards * pages * (bytes <= 16 ? 256 : bytes <= 64 ? 64 : 16);
    keys = malloc(count * sizeof *keys);
    memset(keys, 1, count * sizeof *keys);
    long before = resident();
    if (teurlaks_new(&core, shards, pages, 1, 1000) != TEURLAKS_OK) return 1;
    fill(shards);
    printf("%zu objects of %zu bytes: pages %zu resident %ld\n", count, bytes,
           teurlaks_totals(&core).pages, resident() - before);
    thin_out(kept);
    printf("%u %% kept: pages %zu resident %ld\n", kept, teurlaks_totals(&core).pages,
           resident() - before);
    while (running > 1) {
        for (unsigned i = 0; i < running / 2; i++) teurlaks_end(&core, ended++);
        running -= running / 2;
        size_t folds = fold();
        printf("%zu folds: pages %zu resident %ld\n", folds, teurlaks_totals(&core).pages,
               resident() - before);
    }
    look_up();
    teurlaks_drop(&core);
    printf("dropped: resident %ld\n", resident() - before);
    return 0;
}
