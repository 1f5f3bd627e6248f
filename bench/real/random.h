/* Numbers from a seed, the same on every machine: SplitMix64. */
#ifndef BENCH_RANDOM_H
#define BENCH_RANDOM_H

#include <stdint.h>

struct random {
    uint64_t drawn;
};

static inline uint64_t random_draw(struct random *random) {
    uint64_t z = (random->drawn += 0x9e3779b97f4a7c15u);
    z = (z ^ (z >> 30)) * 0xbf58476d1ce4e5b9u;
    z = (z ^ (z >> 27)) * 0x94d049bb133111ebu;
    return z ^ (z >> 31);
}

/* A number below `bound`, which is not 0. Its bias is of no account here. */
static inline uint64_t random_below(struct random *random, uint64_t bound) {
    return random_draw(random) % bound;
}

#endif
