/* What the programs of this folder share: what they draw, what is resident, and how they end where
 * something is not as it was put. */
#ifndef TEURLAKS_SOAK_COMMON_H
#define TEURLAKS_SOAK_COMMON_H

#include <stdint.h>
#include <stdio.h>
#include <stdlib.h>
#include <unistd.h>

/* What has been drawn so far: its first value is the seed. */
static uint64_t drawn;

/* Prints which program it is, and how far it is. */
static void say_where(void);

#define WANT(holds)                                                                                \
    do {                                                                                           \
        if (!(holds)) {                                                                            \
            say_where();                                                                           \
            printf(", line %d: %s\n", __LINE__, #holds);                                           \
            exit(1);                                                                               \
        }                                                                                          \
    } while (0)

/* SplitMix64, of a seed that its caller keeps. */
static inline uint64_t draw_of(uint64_t *seed, uint64_t below) {
    uint64_t z = (*seed += 0x9e3779b97f4a7c15u);
    z = (z ^ (z >> 30)) * 0xbf58476d1ce4e5b9u;
    z = (z ^ (z >> 27)) * 0x94d049bb133111ebu;
    return (z ^ (z >> 31)) % below;
}

static inline uint64_t draw(uint64_t below) { return draw_of(&drawn, below); }

/* The kilobytes of the process that are resident. */
static inline long resident(void) {
    long all, pages = 0;
    FILE *file = fopen("/proc/self/statm", "r");
    if (!file || fscanf(file, "%ld %ld", &all, &pages) != 2) exit(2);
    fclose(file);
    return pages * (sysconf(_SC_PAGESIZE) / 1024);
}

#endif
