/* Writes puts of names that stand close together in a table by the hash of the kit's std, whose seed is fixed: `names COUNT BITS` writes
   COUNT lines, and the hash of each name ends in BITS zeros. All names of nine letters and digits are gone through, in order. */
#include <stdint.h>
#include <stdio.h>
#include <stdlib.h>

enum { LENGTH = 9 };

static const char digits[] = "abcdefghijklmnopqrstuvwxyz0123456789";
static const uint64_t seed = 0x243f6a8885a308d3u, multiplier = 0x9e3779b97f4a7c15u;
static char name[LENGTH + 1];
static uint64_t mask;
static long wanted;

static uint64_t folded(uint64_t a, uint64_t b) {
    __uint128_t product = (__uint128_t)a * b;
    return (uint64_t)product ^ (uint64_t)(product >> 64);
}

static uint64_t fed(uint64_t hash, char digit) {
    return folded(hash ^ (uint64_t)digit * 0x010101u, multiplier ^ 2);
}

/* Writes the names that begin as the name at hand does up to its last digit, where the hash so far is that. */
static void write_names(uint64_t hash) {
    for (int digit = 0; digit < 36; digit++) {
        uint64_t whole = fed(hash, digits[digit]);
        if ((whole ^ whole >> 32) & mask) continue;
        name[LENGTH - 1] = digits[digit];
        printf("0 put %s 0\n", name);
        if (!--wanted) exit(0);
    }
}

/* The same for a name that stands up to that place. It begins with a letter. */
static void extend(int place, uint64_t hash) {
    if (place == LENGTH - 1) {
        write_names(hash);
        return;
    }
    for (int digit = 0; digit < (place ? 36 : 26); digit++) {
        name[place] = digits[digit];
        extend(place + 1, fed(hash, digits[digit]));
    }
}

int main(int count, char **words) {
    if (count != 3) return 2;
    wanted = atol(words[1]);
    mask = ((uint64_t)1 << atoi(words[2])) - 1;
    extend(0, folded(seed ^ LENGTH, multiplier ^ 16));
    return 1;
}
