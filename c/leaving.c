/* Two threads, each with the steward of an arena and a seat of the other's, which has the same
 * numbers. Both leave their seats for their stewards at one time, again and again, and are refused
 * each time; half of them with an arena that is recorded. -DTRIES says how often. */
#define _POSIX_C_SOURCE 200809L
#include "teurlaks.h"
#include "wanted.h"
#include <pthread.h>

#ifndef TRIES
#define TRIES 1000000
#endif

typedef uint32_t opens(struct teurlaks_share_handle *out, uint32_t shards, uint32_t page_limit,
                       uint32_t ring_capacity, uint32_t gens);

struct side {
    struct teurlaks_share_handle steward, strange;
    pthread_t thread;
};

static void *leave(void *at) {
    struct side *side = at;
    for (int i = 0; i < TRIES; i++)
        WANT(teurlaks_seat_leave(&side->steward, &side->strange) == TEURLAKS_CONFIG);
    return NULL;
}

static void of_two_arenas(opens *open) {
    struct side sides[2] = {{{0}, {0}, 0}, {{0}, {0}, 0}};
    for (int i = 0; i < 2; i++) WANT(open(&sides[i].steward, 2, 4, 1, 9) == TEURLAKS_OK);
    for (int i = 0; i < 2; i++)
        WANT(teurlaks_steward_seat(&sides[i].steward, &sides[1 - i].strange) == TEURLAKS_OK);
    for (int i = 0; i < 2; i++) WANT(!pthread_create(&sides[i].thread, NULL, leave, &sides[i]));
    for (int i = 0; i < 2; i++) WANT(!pthread_join(sides[i].thread, NULL));
    for (int i = 0; i < 2; i++) {
        WANT(teurlaks_seat_leave(&sides[i].steward, &sides[1 - i].strange) == TEURLAKS_OK);
        teurlaks_share_drop(&sides[i].steward);
    }
}

int main(void) {
    of_two_arenas(teurlaks_arena_open);
    of_two_arenas(teurlaks_arena_open_recorded);
    printf("%d times two threads were refused seats of each other's arenas\n", 2 * TRIES);
    return 0;
}
