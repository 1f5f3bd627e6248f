/* Four threads at a recorded arena, with a steward who folds beside them. They share keys, so that
 * what a call is answered rests on when the others made theirs: no thread can tell whether it was
 * right. At the end all seats are left for the steward, who audits the run. -DROUNDS says how many
 * calls each thread makes. */
#define _POSIX_C_SOURCE 200809L
#include "teurlaks.h"
#include "wanted.h"
#include <pthread.h>
#include <sched.h>
#include <stdatomic.h>
#include <stdio.h>
#include <stdlib.h>
#include <time.h>

#ifndef ROUNDS
#define ROUNDS 20000
#endif

enum { THREADS = 4, SHARED = 64 };

struct worker {
    struct teurlaks_share_handle seat;
    pthread_t thread;
    uint64_t random;
};

static struct worker workers[THREADS];
static atomic_int ended;
static pthread_mutex_t lock = PTHREAD_MUTEX_INITIALIZER;
static struct teurlaks_key shared[SHARED];

/* Marsaglia's xorshift. */
static uint64_t below(uint64_t *state, uint64_t count) {
    *state ^= *state << 13;
    *state ^= *state >> 7;
    *state ^= *state << 17;
    return (*state >> 11) % count;
}

static struct teurlaks_key any_key(struct worker *me) {
    pthread_mutex_lock(&lock);
    struct teurlaks_key key = shared[below(&me->random, SHARED)];
    pthread_mutex_unlock(&lock);
    return key;
}

/* An object of 1 to 16 words. */
static void put(struct worker *me) {
    struct teurlaks_word words[16];
    struct teurlaks_put_reply reply;
    for (size_t i = 0; i < 16; i++) words[i] = (struct teurlaks_word){me->random, i};
    size_t width = 1 + below(&me->random, 16);
    PATIENTLY(reply, reply.status, teurlaks_seat_put_words(&me->seat, words, width));
    WANT(reply.status == TEURLAKS_OK);
    pthread_mutex_lock(&lock);
    struct teurlaks_key old = shared[below(&me->random, SHARED)];
    shared[below(&me->random, SHARED)] = reply.key;
    pthread_mutex_unlock(&lock);
    uint32_t status = teurlaks_seat_free_later(&me->seat, old);
    WANT(status == TEURLAKS_OK || status == TEURLAKS_RING_FULL || status == TEURLAKS_NONE);
}

static void tend(struct worker *me) {
    struct teurlaks_tend_reply tended;
    PATIENTLY(tended, tended.status, teurlaks_seat_tend(&me->seat));
    WANT(tended.status == TEURLAKS_OK);
    struct teurlaks_retire_reply retired;
    PATIENTLY(retired, retired.status, teurlaks_seat_retire(&me->seat, 4));
    WANT(retired.status == TEURLAKS_OK || retired.status == TEURLAKS_PLAN_OPEN);
}

static void *work(void *at) {
    struct worker *me = at;
    struct teurlaks_word words[16] = {{0, 0}};
    struct teurlaks_words_reply got;
    uint32_t status;
    for (long round = 0; round < ROUNDS; round++) {
        switch (below(&me->random, 4)) {
        case 0:
            put(me);
            break;
        case 1:
            PATIENTLY(got, got.status, teurlaks_seat_get_words(&me->seat, any_key(me), words, 16));
            break;
        case 2:
            PATIENTLY(
                status, status,
                teurlaks_seat_set_words(&me->seat, any_key(me), words, 1 + below(&me->random, 16)));
            break;
        default:
            PATIENTLY(status, status, teurlaks_seat_free(&me->seat, any_key(me)));
        }
        if (round % 256 == 0) tend(me);
    }
    tend(me);
    atomic_fetch_add(&ended, 1);
    return NULL;
}

/* A mark, its steps and a close; it answers how many folds there were. */
static size_t mesh(struct teurlaks_share_handle *steward) {
    struct teurlaks_mark_reply mark;
    struct teurlaks_step_reply step;
    uint32_t status;
    size_t folds = 0;
    PATIENTLY(mark, mark.status, teurlaks_steward_mark(steward));
    WANT(mark.status == TEURLAKS_OK);
    do {
        PATIENTLY(step, step.status, teurlaks_steward_step(steward));
        folds += step.status == TEURLAKS_OK;
    } while (step.status == TEURLAKS_OK || step.status == TEURLAKS_EMPTIED);
    WANT(step.status == TEURLAKS_NO_PAIR_LEFT);
    PATIENTLY(status, status, teurlaks_steward_close(steward));
    WANT(status == TEURLAKS_OK);
    return folds;
}

/* A recorded seat has no session. A seat that is left in one gives its shard back. */
static void sessions(struct teurlaks_share_handle *recorded,
                     struct teurlaks_share_handle *counted) {
    struct teurlaks_share_handle seat = {0};
    WANT(teurlaks_seat_session(recorded) == TEURLAKS_CONFIG &&
         teurlaks_seat_pause(recorded) == TEURLAKS_OK);
    WANT(teurlaks_steward_seat(counted, &seat) == TEURLAKS_OK &&
         teurlaks_seat_session(&seat) == TEURLAKS_OK);
    WANT(teurlaks_steward_totals(counted).status == TEURLAKS_BUSY);
    WANT(teurlaks_seat_leave(counted, &seat) == TEURLAKS_OK &&
         teurlaks_seat_pause(&seat) == TEURLAKS_NO_CORE);
    WANT(teurlaks_steward_totals(counted).status == TEURLAKS_OK);
}

/* Walks find all live keys, and make no receipt. */
static void walks(struct teurlaks_share_handle *steward, struct teurlaks_share_handle *seat) {
    struct teurlaks_walk walk = {0, 0, 0}, other = {0, 0, 0};
    size_t live = 0;
    while (teurlaks_steward_next(steward, &walk).status == TEURLAKS_OK) {
        WANT(teurlaks_seat_next(seat, &other).status == TEURLAKS_OK);
        live++;
    }
    WANT(teurlaks_seat_next(seat, &other).status == TEURLAKS_NONE &&
         live == teurlaks_steward_totals(steward).live);
}

int main(void) {
    struct teurlaks_share_handle steward = {0}, other = {0}, counted = {0}, none = {0};
    WANT(teurlaks_arena_open_recorded(&steward, THREADS, 1024, 256, UINT32_MAX) == TEURLAKS_OK);
    WANT(teurlaks_arena_open_recorded(&other, THREADS, 1024, 256, UINT32_MAX) == TEURLAKS_OK);
    WANT(teurlaks_arena_open(&counted, THREADS, 1024, 256, UINT32_MAX) == TEURLAKS_OK);
    for (int i = 0; i < THREADS; i++) {
        WANT(teurlaks_steward_seat(&steward, &workers[i].seat) == TEURLAKS_OK);
        workers[i].random = 88172645463325252u + i;
    }
    for (int i = 0; i < THREADS; i++)
        WANT(!pthread_create(&workers[i].thread, NULL, work, &workers[i]));
    size_t folds = 0;
    while (atomic_load(&ended) < THREADS) {
        folds += mesh(&steward);
        nanosleep(&(struct timespec){0, 1000000}, NULL);
    }
    for (int i = 0; i < THREADS; i++) pthread_join(workers[i].thread, NULL);

    sessions(&workers[0].seat, &counted);
    walks(&steward, &workers[0].seat);
    WANT(teurlaks_steward_forget(&steward).status == TEURLAKS_RECORDED);
    WANT(teurlaks_arena_audit(&counted) == TEURLAKS_NO_CORE &&
         teurlaks_arena_audit(&none) == TEURLAKS_NO_CORE);
    for (int i = 0; i < THREADS; i++) {
        WANT(teurlaks_arena_audit(&steward) == TEURLAKS_UNFINISHED);
        WANT(teurlaks_seat_leave(&other, &workers[i].seat) == TEURLAKS_CONFIG);
        WANT(teurlaks_seat_leave(&counted, &workers[i].seat) == TEURLAKS_CONFIG);
        WANT(teurlaks_seat_leave(&none, &workers[i].seat) == TEURLAKS_NO_CORE);
        WANT(teurlaks_seat_leave(&steward, &workers[i].seat) == TEURLAKS_OK);
        WANT(teurlaks_seat_leave(&steward, &workers[i].seat) == TEURLAKS_NO_CORE);
    }
    uint32_t status = teurlaks_arena_audit(&steward);
    printf("%d threads, %d calls each, %zu folds: %s\n", THREADS, ROUNDS, folds,
           teurlaks_strerror(status));
    WANT(status == TEURLAKS_OK && teurlaks_arena_audit(&steward) == TEURLAKS_OK);
    WANT(teurlaks_steward_mark(&steward).status == TEURLAKS_NO_CORE);
    teurlaks_share_drop(&steward);
    teurlaks_share_drop(&other);
    teurlaks_share_drop(&counted);
    return 0;
}
