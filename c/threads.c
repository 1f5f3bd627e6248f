/* Four threads with a seat each, and a steward beside them: each thread finds what it expects under
 * keys of its own and under those that others gave it, frees some later, and leaves sparse pages to
 * the pool, which are folded meanwhile. Half of them keep their shards over some calls. At the end
 * nothing is live, and no page is left. -DROUNDS says how many rounds of calls each thread makes,
 * and -DMOST how many keys it may have: with few of them it has all that it may most of the
 * time. */
#define _POSIX_C_SOURCE 200809L
#include "teurlaks.h"
#include "wanted.h"
#include <pthread.h>
#include <sched.h>
#include <stdatomic.h>
#include <stdio.h>
#include <stdlib.h>
#include <string.h>
#include <time.h>

#ifndef ROUNDS
#define ROUNDS 200000
#endif
#ifndef MOST
#define MOST 4096
#endif

/* The same in a session, which lets go of its shard meanwhile. */
#define IN_SESSION(me, reply, status, call)                                                        \
    do reply = call;                                                                               \
    while ((status) == TEURLAKS_BUSY && paused(me) && !sched_yield())

enum { THREADS = 4, WORDS = 4 };

/* A key, and the number of which its words are made. */
struct kept {
    struct teurlaks_key key;
    uint64_t number;
};

/* What others give to a thread. */
struct inbox {
    pthread_mutex_t lock;
    struct kept kept[MOST];
    size_t count;
};

struct worker {
    struct teurlaks_share_handle seat;
    pthread_t thread;
    struct inbox inbox;
    struct kept live[MOST];
    size_t count, aim;
    int grows;
    uint64_t number, random;
};

static struct worker workers[THREADS];
static atomic_int ended;

/* The threads of odd numbers keep their shards over some calls. */
static int has_sessions(const struct worker *me) { return (me - workers) % 2 == 1; }

static int paused(struct worker *me) { return teurlaks_seat_pause(&me->seat) == TEURLAKS_OK; }

/* Marsaglia's xorshift. */
static uint64_t below(uint64_t *state, uint64_t count) {
    *state ^= *state << 13;
    *state ^= *state >> 7;
    *state ^= *state << 17;
    return (*state >> 11) % count;
}

static struct teurlaks_word word(uint64_t number, uint64_t place) {
    return (struct teurlaks_word){number + place, ~number};
}

static void words_of(uint64_t number, struct teurlaks_word words[WORDS]) {
    for (uint64_t i = 0; i < WORDS; i++) words[i] = word(number, i);
}

static struct teurlaks_key put(struct worker *me) {
    struct teurlaks_word words[WORDS];
    struct teurlaks_put_reply reply;
    words_of(me->number, words);
    IN_SESSION(me, reply, reply.status, teurlaks_seat_put_words(&me->seat, words, WORDS));
    WANT(reply.status == TEURLAKS_OK);
    return reply.key;
}

static void set(struct worker *me, struct kept *kept) {
    struct teurlaks_word words[WORDS];
    uint32_t status;
    kept->number = me->number++;
    words_of(kept->number, words);
    IN_SESSION(me, status, status, teurlaks_seat_set_words(&me->seat, kept->key, words, WORDS));
    WANT(status == TEURLAKS_OK);
}

static void finds(struct worker *me, struct kept kept) {
    struct teurlaks_word words[16];
    struct teurlaks_words_reply reply;
    IN_SESSION(me, reply, reply.status, teurlaks_seat_get_words(&me->seat, kept.key, words, 16));
    WANT(reply.status == TEURLAKS_OK && reply.len == WORDS);
    for (uint64_t i = 0; i < WORDS; i++)
        WANT(words[i].low == word(kept.number, i).low &&
             words[i].high == word(kept.number, i).high);
}

/* Frees it, which it finds live once. */
static void free_now(struct worker *me, struct teurlaks_key key) {
    uint32_t status;
    struct teurlaks_words_reply reply;
    IN_SESSION(me, status, status, teurlaks_seat_free(&me->seat, key));
    WANT(status == TEURLAKS_OK);
    IN_SESSION(me, status, status, teurlaks_seat_free(&me->seat, key));
    WANT(status == TEURLAKS_NONE);
    IN_SESSION(me, reply, reply.status, teurlaks_seat_get_words(&me->seat, key, NULL, 0));
    WANT(reply.status == TEURLAKS_NONE);
}

static void free_later(struct worker *me, struct teurlaks_key key) {
    uint32_t status = teurlaks_seat_free_later(&me->seat, key);
    if (status == TEURLAKS_RING_FULL)
        free_now(me, key);
    else
        WANT(status == TEURLAKS_OK);
}

/* The thread has the key from now on, for which it has room. */
static void hold(struct worker *me, struct kept kept) {
    WANT(me->count < MOST);
    me->live[me->count++] = kept;
}

static struct kept take_any(struct worker *me) {
    size_t at = below(&me->random, me->count);
    struct kept kept = me->live[at];
    me->live[at] = me->live[--me->count];
    return kept;
}

/* Moves the pages of the worker's shard, a few at a time. */
static void gather(struct worker *me) {
    struct teurlaks_gather_reply gathered;
    size_t from = 0;
    do {
        PATIENTLY(gathered, gathered.status, teurlaks_seat_gather(&me->seat, from, 4));
        WANT(gathered.status == TEURLAKS_OK && gathered.count <= 4);
        from += gathered.count;
    } while (gathered.count == 4);
}

/* Leaves sparse pages to the pool, or takes what is there. */
static void give_back(struct worker *me) {
    gather(me);
    struct teurlaks_trim_reply trimmed;
    PATIENTLY(trimmed, trimmed.status, teurlaks_seat_trim(&me->seat));
    WANT(trimmed.status == TEURLAKS_OK);
    struct teurlaks_retire_reply retired;
    PATIENTLY(retired, retired.status, teurlaks_seat_retire(&me->seat, 20));
    WANT(retired.status == TEURLAKS_OK || retired.status == TEURLAKS_PLAN_OPEN);
    if (me->number % 2) return;
    struct teurlaks_adopt_reply adopted;
    do PATIENTLY(adopted, adopted.status, teurlaks_seat_adopt(&me->seat));
    while (adopted.status == TEURLAKS_OK);
    WANT(adopted.status == TEURLAKS_NOTHING_TO_ADOPT || adopted.status == TEURLAKS_PLAN_OPEN);
}

/* Grows to as many as it aims at, and shrinks to a twentieth of that. What others give it may fill
 * its room before. */
static void put_or_free(struct worker *me) {
    if ((me->grows && me->count < MOST) || !me->count) {
        struct kept kept = {put(me), me->number};
        me->number++;
        hold(me, kept);
        me->grows = me->count < me->aim;
        return;
    }
    struct kept kept = take_any(me);
    finds(me, kept);
    if (kept.number % 2)
        free_now(me, kept.key);
    else
        free_later(me, kept.key);
    me->grows = me->count * 20 < me->aim;
    if (me->grows) {
        me->aim = 500 + below(&me->random, 2500);
        give_back(me);
    }
}

static void give(struct worker *me, struct inbox *to) {
    pthread_mutex_lock(&to->lock);
    if (to->count < MOST) to->kept[to->count++] = take_any(me);
    pthread_mutex_unlock(&to->lock);
}

static void take(struct worker *me) {
    pthread_mutex_lock(&me->inbox.lock);
    while (me->inbox.count && me->count < MOST) hold(me, me->inbox.kept[--me->inbox.count]);
    pthread_mutex_unlock(&me->inbox.lock);
}

static void tend(struct worker *me) {
    struct teurlaks_tend_reply reply;
    PATIENTLY(reply, reply.status, teurlaks_seat_tend(&me->seat));
    WANT(reply.status == TEURLAKS_OK);
}

static void *work(void *at) {
    struct worker *me = at;
    for (long round = 0; round < ROUNDS; round++) {
        /* A session is short, so that the others and the steward get on. */
        if (has_sessions(me) && round % 32 == 0) {
            uint32_t status;
            PATIENTLY(status, status, teurlaks_seat_session(&me->seat));
            WANT(status == TEURLAKS_OK && teurlaks_seat_session(&me->seat) == TEURLAKS_OK);
        }
        put_or_free(me);
        if (me->count) {
            finds(me, me->live[below(&me->random, me->count)]);
            set(me, &me->live[below(&me->random, me->count)]);
        }
        uint64_t to = below(&me->random, 16 * THREADS);
        if (to < THREADS && me->count) give(me, &workers[to].inbox);
        if (round % 64 == 0) take(me);
        if (round % 256 == 0) tend(me);
        if (has_sessions(me) && round % 32 == 24) WANT(paused(me) && paused(me));
    }
    WANT(paused(me));
    take(me);
    atomic_fetch_add(&ended, 1);
    return NULL;
}

/* The text of the last mark's certificate has the head that its format says. */
static void certificate(struct teurlaks_share_handle *steward) {
    static const char head[] = "meshcert 2\nabandoned ";
    struct teurlaks_certificate_reply asked = teurlaks_steward_certificate(steward, NULL, 0);
    WANT(asked.status == TEURLAKS_TOO_SMALL && asked.len > strlen(head));
    uint8_t *text = malloc(asked.len);
    WANT(text);
    struct teurlaks_certificate_reply told = teurlaks_steward_certificate(steward, text, asked.len);
    WANT(told.status == TEURLAKS_OK && told.len == asked.len && !memcmp(text, head, strlen(head)));
    free(text);
}

/* A mark, of all groups or of the sparsest, its steps and a close; it answers how many folds there
 * were. */
static size_t mesh(struct teurlaks_share_handle *steward, int sees_all) {
    struct teurlaks_mark_reply mark;
    struct teurlaks_step_reply step;
    uint32_t status;
    size_t folds = 0;
    PATIENTLY(mark, mark.status,
              sees_all ? teurlaks_steward_mark(steward) : teurlaks_steward_mark_some(steward));
    WANT(mark.status == TEURLAKS_OK);
    certificate(steward);
    do {
        PATIENTLY(step, step.status, teurlaks_steward_step(steward));
        folds += step.status == TEURLAKS_OK;
    } while (step.status == TEURLAKS_OK || step.status == TEURLAKS_EMPTIED);
    WANT(step.status == TEURLAKS_NO_PAIR_LEFT && folds <= mark.folds);
    PATIENTLY(status, status, teurlaks_steward_close(steward));
    WANT(status == TEURLAKS_OK);
    return folds;
}

/* Forgets what folds have brought and can never be live again. */
static void forget(struct teurlaks_share_handle *steward) {
    struct teurlaks_forget_reply reply;
    PATIENTLY(reply, reply.status, teurlaks_steward_forget(steward));
    WANT(reply.status == TEURLAKS_OK);
}

static struct teurlaks_arena_totals_reply totals(struct teurlaks_share_handle *steward) {
    struct teurlaks_arena_totals_reply reply;
    PATIENTLY(reply, reply.status, teurlaks_steward_totals(steward));
    WANT(reply.status == TEURLAKS_OK);
    return reply;
}

/* What is left when the threads are gone: what they have, and nothing that was left to a seat. The
 * first of them frees all of it. */
static void end(struct teurlaks_share_handle *steward) {
    size_t live = 0;
    for (int i = 0; i < THREADS; i++)
        WANT(teurlaks_seat_hand_over(&workers[i].seat) == TEURLAKS_OK);
    for (int i = 0; i < THREADS; i++) {
        tend(&workers[i]);
        live += workers[i].count + workers[i].inbox.count;
    }
    WANT(totals(steward).live == live);
    for (int i = 0; i < THREADS; i++) {
        for (size_t at = 0; at < workers[i].count; at++) {
            finds(&workers[0], workers[i].live[at]);
            free_now(&workers[0], workers[i].live[at].key);
        }
        for (size_t at = 0; at < workers[i].inbox.count; at++)
            free_now(&workers[0], workers[i].inbox.kept[at].key);
    }
    for (int i = 0; i < THREADS; i++) {
        WANT(teurlaks_seat_gather(&workers[i].seat, 0, SIZE_MAX).status == TEURLAKS_OK);
        WANT(teurlaks_seat_trim(&workers[i].seat).status == TEURLAKS_OK);
    }
    WANT(totals(steward).live == 0 && totals(steward).pages == 0);
}

int main(void) {
    struct teurlaks_share_handle steward = {0}, none = {0};
    WANT(teurlaks_arena_open(&steward, THREADS, 1024, 256, UINT32_MAX) == TEURLAKS_OK);
    for (int i = 0; i < THREADS; i++) {
        struct worker *worker = &workers[i];
        WANT(teurlaks_steward_seat(&steward, &worker->seat) == TEURLAKS_OK &&
             !pthread_mutex_init(&worker->inbox.lock, NULL));
        worker->grows = 1, worker->aim = 2000;
        worker->number = (uint64_t)i << 40, worker->random = 88172645463325252u + i;
    }
    WANT(teurlaks_steward_seat(&steward, &none) == TEURLAKS_NONE);
    for (int i = 0; i < THREADS; i++)
        WANT(!pthread_create(&workers[i].thread, NULL, work, &workers[i]));

    WANT(teurlaks_steward_certificate(&steward, NULL, 0).status == TEURLAKS_NONE);
    size_t folds = 0;
    for (int marks = 0; atomic_load(&ended) < THREADS; marks++) {
        folds += mesh(&steward, marks % 2);
        forget(&steward);
        nanosleep(&(struct timespec){0, 1000000}, NULL);
    }
    for (int i = 0; i < THREADS; i++) pthread_join(workers[i].thread, NULL);
    /* A short run has no sparse page. */
    WANT(folds > 0 || ROUNDS < 100000);
    end(&steward);
    printf("%d threads, %d rounds each, %zu folds\n", THREADS, ROUNDS, folds);

    /* In whatever order: the memory goes with the last one. */
    teurlaks_share_drop(&workers[0].seat);
    teurlaks_share_drop(&steward);
    for (int i = 1; i < THREADS; i++) {
        WANT(teurlaks_seat_begin(&workers[i].seat) == TEURLAKS_RUNNING);
        WANT(teurlaks_seat_end(&workers[i].seat) == TEURLAKS_OK &&
             teurlaks_seat_end(&workers[i].seat) == TEURLAKS_ENDED);
        WANT(teurlaks_seat_begin(&workers[i].seat) == TEURLAKS_OK &&
             teurlaks_seat_begin(&workers[i].seat) == TEURLAKS_RUNNING);
        teurlaks_share_drop(&workers[i].seat);
    }
    return 0;
}
