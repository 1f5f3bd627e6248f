/* Threads that come and go at one arena: `relay THREADS [VALUES]`. Eight seats pass from thread to
 * thread. Each thread begins its shard, puts so many values and frees nine of ten, hands the others
 * to those that come after it, frees as many that came from those before it, looks all of these and
 * some freed keys up, and ends its shard. A steward marks, folds and forgets beside them. After the
 * first tenth of the threads, and then each tenth, it prints a line: threads so far, spans that all
 * shards have opened, pages, live values, resident kilobytes; at its end how much more is resident
 * than after the first tenth. */
#include "common.h"
#include "teurlaks.h"

#include <inttypes.h>
#include <pthread.h>
#include <sched.h>
#include <stdatomic.h>
#include <threads.h>
#include <time.h>

enum {
    SEATS = 8,
    MOST_VALUES = 65536,
    KEPT_OF = 10,
    MOST_WAITING = 1 << 17,
    SETTLED = 20000,
    STALE = 1024,
    TENTHS = 10
};

struct held {
    struct teurlaks_key key;
    uint64_t value;
};

/* A seat, and the thread that has it. */
struct place {
    struct teurlaks_share_handle seat;
    pthread_t thread;
    uint64_t number, drawn, spans;
};

static struct place places[SEATS];
static struct teurlaks_share_handle steward;
static pthread_mutex_t turn = PTHREAD_MUTEX_INITIALIZER;
/* What threads have left to those after them, in no order, and some keys that are freed. */
static struct held waiting[MOST_WAITING];
static size_t waiting_count;
static struct teurlaks_key stale[STALE];
static uint64_t stale_count, folds, forgotten;
static size_t values = 4000;
static atomic_int is_over;

static void say_where(void) { printf("relay"); }

/* The call, again and again while another thread has a lock that it needs. */
#define PATIENTLY(reply, status, call)                                                             \
    do reply = call;                                                                               \
    while ((status) == TEURLAKS_BUSY && !sched_yield())

static struct held put(struct place *me) {
    struct held held = {.value = draw_of(&me->drawn, UINT64_MAX)};
    struct teurlaks_word word = {held.value, ~held.value};
    struct teurlaks_put_reply reply;
    PATIENTLY(reply, reply.status, teurlaks_seat_put_words(&me->seat, &word, 1));
    WANT(reply.status == TEURLAKS_OK);
    if (reply.key.serial >= me->spans) me->spans = (uint64_t)reply.key.serial + 1;
    held.key = reply.key;
    return held;
}

static void finds(struct place *me, struct held held) {
    struct teurlaks_word words[16];
    struct teurlaks_words_reply reply;
    PATIENTLY(reply, reply.status, teurlaks_seat_get_words(&me->seat, held.key, words, 16));
    WANT(reply.status == TEURLAKS_OK && reply.len == 1 && words[0].low == held.value &&
         words[0].high == ~held.value);
}

static uint32_t free_key(struct place *me, struct teurlaks_key key) {
    uint32_t status;
    PATIENTLY(status, status, teurlaks_seat_free(&me->seat, key));
    return status;
}

/* Leaves a value to those that come after, and takes another one in its place once there are
 * enough. */
static int hand_on(struct place *me, struct held held, struct held *other) {
    int swaps;
    pthread_mutex_lock(&turn);
    swaps = waiting_count >= SETTLED;
    if (swaps) {
        size_t at = draw_of(&me->drawn, waiting_count);
        *other = waiting[at];
        waiting[at] = held;
    } else {
        waiting[waiting_count++] = held;
    }
    pthread_mutex_unlock(&turn);
    return swaps;
}

/* Keeps the key of a value that was freed, and says which other one was kept before it. */
static int keep_stale(struct teurlaks_key key, struct teurlaks_key *before) {
    int had;
    pthread_mutex_lock(&turn);
    had = stale_count >= STALE;
    *before = stale[stale_count % STALE];
    stale[stale_count++ % STALE] = key;
    pthread_mutex_unlock(&turn);
    return had;
}

static void *visit(void *place) {
    struct place *me = place;
    struct held *own = malloc(values * sizeof *own), other;
    struct teurlaks_key before;
    uint32_t status;
    WANT(own);
    PATIENTLY(status, status, teurlaks_seat_begin(&me->seat));
    WANT(status == TEURLAKS_OK || status == TEURLAKS_RUNNING);
    for (size_t at = 0; at < values; at++) own[at] = put(me);
    for (size_t left = values; left > values / KEPT_OF; left--) {
        size_t at = draw_of(&me->drawn, left);
        finds(me, own[at]);
        WANT(free_key(me, own[at].key) == TEURLAKS_OK);
        own[at] = own[left - 1];
    }
    for (size_t at = 0; at < values / KEPT_OF; at++) {
        finds(me, own[at]);
        if (!hand_on(me, own[at], &other)) continue;
        finds(me, other);
        WANT(free_key(me, other.key) == TEURLAKS_OK);
        if (keep_stale(other.key, &before)) WANT(free_key(me, before) == TEURLAKS_NONE);
    }
    do {
        status = teurlaks_seat_end(&me->seat);
    } while ((status == TEURLAKS_BUSY || status == TEURLAKS_PLAN_OPEN) && !sched_yield());
    WANT(status == TEURLAKS_OK);
    free(own);
    return NULL;
}

/* Marks, folds and forgets, until all threads have come and gone. */
static void *fold(void *none) {
    struct teurlaks_mark_reply mark;
    struct teurlaks_step_reply step;
    struct teurlaks_forget_reply forgot;
    uint32_t status;
    while (!atomic_load(&is_over)) {
        PATIENTLY(mark, mark.status, teurlaks_steward_mark_some(&steward));
        WANT(mark.status == TEURLAKS_OK);
        do {
            PATIENTLY(step, step.status, teurlaks_steward_step(&steward));
            folds += step.status == TEURLAKS_OK;
        } while (step.status == TEURLAKS_OK || step.status == TEURLAKS_EMPTIED);
        WANT(step.status == TEURLAKS_NO_PAIR_LEFT);
        PATIENTLY(status, status, teurlaks_steward_close(&steward));
        WANT(status == TEURLAKS_OK);
        PATIENTLY(forgot, forgot.status, teurlaks_steward_forget(&steward));
        WANT(forgot.status == TEURLAKS_OK);
        forgotten += forgot.count;
        thrd_sleep(&(struct timespec){.tv_nsec = 2000000}, NULL);
    }
    return none;
}

/* Waits until the thread at each place is gone. */
static void wait_for_all(size_t most) {
    for (size_t at = 0; at < most; at++) pthread_join(places[at].thread, NULL);
}

static void tell(uint64_t threads) {
    struct teurlaks_arena_totals_reply totals;
    uint64_t spans = 0;
    for (size_t at = 0; at < SEATS; at++) spans += places[at].spans;
    /* The steward's handle is of its thread: a line is printed between its runs. */
    PATIENTLY(totals, totals.status, teurlaks_steward_totals(&steward));
    WANT(totals.status == TEURLAKS_OK && totals.live == waiting_count);
    printf("relay: %" PRIu64 " threads, %" PRIu64 " spans, %zu pages, %zu live, %" PRIu64
           " folds, %" PRIu64 " forgotten, %ld KB resident\n",
           threads, spans, totals.pages, totals.live, folds, forgotten, resident());
    fflush(stdout);
}

/* So many threads, of which each place has one at a time, beside the steward. */
static void relay(uint64_t first, uint64_t count) {
    pthread_t folder;
    atomic_store(&is_over, 0);
    WANT(!pthread_create(&folder, NULL, fold, NULL));
    for (uint64_t number = 0; number < count; number++) {
        struct place *place = &places[number % SEATS];
        if (number >= SEATS) pthread_join(place->thread, NULL);
        place->number = first + number;
        WANT(!pthread_create(&place->thread, NULL, visit, place));
    }
    wait_for_all(count < SEATS ? count : SEATS);
    atomic_store(&is_over, 1);
    pthread_join(folder, NULL);
}

int main(int count, char **words) {
    uint64_t wanted = count > 1 ? strtoull(words[1], NULL, 10) : 10000;
    long first = 0;
    if (count > 2) values = strtoull(words[2], NULL, 10);
    if (wanted < TENTHS || values < KEPT_OF || values > MOST_VALUES) return 2;
    WANT(teurlaks_arena_open(&steward, SEATS, 1024, 1, UINT32_MAX) == TEURLAKS_OK);
    for (size_t at = 0; at < SEATS; at++) {
        WANT(teurlaks_steward_seat(&steward, &places[at].seat) == TEURLAKS_OK);
        places[at].drawn = at + 1;
    }
    for (uint64_t tenth = 0; tenth < TENTHS; tenth++) {
        relay(tenth * (wanted / TENTHS), wanted / TENTHS);
        tell((tenth + 1) * (wanted / TENTHS));
        if (first == 0) first = resident();
    }
    printf("relay: %.3f of what was resident after the first tenth\n",
           (double)resident() / (double)first);
    for (size_t at = 0; at < SEATS; at++) teurlaks_share_drop(&places[at].seat);
    teurlaks_share_drop(&steward);
    return 0;
}
