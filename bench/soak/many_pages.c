/* One shard of many pages: `many_pages PAGES`. It fills that many pages of 256 values of 16 bytes,
 * puts and frees and looks up at random, leaves one value in 25, retires the sparser half of the
 * pages, and folds it onto the others by marks of some, until a mark folds nothing. It prints a
 * line for each, with nanoseconds a call or milliseconds, and beside them resident kilobytes. */
#include "common.h"
#include "teurlaks.h"

#include <time.h>

enum { SLOTS = 256, CALLS = 4000000, KEPT_OF = 25 };

static struct teurlaks_handle core;
static uint8_t *generations;
static uint64_t values;
static const char *at = "new pages";

static void say_where(void) { printf("many_pages, after %s", at); }

static double now(void) {
    struct timespec time;
    clock_gettime(CLOCK_PROCESS_CPUTIME_ID, &time);
    return (double)time.tv_sec * 1e9 + (double)time.tv_nsec;
}

static void tell(const char *what, double spent, const char *unit) {
    printf("%-28s %12.1f %-10s %9ld KB, %zu pages\n", what, spent, unit, resident(),
           teurlaks_totals(&core).pages);
    fflush(stdout);
    at = what;
}

/* The key of a value: the serials and slots go up as the shard is filled. */
static struct teurlaks_key key_of(uint64_t value) {
    return (struct teurlaks_key){.serial = (uint32_t)(value / SLOTS),
                                 .slot = (uint8_t)(value % SLOTS),
                                 .generation = generations[value]};
}

static void put_one(void) {
    struct teurlaks_put_reply reply = teurlaks_put(&core, 0, (struct teurlaks_word){1, 2});
    WANT(reply.status == TEURLAKS_OK);
    generations[(uint64_t)reply.key.serial * SLOTS + reply.key.slot] =
        (uint8_t)reply.key.generation;
}

static void look_up(void) {
    double began = now();
    for (int call = 0; call < CALLS; call++)
        WANT(teurlaks_get(&core, key_of(draw(values))).status == TEURLAKS_OK);
    tell("look-up at random", (now() - began) / CALLS, "ns");
}

/* In each shard all slots are taken but the one that was freed just before. */
static void churn(void) {
    double began = now();
    for (int call = 0; call < CALLS; call++) {
        WANT(teurlaks_free(&core, key_of(draw(values))) == TEURLAKS_OK);
        put_one();
    }
    tell("a free at random and a put", (now() - began) / CALLS, "ns");
}

/* A hundredth of the values go, and then as many come. */
static void burst(void) {
    uint64_t gone = 0, wanted = values / 100;
    for (uint64_t value = draw(100); value < values; value += 100)
        gone += teurlaks_free(&core, key_of(value)) == TEURLAKS_OK;
    double began = now();
    for (uint64_t put = 0; put < gone; put++) put_one();
    WANT(gone + 1 >= wanted);
    tell("a put, one in 100 slots free", (now() - began) / (double)gone, "ns");
}

static void thin_out(void) {
    double began = now();
    for (uint64_t value = 0; value < values; value++)
        if (draw(KEPT_OF) != 0) WANT(teurlaks_free(&core, key_of(value)) == TEURLAKS_OK);
    tell("a free in order", (now() - began) / (double)values, "ns");
}

static size_t fold(void) {
    size_t folds = 0;
    struct teurlaks_step_reply step;
    WANT(teurlaks_mark_some(&core).status == TEURLAKS_OK);
    while ((step = teurlaks_step(&core)).status == TEURLAKS_OK) folds++;
    WANT(step.status == TEURLAKS_NO_PAIR_LEFT && teurlaks_close(&core) == TEURLAKS_OK);
    return folds;
}

static void compact(size_t pages) {
    double began = now();
    struct teurlaks_retire_reply retired = teurlaks_retire(&core, 0, pages / 2);
    WANT(retired.status == TEURLAKS_OK && retired.count == pages / 2);
    tell("retire half", (now() - began) / 1e6, "ms");
    began = now();
    size_t marks = 1, folds = 0, last;
    for (; (last = fold()) > 0; marks++) folds += last;
    tell("fold it, by marks of some", (now() - began) / 1e6, "ms");
    began = now();
    size_t adopted = 0;
    while (teurlaks_adopt(&core, 0).status == TEURLAKS_OK) adopted++;
    tell("adopt what is left", (now() - began) / 1e6, "ms");
    printf("%zu marks, %zu folds, %zu adopted\n", marks, folds, adopted);
}

int main(int count, char **words) {
    drawn = 1;
    size_t pages = count > 1 ? strtoull(words[1], NULL, 10) : 1000;
    values = (uint64_t)pages * SLOTS;
    generations = malloc(values);
    if (!generations) return 2;
    WANT(teurlaks_new(&core, 1, (uint32_t)pages, 1, UINT32_MAX) == TEURLAKS_OK);
    double began = now();
    for (uint64_t value = 0; value < values; value++) put_one();
    tell("a put into new pages", (now() - began) / (double)values, "ns");
    look_up();
    churn();
    burst();
    thin_out();
    compact(pages);
    teurlaks_drop(&core);
    free(generations);
    return 0;
}
