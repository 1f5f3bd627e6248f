/* What calls cost after pages have left a shard: `moved WHAT PAGES`.
 *
 * Look-ups are to be counted by callgrind, which collects `look_up` alone, and rounds of a free and
 * an insert likewise, of `replace`. It prints how many there were. A page has 256 values of 16
 * bytes. WHAT says which values, and what was done before:
 * - home: nothing has left;
 * - retired: one page was retired, and its values are left out;
 * - compacted: the sparser half was retired, folded and adopted again with one value in 11 live;
 * - ten: the same after ten rounds of filling up and compaction;
 * - guest, pool, abroad, stale: those of the sparser half, if that was folded, lies in the pool,
 *   was adopted by another shard, or was freed and forgotten.
 *
 * Else pages are full of 16 values of 256 zero bytes, and it prints microseconds of processor time,
 * the least of some rounds. WHAT is
 * - moves: retire one page, insert, adopt the page, insert;
 * - adopted: insert into a shard that has adopted so many full pages;
 * - walk, forgotten: the first live key, after so many pages were opened, left the shard and lost
 *   all keys; the second forgets them;
 * - adoptions: a shard with so many pages adopts ADOPTED others, whose heads are lower. Callgrind
 *   collects `adopt_all`. */
#include "common.h"
#include "teurlaks.h"

#include <string.h>
#include <time.h>

enum { SLOTS = 256, WIDE_SLOTS = 16, ROUNDS = 40, KEPT_OF = 11, TEN = 10, ADOPTED = 1000 };

static struct teurlaks_handle core;
static struct teurlaks_key *keys;
static size_t values;

static void say_where(void) { printf("moved"); }

static double now(void) {
    struct timespec time;
    clock_gettime(CLOCK_PROCESS_CPUTIME_ID, &time);
    return (double)time.tv_sec * 1e6 + (double)time.tv_nsec / 1e3;
}

/* Sets `least` to what was spent since `began`, if that is less. */
static void keep_least(double *least, double began) {
    double spent = now() - began;
    if (*least == 0 || spent < *least) *least = spent;
}

static struct teurlaks_key put(void) {
    struct teurlaks_put_reply reply = teurlaks_put(&core, 0, (struct teurlaks_word){1, 2});
    WANT(reply.status == TEURLAKS_OK);
    return reply.key;
}

/* Zeros take no memory beside their page's, so that there may be a million pages. */
static struct teurlaks_key put_wide(uint32_t shard) {
    static const struct teurlaks_word zeros[16];
    struct teurlaks_put_reply reply = teurlaks_put_words(&core, shard, zeros, 16);
    WANT(reply.status == TEURLAKS_OK);
    return reply.key;
}

static void let_go(struct teurlaks_key key) { WANT(teurlaks_free(&core, key) == TEURLAKS_OK); }

static void retire(size_t pages) {
    WANT(teurlaks_retire(&core, 0, (uint32_t)pages).count == pages);
}

static void make_keys(size_t count) {
    keys = malloc(count * sizeof *keys);
    WANT(keys != NULL);
}

static void fill(size_t pages) {
    while (values < pages * SLOTS) keys[values++] = put();
}

__attribute__((noinline)) void look_up(uint32_t status) {
    for (size_t value = 0; value < values; value++)
        WANT(teurlaks_get(&core, keys[value]).status == status);
}

/* Frees each value and inserts another. */
__attribute__((noinline)) void replace(void) {
    for (size_t value = 0; value < values; value++) {
        let_go(keys[value]);
        keys[value] = put();
    }
}

/* Frees all values but one in 11. */
static void thin_out(void) {
    size_t kept = 0;
    for (size_t value = 0; value < values; value++) {
        if (draw(KEPT_OF) == 0) keys[kept++] = keys[value];
        else let_go(keys[value]);
    }
    values = kept;
}

/* Frees each second value of the first half of the pages and three in four of the others, so that
 * these are the sparser ones and fit the others. Their keys are left. */
static void halve(size_t pages) {
    size_t kept = 0;
    for (size_t value = 0; value < values; value++) {
        int is_sparse = value >= pages / 2 * SLOTS;
        if (is_sparse ? value % 4 != 1 : value % 2 != 0) let_go(keys[value]);
        else if (is_sparse) keys[kept++] = keys[value];
    }
    values = kept;
    retire(pages / 2);
}

static size_t fold(void) {
    size_t folds = 0;
    WANT(teurlaks_mark_some(&core).status == TEURLAKS_OK);
    while (teurlaks_step(&core).status == TEURLAKS_OK) folds++;
    WANT(teurlaks_close(&core) == TEURLAKS_OK);
    return folds;
}

static void fold_all(void) {
    while (fold() > 0) continue;
}

static void adopt_by(uint32_t shard) {
    while (teurlaks_adopt(&core, shard).status == TEURLAKS_OK) continue;
}

static void forget(void) { WANT(teurlaks_forget(&core).status == TEURLAKS_OK); }

static void compact(size_t pages) {
    thin_out();
    retire(pages / 2);
    fold_all();
    adopt_by(0);
    forget();
}

static void refill(size_t pages) {
    for (int round = 1; round < TEN; round++) {
        compact(pages);
        fill(pages);
    }
    compact(pages);
}

static void free_all(void) {
    for (size_t value = 0; value < values; value++) let_go(keys[value]);
    forget();
}

static void retire_the_first(void) {
    let_go(keys[0]);
    retire(1);
    memmove(keys, keys + SLOTS, (values -= SLOTS) * sizeof *keys);
}

static int is(const char *what, const char *word) { return strcmp(what, word) == 0; }

/* The values of the sparser half are looked up, wherever that is now. */
static void look_up_sparse(const char *what, size_t pages) {
    halve(pages);
    if (is(what, "guest")) fold_all();
    if (is(what, "abroad")) adopt_by(1);
    if (is(what, "stale")) free_all();
    look_up(is(what, "stale") ? TEURLAKS_NONE : TEURLAKS_OK);
}

/* Whether WHAT is one of those whose look-ups are counted, which are then made. */
static int count_calls(const char *what, size_t pages) {
    int is_sparse = is(what, "guest") || is(what, "pool") || is(what, "abroad") || is(what, "stale");
    if (!is_sparse && !is(what, "home") && !is(what, "retired") && !is(what, "compacted") &&
        !is(what, "ten"))
        return 0;
    make_keys(pages * SLOTS);
    fill(pages);
    if (is(what, "retired")) retire_the_first();
    if (is(what, "compacted")) compact(pages);
    if (is(what, "ten")) refill(pages);
    if (is_sparse) look_up_sparse(what, pages);
    else look_up(TEURLAKS_OK);
    if (!is_sparse) replace();
    printf("%zu calls\n", values);
    return 1;
}

static void fill_wide(uint32_t shard, size_t pages) {
    for (size_t value = 0; value < pages * WIDE_SLOTS; value++) put_wide(shard);
}

/* Two values of the first page are freed, so that it leaves, and one of the last page. */
static void moves(size_t pages) {
    double retired = 0, inserted = 0, adopted = 0, inserted_again = 0, began;
    make_keys(3);
    keys[0] = put_wide(0);
    keys[1] = put_wide(0);
    for (size_t value = 2; value < pages * WIDE_SLOTS; value++) keys[2] = put_wide(0);
    for (int round = 0; round < ROUNDS; round++) {
        for (int at = 0; at < 3; at++) let_go(keys[at]);
        began = now();
        retire(1);
        keep_least(&retired, began);
        began = now();
        keys[2] = put_wide(0);
        keep_least(&inserted, began);
        began = now();
        WANT(teurlaks_adopt(&core, 0).status == TEURLAKS_OK);
        keep_least(&adopted, began);
        began = now();
        keys[0] = put_wide(0);
        keep_least(&inserted_again, began);
        keys[1] = put_wide(0);
    }
    printf("%.1f %.1f %.1f %.1f\n", retired, inserted, adopted, inserted_again);
}

__attribute__((noinline)) void adopt_all(size_t pages) {
    for (size_t page = 0; page < pages; page++)
        WANT(teurlaks_adopt(&core, 1).status == TEURLAKS_OK);
}

static void put_where_all_were_adopted(size_t pages) {
    double least = 0;
    fill_wide(0, pages);
    WANT(teurlaks_end(&core, 0) == TEURLAKS_OK);
    adopt_all(pages);
    put_wide(1);
    for (int round = 0; round < ROUNDS && round < WIDE_SLOTS - 1; round++) {
        double began = now();
        put_wide(1);
        keep_least(&least, began);
    }
    printf("%.1f\n", least);
}

static void adoptions(size_t pages) {
    fill_wide(1, pages);
    fill_wide(0, ADOPTED);
    WANT(teurlaks_end(&core, 0) == TEURLAKS_OK);
    adopt_all(ADOPTED);
    printf("%d calls\n", ADOPTED);
}

static void walk(size_t pages, int forgets) {
    double least = 0;
    for (size_t page = 0; page < pages; page++) {
        struct teurlaks_key key = put_wide(0);
        retire(1);
        let_go(key);
        if (forgets && page % SLOTS == 0) forget();
    }
    if (forgets) forget();
    put_wide(0);
    for (int round = 0; round < ROUNDS; round++) {
        double began = now();
        WANT(teurlaks_next(&core, (struct teurlaks_key){0}).status == TEURLAKS_OK);
        keep_least(&least, began);
    }
    printf("%.1f\n", least);
}

int main(int count, char **words) {
    if (count != 3) return 2;
    const char *what = words[1];
    size_t pages = strtoull(words[2], NULL, 10);
    uint32_t most = (uint32_t)(pages + ADOPTED < 1048576 ? pages + ADOPTED : 1048576);
    WANT(teurlaks_new(&core, 2, most, 1, UINT32_MAX) == TEURLAKS_OK);
    if (count_calls(what, pages)) return 0;
    if (is(what, "moves")) moves(pages);
    else if (is(what, "adopted")) put_where_all_were_adopted(pages);
    else if (is(what, "adoptions")) adoptions(pages);
    else walk(pages, is(what, "forgotten"));
    return 0;
}
