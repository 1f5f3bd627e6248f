/* Compactions of a core by parts of several budgets, and with each allocation failing in turn. Link
 * it with -Wl,--wrap=malloc,--wrap=realloc. */
#include "failing.h"
#include "teurlaks.h"
#include "wanted.h"
#include <stdio.h>
#include <stdlib.h>
#include <string.h>

/* Pages of 16 objects, of which some stay. */
enum { SHARDS = 3, PAGES = 90, SLOTS = 16, OBJECTS = PAGES * SLOTS };

static struct teurlaks_key keys[OBJECTS];
static int is_live[OBJECTS];

/* Whether the object of this number stays: of each page so many do, at other slots than on the page
 * before. */
static int stays(unsigned number, unsigned of_a_page) {
    return (number / SLOTS * 7 + number * 5) % SLOTS < of_a_page;
}

/* A core whose pages were full, and of which so many objects a page are left. */
static void fill(struct teurlaks_handle *core, unsigned of_a_page) {
    WANT(teurlaks_new(core, SHARDS, PAGES, 1, 9) == TEURLAKS_OK);
    for (unsigned number = 0; number < OBJECTS; number++) {
        struct teurlaks_word words[16] = {{number, 1}};
        struct teurlaks_put_reply put =
            teurlaks_put_words(core, number / SLOTS % SHARDS, words, 16);
        WANT(put.status == TEURLAKS_OK);
        keys[number] = put.key;
        is_live[number] = 1;
    }
    for (unsigned number = 0; number < OBJECTS; number++) {
        if (stays(number, of_a_page)) continue;
        WANT(teurlaks_free(core, keys[number]) == TEURLAKS_OK);
        is_live[number] = 0;
    }
}

/* Each key finds its own object, or nothing once it was freed. */
static void look(struct teurlaks_handle *core) {
    for (unsigned number = 0; number < OBJECTS; number++) {
        struct teurlaks_word words[16];
        struct teurlaks_words_reply got = teurlaks_get_words(core, keys[number], words, 16);
        WANT(got.status == (is_live[number] ? TEURLAKS_OK : TEURLAKS_NONE));
        WANT(!is_live[number] || (words[0].low == number && words[0].high == 1));
    }
}

/* Compacts by parts, and answers how many there were. A part that is refused memory is asked for
 * once more. The counts are those of the totals. */
static unsigned long compact(struct teurlaks_handle *core, size_t budget) {
    unsigned long parts = 0;
    struct teurlaks_compact_reply compacted;
    do {
        size_t was = teurlaks_totals(core).pages;
        compacted = teurlaks_compact_within(core, budget);
        WANT(compacted.status == TEURLAKS_OK ||
             (compacted.status == TEURLAKS_OUT_OF_MEMORY && compacted.more && has_failed));
        WANT(was == teurlaks_totals(core).pages + compacted.pages);
        if (parts % 16 == 0) look(core);
        WANT(++parts < 1000000);
    } while (compacted.more);
    look(core);
    WANT(teurlaks_close(core) == TEURLAKS_NO_PLAN);
    return parts;
}

/* How many pages are left of a core by compactions within the budget. */
static size_t pages_left(unsigned of_a_page, size_t budget) {
    struct teurlaks_handle core = {0};
    fill(&core, of_a_page);
    WANT(teurlaks_totals(&core).pages == PAGES);
    compact(&core, budget);
    size_t pages = teurlaks_totals(&core).pages;
    teurlaks_drop(&core);
    return pages;
}

/* Steps one by one, of which each fold is told, and takes one page. */
static void by_steps(void) {
    struct teurlaks_handle core = {0};
    fill(&core, 3);
    struct teurlaks_advance_reply advanced;
    size_t folds = 0;
    do {
        size_t was = teurlaks_totals(&core).pages;
        advanced = teurlaks_compaction_step(&core, 9, 1000);
        WANT(advanced.status == TEURLAKS_OK && 1 <= advanced.cost && advanced.cost <= 9);
        WANT(teurlaks_totals(&core).pages == was - advanced.folded);
        folds += advanced.folded;
    } while (advanced.more);
    WANT(folds > PAGES / 2);
    look(&core);
    WANT(teurlaks_compaction_step(&core, 9, 9).more == 1);
    WANT(teurlaks_compaction_give_up(&core) == TEURLAKS_OK);
    teurlaks_drop(&core);
}

/* What a caller does with plans of its own. */
static void plans_of_a_caller(void) {
    struct teurlaks_handle core = {0};
    fill(&core, 3);
    WANT(teurlaks_compact_within(&core, 0).more == 1 && teurlaks_totals(&core).pages == PAGES);
    /* A plan that is open refuses the first step, until it is closed. */
    WANT(teurlaks_retire(&core, 0, 9).count == 9 && teurlaks_mark(&core).status == TEURLAKS_OK);
    struct teurlaks_compact_reply compacted = teurlaks_compact_within(&core, 9);
    WANT(compacted.status == TEURLAKS_PLAN_OPEN && compacted.more == 1 && compacted.pages == 0);
    WANT(teurlaks_close(&core) == TEURLAKS_OK);
    compact(&core, 50);
    size_t pages = teurlaks_totals(&core).pages;
    WANT(pages < PAGES / 3 && teurlaks_adopt(&core, 0).status == TEURLAKS_NOTHING_TO_ADOPT);
    /* A shard that has ended is none for what is left, the others are. */
    WANT(teurlaks_end(&core, 1) == TEURLAKS_OK);
    compact(&core, 1000);
    WANT(teurlaks_totals(&core).pages <= pages &&
         teurlaks_adopt(&core, 0).status == TEURLAKS_NOTHING_TO_ADOPT);
    teurlaks_drop(&core);
}

/* A core is compacted if so many percent of its pages could go, and not again behind that. */
static void if_it_pays(void) {
    struct teurlaks_handle core = {0};
    fill(&core, SLOTS);
    struct teurlaks_compact_reply compacted = teurlaks_compact_if_pays(&core, 1);
    WANT(compacted.status == TEURLAKS_OK && compacted.more == 0 && compacted.pages == 0);
    teurlaks_drop(&core);
    fill(&core, 3);
    compacted = teurlaks_compact_if_pays(&core, 100);
    WANT(compacted.status == TEURLAKS_OK && compacted.more == 0 && compacted.pages == 0);
    WANT(teurlaks_retire(&core, 0, 9).count == 9 && teurlaks_mark(&core).status == TEURLAKS_OK);
    compacted = teurlaks_compact_if_pays(&core, 75);
    WANT(compacted.status == TEURLAKS_PLAN_OPEN && compacted.more == 1 && compacted.pages == 0);
    WANT(teurlaks_close(&core) == TEURLAKS_OK && teurlaks_totals(&core).pages == PAGES);
    compacted = teurlaks_compact_if_pays(&core, 75);
    WANT(compacted.status == TEURLAKS_OK && compacted.more == 0 && compacted.pages > PAGES / 2);
    look(&core);
    size_t left = PAGES - compacted.pages;
    WANT(teurlaks_totals(&core).pages == left);
    WANT(teurlaks_compact_if_pays(&core, 1).pages == 0 && teurlaks_totals(&core).pages == left);
    /* What is under way goes on. */
    WANT(teurlaks_compact_within(&core, 1).more == 1);
    WANT(teurlaks_compact_if_pays(&core, 100).more == 0);
    WANT(teurlaks_compaction_step(&core, 1, 1).more == 1);
    teurlaks_drop(&core);
}

/* Pages of one object each, of which the first half is freed, are told by every other one; and they
 * are trimmed in parts, each of so many. */
static void of_many_pages(void) {
    enum { MANY = 6001, PART = 64 };
    static struct teurlaks_key of_pages[MANY];
    struct teurlaks_handle core = {0};
    WANT(teurlaks_new_with_slots(&core, 1, MANY, MANY, 1, 1, 9) == TEURLAKS_OK);
    for (unsigned number = 0; number < MANY; number++) {
        struct teurlaks_put_reply put = teurlaks_put(&core, 0, (struct teurlaks_word){number, 0});
        WANT(put.status == TEURLAKS_OK);
        of_pages[number] = put.key;
        struct teurlaks_totals_reply about = teurlaks_estimate(&core);
        size_t pages = number < 4096 ? number + 1 : (number + 2) / 2 * 2;
        WANT(about.pages == pages && about.live == pages);
    }
    for (unsigned number = 0; number < MANY / 2; number++) {
        WANT(teurlaks_free(&core, of_pages[number]) == TEURLAKS_OK);
    }
    struct teurlaks_totals_reply about = teurlaks_estimate(&core);
    WANT(about.pages == MANY + 1 && about.live == MANY + 1 - MANY / 2);
    /* Some pages must stay, so not all can go. */
    WANT(teurlaks_compact_if_pays(&core, 100).pages == 0);
    size_t from = 0;
    struct teurlaks_trim_part_reply part;
    do {
        part = teurlaks_trim_some(&core, 0, from, PART);
        size_t idle = from < MANY / 2 ? MANY / 2 - from : 0;
        WANT(part.status == TEURLAKS_OK && part.pages == (idle < PART ? idle : PART));
        from += part.groups;
    } while (part.groups == PART);
    WANT(from == MANY && teurlaks_trim_some(&core, 0, from, PART).groups == 0);
    WANT(teurlaks_trim_some(&core, 1, 0, PART).status == TEURLAKS_CONFIG);
    WANT(teurlaks_totals(&core).pages == MANY - MANY / 2);
    teurlaks_drop(&core);
}

/* One compaction with an allocation failing, if it pays or in parts; whether one did. */
static int failing_after(long allocations, int if_it_pays) {
    struct teurlaks_handle core = {0};
    fill(&core, 2);
    before_failure = allocations;
    has_failed = 0;
    if (if_it_pays) {
        struct teurlaks_compact_reply first = teurlaks_compact_if_pays(&core, 50);
        WANT((first.status == TEURLAKS_OK && !first.more) ||
             (first.status == TEURLAKS_OUT_OF_MEMORY && first.more && has_failed));
        look(&core);
    }
    compact(&core, 40);
    before_failure = -1;
    WANT(teurlaks_totals(&core).pages < PAGES / 3);
    teurlaks_drop(&core);
    return has_failed;
}

int main(void) {
    const size_t budgets[] = {1, 7, 64, 1000, (size_t)-1};
    for (size_t i = 0; i < sizeof budgets / sizeof *budgets; i++) {
        for (unsigned of_a_page = 0; of_a_page <= SLOTS; of_a_page++) {
            size_t pages = pages_left(of_a_page, budgets[i]),
                   least = (PAGES * of_a_page + SLOTS - 1) / SLOTS;
            WANT(least <= pages && pages <= PAGES && (of_a_page > 3 || pages <= 2 * least));
        }
    }
    by_steps();
    plans_of_a_caller();
    if_it_pays();
    of_many_pages();
    long runs = 0, of_parts = 0;
    while (failing_after(runs, 1)) runs++;
    while (failing_after(of_parts, 0)) of_parts++;
    runs += of_parts;
    printf("cores were compacted, and with each of %ld allocations failing in turn\n", runs);
    return 0;
}
