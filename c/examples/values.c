/* A store of values of 1 byte to 64 KB, whose keys the core gives out and whose bytes are this
 * program's own. It keeps 4,000 values, erases nine in ten, and compacts. Then it says how much
 * memory is resident, before and after, and that every value that stayed is what it was.
 *
 * The core keeps an object of zeros under each key, which takes no memory. So it tells which keys
 * are live and which pages fold, and the bytes stand beside its pages:
 *
 *   spans, by serial:  0 ──► page ◄── 7      span 0 was folded onto the page of span 7
 *                            │
 *   slots:                   | bytes | free | bytes | ..    each as long as the page's size says
 *
 * A page has values of one size: 1 KB, 2 KB, .. or 64 KB. The objects of each size have a number of
 * words of their own, so that the core folds only pages of one size. The more words an object has,
 * the fewer slots a page has, and the sooner two sparse pages fit.
 *
 * A key finds nothing once its value is erased, whatever takes its slot. It stays what it is while
 * pages are folded. For a fold the core names the two pages, and the program copies the bytes from
 * the one to the same slots of the other. (Of slots that are whole pages of the system, each could
 * also be given back by madvise when its value is erased.)
 *
 * Build it, at the top of the repository, once `rt lib` has made the archive:
 *
 *   cc -Ic c/examples/values.c c/pages.c crates/teurlaks_c/out/libteurlaks_c.a -pthread */
#define _GNU_SOURCE
#include "teurlaks.h"
#include <stdio.h>
#include <stdlib.h>
#include <string.h>
#include <sys/mman.h>
#include <unistd.h>

#define NO_SPAN UINT32_MAX

enum { LEAST = 1024, SIZES = 7, MOST = LEAST << (SIZES - 1), PAGE_WORDS = 256, MOST_SLOTS = 25 };
enum { VALUES = 4000, PAGES = 4096, BUDGET = 64 };

/* A page of values: slots of equal size, and how many bytes of each are in use. */
struct page {
    unsigned char *bytes;
    size_t slots, bytes_of_slot, used[MOST_SLOTS];
    unsigned live;
    /* The serial of a span on this page. */
    uint32_t first;
};

/* A span: the page that it is on, if a value is there, and the next span on that page. */
struct span {
    struct page *page;
    uint32_t next;
};

/* The spans stand by their serials, since all are of one shard. */
struct store {
    struct teurlaks_handle core;
    struct span *spans;
    size_t count;
};

/* How many words the object beside a value of this size has. */
static size_t words_of(unsigned size) { return 16 - size; }

/* Makes room for the span, and for its page if it has none. */
static struct page *open_page(struct store *store, uint32_t serial, unsigned size) {
    if (serial >= store->count) {
        size_t count = 2 * (size_t)serial + 16;
        struct span *spans = realloc(store->spans, count * sizeof *spans);
        if (!spans) return NULL;
        memset(spans + store->count, 0, (count - store->count) * sizeof *spans);
        store->spans = spans;
        store->count = count;
    }
    struct span *span = &store->spans[serial];
    if (span->page) return span->page;
    struct page *page = calloc(1, sizeof *page);
    if (!page) return NULL;
    page->bytes_of_slot = (size_t)LEAST << size;
    page->slots = PAGE_WORDS / words_of(size);
    page->first = serial;
    page->bytes = mmap(NULL, page->slots * page->bytes_of_slot, PROT_READ | PROT_WRITE,
                       MAP_PRIVATE | MAP_ANONYMOUS, -1, 0);
    if (page->bytes == MAP_FAILED) {
        free(page);
        return NULL;
    }
    span->next = NO_SPAN;
    return span->page = page;
}

/* Gives back a page without a value. Its spans have none then. */
static void close_page(struct store *store, struct page *page) {
    for (uint32_t at = page->first; at != NO_SPAN; at = store->spans[at].next)
        store->spans[at].page = NULL;
    munmap(page->bytes, page->slots * page->bytes_of_slot);
    free(page);
}

static unsigned char *bytes_at(const struct page *page, size_t slot) {
    return page->bytes + slot * page->bytes_of_slot;
}

/* Keeps a copy of 1 byte to 64 KB under a new key. */
static uint32_t store_put(struct store *store, const void *bytes, size_t len,
                          struct teurlaks_key *key) {
    static const struct teurlaks_word zeros[16];
    unsigned size = 0;
    if (len == 0 || len > MOST) return TEURLAKS_CONFIG;
    while (len > (size_t)LEAST << size) size++;
    struct teurlaks_put_reply put = teurlaks_put_words(&store->core, 0, zeros, words_of(size));
    if (put.status != TEURLAKS_OK) return put.status;
    struct page *page = open_page(store, put.key.serial, size);
    if (!page) {
        teurlaks_free(&store->core, put.key);
        return TEURLAKS_OUT_OF_MEMORY;
    }
    memcpy(bytes_at(page, put.key.slot), bytes, len);
    page->used[put.key.slot] = len;
    page->live++;
    *key = put.key;
    return TEURLAKS_OK;
}

/* The value of the key, and how many bytes it has; NULL if the key is not live. It stays there
 * until the next compaction. */
static void *store_get(struct store *store, struct teurlaks_key key, size_t *len) {
    if (teurlaks_contains(&store->core, key) != TEURLAKS_OK) return NULL;
    struct page *page = store->spans[key.serial].page;
    *len = page->used[key.slot];
    return bytes_at(page, key.slot);
}

/* Erases the value of the key, for ever. */
static uint32_t store_erase(struct store *store, struct teurlaks_key key) {
    uint32_t status = teurlaks_free(&store->core, key);
    if (status != TEURLAKS_OK) return status;
    struct page *page = store->spans[key.serial].page;
    page->used[key.slot] = 0;
    if (--page->live == 0) close_page(store, page);
    return TEURLAKS_OK;
}

/* The spans of the one page are on the other page from now on, and so are the values. No slot has a
 * value on both. */
static void follow(struct store *store, uint32_t abandoned, uint32_t owned) {
    struct page *from = store->spans[abandoned].page, *to = store->spans[owned].page;
    if (!to) {
        /* Its last value was erased since the plan was made: it takes the other's page over. */
        store->spans[owned] = (struct span){from, from->first};
        from->first = owned;
        return;
    }
    for (size_t slot = 0; slot < from->slots; slot++) {
        if (!from->used[slot]) continue;
        memcpy(bytes_at(to, slot), bytes_at(from, slot), from->used[slot]);
        to->used[slot] = from->used[slot];
    }
    to->live += from->live;
    uint32_t first = from->first, last = first;
    while (store->spans[last].next != NO_SPAN) last = store->spans[last].next;
    close_page(store, from);
    for (uint32_t at = first; at != NO_SPAN; at = store->spans[at].next) store->spans[at].page = to;
    store->spans[last].next = to->first;
    to->first = first;
}

/* Takes so many steps of a compaction, at least one, and says by `more` whether there are further
 * ones. A program calls it between its other work. */
static uint32_t store_compact(struct store *store, size_t budget, uint32_t *more) {
    struct teurlaks_advance_reply step;
    size_t left = budget;
    do {
        step = teurlaks_compaction_step(&store->core, left, budget);
        *more = step.more;
        if (step.status != TEURLAKS_OK) return step.status;
        if (step.folded) follow(store, step.abandoned.serial, step.owned.serial);
        left -= step.cost;
    } while (step.more && left > 0);
    return TEURLAKS_OK;
}

/* Drops the core and all values. */
static void store_drop(struct store *store) {
    for (size_t serial = 0; serial < store->count; serial++)
        if (store->spans[serial].page) close_page(store, store->spans[serial].page);
    free(store->spans);
    teurlaks_drop(&store->core);
}

static size_t resident_kilobytes(void) {
    unsigned long all, resident = 0;
    FILE *file = fopen("/proc/self/statm", "r");
    if (!file || fscanf(file, "%lu %lu", &all, &resident) != 2) exit(1);
    fclose(file);
    return resident * (size_t)sysconf(_SC_PAGESIZE) / 1024;
}

/* The value of a number: of which length, and which bytes. */
static size_t value_of(unsigned number, unsigned char *bytes) {
    size_t len = ((size_t)LEAST << number % SIZES) - number % 1000;
    for (size_t at = 0; at < len; at++) bytes[at] = (unsigned char)(number + at / 16);
    return len;
}

static int stays(unsigned number) { return number * 7 % 83 % 10 == 0; }

int main(void) {
    static struct teurlaks_key keys[VALUES];
    static unsigned char bytes[MOST];
    struct store store = {{0}, NULL, 0};
    size_t len, pages[2], kilobytes[2];
    if (teurlaks_new(&store.core, 1, PAGES, 1, UINT32_MAX) != TEURLAKS_OK) return 1;
    for (unsigned number = 0; number < VALUES; number++)
        if (store_put(&store, bytes, value_of(number, bytes), &keys[number]) != TEURLAKS_OK)
            return 1;
    for (unsigned number = 0; number < VALUES; number++)
        if (!stays(number) && store_erase(&store, keys[number]) != TEURLAKS_OK) return 1;

    pages[0] = teurlaks_totals(&store.core).pages;
    kilobytes[0] = resident_kilobytes();
    uint32_t more = 1;
    while (more)
        if (store_compact(&store, BUDGET, &more) != TEURLAKS_OK) return 1;
    pages[1] = teurlaks_totals(&store.core).pages;
    kilobytes[1] = resident_kilobytes();

    for (unsigned number = 0; number < VALUES; number++) {
        void *found = store_get(&store, keys[number], &len);
        if ((found != NULL) != stays(number)) return 1;
        if (found && (len != value_of(number, bytes) || memcmp(found, bytes, len))) return 1;
    }
    printf("%zu values on %zu pages, %zu KB resident\n", teurlaks_totals(&store.core).live,
           pages[0], kilobytes[0]);
    printf("compacted: %zu pages, %zu KB resident\n", pages[1], kilobytes[1]);
    store_drop(&store);
    return kilobytes[1] * 2 > kilobytes[0];
}
