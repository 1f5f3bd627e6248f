/* Pages of 4,096 bytes that are meshed as Mesh does it, by split_mesher.h, beside a core: a put
 * takes the lowest free slot of the lowest page with one, and an object is found by the page that
 * it was put on, which may have gone to another page since, and by its slot. It has no generations
 * and no proof, and it takes the memory of its lists for as many pages as there can be at once. */
#define _DEFAULT_SOURCE
#include "split_store.h"
#include <stdio.h>
#include <stdlib.h>
#include <string.h>
#include <sys/mman.h>

enum { PAGE = 4096, MOST_PAGES = 1 << 18 };
static const uint32_t NO_PAGE = UINT32_MAX;

/* Of a class. Pages are numbered in the order in which they are opened, and so are the spans that
 * were opened on them. */
struct side {
    unsigned char *memory;
    struct occupied *occupied;
    /* Where each span is now, and the next span that came to the same page. */
    uint32_t *page_of, *next_guest;
    /* Whether each page has memory, and how many have. */
    unsigned char *has_memory;
    size_t pages;
    size_t opened, objects;
    /* A bit for each page that has a free slot and is not gone; no word below this one has any. */
    uint64_t *rooms;
    size_t lowest_word;
};

struct key {
    uint32_t span, slot;
};

static struct side sides[CLASSES];
static struct key *keys;
static struct random randomness = {20261127};

static void *reserved(size_t bytes) {
    void *at = mmap(NULL, bytes, PROT_READ | PROT_WRITE,
                    MAP_PRIVATE | MAP_ANONYMOUS | MAP_NORESERVE, -1, 0);
    if (at == MAP_FAILED) {
        perror("mmap");
        exit(1);
    }
    madvise(at, bytes, MADV_NOHUGEPAGE);
    return at;
}

static unsigned slots_of(unsigned class) { return PAGE / bytes_of_class(class); }

static void open_sides(const struct steps *steps, void *room) {
    (void)steps;
    keys = room;
    for (unsigned class = 0; class < CLASSES; class ++) {
        struct side *side = &sides[class];
        side->memory = reserved((size_t)MOST_PAGES * PAGE);
        side->occupied = reserved(MOST_PAGES * sizeof *side->occupied);
        side->page_of = reserved(MOST_PAGES * sizeof *side->page_of);
        side->next_guest = reserved(MOST_PAGES * sizeof *side->next_guest);
        side->rooms = reserved(MOST_PAGES / 8);
        side->has_memory = reserved(MOST_PAGES);
    }
}

static void set_room(struct side *side, size_t page, int has_room) {
    uint64_t bit = (uint64_t)1 << page % 64;
    side->rooms[page / 64] =
        has_room ? side->rooms[page / 64] | bit : side->rooms[page / 64] & ~bit;
    if (has_room && page / 64 < side->lowest_word) side->lowest_word = page / 64;
}

/* The lowest page with a free slot, which is opened where there is none. */
static size_t page_with_room(struct side *side) {
    while (side->lowest_word * 64 < side->opened && !side->rooms[side->lowest_word])
        side->lowest_word++;
    if (side->rooms[side->lowest_word])
        return side->lowest_word * 64 + __builtin_ctzll(side->rooms[side->lowest_word]);
    if (side->opened == MOST_PAGES - 1) {
        fprintf(stderr, "replay: no page is left\n");
        exit(1);
    }
    size_t page = side->opened++;
    side->page_of[page] = page;
    side->next_guest[page] = NO_PAGE;
    set_room(side, page, 1);
    return page;
}

static unsigned lowest_free(const struct occupied *occupied) {
    unsigned word = 0;
    while (!~occupied->words[word]) word++;
    return word * 64 + __builtin_ctzll(~occupied->words[word]);
}

static unsigned char *object_at(unsigned class, size_t page, unsigned slot) {
    return sides[class].memory + page * PAGE + slot * bytes_of_class(class);
}

static void put(uint32_t object, const void *bytes, uint32_t len) {
    unsigned class = class_of(len);
    struct side *side = &sides[class];
    size_t page = page_with_room(side);
    unsigned slot = lowest_free(&side->occupied[page]);
    occupied_insert(&side->occupied[page], slot);
    set_room(side, page, occupied_count(&side->occupied[page]) < slots_of(class));
    memcpy(object_at(class, page, slot), bytes, len);
    keys[object] = (struct key){page, slot};
    side->objects++;
    side->pages += !side->has_memory[page];
    side->has_memory[page] = 1;
}

static void free_object(uint32_t object, uint32_t len) {
    struct side *side = &sides[class_of(len)];
    size_t page = side->page_of[keys[object].span];
    occupied_remove(&side->occupied[page], keys[object].slot);
    set_room(side, page, 1);
    side->objects--;
}

static int get(uint32_t object, void *bytes, uint32_t len) {
    unsigned class = class_of(len);
    memcpy(bytes, object_at(class, sides[class].page_of[keys[object].span], keys[object].slot),
           len);
    return 1;
}

static void let_go(unsigned class, size_t page) {
    struct side *side = &sides[class];
    if (!side->has_memory[page]) return;
    madvise(object_at(class, page, 0), PAGE, MADV_DONTNEED);
    side->has_memory[page] = 0;
    side->pages--;
}

/* Copies what is on the one page to the other, and lets the first go. All of its spans are guests
 * of the other from now on. */
static void mesh_pages(unsigned class, size_t from, size_t onto) {
    struct side *side = &sides[class];
    for (unsigned slot = 0; slot < slots_of(class); slot++)
        if (side->occupied[from].words[slot / 64] >> slot % 64 & 1)
            memcpy(object_at(class, onto, slot), object_at(class, from, slot),
                   bytes_of_class(class));
    occupied_unite(&side->occupied[onto], &side->occupied[from]);
    side->occupied[from] = (struct occupied){{0}};
    uint32_t last = from;
    for (uint32_t span = from; span != NO_PAGE; span = side->next_guest[span])
        side->page_of[last = span] = onto;
    side->next_guest[last] = side->next_guest[onto];
    side->next_guest[onto] = from;
    set_room(side, from, 0);
    set_room(side, onto, occupied_count(&side->occupied[onto]) < slots_of(class));
    let_go(class, from);
}

/* Lets pages go with no object, and searches as long as that gives a sixteenth of the pages
 * back. */
static void compact_side(unsigned class) {
    struct side *side = &sides[class];
    for (size_t page = 0; page < side->opened; page++)
        if (!occupied_count(&side->occupied[page])) let_go(class, page);
    struct mesh_pair *pairs = malloc((side->opened / 2 + 1) * sizeof *pairs);
    if (!pairs) {
        perror("malloc");
        exit(1);
    }
    size_t found, pages;
    do {
        pages = side->pages;
        found = split_mesher(side->occupied, side->opened, slots_of(class), &randomness, pairs);
        for (size_t pair = 0; pair < found; pair++)
            mesh_pages(class, pairs[pair].from, pairs[pair].onto);
    } while (found && found * 16 >= pages);
    free(pairs);
}

static void compact_sides(void) {
    for (unsigned class = 0; class < CLASSES; class ++)
        if (is_sparse(sides[class].objects, sides[class].pages, class)) compact_side(class);
}

static struct pages pages(void) {
    struct pages pages;
    for (unsigned class = 0; class < CLASSES; class ++) pages.of_class[class] = sides[class].pages;
    return pages;
}

const struct store split_store = {"split",     sizeof *keys, open_sides,    put,
                                  free_object, get,          compact_sides, pages};

const struct occupied *split_store_pages(unsigned class, size_t *count) {
    *count = sides[class].opened;
    return sides[class].occupied;
}
