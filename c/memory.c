/* What a core and an arena take from the allocator and give back, counted block by block: each call
 * of which teurlaks.h says that it takes no memory, what goes with pages, that pages of zeros take
 * none, and what goes with spans that are forgotten. Link it with
 * -Wl,--wrap=malloc,--wrap=realloc,--wrap=free. */
#include "teurlaks.h"
#include <stdio.h>
#include <stdlib.h>

/* A full page is a block of 256 words of 16 bytes, and one with few objects a sixteenth of that. A
 * core may have other blocks of these sizes too. */
enum { SLOTS = 256, PAGE = 16 * SLOTS, SMALL = PAGE / 16, PAGES = 64 };

/* Stands before each block, and keeps it aligned to 16. */
struct header {
    size_t size;
    size_t unused;
};

static size_t calls, blocks, bytes, most_bytes, pages, small, others;
/* Whether no further block is to be had. */
static int is_spent;

void *__real_malloc(size_t size);
void __real_free(void *block);

static void enter(size_t size) {
    blocks++;
    bytes += size;
    if (most_bytes < bytes) most_bytes = bytes;
    pages += size == PAGE;
    small += size == SMALL;
}

static void leave(size_t size) {
    blocks--;
    bytes -= size;
    pages -= size == PAGE;
    small -= size == SMALL;
}

void *__wrap_malloc(size_t size) {
    struct header *made = is_spent ? NULL : __real_malloc(sizeof *made + size);
    calls++;
    if (!made) return NULL;
    made->size = size;
    enter(size);
    return made + 1;
}

void __wrap_free(void *block) {
    calls++;
    if (!block) return;
    leave(((struct header *)block - 1)->size);
    __real_free((struct header *)block - 1);
}

/* A new block each time, so that a block that is used after it moved shows under valgrind. */
void *__wrap_realloc(void *block, size_t size) {
    unsigned char *to = __wrap_malloc(size), *from = block;
    if (!to || !block) return to;
    size_t old = ((struct header *)block - 1)->size;
    for (size_t i = 0; i < old && i < size; i++) to[i] = from[i];
    __wrap_free(block);
    return to;
}

#define WANT(holds)                                                                                \
    do {                                                                                           \
        if (!(holds)) {                                                                            \
            printf("memory.c:%d: %s (%zu calls, %zu blocks, %zu bytes, %zu pages)\n", __LINE__,    \
                   #holds, calls, blocks, bytes, pages);                                           \
            exit(1);                                                                               \
        }                                                                                          \
    } while (0)

/* The call is answered so, asks the allocator for nothing, and gives nothing back. */
#define QUIETLY(is_answered)                                                                       \
    do {                                                                                           \
        size_t before = calls;                                                                     \
        WANT(is_answered);                                                                         \
        WANT(calls == before);                                                                     \
    } while (0)

static struct teurlaks_handle core;
static struct teurlaks_key keys[4][PAGES][SLOTS];

/* Pages of the core with few objects. */
static size_t with_few;

/* The core says that it has so many pages, and so many blocks are pages. */
#define WANT_PAGES(count)                                                                          \
    do {                                                                                           \
        WANT(teurlaks_totals(&core).pages == (count));                                             \
        WANT(pages - others == (count) - with_few);                                                \
    } while (0)

static void fill(uint32_t shard) {
    for (uint64_t page = 0; page < PAGES; page++)
        for (uint64_t slot = 0; slot < SLOTS; slot++) {
            struct teurlaks_put_reply put =
                teurlaks_put(&core, shard, (struct teurlaks_word){page, slot});
            WANT(put.status == TEURLAKS_OK && put.key.slot == slot);
            keys[shard][page][slot] = put.key;
        }
}

/* Frees all keys of the page but that of the slot; all of them where there is no such slot. */
static void keep(uint32_t shard, size_t page, size_t kept) {
    for (size_t slot = 0; slot < SLOTS; slot++)
        if (slot != kept) WANT(teurlaks_free(&core, keys[shard][page][slot]) == TEURLAKS_OK);
}

/* Each kept key finds its word. */
static void look_up(uint32_t shard, size_t first, size_t slot) {
    for (size_t page = first; page < PAGES; page++) {
        struct teurlaks_get_reply got = teurlaks_get(&core, keys[shard][page][slot]);
        WANT(got.status == TEURLAKS_OK && got.value.low == page && got.value.high == slot);
    }
}

/* What takes no memory asks for none, and gives none back: look-ups, sets, frees, walks and
 * totals. */
static void quiet_calls(void) {
    struct teurlaks_word word = {7, 8};
    uint8_t room[16];
    struct teurlaks_key key = keys[0][1][0];
    size_t before = calls;
    WANT(teurlaks_set(&core, key, word) == TEURLAKS_OK);
    WANT(teurlaks_get_words(&core, key, &word, 1).status == TEURLAKS_OK && word.low == 7);
    WANT(teurlaks_set_words(&core, key, &(struct teurlaks_word){1, 0}, 1) == TEURLAKS_OK);
    WANT(teurlaks_get_bytes(&core, key, room, 16) == TEURLAKS_OK && room[0] == 1);
    WANT(teurlaks_totals(&core).live == 2 * PAGES * SLOTS);
    for (size_t page = 0; page < PAGES; page++) {
        keep(0, page, page ? 0 : SLOTS);
        keep(1, page, 1);
    }
    look_up(0, 1, 0);
    look_up(1, 0, 1);
    WANT(teurlaks_free(&core, keys[0][1][5]) == TEURLAKS_NONE);
    WANT(teurlaks_next(&core, keys[0][1][0]).status == TEURLAKS_OK);
    WANT(calls == before);
    WANT_PAGES(2 * PAGES);
}

/* A shard's page that has no live key goes back when the shard ends; the others go to the pool. */
static void end(void) {
    WANT(teurlaks_end(&core, 0) == TEURLAKS_OK);
    WANT_PAGES(2 * PAGES - 1);
}

/* In the pool a page goes back with the last key in it. */
static void free_in_the_pool(void) {
    WANT(teurlaks_free(&core, keys[0][1][0]) == TEURLAKS_OK);
    WANT_PAGES(2 * PAGES - 2);
}

/* Each step of a plan gives a page back, and the lists of groups and pages, which are full, stay as
 * long as they are. The close gives the room of the plan back. */
static void fold(void) {
    struct teurlaks_mark_reply marked = teurlaks_mark(&core);
    WANT(marked.status == TEURLAKS_OK && marked.folds == PAGES - 2);
    for (size_t step = 1; step <= PAGES - 2; step++) {
        WANT(teurlaks_step(&core).status == TEURLAKS_OK);
        WANT_PAGES(2 * PAGES - 2 - step);
    }
    size_t before = calls, kept = blocks;
    WANT(teurlaks_close(&core) == TEURLAKS_OK);
    WANT(calls == before + 2 && blocks == kept - 2);
    look_up(0, 2, 0);
    look_up(1, 0, 1);
    WANT_PAGES(PAGES);
}

/* A trim asks for nothing, and gives back the page of each group with no live key and nothing else.
 * A put into such a group asks for its page alone, and its span stays the one that it was. */
static void trim(void) {
    size_t half = PAGES / 2;
    fill(3);
    for (size_t page = 0; page < PAGES; page++) keep(3, page, page < half ? SLOTS : 3);
    WANT_PAGES(2 * PAGES);
    size_t before = calls, kept = blocks;
    struct teurlaks_trim_reply trimmed = teurlaks_trim(&core, 3);
    WANT(trimmed.status == TEURLAKS_OK && trimmed.count == half);
    WANT(calls == before + half && blocks == kept - half);
    WANT_PAGES(PAGES + half);
    look_up(3, half, 3);
    WANT(teurlaks_get(&core, keys[3][0][0]).status == TEURLAKS_NONE);
    trimmed = teurlaks_trim(&core, 3);
    WANT(trimmed.status == TEURLAKS_OK && trimmed.count == 0);
    WANT(teurlaks_trim(&core, 4).status == TEURLAKS_CONFIG);
    WANT(calls == before + half);
    struct teurlaks_put_reply put = teurlaks_put(&core, 3, (struct teurlaks_word){5, 6});
    WANT(put.status == TEURLAKS_OK && put.key.serial == keys[3][0][0].serial && put.key.slot == 0);
    WANT(calls == before + half + 1);
    with_few = 1;
    WANT_PAGES(PAGES + half + 1);
    struct teurlaks_get_reply got = teurlaks_get(&core, put.key);
    WANT(got.status == TEURLAKS_OK && got.value.low == 5 && got.value.high == 6);
    WANT(teurlaks_get(&core, keys[3][0][0]).status == TEURLAKS_NONE);
}

/* A shard that has ended keeps none of its lists: of what its one span took, the generations
 * stay. */
static void end_without_lists(void) {
    size_t before = blocks;
    struct teurlaks_put_reply put = teurlaks_put(&core, 2, (struct teurlaks_word){1, 1});
    WANT(put.status == TEURLAKS_OK && teurlaks_free(&core, put.key) == TEURLAKS_OK);
    WANT(teurlaks_end(&core, 2) == TEURLAKS_OK);
    WANT(blocks == before + 1);
    QUIETLY(teurlaks_begin(&core, 2) == TEURLAKS_OK);
}

/* Each guest that the folds have brought goes once nothing in it is live, and so do the three
 * groups of the pool that have no page; and with each its block of generations. */
static void forget_guests(void) {
    for (size_t page = 2; page < PAGES; page++) {
        QUIETLY(teurlaks_free(&core, keys[0][page][0]) == TEURLAKS_OK);
        WANT(teurlaks_get(&core, keys[0][page][0]).status == TEURLAKS_NONE);
    }
    size_t before = blocks;
    struct teurlaks_forget_reply forgotten = teurlaks_forget(&core);
    WANT(forgotten.status == TEURLAKS_OK && forgotten.count == PAGES - 2 + 3);
    WANT(blocks <= before - (PAGES - 2 + 3));
    look_up(1, 0, 1);
    WANT_PAGES(PAGES + PAGES / 2 + 1);
}

/* Many spans of 16 slots, of which the first key is kept and the others are freed. */
#ifndef MANY
#define MANY 20000
#endif
enum { OF_SPAN = 16, STAY = MANY / 20 };

static const struct teurlaks_word large[OF_SPAN];
static struct teurlaks_key firsts[MANY];

/* The core has none of the spans any more. What it keeps of so many is room for others to come; a
 * list of what it has forgotten would be more. */
static void wants_little(size_t before) { WANT(bytes - before <= 80 * MANY); }

/* Frees the first keys of these spans, which are in the pool. */
static void free_firsts(struct teurlaks_handle *many, size_t from, size_t to) {
    for (size_t span = from; span < to; span++)
        WANT(teurlaks_free(many, firsts[span]) == TEURLAKS_OK);
}

/* A core forgets the spans of its pool also if the allocator has nothing more. What could have gone
 * to smaller tables then goes with the next forgetting. */
static void core_forgets(void) {
    struct teurlaks_handle many = {0};
    WANT(teurlaks_new(&many, 1, MANY, 1, 9) == TEURLAKS_OK);
    size_t empty = bytes;
    for (size_t put = 0; put < MANY * OF_SPAN; put++) {
        struct teurlaks_put_reply reply = teurlaks_put_words(&many, 0, large, OF_SPAN);
        WANT(reply.status == TEURLAKS_OK);
        if (reply.key.slot == 0) firsts[put / OF_SPAN] = reply.key;
    }
    for (size_t span = 0; span < MANY; span++)
        for (uint8_t slot = 1; slot < OF_SPAN; slot++) {
            struct teurlaks_key key = firsts[span];
            key.slot = slot;
            QUIETLY(teurlaks_free(&many, key) == TEURLAKS_OK);
        }
    WANT(teurlaks_end(&many, 0) == TEURLAKS_OK);
    free_firsts(&many, STAY, MANY);
    size_t before = bytes;
    is_spent = 1;
    struct teurlaks_forget_reply forgotten = teurlaks_forget(&many);
    is_spent = 0;
    WANT(forgotten.status == TEURLAKS_OK && forgotten.count == MANY - STAY && bytes < before);
    forgotten = teurlaks_forget(&many);
    WANT(forgotten.status == TEURLAKS_OK && forgotten.count == 0);
    WANT(bytes <= before - 190 * (MANY - STAY));
    free_firsts(&many, 0, STAY);
    forgotten = teurlaks_forget(&many);
    WANT(forgotten.status == TEURLAKS_OK && forgotten.count == STAY);
    wants_little(empty);
    teurlaks_drop(&many);
}

/* An empty core has a block of its own, and no shard, pool, ring or room for a plan. A look-up and
 * a free of a key that it never gave out, a trim and a retirement take nothing. The first put takes
 * one shard. */
static void little(void) {
    struct teurlaks_handle many = {0};
    struct teurlaks_key none = {0};
    size_t before = bytes, kept = blocks;
    WANT(teurlaks_new(&many, 64, MANY, 1024, 9) == TEURLAKS_OK);
    WANT(blocks == kept + 1 && bytes - before <= 160);
    none.generation = 1;
    QUIETLY(teurlaks_get(&many, none).status == TEURLAKS_NONE);
    QUIETLY(teurlaks_free(&many, none) == TEURLAKS_NONE);
    QUIETLY(teurlaks_trim(&many, 63).status == TEURLAKS_OK);
    QUIETLY(teurlaks_gather(&many, 63, 0, SIZE_MAX).status == TEURLAKS_OK);
    QUIETLY(teurlaks_gather(&many, 64, 0, 1).status == TEURLAKS_CONFIG);
    QUIETLY(teurlaks_retire(&many, 63, 1).status == TEURLAKS_OK);
    QUIETLY(teurlaks_begin(&many, 63) == TEURLAKS_RUNNING);
    WANT(teurlaks_put(&many, 0, (struct teurlaks_word){1, 2}).status == TEURLAKS_OK);
    WANT(bytes - before <= SMALL + 560);
    before = bytes;
    WANT(teurlaks_gather(&many, 0, 0, 9).count == 1 && bytes == before);
    WANT(teurlaks_gather(&many, 0, 1, 9).count == 0 && teurlaks_gather(&many, 0, 0, 0).count == 0);
    teurlaks_drop(&many);
}

/* A page takes memory for the objects up to the last that was put there and is not zeros: for 16
 * words, for 64, for 128 or for all. What the span has beside them is less than 64 words. */
static void page_grows(void) {
    static const size_t room[] = {16, 64, 128, SLOTS};
    struct teurlaks_handle one = {0};
    WANT(teurlaks_new(&one, 1, 1, 1, 9) == TEURLAKS_OK);
    size_t empty = bytes, put = 0;
    for (size_t step = 0; step < 4; step++)
        for (; put < room[step]; put++) {
            struct teurlaks_word word = {put + 1, 0};
            WANT(teurlaks_put(&one, 0, word).status == TEURLAKS_OK);
            WANT(bytes - empty >= 16 * room[step] && bytes - empty < 16 * (room[step] + 96));
        }
    teurlaks_drop(&one);
}

static const struct teurlaks_word zero;
static struct teurlaks_handle of_zeros;

/* The key finds the word in a core in which zeros are put. */
static void find_beside_zeros(struct teurlaks_key key, struct teurlaks_word word) {
    struct teurlaks_get_reply got = teurlaks_get(&of_zeros, key);
    WANT(got.status == TEURLAKS_OK && got.value.low == word.low && got.value.high == word.high);
}

/* Keeps a word in the shard, at this slot of its one page, for which it asks for so many pages. */
static struct teurlaks_key put_beside_zeros(uint32_t shard, struct teurlaks_word word, uint8_t slot,
                                            size_t asked) {
    size_t before = small;
    struct teurlaks_put_reply put = teurlaks_put(&of_zeros, shard, word);
    WANT(put.status == TEURLAKS_OK && put.key.slot == slot && put.key.serial == 0);
    WANT(small == before + asked);
    find_beside_zeros(put.key, word);
    return put.key;
}

/* Frees the key, and gives back the page of its shard, which was asked for or was one of zeros. */
static void trim_zeros(struct teurlaks_key key, size_t given) {
    size_t before = small;
    QUIETLY(teurlaks_free(&of_zeros, key) == TEURLAKS_OK);
    WANT(teurlaks_trim(&of_zeros, key.shard).count == 1);
    WANT(teurlaks_totals(&of_zeros).pages == 0 && small == before - given);
}

/* A page of zeros counts as a page and takes no memory. It takes it with the first object that is
 * put or set there and has a bit. */
static void zeros_take_no_page(void) {
    const struct teurlaks_word bit = {0, (uint64_t)1 << 63};
    struct teurlaks_key first = put_beside_zeros(0, zero, 0, 0), second;
    WANT(teurlaks_totals(&of_zeros).pages == 1);
    size_t before = calls;
    second = put_beside_zeros(0, zero, 1, 0);
    QUIETLY(teurlaks_set(&of_zeros, first, zero) == TEURLAKS_OK);
    QUIETLY(teurlaks_free(&of_zeros, second) == TEURLAKS_OK);
    trim_zeros(first, 0);
    first = put_beside_zeros(0, zero, 0, 0);
    WANT(calls == before && teurlaks_totals(&of_zeros).pages == 1);
    WANT(teurlaks_set(&of_zeros, first, bit) == TEURLAKS_OK);
    WANT(calls == before + 1);
    second = put_beside_zeros(0, zero, 1, 0);
    find_beside_zeros(first, bit);
    QUIETLY(teurlaks_free(&of_zeros, second) == TEURLAKS_OK);
    trim_zeros(first, 1);
    first = put_beside_zeros(0, zero, 0, 0);
    second = put_beside_zeros(0, bit, 1, 1);
    find_beside_zeros(first, zero);
    QUIETLY(teurlaks_free(&of_zeros, first) == TEURLAKS_OK);
    trim_zeros(second, 1);
}

/* Folds the page of shard 0 onto that of shard 1. */
static void fold_zeros(void) {
    WANT(teurlaks_retire(&of_zeros, 0, 1).count == 1);
    WANT(teurlaks_mark(&of_zeros).folds == 1);
    WANT(teurlaks_step(&of_zeros).status == TEURLAKS_OK);
    WANT(teurlaks_close(&of_zeros) == TEURLAKS_OK);
    WANT(teurlaks_totals(&of_zeros).pages == 1);
}

/* A fold of pages of which one, both or none is of zeros: an object stays what it is, whatever was
 * freed at its slot on the other page. */
static void zeros_are_folded(int is_from_zeros, int is_onto_zeros) {
    const struct teurlaks_word from = {is_from_zeros ? 0 : 5, 0}, onto = {is_onto_zeros ? 0 : 6, 0};
    struct teurlaks_key low, high, freed;
    WANT(teurlaks_new(&of_zeros, 2, 4, 1, 9) == TEURLAKS_OK);
    low = put_beside_zeros(0, from, 0, !is_from_zeros);
    freed = put_beside_zeros(1, onto, 0, !is_onto_zeros);
    high = put_beside_zeros(1, onto, 1, 0);
    QUIETLY(teurlaks_free(&of_zeros, freed) == TEURLAKS_OK);
    fold_zeros();
    find_beside_zeros(low, from);
    find_beside_zeros(high, onto);
    size_t before = small;
    WANT(teurlaks_set(&of_zeros, low, (struct teurlaks_word){7, 7}) == TEURLAKS_OK);
    WANT(small == before + (is_from_zeros && is_onto_zeros));
    find_beside_zeros(low, (struct teurlaks_word){7, 7});
    find_beside_zeros(high, onto);
    QUIETLY(teurlaks_free(&of_zeros, low) == TEURLAKS_OK);
    trim_zeros(high, 1);
    teurlaks_drop(&of_zeros);
}

static void zeros(void) {
    WANT(teurlaks_new(&of_zeros, 2, 4, 1, 9) == TEURLAKS_OK);
    zeros_take_no_page();
    teurlaks_drop(&of_zeros);
    for (int of_zeros_are = 0; of_zeros_are < 4; of_zeros_are++)
        zeros_are_folded(of_zeros_are & 1, of_zeros_are >> 1);
}

static struct teurlaks_share_handle steward, seat, other;

/* Keys of objects of one word, put at a seat. */
static void put_at(struct teurlaks_share_handle *at, struct teurlaks_key *put, size_t count) {
    for (size_t i = 0; i < count; i++) {
        struct teurlaks_word word = {i, 0};
        struct teurlaks_put_reply reply = teurlaks_seat_put_words(at, &word, 1);
        WANT(reply.status == TEURLAKS_OK);
        put[i] = reply.key;
    }
}

/* A look-up, a set and a free of a key, which then finds nothing. */
static void quiet_at(struct teurlaks_share_handle *at, struct teurlaks_key key) {
    struct teurlaks_word word = {9, 9};
    QUIETLY(teurlaks_seat_set_words(at, key, &word, 1) == TEURLAKS_OK);
    QUIETLY(teurlaks_seat_get_words(at, key, &word, 1).status == TEURLAKS_OK);
    QUIETLY(teurlaks_seat_free(at, key) == TEURLAKS_OK);
    QUIETLY(teurlaks_seat_free(at, key) == TEURLAKS_NONE);
    QUIETLY(teurlaks_seat_get_words(at, key, &word, 1).status == TEURLAKS_NONE);
}

/* Calls of seats, of their own shard and of another, with a session and without. */
static void quiet_seats(void) {
    struct teurlaks_key put[8];
    struct teurlaks_walk walk = {0, 0, 0};
    put_at(&seat, put, 8);
    quiet_at(&seat, put[0]);
    quiet_at(&other, put[1]);
    QUIETLY(teurlaks_seat_session(&seat) == TEURLAKS_OK);
    quiet_at(&seat, put[2]);
    QUIETLY(teurlaks_seat_session(&seat) == TEURLAKS_OK);
    QUIETLY(teurlaks_seat_pause(&seat) == TEURLAKS_OK);
    QUIETLY(teurlaks_seat_session(&other) == TEURLAKS_OK);
    quiet_at(&other, put[3]);
    QUIETLY(teurlaks_seat_next(&other, &walk).status == TEURLAKS_OK);
    QUIETLY(teurlaks_steward_next(&steward, &walk).status == TEURLAKS_OK);
    QUIETLY(teurlaks_steward_totals(&steward).live == 4);
    QUIETLY(teurlaks_steward_close(&steward) == TEURLAKS_NO_PLAN);
    QUIETLY(teurlaks_seat_begin(&seat) == TEURLAKS_RUNNING);
}

/* Keys that are left to a seat, some full blocks of them and one that is handed over. */
static void quiet_ring(void) {
    enum { LEFT = 200 };
    static struct teurlaks_key put[LEFT];
    put_at(&seat, put, LEFT);
    for (size_t i = 0; i < LEFT; i++)
        QUIETLY(teurlaks_seat_free_later(&other, put[i]) == TEURLAKS_OK);
    QUIETLY(teurlaks_seat_hand_over(&other) == TEURLAKS_OK);
    QUIETLY(teurlaks_seat_tend(&seat).count == LEFT);
}

/* A trim gives pages back, and asks for nothing. */
static void trim_at(void) {
    static struct teurlaks_key put[4 * SLOTS];
    put_at(&other, put, 4 * SLOTS);
    for (size_t i = 0; i < 4 * SLOTS; i++)
        QUIETLY(teurlaks_seat_free(&other, put[i]) == TEURLAKS_OK);
    size_t asked = calls, kept = blocks;
    struct teurlaks_trim_reply trimmed = teurlaks_seat_trim(&other);
    WANT(trimmed.status == TEURLAKS_OK && trimmed.count == 4);
    WANT(calls == asked + 4 && blocks == kept - 4);
}

/* A steward forgets as a core does. */
static void steward_forgets(void) {
    size_t empty = bytes;
    for (size_t put = 0; put < MANY * OF_SPAN; put++) {
        struct teurlaks_put_reply reply = teurlaks_seat_put_words(&seat, large, OF_SPAN);
        WANT(reply.status == TEURLAKS_OK);
        if (reply.key.slot == 0) firsts[put / OF_SPAN] = reply.key;
    }
    for (size_t span = 0; span < MANY; span++)
        for (uint8_t slot = 1; slot < OF_SPAN; slot++) {
            struct teurlaks_key key = firsts[span];
            key.slot = slot;
            QUIETLY(teurlaks_seat_free(&seat, key) == TEURLAKS_OK);
        }
    WANT(teurlaks_seat_end(&seat) == TEURLAKS_OK);
    QUIETLY(teurlaks_seat_begin(&seat) == TEURLAKS_OK);
    for (size_t span = 0; span < MANY; span++)
        WANT(teurlaks_seat_free(&other, firsts[span]) == TEURLAKS_OK);
    size_t before = bytes;
    is_spent = 1;
    struct teurlaks_forget_reply forgotten = teurlaks_steward_forget(&steward);
    is_spent = 0;
    WANT(forgotten.status == TEURLAKS_OK && forgotten.count == MANY && bytes < before);
    forgotten = teurlaks_steward_forget(&steward);
    WANT(forgotten.status == TEURLAKS_OK && forgotten.count == 0);
    wants_little(empty);
}

static void arena(void) {
    WANT(teurlaks_arena_open(&steward, 2, MANY + 64, 256, 9) == TEURLAKS_OK);
    WANT(teurlaks_steward_seat(&steward, &seat) == TEURLAKS_OK);
    WANT(teurlaks_steward_seat(&steward, &other) == TEURLAKS_OK);
    quiet_seats();
    quiet_ring();
    QUIETLY(teurlaks_seat_session(&seat) == TEURLAKS_OK);
    quiet_ring();
    trim_at();
    steward_forgets();
    teurlaks_share_drop(&steward);
    teurlaks_share_drop(&seat);
    teurlaks_share_drop(&other);
}

int main(void) {
    WANT(teurlaks_new(&core, 4, PAGES, 1, 9) == TEURLAKS_OK);
    others = pages;
    fill(0);
    fill(1);
    WANT_PAGES(2 * PAGES);
    quiet_calls();
    end();
    free_in_the_pool();
    fold();
    trim();
    end_without_lists();
    forget_guests();
    teurlaks_drop(&core);
    core_forgets();
    little();
    page_grows();
    zeros();
    arena();
    WANT(blocks == 0 && bytes == 0);
    printf("each page that a fold, an end, a free or a trim regained was given back,\n"
           "and so was what %d forgotten spans took\n",
           MANY);
    return 0;
}
