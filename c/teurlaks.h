/* Objects of 1 to 16 words of 16 bytes under keys: a key that was freed finds nothing for ever, a
 * live one its own object, and sparse pages of the pool are folded onto those of running shards
 * while every key stays valid. The library is proved (crates/teurlaks_c); README.md beside this
 * file has a page of use, and a table of what may be called from which thread.
 *
 * Each call but teurlaks_new may be given a handle that has no core, since none was made or it was
 * dropped, and every call NULL in its place: it answers TEURLAKS_NO_CORE, a teurlaks_drop does
 * nothing, and a teurlaks_totals counts nothing. What is answered of a handle without a core is
 * proved; NULL is tested for in C (teurlaks_calls.h). A table of README.md says call by call what
 * is answered and what is undefined.
 *
 * What a caller owes, since nothing can check it:
 * - A handle begins as zeros. Only the library reads or writes it and what it points to, and of two
 *   copies of a handle one is never used again.
 * - One call at a time on one handle. Calls that take a `const` handle only read: many threads may
 *   make them at once while no other call on it runs. A handle may go to another thread, ordered by
 *   a lock, a start or a join, and so may the right to read it.
 * - A pointer that is not NULL points to as many words or bytes as the call is told.
 * - malloc, realloc and free are of one allocator, which aligns a block to each power of two up to
 *   16 that divides its size.
 * - No call from a signal handler, or from the forked child of a process with threads.
 * - A processor of level x86-64-v2. */
#ifndef TEURLAKS_H
#define TEURLAKS_H

#include <stddef.h>
#include <stdint.h>

#define TEURLAKS_VERSION "0.2.0"
#define TEURLAKS_VERSION_MAJOR 0
#define TEURLAKS_VERSION_MINOR 2
#define TEURLAKS_VERSION_PATCH 0

/* How a function of these headers is declared, also in C of 1989, which has no `inline`. */
#if defined(__cplusplus) || (defined(__STDC_VERSION__) && __STDC_VERSION__ >= 199901L)
#define TEURLAKS_INLINE static inline
#elif defined(__GNUC__)
#define TEURLAKS_INLINE static __inline__
#else
#define TEURLAKS_INLINE static
#endif

#ifdef __cplusplus
extern "C" {
#endif

/* What a call answers; teurlaks_strerror has it in words. From TEURLAKS_OUT_OF_MEMORY to
 * TEURLAKS_CONFIG it is refused, and so it is with TEURLAKS_RUNNING, TEURLAKS_RECORDED,
 * TEURLAKS_UNFINISHED and where the handle is wrong (TEURLAKS_NO_CORE, TEURLAKS_HAS_CORE): nothing
 * has changed then. From TEURLAKS_LOG_FAULT on it is what an audit found. */
enum {
    TEURLAKS_OK = 0,               /* done, or found */
    /* the key is not live; there is no certificate yet; a walk is at its end; no seat is left */
    TEURLAKS_NONE = 1,
    TEURLAKS_OUT_OF_MEMORY = 2,    /* the call may be tried again */
    TEURLAKS_PAGES_SPENT = 3,      /* the shard may have no further page */
    TEURLAKS_ENDED = 4,            /* the shard has ended */
    TEURLAKS_PLAN_OPEN = 5,        /* a plan is open: close it first */
    TEURLAKS_TOO_MANY = 6,         /* a side has more than 4,096 groups, too many for a plan */
    TEURLAKS_NOTHING_TO_ADOPT = 7, /* no group of the pool has a page */
    /* a number is out of its range, as a shard's; a pointer is NULL; or a seat is of another arena.
     * No cause above holds */
    TEURLAKS_CONFIG = 8,
    TEURLAKS_EMPTIED = 9,       /* the pair's abandoned group had no live key left */
    TEURLAKS_NO_PAIR_LEFT = 10, /* the open plan is done with */
    TEURLAKS_NO_PLAN = 11,      /* no plan is open */
    /* the text or the object takes more than there is room for, or the object has fewer bytes than
     * were asked for; nothing was written */
    TEURLAKS_TOO_SMALL = 12,
    /* a ring holds as many keys as it may: teurlaks_seat_free_later alone answers it */
    TEURLAKS_RING_FULL = 13,
    /* the handle has not what the call is for: none was made, or it was dropped; or there is NULL
     * in its place */
    TEURLAKS_NO_CORE = 14,
    /* a handle that is to be given a core, a seat or a steward has one */
    TEURLAKS_HAS_CORE = 15,
    /* another thread has a lock that the call needs: nothing has changed, try again */
    TEURLAKS_BUSY = 16,
    TEURLAKS_RUNNING = 17,  /* the shard that is to begin again has not ended */
    TEURLAKS_RECORDED = 18, /* the run is recorded, so that no log is forgotten */
    /* a seat of the recorded arena is not back with its steward; one that was dropped never comes
     * back */
    TEURLAKS_UNFINISHED = 19,
    TEURLAKS_LOG_FAULT = 20, /* of an audit: a log is not legal, or a span has two */
    /* of an audit: a change has no receipt or two, or a receipt that makes a change has none */
    TEURLAKS_CHANGE_FAULT = 21,
    /* of an audit: a call was not answered as the changes before it say */
    TEURLAKS_REPLY_FAULT = 22,
    /* of an audit: the calls of a seat are not in the order of their changes */
    TEURLAKS_ORDER_FAULT = 23,
    /* of an audit: a call stands before one of an earlier section, of which there is one here */
    TEURLAKS_BARRIER_FAULT = 24
};

/* Where a core is. Begin with `struct teurlaks_handle core = {0};`. */
struct teurlaks_handle {
    uint8_t *at;
};

/* The name of one stored object, 12 bytes, none of them padding: two keys are the same where memcmp
 * finds their bytes the same. Any numbers may be given: a key that is not live finds nothing, and
 * none is live whose last two bytes are not zeros. */
struct teurlaks_key {
    uint32_t serial;     /* of its span, among those that the shard has opened */
    uint32_t generation; /* from 1 on: all zeros are no key */
    uint8_t shard;
    uint8_t slot;
    uint16_t reserved; /* 0 */
};

/* How many bits of a number of 64 the shard, the serial and the generation of a key take. The slot
 * takes 8. */
struct teurlaks_key_bits {
    uint8_t shard;
    uint8_t serial;
    uint8_t generation;
    uint8_t reserved; /* 0 */
};

/* Layouts, as `struct teurlaks_key_bits bits = TEURLAKS_BALANCED_BITS;`: how many shards have
 * numbers, spans of each, and generations of each slot. */
#define TEURLAKS_BALANCED_BITS {4, 28, 24, 0} /* 16; 268,435,456; 16,777,215 */
#define TEURLAKS_MANY_SHARDS_BITS {6, 26, 24, 0} /* 64; 67,108,864; 16,777,215 */
#define TEURLAKS_MANY_GENERATIONS_BITS {4, 20, 32, 0} /* 16; 1,048,576; 4,294,967,295 */
#define TEURLAKS_DOUBLE_BITS {3, 18, 24, 0} /* 8; 262,144; 16,777,215; 53 bits */

/* The layout, if the status is TEURLAKS_OK; else zeros. */
struct teurlaks_key_bits_reply {
    uint32_t status;
    struct teurlaks_key_bits bits;
};

/* The number, if the status is TEURLAKS_OK; else 0. */
struct teurlaks_number_reply {
    uint64_t number;
    uint32_t status;
};

/* The key, if the status is TEURLAKS_OK; else zeros. */
struct teurlaks_key_reply {
    uint32_t status;
    struct teurlaks_key key;
};

/* The name of a span, and of the group that it heads. */
struct teurlaks_span {
    uint32_t shard;
    uint32_t serial;
};

/* high * 2^64 + low */
struct teurlaks_word {
    uint64_t low;
    uint64_t high;
};

/* The key, where the status is TEURLAKS_OK. */
struct teurlaks_put_reply {
    uint32_t status;
    struct teurlaks_key key;
};

/* Of a call for many: how many were done, where the status is TEURLAKS_OK, or before the one that
 * was refused, as the status says. */
struct teurlaks_many_reply {
    uint32_t status;
    size_t count;
};

/* The word, where the status is TEURLAKS_OK; else 0. */
struct teurlaks_get_reply {
    struct teurlaks_word value;
    uint32_t status;
};

/* How many words the object has, where the status is TEURLAKS_OK or TEURLAKS_TOO_SMALL; else 0. */
struct teurlaks_words_reply {
    uint32_t status;
    size_t len;
};

/* Where a walk over the live keys of an arena stands. All zeros are its beginning. */
struct teurlaks_walk {
    uint32_t shard;
    uint32_t serial;
    uint32_t slot;
};

/* The key, where the status is TEURLAKS_OK. */
struct teurlaks_next_reply {
    uint32_t status;
    struct teurlaks_key key;
};

/* How many groups went, where the status is TEURLAKS_OK; else 0. */
struct teurlaks_retire_reply {
    uint32_t status;
    size_t count;
};

/* How many pages went, where the status is TEURLAKS_OK; else 0. */
struct teurlaks_trim_reply {
    uint32_t status;
    size_t count;
};

/* How many groups were trimmed, and how many pages went, if the status is TEURLAKS_OK; else 0. */
struct teurlaks_trim_part_reply {
    uint32_t status;
    size_t groups;
    size_t pages;
};

/* How many spans went, where the status is TEURLAKS_OK; else 0. */
struct teurlaks_forget_reply {
    uint32_t status;
    size_t count;
};

/* How many groups were looked at, where the status is TEURLAKS_OK; else 0. */
struct teurlaks_gather_reply {
    uint32_t status;
    size_t count;
};

/* Of a part of a compaction: 1 where a further call has something to do, else 0, and how many pages
 * went, whatever the status is. */
struct teurlaks_compact_reply {
    uint32_t status;
    uint32_t more;
    size_t pages;
};

/* Of a step of a compaction: `more` as above, what the step took of the budget, and 1 if it was a
 * fold, else 0, with the heads of its groups. */
struct teurlaks_advance_reply {
    uint32_t status;
    uint32_t more;
    size_t cost;
    uint32_t folded;
    struct teurlaks_span abandoned;
    struct teurlaks_span owned;
};

/* The head of the adopted group, where the status is TEURLAKS_OK. */
struct teurlaks_adopt_reply {
    uint32_t status;
    struct teurlaks_span head;
};

/* Where the status is TEURLAKS_OK: groups of the pool that have a page, groups of the shards that
 * have one, planned folds, and members of the short set, which shows that no plan has more
 * folds. */
struct teurlaks_mark_reply {
    uint32_t status;
    size_t abandoned;
    size_t owned;
    size_t folds;
    size_t short_set;
};

/* The pair, where the status is TEURLAKS_OK or TEURLAKS_EMPTIED. */
struct teurlaks_step_reply {
    uint32_t status;
    struct teurlaks_span abandoned;
    struct teurlaks_span owned;
};

/* How many bytes the text takes, where the status is TEURLAKS_OK or TEURLAKS_TOO_SMALL. */
struct teurlaks_certificate_reply {
    uint32_t status;
    size_t len;
};

/* Pages of up to 4,096 bytes, and live keys; 0 of both where the handle has no core. */
struct teurlaks_totals_reply {
    size_t pages;
    size_t live;
};

/* Leaves a core to a handle that has none, where it answers TEURLAKS_OK. 1 to 64 shards, of up to 1
 * to 1,048,576 pages; rings of 1 to 1,024 keys (give 1, while frees are not deferred); generations
 * from 1 to gens, at least 1. */
uint32_t teurlaks_new(struct teurlaks_handle *out, uint32_t shards, uint32_t page_limit,
                      uint32_t ring_capacity, uint32_t gens);

/* The same of a core each shard of which opens up to span_limit spans in its life, at least 1: no
 * key has a serial beyond. So each key has a number of 64 bits if teurlaks_key_bits has a layout of
 * these numbers. */
uint32_t teurlaks_new_with_spans(struct teurlaks_handle *out, uint32_t shards, uint32_t page_limit,
                                 uint32_t span_limit, uint32_t ring_capacity, uint32_t gens);

/* The same of a core whose puts take only the lowest slot_limit slots of a page, 1 to 256. Of
 * fewer slots more pages fit each other, so that more memory comes back; each page holds less. */
uint32_t teurlaks_new_with_slots(struct teurlaks_handle *out, uint32_t shards, uint32_t page_limit,
                                 uint32_t span_limit, uint32_t slot_limit, uint32_t ring_capacity,
                                 uint32_t gens);

/* Gives all memory of the core back, and leaves the handle without one. */
void teurlaks_drop(struct teurlaks_handle *handle);

/* Keeps an object of one word in the shard, under a key that was never given out before. If it
 * answers TEURLAKS_PAGES_SPENT while few keys are live, slots are worn: teurlaks_make_way. */
struct teurlaks_put_reply teurlaks_put(struct teurlaks_handle *handle, uint32_t shard,
                                       struct teurlaks_word value);

/* The word of the key, or TEURLAKS_NONE; TEURLAKS_TOO_SMALL where its object has more words than
 * one. */
struct teurlaks_get_reply teurlaks_get(const struct teurlaks_handle *handle,
                                       struct teurlaks_key key);

/* Keeps an object of 1 to 16 words in the shard, as teurlaks_put does with one; another number is
 * TEURLAKS_CONFIG. A page has objects of one number of words, as many as fit its 256 words: 85 of
 * three words. No words stand at NULL. */
struct teurlaks_put_reply teurlaks_put_words(struct teurlaks_handle *handle, uint32_t shard,
                                             const struct teurlaks_word *words, size_t words_len);

/* Writes the words of the key's object into the first of `words`, where words_len are room enough
 * (16 always are); or TEURLAKS_NONE. There is no room at NULL, by which one asks how many they
 * are. */
struct teurlaks_words_reply teurlaks_get_words(const struct teurlaks_handle *handle,
                                               struct teurlaks_key key, struct teurlaks_word *words,
                                               size_t words_len);

/* Sets the key to an object of one word, where it is live and has an object of one word, else
 * TEURLAKS_NONE. The key stays, and so does where its object stands. Takes no memory, but if
 * an object of zeros is set to another, and refuses with TEURLAKS_OUT_OF_MEMORY if that fails, or
 * after 2^63 changes of a span. */
uint32_t teurlaks_set(struct teurlaks_handle *handle, struct teurlaks_key key,
                      struct teurlaks_word value);

/* Sets the key to an object of 1 to 16 words, if its object has as many, as teurlaks_set does with
 * one; another number is TEURLAKS_CONFIG. No words stand at NULL. */
uint32_t teurlaks_set_words(struct teurlaks_handle *handle, struct teurlaks_key key,
                            const struct teurlaks_word *words, size_t words_len);

/* Frees the key, or TEURLAKS_NONE. Takes no memory. */
uint32_t teurlaks_free(struct teurlaks_handle *handle, struct teurlaks_key key);

/* Keeps an object of one word for each of `words` in the shard, in their order, and leaves their
 * keys in `keys`, in the same order: as far as both go, and up to the first put that is refused,
 * whose status it answers. Those before it stand, and no other place of `keys` is written. */
struct teurlaks_many_reply teurlaks_put_many(struct teurlaks_handle *handle, uint32_t shard,
                                             const struct teurlaks_word *words, size_t words_len,
                                             struct teurlaks_key *keys, size_t keys_len);

/* Frees each of the keys that is live, in their order, and counts these. Takes no memory. */
struct teurlaks_many_reply teurlaks_free_many(struct teurlaks_handle *handle,
                                              const struct teurlaks_key *keys, size_t keys_len);

/* Leaves in `replies` what teurlaks_get answers for each of `keys`, in their order, as far as both
 * go, and counts these. */
struct teurlaks_many_reply teurlaks_get_many(const struct teurlaks_handle *handle,
                                             const struct teurlaks_key *keys, size_t keys_len,
                                             struct teurlaks_get_reply *replies,
                                             size_t replies_len);

/* The live key that comes next after this one, which need not be live, by spans and then by slots;
 * the first one where no key has these numbers, as where all are 0; TEURLAKS_NONE where no live key
 * is left. So a walk from zeros to TEURLAKS_NONE meets each live key once, and may free keys on its
 * way. Takes no memory. */
struct teurlaks_next_reply teurlaks_next(const struct teurlaks_handle *handle,
                                         struct teurlaks_key after);

/* The first live key of one span at a slot from this one on, wherever the span is; TEURLAKS_NONE if
 * there is none. Takes no memory. */
struct teurlaks_next_reply teurlaks_next_in_span(const struct teurlaks_handle *handle,
                                                 struct teurlaks_span span, uint32_t slot);

/* Whether the key is live: TEURLAKS_OK, or TEURLAKS_NONE. No word of its object is read. */
uint32_t teurlaks_contains(const struct teurlaks_handle *handle, struct teurlaks_key key);

/* How much is kept. */
struct teurlaks_totals_reply teurlaks_totals(const struct teurlaks_handle *handle);

/* About how much is kept: exactly that if there are at most 4,096 groups. Of more it looks at one
 * of each so many, so that it takes no longer. */
struct teurlaks_totals_reply teurlaks_estimate(const struct teurlaks_handle *handle);

/* Ends the shard: its groups go to the pool, with their pages, and it takes no object until it
 * begins again. */
uint32_t teurlaks_end(struct teurlaks_handle *handle, uint32_t shard);

/* Lets a shard that has ended run again, for a new thread. All keys stay what they are, and none is
 * given out twice. TEURLAKS_RUNNING where it has not ended, TEURLAKS_CONFIG where there is no such
 * shard, and no other refusal. Takes no memory. */
uint32_t teurlaks_begin(struct teurlaks_handle *handle, uint32_t shard);

/* Moves up to `most` groups of the shard to the pool, with their pages, and the shard goes on:
 * those with the fewest live keys, of those that have one. Fewer than `most` go only where no group
 * with a live key is left. TEURLAKS_PLAN_OPEN where a group of the shard is in the plan that is
 * open. */
struct teurlaks_retire_reply teurlaks_retire(struct teurlaks_handle *handle, uint32_t shard,
                                             size_t most);

/* Gives back the page of each group of the shard in which nothing is live, but for a group of the
 * open plan. The groups stay, and a later put into one of them opens a page for it. TEURLAKS_CONFIG
 * where there is no such shard, and no other refusal. Takes no memory. */
struct teurlaks_trim_reply teurlaks_trim(struct teurlaks_handle *handle, uint32_t shard);

/* As teurlaks_trim, but of up to `most` groups of the shard alone, from its group `from` on, so
 * that a call takes no longer if the shard has more. There are fewer than `most` only if no more
 * follow. */
struct teurlaks_trim_part_reply teurlaks_trim_some(struct teurlaks_handle *handle, uint32_t shard,
                                                   size_t from, size_t most);

/* Forgets the spans that can never be live again, with their generations: those that were folded
 * and of which nothing is live, and those of the pool on whose page nothing is live any more. What
 * a shard has opened stays with it, since it takes puts again. Nothing else changes that a caller
 * sees. TEURLAKS_PLAN_OPEN while a plan is open, and no other refusal. It gives memory back: the
 * generations, and the room of tables of which a quarter would do. It asks for none but for a
 * smaller table in the place of a larger one, which stays if there is none. */
struct teurlaks_forget_reply teurlaks_forget(struct teurlaks_handle *handle);

/* Moves the pages of up to `most` groups of the shard, from its group `from` on, to blocks of
 * memory that it asks for now: pages of less than 4,096 bytes share pages of the system, and
 * pages.c, which hands out its lowest free block first, gives back those that this empties. Call it
 * for each shard after a compaction, from 0 on. The count is how many groups these are: fewer than
 * `most` if the shard has no more. No key changes. TEURLAKS_CONFIG where there is no such shard;
 * TEURLAKS_OUT_OF_MEMORY where a block is refused: some pages have moved then. */
struct teurlaks_gather_reply teurlaks_gather(struct teurlaks_handle *handle, uint32_t shard,
                                             size_t from, size_t most);

/* Moves the pool's group of lowest head that has a page to the shard. Where several causes hold, it
 * is refused for the shard if there is one of this number (TEURLAKS_ENDED, TEURLAKS_PAGES_SPENT),
 * then with TEURLAKS_PLAN_OPEN, TEURLAKS_NOTHING_TO_ADOPT, and only then for a number of no shard,
 * with TEURLAKS_CONFIG. */
struct teurlaks_adopt_reply teurlaks_adopt(struct teurlaks_handle *handle, uint32_t shard);

/* Plans as many folds as can be, and opens the plan. TEURLAKS_TOO_MANY where a side has more than
 * 4,096 groups that have a page. */
struct teurlaks_mark_reply teurlaks_mark(struct teurlaks_handle *handle);

/* Marks as teurlaks_mark does, but sees of each side the 4,096 groups with the fewest live keys, or
 * all where there are no more, and so is never refused with TEURLAKS_TOO_MANY. Its plan and its
 * certificate are of what it saw: a further mark may find more. */
struct teurlaks_mark_reply teurlaks_mark_some(struct teurlaks_handle *handle);

/* Carries out the next pair of the open plan. */
struct teurlaks_step_reply teurlaks_step(struct teurlaks_handle *handle);

/* Closes the open plan. Takes no memory. */
uint32_t teurlaks_close(struct teurlaks_handle *handle);

/* Takes at most so many steps of a compaction, at least one, and counts the pages that went. It
 * sends the sparsest groups of all shards to the pool, folds those that fit, and has the shards
 * adopt the rest again, in rounds as long as one gives enough. While `more` is 1 a further call
 * goes on; with 0 it is done, no plan is open, and a further call begins anew. Calls of other kinds
 * may come between. All keys stay what they are. To retire some groups takes as many steps as they
 * are; to trim or forget, a mark, a fold, a close and an adoption take one each.
 * TEURLAKS_OUT_OF_MEMORY, or TEURLAKS_PLAN_OPEN while a plan of the caller is open: the steps
 * before that were taken, and a further call goes on there. The certificate of the caller's last
 * mark is kept. */
struct teurlaks_compact_reply teurlaks_compact_within(struct teurlaks_handle *handle,
                                                      size_t budget);

/* Compacts until it is done if at least so many percent of the pages could go, and else does
 * nothing, with status TEURLAKS_OK: so it may be asked as often as one likes. How many could go is
 * known from counts alone: the pages without those that the live keys would need if these were
 * full, and without as many as the last compaction has left that could have gone by this count. A
 * page counts as one of 256 slots until a mark of a compaction has seen some. The counts are those
 * of teurlaks_estimate, so to do nothing takes no longer if there are more pages. A compaction that
 * is under way goes on; refusals are as above, with `more` 1. */
struct teurlaks_compact_reply teurlaks_compact_if_pays(struct teurlaks_handle *handle,
                                                       size_t percent);

/* Takes one step of such a compaction, which takes no more than `left` of a budget, or 1, for a
 * caller that keeps something beside each page. If `folded` is 1 the group of `abandoned` is on the
 * page of that of `owned` now, and its own page is gone; else each group is on the page that it
 * had. The plans of a round compare at most 4,096 times `budget` pairs of groups, where less than
 * 64 counts as 64. Else it is as above. */
struct teurlaks_advance_reply teurlaks_compaction_step(struct teurlaks_handle *handle, size_t left,
                                                       size_t budget);

/* Gives the compaction up where it is: its plan is closed, and a further call begins anew. Groups
 * that it has retired stay in the pool until they are adopted. */
uint32_t teurlaks_compaction_give_up(struct teurlaks_handle *handle);

/* Writes the text of the last mark's certificate into the first bytes of text, where text_len bytes
 * are room enough. There is no room at NULL, by which one asks how many they are. The text is of
 * version 2, or of version 3 if a serial in it is above 1,023, and `meshrun check` reads both
 * (docs/FORMATS.md). */
struct teurlaks_certificate_reply teurlaks_certificate(const struct teurlaks_handle *handle,
                                                       uint8_t *text, size_t text_len);

/* Keys as numbers of 64 bits, as for the token of an event loop. These calls ask no core. */

/* The layout with the fewest bits in which each key has a number whose shard is below `shards`,
 * whose serial is below `spans`, and whose generation is at most `generations`. TEURLAKS_CONFIG if
 * they come to more than 64 bits. */
struct teurlaks_key_bits_reply teurlaks_key_bits(uint32_t shards, uint32_t spans,
                                                 uint32_t generations);

/* The number of the key in the layout. It is never 0, and no other key has it. TEURLAKS_NONE if no
 * key has these numbers, or a part of the key does not fit its bits; TEURLAKS_CONFIG if the layout
 * takes more than 64 bits, a part of it more than 32, or its last byte is not 0. */
struct teurlaks_number_reply teurlaks_key_to_u64(struct teurlaks_key_bits bits,
                                                 struct teurlaks_key key);

/* The key of the number in the layout. TEURLAKS_NONE if no key has it; TEURLAKS_CONFIG as above. */
struct teurlaks_key_reply teurlaks_key_from_u64(struct teurlaks_key_bits bits, uint64_t number);

/* Threads. An arena has a shard for each of its seats. A thread that has a seat puts into that
 * seat's shard, and looks up, sets and frees keys of all shards, beside all others; the steward
 * plans folds and carries them out meanwhile. A handle to a seat or to the steward is of one thread
 * at a time, as any handle is, and may go to another. No call waits: where another thread has a
 * lock that it needs, it looks some times, and answers TEURLAKS_BUSY with nothing changed. So
 * `while ((status = teurlaks_seat_free(&seat, key)) == TEURLAKS_BUSY) sched_yield();` waits. Keys
 * are as those of a core, and each is found by every seat of its arena; memory goes with the last
 * handle of the arena. */

/* Where a seat or a steward is. Begin with `struct teurlaks_share_handle seat = {0};`. */
struct teurlaks_share_handle {
    uint8_t *at;
};

/* How many keys were taken and freed, also where the status is TEURLAKS_BUSY. */
struct teurlaks_tend_reply {
    uint32_t status;
    size_t count;
};

/* Pages of up to 4,096 bytes, and live keys, where the status is TEURLAKS_OK; else 0 of both. */
struct teurlaks_arena_totals_reply {
    uint32_t status;
    size_t pages;
    size_t live;
};

/* Leaves the steward of a new arena to a handle that has nothing, where it answers TEURLAKS_OK; the
 * numbers are those of teurlaks_new. */
uint32_t teurlaks_arena_open(struct teurlaks_share_handle *out, uint32_t shards,
                             uint32_t page_limit, uint32_t ring_capacity, uint32_t gens);

/* The same with the numbers of teurlaks_new_with_spans. */
uint32_t teurlaks_arena_open_with_spans(struct teurlaks_share_handle *out, uint32_t shards,
                                        uint32_t page_limit, uint32_t span_limit,
                                        uint32_t ring_capacity, uint32_t gens);

/* The same with the numbers of teurlaks_new_with_slots. */
uint32_t teurlaks_arena_open_with_slots(struct teurlaks_share_handle *out, uint32_t shards,
                                        uint32_t page_limit, uint32_t span_limit,
                                        uint32_t slot_limit, uint32_t ring_capacity,
                                        uint32_t gens);

/* The same of an arena whose run is recorded: each span keeps the log of its changes, and each seat
 * a receipt of each put, look-up, set and free that is made at it, until teurlaks_arena_audit holds
 * these against the logs. All calls are as those of any arena, but that those of a seat take memory
 * for the receipt, 48 bytes and the words, and are refused with TEURLAKS_OUT_OF_MEMORY where there
 * is none; and that nothing is forgotten (TEURLAKS_RECORDED). */
uint32_t teurlaks_arena_open_recorded(struct teurlaks_share_handle *out, uint32_t shards,
                                      uint32_t page_limit, uint32_t ring_capacity, uint32_t gens);

/* The same with the numbers of teurlaks_new_with_spans. */
uint32_t teurlaks_arena_open_recorded_with_spans(struct teurlaks_share_handle *out, uint32_t shards,
                                                 uint32_t page_limit, uint32_t span_limit,
                                                 uint32_t ring_capacity, uint32_t gens);

/* The same with the numbers of teurlaks_new_with_slots. */
uint32_t teurlaks_arena_open_recorded_with_slots(struct teurlaks_share_handle *out, uint32_t shards,
                                                 uint32_t page_limit, uint32_t span_limit,
                                                 uint32_t slot_limit, uint32_t ring_capacity,
                                                 uint32_t gens);

/* Ends a recorded arena, whose seats are all back with the steward (teurlaks_seat_leave), and holds
 * the receipts of all seats against the logs of all spans. TEURLAKS_OK: they agree, and so each
 * span has one history, in which every call was answered as by a plain map. Else the first part
 * that fails, from TEURLAKS_LOG_FAULT to TEURLAKS_BARRIER_FAULT; or TEURLAKS_UNFINISHED, or
 * TEURLAKS_BUSY where another handle has a share of the arena, and the arena goes on. A seat that
 * was dropped took its receipts along: it is TEURLAKS_UNFINISHED from then on. Once it has ended
 * the handle has no steward: it may be asked again, also after TEURLAKS_OUT_OF_MEMORY, and is
 * dropped as ever. */
uint32_t teurlaks_arena_audit(struct teurlaks_share_handle *handle);

/* Leaves a seat that no handle has to `out`, which has nothing: TEURLAKS_NONE where the steward has
 * no further one. */
uint32_t teurlaks_steward_seat(struct teurlaks_share_handle *handle,
                               struct teurlaks_share_handle *out);

/* Gives a seat back to the steward of its arena, who may hand it out again: keys that wait are
 * handed over, its shard stays as it is, where the seat keeps it others are let at it again, and
 * the handle `seat` has nothing then. TEURLAKS_CONFIG where the seat is of another arena. That is
 * told by where the two arenas stand, before the call of the archive is made (teurlaks_calls.h). */
uint32_t teurlaks_seat_leave(struct teurlaks_share_handle *handle,
                             struct teurlaks_share_handle *seat);

/* Where an arena stands. It is compared with another such place, and nothing else is made of it. */
struct teurlaks_place {
    const uint8_t *at;
};

/* Writes where the arena of the seat stands to `out`: two handles are of one arena exactly if that
 * is one place, while both have what they have. TEURLAKS_NO_CORE if the handle has no seat, and
 * nothing is written then. NULL for `out` is TEURLAKS_CONFIG. */
uint32_t teurlaks_seat_arena(struct teurlaks_share_handle *handle, struct teurlaks_place *out);

/* As teurlaks_seat_arena, of a steward. */
uint32_t teurlaks_steward_arena(struct teurlaks_share_handle *handle, struct teurlaks_place *out);

/* Drops a seat or a steward. The seat's shard takes no further put then, unless it was ended
 * before; its objects stay. All memory of the arena goes back with its last handle. A recorded seat
 * goes with its receipts, so that its arena is never audited: have it leave by
 * teurlaks_seat_leave. */
void teurlaks_share_drop(struct teurlaks_share_handle *handle);

/* Keeps the seat's shard for its thread from now on, until teurlaks_seat_pause: a put, and a
 * look-up, a set and a free of what is in that shard, take no lock then. Whoever else needs the
 * shard is answered TEURLAKS_BUSY meanwhile, the steward's mark among them. It is TEURLAKS_OK where
 * the seat keeps its shard already, TEURLAKS_BUSY where another thread has it, and TEURLAKS_CONFIG
 * at a recorded seat, whose calls make receipts. A look-up, a set or a free that is TEURLAKS_BUSY
 * in a session needs a pause before it is made again. Every other call of a seat but
 * teurlaks_seat_free_later and teurlaks_seat_hand_over pauses by itself. */
uint32_t teurlaks_seat_session(struct teurlaks_share_handle *handle);

/* Lets others at the seat's shard again. It is TEURLAKS_OK also where the seat did not keep it, as
 * a recorded one never does. */
uint32_t teurlaks_seat_pause(struct teurlaks_share_handle *handle);

/* As teurlaks_put_words, into the seat's shard. */
struct teurlaks_put_reply teurlaks_seat_put_words(struct teurlaks_share_handle *handle,
                                                  const struct teurlaks_word *words,
                                                  size_t words_len);

/* As teurlaks_get_words, of a key of any shard. */
struct teurlaks_words_reply teurlaks_seat_get_words(struct teurlaks_share_handle *handle,
                                                    struct teurlaks_key key,
                                                    struct teurlaks_word *words, size_t words_len);

/* As teurlaks_set_words, of a key of any shard. */
uint32_t teurlaks_seat_set_words(struct teurlaks_share_handle *handle, struct teurlaks_key key,
                                 const struct teurlaks_word *words, size_t words_len);

/* As teurlaks_free, of a key of any shard. */
uint32_t teurlaks_seat_free(struct teurlaks_share_handle *handle, struct teurlaks_key key);

/* Leaves the key to the seat of the shard that opened its span, which frees it when it tends its
 * rings. It takes no lock. Keys go in blocks: one waits for its block to be full for fewer than 64
 * further calls. TEURLAKS_RING_FULL where the ring took none: the key is then still the caller's.
 * TEURLAKS_NONE where the arena has no such shard. */
uint32_t teurlaks_seat_free_later(struct teurlaks_share_handle *handle, struct teurlaks_key key);

/* Hands over the keys that were left to others and wait for their block to be full. */
uint32_t teurlaks_seat_hand_over(struct teurlaks_share_handle *handle);

/* Takes the keys that others have left to the seat's shard, and frees each. */
struct teurlaks_tend_reply teurlaks_seat_tend(struct teurlaks_share_handle *handle);

/* As teurlaks_end, of the seat's shard. */
uint32_t teurlaks_seat_end(struct teurlaks_share_handle *handle);

/* As teurlaks_begin, of the seat's shard, which ended before the seat went to another thread. */
uint32_t teurlaks_seat_begin(struct teurlaks_share_handle *handle);

/* As teurlaks_retire, of the seat's shard. */
struct teurlaks_retire_reply teurlaks_seat_retire(struct teurlaks_share_handle *handle,
                                                  size_t most);

/* As teurlaks_trim, of the seat's shard. */
struct teurlaks_trim_reply teurlaks_seat_trim(struct teurlaks_share_handle *handle);

/* As teurlaks_gather, of the seat's shard, whose lock it has meanwhile: so take few groups at a
 * time. Groups that come or go between two calls may be passed over, or moved twice. */
struct teurlaks_gather_reply teurlaks_seat_gather(struct teurlaks_share_handle *handle, size_t from,
                                                  size_t most);

/* As teurlaks_adopt, for the seat's shard. */
struct teurlaks_adopt_reply teurlaks_seat_adopt(struct teurlaks_share_handle *handle);

/* The live key of the arena that comes next in the walk, which then stands behind it: no key comes
 * twice, and each that is live all the while comes. TEURLAKS_NONE at the end of the walk. After
 * TEURLAKS_BUSY the next call goes on from there. NULL for the walk is TEURLAKS_CONFIG. */
struct teurlaks_next_reply teurlaks_seat_next(struct teurlaks_share_handle *handle,
                                              struct teurlaks_walk *walk);

/* As teurlaks_mark, of all shards at one time. */
struct teurlaks_mark_reply teurlaks_steward_mark(struct teurlaks_share_handle *handle);

/* As teurlaks_mark_some, of all shards at one time. */
struct teurlaks_mark_reply teurlaks_steward_mark_some(struct teurlaks_share_handle *handle);

/* As teurlaks_step: the pair stays next where the status is TEURLAKS_BUSY. */
struct teurlaks_step_reply teurlaks_steward_step(struct teurlaks_share_handle *handle);

/* As teurlaks_gather, of the pool, whose lock it has meanwhile: so take few groups at a time. */
struct teurlaks_gather_reply teurlaks_steward_gather(struct teurlaks_share_handle *handle,
                                                     size_t from, size_t most);

/* As teurlaks_close. */
uint32_t teurlaks_steward_close(struct teurlaks_share_handle *handle);

/* As teurlaks_forget, of all shards at one time. */
struct teurlaks_forget_reply teurlaks_steward_forget(struct teurlaks_share_handle *handle);

/* As teurlaks_certificate, of the last mark of this steward. It takes no lock, and so is never
 * TEURLAKS_BUSY. */
struct teurlaks_certificate_reply teurlaks_steward_certificate(struct teurlaks_share_handle *handle,
                                                               uint8_t *text, size_t text_len);

/* As teurlaks_seat_next. */
struct teurlaks_next_reply teurlaks_steward_next(struct teurlaks_share_handle *handle,
                                                 struct teurlaks_walk *walk);

/* How much the arena keeps, at one time. */
struct teurlaks_arena_totals_reply teurlaks_steward_totals(struct teurlaks_share_handle *handle);

#ifdef __cplusplus
}
#endif

#include "teurlaks_calls.h"
#include "teurlaks_bytes.h"

#endif
