/* `calls ROUNDS`: makes calls of the header on a core and at a seat of 1,000 words of 128 bits, so
 * many rounds. Each kind of call is made by a function of its own, whose instructions callgrind
 * counts. */
#define _POSIX_C_SOURCE 200809L
#include "teurlaks.h"
#include <stdlib.h>

#define CALL __attribute__((noinline)) static
#define VALUES 1000
#define PAGES (1u << 20)
#define GENERATIONS 4294967295u

static struct teurlaks_handle core;
static struct teurlaks_share_handle steward, seat;
static struct teurlaks_key keys[VALUES];

CALL struct teurlaks_key c_core_put(struct teurlaks_word word) {
    struct teurlaks_put_reply reply = teurlaks_put(&core, 0, word);
    if (reply.status != TEURLAKS_OK) abort();
    return reply.key;
}

CALL uint64_t c_core_get(struct teurlaks_key key) { return teurlaks_get(&core, key).value.low; }

CALL uint32_t c_core_set(struct teurlaks_key key, struct teurlaks_word word) {
    return teurlaks_set(&core, key, word);
}

CALL uint32_t c_core_free(struct teurlaks_key key) { return teurlaks_free(&core, key); }

CALL struct teurlaks_key c_seat_put(struct teurlaks_word word) {
    struct teurlaks_put_reply reply = teurlaks_seat_put_words(&seat, &word, 1);
    if (reply.status != TEURLAKS_OK) abort();
    return reply.key;
}

CALL uint64_t c_seat_get(struct teurlaks_key key) {
    struct teurlaks_word word = {0, 0};
    teurlaks_seat_get_words(&seat, key, &word, 1);
    return word.low;
}

CALL uint32_t c_seat_set(struct teurlaks_key key, struct teurlaks_word word) {
    return teurlaks_seat_set_words(&seat, key, &word, 1);
}

CALL uint32_t c_seat_free(struct teurlaks_key key) { return teurlaks_seat_free(&seat, key); }

/* What is called. */
struct calls {
    struct teurlaks_key (*put)(struct teurlaks_word word);
    uint64_t (*get)(struct teurlaks_key key);
    uint32_t (*set)(struct teurlaks_key key, struct teurlaks_word word);
    uint32_t (*free)(struct teurlaks_key key);
};

/* Marsaglia's xorshift. */
static size_t below(uint64_t *state, size_t count) {
    *state ^= *state << 13;
    *state ^= *state >> 7;
    *state ^= *state << 17;
    return (*state >> 11) % count;
}

/* A round makes each call once, on a key at random. */
static void make(struct calls calls, unsigned long rounds) {
    uint64_t random = 88172645463325252u;
    for (uint64_t i = 0; i < VALUES; i++) keys[i] = calls.put((struct teurlaks_word){i, 0});
    for (uint64_t round = 0; round < rounds; round++) {
        struct teurlaks_word word = {round, 0};
        size_t at = below(&random, VALUES);
        if (calls.set(keys[at], word) != TEURLAKS_OK || calls.get(keys[at]) != round) abort();
        if (calls.free(keys[at]) != TEURLAKS_OK) abort();
        keys[at] = calls.put(word);
    }
}

int main(int count, char **words) {
    if (count != 2) return 2;
    unsigned long rounds = strtoul(words[1], NULL, 10);
    if (teurlaks_new(&core, 1, PAGES, 1, GENERATIONS) != TEURLAKS_OK) return 1;
    make((struct calls){c_core_put, c_core_get, c_core_set, c_core_free}, rounds);
    teurlaks_drop(&core);
    if (teurlaks_arena_open(&steward, 1, PAGES, 256, GENERATIONS) != TEURLAKS_OK) return 1;
    if (teurlaks_steward_seat(&steward, &seat) != TEURLAKS_OK) return 1;
    make((struct calls){c_seat_put, c_seat_get, c_seat_set, c_seat_free}, rounds);
    teurlaks_share_drop(&seat);
    teurlaks_share_drop(&steward);
    return 0;
}
