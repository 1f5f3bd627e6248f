/* Many puts, look-ups and frees by one call, beside as many calls in another core. */
#include "teurlaks.h"
#include "wanted.h"

enum { MANY = 1000, SLOTS = 256 };

static struct teurlaks_handle core, twin;
static struct teurlaks_word words[MANY];
static struct teurlaks_key keys[MANY + 1];
static struct teurlaks_get_reply replies[MANY + 1];

static int same_key(struct teurlaks_key one, struct teurlaks_key other) {
    return !memcmp(&one, &other, sizeof one);
}

/* Both cores put the words, and give the same keys in the same order. */
static void put(size_t from, size_t count) {
    struct teurlaks_many_reply reply =
        teurlaks_put_many(&core, 0, words + from, count, keys + from, count);
    WANT(reply.status == TEURLAKS_OK && reply.count == count);
    for (size_t at = from; at < from + count; at++) {
        struct teurlaks_put_reply one = teurlaks_put(&twin, 0, words[at]);
        WANT(one.status == TEURLAKS_OK && same_key(one.key, keys[at]));
    }
}

/* Each key finds its word, but for those before, which are gone. */
static void look_up(size_t gone) {
    struct teurlaks_many_reply reply = teurlaks_get_many(&core, keys, MANY, replies, MANY + 1);
    WANT(reply.status == TEURLAKS_OK && reply.count == MANY);
    for (size_t at = 0; at < MANY; at++)
        if (at < gone)
            WANT(replies[at].status == TEURLAKS_NONE && replies[at].value.low == 0);
        else
            WANT(replies[at].status == TEURLAKS_OK && replies[at].value.low == at);
    WANT(replies[MANY].status == 99);
}

/* The third page is refused: what was put before stands, and nothing else is written. */
static void refused(void) {
    struct teurlaks_handle small = {0};
    WANT(teurlaks_new(&small, 1, 2, 1, 9) == TEURLAKS_OK);
    struct teurlaks_key mark = {7, 7, 7, 7, 7};
    keys[2 * SLOTS] = mark;
    struct teurlaks_many_reply reply = teurlaks_put_many(&small, 0, words, MANY, keys, MANY);
    WANT(reply.status == TEURLAKS_PAGES_SPENT && reply.count == 2 * SLOTS);
    WANT(same_key(keys[2 * SLOTS], mark) && teurlaks_totals(&small).live == 2 * SLOTS);
    WANT(teurlaks_get(&small, keys[2 * SLOTS - 1]).value.low == 2 * SLOTS - 1);
    reply = teurlaks_put_many(&small, 1, words, MANY, keys, MANY);
    WANT(reply.status == TEURLAKS_CONFIG && reply.count == 0);
    teurlaks_drop(&small);
}

int main(void) {
    for (size_t at = 0; at < MANY; at++) words[at].low = at;
    WANT(teurlaks_new(&core, 2, 64, 1, 9) == TEURLAKS_OK);
    WANT(teurlaks_new(&twin, 2, 64, 1, 9) == TEURLAKS_OK);
    replies[MANY].status = 99;
    put(0, 300);
    put(300, MANY - 300);
    look_up(0);

    struct teurlaks_many_reply freed = teurlaks_free_many(&core, keys, 100);
    WANT(freed.status == TEURLAKS_OK && freed.count == 100);
    freed = teurlaks_free_many(&core, keys, 150);
    WANT(freed.status == TEURLAKS_OK && freed.count == 50);
    look_up(150);
    WANT(teurlaks_totals(&core).live == MANY - 150);
    refused();

    WANT(teurlaks_put_many(&core, 0, NULL, 3, keys, 3).count == 0);
    WANT(teurlaks_put_many(&core, 0, words, 3, NULL, 3).count == 0);
    WANT(teurlaks_free_many(&core, NULL, 3).count == 0);
    WANT(teurlaks_get_many(&core, keys, 3, NULL, 3).count == 0);
    WANT(teurlaks_put_many(NULL, 0, words, 3, keys, 3).status == TEURLAKS_NO_CORE);
    teurlaks_drop(&core);
    teurlaks_drop(&twin);
    WANT(teurlaks_put_many(&core, 0, words, 3, keys, 3).status == TEURLAKS_NO_CORE);
    WANT(teurlaks_free_many(&core, keys, 3).status == TEURLAKS_NO_CORE);
    WANT(teurlaks_get_many(&core, keys, 3, replies, 3).status == TEURLAKS_NO_CORE);
    return 0;
}
