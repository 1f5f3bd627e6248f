/* Threads that look up in one core at once, while none writes. All memory of the library is
 * protected from writes meanwhile, and so is the handle: a call that writes there ends the
 * program. */

#include "teurlaks.h"

#include <pthread.h>
#include <stdio.h>
#include <stdlib.h>
#include <string.h>
#include <sys/mman.h>

#ifndef ROUNDS
#define ROUNDS 2000
#endif
#define READERS 4
#define KEYS 3000
#define ROOM ((size_t)1 << 26)

/* All that the library asks for, one after another: nothing is given back. The handle is first. */
static unsigned char *room;
static size_t used;
static int is_protected;

static void want(int holds, const char *what) {
    if (!holds) {
        fprintf(stderr, "reading: %s\n", what);
        exit(1);
    }
}

void *__real_malloc(size_t size);
void *__real_realloc(void *block, size_t size);
void __real_free(void *block);

static int is_ours(const void *block) {
    const unsigned char *at = block;
    return room && at >= room && at < room + ROOM;
}

static void *take(size_t size) {
    size_t *block = (size_t *)(void *)(room + used);
    used += (size + 31) / 16 * 16;
    want(used <= ROOM, "there is room");
    *block = size;
    return block + 2;
}

void *__wrap_malloc(size_t size) {
    return room && !is_protected ? take(size) : __real_malloc(size);
}

void *__wrap_realloc(void *block, size_t size) {
    if (block && !is_ours(block)) return __real_realloc(block, size);
    if (!room || is_protected) return __real_realloc(block, size);
    void *larger = take(size);
    if (block) {
        size_t before = ((size_t *)block)[-2];
        memcpy(larger, block, before < size ? before : size);
    }
    return larger;
}

void __wrap_free(void *block) {
    if (!is_ours(block)) __real_free(block);
}

static struct teurlaks_key keys[KEYS];

/* One object of 16 words, each of them WORD. */
#define WORD 77
static struct teurlaks_key large;

static void read_large(const struct teurlaks_handle *core) {
    struct teurlaks_word words[16] = {{0, 0}};
    struct teurlaks_words_reply reply = teurlaks_get_words(core, large, words, 16);
    want(reply.status == TEURLAKS_OK && reply.len == 16, "a large object is found");
    for (int at = 0; at < 16; at++) want(words[at].low == WORD, "a large object has its words");
    char bytes[200];
    want(teurlaks_get_bytes(core, large, bytes, sizeof bytes) == TEURLAKS_OK, "its bytes");
    want(teurlaks_get(core, large).status == TEURLAKS_TOO_SMALL, "it has more words than one");
    want(teurlaks_contains(core, large) == TEURLAKS_OK, "its key is live");
}

static void read_certificate(const struct teurlaks_handle *core) {
    static const char begins[] = "meshcert";
    uint8_t text[4096];
    struct teurlaks_certificate_reply asked = teurlaks_certificate(core, NULL, 0);
    want(asked.status == TEURLAKS_TOO_SMALL, "there was a mark");
    want(asked.len <= sizeof text, "there is room for its text");
    want(teurlaks_certificate(core, text, sizeof text).status == TEURLAKS_OK, "the text");
    want(!memcmp(text, begins, sizeof begins - 1), "it is a certificate");
}

static void *read_all(void *with) {
    const struct teurlaks_handle *core = with;
    static const struct teurlaks_key before_all;
    for (int round = 0; round < ROUNDS; round++) {
        for (int at = round % 7; at < KEYS; at += 7) {
            struct teurlaks_get_reply got = teurlaks_get(core, keys[at]);
            struct teurlaks_word word = {0, 0};
            struct teurlaks_words_reply words = teurlaks_get_words(core, keys[at], &word, 1);
            uint32_t status = at % 3 ? TEURLAKS_OK : TEURLAKS_NONE;
            want(got.status == status && words.status == status, "a look-up is as the key is");
            want(teurlaks_contains(core, keys[at]) == status, "a key is live or not");
            int finds = got.value.low == (uint64_t)at && word.low == (uint64_t)at;
            want(!(at % 3) || finds, "a look-up finds its own word");
        }
        if (round % 50 == 0) {
            struct teurlaks_next_reply next = {TEURLAKS_OK, before_all};
            size_t met = 0;
            while ((next = teurlaks_next(core, next.key)).status == TEURLAKS_OK) met++;
            want(met == teurlaks_totals(core).live, "a walk meets each live key");
            want(met == teurlaks_estimate(core).live, "an estimate of few groups counts each");
            read_large(core);
            read_certificate(core);
        }
    }
    return NULL;
}

int main(void) {
    room = mmap(NULL, ROOM, PROT_READ | PROT_WRITE, MAP_PRIVATE | MAP_ANONYMOUS, -1, 0);
    want(room != MAP_FAILED, "memory");
    struct teurlaks_handle *core = (struct teurlaks_handle *)(void *)room;
    used = 16;
    want(teurlaks_new(core, 2, 64, 1, 9) == TEURLAKS_OK, "a core");
    for (int at = 0; at < KEYS; at++) {
        struct teurlaks_word word = {0, 0};
        word.low = (uint64_t)at;
        struct teurlaks_put_reply put = teurlaks_put(core, 0, word);
        want(put.status == TEURLAKS_OK, "a put");
        keys[at] = put.key;
    }
    for (int at = 0; at < KEYS; at += 3) {
        want(teurlaks_free(core, keys[at]) == TEURLAKS_OK, "a free");
    }
    struct teurlaks_word words[16];
    for (int at = 0; at < 16; at++) words[at] = (struct teurlaks_word){WORD, 0};
    struct teurlaks_put_reply put = teurlaks_put_words(core, 1, words, 16);
    want(put.status == TEURLAKS_OK, "a large object");
    large = put.key;
    /* Some keys stand in the pool, and a mark is made. */
    want(teurlaks_retire(core, 0, 5).status == TEURLAKS_OK, "a retirement");
    want(teurlaks_mark(core).status == TEURLAKS_OK, "a mark");
    want(teurlaks_close(core) == TEURLAKS_OK, "a close");
    is_protected = 1;
    want(!mprotect(room, ROOM, PROT_READ), "protection");
    pthread_t readers[READERS];
    for (int at = 0; at < READERS; at++) {
        want(!pthread_create(&readers[at], NULL, read_all, core), "a thread");
    }
    for (int at = 0; at < READERS; at++) want(!pthread_join(readers[at], NULL), "a thread ends");
    return 0;
}
