/* Bytes of any number from 1 to 256, as words of objects. teurlaks.h includes this file. */
#ifndef TEURLAKS_BYTES_H
#define TEURLAKS_BYTES_H

#include "teurlaks.h"
#include <string.h>

/* As few words as hold 1 to 256 bytes, with zeros after these, and how many words they are. If the
 * bytes are of another number, or stand at NULL, they are 0, and one word is a zero. */
TEURLAKS_INLINE size_t teurlaks_words_of(const void *bytes, size_t len,
                                         struct teurlaks_word words[16]) {
    size_t words_len = (len + sizeof words[0] - 1) / sizeof words[0];
    if (!bytes || len == 0 || len > 16 * sizeof words[0]) {
        memset(words, 0, sizeof words[0]);
        return 0;
    }
    /* The bytes fill all words but the last. */
    memset(&words[words_len - 1], 0, sizeof words[0]);
    memcpy(words, bytes, len);
    return words_len;
}

/* Keeps 1 to 256 bytes in the shard, in as few words as hold them, with zeros after them; another
 * number, and NULL for the bytes, is TEURLAKS_CONFIG. How many bytes they are stands with the
 * caller, beside the key: teurlaks_get_bytes gives as many as it is asked for. */
TEURLAKS_INLINE struct teurlaks_put_reply
teurlaks_put_bytes(struct teurlaks_handle *handle, uint32_t shard, const void *bytes, size_t len) {
    struct teurlaks_word words[16];
    size_t words_len = teurlaks_words_of(bytes, len, words);
    return teurlaks_put_words(handle, shard, words, words_len);
}

/* Sets the key to these bytes, if they take as many words as its object has, as teurlaks_set_words
 * does; a number that is not 1 to 256, and NULL for the bytes, is TEURLAKS_CONFIG. */
TEURLAKS_INLINE uint32_t teurlaks_set_bytes(struct teurlaks_handle *handle, struct teurlaks_key key,
                                            const void *bytes, size_t len) {
    struct teurlaks_word words[16];
    size_t words_len = teurlaks_words_of(bytes, len, words);
    return teurlaks_set_words(handle, key, words, words_len);
}

/* Writes the first `len` bytes of the key's object to `bytes`; or TEURLAKS_NONE, or
 * TEURLAKS_TOO_SMALL where the object has fewer bytes, or TEURLAKS_CONFIG where `bytes` is NULL and
 * `len` is not 0. */
TEURLAKS_INLINE uint32_t teurlaks_get_bytes(const struct teurlaks_handle *handle,
                                            struct teurlaks_key key, void *bytes, size_t len) {
    struct teurlaks_word words[16];
    struct teurlaks_words_reply reply = teurlaks_get_words(handle, key, words, 16);
    if (reply.status != TEURLAKS_OK) return reply.status;
    if (len > reply.len * sizeof words[0]) return TEURLAKS_TOO_SMALL;
    if (len == 0) return TEURLAKS_OK;
    if (!bytes) return TEURLAKS_CONFIG;
    memcpy(bytes, words, len);
    return TEURLAKS_OK;
}

#endif
