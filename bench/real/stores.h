/* The stores that a recording is replayed over. An object's number is below what the store was
 * opened with, and says who it is in each call. */
#ifndef BENCH_STORES_H
#define BENCH_STORES_H

#include "steps.h"
#include <stddef.h>
#include <stdint.h>

/* Pages of 4,096 bytes by the class of their objects. */
struct pages {
    size_t of_class[CLASSES];
};

/* A store compacts the pages of a class where fewer than so many percent of their slots hold an
 * object. Above 100 it always does. */
extern unsigned compacted_below_percent;

static inline int is_sparse(size_t objects, size_t pages, unsigned class) {
    return objects * 100 < pages * (4096 / bytes_of_class(class)) * compacted_below_percent;
}

struct store {
    const char *name;
    /* What the program keeps of each object to find it again, which is no part of what is
     * measured. */
    size_t key_bytes;
    /* The keys have room for all objects. */
    void (*open)(const struct steps *steps, void *keys);
    /* Keeps the bytes of an object that is not live. Ends the program where there is no room. */
    void (*put)(uint32_t object, const void *bytes, uint32_t len);
    void (*free)(uint32_t object, uint32_t len);
    /* Writes the bytes of a live object, and answers whether it has any. */
    int (*get)(uint32_t object, void *bytes, uint32_t len);
    /* Gives back what can be, where it is sparse. */
    void (*compact)(void);
    /* All zeros in a store that doesn't know. */
    struct pages (*pages)(void);
};

/* A core for each class. */
extern const struct store core_store;
/* Pages with the same rule of placement, and with the search of Mesh in place of largest plans. */
extern const struct store split_store;
/* A block of the process's allocator for each object. */
extern const struct store malloc_store;

#endif
