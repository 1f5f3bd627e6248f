#include "allocator.h"
#include "stores.h"
#include <stdio.h>
#include <stdlib.h>
#include <string.h>

static void **blocks;

static void open_blocks(const struct steps *steps, void *room) {
    (void)steps;
    blocks = room;
}

static void put(uint32_t object, const void *bytes, uint32_t len) {
    blocks[object] = malloc(len);
    if (!blocks[object]) {
        fprintf(stderr, "replay: no memory\n");
        exit(1);
    }
    memcpy(blocks[object], bytes, len);
}

static void free_object(uint32_t object, uint32_t len) {
    (void)len;
    free(blocks[object]);
}

static int get(uint32_t object, void *bytes, uint32_t len) {
    memcpy(bytes, blocks[object], len);
    return 1;
}

static struct pages pages(void) { return (struct pages){{0}}; }

const struct store malloc_store = {"malloc", sizeof *blocks,      open_blocks, put, free_object,
                                   get,      allocator_give_back, pages};
