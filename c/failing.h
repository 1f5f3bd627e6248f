/* One allocation that fails, for tests that are linked with -Wl,--wrap=malloc,--wrap=realloc.
 * Nothing of it is installed. */
#ifndef FAILING_H
#define FAILING_H
#include <stddef.h>

/* How many allocations go well before one fails, and whether it has. */
static long before_failure = -1;
static int has_failed;

void *__real_malloc(size_t size);
void *__real_realloc(void *block, size_t size);

static int fails(void) {
    if (before_failure < 0 || before_failure-- > 0) return 0;
    has_failed = 1;
    return 1;
}

void *__wrap_malloc(size_t size) { return fails() ? NULL : __real_malloc(size); }
void *__wrap_realloc(void *block, size_t size) {
    return fails() ? NULL : __real_realloc(block, size);
}

#endif
