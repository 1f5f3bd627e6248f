/* Keeps objects under a limit of address space, as `ulimit -v 1000000` sets it: what the library
 * has no use for is there for others, and pages that go leave the process there too. */
#include "teurlaks.h"
#include "wanted.h"

/* Objects of 256 bytes, of which a page has 16, in 384 MB. */
enum { OBJECTS = 1536 << 10, OF_PAGE = 16 };

static struct teurlaks_key keys[OBJECTS];

/* Resident megabytes, as the system tells. */
static long resident(void) {
    long all, pages = 0;
    FILE *file = fopen("/proc/self/statm", "r");
    WANT(file && fscanf(file, "%ld %ld", &all, &pages) == 2);
    fclose(file);
    return pages / 256;
}

static void put_all(struct teurlaks_handle *core) {
    uint8_t object[256] = {1}; /* a page of zeros would take no memory */
    for (int i = 0; i < OBJECTS; i++) {
        struct teurlaks_put_reply put = teurlaks_put_bytes(core, 0, object, sizeof object);
        WANT(put.status == TEURLAKS_OK);
        keys[i] = put.key;
    }
}

/* Half of all pages go, each beside one that stays. */
static void free_half(struct teurlaks_handle *core) {
    for (int i = 0; i < OBJECTS; i++)
        if (i / OF_PAGE % 2) WANT(teurlaks_free(core, keys[i]) == TEURLAKS_OK);
    struct teurlaks_trim_reply trimmed = teurlaks_trim(core, 0);
    WANT(trimmed.status == TEURLAKS_OK && trimmed.count == OBJECTS / OF_PAGE / 2);
}

int main(void) {
    struct teurlaks_handle core = {0};
    WANT(teurlaks_new(&core, 1, 1 << 20, 1, UINT32_MAX) == TEURLAKS_OK);
    put_all(&core);
    void *other = malloc(128 << 20);
    WANT(other);
    free(other);
    long full = resident();
    free_half(&core);
    long half = resident();
    printf("of %ld resident MB %ld left the process\n", full, full - half);
    WANT(full - half >= 180);
    teurlaks_drop(&core);
    return 0;
}
