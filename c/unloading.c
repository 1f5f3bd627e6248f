/* Loads the shared library, keeps objects, drops the core and unloads the library, again and
 * again: the process has as much address space as before. With the word `kept` it drops no core,
 * and then only what is lost with these stays. The first word names the library. Link it with
 * -ldl. */
#define TEURLAKS_UNTESTED
#include "teurlaks.h"
#include "wanted.h"
#include <dlfcn.h>
#include <string.h>

enum { LOADS = 100 };

/* The calls of the library that is loaded. */
struct calls {
    __typeof__(&teurlaks_new) new;
    __typeof__(&teurlaks_put) put;
    __typeof__(&teurlaks_put_words) put_words;
    __typeof__(&teurlaks_drop) drop;
};

/* Megabytes of address space, as the system tells. */
static long address_space(void) {
    long pages = 0;
    FILE *file = fopen("/proc/self/statm", "r");
    WANT(file && fscanf(file, "%ld", &pages) == 1);
    fclose(file);
    return pages / 256;
}

static struct calls calls_of(void *library) {
    struct calls calls;
    *(void **)&calls.new = dlsym(library, "teurlaks_new");
    *(void **)&calls.put = dlsym(library, "teurlaks_put");
    *(void **)&calls.put_words = dlsym(library, "teurlaks_put_words");
    *(void **)&calls.drop = dlsym(library, "teurlaks_drop");
    WANT(calls.new &&calls.put &&calls.put_words &&calls.drop);
    return calls;
}

/* Keeps objects on a page of 4,096 bytes, one of 2,048 and one of 1,024: of each range a block is
 * in use. */
static void use(struct calls calls, int is_dropped) {
    struct teurlaks_handle core = {0};
    struct teurlaks_word words[16] = {{1, 2}, [15] = {3, 4}};
    WANT(calls.new(&core, 1, 4, 1, UINT32_MAX) == TEURLAKS_OK);
    for (int i = 0; i < 256 + 128; i++)
        WANT(calls.put(&core, 0, words[0]).status == TEURLAKS_OK);
    for (int i = 0; i < 4; i++)
        WANT(calls.put_words(&core, 0, words, 16).status == TEURLAKS_OK);
    if (is_dropped) calls.drop(&core);
}

int main(int argc, char **argv) {
    WANT(argc > 1);
    int is_dropped = argc == 2 || strcmp(argv[2], "kept");
    long before = 0;
    for (int i = 0; i <= LOADS; i++) {
        void *library = dlopen(argv[1], RTLD_NOW | RTLD_LOCAL);
        WANT(library);
        use(calls_of(library), is_dropped);
        WANT(dlclose(library) == 0 && !dlopen(argv[1], RTLD_NOW | RTLD_NOLOAD));
        if (i == 0) before = address_space();
    }
    long more = address_space() - before;
    printf("%d loads took %ld MB of address space\n", LOADS, more);
    /* Of each of three ranges a megabyte is open, which stays if a block there is in use. */
    WANT(is_dropped ? more <= 1 : 2 * LOADS <= more && more <= 4 * LOADS);
    return 0;
}
