/* Writes down what a program asks its allocator, to be preloaded: RECORDING names the file
 * (recording.h), which is made where there is none. Forked processes and programs that they start
 * write into the same file, each under its number.
 *
 * The order of the records is one in which the calls may have come: an address is written as given
 * out after the allocator gave it, and as taken back before the allocator takes it, and each record
 * takes its place by one atomic addition. There is no lock, and no buffer, so nothing is held or
 * lost at a fork, an _exit or a kill. A full disk stops the program with SIGBUS. */
#define _GNU_SOURCE
#include "recording.h"
#include <dlfcn.h>
#include <errno.h>
#include <fcntl.h>
#include <stddef.h>
#include <stdlib.h>
#include <string.h>
#include <sys/mman.h>
#include <unistd.h>

/* The allocator that would be called without this library. */
static struct {
    void *(*malloc)(size_t);
    void *(*calloc)(size_t, size_t);
    void *(*realloc)(void *, size_t);
    void (*free)(void *);
    void *(*memalign)(size_t, size_t);
    void *(*aligned_alloc)(size_t, size_t);
    int (*posix_memalign)(void **, size_t, size_t);
} next;

static struct recording *recording;

static enum { NOT_YET, LOOKING, READY } state;

/* The depth of calls of the allocator in this thread: what it asks of itself is not written down.
 * It lies where no call is needed to find it. */
static __thread int depth __attribute__((tls_model("initial-exec")));

/* What is asked while the allocator is looked for. It is not written down, and stays. */
static union {
    max_align_t align;
    char bytes[1 << 16];
} early;
static size_t early_used;

static void *early_alloc(size_t size) {
    size_t at = early_used;
    if (size > sizeof early.bytes - 64 - at) abort();
    early_used += (size + 63) & ~(size_t)63;
    return early.bytes + at;
}

static int is_early(const void *at) {
    return (const char *)at >= early.bytes && (const char *)at < early.bytes + sizeof early.bytes;
}

static void note(enum call call, const void *address, size_t bytes) {
    if (!recording) return;
    uint64_t place = atomic_fetch_add(&recording->count, 1);
    if (place >= MOST_RECORDS) return;
    struct record *record = &recording->records[place];
    record->address = (uintptr_t)address;
    record->bytes = bytes;
    record->process = getpid();
    record->thread = gettid();
    atomic_store(&record->call, call);
}

static void open_recording(void) {
    const char *name = getenv("RECORDING");
    int file = name ? open(name, O_RDWR | O_CREAT | O_CLOEXEC, 0644) : -1;
    if (file < 0) return;
    if (!ftruncate(file, sizeof *recording)) {
        void *at = mmap(NULL, sizeof *recording, PROT_READ | PROT_WRITE, MAP_SHARED, file, 0);
        if (at != MAP_FAILED) recording = at;
    }
    close(file);
    if (recording) atomic_store(&recording->magic, RECORDING_MAGIC);
    note(CALL_START, NULL, 0);
}

#define FIND(name) *(void **)&next.name = dlsym(RTLD_NEXT, #name)

/* Whether the allocator is known. It is looked for with the first call, before there is a second
 * thread. */
static int is_ready(void) {
    if (state == READY) return 1;
    if (state == LOOKING) return 0;
    state = LOOKING;
    FIND(malloc), FIND(calloc), FIND(realloc), FIND(free), FIND(memalign), FIND(aligned_alloc),
        FIND(posix_memalign);
    int error = errno;
    open_recording();
    errno = error;
    state = READY;
    return 1;
}

static void *given(enum call call, void *at, size_t bytes) {
    if (--depth == 0 && at) note(call, at, bytes);
    return at;
}

void *malloc(size_t size) {
    if (!is_ready()) return early_alloc(size);
    depth++;
    return given(CALL_MALLOC, next.malloc(size), size);
}

/* Early memory is zeros, and is given out once. */
void *calloc(size_t count, size_t size) {
    if (!is_ready()) return early_alloc(count * size);
    depth++;
    return given(CALL_CALLOC, next.calloc(count, size), count * size);
}

void free(void *at) {
    if (!at || is_early(at)) return;
    if (depth++ == 0) note(CALL_FREE, at, 0);
    next.free(at);
    depth--;
}

void *realloc(void *at, size_t size) {
    if (at && is_early(at)) {
        size_t left = early.bytes + sizeof early.bytes - (char *)at;
        void *moved = malloc(size);
        return moved ? memcpy(moved, at, size < left ? size : left) : NULL;
    }
    if (!is_ready()) return early_alloc(size);
    if (depth++ == 0 && at) note(CALL_REALLOC_TAKES, at, 0);
    void *moved = next.realloc(at, size);
    depth--;
    if (depth == 0 && moved) note(CALL_REALLOC_GIVES, moved, size);
    if (depth == 0 && !moved && at && size) note(CALL_REALLOC_FAILS, at, 0);
    return moved;
}

void *memalign(size_t align, size_t size) {
    if (!is_ready()) abort();
    depth++;
    return given(CALL_ALIGNED, next.memalign(align, size), size);
}

void *aligned_alloc(size_t align, size_t size) {
    if (!is_ready()) abort();
    depth++;
    return given(CALL_ALIGNED, next.aligned_alloc(align, size), size);
}

int posix_memalign(void **at, size_t align, size_t size) {
    if (!is_ready()) abort();
    depth++;
    int error = next.posix_memalign(at, align, size);
    given(CALL_ALIGNED, error ? NULL : *at, size);
    return error;
}
