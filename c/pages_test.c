/* Tests of pages.c: that pages leave the process, that no byte has two holders, whatever threads
 * ask, and what comes of refusals. Link it with -Wl,--wrap= of malloc, mmap, mprotect and syscall.
 * With -DFEW it is built for a range of 4,096 pages, which is spent. The word `mmap` or `mprotect`
 * has that refused, and `syscall` that many runs are taken by one call; with `part` only the first
 * of them is. With `large` only address space of more than 16 MB is refused, and with `limit` the
 * process has 1 GB of it: blocks stand in several stretches then. With -DWATCHED=1, under a
 * sanitizer or valgrind, resident size is not looked at. */
#include "wanted.h"
#include <pthread.h>
#include <stdarg.h>
#include <stdint.h>
#include <stdio.h>
#include <stdlib.h>
#include <string.h>
#include <sys/resource.h>
#include <sys/uio.h>
#include <unistd.h>

#ifndef ROUNDS
#define ROUNDS 100000
#endif
#ifndef WATCHED
#define WATCHED 0
#endif

struct got {
    uint8_t ok;
    void *at;
};

struct got rattle_alloc(size_t size, size_t least),
    rattle_realloc(void *at, size_t old, size_t size, size_t least);
void rattle_dealloc(void *at);

static int refuse_mprotect, refuse_malloc, refuse_syscall, are_apart;
static size_t most = SIZE_MAX;      /* bytes that a call of mmap may ask for */
static size_t most_runs = SIZE_MAX; /* how many runs one call takes */
static int at_once;                 /* how often several were to be taken so, if that is refused */
static int takes_meanwhile;         /* whether a block is asked for while the system takes pages */
static uint8_t *meanwhile;          /* that block */
void *__real_mmap(void *, size_t, int, int, int, long), *__real_malloc(size_t);
int __real_mprotect(void *, size_t, int);
long __real_syscall(long, ...);

void *__wrap_mmap(void *at, size_t size, int protection, int flags, int file, long from) {
    return size > most ? (void *)-1 : __real_mmap(at, size, protection, flags, file, from);
}

int __wrap_mprotect(void *at, size_t size, int protection) {
    return refuse_mprotect ? -1 : __real_mprotect(at, size, protection);
}

static void *alloc(size_t size, int mark);

/* While the system takes pages, none of their blocks is in anybody's hand. */
static void take_meanwhile(const struct iovec *runs, size_t many) {
    meanwhile = alloc(1024, 3);
    for (size_t i = 0; i < many; i++)
        WANT((uintptr_t)meanwhile - (uintptr_t)runs[i].iov_base >= runs[i].iov_len);
}

/* pages.c makes one call so, process_madvise, whose words these are. */
long __wrap_syscall(long number, ...) {
    va_list words;
    va_start(words, number);
    int process = va_arg(words, int);
    const void *runs = va_arg(words, const void *);
    size_t many = va_arg(words, size_t);
    int advice = va_arg(words, int), flags = va_arg(words, int);
    va_end(words);
    if (takes_meanwhile && !meanwhile) take_meanwhile(runs, many);
    if (refuse_syscall) return at_once++, -1;
    if (many > most_runs) many = most_runs;
    return __real_syscall(number, process, runs, many, advice, flags);
}

void *__wrap_malloc(size_t size) { return refuse_malloc ? NULL : __real_malloc(size); }

/* Marsaglia's xorshift. */
static uint32_t next(uint64_t *state) {
    *state ^= *state << 13;
    *state ^= *state >> 7;
    *state ^= *state << 17;
    return *state >> 16;
}

static void *alloc(size_t size, int mark) {
    struct got got = rattle_alloc(size, 1);
    WANT(got.ok);
    memset(got.at, mark, size);
    return got.at;
}

/* A block that a worker has, each byte of which is its mark. */
struct kept {
    uint8_t *at;
    size_t size;
    uint8_t mark;
};

static int is_whole(const struct kept *kept, size_t size) {
    for (size_t i = 0; i < size; i++)
        if (kept->at[i] != kept->mark) return 0;
    return 1;
}

static const size_t sizes[] = {4096, 1024, 4096, 2048, 1024, 448, 9216, 0};

static size_t a_size(uint64_t *state) {
    return sizes[next(state) % (sizeof sizes / sizeof sizes[0])];
}

/* Asks for another size of the block, which keeps what it has of both. */
static void change_size(struct kept *kept, uint64_t *state) {
    size_t size = a_size(state);
    struct got got = rattle_realloc(kept->at, kept->size, size, 16);
    WANT(got.ok);
    kept->at = got.at;
    WANT(is_whole(kept, size < kept->size ? size : kept->size));
    *kept = (struct kept){got.at, size, next(state)};
    memset(kept->at, kept->mark, size);
}

/* Blocks are filled whole when they come, and looked at whole when they go: two holders of one byte
 * would show. */
static void *worker(void *number) {
    enum { BLOCKS = 600 };
    uint64_t state = 88172645463325252ull + (uintptr_t)number * 7919;
    struct kept blocks[BLOCKS] = {{0}};
    for (int round = 0; round < ROUNDS; round++) {
        struct kept *kept = &blocks[next(&state) % BLOCKS];
        if (!kept->at) {
            size_t size = a_size(&state);
            struct got got = rattle_alloc(size, 16);
            WANT(got.ok);
            *kept = (struct kept){got.at, size, next(&state)};
            memset(kept->at, kept->mark, size);
            continue;
        }
        WANT(is_whole(kept, kept->size));
        if (next(&state) % 16 == 0)
            change_size(kept, &state);
        else {
            rattle_dealloc(kept->at);
            kept->at = NULL;
        }
    }
    for (int i = 0; i < BLOCKS; i++)
        if (blocks[i].at) rattle_dealloc(blocks[i].at);
    return NULL;
}

static void threads(void) {
    pthread_t threads[8];
    for (uintptr_t i = 0; i < 8; i++)
        WANT(pthread_create(&threads[i], NULL, worker, (void *)i) == 0);
    for (int i = 0; i < 8; i++) WANT(pthread_join(threads[i], NULL) == 0);
}

/* Where the system refuses a range, malloc is asked, and a refusal of malloc is one, whose place is
 * not NULL. */
static void refused(void) {
    void *page = alloc(4096, 1), *half = alloc(2048, 4), *quarter = alloc(1024, 2);
    rattle_dealloc(page);
    rattle_dealloc(half);
    rattle_dealloc(quarter);
    refuse_malloc = 1;
    struct got one = rattle_alloc(4096, 1), other = rattle_alloc(1024, 1);
    struct got third = rattle_alloc(2048, 1);
    refuse_malloc = 0;
    WANT(!one.ok && !other.ok && !third.ok && one.at && other.at && third.at);
    most = SIZE_MAX, refuse_mprotect = 0;
    rattle_dealloc(alloc(4096, 1));
}

enum { COUNT = 20000 };
static uint8_t *page[COUNT], *half[COUNT], *quarter[COUNT];

#ifndef FEW
/* Resident kilobytes, as the system tells. */
static long resident(void) {
    long all, resident = 0;
    FILE *file = fopen("/proc/self/statm", "r");
    if (!file || fscanf(file, "%ld %ld", &all, &resident) != 2) exit(2);
    fclose(file);
    return resident * 4;
}

/* Blocks come in order, side by side in a stretch. Freed ones leave the process and come again, the
 * lowest first, and the others keep their bytes. */
static void leave_and_come(void) {
    for (int i = 0; i < COUNT; i++) {
        WANT((uintptr_t)page[i] % 4096 == 0 && (uintptr_t)quarter[i] % 1024 == 0);
        WANT((uintptr_t)half[i] % 2048 == 0);
        WANT(i == 0 || are_apart ||
             (page[i] == page[i - 1] + 4096 && quarter[i] == quarter[i - 1] + 1024 &&
              half[i] == half[i - 1] + 2048));
    }
    long full = resident();
    for (int i = 1; i < COUNT; i += 2) rattle_dealloc(page[i]);
    long left = resident();
    WANT(WATCHED || full - left >= COUNT / 2 * 4 - 64 * 4 - 64);
    for (int i = 0; i < COUNT; i++)
        if (i % 8) rattle_dealloc(quarter[i]);
    WANT(WATCHED || left - resident() >= COUNT / 8 * 4 - 64 * 4 - 64);
    left = resident();
    for (int i = 0; i < COUNT; i++)
        if (i % 4) rattle_dealloc(half[i]);
    WANT(WATCHED || left - resident() >= COUNT / 4 * 4 - 64 * 4 - 64);
    printf("%d KB were freed, and %ld left the process\n",
           COUNT / 2 * 4 + COUNT / 8 * 4 + COUNT / 4 * 4, full - resident());
    for (int i = 1; i < COUNT; i += 2) WANT(alloc(4096, 1) == page[i]);
    for (int i = 0; i < COUNT; i++)
        if (i % 8) WANT(alloc(1024, 2) == quarter[i]);
    for (int i = 0; i < COUNT; i++)
        if (i % 4) WANT(alloc(2048, 4) == half[i]);
    for (int i = 0; i < COUNT; i++) {
        WANT(is_whole(&(struct kept){page[i], 4096, 1}, 4096));
        WANT(is_whole(&(struct kept){half[i], 2048, 4}, 2048));
        WANT(is_whole(&(struct kept){quarter[i], 1024, 2}, 1024));
    }
}

/* The block, whose size changes. */
static void *changed(void *at, size_t old, size_t size) {
    struct got got = rattle_realloc(at, old, size, 16);
    WANT(got.ok && is_whole(&(struct kept){got.at, old, 1}, old < size ? old : size));
    return got.at;
}

/* Where nothing is in use any more, hardly anything stays, also where malloc has learnt to keep
 * much: a block that it had mapped and that was freed has glibc keep up to twice as much from then
 * on. */
static void all_goes(void) {
    long before = resident();
    rattle_dealloc(alloc(8 << 20, 1));
    for (int i = 0; i < COUNT; i++) page[i] = alloc(448, 1);
    for (int i = 0; i < COUNT; i++) rattle_dealloc(page[i]);
    WANT(WATCHED || resident() - before < 1024);
    for (int i = 0; i < COUNT; i++) page[i] = changed(alloc(16, 1), 16, 448);
    for (int i = 0; i < COUNT; i++) rattle_dealloc(page[i]);
    WANT(WATCHED || resident() - before < 1024);
    rattle_dealloc(alloc(4096, 1));
    rattle_dealloc(alloc(1024, 1));
    long empty = resident();
    for (int i = 0; i < 32; i++) page[i] = alloc(4096, 1);
    for (int i = 0; i < 32; i++) rattle_dealloc(page[i]);
    WANT(WATCHED || resident() <= empty);
    for (int i = 0; i < 128; i++) quarter[i] = alloc(1024, 1);
    for (int i = 0; i < 128; i++) rattle_dealloc(quarter[i]);
    WANT(WATCHED || resident() <= empty);
}

/* A block whose size changes is the next of its former size. */
static void comes_again(size_t size) {
    uint8_t *at = alloc(size, 1), *now = changed(at, size, 9216), *again = alloc(size, 1);
    WANT(again == at);
    rattle_dealloc(now);
    rattle_dealloc(again);
}

/* Every second page goes, each by itself, and blocks are asked for meanwhile. */
static void goes_meanwhile(void) {
    enum { QUARTERS = 4 * 2 * 64 };
    for (int i = 0; i < QUARTERS; i++) quarter[i] = alloc(1024, 2);
    takes_meanwhile = 1;
    for (int i = 0; i < QUARTERS; i++)
        if (i / 4 % 2 == 0) rattle_dealloc(quarter[i]);
    takes_meanwhile = 0;
#ifndef KEEP
    WANT(meanwhile || refuse_syscall);
#endif
    if (meanwhile) rattle_dealloc(meanwhile);
    for (int i = 0; i < QUARTERS; i++)
        if (i / 4 % 2) rattle_dealloc(quarter[i]);
}
#endif

/* A block that is in use when the process ends. */
static uint8_t *late;

/* Calls that come after the ranges were closed: the block is whole, and others are to be had. */
__attribute__((destructor(101))) static void call_late(void) {
    if (!late) return;
    struct got page = rattle_alloc(4096, 1), other = rattle_alloc(1024, 1);
    int is_well = is_whole(&(struct kept){late, 4096, 3}, 4096) && page.ok && other.ok;
    rattle_dealloc(late);
    rattle_dealloc(page.at);
    rattle_dealloc(other.at);
    if (!is_well) _exit(1);
}

/* Of a gigabyte of address space, most is still there for others. */
static void leaves_room(void) {
    void *room = malloc(700 << 20);
    WANT(room);
    free(room);
}

static void limit_to_a_gigabyte(void) {
    struct rlimit gigabyte = {1 << 30, 1 << 30};
    WANT(setrlimit(RLIMIT_AS, &gigabyte) == 0);
}

int main(int argc, char **argv) {
    const char *what = argc > 1 ? argv[1] : "";
    int is_limited = !strcmp(what, "limit"), is_refused = !strcmp(what, "mmap");
    refuse_mprotect = !strcmp(what, "mprotect");
    if (is_refused) most = 0;
    refuse_syscall = !strcmp(what, "syscall");
    if (!strcmp(what, "part")) most_runs = 1;
    if (!strcmp(what, "large")) most = 16 << 20;
    if (is_limited) limit_to_a_gigabyte();
    are_apart = is_limited || most < SIZE_MAX;
    if (is_refused || refuse_mprotect)
        refused();
    else {
        for (int i = 0; i < COUNT; i++) {
            page[i] = alloc(4096, 1);
            half[i] = alloc(2048, 4);
            quarter[i] = alloc(1024, 2);
        }
        if (is_limited) leaves_room();
#ifndef FEW
        leave_and_come();
#endif
        for (int i = COUNT; i--;) {
            rattle_dealloc(page[i]);
            rattle_dealloc(half[i]);
            rattle_dealloc(quarter[i]);
        }
#ifndef FEW
        all_goes();
        comes_again(4096);
        comes_again(1024);
        goes_meanwhile();
        WANT(at_once == refuse_syscall);
#endif
    }
    threads();
    late = alloc(4096, 3);
    return 0;
}
