/* The three functions through which the library asks for memory, so that pages that it gives back
 * leave the process, as Mesh releases the physical pages that its meshing regains. Link it in place
 * of the kit's liblibc_c.a, which asks malloc for everything.
 *
 * A request of exactly 4,096, 2,048 or 1,024 bytes (a page of objects, a half or a quarter of one,
 * or the generations of 256 slots of which one has passed 255) is a block of a range of its own.
 * All else goes to malloc. A range is address space that is reserved and opened bit by bit:
 *
 *   0                                opened             reserved
 *   | used | free | used | free, kept |  no memory yet  |
 *            no memory     memory, for the next request
 *
 * - All address space of a range is reserved at once, as one stretch, since it costs nothing. It
 *   costs something if the process has a limit of it (RLIMIT_AS, `ulimit -v`). Then each stretch is
 *   as long as all before it, so that no more is reserved than twice what has been used, and OPEN
 *   pages.
 * - If the system refuses a stretch, one of half its length is asked for, and so on down to OPEN
 *   pages.
 * - The lowest free block is taken first, so that the upper end of the range empties.
 * - A system page all of whose blocks are free is kept at first. When KEEP of them are kept they
 *   are all handed to the system, in runs where neighbours are free, and all runs by one call of
 *   process_madvise if the system takes it. So at most KEEP - 1 system pages of a range are neither
 *   used nor given back.
 * - If a range is spent, or the system reserves or opens no more of it, malloc is asked, and if
 *   that refuses the request is refused.
 * - When the last block of all comes back, as with the last core that is dropped, what is kept goes
 *   to the system too. If more than LET_GO bytes were asked of malloc since the last such time,
 *   glibc's malloc_trim(0) has malloc do likewise, which else keeps some MB of free blocks; it
 *   looks at all of the process's free blocks.
 * - When the library is unloaded (dlclose), a range with no block in use is unmapped. If a program
 *   has not given all blocks of it back, only what was never opened is. The same is done when the
 *   process ends, since a call may still come then.
 *
 * Any number of threads may call: each range has a lock, which is not held while the system takes
 * pages back. The forked child of a process with threads makes no call, as teurlaks.h says. */
#define _DEFAULT_SOURCE
#include <pthread.h>
#include <stdatomic.h>
#include <stddef.h>
#include <stdint.h>
#include <stdlib.h>
#include <string.h>
#include <sys/mman.h>
#include <sys/resource.h>
#include <sys/syscall.h>
#include <sys/uio.h>
#include <unistd.h>
#ifdef __GLIBC__
#include <malloc.h>
#endif

#define SYSTEM_PAGE 4096
/* System pages of a range: a multiple of 4,096. 1,048,576 of them are 4 GB, one full shard. */
#ifndef RANGE_PAGES
#define RANGE_PAGES 1048576
#endif
/* How many system pages a range opens at a time, and the least that it reserves. */
#ifndef OPEN
#define OPEN 256
#endif
/* How many stretches a range may have. */
#define STRETCHES 64
/* How many free system pages a range keeps, less one. 1: each is given back at once. */
#ifndef KEEP
#define KEEP 64
#endif
/* Linux's number of `process_madvise`, and what stands there for the calling process. */
#ifndef SYS_process_madvise
#define SYS_process_madvise 440
#endif
#define THIS_PROCESS (-10000)
/* From how many bytes on that were asked of malloc it is to let go of what is free, once no block
 * is in use. */
#ifndef LET_GO
#define LET_GO (1 << 20)
#endif

/* What the library is answered: whether there is a block, and where; never NULL. */
struct got {
    uint8_t ok;
    void *at;
};

/* The blocks that are free and in nobody's hand, and the system pages among them that still have
 * memory. Of the free ones the least is found by a look at each level: a bit of a level says
 * whether the word below has any. */
struct blocks {
    uint64_t low[4 * (size_t)RANGE_PAGES / 64];
    uint64_t mid[4 * (size_t)RANGE_PAGES / 4096];
    uint64_t top[(4 * (size_t)RANGE_PAGES / 4096 + 63) / 64];
    uint64_t warm[RANGE_PAGES / 64];
    uint64_t may_be_warm[RANGE_PAGES / 4096]; /* a bit for each word of them that may have one */
};

/* Address space of a range that lies side by side. */
struct stretch {
    uint8_t *base;       /* these two are written once, before there are pages */
    size_t first;        /* how many system pages of the range stand before it */
    atomic_size_t pages; /* 0: there is no stretch, here and from here on */
};

struct range {
    pthread_mutex_t lock;
    struct stretch stretches[STRETCHES];
    struct blocks *blocks;
    size_t size;      /* of a block */
    size_t per;       /* blocks of a system page */
    size_t count;     /* of stretches */
    size_t reserved;  /* system pages of all stretches */
    size_t opened;    /* blocks that may be used */
    size_t next;      /* blocks from here on were never used */
    size_t used;      /* blocks that the library has */
    size_t kept;      /* how many system pages are warm */
    size_t returning; /* how many calls are handing pages to the system */
    int is_closed;    /* whether it hands out no block any more */
};

/* System pages that lie side by side. */
struct run {
    uint32_t from, to;
};

static struct blocks of_pages, of_halves, of_quarters;
static struct range pages = {
    .lock = PTHREAD_MUTEX_INITIALIZER, .blocks = &of_pages, .size = 4096, .per = 1};
static struct range halves = {
    .lock = PTHREAD_MUTEX_INITIALIZER, .blocks = &of_halves, .size = 2048, .per = 2};
static struct range quarters = {
    .lock = PTHREAD_MUTEX_INITIALIZER, .blocks = &of_quarters, .size = 1024, .per = 4};
static uint8_t nothing[1];
static atomic_size_t in_use;     /* blocks that the library has */
static atomic_size_t asked;      /* bytes asked of malloc since there was none in use */
static atomic_int is_one_by_one; /* whether the system has refused to take runs by one call */

static void insert(struct blocks *b, size_t n) {
    b->low[n / 64] |= 1ull << n % 64;
    b->mid[n / 4096] |= 1ull << n / 64 % 64;
    b->top[n / 262144] |= 1ull << n / 4096 % 64;
}

static void erase(struct blocks *b, size_t n) {
    if (b->low[n / 64] &= ~(1ull << n % 64)) return;
    if (b->mid[n / 4096] &= ~(1ull << n / 64 % 64)) return;
    b->top[n / 262144] &= ~(1ull << n / 4096 % 64);
}

/* The least free block, or -1. */
static ptrdiff_t least_of(const struct blocks *b) {
    for (size_t i = 0; i < sizeof b->top / sizeof b->top[0]; i++)
        if (b->top[i]) {
            size_t j = i * 64 + __builtin_ctzll(b->top[i]);
            size_t k = j * 64 + __builtin_ctzll(b->mid[j]);
            return k * 64 + __builtin_ctzll(b->low[k]);
        }
    return -1;
}

/* Where a system page of the range stands. */
static uint8_t *page_at(struct range *r, size_t page) {
    struct stretch *s = r->stretches;
    while (page - s->first >= s->pages) s++;
    return s->base + (page - s->first) * SYSTEM_PAGE;
}

/* Where a block of the range stands. */
static uint8_t *block_at(struct range *r, size_t n) {
    return page_at(r, n / r->per) + n % r->per * r->size;
}

/* Whether address space is dear: it may also be wanted for something else. */
static int is_limited(void) {
    struct rlimit limit;
    return getrlimit(RLIMIT_AS, &limit) == 0 && limit.rlim_cur != RLIM_INFINITY;
}

/* Reserves a further stretch, and tells whether it could be had. */
static int reserve(struct range *r) {
    size_t left = RANGE_PAGES - r->reserved, pages = left;
    if (is_limited()) pages = r->reserved < OPEN ? OPEN : r->reserved;
    if (pages > left) pages = left;
    if (pages == 0 || r->count == STRETCHES || sysconf(_SC_PAGESIZE) != SYSTEM_PAGE) return 0;
    void *at;
    while ((at = mmap(NULL, pages * SYSTEM_PAGE, PROT_NONE,
                      MAP_PRIVATE | MAP_ANONYMOUS | MAP_NORESERVE, -1, 0)) == MAP_FAILED) {
        if (pages <= OPEN) return 0;
        pages = pages / 2 < OPEN ? OPEN : pages / 2;
    }
    /* A huge page would be memory for 512 pages, used or not. That the system has none is no
     * matter. */
    madvise(at, pages * SYSTEM_PAGE, MADV_NOHUGEPAGE);
    struct stretch *s = &r->stretches[r->count++];
    s->base = at;
    s->first = r->reserved;
    atomic_store_explicit(&s->pages, pages, memory_order_release);
    r->reserved += pages;
    return 1;
}

/* Opens further blocks, which are all of the last stretch, and tells whether there are some. */
static int open_more(struct range *r) {
    size_t open = r->opened / r->per;
    if (open == r->reserved && !reserve(r)) return 0;
    size_t left = r->reserved - open, more = left < OPEN ? left : OPEN;
    if (mprotect(page_at(r, open), more * SYSTEM_PAGE, PROT_READ | PROT_WRITE)) return 0;
    r->opened += more * r->per;
    return 1;
}

/* A block that was never used, or NULL. */
static void *fresh(struct range *r) {
    if (r->next == r->opened && !open_more(r)) return NULL;
    return block_at(r, r->next++);
}

/* Counts a system page among the warm ones. */
static void note_warm(struct range *r, size_t page) {
    r->blocks->warm[page / 64] |= 1ull << page % 64;
    r->blocks->may_be_warm[page / 4096] |= 1ull << page / 64 % 64;
    r->kept++;
}

/* Counts it among them no longer. */
static void forget_warm(struct range *r, size_t page) {
    r->blocks->warm[page / 64] &= ~(1ull << page % 64);
    r->kept--;
}

/* The block, which is no longer free; nor is its system page counted among the warm ones. */
static void *taken(struct range *r, size_t n) {
    size_t page = n / r->per;
    erase(r->blocks, n);
    if (r->blocks->warm[page / 64] >> page % 64 & 1) forget_warm(r, page);
    return block_at(r, n);
}

/* A block, or NULL. */
static void *take(struct range *r) {
    void *at = NULL;
    pthread_mutex_lock(&r->lock);
    if (!r->is_closed) {
        ptrdiff_t n = least_of(r->blocks);
        at = n < 0 ? fresh(r) : taken(r, n);
        r->used += at != NULL;
    }
    pthread_mutex_unlock(&r->lock);
    return at;
}

/* Whether the page goes on what the run has, in the same stretch. */
static int goes_on(struct range *r, const struct run *run, uint32_t page) {
    return run->to == page && page_at(r, page - 1) + SYSTEM_PAGE == page_at(r, page);
}

/* Adds a warm page to so many runs, which is neither warm nor free from then on. Answers how many
 * runs there are. */
static size_t cool(struct range *r, uint32_t page, struct run runs[KEEP], size_t many) {
    forget_warm(r, page);
    for (size_t i = 0; i < r->per; i++) erase(r->blocks, page * r->per + i);
    if (many && goes_on(r, &runs[many - 1], page)) {
        runs[many - 1].to++;
        return many;
    }
    runs[many] = (struct run){page, page + 1};
    return many + 1;
}

/* The warm pages, as runs, from the lowest on. Answers how many runs there are. */
static size_t cool_all(struct range *r, struct run runs[KEEP]) {
    size_t many = 0;
    for (size_t m = 0; r->kept; m++)
        for (uint64_t *words = &r->blocks->may_be_warm[m]; *words; *words &= *words - 1) {
            size_t w = m * 64 + __builtin_ctzll(*words);
            while (r->blocks->warm[w])
                many = cool(r, w * 64 + __builtin_ctzll(r->blocks->warm[w]), runs, many);
        }
    return many;
}

/* Hands memory to the system by one call, and tells whether that took all of it. A system that
 * refuses is not asked again. */
static int release_at_once(const struct iovec *all, size_t many, size_t bytes) {
    if (atomic_load_explicit(&is_one_by_one, memory_order_relaxed)) return 0;
    long taken = syscall(SYS_process_madvise, THIS_PROCESS, all, many, MADV_DONTNEED, 0);
    if (taken < 0) atomic_store_explicit(&is_one_by_one, 1, memory_order_relaxed);
    return taken == (long)bytes;
}

/* Hands the memory of the runs to the system, of each by a call of its own where it must. */
static void release(struct range *r, const struct run *runs, size_t many) {
    struct iovec all[KEEP];
    size_t bytes = 0;
    for (size_t i = 0; i < many; i++) {
        size_t pages = runs[i].to - runs[i].from;
        all[i] = (struct iovec){page_at(r, runs[i].from), pages * SYSTEM_PAGE};
        bytes += all[i].iov_len;
    }
    if (many > 1 && release_at_once(all, many, bytes)) return;
    for (size_t i = 0; i < many; i++) madvise(all[i].iov_base, all[i].iov_len, MADV_DONTNEED);
}

/* Hands the warm pages to the system. Meanwhile they are in nobody's hand, and not free. Called
 * with the lock. */
static void give_back(struct range *r) {
    struct run runs[KEEP];
    size_t many = cool_all(r, runs);
    r->returning++;
    pthread_mutex_unlock(&r->lock);
    release(r, runs, many);
    pthread_mutex_lock(&r->lock);
    r->returning--;
    for (size_t i = 0; i < many; i++)
        for (size_t n = runs[i].from * r->per; n < runs[i].to * r->per; n++) insert(r->blocks, n);
}

static void put_back(struct range *r, size_t n) {
    size_t page = n / r->per;
    uint64_t all = (1ull << r->per) - 1;
    pthread_mutex_lock(&r->lock);
    r->used--;
    insert(r->blocks, n);
    /* Where the page has blocks that were never used, these are not in the set, so it is not given
     * back. */
    if ((r->blocks->low[page * r->per / 64] >> page * r->per % 64 & all) == all) {
        note_warm(r, page);
        if (r->kept >= KEEP) give_back(r);
    }
    pthread_mutex_unlock(&r->lock);
}

static struct range *const ranges[] = {&pages, &halves, &quarters};
enum { RANGES = sizeof ranges / sizeof ranges[0] };

/* A block, by its range and its number there. */
struct found {
    struct range *range;
    size_t n;
};

/* Which block it is; its range is NULL if it is one of malloc. */
static struct found find(const void *at) {
    for (int i = 0; i < RANGES; i++) {
        struct range *r = ranges[i];
        for (struct stretch *s = r->stretches; s < r->stretches + STRETCHES; s++) {
            size_t pages = atomic_load_explicit(&s->pages, memory_order_acquire);
            if (pages == 0) break;
            size_t from = (uintptr_t)at - (uintptr_t)s->base;
            if (from < pages * SYSTEM_PAGE)
                return (struct found){r, s->first * r->per + from / r->size};
        }
    }
    return (struct found){NULL, 0};
}

/* Hands all that is kept to the system, once nothing is in use. That another thread takes a block
 * meanwhile is no matter. */
static void let_go(void) {
    for (int i = 0; i < RANGES; i++) {
        pthread_mutex_lock(&ranges[i]->lock);
        if (ranges[i]->kept) give_back(ranges[i]);
        pthread_mutex_unlock(&ranges[i]->lock);
    }
#ifdef __GLIBC__
    if (atomic_exchange(&asked, 0) >= LET_GO) malloc_trim(0);
#endif
}

static void *of_malloc(size_t size) {
    atomic_fetch_add_explicit(&asked, size, memory_order_relaxed);
    return malloc(size);
}

struct got rattle_alloc(size_t size, size_t least) {
    void *at = NULL;
    if (size == pages.size)
        at = take(&pages);
    else if (size == halves.size)
        at = take(&halves);
    else if (size == quarters.size)
        at = take(&quarters);
    if (!at) at = of_malloc(size ? size : least);
    if (at) atomic_fetch_add_explicit(&in_use, 1, memory_order_relaxed);
    return (struct got){at != NULL, at ? at : nothing};
}

void rattle_dealloc(void *at) {
    struct found block = find(at);
    if (block.range)
        put_back(block.range, block.n);
    else
        free(at);
    if (atomic_fetch_sub_explicit(&in_use, 1, memory_order_relaxed) == 1) let_go();
}

struct got rattle_realloc(void *at, size_t old, size_t size, size_t least) {
    if (!find(at).range) {
        atomic_fetch_add_explicit(&asked, size, memory_order_relaxed);
        void *now = realloc(at, size ? size : least);
        return (struct got){now != NULL, now ? now : nothing};
    }
    struct got got = rattle_alloc(size, least);
    if (got.ok) {
        memcpy(got.at, at, old < size ? old : size);
        rattle_dealloc(at);
    }
    return got;
}

/* Unmaps the end of a stretch, from this page of it on. What the system lays there next is not of
 * the range. */
static void unmap(struct stretch *s, size_t from) {
    size_t pages = s->pages;
    atomic_store_explicit(&s->pages, from, memory_order_release);
    if (from < pages) munmap(s->base + from * SYSTEM_PAGE, (pages - from) * SYSTEM_PAGE);
}

/* Gives the address space of the range back, but for what is opened if a block there is in use.
 * Called with the lock. */
static void close_range_of(struct range *r) {
    int is_used = r->used || r->returning;
    size_t opened = is_used ? r->opened / r->per : 0;
    r->is_closed = 1;
    while (r->count && r->reserved > opened) {
        struct stretch *s = &r->stretches[--r->count];
        size_t left = opened > s->first ? opened - s->first : 0;
        unmap(s, left);
        r->reserved = s->first + left;
    }
}

/* When the library is unloaded, or the process ends. It waits for no lock: in a forked child the
 * thread that had it may be gone. */
__attribute__((destructor)) static void unload(void) {
    for (int i = 0; i < RANGES; i++)
        if (pthread_mutex_trylock(&ranges[i]->lock) == 0) {
            close_range_of(ranges[i]);
            pthread_mutex_unlock(&ranges[i]->lock);
        }
}
