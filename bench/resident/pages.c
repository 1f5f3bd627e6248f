/* What a page costs that is given back to `c/pages.c` and taken again, in nanoseconds of processor
 * time: one that is kept, one that left the process beside others, and one that left between two
 * that stayed. Beside it what the system's own fault takes for a page that is touched first. The
 * least of so many rounds. */
#include <stdint.h>
#include <stdio.h>
#include <stdlib.h>
#include <string.h>
#include <sys/mman.h>
#include <time.h>

enum { PAGE = 4096, FEW = 32, MANY = 4096, ROUNDS = 50 };

struct got {
    uint8_t ok;
    void *at;
};

struct got rattle_alloc(size_t size, size_t least);
void rattle_dealloc(void *at);

static void *pages[MANY];

static double now(void) {
    struct timespec time;
    clock_gettime(CLOCK_PROCESS_CPUTIME_ID, &time);
    return time.tv_sec * 1e9 + time.tv_nsec;
}

/* Each page is touched, as a put does. */
static void take(int count, int step) {
    for (int i = 0; i < count; i += step) {
        struct got got = rattle_alloc(PAGE, 16);
        if (!got.ok) exit(1);
        pages[i] = got.at;
        *(volatile char *)got.at = 1;
    }
}

static void give(int count, int step) {
    for (int i = 0; i < count; i += step) rattle_dealloc(pages[i]);
}

/* Nanoseconds a page that goes and comes, of so many pages each one of so many. */
static double to_and_fro(int count, int step) {
    double least = 1e18;
    take(count, 1);
    for (int round = 0; round < ROUNDS; round++) {
        double before = now();
        give(count, step);
        take(count, step);
        double each = (now() - before) / (count / step);
        if (each < least) least = each;
    }
    give(count, 1);
    return least;
}

/* Nanoseconds a page of new memory of the system's takes. */
static double fault(void) {
    double least = 1e18;
    for (int round = 0; round < ROUNDS; round++) {
        char *at = mmap(NULL, (size_t)MANY * PAGE, PROT_READ | PROT_WRITE,
                        MAP_PRIVATE | MAP_ANONYMOUS, -1, 0);
        if (at == MAP_FAILED) exit(1);
        madvise(at, (size_t)MANY * PAGE, MADV_NOHUGEPAGE);
        double before = now();
        for (int i = 0; i < MANY; i++) *(volatile char *)(at + (size_t)i * PAGE) = 1;
        double each = (now() - before) / MANY;
        if (each < least) least = each;
        munmap(at, (size_t)MANY * PAGE);
    }
    return least;
}

int main(void) {
    /* While nothing is in use at all, nothing is kept. */
    if (!rattle_alloc(PAGE, 16).ok) return 1;
    printf("kept %.0f left %.0f alone %.0f fault %.0f\n", to_and_fro(FEW, 1), to_and_fro(MANY, 1),
           to_and_fro(MANY, 2), fault());
    return 0;
}
