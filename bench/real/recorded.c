/* Calls that are known, for the test of recorder.c: `recorded`, or `recorded started` for the
 * program that it starts. The sizes of a thread, a child and a program are their own, so that the
 * test can tell whose they are. It prints the numbers of its process and of both others. */
#define _GNU_SOURCE
#include <malloc.h>
#include <pthread.h>
#include <signal.h>
#include <stdint.h>
#include <stdio.h>
#include <stdlib.h>
#include <sys/wait.h>
#include <unistd.h>

enum {
    THREADS = 4,
    BLOCKS = 10000,
    SMALL = 60,
    OF_A_THREAD = 5000,
    OF_A_CHILD = 7001,
    OF_A_STARTED = 8001
};

/* So that no call is left out for having no use. */
static void *volatile kept;

static void die(const char *why) {
    perror(why);
    exit(1);
}

/* Blocks of two sizes, so that addresses go from thread to thread. The last small one stays. */
static void *work(void *number) {
    size_t size = OF_A_THREAD + (size_t)number;
    void *small = NULL;
    for (int block = 0; block < BLOCKS; block++) {
        void *first = malloc(size), *second = malloc(size);
        free(small);
        first = realloc(first, size + 100);
        small = malloc(SMALL + (size_t)number);
        kept = first;
        free(second);
        free(first);
    }
    kept = small;
    return NULL;
}

static void each_call(void) {
    void *at = malloc(1001);
    kept = at;
    at = realloc(at, 3001);
    kept = at;
    if (realloc(at, PTRDIFF_MAX)) die("a block that cannot be");
    free(at);
    kept = calloc(7, 143);
    free(kept);
    kept = realloc(NULL, 1003);
    free(kept);
    kept = memalign(64, 1004);
    free(kept);
    kept = aligned_alloc(128, 1024);
    free(kept);
    if (posix_memalign(&at, 256, 1006)) die("posix_memalign");
    kept = at;
    free(at);
    free(NULL);
    /* Small ones: one that cannot grow, one that goes above what is replayed and comes back, and
     * one of no bytes. */
    at = malloc(101);
    kept = at;
    if (realloc(at, PTRDIFF_MAX)) die("a block that cannot be");
    at = realloc(at, 300);
    kept = at;
    at = realloc(at, 16);
    kept = at;
    kept = malloc(0);
}

/* A child that ends at once, while threads of this process are at work. */
static pid_t forked(void) {
    pid_t child = fork();
    if (child < 0) die("fork");
    if (child) return child;
    for (int block = 0; block < 3; block++) kept = malloc(OF_A_CHILD);
    free(kept);
    _exit(0);
}

static pid_t started(char *program) {
    pid_t child = fork();
    if (child < 0) die("fork");
    if (child) return child;
    execl(program, program, "started", (char *)NULL);
    _exit(1);
}

int main(int argc, char **argv) {
    if (argc > 1) {
        kept = malloc(OF_A_STARTED);
        /* It frees nothing, and does not live to its end. */
        kill(getpid(), 9);
    }
    pthread_t threads[THREADS];
    each_call();
    for (size_t i = 0; i < THREADS; i++)
        if (pthread_create(&threads[i], NULL, work, (void *)i)) die("pthread_create");
    pid_t child = forked(), other = started(argv[0]);
    for (size_t i = 0; i < THREADS; i++) pthread_join(threads[i], NULL);
    waitpid(child, NULL, 0);
    waitpid(other, NULL, 0);
    printf("%d %d %d\n", getpid(), child, other);
    return 0;
}
