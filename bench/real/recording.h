/* What recorder.c writes: a file that each recorded process has in its memory, so that what was
 * written stays, however a process ends. */
#ifndef BENCH_RECORDING_H
#define BENCH_RECORDING_H

#include <stdatomic.h>
#include <stdint.h>

/* A call of the allocator. A call that is answered no, but for a realloc, is not written down. */
enum call {
    CALL_NONE,   /* a process ended between taking this place and filling it */
    CALL_START,  /* a program was started in this process: nothing is live there */
    CALL_MALLOC, /* the address was given out, for so many bytes */
    CALL_CALLOC,
    CALL_ALIGNED,       /* by memalign, aligned_alloc or posix_memalign */
    CALL_FREE,          /* the address is about to be taken back */
    CALL_REALLOC_TAKES, /* a realloc is about to take it back, and gives another one or fails, as
                           the same thread's next record says */
    CALL_REALLOC_GIVES,
    CALL_REALLOC_FAILS /* the address was not taken back */
};

struct record {
    uint64_t address;
    uint64_t bytes;
    uint32_t process, thread;
    /* An enum call, which is written last. */
    _Atomic uint32_t call;
};

enum { RECORDING_MAGIC = 0x43414c4c, MOST_RECORDS = 1 << 26 };

/* The file. It has no memory where nothing was written. A count above MOST_RECORDS says that the
 * further records are lost. */
struct recording {
    _Atomic uint64_t magic;
    _Atomic uint64_t count;
    struct record records[MOST_RECORDS];
};

#endif
