#ifndef BENCH_ALLOCATOR_H
#define BENCH_ALLOCATOR_H

/* Asks the allocator that the process was started with to hand what it keeps free to the system:
 * mimalloc, jemalloc, or else glibc's. */
void allocator_give_back(void);

/* What the system counts as resident of this process (VmRSS), in kilobytes. Asks the allocator for
 * nothing. */
long resident_kilobytes(void);

#endif
