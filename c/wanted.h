/* What the tests in C ask: that something holds, and, of a call of a seat or a steward, that it is
 * made. Nothing of it is installed. */
#ifndef WANTED_H
#define WANTED_H
#include <stdio.h>
#include <stdlib.h>

/* Ends the test where this does not hold. */
#define WANT(holds)                                                                                \
    do {                                                                                           \
        if (!(holds)) {                                                                            \
            printf("%s:%d: %s\n", __FILE__, __LINE__, #holds);                                     \
            exit(1);                                                                               \
        }                                                                                          \
    } while (0)

/* The call, again and again while another thread has a lock that it needs: it has changed nothing
 * then. */
#define PATIENTLY(reply, status, call)                                                             \
    do reply = call;                                                                               \
    while ((status) == TEURLAKS_BUSY && !sched_yield())

#endif
