/* A recording as the steps of a replay: objects of up to 256 bytes that one process asked for and
 * gave back, under numbers of their own. */
#ifndef BENCH_STEPS_H
#define BENCH_STEPS_H

#include <stddef.h>
#include <stdint.h>

/* A core's objects have 1 to 16 words of 16 bytes. */
enum { CLASSES = 16, MOST_BYTES = 16 * CLASSES };

static inline uint32_t bytes_of_class(unsigned class) { return 16 * (class + 1); }

/* The class of 1 to 256 bytes. */
static inline unsigned class_of(uint32_t bytes) { return (bytes - 1) / 16; }

enum step_kind { STEP_PUT, STEP_FREE };

/* Puts so many bytes, or frees the object. An object that was freed gives its number to a later
 * one. */
struct step {
    enum step_kind kind;
    uint32_t object;
    uint32_t bytes;
};

struct steps {
    struct step *all;
    size_t count;
    /* Each object's number is below this, which is how many were live at once. */
    size_t objects;
    /* The same of each class alone. */
    size_t most_live[CLASSES];
    size_t *checkpoints;
    size_t checkpoints_len;
    /* Records in all, calls of other processes, requests of more than 256 bytes, and frees of
     * addresses that nobody was seen to ask for. */
    size_t records, of_others, too_large, unknown;
};

/* Which requests of up to 256 bytes are kept: those of at least so many bytes, each cut off at so
 * many. */
struct selection {
    uint32_t least, cut;
};

/* Reads the recording of the process that was started first. A checkpoint is a number of records:
 * it becomes the number of steps that were taken by then. A request of no bytes takes one. Ends the
 * program where the file is no recording, or where calls are missing. */
struct steps load_steps(const char *file, struct selection selection, const size_t *checkpoints,
                        size_t checkpoints_len);

/* Memory that is touched, or the end of the program. */
void *touched_memory(size_t count, size_t size);

#endif
