/* What the replay asks of cores beyond the calls of every store. */
#ifndef BENCH_CORE_STORE_H
#define BENCH_CORE_STORE_H

#include "compaction.h"
#include "split_mesher.h"
#include "stores.h"

/* Which half of the pages is folded onto the other one. */
extern enum halving core_store_halving;

/* Of each core, as compaction.h has it: a trim, and one round of folds. */
void core_store_trim(void);
void core_store_fold(void);

/* The pages of a class as they stand while nothing was ever folded: what is occupied on each, in
 * memory to be freed. Writes how many there are. */
struct occupied *core_store_pages_of(unsigned class, const uint32_t *bytes_of_object,
                                     size_t objects, size_t *count);

#endif
