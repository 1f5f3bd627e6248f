/* The pages of the store that meshes as Mesh does. */
#ifndef BENCH_SPLIT_STORE_H
#define BENCH_SPLIT_STORE_H

#include "split_mesher.h"
#include "stores.h"

/* The slots that are occupied of each page of a class that was ever opened, and how many pages
 * these are. */
const struct occupied *split_store_pages(unsigned class, size_t *count);

#endif
