/* Largest matchings of pages that fit each other, written to stand beside the proved plans: they
 * share nothing with these. */
#ifndef BENCH_MATCHING_H
#define BENCH_MATCHING_H

#include "../real/split_mesher.h"

/* As many pairs as can be of a page of `from` and one of `onto` that fit, no page in two pairs
 * (Hopcroft and Karp). Writes them into `pairs`, which has room for the fewer of both, and answers
 * how many they are. */
size_t largest_plan(const struct occupied *pages, const uint32_t *from, size_t from_len,
                    const uint32_t *onto, size_t onto_len, struct mesh_pair *pairs);

/* As many pairs as can be among all pages with an object (Edmonds). The time goes by the cube of
 * the pages. */
size_t largest_matching(const struct occupied *pages, size_t count, struct mesh_pair *pairs);

#endif
