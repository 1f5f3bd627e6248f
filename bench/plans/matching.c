#include "matching.h"
#include <stdio.h>
#include <stdlib.h>
#include <string.h>

enum { NOBODY = UINT32_MAX };

static void *room(size_t count, size_t size) {
    void *at = calloc(count + 1, size);
    if (!at) {
        fprintf(stderr, "matching: no memory\n");
        exit(1);
    }
    return at;
}

/* ---- Two sides ---- */

/* Who fits whom, a bit for each pair; the partner of each place on a side; and for a search how far
 * each place is from a free one of the first side, and which of the second are not seen yet. */
struct sides {
    size_t from_len, onto_len, words;
    uint64_t *fits;
    uint32_t *onto_of, *from_of, *distance, *onto_distance, *queue;
    uint64_t *unseen;
};

static void see_nothing(struct sides *sides) {
    memset(sides->unseen, 0xff, sides->words * sizeof *sides->unseen);
    if (sides->onto_len % 64)
        sides->unseen[sides->words - 1] = ((uint64_t)1 << sides->onto_len % 64) - 1;
}

/* Notes the distances, and answers whether a free place of the second side can be reached. */
static int measure(struct sides *sides) {
    size_t queued = 0;
    int reaches = 0;
    see_nothing(sides);
    for (uint32_t from = 0; from < sides->from_len; from++) {
        sides->distance[from] = sides->onto_of[from] == NOBODY ? 0 : NOBODY;
        if (sides->onto_of[from] == NOBODY) sides->queue[queued++] = from;
    }
    for (size_t at = 0; at < queued; at++) {
        uint32_t from = sides->queue[at];
        for (size_t word = 0; word < sides->words; word++) {
            uint64_t found = sides->fits[from * sides->words + word] & sides->unseen[word];
            sides->unseen[word] &= ~found;
            for (; found; found &= found - 1) {
                uint32_t onto = word * 64 + __builtin_ctzll(found), next = sides->from_of[onto];
                sides->onto_distance[onto] = sides->distance[from];
                if (next == NOBODY) {
                    reaches = 1;
                } else if (sides->distance[next] == NOBODY) {
                    sides->distance[next] = sides->distance[from] + 1;
                    sides->queue[queued++] = next;
                }
            }
        }
    }
    return reaches;
}

/* Finds a way from a place to a free one of the other side, each step one further, and turns it. */
static int turn_a_way(struct sides *sides, uint32_t from) {
    for (size_t word = 0; word < sides->words; word++) {
        uint64_t found = sides->fits[from * sides->words + word];
        for (; found & sides->unseen[word]; found &= found - 1) {
            uint32_t onto = word * 64 + __builtin_ctzll(found), next = sides->from_of[onto];
            uint64_t bit = found & -found;
            if (!(sides->unseen[word] & bit) || sides->onto_distance[onto] != sides->distance[from])
                continue;
            sides->unseen[word] &= ~bit;
            if (next != NOBODY &&
                (sides->distance[next] != sides->distance[from] + 1 || !turn_a_way(sides, next)))
                continue;
            sides->onto_of[from] = onto;
            sides->from_of[onto] = from;
            return 1;
        }
    }
    return 0;
}

static struct sides sides_of(const struct occupied *pages, const uint32_t *from, size_t from_len,
                             const uint32_t *onto, size_t onto_len) {
    struct sides sides = {
        .from_len = from_len, .onto_len = onto_len, .words = (onto_len + 63) / 64};
    sides.fits = room(from_len * sides.words, sizeof *sides.fits);
    sides.onto_of = room(from_len, sizeof *sides.onto_of);
    sides.from_of = room(onto_len, sizeof *sides.from_of);
    sides.distance = room(from_len, sizeof *sides.distance);
    sides.onto_distance = room(onto_len, sizeof *sides.onto_distance);
    sides.queue = room(from_len, sizeof *sides.queue);
    sides.unseen = room(sides.words, sizeof *sides.unseen);
    memset(sides.onto_of, 0xff, from_len * sizeof *sides.onto_of);
    memset(sides.from_of, 0xff, onto_len * sizeof *sides.from_of);
    for (size_t i = 0; i < from_len; i++)
        for (size_t j = 0; j < onto_len; j++)
            if (occupied_fit(&pages[from[i]], &pages[onto[j]]))
                sides.fits[i * sides.words + j / 64] |= (uint64_t)1 << j % 64;
    return sides;
}

size_t largest_plan(const struct occupied *pages, const uint32_t *from, size_t from_len,
                    const uint32_t *onto, size_t onto_len, struct mesh_pair *pairs) {
    struct sides sides = sides_of(pages, from, from_len, onto, onto_len);
    size_t found = 0;
    while (measure(&sides)) {
        see_nothing(&sides);
        for (uint32_t i = 0; i < from_len; i++)
            if (sides.onto_of[i] == NOBODY) turn_a_way(&sides, i);
    }
    for (size_t i = 0; i < from_len; i++)
        if (sides.onto_of[i] != NOBODY)
            pairs[found++] = (struct mesh_pair){from[i], onto[sides.onto_of[i]]};
    free(sides.fits);
    free(sides.onto_of);
    free(sides.from_of);
    free(sides.distance);
    free(sides.onto_distance);
    free(sides.queue);
    free(sides.unseen);
    return found;
}

/* ---- All pages ---- */

/* A search for a way from one page: the partner of each page, from which each was reached, and the
 * base of the blossom that each is in. */
struct search {
    const struct occupied *pages;
    size_t count;
    uint32_t *partner, *parent, *base, *queue;
    unsigned char *is_queued, *is_in_blossom, *is_on_the_way;
};

static uint32_t common_base(struct search *search, uint32_t a, uint32_t b) {
    memset(search->is_on_the_way, 0, search->count);
    for (;;) {
        a = search->base[a];
        search->is_on_the_way[a] = 1;
        if (search->partner[a] == NOBODY) break;
        a = search->parent[search->partner[a]];
    }
    for (;;) {
        b = search->base[b];
        if (search->is_on_the_way[b]) return b;
        b = search->parent[search->partner[b]];
    }
}

static void mark_blossom(struct search *search, uint32_t page, uint32_t base, uint32_t child) {
    while (search->base[page] != base) {
        search->is_in_blossom[search->base[page]] =
            search->is_in_blossom[search->base[search->partner[page]]] = 1;
        search->parent[page] = child;
        child = search->partner[page];
        page = search->parent[search->partner[page]];
    }
}

static void contract(struct search *search, uint32_t a, uint32_t b, size_t *queued) {
    uint32_t base = common_base(search, a, b);
    memset(search->is_in_blossom, 0, search->count);
    mark_blossom(search, a, base, b);
    mark_blossom(search, b, base, a);
    for (uint32_t page = 0; page < search->count; page++) {
        if (!search->is_in_blossom[search->base[page]]) continue;
        search->base[page] = base;
        if (search->is_queued[page]) continue;
        search->is_queued[page] = 1;
        search->queue[(*queued)++] = page;
    }
}

/* The last page of a way from the root to a page with no partner, or NOBODY. */
static uint32_t find_way(struct search *search, uint32_t root) {
    size_t queued = 0;
    memset(search->is_queued, 0, search->count);
    for (uint32_t page = 0; page < search->count; page++)
        search->parent[page] = NOBODY, search->base[page] = page;
    search->is_queued[root] = 1;
    search->queue[queued++] = root;
    for (size_t at = 0; at < queued; at++) {
        uint32_t page = search->queue[at];
        for (uint32_t to = 0; to < search->count; to++) {
            if (to == page || !occupied_count(&search->pages[to]) ||
                !occupied_fit(&search->pages[page], &search->pages[to]))
                continue;
            if (search->base[page] == search->base[to] || search->partner[page] == to) continue;
            if (to == root ||
                (search->partner[to] != NOBODY && search->parent[search->partner[to]] != NOBODY)) {
                contract(search, page, to, &queued);
            } else if (search->parent[to] == NOBODY) {
                search->parent[to] = page;
                if (search->partner[to] == NOBODY) return to;
                search->is_queued[search->partner[to]] = 1;
                search->queue[queued++] = search->partner[to];
            }
        }
    }
    return NOBODY;
}

size_t largest_matching(const struct occupied *pages, size_t count, struct mesh_pair *pairs) {
    struct search search = {.pages = pages, .count = count};
    uint32_t **numbers[] = {&search.partner, &search.parent, &search.base, &search.queue};
    unsigned char **marks[] = {&search.is_queued, &search.is_in_blossom, &search.is_on_the_way};
    size_t found = 0;
    for (size_t i = 0; i < 4; i++) *numbers[i] = room(count, sizeof **numbers[i]);
    for (size_t i = 0; i < 3; i++) *marks[i] = room(count, 1);
    memset(search.partner, 0xff, count * sizeof *search.partner);
    for (uint32_t root = 0; root < count; root++) {
        if (search.partner[root] != NOBODY || !occupied_count(&pages[root])) continue;
        uint32_t page = find_way(&search, root);
        while (page != NOBODY) {
            uint32_t before = search.parent[page], next = search.partner[before];
            search.partner[page] = before;
            search.partner[before] = page;
            page = next;
        }
    }
    for (uint32_t page = 0; page < count; page++)
        if (search.partner[page] != NOBODY && page < search.partner[page])
            pairs[found++] = (struct mesh_pair){page, search.partner[page]};
    for (size_t i = 0; i < 4; i++) free(*numbers[i]);
    for (size_t i = 0; i < 3; i++) free(*marks[i]);
    return found;
}
