#include "split_mesher.h"
#include <stdio.h>
#include <stdlib.h>

static void *room(size_t count, size_t size) {
    void *at = malloc(count * size + 1);
    if (!at) {
        fprintf(stderr, "split_mesher: no memory\n");
        exit(1);
    }
    return at;
}

/* The numbers of the pages that are asked, and how many they are. */
static size_t candidates(const struct occupied *pages, size_t count, unsigned slots,
                         uint32_t *numbers) {
    size_t found = 0;
    for (size_t page = 0; page < count; page++) {
        unsigned objects = occupied_count(&pages[page]);
        if (objects && objects * 5 < slots * 4) numbers[found++] = page;
    }
    return found;
}

static void shuffle(uint32_t *numbers, size_t count, struct random *random) {
    for (size_t i = count; i > 1; i--) {
        size_t other = random_below(random, i);
        uint32_t number = numbers[i - 1];
        numbers[i - 1] = numbers[other];
        numbers[other] = number;
    }
}

/* Takes out those that are in a pair, and answers how many are left. */
static size_t keep_free(uint32_t *numbers, size_t count, const unsigned char *is_taken) {
    size_t kept = 0;
    for (size_t i = 0; i < count; i++)
        if (!is_taken[numbers[i]]) numbers[kept++] = numbers[i];
    return kept;
}

size_t split_mesher(const struct occupied *pages, size_t count, unsigned slots,
                    struct random *random, struct mesh_pair *pairs) {
    uint32_t *numbers = room(count, sizeof *numbers);
    unsigned char *is_taken = room(count, 1);
    size_t asked = candidates(pages, count, slots, numbers), found = 0;
    for (size_t page = 0; page < count; page++) is_taken[page] = 0;
    shuffle(numbers, asked, random);
    uint32_t *left = numbers, *right = numbers + asked / 2;
    size_t left_len = asked / 2, right_len = asked - asked / 2;
    for (unsigned shift = 0; shift < SPLIT_MESHER_TRIES && left_len; shift++) {
        for (size_t i = 0; i < left_len; i++) {
            uint32_t from = left[i], onto = right[(i + shift) % right_len];
            if (is_taken[onto] || !occupied_fit(&pages[from], &pages[onto])) continue;
            is_taken[from] = is_taken[onto] = 1;
            pairs[found++] = (struct mesh_pair){from, onto};
        }
        left_len = keep_free(left, left_len, is_taken);
        right_len = keep_free(right, right_len, is_taken);
    }
    free(is_taken);
    free(numbers);
    return found;
}

void split_mesher_rounds(struct occupied *pages, size_t count, unsigned slots,
                         struct random *random, unsigned rounds, size_t *left) {
    struct mesh_pair *pairs = room(count / 2 + 1, sizeof *pairs);
    for (unsigned round = 0; round < rounds; round++) {
        size_t found = split_mesher(pages, count, slots, random, pairs);
        for (size_t pair = 0; pair < found; pair++) {
            occupied_unite(&pages[pairs[pair].onto], &pages[pairs[pair].from]);
            pages[pairs[pair].from] = (struct occupied){{0}};
        }
        left[round] = 0;
        for (size_t page = 0; page < count; page++)
            left[round] += occupied_count(&pages[page]) != 0;
    }
    free(pairs);
}
