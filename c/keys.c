/* Keys as numbers of 64 bits, and back. */
#include "teurlaks.h"
#include "wanted.h"

static struct teurlaks_key key_of(uint8_t shard, uint32_t serial, uint8_t slot,
                                  uint32_t generation) {
    struct teurlaks_key key = {serial, generation, shard, slot, 0};
    return key;
}

/* The key has the number, and the number the key. */
static void both_ways(struct teurlaks_key_bits bits, struct teurlaks_key key, uint64_t number) {
    struct teurlaks_number_reply to = teurlaks_key_to_u64(bits, key);
    WANT(to.status == TEURLAKS_OK && to.number == number);
    struct teurlaks_key_reply from = teurlaks_key_from_u64(bits, number);
    WANT(from.status == TEURLAKS_OK && !memcmp(&from.key, &key, sizeof key));
}

static void no_number(struct teurlaks_key_bits bits, struct teurlaks_key key, uint32_t status) {
    struct teurlaks_number_reply to = teurlaks_key_to_u64(bits, key);
    WANT(to.status == status && to.number == 0);
}

static void no_key(struct teurlaks_key_bits bits, uint64_t number, uint32_t status) {
    static const struct teurlaks_key zeros = {0, 0, 0, 0, 0};
    struct teurlaks_key_reply from = teurlaks_key_from_u64(bits, number);
    WANT(from.status == status && !memcmp(&from.key, &zeros, sizeof zeros));
}

/* A shard that may open two spans has 512 keys, each with a number of 11 bits, and then its slots
 * come again until each has had its three generations. */
static void within_two_spans(void) {
    struct teurlaks_handle core = {0};
    struct teurlaks_key_bits_reply layout = teurlaks_key_bits(1, 2, 3);
    WANT(layout.status == TEURLAKS_OK);
    WANT(layout.bits.shard + layout.bits.serial + layout.bits.generation + 8 == 11);
    WANT(teurlaks_new_with_spans(&core, 1, 4, 2, 1, 3) == TEURLAKS_OK);
    for (int generation = 1; generation <= 3; generation++) {
        for (int i = 0; i < 512; i++) {
            struct teurlaks_word word = {(uint64_t)i, 0};
            struct teurlaks_put_reply put = teurlaks_put(&core, 0, word);
            WANT(put.status == TEURLAKS_OK && put.key.generation == (uint32_t)generation);
            struct teurlaks_number_reply number = teurlaks_key_to_u64(layout.bits, put.key);
            WANT(number.status == TEURLAKS_OK && number.number < 1 << 11);
        }
        for (int again = 0; again < 2; again++) {
            struct teurlaks_put_reply put = teurlaks_put(&core, 0, (struct teurlaks_word){7, 0});
            WANT(put.status == TEURLAKS_PAGES_SPENT && put.key.generation == 0);
            struct teurlaks_totals_reply totals = teurlaks_totals(&core);
            WANT(totals.live == 512 && totals.pages == 2);
        }
        struct teurlaks_next_reply next = {0};
        while ((next = teurlaks_next(&core, next.key)).status == TEURLAKS_OK)
            WANT(teurlaks_free(&core, next.key) == TEURLAKS_OK);
    }
    teurlaks_drop(&core);
}

/* Of a core whose puts take so many slots of a page each page holds as many, and not one more. */
static void within_slots(uint32_t slots) {
    struct teurlaks_handle core = {0};
    WANT(teurlaks_new_with_slots(&core, 1, 2, 9, slots, 1, 3) == TEURLAKS_OK);
    for (uint32_t i = 0; i < 2 * slots; i++) {
        struct teurlaks_put_reply put = teurlaks_put(&core, 0, (struct teurlaks_word){i, 0});
        WANT(put.status == TEURLAKS_OK && put.key.slot == i % slots);
        WANT(put.key.serial == i / slots);
    }
    WANT(teurlaks_put(&core, 0, (struct teurlaks_word){7, 0}).status == TEURLAKS_PAGES_SPENT);
    WANT(teurlaks_totals(&core).live == 2 * slots && teurlaks_totals(&core).pages == 2);
    teurlaks_drop(&core);
}

/* A seat of an arena whose shards may open one span of so many slots each keeps as many keys,
 * recorded or not. */
static void within_slots_of_a_span(int is_recorded, uint32_t slots) {
    struct teurlaks_share_handle steward = {0}, seat = {0};
    struct teurlaks_word word = {7, 0};
    uint32_t status =
        is_recorded ? teurlaks_arena_open_recorded_with_slots(&steward, 1, 4, 1, slots, 1, 3)
                    : teurlaks_arena_open_with_slots(&steward, 1, 4, 1, slots, 1, 3);
    WANT(status == TEURLAKS_OK);
    WANT(teurlaks_steward_seat(&steward, &seat) == TEURLAKS_OK);
    for (uint32_t i = 0; i < slots; i++)
        WANT(teurlaks_seat_put_words(&seat, &word, 1).status == TEURLAKS_OK);
    WANT(teurlaks_seat_put_words(&seat, &word, 1).status == TEURLAKS_PAGES_SPENT);
    teurlaks_share_drop(&seat);
    teurlaks_share_drop(&steward);
}

/* A seat of an arena whose shards may open one span each keeps 256 keys, recorded or not. */
static void within_one_span(int is_recorded) {
    struct teurlaks_share_handle steward = {0}, seat = {0};
    struct teurlaks_word word = {7, 0};
    uint32_t status = is_recorded
                          ? teurlaks_arena_open_recorded_with_spans(&steward, 1, 4, 1, 1, 3)
                          : teurlaks_arena_open_with_spans(&steward, 1, 4, 1, 1, 3);
    WANT(status == TEURLAKS_OK);
    WANT(teurlaks_steward_seat(&steward, &seat) == TEURLAKS_OK);
    for (int i = 0; i < 256; i++)
        WANT(teurlaks_seat_put_words(&seat, &word, 1).status == TEURLAKS_OK);
    WANT(teurlaks_seat_put_words(&seat, &word, 1).status == TEURLAKS_PAGES_SPENT);
    teurlaks_share_drop(&seat);
    teurlaks_share_drop(&steward);
}

int main(void) {
    within_two_spans();
    within_one_span(0);
    within_one_span(1);
    for (uint32_t slots = 1; slots <= 256; slots += 51) {
        within_slots(slots);
        within_slots_of_a_span(0, slots);
        within_slots_of_a_span(1, slots);
    }
    struct teurlaks_key_bits balanced = TEURLAKS_BALANCED_BITS, doubles = TEURLAKS_DOUBLE_BITS;
    both_ways(balanced, key_of(0, 0, 0, 1), UINT64_C(1) << 40);
    both_ways(balanced, key_of(3, 17, 255, 1), UINT64_C(0x130000011ff));
    both_ways(balanced, key_of(15, 268435455, 255, 16777215), UINT64_MAX);
    both_ways(doubles, key_of(7, 262143, 255, 16777215), (UINT64_C(1) << 53) - 1);

    no_number(balanced, key_of(16, 0, 0, 1), TEURLAKS_NONE);
    no_number(balanced, key_of(0, 268435456, 0, 1), TEURLAKS_NONE);
    no_number(balanced, key_of(0, 0, 0, 16777216), TEURLAKS_NONE);
    no_number(balanced, key_of(0, 0, 0, 0), TEURLAKS_NONE);
    no_key(balanced, 0, TEURLAKS_NONE);
    no_key(balanced, (UINT64_C(1) << 40) - 1, TEURLAKS_NONE);
    no_key(doubles, UINT64_C(1) << 53, TEURLAKS_NONE);

    struct teurlaks_key_bits wide = {6, 32, 32, 0}, wider = {0, 33, 0, 0}, other = {4, 28, 24, 1};
    no_number(wide, key_of(0, 0, 0, 1), TEURLAKS_CONFIG);
    no_number(wider, key_of(0, 0, 0, 1), TEURLAKS_CONFIG);
    no_key(other, UINT64_C(1) << 40, TEURLAKS_CONFIG);

    struct teurlaks_key_bits_reply made = teurlaks_key_bits(16, 268435456, 16777215);
    WANT(made.status == TEURLAKS_OK && !memcmp(&made.bits, &balanced, sizeof balanced));
    WANT(teurlaks_key_bits(64, UINT32_MAX, UINT32_MAX).status == TEURLAKS_CONFIG);
    return 0;
}
