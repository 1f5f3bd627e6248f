#define _DEFAULT_SOURCE
#include "steps.h"
#include "recording.h"
#include <fcntl.h>
#include <stdio.h>
#include <stdlib.h>
#include <sys/mman.h>
#include <unistd.h>

enum { NO_OBJECT = UINT32_MAX };

/* What is known of an address: the object there, if one of up to 256 bytes is, and the bytes that
 * were last asked for there. */
struct place {
    uint64_t address;
    uint64_t bytes;
    uint32_t object;
    int is_live;
};

/* Addresses are looked up by hashing, and never leave. */
static struct place *places;
static size_t places_len, places_used;

/* The numbers that are free to be given out again, the last one first. */
static uint32_t *spare;
static size_t spare_len;

static size_t live[CLASSES];

static struct selection selected;

/* The bytes that are kept of a request of so many. */
static uint32_t kept_of(uint64_t bytes) {
    return bytes == 0 ? 1 : bytes > selected.cut ? selected.cut : bytes;
}

static void fail(const char *file, const char *why) {
    fprintf(stderr, "replay: %s: %s\n", file, why);
    exit(1);
}

/* From the system, so that the allocator that is measured keeps nothing of it. */
static void *mapped(size_t count, size_t size, int flags) {
    void *at = mmap(NULL, count * size + 1, PROT_READ | PROT_WRITE,
                    MAP_PRIVATE | MAP_ANONYMOUS | flags, -1, 0);
    if (at == MAP_FAILED) fail("memory", "there is none");
    return at;
}

void *touched_memory(size_t count, size_t size) { return mapped(count, size, MAP_POPULATE); }

static struct place *place_of(uint64_t address) {
    size_t at = (address >> 4) * 0x9e3779b97f4a7c15u >> 20 & (places_len - 1);
    while (places[at].address && places[at].address != address) at = (at + 1) & (places_len - 1);
    return &places[at];
}

static void grow_places(void) {
    struct place *old = places;
    size_t old_len = places_len;
    places_len = old_len ? old_len * 2 : 1 << 16;
    places = mapped(places_len, sizeof *places, 0);
    for (size_t i = 0; i < old_len; i++)
        if (old[i].address) *place_of(old[i].address) = old[i];
    if (old) munmap(old, old_len * sizeof *old + 1);
}

static struct place *place_to_give(uint64_t address) {
    if (places_used * 2 >= places_len) grow_places();
    struct place *place = place_of(address);
    places_used += place->address == 0;
    place->address = address;
    return place;
}

static void give(struct steps *steps, struct place *place, uint64_t bytes) {
    place->is_live = 1;
    place->bytes = bytes;
    place->object = NO_OBJECT;
    if (bytes > MOST_BYTES) {
        steps->too_large++;
        return;
    }
    if (bytes < selected.least) return;
    place->object = spare_len ? spare[--spare_len] : steps->objects++;
    unsigned class = class_of(kept_of(bytes));
    if (++live[class] > steps->most_live[class]) steps->most_live[class] = live[class];
    steps->all[steps->count++] = (struct step){STEP_PUT, place->object, kept_of(bytes)};
}

static void take(struct steps *steps, uint64_t address) {
    struct place *place = places_len ? place_of(address) : NULL;
    if (!place || !place->address || !place->is_live) {
        steps->unknown++;
        return;
    }
    place->is_live = 0;
    if (place->object == NO_OBJECT) return;
    live[class_of(kept_of(place->bytes))]--;
    spare[spare_len++] = place->object;
    steps->all[steps->count++] = (struct step){STEP_FREE, place->object, 0};
}

static void follow(struct steps *steps, const struct record *record, const char *file) {
    switch ((enum call)record->call) {
    case CALL_NONE:
    case CALL_START:
        break;
    case CALL_MALLOC:
    case CALL_CALLOC:
    case CALL_ALIGNED:
    case CALL_REALLOC_GIVES: {
        struct place *place = place_to_give(record->address);
        if (place->is_live) fail(file, "an address is given out twice");
        give(steps, place, record->bytes);
        break;
    }
    case CALL_FREE:
    case CALL_REALLOC_TAKES:
        take(steps, record->address);
        break;
    case CALL_REALLOC_FAILS: {
        struct place *place = place_of(record->address);
        give(steps, place, place->bytes);
        break;
    }
    }
}

static const struct recording *open_file(const char *file, size_t *count) {
    int descriptor = open(file, O_RDONLY);
    if (descriptor < 0) fail(file, "it cannot be opened");
    const struct recording *recording =
        mmap(NULL, sizeof *recording, PROT_READ, MAP_SHARED, descriptor, 0);
    close(descriptor);
    if (recording == MAP_FAILED || recording->magic != RECORDING_MAGIC)
        fail(file, "it is no recording");
    *count = recording->count;
    if (*count > MOST_RECORDS) fail(file, "calls are missing, since it is full");
    if (*count == 0) fail(file, "it is empty");
    return recording;
}

struct steps load_steps(const char *file, struct selection selection, const size_t *checkpoints,
                        size_t checkpoints_len) {
    struct steps steps = {0};
    selected = selection;
    const struct recording *recording = open_file(file, &steps.records);
    uint32_t process = recording->records[0].process;
    steps.all = touched_memory(steps.records, sizeof *steps.all);
    steps.checkpoints = touched_memory(checkpoints_len, sizeof *steps.checkpoints);
    spare = mapped(steps.records, sizeof *spare, 0);
    for (size_t i = 0; i < steps.records; i++) {
        while (steps.checkpoints_len < checkpoints_len && checkpoints[steps.checkpoints_len] <= i)
            steps.checkpoints[steps.checkpoints_len++] = steps.count;
        if (recording->records[i].process == process) {
            follow(&steps, &recording->records[i], file);
        } else {
            steps.of_others++;
        }
    }
    while (steps.checkpoints_len < checkpoints_len)
        steps.checkpoints[steps.checkpoints_len++] = steps.count;
    munmap((void *)recording, sizeof *recording);
    munmap(spare, steps.records * sizeof *spare + 1);
    munmap(places, places_len * sizeof *places + 1);
    return steps;
}
