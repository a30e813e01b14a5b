/* bench SIDE TURNS FILE [time]: calls one side TURNS times on the bytes of FILE and prints its answer; with `time`, the least of 200 such
 * rounds in ns a call. Each side stands in an object of its own, so that no call is inlined or moved out of the loop. */
#include <stdio.h>
#include <stdlib.h>
#include <string.h>
#include <time.h>
#include "edid.h"

typedef uint64_t side(const uint8_t *block, size_t length);
extern side any_cta_entry, c_nothing, c_sum, every_field, every_standard_field, rust_parse, rust_record;

static uint64_t refusal_number(const uint8_t *block, size_t length) { return edid_refusal_number(block, length); }
static uint64_t bytes_taken(const uint8_t *block, size_t length) { return edid_bytes_taken(block, length); }
static uint64_t sum_is_zero(const uint8_t *block, size_t length) { return edid_sum_is_zero(block, length); }
static uint64_t pick(const uint8_t *block, size_t length)
{
    static uint32_t numbers[EDID_NUMBERS];
    return edid_pick(block, length, 165000000, 1920, 1200, numbers, EDID_NUMBERS);
}

/* The block is the panel's and the reference too: the second is read only where the first has no name. */
static uint64_t name_number(const uint8_t *block, size_t length) { return edid_name_number(block, length, block, length); }
static uint64_t name_start(const uint8_t *block, size_t length) { return edid_name_start(block, length, block, length); }
static uint64_t name_length(const uint8_t *block, size_t length) { return edid_name_length(block, length, block, length); }

/* The writer has its output lent: its sides are called through these two. */
typedef uint8_t writer(const uint8_t *block, size_t length, uint8_t *out, size_t size);
extern writer written_once, written_twice;
static uint8_t out[128];
static uint64_t once(const uint8_t *block, size_t length) { return written_once(block, length, out, sizeof out); }
static uint64_t twice(const uint8_t *block, size_t length) { return written_twice(block, length, out, sizeof out); }

/* A whole block in bursts of one size, from a fresh state on. */
static uint64_t in_bursts(const uint8_t *block, size_t length, size_t size)
{
    uint8_t state[EDID_STATE] = {0};
    uint64_t last = EDID_WAITING;
    for (size_t at = 0; at < length; at += size)
        last = edid_burst(state, block + at, length - at < size ? length - at : size);
    return last;
}
static uint64_t one_burst(const uint8_t *block, size_t length) { return in_bursts(block, length, length); }
static uint64_t bursts_of_8(const uint8_t *block, size_t length) { return in_bursts(block, length, 8); }
static uint64_t byte_by_byte(const uint8_t *block, size_t length) { return in_bursts(block, length, 1); }

static const struct {
    const char *name;
    side *call;
} sides[] = {
    {"nothing", c_nothing},
    {"every_field", every_field},
    {"every_standard_field", every_standard_field},
    {"any_cta_entry", any_cta_entry},
    {"written_once", once},
    {"written_twice", twice},
    {"refusal_number", refusal_number},
    {"bytes_taken", bytes_taken},
    {"sum_is_zero", sum_is_zero},
    {"pick", pick},
    {"name_number", name_number},
    {"name_start", name_start},
    {"name_length", name_length},
    {"one_burst", one_burst},
    {"bursts_of_8", bursts_of_8},
    {"byte_by_byte", byte_by_byte},
    {"rust_record", rust_record},
    {"rust_parse", rust_parse},
    {"c_sum", c_sum},
};

static uint8_t block[4096];
static size_t length;

static uint64_t round_of(side *call, unsigned long turns)
{
    uint64_t last = 0;
    while (turns-- > 0)
        last = call(block, length);
    return last;
}

static double time_of(side *call, unsigned long turns)
{
    struct timespec a, b;
    clock_gettime(CLOCK_MONOTONIC, &a);
    round_of(call, turns);
    clock_gettime(CLOCK_MONOTONIC, &b);
    return ((double)(b.tv_sec - a.tv_sec) * 1e9 + (double)(b.tv_nsec - a.tv_nsec)) / (double)turns;
}

int main(int argc, char **argv)
{
    FILE *f = argc == 4 || argc == 5 ? fopen(argv[3], "rb") : NULL;
    if (!f)
        return 2;
    length = fread(block, 1, sizeof block, f);
    side *call = NULL;
    for (size_t i = 0; i < sizeof sides / sizeof *sides; i++)
        if (!strcmp(argv[1], sides[i].name))
            call = sides[i].call;
    unsigned long turns = strtoul(argv[2], NULL, 10);
    if (!call || !turns)
        return 2;
    if (argc == 4) {
        printf("%llu\n", (unsigned long long)round_of(call, turns));
        return 0;
    }
    double least = time_of(call, turns);
    for (int i = 1; i < 200; i++) {
        double ns = time_of(call, turns);
        least = ns < least ? ns : least;
    }
    printf("%.0f\n", least);
    return 0;
}
