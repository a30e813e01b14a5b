/* Holds the answers to what is written here, over blocks made from docs/specimen.bin, at once and in bursts, the picks of a timing, and the names to show.
 *     test FILE       the specimen
 * Exit status: 0 all answers are as written, 1 some is not. */
#include <stdio.h>
#include <string.h>
#include "edid.h"

enum { BLOCK = 128, LONGER = 136 };

static unsigned asked, picks, names, failed;

/* In bursts of one size, an empty one before each: nothing is told before the last byte that is taken, and then the number, to the end. The byte
 * behind the state keeps its value. */
static bool in_bursts(const uint8_t *block, size_t length, size_t size, uint32_t number, size_t taken)
{
    uint8_t state[EDID_STATE + 1] = {[EDID_STATE] = 0xa5};
    bool right = true;
    for (size_t at = 0; at < length; at += size) {
        size_t came = length - at < size ? length - at : size;
        uint32_t before = number == 1 || at < taken ? EDID_WAITING : number;
        uint32_t after = number == 1 || at + came < taken ? EDID_WAITING : number;
        right &= edid_burst(state, NULL, 0) == before && edid_burst(state, block + at, came) == after;
    }
    return right && state[EDID_STATE] == 0xa5 && edid_burst_number(state) == number && edid_burst_taken(state) == taken;
}

static void expect(const char *what, size_t at, const uint8_t *block, size_t length, uint32_t number, size_t taken)
{
    uint8_t sum = 0;
    for (size_t i = 0; i < length; i++)
        sum = (uint8_t)(sum + block[i]);
    uint32_t its_number = edid_refusal_number(block, length);
    size_t its_taken = edid_bytes_taken(block, length);
    bool its_zero = edid_sum_is_zero(block, length);
    asked++;
    for (size_t size = 1; size <= length + 1; size++)
        if (!in_bursts(block, length, size, number, taken)) {
            failed++;
            printf("FAILED: %s %zu, in bursts of %zu\n", what, at, size);
        }
    if (its_number == number && its_taken == taken && its_zero == (sum == 0))
        return;
    failed++;
    printf("FAILED: %s %zu: refusal %u at %zu, sum %d; ", what, at, (unsigned)its_number, its_taken, its_zero);
    printf("wanted refusal %u at %zu, sum %d\n", (unsigned)number, taken, sum == 0);
}

/* One byte of the specimen is another. */
static const struct {
    uint8_t at, byte;
    uint32_t number;
    size_t taken;
} changed[] = {
    {0, 0x01, 2, 4},     /* the header's first half .. */
    {3, 0xfe, 2, 4},
    {4, 0x00, 2, 8},     /* .. and its second */
    {7, 0xff, 2, 8},
    {56, 0x00, 3, 57},   /* no timing in the first slot */
    {62, 0x80, 0, 127},  /* a back porch of zero .. */
    {62, 0x81, 6, 66},   /* .. and below zero */
    {75, 0xfa, 4, 90},   /* six standard timings, not closed by 0a */
    {83, 0x21, 5, 84},   /* a name that is not filled up with spaces */
    {126, 0x01, 0, 127}, /* an extension is announced: the sum alone is wrong */
    {127, 0x00, 0, 127}, /* the byte that makes up the sum */
};

/* The last slot and what follows: one white point and another of index 0, so that the slot takes 23 bytes; closed in the extension. */
static const uint8_t white[LONGER - 108] = {
    0, 0, 0, 0xfb, 0, 1, 5, 0x50, 0x54, 0x78, 0, 0, 0, 0, 0, 0x0a, 0x20, 0x20, 1, 0x5b, 0x0a, 0x20, 0x20, 5,
};

/* ---- which timing to show */

enum { LENT = 16, SLOT = 18, FIRST = 54, SECOND = 72 };

static const uint32_t UNTOUCHED = 4000000000;

/* What is picked: the specimen's timing; the same with 801 pixels in a line; and the slot below, which has as many pixels in all as the specimen's. */
static const uint32_t own[EDID_NUMBERS] = {40000000, 800, 600, 40, 1, 128, 4, 88, 23, 0, 0, 3, 1, 1};
static const uint32_t wider[EDID_NUMBERS] = {40000000, 801, 600, 40, 1, 128, 4, 88, 23, 0, 0, 3, 1, 1};
static const uint32_t upright[EDID_NUMBERS] = {50000000, 600, 800, 40, 1, 128, 4, 88, 23, 0, 3, 3, 1, 0};
static const uint8_t upright_slot[SLOT] = {
    0x88, 0x13, 0x58, 0x00, 0x21, 0x20, 0x1c, 0x30, 0x28, 0x80, 0x14, 0x00, 0x40, 0xb4, 0x10, 0, 0, 0x3b,
};

struct question {
    const char *what;
    uint32_t clock;
    uint16_t across, down;
    size_t count;
    uint32_t number;
    const uint32_t *wanted; /* NULL where nothing is to be written */
};

/* What is not to be written keeps its value, as do the numbers behind those that are lent. */
static void expect_pick(size_t at, const uint8_t *block, size_t length, struct question q)
{
    uint32_t lent[LENT + 1];
    for (uint32_t k = 0; k <= LENT; k++)
        lent[k] = UNTOUCHED + k;
    uint32_t its_number = edid_pick(block, length, q.clock, q.across, q.down, lent, q.count);
    bool right = its_number == q.number;
    for (uint32_t k = 0; k <= LENT; k++)
        right &= lent[k] == (q.wanted && k < EDID_NUMBERS ? q.wanted[k] : UNTOUCHED + k);
    picks++;
    if (right)
        return;
    failed++;
    printf("FAILED: pick, %s %zu, %zu lent: %u, wanted %u; lent numbers:", q.what, at, q.count, (unsigned)its_number, (unsigned)q.number);
    for (uint32_t k = 0; k <= LENT; k++)
        printf(" %u", (unsigned)lent[k]);
    putchar('\n');
}

/* With the highest limits, and 13 to 16 numbers lent: that 13 are too few is judged first. */
static void expect_any(const char *what, size_t at, const uint8_t *block, size_t length, uint32_t number, const uint32_t *wanted)
{
    for (size_t count = EDID_NUMBERS - 1; count <= LENT; count++)
        expect_pick(at, block, length, (struct question){what, UINT32_MAX, UINT16_MAX, UINT16_MAX, count, count < EDID_NUMBERS ? 10 : number,
                                                         count < EDID_NUMBERS ? NULL : wanted});
}

/* Of the specimen as it is. */
static const struct question of_one[] = {
    {"at each limit", 40000000, 800, 600, 14, 0, own},
    {"one below each limit", 40000001, 801, 601, 14, 0, own},
    {"one above the clock", 39999999, 800, 600, 14, 14, NULL},
    {"a pixel too many", 40000000, 799, 600, 14, 14, NULL},
    {"a line too many", 40000000, 800, 599, 14, 14, NULL},
    {"a line too many", 40000000, 800, 599, 16, 14, NULL},
    {"limits of zero", 0, 0, 0, 14, 14, NULL},
    {"at each limit", 40000000, 800, 600, 0, 10, NULL},
    {"at each limit", 40000000, 800, 600, 13, 10, NULL},
    {"at each limit", 40000000, 800, 600, 16, 0, own},
};

/* Of the specimen with the other timing in a later slot. */
static const struct question of_two[] = {
    {"as many pixels, slot", 50000000, 800, 800, 14, 0, own},
    {"the other alone, slot", 50000000, 799, 800, 14, 0, upright},
    {"the first alone, slot", 50000000, 800, 799, 14, 0, own},
    {"neither, slot", 50000000, 799, 799, 14, 14, NULL},
};

/* Some bytes of the specimen are others. */
static const struct {
    const char *what;
    uint8_t at, size, bytes[3];
    uint32_t number;
} altered[] = {
    {"another header", 0, 1, {0x01}, 2},
    {"no clock in the first slot", 54, 2, {0x00, 0x00}, 3},
    {"pairs that 0a does not close", 75, 1, {0xfa}, 4},
    {"a name that is not filled up", 83, 1, {0x21}, 5},
    {"a back porch below zero", 62, 1, {0x81}, 6},
    {"another sum", 127, 1, {0x00}, 8},
    {"another version", 18, 1, {0x02}, 9},
    {"interlaced", 71, 1, {0x9e}, 14},
    {"no pixels", 56, 3, {0x00, 0x00, 0x01}, 14},
    {"no lines", 59, 3, {0x00, 0x1c, 0x00}, 14},
};

/* Puts bytes in, and the sum right, unless it is the sum that is put in. */
static void put(uint8_t *block, size_t at, const uint8_t *bytes, size_t size)
{
    memcpy(block + at, bytes, size);
    uint8_t sum = 0;
    for (size_t i = 0; i < BLOCK - 1; i++)
        sum = (uint8_t)(sum + block[i]);
    if (at < BLOCK - 1)
        block[BLOCK - 1] = (uint8_t)-sum;
}

static void test_picks(const uint8_t *specimen)
{
    uint8_t block[LONGER] = {0}, one_more = 0x21, one_wider = 0x59; /* 801 and 601 pixels in a line */
    memcpy(block, specimen, BLOCK);
    expect_any("null, length", 0, NULL, 0, 7, NULL);
    for (size_t length = 0; length <= LONGER; length++)
        expect_any("cut at", length, block, length, length == BLOCK ? 0 : 7, length == BLOCK ? own : NULL);
    for (size_t i = 0; i < sizeof of_one / sizeof *of_one; i++)
        expect_pick(FIRST, block, BLOCK, of_one[i]);
    picks++;
    failed += edid_pick(block, BLOCK, UINT32_MAX, UINT16_MAX, UINT16_MAX, NULL, 0) != 10;
    for (size_t i = 0; i < sizeof altered / sizeof *altered; i++) {
        put(block, altered[i].at, altered[i].bytes, altered[i].size);
        expect_any(altered[i].what, altered[i].at, block, BLOCK, altered[i].number, NULL);
        block[BLOCK - 1] ^= 1; /* a wrong sum is judged behind the header, and before the rest */
        expect_any("the same with a wrong sum, byte", altered[i].at, block, BLOCK, altered[i].number == 2 ? 2 : 8, NULL);
        memcpy(block, specimen, BLOCK);
    }
    for (size_t at = SECOND; at < BLOCK - SLOT; at += SLOT) {
        put(block, at, upright_slot, SLOT);
        for (size_t i = 0; i < sizeof of_two / sizeof *of_two; i++)
            expect_pick(at, block, BLOCK, of_two[i]);
        put(block, at + 2, &one_wider, 1);
        expect_pick(at, block, BLOCK, (struct question){"the later larger and above the clock, slot", 49999999, 800, 800, 14, 0, own});
        put(block, FIRST, upright_slot, SLOT); /* the two change places */
        put(block, at, specimen + FIRST, SLOT);
        expect_any("as many pixels, the other first, slot", at, block, BLOCK, 0, upright);
        expect_pick(at, block, BLOCK, (struct question){"the first above the clock, slot", 49999999, 800, 800, 14, 0, own});
        put(block, at + 2, &one_more, 1);
        expect_any("a pixel more in each line, slot", at, block, BLOCK, 0, wider);
        expect_pick(at, block, BLOCK, (struct question){"the later a pixel too wide, slot", 50000000, 800, 800, 14, 0, upright});
        memcpy(block, specimen, BLOCK);
    }
}

/* ---- which name to show */

enum { TAG = 3, TEXT = 5, LONGEST_TEXT = 13, NO_NAME = 18 };

struct part {
    const uint8_t *block;
    size_t length;
};

static void expect_name(const char *what, size_t at, struct part p, struct part q, uint32_t number, size_t start, size_t length)
{
    uint32_t its_number = edid_name_number(p.block, p.length, q.block, q.length);
    size_t its_start = edid_name_start(p.block, p.length, q.block, q.length), its_length = edid_name_length(p.block, p.length, q.block, q.length);
    names++;
    if (its_number == number && its_start == start && its_length == length)
        return;
    failed++;
    printf("FAILED: name, %s %zu: %u %zu %zu, wanted %u %zu %zu\n", what, at, (unsigned)its_number, its_start, its_length, (unsigned)number, start, length);
}

/* As the panel's beside no block, beside itself and beside another name, and as the reference of no block and of one without a name. */
static void expect_named(const char *what, size_t at, const uint8_t *block, const uint8_t *other, const uint8_t *nameless, size_t start, size_t length)
{
    struct part one = {block, BLOCK}, two = {other, BLOCK}, without = {nameless, BLOCK}, none = {NULL, 0};
    expect_name(what, at, one, none, 0, start, length);
    expect_name(what, at, one, one, 0, start, length);
    expect_name(what, at, one, two, 0, start, length);
    expect_name(what, at, none, one, 1, start, length);
    expect_name(what, at, without, one, 1, start, length);
}

static void test_names(const uint8_t *specimen)
{
    uint8_t block[LONGER] = {0}, nameless[BLOCK], longest[LONGEST_TEXT], tag = 0xfe, end = 0x0a, space = 0x20;
    memset(longest, 'A', LONGEST_TEXT);
    memcpy(nameless, specimen, BLOCK);
    put(nameless, SECOND + TAG, &tag, 1);
    struct part none = {NULL, 0}, lobby = {specimen, BLOCK}, without = {nameless, BLOCK};
    expect_name("of no blocks", 0, none, none, NO_NAME, 0, 0);
    expect_name("of none", 0, without, without, NO_NAME, 0, 0);
    memcpy(block, specimen, BLOCK);
    for (size_t length = 0; length <= LONGER; length++) { /* cut or too long, the one or the other is refused */
        struct part cut = {block, length};
        expect_name("panel cut at", length, cut, without, length == BLOCK ? 0 : NO_NAME, length == BLOCK ? 77 : 0, length == BLOCK ? 5 : 0);
        expect_name("panel cut beside a name, at", length, cut, lobby, length != BLOCK, 77, 5);
        expect_name("reference cut at", length, without, cut, length == BLOCK ? 1 : NO_NAME, length == BLOCK ? 77 : 0, length == BLOCK ? 5 : 0);
        expect_name("reference cut beside a name, at", length, lobby, cut, 0, 77, 5);
    }
    for (size_t at = SECOND; at < BLOCK - SLOT; at += SLOT)
        for (size_t length = 0; length <= LONGEST_TEXT; length++) {
            memcpy(block, nameless, BLOCK);
            put(block, at, (const uint8_t[]){0, 0, 0, 0xfc, 0}, TEXT);
            put(block, at + TEXT, longest, LONGEST_TEXT);
            for (size_t k = length; k < LONGEST_TEXT; k++)
                put(block, at + TEXT + k, k == length ? &end : &space, 1);
            expect_named("a length, slot", at, block, specimen, nameless, at + TEXT, length);
            put(block, FIRST, (const uint8_t[]){0, 0}, 2); /* refused with 3: the name inside is not shown */
            expect_name("panel refused, slot", at, (struct part){block, BLOCK}, lobby, 1, 77, 5);
            expect_name("reference refused, slot", at, without, (struct part){block, BLOCK}, NO_NAME, 0, 0);
        }
    memcpy(block, specimen, BLOCK);
    put(block, SECOND + 2 * SLOT, specimen + SECOND, SLOT);
    expect_named("two names", 0, block, specimen, nameless, 77, 5);
    put(block, SECOND + TAG, &tag, 1);
    expect_named("the last slot", 0, block, specimen, nameless, 113, 5);
}

int main(int argc, char **argv)
{
    uint8_t block[LONGER];
    FILE *f = argc == 2 ? fopen(argv[1], "rb") : NULL;
    if (!f || fread(block, 1, BLOCK, f) != BLOCK) {
        fputs("test: the specimen is not there\n", stderr);
        return 1;
    }
    expect("null, length", 0, NULL, 0, 1, 0);
    for (size_t length = 0; length <= BLOCK; length++)
        expect("cut at", length, block, length, length < 127, length < 127 ? length : 127);
    test_picks(block);
    test_names(block);
    for (size_t i = 0; i < sizeof changed / sizeof *changed; i++) {
        uint8_t *byte = &block[changed[i].at], kept = *byte;
        *byte = changed[i].byte;
        expect("changed byte", changed[i].at, block, BLOCK, changed[i].number, changed[i].taken);
        *byte = kept;
    }
    memcpy(block + 108, white, sizeof white);
    for (size_t length = BLOCK; length <= LONGER; length++)
        expect("white points, cut at", length, block, length, length < 132, length < 132 ? length : 132);
    printf("C: %u blocks, each also in bursts of every size, %u picks of a timing and %u names, %u answered otherwise than written\n", asked, picks, names,
           failed);
    return failed != 0;
}
