/* What a controller does with the block that a panel sends: it hands on each burst as it comes, and prints what a service desk wants to
 * read. A slot of white points with one point takes 23 bytes, so a whole block may be too short: then the controller takes the
 * extension too, if byte 126 says that there is one. Which timing the board can show is by the standard reading, of the whole block, so that is awaited
 * though the first answer may be known before. The name is the panel's, or that of the supplier's reference block, the first 128 bytes of REFERENCE.
 *     controller [FILE [REFERENCE]]    FILE as /sys/class/drm/card0-HDMI-A-1/edid; standard input where it is - or not named
 * Exit status: 0 accepted and the checksum is right, 1 not so, 2 nothing could be read. */
#include <stdio.h>
#include <string.h>
#include "edid.h"

enum { BURST = 16, BLOCK = 128, EXTENSIONS = 126 };
enum { BOARD_CLOCK = 165000000, BOARD_ACROSS = 1920, BOARD_DOWN = 1200 }; /* the most that the board can drive */
enum { NO_TIMING = 14, NO_NAME = 18 };

#define OR_LATE ": badly written, or a slot of white points (fb) or tag 10 before it put this reading out of step; use the standard reading"

static const char *sentence(uint32_t number, size_t taken)
{
    if (taken >= BLOCK)
        return "a slot of white points (fb) runs past the block; use the standard reading for this panel";
    switch (number) {
    case 1: return "the block ends too early; read it again, then look at cable and connector";
    case 2: return "this is no EDID, its first eight bytes are others; look at what is plugged in";
    case 3: return "the first slot holds no timing for this reading; see the standard reading, or set a mode by hand";
    case 4: return "a descriptor lacks the byte that closes it" OR_LATE;
    case 5: return "a descriptor is not filled up with spaces" OR_LATE;
    case 6: return "a timing leaves no room for its back porch; do not drive the panel with it";
    default: return "a number that edid.h does not have";
    }
}

static void print_answer(uint32_t number, size_t taken)
{
    if (number == 0)
        printf("accepted after %zu bytes\n", taken);
    else
        printf("refused with %u after %zu bytes: %s\n", (unsigned)number, taken, sentence(number, taken));
}

static bool print_checksum(const uint8_t *block, size_t length)
{
    bool right = length >= BLOCK && edid_sum_is_zero(block, BLOCK);
    if (length < BLOCK)
        printf("checksum not known: %zu of %d bytes received\n", length, BLOCK);
    else
        printf("checksum %s\n", right ? "right" : "wrong: a byte was changed on the way, or badly written");
    return right;
}

static void print_pick(const uint8_t *block, size_t length)
{
    uint32_t numbers[EDID_NUMBERS];
    uint32_t number = edid_pick(block, length, BOARD_CLOCK, BOARD_ACROSS, BOARD_DOWN, numbers, EDID_NUMBERS);
    if (number == 0)
        printf("standard reading: show %u x %u at %u Hz\n", (unsigned)numbers[1], (unsigned)numbers[2], (unsigned)numbers[0]);
    else if (number == NO_TIMING)
        printf("standard reading: no timing that the board can show\n");
    else
        printf("standard reading: refused with %u\n", (unsigned)number);
}

static void print_name(const uint8_t *panel, size_t length, const uint8_t *reference, size_t reference_length)
{
    static const char *whose[] = {"", " (of the reference)"};
    uint32_t number = edid_name_number(panel, length, reference, reference_length);
    if (number == NO_NAME) {
        printf("no name\n");
        return;
    }
    const uint8_t *name = (number == 0 ? panel : reference) + edid_name_start(panel, length, reference, reference_length);
    size_t many = edid_name_length(panel, length, reference, reference_length);
    printf("name \"");
    for (size_t k = 0; k < many; k++)
        putchar(name[k] >= ' ' && name[k] <= '~' ? name[k] : '?');
    printf("\"%s\n", whose[number]);
}

/* The first block of a file; whether it could be read. */
static bool read_reference(const char *path, uint8_t *block, size_t *length)
{
    FILE *file = fopen(path, "rb");
    *length = file ? fread(block, 1, BLOCK, file) : 0;
    bool could = file && !ferror(file);
    if (!could)
        perror(path);
    if (file)
        fclose(file);
    return could;
}

int main(int argc, char **argv)
{
    FILE *source = argc > 1 && strcmp(argv[1], "-") ? fopen(argv[1], "rb") : stdin;
    if (!source) {
        perror(argv[1]);
        return 2;
    }
    uint8_t reference[BLOCK];
    size_t reference_length = 0;
    if (argc > 2 && !read_reference(argv[2], reference, &reference_length))
        return 2;
    uint8_t state[EDID_STATE] = {0}, burst[BURST]; /* the state begins with the bytes that came */
    size_t length = 0, wanted = BLOCK, came;
    uint32_t told;
    do { /* once an answer is told, only the rest of the block is awaited */
        came = fread(burst, 1, wanted - length < BURST ? wanted - length : BURST, source);
        length += came;
        told = edid_burst(state, burst, came);
        if (length == BLOCK && told == EDID_WAITING && state[EXTENSIONS] > 0)
            wanted = 2 * BLOCK;
    } while (came > 0 && (told == EDID_WAITING || length < BLOCK));
    if (ferror(source)) {
        perror("controller");
        return 2;
    }
    uint32_t number = edid_burst_number(state);
    print_answer(number, edid_burst_taken(state));
    bool right = print_checksum(state, length);
    size_t first = length < BLOCK ? length : BLOCK;
    print_pick(state, first);
    print_name(state, first, reference, reference_length);
    return right && number == 0 ? 0 : 1;
}
