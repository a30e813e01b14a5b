/* Moves a panel's picture. Reads a panel's text, as panel_text prints it, from standard input; adds argv[1] to the front porch across of its first detailed
 * timing and takes as much from the back porch; writes the block of the changed text, 128 bytes, to standard output. Where there is none it says so. */
#include "edid.h"

#include <stdio.h>
#include <stdlib.h>
#include <string.h>

enum { LONGEST = 65536, BLOCK = 128, NUMBERS = 8 };

static char text[LONGEST + 1], changed[LONGEST + 64];

/* The text with the porches moved, and its length; 0 where it has no detailed timing. */
static size_t moved(long by)
{
    const char *line = strstr(text, "\ndetailed ");
    unsigned long clock;
    long n[NUMBERS]; /* active, front porch, sync and back porch, across before down */
    int end;
    if (!line || sscanf(line, " detailed %lu %ld %ld %ld %ld %ld %ld %ld %ld%n", &clock, n, n + 1, n + 2, n + 3, n + 4, n + 5, n + 6, n + 7, &end) != NUMBERS + 1)
        return 0;
    int before = (int)(line - text);
    int length = snprintf(changed, sizeof changed, "%.*s\ndetailed %lu %ld %ld %ld %ld %ld %ld %ld %ld%s", before, text, clock, n[0], n[1], n[2] + by, n[3],
                          n[4], n[5], n[6] - by, n[7], line + end);
    return length > 0 && (size_t)length < sizeof changed ? (size_t)length : 0;
}

int main(int argc, char **argv)
{
    uint8_t block[BLOCK];
    size_t length = fread(text, 1, LONGEST, stdin);
    if (argc != 2 || strlen(text) != length || !(length = moved(strtol(argv[1], NULL, 10)))) {
        fputs("porch: no text with a detailed timing, or no number\n", stderr);
        return 2;
    }
    uint32_t number = edid_block_of_text((const uint8_t *)changed, length, block, BLOCK);
    if (number != 0) {
        fprintf(stderr, "porch: refused with %u: %s\n", (unsigned)number, number == 19 ? "the text is not understood" : "no block gives this panel");
        return 1;
    }
    return fwrite(block, 1, BLOCK, stdout) == BLOCK ? 0 : 2;
}
