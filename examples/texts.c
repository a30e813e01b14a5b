/* Holds edid_block_of_text to what include/edid.h says: of the text of the specimen, argv[1], whose block is the specimen, argv[2]; cut at every length, with each of
 * its bytes changed, and with another number of bytes lent. What is refused leaves the bytes lent as they were, and nothing is written beside them. */
#include "edid.h"

#include <stdio.h>
#include <string.h>

enum { LONGEST = 65536, BLOCK = 128, BESIDE = 8, OTHER_LENGTH = 10, NO_BLOCK = 11, LOST = 19, ANY = 255 };

static uint8_t text[LONGEST + 2], specimen[BLOCK];
static unsigned asked, failed, answers[LOST + 1];

static void expect(const char *what, size_t at, size_t length, size_t count, uint32_t number)
{
    uint8_t lent[2 * BLOCK], before[2 * BLOCK];
    memset(lent, 0xa5, sizeof lent);
    memcpy(before, lent, sizeof lent);
    uint32_t answer = edid_block_of_text(text, length, lent + BESIDE, count);
    asked++;
    bool known = answer == 0 || answer == OTHER_LENGTH || answer == NO_BLOCK || answer == LOST;
    bool kept = answer != 0 ? memcmp(lent, before, sizeof lent) == 0
                            : memcmp(lent, before, BESIDE) == 0 && memcmp(lent + BESIDE + BLOCK, before, BLOCK - BESIDE) == 0;
    if (known)
        answers[answer]++;
    if (known && kept && (number == ANY || answer == number) && (number != 0 || memcmp(lent + BESIDE, specimen, BLOCK) == 0))
        return;
    failed++;
    printf("text: %s %zu: answered %u, not %u%s\n", what, at, (unsigned)answer, (unsigned)number, kept ? "" : ", and bytes lent were changed");
}

static size_t filled(const char *path, uint8_t *to, size_t most)
{
    FILE *f = fopen(path, "rb");
    size_t length = f ? fread(to, 1, most, f) : 0;
    if (f)
        fclose(f);
    return length;
}

int main(int argc, char **argv)
{
    size_t length = argc == 3 ? filled(argv[1], text, LONGEST) : 0;
    if (!length || filled(argv[2], specimen, BLOCK) != BLOCK) {
        fputs("texts: the text or the specimen is not there\n", stderr);
        return 1;
    }
    for (size_t cut = 0; cut <= length; cut++) /* the last newline may be left out */
        expect("cut at", cut, cut, BLOCK, cut + 1 < length ? LOST : 0);
    for (size_t count = 0; count < BLOCK + BESIDE; count++)
        expect("bytes lent", count, length, count, count == BLOCK ? 0 : OTHER_LENGTH);
    for (size_t at = 0; at < length; at++) {
        uint8_t kept = text[at];
        for (unsigned b = 0; b < 256; b++) {
            text[at] = (uint8_t)b;
            expect("changed at", at, length, BLOCK, b == kept ? 0 : ANY);
        }
        text[at] = kept;
    }
    text[length] = '#'; /* a comment as long as can be, and a byte more */
    memset(text + length + 1, '-', LONGEST + 1 - length);
    expect("the longest", LONGEST, LONGEST, BLOCK, 0);
    expect("too long", LONGEST + 1, LONGEST + 1, BLOCK, LOST);
    for (unsigned n = 0; n <= LOST; n++)
        if ((n == 0 || n == OTHER_LENGTH || n == NO_BLOCK || n == LOST) && !answers[n]) {
            failed++;
            printf("text: no answer was %u\n", n);
        }
    printf("C: %u texts, %u answered otherwise than written\n", asked, failed);
    return failed != 0;
}
