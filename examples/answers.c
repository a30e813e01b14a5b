/* What the exported functions answer, for each frame or script of bursts on standard input.
 *     answers <FRAMES          a line each: refusal number, bytes taken, whether the sum is zero
 *     answers bursts <SCRIPTS  a line for each burst, what is told after it; then refusal number and bytes taken at the end, and a line `--`
 *     answers pick <FRAMES     a line each: the answer of edid_pick, then all lent numbers; before the call lent number k is 4000000000 + k
 *     answers name <FRAMES     a line for each two of them, a panel's block and a reference block: the number, start and length of the name to show, then
 *                              its bytes in hexadecimal, as they stand in the block, if there are any
 * A frame is its length in 16 bits, low byte first, then as many bytes, at most 4,096; a script the number of its bursts in 16 bits, then each as
 * a frame is, but of any length. For edid_pick a frame begins with the limits, the clock in 32 bits, across and down in 16 each, low byte first, and a
 * byte that says how many numbers are lent; the block follows. A block, or a burst, ends where its page ends, and so do a state and the lent numbers; the
 * page behind it can be neither read nor written: a step past it ends the program.
 * Exit status: 0 all was answered, 1 not so. */
#define _DEFAULT_SOURCE
#include <stdio.h>
#include <stdlib.h>
#include <string.h>
#include <sys/mman.h>
#include <unistd.h>
#include "edid.h"

enum { LONGEST = 4096, LONGEST_BURST = 65535, BEFORE_BLOCK = 9, MOST_LENT = 255 };

static const uint32_t UNTOUCHED = 4000000000;

/* Where a block, a burst, a state or the lent numbers have to end: as many bytes at least before it, a page that cannot be touched behind it. */
static uint8_t *end_of_page(size_t bytes)
{
    size_t page = (size_t)sysconf(_SC_PAGESIZE), room = (bytes + page - 1) / page * page;
    uint8_t *start = mmap(NULL, room + page, PROT_READ | PROT_WRITE, MAP_PRIVATE | MAP_ANONYMOUS, -1, 0);
    if (start == MAP_FAILED || mprotect(start + room, page, PROT_NONE)) {
        perror("answers");
        exit(1);
    }
    return start + room;
}

static uint16_t word_at(const uint8_t *bytes)
{
    return (uint16_t)(bytes[0] | bytes[1] << 8);
}

static bool read_word(size_t *word)
{
    uint8_t bytes[2];
    bool there = fread(bytes, 1, 2, stdin) == 2;
    *word = there ? word_at(bytes) : 0;
    return there;
}

/* Whether as many bytes came, of a length that is allowed. */
static bool read_to(uint8_t *end, size_t length, size_t longest)
{
    return length <= longest && fread(end - length, 1, length, stdin) == length;
}

static bool answer_frame(size_t length)
{
    static uint8_t *end;
    end = end ? end : end_of_page(LONGEST);
    if (!read_to(end, length, LONGEST))
        return false;
    uint32_t number = edid_refusal_number(end - length, length);
    printf("%u %zu %d\n", (unsigned)number, edid_bytes_taken(end - length, length), edid_sum_is_zero(end - length, length));
    return true;
}

static bool answer_script(size_t bursts)
{
    static uint8_t *end, *state;
    end = end ? end : end_of_page(LONGEST_BURST);
    state = state ? state : end_of_page(EDID_STATE) - EDID_STATE;
    memset(state, 0, EDID_STATE);
    for (size_t length; bursts > 0; bursts--) {
        if (!read_word(&length) || !read_to(end, length, LONGEST_BURST))
            return false;
        printf("%u\n", (unsigned)edid_burst(state, end - length, length));
    }
    printf("%u %zu\n--\n", (unsigned)edid_burst_number(state), edid_burst_taken(state));
    return true;
}

static bool answer_pick(size_t length)
{
    static uint8_t *end;
    static uint32_t *lent;
    end = end ? end : end_of_page(LONGEST);
    lent = lent ? lent : (uint32_t *)end_of_page(MOST_LENT * sizeof *lent);
    if (length < BEFORE_BLOCK || !read_to(end, length, LONGEST))
        return false;
    const uint8_t *before = end - length, *block = before + BEFORE_BLOCK;
    uint32_t clock = word_at(before) | (uint32_t)word_at(before + 2) << 16, *numbers = lent - before[8];
    for (size_t k = 0; k < before[8]; k++)
        numbers[k] = UNTOUCHED + (uint32_t)k;
    uint32_t number = edid_pick(block, (size_t)(end - block), clock, word_at(before + 4), word_at(before + 6), numbers, before[8]);
    printf("%u", (unsigned)number);
    for (size_t k = 0; k < before[8]; k++)
        printf(" %u", (unsigned)numbers[k]);
    putchar('\n');
    return true;
}

static bool answer_name(size_t length)
{
    static uint8_t *ends[2];
    const uint8_t *blocks[2];
    size_t lengths[2] = {length, 0};
    for (size_t k = 0; k < 2; k++) {
        ends[k] = ends[k] ? ends[k] : end_of_page(LONGEST);
        if ((k > 0 && !read_word(&lengths[k])) || !read_to(ends[k], lengths[k], LONGEST))
            return false;
        blocks[k] = ends[k] - lengths[k];
    }
    uint32_t number = edid_name_number(blocks[0], lengths[0], blocks[1], lengths[1]);
    size_t start = edid_name_start(blocks[0], lengths[0], blocks[1], lengths[1]);
    size_t many = edid_name_length(blocks[0], lengths[0], blocks[1], lengths[1]);
    printf("%u %zu %zu%s", (unsigned)number, start, many, many > 0 ? " " : "");
    for (size_t k = 0; k < many; k++)
        printf("%02x", blocks[number == 1][start + k]);
    putchar('\n');
    return true;
}

static const struct {
    const char *what;
    bool (*answer)(size_t);
} kinds[] = {{"", answer_frame}, {"bursts", answer_script}, {"pick", answer_pick}, {"name", answer_name}};

int main(int argc, char **argv)
{
    bool (*answer)(size_t) = NULL;
    for (size_t k = 0; k < sizeof kinds / sizeof *kinds; k++)
        if (!strcmp(argc == 2 ? argv[1] : "", kinds[k].what))
            answer = kinds[k].answer;
    if (!answer)
        return 1;
    int next;
    while ((next = getchar()) != EOF && ungetc(next, stdin) != EOF) {
        size_t word;
        if (!read_word(&word) || !answer(word)) {
            fputs("answers: a frame or a script is cut short, or a frame too short or too long\n", stderr);
            return 1;
        }
    }
    return ferror(stdin) || fflush(stdout) ? 1 : 0;
}
