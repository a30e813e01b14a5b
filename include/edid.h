/* The crate reading's answers on one EDID block, at once or in bursts, and, by the standard reading, which timing of it to show and which name, for C on
 * x86-64: link target/staticlib/libexports.a, and for the name target/staticlib/libname_exports.a, which `tools/archives` proves and
 * makes; and, at the end, the block of a panel's text.
 *
 * Each function reads the bytes that it is handed and nothing else, keeps nothing, and ends for every length and all bytes; edid_burst writes the
 * state, edid_pick the numbers lent to it, edid_block_of_text the bytes lent to it, and no other writes anything. The caller promises that these bytes can be read, and the state of edid_burst
 * and the numbers of edid_pick written, and that nobody else touches them meanwhile. Of a block of length 0 nothing is read through the pointer, and the
 * answers are 1, 0 and true, edid_pick's is 7, or 10, and there is no name in it. That is proved of a pointer that is not null; of a null pointer with
 * length 0 it is tested by tools/test-c. */
#ifndef EDID_H
#define EDID_H
#include <stdbool.h>
#include <stddef.h>
#include <stdint.h>

#ifdef __cplusplus
extern "C" {
#endif

/* 0 where the block is accepted, else what a reading byte after byte meets first: 1 no byte left, 2 another header, 3 no timing in the first
 * slot, 4 no 0x0a (in GTF: no 0x00) where one is due, 5 no 0x20, 6 a back porch below zero. Above 1, no later byte changes it.
 * A whole block of 128 bytes may meet 1, too: a slot of white points (fb) can take 23 bytes. Then hand over the first extension as well, if
 * block[126] is not 0; if it is, or the answer is again not 0, this reading refuses the panel; the standard reading, where it accepts the block,
 * tells its white point. */
uint32_t edid_refusal_number(const uint8_t *block, size_t length);

/* How many bytes that reading took, to the end of the record or to its refusal; length where it meets 1. Cut to any smaller length, the block is
 * refused with 1, at the cut.
 * Where it accepts: 127, less 13 for each of the last three slots with tag 0x10, and 5 more for each with tag 0xfb whose first index is not zero and
 * whose second is. So 88, 101, 106, 114, 119, 124, 127, 132, 137 or 142, and each of these occurs. The slots are those that it reads, not those of the
 * block: the first of the three begins at block[72], and the next one 18 bytes on, but 5 behind tag 0x10, and 23 behind such points. A slot is a timing
 * and has no tag, unless its first two bytes are both zero or its third is; then the tag is its fourth, and the indexes are its sixth and eleventh.
 * Which transfers suffice: 142 bytes do for every answer; none rests on more. An acceptance wants the number above, and fewer bytes never give it. So the
 * 128 of a block do, unless a slot has tag 0xfb as above and none has tag 0x10: then one such slot wants 132 bytes, two 137, three 142. */
size_t edid_bytes_taken(const uint8_t *block, size_t length);

/* Whether all the bytes add up to zero modulo 256, as the 128 of a whole block should.
 * No other answer depends on it. */
bool edid_sum_is_zero(const uint8_t *block, size_t length);

/* ---- a block that arrives in bursts
 *
 * The caller keeps the state, EDID_STATE bytes apart from the bursts: all zero before the first burst, and then as edid_burst leaves them. It can
 * be copied, put aside and gone on from. state[0], state[1] and so on are the bytes that came, as many as an answer can take, at most 142;
 * state[142] says how many, and more than 142 means 142. */
enum { EDID_STATE = 146, EDID_WAITING = 257 };

/* Takes the next length bytes, also none. EDID_WAITING while no answer is known but that bytes are missing. From the burst on that brings the last
 * byte that the reading takes: 0 where it accepts, else 2 to 6, as above; no later burst changes it. */
uint32_t edid_burst(uint8_t *state, const uint8_t *burst, size_t length);

/* The input ended: what edid_refusal_number and edid_bytes_taken answer for all bursts joined. Asked earlier they answer for the bursts so far;
 * once a burst told an answer they do not change. */
uint32_t edid_burst_number(const uint8_t *state);
size_t edid_burst_taken(const uint8_t *state);

/* ---- which timing to show
 *
 * A board can show a timing that is not interlaced, has active pixels and lines, and whose clock, pixels across and lines down are within the board's
 * limits; what equals a limit is within it. The caller lends count numbers, apart from the block; the first EDID_NUMBERS tell the timing. */
enum { EDID_NUMBERS = 14 };

/* Of the detailed timings of the block, by the standard reading and in the order of its slots, picks one that can be shown: the one with the most active
 * pixels in all, and of several with as many the first. The clock is in Hz. A limit of pixels or lines above 65535 does not fit its type: C would cut it
 * to its last 16 bits, so pass 65535; no block has more than 4095.
 * 0 where one is picked; then the numbers are those of the line `detailed` of the standard listing, without size, border and slot:
 *     0           the clock in Hz
 *     1, 2        active pixels across, active lines down
 *     3, 4        front porch across, down
 *     5, 6        sync across, down
 *     7, 8        back porch across, down
 *     9           whether it is interlaced, so 0
 *     10          stereo: 0 none, 1 sequential with right sync, 2 with left, 3 interleaved lines, right even, 4 left even, 5 four ways, 6 side by side
 *     11, 12, 13  sync: 0 analog composite or 1 bipolar, then 1 if serrated, then 1 if on all three lines, 0 if on green; 2 digital composite, then 1 if
 *                 serrated, then polarity; 3 digital separate, then horizontal polarity, then vertical; of polarities 1 is positive
 * and those behind keep their values. Where it is not 0, all numbers keep their values, and it is the first of these that applies: 10 fewer than 14 numbers
 * are lent; 7 the length is not 128; 2 another header; 8 the bytes do not add up to zero; 9 the version is not 1; then, slot after slot, 3 no timing in the
 * first, 4 no 0x0a (in GTF: no 0x00) where one is due, 5 no 0x20 (behind a text: nor 0x00), 6 a back porch below zero; 14 no timing can be shown. */
uint32_t edid_pick(const uint8_t *block, size_t length, uint32_t clock, uint16_t across, uint16_t down, uint32_t *numbers, size_t count);

/* ---- which name to show
 *
 * Of a panel's block and a reference block, the name of the first that has one. A block's name is the text of its first slot with tag 0xfc: the bytes
 * before the first 0x0a, also where there are none, or all thirteen. A block that the standard reading refuses has no name, as one whose length is not 128.
 * Where the panel has a name, the reference is of no account; the two may be the same bytes. */

/* 0 where it is the panel's, 1 where it is the reference's, 18 where neither block has one. */
uint32_t edid_name_number(const uint8_t *panel, size_t panel_length, const uint8_t *reference, size_t reference_length);

/* Where in that block the text begins, 77, 95 or 113, and how many bytes it has, 0 to 13: any but 0x0a, also 0x00, and no 0x00 closes them. Where neither
 * block has a name, both are 0. */
size_t edid_name_start(const uint8_t *panel, size_t panel_length, const uint8_t *reference, size_t reference_length);
size_t edid_name_length(const uint8_t *panel, size_t panel_length, const uint8_t *reference, size_t reference_length);

/* ---- a panel's text to its block
 *
 * Link target/staticlib/libpanel_exports.a, which `tools/archives` proves and makes. The text is what the program panel_text prints; a person may
 * change its numbers and its texts in quotes, and add blank lines, lines that begin with #, and more spaces and tabs between words. docs/PANEL-TEXT.md has
 * the form of each line. */

/* 0 where a block gives what the text says; then the 128 bytes lent are that block, and the standard reading reads it as the same. Where it is not 0 the bytes
 * lent keep their values, and it is the first of these that applies: 10 count is not 128; 19 the text is not understood, or longer than 65,536 bytes; 11 no block
 * gives what it says. The text and the bytes lent lie apart; of a text of length 0 nothing is read through the pointer, and the answer is 19, or 10. */
uint32_t edid_block_of_text(const uint8_t *text, size_t length, uint8_t *block, size_t count);

#ifdef __cplusplus
}
#endif
#endif
