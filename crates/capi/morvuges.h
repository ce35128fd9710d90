/*
 * The round sheet for C: a round's text in, the answers of a list of calls out.
 *
 * Link out/libcapi.a, which `rt lib` in this folder proves and writes. The functions keep nothing between calls, allocate
 * nothing and may be called from several threads at once. Each takes at most 300 KiB of stack. The side rule is pairs, load and
 * keepers together; the cost of an order is its late doors, then its late minutes.
 *
 * A pointer with a length may be that of no bytes, but it is never null. `out` may not overlap `text` or `calls`.
 *
 * A word is an unsigned number of 32 bits, the lowest byte first; it need not be aligned.
 */
#ifndef MORVUGES_H
#define MORVUGES_H

#include <stddef.h>
#include <stdint.h>

#ifdef __cplusplus
extern "C" {
#endif

/*
 * A refusal is answered as a number below 0, and leaves `out` as it was. They are looked at in this order:
 *
 *   -1 to -7   the text is refused, with that number (docs/ROUND.md)
 *   -29        the same: a door has a second keeper line
 *   -10        the width is not 1 to 128
 *   -100       the calls are no calls: not 16 bytes each, or of an unknown kind
 *   -101       `out` is too short
 *
 * From -100 on the numbers are these functions' own: no call on a diagram has them.
 */
#define MORVUGES_BAD_WIDTH (-10)
#define MORVUGES_BAD_CALLS (-100)
#define MORVUGES_SHORT_OUT (-101)

/*
 * A call is 16 bytes: the word of its kind and three words more, which are not looked at where nothing is named below.
 *
 *   kind                 words             answer
 *   MORVUGES_SWEEP                         how many arcs went
 *   MORVUGES_PART        layer, node       0, or the refusal's number: 20, 21, 23, 24
 *   MORVUGES_JOIN        layer, a, b       0, or the refusal's number: 20, 21, 25, 26
 *   MORVUGES_CUT         doors, minutes    how many arcs went
 *   MORVUGES_REFINE                        0 for whole, or the layer that was full
 *   MORVUGES_BACKSWEEP                     how many arcs went
 *
 * A call that the diagram refuses alters nothing, and the next one is made all the same. docs/DIAGRAM.md says what each call does.
 */
#define MORVUGES_SWEEP 1
#define MORVUGES_PART 2
#define MORVUGES_JOIN 3
#define MORVUGES_CUT 4
#define MORVUGES_REFINE 5
#define MORVUGES_BACKSWEEP 6

#define MORVUGES_CALL_BYTES 16

/*
 * Reads a round's text, opens its diagram at this width, makes the calls in turn, and then asks the diagram. Answers how many
 * bytes of `out` are written, 88 and 4 more for each call; the others stay as they were.
 *
 *   byte       word
 *   0          n, how many doors the round has
 *   4          how many calls were made
 *   8          1 if the diagram is settled, else 0
 *   12         1 if there is a bound, 0 if no order is left
 *   16, 20     the bound, late doors and late minutes; 0 and 0 if there is none
 *   24         sixteen words, one for each door i from 1: bit j is 1 if door i has to come ahead of door j. Bit 0, the bits of i
 *              and of doors after n, and the words of doors after n are 0. All others are 1 if no order is left
 *   88         the answer of each call in turn
 */
#define MORVUGES_HEAD_BYTES 88

int64_t morvuges_sheet(const uint8_t *text, size_t text_len, size_t width, const uint8_t *calls, size_t calls_len, uint8_t *out,
                       size_t out_len);

/*
 * Reads a round's text, and `times` times over opens its diagram at this width and refines it. Answers as the last refine did: 0 for
 * whole, or the layer that was full; 0 if `times` is 0. For measuring, as reading the text is done once.
 */
int64_t morvuges_refine_often(const uint8_t *text, size_t text_len, size_t width, size_t times);

/*
 * Reads a round's text, opens its diagram at this width and refines it once, and `times` times over asks it whether it is settled.
 * Answers as the last time: 1 if it is, else 0; 0 if `times` is 0. For measuring.
 */
int64_t morvuges_settled_often(const uint8_t *text, size_t text_len, size_t width, size_t times);

/*
 * The same, asking it for all musts. Answers how many there are the last time, of all pairs of doors; 0 if `times` is 0.
 */
int64_t morvuges_musts_often(const uint8_t *text, size_t text_len, size_t width, size_t times);

#ifdef __cplusplus
}
#endif

#endif
