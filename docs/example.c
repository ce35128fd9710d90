/*
 * The round sheet in C: reads a round's text on standard input, and prints what `sheet` prints, or the refusal's number.
 * It ends with 1 where the text is refused, with 2 where a stream fails, and with 3 where the functions do not agree.
 * docs/C.md says how to compile it.
 */
#include "morvuges.h"
#include <stdio.h>

#define WIDTH 16

/* A word: four bytes, the lowest first. */
static unsigned word(const uint8_t *at) {
    return at[0] | (unsigned)at[1] << 8 | (unsigned)at[2] << 16 | (unsigned)at[3] << 24;
}

int main(void) {
    static uint8_t text[16384 + 1]; /* one byte more than a text may have, so that a longer one is refused */
    const uint8_t calls[MORVUGES_CALL_BYTES] = {MORVUGES_REFINE}; /* one call; a kind is the low byte of its first word */
    uint8_t out[MORVUGES_HEAD_BYTES + 4]; /* the head, and the answer of one call */
    size_t len = fread(text, 1, sizeof text, stdin);
    int64_t written = morvuges_sheet(text, len, WIDTH, calls, sizeof calls, out, sizeof out);
    if (ferror(stdin)) return 2;
    if (written < 0) {
        printf("refused\t%d\n", (int)-written);
        return 1;
    }
    unsigned n = word(out), settled = word(out + 8), full = word(out + MORVUGES_HEAD_BYTES), musts = 0;
    if (word(out + 12)) printf("bound\t%u\t%u\n", word(out + 16), word(out + 20));
    else printf("bound\tnone\n");
    if (full) printf("refine\tfull\t%u\n", full);
    else printf("refine\twhole\n");
    for (unsigned i = 1; i <= n; i++)
        for (unsigned j = 1; j <= n; j++)
            if (word(out + 24 + 4 * (i - 1)) >> j & 1) {
                printf("must\t%u\t%u\n", i, j);
                musts++;
            }
    if (fflush(stdout) || ferror(stdout)) return 2;
    /* The other functions are for measuring: they do the same so many times over, here once, and answer as the last time. */
    return morvuges_refine_often(text, len, WIDTH, 1) == full && morvuges_settled_often(text, len, WIDTH, 1) == settled
           && morvuges_musts_often(text, len, WIDTH, 1) == musts ? 0 : 3;
}
