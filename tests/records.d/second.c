/* The records of standard input by the second program: parsed here once more from 01's words, decoded by second_mark_decode with
 * factors of one (02, 2026-11). The whole input is read first. */
#include "../second/second.h"
#include <stdio.h>
#include <string.h>

static uint8_t in[1 << 20], ones[96], space[SECOND_SPACE];

static void line(unsigned long number, uint32_t answer, const uint8_t *flags, size_t n)
{
    static const char *const words[] = {"refused", "corrected", "none", "several", "hollow"};
    unsigned code = answer / 256, detail = answer % 256, wrong = 0;
    size_t i;
    printf("%lu %s ", number, words[code]);
    if (code == 2)
        printf("- ");
    else
        printf("%u ", detail);
    for (i = 0; code == 1 && i < n; i++)
        if (flags[i])
            printf(wrong++ ? ",%zu" : "%zu", i);
    printf(wrong ? "\n" : "-\n");
}

int main(void)
{
    size_t length = fread(in, 1, sizeof in, stdin), at = 0;
    unsigned long number = 1;
    memset(ones, 1, sizeof ones);
    for (; at < length; number++) {
        const uint8_t *b = in + at;
        size_t left = length - at, r, n, size;
        uint8_t answer[384] = {0}, flags[96] = {0};
        if (left >= 2 && (b[0] != 0x42 || b[1] != 0x4D))
            return line(number, 12, 0, 0), 0;
        if (left < 5)
            return line(number, 13, 0, 0), 0;
        r = b[3], n = b[4];
        if (r < 1 || r > 4 || n < 1 || n > 96) {
            int bad_degree = b[2] != 2 && b[2] != 4 && b[2] != 8;
            return line(number, bad_degree ? 1 : r < 1 || r > 4 ? 2 : 3, 0, 0), 0;
        }
        size = 5 + r + 1 + n + r * n;
        if (left < size)
            return line(number, 13, 0, 0), 0;
        line(number,
             second_mark_decode(b[2], b + 5, r, b + 6 + r, n, ones, n, b[5 + r], b + 6 + r + n, r * n, answer, r * n, flags, n,
                                space, sizeof space),
             flags, n);
        at += size;
    }
    return 0;
}
