/* Makes the stored input and output of the program `arithmetic`: every pair of GF(4) and GF(16), a sample of GF(256), and
 * refused calls, divisions by zero among them.
 *
 *   arithmetic in FILE    writes the input
 *   arithmetic out FILE   writes the answers
 */
#include "second.h"

#include <stdio.h>
#include <string.h>

static void one(FILE *to, int wants_input, unsigned degree, unsigned a, unsigned b)
{
    if (wants_input) {
        fputc((int)degree, to);
        fputc((int)a, to);
        fputc((int)b, to);
        return;
    }
    int refused = degree != 2 && degree != 4 && degree != 8 ? 1 : a >> degree || b >> degree ? 7 : 0;
    if (refused)
        fprintf(to, "!%d !%d !%d\n", refused, refused, refused);
    else if (b == 0)
        fprintf(to, "%u %u !25\n", a ^ b, second_product(degree, a, b));
    else
        fprintf(to, "%u %u %u\n", a ^ b, second_product(degree, a, b), second_quotient(degree, a, b));
}

int main(int argc, char **argv)
{
    if (argc != 3 || (strcmp(argv[1], "in") && strcmp(argv[1], "out"))) {
        fprintf(stderr, "usage: arithmetic in|out FILE\n");
        return 2;
    }
    int wants_input = !strcmp(argv[1], "in");
    FILE *to = fopen(argv[2], "wb");
    if (!to) {
        perror(argv[2]);
        return 1;
    }
    for (unsigned degree = 2; degree <= 4; degree += 2)
        for (unsigned a = 0; a < 1u << degree; a++)
            for (unsigned b = 0; b < 1u << degree; b++)
                one(to, wants_input, degree, a, b);
    for (unsigned a = 0; a < 256; a++)
        for (unsigned k = 0; k < 24; k++)
            one(to, wants_input, 8, a, (a * 37 + k * 11 + (k == 0 ? 0 : a)) % 256);
    one(to, wants_input, 8, 128, 2);
    for (unsigned degree = 0; degree < 12; degree++)
        for (unsigned k = 0; k < 4; k++)
            one(to, wants_input, degree, k & 1 ? 255 : 3, k & 2 ? 16 : 1);
    /* divided by zero: symbols of GF(256); symbols outside the field, which is 7; and degrees that are none, which is 1 */
    for (unsigned a = 0; a < 256; a += 5)
        one(to, wants_input, 8, a, 0);
    for (unsigned degree = 0; degree < 12; degree++) {
        one(to, wants_input, degree, 4, 0);
        one(to, wants_input, degree, 16, 0);
    }
    return fclose(to) ? 1 : 0;
}
