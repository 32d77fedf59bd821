/* A ring with grease on two of its sectors: without a list of them there is no answer at any trial limit, and with the list there is
 * one. Build it, from the repository's root, with
 *
 *   make lib
 *
 * which leaves the program in target/c/ring, or by hand on x86-64 with
 *
 *   cc -std=c99 -Iinclude -o ring examples/c/ring.c target/staticlib/libfirmware.a
 */
#include "grenhyrna.h"

#include <stdio.h>

/* H(37) over GF(16): joint limit 6, safe limit 3; with two sectors lost both limits are worked out over 14: 4 and 2 */
enum { Q = 4, M = 37, SECTORS = Q * Q, SYMBOLS = SECTORS * Q, TOTAL = 32, SAFE = 3, JOINT = 6, SAFE_WITH_LIST = 2 };

static const uint8_t greased[] = {5, 6};
static const uint8_t pitted[] = {1, 12};

static uint8_t message[TOTAL], ring[SYMBOLS], answer[SYMBOLS], flags[SECTORS], back[TOTAL], space[GREN_SPACE];

/* Eight sectors a line, the sector's number first. */
static void show(const char *what, const uint8_t *s)
{
    printf("%s\n", what);
    for (size_t i = 0; i < SECTORS; i++) {
        printf(" %2zu:", i);
        for (size_t j = 0; j < Q; j++)
            printf(" %x", s[i * Q + j]);
        printf(i % 8 == 7 ? "\n" : " ");
    }
}

/* How the decoder finished, in words; the answer is there on "corrected" alone. */
static int finished(uint32_t result)
{
    switch (gren_code(result)) {
    case GREN_CORRECTED: printf("corrected, %u wrong\n", gren_detail(result)); return 1;
    case GREN_NONE: printf("none: no word is within the limit\n"); return 0;
    case GREN_SEVERAL: printf("several: more than one way to go on, at %u sectors\n", gren_detail(result)); return 0;
    case GREN_HOLLOW: printf("hollow: a locator of size %u that locates nothing\n", gren_detail(result)); return 0;
    default: printf("refused, %u\n", gren_detail(result)); return 0;
    }
}

static int decode(uint32_t limit)
{
    printf("limit %u, no list: ", limit);
    return finished(gren_ring_decode(Q, M, limit, ring, sizeof ring, answer, sizeof answer, flags, sizeof flags, space, sizeof space));
}

static int decode_lost(uint32_t limit)
{
    printf("limit %u, sectors %u and %u lost: ", limit, greased[0], greased[1]);
    return finished(gren_ring_decode_lost(Q, M, limit, greased, sizeof greased, ring, sizeof ring, answer, sizeof answer, flags,
                                          sizeof flags, space, sizeof space));
}

/* A sheen that lifts all four symbols of a sector alike: of the sector's rows the first alone is wrong. */
static void lift(size_t sector, uint8_t by)
{
    for (size_t j = 0; j < Q; j++)
        ring[sector * Q + j] ^= by;
}

int main(void)
{
    for (size_t i = 0; i < TOTAL; i++)
        message[i] = (uint8_t)((5 * i + 3) % 16);
    if (gren_ring_encode(Q, M, message, sizeof message, ring, sizeof ring) != GREN_DONE)
        return 1;
    show("struck", ring);
    lift(greased[0], 9), lift(greased[1], 4);
    lift(pitted[0], 7), lift(pitted[1], 12);
    show("received", ring);
    if (decode(SAFE) || decode(JOINT)) /* four sectors are wrong, and the guarantee is for three */
        return 1;
    if (!decode_lost(SAFE_WITH_LIST)) /* two of the remaining fourteen are, and that is within the guarantee */
        return 1;
    show("answer", answer);
    printf("flags");
    for (size_t i = 0; i < SECTORS; i++)
        printf(" %u", flags[i]);
    if (gren_ring_read(Q, M, answer, sizeof answer, back, sizeof back) != GREN_DONE)
        return 1;
    printf("\nmessage");
    for (size_t i = 0; i < TOTAL; i++)
        printf(" %u", back[i]);
    printf("\n");
    return 0;
}
