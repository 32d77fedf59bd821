/* Numbers that look random and are the same in every run. */
#ifndef RANDOM_H
#define RANDOM_H
#include <stdint.h>

static uint64_t state;

static uint32_t next(void)
{
    state ^= state << 13;
    state ^= state >> 7;
    state ^= state << 17;
    return (uint32_t)(state >> 16);
}

static unsigned below(unsigned n)
{
    return n ? next() % n : 0;
}

static inline int chance(unsigned one_in)
{
    return below(one_in) == 0;
}
#endif
