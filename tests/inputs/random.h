/* Random numbers that a seed fixes, on every machine alike (the generator is splitmix64). */
#ifndef RANDOM_H
#define RANDOM_H

#include <stdint.h>

struct random {
    uint64_t state;
};

static inline uint64_t random_word(struct random *r)
{
    uint64_t z = r->state += 0x9e3779b97f4a7c15u;
    z = (z ^ (z >> 30)) * 0xbf58476d1ce4e5b9u;
    z = (z ^ (z >> 27)) * 0x94d049bb133111ebu;
    return z ^ (z >> 31);
}

/* 0 to bound - 1. */
static inline int below(struct random *r, int bound)
{
    return (int)(random_word(r) % (uint64_t)bound);
}

/* low to high. */
static inline int between(struct random *r, int low, int high)
{
    return low + below(r, high - low + 1);
}

/* 1 once in `times`, else 0. */
static inline int one_in(struct random *r, int times)
{
    return below(r, times) == 0;
}

#endif
