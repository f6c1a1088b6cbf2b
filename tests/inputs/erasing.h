/* Random digits of frames to be made wrong or erased: bit s - 1 for stream s. */
#ifndef ERASING_H
#define ERASING_H

#include "random.h"

/* Each with the same chance. */
static inline int random_digits(struct random *r, int streams, int in_thousand)
{
    int digits = 0;
    for (int s = 0; s < streams; s++)
        if (below(r, 1000) < in_thousand)
            digits |= 1 << s;
    return digits;
}

/* In which way digits of consecutive frames are erased. */
struct erasing {
    enum { NONE_ERASED, SINGLE_DIGITS, WHOLE_FRAMES, EVERY_SECOND_DIGIT, EVERY_DIGIT } way;
    int in_thousand; /* of the digits, or of the frames; for the two ways that are random */
};

static inline struct erasing random_erasing(struct random *r)
{
    static const int rates[] = {5, 20, 50, 100, 200, 500};
    struct erasing erasing = {.way = NONE_ERASED, .in_thousand = rates[below(r, 6)]};
    if (one_in(r, 3))
        erasing.way = SINGLE_DIGITS;
    else if (one_in(r, 3))
        erasing.way = WHOLE_FRAMES;
    else if (one_in(r, 4))
        erasing.way = one_in(r, 2) ? EVERY_SECOND_DIGIT : EVERY_DIGIT;
    return erasing;
}

/* The erased digits of frame u. */
static inline int erased_at(struct random *r, const struct erasing *erasing, long u, int streams)
{
    int all = (1 << streams) - 1;
    switch (erasing->way) {
    case SINGLE_DIGITS:
        return random_digits(r, streams, erasing->in_thousand);
    case WHOLE_FRAMES:
        return below(r, 1000) < erasing->in_thousand ? all : 0;
    case EVERY_SECOND_DIGIT:
        return all & (u % 2 ? 0x55 : 0xaa);
    case EVERY_DIGIT:
        return all;
    default:
        return 0;
    }
}

#endif
