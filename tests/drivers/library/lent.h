/* Memory to lend to the library under test, so that every byte that it reads or writes out of turn shows.
 *
 * An arena lies between two pages that nobody may touch. What is lent stands in it either against the
 * page below, or against the page above, or in the middle; guard bytes fill the rest of its
 * neighbourhood. The library sees an arena that it may only read through a read-only view of it. */
#ifndef LENT_H
#define LENT_H

#include <stddef.h>
#include <stdint.h>

enum access { READ_ONLY, READ_WRITE };
enum placement { AT_START, AT_END, IN_THE_MIDDLE, PLACEMENTS };

struct arena {
    size_t size;    /* bytes between the two pages */
    uint8_t *ours;  /* the arena as the test writes it */
    uint8_t *lent;  /* the arena as the library sees it */
    size_t offset;  /* where the lent bytes start, and their count */
    size_t length;
};

/* An arena with room for `most` lent bytes. */
void make_arena(struct arena *arena, size_t most, enum access access);

/* Puts the bytes into the arena, guard bytes around them, and gives the pointer to lend. */
uint8_t *lend(struct arena *arena, const uint8_t *bytes, size_t length, enum placement placement);

/* The lent bytes, for a look at what the library wrote. */
const uint8_t *lent_bytes(const struct arena *arena);

/* Whether the lent bytes are the expected ones and every guard byte is as it was. */
int holds(const struct arena *arena, const uint8_t *expected);

#endif
