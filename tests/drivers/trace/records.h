/* Records of a trace that receive a frame. */
#ifndef RECORDS_H
#define RECORDS_H

#include "inputs/random.h"
#include "reference/reference.h"

struct record {
    uint8_t bytes[42];
    size_t size;
};

/* How surely a reading gives its digit, or is erased. */
enum care { ANY, MOSTLY, SURELY };

/* A frame as a byte or, as it must be if a digit is erased, as readings, of which those after the n-th are like any. */
struct record record_of(struct random *r, const struct fields *card, int number, int frame, int erased, enum care care);

#endif
