/* One call, by the library and by the reference, and all that it leaves behind compared. What differs ends the run. */
#ifndef CALLS_H
#define CALLS_H

#include "inputs/random.h"
#include "reference/reference.h"

enum {
    LONGEST_STREAM = 120, /* information frames of a stream */
    MOST_ROOM = MOST_FRAMES + 64
};

/* What is compared at the moment, for the report of a failure. */
struct now {
    uint64_t seed;
    long round;
    const char *function;
    const uint8_t *card, *input;
    size_t card_length, input_length, output_length;
};

extern struct now now;

extern uint8_t *expected; /* the output as the reference leaves it */

void print_hexadecimal(const char *what, const uint8_t *bytes, size_t length);

/* Prints what was tried, and ends the run. */
void fail(const char *format, ...);

/* Before the first call: makes the memory to lend, and from then on fails where the library reaches outside it. */
void begin_calls(void);

enum direction { SEND, RECEIVE };

/* Calls both, compares everything, and gives the answer; the output is then in `expected`. */
int32_t call(struct random *r, enum direction direction, const uint8_t *card, size_t card_length, const uint8_t *input,
             size_t input_length, size_t output_length);

/* The same with card_write. */
int32_t call_write(struct random *r, const uint8_t *card, size_t card_length, size_t output_length);

/* The same with standard_card, which takes no card. */
int32_t call_standard(struct random *r, uint32_t checks, size_t output_length);

/* Whether both accept the card, by empty bursts and by writing it. */
int accepted(struct random *r, const uint8_t *card, size_t length);

/* What the library has just received, received by the reference's second circuit. */
void receive_by_second(const uint8_t *card, size_t card_length, const uint8_t *input, long input_length, long count);

#endif
