/* The ways that tests/speed sets against each other, and their times. */
#ifndef MEASURE_H
#define MEASURE_H

#include "subjects.h"

/* A call that every way of a row makes, answered as burst.h says. */
struct call {
    const struct subject *subject;
    const uint8_t *input;
    size_t input_length;
    int32_t answer;
};

typedef int32_t way(const struct call *call);

/* What the ways write to: one place for all of them, since a time may depend on where that is. */
extern uint8_t output[MOST_FRAMES];

way library_reads, library_sends, library_receives;
way session_sends, session_receives;
way generic_reads, generic_sends, generic_receives;
way specialised_sends, specialised_receives;
way best_sends, best_receives;

/* The ns that the call takes by each of the ways, the least of many turns. */
void measure(way *const ways[], int count, const struct call *call, double least[]);

/* Makes the call by each of the ways, and ends the run if they don't all give the same frames. These are left in the
 * output. */
void compare_frames(way *const ways[], int count, const struct call *call);

#endif
