/* The output of the program `trace` as the reference has it: a card, then records that drive two receiving sessions,
 * one by each circuit, and a sending one. */
#ifndef TRACE_H
#define TRACE_H

#include <stddef.h>
#include <stdint.h>

struct fields;

enum {
    MOST_TRACE_BYTES = 65536,
    MOST_STATED_LENGTH = 2048, /* of the card, as for the listing */
    MOST_LINE = 32             /* bytes of a line, and more */
};

/* Text that grows at its end. */
struct text {
    char *bytes;
    size_t length, room;
};

/* What the calls of a session came to. */
struct answer_counts {
    long waiting, frames;
    long refused[32]; /* by number */
};

/* What a reading can be, by the magnitude of its level: document 02's R-7 erases those below 0.25. */
enum level {
    MARKED, /* 'erased', whatever the level beside it */
    ZERO,
    SUBNORMAL,
    IN_BAND,      /* any other below 0.25, but for the next */
    LAST_IN_BAND, /* the one before 0.25 */
    QUARTER,
    FIRST_BEYOND, /* the one after it */
    BEYOND,
    LEVELS
};

/* What the records came to. */
struct trace_counts {
    long records, figures, selections;
    struct answer_counts received[2], sent;
    long levels[2][LEVELS]; /* of frames taken, the n readings: those with a sign at [1] */
    long cards_refused[32]; /* by number */
    /* Bad records: `s` alone, `s` with an X above 1, `f` while session 1 is selected. */
    long cut_selections, other_selections, second_figures;
};

/* Adds what the program must write for this input to the text, and to the counts. */
void reference_trace(const uint8_t *input, size_t length, struct text *text, struct trace_counts *counts);

/* The same for a program that errs: each receiving session is opened with the card as `spoil` leaves it. */
void reference_trace_spoiled(const uint8_t *input, size_t length, void (*spoil)(int session, struct fields *card),
                             struct text *text, struct trace_counts *counts);

#endif
