/* What the reference's own files share. Nobody else includes this: what they use is in reference.h. */
#ifndef PARTS_H
#define PARTS_H

#include "reference.h"

/* ---- frames.c ---- */

/* Digit a of a number, the lowest first. */
int digit_of(uint32_t number, int a);

struct frame frame_of_byte(uint8_t byte);
uint8_t byte_of_frame(const struct frame *frame);

/* Whether the frame has a digit 1 beyond so many streams. */
int digit_beyond(const struct frame *frame, int streams);

/* A frame from readings, those after the n-th not looked at; 12, or 0 for no refusal. "A level whose magnitude is below
 * 0.25 is erased" (document 02, R-7), which 0.25 and minus 0.25 are not. */
int frame_of_readings(const struct reading readings[8], int n, struct frame *frame);

/* Memory that is zero. Ends the program where there is none. */
void *allocate(size_t count, size_t size);

/* ---- code.c ---- */

/* Fills in the parity digits of frame u. */
void add_parity(const struct fields *card, struct frame *frames, long u);

/* s(u, j). */
int syndrome(const struct fields *card, const struct frame *received, long u, int j);

/* s(u, j), with every digit error decided for times before `now` taken out of it. */
int cleared(const struct fields *card, const struct frame *received, const struct frame *decided, long now, long u,
            int j);

/* Check q of stream i, used at u. */
int check_at(const struct fields *card, const struct frame *received, const struct frame *decided, int i, int q,
             long u);

/* ---- deciding.c ---- */

/* Whether an erased digit other than its own is touched by a check on digit i at u. What a check touches is of time u
 * or later, so of a time not yet decided: an erasure of an earlier time is not met here. */
int touches_erased(const struct fields *card, const struct touched *check, const struct frame *received, int i, long u);

/* Whether check q on digit i at u votes (document 02, R-6). */
int has_vote(const struct fields *card, const struct frame *received, int i, int q, long u);

/* Decides frame u and gives the frame handed out. */
struct frame decide(enum circuit circuit, const struct fields *card, const struct frame *received,
                    struct frame *decided, long u);

#endif
