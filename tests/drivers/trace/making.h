/* Making a random trace: a card, the stream with which it begins, then any records. */
#ifndef MAKING_H
#define MAKING_H

#include "inputs/cards.h"
#include "trace.h"

enum { MOST_BYTES = MOST_TRACE_BYTES + 64, MOST_STREAM = 80 + MOST_MEMORY };

/* To which receiving sessions the frames of a trace go. */
enum manner { STAYING, SWITCHING, BOTH };

/* The trace that is made. */
extern uint8_t trace[MOST_BYTES];
extern size_t length;
extern enum manner manner;

/* The stream with which the trace begins, all its frames with the tail. In `erased` bit s - 1 stands for a digit of
 * stream s; what `received` has in its place is any. */
struct stream {
    struct fields card;
    long count; /* information frames */
    uint8_t sent[MOST_STREAM], received[MOST_STREAM], erased[MOST_STREAM];
    int whole;   /* whether it is received from time 0 to its last frame: by both sessions, or by this one */
    int session;
    long erased_by_level; /* of the erased digits, those that are not marked */
    long calls;  /* up to its last frame, refused ones included */
    size_t end;  /* the place in the trace after them */
    int beyond;  /* whether it is beyond the correctable number */
};

extern struct stream stream;

/* The cards made to state a default or to come near to it; and of all those that were accepted before document 02's R-4
 * and are refused now, for k and for n. */
struct stating {
    long ways[WAYS_OF_STATING];
    long default_k, default_n;
};

extern struct stating stating;

/* The cards that are good but for having more than the most checks; and those accepted that have the most. */
struct many_checks {
    long too_many, most;
};

extern struct many_checks many_checks;

void make_trace(struct random *r);

#endif
