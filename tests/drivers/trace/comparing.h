/* Comparing what the program wrote: with the reference, of the two receivers with each other, and with what was sent. */
#ifndef COMPARING_H
#define COMPARING_H

#include "trace.h"

/* What both receivers wrote alike, and of which streams. Of the calls, those by a byte here and by levels outside the
 * band there, and those by unlike readings. */
struct alike {
    long calls, frames;
    long byte_and_levels, unlike_readings;
    long streams, streams_beyond, stream_frames, stream_frames_beyond;
};

/* The streams received whole: those that came out as sent, as they had to; of those with erased digits, the ones that
 * did and the ones that were beyond the correctable number. And in the latter two: decisions in which a check did not
 * vote, and in which none did; and information digits 1 that were erased and had to come out. Of all that had to come
 * out, the digits erased by a level. */
struct whole_streams {
    long as_sent;
    long erased_as_sent, erased_beyond, erased_by_level;
    long some_silent, all_silent;
    long restored;
};

extern struct alike alike;
extern struct whole_streams whole_streams;

int as_the_reference(const struct text *written, const struct text *right);

/* Call by call, as long as the calls of both sessions are the same: so must be what the program wrote for them. In a
 * stream they are the same frames, whatever their form. */
int as_each_other(const struct text *written);

/* The third term: a stream that is received whole, and not beyond the correctable number, comes out as sent. */
int as_it_must(const struct text *written);

#endif
