/* Streams under an accepted card: sent and received as bursts, with wrong digits. */
#ifndef STREAMS_H
#define STREAMS_H

#include "calls.h"

/* A stream: its information frames, and the `whole` frames sent for them, tail included, and received. Which digits are
 * erased, as for the reference's reference_correctable, is for sessions. */
struct transmission {
    long count, whole;
    uint8_t information[LONGEST_STREAM];
    uint8_t sent[LONGEST_STREAM + MOST_MEMORY], received[LONGEST_STREAM + MOST_MEMORY];
    uint8_t erased[LONGEST_STREAM + MOST_MEMORY];
};

void random_frames(struct random *r, int streams, uint8_t *frames, long count);

/* Makes digits of the frames wrong; 0 leaves them, 1000 takes all. */
void damage(struct random *r, int streams, int in_thousand, uint8_t *frames, long count);

/* Makes digits wrong that the checks of one digit touch: as many as they can stand, or one more. */
void damage_touched(struct random *r, const struct fields *fields, uint8_t *frames, long count);

/* A number of frames around which things may go wrong, and sometimes any: below LONGEST_STREAM. */
long length_around(struct random *r, int memory);

/* Both calls once more, with every output size around the count: one short of it is 13. */
void sizes_around(struct random *r, enum direction direction, const uint8_t *card, size_t card_length,
                  const uint8_t *input, long input_length, long count);

/* Received frames that nobody sent, some with a digit beyond their streams, and outputs that may be too short. */
void any_frames(struct random *r, const struct fields *fields, const uint8_t *card, size_t card_length);

/* Random information sent; no digit is wrong or erased as yet. */
void send_stream(struct random *r, const struct fields *fields, const uint8_t *card, size_t card_length, long count,
                 struct transmission *t);

/* A stream with wrong digits, anywhere or among those that one digit's checks touch. */
void stream(struct random *r, const struct fields *fields, const uint8_t *card, size_t card_length);

/* A stream with as many wrong digits as it stands, random ones until a further one is too many; then with that one. */
void stream_at_limit(struct random *r, const struct fields *fields, const uint8_t *card, size_t card_length);

#endif
