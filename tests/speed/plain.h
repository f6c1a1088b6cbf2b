/* A yardstick of tests/speed, its generic C: a card reader, a sender and a threshold decoder as a firmware author would
 * write them in C, with shift registers and masks. The reader (plain_card.c) makes every test of document 01, in its order;
 * the sender and the decoder (plain.c) trust the card that it has accepted. */
#ifndef PLAIN_H
#define PLAIN_H

#include "burst.h"

#include <stddef.h>
#include <stdint.h>

/* Masks that don't stand on the card, and all places beyond its streams and checks, are zero. */
struct plain_card {
    int number, k, p, m;
    uint32_t generators[4][7];
    int counts[4];
    uint32_t checks[4][BURST_MOST_CHECKS][7];
};

/* 0, or the number of the refusal, 1 to 10 or 18, and its byte offset. A refused card is not to be used. */
int plain_read(const uint8_t *bytes, size_t length, struct plain_card *card, size_t *offset);

/* Whether a frame has a digit beyond so many streams. */
int any_beyond(const uint8_t *in, size_t count, int streams);

/* As burst_send and burst_receive, for an output that is long enough; -1 for a digit beyond the frame's streams. */
long plain_send(const struct plain_card *card, const uint8_t *in, size_t count, uint8_t *out);
long plain_receive(const struct plain_card *card, const uint8_t *in, size_t count, uint8_t *out);

#endif
