/* Two more yardsticks of tests/speed, for cards with k 1 and n 2 alone, as most are. Both trust a card that plain_read has
 * accepted, and answer as plain_send and plain_receive do.
 *
 * The specialised C is what a firmware author would write for such a card: plain.c without its loops over streams.
 *
 * The best C is the fastest all round that we know of those that take a frame at a time. (Eight at a time, in a register of
 * 2m + 9 places, take half as long on a clean link, and a tenth to a quarter longer where digits come wrong.) */
#ifndef PLAIN_ONE_H
#define PLAIN_ONE_H

#include "plain.h"

long specialised_send(const struct plain_card *card, const uint8_t *in, size_t count, uint8_t *out);
long specialised_receive(const struct plain_card *card, const uint8_t *in, size_t count, uint8_t *out);

long best_send(const struct plain_card *card, const uint8_t *in, size_t count, uint8_t *out);
long best_receive(const struct plain_card *card, const uint8_t *in, size_t count, uint8_t *out);

#endif
