/* A Viterbi decoder beside the threshold receiver: that of libfec, for its code of rate 1/2 and constraint length 7. It is
 * compiled only where libfec is installed. */
#ifndef VITERBI_H
#define VITERBI_H

#include "inputs/random.h"

#include <stddef.h>
#include <stdint.h>

enum { VITERBI_MOST_DIGITS = 65536 };

/* Sends so many information digits, one a byte, at most VITERBI_MOST_DIGITS; one in `times` of the digits sent comes wrong,
 * or none if that is 0. */
void viterbi_send(struct random *r, const uint8_t *information, size_t count, int times);

/* Decodes what was sent last. Gives the count of information digits. */
size_t viterbi_decode(void);

/* Whether the digits that were decoded last are those that were sent. */
int viterbi_came_as_sent(void);

#endif
