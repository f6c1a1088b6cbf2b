/* Cards written out, and cards that state a default. */
#ifndef WRITTEN_H
#define WRITTEN_H

#include "inputs/random.h"
#include "reference/reference.h"

/* An accepted card written into so much room: its own bytes come out, or 13. */
void write_into(struct random *r, size_t room, const uint8_t *card, size_t length);

/* An accepted card goes out as it stands: what must go out is known from its bytes, whatever the reference writes. */
void write_out(struct random *r, const struct fields *fields, const uint8_t *card, size_t length);

/* A card's bytes, refused with this number by every call, or accepted for 0; the place is the reference's alone. */
void expect_bytes(struct random *r, const uint8_t *card, size_t length, int refusal, size_t offset);

/* A stored card's bytes that are not rewritten, since the former rule refuses them too: by this number at this place. */
void expect_not_rewritten(const uint8_t *card, size_t length, int refusal, size_t offset);

/* A card as it was stored before R-4 is refused as it is. Rewritten it is an accepted card, and the one that it was. What
 * rewriting must give is known from the bytes: those that are left when the stated defaults are cut out. */
void rewrite_stored(struct random *r, const uint8_t *card, size_t length);

#endif
