/* The cards that tests/speed measures by. */
#ifndef SUBJECTS_H
#define SUBJECTS_H

#include "inputs/cards.h"

struct subject {
    const char *name;
    uint8_t card[MOST_CARD_BYTES];
    size_t card_length;
    struct fields fields;
};

enum { SUBJECTS = 8 };

extern struct subject subjects[SUBJECTS];

/* Works out their cards. */
void open_subjects(void);

/* P, R, J8m21 and the card of 755 bytes. */
int is_main(const struct subject *s);

/* One information and one parity stream. */
int has_one_of_each(const struct subject *s);

/* The card of 755 bytes. */
int is_longest(const struct subject *s);

#endif
