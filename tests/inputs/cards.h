/* Link cards for the tests: those of the bench, standard ones, random ones, and their bytes. */
#ifndef CARDS_H
#define CARDS_H

#include "random.h"
#include "reference/reference.h"

/* A card of the bench: 'P', 'Q', 'R' or 'T'. */
void bench_card(char name, struct fields *card);

/* The standard card with J checks, 2 to 7, by the terms that document 02's R-5 names: nothing is generated here. */
void standard_fields(int J, struct fields *card);

/* One with eight checks and m 21, of Table II of the report: in each syndrome's place, the check that it goes to, 0 for none. */
void eight_checks_card(struct fields *card);

/* A random card within the limits whose checks are orthogonal: random checks, kept where they do not clash. */
void random_card(struct random *r, struct fields *card);

/* The same, of a given shape and with up to `most` checks a stream; terms is the most terms of a generator. */
void random_card_of_shape(struct random *r, int k, int n, int m, int most, int terms, struct fields *card);

/* An accepted card of MOST_CARD_BYTES bytes. */
void longest_card(struct fields *card);

/* Makes the card one that is most likely refused: with 8 or 9, or for a field out of its range. */
void spoil_card(struct random *r, struct fields *card);

/* Makes an accepted card another one that is accepted too: with another number, a larger m, a check less, or two
 * checks in each other's place. Gives 1 for the last, which changes the order of checks alone. */
int vary_card(struct random *r, struct fields *card);

/* The card's bytes, at most MOST_CARD_BYTES for a card within the limits; k and n are left out where
 * they are the default and not asked for. So a card for use is made with 0, 0; asked for, a default makes it one as
 * it may have been stored before document 02's R-4, which is refused now. Gives the count. */
size_t card_bytes(const struct fields *card, int state_k, int state_n, uint8_t *bytes);

/* A card's bytes that state a default or come near to it, and the answer that reading them has to give. */
struct stated_card {
    uint8_t bytes[MOST_CARD_BYTES];
    size_t length;
    struct card_answer answer;
};

/* In which way. */
enum stated {
    K_STATED,            /* as 1 */
    N_STATED,            /* as 2 */
    BOTH_STATED,         /* so */
    K_STATED_N_CUT,      /* the card ends after k, where n should be */
    K_STATED_N_BEYOND,   /* n out of its range */
    FIELD_CUT,           /* by the map k stands, or n, and the card ends before it */
    N_STATED_UNDER_K,    /* as 2, with k above 1 */
    WAYS_OF_STATING
};

/* A random card stated in that way; `card` is the card that it was before R-4, if it was one (the first three). */
void random_stated_card(struct random *r, enum stated way, struct fields *card, struct stated_card *stated);

enum { MOST_FORMER_CHECKS = 16 }; /* before document 02's R-13 */

/* A card's bytes with more than MOST_CHECKS checks for its last information stream, MOST_FORMER_CHECKS at most. The
 * checks are good ones: with the first MOST_CHECKS of them it is a card, but for k where it is stated as 1. */
struct many_checks_card {
    uint8_t bytes[MOST_CARD_BYTES];
    size_t length;
    size_t place;      /* of that stream's J */
    size_t up_to_most; /* the length up to the last check that it may have */
};

/* One with eleven checks, k 1 and n 8. J is at byte 34, or with k stated at 35, and each check has five bytes. */
void eleven_checks_card(int state_k, struct many_checks_card *many);

/* Any. k is 1 most often, and then stated as often as not. */
void random_many_checks_card(struct random *r, struct many_checks_card *many);

/* Leaves it the first MOST_CHECKS of its checks. */
void leave_most_checks(struct many_checks_card *many);

/* Whether an information stream of the card has MOST_CHECKS checks. */
int has_most_checks(const struct fields *card);

/* Whether a generator of the card is zero, and whether a check has a mask that is. */
int has_zero_generator(const struct fields *card);
int has_zero_check_mask(const struct fields *card);

/* Of the bytes of a card that was accepted before R-4: whether they state k as 1, and n as 2. */
int states_default_k(const uint8_t *card);
int states_default_n(const uint8_t *card);

/* Its bytes with the defaults that they state cut out, at most as many. Gives the count. */
size_t without_defaults(const uint8_t *card, size_t length, uint8_t *bytes);

/* Whether a card can be refused with this number: 1 to 10, and 18. */
int refuses_cards(int number);

enum { HIGHEST_REFUSAL = 18 };

#endif
