/* The rounds of a run, and how many there are of a kind. */
#ifndef ROUNDS_H
#define ROUNDS_H

#include "inputs/cards.h"

enum {
    RANDOM_CARDS = 8000,  /* rounds with a random card, each with streams if the card is accepted */
    STATED_CARDS = 700,   /* rounds with a card that states a default, in each way as often */
    MANY_CHECKS = 150,    /* rounds with a card that has more checks than it may */
    PAIRS = 1000,         /* rounds with two cards, equal or not */
    DAMAGED_CARDS = 24,   /* rounds in which every byte of a card is changed, and it is cut and extended everywhere */
    STANDARD_CARDS = 41,  /* rounds with a J from 0 on: a standard card, or none */
    ERASED_STREAMS = 600  /* rounds with streams that have erased digits, for the reference's sessions */
};

/* ---- rounds.c ---- */

void random_card_round(struct random *r);

/* A card that states a default, or comes near to it, is refused as it must be, and before anything in a burst is. */
void stated_card_round(struct random *r, enum stated way);

/* A card that is good but for its number of checks, and k where it is stated; then with as many checks as it may have. */
void many_checks_round(struct random *r);

/* A card, and another that is made by changing some of its fields, or none and by being stored and rewritten. */
void pair_round(struct random *r);

/* The bench's cards, as they are and with their defaults stated, and others. */
void damaged_card_round(struct random *r, int turn);

/* A card of the most bytes that one within the limits can have: k 4, n 8, every mask standing, J 10. And faults in it,
 * most of them far behind its first byte. */
void longest_card_round(struct random *r);

/* Bursts of every length from 0 to well beyond m, both ways, on every card of the bench and on large cards, which are
 * written out as well. */
void every_length_round(struct random *r, int turn);

/* Bursts around 1,048,576 frames: 15 by length, before 13 and 11. */
void limit_round(struct random *r, char name);

/* ---- cases.c ---- */

/* The bench's own cases. */
void bench_round(struct random *r);

/* ---- erased.c ---- */

/* Streams under a random card, or under a standard one. */
void erased_round(struct random *r, int turn);

/* ---- standard.c ---- */

/* Each J from 0 on; then others, most of which would have a card if they were cut to fewer digits. Gives 0 when there are
 * no more. */
int checks_of_turn(long turn, uint32_t *checks);

int has_standard_card(uint32_t checks);

/* A J, with every output size from none to more than enough; and its card, if there is one. */
void standard_card_round(struct random *r, uint32_t checks);

#endif
