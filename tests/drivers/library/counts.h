/* What was tried, and whether it was enough. */
#ifndef COUNTS_H
#define COUNTS_H

#include "inputs/cards.h"

struct calls {
    long made;
    long refused[32]; /* by the refusal's number */
};

struct counts {
    struct calls bursts, writes;
    long cards, cards_accepted, streams, clean, corrected, beyond, correctable;
    long by_second, by_second_beyond; /* streams received by the second circuit too; beyond the correctable number */
    long cards_refused[32]; /* cards, by the refusal's number */
};

/* The accepted cards that were written out, and those among them on which a writer is most likely to go wrong. */
struct written {
    long cards, zero_generator, zero_check_mask, k_above_1, p_above_1, k_and_n_default;
    size_t shortest, longest;
};

/* The cards made to state a default or to come near to it; random ones that are refused and were cards before document
 * 02's R-4; and how many of both were rewritten. */
struct stating {
    long ways[WAYS_OF_STATING];
    long random, rewritten;
};

/* Streams by a card with the most checks; cards that are good but for having more, by their J, and those of them that
 * state k as 1. */
struct many_checks {
    long most;
    long too_many[MOST_FORMER_CHECKS + 1];
    long stated;
};

/* Pairs of accepted cards. */
struct pairs {
    long equal, unequal, order_alone; /* of the unequal, by the order of checks alone */
};

/* Standard cards: each J that has one or has none, and the streams with as many wrong digits as they stand. */
struct standard {
    struct calls calls;
    long cards, none, streams_at_limit;
    int32_t longest;
};

/* Streams for the reference's sessions: those without an erased digit that were set against bursts; those with one, and
 * of them those that had to come out as sent; and those that stood no further digit wrong or erased, and were lost with
 * that one. */
struct erased {
    long none, streams, correctable, at_limit, lost_beyond;
};

extern struct counts counts;
extern struct written written;
extern struct stating stating;
extern struct many_checks many_checks;
extern struct pairs pairs;
extern struct standard standard;
extern struct erased erased;

void print_counts(void);

/* A run that did not try everything is no proof of agreement. */
int tried_enough(void);

#endif
