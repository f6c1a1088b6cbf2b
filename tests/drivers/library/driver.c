/* Sets the library (libburst.a, by include/burst.h) against the reference: random and damaged cards, each also
 * written out, cards that state a default, cards with too many checks, standard cards, random bursts with few, many and
 * only wrong digits, every output size around the count. Each call's answer, every output byte, the guard bytes around
 * each lent buffer, and the card and input themselves are compared. What the library receives by the first circuit is
 * also set against the reference's second one, on streams most of which are beyond the correctable number. Bursts carry
 * no erased digits: on those the reference's sessions alone are set against each other, and what comes out of them against
 * what was sent. What its readings yield is set against a table, and levels outside the band against the same frames as
 * bytes.
 *
 *     driver               everything, with the seed that is always the same
 *     driver SEED          everything, with another seed
 *     driver SEED ROUND    one round again: a failure prints both numbers
 *
 * Status 0: all agreed, every refusal that a burst or a card written out can meet was met, and every standard card was
 * tried. */
#include "calls.h"
#include "counts.h"
#include "rounds.h"

#include <stdio.h>
#include <stdlib.h>

/* Round by round, so that each can be run alone: its random numbers depend on the seed and its own number only. */
static int run_round(long round)
{
    struct random r = {now.seed * 1000003u + (uint64_t)round};
    now.round = round;
    long turn = round;
    if (turn < RANDOM_CARDS)
        return random_card_round(&r), 1;
    turn -= RANDOM_CARDS;
    if (turn < STATED_CARDS)
        return stated_card_round(&r, (enum stated)(turn % WAYS_OF_STATING)), 1;
    turn -= STATED_CARDS;
    if (turn < MANY_CHECKS)
        return many_checks_round(&r), 1;
    turn -= MANY_CHECKS;
    if (turn < PAIRS)
        return pair_round(&r), 1;
    turn -= PAIRS;
    if (turn < DAMAGED_CARDS)
        return damaged_card_round(&r, (int)turn), 1;
    turn -= DAMAGED_CARDS;
    if (turn < 8)
        return every_length_round(&r, (int)turn), 1;
    turn -= 8;
    if (turn < 2)
        return limit_round(&r, "PT"[turn]), 1;
    turn -= 2;
    if (turn == 0)
        return bench_round(&r), 1;
    if (turn == 1)
        return longest_card_round(&r), 1;
    turn -= 2;
    if (turn < ERASED_STREAMS)
        return erased_round(&r, (int)turn), 1;
    turn -= ERASED_STREAMS;
    uint32_t checks;
    if (checks_of_turn(turn, &checks))
        return standard_card_round(&r, checks), 1;
    return 0;
}

int main(int argc, char **argv)
{
    now.seed = argc > 1 ? strtoull(argv[1], NULL, 10) : 1;
    begin_calls();
    if (argc > 2) {
        run_round(strtol(argv[2], NULL, 10));
        print_counts();
        return 0;
    }
    printf("seed %llu\n", (unsigned long long)now.seed);
    for (long round = 0; run_round(round); round++)
        ;
    print_counts();
    return tried_enough() ? 0 : 1;
}
