#include "counts.h"

#include "rounds.h"

#include <stdio.h>

struct counts counts;
struct written written;
struct stating stating;
struct many_checks many_checks;
struct pairs pairs;
struct standard standard;
struct erased erased;

/* ---- What is printed ---- */

static void print_refused(const char *what, const struct calls *calls)
{
    printf("%s refused:", what);
    for (int number = 1; number < 32; number++)
        if (calls->refused[number])
            printf(" %d: %ld", number, calls->refused[number]);
    printf("\n");
}

static void print_written(void)
{
    printf("%ld cards written out, of %zu to %zu bytes; of these %ld had a zero generator, %ld a zero mask in a check, "
           "%ld k above 1, %ld p above 1, %ld k 1 and n 2\n",
           written.cards, written.shortest, written.longest, written.zero_generator, written.zero_check_mask,
           written.k_above_1, written.p_above_1, written.k_and_n_default);
}

static void print_stating(void)
{
    static const char *const ways[WAYS_OF_STATING] = {
        "k as 1", "n as 2", "both", "k, and n is cut off", "k, and n is out of range", "nothing yet, and cut off there",
        "n as 2, where it is out of range"};
    printf("cards made to state");
    for (int way = 0; way < WAYS_OF_STATING; way++)
        printf("%s %s: %ld", way == 0 ? "" : ";", ways[way], stating.ways[way]);
    printf("; %ld random ones stated a default; %ld rewritten\n", stating.random, stating.rewritten);
    printf("pairs of accepted cards: %ld equal, %ld not, %ld of them by the order of checks alone\n", pairs.equal,
           pairs.unequal, pairs.order_alone);
}

static void print_checks(void)
{
    printf("%ld streams by a card with J %d; cards good but for J", many_checks.most, MOST_CHECKS);
    for (int J = MOST_CHECKS + 1; J <= MOST_FORMER_CHECKS; J++)
        printf(" %d: %ld", J, many_checks.too_many[J]);
    printf("; %ld of them stated k as 1\n", many_checks.stated);
}

void print_counts(void)
{
    printf("%ld bursts, %ld calls of card_write; %ld cards, %ld of them accepted; refused:", counts.bursts.made,
           counts.writes.made, counts.cards, counts.cards_accepted);
    for (int number = 1; number <= HIGHEST_REFUSAL; number++)
        if (refuses_cards(number))
            printf(" %d: %ld", number, counts.cards_refused[number]);
    printf("\n");
    print_refused("bursts", &counts.bursts);
    print_refused("card_write", &counts.writes);
    print_written();
    print_stating();
    print_checks();
    printf("%ld calls of standard_card, %ld refused with 13; %ld J with a card, %ld without; %ld streams with as many "
           "wrong digits as they stand\n",
           standard.calls.made, standard.calls.refused[13], standard.cards, standard.none, standard.streams_at_limit);
    printf("%ld streams: %ld without a wrong digit, %ld corrected, %ld beyond (%ld with wrong digits had to come out as sent)\n",
           counts.streams, counts.clean, counts.corrected, counts.beyond, counts.correctable);
    printf("%ld of the streams received by the second circuit too, %ld of them beyond the correctable number\n",
           counts.by_second, counts.by_second_beyond);
    printf("%ld streams without erased digits by the reference's sessions and as bursts; %ld with, of which %ld had to "
           "come out as sent; %ld streams stood no further digit wrong or erased, and %ld of these were lost with it\n",
           erased.none, erased.streams, erased.correctable, erased.at_limit, erased.lost_beyond);
}

/* ---- Whether it is enough ---- */

/* Whether a burst can meet the refusal, and whether card_write can. The others are for sessions. */
static int met_by_bursts(int number)
{
    return refuses_cards(number) || number == 11 || number == 13 || number == 15;
}

static int met_by_card_write(int number)
{
    return refuses_cards(number) || number == 13;
}

static int wrote_enough(void)
{
    return written.cards >= 5000 && written.zero_generator >= 500 && written.zero_check_mask >= 500 &&
           written.k_above_1 >= 500 && written.p_above_1 >= 500 && written.k_and_n_default >= 500;
}

/* Few random cards state a default, and fewer pairs are equal: a change to the card maker must not lose them. */
static int stated_enough(void)
{
    int enough = stating.random >= 100 && stating.rewritten >= 300 && counts.cards_refused[18] >= 1000;
    for (int way = 0; way < WAYS_OF_STATING; way++)
        enough = enough && stating.ways[way] >= STATED_CARDS / WAYS_OF_STATING;
    return enough && pairs.equal >= 100 && pairs.unequal >= 1000 && pairs.order_alone >= 50;
}

/* The most checks that there may be, and one more. */
static int checks_enough(void)
{
    return many_checks.most >= 300 && many_checks.too_many[MOST_CHECKS + 1] >= 15 && many_checks.stated >= 30;
}

/* Up to the correctable number both circuits must give what was sent, so most streams are to be beyond it. */
static int second_tried_enough(void)
{
    return counts.by_second >= 3000 && 2 * counts.by_second_beyond > counts.by_second;
}

static int erased_enough(void)
{
    return erased.none >= ERASED_STREAMS && erased.correctable >= ERASED_STREAMS / 2 &&
           erased.streams - erased.correctable >= ERASED_STREAMS / 2 && erased.at_limit >= ERASED_STREAMS / 2 &&
           erased.lost_beyond > 0;
}

int tried_enough(void)
{
    int enough = 1;
    for (int number = 1; number <= HIGHEST_REFUSAL; number++)
        if ((met_by_bursts(number) && counts.bursts.refused[number] == 0) ||
            (met_by_card_write(number) && counts.writes.refused[number] == 0)) {
            printf("FAILED: refusal %d never occurred\n", number);
            enough = 0;
        }
    if (!wrote_enough()) {
        printf("FAILED: too few cards written, or too few of a kind\n");
        enough = 0;
    }
    if (written.shortest != LEAST_CARD_BYTES || written.longest != MOST_CARD_BYTES) {
        printf("FAILED: the cards written have %zu to %zu bytes, and should have %d to %d\n", written.shortest,
               written.longest, LEAST_CARD_BYTES, MOST_CARD_BYTES);
        enough = 0;
    }
    if (!stated_enough()) {
        printf("FAILED: too few cards that state a default, or too few pairs\n");
        enough = 0;
    }
    if (!checks_enough()) {
        printf("FAILED: too few cards with the most checks, or with more\n");
        enough = 0;
    }
    if (!second_tried_enough()) {
        printf("FAILED: too few streams for the second circuit, or not most of them beyond the correctable number\n");
        enough = 0;
    }
    if (!erased_enough()) {
        printf("FAILED: too few streams with erased digits, or too few of a kind\n");
        enough = 0;
    }
    if (standard.cards != MOST_STANDARD_CHECKS - LEAST_STANDARD_CHECKS + 1 || standard.none < STANDARD_CARDS ||
        standard.calls.refused[13] == 0) {
        printf("FAILED: not every standard card was tried, or too few J without one\n");
        enough = 0;
    }
    if (standard.longest != MOST_STANDARD_CARD_BYTES) {
        printf("FAILED: the longest standard card has %d bytes, and should have %d\n", (int)standard.longest,
               MOST_STANDARD_CARD_BYTES);
        enough = 0;
    }
    if (counts.cards < 20000 || counts.streams < 5000 || counts.corrected < 500 || counts.beyond < 500) {
        printf("FAILED: too few cards or streams\n");
        enough = 0;
    }
    return enough;
}
