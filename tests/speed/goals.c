#include "goals.h"

#include <stdio.h>

enum bound { AT_MOST, BELOW, AT_LEAST };

static struct {
    const char *text;
    enum bound bound;
    double limit, worst;
    int figures;
    char row[64];
} goals[GOALS] = {
    [BEST_SENDING] = {"at most 1.3 times the best C (k 1, n 2, from 65,536 frames on): sending", AT_MOST, 1.3, 0, 0, ""},
    [BEST_CLEAN] = {"  the same: receiving on a clean link", AT_MOST, 1.3, 0, 0, ""},
    [BEST_FEW_WRONG] = {"  the same: receiving, 1 in 50 wrong", AT_MOST, 1.3, 0, 0, ""},
    [BEST_MANY_WRONG] = {"  the same: receiving, 1 in 10 wrong", AT_MOST, 1.3, 0, 0, ""},
    [SPECIALISED] = {"below the specialised C (k 1, n 2, from 65,536 frames on)", BELOW, 1, 0, 0, ""},
    [SPECIALISED_MANY_WRONG] = {"  the same: receiving, 1 in 10 wrong", BELOW, 1, 0, 0, ""},
    [LONGEST_CARD] = {"at most 0.7 times the generic C (755 B, from 65,536 frames on)", AT_MOST, 0.7, 0, 0, ""},
    [VITERBI] = {"at least ten times faster than the Viterbi decoder", AT_LEAST, 10, 0, 0, ""},
    [SESSION] = {"a frame of a session under 60 ns", BELOW, 60, 0, 0, ""},
};

void note(enum goal goal, double figure, const char *subject, const char *row)
{
    int worse = goals[goal].bound == AT_LEAST ? figure < goals[goal].worst : figure > goals[goal].worst;
    if (goals[goal].figures++ != 0 && !worse)
        return;
    goals[goal].worst = figure;
    snprintf(goals[goal].row, sizeof goals[goal].row, "%s, %s", subject, row);
}

static int holds(enum bound bound, double figure, double limit)
{
    switch (bound) {
    case AT_MOST:
        return figure <= limit;
    case BELOW:
        return figure < limit;
    default:
        return figure >= limit;
    }
}

void print_goals(void)
{
    printf("\n%-72s %8s  %s\n", "goals", "worst", "row");
    for (int g = 0; g < GOALS; g++) {
        if (goals[g].figures == 0)
            printf("%-72s %8s\n", goals[g].text, "-");
        else
            printf("%-72s %8.2f  %-46s %s\n", goals[g].text, goals[g].worst, goals[g].row,
                   holds(goals[g].bound, goals[g].worst, goals[g].limit) ? "holds" : "does not hold");
    }
}
