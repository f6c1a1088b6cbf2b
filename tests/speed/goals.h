/* The goals for the speed of the library (base 7), and how a run of tests/speed stands to them. */
#ifndef GOALS_H
#define GOALS_H

enum goal {
    BEST_SENDING, /* library to best C */
    BEST_CLEAN,
    BEST_FEW_WRONG,  /* 1 in 50 */
    BEST_MANY_WRONG, /* 1 in 10 */
    SPECIALISED,     /* library to specialised C */
    SPECIALISED_MANY_WRONG,
    LONGEST_CARD, /* library to generic C */
    VITERBI, /* Viterbi decoder to library */
    SESSION, /* ns a frame */
    GOALS
};

/* A figure of the run that the goal speaks of, and the row that it stands in. */
void note(enum goal goal, double figure, const char *subject, const char *row);

/* The worst figure for each, and whether it holds. */
void print_goals(void);

#endif
