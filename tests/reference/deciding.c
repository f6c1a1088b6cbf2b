/* What a receiver decides, by either circuit. */
#include "parts.h"

#include <string.h>

/* ---- Which checks vote (document 02, R-6) ---- */

int touches_erased(const struct fields *card, const struct touched *check, const struct frame *received, int i,
                   long u)
{
    for (int b = 0; b <= card->m; b++)
        for (int s = 1; s <= card->n; s++)
            if (check->error[b][s] && received[u + b].erased[s] && !(b == 0 && s == i))
                return 1;
    return 0;
}

static int some_erased(const struct fields *card, const struct frame *received, long u)
{
    for (int b = 0; b <= card->m; b++)
        for (int s = 1; s <= card->n; s++)
            if (received[u + b].erased[s])
                return 1;
    return 0;
}

/* Most often nothing is erased, and what the check touches need not be worked out. */
int has_vote(const struct fields *card, const struct frame *received, int i, int q, long u)
{
    if (!some_erased(card, received, u))
        return 1;
    struct touched check = reference_touched(card, i, q);
    return !touches_erased(card, &check, received, i, u);
}

/* ---- The first circuit (document 01) ---- */

/* Decides the errors of frame u, all streams from the errors of earlier frames only, and gives the frame handed out. */
static struct frame decide_errors(const struct fields *card, const struct frame *received, struct frame *decided,
                                  long u)
{
    struct frame out;
    memset(&out, 0, sizeof out);
    memset(&decided[u], 0, sizeof decided[u]);
    for (int i = 1; i <= card->k; i++) {
        int votes = 0, ones = 0;
        for (int q = 1; q <= card->J[i]; q++)
            if (has_vote(card, received, i, q, u)) {
                votes++;
                ones += check_at(card, received, decided, i, q, u);
            }
        decided[u].digit[i] = 2 * ones > votes ? 1 : 0;
        out.digit[i] = (received[u].digit[i] + decided[u].digit[i]) % 2;
    }
    return out;
}

/* ---- The second circuit (document 02, R-2) ---- */

/* The sum of the digits that enter a check on digit i at u by its pair (a, j), except that digit: the parity digit
 * at u + a, and the information digits that it was made of, decided ones for times before u. */
static int entering(const struct fields *card, const struct frame *received, const struct frame *decided, int i,
                    long u, int a, int j)
{
    int sum = received[u + a].digit[card->k + j];
    for (int s = 1; s <= card->k; s++)
        for (int l = 0; l <= card->m; l++) {
            long time = u + a - l;
            if (card->g[s][j][l] && time >= 0 && !(time == u && s == i))
                sum += time < u ? decided[time].digit[s] : received[time].digit[s];
        }
    return sum % 2;
}

/* The vote of check q on digit i at u. */
static int vote(const struct fields *card, const struct frame *received, const struct frame *decided, int i, int q,
                long u)
{
    int sum = 0;
    for (int j = 1; j <= card->p; j++)
        for (int a = 0; a <= card->m; a++)
            if (card->check[i][q][j][a])
                sum += entering(card, received, decided, i, u, a, j);
    return sum % 2;
}

/* Digit i at u: the majority of its checks' votes, the received digit if there are as many for 0 as for 1, none at all
 * included. */
static int digit_by_votes(const struct fields *card, const struct frame *received, const struct frame *decided, int i,
                          long u)
{
    int for_1 = 0, for_0 = 0;
    for (int q = 1; q <= card->J[i]; q++) {
        if (!has_vote(card, received, i, q, u))
            continue;
        if (vote(card, received, decided, i, q, u))
            for_1++;
        else
            for_0++;
    }
    return for_1 > for_0 ? 1 : for_0 > for_1 ? 0 : received[u].digit[i];
}

/* Decides the digits of frame u, which is the frame handed out. Until all are, none of them stands in `decided`. */
static struct frame decide_digits(const struct fields *card, const struct frame *received, struct frame *decided,
                                  long u)
{
    struct frame out;
    memset(&out, 0, sizeof out);
    for (int i = 1; i <= card->k; i++)
        out.digit[i] = digit_by_votes(card, received, decided, i, u);
    decided[u] = out;
    return out;
}

/* ---- Both circuits ---- */

struct frame decide(enum circuit circuit, const struct fields *card, const struct frame *received,
                    struct frame *decided, long u)
{
    return circuit == TYPE_I ? decide_errors(card, received, decided, u) : decide_digits(card, received, decided, u);
}
