/* What comes out as sent: the condition is that of document 02's R-6. */
#include "parts.h"

#include <stdlib.h>
#include <string.h>

/* A received frame, some of its digits erased: they enter as 0, whatever the byte has in their place. */
static struct frame frame_with_erased(uint8_t byte, uint8_t erased)
{
    struct frame frame = frame_of_byte(byte), marks = frame_of_byte(erased);
    for (int s = 1; s <= MOST_STREAMS; s++)
        if (marks.digit[s]) {
            frame.digit[s] = 0;
            frame.erased[s] = 1;
        }
    return frame;
}

static struct frame *frames_with_erased(const uint8_t *bytes, const uint8_t *erased, long count)
{
    struct frame *frames = allocate((size_t)count, sizeof *frames);
    for (long u = 0; u < count; u++)
        frames[u] = frame_with_erased(bytes[u], erased == NULL ? 0 : erased[u]);
    return frames;
}

/* The digits that came otherwise are any: they don't tell whether a check votes. */
int reference_votes(const struct fields *card, const uint8_t *erased, int i, long u)
{
    struct frame *received = frames_with_erased(erased + u, erased + u, card->m + 1);
    int votes = 0;
    for (int q = 1; q <= card->J[i]; q++)
        votes += has_vote(card, received, i, q, 0);
    free(received);
    return votes;
}

/* Adds the errors that one check touches to those that others do, so that each counts once. */
static void add_touched(const struct fields *card, const struct touched *check, struct touched *all)
{
    for (int b = 0; b <= card->m; b++)
        for (int s = 1; s <= card->n; s++)
            if (check->error[b][s])
                all->error[b][s] = 1;
}

static int wrong_among(const struct fields *card, const struct touched *touched, const struct frame *sent,
                       const struct frame *received, long u)
{
    int wrong = 0;
    for (int b = 0; b <= card->m; b++)
        for (int s = 1; s <= card->n; s++)
            if (touched->error[b][s] && sent[u + b].digit[s] != received[u + b].digit[s])
                wrong++;
    return wrong;
}

/* The condition for digit i at u: the wrong digits among those that its voting checks touch, its own included even if
 * none votes, are at most half of the votes. */
static int digit_correctable(const struct fields *card, const struct touched by_check[], const struct frame *sent,
                             const struct frame *received, int i, long u)
{
    struct touched by_voting;
    memset(&by_voting, 0, sizeof by_voting);
    by_voting.error[0][i] = 1;
    int votes = 0;
    for (int q = 1; q <= card->J[i]; q++)
        if (!touches_erased(card, &by_check[q], received, i, u)) {
            votes++;
            add_touched(card, &by_check[q], &by_voting);
        }
    return wrong_among(card, &by_voting, sent, received, u) <= votes / 2;
}

/* The condition for digit i of every information frame. */
static int digits_correctable(const struct fields *card, const struct frame *sent, const struct frame *received, int i,
                              long count)
{
    struct touched by_check[MOST_CHECKS + 1];
    for (int q = 1; q <= card->J[i]; q++)
        by_check[q] = reference_touched(card, i, q);
    for (long u = 0; u < count; u++)
        if (!digit_correctable(card, by_check, sent, received, i, u))
            return 0;
    return 1;
}

int reference_correctable(const struct fields *card, const uint8_t *sent, const uint8_t *received,
                          const uint8_t *erased, long count)
{
    struct frame *as_sent = frames_with_erased(sent, NULL, count + card->m);
    struct frame *as_received = frames_with_erased(received, erased, count + card->m);
    int correctable = 1;
    for (int i = 1; i <= card->k && correctable; i++)
        correctable = digits_correctable(card, as_sent, as_received, i, count);
    free(as_sent);
    free(as_received);
    return correctable;
}
