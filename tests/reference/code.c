/* The code and its checks (document 01, "The code", "Checks"). */
#include "parts.h"

#include <string.h>

/* An information error (b, i) is in the syndrome s(a, j) if g(i, j, a - b) is 1; the check is the sum of its
 * syndromes, and touches the errors that are in an odd number of them. */
struct touched reference_touched(const struct fields *card, int i, int q)
{
    struct touched touched;
    memset(&touched, 0, sizeof touched);
    for (int j = 1; j <= card->p; j++)
        for (int a = 0; a <= card->m; a++) {
            if (!card->check[i][q][j][a])
                continue;
            touched.error[a][card->k + j] = 1;
            for (int stream = 1; stream <= card->k; stream++)
                for (int b = 0; b <= a; b++)
                    touched.error[b][stream] += card->g[stream][j][a - b];
        }
    for (int b = 0; b <= card->m; b++)
        for (int stream = 1; stream <= card->k; stream++)
            touched.error[b][stream] %= 2;
    return touched;
}

/* Parity stream j at u, from the information digits of the frames; those before time 0 are zero. */
static int parity(const struct fields *card, const struct frame *frames, long u, int j)
{
    int sum = 0;
    for (int i = 1; i <= card->k; i++)
        for (int a = 0; a <= card->m; a++)
            if (u - a >= 0)
                sum += card->g[i][j][a] * frames[u - a].digit[i];
    return sum % 2;
}

int syndrome(const struct fields *card, const struct frame *received, long u, int j)
{
    return (received[u].digit[card->k + j] + parity(card, received, u, j)) % 2;
}

int cleared(const struct fields *card, const struct frame *received, const struct frame *decided, long now,
            long u, int j)
{
    int sum = syndrome(card, received, u, j);
    for (int i = 1; i <= card->k; i++)
        for (int a = 0; a <= card->m; a++)
            if (u - a >= 0 && u - a < now)
                sum += card->g[i][j][a] * decided[u - a].digit[i];
    return sum % 2;
}

int check_at(const struct fields *card, const struct frame *received, const struct frame *decided, int i, int q,
             long u)
{
    int sum = 0;
    for (int j = 1; j <= card->p; j++)
        for (int a = 0; a <= card->m; a++)
            if (card->check[i][q][j][a])
                sum += cleared(card, received, decided, u, u + a, j);
    return sum % 2;
}

void add_parity(const struct fields *card, struct frame *frames, long u)
{
    for (int j = 1; j <= card->p; j++)
        frames[u].digit[card->k + j] = parity(card, frames, u, j);
}
