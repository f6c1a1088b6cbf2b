#include "plain_one.h"

#include <string.h>

/* As any_beyond, eight frames at a time. */
static int any_word_beyond(const uint8_t *in, size_t count, int streams)
{
    uint64_t any = 0, frames;
    size_t u = 0;
    for (; count - u >= sizeof frames; u += sizeof frames) {
        memcpy(&frames, in + u, sizeof frames);
        any |= frames;
    }
    for (; u < count; u++)
        any |= in[u];
    return (any & 0x0101010101010101u * (0xffu << streams & 0xff)) != 0;
}

/* ---- Sending ---- */

/* One register of the parity still to come: bit a is due a frames after the one sent. */
long best_send(const struct plain_card *card, const uint8_t *in, size_t count, uint8_t *out)
{
    uint32_t coming = 0, put[2] = {0, card->generators[0][0]};
    size_t whole = count + (size_t)card->m;
    if (any_word_beyond(in, count, 1))
        return -1;
    for (size_t u = 0; u < count; u++) {
        coming = coming >> 1 ^ put[in[u]];
        out[u] = (uint8_t)(in[u] | (coming & 1) << 1);
    }
    for (size_t u = count; u < whole; u++) {
        coming >>= 1;
        out[u] = (uint8_t)((coming & 1) << 1);
    }
    return (long)whole;
}

/* ---- Receiving ---- */

/* What a byte of syndromes adds to the votes: bit q is that of check q. The votes of all syndromes are the exclusive or of
 * those of their bytes. */
struct votes {
    uint16_t by_byte[4][256];
};

static void tabulate_four(const uint16_t votes_of[4], uint16_t by_digits[16])
{
    by_digits[0] = 0;
    for (int a = 0; a < 4; a++)
        for (int d = 0; d < 1 << a; d++)
            by_digits[(1 << a) + d] = by_digits[d] ^ votes_of[a];
}

/* By halves, since the compiler then makes vectors of it, and a burst may be short. */
static void tabulate_byte(const uint16_t votes_of[8], uint16_t by_digits[256])
{
    uint16_t low[16], high[16];
    tabulate_four(votes_of, low);
    tabulate_four(votes_of + 4, high);
    for (int h = 0; h < 16; h++)
        for (int l = 0; l < 16; l++)
            by_digits[16 * h + l] = high[h] ^ low[l];
}

static void tabulate_votes(const struct plain_card *card, struct votes *votes)
{
    uint16_t votes_of[32] = {0}; /* a syndrome is in one check at most, since they are orthogonal */
    for (int q = 0; q < card->counts[0]; q++)
        for (uint32_t check = card->checks[0][q][0]; check != 0; check &= check - 1)
            votes_of[__builtin_ctz(check)] = (uint16_t)(1u << q);
    for (int b = 0; b < 4; b++) {
        if (8 * b <= card->m)
            tabulate_byte(votes_of + 8 * b, votes->by_byte[b]);
        else
            votes->by_byte[b][0] = 0; /* the only one that will be looked up */
    }
}

#define ONES_OF_TWO(o) o, o + 1, o + 1, o + 2
#define ONES_OF_FOUR(o) ONES_OF_TWO(o), ONES_OF_TWO(o + 1), ONES_OF_TWO(o + 1), ONES_OF_TWO(o + 2)
#define ONES_OF_SIX(o) ONES_OF_FOUR(o), ONES_OF_FOUR(o + 1), ONES_OF_FOUR(o + 1), ONES_OF_FOUR(o + 2)

/* In a byte. Not every x86-64 has an instruction for it. */
static const uint8_t ones[256] = {ONES_OF_SIX(0), ONES_OF_SIX(1), ONES_OF_SIX(1), ONES_OF_SIX(2)};

static inline int majority(const struct votes *votes, int half, uint32_t syndromes)
{
    unsigned cast = votes->by_byte[0][syndromes & 255] ^ votes->by_byte[1][syndromes >> 8 & 255] ^
                    votes->by_byte[2][syndromes >> 16 & 255] ^ votes->by_byte[3][syndromes >> 24];
    return ones[cast & 255] + ones[cast >> 8] > half;
}

/* What each frame adds to the register below. */
static void tabulate_frames(const struct plain_card *card, uint64_t put[4])
{
    for (unsigned frame = 0; frame < 4; frame++)
        put[frame] = ((frame & 1 ? card->generators[0][0] : 0) ^ (uint64_t)(frame >> 1)) << card->m;
}

/* One register of 2m + 1 places: bits 0 to m are the syndromes, bit a that of a frames after the one decided, and those
 * above are the parity still to come. No vote is taken while the syndromes are zero. */
long best_receive(const struct plain_card *card, const uint8_t *in, size_t count, uint8_t *out)
{
    uint64_t generator = card->generators[0][0], syndromes = ((uint64_t)2 << card->m) - 1, places = 0, put[4];
    size_t m = (size_t)card->m;
    int half = card->counts[0] / 2;
    struct votes votes;
    if (any_word_beyond(in, count, 2))
        return -1;
    if (count <= m)
        return 0;
    tabulate_votes(card, &votes);
    tabulate_frames(card, put);
    for (size_t u = 0; u < m; u++)
        places = places >> 1 ^ put[in[u]];
    for (size_t u = 0; u < count - m; u++) {
        places = places >> 1 ^ put[in[u + m]];
        out[u] = in[u] & 1;
        if (places & syndromes && majority(&votes, half, (uint32_t)(places & syndromes))) {
            places ^= generator;
            out[u] ^= 1;
        }
    }
    return (long)(count - m);
}
