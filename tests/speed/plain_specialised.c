#include "plain_one.h"

long specialised_send(const struct plain_card *card, const uint8_t *in, size_t count, uint8_t *out)
{
    uint32_t history = 0, generator = card->generators[0][0]; /* bit a of the history: the digit a frames ago */
    size_t whole = count + (size_t)card->m;
    if (any_beyond(in, count, 1))
        return -1;
    for (size_t u = 0; u < whole; u++) {
        unsigned digit = u < count ? in[u] : 0;
        history = history << 1 | digit;
        out[u] = (uint8_t)(digit | (unsigned)__builtin_parity(history & generator) << 1);
    }
    return (long)whole;
}

static unsigned vote(const struct plain_card *card, uint32_t syndromes)
{
    int ones = 0;
    for (int q = 0; q < card->counts[0]; q++)
        ones += __builtin_parity(syndromes & card->checks[0][q][0]);
    return 2 * ones > card->counts[0];
}

long specialised_receive(const struct plain_card *card, const uint8_t *in, size_t count, uint8_t *out)
{
    uint32_t history = 0, syndromes = 0; /* bit a of the syndromes: a frames after the one decided */
    uint32_t generator = card->generators[0][0];
    size_t m = (size_t)card->m;
    if (any_beyond(in, count, 2))
        return -1;
    for (size_t u = 0; u < count; u++) {
        history = history << 1 | (in[u] & 1);
        unsigned syndrome = in[u] >> 1 ^ (unsigned)__builtin_parity(history & generator);
        syndromes = syndromes >> 1 | (uint32_t)syndrome << m;
        if (u >= m) {
            unsigned error = vote(card, syndromes);
            out[u - m] = (uint8_t)((in[u - m] & 1) ^ error);
            if (error)
                syndromes ^= generator;
        }
    }
    return count > m ? (long)(count - m) : 0;
}
