#include "plain.h"

int any_beyond(const uint8_t *in, size_t count, int streams)
{
    for (size_t u = 0; u < count; u++)
        if (in[u] >> streams)
            return 1;
    return 0;
}

/* Shifts the information digits of a frame in; bit a of a register is then the digit a frames ago. */
static void shift_in(const struct plain_card *card, uint32_t history[4], unsigned frame)
{
    for (int i = 0; i < card->k; i++)
        history[i] = history[i] << 1 | (frame >> i & 1);
}

static unsigned parity(const struct plain_card *card, const uint32_t history[4], int j)
{
    uint32_t sum = 0;
    for (int i = 0; i < card->k; i++)
        sum ^= history[i] & card->generators[i][j];
    return (unsigned)__builtin_parity(sum);
}

long plain_send(const struct plain_card *card, const uint8_t *in, size_t count, uint8_t *out)
{
    uint32_t history[4] = {0};
    size_t whole = count + (size_t)card->m;
    if (any_beyond(in, count, card->k))
        return -1;
    for (size_t u = 0; u < whole; u++) {
        unsigned frame = u < count ? in[u] : 0;
        shift_in(card, history, frame);
        for (int j = 0; j < card->p; j++)
            frame |= parity(card, history, j) << (card->k + j);
        out[u] = (uint8_t)frame;
    }
    return (long)whole;
}

static unsigned decide(const struct plain_card *card, const uint32_t syndromes[7])
{
    unsigned errors = 0;
    for (int i = 0; i < card->k; i++) {
        int ones = 0;
        for (int q = 0; q < card->counts[i]; q++) {
            uint32_t sum = 0;
            for (int j = 0; j < card->p; j++)
                sum ^= syndromes[j] & card->checks[i][q][j];
            ones += __builtin_parity(sum);
        }
        if (2 * ones > card->counts[i])
            errors |= 1u << i;
    }
    return errors;
}

static void feed_back(const struct plain_card *card, uint32_t syndromes[7], unsigned errors)
{
    for (int i = 0; i < card->k; i++)
        if (errors >> i & 1)
            for (int j = 0; j < card->p; j++)
                syndromes[j] ^= card->generators[i][j];
}

long plain_receive(const struct plain_card *card, const uint8_t *in, size_t count, uint8_t *out)
{
    uint32_t history[4] = {0}, syndromes[7] = {0}; /* bit a of a syndrome register: a frames after the one decided */
    size_t m = (size_t)card->m;
    unsigned information = (1u << card->k) - 1;
    if (any_beyond(in, count, card->k + card->p))
        return -1;
    for (size_t u = 0; u < count; u++) {
        shift_in(card, history, in[u]);
        for (int j = 0; j < card->p; j++) {
            unsigned syndrome = (in[u] >> (card->k + j) & 1) ^ parity(card, history, j);
            syndromes[j] = syndromes[j] >> 1 | (uint32_t)syndrome << m;
        }
        if (u >= m) {
            unsigned errors = decide(card, syndromes);
            out[u - m] = (uint8_t)((in[u - m] & information) ^ errors);
            feed_back(card, syndromes, errors);
        }
    }
    return count > m ? (long)(count - m) : 0;
}
