#include "plain.h"

#include <string.h>

/* How far a card is read: `at` is the place of the next byte, or after a refusal its offset. The functions that read give
 * 0 or the refusal's number. */
struct reading {
    const uint8_t *bytes;
    size_t length, at;
};

static int refuse_at(struct reading *r, size_t at, int number)
{
    r->at = at;
    return number;
}

/* Inline, as the next: reading is hardly anything but these two, and by itself gcc 12 makes the second a call. */
static inline int read_byte(struct reading *r, int low, int high, int number, int *value)
{
    if (r->at == r->length)
        return refuse_at(r, r->length, BURST_CARD_CUT_SHORT);
    *value = r->bytes[r->at];
    if (*value < low || *value > high)
        return number;
    r->at++;
    return 0;
}

static inline int read_mask(struct reading *r, int m, uint32_t *mask)
{
    if (r->length - r->at < 4)
        return refuse_at(r, r->length, BURST_CARD_CUT_SHORT);
    const uint8_t *b = r->bytes + r->at;
    *mask = (uint32_t)b[0] | (uint32_t)b[1] << 8 | (uint32_t)b[2] << 16 | (uint32_t)b[3] << 24;
    if (*mask == 0 || *mask >> m > 1)
        return BURST_MASK_OUT_OF_RANGE;
    r->at += 4;
    return 0;
}

/* A field that is left out if it is the default. */
static int read_stated(struct reading *r, int low, int high, int number, int by_default, int *value)
{
    int refused = read_byte(r, low, high, number, value);
    if (refused)
        return refused;
    return *value == by_default ? refuse_at(r, r->at - 1, BURST_DEFAULT_STATED) : 0;
}

static int read_sizes(struct reading *r, struct plain_card *card)
{
    int map, n = 2, refused;
    card->k = 1;
    if ((refused = read_byte(r, 0, 3, BURST_MAP_BEYOND_STREAMS, &map)))
        return refused;
    if ((refused = read_byte(r, 0, 255, 0, &card->number))) /* every number is good, but it may be cut off */
        return refused;
    if (map & 1 && (refused = read_stated(r, 1, BURST_MOST_INFORMATION_STREAMS, BURST_K_OUT_OF_RANGE, 1, &card->k)))
        return refused;
    if (map & 2 && (refused = read_stated(r, card->k + 1, BURST_MOST_STREAMS, BURST_N_OUT_OF_RANGE, 2, &n)))
        return refused;
    if (n <= card->k) /* only if n doesn't stand */
        return refuse_at(r, 0, BURST_N_OUT_OF_RANGE);
    card->p = n - card->k;
    return read_byte(r, 0, BURST_MOST_MEMORY, BURST_MEMORY_ABOVE_LIMIT, &card->m);
}

static int read_generators(struct reading *r, struct plain_card *card)
{
    int refused;
    if (r->length - r->at < 2)
        return refuse_at(r, r->length, BURST_CARD_CUT_SHORT);
    unsigned map = r->bytes[r->at] | (unsigned)r->bytes[r->at + 1] << 8;
    if (map >> (card->k * card->p))
        return BURST_MAP_BEYOND_STREAMS;
    r->at += 2;
    for (int i = 0; i < card->k; i++)
        for (int j = 0; j < card->p; j++, map >>= 1)
            if (map & 1 && (refused = read_mask(r, card->m, &card->generators[i][j])))
                return refused;
    return 0;
}

/* The errors of an information stream that a check touches, all offsets at once: the term a of a generator moves the
 * check's offsets down by a, and what falls out below 0 are errors of times before. */
static uint32_t information_errors(const struct plain_card *card, const uint32_t check[7], int stream)
{
    uint32_t errors = 0;
    for (int j = 0; j < card->p; j++)
        for (uint32_t terms = card->generators[stream][j]; terms != 0; terms &= terms - 1)
            errors ^= check[j] >> __builtin_ctz(terms);
    return errors;
}

/* Tests a check of information stream i, and adds the errors that it touches, but for its own digit's, to `touched`. */
static int test_check(const struct plain_card *card, const uint32_t check[7], int i, uint32_t touched[8])
{
    uint32_t errors[8], clash = 0;
    int n = card->k + card->p;
    for (int stream = 0; stream < card->k; stream++)
        errors[stream] = information_errors(card, check, stream);
    for (int j = 0; j < card->p; j++)
        errors[card->k + j] = check[j];
    if (!(errors[i] & 1))
        return BURST_OWN_DIGIT_UNTOUCHED;
    errors[i] ^= 1;
    for (int stream = 0; stream < n; stream++) {
        clash |= errors[stream] & touched[stream];
        touched[stream] |= errors[stream];
    }
    return clash ? BURST_ERROR_TOUCHED_BEFORE : 0;
}

static int read_check(struct reading *r, const struct plain_card *card, uint32_t check[7])
{
    int map, refused;
    if ((refused = read_byte(r, 0, (1 << card->p) - 1, BURST_MAP_BEYOND_STREAMS, &map)))
        return refused;
    for (int j = 0; j < card->p; j++, map >>= 1)
        if (map & 1 && (refused = read_mask(r, card->m, &check[j])))
            return refused;
    return 0;
}

static int read_checks(struct reading *r, struct plain_card *card, int i)
{
    uint32_t touched[8] = {0};
    int refused;
    if ((refused = read_byte(r, 1, BURST_MOST_CHECKS, BURST_CHECK_COUNT_OUT_OF_RANGE, &card->counts[i])))
        return refused;
    for (int q = 0; q < card->counts[i]; q++) {
        size_t place = r->at;
        if ((refused = read_check(r, card, card->checks[i][q])))
            return refused;
        if ((refused = test_check(card, card->checks[i][q], i, touched)))
            return refuse_at(r, place, refused);
    }
    return 0;
}

static int read_fields(struct reading *r, struct plain_card *card)
{
    int refused;
    if ((refused = read_sizes(r, card)))
        return refused;
    if ((refused = read_generators(r, card)))
        return refused;
    for (int i = 0; i < card->k; i++)
        if ((refused = read_checks(r, card, i)))
            return refused;
    return r->at < r->length ? BURST_BYTES_AFTER_CHECKS : 0;
}

int plain_read(const uint8_t *bytes, size_t length, struct plain_card *card, size_t *offset)
{
    struct reading r = {bytes, length, 0};
    memset(card, 0, sizeof *card); /* masks that do not stand are zero */
    int refused = read_fields(&r, card);
    *offset = r.at;
    return refused;
}
