/* Link cards: reading one, its written form, stored cards rewritten, standard cards. */
#include "parts.h"

#include <stdio.h>
#include <string.h>

/* ---- The card ("The card", "Refused because of the input") ---- */

/* Reading runs front to back: the place reached, and the first fault met. */
struct reader {
    enum rule rule;
    const uint8_t *bytes;
    size_t length, at;
    struct card_answer fault;
};

/* The answers of the reading functions below: whether reading goes on. */
enum { STOP = 0, GO_ON = 1 };

static int refuse(struct reader *r, int number, size_t offset)
{
    r->fault.refusal = number;
    r->fault.offset = offset;
    return STOP;
}

/* A little-endian integer of `size` bytes. A field cut short comes before its value. */
static int read_integer(struct reader *r, size_t size, uint32_t *value)
{
    if (r->length - r->at < size)
        return refuse(r, ENDS_INSIDE_FIELD, r->length);
    uint32_t worth = 1;
    *value = 0;
    for (size_t b = 0; b < size; b++) {
        *value += worth * r->bytes[r->at + b];
        worth *= 256;
    }
    r->at += size;
    return GO_ON;
}

/* A one-byte field that must lie in low to high, else `refusal` at its offset. */
static int read_field(struct reader *r, int low, int high, int refusal, int *value)
{
    size_t start = r->at;
    uint32_t byte;
    if (!read_integer(r, 1, &byte))
        return STOP;
    *value = (int)byte;
    return *value < low || *value > high ? refuse(r, refusal, start) : GO_ON;
}

/* A field that is left out if it has its default. If it stands it is read, and only then is it told (document 02, R-4)
 * that it should have been left out. */
static int read_unless_default(struct reader *r, int stands, int low, int high, int refusal, int by_default, int *value)
{
    size_t start = r->at;
    *value = by_default;
    if (!stands)
        return GO_ON;
    if (!read_field(r, low, high, refusal, value))
        return STOP;
    return r->rule == PRESENT && *value == by_default ? refuse(r, DEFAULT_STATED, start) : GO_ON;
}

/* A map of `size` bytes over `streams` places: a digit for each place, and none set beyond them. */
static int read_map(struct reader *r, size_t size, int streams, int stands[])
{
    size_t start = r->at;
    uint32_t map;
    if (!read_integer(r, size, &map))
        return STOP;
    for (int s = 0; s < (int)size * 8; s++) {
        stands[s] = digit_of(map, s);
        if (s >= streams && stands[s])
            return refuse(r, MAP_BIT_BEYOND_STREAMS, start);
    }
    return GO_ON;
}

/* A standing mask: the digits 0 to m, at least one of them 1, and no digit above m. */
static int read_mask(struct reader *r, int m, int digits[MOST_MEMORY + 1])
{
    size_t start = r->at;
    uint32_t mask;
    if (!read_integer(r, 4, &mask))
        return STOP;
    int ones = 0, ones_above = 0;
    for (int a = 0; a <= 31; a++) {
        int digit = digit_of(mask, a);
        if (a <= m) {
            digits[a] = digit;
            ones += digit;
        } else {
            ones_above += digit;
        }
    }
    return ones == 0 || ones_above > 0 ? refuse(r, MASK_OUTSIDE_RANGE, start) : GO_ON;
}

/* Byte 0, the card's number, k, n, m. */
static int read_sizes(struct reader *r, struct fields *card)
{
    int stands[8];
    if (!read_map(r, 1, 2, stands))
        return STOP;
    if (!read_field(r, 0, 255, 0, &card->number))
        return STOP;
    if (!read_unless_default(r, stands[0], 1, MOST_INFORMATION, K_OUTSIDE_RANGE, 1, &card->k))
        return STOP;
    if (!read_unless_default(r, stands[1], card->k + 1, MOST_STREAMS, N_OUTSIDE_RANGE, 2, &card->n))
        return STOP;
    if (card->n < card->k + 1) /* which is so only if it doesn't stand */
        return refuse(r, N_OUTSIDE_RANGE, 0);
    card->p = card->n - card->k;
    return read_field(r, 0, MOST_MEMORY, M_OUTSIDE_RANGE, &card->m);
}

static int read_generators(struct reader *r, struct fields *card)
{
    int stands[16];
    if (!read_map(r, 2, card->k * card->p, stands))
        return STOP;
    for (int i = 1; i <= card->k; i++)
        for (int j = 1; j <= card->p; j++)
            if (stands[(i - 1) * card->p + (j - 1)] && !read_mask(r, card->m, card->g[i][j]))
                return STOP;
    return GO_ON;
}

/* Whether check q touches an error, other than that of its own digit, that an earlier one of its stream touches. */
static int clashes(const struct fields *card, int i, int q, const struct touched by_check[])
{
    for (int earlier = 1; earlier < q; earlier++)
        for (int b = 0; b <= card->m; b++)
            for (int s = 1; s <= card->n; s++)
                if (by_check[q].error[b][s] && by_check[earlier].error[b][s] && !(b == 0 && s == i))
                    return 1;
    return 0;
}

static int read_check(struct reader *r, struct fields *card, int i, int q, struct touched by_check[])
{
    size_t start = r->at;
    int stands[8];
    if (!read_map(r, 1, card->p, stands))
        return STOP;
    for (int j = 1; j <= card->p; j++)
        if (stands[j - 1] && !read_mask(r, card->m, card->check[i][q][j]))
            return STOP;
    by_check[q] = reference_touched(card, i, q);
    if (!by_check[q].error[0][i])
        return refuse(r, OWN_DIGIT_NOT_TOUCHED, start);
    if (clashes(card, i, q, by_check))
        return refuse(r, ERROR_TOUCHED_EARLIER, start);
    return GO_ON;
}

static int read_checks(struct reader *r, struct fields *card)
{
    for (int i = 1; i <= card->k; i++) {
        struct touched by_check[MOST_CHECKS + 1];
        if (!read_field(r, 1, MOST_CHECKS, J_OUTSIDE_RANGE, &card->J[i]))
            return STOP;
        for (int q = 1; q <= card->J[i]; q++)
            if (!read_check(r, card, i, q, by_check))
                return STOP;
    }
    return GO_ON;
}

struct card_answer reference_read_card_under(enum rule rule, const uint8_t *bytes, size_t length, struct fields *card)
{
    struct reader r = {rule, bytes, length, 0, {0, 0}};
    memset(card, 0, sizeof *card);
    if (read_sizes(&r, card) && read_generators(&r, card) && read_checks(&r, card) && r.at < length)
        refuse(&r, BYTES_AFTER_LAST_CHECK, r.at);
    return r.fault;
}

struct card_answer reference_read_card(const uint8_t *bytes, size_t length, struct fields *card)
{
    return reference_read_card_under(PRESENT, bytes, length, card);
}

/* ---- The written form of a card (document 02, R-1) ---- */

/* Writing runs front to back too. No accepted card needs more room than this. */
struct writer {
    uint8_t bytes[MOST_CARD_BYTES];
    size_t count;
};

/* A little-endian integer of `size` bytes. */
static void write_integer(struct writer *w, size_t size, uint32_t value)
{
    for (size_t b = 0; b < size; b++) {
        w->bytes[w->count++] = (uint8_t)(value % 256);
        value /= 256;
    }
}

/* The number that has these digits, the lowest first. */
static uint32_t number_of(const int digits[], int count)
{
    uint32_t number = 0;
    for (int a = count - 1; a >= 0; a--)
        number = 2 * number + (uint32_t)digits[a];
    return number;
}

/* A map of `size` bytes over the masks, then those that stand: a mask that is zero does not. */
static void write_masks(struct writer *w, size_t size, const uint32_t masks[], int places)
{
    int stands[16];
    for (int s = 0; s < places; s++)
        stands[s] = masks[s] != 0;
    write_integer(w, size, number_of(stands, places));
    for (int s = 0; s < places; s++)
        if (stands[s])
            write_integer(w, 4, masks[s]);
}

/* Byte 0, the card's number, k, n, m: "a field equal to its default is left out". */
static void write_sizes(struct writer *w, const struct fields *card)
{
    int stands[2] = {card->k != 1, card->n != 2};
    write_integer(w, 1, number_of(stands, 2));
    write_integer(w, 1, (uint32_t)card->number);
    if (stands[0])
        write_integer(w, 1, (uint32_t)card->k);
    if (stands[1])
        write_integer(w, 1, (uint32_t)card->n);
    write_integer(w, 1, (uint32_t)card->m);
}

static void write_generators(struct writer *w, const struct fields *card)
{
    uint32_t masks[16] = {0};
    int places = 0;
    for (int i = 1; i <= card->k; i++)
        for (int j = 1; j <= card->p; j++)
            masks[places++] = number_of(card->g[i][j], MOST_MEMORY + 1);
    write_masks(w, 2, masks, places);
}

/* J and the checks of information stream i. */
static void write_checks(struct writer *w, const struct fields *card, int i)
{
    write_integer(w, 1, (uint32_t)card->J[i]);
    for (int q = 1; q <= card->J[i]; q++) {
        uint32_t masks[MOST_PARITY] = {0};
        for (int j = 1; j <= card->p; j++)
            masks[j - 1] = number_of(card->check[i][q][j], MOST_MEMORY + 1);
        write_masks(w, 1, masks, card->p);
    }
}

static struct writer written_form(const struct fields *card)
{
    struct writer w = {.count = 0};
    write_sizes(&w, card);
    write_generators(&w, card);
    for (int i = 1; i <= card->k; i++)
        write_checks(&w, card, i);
    return w;
}

/* "The answer is the count of bytes, only that many are written, and output too short is 13." */
static int32_t write_into(const struct fields *card, uint8_t *output, size_t output_length)
{
    struct writer w = written_form(card);
    if (output_length < w.count)
        return -OUTPUT_TOO_SHORT;
    memcpy(output, w.bytes, w.count);
    return (int32_t)w.count;
}

/* Since R-4 an accepted card is written as it stands: here by taking it apart and writing its fields, all the same. */
int32_t reference_card_write(const uint8_t *card_bytes, size_t card_length, uint8_t *output, size_t output_length)
{
    struct fields card;
    int refusal = reference_read_card(card_bytes, card_length, &card).refusal;
    return refusal ? -refusal : write_into(&card, output, output_length);
}

/* ---- Stored cards rewritten (document 02, R-4) ---- */

size_t reference_rewrite(const uint8_t *input, size_t length, uint8_t *output)
{
    struct fields card;
    if (length > MOST_STORED_BYTES)
        return (size_t)sprintf((char *)output, "input too long\n");
    struct card_answer answer = reference_read_card_under(FORMER, input, length, &card);
    if (answer.refusal)
        return (size_t)sprintf((char *)output, "refused %d at %zu\n", answer.refusal, answer.offset);
    struct writer w = written_form(&card);
    memcpy(output, w.bytes, w.count);
    return w.count;
}

/* ---- Standard cards (document 02, R-5; the report's section 3.5) ---- */

/* The errors that the syndrome s(a, 1) contains, by what a syndrome is: with that digit alone wrong it is 1. Zeros are
 * taken as sent, since a syndrome depends on the wrong digits only. */
static struct touched errors_in_syndrome(const struct fields *card, int a)
{
    struct touched contained;
    memset(&contained, 0, sizeof contained);
    for (int b = 0; b <= a; b++)
        for (int s = 1; s <= card->n; s++) {
            struct frame received[MOST_MEMORY + 1];
            memset(received, 0, sizeof received);
            received[b].digit[s] = 1;
            contained.error[b][s] = syndrome(card, received, a, 1);
        }
    return contained;
}

/* Takes the term of offset a, with its syndrome as the next check, exactly if the syndrome shares no error with the
 * checks already taken, apart from digit 0. */
static void try_term(struct fields *card, int a, struct touched by_check[])
{
    int q = card->J[1] + 1, last_taken = card->m;
    card->g[1][1][a] = 1;
    card->m = a;
    by_check[q] = errors_in_syndrome(card, a);
    if (clashes(card, 1, q, by_check)) {
        card->g[1][1][a] = 0;
        card->m = last_taken;
    } else {
        card->check[1][q][1][a] = 1;
        card->J[1] = q;
    }
}

/* That there is no card beyond J = 7 is not said here: the rule finds no more terms up to offset 31. */
int32_t reference_standard_card(uint32_t checks, uint8_t *output, size_t output_length)
{
    struct fields card = {.k = 1, .n = 2, .p = 1};
    struct touched by_check[MOST_CHECKS + 1];
    for (int a = 0; a <= MOST_MEMORY && (uint32_t)card.J[1] < checks; a++)
        try_term(&card, a, by_check);
    if (checks < LEAST_STANDARD_CHECKS || (uint32_t)card.J[1] < checks)
        return 0;
    card.number = card.J[1];
    return write_into(&card, output, output_length);
}
