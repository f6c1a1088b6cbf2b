#include "erased.h"

#include "calls.h"
#include "counts.h"
#include "inputs/cards.h"
#include "inputs/erasing.h"
#include "rounds.h"

#include <float.h>
#include <string.h>

void fail_erased(const struct fields *fields, const struct transmission *t, const char *what)
{
    static uint8_t card[MOST_CARD_BYTES];
    now.function = "the reference's sessions";
    now.card = card, now.card_length = card_bytes(fields, 0, 0, card);
    now.input = t->received, now.input_length = (size_t)t->whole;
    print_hexadecimal("sent", t->sent, (size_t)t->whole);
    print_hexadecimal("erased", t->erased, (size_t)t->whole);
    fail("%s", what);
}

/* Frame u as readings. A digit is a level outside the band, 0.25 included. An erased one is marked, and has the level of
 * the digit all the same, which must not be looked at; or it isn't, and has a level in the band. */
static void readings_of(long u, int frame, int marks, struct reading readings[8])
{
    static const float outside[] = {0.25f, 0x1.000002p-2f, 1, FLT_MAX}, in_band[] = {0x1.fffffep-3f, 0, 0x1p-149f, 0.125f};
    for (int s = 0; s < 8; s++) {
        long turn = u + s;
        int lost = marks >> s & 1, by_level = lost && turn % 2;
        float magnitude = by_level ? in_band[turn / 2 % 4] : outside[turn % 4];
        readings[s].erased = lost && !by_level;
        readings[s].level = frame >> s & 1 ? magnitude : -magnitude;
    }
}

void receive_by_both(const struct fields *fields, const struct transmission *t, uint8_t *frames)
{
    struct receiving first, second;
    reference_open_receiving(&first, TYPE_I, fields);
    reference_open_receiving(&second, TYPE_II, fields);
    for (long u = 0; u < t->whole; u++) {
        struct reading readings[8];
        readings_of(u, t->received[u], t->erased[u], readings);
        struct answer one = reference_receive_readings(&first, fields->number, readings);
        struct answer other = reference_receive_readings(&second, fields->number, readings);
        if (one.kind != other.kind || one.value != other.value)
            fail_erased(fields, t, "the two circuits answer otherwise");
        if (one.kind != (u < fields->m ? WAITING : FRAME))
            fail_erased(fields, t, "a session doesn't answer as it has to");
        if (one.kind == FRAME)
            frames[u - fields->m] = (uint8_t)one.value;
    }
    reference_close_receiving(&first);
    reference_close_receiving(&second);
}

int correctable(const struct fields *fields, const struct transmission *t)
{
    return reference_correctable(fields, t->sent, t->received, t->erased, t->count);
}

static int has_erased(const struct transmission *t)
{
    for (long u = 0; u < t->whole; u++)
        if (t->erased[u])
            return 1;
    return 0;
}

/* Whether the stream comes out as sent, as it must where it is correctable. */
static int comes_out(const struct fields *fields, const struct transmission *t)
{
    uint8_t frames[LONGEST_STREAM];
    receive_by_both(fields, t, frames);
    int as_sent = memcmp(frames, t->information, (size_t)t->count) == 0, must = correctable(fields, t);
    if (must && !as_sent)
        fail_erased(fields, t, "a correctable stream did not come out as sent");
    erased.streams += has_erased(t);
    erased.correctable += must && has_erased(t);
    return as_sent;
}

/* The notice's condition for digit i at u, as it was before R-6. A card's checks are orthogonal, so that all they touch
 * is counted once if the own digit is. */
static int at_most_half_of_J(const struct fields *fields, const struct transmission *t, int i, long u)
{
    int wrong = (t->sent[u] ^ t->received[u]) >> (i - 1) & 1;
    for (int q = 1; q <= fields->J[i]; q++) {
        struct touched touched = reference_touched(fields, i, q);
        for (int b = 0; b <= fields->m; b++)
            for (int s = 1; s <= fields->n; s++)
                if (touched.error[b][s] && (b != 0 || s != i))
                    wrong += (t->sent[u + b] ^ t->received[u + b]) >> (s - 1) & 1;
    }
    return 2 * wrong <= fields->J[i];
}

/* With nothing erased the condition is the notice's own, and a session hands out what a burst has. */
static void stream_without_erased(struct random *r, const struct fields *fields, const uint8_t *card, size_t length)
{
    static const int rates[] = {0, 2, 10, 30, 100, 300, 1000};
    struct transmission t;
    uint8_t frames[LONGEST_STREAM], of_burst[LONGEST_STREAM];
    int as_before = 1;
    send_stream(r, fields, card, length, length_around(r, fields->m), &t);
    if (one_in(r, 2))
        damage_touched(r, fields, t.received, t.count);
    else
        damage(r, fields->n, rates[below(r, 7)], t.received, t.whole);
    for (long u = 0; u < t.count; u++)
        for (int i = 1; i <= fields->k; i++)
            as_before = as_before && at_most_half_of_J(fields, &t, i, u);
    if (correctable(fields, &t) != as_before ||
        reference_correctable(fields, t.sent, t.received, NULL, t.count) != as_before)
        fail_erased(fields, &t, "with nothing erased the condition is another");
    receive_by_both(fields, &t, frames);
    int32_t count = reference_burst_receive(card, length, t.received, (size_t)t.whole, of_burst, sizeof of_burst);
    if (count != t.count || memcmp(frames, of_burst, (size_t)t.count) != 0)
        fail_erased(fields, &t, "with nothing erased a burst has other frames");
    erased.none++;
}

/* Any digits wrong and erased. */
static void stream_with_erased(struct random *r, const struct fields *fields, const uint8_t *card, size_t length)
{
    static const int rates[] = {0, 0, 0, 5, 20, 100, 500, 1000};
    struct transmission t;
    struct erasing erasing = random_erasing(r);
    send_stream(r, fields, card, length, length_around(r, fields->m), &t);
    damage(r, fields->n, rates[below(r, 8)], t.received, t.whole);
    for (long u = 0; u < t.whole; u++)
        t.erased[u] = (uint8_t)erased_at(r, &erasing, u, fields->n);
    comes_out(fields, &t);
}

/* As many digits wrong and erased as the stream stands, random ones until a further one is too many; then with that
 * one. Erased zeros may never be too many. */
static void erased_stream_at_limit(struct random *r, const struct fields *fields, const uint8_t *card, size_t length)
{
    struct transmission t;
    int wrong_in_ten = below(r, 11);
    send_stream(r, fields, card, length, between(r, 1, LONGEST_STREAM / 2), &t);
    for (int digits = 0; digits < 200; digits++) {
        uint8_t *frame = (below(r, 10) < wrong_in_ten ? t.received : t.erased) + below(r, (int)t.whole);
        int digit = 1 << below(r, fields->n);
        *frame = (uint8_t)(*frame ^ digit);
        if (correctable(fields, &t))
            continue;
        *frame = (uint8_t)(*frame ^ digit);
        comes_out(fields, &t);
        *frame = (uint8_t)(*frame ^ digit);
        erased.lost_beyond += !comes_out(fields, &t);
        erased.at_limit++;
        return;
    }
}

void erased_round(struct random *r, int turn)
{
    struct fields fields;
    uint8_t card[MOST_CARD_BYTES];
    if (turn % 4 == 0)
        standard_fields(between(r, 2, 7), &fields);
    else
        random_card(r, &fields);
    size_t length = card_bytes(&fields, 0, 0, card);
    stream_without_erased(r, &fields, card, length);
    stream_with_erased(r, &fields, card, length);
    erased_stream_at_limit(r, &fields, card, length);
}
