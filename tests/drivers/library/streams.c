#include "streams.h"

#include "calls.h"
#include "counts.h"

#include <string.h>

void random_frames(struct random *r, int streams, uint8_t *frames, long count)
{
    for (long u = 0; u < count; u++)
        frames[u] = (uint8_t)(random_word(r) % (1u << streams));
}

void damage(struct random *r, int streams, int in_thousand, uint8_t *frames, long count)
{
    for (long u = 0; u < count; u++)
        for (int s = 0; s < streams; s++)
            if (below(r, 1000) < in_thousand)
                frames[u] = (uint8_t)(frames[u] ^ (1 << s));
}

void damage_touched(struct random *r, const struct fields *fields, uint8_t *frames, long count)
{
    struct { int b, s; } digits[(MOST_MEMORY + 1) * MOST_STREAMS];
    int found = 0;
    if (count == 0)
        return;
    int i = between(r, 1, fields->k), wrong = fields->J[i] / 2 + below(r, 2);
    long u = below(r, (int)count);
    for (int q = 1; q <= fields->J[i]; q++) {
        struct touched touched = reference_touched(fields, i, q);
        for (int b = 0; b <= fields->m; b++)
            for (int s = 1; s <= fields->n; s++)
                if (touched.error[b][s] && (q == 1 || b != 0 || s != i)) /* its own digit once only */
                    digits[found].b = b, digits[found++].s = s;
    }
    for (int chosen = 0; chosen < wrong; chosen++) {
        int pick = between(r, chosen, found - 1);
        frames[u + digits[pick].b] ^= (uint8_t)(1 << (digits[pick].s - 1));
        digits[pick] = digits[chosen];
    }
}

long length_around(struct random *r, int memory)
{
    int m = memory > MOST_MEMORY ? MOST_MEMORY : memory; /* a spoiled card may state more */
    switch (below(r, 6)) {
    case 0:
        return below(r, 4);
    case 1:
        return between(r, m > 2 ? m - 2 : 0, m + 2);
    case 2:
        return between(r, 2 * m, 2 * m + 2);
    default:
        return below(r, LONGEST_STREAM);
    }
}

void sizes_around(struct random *r, enum direction direction, const uint8_t *card, size_t card_length,
                  const uint8_t *input, long input_length, long count)
{
    for (long size = count > 3 ? count - 3 : 0; size <= count + 3; size++) {
        int32_t answer = call(r, direction, card, card_length, input, (size_t)input_length, (size_t)size);
        if (answer != (size < count ? -13 : count))
            fail("room for %ld of %ld frames, and the answer is %d", size, count, (int)answer);
    }
}

void any_frames(struct random *r, const struct fields *fields, const uint8_t *card, size_t card_length)
{
    uint8_t frames[LONGEST_STREAM];
    long length = length_around(r, fields->m);
    enum direction direction = one_in(r, 2) ? SEND : RECEIVE;
    int streams = direction == SEND ? fields->k : fields->n;
    random_frames(r, streams, frames, length);
    if (length > 0 && streams < 8 && one_in(r, 2))
        frames[below(r, (int)length)] |= (uint8_t)(1 << between(r, streams, 7));
    call(r, direction, card, card_length, frames, (size_t)length, (size_t)between(r, 0, 2 * (int)length + 40));
}

static void count_stream(const struct fields *fields, int wrong, int as_sent, int must)
{
    counts.streams++;
    many_checks.most += has_most_checks(fields);
    counts.clean += !wrong;
    counts.corrected += wrong && as_sent;
    counts.beyond += !as_sent;
    counts.correctable += must && wrong;
}

void send_stream(struct random *r, const struct fields *fields, const uint8_t *card, size_t card_length,
                 long count, struct transmission *t)
{
    t->count = count, t->whole = count + fields->m;
    random_frames(r, fields->k, t->information, count);
    int32_t answer = call(r, SEND, card, card_length, t->information, (size_t)count, (size_t)(t->whole + below(r, 5)));
    if (answer != t->whole)
        fail("%ld information frames are sent as %d", count, (int)answer);
    memcpy(t->sent, expected, (size_t)t->whole);
    memcpy(t->received, expected, (size_t)t->whole);
    memset(t->erased, 0, sizeof t->erased);
}

/* The stream received, wrong digits and all: what comes out, and whether it must come out as sent. */
static void receive_stream(struct random *r, const struct fields *fields, const uint8_t *card, size_t card_length,
                           const struct transmission *t)
{
    int32_t answer = call(r, RECEIVE, card, card_length, t->received, (size_t)t->whole,
                          (size_t)(t->count + below(r, 5)));
    if (answer != t->count)
        fail("%ld frames are received as %d", t->whole, (int)answer);
    int as_sent = memcmp(expected, t->information, (size_t)t->count) == 0;
    int must = reference_correctable(fields, t->sent, t->received, NULL, t->count);
    count_stream(fields, memcmp(t->sent, t->received, (size_t)t->whole) != 0, as_sent, must);
    if (must && !as_sent)
        fail("a correctable stream did not come out as sent");
    if (!must || one_in(r, 4)) {
        receive_by_second(card, card_length, t->received, t->whole, t->count);
        counts.by_second++;
        counts.by_second_beyond += !must;
    }
}

void stream(struct random *r, const struct fields *fields, const uint8_t *card, size_t card_length)
{
    static const int rates[] = {0, 2, 10, 10, 30, 100, 300, 500, 1000};
    struct transmission t;
    send_stream(r, fields, card, card_length, length_around(r, fields->m), &t);
    if (one_in(r, 3))
        damage_touched(r, fields, t.received, t.count);
    else
        damage(r, fields->n, rates[below(r, 9)], t.received, t.whole);
    receive_stream(r, fields, card, card_length, &t);
    if (one_in(r, 8)) {
        sizes_around(r, SEND, card, card_length, t.information, t.count, t.whole);
        sizes_around(r, RECEIVE, card, card_length, t.received, t.whole, t.count);
    }
}

void stream_at_limit(struct random *r, const struct fields *fields, const uint8_t *card, size_t card_length)
{
    struct transmission t;
    uint8_t *frame;
    int digit;
    send_stream(r, fields, card, card_length, between(r, 1, LONGEST_STREAM), &t);
    do {
        frame = &t.received[below(r, (int)t.whole)];
        digit = 1 << below(r, fields->n);
        *frame = (uint8_t)(*frame ^ digit);
    } while (reference_correctable(fields, t.sent, t.received, NULL, t.count));
    *frame = (uint8_t)(*frame ^ digit);
    receive_stream(r, fields, card, card_length, &t);
    *frame = (uint8_t)(*frame ^ digit);
    receive_stream(r, fields, card, card_length, &t);
}
