#include "rounds.h"

#include "calls.h"
#include "counts.h"
#include "streams.h"
#include "written.h"

#include <stdlib.h>
#include <string.h>

/* Bytes of an accepted card, or of one near it, changed at random. */
static size_t damage_bytes(struct random *r, uint8_t *card, size_t length)
{
    size_t at = (size_t)below(r, (int)length);
    switch (below(r, 6)) {
    case 0: /* cut */
        return at;
    case 1: /* extended */
        card[length] = (uint8_t)random_word(r);
        return length + 1;
    case 2: /* a byte left out */
        memmove(card + at, card + at + 1, length - at - 1);
        return length - 1;
    case 3: /* a byte put in */
        memmove(card + at + 1, card + at, length - at);
        card[at] = (uint8_t)random_word(r);
        return length + 1;
    case 4: /* a field near the front */
        card[below(r, length < 12 ? (int)length : 12)] = (uint8_t)random_word(r);
        return length;
    default:
        card[at] = (uint8_t)random_word(r);
        return length;
    }
}

/* ---- Random cards ---- */

/* A refused card, if it is one that was accepted before R-4. */
static void random_card_stored(struct random *r, const uint8_t *card, size_t length)
{
    struct fields fields;
    if (reference_read_card_under(FORMER, card, length, &fields).refusal)
        return;
    stating.random++;
    rewrite_stored(r, card, length);
}

void random_card_round(struct random *r)
{
    struct fields fields;
    uint8_t card[MOST_CARD_BYTES + 64];
    random_card(r, &fields);
    int kind = below(r, 10);
    if (kind == 0 || kind == 1)
        spoil_card(r, &fields);
    int state = one_in(r, 10) ? between(r, 1, 3) : 0; /* the default k, the default n, or both, if they are */
    size_t length = card_bytes(&fields, state % 2, state / 2, card);
    if (kind == 2 || kind == 3)
        length = damage_bytes(r, card, length);
    any_frames(r, &fields, card, length); /* the card's refusals come before the burst's */
    if (!accepted(r, card, length)) {
        random_card_stored(r, card, length);
        return;
    }
    if (reference_read_card(card, length, &fields).refusal)
        fail("the reference refuses a card that it accepted");
    write_out(r, &fields, card, length);
    stream(r, &fields, card, length);
    any_frames(r, &fields, card, length);
}

void stated_card_round(struct random *r, enum stated way)
{
    struct fields fields;
    struct stated_card stated;
    random_stated_card(r, way, &fields, &stated);
    expect_bytes(r, stated.bytes, stated.length, stated.answer.refusal, stated.answer.offset);
    any_frames(r, &fields, stated.bytes, stated.length);
    if (way == K_STATED || way == N_STATED || way == BOTH_STATED)
        rewrite_stored(r, stated.bytes, stated.length);
    stating.ways[way]++;
}

void many_checks_round(struct random *r)
{
    struct fields fields;
    struct many_checks_card many;
    random_many_checks_card(r, &many);
    int stated = states_default_k(many.bytes);
    many_checks.too_many[many.bytes[many.place]]++;
    many_checks.stated += stated;
    expect_bytes(r, many.bytes, many.length, stated ? 18 : 7, stated ? 2 : many.place);
    expect_not_rewritten(many.bytes, many.length, 7, many.place);
    leave_most_checks(&many);
    if (reference_read_card_under(FORMER, many.bytes, many.length, &fields).refusal)
        fail("a card with the most checks is refused");
    if (stated) {
        rewrite_stored(r, many.bytes, many.length);
        return;
    }
    expect_bytes(r, many.bytes, many.length, 0, 0);
    write_out(r, &fields, many.bytes, many.length);
    stream(r, &fields, many.bytes, many.length);
    stream_at_limit(r, &fields, many.bytes, many.length);
}

/* ---- Pairs of cards ---- */

/* Two accepted cards have equal bytes exactly if they have equal fields, the order of checks included. */
static void compare_pair(const uint8_t *one, size_t one_length, const uint8_t *other, size_t other_length)
{
    struct fields of_one, of_other;
    if (reference_read_card(one, one_length, &of_one).refusal || reference_read_card(other, other_length, &of_other).refusal)
        fail("the reference refuses a card that it accepted");
    int equal = one_length == other_length && memcmp(one, other, one_length) == 0;
    if (equal != (memcmp(&of_one, &of_other, sizeof of_one) == 0)) {
        print_hexadecimal("one card", one, one_length);
        print_hexadecimal("another", other, other_length);
        fail(equal ? "equal bytes are two cards" : "two cards have other bytes and equal fields");
    }
    pairs.equal += equal;
    pairs.unequal += !equal;
}

void pair_round(struct random *r)
{
    struct fields fields;
    uint8_t one[MOST_CARD_BYTES], stored[MOST_CARD_BYTES + 2], other[MOST_CARD_BYTES];
    random_card(r, &fields);
    size_t one_length = card_bytes(&fields, 0, 0, one);
    int changes = below(r, 3), order = 0;
    for (int change = 0; change < changes; change++)
        order = vary_card(r, &fields);
    size_t stored_length = card_bytes(&fields, one_in(r, 2), one_in(r, 2), stored);
    size_t other_length = reference_rewrite(stored, stored_length, other);
    if (!accepted(r, one, one_length) || !accepted(r, other, other_length))
        fail("a card of a pair is refused");
    write_into(r, MOST_CARD_BYTES, one, one_length);
    write_into(r, MOST_CARD_BYTES, other, other_length);
    compare_pair(one, one_length, other, other_length);
    pairs.order_alone += changes == 1 && order;
}

/* ---- Changed cards ---- */

/* A card that is changed; if it is still one, it is another than before; it is written out, and a stream sent by it. */
static void changed_card(struct random *r, const uint8_t *before, size_t before_length, const uint8_t *card,
                         size_t length)
{
    struct fields fields, former_fields;
    if (!accepted(r, card, length) || reference_read_card(card, length, &fields).refusal)
        return;
    if (reference_read_card(before, before_length, &former_fields).refusal == 0)
        compare_pair(before, before_length, card, length);
    write_out(r, &fields, card, length);
    stream(r, &fields, card, length);
}

/* Every byte of the card changed in several ways, the card cut everywhere, and extended. */
static void damage_everywhere(struct random *r, const uint8_t *card, size_t length, int every_value)
{
    uint8_t changed[MOST_CARD_BYTES + 8];
    for (size_t at = 0; at < length; at++) {
        for (int change = 1; change < 256; change += every_value ? 1 : change) {
            memcpy(changed, card, length);
            changed[at] = (uint8_t)(changed[at] ^ change);
            changed_card(r, card, length, changed, length);
        }
        changed_card(r, card, length, card, at);
    }
    memcpy(changed, card, length);
    for (size_t extended = length + 1; extended <= length + 6; extended++) {
        changed[extended - 1] = one_in(r, 2) ? 0 : (uint8_t)random_word(r);
        changed_card(r, card, length, changed, extended);
    }
}

void damaged_card_round(struct random *r, int turn)
{
    struct fields fields;
    uint8_t card[MOST_CARD_BYTES];
    int state = turn >= 4 && turn < 8;
    if (turn < 8) {
        bench_card("PQRT"[turn % 4], &fields);
    } else {
        int k = between(r, 1, MOST_INFORMATION);
        random_card_of_shape(r, k, between(r, k + 1, MOST_STREAMS), below(r, 32), between(r, 2, 6), 3, &fields);
    }
    size_t length = card_bytes(&fields, state, state, card);
    damage_everywhere(r, card, length, turn < 8);
}

void longest_card_round(struct random *r)
{
    struct fields fields;
    uint8_t card[MOST_CARD_BYTES], changed[MOST_CARD_BYTES + 1];
    longest_card(&fields);
    size_t length = card_bytes(&fields, 0, 0, card);
    if (length != MOST_CARD_BYTES || !accepted(r, card, length))
        fail("the longest card has %zu bytes, or is refused", length);
    write_out(r, &fields, card, length);
    stream(r, &fields, card, length);
    for (int faults = 0; faults < 100; faults++) {
        memcpy(changed, card, length);
        size_t changed_length = damage_bytes(r, changed, length);
        changed_card(r, card, length, changed, changed_length);
    }
}

/* ---- Bursts of every length ---- */

/* An accepted card with the most checks that a stream can have. */
static void card_with_most_checks(struct random *r, struct fields *fields)
{
    do
        random_card_of_shape(r, 1, MOST_STREAMS, MOST_MEMORY, MOST_CHECKS, 4, fields);
    while (fields->J[1] < MOST_CHECKS);
}

void every_length_round(struct random *r, int turn)
{
    struct fields fields;
    uint8_t card[MOST_CARD_BYTES], frames[128];
    if (turn < 4)
        bench_card("PQRT"[turn], &fields);
    else if (turn == 4)
        card_with_most_checks(r, &fields);
    else
        random_card_of_shape(r, turn - 3, turn + 1, MOST_MEMORY, MOST_CHECKS, 3, &fields);
    size_t length = card_bytes(&fields, 0, 0, card);
    write_out(r, &fields, card, length);
    for (int streams = 0; streams < 20; streams++)
        stream(r, &fields, card, length);
    for (long count = 0; count <= 2 * fields.m + 4; count++) {
        random_frames(r, fields.k, frames, count);
        sizes_around(r, SEND, card, length, frames, count, count + fields.m);
        random_frames(r, fields.n, frames, count);
        sizes_around(r, RECEIVE, card, length, frames, count, count > fields.m ? count - fields.m : 0);
    }
}

void limit_round(struct random *r, char name)
{
    struct fields fields;
    uint8_t card[MOST_CARD_BYTES];
    bench_card(name, &fields);
    size_t length = card_bytes(&fields, 0, 0, card);
    long most[] = {MOST_FRAMES - fields.m, MOST_FRAMES}; /* input frames of a sent, of a received burst */
    uint8_t *frames = malloc(MOST_ROOM);
    for (enum direction direction = SEND; direction <= RECEIVE; direction++) {
        int streams = direction == SEND ? fields.k : fields.n;
        for (long count = most[direction] - 1; count <= most[direction] + 2; count++) {
            random_frames(r, streams, frames, count);
            int32_t answer = call(r, direction, card, length, frames, (size_t)count, MOST_ROOM);
            if ((answer == -15) != (count > most[direction]))
                fail("%ld frames, and the answer is %d", count, (int)answer);
            call(r, direction, card, length, frames, (size_t)count, (size_t)below(r, MOST_FRAMES)); /* 13, or 15 before it */
            frames[below(r, (int)count)] |= 0x80;
            call(r, direction, card, length, frames, (size_t)count, MOST_ROOM); /* 11, or 15 before it */
        }
    }
    free(frames);
}
