#include "written.h"

#include "calls.h"
#include "counts.h"
#include "inputs/cards.h"
#include "streams.h"

#include <stdio.h>
#include <string.h>

/* ---- Cards written out ---- */

static void count_written(const struct fields *fields, size_t length)
{
    written.cards++;
    written.zero_generator += has_zero_generator(fields);
    written.zero_check_mask += has_zero_check_mask(fields);
    written.k_above_1 += fields->k > 1;
    written.p_above_1 += fields->p > 1;
    written.k_and_n_default += fields->k == 1 && fields->n == 2;
    if (written.cards == 1 || length < written.shortest)
        written.shortest = length;
    if (length > written.longest)
        written.longest = length;
}

void write_into(struct random *r, size_t room, const uint8_t *card, size_t length)
{
    int32_t answer = call_write(r, card, length, room);
    if (answer != (room < length ? -13 : (int32_t)length))
        fail("room for %zu of %zu bytes, and the answer is %d", room, length, (int)answer);
    if (answer > 0 && memcmp(expected, card, length) != 0)
        fail("an accepted card is not written as it stands");
}

void write_out(struct random *r, const struct fields *fields, const uint8_t *card, size_t length)
{
    size_t rooms[] = {1, length - 1, length, length + 1, length + (size_t)below(r, MOST_CARD_BYTES)};
    if (states_default_k(card) || states_default_n(card))
        fail("a card that states a default was accepted");
    for (size_t room = 0; room < sizeof rooms / sizeof *rooms; room++)
        write_into(r, rooms[room], card, length);
    count_written(fields, length);
}

/* ---- Cards that state a default ---- */

void expect_bytes(struct random *r, const uint8_t *card, size_t length, int refusal, size_t offset)
{
    struct fields fields;
    struct card_answer answer = reference_read_card(card, length, &fields);
    accepted(r, card, length);
    if (answer.refusal != refusal || (refusal && answer.offset != offset))
        fail("the card is refused by %d at %zu, and not by %d at %zu", answer.refusal, answer.offset, refusal, offset);
}

void expect_not_rewritten(const uint8_t *card, size_t length, int refusal, size_t offset)
{
    char line[40];
    uint8_t written_instead[MOST_CARD_BYTES];
    size_t size = (size_t)snprintf(line, sizeof line, "refused %d at %zu\n", refusal, offset);
    size_t count = reference_rewrite(card, length, written_instead);
    if (count != size || memcmp(written_instead, line, size) != 0)
        fail("a stored card is not refused by %d at %zu when it is rewritten", refusal, offset);
}

void rewrite_stored(struct random *r, const uint8_t *card, size_t length)
{
    struct fields before, after;
    uint8_t bytes[MOST_CARD_BYTES], left[MOST_CARD_BYTES];
    size_t count = reference_rewrite(card, length, bytes);
    if (count != without_defaults(card, length, left) || memcmp(bytes, left, count) != 0)
        fail("what is rewritten is not the card without the defaults that it states");
    if (reference_read_card_under(FORMER, card, length, &before).refusal || !accepted(r, bytes, count))
        fail("a stored card is refused, or what is rewritten of it");
    if (reference_read_card(bytes, count, &after).refusal || memcmp(&before, &after, sizeof before) != 0)
        fail("what is rewritten is another card");
    write_out(r, &after, bytes, count);
    stream(r, &after, bytes, count);
    stating.rewritten++;
}
