/* Standard cards. */
#include "calls.h"
#include "counts.h"
#include "inputs/cards.h"
#include "rounds.h"
#include "streams.h"
#include "written.h"

#include <string.h>

/* For each card, streams with as many wrong digits as they stand. */
enum { STREAMS_AT_LIMIT = 40 };

/* The bytes are those of the terms that document 02 names. As a card they are accepted, come back from card_write, and
 * bursts go by them. */
static void use_standard_card(struct random *r, int J)
{
    struct fields named, fields;
    uint8_t of_terms[MOST_CARD_BYTES], card[MOST_CARD_BYTES];
    standard_fields(J, &named);
    size_t length = card_bytes(&named, 0, 0, of_terms);
    int32_t answer = call_standard(r, (uint32_t)J, sizeof card);
    if (answer != (int32_t)length || memcmp(expected, of_terms, length) != 0)
        fail("the standard card is not that of the terms that are named");
    memcpy(card, expected, length);
    if (!accepted(r, card, length) || reference_read_card(card, length, &fields).refusal)
        fail("a standard card is refused");
    write_out(r, &fields, card, length);
    for (int turn = 0; turn < STREAMS_AT_LIMIT; turn++) {
        stream(r, &fields, card, length);
        stream_at_limit(r, &fields, card, length);
        standard.streams_at_limit++;
    }
}

int checks_of_turn(long turn, uint32_t *checks)
{
    static const uint32_t others[] = {
        255, 256, 0x102, 0x107, 0x10002, 0x10007, 0x1000003, 0x1000006, 0x7fffffff, 0x80000000, 0x80000003, 0x80000007,
        0xfffffffe, 0xffffffff};
    if (turn >= STANDARD_CARDS + (long)(sizeof others / sizeof *others))
        return 0;
    *checks = turn < STANDARD_CARDS ? (uint32_t)turn : others[turn - STANDARD_CARDS];
    return 1;
}

int has_standard_card(uint32_t checks)
{
    return checks >= LEAST_STANDARD_CHECKS && checks <= MOST_STANDARD_CHECKS;
}

void standard_card_round(struct random *r, uint32_t checks)
{
    int32_t count = has_standard_card(checks) ? 5 * (int32_t)checks + 10 : 0;
    for (int32_t room = 0; room <= 64; room++) {
        int32_t answer = call_standard(r, checks, (size_t)room);
        if (answer != (room < count ? -13 : count))
            fail("room for %d of %d bytes, and the answer is %d", (int)room, (int)count, (int)answer);
    }
    if (count > 0)
        use_standard_card(r, (int)checks);
    standard.cards += count > 0;
    standard.none += count == 0;
    if (count > standard.longest)
        standard.longest = count;
}
