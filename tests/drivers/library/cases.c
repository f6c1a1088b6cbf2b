/* The bench's own cases, with the answers that document 01 states. */
#include "burst.h"

#include "calls.h"
#include "erased.h"
#include "inputs/cards.h"
#include "rounds.h"
#include "streams.h"
#include "written.h"

#include <math.h>
#include <string.h>

/* ---- Bursts and cards ---- */

static void expect(struct random *r, enum direction direction, const struct fields *fields, const uint8_t *input,
                   size_t input_length, int32_t answer, const uint8_t *output)
{
    uint8_t card[MOST_CARD_BYTES];
    size_t length = card_bytes(fields, 0, 0, card);
    int32_t given = call(r, direction, card, length, input, input_length, 8);
    if (given != answer || (answer > 0 && memcmp(expected, output, (size_t)answer) != 0))
        fail("the bench's case answers %d or gives other frames", (int)given);
    if (direction == RECEIVE)
        receive_by_second(card, length, input, (long)input_length, answer);
}

static void expect_card(struct random *r, const struct fields *fields, int refusal)
{
    uint8_t card[MOST_CARD_BYTES];
    size_t length = card_bytes(fields, 0, 0, card);
    int32_t given = call(r, RECEIVE, card, length, NULL, 0, 0);
    if (given != -refusal)
        fail("the bench's card is answered by %d", (int)given);
}

static void bench_bursts(struct random *r)
{
    struct fields P, Q;
    bench_card('P', &P);
    bench_card('Q', &Q);
    expect(r, SEND, &P, (const uint8_t[]){1, 0, 1}, 3, 4, (const uint8_t[]){3, 2, 3, 2});
    expect(r, RECEIVE, &P, (const uint8_t[]){3, 3, 3, 2}, 4, 3, (const uint8_t[]){1, 0, 1});
    expect(r, RECEIVE, &P, (const uint8_t[]){2, 2, 0, 0}, 4, 3, (const uint8_t[]){1, 0, 0});
    expect(r, RECEIVE, &Q, (const uint8_t[]){2, 2, 0, 0}, 4, 1, (const uint8_t[]){1});
    expect(r, RECEIVE, &P, (const uint8_t[]){3}, 1, 0, NULL);
    expect(r, RECEIVE, &P, NULL, 0, 0, NULL);
}

/* Card P as the document prints it, and a zero byte. */
static const uint8_t bytes_of_P[21] = {0, 7, 1, 1, 0, 3, 0, 0, 0, 2, 1, 1, 0, 0, 0, 1, 2, 0, 0, 0, 0};

static void bench_cards(struct random *r)
{
    struct fields fields;
    expect_bytes(r, bytes_of_P, 20, 0, 0);
    expect_bytes(r, bytes_of_P, 19, 1, 19);
    expect_bytes(r, bytes_of_P, 21, 10, 20);
    bench_card('R', &fields);
    expect_card(r, &fields, 0);
    fields.check[1][4][1][1] = 0; /* s5 for s1 + s5 */
    expect_card(r, &fields, 9);
    bench_card('Q', &fields);
    fields.J[1] = 4;
    fields.check[1][4][1][2] = 1; /* s2 as a fourth check */
    expect_card(r, &fields, 8);
    bench_card('T', &fields);
    expect_card(r, &fields, 0);
    fields.check[1][2][1][1] = 0; /* s0, s2 for stream 1 */
    fields.check[1][2][1][2] = 1;
    expect_card(r, &fields, 8);
    bench_card('P', &fields);
    fields.m = 31;
    expect_card(r, &fields, 0);
    fields.m = 32;
    expect_card(r, &fields, 4);
    bench_card('P', &fields);
    fields.J[1] = 0;
    expect_card(r, &fields, 7);
    fields.J[1] = 11;
    expect_card(r, &fields, 7);
}

/* Ten checks, and every number as their J. Then eleven, as good as the ten: J alone is refused, and by the former rule
 * too, under which k could be stated as 1. */
static void bench_most_checks(struct random *r)
{
    struct many_checks_card ten, eleven;
    eleven_checks_card(0, &ten);
    leave_most_checks(&ten);
    for (int J = 0; J < 256; J++) {
        int refusal = J == 0 || J > 10 ? 7 : J < 10 ? 10 : 0;
        ten.bytes[34] = (uint8_t)J;
        expect_bytes(r, ten.bytes, 85, refusal, refusal == 10 ? 35 + 5 * (size_t)J : 34);
    }
    eleven_checks_card(0, &eleven);
    expect_bytes(r, eleven.bytes, 90, 7, 34);
    expect_not_rewritten(eleven.bytes, 90, 7, 34);
    eleven_checks_card(1, &eleven);
    expect_bytes(r, eleven.bytes, 91, 18, 2);
    expect_not_rewritten(eleven.bytes, 91, 7, 35);
    leave_most_checks(&eleven);
    rewrite_stored(r, eleven.bytes, 86);
}

/* P with k stated as 1, with n stated as 2, and with both: refused, and rewritten as P. Then cards that end in or just
 * after a stated default, or have n out of its range after it; and n stated as 2 where it isn't in range. */
static void bench_stated(struct random *r)
{
    static const uint8_t stored[3][22] = {{1, 7, 1, 1, 1, 0, 3, 0, 0, 0, 2, 1, 1, 0, 0, 0, 1, 2, 0, 0, 0},
                                          {2, 7, 2, 1, 1, 0, 3, 0, 0, 0, 2, 1, 1, 0, 0, 0, 1, 2, 0, 0, 0},
                                          {3, 7, 1, 2, 1, 1, 0, 3, 0, 0, 0, 2, 1, 1, 0, 0, 0, 1, 2, 0, 0, 0}};
    uint8_t bytes[MOST_CARD_BYTES];
    for (int turn = 0; turn < 3; turn++) {
        size_t length = turn == 2 ? 22 : 21;
        expect_bytes(r, stored[turn], length, 18, 2);
        rewrite_stored(r, stored[turn], length);
        if (reference_rewrite(stored[turn], length, bytes) != 20 || memcmp(bytes, bytes_of_P, 20) != 0)
            fail("a stored P is not rewritten as P");
        expect_bytes(r, stored[turn], 2, 1, 2);
        expect_bytes(r, stored[turn], 3, 18, 2);
    }
    for (int n = 0; n < 256; n++) {
        const uint8_t under_1[] = {3, 7, 1, (uint8_t)n}, under_2[] = {3, 10, 2, (uint8_t)n};
        int in_range = n >= 3 && n <= 8;
        expect_bytes(r, under_1, 4, 18, 2);
        expect_bytes(r, under_2, 4, in_range ? 1 : 3, in_range ? 4 : 3);
    }
}

/* The bench's cards, written into every room from none to more than enough. */
static void bench_written(struct random *r)
{
    struct fields fields;
    uint8_t card[MOST_CARD_BYTES];
    for (int turn = 0; turn < 4; turn++) {
        bench_card("PQRT"[turn], &fields);
        size_t length = card_bytes(&fields, 0, 0, card);
        write_out(r, &fields, card, length);
        for (size_t room = 0; room <= length + 3; room++)
            write_into(r, room, card, length);
    }
}

/* With length 0 a pointer may be null. */
static void null_pointers(void)
{
    static const uint8_t card_of_m_0[] = {0, 0, 0, 1, 0, 1, 0, 0, 0, 1, 1, 1, 0, 0, 0};
    uint8_t frame = 3, out = 9;
    now.card = card_of_m_0, now.card_length = sizeof card_of_m_0;
    now.input = NULL, now.input_length = 0;
    if (burst_send(NULL, 0, NULL, 0, NULL, 0) != -1 || burst_receive(NULL, 0, NULL, 0, NULL, 0) != -1)
        fail("no card at all is not refused with 1");
    if (burst_send(card_of_m_0, sizeof card_of_m_0, NULL, 0, NULL, 0) != 0 ||
        burst_receive(card_of_m_0, sizeof card_of_m_0, NULL, 0, NULL, 0) != 0)
        fail("an empty burst at m = 0 does not answer 0");
    if (burst_receive(card_of_m_0, sizeof card_of_m_0, &frame, 1, NULL, 0) != -13 ||
        burst_receive(card_of_m_0, sizeof card_of_m_0, &frame, 1, &out, 1) != 1 || out != 1)
        fail("one frame at m = 0 does not come out");
    if (card_write(NULL, 0, NULL, 0) != -1 || card_write(card_of_m_0, sizeof card_of_m_0, NULL, 0) != -13)
        fail("no card at all is not refused with 1 by card_write, or no room with 13");
    for (uint32_t checks = 0; checks <= 9; checks++)
        if (standard_card(checks, NULL, 0) != (has_standard_card(checks) ? -13 : 0))
            fail("no room is not answered by 13, or by 0 where there is no standard card, for J %d", (int)checks);
}

/* ---- Erased digits and levels ---- */

/* A stream for sessions, with some digits erased: what comes out of it, and whether it has to be what was sent. */
struct erased_case {
    char card;
    int whole; /* frames, tail included */
    uint8_t sent[6], received[6], erased[6], out[3];
    int must;
};

static void expect_erased(const struct erased_case *expectation)
{
    struct fields fields;
    struct transmission t;
    uint8_t frames[LONGEST_STREAM];
    bench_card(expectation->card, &fields);
    t.whole = expectation->whole, t.count = t.whole - fields.m;
    memcpy(t.sent, expectation->sent, sizeof expectation->sent);
    memcpy(t.received, expectation->received, sizeof expectation->received);
    memcpy(t.erased, expectation->erased, sizeof expectation->erased);
    receive_by_both(&fields, &t, frames);
    if (memcmp(frames, expectation->out, (size_t)t.count) != 0 || correctable(&fields, &t) != expectation->must)
        fail_erased(&fields, &t, "the bench's case with erased digits gives other frames, or the condition is another");
}

/* Document 02 states no cases for R-6: these follow from its paragraph by hand. */
static void bench_erased(void)
{
    static const struct erased_case cases[] = {
        /* The own digit, a 1: both checks vote, and put it right. */
        {'P', 4, {3, 2, 3, 2}, {3, 2, 3, 2}, {1, 0, 0, 0}, {1, 0, 1}, 1},
        /* A parity digit, the first or the next: one check is left. */
        {'P', 4, {3, 2, 3, 2}, {3, 2, 3, 2}, {2, 0, 0, 0}, {1, 0, 1}, 1},
        {'P', 4, {3, 2, 3, 2}, {2, 2, 3, 2}, {0, 2, 0, 0}, {1, 0, 1}, 0},
        /* The own digit and its frame's parity digit: the check that is left decides, but it stands no wrong digit. */
        {'P', 4, {3, 2, 3, 2}, {3, 2, 3, 2}, {3, 0, 0, 0}, {1, 0, 1}, 0},
        /* And the next parity digit: no check is left, and the 0 comes out that the digit was taken as. */
        {'P', 4, {3, 2, 3, 2}, {3, 2, 3, 2}, {3, 2, 0, 0}, {0, 0, 1}, 0},
        /* At time 1 the erased digit of time 0 is decided: both checks vote, and one of them being wrong it's a tie. */
        {'P', 4, {3, 2, 3, 2}, {3, 2, 1, 2}, {1, 0, 0, 0}, {1, 0, 1}, 1},
        /* All digits: what was sent comes out only if it was zeros, and then it has to. */
        {'P', 4, {3, 2, 3, 2}, {3, 2, 3, 2}, {3, 3, 3, 3}, {0, 0, 0}, 0},
        {'P', 4, {0, 0, 0, 0}, {3, 3, 3, 3}, {3, 3, 3, 3}, {0, 0, 0}, 1},
        /* Stream 2's digit is not the own one of stream 1's checks: the second, which is wrong, is left alone. */
        {'T', 4, {5, 4, 0, 0}, {5, 0, 0, 0}, {2, 0, 0, 0}, {0, 0}, 0},
        /* s1 + s5 contains the digit of time 1 twice and doesn't touch it: it votes, s4 doesn't; two of three are 1. */
        {'R', 6, {0, 0, 0, 0, 0, 0}, {2, 2, 0, 0, 0, 0}, {0, 1, 0, 0, 0, 0}, {1}, 0},
    };
    for (size_t turn = 0; turn < sizeof cases / sizeof *cases; turn++)
        expect_erased(&cases[turn]);
}

/* What is handed out of a frame of three digits, the second by this reading and the others given. The card has m 0 and
 * both parity digits equal to the information digit, each with a check. Readings after the third are not looked at. */
static struct answer handed_out(enum circuit circuit, int first, struct reading second, int third)
{
    struct fields card = {.k = 1, .n = 3, .p = 2, .m = 0, .J = {0, 2}};
    struct reading readings[8] = {{0, first ? 1 : -1}, second, {0, third ? 1 : -1}};
    struct receiving session;
    card.g[1][1][0] = card.g[1][2][0] = 1;
    card.check[1][1][1][0] = card.check[1][2][2][0] = 1;
    for (int s = 3; s < 8; s++)
        readings[s].level = NAN;
    reference_open_receiving(&session, circuit, &card);
    struct answer answer = reference_receive_readings(&session, card.number, readings);
    reference_close_receiving(&session);
    return answer;
}

enum { ERASED = 2 };

/* What the reading yields: a digit, ERASED, or a refusal. Of 1, x, 0 comes 1 only if x is 1, and the votes are a tie; of
 * 0, x, 1 likewise 0 only if x is 0. With x erased the other check alone votes, both times against the first digit. */
static int yield_of(enum circuit circuit, struct reading reading)
{
    struct answer under_1 = handed_out(circuit, 1, reading, 0), under_0 = handed_out(circuit, 0, reading, 1);
    if (under_1.kind == REFUSED || under_0.kind == REFUSED)
        return under_1.kind == under_0.kind && under_1.value == under_0.value ? under_1.value : -1;
    if (under_1.value == under_0.value)
        return under_1.value;
    return under_1.value == 0 ? ERASED : -1;
}

static void expect_yield(uint32_t bits, int marked, int yield)
{
    struct reading reading = {.erased = marked};
    memcpy(&reading.level, &bits, sizeof bits);
    now.function = "the reference's readings";
    now.card_length = now.input_length = now.output_length = 0;
    for (enum circuit circuit = TYPE_I; circuit <= TYPE_II; circuit++)
        if (yield_of(circuit, reading) != yield)
            fail("the level %08lx, its mark %d, does not yield %d in circuit %d", (unsigned long)bits, marked, yield,
                 circuit == TYPE_I ? 1 : 2);
}

/* What levels yield by document 02's R-7. Beside the mark 'erased' they are not looked at. */
static void bench_levels(void)
{
    static const struct { uint32_t bits; int yield; } levels[] = {
        {0x3e7fffff, ERASED}, {0x3e800000, 1}, {0x3e800001, 1},         /* 0.25 and its neighbours */
        {0xbe7fffff, ERASED}, {0xbe800000, 0}, {0xbe800001, 0},         /* the same below zero */
        {0x00000000, ERASED}, {0x80000000, ERASED},                     /* zeros */
        {0x00000001, ERASED}, {0x80000001, ERASED},                     /* the least and the largest subnormal */
        {0x007fffff, ERASED}, {0x807fffff, ERASED},
        {0x00800000, ERASED}, {0x80800000, ERASED},                     /* the least normal */
        {0x3e000000, ERASED}, {0xbe000000, ERASED},                     /* 0.125 */
        {0x3f000000, 1}, {0xbf000000, 0}, {0x3f800000, 1}, {0xbf800000, 0}, /* 0.5, 1 */
        {0x7f7fffff, 1}, {0xff7fffff, 0},                               /* the largest */
        {0x7f800000, 12}, {0xff800000, 12},                             /* infinite */
        {0x7fc00000, 12}, {0xffc00000, 12}, {0x7f800001, 12}, {0xff800001, 12}, {0x7fffffff, 12}, {0xffffffff, 12},
    };
    for (size_t turn = 0; turn < sizeof levels / sizeof *levels; turn++) {
        expect_yield(levels[turn].bits, 0, levels[turn].yield);
        expect_yield(levels[turn].bits, 1, ERASED);
    }
}

/* ---- All of them ---- */

void bench_round(struct random *r)
{
    bench_bursts(r);
    bench_cards(r);
    bench_most_checks(r);
    bench_stated(r);
    bench_written(r);
    bench_erased();
    bench_levels();
    null_pointers();
}
