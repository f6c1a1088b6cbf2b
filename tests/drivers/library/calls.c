#include "calls.h"

#include "burst.h"
#include "counts.h"
#include "lent.h"

#include <signal.h>
#include <stdarg.h>
#include <stdio.h>
#include <stdlib.h>
#include <string.h>
#include <unistd.h>

struct now now;
uint8_t *expected;

static struct arena card_arena, input_arena, output_arena;

/* ---- Failing ---- */

void print_hexadecimal(const char *what, const uint8_t *bytes, size_t length)
{
    size_t shown = length < 8192 ? length : 8192;
    printf("%s (%zu bytes)", what, length);
    for (size_t b = 0; b < shown; b++)
        printf("%s%02x", b % 32 == 0 ? "\n  " : " ", bytes[b]);
    printf(shown < length ? "\n  .. (the seed and the round give the rest)\n" : "\n");
}

void fail(const char *format, ...)
{
    va_list arguments;
    va_start(arguments, format);
    printf("FAILED: ");
    vprintf(format, arguments);
    va_end(arguments);
    printf("\nagain: driver %llu %ld\n", (unsigned long long)now.seed, now.round);
    printf("%s, room for %zu output bytes\n", now.function, now.output_length);
    print_hexadecimal("card", now.card, now.card_length);
    print_hexadecimal("input", now.input, now.input_length);
    fflush(stdout);
    _exit(1);
}

static void reached_outside(int signal_number)
{
    fail("the library reached outside what was lent to it (signal %d)", signal_number);
}

/* ---- One call, by both ---- */

void begin_calls(void)
{
    make_arena(&card_arena, 2 * MOST_CARD_BYTES, READ_ONLY);
    make_arena(&input_arena, MOST_ROOM, READ_ONLY);
    make_arena(&output_arena, MOST_ROOM, READ_WRITE);
    expected = malloc(MOST_ROOM);
    signal(SIGSEGV, reached_outside);
    signal(SIGBUS, reached_outside);
}

/* A fresh output, and the same bytes as what the reference starts from. */
static void fill_output(struct random *r, size_t length)
{
    for (size_t b = 0; b < length; b++)
        expected[b] = (uint8_t)random_word(r);
}

/* What is lent to the library in a call. */
struct lent {
    const uint8_t *card, *input;
    uint8_t *output;
};

static struct lent lend_all(struct random *r, const char *function, const uint8_t *card, size_t card_length,
                            const uint8_t *input, size_t input_length, size_t output_length)
{
    struct lent lent;
    now.function = function;
    now.card = card, now.card_length = card_length;
    now.input = input, now.input_length = input_length;
    now.output_length = output_length;
    fill_output(r, output_length);
    lent.card = lend(&card_arena, card, card_length, below(r, PLACEMENTS));
    lent.input = lend(&input_arena, input, input_length, below(r, PLACEMENTS));
    lent.output = lend(&output_arena, expected, output_length, below(r, PLACEMENTS));
    return lent;
}

/* Compares what both leave behind, counts the call, and gives its answer. */
static int32_t compare(struct calls *calls, int32_t answer, int32_t reference_answer)
{
    if (answer != reference_answer)
        fail("the library answers %d, the reference %d", (int)answer, (int)reference_answer);
    if (!holds(&output_arena, expected)) {
        print_hexadecimal("output of the library", lent_bytes(&output_arena), now.output_length);
        print_hexadecimal("output of the reference", expected, now.output_length);
        fail("the output differs, or bytes around it were written (answer %d)", (int)answer);
    }
    if (!holds(&card_arena, now.card))
        fail("the card or bytes around it were written");
    if (!holds(&input_arena, now.input))
        fail("the input or bytes around it were written");
    calls->made++;
    if (answer < 0)
        calls->refused[-answer]++;
    return answer;
}

int32_t call(struct random *r, enum direction direction, const uint8_t *card, size_t card_length,
             const uint8_t *input, size_t input_length, size_t output_length)
{
    int32_t (*library)(const uint8_t *, size_t, const uint8_t *, size_t, uint8_t *, size_t) =
        direction == SEND ? burst_send : burst_receive;
    int32_t (*reference)(const uint8_t *, size_t, const uint8_t *, size_t, uint8_t *, size_t) =
        direction == SEND ? reference_burst_send : reference_burst_receive;
    struct lent lent = lend_all(r, direction == SEND ? "burst_send" : "burst_receive", card, card_length, input,
                                input_length, output_length);
    int32_t answer = library(lent.card, card_length, lent.input, input_length, lent.output, output_length);
    return compare(&counts.bursts, answer, reference(card, card_length, input, input_length, expected, output_length));
}

int32_t call_write(struct random *r, const uint8_t *card, size_t card_length, size_t output_length)
{
    struct lent lent = lend_all(r, "card_write", card, card_length, NULL, 0, output_length);
    int32_t answer = card_write(lent.card, card_length, lent.output, output_length);
    return compare(&counts.writes, answer, reference_card_write(card, card_length, expected, output_length));
}

int32_t call_standard(struct random *r, uint32_t checks, size_t output_length)
{
    static char function[40];
    snprintf(function, sizeof function, "standard_card with J %lu", (unsigned long)checks);
    struct lent lent = lend_all(r, function, NULL, 0, NULL, 0, output_length);
    int32_t answer = standard_card(checks, lent.output, output_length);
    return compare(&standard.calls, answer, reference_standard_card(checks, expected, output_length));
}

int accepted(struct random *r, const uint8_t *card, size_t length)
{
    int32_t sent = call(r, SEND, card, length, NULL, 0, MOST_MEMORY);
    int32_t received = call(r, RECEIVE, card, length, NULL, 0, 0);
    int32_t count = call_write(r, card, length, MOST_CARD_BYTES);
    if ((sent < 0 ? sent : 0) != received || (count < 0 ? count : 0) != received)
        fail("burst_send says %d of the card, burst_receive %d, card_write %d", (int)sent, (int)received, (int)count);
    call_write(r, card, length, 0); /* 13, but the card's refusals come before it */
    counts.cards++;
    if (sent < 0)
        counts.cards_refused[-sent]++;
    else
        counts.cards_accepted++;
    return sent >= 0;
}

void receive_by_second(const uint8_t *card, size_t card_length, const uint8_t *input, long input_length,
                       long count)
{
    uint8_t frames[LONGEST_STREAM] = {0};
    int32_t answer = reference_burst_receive_by_digits(card, card_length, input, (size_t)input_length, frames,
                                                       (size_t)count);
    if (answer != count || memcmp(frames, lent_bytes(&output_arena), (size_t)count) != 0) {
        print_hexadecimal("output of the library", lent_bytes(&output_arena), (size_t)count);
        print_hexadecimal("output of the second circuit", frames, (size_t)count);
        fail("by the second circuit other frames are received (answer %d)", (int)answer);
    }
}
