#define _POSIX_C_SOURCE 200809L
#include "measure.h"

#include "burst.h"
#include "must.h"
#include "plain_one.h"
#include "sessions.h"

#include <string.h>
#include <time.h>

uint8_t output[MOST_FRAMES];

/* ---- The proved ways ---- */

int32_t library_reads(const struct call *c)
{
    return burst_receive(c->subject->card, c->subject->card_length, NULL, 0, NULL, 0);
}

int32_t library_sends(const struct call *c)
{
    return burst_send(c->subject->card, c->subject->card_length, c->input, c->input_length, output, sizeof output);
}

int32_t library_receives(const struct call *c)
{
    return burst_receive(c->subject->card, c->subject->card_length, c->input, c->input_length, output, sizeof output);
}

int32_t session_sends(const struct call *c)
{
    return session_send(c->subject->card, c->subject->card_length, c->input, c->input_length, output, sizeof output);
}

int32_t session_receives(const struct call *c)
{
    return session_receive(c->subject->card, c->subject->card_length, c->input, c->input_length, output, sizeof output);
}

/* ---- The plain ways, which read the card in every call as well ---- */

typedef long by_card(const struct plain_card *card, const uint8_t *in, size_t count, uint8_t *out);

static int read_into(const struct call *c, struct plain_card *card)
{
    size_t offset;
    int refused = plain_read(c->subject->card, c->subject->card_length, card, &offset);
    /* As if both were looked at, lest the compiler leave out what nobody uses. */
    __asm__ volatile("" : : "r"(card), "r"(&offset) : "memory");
    return refused;
}

static int32_t read_and_make(by_card *make, const struct call *c)
{
    struct plain_card card;
    int refused = read_into(c, &card);
    return refused ? -refused : (int32_t)make(&card, c->input, c->input_length, output);
}

int32_t generic_reads(const struct call *c)
{
    struct plain_card card;
    return -read_into(c, &card);
}

int32_t generic_sends(const struct call *c)
{
    return read_and_make(plain_send, c);
}

int32_t generic_receives(const struct call *c)
{
    return read_and_make(plain_receive, c);
}

int32_t specialised_sends(const struct call *c)
{
    return read_and_make(specialised_send, c);
}

int32_t specialised_receives(const struct call *c)
{
    return read_and_make(specialised_receive, c);
}

int32_t best_sends(const struct call *c)
{
    return read_and_make(best_send, c);
}

int32_t best_receives(const struct call *c)
{
    return read_and_make(best_receive, c);
}

/* ---- Measuring ---- */

enum {
    SHORT_INPUT = 1024,  /* below it a call is made several times in a turn: the clock is too coarse for one */
    CALLS_IF_SHORT = 20,
    LEAST_TURNS = 5      /* even if they take longer than a row should */
};

static const double row_ns = 0.4e9;

static double now_ns(void)
{
    struct timespec t;
    clock_gettime(CLOCK_MONOTONIC, &t);
    return 1e9 * (double)t.tv_sec + (double)t.tv_nsec;
}

static void take_turn(way *make, const struct call *call, double *least)
{
    int calls = call->input_length < SHORT_INPUT ? CALLS_IF_SHORT : 1;
    double started = now_ns();
    for (int c = 0; c < calls; c++)
        must(make(call) == call->answer, "every call has the answer that it should");
    double took = (now_ns() - started) / calls;
    if (*least == 0 || took < *least)
        *least = took;
}

void measure(way *const ways[], int count, const struct call *call, double least[])
{
    double started = now_ns();
    memset(least, 0, (size_t)count * sizeof *least);
    for (int turn = 0; turn < LEAST_TURNS || now_ns() - started < row_ns; turn++)
        for (int w = 0; w < count; w++)
            take_turn(ways[w], call, &least[w]);
}

static void make_once(way *make, const struct call *call)
{
    memset(output, 0xff, (size_t)call->answer); /* no frames of a way before it */
    must(make(call) == call->answer, "every call has the answer that it should");
}

void compare_frames(way *const ways[], int count, const struct call *call)
{
    static uint8_t first[MOST_FRAMES];
    make_once(ways[0], call);
    memcpy(first, output, (size_t)call->answer);
    for (int w = 1; w < count; w++) {
        make_once(ways[w], call);
        must(memcmp(output, first, (size_t)call->answer) == 0, "all ways of a row give the same frames");
    }
}
