/* Measures the library and the sessions against plain C (plain.h, plain_one.h) and a Viterbi decoder (viterbi.h), in one run
 * and as ratios, so that the machine matters little: the reading of a card, bursts of three lengths, frames of a session.
 * All read and test the card in every call; only the Viterbi decoder has none. The goals for the figures stand at the end.
 *
 * No test of time: it fails only if two ways give other answers or frames, or refuse other cards.
 *
 * Each time is the least of many turns, all ways of a row taken in turn for 0.4 seconds: long
 * enough for most of what else the machine does to be over. A burst's length is in frames as sent, the tail included. */
#include "goals.h"
#include "measure.h"
#include "must.h"
#include "readers.h"
#ifdef WITH_LIBFEC
#include "viterbi.h"
#endif

#include <stdio.h>
#include <string.h>

enum { SHORT_BURST = 64, LONG_BURST = 65536, LONGEST_BURST = MOST_FRAMES };

static uint8_t information[LONGEST_BURST], sent[LONGEST_BURST], received[LONGEST_BURST];

/* ---- The link ---- */

/* How many of the digits come wrong: one in so many, or none. */
enum wrong { NONE = 0, FEW = 50, MANY = 10 };

static const char *receiving_row(enum wrong wrong)
{
    switch (wrong) {
    case NONE:
        return "receive, clean";
    case FEW:
        return "receive, 1 in 50 wrong";
    default:
        return "receive, 1 in 10 wrong";
    }
}

static size_t information_frames(const struct subject *s, int frames)
{
    return (size_t)(frames - s->fields.m);
}

static struct call call_to_send(const struct subject *s, struct random *r, int frames)
{
    size_t count = information_frames(s, frames);
    for (size_t u = 0; u < count; u++)
        information[u] = (uint8_t)below(r, 1 << s->fields.k);
    return (struct call){s, information, count, frames};
}

/* Of what was sent last, in `sent`. */
static struct call call_to_receive(const struct subject *s, struct random *r, int frames, enum wrong wrong)
{
    memcpy(received, sent, (size_t)frames);
    if (wrong != NONE)
        for (int u = 0; u < frames; u++)
            for (int stream = 0; stream < s->fields.n; stream++)
                if (one_in(r, wrong))
                    received[u] ^= (uint8_t)(1 << stream);
    return (struct call){s, received, (size_t)frames, (int32_t)information_frames(s, frames)};
}

/* ---- Reading ---- */

static void reading_row(const struct subject *s)
{
    static way *const ways[] = {library_reads, generic_reads};
    struct call call = {s, NULL, 0, 0};
    double ns[2];
    char what[64];
    int length = snprintf(what, sizeof what, "%zu bytes, J", s->card_length);
    for (int i = 1; i <= s->fields.k; i++)
        length += snprintf(what + length, sizeof what - (size_t)length, " %d", s->fields.J[i]);
    measure(ways, 2, &call, ns);
    printf("%-9s %-26s %8.1f %8.1f %7.2f\n", s->name, what, ns[0], ns[1], ns[0] / ns[1]);
}

static void reading_table(void)
{
    printf("\n%-36s %8s %8s %7s\n", "ns to read a card", "library", "plain C", "ratio");
    for (int s = 0; s < SUBJECTS; s++)
        reading_row(&subjects[s]);
}

/* ---- Bursts ---- */

/* The ways of a row. The specialised and the best C are for k 1 and n 2 alone. */
enum { LIBRARY, GENERIC, SPECIAL, BEST, BURST_WAYS };

static way *const sending_ways[BURST_WAYS] = {library_sends, generic_sends, specialised_sends, best_sends};
static way *const receiving_ways[BURST_WAYS] = {library_receives, generic_receives, specialised_receives, best_receives};

/* A row's figures; of the ways from `count` on there is none. */
static void print_figures(const double ns[], int count, double parts, int places)
{
    for (int w = 0; w < BURST_WAYS; w++) {
        if (w < count)
            printf(" %8.*f", places, ns[w] / parts);
        else
            printf(" %8s", "-");
    }
    for (int w = GENERIC; w < BURST_WAYS; w++) {
        if (w < count)
            printf(" %8.2f", ns[LIBRARY] / ns[w]);
        else
            printf(" %8s", "-");
    }
    printf("\n");
}

static void note_burst(const struct subject *s, const double ns[], int frames, enum goal best, const char *what)
{
    char row[48];
    if (frames < LONG_BURST)
        return;
    snprintf(row, sizeof row, "%d frames, %s", frames, what);
    if (has_one_of_each(s)) {
        note(best, ns[LIBRARY] / ns[BEST], s->name, row);
        note(best == BEST_MANY_WRONG ? SPECIALISED_MANY_WRONG : SPECIALISED, ns[LIBRARY] / ns[SPECIAL], s->name, row);
    }
    if (is_longest(s))
        note(LONGEST_CARD, ns[LIBRARY] / ns[GENERIC], s->name, row);
}

static void burst_row(const struct call *call, int frames, enum goal best, const char *what)
{
    const struct subject *s = call->subject;
    way *const *ways = best == BEST_SENDING ? sending_ways : receiving_ways;
    int count = has_one_of_each(s) ? BURST_WAYS : SPECIAL;
    double ns[BURST_WAYS];
    compare_frames(ways, count, call);
    measure(ways, count, call, ns);
    note_burst(s, ns, frames, best, what);
    printf("%-9s %-26s", s->name, what);
    if (frames == SHORT_BURST)
        print_figures(ns, count, 1, 1);
    else
        print_figures(ns, count, (double)information_frames(s, frames) * s->fields.k, 2);
}

static void burst_rows(const struct subject *s, int frames)
{
    static const enum wrong wrong[] = {NONE, FEW, MANY};
    static const enum goal best[] = {BEST_CLEAN, BEST_FEW_WRONG, BEST_MANY_WRONG};
    struct random r = {2};
    struct call call = call_to_send(s, &r, frames);
    burst_row(&call, frames, BEST_SENDING, "send");
    memcpy(sent, output, (size_t)frames);
    for (int w = 0; w < (frames == SHORT_BURST ? 2 : 3); w++) {
        call = call_to_receive(s, &r, frames, wrong[w]);
        burst_row(&call, frames, best[w], receiving_row(wrong[w]));
    }
}

static void burst_table(int frames, const char *head)
{
    printf("\n%-36s %8s %8s %8s %8s %8s %8s %8s\n", head, "library", "generic", "special", "best", "/generic", "/special", "/best");
    for (int s = 0; s < SUBJECTS; s++)
        burst_rows(&subjects[s], frames);
}

/* ---- The Viterbi decoder ---- */

#ifdef WITH_LIBFEC

static int32_t viterbi_decodes(const struct call *c)
{
    (void)c; /* it has its own input, of as many information digits */
    return (int32_t)viterbi_decode();
}

/* Unmeasured, for `call_to_receive`. */
static void send_random(const struct subject *s, struct random *r, int frames)
{
    struct call call = call_to_send(s, r, frames);
    must(library_sends(&call) == call.answer, "a burst is sent");
    memcpy(sent, output, (size_t)frames);
}

static void viterbi_row(const struct subject *s, struct random *r, enum wrong wrong)
{
    static way *const ways[] = {library_receives, viterbi_decodes};
    struct call call = call_to_receive(s, r, LONG_BURST, wrong);
    const char *what = receiving_row(wrong);
    double ns[2], digits = (double)call.answer;
    viterbi_send(r, information, (size_t)call.answer, wrong);
    measure(ways, 2, &call, ns);
    must(wrong != NONE || viterbi_came_as_sent(), "the Viterbi decoder gives what was sent on a clean link");
    note(VITERBI, ns[1] / ns[0], s->name, what);
    printf("%-9s %-26s %8.2f %8.2f %16.1f\n", s->name, what, ns[0] / digits, ns[1] / digits, ns[1] / ns[0]);
}

static void viterbi_table(void)
{
    printf("\n%-36s %8s %8s %16s\n", "ns a digit, 65,536 frames", "library", "Viterbi", "Viterbi/library");
    for (const struct subject *s = subjects; s < subjects + SUBJECTS; s++) {
        if (!is_main(s) || !has_one_of_each(s))
            continue;
        struct random r = {2};
        send_random(s, &r, LONG_BURST);
        viterbi_row(s, &r, NONE);
        viterbi_row(s, &r, FEW);
    }
}

#else

static void viterbi_table(void)
{
    printf("\nNo rows of a Viterbi decoder: libfec is not installed (Debian has it in libfec-dev).\n");
}

#endif

/* ---- Sessions ---- */

static void session_row(way *const ways[2], const struct call *call, const char *what)
{
    const struct subject *s = call->subject;
    double ns[2];
    compare_frames(ways, 2, call);
    measure(ways, 2, call, ns);
    note(SESSION, ns[0] / LONG_BURST, s->name, what);
    printf("%-9s %-26s %8.2f %8.2f %7.2f\n", s->name, what, ns[0] / LONG_BURST, ns[1] / LONG_BURST, ns[0] / ns[1]);
}

static void session_rows(const struct subject *s)
{
    static way *const sending[] = {session_sends, generic_sends}, *const receiving[] = {session_receives, generic_receives};
    static const enum wrong wrong[] = {NONE, FEW};
    struct random r = {2};
    struct call call = call_to_send(s, &r, LONG_BURST);
    session_row(sending, &call, "send");
    memcpy(sent, output, LONG_BURST);
    for (int w = 0; w < 2; w++) {
        call = call_to_receive(s, &r, LONG_BURST, wrong[w]);
        session_row(receiving, &call, receiving_row(wrong[w]));
    }
}

static void session_table(void)
{
    printf("\n%-36s %8s %8s %7s\n", "ns a frame of a session, of 65,536", "session", "generic", "ratio");
    for (int s = 0; s < SUBJECTS; s++)
        if (is_main(&subjects[s]))
            session_rows(&subjects[s]);
}

/* ---- The run ---- */

static void print_units(void)
{
    printf("\nA burst's length is in frames as sent, the tail of m included, and so is a session's.\n"
           "ns a digit: the time of the call by its information digits, (frames - m) * k.\n"
           "generic: the C for every card (tests/speed/plain.h); special and best: for k 1, n 2 (tests/speed/plain_one.h).\n");
}

int main(void)
{
    setvbuf(stdout, NULL, _IOLBF, 0); /* a run takes a while, and may be watched through a pipe */
    open_subjects();
    compare_card_readers();
    reading_table();
    print_units();
    burst_table(SHORT_BURST, "ns a burst of 64 frames");
    burst_table(LONG_BURST, "ns a digit, 65,536 frames");
    burst_table(LONGEST_BURST, "ns a digit, 1,048,576 frames");
    viterbi_table();
    session_table();
    print_goals();
    return 0;
}
