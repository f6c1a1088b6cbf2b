/* Sets the program `trace`, and by it the sessions, against the reference: random cards with the offsets of their
 * refusals, cards that state a default or have too many checks among them, random mixtures of bytes and readings, single
 * digits, whole frames and all digits erased, by the mark and by levels near zero, wrong numbers, refused calls in between,
 * figures after every call, sending past the tail, every kind of f32. What the program writes is compared byte by byte.
 *
 * The two receivers are also set against each other, without the reference: of the same calls by session 0 and by
 * session 1 the program must have written the same lines. So it must where one of them gets a frame as a byte and the
 * other as levels outside the band, or with its digits erased in another way. Most of the streams for this are beyond the
 * correctable number.
 *
 * And what comes out is set against what was sent, without the reference's receivers: of a stream that is received
 * whole and isn't beyond the correctable number the program must have written the information frames.
 *
 *     trace_driver PROGRAM                  everything, with the seed that is always the same
 *     trace_driver PROGRAM SEED             everything, with another seed
 *     trace_driver PROGRAM SEED TRACE       one trace again: a failure prints both numbers
 *     trace_driver --receivers PROGRAM ..   as above, but the receivers against each other only
 *     trace_driver --sent PROGRAM ..        as above, but what comes out against what was sent only
 *
 * PROGRAM may be a command with arguments. Refusal 15 is out of reach here: it needs more frames than fit a trace. */
#include "comparing.h"
#include "making.h"
#include "running.h"
#include "trace.h"

#include <stdio.h>
#include <stdlib.h>
#include <string.h>

enum { TRACES = 2500 };

static struct trace_counts counts;

/* ---- One trace ---- */

/* What the program is set against. */
static enum { EVERYTHING, RECEIVERS, SENT } against;

static void print_trace(uint64_t seed, long number)
{
    printf("again: trace_driver PROGRAM %llu %ld\ninput (%zu bytes)", (unsigned long long)seed, number, length);
    for (size_t b = 0; b < length; b++)
        printf("%s%02x", b % 32 == 0 ? "\n  " : " ", trace[b]);
    printf("\n");
}

static int try_trace(const char *program, uint64_t seed, long number)
{
    struct random r = {seed * 1000003u + (uint64_t)number};
    struct text right = {NULL, 0, 0};
    make_trace(&r);
    reference_trace(trace, length, &right, &counts);
    struct text written = run(program);
    int same = written.length > 0;
    if (against != SENT)
        same = same && as_each_other(&written);
    if (against != RECEIVERS)
        same = same && as_it_must(&written);
    if (against == EVERYTHING)
        same = as_the_reference(&written, &right) && same;
    if (!same)
        print_trace(seed, number);
    free(written.bytes);
    free(right.bytes);
    return same;
}

/* ---- What was tried ---- */

static void print_answers(const char *who, const struct answer_counts *answers)
{
    printf("%s: %ld waiting, %ld frames; refused:", who, answers->waiting, answers->frames);
    for (int number = 11; number <= 17; number++)
        if (answers->refused[number])
            printf(" %d: %ld", number, answers->refused[number]);
    printf("\n");
}

/* Those with a sign also by themselves: the band has two sides. */
static void print_levels(void)
{
    static const char *const kinds[LEVELS] = {
        "marks", "zero", "subnormal", "others in the band", "the last in it", "0.25", "the first beyond", "others beyond"};
    printf("readings of frames taken (with a sign):");
    for (int level = 0; level < LEVELS; level++)
        printf("%s %s: %ld (%ld)", level == 0 ? "" : ";", kinds[level], counts.levels[0][level] + counts.levels[1][level],
               counts.levels[1][level]);
    printf("\n");
}

static void print_counts(long traces)
{
    printf("%ld traces, %ld records: %ld figures, %ld selections\n", traces, counts.records, counts.figures,
           counts.selections);
    printf("ended by `s` alone: %ld, by `s` with another X: %ld, by `f` in session 1: %ld\n", counts.cut_selections,
           counts.other_selections, counts.second_figures);
    printf("cards refused:");
    for (int number = 1; number <= HIGHEST_REFUSAL; number++)
        if (refuses_cards(number))
            printf(" %d: %ld", number, counts.cards_refused[number]);
    printf("\nof stored cards that state k as 1: %ld, n as 2: %ld\n", stating.default_k, stating.default_n);
    printf("cards good but for J above %d: %ld; accepted ones with that J: %ld\n", MOST_CHECKS, many_checks.too_many,
           many_checks.most);
    print_answers("receiving session 0", &counts.received[0]);
    print_answers("receiving session 1", &counts.received[1]);
    print_answers("sending session", &counts.sent);
    print_levels();
    printf("%ld calls answered alike by sessions 0 and 1, %ld of them by a frame; %ld got it as a byte and as levels "
           "outside the band, %ld as unlike readings\n",
           alike.calls, alike.frames, alike.byte_and_levels, alike.unlike_readings);
    printf("%ld streams received whole by both, %ld of them beyond the correctable number; frames: %ld, %ld beyond\n",
           alike.streams, alike.streams_beyond, alike.stream_frames, alike.stream_frames_beyond);
    printf("%ld streams received whole by both or by one had to come out as sent\n", whole_streams.as_sent);
    printf("with erased digits: %ld of them, and %ld beyond the correctable number; decisions in which a check did not "
           "vote: %ld, in which none did: %ld; erased information digits 1 that had to come out: %ld; digits erased by a "
           "level where the stream had to: %ld\n",
           whole_streams.erased_as_sent, whole_streams.erased_beyond, whole_streams.some_silent,
           whole_streams.all_silent, whole_streams.restored, whole_streams.erased_by_level);
}

/* ---- Whether it is enough ---- */

static int all_refused(const struct answer_counts *answers, const int numbers[3])
{
    return answers->refused[numbers[0]] > 0 && answers->refused[numbers[1]] > 0 && answers->refused[numbers[2]] > 0;
}

static int every_answer(void)
{
    static const int met_by_receiving[] = {11, 12, 14}, met_by_sending[] = {11, 16, 17};
    int every = all_refused(&counts.sent, met_by_sending) && counts.sent.frames > 0 && counts.figures > 0 &&
                counts.selections > 0;
    for (int session = 0; session < 2; session++) {
        const struct answer_counts *received = &counts.received[session];
        every = every && all_refused(received, met_by_receiving) && received->waiting > 0 && received->frames > 0;
    }
    for (int number = 1; number <= HIGHEST_REFUSAL; number++)
        every = every && (!refuses_cards(number) || counts.cards_refused[number] > 0);
    return every && counts.cut_selections > 0 && counts.other_selections > 0 && counts.second_figures > 0;
}

static int stated_enough(void)
{
    int enough = counts.cards_refused[18] >= 100 && stating.default_k >= 50 && stating.default_n >= 30;
    for (int way = 0; way < WAYS_OF_STATING; way++)
        enough = enough && stating.ways[way] >= 10;
    return enough;
}

static int checks_enough(void)
{
    return many_checks.too_many >= 10 && many_checks.most >= 30;
}

/* Every kind on both sides of zero. */
static int levels_enough(void)
{
    int enough = 1;
    for (int level = 0; level < LEVELS; level++)
        enough = enough && counts.levels[0][level] >= 1000 && counts.levels[1][level] >= 1000;
    return enough;
}

static int most_beyond(void)
{
    return alike.streams >= 300 && alike.byte_and_levels >= 1000 && alike.unlike_readings >= 1000 &&
           2 * alike.streams_beyond > alike.streams &&
           2 * alike.stream_frames_beyond > alike.stream_frames;
}

static int erased_enough(void)
{
    return whole_streams.erased_as_sent >= 50 && whole_streams.erased_beyond >= 50 &&
           whole_streams.some_silent >= 1000 && whole_streams.all_silent >= 1000 && whole_streams.restored >= 50 &&
           whole_streams.erased_by_level >= 300;
}

static int tried_enough(void)
{
    int every = every_answer(), stated = stated_enough(), checks = checks_enough(), levels = levels_enough();
    int alike_enough = against == SENT || most_beyond(), erased = against == RECEIVERS || erased_enough();
    if (!every)
        printf("FAILED: some answer or end never occurred\n");
    if (!stated)
        printf("FAILED: too few cards that state a default, or too few in some way\n");
    if (!checks)
        printf("FAILED: too few cards with the most checks, or with more\n");
    if (!levels)
        printf("FAILED: too few levels of a kind, on one side of zero or on both\n");
    if (!alike_enough)
        printf("FAILED: too few streams or unlike calls for both receivers, or not most of the streams beyond the "
               "correctable number\n");
    if (!erased)
        printf("FAILED: too few streams with erased digits, or too few of a kind\n");
    return every && stated && checks && levels && alike_enough && erased;
}

/* ---- The run ---- */

int main(int argc, char **argv)
{
    if (argc > 1)
        against = strcmp(argv[1], "--receivers") == 0 ? RECEIVERS : strcmp(argv[1], "--sent") == 0 ? SENT : EVERYTHING;
    argc -= against != EVERYTHING;
    argv += against != EVERYTHING;
    if (argc < 2) {
        fprintf(stderr, "usage: trace_driver [--receivers | --sent] PROGRAM [SEED [TRACE]]\n");
        return 2;
    }
    uint64_t seed = argc > 2 ? strtoull(argv[2], NULL, 10) : 1;
    if (argc > 3)
        return try_trace(argv[1], seed, strtol(argv[3], NULL, 10)) ? 0 : 1;
    printf("seed %llu\n", (unsigned long long)seed);
    fflush(stdout);
    for (long number = 0; number < TRACES; number++)
        if (!try_trace(argv[1], seed, number))
            return 1;
    print_counts(TRACES);
    return tried_enough() ? 0 : 1;
}
