#include "comparing.h"

#include "making.h"

#include <stdio.h>
#include <string.h>

struct alike alike;
struct whole_streams whole_streams;

/* ---- With the reference ---- */

static void print_line(const char *who, const struct text *text, size_t start)
{
    size_t end = start;
    while (end < text->length && text->bytes[end] != '\n')
        end++;
    printf("  %s: %.*s\n", who, (int)(end - start), text->bytes + start);
}

static void report_difference(const struct text *written, const struct text *right)
{
    size_t at = 0, line_start = 0;
    long line = 1;
    while (at < written->length && at < right->length && written->bytes[at] == right->bytes[at]) {
        if (written->bytes[at] == '\n') {
            line++;
            line_start = at + 1;
        }
        at++;
    }
    printf("FAILED: the outputs differ from line %ld on\n", line);
    print_line("the program  ", written, line_start);
    print_line("the reference", right, line_start);
}

int as_the_reference(const struct text *written, const struct text *right)
{
    int same = written->length == right->length && memcmp(written->bytes, right->bytes, right->length) == 0;
    if (!same)
        report_difference(written, right);
    return same;
}

/* ---- The receivers with each other ---- */

/* A place in the trace: a record, the line that the program wrote for it, and the session that is selected there. */
struct place {
    size_t record, size;
    size_t line, line_length; /* without the line feed */
    int session;
};

/* Moves on by a line of the program's. Gives 0 if there is none. */
static int next_line(struct place *place, const struct text *written)
{
    size_t start = place->line + place->line_length + 1;
    const char *end = start < written->length ? memchr(written->bytes + start, '\n', written->length - start) : NULL;
    if (end == NULL)
        return 0;
    place->line = start;
    place->line_length = (size_t)(end - (written->bytes + start));
    return 1;
}

/* Before the first record: the card, and the line for it. */
static struct place at_card(const struct text *written)
{
    struct place place = {.record = 0, .session = 0};
    const char *end = memchr(written->bytes, '\n', written->length);
    place.size = length < 2 ? length : 2 + trace[0] + 256u * trace[1];
    place.line_length = end == NULL ? written->length : (size_t)(end - written->bytes);
    return place;
}

/* The bytes of a record, 0 for one of another kind. */
static size_t record_size(uint8_t kind)
{
    switch (kind) {
    case 'b':
        return 3;
    case 'r':
        return 42;
    case 's':
    case 'i':
        return 2;
    case 'f':
    case 't':
        return 1;
    default:
        return 0;
    }
}

/* Moves on to the next record. Gives 0 where no whole record is left, or the program has written no line for it. */
static int next_record(struct place *place, const struct text *written)
{
    place->record += place->size;
    place->size = place->record < length ? record_size(trace[place->record]) : 0;
    if (place->size == 0 || length - place->record < place->size || !next_line(place, written))
        return 0;
    if (trace[place->record] == 's')
        place->session = trace[place->record + 1];
    return 1;
}

/* Moves on to the next frame that a session receives. */
static int next_call(struct place *place, int session, const struct text *written)
{
    while (next_record(place, written))
        if (place->session == session && (trace[place->record] == 'b' || trace[place->record] == 'r'))
            return 1;
    return 0;
}

static int same_call(const struct place *one, const struct place *other)
{
    return one->size == other->size && memcmp(trace + one->record, trace + other->record, one->size) == 0;
}

static int same_line(const struct place *one, const struct place *other, const struct text *written)
{
    return one->line_length == other->line_length &&
           memcmp(written->bytes + one->line, written->bytes + other->line, one->line_length) == 0;
}

static int is_frame(const struct place *place, const struct text *written)
{
    return place->line_length > 6 && memcmp(written->bytes + place->line, "frame ", 6) == 0;
}

/* The stream counts if it was received whole, up to its last frame. */
static void count_alike(long same_calls)
{
    if (!stream.whole || manner != BOTH || same_calls < stream.calls)
        return;
    alike.streams++;
    alike.stream_frames += stream.count;
    if (stream.beyond) {
        alike.streams_beyond++;
        alike.stream_frames_beyond += stream.count;
    }
}

static void count_forms(const struct place *one, const struct place *other)
{
    int same_kind = trace[one->record] == trace[other->record];
    alike.byte_and_levels += !same_kind;
    alike.unlike_readings += same_kind && !same_call(one, other);
}

int as_each_other(const struct text *written)
{
    struct place plain = at_card(written), second = plain;
    long same_calls = 0, same_frames = stream.whole && manner == BOTH ? stream.calls : 0;
    while (next_call(&plain, 0, written) && next_call(&second, 1, written) &&
           (same_calls < same_frames || same_call(&plain, &second))) {
        same_calls++;
        if (!same_line(&plain, &second, written)) {
            printf("FAILED: the receivers differ, from their call %ld on\n", same_calls);
            print_line("session 0", written, plain.line);
            print_line("session 1", written, second.line);
            return 0;
        }
        alike.frames += is_frame(&plain, written);
        count_forms(&plain, &second);
    }
    alike.calls += same_calls;
    count_alike(same_calls);
    return 1;
}

/* ---- What comes out with what was sent ---- */

static int is_information(const struct place *place, const struct text *written, long u)
{
    char line[MOST_LINE];
    int size = snprintf(line, sizeof line, "frame %d", stream.sent[u] % (1 << stream.card.k));
    return place->line_length == (size_t)size && memcmp(written->bytes + place->line, line, (size_t)size) == 0;
}

/* The frames that the session hands out in the stream's calls must be its information frames, in number too. */
static int as_sent(int session, const struct text *written)
{
    struct place place = at_card(written);
    long frames = 0;
    int right = 1;
    for (long call = 0; call < stream.calls && right; call++) {
        right = next_call(&place, session, written);
        if (right && is_frame(&place, written)) {
            right = frames < stream.count && is_information(&place, written, frames);
            frames++;
        }
    }
    if (right && frames == stream.count)
        return 1;
    printf("FAILED: what session %d hands out and what was sent differ, by frame %ld of %ld\n", session, frames,
           stream.count);
    print_line("the program", written, place.line);
    return 0;
}

static void count_decision(int i, long u)
{
    int votes = reference_votes(&stream.card, stream.erased, i, u);
    int own = 1 << (i - 1);
    whole_streams.some_silent += votes < stream.card.J[i];
    whole_streams.all_silent += votes == 0;
    whole_streams.restored += !stream.beyond && (stream.erased[u] & own) && (stream.sent[u] & own);
}

static void count_whole(void)
{
    int erased = 0;
    for (long u = 0; u < stream.count + stream.card.m; u++)
        erased = erased || stream.erased[u];
    whole_streams.as_sent += !stream.beyond;
    whole_streams.erased_as_sent += erased && !stream.beyond;
    whole_streams.erased_beyond += erased && stream.beyond;
    whole_streams.erased_by_level += stream.beyond ? 0 : stream.erased_by_level;
    for (long u = 0; u < stream.count && erased; u++)
        for (int i = 1; i <= stream.card.k; i++)
            count_decision(i, u);
}

int as_it_must(const struct text *written)
{
    if (!stream.whole)
        return 1;
    count_whole();
    if (stream.beyond)
        return 1;
    return as_sent(stream.session, written) && (manner != BOTH || as_sent(1 - stream.session, written));
}
