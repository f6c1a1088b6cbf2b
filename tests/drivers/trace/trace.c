#include "trace.h"

#include "reference/reference.h"

#include <float.h>
#include <math.h>
#include <stdarg.h>
#include <stdio.h>
#include <stdlib.h>
#include <string.h>

static void add_line(struct text *text, const char *format, ...)
{
    if (text->room - text->length < MOST_LINE) {
        text->room = 2 * text->room + 4096;
        text->bytes = realloc(text->bytes, text->room);
        if (text->bytes == NULL) {
            fprintf(stderr, "trace: no memory\n");
            exit(2);
        }
    }
    va_list arguments;
    va_start(arguments, format);
    int written = vsnprintf(text->bytes + text->length, MOST_LINE, format, arguments);
    va_end(arguments);
    text->length += (size_t)written;
    text->bytes[text->length++] = '\n';
}

static void add_answer(struct text *text, struct answer answer, struct answer_counts *counts)
{
    switch (answer.kind) {
    case WAITING:
        counts->waiting++;
        add_line(text, "waiting");
        break;
    case FRAME:
        counts->frames++;
        add_line(text, "frame %d", answer.value);
        break;
    default:
        counts->refused[answer.value]++;
        add_line(text, "refused %d", answer.value);
        break;
    }
}

/* Eight readings of five bytes: a tag, 0 for a level and 1 for erased, and the level's four bytes, the lowest first.
 * Gives 0 for another tag, which makes the record one of another kind, also where the reading is not looked at. */
static int readings_of(const uint8_t *bytes, struct reading readings[8])
{
    for (int s = 0; s < 8; s++) {
        const uint8_t *reading = bytes + 5 * s;
        if (reading[0] > 1)
            return 0;
        uint32_t pattern = reading[1] + 256u * reading[2] + 65536u * reading[3] + 16777216u * reading[4];
        readings[s].erased = reading[0];
        memcpy(&readings[s].level, &pattern, sizeof pattern);
    }
    return 1;
}

static enum level level_of(const struct reading *reading)
{
    float magnitude = fabsf(reading->level);
    if (reading->erased)
        return MARKED;
    if (magnitude == 0)
        return ZERO;
    if (magnitude < FLT_MIN)
        return SUBNORMAL;
    if (magnitude == nextafterf(0.25f, 0))
        return LAST_IN_BAND;
    if (magnitude == nextafterf(0.25f, 1))
        return FIRST_BEYOND;
    return magnitude < 0.25f ? IN_BAND : magnitude == 0.25f ? QUARTER : BEYOND;
}

static void count_levels(const struct reading readings[8], int n, struct trace_counts *counts)
{
    for (int s = 0; s < n; s++)
        counts->levels[signbit(readings[s].level) != 0][level_of(&readings[s])]++;
}

/* The sessions that a trace drives: session X is receiving[X]. */
struct sessions {
    struct receiving receiving[2];
    int selected;
    struct sending sending;
};

static void open_sessions(struct sessions *sessions, const struct fields *card,
                          void (*spoil)(int session, struct fields *card))
{
    for (int session = 0; session < 2; session++) {
        struct fields own = *card;
        spoil(session, &own);
        reference_open_receiving(&sessions->receiving[session], session == 0 ? TYPE_I : TYPE_II, &own);
    }
    reference_open_sending(&sessions->sending, card);
    sessions->selected = 0;
}

static void close_sessions(struct sessions *sessions)
{
    reference_close_receiving(&sessions->receiving[0]);
    reference_close_receiving(&sessions->receiving[1]);
    reference_close_sending(&sessions->sending);
}

/* The record `s`. As below, gives its length, or 0 for a bad record. */
static size_t select_session(const uint8_t *record, size_t left, struct sessions *sessions, struct text *text,
                             struct trace_counts *counts)
{
    if (left < 2) {
        counts->cut_selections++;
        return 0;
    }
    if (record[1] > 1) {
        counts->other_selections++;
        return 0;
    }
    counts->selections++;
    sessions->selected = record[1];
    add_line(text, "session %d", sessions->selected);
    return 2;
}

/* The record `r`. */
static size_t receive_readings(const uint8_t *record, size_t left, struct receiving *receiving, struct text *text,
                               struct answer_counts *received, struct trace_counts *counts)
{
    struct reading readings[8];
    if (left < 42 || !readings_of(record + 2, readings))
        return 0;
    struct answer answer = reference_receive_readings(receiving, record[1], readings);
    if (answer.kind != REFUSED)
        count_levels(readings, receiving->card.n, counts);
    add_answer(text, answer, received);
    return 42;
}

/* The record `f`. The second circuit gives no link figure. */
static size_t tell_figure(const struct sessions *sessions, struct text *text, struct trace_counts *counts)
{
    if (sessions->selected == 1) {
        counts->second_figures++;
        return 0;
    }
    counts->figures++;
    add_line(text, "figure %ld", reference_link_figure(&sessions->receiving[0]));
    return 1;
}

/* Does what one record asks. Gives its length, or 0 for a record that is cut short or of another kind. */
static size_t one_record(const uint8_t *record, size_t left, struct sessions *sessions, struct text *text,
                         struct trace_counts *counts)
{
    struct receiving *receiving = &sessions->receiving[sessions->selected];
    struct answer_counts *received = &counts->received[sessions->selected];
    switch (record[0]) {
    case 's':
        return select_session(record, left, sessions, text, counts);
    case 'b':
        if (left < 3)
            return 0;
        add_answer(text, reference_receive_byte(receiving, record[1], record[2]), received);
        return 3;
    case 'r':
        return receive_readings(record, left, receiving, text, received, counts);
    case 'f':
        return tell_figure(sessions, text, counts);
    case 'i':
        if (left < 2)
            return 0;
        add_answer(text, reference_send(&sessions->sending, record[1]), &counts->sent);
        return 2;
    case 't':
        add_answer(text, reference_send_tail(&sessions->sending), &counts->sent);
        return 1;
    default:
        return 0;
    }
}

static void all_records(const uint8_t *records, size_t length, struct sessions *sessions, struct text *text,
                        struct trace_counts *counts)
{
    for (size_t at = 0; at < length;) {
        size_t size = one_record(records + at, length - at, sessions, text, counts);
        if (size == 0) {
            add_line(text, "bad record");
            return;
        }
        counts->records++;
        at += size;
    }
}

static void not_at_all(int session, struct fields *card)
{
    (void)session;
    (void)card;
}

void reference_trace(const uint8_t *input, size_t length, struct text *text, struct trace_counts *counts)
{
    reference_trace_spoiled(input, length, not_at_all, text, counts);
}

void reference_trace_spoiled(const uint8_t *input, size_t length, void (*spoil)(int session, struct fields *card),
                             struct text *text, struct trace_counts *counts)
{
    struct fields card;
    struct sessions sessions;
    size_t stated = length < 2 ? 0 : input[0] + 256u * input[1];
    size_t after_length = length < 2 ? length : 2;
    if (length > MOST_TRACE_BYTES || stated > MOST_STATED_LENGTH) {
        add_line(text, "input too long");
        return;
    }
    size_t there = length - after_length < stated ? length - after_length : stated;
    struct card_answer answer = reference_read_card(input + after_length, there, &card);
    if (answer.refusal) {
        counts->cards_refused[answer.refusal]++;
        add_line(text, "refused %d at %zu", answer.refusal, answer.offset);
        return;
    }
    add_line(text, "open");
    open_sessions(&sessions, &card, spoil);
    all_records(input + after_length + there, length - after_length - there, &sessions, text, counts);
    close_sessions(&sessions);
}
