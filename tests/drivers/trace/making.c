#include "making.h"

#include "inputs/erasing.h"
#include "records.h"

#include <string.h>

uint8_t trace[MOST_BYTES];
size_t length;
enum manner manner;
struct stream stream;
struct stating stating;
struct many_checks many_checks;

static int selected; /* the receiving session, by the last `s` */
static long calls;   /* to receive a frame; where both sessions get it, one to each */

static void add_byte(int byte)
{
    if (length < MOST_BYTES)
        trace[length++] = (uint8_t)byte;
}

/* ---- Calls ---- */

static void select_session(int session)
{
    add_byte('s');
    add_byte(session);
    selected = session;
}

/* The call, most often with the figure after it; session 1 has none. */
static void add_record(struct random *r, const struct record *record)
{
    for (size_t b = 0; b < record->size; b++)
        add_byte(record->bytes[b]);
    if (selected == 0 && !one_in(r, 5))
        add_byte('f');
}

/* The call by the sessions that the trace's manner has for it; where both have it, one of them by the other record. */
static void add_calls(struct random *r, const struct record *record, const struct record *other)
{
    int first = one_in(r, 4);
    calls++;
    if (manner == BOTH) {
        select_session(first);
        add_record(r, other);
        select_session(1 - first);
    } else if (manner == SWITCHING && one_in(r, 3)) {
        select_session(below(r, 2));
    }
    add_record(r, record);
}

static void add_call(struct random *r, const struct record *record)
{
    add_calls(r, record, record);
}

/* One frame to receive, most often under the card's number. Now and then its byte or one of its tags is any. */
static void add_received(struct random *r, const struct fields *card, int frame, int erased)
{
    int number = one_in(r, 12) ? below(r, 256) : card->number;
    struct record record = record_of(r, card, number, frame, erased, one_in(r, 6) ? ANY : MOSTLY);
    int readings = record.bytes[0] == 'r';
    if (!readings && one_in(r, 15))
        record.bytes[2] = (uint8_t)random_word(r);
    if (readings && one_in(r, 500))
        record.bytes[2 + 5 * below(r, 8)] = (uint8_t)random_word(r); /* a tag */
    add_call(r, &record);
}

/* A call that is refused: by 14, or by 11 or 12. */
static void add_refused(struct random *r, const struct fields *card, int frame, int erased)
{
    static const uint8_t not_finite[][5] = {{0, 0, 0, 0x80, 0x7f}, {0, 0, 0, 0x80, 0xff}, {0, 0, 0, 0xc0, 0x7f}};
    struct record record = record_of(r, card, card->number, frame, erased, SURELY);
    int readings = record.bytes[0] == 'r';
    if (one_in(r, 2) || (!readings && card->n == MOST_STREAMS))
        record.bytes[1] = (uint8_t)(card->number + between(r, 1, 255));
    else if (readings)
        memcpy(record.bytes + 2 + 5 * below(r, card->n), not_finite[below(r, 3)], sizeof *not_finite);
    else
        record.bytes[2] = (uint8_t)(record.bytes[2] + (1 << between(r, card->n, MOST_STREAMS - 1)));
    add_call(r, &record);
}

/* The digits that no mark erases, but a level. */
static int erased_by_level(const struct record *record, int erased)
{
    int digits = 0;
    for (int s = 0; s < 8; s++)
        if (erased >> s & 1)
            digits += record->bytes[2 + 5 * s] == 0;
    return digits;
}

/* A frame that is taken as it is, so that a stream stays whole; where both sessions have it, often one of them in another
 * form: as a byte and as levels outside the band, or with the same digits erased by marks and by levels. Now and then a
 * refused call before it, of which some have other digits erased. */
static void add_taken(struct random *r, const struct fields *card, int frame, int erased)
{
    struct record record = record_of(r, card, card->number, frame, erased, SURELY);
    struct record other = one_in(r, 2) ? record : record_of(r, card, card->number, frame, erased, SURELY);
    if (one_in(r, 8))
        add_refused(r, card, frame, one_in(r, 2) ? erased : below(r, 1 << card->n));
    add_calls(r, &record, &other);
    stream.erased_by_level += erased_by_level(&record, erased);
}

/* ---- Streams and mixtures ---- */

/* The information is all zeros now and then, which comes out as sent also where no check votes. */
static void send_stream(struct random *r, const struct fields *card)
{
    struct sending sender;
    int values = one_in(r, 8) ? 1 : 1 << card->k;
    reference_open_sending(&sender, card);
    for (int u = 0; u < stream.count + card->m; u++) {
        int information = below(r, values);
        struct answer frame =
            u < stream.count ? reference_send(&sender, (uint8_t)information) : reference_send_tail(&sender);
        stream.sent[u] = (uint8_t)frame.value;
    }
    reference_close_sending(&sender);
}

/* Any digits wrong and erased. */
static void damage_stream(struct random *r, const struct fields *card)
{
    static const int rates[] = {0, 10, 100, 200, 300, 400, 500, 1000};
    struct erasing erasing = random_erasing(r);
    int rate = erasing.way != NONE_ERASED && one_in(r, 2) ? 0 : rates[below(r, 8)];
    for (int u = 0; u < stream.count + card->m; u++) {
        stream.received[u] = (uint8_t)(stream.sent[u] ^ random_digits(r, card->n, rate));
        stream.erased[u] = (uint8_t)erased_at(r, &erasing, u, card->n);
    }
}

static int is_correctable(const struct fields *card)
{
    return reference_correctable(card, stream.sent, stream.received, stream.erased, stream.count);
}

/* As many digits wrong and erased as the stream stands: random ones until a further one is too many; or also that one.
 * (Erased zeros may never be too many.) */
static void damage_at_limit(struct random *r, const struct fields *card)
{
    int frames = (int)stream.count + card->m, wrong_in_ten = below(r, 10), beyond = one_in(r, 2);
    memcpy(stream.received, stream.sent, sizeof stream.sent);
    memset(stream.erased, 0, sizeof stream.erased);
    for (int digits = 0; digits < 60 && frames > 0; digits++) {
        uint8_t *first = below(r, 10) < wrong_in_ten ? stream.received : stream.erased;
        uint8_t *frame = first + below(r, frames), before = *frame;
        *frame = (uint8_t)(*frame ^ 1 << below(r, card->n));
        if (!is_correctable(card)) {
            *frame = beyond ? *frame : before;
            return;
        }
    }
}

/* The stream's records: each frame sent, and received. */
static void add_stream(struct random *r, const struct fields *card)
{
    for (int u = 0; u < stream.count + card->m; u++) {
        if (u >= stream.count)
            add_byte('t');
        else
            add_byte('i'), add_byte(stream.sent[u] % (1 << card->k));
        if (stream.whole)
            add_taken(r, card, stream.received[u], stream.erased[u]);
        else
            add_received(r, card, stream.received[u], stream.erased[u]);
    }
}

/* A stream as the first thing that the receivers get, so that it is one from time 0 on. A refused card has no streams:
 * its records are not answered. */
static void begin_with_stream(struct random *r, const struct fields *card, int accepted)
{
    stream.card = *card;
    stream.count = below(r, MOST_STREAM - MOST_MEMORY);
    stream.whole = manner == BOTH || (manner == STAYING && one_in(r, 2));
    stream.session = selected;
    stream.erased_by_level = 0;
    send_stream(r, card);
    if (accepted && stream.whole && one_in(r, 3))
        damage_at_limit(r, card);
    else
        damage_stream(r, card);
    add_stream(r, card);
    stream.whole = stream.whole && accepted;
    stream.beyond = stream.whole && !is_correctable(card);
    stream.calls = calls;
    stream.end = length;
}

/* Any records in any order. */
static void add_mixture(struct random *r, const struct fields *card, int records)
{
    struct erasing erasing = random_erasing(r);
    for (int record = 0; record < records; record++) {
        switch (below(r, 5)) {
        case 0:
            add_byte('i');
            add_byte(one_in(r, 8) ? below(r, 256) : below(r, 1 << card->k));
            break;
        case 1:
            if (one_in(r, 10))
                add_byte('t');
            break;
        default:
            add_received(r, card, below(r, 1 << card->n), erased_at(r, &erasing, record, card->n));
            break;
        }
    }
}

/* Sending past the tail: information refused by 16, and the tail's end by 17. */
static void add_sending_past_the_tail(struct random *r, const struct fields *card)
{
    for (int u = 0; u < card->m + 6; u++) {
        add_byte('t');
        if (one_in(r, 4))
            add_byte('i'), add_byte(below(r, one_in(r, 4) ? 256 : 1 << card->k));
    }
}

/* ---- Traces ---- */

/* The bytes of a card, accepted or not. Gives their count. */
static size_t random_bytes(struct random *r, struct fields *card, uint8_t *bytes)
{
    random_card(r, card);
    if (one_in(r, 5))
        spoil_card(r, card);
    int state = one_in(r, 12) ? between(r, 1, 3) : 0; /* the default k, the default n, or both, if they are */
    size_t size = card_bytes(card, state % 2, state / 2, bytes);
    if (one_in(r, 5)) /* often near the front, where the sizes are */
        bytes[below(r, one_in(r, 3) ? 4 : (int)size)] = (uint8_t)random_word(r);
    if (one_in(r, 12))
        size = (size_t)below(r, (int)size);
    if (one_in(r, 20))
        bytes[size++] = (uint8_t)random_word(r);
    return size;
}

/* The bytes of a card that states a default or comes near to it. Gives their count. */
static size_t stated_bytes(struct random *r, struct fields *card, uint8_t *bytes)
{
    struct stated_card stated;
    enum stated way = (enum stated)below(r, WAYS_OF_STATING);
    random_stated_card(r, way, card, &stated);
    memcpy(bytes, stated.bytes, stated.length);
    stating.ways[way]++;
    return stated.length;
}

/* The bytes of a card with more checks than it may have, or with the most. Gives their count. */
static size_t many_checks_bytes(struct random *r, struct fields *card, uint8_t *bytes)
{
    struct many_checks_card many, most;
    random_many_checks_card(r, &many);
    most = many;
    leave_most_checks(&most);
    reference_read_card_under(FORMER, most.bytes, most.length, card);
    if (one_in(r, 2))
        many = most;
    else
        many_checks.too_many += !states_default_k(many.bytes);
    memcpy(bytes, many.bytes, many.length);
    return many.length;
}

static void count_stated(const uint8_t *bytes, size_t size)
{
    struct fields read;
    if (reference_read_card_under(FORMER, bytes, size, &read).refusal == 0) {
        stating.default_k += states_default_k(bytes);
        stating.default_n += states_default_n(bytes);
    }
}

/* A card, accepted or not. Gives whether it is; if so, the fields are those that its bytes have in the end. */
static int add_card(struct random *r, struct fields *card)
{
    struct fields read;
    uint8_t bytes[MOST_CARD_BYTES + 64];
    size_t size = one_in(r, 12)   ? stated_bytes(r, card, bytes)
                  : one_in(r, 24) ? many_checks_bytes(r, card, bytes)
                                  : random_bytes(r, card, bytes);
    size_t stated = one_in(r, 20) ? (size_t)below(r, 3000) : size;
    add_byte((int)(stated % 256));
    add_byte((int)(stated / 256));
    for (size_t b = 0; b < size; b++)
        add_byte(bytes[b]);
    if (stated == size)
        count_stated(bytes, size);
    int accepted = stated == size && reference_read_card(bytes, size, &read).refusal == 0;
    if (accepted) {
        *card = read;
        many_checks.most += has_most_checks(card);
    }
    return accepted;
}

static void choose_sessions(struct random *r)
{
    static const enum manner manners[] = {BOTH, BOTH, SWITCHING, STAYING};
    manner = manners[below(r, 4)];
    if (manner == STAYING && !one_in(r, 3))
        select_session(below(r, 2));
}

/* A selection that ends the trace: of a session that is not there, of the one whose figure is then asked for, or cut
 * short. What follows must not be answered. */
static void add_bad_selection(struct random *r)
{
    static const int others[] = {2, 3, '0', '1', 255};
    switch (below(r, 3)) {
    case 0:
        add_byte('s');
        add_byte(one_in(r, 2) ? others[below(r, 5)] : between(r, 2, 255));
        break;
    case 1:
        select_session(1);
        add_byte('f');
        break;
    default:
        add_byte('s');
        return;
    }
    for (int records = below(r, 3); records > 0; records--)
        add_byte('t');
}

/* Some traces end in a record that is none, and some in the midst of one. */
static void spoil_end(struct random *r)
{
    size_t cut = length - 2 < 45 ? length - 2 : 45;
    if (one_in(r, 6))
        add_bad_selection(r);
    else if (one_in(r, 6))
        add_byte(below(r, 256));
    else if (one_in(r, 6) && cut > 0)
        length -= (size_t)between(r, 0, (int)cut);
    else if (one_in(r, 200))
        length = (size_t)below(r, 4);
}

/* Up to the most that a trace may have, and just beyond it. */
static void fill_up(struct random *r, const struct fields *card)
{
    size_t wanted = (size_t)between(r, MOST_TRACE_BYTES - 1, MOST_TRACE_BYTES + 2);
    struct erasing erasing = random_erasing(r);
    for (int frame = 0; length < wanted; frame++)
        add_received(r, card, below(r, 1 << card->n), erased_at(r, &erasing, frame, card->n));
    length = wanted;
}

void make_trace(struct random *r)
{
    struct fields card;
    length = 0;
    selected = 0;
    calls = 0;
    stream.whole = 0;
    int accepted = add_card(r, &card);
    if (card.m > MOST_MEMORY)
        card.m = MOST_MEMORY; /* a spoiled card, which is refused whatever its records are */
    choose_sessions(r);
    if (!one_in(r, 3))
        begin_with_stream(r, &card, accepted);
    if (one_in(r, 2))
        add_mixture(r, &card, below(r, 200));
    if (one_in(r, 2))
        add_sending_past_the_tail(r, &card);
    if (one_in(r, 60))
        fill_up(r, &card);
    spoil_end(r);
    stream.whole = stream.whole && stream.end <= length && length <= MOST_TRACE_BYTES;
}
