/* Sessions (document 01, "Refused because of the state", the link figure). */
#include "parts.h"

#include <stdio.h>
#include <stdlib.h>
#include <string.h>

static struct frame *grow(struct frame *frames, long room)
{
    frames = realloc(frames, (size_t)room * sizeof *frames);
    if (frames == NULL) {
        fprintf(stderr, "reference: no memory\n");
        exit(2);
    }
    return frames;
}

static struct answer refused(int number)
{
    struct answer answer = {REFUSED, number};
    return answer;
}

static struct answer frame_given(const struct frame *frame)
{
    struct answer answer = {FRAME, byte_of_frame(frame)};
    return answer;
}

void reference_open_receiving(struct receiving *session, enum circuit circuit, const struct fields *card)
{
    memset(session, 0, sizeof *session);
    session->circuit = circuit;
    session->card = *card;
}

void reference_close_receiving(struct receiving *session)
{
    free(session->received);
    free(session->decided);
}

/* The refusals that come before a look at the frame: 14, 15, or 0 for none. */
static int receiving_refusal(const struct receiving *session, int number)
{
    if (number != session->card.number)
        return OTHER_CARD_NUMBER;
    return session->count == MOST_FRAMES ? FRAMES_USED_UP : 0;
}

/* Takes a frame: the first m give 'waiting', each later one the frame m before it. */
static struct answer take(struct receiving *session, const struct frame *frame)
{
    if (session->count == session->room) {
        session->room = 2 * session->room + 64;
        session->received = grow(session->received, session->room);
        session->decided = grow(session->decided, session->room);
    }
    session->received[session->count] = *frame;
    session->count++;
    long u = session->count - 1 - session->card.m;
    if (u < 0) {
        struct answer waiting = {WAITING, 0};
        return waiting;
    }
    struct frame out = decide(session->circuit, &session->card, session->received, session->decided, u);
    return frame_given(&out);
}

struct answer reference_receive_byte(struct receiving *session, int number, uint8_t byte)
{
    int refusal = receiving_refusal(session, number);
    if (refusal)
        return refused(refusal);
    struct frame frame = frame_of_byte(byte);
    return digit_beyond(&frame, session->card.n) ? refused(DIGIT_BEYOND_STREAMS) : take(session, &frame);
}

struct answer reference_receive_readings(struct receiving *session, int number, const struct reading readings[8])
{
    int refusal = receiving_refusal(session, number);
    if (refusal)
        return refused(refusal);
    struct frame frame;
    refusal = frame_of_readings(readings, session->card.n, &frame);
    return refusal ? refused(refusal) : take(session, &frame);
}

/* The ones among the syndromes of received frames later than the last frame handed out, feedback taken out. */
long reference_link_figure(const struct receiving *session)
{
    const struct fields *card = &session->card;
    long handed_out = session->count > card->m ? session->count - card->m : 0;
    long ones = 0;
    for (long u = handed_out; u < session->count; u++)
        for (int j = 1; j <= card->p; j++)
            ones += cleared(card, session->received, session->decided, handed_out, u, j);
    return ones;
}

void reference_open_sending(struct sending *session, const struct fields *card)
{
    memset(session, 0, sizeof *session);
    session->card = *card;
}

void reference_close_sending(struct sending *session)
{
    free(session->sent);
}

/* Sends one frame whose information digits are given. */
static struct answer send_frame(struct sending *session, const struct frame *information)
{
    if (session->count == session->room) {
        session->room = 2 * session->room + 64;
        session->sent = grow(session->sent, session->room);
    }
    session->sent[session->count] = *information;
    add_parity(&session->card, session->sent, session->count);
    session->count++;
    return frame_given(&session->sent[session->count - 1]);
}

struct answer reference_send(struct sending *session, uint8_t byte)
{
    if (session->tail > 0)
        return refused(INFORMATION_AFTER_TAIL);
    if (MOST_FRAMES - (session->count + 1) < session->card.m)
        return refused(FRAMES_USED_UP);
    struct frame information = frame_of_byte(byte);
    if (digit_beyond(&information, session->card.k))
        return refused(DIGIT_BEYOND_STREAMS);
    return send_frame(session, &information);
}

struct answer reference_send_tail(struct sending *session)
{
    if (session->tail == session->card.m)
        return refused(TAIL_USED_UP);
    struct frame zeros;
    memset(&zeros, 0, sizeof zeros);
    session->tail++;
    return send_frame(session, &zeros);
}
