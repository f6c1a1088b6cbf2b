/* A controller's receiving loop over include/burst.h, small enough to read in a minute.
 *
 * From a fresh clone, in the repository's root, one command builds and runs it:
 *
 *     examples/build && target/examples/firmware
 *
 * (examples/build is `rt lib` in crates/burst_c, then `cc -Iinclude examples/firmware.c target/staticlib/libburst.a`.)
 *
 * A probe measures a temperature every few minutes and sends the last six as one burst. The loop below
 * plays the probe and the link as well: it sends by burst_send, spoils some digits, and receives by
 * burst_receive. At the end the card is written out, for the unit in the next tunnel. */
#include "burst.h"

#include <stdio.h>
#include <string.h>

/* The probe's link card, card T of the bench: k 2, n 3, m 2. Two information digits a frame, one parity
 * digit, and two checks on each digit: one wrong digit among those that they look at is put right. */
static const uint8_t card[] = {
    0x03, 0x0a, 0x02, 0x03, 0x02,             /* k and n stand; card number 10; k 2, n 3, m 2 */
    0x03, 0x00,                               /* both generators stand: */
    0x03, 0x00, 0x00, 0x00,                   /*   stream 1, terms 0 and 1 */
    0x05, 0x00, 0x00, 0x00,                   /*   stream 2, terms 0 and 2 */
    0x02,                                     /* stream 1 has two checks: */
    0x01, 0x01, 0x00, 0x00, 0x00,             /*   the syndrome of the frame itself */
    0x01, 0x02, 0x00, 0x00, 0x00,             /*   that of the next frame */
    0x02,                                     /* stream 2 has two checks: */
    0x01, 0x01, 0x00, 0x00, 0x00,             /*   the syndrome of the frame itself */
    0x01, 0x04, 0x00, 0x00, 0x00              /*   that of the frame after the next */
};

enum {
    TEMPERATURES = 6,
    FRAMES_EACH = 4, /* a temperature is a byte, and a frame carries two digits of it */
    FRAMES = TEMPERATURES * FRAMES_EACH,
    SENT = FRAMES + BURST_MOST_MEMORY /* enough for the tail, whatever the card */
};

static void frames_of(const uint8_t temperatures[TEMPERATURES], uint8_t frames[FRAMES])
{
    for (int f = 0; f < FRAMES; f++)
        frames[f] = (uint8_t)(temperatures[f / FRAMES_EACH] >> 2 * (f % FRAMES_EACH) & 3);
}

static void temperatures_of(const uint8_t frames[FRAMES], uint8_t temperatures[TEMPERATURES])
{
    memset(temperatures, 0, TEMPERATURES);
    for (int f = 0; f < FRAMES; f++)
        temperatures[f / FRAMES_EACH] |= (uint8_t)(frames[f] << 2 * (f % FRAMES_EACH));
}

/* What a service screen would say. Only some refusals can happen to firmware with a good card. */
static const char *meaning(int refusal)
{
    switch (refusal) {
    case BURST_DEFAULT_STATED:
        return "the card has the former form, and must be rewritten";
    case BURST_OWN_DIGIT_UNTOUCHED:
    case BURST_ERROR_TOUCHED_BEFORE:
        return "the card's checks are unsafe";
    case BURST_DIGIT_BEYOND_STREAMS:
        return "a frame with a digit that the card has no stream for";
    case BURST_OUTPUT_TOO_SHORT:
        return "our buffer is too small";
    case BURST_TOO_MANY_FRAMES:
        return "the burst is too long";
    default:
        return "the card is damaged";
    }
}

/* The link: one wrong digit in every `distance`-th frame (0: none), in another stream each time. */
static int spoil(uint8_t *frames, int32_t count, int distance)
{
    int wrong = 0;
    for (int32_t u = 0; distance > 0 && u < count; u += distance) {
        frames[u] ^= (uint8_t)(1 << wrong % 3);
        wrong++;
    }
    return wrong;
}

static void show(const char *what, const uint8_t temperatures[TEMPERATURES])
{
    printf("  %-8s", what);
    for (int t = 0; t < TEMPERATURES; t++)
        printf(" %3d", temperatures[t]);
    printf("\n");
}

/* One burst over a link with so many wrong digits, by a card. */
static void serve(const uint8_t *by_card, size_t card_length, const uint8_t temperatures[TEMPERATURES], int distance)
{
    uint8_t information[FRAMES], link[SENT], came[FRAMES], shown[TEMPERATURES];

    frames_of(temperatures, information);
    int32_t sent = burst_send(card, sizeof card, information, FRAMES, link, sizeof link);
    if (sent < 0) {
        printf("not sent: refusal %d, %s\n", (int)-sent, meaning((int)-sent));
        return;
    }
    int wrong = spoil(link, sent, distance);
    printf("%d frames sent, %d wrong digits\n", (int)sent, wrong);

    int32_t count = burst_receive(by_card, card_length, link, (size_t)sent, came, sizeof came);
    if (count < 0) {
        printf("  refusal %d, %s\n", (int)-count, meaning((int)-count));
        return;
    }
    if (count != FRAMES) { /* another memory than the sender's: came holds count frames, and nothing beyond them */
        printf("  %d frames, and not %d\n", (int)count, FRAMES);
        return;
    }
    temperatures_of(came, shown);
    show("sent", temperatures);
    show("received", shown);
}

/* The card as it is carried to the next tunnel. */
static void show_written(void)
{
    uint8_t written[BURST_MOST_CARD_BYTES]; /* enough, whatever the card */

    int32_t length = card_write(card, sizeof card, written, sizeof written);
    if (length < 0) {
        printf("not written: refusal %d, %s\n", (int)-length, meaning((int)-length));
        return;
    }
    printf("the card, %d bytes\n", (int)length);
    for (int32_t b = 0; b < length; b++)
        printf("%s%02x%s", b % 16 == 0 ? "  " : " ", written[b], b % 16 == 15 || b == length - 1 ? "\n" : "");
}

int main(void)
{
    static const uint8_t temperatures[TEMPERATURES] = {58, 58, 59, 61, 60, 62};
    uint8_t damaged[sizeof card];

    serve(card, sizeof card, temperatures, 0); /* nothing wrong */
    serve(card, sizeof card, temperatures, 3); /* as many wrong digits as the card stands */
    serve(card, sizeof card, temperatures, 1); /* too many: the vote is lost, and nobody can tell from here */

    memcpy(damaged, card, sizeof card);
    damaged[22] = 0x04; /* the second check of stream 1 on the frame after the next, where its digit is not */
    serve(damaged, sizeof damaged, temperatures, 0);

    show_written();
    return 0;
}
