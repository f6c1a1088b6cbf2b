/* Bursts by the standard cards of include/burst.h: a card is asked for by its number of checks, and used at once.
 *
 *     examples/build && target/examples/standard_card
 *
 * The program plays the probe, the link and the unit: for each J it gets the card, sends a temperature, spoils as many
 * digits as the card stands, and receives. Then come the two ways in which a card is not given. */
#include "burst.h"

#include <stdio.h>

enum {
    FRAMES = 8,                       /* a temperature is a byte, and a frame carries one digit of it */
    SENT = FRAMES + BURST_MOST_MEMORY /* enough for the tail, whatever the card */
};

static void frames_of(uint8_t temperature, uint8_t frames[FRAMES])
{
    for (int f = 0; f < FRAMES; f++)
        frames[f] = (uint8_t)(temperature >> f & 1);
}

static uint8_t temperature_of(const uint8_t frames[FRAMES])
{
    int temperature = 0;
    for (int f = 0; f < FRAMES; f++)
        temperature |= frames[f] << f;
    return (uint8_t)temperature;
}

/* The link: the first digits of the burst come wrong, information and parity in turn. */
static void spoil(uint8_t *frames, int wrong)
{
    for (int digit = 0; digit < wrong; digit++)
        frames[digit / 2] ^= (uint8_t)(1 << digit % 2);
}

/* One temperature by a card, with so many wrong digits. */
static void serve(const uint8_t *card, size_t card_length, uint8_t temperature, int wrong)
{
    uint8_t information[FRAMES], link[SENT], came[FRAMES];

    frames_of(temperature, information);
    int32_t sent = burst_send(card, card_length, information, FRAMES, link, sizeof link);
    if (sent < 0) { /* not with a standard card */
        printf("not sent: refusal %d\n", (int)-sent);
        return;
    }
    spoil(link, wrong);
    int32_t count = burst_receive(card, card_length, link, (size_t)sent, came, sizeof came);
    if (count != FRAMES) {
        printf("not received: %d\n", (int)count);
        return;
    }
    printf("%2d frames sent, %d wrong: %d, received as %d\n", (int)sent, wrong, temperature, temperature_of(came));
}

/* The standard card with so many checks, into so much room; and a temperature by it. */
static void try_card(uint32_t checks, size_t room)
{
    uint8_t card[BURST_MOST_STANDARD_CARD_BYTES];

    int32_t length = standard_card(checks, card, room);
    if (length == 0) {
        printf("J %u: there is no such card\n", (unsigned)checks);
        return;
    }
    if (length < 0) { /* BURST_OUTPUT_TOO_SHORT, the only refusal of this call */
        printf("J %u: refusal %d, the card doesn't fit in %d bytes\n", (unsigned)checks, (int)-length, (int)room);
        return;
    }
    printf("J %u: %d bytes, ", (unsigned)checks, (int)length);
    serve(card, (size_t)length, 61, (int)(checks / 2)); /* J / 2, rounded down, are put right wherever they are */
}

int main(void)
{
    for (uint32_t checks = BURST_LEAST_STANDARD_CHECKS; checks <= BURST_MOST_STANDARD_CHECKS; checks++)
        try_card(checks, BURST_MOST_STANDARD_CARD_BYTES);

    try_card(BURST_MOST_STANDARD_CHECKS + 1, BURST_MOST_STANDARD_CARD_BYTES);
    try_card(BURST_MOST_STANDARD_CHECKS, BURST_MOST_STANDARD_CARD_BYTES - 1);
    return 0;
}
