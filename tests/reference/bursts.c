/* Bursts (document 01, "Readings and bursts"). */
#include "parts.h"

#include <stdlib.h>

/* The frames of a burst; a refusal, 11, if one of them has a digit beyond its streams, else 0. */
static int frames_of_bytes(const uint8_t *bytes, size_t length, int streams, struct frame *frames)
{
    for (size_t u = 0; u < length; u++) {
        frames[u] = frame_of_byte(bytes[u]);
        if (digit_beyond(&frames[u], streams))
            return DIGIT_BEYOND_STREAMS;
    }
    return 0;
}

int32_t reference_burst_send(const uint8_t *card_bytes, size_t card_length, const uint8_t *input, size_t input_length,
                             uint8_t *output, size_t output_length)
{
    struct fields card;
    int refusal = reference_read_card(card_bytes, card_length, &card).refusal;
    if (refusal)
        return -refusal;
    size_t count = input_length + (size_t)card.m; /* with the tail */
    if (count > MOST_FRAMES)
        return -FRAMES_USED_UP;
    if (output_length < count)
        return -OUTPUT_TOO_SHORT;
    struct frame *frames = allocate(count, sizeof *frames);
    refusal = frames_of_bytes(input, input_length, card.k, frames);
    for (size_t u = 0; u < count && !refusal; u++) {
        add_parity(&card, frames, (long)u);
        output[u] = byte_of_frame(&frames[u]);
    }
    free(frames);
    return refusal ? -refusal : (int32_t)count;
}

static int32_t receive_burst(enum circuit circuit, const uint8_t *card_bytes, size_t card_length,
                             const uint8_t *input, size_t input_length, uint8_t *output, size_t output_length)
{
    struct fields card;
    int refusal = reference_read_card(card_bytes, card_length, &card).refusal;
    if (refusal)
        return -refusal;
    if (input_length > MOST_FRAMES)
        return -FRAMES_USED_UP;
    size_t count = input_length > (size_t)card.m ? input_length - (size_t)card.m : 0;
    if (output_length < count)
        return -OUTPUT_TOO_SHORT;
    struct frame *received = allocate(input_length, sizeof *received);
    struct frame *decided = allocate(count, sizeof *decided);
    refusal = frames_of_bytes(input, input_length, card.n, received);
    for (size_t u = 0; u < count && !refusal; u++) {
        struct frame out = decide(circuit, &card, received, decided, (long)u);
        output[u] = byte_of_frame(&out);
    }
    free(received);
    free(decided);
    return refusal ? -refusal : (int32_t)count;
}

int32_t reference_burst_receive(const uint8_t *card, size_t card_length, const uint8_t *input, size_t input_length,
                                uint8_t *output, size_t output_length)
{
    return receive_burst(TYPE_I, card, card_length, input, input_length, output, output_length);
}

int32_t reference_burst_receive_by_digits(const uint8_t *card, size_t card_length, const uint8_t *input,
                                          size_t input_length, uint8_t *output, size_t output_length)
{
    return receive_burst(TYPE_II, card, card_length, input, input_length, output, output_length);
}
