/* Frames as bytes and readings (document 01, "Readings and bursts"). */
#include "parts.h"

#include <math.h>
#include <stdio.h>
#include <stdlib.h>
#include <string.h>

int digit_of(uint32_t number, int a)
{
    for (; a > 0; a--)
        number /= 2;
    return (int)(number % 2);
}

struct frame frame_of_byte(uint8_t byte)
{
    struct frame frame;
    memset(&frame, 0, sizeof frame);
    for (int i = 1; i <= MOST_STREAMS; i++)
        frame.digit[i] = digit_of(byte, i - 1);
    return frame;
}

uint8_t byte_of_frame(const struct frame *frame)
{
    int byte = 0, worth = 1;
    for (int i = 1; i <= MOST_STREAMS; i++) {
        byte += worth * frame->digit[i];
        worth *= 2;
    }
    return (uint8_t)byte;
}

int digit_beyond(const struct frame *frame, int streams)
{
    for (int i = streams + 1; i <= MOST_STREAMS; i++)
        if (frame->digit[i])
            return 1;
    return 0;
}

int frame_of_readings(const struct reading readings[8], int n, struct frame *frame)
{
    memset(frame, 0, sizeof *frame);
    for (int i = 1; i <= n; i++) {
        const struct reading *reading = &readings[i - 1];
        if (!reading->erased && !isfinite(reading->level))
            return LEVEL_NOT_FINITE;
        frame->erased[i] = reading->erased || fabsf(reading->level) < 0.25f;
        if (!frame->erased[i] && reading->level > 0)
            frame->digit[i] = 1;
    }
    return 0;
}

void *allocate(size_t count, size_t size)
{
    void *memory = calloc(count == 0 ? 1 : count, size);
    if (memory == NULL) {
        fprintf(stderr, "reference: no memory\n");
        exit(2);
    }
    return memory;
}
