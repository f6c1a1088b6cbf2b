#include "records.h"

/* ---- Readings ---- */

/* Levels as their bits: without the sign they are in the order of the magnitudes, and below `quarter` lies the band in
 * which document 02's R-7 erases. */
static const uint32_t quarter = 0x3e800000, infinite = 0x7f800000, sign = 0x80000000;

/* Levels that are read with care: zeros, the least and largest numbers, those at 0.25, and what is no number. */
static uint32_t special_level(struct random *r)
{
    static const uint32_t patterns[] = {
        0x00000000, 0x80000000,                         /* the two zeros */
        0x00000001, 0x80000001, 0x007fffff, 0x807fffff, /* subnormal */
        0x00800000, 0x80800000, 0x7f7fffff, 0xff7fffff, /* the least normal, the largest */
        0x3e7fffff, 0xbe7fffff, 0x3e800000, 0xbe800000, 0x3e800001, 0xbe800001, /* 0.25 and its neighbours */
        0x3f800000, 0xbf800000,
        0x7f800000, 0xff800000,                         /* infinite */
        0x7fc00000, 0xffc00000, 0x7f800001, 0xff800001, 0x7fffffff, 0xffffffff /* not a number */
    };
    return patterns[below(r, (int)(sizeof patterns / sizeof *patterns))];
}

/* A level that is a digit, above zero for 1: finite and outside the band. Often it is 0.25 or the one after it. */
static uint32_t level_of(struct random *r, int digit)
{
    uint32_t beyond = one_in(r, 4) ? (uint32_t)below(r, 2) : (uint32_t)(random_word(r) % (infinite - quarter));
    return quarter + beyond + (digit ? 0 : sign);
}

/* A level that is erased, of either sign. Often it is one of the band's ends, or at the end of the subnormal ones. */
static uint32_t level_in_band(struct random *r)
{
    static const uint32_t ends[] = {0, 1, 0x007fffff, 0x00800000, 0x3e7fffff, 0x3e7fffff};
    uint32_t magnitude = one_in(r, 2) ? ends[below(r, 6)] : (uint32_t)(random_word(r) % quarter);
    return magnitude + (one_in(r, 2) ? 0 : sign);
}

static uint32_t level_for(struct random *r, int digit, int erased, enum care care)
{
    int times = care == ANY ? 4 : 1000;
    if (care != SURELY && one_in(r, times))
        return special_level(r);
    if (care != SURELY && one_in(r, times))
        return (uint32_t)random_word(r);
    return erased ? level_in_band(r) : level_of(r, digit);
}

/* ---- Records that receive a frame ---- */

static void put_byte(struct record *record, int byte)
{
    record->bytes[record->size++] = (uint8_t)byte;
}

/* A digit is erased by the mark, with any level beside it, or as often by a level. */
static void put_reading(struct random *r, struct record *record, int digit, int erased, enum care care)
{
    int marked = erased ? one_in(r, 2) : care == ANY && one_in(r, 12);
    uint32_t level = level_for(r, digit, erased && !marked, marked ? ANY : care);
    put_byte(record, marked);
    for (int b = 0; b < 4; b++)
        put_byte(record, (int)(level >> 8 * b & 255));
}

struct record record_of(struct random *r, const struct fields *card, int number, int frame, int erased,
                        enum care care)
{
    struct record record = {.size = 0};
    int readings = erased || one_in(r, 2);
    put_byte(&record, readings ? 'r' : 'b');
    put_byte(&record, number);
    if (!readings)
        put_byte(&record, frame);
    for (int s = 0; readings && s < 8; s++)
        put_reading(r, &record, frame >> s & 1, erased >> s & 1, s < card->n ? care : ANY);
    return record;
}
