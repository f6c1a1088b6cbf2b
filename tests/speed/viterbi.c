#include "viterbi.h"

#include "must.h"

#include <fec.h>
#include <string.h>

/* A burst is cut in blocks, each with a tail of its own: a single block of the whole burst takes libfec a twentieth longer,
 * since what it keeps to trace back then no longer fits the nearest cache. */
enum { BLOCK = 4096, TAIL = 6, MOST_BLOCKS = VITERBI_MOST_DIGITS / BLOCK };

struct block {
    int digits;
    uint8_t symbols[2 * (BLOCK + TAIL)]; /* 0 is surely a 0, 255 surely a 1 */
    uint8_t information[BLOCK / 8], decoded[BLOCK / 8]; /* the first digit is the highest bit */
};

static struct block blocks[MOST_BLOCKS];
static int block_count;

static uint8_t symbol(struct random *r, unsigned digit, int times)
{
    if (times != 0 && one_in(r, times))
        digit ^= 1;
    return digit ? 255 : 0;
}

/* The encoder of libfec's own test: the newest digit is bit 0 of the register, and neither polynomial is inverted. */
static void send_block(struct random *r, struct block *b, const uint8_t *information, int digits, int times)
{
    unsigned sent = 0; /* bit a: the digit a frames ago */
    b->digits = digits;
    memset(b->information, 0, sizeof b->information);
    for (int u = 0; u < digits + TAIL; u++) {
        unsigned digit = u < digits ? information[u] & 1 : 0;
        sent = sent << 1 | digit;
        b->symbols[2 * u] = symbol(r, (unsigned)__builtin_parity(sent & V27POLYA), times);
        b->symbols[2 * u + 1] = symbol(r, (unsigned)__builtin_parity(sent & V27POLYB), times);
        if (digit)
            b->information[u / 8] |= (uint8_t)(128 >> u % 8);
    }
}

void viterbi_send(struct random *r, const uint8_t *information, size_t count, int times)
{
    must(count <= VITERBI_MOST_DIGITS, "the Viterbi decoder has room for a burst");
    block_count = 0;
    for (size_t u = 0; u < count; u += BLOCK) {
        size_t left = count - u;
        send_block(r, &blocks[block_count++], information + u, left < BLOCK ? (int)left : BLOCK, times);
    }
}

size_t viterbi_decode(void)
{
    static void *decoder; /* one for all time, as libfec would have it; opening is not measured */
    size_t digits = 0;
    if (decoder == NULL)
        decoder = create_viterbi27(BLOCK + TAIL);
    must(decoder != NULL, "libfec opens a decoder");
    for (struct block *b = blocks; b < blocks + block_count; b++) {
        init_viterbi27(decoder, 0);
        update_viterbi27_blk(decoder, b->symbols, b->digits + TAIL);
        chainback_viterbi27(decoder, b->decoded, (unsigned)b->digits, 0);
        digits += (size_t)b->digits;
    }
    return digits;
}

int viterbi_came_as_sent(void)
{
    for (const struct block *b = blocks; b < blocks + block_count; b++)
        if (memcmp(b->information, b->decoded, ((size_t)b->digits + 7) / 8) != 0)
            return 0;
    return 1;
}
