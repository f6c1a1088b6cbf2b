/* Stands in for the program `list` when tests/programs/listing itself is tried: it lists by the reference's own answers.
 *
 *     list_stand_in MISTAKE
 *
 *     none       all of them right
 *     last       of several refused frames the last one is named
 *     begun      the frames before a refused one are listed all the same
 *     frame      a frame is refused before its card is
 *     length     a stated card length of 2,049 is read as well
 *     cut        what is written lacks its last line feed */
#include "reference/reference.h"

#include <stdarg.h>
#include <stdio.h>
#include <string.h>

enum { MOST_CARD_LENGTH = 2048, MOST_LISTED = 32768 };

static uint8_t input[131072];
static char output[1048576];
static size_t written;
static const char *mistake;

static int errs(const char *name)
{
    return strcmp(mistake, name) == 0;
}

static void add(const char *format, ...)
{
    va_list arguments;
    va_start(arguments, format);
    written += (size_t)vsnprintf(output + written, sizeof output - written, format, arguments);
    va_end(arguments);
}

/* The time of the refused frame that is named; `count` if none is refused. */
static size_t refused_frame(const uint8_t *frames, size_t count, int n)
{
    size_t named = count;
    for (size_t u = 0; u < count; u++)
        if (frames[u] >> n != 0 && (named == count || errs("last")))
            named = u;
    return named;
}

static void list_frames(const uint8_t *bytes, size_t length, const struct fields *card, const uint8_t *frames,
                        size_t count)
{
    static uint8_t handed_out[MOST_LISTED];
    int32_t lines = reference_burst_receive(bytes, length, frames, count, handed_out, sizeof handed_out);
    add("card %d k %d n %d m %d\n", card->number, card->k, card->n, card->m);
    for (int32_t u = 0; u < lines; u++) {
        add("%d", (int)u);
        for (int i = 1; i <= card->k; i++)
            add(" %d", handed_out[u] >> (i - 1) & 1);
        add("\n");
    }
    add("end %d\n", (int)lines);
}

static void list(size_t length)
{
    struct fields card;
    size_t stated = length < 2 ? 0 : input[0] + 256u * input[1]; /* "missing length bytes mean length 0" */
    size_t left = length < 2 ? 0 : length - 2;
    size_t card_length = stated < left ? stated : left; /* "missing card bytes make a short card" */
    const uint8_t *frames = input + 2 + card_length;
    size_t count = left - card_length;
    if (stated > MOST_CARD_LENGTH + (size_t)errs("length") || count > MOST_LISTED) {
        add("input too long\n");
        return;
    }
    struct card_answer answer = reference_read_card(input + 2, card_length, &card);
    size_t named = refused_frame(frames, count, card.n);
    if (answer.refusal && !(errs("frame") && named < count)) {
        add("refused %d at %zu\n", answer.refusal, answer.offset);
        return;
    }
    if (named == count || errs("begun"))
        list_frames(input + 2, card_length, &card, frames, named);
    if (named < count)
        add("refused %d at %zu\n", DIGIT_BEYOND_STREAMS, named);
}

int main(int argc, char **argv)
{
    mistake = argc > 1 ? argv[1] : "none";
    list(fread(input, 1, sizeof input, stdin));
    if (errs("cut"))
        written--;
    if (fwrite(output, 1, written, stdout) != written || fflush(stdout) != 0)
        fprintf(stderr, "list: the listing could not be written\n");
    return 0;
}
