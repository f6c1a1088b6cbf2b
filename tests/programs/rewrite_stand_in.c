/* Stands in for the program `rewrite` when tests/programs/rewriting itself is tried: it writes the reference's own
 * answers.
 *
 *     rewrite_stand_in MISTAKE
 *
 *     none       all of them right
 *     present    cards are read by the present rule
 *     as_is      an accepted card is written as it stands
 *     length     an input of 2,049 bytes is read as well
 *     checks     a card with too many checks is written as it stands
 *     cut        what is written lacks its last byte
 *     silent     nothing is written */
#include "reference/reference.h"

#include <stdio.h>
#include <string.h>

static uint8_t input[65536], output[MOST_STORED_BYTES];
static size_t length;

static size_t answer(const char *mistake)
{
    struct fields card;
    size_t count = reference_rewrite(input, length, output);
    struct card_answer former = reference_read_card_under(FORMER, input, length, &card);
    struct card_answer present = reference_read_card(input, length, &card);
    if (strcmp(mistake, "present") == 0 && former.refusal != present.refusal)
        return (size_t)sprintf((char *)output, "refused %d at %zu\n", present.refusal, present.offset);
    int too_many = former.refusal == J_OUTSIDE_RANGE && input[former.offset] > MOST_CHECKS;
    if ((strcmp(mistake, "as_is") == 0 && former.refusal == 0) || (strcmp(mistake, "checks") == 0 && too_many)) {
        memcpy(output, input, length);
        return length;
    }
    if (strcmp(mistake, "length") == 0 && length == MOST_STORED_BYTES + 1)
        return (size_t)sprintf((char *)output, "refused %d at %zu\n", former.refusal, former.offset);
    return strcmp(mistake, "cut") == 0 ? count - 1 : strcmp(mistake, "silent") == 0 ? 0 : count;
}

int main(int argc, char **argv)
{
    length = fread(input, 1, sizeof input, stdin);
    size_t count = answer(argc > 1 ? argv[1] : "none");
    if (fwrite(output, 1, count, stdout) != count || fflush(stdout) != 0)
        fprintf(stderr, "rewrite: the card could not be written\n");
    return 0;
}
