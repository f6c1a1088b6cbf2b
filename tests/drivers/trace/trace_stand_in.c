/* Stands in for the program `trace` when the trace driver itself is tried: it writes the reference's own answers.
 *
 *     trace_stand_in           all of them right
 *     trace_stand_in N         one mistake, in the N-th byte that it writes
 *     trace_stand_in second    the second circuit's session leaves a check out
 *     trace_stand_in both      both receiving sessions leave the same check out
 */
#include "reference/reference.h"
#include "trace.h"

#include <stdio.h>
#include <stdlib.h>
#include <string.h>

static int wrong[2]; /* of each receiving session, whether it errs */

static void leave_a_check_out(int session, struct fields *card)
{
    if (wrong[session] && card->J[1] > 1)
        card->J[1]--;
}

int main(int argc, char **argv)
{
    static uint8_t input[2 * MOST_TRACE_BYTES];
    struct text text = {NULL, 0, 0};
    struct trace_counts counts = {0};
    const char *mistake = argc > 1 ? argv[1] : "";
    wrong[0] = strcmp(mistake, "both") == 0;
    wrong[1] = wrong[0] || strcmp(mistake, "second") == 0;
    reference_trace_spoiled(input, fread(input, 1, sizeof input, stdin), leave_a_check_out, &text, &counts);
    size_t byte = strtoul(mistake, NULL, 10);
    if (byte > 0 && byte <= text.length)
        text.bytes[byte - 1] ^= 1;
    fwrite(text.bytes, 1, text.length, stdout);
    free(text.bytes);
    return 0;
}
