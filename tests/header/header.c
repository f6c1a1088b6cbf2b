/* The constants of include/burst.h are those of the reference, which has them from the documents and doesn't include
 * that header. Nothing here runs: with another number this file doesn't compile. header.py, beside it, holds the header's
 * sentences, and that no constant of it is left out here. */
#include "burst.h"

#include "reference/reference.h"

/* Numbers, since the two enums are types of their own. */
#define HELD(of_header, of_reference) \
    _Static_assert((long)(of_header) == (long)(of_reference), #of_header " should be " #of_reference)

HELD(BURST_MOST_INFORMATION_STREAMS, MOST_INFORMATION);
HELD(BURST_MOST_STREAMS, MOST_STREAMS);
HELD(BURST_MOST_MEMORY, MOST_MEMORY);
HELD(BURST_MOST_CHECKS, MOST_CHECKS);
HELD(BURST_MOST_CARD_BYTES, MOST_CARD_BYTES);
HELD(BURST_MOST_FRAMES, MOST_FRAMES);
HELD(BURST_LEAST_STANDARD_CHECKS, LEAST_STANDARD_CHECKS);
HELD(BURST_MOST_STANDARD_CHECKS, MOST_STANDARD_CHECKS);
HELD(BURST_MOST_STANDARD_CARD_BYTES, MOST_STANDARD_CARD_BYTES);

HELD(BURST_CARD_CUT_SHORT, ENDS_INSIDE_FIELD);
HELD(BURST_K_OUT_OF_RANGE, K_OUTSIDE_RANGE);
HELD(BURST_N_OUT_OF_RANGE, N_OUTSIDE_RANGE);
HELD(BURST_MEMORY_ABOVE_LIMIT, M_OUTSIDE_RANGE);
HELD(BURST_MAP_BEYOND_STREAMS, MAP_BIT_BEYOND_STREAMS);
HELD(BURST_MASK_OUT_OF_RANGE, MASK_OUTSIDE_RANGE);
HELD(BURST_CHECK_COUNT_OUT_OF_RANGE, J_OUTSIDE_RANGE);
HELD(BURST_OWN_DIGIT_UNTOUCHED, OWN_DIGIT_NOT_TOUCHED);
HELD(BURST_ERROR_TOUCHED_BEFORE, ERROR_TOUCHED_EARLIER);
HELD(BURST_BYTES_AFTER_CHECKS, BYTES_AFTER_LAST_CHECK);
HELD(BURST_DIGIT_BEYOND_STREAMS, DIGIT_BEYOND_STREAMS);
HELD(BURST_OUTPUT_TOO_SHORT, OUTPUT_TOO_SHORT);
HELD(BURST_TOO_MANY_FRAMES, FRAMES_USED_UP);
HELD(BURST_DEFAULT_STATED, DEFAULT_STATED);

/* No document has this one: it is what was published, so firmware has set that much aside. stack.c, beside this
 * file, measures that it is enough. */
HELD(BURST_STACK_BYTES, 12288);
