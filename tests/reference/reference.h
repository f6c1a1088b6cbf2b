/* The second opinion: link cards, sending and threshold receiving, written from document 01
 * (the project's scope), before its author looked at the library's code. Where the document leaves a point
 * open, the project's DESIGN.md had been read, so on those points it is not a second reading. The written
 * form of a card (document 02, R-1) was added later, by an author who had seen the library's. The second
 * circuit (document 02, R-2) was added by an author who had not seen the library's, from that document's
 * sentence and the report's section 4.1 b. That a digit enters a check once for each of its pairs, and that the
 * session has the first one's calls and refusals, the author was told, so there it is no second reading. Refusal 18
 * and the rewriting of stored cards (document 02, R-4) were added by an author who had not looked at the library's
 * code, from that document's paragraph. The order of 18 among a card's other refusals the author was told as well.
 * Standard cards (document 02, R-5) were added by an author who had not looked at the library's code, from that
 * document's paragraph and the report's section 3.5; that the call answers 0 for another J the author was told.
 * That erased digits leave the vote (document 02, R-6) was added by an author who had not looked at the library's code,
 * from that document's paragraph. What a check's own digit is, which digits it touches, that a time not yet decided is
 * u or a later one, and that in the second circuit none voting is a tie, the author was told.
 * That a level near zero is erased (document 02, R-7) was added by an author who had not looked at the library's code,
 * from that document's paragraph. That zeros are among these levels, that what is infinite or not a number is refused as
 * before, and that beside the mark 'erased' no level is looked at, the author was told.
 * That J is at most ten (document 02, R-13) was added by an author who had not looked at the library's code, from that
 * document's paragraph.
 *
 * It is made to be read, not to be fast. A digit is an int that is 0 or 1, a sum of digits is a
 * sum with one `% 2` at its end, and a stream keeps every frame from time 0 on: no masks, no
 * registers, nothing shifted. Streams, parity streams and checks are counted from 1, as in the
 * document, so place 0 of every table is unused. */
#ifndef REFERENCE_H
#define REFERENCE_H

#include <stddef.h>
#include <stdint.h>

/* The limits. tests/header/header.c holds those of include/burst.h to them. */
enum {
    MOST_INFORMATION = 4, /* k */
    MOST_STREAMS = 8,     /* n */
    MOST_PARITY = 7,      /* p = n - k, k at least 1 */
    MOST_MEMORY = 31,     /* m */
    MOST_CHECKS = 10,     /* J */
    LEAST_CARD_BYTES = 15, /* one generator and one check of one mask: with less no check touches its own digit */
    MOST_CARD_BYTES = 755,
    MOST_STORED_BYTES = 2048, /* of a stored card that a program reads */
    MOST_FRAMES = 1048576,
    LEAST_STANDARD_CHECKS = 2, /* J of standard cards */
    MOST_STANDARD_CHECKS = 7,
    MOST_STANDARD_CARD_BYTES = 45
};

/* The refusals: document 01's two lists, and the last of document 02's R-4. */
enum refusal {
    ENDS_INSIDE_FIELD = 1,
    K_OUTSIDE_RANGE = 2,
    N_OUTSIDE_RANGE = 3,
    M_OUTSIDE_RANGE = 4,
    MAP_BIT_BEYOND_STREAMS = 5,
    MASK_OUTSIDE_RANGE = 6, /* zero, or with a bit above m */
    J_OUTSIDE_RANGE = 7,
    OWN_DIGIT_NOT_TOUCHED = 8,
    ERROR_TOUCHED_EARLIER = 9, /* by an earlier check of the stream */
    BYTES_AFTER_LAST_CHECK = 10,
    DIGIT_BEYOND_STREAMS = 11,
    LEVEL_NOT_FINITE = 12,
    OUTPUT_TOO_SHORT = 13,
    OTHER_CARD_NUMBER = 14,
    FRAMES_USED_UP = 15,
    INFORMATION_AFTER_TAIL = 16,
    TAIL_USED_UP = 17,
    DEFAULT_STATED = 18
};

/* What a link card says. */
struct fields {
    int number;
    int k, n, p, m;
    int g[MOST_INFORMATION + 1][MOST_PARITY + 1][MOST_MEMORY + 1];      /* g(i, j, a) at [i][j][a] */
    int J[MOST_INFORMATION + 1];                                        /* checks of stream i */
    int check[MOST_INFORMATION + 1][MOST_CHECKS + 1][MOST_PARITY + 1][MOST_MEMORY + 1];
    /* the pair (a, j) is in check q of stream i: 1 at [i][q][j][a] */
};

/* A refusal's number, 0 for none, and for a card its byte offset. */
struct card_answer {
    int refusal;
    size_t offset;
};

/* One digit for each stream, 1 to n; zero beyond. Of a received frame also which digits were erased: they are 0. */
struct frame {
    int digit[MOST_STREAMS + 1];
    int erased[MOST_STREAMS + 1];
};

/* The errors that a check touches: information errors (b, i) at [b][i], parity errors (b, j) at [b][k + j]. */
struct touched {
    int error[MOST_MEMORY + 1][MOST_STREAMS + 1];
};

/* Under which rule a card is read. Before document 02's R-4 it could state k as 1 and n as 2, their defaults; from
 * then on that is refused with 18. */
enum rule { FORMER, PRESENT };

struct card_answer reference_read_card_under(enum rule rule, const uint8_t *bytes, size_t length, struct fields *card);

/* Under the present rule. */
struct card_answer reference_read_card(const uint8_t *bytes, size_t length, struct fields *card);

/* The card that the bytes state in its written form, called as the library's card_write is. */
int32_t reference_card_write(const uint8_t *card, size_t card_length, uint8_t *output, size_t output_length);

/* The standard card with so many checks, called as the library's standard_card is. */
int32_t reference_standard_card(uint32_t checks, uint8_t *output, size_t output_length);

/* What the program `rewrite` writes for its input, a card or a line of text: at most MOST_CARD_BYTES. Gives the count. */
size_t reference_rewrite(const uint8_t *input, size_t length, uint8_t *output);

struct touched reference_touched(const struct fields *card, int i, int q);

/* By which of the report's two circuits (its section 4.1) a receiver decides. */
enum circuit {
    TYPE_I, /* document 01's: the checks vote on the error, from syndromes */
    TYPE_II /* document 02's R-2: they vote on the digit itself, from received digits; no link figure */
};

/* The bursts, called as the library's are. */
int32_t reference_burst_send(const uint8_t *card, size_t card_length, const uint8_t *input, size_t input_length,
                             uint8_t *output, size_t output_length);
int32_t reference_burst_receive(const uint8_t *card, size_t card_length, const uint8_t *input, size_t input_length,
                                uint8_t *output, size_t output_length);

/* What the receiver of bursts gives if it is built by the second circuit. */
int32_t reference_burst_receive_by_digits(const uint8_t *card, size_t card_length, const uint8_t *input,
                                          size_t input_length, uint8_t *output, size_t output_length);

/* The notice's third term, by document 02's R-6: 1 if for each of the `count` information frames' digits the wrong
 * digits among those that its voting checks touch, its own included even if none votes, are at most half of the votes.
 * sent and received are whole streams, count + m frame bytes. Of as many bytes of `erased`, NULL for none, bit s - 1
 * stands if the digit of stream s is; what `received` has in its place is not looked at. */
int reference_correctable(const struct fields *card, const uint8_t *sent, const uint8_t *received,
                          const uint8_t *erased, long count);

/* Of a stream with these digits erased, the number of checks on digit i at u that vote. */
int reference_votes(const struct fields *card, const uint8_t *erased, int i, long u);

/* The sessions. */

struct answer {
    enum { WAITING, FRAME, REFUSED } kind;
    int value; /* the frame byte, or the refusal's number */
};

struct reading {
    int erased; /* the mark: where it is 1 the level is not looked at */
    float level;
};

struct receiving {
    enum circuit circuit;
    struct fields card;
    struct frame *received, *decided; /* from time 0; decided for the frames handed out only, errors or digits */
    long count, room;                 /* frames received */
};

struct sending {
    struct fields card;
    struct frame *sent; /* from time 0, the tail included */
    long count, room;
    int tail; /* tail frames that are out */
};

void reference_open_receiving(struct receiving *session, enum circuit circuit, const struct fields *card);
struct answer reference_receive_byte(struct receiving *session, int number, uint8_t byte);
struct answer reference_receive_readings(struct receiving *session, int number, const struct reading readings[8]);
long reference_link_figure(const struct receiving *session); /* of the first circuit */
void reference_close_receiving(struct receiving *session);

void reference_open_sending(struct sending *session, const struct fields *card);
struct answer reference_send(struct sending *session, uint8_t information);
struct answer reference_send_tail(struct sending *session);
void reference_close_sending(struct sending *session);

#endif
