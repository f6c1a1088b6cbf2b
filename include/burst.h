/* burst.h: convolutional coding and threshold decoding of whole bursts, for controller firmware; link cards
 * written out, to be carried from one unit to the next; and the standard cards.
 *
 * Link with libburst.a (examples/build writes it to target/staticlib/), on x86-64. C99 or later, or C++.
 * examples/firmware.c is a whole program over this header, and examples/standard_card.c a smaller one.
 *
 *
 * In short
 * --------
 * A probe sends k streams of information digits (bits) and p streams of parity digits worked out
 * from them, so that a receiver can tell which digits came wrong. One digit of each of the n = k + p
 * streams makes a frame; a frame is one byte here. A burst is a row of frames.
 *
 *     burst_send      information frames, in      ->  sent frames, out
 *     burst_receive   received frames, in         ->  information frames, out, corrected
 *
 * Which code is used, and how the receiver votes on each digit, stands on a link card: a row of 15
 * to 755 bytes that you get with the probe, or from standard_card below. Each function that works by a
 * card takes its bytes at each call, reads them and tests them; there is nothing to open, to keep or to close.
 *
 *     uint8_t link[3 + BURST_MOST_MEMORY], came[3];
 *     int32_t sent = burst_send(card, sizeof card, information, 3, link, sizeof link);
 *     if (sent < 0)
 *         return show_refusal(-sent);
 *     .. the frames travel, and some of their digits change on the way ..
 *     int32_t count = burst_receive(card, sizeof card, link, (size_t)sent, came, sizeof came);
 *     if (count < 0)
 *         return show_refusal(-count);
 *     .. came[0] to came[count - 1] are the information frames ..
 *
 * A third function has nothing to do with frames. It gives a card back in the one form in which cards
 * are stored and carried (see "Cards written out" below):
 *
 *     card_write      a card, in                  ->  the same card, written out
 *
 * A fourth has the cards that most sites take, and is told only how many checks the card is to have (see
 * "Standard cards" below):
 *
 *     standard_card   a number of checks, in      ->  the standard card with so many, out
 *
 *
 * Frames
 * ------
 * Bit i - 1 of a frame byte is the digit of stream i: bit 0 for stream 1, and so on. Streams 1 to k
 * carry the information, streams k + 1 to n the parity. Bits beyond the frame's streams must be zero.
 *
 *     information frame   bits 0 to k - 1   what burst_send takes, and what burst_receive gives
 *     sent frame          bits 0 to n - 1   what burst_send gives, and what burst_receive takes
 *
 * With k = 2, n = 3, for example, the sent frame 0x05 has digit 1 in stream 1, 0 in stream 2 and 1 in
 * the parity stream; its information frame is 0x01.
 *
 *
 * Memory and tail
 * ---------------
 * A parity digit depends on the information digits of its own frame and of the m frames before it; m
 * is the card's memory, 0 to 31. After the last information frame a sender adds the tail, m frames of
 * zero information, so that the last information frames are covered by as many parity digits as
 * the others. burst_send adds it; burst_receive expects it and takes it off. So
 *
 *     burst_send      gives   input_length + m   frames
 *     burst_receive   gives   input_length - m   frames, or 0 if there are no more than m
 *
 * An output of input_length + BURST_MOST_MEMORY bytes is enough for burst_send with any card, and one
 * of input_length bytes for burst_receive. An empty burst is fine: burst_send then gives the tail alone.
 *
 *
 * Cards written out
 * -----------------
 * A card that was tuned on one unit can be carried to the next tunnel; card_write tests it and writes it
 * out, the order of its checks kept:
 *
 *     uint8_t written[BURST_MOST_CARD_BYTES];
 *     int32_t length = card_write(card, card_length, written, sizeof written);
 *     if (length < 0)
 *         return show_refusal(-length);
 *     .. written[0] to written[length - 1] are the card, for the next unit ..
 *
 * - A card has one form only: k is 1 and n is 2 where it doesn't state them, and it may not state these
 *   all the same (18). So two good cards are equal, the order of their checks included, exactly if their
 *   bytes are.
 * - A good card therefore comes back byte for byte, and the answer is card_length.
 * - BURST_MOST_CARD_BYTES bytes of output are enough for every card, and so are card_length bytes.
 *
 * Once a card could state k as 1 and n as 2. A stored card that does is refused now, by every function
 * here that takes a card, and isn't lost: the program `rewrite` reads such a card from its standard input and
 * writes it anew, a byte shorter for each, to its standard output. `./rewrite-cards FILE..` does this for
 * stored files.
 *
 * Once, too, a card could have more than ten checks for an information stream. It is refused now (7) by the same
 * functions and by `rewrite`, and there is no other form to write it in. `./audit-cards FILE..` finds such cards
 * among stored files.
 *
 *
 * Standard cards
 * --------------
 * A site without a card of its own takes a standard one. There are six, all with k 1 and n 2: one for each
 * number of checks J from 2 to 7, which is the card's number too. So a site settles on a J, and nothing else:
 *
 *     J     m   bytes   wrong digits put right
 *     2     1      20   1
 *     3     3      25   1
 *     4     7      30   2
 *     5    12      35   2
 *     6    20      40   3
 *     7    30      45   3
 *
 * An even J puts J / 2 wrong digits right (see "What is corrected" below), and an odd J no more than the one
 * before it. More checks cost a longer memory: the tail has m frames, and a digit is known only when the m
 * frames after it have come.
 *
 *     uint8_t card[BURST_MOST_STANDARD_CARD_BYTES];
 *     int32_t length = standard_card(6, card, sizeof card);
 *     if (length <= 0)
 *         return show_no_card();
 *     int32_t sent = burst_send(card, (size_t)length, information, 3, link, sizeof link);
 *
 * - Each of them is a good card: every function here that takes a card accepts it. Pass its length on, and not
 *   sizeof card: bytes after the last check are refused (10).
 * - For another J there is no standard card. The answer is then 0, whatever the output is.
 * - Probe and unit must use the same J: a burst doesn't say by which card it was sent.
 *
 * docs/STANDARD_CARDS.md says what stands on these cards, where they come from, and how to choose a J.
 *
 *
 * The answer
 * ----------
 * 0 or more: the count of output bytes, which are frames, one byte each, or from card_write and standard_card
 * a card. Just that many bytes of the output were written, from its first byte on; those beyond are as they
 * were. No card has 0 bytes: from standard_card 0 means that there is no such card.
 *
 * Less than 0: minus the number of a refusal, one of enum burst_refusal. Nothing was written.
 *
 * Every possible input has one of these answers: there is nothing that you must test before the call,
 * provided each pointer and length tell the truth (see "What you owe" below). Which refusal is met
 * first is fixed too: the card's (1 to 10 and 18, in the order of its bytes), then 15, then 13, then 11.
 * From card_write there are the card's, then 13. standard_card takes no card and no input, so from it there
 * is 13 alone.
 *
 *
 * What is corrected
 * -----------------
 * For each information digit the card has a number of checks, J. A check is a sum of received digits
 * that would be zero if all came right; the digit is taken for wrong if more than half of its J checks
 * are not zero. If, among the digits that a digit's checks look at, no more than J / 2 (rounded down)
 * came wrong, and this holds for every information digit of the burst, then the burst comes out
 * exactly as it was sent. A card whose checks would not keep this is refused (8 and 9). With more wrong
 * digits burst_receive still answers, with the digits that the vote gives; it can't tell that there
 * were too many.
 *
 *
 * What you owe
 * ------------
 * - Each pointer points to as many bytes as the length after it says, and that memory is yours for the
 *   whole call: nobody else writes the card, the input or the output while it runs.
 * - The output overlaps neither the card nor the input. (Card and input may overlap.) So a card can't be
 *   written over itself: write it elsewhere, and copy it. (standard_card has an output only.)
 * - With length 0 the pointer isn't looked at, and may be null. With any other length it may not be null.
 * - No pointer needs to be aligned. A length is at most PTRDIFF_MAX, as for every object in C.
 *
 *
 * What you get
 * ------------
 * - Only the output is written, and of it only the bytes that the answer counts.
 * - No memory is allocated, no file or device is touched, nothing is kept from one call to the next. So
 *   the functions may be called from several threads at once, each with an output of its own.
 * - A call takes less than BURST_STACK_BYTES of stack, most of it for the card that is being read:
 *   measured, 3,544 bytes by burst_send, 6,344 by burst_receive and 4,744 by card_write; by standard_card,
 *   which reads none, 40. `tests/run` measures it again.
 * - Each call ends. It takes time in proportion to the frames, after the reading of the card; standard_card
 *   has neither.
 * - Of the C library only memcpy and memset are needed.
 *
 * The answer and every byte of the output are proved, for every input, of the code in crates/. No proof
 * covers the stack and the time (they are measured), the compilers, this header, or "What you owe".
 */
#ifndef BURST_H
#define BURST_H

#include <stddef.h>
#include <stdint.h>

#ifdef __cplusplus
extern "C" {
#endif

/* The limits of cards and bursts, and of what a call needs. */
#define BURST_MOST_INFORMATION_STREAMS 4 /* k, at least 1 */
#define BURST_MOST_STREAMS 8             /* n, at least k + 1 */
#define BURST_MOST_MEMORY 31             /* m, at least 0 */
#define BURST_MOST_CHECKS 10             /* J, at least 1, for each information stream */
#define BURST_MOST_CARD_BYTES 755        /* no card that is accepted is longer */
#define BURST_MOST_FRAMES 1048576        /* frames of a burst as it is sent, with its tail */
#define BURST_STACK_BYTES 12288          /* stack, for a call */

/* The limits of standard cards. */
#define BURST_LEAST_STANDARD_CHECKS 2     /* J of the first standard card */
#define BURST_MOST_STANDARD_CHECKS 7      /* J of the last one */
#define BURST_MOST_STANDARD_CARD_BYTES 45 /* no standard card is longer */

/* Why a call is refused: the answer is minus one of these. The numbers are published and stay. (The
 * missing ones, 12, 14, 16 and 17, belong to calls that receive or send frame by frame.) */
enum burst_refusal {
    /* The card is not one, or is damaged: */
    BURST_CARD_CUT_SHORT = 1,           /* it ends inside a field */
    BURST_K_OUT_OF_RANGE = 2,           /* k is not 1 to 4 */
    BURST_N_OUT_OF_RANGE = 3,           /* n is not k + 1 to 8 */
    BURST_MEMORY_ABOVE_LIMIT = 4,       /* m is above 31 */
    BURST_MAP_BEYOND_STREAMS = 5,       /* a map has a bit set for a stream or field that there isn't */
    BURST_MASK_OUT_OF_RANGE = 6,        /* a mask that stands on the card is zero, or has a bit above m */
    BURST_CHECK_COUNT_OUT_OF_RANGE = 7, /* J is not 1 to 10; for more than 10 see "Cards written out" above */
    BURST_BYTES_AFTER_CHECKS = 10,      /* bytes are left after the last check */

    /* The card has the form that was good before, and has to be rewritten (or it is damaged): */
    BURST_DEFAULT_STATED = 18,          /* it states k as 1 or n as 2; see "Cards written out" above */

    /* The card can be read, but a receiver that voted by it could spoil a burst: */
    BURST_OWN_DIGIT_UNTOUCHED = 8,      /* a check doesn't look at the digit that it votes on */
    BURST_ERROR_TOUCHED_BEFORE = 9,     /* two checks on one digit look at the same other digit */

    /* The card is good, but the burst or the output is not: */
    BURST_DIGIT_BEYOND_STREAMS = 11,    /* an input frame has a bit beyond its streams (k for burst_send, n for burst_receive) */
    BURST_OUTPUT_TOO_SHORT = 13,        /* the output has room for fewer bytes than there will be */
    BURST_TOO_MANY_FRAMES = 15          /* more than BURST_MOST_FRAMES as sent, with the tail */
};

/* Sends a burst: information frames in, the frames to transmit out, followed by the tail.
 *
 *   card, card_length       the link card
 *   input, input_length     information frames, one byte each, bits 0 to k - 1; from 0 frames on
 *   output, output_length   receives input_length + m frames, bits 0 to n - 1
 *
 * Answers input_length + m, or minus a refusal (enum burst_refusal); see "The answer" above. */
int32_t burst_send(const uint8_t *card, size_t card_length,
                   const uint8_t *input, size_t input_length,
                   uint8_t *output, size_t output_length);

/* Receives a burst: the frames that came, the tail's included, in; corrected information frames out.
 *
 *   card, card_length       the link card, the one the probe sends by
 *   input, input_length     received frames, one byte each, bits 0 to n - 1; from 0 frames on
 *   output, output_length   receives input_length - m frames, bits 0 to k - 1 (none if input_length <= m)
 *
 * Answers the count of output frames, or minus a refusal (enum burst_refusal); see "The answer" above.
 * A burst carries no card number: a card of another probe is not noticed here, if it is a good card. */
int32_t burst_receive(const uint8_t *card, size_t card_length,
                      const uint8_t *input, size_t input_length,
                      uint8_t *output, size_t output_length);

/* Writes a card out: its bytes in, the same bytes out if it is a good card; see "Cards written out" above.
 *
 *   card, card_length       the link card
 *   output, output_length   receives the written card; BURST_MOST_CARD_BYTES are always room enough
 *
 * Answers the count of output bytes, which is card_length, or minus a refusal (enum burst_refusal): the card's,
 * as burst_send refuses it, or else BURST_OUTPUT_TOO_SHORT. */
int32_t card_write(const uint8_t *card, size_t card_length,
                   uint8_t *output, size_t output_length);

/* Gives a standard card: its number of checks in, its bytes out; see "Standard cards" above.
 *
 *   checks                  J, from BURST_LEAST_STANDARD_CHECKS to BURST_MOST_STANDARD_CHECKS
 *   output, output_length   receives the card; BURST_MOST_STANDARD_CARD_BYTES are always room enough
 *
 * Answers the count of output bytes, which is 5 * checks + 10; or 0, with nothing written, if there is no
 * standard card with so many checks; or else minus BURST_OUTPUT_TOO_SHORT. */
int32_t standard_card(uint32_t checks, uint8_t *output, size_t output_length);

#ifdef __cplusplus
}
#endif

#endif
