"""Holds include/burst.h to samples/reference.py: every sentence that has a number in it, and what stands beside each constant. The constants'
own numbers are held by tests/header/header.c, and that it has them all is seen here; the table of standard cards is held by samples/make --check.

    python3 tests/header/header.py MEASURED

MEASURED is a file with what the program of tests/header/stack.c wrote: the stack's figures are measured ones, and no reference has them.
"""
import pathlib
import re
import sys

sys.dont_write_bytecode = True
ROOT = pathlib.Path(__file__).resolve().parents[2]
sys.path.insert(0, str(ROOT / "samples"))
from reference import *

HEADER = "include/burst.h"


def longest(k, n):
    """The most bytes that a card of k and n has by its layout: every mask stands, and there are the most checks."""
    masks = [1] * (n - k)
    return len(Card(0, k, n, RANGE_OF_M[-1], [masks] * k, [[masks] * RANGE_OF_J[-1]] * k).bytes())


def span(numbers):
    return f"{numbers[0]} to {numbers[-1]}"


# The shortest card has one generator and one check, of one mask each: without them no check touches its own digit.
SHORTEST = Card(0, DEFAULT_K, DEFAULT_N, 0, [[1]], [[[1]]]).bytes()
assert Card.read(SHORTEST).bytes() == SHORTEST
LONGEST = max(longest(k, n) for k in RANGE_OF_K for n in range_of_n(k))
LEAST_N = range_of_n(0)[0]  # beyond k
MOST_N = range_of_n(0)[-1]

# What the sentences below say of counts, by the reference's own cards.
assert all(len(card.sent([0] * 9)) == 9 + card.m and len(card.received([0] * 9)) == 9 - card.m for card in (P, Q, R, T))
assert all(card.received([0] * card.m) == [] for card in (P, Q, R, T))
assert all(len(card.bytes()) == 5 * J + 10 and card.number == J for J, card in STANDARD.items())
NUMBER_WORDS = {6: "six", 10: "ten"}

# A card's refusals, to which document 02 added one more, and those that only sessions meet.
OF_CARDS = range(ENDS_INSIDE_FIELD, BYTES_AFTER_LAST_CHECK + 1)
OF_SESSIONS = (LEVEL_NOT_FINITE, OTHER_CARD_NUMBER, INFORMATION_AFTER_TAIL, TAIL_USED_UP)
SENT = T.sent([1])[0]
EXAMPLE = 3  # frames

# In the header's order, its lines joined.
SENTENCES = f"""
on x86-64. C99 or later, or C++.
a row of {len(SHORTEST)} to {LONGEST:,} bytes that you get with the probe
uint8_t link[{EXAMPLE} + BURST_MOST_MEMORY], came[{EXAMPLE}]; int32_t sent = burst_send(card, sizeof card, information, {EXAMPLE}, link, sizeof link);
if (sent < 0) return show_refusal(-sent);
if (count < 0) return show_refusal(-count); .. came[0] to came[count - 1] are the information frames ..
Bit i - 1 of a frame byte is the digit of stream i: bit 0 for stream 1, and so on.
Streams 1 to k carry the information, streams k + 1 to n the parity.
information frame bits 0 to k - 1 what burst_send takes, and what burst_receive gives
sent frame bits 0 to n - 1 what burst_send gives, and what burst_receive takes
With k = {T.k}, n = {T.k + T.p}, for example, the sent frame 0x{SENT:02x} has digit {SENT & 1} in stream 1, {SENT >> 1 & 1} in stream 2 and {SENT >> 2} in the parity stream; its information frame is 0x01.
m is the card's memory, {span(RANGE_OF_M)}.
burst_send gives input_length + m frames
burst_receive gives input_length - m frames, or 0 if there are no more than m
if (length < 0) return show_refusal(-length); .. written[0] to written[length - 1] are the card, for the next unit ..
k is {DEFAULT_K} and n is {DEFAULT_N} where it doesn't state them, and it may not state these all the same ({DEFAULT_STATED}).
Once a card could state k as {DEFAULT_K} and n as {DEFAULT_N}.
Once, too, a card could have more than {NUMBER_WORDS[RANGE_OF_J[-1]]} checks for an information stream. It is refused now ({J_OUTSIDE_RANGE}) by the same functions
There are {NUMBER_WORDS[len(STANDARD)]}, all with k {DEFAULT_K} and n {DEFAULT_N}: one for each number of checks J from {span(list(STANDARD))}, which is the card's number too.
An even J puts J / 2 wrong digits right (see "What is corrected" below), and an odd J no more than the one before it.
int32_t length = standard_card(6, card, sizeof card); if (length <= 0) return show_no_card();
int32_t sent = burst_send(card, (size_t)length, information, {EXAMPLE}, link, sizeof link);
bytes after the last check are refused ({BYTES_AFTER_LAST_CHECK}).
For another J there is no standard card. The answer is then 0, whatever the output is.
0 or more: the count of output bytes,
No card has 0 bytes: from standard_card 0 means that there is no such card.
Less than 0: minus the number of a refusal, one of enum burst_refusal.
the card's ({span(OF_CARDS)} and {DEFAULT_STATED}, in the order of its bytes), then {FRAMES_USED_UP}, then {OUTPUT_TOO_SHORT}, then {DIGIT_BEYOND_STREAMS}.
From card_write there are the card's, then {OUTPUT_TOO_SHORT}.
standard_card takes no card and no input, so from it there is {OUTPUT_TOO_SHORT} alone.
no more than J / 2 (rounded down) came wrong,
A card whose checks would not keep this is refused ({OWN_DIGIT_NOT_TOUCHED} and {ERROR_TOUCHED_EARLIER}).
With length 0 the pointer isn't looked at, and may be null.
(The missing ones, {', '.join(str(number) for number in OF_SESSIONS[:-1])} and {OF_SESSIONS[-1]}, belong to calls that receive or send frame by frame.)
input, input_length information frames, one byte each, bits 0 to k - 1; from 0 frames on
output, output_length receives input_length + m frames, bits 0 to n - 1
input, input_length received frames, one byte each, bits 0 to n - 1; from 0 frames on
output, output_length receives input_length - m frames, bits 0 to k - 1 (none if input_length <= m)
Answers the count of output bytes, which is 5 * checks + 10; or 0, with nothing written, if there is no standard card
""".strip().split("\n")

# What stands beside each constant.
CONSTANTS = {
    "BURST_MOST_INFORMATION_STREAMS": f"k, at least {RANGE_OF_K[0]}",
    "BURST_MOST_STREAMS": f"n, at least k + {LEAST_N}",
    "BURST_MOST_MEMORY": f"m, at least {RANGE_OF_M[0]}",
    "BURST_MOST_CHECKS": f"J, at least {RANGE_OF_J[0]}, for each information stream",
    "BURST_MOST_CARD_BYTES": "no card that is accepted is longer",
    "BURST_MOST_FRAMES": "frames of a burst as it is sent, with its tail",
    "BURST_STACK_BYTES": "stack, for a call",
    "BURST_LEAST_STANDARD_CHECKS": "J of the first standard card",
    "BURST_MOST_STANDARD_CHECKS": "J of the last one",
    "BURST_MOST_STANDARD_CARD_BYTES": "no standard card is longer",
    "BURST_CARD_CUT_SHORT": "it ends inside a field",
    "BURST_K_OUT_OF_RANGE": f"k is not {span(RANGE_OF_K)}",
    "BURST_N_OUT_OF_RANGE": f"n is not k + {LEAST_N} to {MOST_N}",
    "BURST_MEMORY_ABOVE_LIMIT": f"m is above {RANGE_OF_M[-1]}",
    "BURST_MAP_BEYOND_STREAMS": "a map has a bit set for a stream or field that there isn't",
    "BURST_MASK_OUT_OF_RANGE": "a mask that stands on the card is zero, or has a bit above m",
    "BURST_CHECK_COUNT_OUT_OF_RANGE": f'J is not {span(RANGE_OF_J)}; for more than {RANGE_OF_J[-1]} see "Cards written out" above',
    "BURST_BYTES_AFTER_CHECKS": "bytes are left after the last check",
    "BURST_DEFAULT_STATED": f'it states k as {DEFAULT_K} or n as {DEFAULT_N}; see "Cards written out" above',
    "BURST_OWN_DIGIT_UNTOUCHED": "a check doesn't look at the digit that it votes on",
    "BURST_ERROR_TOUCHED_BEFORE": "two checks on one digit look at the same other digit",
    "BURST_DIGIT_BEYOND_STREAMS": "an input frame has a bit beyond its streams (k for burst_send, n for burst_receive)",
    "BURST_OUTPUT_TOO_SHORT": "the output has room for fewer bytes than there will be",
    "BURST_TOO_MANY_FRAMES": "more than BURST_MOST_FRAMES as sent, with the tail",
}
CONSTANT = r"(BURST_\w+) (?:= )?\d+,? /\* (.*?) \*/"

STACK = r"measured, ([\d,]+) bytes by burst_send, ([\d,]+) by burst_receive and ([\d,]+) by card_write; by standard_card, which reads none, ([\d,]+)\."
# The frame of the calling C function is measured along, and not every compiler gives it the same: gcc and clang differ by 16 bytes at most.
STACK_TOLERANCE = 16


def folded(text):
    """The text in one line, without the stars of comments, and without the table of standard cards."""
    text = re.sub(r"^ \*     [J\d] .*\n", "", text, flags=re.M)
    return " ".join(re.sub(r"^ \*(?!/)", "", text, flags=re.M).split())


def wrong_sentences(header):
    return [f"it should say: {sentence}" for sentence in SENTENCES if sentence not in header]


def wrong_constants(header, asserted):
    came = dict(re.findall(CONSTANT, header))
    wrong = [f"{name} should have beside it: {says}" for name, says in CONSTANTS.items() if came.get(name) != says]
    wrong += [f"{name}: nothing is known of it" for name in came if name not in CONSTANTS]
    return wrong + [f"{name}: tests/header/header.c leaves it out" for name in CONSTANTS if f"HELD({name}, " not in asserted]


def wrong_stack(header, measured):
    said = re.search(STACK, header)
    figures = re.findall(r"(burst_send|burst_receive|card_write|standard_card) (\d+)", measured)
    if said is None or len(figures) != 4:
        return ["no figures of the stack are found in it, or none were measured"]
    return [
        f"it has {figure} bytes of stack for {call}, and measured are {now}"
        for figure, (call, now) in zip(said.groups(), figures)
        if STACK_TOLERANCE < abs(int(figure.replace(",", "")) - int(now))
    ]


def numbers_left(header):
    """The numbers that stand outside everything that is held."""
    left = re.sub(STACK, "", re.sub(CONSTANT, "", header))
    for sentence in SENTENCES:
        left = left.replace(sentence, "")
    return [f"a number that nothing holds: ..{left[max(number.start() - 40, 0) : number.end() + 40]}.." for number in re.finditer(r"(?<!\w)\d+", left)]


def main():
    if len(sys.argv) != 2:
        sys.exit("usage: python3 tests/header/header.py MEASURED")
    header = folded((ROOT / HEADER).read_text())
    wrong = wrong_sentences(header)
    wrong += wrong_constants(header, (ROOT / "tests/header/header.c").read_text())
    wrong += wrong_stack(header, pathlib.Path(sys.argv[1]).read_text())
    wrong = wrong or numbers_left(header)  # a sentence that is not there leaves its numbers
    if wrong:
        sys.exit("\n".join(f"FAILED: {HEADER}: {what}" for what in wrong))
    print(f"{HEADER}: {len(CONSTANTS)} constants and {len(SENTENCES) + 1} sentences with numbers, and no other number")


main()
