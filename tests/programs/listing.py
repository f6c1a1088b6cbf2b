"""Tries the program `list`: every sample against its stored listing; inputs at each limit, and frames several of which are refused, against
samples/reference.py.

    python3 tests/programs/listing.py PROGRAM
"""
import os
import random
import sys

sys.dont_write_bytecode = True
from running import SAMPLES, at_once, by_the_byte, faults, run
from cards import ELEVEN_CHECKS, LONGEST, TEN_CHECKS
from reference import LONGEST_READ, P, Q, R, T, Card, framed, listing

MOST_FRAMES = 32768
RANDOM_INPUTS = 60

# Four streams and no memory: no listing is longer than that of the most frames under it. Each parity stream repeats an information stream.
WIDE = Card(255, 4, 8, 0, [[int(i == j) for j in range(4)] for i in range(4)], [[[int(i == j) for j in range(4)]] for i in range(4)])
# The longest memory.
LONG = Card(0, 1, 2, 31, [[1 << 31 | 1]], [[[1], [1 << 31]]])


def frames(card, count):
    """Frames of random digits, the same at each run."""
    digits = random.Random(count)
    return [digits.randrange(1 << (card.k + card.p)) for _ in range(count)]


def of_length(length, count):
    """An input that states a card's length: card P and bytes that are too many, then frames."""
    return framed(P.bytes().ljust(length, b"\0"), frames(P, count))


def inputs():
    """Inputs at each limit, by what they are."""
    given = {
        "no input": b"",
        "one byte": P.bytes()[:1],
        "a stated length alone": framed(P.bytes(), [])[:2],
        "a stated length of 2,048, and no more than card P": LONGEST_READ.to_bytes(2, "little") + P.bytes(),
        "a stated length of 2,049, and no more than card P": (LONGEST_READ + 1).to_bytes(2, "little") + P.bytes(),
        "a stated length of 2,048, and 32,768 frames: the longest that is listed": of_length(LONGEST_READ, MOST_FRAMES),
        "a stated length of 2,048, and 32,769 frames": of_length(LONGEST_READ, MOST_FRAMES + 1),
        "a stated length of 2,049, and 32,768 frames": of_length(LONGEST_READ + 1, MOST_FRAMES),
        "more than list reads": of_length(LONGEST_READ, 3 * MOST_FRAMES),
        "card P, and 32,769 frames": framed(P.bytes(), frames(P, MOST_FRAMES + 1)),
        "card P, and 32,768 frames, the last one with a digit too many": framed(P.bytes(), frames(P, MOST_FRAMES - 1) + [4]),
        "card P, and 32,769 frames, the first one with a digit too many": framed(P.bytes(), [4] + frames(P, MOST_FRAMES)),
    }
    for name, stated in {"k stated as 1": (True, False), "n stated as 2": (False, True), "both stated": (True, True)}.items():
        given[f"card P with {name}, and a frame with a digit too many"] = framed(P.bytes(*stated), [4])
        given[f"card P with {name}, the card cut after four bytes"] = framed(P.bytes(*stated), [])[:6]
        given[f"card P with {name}, the card cut after three bytes"] = framed(P.bytes(*stated), [])[:5]
    for name, card in {"the longest card": LONGEST, "ten checks": TEN_CHECKS, "eleven checks": ELEVEN_CHECKS}.items():
        given[name + ", and 100 frames"] = framed(card.bytes(), frames(card, 100))
    assert listing(given["eleven checks, and 100 frames"]) == b"refused 7 at 34\n"
    given["card T with n stated as 2"] = framed(T.bytes()[:3] + b"\2" + T.bytes()[4:], [])
    for name, card in {"card P": P, "card T": T, "four streams, no memory": WIDE, "memory 31": LONG}.items():
        given[name + ", and 32,768 frames"] = framed(card.bytes(), frames(card, MOST_FRAMES))
    assert [len(given[name]) for name in given if "2,048, and 32," in name] == [34818, 34819]
    return given


def refused_frames():
    """Random frames, two or more of them with a digit beyond their streams: the first of these is named."""
    given = {}
    r = random.Random(1)
    for turn in range(RANDOM_INPUTS):
        card = r.choice((P, Q, R, T, LONG))
        received = frames(card, r.randint(2, 60))
        refused = sorted(r.sample(range(len(received)), r.randint(2, min(5, len(received)))))
        for time in refused:
            received[time] |= 1 << r.randint(card.k + card.p, 7)
        name = f"input {turn}, frames with a digit too many at {refused}"
        given[name] = framed(card.bytes(), received)
        assert listing(given[name]) == b"refused 11 at %d\n" % refused[0]
    return given


def main():
    if len(sys.argv) != 2:
        sys.exit("usage: python3 tests/programs/listing.py PROGRAM")
    program = sys.argv[1]
    samples = {path.name: path.read_bytes() for path in sorted(SAMPLES.glob("*.bin"))}
    limits, refused = inputs(), refused_frames()
    wanted = {name: (SAMPLES / name).with_suffix(".txt").read_bytes() for name in samples}
    wanted.update((name, listing(given)) for name, given in {**limits, **refused}.items())
    failures = []

    def hold(*run):
        failures.extend(faults(*run))

    for name, given in {**samples, **limits, **refused}.items():
        hold(name, run(program, at_once(given)), wanted[name])
        hold(name + ", a byte at a time", run(program, by_the_byte(given)), wanted[name])
    # A read that fails counts as the end of the input.
    hold("a folder as input", run(program, os.open(SAMPLES, os.O_RDONLY)), wanted["no input"])
    with open("/dev/full", "wb") as full:
        came = run(program, at_once(samples["p-clean.bin"]), full)
        hold("p-clean.bin, to a full device", came, b"", b"list: the listing could not be written\n")

    for failure in failures:
        print("FAILED: list: " + failure)
    if failures:
        sys.exit(1)
    print(f"list: {len(samples)} samples, {len(limits)} inputs at the limits and {len(refused)} with refused frames, at once and a byte at a time")


main()
