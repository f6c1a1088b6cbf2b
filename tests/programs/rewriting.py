"""Sets the program `rewrite` against samples/reference.py: cards with and without stated defaults, cut, changed and random ones, some with more
checks than they may have, and inputs at each limit. What it has rewritten must stay as it is when it is rewritten again.

    python3 tests/programs/rewriting.py PROGRAM
"""
import os
import sys

sys.dont_write_bytecode = True
from running import SAMPLES, at_once, by_the_byte, run
from cards import cards, limits, stored, too_many_checks
from reference import rewriting


def is_card(wrote):
    """A card begins with a byte of at most 3, a line of text with a letter."""
    return wrote[:1] < b"\4"


def check_variety(wanted):
    """Too few of a kind would try little."""
    lines = {line.split(b" at ")[0] for line in wanted.values() if not is_card(line)}
    assert lines >= {b"input too long\n"} | {b"refused %d" % number for number in range(1, 11)}, lines
    assert b"refused 18" not in lines
    assert 150 <= sum(is_card(wrote) for wrote in wanted.values())


def main():
    if len(sys.argv) != 2:
        sys.exit("usage: python3 tests/programs/rewriting.py PROGRAM")
    program = sys.argv[1]
    few, many = {**stored(), **limits()}, {**cards(), **too_many_checks()}
    wanted = {name: rewriting(given) for name, given in {**few, **many}.items()}
    wanted.update((path.name, path.with_suffix(".rewritten").read_bytes()) for path in SAMPLES.glob("*.card"))
    check_variety(wanted)
    failures = []

    def hold(name, came, should_write, says=lambda said: said == b""):
        wrote, said = came
        if wrote != should_write:
            failures.append(f"{name}: it wrote {wrote!r}, and should write {should_write!r}")
        if not says(said):
            failures.append(f"{name}: standard error has {said.decode(errors='replace')!r}")

    for name, given in {**few, **many}.items():
        hold(name, run(program, at_once(given)), wanted[name])
    for name, given in few.items():
        hold(name + ", a byte at a time", run(program, by_the_byte(given)), wanted[name])
    again = sorted({wrote for wrote in wanted.values() if is_card(wrote)})
    for wrote in again:
        hold(f"the rewritten {wrote.hex()}", run(program, at_once(wrote)), wrote)
    # A read that fails counts as the end of the input.
    hold("a folder as input", run(program, os.open(SAMPLES, os.O_RDONLY)), wanted["no input"])
    with open("/dev/full", "wb") as full:
        came = run(program, at_once(few["stored-p.card"]), full)
        hold("stored-p.card, to a full device", came, b"", lambda said: said.startswith(b"rewrite: ") and said.endswith(b"\n"))

    for failure in failures[:20]:
        print("FAILED: rewrite: " + failure)
    if failures:
        sys.exit(1)
    print(f"rewrite: {len(few)} samples and limits, at once and a byte at a time, {len(many)} other inputs; {len(again)} cards stay as rewritten")


main()
