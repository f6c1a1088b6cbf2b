"""Running a program, on a standard input and arguments; and where the reference, samples/reference.py, is imported from."""
import os
import pathlib
import subprocess
import sys
import threading

SAMPLES = pathlib.Path(__file__).resolve().parents[2] / "samples"
sys.path.insert(0, str(SAMPLES))


def at_once(given):
    """A file of the input."""
    descriptor = os.memfd_create("input")
    os.write(descriptor, given)
    os.lseek(descriptor, 0, os.SEEK_SET)
    return descriptor


def by_the_byte(given):
    """A pipe that gives the input a byte at a time: in packet mode a read gets what one write gave, and no more."""
    reading, writing = os.pipe2(os.O_DIRECT | os.O_CLOEXEC)

    def feed():
        try:
            for byte in given:
                os.write(writing, bytes([byte]))
        except BrokenPipeError:
            pass  # not all of it is read
        os.close(writing)

    threading.Thread(target=feed, daemon=True).start()
    return reading


def run(program, stdin, stdout=subprocess.PIPE, arguments=(), **how):
    """What the program wrote, and what it said on standard error. Its input is closed afterwards. `how` is as for subprocess.run."""
    try:
        ended = subprocess.run([program, *arguments], stdin=stdin, stdout=stdout, stderr=subprocess.PIPE, timeout=60, **how)
    except subprocess.TimeoutExpired:
        return b"", b"(it did not end)"
    finally:
        os.close(stdin)
    wrote = ended.stdout or b""
    if ended.returncode != 0:
        return wrote, f"(it ended with status {ended.returncode})".encode()
    return wrote, ended.stderr


def faults(what, came, wanted, should_say=b""):
    """What is wrong with what came of a run, which wrote and said this on standard error: a text for each."""
    wrote, said = came
    if wrote != wanted:
        yield f"{what}: {difference(wrote, wanted)}"
    if said != should_say:
        yield f"{what}: standard error has {said.decode(errors='replace')!r}, and should have {should_say.decode()!r}"


def difference(wrote, wanted):
    """The first line in which they differ."""
    wrote, wanted = wrote.split(b"\n"), wanted.split(b"\n")
    line = next((at for at, pair in enumerate(zip(wrote, wanted)) if pair[0] != pair[1]), min(len(wrote), len(wanted)))
    shown = [shortened(lines[line]) if line < len(lines) else "the end" for lines in (wrote, wanted)]
    return f"line {line + 1} is {shown[0]}, and should be {shown[1]}"


def shortened(line):
    """A line as it is shown: of a long one its length and both ends."""
    text = repr(line)[1:]
    return text if len(text) < 400 else f"{text[:60]} .. {text[-60:]} ({len(line)} bytes)"
