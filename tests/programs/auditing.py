"""Sets the program `audit` against samples/reference.py: cards good and bad, names and files of every kind, files that change while they are read.

    python3 tests/programs/auditing.py PROGRAM CHANGING

CHANGING is changing.c as a library. A closed file is tried where permissions hold for who runs this, as they don't for root.
"""
import os
import pathlib
import resource
import socket
import sys
import tempfile
import threading

sys.dont_write_bytecode = True
from running import at_once, by_the_byte, faults, run
from reference import LONGEST_READ, P, audit
from cards import cards, limits, stored

GOOD, BAD = P.bytes(), P.bytes()[:-1]
LONGEST_PATH, LONGEST_ARGUMENT = 4095, 131071
SHARE = 8  # the most bytes that a read gives of a file that changes
MANY = 70000
FEW_DESCRIPTORS = 64

failures = []


def hold(*run):
    failures.extend(faults(*run))


def hold_files(what, program, files, **how):
    """Files, each a name and what can be read there, or None; standard input has a good card. Gives what has to be written."""
    wanted = audit(files)
    hold(what, run(program, at_once(GOOD), arguments=[name for name, _ in files], **how), wanted)
    return wanted


def write(name, content):
    path = pathlib.Path(os.fsdecode(name))
    path.parent.mkdir(parents=True, exist_ok=True)
    path.write_bytes(content)


def try_cards(program):
    """Each card in a file, which has what it is as its name; and some of them named again."""
    files = [(name.encode(), card) for name, card in {**stored(), **limits(), **cards()}.items()]
    files += files[40::-1]
    for name, card in files:
        write(name, card)
    wanted = hold_files("cards", program, files)
    assert all(b" refused %d at " % number in wanted for number in (*range(1, 11), 18))
    return len(files)


def path_of(length, name):
    """A path of so many bytes to a file in the working folder."""
    return (b"./" + name).replace(b"/", b"/" * (length - len(name) - 1))


def names():
    """Names that a file can have."""
    every_byte = bytes(byte for byte in range(1, 256) if byte != ord("/"))
    spaced = [b"a b", b" ", b" a ", b"line\nfeed", b"\n", b"last\n\n", b"x\nend 1", b"end 1"]
    dashed = [b"-", b"--", b"-h", b"--help", b"-x"]
    odd = [b"%s%n", b"*", b"\\n", b"\xff", every_byte, b"n" * 255]
    paths = [b"c/d", b"c//e", b"./-y", b"/".join([b"d" * 250] * 8), path_of(LONGEST_PATH, b"b"), b"a"]
    return spaced + dashed + odd + paths


def readable(name, content):
    """What can be read there: nothing where the name is not UTF-8, since the paths of the program's library are text."""
    try:
        name.decode()
    except UnicodeDecodeError:
        return None
    return content


def try_names(program):
    for what, contents in {"a good card": (GOOD, GOOD), "a bad one": (BAD, BAD), "the one or the other": (GOOD, BAD)}.items():
        files = [(name, contents[at % 2]) for at, name in enumerate(names())]
        for name, content in files:
            write(name, content)
        hold_files("names of every kind, for " + what, program, [(name, readable(name, content)) for name, content in files])
    hold_files("names from the root on", program, [(os.path.join(os.getcwdb(), name), content) for name, content in files[:5]])
    return len(files)


def kinds():
    """Other things than a file of some bytes: what can be read, or None."""
    os.mkdir("folder")
    write(b"file", GOOD)
    os.symlink("file", "link")
    os.symlink("nowhere", "dangling")
    os.symlink("loop", "loop")
    socket.socket(socket.AF_UNIX).bind("socket")
    write(b"closed", GOOD)
    os.chmod("closed", 0)
    write(b"huge", GOOD)
    os.truncate("huge", (1 << 32) + len(GOOD))
    return {
        b"missing": None,
        b"": None,
        b"folder": None,
        b"folder/missing": None,
        b"file/": None,
        b"file": GOOD,
        b"link": GOOD,
        b"dangling": None,
        b"loop": None,
        b"socket": None,
        b"closed": GOOD if os.access("closed", os.R_OK) else None,
        b"huge": GOOD.ljust(LONGEST_READ + 1, b"\0"),
        b"/dev/null": b"",
        b"/dev/zero": bytes(LONGEST_READ + 1),
        b"/proc/self/mem": None,  # it can be opened, and has nothing to read at its start
        b"/proc/version": pathlib.Path("/proc/version").read_bytes(),  # where it ends can't be asked for
        path_of(LONGEST_PATH, b"file") + b"s": None,  # too long; one byte less would name a good card
        path_of(LONGEST_ARGUMENT, b"file"): None,
        b"n" * LONGEST_ARGUMENT: None,
    }


def try_kinds(program):
    files = kinds()
    if files[b"closed"]:
        print("audit: no file is closed to root here, so none is tried")
    hold_files("files of every kind", program, list(files.items()))
    return len(files)


def try_pipes(program):
    for what, content in {"card P": GOOD, **limits()}.items():
        reading = by_the_byte(content)
        files = [(b"file", GOOD), (b"/dev/fd/%d" % reading, content), (b"missing", None)]
        hold_files(f"{what}, a byte at a time", program, files, pass_fds=[reading])
        os.close(reading)
    os.mkfifo("fifo")
    threading.Thread(target=write, args=(b"fifo", GOOD), daemon=True).start()
    hold_files("card P, by a named pipe", program, [(b"fifo", GOOD)])


def try_changes(program, changing):
    """A file that changes after so many reads: none is read, whenever it is. The last read meets its end."""

    def hold_changing(what, before, becomes, reads, wanted):
        write(b"changing", before)
        environment = {"LD_PRELOAD": changing, "CHANGING": "changing", "SHARE": str(SHARE), "READS": str(reads)}
        if becomes is not None:
            write(b"becomes", becomes)
            environment["BECOMES"] = "becomes"
        hold_files(f"{what}, after {reads} reads", program, [(b"changing", wanted)], env={**os.environ, **environment})

    ways = {
        "a file that grows to a whole card": (GOOD[:10], GOOD),
        "a whole card that grows": (GOOD, GOOD + b"\0"),
        "an empty file that grows": (b"", GOOD),
        "a whole card that grows beyond what is read": (GOOD, GOOD.ljust(LONGEST_READ + 1000, b"\0")),
        "a file that shrinks to a whole card": (GOOD + b"\0", GOOD),
        "a whole card that shrinks": (GOOD, GOOD[:10]),
        "a card that can't be read any more": (GOOD, None),
    }
    for what, (before, becomes) in ways.items():
        last = -(-len(before) // SHARE) + 1
        for reads in range(last + (becomes is not None)):
            hold_changing(what, before, becomes, reads, None)
        hold_changing(what, before, becomes, last + 1, before)


def try_streams(program):
    """Standard input and output, and many arguments."""
    not_written = b"audit: the lines could not be written\n"

    def run_with(redirection):
        return run("sh", at_once(b""), arguments=["-c", 'exec "$@" ' + redirection, "sh", program, "file", "missing"])

    hold_files("no arguments", program, [])
    hold("standard input closed", run_with("<&-"), b"missing not read\nend 1\n")
    hold("standard output closed", run_with(">&-"), b"", not_written)
    with open("/dev/full", "wb") as full:
        for count in (0, 1, 20000):
            hold(f"{count} lines, to a full device", run(program, at_once(b""), full, ["missing"] * count), b"", not_written)
    many = run(program, at_once(b""), arguments=["missing"] + ["file"] * MANY + ["missing"])
    hold(f"{MANY} good cards", many, b"missing not read\nmissing not read\nend %d\n" % MANY)


def main():
    if len(sys.argv) != 3:
        sys.exit("usage: python3 tests/programs/auditing.py PROGRAM CHANGING")
    program, changing = (os.path.abspath(path) for path in sys.argv[1:])
    # A program that leaves files open soon has no more of these.
    resource.setrlimit(resource.RLIMIT_NOFILE, (FEW_DESCRIPTORS, resource.getrlimit(resource.RLIMIT_NOFILE)[1]))
    with tempfile.TemporaryDirectory() as folder:
        os.chdir(folder)
        counts = try_cards(program), try_names(program), try_kinds(program)
        try_pipes(program)
        try_changes(program, changing)
        try_streams(program)
        os.chdir("/")

    for failure in failures[:20]:
        print("FAILED: audit: " + failure)
    if failures:
        sys.exit(1)
    print("audit: %d cards, %d names and %d kinds of files; pipes, files that change while they are read, and %d arguments" % (*counts, MANY))


main()
