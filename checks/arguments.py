#!/usr/bin/env python3
"""Runs the program with wrong arguments, with files that can't be opened or read, and with texts that are too long.

Usage: checks/arguments.py [PATH OF THE PROGRAM]   (default: crates/resolve/out/resolve, which `rt run` leaves)
Status 1 where an answer isn't as promised.
"""
import os
import subprocess
import sys
import tempfile

from base import program_of

TEXT_BOUND = 2**24
INPUT_BOUND = 2**25

USAGE = (2, b"usage: resolve solve CATALOGUE REQUEST, or resolve judge CATALOGUE REQUEST REPORT\n")
UNREAD = (2, b"cannot read\n")
TOO_LONG = (2, b"too long\n")
INSTALLED = (0, b"install\na=1 for request line 1\n")
YES = (0, b"yes\n")
FAULTY_CATALOGUE = (2, b"fault at catalogue line 1\n")
FAULTY_REQUEST = (2, b"fault at request line 1\n")


def write_files(folder):
    """Texts by short names, some too long, one whose name isn't UTF-8, and a folder."""
    texts = {
        b"c": b"version a 1\n", b"r": b"needs a\n", b"p": INSTALLED[1], b"faulty": b"versions\n",
        b"\xff": b"version a 1\n", b"judge": b"version a 1\n",
    }
    for name, text in texts.items():
        with open(os.path.join(folder, name), "wb") as out:
            out.write(text)
    for name, size in [(b"whole", TEXT_BOUND), (b"long", TEXT_BOUND + 1)]:
        with open(os.path.join(folder, name), "wb") as out:
            out.truncate(size)
    os.mkdir(os.path.join(folder, b"folder"))


def words():
    """Arguments that ask for nothing: each is answered by the usage line."""
    yield from [[b"solve"], [b"solve", b"c"], [b"solve", b"c", b"r", b"p"], [b"judge", b"c", b"r"]]
    yield from [[b"judge", b"c", b"r", b"p", b"p"], [b"--help"], [b"Solve", b"c", b"r"], [b"", b"c", b"r"]]
    yield from [[b"judge ", b"c", b"r", b"p"], [b"solve\xff", b"c", b"r"], [b"\xff", b"c", b"r", b"p"]]
    yield from [[b"\xff"], [b""], [b"solve", b"\xff"], [b"x" * 5000, b"c", b"r"], [b"c", b"solve", b"r"]]


def files():
    """Arguments that name files, with status and output."""
    yield [b"solve", b"c", b"r"], INSTALLED
    yield [b"judge", b"c", b"r", b"p"], YES
    # a name may be a word
    yield [b"solve", b"judge", b"r"], INSTALLED
    for name in [b"none", b"\xff", b"", b"c/r", b"x" * 300, b"x" * 4096, b"x" * 5000]:
        yield [b"solve", name, b"r"], UNREAD
        # the catalogue is faulty, and nothing is read before all is open
        yield [b"solve", b"faulty", name], UNREAD
        yield [b"judge", name, b"r", b"p"], UNREAD
        yield [b"judge", b"faulty", name, b"p"], UNREAD
        yield [b"judge", b"faulty", b"faulty", name], UNREAD


def texts():
    """Files that open, with status and output."""
    yield [b"solve", b"folder", b"faulty"], UNREAD
    # the catalogue is read to its end first, and where it is refused the request isn't read
    yield [b"solve", b"faulty", b"folder"], FAULTY_CATALOGUE
    yield [b"solve", b"c", b"folder"], UNREAD
    yield [b"solve", b"c", b"faulty"], FAULTY_REQUEST
    yield [b"judge", b"faulty", b"folder", b"folder"], FAULTY_CATALOGUE
    yield [b"judge", b"c", b"faulty", b"folder"], FAULTY_REQUEST
    yield [b"judge", b"c", b"r", b"folder"], UNREAD
    # one line of the most bytes is faulty; of one byte more it has no end within the bound
    yield [b"solve", b"whole", b"r"], FAULTY_CATALOGUE
    yield [b"solve", b"long", b"r"], TOO_LONG
    yield [b"solve", b"long", b"faulty"], TOO_LONG
    yield [b"solve", b"c", b"whole"], FAULTY_REQUEST
    yield [b"solve", b"c", b"long"], TOO_LONG
    yield [b"judge", b"c", b"long", b"p"], TOO_LONG


def inputs():
    """Standard input, with status and output."""
    yield b"version a 1\n---\nneeds a\n", INSTALLED
    yield b"---", (0, b"install\n")
    yield b"", (0, b"install\n")
    yield b"x\n" + b"\0" * (INPUT_BOUND - 2), FAULTY_CATALOGUE
    # the input must be parted before any line is judged
    yield b"x\n" + b"\0" * (INPUT_BOUND - 1), TOO_LONG


def main():
    program = program_of(sys.argv, 1)
    faults, count = [], 0
    with tempfile.TemporaryDirectory() as folder:
        write_files(os.fsencode(folder))
        asked = [(arguments, b"", USAGE) for arguments in words()]
        asked += [(arguments, b"", wanted) for arguments, wanted in [*files(), *texts()]]
        asked += [([], given, wanted) for given, wanted in inputs()]
        for arguments, given, wanted in asked:
            ended = subprocess.run([program, *arguments], input=given, capture_output=True, cwd=folder, timeout=300)
            count += 1
            if (ended.returncode, ended.stdout) != wanted or ended.stderr:
                told = [word[:40] for word in arguments], len(given)
                faults.append(f"{told}: status {ended.returncode}, {ended.stdout[:100]!r}, {ended.stderr[:100]!r}")
    print("\n".join(faults) if faults else f"{count} calls, all as promised")
    sys.exit(1 if faults else 0)


if __name__ == "__main__":
    main()
