#!/usr/bin/env python3
"""Runs the program on texts at their bounds: a catalogue or request of 2^24 bytes, standard input of 2^25, a report of 2^30, and
more chosen packages than 2^16.

Usage: checks/bounds.py [PATH OF THE PROGRAM] [small]   (default: crates/resolve/out/resolve, which `rt run` leaves)
Status 1 where an answer isn't as promised. With `small` no report of 2^30 bytes is judged; that test writes a file of this size.
A text at its bound is read, and one byte more is `too long`, unless a whole line before it is faulty. A `#` line may hold each
byte but 10. A line of a message is buffered once while it is read, and then dropped.
"""
import os
import subprocess
import sys
import tempfile
import time

from base import PARTS, program_of, write_texts

TEXT, INPUT, REPORT = 1 << 24, 1 << 25, 1 << 30
NAMED = b"refused\nrequest line 1\nstep 1 need request line 1 case 1\nstep 2 derive [] by 1\n"
# well above a power of two: while the buffer of a line grows, the old and the new one are held, which is less than this line
LINE = 7 << 25
# of what is held beside a line there is no more than this
BESIDE = 1 << 26


def comment(count, newline=False):
    """A `#` line of so many bytes."""
    return b"#" + b"x" * (count - 1 - newline) + b"\n" * newline


def packages(count):
    """A catalogue, a request and its report, with a package a line. The second turn chooses one more version for the last line."""
    versions = "".join(f"version p{k} 1\n" for k in range(count)) + "version q 1\nneeds s\nversion s 1\n"
    needs = "".join(f"needs p{k}\n" for k in range(count - 1)) + f"needs p{count - 1} | s\nwish q 1\n"
    entries = "".join(f"p{k}=1 for request line {k + 1}\n" for k in range(count))
    report = f"install\n{entries}q=1 wished line {count + 1}\ns=1 for request line {count}\n"
    return versions.encode(), needs.encode(), report.encode()


def texts():
    """What is shown, catalogue, request, output and status."""
    long, nothing = (b"too long\n", 2), (b"install\n", 0)
    for newline in (False, True):
        yield "a catalogue at its bound", comment(TEXT, newline), b"", *nothing
        yield "a longer catalogue", comment(TEXT + 1, newline), b"", *long
        yield "a request at its bound", b"", comment(TEXT, newline), *nothing
        yield "a longer request", b"", comment(TEXT + 1, newline), *long
    yield "a faulty line of a longer catalogue", b"bad\n" + comment(TEXT), b"", b"fault at catalogue line 1\n", 2
    yield "a faulty line of a longer request", b"", b"bad\n" + comment(TEXT), b"fault at request line 1\n", 2
    yield "a longer catalogue and a faulty request", comment(TEXT + 1), b"bad\n", *long
    yield "all bytes in one comment", b"#" + bytes(b for b in range(256) if b != 10), b"", *nothing
    for byte in range(256):
        # a digit makes another version of it
        is_good = byte == 10 or 48 <= byte <= 57
        wanted = nothing if is_good else (b"fault at catalogue line 1\n", 2)
        yield f"byte {byte} behind a version", b"version a 1" + bytes([byte]), b"", *wanted
        yield f"byte {byte} in a comment", b"#" + bytes([byte]) + b"\n", b"", *nothing
    # their numbers don't fit into two bytes (key_places.rt of resolve_order)
    yield "more packages than 2^16", *packages(70_000), 0


def inputs():
    """What is shown, standard input, output and status."""
    half = comment(TEXT - 4, True) + b"---\n" + comment(TEXT)
    yield "standard input at its bound", half, b"install\n", 0
    yield "longer standard input", half + b"x", b"too long\n", 2


def reports():
    """What is shown, the front of a report, its bytes in all, output and status."""
    yield "a report at its bound", NAMED, REPORT, b"yes\n", 0
    yield "a longer report", NAMED, REPORT + 1, b"too long\n", 2
    yield "a wrong line of a longer report", b"refused\nrequest line 2\n", REPORT + 1, b"no line 2\n", 1


def write_report(path, front, count):
    """The front, and lines of a message of a million bytes up to so many bytes; the last one is whole."""
    line = b"| " + b"x" * 999_997 + b"\n"
    with open(path, "wb") as file:
        left = count - file.write(front)
        while left >= len(line) + 3:
            left -= file.write(line)
        file.write(b"| " + b"x" * (left - 3) + b"\n")


def message(path):
    """A report with one long line of a message."""
    with open(path, "wb") as file:
        file.write(NAMED + b"| " + b"x" * (LINE - 3) + b"\n")


# begins the program from a small process: what this one holds would count as the program's own
MEASURE = "import os, sys; child = os.spawnv(os.P_NOWAIT, sys.argv[1], sys.argv[1:]); print(os.wait4(child, 0)[2].ru_maxrss, file=sys.stderr)"


def peak(program, arguments):
    """What is printed, and the most memory that was held, in bytes."""
    ended = subprocess.run([sys.executable, "-S", "-c", MEASURE, program, *arguments], capture_output=True)
    return ended.stdout, int(ended.stderr) * 1024


def ask(program, arguments, given=b""):
    begin = time.time()
    ended = subprocess.run([program, *arguments], input=given, capture_output=True)
    return ended.stdout, ended.returncode, time.time() - begin


def main():
    program = program_of(sys.argv, 1)
    count, faults = 0, []

    def compare(name, found, wanted):
        nonlocal count
        count += 1
        if found[:2] != wanted:
            faults.append(f"{name}: {found[0][:60]!r}, status {found[1]}")

    with tempfile.TemporaryDirectory() as folder:
        paths = [os.path.join(folder, part) for part in PARTS]
        for name, catalogue, request, *wanted in texts():
            compare(name, ask(program, ["solve", *write_texts(folder, (catalogue, request))]), tuple(wanted))
        for name, given, *wanted in inputs():
            compare(name, ask(program, [], given), tuple(wanted))
        write_texts(folder, (b"", b"needs a\n"))
        for name, front, size, *wanted in reports() if "small" not in sys.argv[2:] else []:
            write_report(paths[2], front, size)
            found = ask(program, ["judge", *paths])
            print(f"{name}: {found[2]:.1f} s")
            compare(name, found, tuple(wanted))
            if name == "a report at its bound":
                held = peak(program, ["judge", *paths])[1]
                print(f"{name}, of lines of a million bytes: {held} bytes are held")
                compare(name, (b"held" if held < BESIDE else b"more", 0), (b"held", 0))
        message(paths[2])
        output, held = peak(program, ["judge", *paths])
        print(f"a line of {LINE} bytes in a message: {held} bytes are held")
        compare("a long line of a message", (output if held < LINE + BESIDE else b"more", 0), (b"yes\n", 0))
    print("\n".join(faults) if faults else f"{count} texts, all as promised")
    sys.exit(1 if faults else 0)


if __name__ == "__main__":
    main()
