#!/usr/bin/env python3
"""Refusals whose conflict has some 10,000 edges: the whole time, and what share of the instructions the message takes.

Usage: bench/message.py [PATH OF THE PROGRAM] [VERSIONS]   (default: crates/resolve/out/resolve, which `rt run` leaves, and 5,000)
Prints tables for docs/BENCHMARKS.md: processor seconds, median of five, and shares by valgrind's callgrind in a separate run, if that
is there. The message is all that `message_of` of resolve_answer calls: the conflict's rules, its graph, and its lines. The second table
has refused chains, each with its peak memory.
"""
import os
import re
import subprocess
import sys
import tempfile

import measure

LIMIT = 1200  # seconds for one run


def without_candidates(count):
    """Each version needs a package of its own that nobody lists."""
    return [f"version p {i}\nneeds q{i} 1" for i in range(1, count + 1)], ["needs p"]


def told_as_one(count):
    """Each version needs the same package, which nobody lists."""
    return [f"version p {i}\nneeds q 1" for i in range(1, count + 1)], ["needs p"]


def in_each_others_way(count):
    """Each version needs a version of its own of a package, and the request another one."""
    listed = [f"version q {i}" for i in range(1, count + 2)]
    return listed + [f"version p {i}\nneeds q {i}" for i in range(1, count + 1)], ["needs p", f"needs q {count + 1}"]


def share(words, folder):
    """The share of the instructions that are executed below `message_of`, in per cent."""
    out = os.path.join(folder, "callgrind.out")
    subprocess.run(["valgrind", "--tool=callgrind", f"--callgrind-out-file={out}", *words], capture_output=True, timeout=LIMIT)
    told = subprocess.run(["callgrind_annotate", "--inclusive=yes", "--threshold=100", out], capture_output=True, text=True).stdout
    found = [float(it[1]) for it in re.finditer(r"\(\s*([0-9.]+)%\)[^\n]*message_of", told)]
    return max(found) if found else None


def written(paths, texts):
    """Writes the lines of both texts."""
    for path, lines in zip(paths, texts):
        with open(path, "w", encoding="utf-8") as out:
            out.write("\n".join(lines) + "\n")


def row(program, make, count, folder):
    """A line of the first table."""
    paths = [os.path.join(folder, part) for part in ("catalogue", "request")]
    written(paths, make(count))
    words = [program, "solve", *paths]
    own, report = measure.median(words), subprocess.run(words, capture_output=True, timeout=LIMIT).stdout.decode()
    if own.status != 1 or not report.startswith("refused\n"):
        sys.exit(f"{make.__name__}: no refusal: status {own.status}")
    of_message = share(words, folder) if measure.VALGRIND else None
    told = f"{of_message:.1f}" if of_message is not None else "not found"
    counts = report.count("\nstep "), report.count("\n| ")
    return f"| {make.__name__.replace('_', ' ')}, {count} versions | {counts[0]} | {counts[1]} | {own.seconds:.2f} | {told} |"


def chain_row(program, count, folder):
    """A line of the second table: a refused chain, whose message is a square of its length."""
    paths = [os.path.join(folder, part) for part in ("catalogue", "request")]
    written(paths, ([f"version p{k} 1\nneeds p{k + 1}" for k in range(count)], ["needs p0"]))
    words = [program, "solve", *paths]
    own = measure.median(words)
    with subprocess.Popen(words, stdout=subprocess.PIPE) as run:
        size = sum(len(piece) for piece in iter(lambda: run.stdout.read(1 << 20), b""))
    told = f"{size / 1e6:.1f}" if own.status == 1 else "`too long`"
    return f"| {count:,} | {told} | {own.seconds:.2f} | {own.memory / 1e6:,.0f} |"


def main():
    """Prints the tables."""
    program = measure.program(__doc__)
    count = int(sys.argv[2]) if len(sys.argv) > 2 else 5000
    with tempfile.TemporaryDirectory() as folder:
        print("| refusal | steps | lines of message | resolve, s | message, % of the instructions |\n|---|---|---|---|---|")
        for make in (without_candidates, told_as_one, in_each_others_way):
            print(row(program, make, count, folder), flush=True)
        print("\n| packages | report, MB | s | memory, MB |\n|---|---|---|---|")
        for length in (1_000, 4_000, 10_000, 20_000):
            print(chain_row(program, length, folder), flush=True)


if __name__ == "__main__":
    main()
