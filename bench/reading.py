#!/usr/bin/env python3
"""Reads big catalogues with awk and with `resolve solve`, in one run: medians of five, processor seconds, and peak memory.

Usage: bench/reading.py [PATH OF THE PROGRAM]   (default: crates/resolve/out/resolve, which `rt run` leaves)
With a request that is faulty the program reads the catalogue, and says so: that is the time of reading. With an empty request it makes
the provider too. Prints tables for docs/BENCHMARKS.md. By valgrind's callgrind, if that is there, the second one has instructions a line:
the difference of two lengths, over as many lines. The third one has them by kinds of lines: what reading takes with one such line more
for each version, less what it takes without them. Files are made anew in a temporary folder from a fixed seed.
"""
import os
import random
import tempfile

import measure

SIZE = 16_000_000
AWK = ["awk", "{n[$2]++} END {print length(n)}"]


def write(path, lines, most):
    """Writes at most so many bytes; how many lines these are."""
    size = count = 0
    with open(path, "w") as out:
        for line in lines:
            size += len(line) + 1
            if size > most:
                return count
            out.write(line + "\n")
            count += 1
    return count


def many_packages():
    """About 100,000 packages, a dozen versions each."""
    number = 0
    while True:
        for package in range(100_000):
            yield f"version p{package} {number}"
        number += 1


def one_package():
    """One package with all versions."""
    number = 0
    while True:
        yield f"version p {number}"
        number += 1


def mixed():
    """Versions with needs, limits and conditions; a favour, a lock or an exclusion now and then."""
    rng = random.Random(7)
    package = 0
    while True:
        package += 1
        for number in range(1, 6):
            yield f"version p{package} {number}"
            other, third = rng.randrange(1, package + 5), rng.randrange(1, package + 5)
            yield f"needs p{other} {number}..{number + 3} | p{third}"
            if rng.random() < 0.5:
                yield f"limits p{third} 2..9"
            if rng.random() < 0.3:
                yield f"needs p{other} if p{third} 1 and ( p{package} or p{other} 2..4 )"
        if rng.random() < 0.2:
            yield f"favour p{package} {rng.randrange(1, 6)}"
        if rng.random() < 0.1:
            yield f"lock p{package} {rng.randrange(1, 6)}"
        if rng.random() < 0.1:
            yield f"exclude p{package} {rng.randrange(1, 6)} old"


CATALOGUES = (("100,000 packages", many_packages), ("one package", one_package), ("mixed", mixed))


PACKAGES = 10_000  # of the catalogues by kinds: each has two versions
OF_VERSIONS = {
    "version": "version q{p} {v}", "needs, one name": "needs p{o}", "needs, a span": "needs p{o} 1..2", "needs, two names": "needs p{o} | p{t}",
    "needs, a condition": "needs p{o} if p{t}", "limits": "limits p{o} 1..2", "unknown": "unknown gone", "exclude": "exclude p{p} {v} old",
    "a comment": "# of p{p}", "an empty line": "",
}
OF_PACKAGES = {"lock": "lock p{p} 1", "favour": "favour p{p} 1", "many": "many q{p}"}


def of_kind(kind):
    """Packages of two versions, with a line of this kind below each version, or below each package; none has no such line."""
    rng = random.Random(9)
    for package in range(PACKAGES):
        for number in (1, 2):
            words = {"p": package, "v": number, "o": rng.randrange(PACKAGES), "t": rng.randrange(PACKAGES)}
            yield f"version p{package} {number}"
            if kind in OF_VERSIONS:
                yield OF_VERSIONS[kind].format(**words)
        if kind in OF_PACKAGES:
            yield OF_PACKAGES[kind].format(**words)


class Commands:
    """What is measured over a catalogue."""

    def __init__(self, program, folder):
        self.catalogue = os.path.join(folder, "catalogue")
        faulty, empty = os.path.join(folder, "faulty"), os.path.join(folder, "empty")
        with open(faulty, "w") as out, open(empty, "w"):
            out.write("no such line\n")
        self.awk = [*AWK, self.catalogue]
        self.read = [program, "solve", self.catalogue, faulty]
        self.solve = [program, "solve", self.catalogue, empty]


def row(name, commands):
    """A line of the first table."""
    size = os.path.getsize(commands.catalogue)
    awk, alone, both = (measure.median(command) for command in (commands.awk, commands.read, commands.solve))
    parts = [name, size, f"{awk.seconds:.2f}"]
    for run in (alone, both):
        parts += [f"{run.seconds:.2f}", f"{run.seconds / awk.seconds:.2f}", f"{run.memory / size:.1f}", run.status]
    return "| " + " | ".join(str(part) for part in parts) + " |"


def instructions(name, lines, commands):
    """A line of the second table."""
    counts = []
    for most in (SIZE // 8, SIZE // 4):
        length = write(commands.catalogue, lines(), most)
        counts.append([length, *(measure.instructions(command) for command in (commands.awk, commands.read, commands.solve))])
    few, many = counts
    each = [(b - a) / (many[0] - few[0]) for a, b in zip(few[1:], many[1:])]
    return f"| {name} | " + " | ".join(f"{count:,.0f}" for count in each) + " |"


def by_kinds(commands):
    """The lines of the third table."""
    base = write(commands.catalogue, of_kind(None), SIZE)
    without = measure.instructions(commands.read)
    for kind in (*OF_VERSIONS, *OF_PACKAGES):
        lines = write(commands.catalogue, of_kind(kind), SIZE) - base
        yield f"| {kind} | {(measure.instructions(commands.read) - without) / lines:,.0f} |"


def main():
    """Prints the tables."""
    program = measure.program(__doc__)
    with tempfile.TemporaryDirectory() as folder:
        commands = Commands(program, folder)
        own = "/ awk | memory / text | status"
        print(f"| catalogue | bytes | awk, s | reading, s | {own} | and provider, s | {own} |")
        print("|" + "---|" * 11)
        for name, lines in CATALOGUES:
            write(commands.catalogue, lines(), SIZE)
            print(row(name, commands), flush=True)
        if not measure.VALGRIND:
            print("\n(valgrind isn't there: no instructions)")
            return
        print("\n| instructions a line | awk | reading | and provider |\n|---|---|---|---|")
        for name, lines in CATALOGUES:
            print(instructions(name, lines, commands), flush=True)
        print("\n| one line more | instructions |\n|---|---|")
        for line in by_kinds(commands):
            print(line, flush=True)


if __name__ == "__main__":
    main()
