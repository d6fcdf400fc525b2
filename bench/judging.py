#!/usr/bin/env python3
"""Judges long reports with `resolve judge`, and counts their lines and words with wc and awk in the same run.

Usage: bench/judging.py [PATH OF THE PROGRAM]   (default: crates/resolve/out/resolve, which `rt run` leaves)
Prints tables for docs/BENCHMARKS.md: medians of five, processor seconds, peak memory beside the report's size, and instructions a
line by valgrind's callgrind, if that is there. Files are made anew in a temporary folder. The second table has reports in which single
lines cost more than their bytes. Each shape has three sizes, each four times the one before.
"""
import os
import tempfile

import measure

VERSIONS = 1000
AWK = ["awk", "{n += NF} END {print n}"]


def texts():
    """One package with many versions, each of which is excluded, and a request that needs one."""
    catalogue = []
    for number in range(VERSIONS):
        catalogue.append(f"version package-of-some-length {number}")
    for number in range(VERSIONS):
        catalogue.append(f"exclude package-of-some-length {number} withdrawn")
    return "\n".join(catalogue) + "\n", "needs package-of-some-length\n"


def report(steps):
    """The lines of a refusal: exclusions, the need, many derived steps that name two clauses each, and the refutation."""
    yield "refused"
    for n in range(VERSIONS):
        yield f"catalogue line {VERSIONS + 1 + n}"
    yield "request line 1"
    for n in range(VERSIONS):
        yield f"step {n + 1} exclude line {VERSIONS + 1 + n}"
    yield f"step {VERSIONS + 1} need request line 1 case 1"
    for n in range(VERSIONS + 2, steps):
        v = n % VERSIONS
        yield f"step {n} derive [not package-of-some-length={v}] by {(v + 1) % VERSIONS + 1} {v + 1}"
    yield f"step {max(steps, VERSIONS + 2)} derive [] by " + " ".join(str(n + 1) for n in range(VERSIONS + 1))


def entries(size):
    """Each alternative of one need is an entry because of it."""
    catalogue = [f"version p{k} 1" for k in range(size)]
    request = ["needs " + " | ".join(f"p{k}" for k in range(size))]
    return catalogue, request, ["install"] + [f"p{k}=1 for request line 1" for k in range(size)]


def spelled(size):
    """Each version of a package that is marked `many` is an entry because of its own alternative of one need."""
    catalogue = ["many a"] + [f"version a {k}" for k in range(size)]
    request = ["needs " + " | ".join(f"a {k}" for k in range(size))]
    return catalogue, request, ["install"] + [f"a={k} for request line 1" for k in range(size)]


def versions(size):
    """Different steps that name one version each of a package that has many, and steps that name their clauses."""
    catalogue = [f"version a {k}" for k in range(size)]
    report = ["install", "a=1 for request line 1"]
    for k in range(size):
        report.append(f"step {2 * k + 1} shared a {k}")
        report.append(f"step {2 * k + 2} derive [a={k}; not shared a {k}] by {2 * k + 1}")
    return catalogue, ["needs a 1"], report


def unnamed(size):
    """One step with a long clause, again and again, that nothing names."""
    catalogue = [f"version a {k}" for k in range(size)]
    report = ["install", "a=1 for request line 1"] + [f"step {k + 1} shared a" for k in range(size)]
    return catalogue, ["needs a 1"], report


def spans(size):
    """Different steps with long clauses that nothing names."""
    catalogue = [f"version a {k}" for k in range(size)]
    report = ["install", "a=1 for request line 1"] + [f"step {k + 1} shared a 0..{k + 1}" for k in range(size)]
    return catalogue, ["needs a 1"], report


def named(size):
    """Different steps with long clauses, and one step that names each once."""
    catalogue, request, report = spans(size)
    step = f"step {size + 1} derive [a=0; a=1; not shared a 0..1] by " + " ".join(str(k + 1) for k in range(size))
    return catalogue, request, [*report, step]


def gates(size):
    """Steps that name one line with many alternatives by its gate."""
    catalogue = ["version p 1", "needs " + " | ".join(f"q{k}" for k in range(size)), "version q0 1"]
    report = ["install", "p=1 for request line 1", "q0=1 for p=1 line 2"]
    return catalogue, ["needs p"], report + [f"step {k + 1} gate p=1 line 2" for k in range(size)]


SHAPES = ((entries, 1000), (spelled, 1000), (versions, 1000), (unnamed, 250), (spans, 250), (gates, 500), (named, 250))


def write(path, lines):
    """Line by line."""
    with open(path, "w") as out:
        out.writelines(line + "\n" for line in lines)


def long_reports(program, paths):
    """The table of reports of three lengths."""
    print("| steps | bytes | judge, s | wc -l, s | awk, s | judge / wc | judge / awk | memory, MB | memory / report | status |")
    print("|---|---|---|---|---|---|---|---|---|---|")
    for path, text in zip(paths, texts()):
        with open(path, "w") as out:
            out.write(text)
    for steps in (10_000, 100_000, 1_000_000):
        write(paths[2], report(steps))
        size = os.path.getsize(paths[2])
        own = measure.median([program, "judge", *paths])
        lines, words = (measure.median([*command, paths[2]]).seconds for command in (["wc", "-l"], AWK))
        ratios = f"{own.seconds / max(lines, 0.001):.0f} | {own.seconds / max(words, 0.001):.2f}"
        memory = f"{own.memory / 1e6:.1f} | {own.memory / size:.2f}"
        print(f"| {steps:,} | {size} | {own.seconds:.3f} | {lines:.3f} | {words:.3f} | {ratios} | {memory} | {own.status} |", flush=True)


def dear_lines(program, paths):
    """The table of reports whose lines cost more than their bytes."""
    print("\n| shape | size | report, bytes | judge, s | memory, MB | status |\n|---|---|---|---|---|---|")
    for shape, least in SHAPES:
        for size in (least, 4 * least, 16 * least):
            for path, lines in zip(paths, shape(size)):
                write(path, lines)
            own = measure.median([program, "judge", *paths])
            bytes_of = os.path.getsize(paths[2])
            print(f"| {shape.__name__} | {size} | {bytes_of} | {own.seconds:.3f} | {own.memory / 1e6:.0f} | {own.status} |", flush=True)


def instructions(program, paths):
    """The instructions that a derived step costs: the difference of two lengths, over as many lines."""
    for path, text in zip(paths, texts()):
        with open(path, "w") as out:
            out.write(text)
    counts = {"judge": [], "awk": []}
    for steps in (20_000, 40_000):
        write(paths[2], report(steps))
        counts["judge"].append(measure.instructions([program, "judge", *paths]))
        counts["awk"].append(measure.instructions([*AWK, paths[2]]))
    print("\n| | instructions a line |\n|---|---|")
    for name, (few, many) in counts.items():
        print(f"| {name} | {(many - few) / 20_000:,.0f} |")


def main():
    """Prints the tables."""
    program = measure.program(__doc__)
    with tempfile.TemporaryDirectory() as folder:
        paths = [os.path.join(folder, part) for part in ("catalogue", "request", "report")]
        long_reports(program, paths)
        dear_lines(program, paths)
        if measure.VALGRIND:
            instructions(program, paths)
        else:
            print("\n(valgrind isn't there: no instructions)")


if __name__ == "__main__":
    main()
