#!/usr/bin/env python3
"""Solves problems of many shapes with `resolve solve`, and beside it with minisat, cadical, libsolv's testsolv and PubGrub.

Usage: bench/solving.py [--program PATH] [--pubgrub PATH] [--only SHAPE ..] [--limit SECONDS] [--quick] [--list]
Default: crates/resolve/out/resolve, which `rt run` leaves. minisat, cadical and testsolv (libsolv-tools) are taken from the PATH, and
so is solve-with-pubgrub, which `cargo build --release` makes in bench/pubgrub. Who isn't there is left out. Prints tables for
docs/BENCHMARKS.md: processor seconds with the ratio of `resolve` to each peer, peak memory, and the goals. Seconds are medians of
five, or of one run where it takes over a second. A run that takes 20 seconds is ended, and a peer that did isn't asked again for the
shape; `--limit` gives another bound. The SAT solvers get clauses that were made before, so theirs is the time of a search alone;
testsolv and PubGrub read text as `resolve` does. Memory is measured by GNU `time`. `--only` takes names that `--list` prints;
`--quick` takes the least size of each shape, once. Fails where two give different answers.
"""
import argparse
import math
import os
import sys
import tempfile
from dataclasses import dataclass
from typing import Callable

import measure
import peers
import release
import shapes

OVER = "over the limit"
LINEAR = 1.15  # the power up to which growth counts as linear
ANSWERED = (peers.INSTALL, peers.REFUSED)
HERE = os.path.dirname(os.path.abspath(__file__))


@dataclass(frozen=True)
class Shape:
    """A kind of problem. The goals: at most so many times as long as a peer, growing no faster than the size, at most so many
    seconds at the largest size, at most so many times the text in memory."""

    key: str
    make: Callable
    sizes: tuple
    seeds: tuple = (1,)
    beside: tuple = ()
    linear: bool = False
    seconds: float = 0
    memory: float = 0


@dataclass(frozen=True)
class Row:
    """A problem's runs by the name of who solved it."""

    shape: Shape
    size: object
    seed: int
    text: int
    runs: dict
    answers: dict

    def ratio(self, peer):
        """How many times as long as a peer, where both answered and it is known."""
        own, other = self.runs["resolve"], self.runs.get(peer)
        if other is None or self.answers[peer] not in ANSWERED or max(own.seconds, other.seconds) < 0.003:
            return None
        return own.seconds / max(other.seconds, 0.001)


DESKTOPS = "task-kde-desktop", "task-gnome-desktop"
LIBSOLV, PUBGRUB, PUBGRUB_TWICE, KEPT = (("libsolv", 1),), (("PubGrub", 1),), (("PubGrub", 2),), (("libsolv", 0.75), ("minisat", 0.9))
SHAPES = (
    Shape("3-sat", shapes.three_sat, (170, 185, 200), (1, 2, 3, 4), (("minisat", 3),)),
    Shape("colouring", shapes.colouring, (150, 200, 300), (1, 2, 3), (("minisat", 3),)),
    Shape("pigeons", shapes.pigeons, (7, 8, 9), beside=KEPT),
    Shape("random-10", shapes.random_packages(10), (300, 3_000), (1, 2), KEPT),
    Shape("random-15", shapes.random_packages(15), (300, 3_000), (1, 2), KEPT),
    Shape("versions-in-step", shapes.versions_in_step, (1_000, 10_000), beside=KEPT),
    Shape("windows", shapes.windows, (30, 300), beside=KEPT),
    Shape("deep-steps", shapes.deep_steps, (100, 1_000), beside=KEPT),
    Shape("limits-of-each", shapes.limits_of_each, (250, 500, 1_000)),
    Shape("chain-of-pairs", shapes.chain_of_pairs, (2_000, 6_000, 20_000), beside=LIBSOLV, linear=True),
    Shape("pairs", shapes.pairs(False), (2_000, 6_000, 20_000), beside=LIBSOLV, linear=True),
    Shape("refused-pairs", shapes.pairs(True), (2_000, 6_000, 20_000), beside=LIBSOLV, linear=True),
    Shape("conditions", shapes.conditions, (2_500, 5_000, 20_000), beside=LIBSOLV, linear=True),
    Shape("late-conditions", shapes.late_conditions, (1_000, 2_000, 4_000), beside=LIBSOLV, linear=True),
    Shape("needy-wishes", shapes.needy_wishes, (1_000, 2_000, 4_000), beside=LIBSOLV, linear=True),
    Shape("ring", shapes.in_a_ring, (500, 5_000, 20_000), beside=LIBSOLV, linear=True),
    Shape("wishes", shapes.wishes, (1_250, 2_500, 5_000), beside=LIBSOLV, linear=True),
    Shape("limited", shapes.limited, (300, 1_000)),
    Shape("layers", shapes.layers, (300, 1_000, 3_000), beside=(*LIBSOLV, *PUBGRUB_TWICE), linear=True),
    Shape("self-barring", shapes.self_barring, (10_000, 30_000, 100_000), linear=True, seconds=1),
    Shape("self-barring-by-ranges", shapes.self_barring_by_ranges, (10_000, 30_000, 100_000), linear=True, seconds=1),
    Shape("tenths", shapes.tenths, (10_000, 100_000), beside=(("cadical", 1),), linear=True),
    Shape("tenths-in-step", shapes.tenths_in_step, (10_000, 30_000, 100_000), beside=(("cadical", 1),), linear=True),
    Shape("versions", shapes.versions, (10_000, 100_000), beside=PUBGRUB_TWICE, linear=True),
    Shape("helpers", shapes.helpers, (100, 1_000), beside=PUBGRUB_TWICE, linear=True),
    Shape("shared-needs", shapes.shared_needs, (500, 5_000), beside=PUBGRUB_TWICE, linear=True),
    Shape("barred-candidates", shapes.barred_candidates, (300, 3_000), beside=PUBGRUB_TWICE, linear=True),
    Shape("chain", shapes.chain, (1_000, 10_000, 100_000), beside=PUBGRUB, linear=True),
    Shape("refused-chain", shapes.refused_chain, (1_000, 4_000, 20_000), beside=PUBGRUB),
    Shape("debian-closure", release.closure, ("gimp", "texlive-full", *DESKTOPS), beside=(("libsolv", 0.8),)),
    Shape("debian-whole", release.whole, DESKTOPS, beside=(("libsolv", 0.5),), memory=5),
)


# ---- runs


def solve(shape, size, seed, solvers, limit, times):
    """The row of one problem; those who aren't among the solvers any more took too long before."""
    problem = shape.make(size, seed)
    runs, answers = {}, {}
    with tempfile.TemporaryDirectory() as folder:
        for solver in solvers:
            run = measure.median(solver.command(problem, folder), limit, solver.keep, times)
            runs[solver.name] = run
            answers[solver.name] = solver.answer(run) if run.ended else OVER
    return Row(shape, size, seed, len(problem.catalogue()) + len(problem.request()), runs, answers)


def disagreement(row):
    """The answers where two differ."""
    told = {answer for answer in row.answers.values() if answer in ANSWERED}
    return f"{row.shape.key} {row.size} {row.seed}: {row.answers}" if len(told) > 1 else None


def growth(row, before):
    """The power of the size with which the time grew since a smaller one: 1 is linear, 2 a square."""
    if before is None or isinstance(row.size, str) or row.size == before.size or not row.runs["resolve"].ended:
        return None
    few, many = (each.runs["resolve"].seconds for each in (before, row))
    return math.log(many / few) / math.log(row.size / before.size) if few >= 0.004 else None


# ---- tables


def table(head, rows):
    """Lines of a table."""
    yield "| " + " | ".join(head) + " |"
    yield "|" + "---|" * len(head)
    for cells in rows:
        yield "| " + " | ".join(str(cell) for cell in cells) + " |"


def shown(figure, digits=1):
    """A figure, or nothing."""
    return "" if figure is None else f"{figure:.{digits}f}"


def seconds_of(row, name):
    """Seconds, with the ratio behind those of a peer; a dash where it wasn't asked again."""
    if name not in row.runs:
        return "-"
    answer, run = row.answers[name], row.runs[name]
    if answer not in ANSWERED:
        return answer if name != "resolve" or not run.ended else f"{run.seconds:.3f}"
    ratio = row.ratio(name) if name != "resolve" else None
    return f"{run.seconds:.3f}" + (f" ({ratio:.2f})" if ratio is not None else "")


def seconds_cells(row, before, names):
    """A line of the first table."""
    name = f"{row.size}" + (f", seed {row.seed}" if len(row.shape.seeds) > 1 else "")
    told = [seconds_of(row, each) for each in names]
    return [row.shape.key, name, row.answers["resolve"], told[0], shown(growth(row, before)), *told[1:]]


def memory_cells(row, names):
    """Megabytes."""
    told = [f"{row.runs[name].memory / 1e6:.0f}" if name in row.runs else "-" for name in names]
    return [row.shape.key, row.size, f"{row.text / 1e6:.2f}", *told]


def largest(rows):
    """The last row of each shape: the largest size."""
    return list({row.shape: row for row in rows}.values())


# ---- goals


def goals(shape, rows):
    """What a shape is to reach, the figure, and whether it does. Of several seeds and of roots all seconds count together."""
    last = rows if isinstance(rows[-1].size, str) else [row for row in rows if row.size == rows[-1].size]
    for peer, most in shape.beside:
        told = [row for row in last if row.ratio(peer) is not None]
        if told:
            ratio = sum(row.runs["resolve"].seconds for row in told) / max(sum(row.runs[peer].seconds for row in told), 0.001)
            yield f"at most {most} times {peer}", f"{ratio:.2f}", ratio <= most and all(row.runs["resolve"].ended for row in told)
    power = growth(rows[-1], rows[-2]) if shape.linear and len(rows) > 1 else None
    if power is not None:
        yield "linear", f"power {power:.2f}", power <= LINEAR
    if shape.seconds:
        took = rows[-1].runs["resolve"].seconds
        yield f"at most {shape.seconds} s", f"{took:.2f} s", took <= shape.seconds
    if shape.memory:
        times = max(row.runs["resolve"].memory / row.text for row in rows)
        yield f"memory at most {shape.memory} times the text", f"{times:.1f}", times <= shape.memory


def goal_rows(rows):
    """The lines of the table of goals."""
    for shape in dict.fromkeys(row.shape for row in rows):
        for says, figure, met in goals(shape, [row for row in rows if row.shape is shape]):
            yield shape.key, says, figure, "yes" if met else "**no**"


# ---- the program


def problems(options):
    """Shapes with the sizes and seeds that are asked for."""
    for shape in SHAPES:
        if options.only and shape.key not in options.only:
            continue
        if shape.make in (release.closure, release.whole) and release.universe() is None:
            print(f"(no Debian lists: {shape.key} is left out; `apt-get update` fetches them)\n")
            continue
        for size in shape.sizes[:1] if options.quick else shape.sizes:
            for seed in shape.seeds[:1] if options.quick else shape.seeds:
                yield shape, size, seed


def read_options():
    """The command line."""
    read = argparse.ArgumentParser(description=__doc__, formatter_class=argparse.RawDescriptionHelpFormatter)
    read.add_argument("--program", default=os.path.join(HERE, "../crates/resolve/out/resolve"))
    read.add_argument("--pubgrub", help="a program that solves CATALOGUE REQUEST with PubGrub")
    read.add_argument("--only", nargs="+", metavar="SHAPE", choices=[shape.key for shape in SHAPES])
    read.add_argument("--limit", type=int, default=20, help="processor seconds of one run")
    read.add_argument("--quick", action="store_true")
    read.add_argument("--list", action="store_true")
    return read.parse_args()


def present(options):
    """The solvers that are there, `resolve` first."""
    solvers = peers.all_of(options.program, options.pubgrub)
    if solvers[0].program is None:
        sys.exit(f"{options.program} isn't there")
    for solver in solvers:
        if solver.program is None:
            print(f"({solver.name} isn't there: left out)\n")
    if measure.TIMER is None:
        print("(GNU time isn't there: memory is at least that of this process)\n")
    return [solver for solver in solvers if solver.program]


def measured(options, solvers):
    """The rows of all problems, whose table is printed line by line."""
    names, rows, last, slow = [solver.name for solver in solvers], [], {}, set()
    head = ["shape", "size", "answer", "resolve, s", "growth", *(f"{name}, s" for name in names[1:])]
    print("\n".join(table(head, [])))
    for shape, size, seed in problems(options):
        asked = [solver for solver in solvers if (shape, solver.name) not in slow]
        row = solve(shape, size, seed, asked, options.limit, 1 if options.quick else 5)
        print(list(table(head, [seconds_cells(row, last.get((shape, seed)), names)]))[-1], flush=True)
        rows.append(row)
        last[shape, seed] = row
        slow |= {(shape, name) for name, answer in row.answers.items() if answer == OVER and name != "resolve"}
    return rows


def main():
    """Prints the tables; the status."""
    options = read_options()
    if options.list:
        print("\n".join(f"{shape.key}: {', '.join(map(str, shape.sizes))}" for shape in SHAPES))
        return 0
    solvers = present(options)
    rows, names = measured(options, solvers), [solver.name for solver in solvers]
    head = ["shape", "size", "text, MB", *(f"{name}, MB" for name in names)]
    print("\n" + "\n".join(table(head, (memory_cells(row, names) for row in largest(rows)))))
    print("\n" + "\n".join(table(["shape", "goal", "found", "met"], goal_rows(rows))))
    found = [told for told in map(disagreement, rows) if told]
    print("\n" + ("\n".join(["DIFFERENT ANSWERS", *found]) if found else f"{len(rows)} problems, no two answers differ"))
    return 1 if found else 0


if __name__ == "__main__":
    sys.exit(main())
