#!/usr/bin/env python3
"""Checks `tools/apt_solver.py` beside apt's own solver, on this machine and without installing anything.

Usage: checks/apt.py [COUNT] [SEED] [PATH OF THE PROGRAM]
Defaults: 20 packages, seed 1, crates/resolve/out/resolve (which `rt run` leaves).
Versions drawn from the index are compared by pairs, as many as PAIRS says (10,000), which `dpkg --compare-versions` decides too;
with 0 for COUNT these alone.
Packages are drawn by seed from the machine's own index. Over each, `apt-get -s install` runs twice. Where apt's own
solver installs, ours does, and apt, which checks each answer itself, takes it. `Inst` lines are compared, and where they
differ the first package that differs is printed, with the line that has it among its alternatives. Seconds are of wall clock and of processor, of `apt-get` with all that
it runs. The options that lead apt to a solver, and to a cache of its own, are the only ones.
"""
import os
import random
import resource
import statistics
import subprocess
import sys
import tempfile
import time
from collections import Counter
from dataclasses import dataclass
from typing import Iterator

from base import TOP, program_of
from tools.deb822 import Fields, read_groups, read_list, split_records, version_key

PAIRS = int(os.environ.get("PAIRS", "10000"))


@dataclass
class Run:
    """One run of apt."""

    status: int
    installs: list[str]
    removes: list[str]
    said: str
    seconds: float
    processor: float


def run_apt(name: str, options: list[str], environment: dict[str, str]) -> Run:
    """`apt-get -s install NAME`."""
    before, start = resource.getrusage(resource.RUSAGE_CHILDREN), time.monotonic()
    command = ["apt-get", "-s", *options, "install", name]
    done = subprocess.run(command, capture_output=True, stdin=subprocess.DEVNULL, env=environment)
    after, seconds = resource.getrusage(resource.RUSAGE_CHILDREN), time.monotonic() - start
    processor = after.ru_utime + after.ru_stime - before.ru_utime - before.ru_stime
    text = done.stdout.decode("utf-8", "replace")
    words = [line.split() for line in text.splitlines()]
    installs = [" ".join(w[1:]).partition(" (")[0] + " " + line_version(w) for w in words if w[:1] == ["Inst"]]
    removes = [w[1] for w in words if w[:1] == ["Remv"]]
    return Run(done.returncode, installs, removes, text + done.stderr.decode("utf-8", "replace"), seconds, processor)


def line_version(words: list[str]) -> str:
    """The version that an `Inst` line installs."""
    return next((word[1:] for word in words[2:] if word.startswith("(")), "-")


def index_fields() -> dict[str, list[str]]:
    """The names and the versions of the machine's index."""
    done = subprocess.run(["apt-cache", "dumpavail"], capture_output=True, check=True)
    found: dict[str, set[str]] = {"Package": set(), "Version": set()}
    for line in done.stdout.decode("utf-8", "replace").splitlines():
        name, _, value = line.partition(": ")
        if name in found:
            found[name].add(value)
    return {name: sorted(values) for name, values in found.items()}


def check_order(versions: list[str], count: int, seed: int) -> None:
    """Pairs of versions, half of them neighbours: the keys decide as dpkg does."""
    rng, by_key = random.Random(seed), sorted(versions, key=version_key)
    for turn in range(count):
        at = rng.randrange(len(by_key) - 1)
        first, second = (by_key[at], by_key[at + 1]) if turn % 2 else rng.sample(versions, 2)
        keys = version_key(first), version_key(second)
        sign = "lt" if keys[0] < keys[1] else "gt" if keys[0] > keys[1] else "eq"
        if subprocess.run(["dpkg", "--compare-versions", first, sign, second]).returncode:
            sys.exit(f"dpkg doesn't say {first} {sign} {second}")
    print(f"{count} pairs of versions are in dpkg's order", flush=True)


def shown_fields(names: list[str]) -> Iterator[Fields]:
    """The stanzas of some packages, as apt would take them."""
    done = subprocess.run(["apt-cache", "show", "--no-all-versions", *names], capture_output=True)
    yield from (record.fields() for record in split_records([done.stdout], "apt-cache show"))


def line_about(name: str, others: list[str]) -> str:
    """The line of one of the others that has a package, or what it provides, among its alternatives."""
    offered = {name, *(given.name for each in shown_fields([name]) for _, given in read_list(each.get("provides", ""), "Provides"))}
    found = []
    for fields in shown_fields(others):
        for title in ("Pre-Depends", "Depends", "Recommends"):
            for words, group in read_groups(fields.get(title.lower(), "")):
                if any(relation.name in offered for relation in group):
                    found.append((len(group) < 2 and words == name, f"{fields['package']} has {title}: {words}"))
    return min(found, default=(True, "no line of them names it"), key=lambda pair: pair[0])[1]


def first_difference(own: Run, ours: Run) -> str:
    """The first package that one of them alone has, and the line that has it among its alternatives."""
    mine, theirs = set(ours.installs), set(own.installs)
    changes = [f"apt alone: {line}" for line in own.installs if line not in mine]
    changes += [f"resolve alone: {line}" for line in ours.installs if line not in theirs]
    changes += [f"apt alone removes {name}" for name in own.removes if name not in ours.removes]
    changes += [f"resolve alone removes {name}" for name in ours.removes if name not in own.removes]
    alone = set(own.installs) ^ set(ours.installs)
    first = next((line.split(" ")[0] for line in [*own.installs, *ours.installs] if line in alone), "")
    about = line_about(first, [line.split(" ")[0] for line in [*ours.installs, *own.installs]]) if first else ""
    return f"{changes[0]} ({len(changes)} differ of {len(own.installs)}): {about}"


def verdict(name: str, own: Run, ours: Run) -> str:
    """In which of the counts the pair goes; stops where a promise is broken."""
    if own.status == 0:
        if ours.status != 0:
            sys.exit(f"{name}: apt's own solver installs, and with ours apt says:\n{ours.said}")
        is_equal = set(own.installs) == set(ours.installs) and set(own.removes) == set(ours.removes)
        if not is_equal:
            print(f"{name}: {first_difference(own, ours)}", flush=True)
        return "equal" if is_equal else "different"
    if ours.status == 0:
        print(f"{name}: apt gives up, ours installs {len(ours.installs)}", flush=True)
        return "ours alone installs"
    if "resolve: no set of packages keeps all rules" not in ours.said:
        sys.exit(f"{name}: neither installs, and ours doesn't say why:\n{ours.said}")
    return "both refuse"


def median_text(what: str, runs: list[Run]) -> str:
    """The medians of some runs."""
    wall, processor = (statistics.median(getattr(run, key) for run in runs) for key in ("seconds", "processor"))
    return f"{what}: median {wall:.1f} s of wall clock, {processor:.2f} s of processor"


def write_solver(folder: str) -> str:
    """The solver as apt finds it: a shell that notes the processor's seconds of each run in a file."""
    times, path = os.path.join(folder, "times"), os.path.join(folder, "resolve")
    for name, text, mode in ((times, "", 0o666), (path, f"#!/bin/sh\n{TOP}/tools/apt_solver.py\ntimes >> {times}\n", 0o755)):
        with open(name, "w") as out:
            out.write(text)
        os.chmod(name, mode)
    return times


def solver_seconds(times: str) -> list[float]:
    """The processor's seconds of each run: `0m0.71s 0m0.09s` in each second line, below those of the shell itself."""
    with open(times) as lines:
        words = [line.replace("s", "").replace("m", " ").split() for line in list(lines)[1::2]]
    return [60 * (float(w[0]) + float(w[2])) + float(w[1]) + float(w[3]) for w in words]


def main() -> None:
    count, seed = (int(sys.argv[at]) if len(sys.argv) > at else default for at, default in ((1, 20), (2, 1)))
    environment = {**os.environ, "LC_ALL": "C", "RESOLVE": program_of(sys.argv, 3) if count else ""}
    counts, owns, ours, index = Counter(), [], [], index_fields()
    check_order(index["Version"], PAIRS, seed)
    with tempfile.TemporaryDirectory() as folder:
        os.chmod(folder, 0o755)
        times = write_solver(folder)
        cache = [f"-oDir::Cache::{name}={folder}/{name}.bin" for name in ("pkgcache", "srcpkgcache")]
        options = [*cache, f"-oDir::Bin::solvers::={folder}", "--solver", "resolve"]
        for name in random.Random(seed).sample(index["Package"], count):
            owns.append(run_apt(name, cache, environment))
            ours.append(run_apt(name, options, environment))
            kind = verdict(name, owns[-1], ours[-1])
            counts[kind] += 1
            print(f"{name}: {kind}, {len(ours[-1].installs)} come", file=sys.stderr, flush=True)
        seconds = solver_seconds(times)
    if not owns:
        return
    told = ", ".join(f"{number} {what}" for what, number in sorted(counts.items()))
    print(f"{count} packages of seed {seed}: {told}")
    print(median_text("apt's own solver", owns))
    print(median_text("with resolve", ours))
    print(f"of these tools/apt_solver.py with all that it runs: median {statistics.median(seconds):.2f} s of processor, most {max(seconds):.2f} s")


if __name__ == "__main__":
    main()
