#!/usr/bin/env python3
"""Prints how long the proof of each function takes, beside a run of the prover.

    checks/proof_times.py [MOST]      (default: 20)

Start it beside `rt ci`, tools/prove.py or a check, before or after they begin. A prover writes what it makes file by file into a folder
of its own, and removes the folder when it ends. This looks at those folders every ten seconds. When a prover has ended, it prints the
crate and the MOST functions that took longest, each with its seconds by kind:

    Lts, Layout   the record of the function's steps; many exits, and values that own memory across them, make it long
    Proof         the search for its goals; an answer in place of a long search makes it short
    Answers       the answers that are written

The seconds are those between one file and the next, so they are right for a prover with one job, and shared with what runs beside it.
It ends when no prover has run for a minute.
"""
import collections
import os
import re
import sys
import tempfile
import time

FOLDER = os.path.join(tempfile.gettempdir(), "rattle-logic-built-locked-{}-0")
PAUSE = 10  # seconds between looks
LAST = 60  # seconds without a prover after which this ends
SHORT = 0.5  # seconds of a function that isn't listed

# when a file was written, and its name
File = tuple[float, str]


def provers() -> dict[str, str]:
    """The crates of the provers that run, by process."""
    found = {}
    for pid in filter(str.isdigit, os.listdir("/proc")):
        try:
            with open(f"/proc/{pid}/cmdline", encoding="utf-8", errors="replace") as file:
                words = file.read().split("\0")
        except OSError:
            continue
        if words[0].endswith("/rattle") and "--crate-name" in words:
            found[pid] = words[words.index("--crate-name") + 1]
    return found


def files_of(pid: str) -> list[File]:
    """What a prover has written so far, in the order of time."""
    found = []
    try:
        with os.scandir(FOLDER.format(pid)) as entries:
            for entry in entries:
                if entry.name.endswith(".oantt"):
                    found.append((entry.stat().st_mtime, entry.name))
    except OSError:
        return []
    return sorted(found)


def seconds_of(crate: str, files: list[File]) -> dict[str, collections.Counter[str]]:
    """The seconds of each function by kind of file."""
    found: dict[str, collections.Counter[str]] = collections.defaultdict(collections.Counter)
    for (before, _), (after, name) in zip(files, files[1:]):
        match = re.fullmatch(rf"Rattle-{crate}-proofs\.(.+)\.([A-Z]\w*)\.oantt", name)
        if match:
            found[match[1]][match[2]] += after - before
    return found


def table(crate: str, files: list[File], most: int) -> list[str]:
    """The lines about a crate: its seconds, then its slowest functions."""
    found = seconds_of(crate, files)
    slow = sorted(found.items(), key=lambda item: -item[1].total())
    lines = [f"{crate}: {files[-1][0] - files[0][0]:.0f} s, {len(found)} functions and files of lemmas"]
    for name, kinds in slow[:most]:
        if kinds.total() >= SHORT:
            parts = ", ".join(f"{kind} {seconds:.1f}" for kind, seconds in kinds.most_common(3))
            lines.append(f"  {kinds.total():6.1f}  {name}  ({parts})")
    return lines


def main(words: list[str]) -> int:
    """The command line."""
    if len(words) > 1 or not all(word.isdigit() for word in words):
        print(__doc__, end="")
        return 2
    most = int(words[0]) if words else 20
    crates: dict[str, str] = {}
    seen: dict[str, list[File]] = {}
    last = time.monotonic()
    while crates or time.monotonic() - last < LAST:
        running = provers()
        for pid in [pid for pid in crates if pid not in running]:
            if seen.get(pid):
                print("\n".join(table(crates[pid], seen.pop(pid), most)), flush=True)
            del crates[pid]
        crates.update(running)
        for pid in running:
            seen[pid] = files_of(pid) or seen.get(pid, [])
            last = time.monotonic()
        time.sleep(PAUSE)
    return 0


if __name__ == "__main__":
    sys.exit(main(sys.argv[1:]))
