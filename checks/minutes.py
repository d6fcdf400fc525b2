#!/usr/bin/env python3
"""Runs the gate and prints where its minutes went.

    checks/minutes.py COMMAND [WORD ..]

Runs the command (`rt ci`), passes on what it prints, and watches the prover's processes below it, once a second. After the
command's own lines it prints, for each crate, processor minutes by kind: its proof, its tests, its edits, and the build of a
program. Then it prints the sums, the minutes by the clock, and the command's last line again. The status is the command's.

A process that lives less than a second may be missed. Processor minutes are what the kernel counts, so a busy machine makes
them a little longer, and waiting doesn't.
"""
import os
import subprocess
import sys
import threading
import time

KINDS = ("proof", "tests", "edits", "program")
TICKS = os.sysconf("SC_CLK_TCK")
GOAL = 60  # minutes by the clock on four processors, past which a run reports it


def kind_of(words: list[str]) -> str:
    """What a process of the prover works on. A check that writes nothing is one of an edit."""
    if "--test" in words:
        return "tests"
    if any(it.endswith("main.rt") for it in words):
        return "program"
    return "proof" if "-o" in words else "edits"


def stat_of(pid: str) -> list[str]:
    """The fields after the name in a process's line: its state, its parent, and so on."""
    with open(f"/proc/{pid}/stat", encoding="utf-8", errors="replace") as it:
        return it.read().rpartition(")")[2].split()


def is_below(pid: str, top: int) -> bool:
    """Whether the process was begun by this one, or by one that it began."""
    while pid not in ("0", "1"):
        pid = stat_of(pid)[1]
        if pid == str(top):
            return True
    return False


def provers(top: int) -> dict[tuple[str, str], tuple[str, str, float]]:
    """The prover's processes below this one: by id and start, their crate, kind and processor seconds. One that another prover began
    is left out: when it ends, its seconds are among those of that one's children."""
    found, parents = {}, {}
    for pid in filter(str.isdigit, os.listdir("/proc")):
        try:
            with open(f"/proc/{pid}/cmdline", encoding="utf-8", errors="replace") as it:
                words = it.read().split("\0")
            if not words[0].endswith("/rattle") or "--crate-name" not in words or not is_below(pid, top):
                continue
            stat = stat_of(pid)
        except OSError:
            continue
        crate = words[words.index("--crate-name") + 1]
        # the process's own times and those of its ended children; and its start, since ids are reused
        seconds = sum(int(it) for it in stat[11:15]) / TICKS
        found[pid, stat[19]] = crate, kind_of(words), seconds
        parents[pid, stat[19]] = stat[1]
    ids = {pid for pid, _ in found}
    return {key: value for key, value in found.items() if parents[key] not in ids}


class Watch(threading.Thread):
    """Samples the prover's processes until it is stopped."""

    def __init__(self) -> None:
        super().__init__(daemon=True)
        self.seen: dict[tuple[str, str], tuple[str, str, float]] = {}
        self.ended = threading.Event()

    def run(self) -> None:
        while not self.ended.wait(1):
            self.seen.update(provers(os.getpid()))

    def minutes(self) -> dict[str, dict[str, float]]:
        """Processor minutes by crate and kind."""
        sums: dict[str, dict[str, float]] = {}
        for crate, kind, seconds in self.seen.values():
            of_crate = sums.setdefault(crate, dict.fromkeys(KINDS, 0.0))
            of_crate[kind] += seconds / 60
        return sums


def table(sums: dict[str, dict[str, float]]) -> list[str]:
    """The sums as lines, in the order of the crates' names."""
    wide = max([len(it) for it in sums] + [len("crate")])
    lines = [f"{'processor minutes':<{wide}}" + "".join(f"{kind:>9}" for kind in (*KINDS, "all"))]
    rows = [(crate, [of_crate[kind] for kind in KINDS]) for crate, of_crate in sorted(sums.items())]
    rows.append(("all", [sum(it[1][at] for it in rows) for at in range(len(KINDS))]))
    for crate, parts in rows:
        lines.append(f"{crate:<{wide}}" + "".join(f"{it:9.1f}" for it in (*parts, sum(parts))))
    return lines


def main(words: list[str]) -> int:
    if not words or words[0] in ("-h", "--help"):
        print(__doc__, end="")
        return 0 if words else 2
    start, last, marks = time.monotonic(), "", []
    watch = Watch()
    watch.start()
    ran = subprocess.Popen(words, stdout=subprocess.PIPE, stderr=subprocess.STDOUT, text=True, errors="replace")
    for line in ran.stdout:
        print(line, end="", flush=True)
        last = line.rstrip("\n")
        if last.startswith("rt: ") and (last.endswith("proved") or "NOT PROVED" in last or "must-fail edits" in last):
            marks.append(f"minute {(time.monotonic() - start) / 60:.0f}: {last[4:]}")
    status = ran.wait()
    watch.ended.set()
    watch.join()
    clock, processors = (time.monotonic() - start) / 60, len(os.sched_getaffinity(0))
    print("\n".join([*marks, *table(watch.minutes()), f"minutes by the clock: {clock:.1f} on {processors} processors"]))
    if clock > GOAL * 4 / processors:
        print(f"THE GATE IS SLOW: {clock:.0f} minutes, more than {GOAL * 4 / processors:.0f} on {processors} processors")
    print(last)
    return status


if __name__ == "__main__":
    sys.exit(main(sys.argv[1:]))
