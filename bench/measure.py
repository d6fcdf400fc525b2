"""Runs of a command: processor seconds, peak memory and status, and the median of several.

Seconds are user and system together, without what starting `true` takes (some milliseconds).
"""
import functools
import os
import re
import shutil
import signal
import statistics
import subprocess
import sys
import tempfile
from dataclasses import dataclass

TIMER = shutil.which("time")  # GNU time: without it a child's peak memory counts that of this process as it starts
VALGRIND = shutil.which("valgrind")
SHORT = 1.0  # seconds: a longer run isn't repeated
OVER = [sign for kill in (signal.SIGXCPU, signal.SIGKILL) for sign in (-kill, 128 + kill)]  # what the limit of time gives


@dataclass(frozen=True)
class Run:
    """What a run took, and how it ended."""

    seconds: float
    memory: int  # bytes at the peak
    status: int
    ended: bool  # false where the limit of time ended it
    output: str = ""  # its beginning


def program(usage, default="../crates/resolve/out/resolve"):
    """The path of the program: the first argument, else the default. Ends with the usage where no program is there."""
    path = sys.argv[1] if len(sys.argv) > 1 else os.path.join(os.path.dirname(os.path.abspath(__file__)), default)
    if not os.access(path, os.X_OK) or os.path.isdir(path):
        sys.exit(f"{usage}\n{path} is no program")
    return path


@functools.cache
def start_cost():
    """What starting a program that does nothing takes."""
    return statistics.median(raw(["true"], 600, 0)[0] for _ in range(21))


def run(command, limit=600, keep=0):
    """One run within a limit of processor seconds; `keep` bytes of its output are kept."""
    seconds, peak, status, text = raw(command, limit, keep)
    return Run(max(seconds - start_cost(), 0.0), peak, status, status not in OVER, text)


def raw(command, limit, keep):
    """Seconds with those of the start, peak memory, status and the beginning of the output."""
    with tempfile.NamedTemporaryFile("r") as told, tempfile.TemporaryFile() as output:
        words = ["prlimit", f"--cpu={limit}:{limit + 1}", "--core=0"]
        words += [TIMER, "-q", "-o", told.name, "-f", "%M"] if TIMER else []
        child = subprocess.Popen(words + command, stdout=output if keep else subprocess.DEVNULL, stderr=subprocess.DEVNULL)
        _, status, usage = os.wait4(child.pid, 0)
        child.returncode = os.waitstatus_to_exitcode(status)
        last = told.read().split()[-1:]
        seconds = usage.ru_utime + usage.ru_stime
        output.seek(0)
        text = output.read(keep).decode("utf-8", "replace")
    peak = 1024 * int(last[0]) if last else 1024 * usage.ru_maxrss
    return seconds, peak, child.returncode, text


def median(command, limit=600, keep=0, times=5):
    """The median of some runs; of one where it takes long."""
    first = run(command, limit, keep)
    if first.seconds > SHORT or times == 1:
        return first
    runs = [first] + [run(command, limit, keep) for _ in range(times - 1)]
    seconds = statistics.median(each.seconds for each in runs)
    return Run(seconds, max(each.memory for each in runs), first.status, all(each.ended for each in runs), first.output)


def instructions(command):
    """The instructions of a run, by valgrind's callgrind."""
    words = [VALGRIND, "--tool=callgrind", "--callgrind-out-file=/dev/null", *command]
    told = subprocess.run(words, stdout=subprocess.DEVNULL, stderr=subprocess.PIPE, text=True).stderr
    return int(re.search(r"Collected : (\d+)", told)[1])
