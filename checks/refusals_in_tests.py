#!/usr/bin/env python3
"""Runs the crates' tests with each allocation refused in turn: a test then passes, or fails at an assertion, for want of memory or by its result.

Usage: checks/refusals_in_tests.py [MOST] [WORD]   (MOST allocations of each test, default 400; of the tests whose names have the word)
Runs crates/*/out/*_tests, which `rt ci` and `rt test` leave; and the programs of crates/resolvo_store_rows and crates/resolvo_rows, if they
are there, over each list of store calls that is written by hand, and over each case of the solver: they then answer as these say, or end for
want of memory. Needs a C compiler, for refuse.c, which is preloaded. Status 1 where a test ended otherwise: by a bad access, an abort of its
own, or not at all.
`resolvo_rows` asks a solver again that lacked memory. Where it answers otherwise than the case says, the status is 1 too.
"""
import glob
import os
import re
import subprocess
import sys
import tempfile

import requests_kept
import store_calls

HERE = os.path.dirname(os.path.abspath(__file__))
MOST = int(sys.argv[1]) if len(sys.argv) > 1 else 400
WORD = sys.argv[2] if len(sys.argv) > 2 else ""
STORE = os.path.join(HERE, "../crates/resolvo_store_rows/out/resolvo_store_rows")
SOLVER = os.path.join(HERE, "../crates/resolvo_rows/out/resolvo_rows")
FAILED = re.compile(rb"assertion .*failed|assertion failed|the test failed|: (Memory|AllocError)\n")
# a solver lacked memory, and then answered
SOLVED = b"it lacked memory, and then answered\n"


def run(library, words, number, given=b""):
    """Status, output, and whether an allocation was refused."""
    told, tell = os.pipe()
    ended = subprocess.run(
        ["sh", "-c", f'exec 9>&{tell}; LD_PRELOAD={library} exec "$@"', "sh", *words],
        env={"REFUSE_KIND": "alloc", "REFUSE_NUMBER": str(number)},
        input=given, capture_output=True, pass_fds=[tell], timeout=60)
    os.close(tell)
    refused = os.read(told, 1) != b""
    os.close(told)
    return ended.returncode, ended.stdout + ended.stderr, refused


def check(library, program, test):
    faults, count = [], 0
    for number in range(1, MOST + 1):
        status, output, refused = run(library, [program, test], number)
        if status != 0 and not (refused and FAILED.search(output)):
            faults.append(f"{test}: allocation {number} refused: status {status}, {output[-200:]!r}")
        if not refused:
            break
        count = number
    print(f"{os.path.basename(program)} {test}: {count} refused in turn", flush=True)
    return faults


def check_list(library, program, lines):
    """A list of store calls, with each allocation refused in turn."""
    text = "\n".join(lines).encode()
    faults, count = [], 0
    for number in range(1, MOST + 1):
        status, output, refused = run(library, [program], number, text)
        is_right = b" 0 are others than expected" in output if status == 0 else refused and b", and not " not in output
        if not is_right or status not in (0, 1):
            faults.append(f"{lines[0]}: allocation {number} refused: status {status}, {output[-200:]!r}")
        if not refused:
            break
        count = number
    print(f"{os.path.basename(program)} {lines[0]}: {count} refused in turn")
    return faults


def check_case(library, program, case):
    """A case of the solver, with each allocation refused in turn."""
    faults, count, solved = [], 0, 0
    for number in range(1, MOST + 1):
        status, output, refused = run(library, [program], number, case.text.encode())
        solved += SOLVED in output
        is_right = b" 0 are answered otherwise" in output if status == 0 else refused and b"answered otherwise" not in output
        if not is_right or status not in (0, 1):
            faults.append(f"{case.title}: allocation {number} refused: status {status}, {output[-200:]!r}")
        if not refused:
            break
        count = number
    print(f"{os.path.basename(program)} {case.title}: {count} refused in turn, {solved} of them in a solver that then answered", flush=True)
    return faults


def main():
    programs = sorted(glob.glob(os.path.join(HERE, "../crates/*/out/*_tests")))
    if not programs:
        sys.exit("no test programs: run rt ci first")
    faults = []
    with tempfile.TemporaryDirectory() as folder:
        library = os.path.join(folder, "refuse.so")
        subprocess.run(["cc", "-O1", "-shared", "-fPIC", "-o", library, os.path.join(HERE, "refuse.c"), "-ldl"], check=True)
        for program in programs:
            listed = subprocess.run([program, "--list"], capture_output=True, text=True, check=True).stdout
            for line in listed.splitlines():
                if line.endswith(": test") and WORD in line:
                    faults += check(library, program, line.removesuffix(": test"))
        if os.path.exists(STORE) and not WORD:
            for lines in store_calls.kept()[0]:
                faults += check_list(library, STORE, lines)
        if os.path.exists(SOLVER):
            for case in requests_kept.cases():
                if WORD in case.title:
                    faults += check_case(library, SOLVER, case)
    print("\n".join(faults) if faults else "all as promised")
    sys.exit(1 if faults else 0)


main()
