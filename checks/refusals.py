#!/usr/bin/env python3
"""Runs the program with each allocation, read and write refused in turn, and with small pieces a read and write.

Usage: checks/refusals.py [PATH OF THE PROGRAM]   (default: crates/resolve/out/resolve, which `rt run` leaves)
Needs a C compiler, for refuse.c, which is preloaded. Status 1 where an answer isn't as promised.
A refused allocation gives `no memory` or changes nothing, a failed read `cannot read`, a failed write a prefix of the answer. So
does a write that takes no byte. A thousand interruptions in a row before any read or write change nothing, one more is a failure.
"""
import os
import subprocess
import sys
import tempfile

import rows

HERE = os.path.dirname(os.path.abspath(__file__))
TOP = os.path.dirname(HERE)
PROGRAM = os.path.abspath(sys.argv[1]) if len(sys.argv) > 1 else os.path.join(TOP, "crates/resolve/out/resolve")
PIECES = ["1", "2", "3", "4096"]
TOTALS = {}

EVERY_KIND = b"""# every kind of line

many d
version a 1
needs b 1..4 | c if b or ( c 2 and a )
limits b 2..5
version b 2
unknown nometa
version c 2
lock a 1
favour b 2
exclude c 2 insecure
version d 1
"""
EVERY_ASK = b"needs a 1..4 | b if c or d\nlimits a 1..4\nwish a 1\n"


# a report whose steps are of every kind that rests on helpers, and one that is refused at its end
JUDGED = b"""version p 1
needs c
limits c 9
version c 1
version c 2
"""
JUDGED_STEPS = b"""step 1 need request line 1 case 1
step 2 gate p=1 line 2
step 3 shared c
step 4 limit p=1 line 3
step 5 outside c 9 holds c=1
step 6 outside c 9 holds c=2
step 7 digit c=1 place 0 bit 0
step 8 digit c=2 place 1 bit 0
step 9 any c=1
"""


def reports():
    """Name, catalogue, request and report."""
    named = b"refused\ncatalogue line 2\ncatalogue line 3\nrequest line 1\n"
    proof = named + JUDGED_STEPS + b"step 10 derive [] by 1 2 4 5 6 3\n| nothing fits\n"
    barred = b"install\np=1 for request line 1\nleft out c=1 line 2 by 1\nstep 1 limit p=1 line 2 bars c=1\n"
    return texts_of(JUDGED_ROWS, ["catalogue", "request", "report"]) + [
        ("a proof with helpers", JUDGED, b"needs p\n", proof),
        ("a proof without its end", JUDGED, b"needs p\n", named + JUDGED_STEPS),
        ("a wish that is left out", b"version p 1\nlimits c 9\nversion c 1\n", b"needs p\nwish c 1\n", barred),
    ]


def example(name):
    with open(os.path.join(TOP, "examples", name), "rb") as text:
        return text.read()


SOLVED_ROWS = ["install_a_need_of_a_version", "install_a_wish_leaves_the_newest_versions_chosen",
               "install_a_wish_of_another_version_of_a_wished_package", "refuse_a_limit_that_no_candidate_keeps"]
JUDGED_ROWS = ["judge_a_gate_a_limit_and_their_helpers"]


def texts_of(names, parts):
    """The name of each of these rows, and its texts."""
    first = [rows.read(os.path.join(rows.DATA, name + ".row"))[0] for name in names]
    return [(row.name, *(row.text(part) for part in parts)) for row in first]


def cases():
    """Name, catalogue and request."""
    app = example("app.catalogue")
    return texts_of(SOLVED_ROWS, ["catalogue", "request"]) + [
        ("installed", app, example("app.request")),
        ("refused", app, example("conflict.request")),
        ("every kind of line", EVERY_KIND, EVERY_ASK),
        ("faulty catalogue", app + b"version app 1\n", example("app.request")),
        ("faulty request", app, b"needs app\nneeds  app\n"),
        ("empty", b"", b""),
    ]


def run(library, arguments, given, **settings):
    """Status, output, and whether a call was refused."""
    environment = {"REFUSE_" + name.upper(): value for name, value in settings.items()}
    told, tell = os.pipe()
    # the program's descriptor 9 is the pipe's end
    ended = subprocess.run(
        ["sh", "-c", f'exec 9>&{tell}; LD_PRELOAD={library} exec "$@"', "sh", PROGRAM, *arguments],
        input=given, capture_output=True, env=environment, pass_fds=[tell], timeout=60)
    os.close(tell)
    refused = os.read(told, 1) != b""
    os.close(told)
    return ended.returncode, ended.stdout, refused


def is_as_promised(kind, plain, status, output):
    """Nothing of a report where memory or a read was refused, a front of it where a write was, or took no byte."""
    if kind == "alloc":
        # a refused growth that the program can do without changes nothing
        return (status, output) in [(2, b"no memory\n"), plain]
    if kind == "read":
        return (status, output) == (2, b"cannot read\n")
    return status == 2 and len(output) < len(plain[1]) and plain[1].startswith(output)


# how calls are refused: which ones, and how
KINDS = {"alloc": {"kind": "alloc"}, "read": {"kind": "read"}, "write": {"kind": "write"},
         "empty write": {"kind": "write", "how": "empty", "times": "1000000"}}


def refuse_each(library, name, arguments, given, plain, kind, piece):
    """The number of calls that were refused, and what went wrong."""
    faults, number = [], 0
    while True:
        number += 1
        status, output, refused = run(library, arguments, given, number=str(number), piece=piece, **KINDS[kind])
        if not refused:
            if (status, output) != plain:
                faults.append(f"{name}: no call refused, yet status {status}, {output!r}")
            return number - 1, faults
        if not is_as_promised(kind, plain, status, output):
            faults.append(f"{name}: {kind} {number} refused, pieces {piece}: status {status}, {output!r}")


def interrupt_each(library, name, arguments, given, plain, piece):
    """The number of calls that were interrupted, each in turn, and what went wrong."""
    faults, calls = [], 0
    for kind in ["read", "write"]:
        number = 0
        while True:
            number += 1
            settings = {"kind": kind, "how": "interrupt", "number": str(number), "piece": piece}
            status, output, refused = run(library, arguments, given, times="1000", **settings)
            if (status, output) != plain:
                faults.append(f"{name}: 1000 interruptions of {kind} {number}, pieces {piece}: status {status}, {output!r}")
            if not refused:
                break
            calls += 1
            status, output, _ = run(library, arguments, given, times="1001", **settings)
            if not is_as_promised(kind, plain, status, output):
                faults.append(f"{name}: 1001 interruptions of {kind} {number}, pieces {piece}: status {status}, {output!r}")
    return calls, faults


def check(library, name, arguments, given):
    plain = run(library, arguments, given)[:2]
    faults, counts = [], {}
    for piece in PIECES:
        if run(library, arguments, given, piece=piece)[:2] != plain:
            faults.append(f"{name}: other output with pieces of {piece}")
        for kind in KINDS:
            if kind == "alloc" and piece != "4096":
                continue
            count, wrong = refuse_each(library, name, arguments, given, plain, kind, piece)
            counts[kind] = counts.get(kind, 0) + count
            faults += wrong
        count, wrong = interrupt_each(library, name, arguments, given, plain, piece)
        counts["interrupted call"] = counts.get("interrupted call", 0) + count
        faults += wrong
    print(f"{name}: status {plain[0]}, in turn: " + ", ".join(f"{n} {k}" for k, n in counts.items()), flush=True)
    for kind, count in counts.items():
        TOTALS[kind] = TOTALS.get(kind, 0) + count
    return faults


def main():
    faults = []
    with tempfile.TemporaryDirectory() as folder:
        library = os.path.join(folder, "refuse.so")
        subprocess.run(["cc", "-O1", "-shared", "-fPIC", "-o", library, os.path.join(HERE, "refuse.c"), "-ldl"], check=True)
        for name, catalogue, request in cases():
            paths = [os.path.join(folder, "catalogue"), os.path.join(folder, "request")]
            for path, text in zip(paths, [catalogue, request]):
                with open(path, "wb") as out:
                    out.write(text)
            faults += check(library, name + ", files", ["solve", *paths], b"")
            faults += check(library, name + ", standard input", [], catalogue + b"---\n" + request)
        for name, *texts in reports():
            paths = [os.path.join(folder, part) for part in ("catalogue", "request", "report")]
            for path, text in zip(paths, texts):
                with open(path, "wb") as out:
                    out.write(text)
            faults += check(library, name + ", judged", ["judge", *paths], b"")
    print("in all: " + ", ".join(f"{n} {k}" for k, n in TOTALS.items()))
    print("\n".join(faults) if faults else "all as promised")
    sys.exit(1 if faults else 0)


main()
