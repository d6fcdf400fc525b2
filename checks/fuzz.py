#!/usr/bin/env python3
"""Gives the program generated and mutated texts and reports, and compares its answers with the plain reader's and judge's.

Usage: checks/fuzz.py [MINUTES] [FOLDER] [PATH OF THE PROGRAM] [SEED]
Defaults: 1 minute, /tmp/resolve-found, crates/resolve/out/resolve (which `rt run` leaves), a seed of the clock's.
Findings: an end by a signal, a run of more than ten seconds, and an answer that differs. A faulty text must have the plain
reader's first fault. The plain judge must accept a report that `solve` writes. Of small texts the verdict must be that of all
sets. Another report must be judged as the plain judge does. Each finding is kept in FOLDER as a row
(crates/resolve_rows/README.md), which expects the plain side's answer. Give it a name that describes it, and add it to the rows.
Status 1 where there is one.
"""
import hashlib
import os
import random
import subprocess
import sys
import tempfile
import time

from base import ask, program_of
from judging import Prover, damaged
from plain_judge import judge
from solving import generated_texts
from tools import texts

SECONDS = 10
# of more sets than these the verdict isn't compared
MOST_SETS = 20_000
# words at the bounds of what a line may hold
EDGES = ["0", "00", "01", "4294967295", "4294967296", "18446744073709551616", "1..2", "0..4294967295", "2..2", "3..1", "..", "-1",
         "if", "and", "or", "|", "(", ")", "not", "any", "outside", "shared", "matches", "bit", "_", "a.b-c_d", "A", "", "#", "---", "x" * 300,
         "needs", "limits", "version", "wish", "lock", "favour", "exclude", "unknown", "many", "a", "b", "c", "d", "1", "2", "3"]
BYTES = [b" ", b"\n", b"\r", b"\t", b"\0", b"\xff", b"\xc3\xa9", b"|", b"(", b")", b";", b"#", b".", b"0", b"9"]


# ---- texts


def nested(rng, depth):
    """A condition with parentheses that are so deep."""
    inner = rng.choice(["a", "b 1", "c 1..3"])
    for _ in range(depth):
        other = rng.choice(["a 1", "b", "c 2"])
        inner = rng.choice([f"( {inner} ) and {other}", f"{other} or ( {inner} )", f"( {inner} )"])
    return inner


def wide_texts(rng):
    """Texts with conditions near the bounds, many alternatives, many versions of a package and many needs."""
    lines = []
    for package in "abc":
        for number in range(rng.choice([1, 2, 3, 4, 5, 12, 40])):
            lines.append(f"version {package} {number}")
            if rng.random() < 0.3:
                lines.append("needs " + " | ".join(f"{rng.choice('abc')} {rng.randint(0, 5)}" for _ in range(rng.choice([1, 3, 4, 9]))))
            if rng.random() < 0.2:
                low = rng.randint(0, 4)
                lines.append(f"limits {rng.choice('abc')} {low}..{low + rng.randint(1, 4)}")
    request = [f"needs {rng.choice('abc')} if {nested(rng, rng.choice([1, 3, 15, 16, 17]))}"]
    joined = [f"{rng.choice('abc')} {rng.randint(0, 3)}" for _ in range(rng.choice([4, 15, 16, 17]))]
    request.append("needs a | b if " + rng.choice([" and ", " or "]).join(joined))
    request += [f"wish {package} {rng.randint(0, 2)}" for package in rng.sample("abc", rng.randint(0, 3))]
    return "\n".join(lines) + "\n", "\n".join(request) + "\n"


def mutated(rng, text):
    """The text with a few lines, words or bytes changed."""
    for _ in range(rng.choice([1, 1, 2, 5])):
        lines = text.split(b"\n")
        at = rng.randrange(len(lines))
        kind = rng.randrange(8)
        if kind == 0:
            lines.insert(at, rng.choice(lines))
        elif kind == 1:
            del lines[at]
        elif kind in (2, 3):
            words = lines[at].split(b" ")
            words[rng.randrange(len(words))] = rng.choice(EDGES).encode()
            lines[at] = b" ".join(words)
        elif kind == 4:
            words = lines[at].split(b" ")
            words.insert(rng.randrange(len(words) + 1), rng.choice(EDGES).encode())
            lines[at] = b" ".join(words)
        elif kind == 5:
            place = rng.randrange(len(lines[at]) + 1)
            lines[at] = lines[at][:place] + rng.choice(BYTES) + lines[at][place:]
        elif kind == 6:
            other = rng.randrange(len(lines))
            lines[at], lines[other] = lines[other], lines[at]
        else:
            return b"\n".join(lines)[:rng.randrange(len(text) + 1)]
        text = b"\n".join(lines)
    return text


def some_pair(rng):
    catalogue, request = (text.encode() for text in (wide_texts(rng) if rng.random() < 0.3 else generated_texts(rng)))
    if rng.random() < 0.3:
        catalogue = mutated(rng, catalogue)
    if rng.random() < 0.3:
        request = mutated(rng, request)
    return catalogue, request


# ---- the answers of the plain side


class Plain:
    """The answers of the plain reader, the plain judge and the list of all sets to two texts."""

    def __init__(self, catalogue, request):
        self.catalogue, self.request, self.fault, self.prover = catalogue, request, None, None
        try:
            self.prover = Prover(catalogue, request)
        except texts.Fault as fault:
            self.fault = f"fault at {fault.text} line {fault.line}\n".encode() if fault.line else b"too long\n"

    def has_set(self):
        """Whether some set keeps the rules; None where there are too many sets to look at."""
        packages = {}
        for v in self.prover.listed:
            packages[v.package] = packages.get(v.package, 0) + 1
        count = 1
        for versions in packages.values():
            count *= versions + 1
        if count > MOST_SETS or set(packages) - {"a", "b", "c"}:
            return None
        return next(iter(self.prover.sets()), None) is not None

    def verdict(self, report):
        line = judge(self.catalogue, self.request, report)
        return b"no line %d\n" % line if line else b"yes\n"


def escaped(text):
    plain = [chr(b) if 32 <= b < 127 and b != 92 else {10: "\\n", 92: "\\\\"}.get(b, f"\\x{b:02x}") for b in text]
    return "".join(plain)


class Session:
    def __init__(self, program, folder, work):
        self.program, self.folder, self.work = program, folder, work
        self.counts = {"solved": 0, "faulty": 0, "judged": 0}
        self.findings = 0

    def found(self, what, sections):
        """Keeps a finding as a row."""
        row = "".join(f"== {name} escaped\n{escaped(text)}\n" for name, text in sections.items())
        name = "found_" + hashlib.sha256(row.encode()).hexdigest()[:12]
        os.makedirs(self.folder, exist_ok=True)
        with open(os.path.join(self.folder, name + ".row"), "w") as file:
            file.write(f"Found: {what}\n{row}")
        self.findings += 1
        print(f"{name}: {what}", flush=True)

    def ask(self, given):
        """Status and output; the status is None after ten seconds."""
        try:
            return ask(self.program, self.work, given, timeout=SECONDS)
        except subprocess.TimeoutExpired:
            return None, b""

    def is_wrong(self, status, sections):
        """Whether a run didn't end by itself in time."""
        if status in (0, 1, 2):
            return False
        self.found("no end in time" if status is None else f"ended with status {status}", sections)
        return True

    def solve(self, plain):
        """Compares the answer of `solve`; the report that it wrote, if it did."""
        inputs = {"catalogue": plain.catalogue, "request": plain.request}
        status, output = self.ask([plain.catalogue, plain.request])
        if plain.fault is not None:
            self.counts["faulty"] += 1
            if (status, output) != (2, plain.fault):
                self.found(f"status {status}, {output[:80]!r}", {**inputs, "prints": plain.fault, "status": b"2\n"})
            return None
        self.counts["solved"] += 1
        has_set = plain.has_set()
        wanted = {} if has_set is None else {"status": b"0\n" if has_set else b"1\n"}
        sections = {**inputs, **(wanted or {"fault": b"none\n"})}
        if self.is_wrong(status, sections):
            return None
        verdict = plain.verdict(output)
        if status == 2 or wanted and wanted["status"] != b"%d\n" % status:
            self.found(f"status {status}, {output[:80]!r}", sections)
        elif verdict != b"yes\n":
            self.found(f"of its report the plain judge says {verdict!r}", {**inputs, "report": output, "judge": verdict})
        return output

    def judge(self, plain, report):
        self.counts["judged"] += 1
        wanted = plain.verdict(report)
        status, output = self.ask([plain.catalogue, plain.request, report])
        sections = {"catalogue": plain.catalogue, "request": plain.request, "report": report, "judge": wanted}
        if not self.is_wrong(status, sections) and (status, output) != (wanted != b"yes\n", wanted):
            self.found(f"status {status}, {output[:80]!r}", sections)

    def once(self, rng):
        """A pair of texts, and some reports over it: the program's own, one of a plain prover, and damaged copies."""
        plain = Plain(*some_pair(rng))
        own = self.solve(plain)
        if own is None:
            return
        reports = [own]
        if plain.has_set() and rng.random() < 0.5:
            reports.append(plain.prover.install(rng, list(plain.prover.sets())).encode())
        for report in reports:
            self.judge(plain, report)
            for _ in range(3):
                worse = damaged(rng, report) if rng.random() < 0.5 else mutated(rng, report)
                self.judge(plain, worse)


def main():
    minutes = float(sys.argv[1]) if len(sys.argv) > 1 else 1.0
    folder = sys.argv[2] if len(sys.argv) > 2 else "/tmp/resolve-found"
    program = program_of(sys.argv, 3)
    seed = int(sys.argv[4]) if len(sys.argv) > 4 else int(time.time())
    rng, end = random.Random(seed), time.time() + minutes * 60
    with tempfile.TemporaryDirectory() as work:
        session = Session(program, folder, work)
        while time.time() < end:
            session.once(rng)
    counts = ", ".join(f"{count} {what}" for what, count in session.counts.items())
    print(f"seed {seed}: {counts}; {session.findings} findings")
    sys.exit(1 if session.findings else 0)


if __name__ == "__main__":
    main()
