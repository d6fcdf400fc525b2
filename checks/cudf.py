#!/usr/bin/env python3
"""Checks `resolve-tools cudf` over generated CUDF documents: the verdict beside aspcud's, each answer by `cudf-check`.

Usage: checks/cudf.py [COUNT] [SEED] [PATH OF THE PROGRAM]      defaults: 1000, 1, crates/resolve/out/resolve
Needs Debian's aspcud and cudf-tools (ASPCUD=PATH and CUDF_CHECK=PATH name them elsewhere). Documents have preambles, folded lines,
comments, escaped names, provides with and without versions, negations, `true!` and `false!`, all kinds of `keep`, installs, removals and
upgrades. In a third of them every package conflicts with itself, in a third some do, in a third none. The report of each run is judged
right by `resolve judge`.
aspcud gets the document without folded lines, which its reader doesn't take around comments. `keep: feature` is written of names
of features alone: for a package's own name aspcud answers otherwise than libcudf. Where the verdicts differ `cudf-check` decides, and such
documents are counted apart; it stops the check where aspcud's answer is right and we give up.
With the word `size` for COUNT two documents of 60,000 packages are solved, and the seconds of processor are printed: one in which every
package conflicts with itself, as Debian's do, and one of the general form, in which none does.
"""
import os
import random
import resource
import subprocess
import sys
import tempfile
import time
from collections import Counter

from base import fail, program_of
from tools.tests.base import run

ASPCUD, CUDF_CHECK = os.environ.get("ASPCUD", "aspcud"), os.environ.get("CUDF_CHECK", "cudf-check")
NAMES = ["a", "b-2", "lib%3aamd64", "c++", "D.x/y", "e@(f)"]
FEATURES = ["feat", "g%5fh", "a", "c++"]
SIGNS = ["=", "!=", ">=", "<=", ">", "<"]


# ---- documents


def some_atom(rng, names=None):
    """A package or a feature, perhaps with a constraint."""
    name = rng.choice(names or NAMES * 3 + FEATURES)
    space = rng.choice(["", " "])
    return name if rng.random() < 0.45 else f"{name}{space}{rng.choice(SIGNS)}{space}{rng.randint(1, 5)}"


def some_formula(rng):
    """What a package depends on."""
    if rng.random() < 0.06:
        return rng.choice(["true!", "true!", "false!"])
    parts = [" | ".join(some_atom(rng) for _ in range(rng.choice([1, 1, 1, 2, 3]))) for _ in range(rng.choice([1, 1, 2]))]
    return ", ".join(parts)


def some_stanza(rng, name, version, own):
    """A package; `own` is how often it conflicts with itself."""
    lines = [f"package: {name}", f"version: {version}"]
    if rng.random() < 0.65:
        lines.append(f"depends: {some_formula(rng)}")
    conflicts = [name] if rng.random() < own else []
    conflicts += [some_atom(rng) for _ in range(rng.choice([0, 0, 0, 0, 1, 1, 2]))]
    if conflicts or rng.random() < 0.1:
        lines.append(f"conflicts: {', '.join(conflicts)}")
    keep = rng.choice(["version", "package", "feature", "none"]) if rng.random() < 0.3 else ""
    if rng.random() < 0.3:
        names = FEATURES[:2] if keep == "feature" else FEATURES
        provided = [rng.choice(names) + rng.choice(["", "", f" = {rng.randint(1, 4)}"]) for _ in range(rng.choice([1, 1, 2]))]
        lines.append(f"provides: {', '.join(provided)}")
    if rng.random() < 0.3:
        lines.append(f"installed: {rng.choice(['true', 'true', 'true', 'false'])}")
        lines += [f"keep: {keep}"] if keep else []
    lines += [f"size: {rng.randint(-3, 9)}"] if rng.random() < 0.2 else []
    return lines


def folded(rng, line):
    """The line, perhaps on two; between them a comment."""
    spaces = [at for at, sign in enumerate(line) if sign == " "][1:]
    if not spaces or rng.random() < 0.85:
        return line
    at = rng.choice(spaces)
    return f"{line[:at]}\n{rng.choice(['', '# between', '#'])}\n {line[at:]}".replace("\n\n", "\n")


def some_document(rng):
    """A document with folded lines and comments; the same without; whether all its packages conflict with themselves."""
    own = rng.choice([1, 0.5, 0])
    stanzas = [["preamble: ", 'property: size: int = [0], note: string = ["a, \\"b\\""]']]
    for name in rng.sample(NAMES, rng.randint(3, len(NAMES))):
        stanzas += [some_stanza(rng, name, version, own) for version in rng.sample(range(1, 6), rng.randint(1, 4))]
    request = [f"request: {rng.choice(['', 'r'])}"]
    for word, often in (("install", 0.8), ("remove", 0.3), ("upgrade", 0.4)):
        if rng.random() < often:
            request.append(f"{word}: {', '.join(some_atom(rng) for _ in range(rng.choice([1, 1, 2])))}")
    plain = "\n\n".join("\n".join(lines) for lines in [*stanzas, request]) + "\n"
    ends = ["\n\n", "\n\n", "\n \n", "\n# c\n\n"]
    text = "".join("\n".join(folded(rng, line) for line in lines) + rng.choice(ends) for lines in [*stanzas, request])
    return text, plain, own == 1


# ---- the tools beside


def said_by(command):
    """The output of a command that must end well."""
    done = subprocess.run(command, capture_output=True, text=True)
    if done.returncode != 0:
        fail("failed", command, done.stdout, done.stderr)
    return done.stdout


def is_fail(path):
    """Whether a solver gave up."""
    with open(path) as file:
        return file.readline().strip() == "FAIL"


def is_solution(document, path):
    """Whether `cudf-check` takes an answer, and what it says."""
    done = subprocess.run([CUDF_CHECK, "-cudf", document, "-sol", path], capture_output=True, text=True)
    return "is_solution: true" in done.stdout, done.stdout + done.stderr


def check_document(rng, folder, program, counts):
    """One document: the verdicts agree, and our answer is taken."""
    text, plain, is_exact = some_document(rng)
    path, other, mine, theirs = (os.path.join(folder, name) for name in ("in", "plain", "mine", "theirs"))
    for name, written in ((path, text), (other, plain)):
        with open(name, "w") as out:
            out.write(written)
    status, said, error = run("cudf", "solve", "--resolve", program, "--keep", folder, path, mine, "-removed,-changed")
    if (status, said) != (0, b""):
        fail("cudf solve failed", error, text)
    files = [os.path.join(folder, name) for name in ("catalogue", "request", "report")]
    if said_by([program, "judge", *files]).strip() != "yes":
        fail("the report isn't judged right", text)
    said_by([ASPCUD, other, theirs, "-removed,-changed"])
    kind = "every package conflicts with itself" if is_exact else "versions may stand together"
    if not is_fail(mine):
        is_right, said = is_solution(path, mine)
        if not is_right:
            fail("cudf-check refuses our answer", said, text)
        counts["answered, where aspcud gives up" if is_fail(theirs) else f"answered, {kind}"] += 1
        return
    if is_fail(theirs):
        counts[f"given up, {kind}"] += 1
        return
    is_right, said = is_solution(path, theirs)
    if is_right:
        fail("aspcud answers, and we give up", text)
    counts["given up, where cudf-check refuses aspcud's answer"] += 1


# ---- a large document


def write_large(rng, path, is_general):
    """A document of 60,000 packages: two versions each of 30,000, of which 2,000 are installed."""
    with open(path, "w") as out:
        out.write("preamble: \nproperty: number: string, recommends: vpkgformula = [true!]\n\n")
        for at in range(30000):
            installed = at < 2000
            for version in (1, 2):
                needs = {rng.randrange(max(at // 4, 1)) for _ in range(rng.randint(1, 8))} if at else ()
                depends = ", ".join(f"p{each}{rng.choice(['', '', ' >= 1', ' >= 2 | p0'])}" for each in sorted(needs)) or "true!"
                out.write(f"package: p{at}\nversion: {version}\nnumber: {version}.0-1+b{at}\ndepends: {depends}\n")
                conflicts = ([] if is_general else [f"p{at}"]) + ["old < 3"] * (at % 9 == 0)
                out.write(f"recommends: p{rng.randrange(30000)}\nconflicts: {', '.join(conflicts)}\n")
                out.write(f"provides: mta{at % 50} = {version}\n" if at % 7 == 0 else "")
                out.write(f"installed: {'true' if installed and version == 1 else 'false'}\n\n")
        out.write("request: \ninstall: " + ", ".join(f"p{at}" for at in range(2500, 30000, 5500)) + "\nupgrade: p10\n")


def check_size(rng, program, is_general):
    """Reads, solves and writes; then `cudf-check` over the answer."""
    what = "versions may stand together" if is_general else "every package conflicts with itself"
    with tempfile.TemporaryDirectory() as folder:
        path, answer = os.path.join(folder, "in"), os.path.join(folder, "out")
        write_large(rng, path, is_general)
        spent = lambda: sum(sum(resource.getrusage(who)[:2]) for who in (resource.RUSAGE_SELF, resource.RUSAGE_CHILDREN))
        before, start = spent(), time.monotonic()
        status, _, error = run("cudf", "solve", "--resolve", program, path, answer, "-removed,-changed")
        seconds, processor = time.monotonic() - start, spent() - before
        if status != 0 or is_fail(answer):
            fail("cudf solve failed", error)
        is_right, said = is_solution(path, answer)
        if not is_right:
            fail("cudf-check refuses our answer", said)
        with open(answer) as file:
            count = file.read().count("package: ")
        print(f"60,000 packages, {what}, {count} of them in the answer: {processor:.1f} s of processor, {seconds:.1f} s of wall clock", flush=True)


def main():
    word = sys.argv[1] if len(sys.argv) > 1 else "1000"
    rng = random.Random(int(sys.argv[2]) if len(sys.argv) > 2 else 1)
    program = program_of(sys.argv, 3)
    if word == "size":
        return [check_size(rng, program, is_general) for is_general in (False, True)]
    counts = Counter()
    with tempfile.TemporaryDirectory() as folder:
        for _ in range(int(word)):
            check_document(rng, folder, program, counts)
    print(f"{word} documents: " + ", ".join(f"{n} {what}" for what, n in sorted(counts.items())))


if __name__ == "__main__":
    main()
