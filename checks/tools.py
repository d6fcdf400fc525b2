#!/usr/bin/env python3
"""Checks `tools/resolve-tools` over the program and over generated reports.

Usage: checks/tools.py [PAIRS] [REPORTS] [PATH OF THE PROGRAM]
Defaults: 500 pairs, 500 reports, crates/resolve/out/resolve (which `rt run` leaves). With `-` for the program the views alone
are checked.
Pairs are those of examples/ and tools/tests/data/, and generated ones. Over each that installs, the lock is read back, and the
judge accepts the report over the frozen catalogue. Solving again with `--frozen` or `--keep`, also with newer versions on top,
gives the same entries. The exception is a line with several alternatives; how often they differed is printed. With `--wish`
each entry stays. A locked version that is gone gets its named error. Reports are of a plain prover, over catalogues with
dictionaries of awkward names, with messages of all sentences. Real names and JSON that are read back give the same bytes, and
every view prints. The page escapes each word and loads nothing from outside.
"""
import json
import os
import random
import subprocess
import sys
import tempfile
from collections import Counter

from base import fail, must, program_of
from judging import Prover, some_texts
from plain_judge import judge
from solving import generated_texts
from tools import texts
from tools.dictionary import Dictionary
from tools.tests.base import data_bytes, run
from tools.tests.test_views import PAIRS, loads

AWKWARD_NAMES = ["<script>alert('1')</script>", "a&b\"c", "é|ü", "b", "c", "src:x", "@import", "url(x)", "d", "any", "not", "x;y]"]
AWKWARD_TEXTS = ["1..2", "1.", ".1", "holds", "*", "<b>", "1;", "2]", "=3", "3", "2", "1:1.0-1+b2~rc1", "line"]


# ---- locks


class Locks:
    """One pair after the other, in a folder."""

    def __init__(self, program, folder, rng):
        self.program, self.folder, self.rng = program, folder, rng
        self.counts = Counter()

    def path(self, name, data=None):
        path = os.path.join(self.folder, name)
        if data is not None:
            with open(path, "wb") as out:
                out.write(data)
        return path

    def solve(self, catalogue, request):
        """The report of two texts, None where the run doesn't install."""
        done = subprocess.run([self.program, "solve", self.path("c", catalogue), self.path("r", request)], capture_output=True)
        must(done.returncode in (0, 1), "solve failed", done.stdout, catalogue, request)
        return done.stdout if done.returncode == 0 else None

    def lines(self, catalogue, *options):
        """The whole text that `lock lines` gives."""
        status, out, error = run("lock", "lines", *options, "--whole", self.path("later.catalogue", catalogue), self.path("x.lock"))
        must((status, error) == (0, ""), "lock lines failed", error, catalogue)
        return out

    def pair(self, catalogue, request):
        """Everything that is promised of a pair."""
        report = self.solve(catalogue, request)
        if report is None:
            self.counts["refused"] += 1
            return
        self.counts["installed"] += 1
        paths = self.path("c", catalogue), self.path("r", request), self.path("p", report)
        must(run("lock", "write", paths[0], paths[2], "--out", self.path("x.lock")) == (0, b"", ""), "lock write failed", catalogue, report)
        checked = run("lock", "check", self.path("x.lock"), *paths, "--resolve", self.program)
        must(checked[0] == 0, "lock check failed", checked[2])
        frozen = self.lines(catalogue, "--frozen")
        must(judge(frozen, request, report) == 0, "the report doesn't hold over the frozen catalogue", frozen, report)
        for later, name in ((catalogue, "again"), (newer(catalogue, report), "newer")):
            self.same(self.lines(later, "--frozen"), request, report, f"frozen {name}")
            self.same(self.lines(later, "--keep"), request, report, f"keep {name}")
            self.exact(later, request, report, f"frozen with wishes {name}")
        self.wishes(catalogue, request, report)
        self.gone(catalogue, report)

    def same(self, catalogue, request, report, what):
        """Solving gives the same entries."""
        again = self.solve(catalogue, request)
        must(again is not None, f"{what}: refused", catalogue, request)
        mine, theirs = entries(report), entries(again)
        self.counts[what] += 1
        if mine != theirs:
            self.counts[f"{what}: other entries"] += 1
            must(has_alternatives(catalogue, request), f"{what}: other entries", catalogue, request, report, again)

    def exact(self, catalogue, request, report, what):
        """Over the frozen catalogue, with each locked version wished for, solving gives the same entries."""
        frozen = self.lines(catalogue, "--frozen")
        paths = self.path("frozen.catalogue", frozen), self.path("x.lock"), self.path("r", request)
        status, wished, error = run("lock", "lines", "--wish", "--whole", *paths[:2], "--request", paths[2])
        must((status, error) == (0, ""), "lock lines --wish failed", error, request)
        again = self.solve(frozen, wished)
        must(again is not None and entries(again) == entries(report), f"{what}: other entries", frozen, wished, report)
        self.counts[what] += 1

    def wishes(self, catalogue, request, report):
        """With wishes each entry stays over the same catalogue; over another one each is an entry or left out."""
        paths = self.path("c", catalogue), self.path("x.lock"), self.path("r", request)
        status, wished, error = run("lock", "lines", "--wish", "--whole", *paths[:2], "--request", paths[2])
        must((status, error) == (0, ""), "lock lines --wish failed", error, request)
        again = self.solve(catalogue, wished)
        must(again is not None and entries(again) == entries(report), "wishes changed the entries", catalogue, wished, report)
        later = newer(catalogue, report)
        moved = self.solve(later, wished)
        if moved is not None:
            files = self.path("c", later), self.path("r", wished), self.path("p", moved)
            left = run("view", "left", *files)[1].decode()
            for answer in texts.read_report(moved).answers:
                if isinstance(answer, texts.LeftOut):
                    self.counts["wishes left out with a proof"] += 1
                    self.said_in(left, answer, later)

    def said_in(self, left, answer, catalogue):
        """Checks that `view left` explains why this wish was left out."""
        listed = texts.read_catalogue(catalogue)
        dictionary = texts.read_dictionary(listed) or Dictionary()
        words = f"{dictionary.name(answer.version.package)} {dictionary.version(answer.version)}, wished for by"
        must(words in left, "view left says nothing of it", answer, left)

    def gone(self, catalogue, report):
        """A locked version that the catalogue no longer lists."""
        locked = sorted(entries(report))
        if not locked:
            return
        version = self.rng.choice(locked)
        out, later = self.path("out"), self.path("later.catalogue", without(catalogue, version))
        for how in ("--frozen", "--keep", "--wish"):
            status, printed, error = run("lock", "lines", how, later, self.path("x.lock"), "--out", out)
            must((status, printed) == (1, b"") and not os.path.exists(out), "a version is gone, and lines were written", error)
            named = error.startswith(f"tools: {self.path('x.lock')}: line ") and error.endswith(f" is no longer listed by {later}\n")
            must(named, "not the named error", error)
        self.counts["gone"] += 1


def entries(report):
    return {entry.version for entry in texts.read_report(report).entries}


def has_alternatives(catalogue, request):
    """Whether a line has several alternatives: the first that matches is tried first, also where another names a favoured version."""
    listed = texts.read_catalogue(catalogue)
    lines = listed.lines + texts.read_request(request, listed).lines
    return any(isinstance(line, texts.NeedsLine) and len(line.alternatives) > 1 for line in lines)


def newer(catalogue, report):
    """The catalogue with a newer version of each locked package at its end."""
    listed, more = texts.read_catalogue(catalogue), b""
    dictionary = texts.read_dictionary(listed)
    for package in sorted({version.package for version in entries(report)}):
        number = 1 + max(version.number for version in listed.by_package[package])
        if number < 2**32:
            more += f"version {package} {number}\n".encode() + (f"#v newer-{number}\n".encode() if dictionary else b"")
    return (catalogue if catalogue.endswith(b"\n") or not catalogue else catalogue + b"\n") + more


def without(catalogue, version):
    """The catalogue without the version, its lines, and the marks that name it."""
    listed, lines, skipping = texts.read_catalogue(catalogue), [], False
    for line in listed.lines:
        if isinstance(line, texts.VersionLine):
            skipping = line.version == version
        owned = isinstance(line, (texts.VersionLine, texts.NeedsLine, texts.LimitsLine, texts.UnknownLine, texts.SkippedLine))
        marked = isinstance(line, (texts.LockLine, texts.FavourLine, texts.ExcludeLine)) and line.version == version
        if not marked and not (owned and skipping):
            lines.append(line)
    return texts.catalogue_text(texts.Catalogue(tuple(lines)))


def worked_pairs():
    """The pairs of examples/ and of the tests' data."""
    for catalogue, request, _ in PAIRS:
        yield data_bytes(f"{catalogue}.catalogue"), data_bytes(f"{request}.request")
    for pair in json.loads(data_bytes("pairs.json")):
        yield pair["catalogue"].encode(), pair["request"].encode()


def check_locks(program, count):
    rng = random.Random(11)
    with tempfile.TemporaryDirectory() as folder:
        locks, pairs = Locks(program, folder, rng), list(worked_pairs())
        for pair in pairs:
            locks.pair(*pair)
        for _ in range(count):
            locks.pair(*(text.encode() for text in generated_texts(rng)))
    print(f"{len(pairs)} worked and {count} generated pairs: " + ", ".join(f"{n} {what}" for what, n in sorted(locks.counts.items())))


# ---- views


def with_dictionary(rng, catalogue):
    """The catalogue with real names and versions, awkward ones among them."""
    listed = texts.read_catalogue(catalogue.encode())
    reals = rng.sample(AWKWARD_NAMES, 4)
    names = {package: reals.pop() for package in ("a", "b", "c", "d") if rng.random() < 0.7}
    versions = {}
    for package, of in listed.by_package.items():
        words = rng.sample(AWKWARD_TEXTS, len(of))
        versions |= {v: words.pop() for v in of if rng.random() < 0.8}
    sources = {n: rng.choice(["Depends: <img src=x>", "a \"quoted\" & 'one'"]) for n in range(1, len(listed.lines) + 1) if rng.random() < 0.3}
    dictionary = Dictionary("test", "-", "-", names, versions, sources)
    return texts.catalogue_text(texts.Catalogue(dictionary.lines(listed.lines)))


def some_message(rng):
    """Lines of a message: sentences over the packages, or anything else."""
    spec = lambda: rng.choice(["a *", "b 1", "c 1..3", "d 0..4294967295", "c 2", "b *"])
    requirement = lambda: " | ".join(spec() for _ in range(rng.choice([1, 1, 2])))
    versions = lambda: rng.choice("abcd") + " " + " | ".join(str(rng.randint(1, 4)) for _ in range(rng.choice([1, 1, 2, 3])))
    forms = [
        lambda: "The following packages are incompatible", lambda: f"No candidates were found for {requirement()}.",
        lambda: f"{requirement()}, for which no candidates were found.", versions, lambda: f"{versions()} is excluded because old",
        lambda: f"{requirement()} can be installed with any of the following options:", lambda: f"{versions()} would require",
        lambda: f"{requirement()}, which cannot be installed because there are no viable options:", lambda: f"{versions()} would constrain",
        lambda: f"{spec()}, which conflicts with any installable versions previously reported", lambda: f"the constraint {spec()} cannot be fulfilled",
        lambda: f"{versions()} is locked, but another version is required as reported above",
        lambda: f"{versions()}, which conflicts with the versions reported above.",
        lambda: rng.choice(AWKWARD_NAMES) + " " + rng.choice(AWKWARD_TEXTS), lambda: "", lambda: "\udcff\x1b[31m", lambda: "# a 1", lambda: "no versions fit",
    ]
    signs = lambda: rng.choice(["", "├─ ", "└─ ", "│  └─ ", "   ├─ ", "│     └─ "])
    return [signs() + rng.choice(forms)() for _ in range(rng.randint(0, 6))]


def some_report(rng):
    """A catalogue with a dictionary, a request, and a right report of theirs."""
    catalogue, request = some_texts(rng)
    catalogue, request = with_dictionary(rng, catalogue), request.encode()
    prover = Prover(catalogue, request)
    sets = list(prover.sets())
    report = (prover.install(rng, sets) if sets else prover.refuse(rng)).encode()
    if not sets:
        lines = [line for line in report.split(b"\n")[:-1] if not line.startswith(b"| ")]
        report = b"".join(line + b"\n" for line in lines + [b"| " + texts.encoded(line) for line in some_message(rng)])
    must(judge(catalogue, request, report) == 0, "the report isn't right", catalogue, request, report)
    return catalogue, request, report


def check_report(files, report, paths):
    """All views of one report."""

    def view(name, *options):
        status, out, error = run("view", name, *files, *options)
        must((status, error) == (0, ""), f"view {name} failed", error, report)
        return out

    for name, back in (("names", (files[0], "--back")), ("json", ("--back",))):
        with open(paths["view"], "wb") as out:
            out.write(view(name))
        must(run("view", name, *back, paths["view"]) == (0, report, ""), f"view {name} doesn't lead back", report, open(paths["view"], "rb").read())
    must(view("explain", "--steps").decode().isprintable() is False, "no lines")
    tags, bad, _ = loads(view("html"))
    must(not bad and not {"script", "link", "img", "iframe", "object", "embed", "b"} & set(tags), "the page isn't safe", bad, report)
    value = texts.read_report(report)
    if isinstance(value, texts.Refused):
        shown = view("message", "--color", "never")
        must(all(c.isprintable() or c == "\n" for c in shown.decode()), "signs that drive a terminal", shown)
        return
    must(view("tree").count(b"\n") == 1 + len(value.entries), "the tree lacks an entry", report)
    view("left")
    for entry in value.entries:
        view("why", entry.version.package)


def check_views(count):
    rng, counts = random.Random(12), Counter()
    with tempfile.TemporaryDirectory() as folder:
        paths = {name: os.path.join(folder, name) for name in ("catalogue", "request", "report", "view")}
        files = [paths[name] for name in ("catalogue", "request", "report")]
        for _ in range(count):
            generated = some_report(rng)
            for path, data in zip(files, generated):
                with open(path, "wb") as out:
                    out.write(data)
            check_report(files, generated[2], paths)
            value = texts.read_report(generated[2])
            counts[type(value).__name__.lower()] += 1
            counts.update({type(step).__name__ for step in value.steps})
            counts.update({type(answer).__name__ for answer in getattr(value, "answers", ())})
    print(f"{count} reports through each view, names and JSON back to the same bytes: " + ", ".join(f"{n} {what}" for what, n in sorted(counts.items())))


def main():
    pairs = int(sys.argv[1]) if len(sys.argv) > 1 else 500
    reports = int(sys.argv[2]) if len(sys.argv) > 2 else 500
    program = program_of(sys.argv, 3, or_none=True)
    check_views(reports)
    if program != "-":
        check_locks(program, pairs)


if __name__ == "__main__":
    main()
