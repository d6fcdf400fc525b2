#!/usr/bin/env python3
"""Compares `resolve solve` with a plain slow solver, which tries all sets, over generated texts.

Usage: checks/solving.py [PAIRS] [PATH OF THE PROGRAM] [--many]
Defaults: 1000 pairs, crates/resolve/out/resolve (which `rt run` leaves). With `-` for the program plain_search.py answers in its
place. With `--many` packages are marked `many`, so that a set may have several versions of them.
It must install exactly where some set keeps all rules, and the plain judge must accept each report. Where the first choices keep
all rules and no line has alternatives, they must be the entries above the first wish. Of flat texts these are the newest versions
that fit. A wish may be left out only where no rule-keeping set holds it with all entries above its line. Each form of line occurs
in 1,000 pairs.
"""
import random
import sys
import tempfile

from base import ask, program_of
from judging import Prover, some_spec, some_texts
from plain_judge import holds, judge, obeys
from plain_report import report as plain_report
from tools import texts
from tools.texts import FavourLine, ManyLine, NeedsLine, Version, VersionLine, WishLine, cases


def blocks_of(catalogue):
    """The lines above all versions, those of each version with what belongs to it, and the lines below all versions."""
    above, blocks, below = [], [], []
    for line in catalogue.splitlines():
        if line.startswith("many "):
            above.append(line)
        elif line.startswith("version "):
            blocks.append([line])
        elif line.startswith(("needs ", "limits ", "unknown ")):
            blocks[-1].append(line)
        else:
            below.append(line)
    return above, blocks, below


def disturbed(rng, catalogue):
    """The same versions in another order, with more alternatives and exclusions, comments and empty lines."""
    above, blocks, below = blocks_of(catalogue)
    rng.shuffle(blocks)
    for block in blocks:
        if rng.random() < 0.2:
            block.insert(rng.randint(1, len(block)), "needs " + " | ".join(some_spec(rng) for _ in range(3)))
    barred = [line.split()[1:3] for line in below if line.startswith("exclude ")]
    for block in blocks:
        version = block[0].split()[1:]
        if version not in barred and rng.random() < 0.1:
            below.append(f"exclude {version[0]} {version[1]} insecure")
    lines = above + [line for block in blocks for line in block] + below
    for line in ["", "# anything", "#needs  a"]:
        lines.insert(rng.randint(0, len(lines)), line)
    return "".join(line + "\n" for line in lines)


def forms_of(catalogue, request):
    """The forms of the lines of two texts: their first words, and what a need can have."""
    forms = set()
    for name, text in (("catalogue", catalogue), ("request", request)):
        for line in text.splitlines():
            word = line.split(" ")[0]
            forms.add(f"{name} {'comment' if word.startswith('#') else word or 'empty line'}")
            if " | " in line:
                forms.add("alternatives")
            if " if " in line:
                forms.update(form for form in (" and ", " or ", " ( ") if form in line)
                forms.add("condition")
    return forms


FORMS = {*(f"catalogue {word}" for word in "version needs limits unknown lock favour exclude comment".split()), "catalogue empty line",
         "request needs", "request limits", "request wish", "alternatives", "condition", " and ", " or ", " ( "}


def generated_texts(rng, with_many=False):
    """Texts of all forms; some wish more, some lose their conditions, some all rules of the catalogue."""
    most = 6 if rng.random() < 0.3 else 3
    catalogue, request = some_texts(rng, min(most, 4) if with_many else most, with_many)
    if rng.random() < 0.5:
        listed = [line.split()[1:] for line in catalogue.splitlines() if line.startswith("version")]
        wished = [line.split()[1:] for line in request.splitlines() if line.startswith("wish")]
        more = [v for v in rng.sample(listed, min(len(listed), 4)) if v not in wished]
        request += "".join(f"wish {package} {number}\n" for package, number in more)
    if rng.random() < 0.3:
        catalogue, request = ("".join(line.split(" if ")[0] + "\n" for line in text.splitlines()) for text in (catalogue, request))
    if rng.random() < 0.2:
        catalogue = "".join(line + "\n" for line in catalogue.splitlines() if line.startswith(("version", "many")))
    if rng.random() < 0.4:
        catalogue = disturbed(rng, catalogue)
    return catalogue, request


def first_match(catalogue, listed, spec):
    """The favoured match, or the newest."""
    found = [v for v in listed if spec.matches(v)]
    favoured = [placed.line.version for placed in catalogue if isinstance(placed.line, FavourLine)]
    return next((v for v in found if v in favoured), max(found, key=lambda v: v[1], default=None))


def first_choices(catalogue, request, listed):
    """The least set that holds the first match of each line that binds in it and whose condition holds. None where such a line
    has alternatives, or a package is marked."""
    chosen = []
    if any(isinstance(placed.line, ManyLine) for placed in catalogue):
        return None
    while True:
        for placed in request + catalogue:
            line = placed.line
            if not isinstance(line, NeedsLine) or placed.owner not in [None] + chosen or not holds(line.condition, chosen):
                continue
            if len(line.alternatives) > 1:
                return None
            v = first_match(catalogue, listed, line.alternatives[0])
            if v and v not in chosen:
                chosen.append(v)
                break
        else:
            return chosen


def newest(catalogue, request, listed):
    """Of flat texts the newest version of each needed package that fits each need of it; None of other texts."""
    lines = [placed.line for placed in request]
    if any(not isinstance(placed.line, VersionLine) for placed in catalogue) or any(
        not isinstance(line, NeedsLine) or len(line.alternatives) > 1 or cases(line.condition) != [[]] for line in lines
    ):
        return None
    needs = [line.alternatives[0] for line in lines]
    fits = lambda v: all(s.matches(v) for s in needs if s.package == v.package)
    of = lambda package: [v for v in listed if v.package == package and fits(v)]
    return [max(of(package), key=lambda v: v.number, default=None) for package in {s.package for s in needs}]


def told(report):
    """The lines of an install report: each entry or left-out wish, with whether it is an entry, and whether a wish."""
    lines = []
    for line in report.splitlines()[1:]:
        if line.startswith("step "):
            break
        left = line.startswith("left out ")
        name, number = line.removeprefix("left out ").split()[0].split("=")
        lines.append((Version(name, int(number)), not left, left or " wished line " in line))
    return lines


def has_several(report):
    """Whether an install report has several versions of a package."""
    packages = [v.package for v, entry, _ in told(report) if entry] if report.startswith("install\n") else []
    return len(packages) > len(set(packages))


def first_turn(lines):
    """The entries above the first wish."""
    first = []
    for v, entry, wish in lines:
        if wish:
            break
        first.append(v)
    return first


def check_wishes(lines, sets):
    above = []
    for v, entry, wish in lines:
        if entry:
            above.append(v)
        else:
            holding = next((s for s in sets if v in s and all(w in s for w in above)), None)
            assert holding is None, f"{v} is left out, and {holding} holds it with what is above"


def check(catalogue_text, request_text, status, report):
    prover = Prover(catalogue_text.encode(), request_text.encode())
    catalogue, request, listed = prover.catalogue.placed, prover.request.placed, prover.listed
    sets = list(prover.sets())
    assert status == (0 if sets else 1), f"status {status}, and {len(sets)} sets"
    refused = judge(catalogue_text.encode(), request_text.encode(), report.encode())
    assert refused == 0, f"the plain judge says no at line {refused}"
    if status == 0:
        lines = told(report)
        check_wishes(lines, sets)
        chosen = first_turn(lines)
        first = first_choices(catalogue, request, listed)
        single = first is not None and len({v.package for v in first}) == len(first)
        if single and all(obeys(placed, first) for placed in catalogue + request):
            assert sorted(first) == sorted(chosen), f"first choices are {first}"
        flat = newest(catalogue, [placed for placed in request if not isinstance(placed.line, WishLine)], listed)
        if flat is not None:
            assert sorted(flat) == sorted(chosen), f"the newest are {flat}"


def answer_of(program, pair, folder):
    """The status and the output of the program, or of the plain search."""
    if program == "-":
        catalogue = texts.read_catalogue(pair[0].encode())
        found = plain_report(catalogue, texts.read_request(pair[1].encode(), catalogue))
        return int(isinstance(found, texts.Refused)), texts.report_text(found).decode()
    status, output = ask(program, folder, pair)
    return status, output.decode()


def main():
    given, with_many = [word for word in sys.argv[1:] if word != "--many"], "--many" in sys.argv
    pairs = int(given[0]) if given else 1000
    program = program_of(given, 1, or_none=True)
    rng, counts, forms, several = random.Random(9), {0: 0, 1: 0}, set(), 0
    with tempfile.TemporaryDirectory() as folder:
        for k in range(pairs):
            pair = generated_texts(rng, with_many)
            forms |= forms_of(*pair)
            status, output = answer_of(program, pair, folder)
            try:
                check(*pair, status, output)
            except AssertionError as fault:
                sys.exit(f"pair {k}: {fault}\n--- catalogue\n{pair[0]}--- request\n{pair[1]}--- printed\n{output}")
            counts[status] += 1
            several += has_several(output)
    wanted = FORMS | {"catalogue many"} if with_many else FORMS
    if pairs >= 1000 and forms != wanted:
        sys.exit(f"of these forms no pair has one, or no list has them: {forms ^ wanted}")
    if with_many:
        print(f"{several} reports have several versions of a package")
    print(f"{pairs} pairs: {counts[0]} installed, {counts[1]} refused, each as the plain solver says, and judged yes")


if __name__ == "__main__":
    main()
