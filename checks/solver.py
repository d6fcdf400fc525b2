#!/usr/bin/env python3
"""Compares what the program writes with the answers of the library's solver: its chosen versions, turns and proof.

Usage: checks/solver.py [PAIRS] [PATH OF THE PROGRAM] [RT]
Defaults: 1000 pairs of generated texts (checks/solving.py), crates/resolve/out/resolve, `rt`.
`rt try` builds checks/solver/main.rt.txt without proofs in a copy of the repository. It makes a provider with all dependencies at hand
and leaves barred wishes out. The program's report must follow from these answers. It has the verdict, and the chosen versions,
turn by turn, each where the first line asks for it. A refused turn has its step. The steps to which these, or the last step, lead
back are in their order and renumbered, each with the same clause and the same causes. A wish that is barred has a step of its
own.
"""
import os
import random
import subprocess
import sys
import tempfile

from base import CHECKS, ask, program_of
from calls import copy_with
from plain_judge import court_of, holds
from plain_rules import Facts
from solving import generated_texts
from tools import texts
from tools.texts import Literal, NeedsLine, Version, WishLine

LIBRARIES = "resolvo_pool_core resolvo_pool resolvo_proof resolvo_state resolvo resolvo_catalogue_core resolvo_catalogue"


# ---- the library's answers


def answers_of(rt, pairs, folder):
    """What the library's calls answer to each pair: lists of lines, whose words are parted by tabs."""
    crate = copy_with(folder, "solver", os.path.join(CHECKS, "solver"), LIBRARIES)
    asked = os.path.join(crate, "pairs")
    with open(asked, "w") as file:
        file.write("".join(f"== pair\n{catalogue}== request\n{request}" for catalogue, request in pairs))
    ended = subprocess.run([rt, "try", "--seconds", "600", "--steps", "100000000000", "--data", f"pairs={asked}"], cwd=crate, capture_output=True, text=True)
    parts = ended.stdout.split("== pair\n")[1:]
    if len(parts) != len(pairs):
        sys.exit(f"{len(parts)} answers came: {ended.stdout[-500:]}{ended.stderr[-2000:]}")
    return [[line.split("\t") for line in part.splitlines() if not line.startswith(("run=", "checked"))] for part in parts]


def version_of(text):
    name, number = text.split(" ")
    return Version(name, int(number))


def specs_of(text):
    """Alternatives as a message writes them: any version is `*`."""
    line = "needs " + " | ".join(part.removesuffix(" *") for part in text.split(" | "))
    return texts.read_request((line + "\n").encode(), texts.read_catalogue(b"")).lines[0].alternatives


def spec_of(text):
    return specs_of(text)[0]


def atom_of(text):
    word, _, rest = text.partition(" ")
    if word == "any" and " " not in rest and not rest.isdigit():
        return texts.AnyAtom(rest)
    if word == "shared":
        return texts.SharedAtom(specs_of(rest))
    if word == "outside":
        return texts.OutsideAtom(spec_of(rest))
    if word == "matches":
        return texts.MatchesAtom(spec_of(rest))
    if word == "bit" and " of " in rest:
        bit, name = rest.split(" of ")
        return texts.BitAtom(int(bit), name)
    return version_of(text)


def literal_of(text):
    return Literal(atom_of(text.removeprefix("not ")), not text.startswith("not "))


def parent_of(text):
    return [] if text == "request" else [Literal(version_of(text), False)]


def clause_of(words, catalogue):
    """The clause of a step, as a set of literals."""
    kind, *rest = words
    listed = catalogue.listed
    matches = lambda specs: [Literal(v, True) for s in specs for v in listed if s.matches(v)]
    if kind == "need":
        owner, case, specs = rest
        clause = parent_of(owner) + matches(specs_of(specs))
        for spec in map(spec_of, case.split("&")[1:]):
            if spec.package in catalogue.many:
                clause.append(Literal(texts.MatchesAtom(spec), False))
                continue
            clause.append(Literal(texts.AnyAtom(spec.package), False))
            clause += [Literal(v, True) for v in listed if v.package == spec.package and not spec.matches(v)]
    elif kind == "gate":
        clause = parent_of(rest[0]) + [Literal(texts.SharedAtom(specs_of(rest[1])), True)]
    elif kind == "shared":
        clause = [Literal(texts.SharedAtom(specs_of(rest[0])), False)] + matches(specs_of(rest[0]))
    elif kind == "bar":
        clause = parent_of(rest[0]) + [Literal(version_of(rest[1]), False)]
    elif kind == "limit":
        clause = parent_of(rest[0]) + [Literal(texts.OutsideAtom(spec_of(rest[1])), False)]
    elif kind == "outside":
        clause = [Literal(version_of(rest[1]), False), Literal(texts.OutsideAtom(spec_of(rest[0])), True)]
    elif kind == "matches":
        clause = [Literal(version_of(rest[1]), False), Literal(texts.MatchesAtom(spec_of(rest[0])), True)]
    elif kind in ("locked", "excluded"):
        clause = [Literal(version_of(rest[0]), False)]
    elif kind == "digit":
        v, place, bit = version_of(rest[0]), int(rest[1]), int(rest[2])
        clause = [Literal(v, False), Literal(texts.BitAtom(bit, v.package), bool(place >> bit & 1))]
    elif kind == "any":
        v = version_of(rest[0])
        clause = [Literal(v, False), Literal(texts.AnyAtom(v.package), True)]
    else:
        clause = [literal_of(text) for text in rest[0].split("&")[1:]]
    return frozenset(clause)


class Answer:
    """What the library's solver answered to a pair."""

    def __init__(self, lines, catalogue):
        self.verdict = lines[0][0]
        self.chosen = [version_of(words[1]) for words in lines if words[0] == "chosen"]
        self.turns = [words[1:] for words in lines if words[0] == "turn"]
        steps = [words for words in lines[1:] if words[0] not in ("chosen", "turn")]
        self.steps = [(clause_of(words, catalogue), [int(n) for n in words[2].split()] if words[0] == "derived" else None) for words in steps]

    def trimmed(self, wanted):
        """The steps to which these lead back, in order, with their causes as numbers from 1; and the number of each by its place."""
        keep, stack = set(), list(wanted)
        while stack:
            place = stack.pop()
            if place not in keep:
                keep.add(place)
                stack += self.steps[place][1] or []
        number = {place: k for k, place in enumerate(sorted(keep), 1)}
        steps = [(clause, causes and [number[n] for n in causes]) for clause, causes in (self.steps[place] for place in sorted(keep))]
        return steps, number


# ---- what the report must be


def listed_turns(court, turns):
    """The entries of turns, each with the line that asks for it. A turn is its wish, if it is accepted, and what is chosen by its end."""
    entries = []
    for wish, wish_line, chosen in turns:
        if wish is not None and wish not in [entry[0] for entry in entries]:
            entries.append((wish, "wished", wish_line))
        while True:
            entry = first_entry(court, entries, chosen)
            if entry is None:
                break
            entries.append(entry)
    return entries


def first_entry(court, entries, chosen):
    """The first line that has chosen matches that aren't listed gives the first of them: lines of the request, then those of the
    entries in their order; in a line the alternatives, each one's matches sorted."""
    there = [entry[0] for entry in entries]
    lines = [(None, n, placed) for n, placed in enumerate(court.request.placed, 1)]
    for owner in there:
        lines += [(owner, n, placed) for n, placed in enumerate(court.catalogue.placed, 1) if placed.owner == owner]
    for owner, n, placed in lines:
        if not isinstance(placed.line, NeedsLine) or not holds(placed.line.condition, there):
            continue
        for match in Facts(court.catalogue, court.request).sorted(placed.line.alternatives):
            if match in chosen and match not in there:
                return match, owner, n
    return None


def wished_turns(court, answer, barred):
    """Each turn as its accepted wish, the wish's line, and what is chosen by its end; and the refused wishes with their steps."""
    end = answer.turns[0][1] if answer.turns else len(answer.chosen)
    turns, refused, free = [(None, None, answer.chosen[:int(end)])], {}, iter(answer.turns)
    for n, placed in enumerate(court.request.placed, 1):
        if not isinstance(placed.line, WishLine) or placed.line.version in barred:
            continue
        wish, _, end, accepted, step = next(free)
        assert version_of(wish) == placed.line.version, f"the turn of {wish} is that of {placed.line.version}"
        if accepted == "true":
            turns.append((placed.line.version, n, answer.chosen[:int(end)]))
        else:
            refused[placed.line.version] = int(step.removeprefix("Some(").removesuffix(")"))
    return turns, refused


def barred_wishes(court):
    barred = set()
    for placed in court.catalogue.placed:
        if isinstance(placed.line, texts.ExcludeLine):
            barred.add(placed.line.version)
        if isinstance(placed.line, texts.LockLine):
            barred |= {v for v in court.catalogue.listed if v.package == placed.line.version.package and v != placed.line.version}
    return barred


def report_steps(court, report):
    """The steps of a report: clause and causes."""
    for step in report.steps:
        court.add_step(step)
    return [(frozenset(clause), list(step.causes) if isinstance(step, texts.DeriveStep) else None) for clause, step in zip(court.clauses, report.steps)]


def compare(pair, answer_lines, output):
    catalogue, request = (text.encode() for text in pair)
    court = court_of(catalogue, request)
    answer = Answer(answer_lines, court.catalogue)
    report = texts.read_report(output)
    verdict = "refused" if isinstance(report, texts.Refused) else "install"
    assert answer.verdict == verdict, f"the solver says {answer.verdict}, the program {verdict}"
    court.uses = lambda text, n: None
    found = report_steps(court, report)
    if verdict == "refused":
        steps, _ = answer.trimmed([len(answer.steps) - 1])
        assert found == steps, "the steps are others than the solver's, trimmed"
        return
    barred = barred_wishes(court)
    turns, refused = wished_turns(court, answer, barred)
    steps, number = answer.trimmed(refused.values())
    entries = [(entry.version, getattr(entry, "place", "wished"), entry.line) for entry in report.entries]
    assert entries == listed_turns(court, turns), "the entries are others than the solver's turns, listed"
    own = [k for k, (clause, causes) in enumerate(found, 1) if causes is None and any(clause == {Literal(v, False)} for v in barred)]
    left = {line.version: line.step for line in report.answers if isinstance(line, texts.LeftOut)}
    mine = {left[v] for v in left if v in barred}
    assert mine <= set(own), "a barred wish has a step of another kind"
    rest = [k for k in range(1, len(found) + 1) if k not in mine]
    if len(rest) < len(steps):                      # a step that the solver's proof has too
        rest = list(range(1, len(found) + 1))
    renumbered = {k: at for at, k in enumerate(rest, 1)}
    kept = [(found[k - 1][0], found[k - 1][1] and [renumbered[n] for n in found[k - 1][1]]) for k in rest]
    assert kept == steps, "the steps are others than the solver's, trimmed"
    for v, place in refused.items():
        assert renumbered.get(left.get(v)) == number[place], f"{v} is left out by another step than the solver's"
    assert set(left) == set(refused) | {line.version for line in court.request.lines if isinstance(line, WishLine)} & barred - {e[0] for e in entries}


def main():
    count = int(sys.argv[1]) if len(sys.argv) > 1 else 1000
    program = program_of(sys.argv, 2)
    rt = sys.argv[3] if len(sys.argv) > 3 else "rt"
    rng = random.Random(14)
    pairs = [generated_texts(rng) for _ in range(count)]
    counts = {"install": 0, "refused": 0}
    with tempfile.TemporaryDirectory() as folder:
        answers = answers_of(rt, pairs, os.path.join(folder, "copy"))
        for k, (pair, lines) in enumerate(zip(pairs, answers)):
            output = ask(program, folder, pair)[1]
            try:
                compare(pair, lines, output)
            except AssertionError as fault:
                answer = "\n".join("\t".join(words) for words in lines)
                sys.exit(f"pair {k}: {fault}\n--- catalogue\n{pair[0]}--- request\n{pair[1]}--- printed\n{output.decode()}--- answered\n{answer}")
            counts[lines[0][0]] += 1
    print(f"{count} pairs: {counts['install']} installed, {counts['refused']} refused, each as the solver answers")


if __name__ == "__main__":
    main()
