#!/usr/bin/env python3
"""The report of what plain_search.py found, line by line as docs/FORMATS.md has it; plain and slow.

`report(catalogue, request, options)` takes two texts as values and returns a value of tools/texts.py.
Usage: checks/plain_report.py CATALOGUE REQUEST     prints the report, or the first fault, with the status of `resolve solve`
"""
from __future__ import annotations

import sys
from typing import Iterable, Iterator, Optional, Union

from plain_judge import holds
from plain_message import message
from plain_rules import ROOT, Clause, Digit, Excluded, Facts, Gate, Limit, Locked, Matches, Need, Options, Outside, Rule
from plain_rules import Shared, There
from plain_search import Outcome, Turns
from tools import texts
from tools.texts import Catalogue, DeriveStep, Install, Placed, Refused, Report, Request, Step, Version, cases

Numbered = tuple[list[Step], dict[Clause, int]]


class Writer:
    """Finds lines for rules, and numbers for clauses."""

    def __init__(self, catalogue: Catalogue, request: Request, options: Options) -> None:
        self.catalogue, self.request, self.options = catalogue, request, options
        self.facts = Facts(catalogue, request)

    # -- lines of rules

    def lines(self, parent: Optional[Version], kind: type) -> Iterator[Placed]:
        """The lines of a parent of one kind."""
        text = self.request if parent is None else self.catalogue
        return (placed for placed in text.placed if placed.owner == parent and isinstance(placed.line, kind))

    def need_step(self, rule: Need) -> texts.NeedStep:
        """The first line that states the need, and its least case."""
        for placed in self.lines(rule.parent, texts.NeedsLine):
            found = [tuple(case) for case in cases(placed.line.condition)]
            if placed.line.alternatives == rule.alternatives and rule.case in found:
                return texts.NeedStep(rule.parent, placed.number, found.index(rule.case) + 1)
        raise AssertionError(rule)

    def gate_step(self, rule: Gate) -> texts.GateStep:
        """The first line without a condition that states the need."""
        return next(texts.GateStep(rule.parent, placed.number) for placed in self.lines(rule.parent, texts.NeedsLine)
                    if placed.line.alternatives == rule.alternatives and placed.line.condition is None)

    def limit_step(self, rule: Limit) -> Step:
        """The first line that states the limit."""
        number = next(placed.number for placed in self.lines(rule.parent, texts.LimitsLine)
                      if placed.line.spec == rule.spec)
        if rule.barred is None:
            return texts.LimitStep(rule.parent, number)
        return texts.BarStep(rule.parent, number, rule.barred)

    def lock_step(self, barred: Version) -> Optional[texts.LockStep]:
        """The lock that bars a version."""
        return next((texts.LockStep(placed.number, barred) for placed in self.catalogue.placed
                     if isinstance(placed.line, texts.LockLine) and placed.line.version.package == barred.package
                     and placed.line.version != barred), None)

    def bar_step(self, version: Version, word: Optional[str]) -> Step:
        """The first line that bars the version for this word, or its exclusion where no word is given."""
        found: list[Step] = []
        for placed in self.catalogue.placed:
            line = placed.line
            if isinstance(line, texts.ExcludeLine) and line.version == version and word in (None, line.reason):
                found.append(texts.ExcludeStep(placed.number))
            if isinstance(line, texts.UnknownLine) and placed.owner == version and line.reason == word:
                found.append(texts.UnknownStep(placed.number))
        return found[0]

    def step(self, rule: Rule) -> Step:
        """The step of a rule."""
        if isinstance(rule, Need):
            return self.need_step(rule)
        if isinstance(rule, Gate):
            return self.gate_step(rule)
        if isinstance(rule, Limit):
            return self.limit_step(rule)
        if isinstance(rule, Locked):
            return self.lock_step(rule.barred)
        if isinstance(rule, Excluded):
            return self.bar_step(rule.version, rule.word)
        if isinstance(rule, Shared):
            return texts.SharedStep(rule.alternatives)
        if isinstance(rule, Outside):
            return texts.OutsideStep(rule.spec, rule.version)
        if isinstance(rule, Digit):
            return texts.DigitStep(rule.version, rule.place, rule.bit)
        if isinstance(rule, Matches):
            return texts.MatchesStep(rule.spec, rule.version)
        assert isinstance(rule, There)
        return texts.AnyStep(rule.version)

    # -- steps

    def steps(self, outcome: Outcome, wanted: Iterable[Clause]) -> Numbered:
        """The clauses that lead to these, in the order in which they were added, as steps with their numbers."""
        leading, waiting = set(), list(wanted)
        while waiting:
            clause = waiting.pop()
            if clause not in leading:
                leading.add(clause)
                waiting += clause.causes
        steps: list[Step] = []
        number: dict[Clause, int] = {}
        for clause in outcome.solver.clauses:
            if clause in leading:
                steps.append(self.step(clause.rule) if clause.rule else derive_step(clause.literals, clause.causes, number))
                number[clause] = len(steps)
        return steps, number

    def refused(self, outcome: Outcome) -> Refused:
        """The steps to the empty clause, the lines that they name, and the message."""
        steps, number = self.steps(outcome, outcome.conflict)
        steps.append(derive_step([], outcome.conflict, number))
        named: dict[bool, set[int]] = {True: set(), False: set()}
        for step in steps:
            if hasattr(step, "line"):
                named[getattr(step, "place", step) is None].add(step.line)
        lines = message(self.facts, outcome.conflict, outcome.solver)
        return Refused(tuple(sorted(named[False])), tuple(sorted(named[True])), tuple(steps), tuple(lines))

    # -- entries

    def installed(self, outcome: Outcome) -> Install:
        """Turn by turn the accepted wish and what follows from it, or the wish that was left out, with its step."""
        steps, number = self.steps(outcome, [turn.refused_by for turn in outcome.turns if turn.refused_by])
        turns = {turn.wish: turn for turn in outcome.turns}
        answers: list[texts.Answer] = []
        self.list_turn(answers, turns[None].chosen)
        for placed in self.request.placed:
            if not isinstance(placed.line, texts.WishLine):
                continue
            wish = placed.line.version
            if self.facts.is_barred(wish):
                steps.append(self.lock_step(wish) or self.bar_step(wish, None))
                answers.append(texts.LeftOut(wish, placed.number, len(steps)))
            elif turns[wish].refused_by:
                answers.append(texts.LeftOut(wish, placed.number, number[turns[wish].refused_by]))
            else:
                if wish not in entries_of(answers):
                    answers.append(texts.WishedEntry(wish, placed.number))
                self.list_turn(answers, turns[wish].chosen)
        return Install(tuple(answers), tuple(steps))

    def list_turn(self, answers: list[texts.Answer], chosen: tuple[Version, ...]) -> None:
        """Again and again the first line with unlisted matches, whose condition holds, gives the first of them."""
        while True:
            entry = self.next_entry(entries_of(answers), chosen)
            if entry is None:
                return
            answers.append(entry)

    def next_entry(self, entries: list[Version], chosen: tuple[Version, ...]) -> Optional[texts.Entry]:
        """Lines of the request first, then those of the entries in their order; in a line the alternatives, each one's matches
        sorted."""
        for place in (None, *entries):
            for placed in self.lines(place, texts.NeedsLine):
                if holds(placed.line.condition, entries):
                    for version in self.facts.sorted(placed.line.alternatives):
                        if version in chosen and version not in entries:
                            return texts.Entry(version, place, placed.number)
        return None


def entries_of(answers: list[texts.Answer]) -> list[Version]:
    """The versions that are entries."""
    return [answer.version for answer in answers if not isinstance(answer, texts.LeftOut)]


def derive_step(literals: list[texts.Literal], causes: list[Clause], number: dict[Clause, int]) -> DeriveStep:
    """The literals in byte order of their texts, without the root's; the causes so that one pass refutes."""
    kept = [literal for literal in literals if literal.atom != ROOT]
    return DeriveStep(tuple(sorted(kept, key=texts.literal_text)), tuple(number[clause] for clause in reversed(causes)))


def report(catalogue: Catalogue, request: Request, options: Options = Options()) -> Union[Report, Install, Refused]:
    """The report of two texts."""
    writer = Writer(catalogue, request, options)
    outcome = Turns(writer.facts, options).run()
    return writer.refused(outcome) if outcome.conflict is not None else writer.installed(outcome)


def solved(catalogue_path: str, request_path: str) -> Union[Report, Install, Refused]:
    """The report of the texts of two files."""
    with open(catalogue_path, "rb") as first, open(request_path, "rb") as second:
        catalogue = texts.read_catalogue(first.read())
        return report(catalogue, texts.read_request(second.read(), catalogue))


def main() -> int:
    """Prints the report of two files."""
    if len(sys.argv) != 3:
        print(__doc__)
        return 2
    try:
        found = solved(*sys.argv[1:])
    except texts.Fault as fault:
        print(f"fault at {fault}")
        return 2
    except OSError as error:
        print(f"cannot read {error.filename}: {error.strerror}")
        return 2
    sys.stdout.buffer.write(texts.report_text(found))
    return 1 if isinstance(found, Refused) else 0


if __name__ == "__main__":
    sys.exit(main())
