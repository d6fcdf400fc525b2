"""The lines of a proof: clauses that follow from those before them, as DRAT and as LRAT.

`define` brings a helper in, `replay` finds the hints of a clause by one pass over its causes. Nothing is searched for.
"""
from __future__ import annotations

from typing import Iterable, NamedTuple

from tools.cnf import Clause, Cnf


class Helper(NamedTuple):
    """A variable that the proof defines as `some of these versions`."""

    variable: int
    if_member: dict[int, int]  # by the version's variable: the clause `helper or not version`
    some_member: int  # the clause `not helper or some version`


class ProofLine(NamedTuple):
    """A clause that follows from those before it by its hints."""

    number: int
    clause: Clause
    hints: list[int]


class Proof:
    """The lines behind a CNF's clauses."""

    def __init__(self, cnf: Cnf) -> None:
        self.clauses: list[Clause] = [(), *cnf.clauses]
        self.lines: list[ProofLine] = []
        self.variables = len(cnf.names)

    def add(self, clause: Clause, hints: list[int]) -> int:
        """The number of a new line."""
        number = len(self.clauses)
        self.clauses.append(clause)
        self.lines.append(ProofLine(number, clause, hints))
        return number

    def define(self, members: list[int]) -> Helper:
        """A new variable that is true exactly where a member is: each clause is RAT on it."""
        self.variables += 1
        helper = self.variables
        if_member = {member: self.add((helper, -member), []) for member in members}
        return Helper(helper, if_member, self.add((-helper, *members), [-number for number in if_member.values()]))

    def replay(self, clause: Clause, causes: Iterable[int]) -> tuple[list[int], bool]:
        """One pass over the causes with the clause denied: those that are unit when read, up to the first false one.

        The second value says whether there is a false one.
        """
        true, hints = {-literal for literal in clause}, []
        for cause in causes:
            unit = None
            for literal in self.clauses[cause]:
                if -literal in true:
                    continue
                if literal in true or unit is not None:
                    break
                unit = literal
            else:
                hints.append(cause)
                if unit is None:
                    return hints, True
                true.add(unit)
        return hints, False

    def drat(self) -> str:
        """The clauses alone."""
        return "".join(f"{' '.join(map(str, (*line.clause, 0)))}\n" for line in self.lines)

    def lrat(self) -> str:
        """Numbers, clauses and hints."""
        return "".join(f"{' '.join(map(str, (line.number, *line.clause, 0, *line.hints, 0)))}\n" for line in self.lines)
