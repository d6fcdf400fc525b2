"""A bit of a package whose versions a ladder keeps apart: its clauses take lines in their number, not in its square.

Link k is true where a version up to the k-th that has the bit is in the set; the last link is the bit. Lemmas join the
links to the rungs of the ladder. Then a few hints show of one version that the bit is true, or false, beside it.
"""
from __future__ import annotations

from typing import Callable, Iterable, Optional

from tools.cnf import Ladder
from tools.proof import Proof

Derive = Callable[[Iterable[int], Iterable[Optional[int]]], Optional[int]]


class LadderBit:
    """The links of a bit with their lemmas, by place in the ladder. What isn't there is 0; some member has the bit."""

    def __init__(self, proof: Proof, ladder: Ladder, members: set[int], derive: Derive) -> None:
        self.ladder, self.derive = ladder, derive
        self.links: list[int] = []
        self.meanings: list[int] = []  # of members: not the link, or the version, or the link below
        self.joins: list[int] = []  # of members: the link, or not the version
        self.passes: list[int] = []  # of members: the link, or not the link below
        below = 0
        for version in ladder.order:
            meaning = join = go_on = 0
            if version in members:
                helper = proof.define([version, below] if below else [version])
                join, go_on, meaning = helper.if_member[version], helper.if_member.get(below, 0), helper.some_member
                below = helper.variable
            self.links.append(below)
            self.meanings.append(meaning)
            self.joins.append(join)
            self.passes.append(go_on)
        self.variable = below
        self.places = {version: k for k, version in enumerate(ladder.order)}
        self.under, self.over, self.reach = self.lemmas_under(), self.lemmas_over(), self.lemmas_reach()

    def lemmas_under(self) -> list[Optional[int]]:
        """Not link k, or rung k."""
        found: list[Optional[int]] = []
        for k, rung in enumerate(self.ladder.rungs):
            climb = self.ladder.climb[k] if self.meanings[k] else 0
            causes = [climb, self.meanings[k], found[k - 1] if k else 0, self.ladder.go_on[k]]
            found.append(self.derive([-self.links[k], rung], causes) if self.links[k] else 0)
        return found

    def lemmas_over(self) -> list[Optional[int]]:
        """Not rung k, or link k, or not the bit."""
        found: list[Optional[int]] = [0] * len(self.links)
        for k in reversed(range(len(self.ladder.rungs))):
            bar = self.ladder.bar[k + 1] if self.meanings[k + 1] else 0
            link = [self.links[k]] if self.links[k] else []
            causes = [bar, self.meanings[k + 1], self.ladder.go_on[k + 1], found[k + 1]]
            if self.links[k] != self.variable:
                found[k] = self.derive([-self.ladder.rungs[k], *link, -self.variable], causes)
        return found

    def lemmas_reach(self) -> list[Optional[int]]:
        """Of members: not link k, or the bit."""
        found: list[Optional[int]] = [0] * len(self.links)
        above = len(self.links)
        for k in reversed(range(len(self.links))):
            if self.meanings[k]:
                if self.links[k] != self.variable:
                    found[k] = self.derive([-self.links[k], self.variable], [self.passes[above], found[above]])
                above = k
        return found

    def digit(self, version: int, one: int) -> Optional[int]:
        """The clause that the version has the bit, or that it hasn't."""
        k, ladder = self.places[version], self.ladder
        if one:
            return self.derive([-version, self.variable], [self.joins[k], self.reach[k]])
        causes = [ladder.climb[k], ladder.bar[k], self.under[k - 1] if k else 0, self.over[k]]
        return self.derive([-version, -self.variable], causes)
