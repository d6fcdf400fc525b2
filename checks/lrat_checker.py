#!/usr/bin/env python3
"""A strict checker of LRAT proofs: no search, and no knowledge of packages.

Usage: checks/lrat_checker.py CNF LRAT
Status 0: each line of the proof follows by its hints, and the last one is the empty clause. So the CNF has no model.
Status 1: the first line that doesn't. The form of both files is taken strictly: one clause a line, no deletions.
"""
import re
import sys
from collections import defaultdict
from collections.abc import Iterable
from typing import TextIO

NUMBER = re.compile(r"0|-?[1-9][0-9]*")
HEADER = re.compile(r"p cnf (0|[1-9][0-9]*) (0|[1-9][0-9]*)")
MOST_DIGITS = 4000  # Python reads no number that is much longer


class Refused(Exception):
    """What is wrong with a line of the CNF or of the proof."""


def need(test: bool, what: str) -> None:
    if not test:
        raise Refused(what)


def numbers(line: str) -> list[int]:
    """The numbers of a line that ends with its only newline."""
    need(line.endswith("\n"), "no newline at its end")
    words = line[:-1].split(" ")
    need(all(NUMBER.fullmatch(word) for word in words), "not a line of numbers with one space between them")
    need(all(len(word) <= MOST_DIGITS for word in words), "a number of too many digits")
    return [int(word) for word in words]


def upto_zero(words: list[int]) -> tuple[tuple[int, ...], list[int]]:
    """The numbers before the first 0, and those behind it."""
    need(0 in words, "no 0 at the end")
    end = words.index(0)
    return tuple(words[:end]), words[end + 1:]


class Checker:
    """The clauses so far, by their numbers; each proof line must have its hints in the order of unit propagation."""

    def __init__(self) -> None:
        self.clauses: dict[int, tuple[int, ...]] = {}
        self.numbers_with: defaultdict[int, list[int]] = defaultdict(list)
        self.last = 0

    def add(self, number: int, clause: tuple[int, ...]) -> None:
        self.clauses[number], self.last = clause, number
        for literal in set(clause):
            self.numbers_with[literal].append(number)

    def falsifies(self, true: set[int], hints: list[int]) -> bool:
        """Whether the last hint is a clause with all literals false; each before it must be unit when it is read."""
        for place, hint in enumerate(hints, 1):
            need(hint in self.clauses, f"there is no clause {hint}")
            open_literals = [literal for literal in self.clauses[hint] if -literal not in true]
            if not open_literals:
                need(place == len(hints), f"clause {hint} is false, and hints follow it")
                return True
            need(len(open_literals) == 1 and open_literals[0] not in true, f"clause {hint} is neither unit nor false")
            true.add(open_literals[0])
        return False

    def step(self, words: list[int]) -> None:
        """One proof line: its number, its literals, 0, its hints, 0."""
        number, clause, hints = words[0], *upto_zero(words[1:])
        need(number > self.last, "its number doesn't rise")
        need(hints[-1:] == [0] and hints.count(0) == 1, "no 0 at the end, or one before it")
        true = {-literal for literal in clause}
        need(len({abs(literal) for literal in clause}) == len(clause), "a variable twice in its clause")
        groups = [place for place, hint in enumerate(hints) if hint <= 0]
        if not self.falsifies(true, hints[:groups[0]]):
            need(clause != (), "no clause is false at the end of the hints")
            self.resolve(clause[0], true, [hints[a:b] for a, b in zip(groups, groups[1:])])
        else:
            need(len(groups) == 1, "hints behind the false clause")
        self.add(number, clause)

    def resolve(self, pivot: int, true: set[int], groups: list[list[int]]) -> None:
        """RAT: a group of hints for each clause with the pivot's opposite, and no other; each refutes the resolvent."""
        named = sorted(-group[0] for group in groups)
        need(named == self.numbers_with[-pivot], "neither RUP nor RAT: other clauses have the pivot's opposite")
        for group in groups:
            number, hints = -group[0], group[1:]
            others = [literal for literal in self.clauses[number] if literal != -pivot]
            if any(literal in true for literal in others):
                need(hints == [], "hints for a resolvent that is always true")
            else:
                refuted = self.falsifies(true | {-literal for literal in others}, hints)
                need(refuted, f"the resolvent with clause {number} isn't refuted")


def read_formula(lines: Iterable[str], checker: Checker) -> None:
    """Comments, the header, then the number of clauses that it gives, over its number of variables."""
    variables = count = None
    for place, line in enumerate(lines, 1):
        try:
            if variables is None and (line == "c\n" or line.startswith("c ")):
                continue
            if variables is None:
                header = HEADER.fullmatch(line.removesuffix("\n"))
                need(header is not None, "neither a comment nor a header")
                need(len(line) <= MOST_DIGITS, "a header that is too long")
                variables, count = int(header[1]), int(header[2])
                continue
            clause, behind = upto_zero(numbers(line))
            need(behind == [], "numbers behind the 0")
            need(all(abs(literal) <= variables for literal in clause), "a variable that the header doesn't have")
            checker.add(checker.last + 1, clause)
        except Refused as fault:
            raise Refused(f"line {place} of the CNF: {fault}") from None
    need(count == len(checker.clauses), "the CNF has another number of clauses than its header says")


def check(formula: Iterable[str], proof: Iterable[str]) -> int:
    """How many lines the proof has, if it shows that the formula has no model; else Refused."""
    checker, place, words = Checker(), 0, [0, 1]
    read_formula(formula, checker)
    for place, line in enumerate(proof, 1):
        try:
            words = numbers(line)
            checker.step(words)
        except Refused as fault:
            raise Refused(f"line {place} of the proof: {fault}") from None
    need(words[1] == 0, "the proof doesn't end with the empty clause")
    return place


def opened(path: str) -> TextIO:
    """A file as lines; a comment may have any bytes."""
    return open(path, encoding="ascii", errors="surrogateescape", newline="\n")


def main() -> None:
    if len(sys.argv) != 3:
        sys.exit(f"usage: {sys.argv[0]} CNF LRAT")
    try:
        with opened(sys.argv[1]) as formula, opened(sys.argv[2]) as proof:
            print(f"verified: {check(formula, proof)} lines")
    except Refused as fault:
        sys.exit(f"refused: {fault}")
    except OSError as error:
        sys.exit(f"refused: {error.filename}: {error.strerror}")


if __name__ == "__main__":
    main()
