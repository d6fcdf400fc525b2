#!/usr/bin/env python3
"""Exports refusals as CNF with proofs, and has them verified by checkers that know nothing of packages.

Usage: checks/second.py [REFUSALS] [PATH OF THE PROGRAM] [--many]
Defaults: 200 generated refusals, crates/resolve/out/resolve (which `rt run` leaves); `-` for no program. With `--many` packages of
the generated texts are marked `many`.
Each export must be verified by checks/lrat_checker.py, and by drat-trim and lrat-check where the variables DRAT_TRIM
and LRAT_CHECK name them. minisat, where it is installed, must find no model of the CNF. The clauses are compared with the plain
judge's reading of lines. Faults are planted in the exporter, and the checkers must see them.
"""
from __future__ import annotations

import os
import random
import shutil
import subprocess
import sys
import tempfile
from collections import Counter
from dataclasses import dataclass, field
from functools import partial
from pathlib import Path
from typing import Callable, Iterable, Iterator, Optional

from base import EXAMPLES, TOP, ask, program_of
from judging import Prover, some_texts
from lrat_checker import Refused, check
from plain_judge import obeys
from tools.cnf import Cnf, Ladder, clean
from tools.lrat import Export, export
from tools.texts import Atom, BitAtom, Catalogue, Install, LeftOut, Report, Request, Step, Version
from tools.texts import read_catalogue, read_report, read_request

sys.path.append(os.path.join(TOP, "bench"))
from problem import Problem, any_of  # noqa: E402
from shapes import pairs, pigeons, refused_chain  # noqa: E402

FAULTS = ("a lost clause", "a turned sign", "another bit")


@dataclass(frozen=True)
class Texts:
    """A report over its two texts, with a name for messages."""

    name: str
    catalogue: Catalogue
    request: Request
    report: Report

    def claims(self) -> list[Optional[int]]:
        """The lines of left-out wishes, or None for a refusal as a whole."""
        if isinstance(self.report, Install):
            return [answer.line for answer in self.report.answers if isinstance(answer, LeftOut)]
        return [None]


def read_texts(name: str, catalogue: bytes, request: bytes, report: bytes) -> Texts:
    """The three texts as values."""
    first = read_catalogue(catalogue)
    return Texts(name, first, read_request(request, first), read_report(report))


# ---- checkers


class Checkers:
    """The strict checker, and those that are installed; each export goes to them as files."""

    def __init__(self, folder: Path) -> None:
        self.paths = [folder / f"refusal.{suffix}" for suffix in ("cnf", "drat", "lrat")]
        self.drat_trim, self.lrat_check = os.environ.get("DRAT_TRIM"), os.environ.get("LRAT_CHECK")
        self.minisat = shutil.which("minisat")

    def names(self) -> str:
        """Which checkers are there."""
        others = {"drat-trim": self.drat_trim, "lrat-check": self.lrat_check, "minisat": self.minisat}
        return ", ".join(["the strict checker", *(name for name, there in others.items() if there)])

    def write(self, made: Export) -> None:
        """The exporter's files."""
        for path, text in zip(self.paths, (made.cnf.text(), made.proof.drat(), made.proof.lrat())):
            path.write_text(text)

    def strict(self) -> str:
        """What the strict checker has against the proof; nothing where it is verified."""
        try:
            with open(self.paths[0], newline="\n") as formula, open(self.paths[2], newline="\n") as proof:
                check(formula, proof)
        except Refused as fault:
            return str(fault)
        return ""

    def trimmed(self) -> str:
        """What drat-trim has against the DRAT proof."""
        return self.peer(self.drat_trim, self.paths[1], "s VERIFIED")

    def assured(self) -> str:
        """What lrat-check has against the LRAT proof."""
        return self.peer(self.lrat_check, self.paths[2], "c VERIFIED")

    def peer(self, program: Optional[str], proof: Path, verified: str) -> str:
        """The output of a program on a proof; empty where it verifies the proof or isn't installed."""
        if not program:
            return ""
        run = subprocess.run([program, self.paths[0], proof], capture_output=True, text=True)
        return "" if verified in run.stdout.splitlines() else f"{program}: {run.stdout[-300:]}"

    def model(self) -> str:
        """That minisat finds a model, if it does."""
        if not self.minisat:
            return ""
        run = subprocess.run([self.minisat, "-verb=0", self.paths[0]], capture_output=True, text=True)
        return "" if run.returncode == 20 else f"minisat ends with {run.returncode}, a model being 10"


@dataclass
class Seen:
    """What was exported and verified."""

    refusals: int = 0
    wishes: int = 0
    lines: int = 0
    kinds: Counter[str] = field(default_factory=Counter)

    def verify(self, texts: Texts, checkers: Checkers, kind: type[Export]) -> None:
        """Each claim of a report, by each checker."""
        for wish in texts.claims():
            made = export(texts.catalogue, texts.request, texts.report, wish, kind)
            checkers.write(made)
            wrong = checkers.strict() or checkers.trimmed() or checkers.assured() or checkers.model()
            if wrong:
                sys.exit(f"{texts.name}, wish {wish}: {wrong}")
            self.refusals += wish is None
            self.wishes += wish is not None
            self.lines += len(made.proof.lines)
            self.kinds.update(kind_of(texts.report.steps[number - 1]) for number in made.numbers)


def kind_of(step: Step) -> str:
    """The kind of a step in a word; `bar` is a limit that bars a version."""
    return type(step).__name__.removesuffix("Step").lower()


# ---- sources of reports


def examples() -> Iterator[Texts]:
    """Those of examples/."""
    folder = Path(TOP) / "examples"
    for catalogue, name in EXAMPLES:
        paths = (folder / f"{catalogue}.catalogue", folder / f"{name}.request", folder / f"{name}.report")
        yield read_texts(f"examples/{name}", *(path.read_bytes() for path in paths))


def solved(program: str, folder: Path, texts: tuple[bytes, bytes]) -> bytes:
    """The program's report."""
    return ask(program, folder, texts)[1]


def generated(count: int, prover: Callable[[tuple[bytes, bytes]], bytes]) -> Iterator[Texts]:
    """Reports over generated texts until as many are refused."""
    rng, pair = random.Random(17), 0
    while count:
        texts = tuple(text.encode() for text in some_texts(rng, with_many="--many" in sys.argv))
        pair += 1
        made = read_texts(f"generated pair {pair}", *texts, prover(texts))
        count -= not isinstance(made.report, Install)
        yield made


def plain_report(rng: random.Random, texts: tuple[bytes, bytes]) -> bytes:
    """The plain prover's report."""
    prover = Prover(*texts)
    sets = list(prover.sets())
    return (prover.install(rng, sets) if sets else prover.refuse(rng)).encode()


def plain_refusal(rng: random.Random, texts: tuple[bytes, bytes]) -> bytes:
    """The plain prover's report of texts that are known to be refused."""
    return Prover(*texts).refuse(rng).encode()


def halves(versions: int) -> Problem:
    """A package that two others need, the one its older half, the other its newer."""
    problem, half = Problem(), versions // 2
    for number in range(versions):
        problem.version("x", number)
    problem.version("old", 1, [("x", 0, half)])
    problem.version("new", 1, [("x", half, versions)])
    problem.ask(any_of("old"))
    problem.ask(any_of("new"))
    return problem


def limits(versions: int) -> Problem:
    """A package that another one limits to its older half, where the newer one is needed."""
    problem, half = Problem(), versions // 2
    for number in range(versions):
        problem.version("c", number)
    problem.version("p", 1, limits=[("c", 0, half)])
    problem.ask(any_of("p"))
    problem.ask(("c", half, versions))
    return problem


SMALL = {"chain": (30,), "pairs": (15,), "pigeons": (2, 3), "halves": (4,)}  # for the plain prover: it writes two bits
LARGE = {
    "chain": (10, 1000), "pairs": (10, 500), "pigeons": (2, 4, 6, 8), "halves": (10, 64, 66, 300), "limits": (20, 300)
}
FAMILIES: dict[str, Callable[[int], Problem]] = {
    "chain": partial(refused_chain, _seed=1), "pairs": partial(pairs(first_needs_too=True), _seed=1), "pigeons": partial(pigeons, _seed=1),
    "halves": halves, "limits": limits,
}


def families(sizes: dict[str, tuple[int, ...]], prover: Callable[[tuple[bytes, bytes]], bytes]) -> Iterator[Texts]:
    """Refused problems of these sizes."""
    for family, of_family in sizes.items():
        for size in of_family:
            problem = FAMILIES[family](size)
            texts = problem.catalogue().encode(), problem.request().encode()
            yield read_texts(f"{family} of {size}", *texts, prover(texts))


# ---- what the clauses mean


class LadderExport(Export):
    """An exporter that states at most one of any versions by a ladder."""

    def new_cnf(self) -> Cnf:
        cnf = super().new_cnf()
        cnf.most_paired = 1
        return cnf


def is_model(cnf: Cnf, chosen: list[Version]) -> bool:
    """Whether the set is a model, with each `holds SPEC` and each rung true where one of its versions is a member."""
    true = {cnf.variable[version] for version in chosen}
    true |= {holds.variable for spec, holds in cnf.holds.items() if any(spec.matches(version) for version in chosen)}
    for ladder in cnf.exclusive.values():
        if isinstance(ladder, Ladder):
            true |= {rung for k, rung in enumerate(ladder.rungs, 1) if true.intersection(ladder.order[:k])}
    return all(any((abs(literal) in true) == (literal > 0) for literal in clause) for clause in cnf.clauses)


def check_meaning(texts: Texts, rng: random.Random) -> int:
    """Over some lines and some exclusive versions: how many of 50 sets are models.

    A set must be one exactly if it obeys the lines and has one of these versions a package at most, marked ones aside.
    """
    cnf = Cnf(texts.catalogue)
    cnf.most_paired = rng.choice([1, 64])
    named = [("catalogue", placed) for placed in texts.catalogue.placed]
    named += [("request", placed) for placed in texts.request.placed]
    lines = [placed for text, placed in named if rng.random() < 0.3 and cnf.add_line(text, placed)]
    exclusive = [version for version in texts.catalogue.listed if rng.random() < 0.7]
    marked = texts.catalogue.many
    for package in texts.catalogue.by_package.keys() - marked:
        cnf.add_at_most_one(package, [version for version in exclusive if version.package == package])
    models = 0
    for _ in range(50):
        chosen = [version for version in texts.catalogue.listed if rng.random() < rng.choice([0.1, 0.3, 0.5])]
        packages = [version.package for version in chosen if version in exclusive and version.package not in marked]
        wanted = len(set(packages)) == len(packages) and all(obeys(placed, chosen) for placed in lines)
        if is_model(cnf, chosen) != wanted:
            told = ", ".join(map(str, chosen))
            sys.exit(f"{texts.name}: whether {told} is a model isn't what the lines ask:\n{cnf.text()}")
        models += wanted
    return models


# ---- planted faults


class FaultyCnf(Cnf):
    """A CNF that loses a clause, or turns the sign of its first literal."""

    def __init__(self, catalogue: Catalogue, fault: str, at: int) -> None:
        super().__init__(catalogue)
        self.fault, self.at, self.count = fault, at, 0

    def add(self, literals: Iterable[int], label: str) -> Optional[int]:
        clause = clean(literals)
        self.count += clause is not None
        if clause is None or self.count != self.at:
            return super().add(literals, label)
        if self.fault == "a lost clause":
            return None
        return super().add((-clause[0], *clause[1:]), label)


class FaultyExport(Export):
    """An exporter with a fault, which goes on where a step isn't refuted."""

    def __init__(self, catalogue: Catalogue, request: Request, report: Report, fault: str = "", at: int = 0) -> None:
        self.fault, self.at = fault, at
        super().__init__(catalogue, request, report)

    def new_cnf(self) -> Cnf:
        return FaultyCnf(self.catalogue, self.fault, 0 if self.fault == "another bit" else self.at)

    def judge(self, refuted: bool, number: int) -> None:
        pass

    def members(self, atom: Atom) -> list[int]:
        if self.fault == "another bit" and isinstance(atom, BitAtom):
            return super().members(BitAtom(atom.bit + 1, atom.package))
        return super().members(atom)


def fault_places(made: Export, fault: str) -> list[int]:
    """The clauses of the CNF that the proof reads and that the fault can strike; for a bit, 1 where there are bits."""
    if fault == "another bit":
        return [1] * any(isinstance(atom, BitAtom) for atom in made.helpers)
    clauses = made.cnf.clauses
    read = {hint for line in made.proof.lines for hint in line.hints if 0 < hint <= len(clauses)}
    return sorted(number for number in read if clauses[number - 1] or fault == "a lost clause")


def planted(texts: Texts, checkers: Checkers, rng: random.Random, counts: Counter[tuple[str, str]]) -> None:
    """Each fault once in the export of a refusal, at a clause that its proof reads."""
    made = export(texts.catalogue, texts.request, texts.report)
    for fault in FAULTS:
        at = rng.choice(fault_places(made, fault) or [0])
        if not at:
            continue
        faulty = export(texts.catalogue, texts.request, texts.report, kind=partial(FaultyExport, fault=fault, at=at))
        checkers.write(faulty)
        strict, trimmed, model = checkers.strict(), checkers.trimmed(), checkers.model()
        if model and not (strict and (trimmed or not checkers.drat_trim)):
            sys.exit(f"{texts.name}: {fault} at clause {at} gives the CNF a model, and a checker verifies the proof")
        counts[fault, "planted"] += 1
        counts[fault, "refused by the strict checker"] += strict != ""
        if checkers.drat_trim:
            counts[fault, "refused by drat-trim"] += trimmed != ""
        if checkers.minisat:
            counts[fault, "with a model"] += model != ""


# ---- the runs


def processor_seconds() -> float:
    """What this process and the checkers that it ran have used."""
    return sum(os.times()[:4])


def run(name: str, source: Iterable[Texts], checkers: Checkers, kind: type[Export] = Export) -> None:
    """Verifies all reports of a source."""
    seen, start = Seen(), processor_seconds()
    for texts in source:
        seen.verify(texts, checkers, kind)
    kinds = ", ".join(f"{count} {kind}" for kind, count in seen.kinds.most_common())
    print(f"{name}: {seen.refusals} refusals and {seen.wishes} left-out wishes verified, {seen.lines} proof lines,"
          f" {processor_seconds() - start:.1f} s; steps: {kinds}", flush=True)


def run_meaning(source: Iterable[Texts]) -> None:
    """Compares the clauses of lines with the plain judge's reading of the lines."""
    rng = random.Random(4)
    models = [check_meaning(texts, rng) for texts in source]
    print(f"what clauses mean: {len(models)} pairs of texts by 50 sets; {sum(models)} models, as the plain judge says")


def run_faults(source: Iterable[Texts], checkers: Checkers) -> None:
    """Plants faults, each of which must be seen by the strict checker."""
    rng, counts = random.Random(3), Counter()
    for texts in source:
        if not isinstance(texts.report, Install):
            planted(texts, checkers, rng, counts)
    for fault in FAULTS:
        told = ", ".join(f"{counts[fault, what]} {what}" for what in sorted(what for of, what in counts if of == fault))
        print(f"{fault}: {told}")
        if not counts[fault, "refused by the strict checker"]:
            sys.exit(f"{fault} is never seen")


def run_program(count: int, program: str, folder: Path, checkers: Checkers) -> None:
    """Reports of the program: generated refusals, and families of some size."""
    prover = partial(solved, program, folder)
    run("the program's reports", generated(count, prover), checkers)
    for texts in families(LARGE, prover):
        run(texts.name, [texts], checkers)


def main() -> None:
    given = [word for word in sys.argv[1:] if word != "--many"]
    count = int(given[0]) if given else 200
    program = program_of(given, 1, or_none=True)
    with tempfile.TemporaryDirectory() as name:
        folder = Path(name)
        checkers = Checkers(folder)
        print(f"checked by {checkers.names()}")
        run("examples", examples(), checkers)
        small = list(families(SMALL, partial(plain_refusal, random.Random(2))))
        run("families, by the plain prover", small, checkers)
        run("the plain prover's reports", generated(count, partial(plain_report, random.Random(5))), checkers)
        some = max(count // 4, 10)
        ladders = generated(some, partial(plain_report, random.Random(7)))
        run("the same with ladders", ladders, checkers, LadderExport)
        run_meaning(generated(some, partial(plain_report, random.Random(8))))
        run_faults([*small, *generated(some, partial(plain_report, random.Random(6)))], checkers)
        if program != "-":
            run_program(count, program, folder, checkers)


if __name__ == "__main__":
    main()
