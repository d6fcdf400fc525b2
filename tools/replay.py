"""Replays the steps of a report over a CNF: each step's clause becomes a clause of the CNF or a line of the proof.

`run` takes a step and all that it rests on, in their order. A helper is defined when it is first used. Every other line
has for its hints what one pass over its causes reads. A step that doesn't follow is a fault at its line of the report.
"""
from __future__ import annotations

from functools import partial
from typing import Callable, Iterable, Optional, Union

from tools.cnf import Cnf, Ladder, Origin, clean
from tools.ladder import LadderBit
from tools.proof import Helper, Proof
from tools.texts import AnyAtom, AnyStep, Atom, BarStep, BitAtom, Catalogue, DeriveStep, DigitStep, ExcludeLine
from tools.texts import ExcludeStep, Fault, GateStep, Install, LimitsLine, LimitStep, Line, LockLine, LockStep
from tools.texts import MatchesAtom, MatchesStep, NeedsLine, NeedStep, OutsideAtom, OutsideStep, Report, Request
from tools.texts import SharedAtom, SharedStep, Spec, Step, UnknownLine, UnknownStep, Version, cases

Number = Optional[int]  # of a clause; None where it is always true, and so isn't there


def rested_on(step: Step) -> Optional[Origin]:
    """The line that a step takes its rule from."""
    if isinstance(step, (NeedStep, LimitStep, BarStep)):
        return Origin("request" if step.place is None else "catalogue", step.line)
    if isinstance(step, (GateStep, LockStep, ExcludeStep, UnknownStep)):
        return Origin("catalogue", step.line)
    return None


class Replay:
    """The proof of a step over the clauses of its lines, which the caller puts into `cnf` beforehand."""

    def __init__(self, catalogue: Catalogue, request: Request, report: Report) -> None:
        self.catalogue, self.request, self.report, self.steps = catalogue, request, report, report.steps
        self.cnf = self.new_cnf()
        self.places: dict[Version, int] = {}
        self.helpers: dict[Atom, Helper] = {}
        self.ladder_bits: dict[BitAtom, Optional[LadderBit]] = {}
        self.lemmas: dict[Spec, Number] = {}
        self.numbers: dict[int, Number] = {}  # by step

    def new_cnf(self) -> Cnf:
        """A CNF without clauses."""
        return Cnf(self.catalogue)

    # ---- the run

    def cone(self, target: int) -> list[int]:
        """The steps that the target rests on, and itself."""
        found, waiting = {target}, [target]
        while waiting:
            number = waiting.pop()
            step = self.steps[number - 1]
            for cause in step.causes if isinstance(step, DeriveStep) else ():
                self.fault_unless(1 <= cause < number, number, f"step {cause} isn't above it")
                if cause not in found:
                    found.add(cause)
                    waiting.append(cause)
        return sorted(found)

    def run(self, target: int) -> None:
        """The lines for all that a step rests on, and for itself."""
        cone = self.cone(target)
        self.read_places(cone)
        self.proof = Proof(self.cnf)
        for number in cone:
            step = self.steps[number - 1]
            self.numbers[number] = CLAUSES[type(step)](self, number, step)

    def read_places(self, cone: list[int]) -> None:
        """The places of versions that `digit` steps name, and at most one of those of a package."""
        for number in cone:
            step = self.steps[number - 1]
            if isinstance(step, DigitStep):
                self.listed(number, step.version)
                self.unmarked(number, step.version.package)
                place = self.places.setdefault(step.version, step.place)
                self.fault_unless(place == step.place, number, f"a second place of {step.version}")
        for package in dict.fromkeys(version.package for version in self.places):
            versions = [version for version in self.catalogue.by_package[package] if version in self.places]
            self.cnf.add_at_most_one(package, versions)

    def derive(self, number: int, literals: Iterable[int], causes: Iterable[Number]) -> Number:
        """A clause that is refuted by one pass over the causes, for this step."""
        clause = clean(literals)
        if clause is None:
            return None
        hints, refuted = self.proof.replay(clause, (cause for cause in causes if cause))
        self.judge(refuted, number)
        return self.proof.add(clause, hints)

    def judge(self, refuted: bool, number: int) -> None:
        """A step that its causes don't refute is a fault of the report."""
        self.fault_unless(refuted, number, "one pass over its clauses doesn't refute it")

    # ---- faults and questions

    def fault_unless(self, test: bool, number: int, reason: str) -> None:
        """Raises the fault at the line of a step."""
        if not test:
            raise Fault("report", self.line_of_step(number), f"step {number}: {reason}")

    def line_of_step(self, number: int) -> int:
        """The line of the report that has this step."""
        report = self.report
        if isinstance(report, Install):
            return 1 + len(report.answers) + number
        return 1 + len(report.catalogue_lines) + len(report.request_lines) + number

    def listed(self, number: int, version: Version) -> int:
        """The variable of a version that must be listed."""
        self.fault_unless(version in self.cnf.variable, number, f"{version} isn't listed")
        return self.cnf.variable[version]

    def marked(self, number: int, package: str) -> None:
        """The package is marked `many`."""
        self.fault_unless(package in self.catalogue.many, number, f"{package} isn't marked `many`")

    def unmarked(self, number: int, package: str) -> None:
        """The package isn't marked `many`, so that its versions have places."""
        self.fault_unless(package not in self.catalogue.many, number, f"{package} is marked `many`")

    def line(self, number: int, step: Step, kinds: Union[type, tuple[type, ...]]) -> tuple[Origin, Line]:
        """The line that a step rests on, which must be named and of these kinds; the step's place must be its owner."""
        origin = rested_on(step)
        self.fault_unless(origin in self.cnf.named, number, f"{origin} isn't named")
        placed = (self.request if origin.text == "request" else self.catalogue).placed[origin.line - 1]
        self.fault_unless(isinstance(placed.line, kinds), number, f"{origin} isn't a line for this step")
        place = step.version if isinstance(step, GateStep) else getattr(step, "place", None)
        self.fault_unless(place in (None, placed.owner), number, f"{origin} isn't a line of {place}")
        return origin, placed.line

    def barred(self, number: int, origin: Origin, version: Version) -> Number:
        """The clause of the CNF by which a line bars a version."""
        bars = self.cnf.bars.get(origin, {})
        self.fault_unless(version in bars, number, f"{origin} doesn't bar {version}")
        return bars[version]

    # ---- helpers

    def members(self, atom: Atom) -> list[int]:
        """The versions of which a helper means that one is in the set."""
        if isinstance(atom, SharedAtom):
            return self.cnf.matches(atom.alternatives)
        if isinstance(atom, OutsideAtom):
            return [self.cnf.variable[version] for version in self.cnf.outside(atom.spec)]
        if isinstance(atom, MatchesAtom):
            return self.cnf.matches([atom.spec])
        versions = self.catalogue.by_package.get(atom.package, [])
        if isinstance(atom, BitAtom):
            versions = [version for version in versions if self.places.get(version, 0) >> atom.bit & 1]
        return [self.cnf.variable[version] for version in versions]

    def helper(self, atom: Atom) -> Helper:
        """The helper, defined when it is first used."""
        if atom not in self.helpers:
            self.helpers[atom] = self.proof.define(self.members(atom))
        return self.helpers[atom]

    def ladder_bit(self, number: int, atom: BitAtom) -> Optional[LadderBit]:
        """The bit with its lemmas, where a ladder keeps the package's versions apart and one of them has it."""
        if atom not in self.ladder_bits:
            ladder, members = self.cnf.exclusive.get(atom.package), set(self.members(atom))
            made = None
            if isinstance(ladder, Ladder) and members:
                made = LadderBit(self.proof, ladder, members, partial(self.derive, number))
            self.ladder_bits[atom] = made
        return self.ladder_bits[atom]

    def atom_variable(self, number: int, atom: Atom) -> int:
        """The variable of an atom, defined when it is first used."""
        if isinstance(atom, Version):
            return self.listed(number, atom)
        if isinstance(atom, MatchesAtom):
            self.marked(number, atom.spec.package)
        elif isinstance(atom, BitAtom):
            self.unmarked(number, atom.package)
        ladder_bit = self.ladder_bit(number, atom) if isinstance(atom, BitAtom) else None
        return ladder_bit.variable if ladder_bit else self.helper(atom).variable

    def owner(self, place: Optional[Version]) -> list[int]:
        """The literal by which a line binds only where its version is chosen."""
        return [] if place is None else [-self.cnf.variable[place]]

    # ---- the clause of each step

    def need(self, number: int, step: NeedStep) -> Number:
        """A clause of the CNF, once each `holds SPEC` in it is replaced by what the step has for the SPEC."""
        origin, line = self.line(number, step, NeedsLine)
        stated = self.cnf.needs[origin]
        self.fault_unless(1 <= step.case <= len(stated), number, f"{origin} has no case {step.case}")
        of_case = stated[step.case - 1]
        case = dict.fromkeys(cases(line.condition)[step.case - 1])
        if of_case is None or not case:
            return of_case
        literals = self.owner(step.place)
        for spec in case:
            literals += self.unmet(spec)
        literals += self.cnf.matches(line.alternatives)
        return self.derive(number, literals, [*(self.lemma(number, spec) for spec in case), of_case])

    def some(self, spec: Spec) -> Helper:
        """The helper of a case's SPEC: some match of a marked package, or some version of any other."""
        return self.helper(MatchesAtom(spec) if spec.package in self.catalogue.many else AnyAtom(spec.package))

    def unmet(self, spec: Spec) -> list[int]:
        """No match is there, of a marked package. Of any other no version is there, or one outside."""
        outside = [] if spec.package in self.catalogue.many else self.members(OutsideAtom(spec))
        return [-self.some(spec).variable, *outside]

    def lemma(self, number: int, spec: Spec) -> Number:
        """The SPEC holds, or is unmet."""
        if spec not in self.lemmas:
            holds, literals = self.cnf.holds[spec], self.unmet(spec)
            causes = [*holds.if_matched, self.some(spec).some_member]
            self.lemmas[spec] = self.derive(number, [holds.variable, *literals], causes)
        return self.lemmas[spec]

    def gate(self, number: int, step: GateStep) -> Number:
        """The owner's need, by the helper of its alternatives."""
        origin, line = self.line(number, step, NeedsLine)
        self.fault_unless(line.condition is None, number, f"{origin} has a condition")
        helper = self.helper(SharedAtom(line.alternatives))
        causes = [*helper.if_member.values(), *self.cnf.needs[origin]]
        return self.derive(number, [*self.owner(step.version), helper.variable], causes)

    def shared(self, number: int, step: SharedStep) -> Number:
        """A clause of the helper's definition."""
        return self.helper(SharedAtom(step.alternatives)).some_member

    def limit(self, number: int, step: LimitStep) -> Number:
        """The limit, by the helper of its SPEC."""
        origin, line = self.line(number, step, LimitsLine)
        helper = self.helper(OutsideAtom(line.spec))
        causes = [*self.cnf.bars[origin].values(), helper.some_member]
        return self.derive(number, [*self.owner(step.place), -helper.variable], causes)

    def bar(self, number: int, step: BarStep) -> Number:
        """A clause of the CNF."""
        origin, _ = self.line(number, step, LimitsLine)
        return self.barred(number, origin, step.version)

    def outside(self, number: int, step: OutsideStep) -> Number:
        """A clause of the helper's definition."""
        helper, variable = self.helper(OutsideAtom(step.spec)), self.listed(number, step.version)
        self.fault_unless(variable in helper.if_member, number, f"{step.version} isn't outside {step.spec}")
        return helper.if_member[variable]

    def matching(self, number: int, step: MatchesStep) -> Number:
        """A clause of the helper's definition."""
        self.marked(number, step.spec.package)
        helper, variable = self.helper(MatchesAtom(step.spec)), self.listed(number, step.version)
        self.fault_unless(variable in helper.if_member, number, f"{step.version} doesn't match {step.spec}")
        return helper.if_member[variable]

    def lock(self, number: int, step: LockStep) -> Number:
        """A clause of the CNF."""
        origin, _ = self.line(number, step, LockLine)
        return self.barred(number, origin, step.version)

    def exclude(self, number: int, step: Union[ExcludeStep, UnknownStep]) -> Number:
        """The one clause of its line."""
        origin, _ = self.line(number, step, ExcludeLine if isinstance(step, ExcludeStep) else UnknownLine)
        return next(iter(self.cnf.bars[origin].values()))

    def any(self, number: int, step: AnyStep) -> Number:
        """A clause of the helper's definition."""
        variable = self.listed(number, step.version)
        return self.helper(AnyAtom(step.version.package)).if_member[variable]

    def digit(self, number: int, step: DigitStep) -> Number:
        """A clause of the bit's definition, or by the at-most-one clauses of the version."""
        package, variable = step.version.package, self.listed(number, step.version)
        atom, one = BitAtom(step.bit, package), step.place >> step.bit & 1
        ladder_bit = self.ladder_bit(number, atom)
        if ladder_bit:
            return ladder_bit.digit(variable, one)
        bit = self.helper(atom)
        if one:
            return bit.if_member.get(variable)
        others = [member for member in bit.if_member if member != variable]
        pairs = self.cnf.exclusive[package].exclude(variable, others) if others else []
        return self.derive(number, [-variable, -bit.variable], [*pairs, bit.some_member])

    def derived(self, number: int, step: DeriveStep) -> Number:
        """The clause as it is, by the clauses of the steps that it names."""
        literals = []
        for literal in step.literals:
            variable = self.atom_variable(number, literal.atom)
            literals.append(variable if literal.positive else -variable)
        return self.derive(number, literals, [self.numbers[cause] for cause in step.causes])


CLAUSES: dict[type, Callable[[Replay, int, Step], Number]] = {
    NeedStep: Replay.need,
    GateStep: Replay.gate,
    SharedStep: Replay.shared,
    OutsideStep: Replay.outside,
    MatchesStep: Replay.matching,
    LimitStep: Replay.limit,
    BarStep: Replay.bar,
    LockStep: Replay.lock,
    ExcludeStep: Replay.exclude,
    UnknownStep: Replay.exclude,
    AnyStep: Replay.any,
    DigitStep: Replay.digit,
    DeriveStep: Replay.derived,
}
