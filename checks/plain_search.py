"""A plain, slow search for what a request asks, by the rules that docs/DIFFERENCES.md compares with the program: one function a rule.

`search(catalogue, request, options)` takes two texts as values (tools/texts.py) and returns what each turn chose, or the conflict,
with all clauses. `Options()` is the search by the rules; each field of Options has another way. Nothing here is shared with the program
that it is compared with, and nothing is quick. plain_rules.py has what clauses state, plain_solver.py the search over clauses; here are
the encoding and the turns.
"""
from __future__ import annotations

from collections import deque
from dataclasses import dataclass
from typing import Callable, Iterable, Optional

from plain_rules import ROOT, Alternatives, Atom, Case, Clause, Digit, Excluded, Facts, Gate, Limit, Locked
from plain_rules import Matches, Need, NeedClause, NeedOf, Options, Outside, Parent, Rule, Shared, There, no, of_parent, yes
from plain_solver import Solver
from tools.texts import AnyAtom, BitAtom, Catalogue, Literal, MatchesAtom, OutsideAtom, Request, SharedAtom, Spec, Version
from tools.texts import cases

__all__ = ["Encoder", "Facts", "Options", "Outcome", "Turn", "Turns", "search"]


# ---- encoding


@dataclass(frozen=True)
class Deferred:
    """A case that waits until each of its SPECs has a chosen match."""

    parent: Parent
    need: NeedOf
    case: Case


class Encoder:
    """Turns lines into clauses, when they are reached."""

    def __init__(self, facts: Facts, solver: Solver) -> None:
        self.facts, self.solver, self.options = facts, solver, solver.options
        self.tasks: deque[tuple[Callable[..., None], tuple]] = deque()
        self.parents: list[Parent] = []  # parents that were queued, for the program's way
        self.encoded: set[Parent] = set()
        self.questions: dict[str, None] = {}  # what was asked of the catalogue, each question once
        self.loaded: set[str] = set()
        self.deferred: list[list] = []  # pairs of a condition and its deferred cases
        self.registered: set[Version] = set()
        self.unplaced: dict[str, list[Version]] = {}
        self.places: dict[str, list[Version]] = {}
        self.bits: dict[str, int] = {}
        self.there: dict[str, set[Version]] = {}  # versions with an any clause, by packages of encoded cases
        self.new_there: dict[str, None] = {}
        self.matched: set[Spec] = set()  # SPECs of encoded cases whose packages are marked, with their matches clauses
        self.helpers: set[Spec] = set()
        self.gates: set[Alternatives] = set()
        self.unseen: Parent = None  # a wish that counts as undecided where cases are looked at

    def encode(self, parents: list[Parent], fired: list[Deferred]) -> bool:
        """Encodes parents and cases by tasks, first in first out; digits and any clauses come last. Whether a clause was
        falsified as it was added."""
        self.solver.is_broken = False
        for parent in parents:
            self.queue_parent(parent)
        for deferred in fired:
            if self.options.parent_by_parent:
                self.tasks.append((self.queue_case, (deferred,)))
            else:
                self.queue_case(deferred)
        while self.tasks:
            task, given = self.tasks.popleft()
            task(*given)
        self.add_digits()
        return self.solver.is_broken

    def queue(self, task: Callable[..., None], *given: object) -> None:
        """Queues a task; in the program's way all of a parent is done at once."""
        if self.options.parent_by_parent:
            task(*given)
        else:
            self.tasks.append((task, given))

    def queue_parent(self, parent: Parent) -> None:
        """A parent is encoded once."""
        if parent not in self.encoded:
            self.encoded.add(parent)
            self.tasks.append((self.encode_parent, (parent,)))

    def queue_package(self, package: str) -> None:
        """A package's locks and exclusions are encoded once."""
        if package not in self.loaded:
            self.loaded.add(package)
            self.queue(self.encode_package, package)

    def ask(self, question: str) -> None:
        """A task asks the catalogue as it is taken; what was answered isn't asked again."""
        self.questions.setdefault(question)

    def ask_candidates(self, specs: Iterable[Spec]) -> None:
        """The candidates of the packages of some SPECs."""
        for spec in specs:
            self.ask(f"candidates of {spec.package}")

    def queue_packages(self, alternatives: Alternatives) -> None:
        """Those of each alternative."""
        for spec in alternatives:
            self.queue_package(spec.package)

    # -- parents

    def encode_parent(self, parent: Parent) -> None:
        """A version whose needs are unknown is excluded. Of any other parent the packages of its unconditional needs and its
        limits are asked for, then its needs are encoded in line order, then its limits."""
        if parent is not None:
            self.ask(f"dependencies of {parent}")
        if parent in self.facts.unknown:
            self.solver.add_clause(Excluded(parent, self.facts.unknown[parent]), [no(parent)])
            return
        needs, limits = self.facts.needs.get(parent, []), self.facts.limits.get(parent, [])
        if not self.options.package_by_need:
            for need in needs:
                if need.condition is None:
                    self.queue_packages(need.alternatives)
            self.queue_packages(tuple(limits))
        for need in needs:
            self.queue_need(parent, need)
        for spec in limits:
            self.queue_package(spec.package)
            self.queue(self.encode_limit, parent, spec)

    def queue_need(self, parent: Parent, need: NeedOf) -> None:
        """An unconditional need is encoded, the cases of another one are looked at."""
        if need.condition is not None:
            self.queue(self.look_at_cases, parent, need)
            return
        self.queue_packages(need.alternatives)
        self.queue(self.encode_need, parent, need.alternatives, None)

    def encode_package(self, package: str) -> None:
        """A lock bars the other versions, in line order, then exclusions bar theirs."""
        self.ask(f"candidates of {package}")
        locked = self.facts.lock.get(package)
        if locked is not None:
            for other in self.facts.candidates[package]:
                if other != locked:
                    root = [] if self.options.unit_locks else [no(ROOT)]
                    self.solver.add_clause(Locked(locked, other), [*root, no(other)])
        exclusions = self.facts.exclusions.get(package, [])
        if self.options.exclusions_by_version:
            exclusions = sorted(exclusions, key=lambda pair: self.facts.candidates[package].index(pair[0]))
        for version, word in exclusions:
            self.solver.add_clause(Excluded(version, word), [no(version)])

    # -- needs

    def encode_need(self, parent: Parent, alternatives: Alternatives, fired: Optional[list[Case]]) -> None:
        """Registers the candidates and queues them as parents, since the catalogue knows their needs. Then adds the clause of
        an unconditional need, or of each case that fired."""
        self.ask_candidates(alternatives)
        candidates = self.facts.sorted(alternatives)
        self.register(candidates)
        if fired is None:
            self.add_need(parent, alternatives, candidates)
        else:
            literals = [self.condition_literals(case) for case in fired]
            for case, condition in zip(fired, literals):
                self.add_need_clause(Need(parent, alternatives, case), of_parent(parent), condition, candidates)
        if self.options.hinted:
            for candidate in candidates:
                self.queue_parent(candidate)

    def add_need(self, parent: Parent, alternatives: Alternatives, candidates: list[Version]) -> None:
        """From four candidates on a gate is between the candidates and a parent that isn't the root."""
        if parent is None or len(candidates) < self.options.gated:
            self.add_need_clause(Need(parent, alternatives, ()), of_parent(parent), [], candidates)
            return
        gate = SharedAtom(alternatives)
        if alternatives not in self.gates:
            self.gates.add(alternatives)
            self.settle(self.add_need_clause(Shared(alternatives), gate, [], candidates))
        self.settle(self.solver.add_clause(Gate(parent, alternatives), [no(parent), yes(gate)]))

    def add_need_clause(self, rule: Rule, parent: Atom, condition: list[Literal], candidates: list[Version]) -> Clause:
        """Not the parent, or a literal of the condition, or a candidate; it is registered for decisions."""
        literals = [no(parent), *condition, *(yes(candidate) for candidate in candidates)]
        clause = self.solver.add_clause(rule, literals)
        self.solver.needs.append(NeedClause(parent, tuple(condition), tuple(candidates), clause))
        return clause

    def settle(self, clause: Clause) -> None:
        """A new gate, helper, digit or any clause sets its literal where it has one left."""
        left = [literal for literal in clause.literals if self.solver.value(literal) is not False]
        if self.options.set_at_once and len(left) == 1 and self.solver.value(left[0]) is None:
            self.solver.assign(left[0], clause)

    # -- cases

    def holds(self, case: Case) -> bool:
        """A case holds where each of its SPECs has a chosen match."""
        is_true = lambda match: match != self.unseen and self.solver.value(yes(match)) is True
        return all(any(is_true(match) for match in self.facts.matching(spec)) for spec in case)

    def is_void(self, parent: Parent, case: Case) -> bool:
        """A case that its own parent is outside of can't hold beside it: it has no clause. Other versions of a marked package
        may stand beside."""
        outside = [parent in self.facts.outside(spec) for spec in case if spec.package not in self.facts.many]
        return parent is not None and any(outside)

    def look_at_cases(self, parent: Parent, need: NeedOf) -> None:
        """Cases that hold become clauses at once, the others are deferred under their condition."""
        fired = []
        for specs in cases(need.condition):
            case = tuple(specs)
            self.ask_candidates(case)
            if self.holds(case) and not self.options.defer_all:
                fired.append(case)
            else:
                self.defer(Deferred(parent, need, case))
        self.queue_cases(parent, need, fired)

    def defer(self, deferred: Deferred) -> None:
        """Conditions are kept in the order in which they were first deferred, each with its cases."""
        for condition, waiting in self.deferred:
            if condition == deferred.need.condition and not self.options.flat_cases:
                waiting.append(deferred)
                return
        self.deferred.append([deferred.need.condition, [deferred]])

    def take_fired(self) -> list[Deferred]:
        """The deferred cases that hold, by condition in the kept order. The last condition takes the place of one that has no
        case left."""
        fired = []
        for pair in [pair for pair in self.deferred if any(self.holds(each.case) for each in pair[1])]:
            fired += [each for each in pair[1] if self.holds(each.case)]
            pair[1] = [each for each in pair[1] if not self.holds(each.case)]
            if not pair[1]:
                self.remove(pair)
        return fired

    def remove(self, pair: list) -> None:
        """Takes a condition out."""
        place = next(place for place, each in enumerate(self.deferred) if each is pair)
        if self.options.flat_cases:
            del self.deferred[place]
        else:
            self.deferred[place] = self.deferred[-1]
            self.deferred.pop()

    def queue_case(self, deferred: Deferred) -> None:
        """A case that fired is encoded."""
        self.queue_cases(deferred.parent, deferred.need, [deferred.case])

    def queue_cases(self, parent: Parent, need: NeedOf, fired: list[Case]) -> None:
        """The packages of the need are asked for, then its clauses are added."""
        kept = [case for case in fired if not self.is_void(parent, case)]
        if kept or (fired and self.options.void_cases):
            self.queue_packages(need.alternatives)
        if kept:
            self.queue(self.encode_need, parent, need.alternatives, kept)
        elif fired and self.options.void_cases:
            for candidate in self.facts.sorted(need.alternatives):
                self.queue_parent(candidate)

    def condition_literals(self, case: Case) -> list[Literal]:
        """For each SPEC `not any` of its package, then its package's other versions, which are registered; of a marked package
        `not matches` alone."""
        literals = []
        for spec in case:
            if spec.package in self.facts.many:
                self.watch_spec(spec)
                literals.append(no(MatchesAtom(spec)))
                continue
            self.watch_package(spec.package)
            outside = self.facts.outside(spec)
            self.register(outside)
            literals += [no(AnyAtom(spec.package)), *(yes(version) for version in outside)]
        return literals

    # -- limits

    def encode_limit(self, parent: Parent, spec: Spec) -> None:
        """Below four versions outside the SPEC each has a clause of its own; from four on all share a helper."""
        self.ask_candidates([spec])
        outside, denied = self.facts.outside(spec), no(of_parent(parent))
        if len(outside) < self.options.helped:
            for version in outside:
                self.solver.add_clause(Limit(parent, spec, version), list(dict.fromkeys([denied, no(version)])))
            return
        if spec not in self.helpers:
            self.helpers.add(spec)
            for version in outside:
                self.settle(self.solver.add_clause(Outside(spec, version), [no(version), yes(OutsideAtom(spec))]))
        self.solver.add_clause(Limit(parent, spec, None), [denied, no(OutsideAtom(spec))])

    # -- at most one version a package, and whether there is one

    def register(self, versions: list[Version]) -> None:
        """Candidates of encoded needs, versions outside encoded conditions, and wishes are registered, each once, but for those
        of marked packages."""
        new = [version for version in dict.fromkeys(versions) if version not in self.registered]
        new = [version for version in new if version.package not in self.facts.many]
        self.registered.update(new)
        if not self.options.digits_at_once:
            for version in new:
                self.unplaced.setdefault(version.package, []).append(version)
            return
        for version in new:
            self.add_there(version)
        for version in new:
            self.place(version)

    def watch_package(self, package: str) -> None:
        """The package of an encoded case has any clauses."""
        if package in self.there:
            return
        if not self.options.digits_at_once:
            self.new_there.setdefault(package)
            return
        self.there[package] = set()
        for version in self.places.get(package, ()):
            self.add_there(version)

    def watch_spec(self, spec: Spec) -> None:
        """The SPEC of an encoded case has matches clauses, if its package is marked."""
        if spec in self.matched:
            return
        self.matched.add(spec)
        self.add_matches(spec)

    def add_digits(self) -> None:
        """Package by package each new version gets its digits and its any clause; then come the any clauses of packages that
        are new in conditions."""
        unplaced, self.unplaced = self.unplaced, {}
        new_there, self.new_there = self.new_there, {}
        for version in (version for versions in unplaced.values() for version in versions):
            self.place(version)
            self.add_there(version)
        for package in new_there:
            self.there[package] = set()
            for version in self.places.get(package, ()):
                self.add_there(version)

    def place(self, version: Version) -> None:
        """The k-th version of a package has the digits of k - 1; a new digit comes when they are too few."""
        placed = self.places.setdefault(version.package, [])
        bits = self.bits.setdefault(version.package, 0)
        if 2**bits < len(placed) + 1:
            self.bits[version.package] += 1
            for place, earlier in enumerate(placed):
                self.add_digit(earlier, place, bits)
        placed.append(version)
        for bit in range(self.bits[version.package]):
            self.add_digit(version, len(placed) - 1, bit)

    def add_digit(self, version: Version, place: int, bit: int) -> None:
        """Not the version, or the digit has the value that it has in the version's place."""
        digit = Literal(BitAtom(bit, version.package), bool(place >> bit & 1))
        self.settle(self.solver.add_clause(Digit(version, place, bit), [no(version), digit]))

    def add_there(self, version: Version) -> None:
        """Not the version, or `any` of its package, where a case names the package."""
        there = self.there.get(version.package)
        if there is not None and version not in there:
            there.add(version)
            self.settle(self.solver.add_clause(There(version), [no(version), yes(AnyAtom(version.package))]))

    def add_matches(self, spec: Spec) -> None:
        """For each match, in the order in which they are tried: not the version, or `matches` of the SPEC."""
        for version in self.facts.sorted((spec,)):
            self.settle(self.solver.add_clause(Matches(spec, version), [no(version), yes(MatchesAtom(spec))]))


# ---- turns


@dataclass(frozen=True)
class Turn:
    """What is chosen after a turn, and the learnt clause where its wish was refused."""

    wish: Parent
    chosen: tuple[Version, ...]
    refused_by: Optional[Clause] = None


@dataclass(frozen=True)
class Outcome:
    """The turns; or the causes of the conflict, the falsified clause first; and the solver at the end."""

    turns: tuple[Turn, ...]
    conflict: Optional[list[Clause]]
    solver: Solver
    questions: tuple[str, ...] = ()


Refusal = tuple[list[Literal], list[Clause]]


class Turns:
    """Runs the root's turn, then one for each wish that no lock or exclusion bars."""

    def __init__(self, facts: Facts, options: Options) -> None:
        self.facts, self.options = facts, options
        self.solver = Solver(options)
        self.encoder = Encoder(facts, self.solver)

    def run(self) -> Outcome:
        """All turns. A conflict at the root's level ends them."""
        refusal = self.run_turn(None)
        if refusal is not None:
            return Outcome((), refusal[1], self.solver, tuple(self.encoder.questions))
        turns = [Turn(None, self.chosen())]
        for wish in self.facts.wishes:
            if not self.facts.is_barred(wish):
                refusal = self.run_wish(wish)
                if refusal is not None and not refusal[0]:
                    return Outcome((), refusal[1], self.solver, tuple(self.encoder.questions))
                clause = refusal and self.refuse(wish, refusal)
                turns.append(Turn(wish, self.chosen(), clause))
        return Outcome(tuple(turns), None, self.solver, tuple(self.encoder.questions))

    def chosen(self) -> tuple[Version, ...]:
        """The versions that are true, in the order of the trail."""
        return tuple(entry.atom for entry in self.solver.trail if entry.value and isinstance(entry.atom, Version))

    def run_wish(self, wish: Version) -> Optional[Refusal]:
        """A wish that is true is accepted and changes nothing. One that is false is refused by the reasons of that."""
        value = self.solver.value(yes(wish))
        if value is None:
            return self.run_turn(wish)
        if value is True:
            return None
        self.solver.first_level = self.solver.top_level() + 1
        if self.options.false_wishes or self.options.placed_wishes:
            self.encoder.register([wish])
        if self.options.false_wishes:
            self.encoder.encode([wish], [])
        place = next(place for place, entry in enumerate(self.solver.trail) if entry.atom == wish)
        kept, causes = self.solver.refute(self.solver.trail[place].clause, wish, place)
        return [no(wish), *kept], causes

    def refuse(self, wish: Version, refusal: Refusal) -> Clause:
        """Undoes the turn, and adds the clause over the wish and versions that were chosen before."""
        kept, causes = refusal
        self.solver.undo_until(self.solver.first_level - 1)
        if self.options.as_met:
            kept = [literal for literal in kept if literal.atom != wish] + [each for each in kept if each.atom == wish]
        return self.solver.add_clause(None, kept, causes)

    def run_turn(self, goal: Parent) -> Optional[Refusal]:
        """Sets the root or the wish true at the turn's first level and encodes it. Then decides, encodes what was chosen and
        the cases that hold, until nothing is new. Where a new clause is falsified the turn is begun again."""
        solver, start = self.solver, self.solver.top_level()
        solver.first_level = start + 1
        is_falsified = self.begin(goal)
        while True:
            if is_falsified:
                self.undo_turn(start)
                self.begin(goal)
            falsified = solver.propagate()
            if falsified is not None:
                if solver.conflict_level(falsified) <= solver.first_level:
                    return solver.refute(falsified, goal)
                if self.options.restart_after_encoding:
                    is_falsified = True
                    continue
                solver.learn(falsified)
            refusal = self.decide(goal)
            if refusal is not None:
                return refusal
            new = [version for version in self.chosen() if version not in self.encoder.encoded]
            fired = [] if new and self.options.cases_later else self.encoder.take_fired()
            if not new and not fired:
                return None
            is_falsified = self.encoder.encode(new, fired)

    def begin(self, goal: Parent) -> bool:
        """The goal is true at the first level; a wish is registered before what its needs list. Whether its package is marked is
        asked for before its dependencies."""
        solver = self.solver
        if goal is not None and self.options.asks_wishes:
            self.encoder.ask(f"candidates of {goal.package}")
        if solver.value(yes(of_parent(goal))) is None:
            solver.assign(yes(of_parent(goal)), None, solver.first_level)
        if goal is not None:
            self.encoder.register([goal])
        self.encoder.unseen = goal if self.options.wish_unseen else None
        is_falsified = self.encoder.encode([goal], [])
        self.encoder.unseen = None
        return is_falsified

    def undo_turn(self, start: int) -> None:
        """Undoes the whole turn."""
        self.solver.undo_until(max(start, 1) if self.options.root_stays else start)

    def decide(self, goal: Parent) -> Optional[Refusal]:
        """Propagates, learns and decides, until nothing is left to decide. A conflict at the first level refuses the turn."""
        solver = self.solver
        while True:
            falsified = solver.propagate()
            if falsified is not None:
                if solver.conflict_level(falsified) <= solver.first_level:
                    return solver.refute(falsified, goal)
                solver.learn(falsified)
                continue
            decision = solver.next_decision()
            if decision is None:
                return None
            solver.assign(yes(decision[0]), decision[1], solver.top_level() + 1)


def search(catalogue: Catalogue, request: Request, options: Options = Options()) -> Outcome:
    """What the search finds."""
    return Turns(Facts(catalogue, request), options).run()
