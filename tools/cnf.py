"""The CNF of some lines of a catalogue and a request: all that one has to believe of an exported refusal.

Each set of versions, at most one a package that isn't marked `many`, that obeys the lines is a model of these clauses.
So where they have no model, no such set obeys the lines. docs/SECOND.md has the clauses as a table. The steps of a report
have one part in them: at most one is stated of the versions that `digit` steps name. None names a marked package's.
"""
from __future__ import annotations

from dataclasses import dataclass, field
from itertools import groupby
from typing import Iterable, NamedTuple, Optional, Union

from tools.texts import Catalogue, ExcludeLine, LimitsLine, LockLine, NeedsLine, Placed, Spec, UnknownLine, Version
from tools.texts import cases, line_text

Clause = tuple[int, ...]  # of DIMACS literals: a variable, or its negative
MOST_PAIRED = 64  # at most one of more versions than these is a ladder, not pairs
MOST_COMMENT = 200  # characters of a comment; lrat-check reads no more than 1024


class Origin(NamedTuple):
    """A line of one of the two texts."""

    text: str
    line: int

    def __str__(self) -> str:
        return f"{self.text} line {self.line}"


def clean(literals: Iterable[int]) -> Optional[Clause]:
    """The clause with each literal once; None where it is always true."""
    clause = dict.fromkeys(literals)
    return None if any(-literal in clause for literal in clause) else tuple(clause)


@dataclass
class Holds:
    """The variable of `holds SPEC`, and the clauses `holds SPEC or not MATCH`."""

    variable: int
    if_matched: list[int]


@dataclass
class Pairs:
    """At most one of some versions: a clause for each two of them, by its variables."""

    numbers: dict[tuple[int, int], int] = field(default_factory=dict)

    def exclude(self, version: int, others: list[int]) -> list[int]:
        """Clauses that make the others false where the version is true."""
        return [self.numbers[min(version, other), max(version, other)] for other in others]


@dataclass
class Ladder:
    """At most one of some versions: rung k is true where one up to the k-th is. A clause that isn't there is 0."""

    order: list[int]  # the versions
    rungs: list[int] = field(default_factory=list)  # for all versions but the last
    climb: list[int] = field(default_factory=list)  # not version k, or rung k
    go_on: list[int] = field(default_factory=list)  # not rung k - 1, or rung k
    bar: list[int] = field(default_factory=list)  # not version k, or not rung k - 1


class Cnf:
    """Clauses with their numbers from 1, and where to find those of a line. Variable k is the k-th listed version."""

    def __init__(self, catalogue: Catalogue) -> None:
        self.catalogue, self.most_paired = catalogue, MOST_PAIRED
        self.variable = {version: k for k, version in enumerate(catalogue.listed, 1)}
        self.names = [f"var {k} {version}" for version, k in self.variable.items()]
        self.clauses: list[Clause] = []
        self.labels: list[str] = []  # what each clause is of
        self.holds: dict[Spec, Holds] = {}
        self.named: set[Origin] = set()
        self.needs: dict[Origin, list[Optional[int]]] = {}  # the clause of each case
        self.bars: dict[Origin, dict[Version, Optional[int]]] = {}  # the clause by which a line bars a version
        self.exclusive: dict[str, Union[Pairs, Ladder]] = {}
        self.units: list[int] = []  # the clauses of the wish and the entries above it

    def add(self, literals: Iterable[int], label: str) -> Optional[int]:
        """The number of a new clause; None where it is always true, and left out."""
        clause = clean(literals)
        if clause is None:
            return None
        self.clauses.append(clause)
        self.labels.append(label)
        return len(self.clauses)

    def new_variable(self, kind: str, what: str) -> int:
        """A variable that isn't a version."""
        number = len(self.names) + 1
        self.names.append(f"{kind} {number} {what}")
        return number

    def outside(self, spec: Spec) -> list[Version]:
        """The listed versions of the SPEC's package that don't match."""
        return [version for version in self.catalogue.by_package.get(spec.package, ()) if not spec.matches(version)]

    def matches(self, alternatives: Iterable[Spec]) -> list[int]:
        """The variables of all listed matches."""
        found = (version for spec in alternatives for version in self.catalogue.matches(spec))
        return list(dict.fromkeys(self.variable[version] for version in found))

    # ---- lines

    def add_line(self, text: str, placed: Placed) -> bool:
        """The clauses of a line; False where it asks nothing of a set."""
        line, origin = placed.line, Origin(text, placed.number)
        self.named.add(origin)
        label = f"{origin}: {line_text(line)}"
        owner = [] if placed.owner is None else [-self.variable[placed.owner]]
        if isinstance(line, NeedsLine):
            self.add_needs(origin, line, owner, label)
        elif isinstance(line, LimitsLine):
            self.add_bars(origin, self.outside(line.spec), owner, label)
        elif isinstance(line, LockLine):
            others = [version for version in self.catalogue.by_package[line.version.package] if version != line.version]
            self.add_bars(origin, others, [], label)
        elif isinstance(line, ExcludeLine):
            self.add_bars(origin, [line.version], [], label)
        elif isinstance(line, UnknownLine):
            self.add_bars(origin, [placed.owner], [], label)
        else:
            return False
        return True

    def add_needs(self, origin: Origin, line: NeedsLine, owner: list[int], label: str) -> None:
        """For each case: not the owner, or a SPEC of the case doesn't hold, or some match."""
        matches, found = self.matches(line.alternatives), []
        for case in cases(line.condition):
            unmet = [-self.hold(spec).variable for spec in case]
            found.append(self.add(owner + unmet + matches, label))
        self.needs[origin] = found

    def hold(self, spec: Spec) -> Holds:
        """The variable `holds SPEC`, defined both ways when it is first asked for."""
        if spec not in self.holds:
            variable, label, matches = self.new_variable("holds", str(spec)), f"holds {spec}", self.matches([spec])
            self.holds[spec] = Holds(variable, [self.add([variable, -match], label) for match in matches])
            self.add([-variable, *matches], label)
        return self.holds[spec]

    def add_bars(self, origin: Origin, versions: list[Version], owner: list[int], label: str) -> None:
        """Not the owner, or not the version, for each version."""
        variable = self.variable
        self.bars[origin] = {version: self.add([*owner, -variable[version]], label) for version in versions}

    # ---- at most one, units

    def add_at_most_one(self, package: str, versions: list[Version]) -> None:
        """At most one of these versions of a package."""
        order, label = [self.variable[version] for version in versions], f"at most one of {package}"
        if len(order) > self.most_paired:
            self.exclusive[package] = self.add_ladder(versions, order, label)
            return
        pairs = self.exclusive[package] = Pairs()
        for k, second in enumerate(order):
            for first in order[:k]:
                pairs.numbers[first, second] = self.add([-first, -second], label)

    def add_ladder(self, versions: list[Version], order: list[int], label: str) -> Ladder:
        """A ladder with its clauses."""
        rungs = [self.new_variable("rung", f"some version up to {version}") for version in versions[:-1]]
        ladder = Ladder(order, rungs)
        for version, below, rung in zip(order, [0, *rungs], [*rungs, 0]):
            ladder.climb.append(self.add([-version, rung], label) if rung else 0)
            ladder.go_on.append(self.add([-below, rung], label) if below and rung else 0)
            ladder.bar.append(self.add([-version, -below], label) if below else 0)
        return ladder

    def add_unit(self, version: Version, label: str) -> None:
        """The version is in the set."""
        self.units.append(self.add([self.variable[version]], label))

    # ---- text

    def text(self) -> str:
        """The CNF in DIMACS form, with what its variables and clauses are in comments above."""
        comments, first = list(self.names), 1
        for label, group in groupby(self.labels):
            behind = first + len(list(group))
            comments.append(f"clauses {first}..{behind - 1} {label}")
            first = behind
        lines = [f"c {text[:MOST_COMMENT]}{' ..' if len(text) > MOST_COMMENT else ''}" for text in comments]
        lines.append(f"p cnf {len(self.names)} {len(self.clauses)}")
        lines += [" ".join(map(str, (*clause, 0))) for clause in self.clauses]
        return "\n".join(lines) + "\n"
