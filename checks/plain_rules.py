"""What the plain search is made of: its options, what a clause states, and the lines of both texts by what they belong to."""
from __future__ import annotations

from dataclasses import dataclass, field
from typing import Optional, Union

import base  # noqa: F401
from tools.texts import AnyAtom, BitAtom, Catalogue, Condition, ExcludeLine, FavourLine, LimitsLine, Literal, LockLine
from tools.texts import MatchesAtom, NeedsLine, OutsideAtom, Request, SharedAtom, Spec, UnknownLine, Version, WishLine

ROOT = "the problem itself"
Parent = Optional[Version]  # None is the request
Atom = Union[str, Version, AnyAtom, SharedAtom, OutsideAtom, MatchesAtom, BitAtom]
Case = tuple[Spec, ...]
Alternatives = tuple[Spec, ...]


@dataclass(frozen=True)
class Options:
    """Where the search may go another way; the defaults are the rules, and the program goes by them."""

    # What a program might do, and this one did.
    pending: bool = False  # new clauses wait for the next propagation, which doesn't begin at the trail's front
    unit_locks: bool = False  # a lock is `not other`, without the root
    digits_at_once: bool = False  # digits and any clauses come as a version is registered, not at the end of an encoding
    defer_all: bool = False  # a case that holds as its need is encoded is deferred all the same
    void_cases: bool = False  # a case that holds by itself has its packages and candidates encoded
    false_wishes: bool = False  # a wish that is false before its turn is registered and encoded
    placed_wishes: bool = False  # a wish that is false before its turn is registered, so it takes a place of its package
    wish_unseen: bool = False  # a wish becomes true behind its encoding: no case holds by it there
    package_by_need: bool = False  # a package's locks and exclusions come just before the need or limit that names it
    cases_later: bool = False  # cases become clauses once no chosen version is left to encode
    flat_cases: bool = False  # deferred cases are taken in the order of their parents, not by condition
    parent_by_parent: bool = False  # a parent is encoded to its end, with the cases that hold, before the next is begun
    root_stays: bool = False  # the root's turn is begun again without undoing what level 1 has
    exclusions_by_version: bool = False  # a package's exclusions come in the order of its versions
    # Where the rules are silent.
    set_at_once: bool = True  # a new gate, helper, digit or any clause sets at once what it says
    restart_after_encoding: bool = True  # a conflict right after an encoding begins the turn again, and isn't learnt from
    root_in_learnt: bool = True  # `not root` is a literal of learnt clauses
    as_met: bool = True  # a learnt clause has its literals in the order in which they were met, not back along the trail
    # What comes with the line `many`.
    asks_wishes: bool = True  # a wish's turn begins with a question for the candidates of its package
    # What a caller may set.
    hinted: bool = True  # the needs of each candidate are at hand, so it is encoded with a need that lists it
    gated: int = 4  # from so many candidates on a need has a gate
    helped: int = 4  # from so many versions outside it on a limit has a helper
    added: int = 1_000_000  # how much a version of a learnt clause raises its package's score
    decay: int = 950_000  # how many millionths of each score are left after a learnt clause


# ---- what a clause states


@dataclass(frozen=True)
class Need:
    """A candidate is chosen where the parent is, and each SPEC of the case has a chosen match."""

    parent: Parent
    alternatives: Alternatives
    case: Case


@dataclass(frozen=True)
class Gate:
    """The version opens the gate of its need."""

    parent: Version
    alternatives: Alternatives


@dataclass(frozen=True)
class Shared:
    """An open gate needs a candidate."""

    alternatives: Alternatives


@dataclass(frozen=True)
class Limit:
    """The parent bars a version outside the SPEC, or all of them by a helper."""

    parent: Parent
    spec: Spec
    barred: Optional[Version]


@dataclass(frozen=True)
class Outside:
    """A version outside the SPEC makes the SPEC's helper true."""

    spec: Spec
    version: Version


@dataclass(frozen=True)
class Locked:
    """Another version than the locked one is barred."""

    locked: Version
    barred: Version


@dataclass(frozen=True)
class Excluded:
    """A version is barred for a word."""

    version: Version
    word: str


@dataclass(frozen=True)
class Digit:
    """A chosen version gives a digit of its package the value that the digit has in its place."""

    version: Version
    place: int
    bit: int


@dataclass(frozen=True)
class There:
    """A chosen version makes `any` of its package true."""

    version: Version


@dataclass(frozen=True)
class Matches:
    """A chosen version makes `matches` of a SPEC of its package true."""

    spec: Spec
    version: Version


Rule = Union[Need, Gate, Shared, Limit, Outside, Locked, Excluded, Digit, There, Matches]


@dataclass(eq=False)
class Clause:
    """A clause; a learnt one has no rule, and causes from the falsified clause back along the trail."""

    rule: Optional[Rule]
    literals: list[Literal]
    causes: list[Clause] = field(default_factory=list)
    watched: list[Literal] = field(default_factory=list)

    def beside(self, literal: Literal) -> Literal:
        """The other watched literal."""
        return self.watched[1] if self.watched[0] == literal else self.watched[0]


@dataclass(frozen=True)
class NeedClause:
    """A clause from which a candidate may be decided: its parent or gate, its condition's literals, its candidates."""

    parent: Atom
    condition: tuple[Literal, ...]
    candidates: tuple[Version, ...]
    clause: Clause


@dataclass(frozen=True)
class Entry:
    """An entry of the trail, with the clause that set it; a decision of the root or a wish has none."""

    atom: Atom
    value: bool
    clause: Optional[Clause]
    level: int


def yes(atom: Atom) -> Literal:
    """The atom."""
    return Literal(atom, True)


def no(atom: Atom) -> Literal:
    """`not` of the atom."""
    return Literal(atom, False)


def of_parent(parent: Parent) -> Atom:
    """The variable of a parent."""
    return ROOT if parent is None else parent


# ---- what the texts state


@dataclass(frozen=True)
class NeedOf:
    """A needs line of a parent."""

    alternatives: Alternatives
    condition: Optional[Condition]


class Facts:
    """The lines of both texts by what they belong to, each list in line order."""

    def __init__(self, catalogue: Catalogue, request: Request, bars_wishes: bool = True) -> None:
        self.bars_wishes = bars_wishes
        self.candidates = catalogue.by_package
        self.many = catalogue.many
        self.needs: dict[Parent, list[NeedOf]] = {}
        self.limits: dict[Parent, list[Spec]] = {}
        self.unknown: dict[Version, str] = {}
        self.lock: dict[str, Version] = {}
        self.favoured: set[Version] = set()
        self.exclusions: dict[str, list[tuple[Version, str]]] = {}
        self.wishes = [placed.line.version for placed in request.placed if isinstance(placed.line, WishLine)]
        for placed in (*catalogue.placed, *request.placed):
            self.note(placed.owner, placed.line)

    def note(self, owner: Parent, line: object) -> None:
        """Notes a line."""
        if isinstance(line, NeedsLine):
            self.needs.setdefault(owner, []).append(NeedOf(line.alternatives, line.condition))
        elif isinstance(line, LimitsLine):
            self.limits.setdefault(owner, []).append(line.spec)
        elif isinstance(line, UnknownLine):
            self.unknown[owner] = line.reason
        elif isinstance(line, LockLine):
            self.lock[line.version.package] = line.version
        elif isinstance(line, FavourLine):
            self.favoured.add(line.version)
        elif isinstance(line, ExcludeLine):
            self.exclusions.setdefault(line.version.package, []).append((line.version, line.reason))

    def matching(self, spec: Spec) -> list[Version]:
        """The matches of a SPEC, in line order."""
        return [version for version in self.candidates.get(spec.package, ()) if spec.matches(version)]

    def outside(self, spec: Spec) -> list[Version]:
        """The versions of the SPEC's package that don't match, in line order."""
        return [version for version in self.candidates.get(spec.package, ()) if not spec.matches(version)]

    def sorted(self, alternatives: Alternatives) -> list[Version]:
        """The matches of each alternative in turn: a favoured one first, then the newest first."""
        order = lambda version: (version not in self.favoured, -version.number)
        return [version for spec in alternatives for version in sorted(self.matching(spec), key=order)]

    def is_barred(self, wish: Version) -> bool:
        """Whether a lock or an exclusion bars the version, so that it is left out without a search."""
        excluded = [version for version, _ in self.exclusions.get(wish.package, ())]
        return self.bars_wishes and (self.lock.get(wish.package, wish) != wish or wish in excluded)
