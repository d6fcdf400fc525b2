"""CUDF 2.0: a document as a catalogue and a request, and the report as a CUDF solution (docs/MAPPING.md).

In CUDF two versions of a package may be installed together, unless they conflict. A package of which all versions that can be
reached conflict with each other is one package here, as all are in Debian's and opam's documents. Of any other package each
version becomes a package of its own, `NAME:VERSION`, so nothing is lost and a refusal stays a proof. Lines `many`
aren't used; with them `Universe.settle` and `Universe.place` would change.
"""
from __future__ import annotations

import hashlib
import os
import re
import tempfile
from dataclasses import dataclass, field
from typing import Iterable, Iterator, Optional, Sequence, Union

from tools.catalogue import MOST_BYTES, Catalogue, CatalogueLine, FavourLine, LimitsLine, NeedsLine, Request, RequestLine
from tools.catalogue import SkippedLine, VersionLine, WishLine, catalogue_text, request_text
from tools.cudf_text import Atom, Atoms, Document, Package, read_document
from tools.dictionary import Dictionary, RealSpelling, check_word, escape
from tools.files import Failure, of_file, progress, read_again, run_program, shown_path
from tools.index import runs
from tools.message import message_line
from tools.reports import Install, Refused, Report, read_report
from tools.words import LARGEST, Bad, Spec, Version

MOST_REASONS = 12
NONE = re.compile(r"(\S+) #?0(?=$|[ ,.])")  # the number 0, which is never listed
NEWEST = re.compile(r"notuptodate|version-lag")
Mark = Union[NeedsLine, LimitsLine]


# ---- what the request reaches


class Universe:
    """The packages that roots reach over `depends`, and how each is written."""

    def __init__(self, document: Document, prefers_newest: bool) -> None:
        self.document, self.prefers_newest = document, prefers_newest
        self.reached: dict[Package, None] = {}
        self.listed: dict[str, list[Package]] = {}
        self.numbers: dict[Package, int] = {}
        self.singles: set[str] = set()
        self.matched: dict[Atom, tuple[Package, ...]] = {}
        self.installed_names = {package.name for package in document.installed()}

    def matches(self, atom: Atom) -> tuple[Package, ...]:
        """The packages that match: of its name, the newest first, then those that provide it."""
        if atom not in self.matched:
            found = {each: None for each in reversed(self.document.packages.get(atom.name, ())) if atom.holds(each.version)}
            for each in self.document.providers.get(atom.name, ()):
                if any(atom.holds(version) for version in each.offered(atom.name)):
                    found[each] = None
            self.matched[atom] = tuple(found)
        return self.matched[atom]

    def any_of(self, atoms: Atoms) -> tuple[Package, ...]:
        """The packages that match one of these, each once."""
        if len(atoms) == 1:
            return self.matches(atoms[0])
        return tuple(dict.fromkeys(each for atom in atoms for each in self.matches(atom)))

    def extend(self, roots: Iterable[Package]) -> None:
        """Reaches these packages, and what they reach."""
        waiting = [root for root in dict.fromkeys(roots) if root not in self.reached]
        self.reached |= dict.fromkeys(waiting)
        for package in waiting:
            for atoms in package.depends:
                for other in self.any_of(atoms):
                    if other not in self.reached:
                        self.reached[other] = None
                        waiting.append(other)

    def settle(self) -> None:
        """Which packages are written as one, and the number of each version."""
        self.listed, self.singles, self.numbers = {}, set(), {}
        for package in self.reached:
            self.listed.setdefault(package.name, []).append(package)
        for name, listed in self.listed.items():
            listed.sort(key=lambda each: each.version)
            if self.is_single(listed):
                self.singles.add(name)
            fits = listed[-1].version < LARGEST
            self.numbers |= {each: each.version if fits else at for at, each in enumerate(listed, 1)}

    def is_single(self, listed: list[Package]) -> bool:
        """Whether any two of these versions of a package conflict."""
        if len(listed) == 1:
            return True
        barred = [set(self.any_of(each.conflicts)) for each in listed]
        return all(
            listed[later] in barred[at] or listed[at] in barred[later]
            for at in range(len(listed)) for later in range(at + 1, len(listed))
        )

    # -- how it is written

    def real_name(self, package: Package) -> str:
        """The name of the package that it is a version of here."""
        return package.name if package.name in self.singles else f"{package.name}:{package.version}"

    def place(self, package: Package) -> Version:
        """The version that it is here."""
        return Version(escape(self.real_name(package)), self.numbers[package])

    def rank(self, package: Package) -> tuple[bool, bool, bool]:
        """Its rank among alternatives: what is there comes first, what is to be avoided last."""
        is_kept = package.installed and not self.prefers_newest
        return package.name not in self.installed_names, package.is_avoided and not is_kept, not is_kept

    def spans(self, packages: Sequence[Package]) -> list[Spec]:
        """The SPECs of versions of one package that is written as one, the newest run first."""
        name, listed = packages[0].name, self.listed[packages[0].name]
        if len(packages) == len(listed):
            return [Spec(escape(name), None)]
        numbers = [self.numbers[each] for each in packages]
        found = runs(numbers, [self.numbers[each] for each in listed])
        return [Spec(escape(name), (low,) if high == low + 1 else (low, high)) for low, high in reversed(found)]

    def specs(self, packages: Iterable[Package]) -> tuple[Spec, ...]:
        """The SPECs of packages that are reached, in the order in which they are tried."""
        groups: dict[object, list[Package]] = {}
        for each in sorted((each for each in packages if each in self.reached), key=self.rank):
            key = (each.name, each.is_avoided) if each.name in self.singles else each
            groups.setdefault(key, []).append(each)
        found: list[Spec] = []
        for group in groups.values():
            is_one = group[0].name in self.singles
            found += self.spans(group) if is_one else [Spec(escape(self.real_name(group[0])), None)]
        return tuple(found)

    def nothing(self, atoms: Atoms) -> tuple[str, Spec]:
        """A SPEC that no version matches, and its real name."""
        name = atoms[0].name if atoms else "false!"
        return name, Spec(escape(name), (0,) if name in self.singles else None)

    def bars(self, packages: Iterable[Package], owner: Optional[Package] = None) -> Iterator[Mark]:
        """Lines that bar these packages; a package that is written as one bars its other versions anyway."""
        groups: dict[str, list[Package]] = {}
        for each in packages:
            if each is not owner and each in self.reached:
                groups.setdefault(each.name, []).append(each)
        for name, group in groups.items():
            if name not in self.singles:
                yield from (LimitsLine(Spec(escape(self.real_name(each)), (0,))) for each in group)
            elif owner is None or name != owner.name:
                barred = set(group)
                allowed = [each for each in self.listed[name] if each not in barred]
                specs = self.spans(allowed) if allowed else [Spec(escape(name), (0,))]
                if len(specs) > 1:
                    yield NeedsLine(tuple(specs), Spec(escape(name), None))
                else:
                    yield LimitsLine(specs[0])


# ---- the catalogue


@dataclass
class Draft:
    """A catalogue that is made line by line."""

    source: str = "-"
    lines: list[CatalogueLine] = field(default_factory=list)
    names: dict[str, str] = field(default_factory=dict)
    versions: dict[Version, str] = field(default_factory=dict)
    sources: dict[int, str] = field(default_factory=dict)

    def name(self, real: str) -> None:
        """A package with the NAME that it has here; a real name that is a sign of the texts stays out."""
        if escape(real) != real:
            try:
                check_word(real, "the name", "=")
            except Bad:
                return
            self.names[escape(real)] = real

    def add(self, line: CatalogueLine, source: str = "") -> None:
        """A line, and the text of which it came."""
        self.lines.append(line)
        if source:
            self.sources[len(self.lines)] = source

    def version(self, place: Version, version: int) -> None:
        """A version, with its text where the number isn't that."""
        self.lines.append(VersionLine(place))
        if place.number != version:
            self.versions[place] = str(version)

    @property
    def dictionary(self) -> Dictionary:
        """Its names and texts."""
        return Dictionary("cudf", "-", self.source, self.names, self.versions, self.sources)

    def catalogue(self) -> Catalogue:
        """What was made."""
        return Catalogue(self.dictionary.lines(tuple(self.lines)))


def parts_text(atoms: Atoms) -> str:
    """Alternatives as the document has them."""
    return " | ".join(map(str, atoms)) or "false!"


def draft_of(universe: Universe, with_source: bool) -> Draft:
    """What is reached."""
    draft = Draft()
    for listed in universe.listed.values():
        for package in listed:
            draft.name(universe.real_name(package))
            draft.version(universe.place(package), package.version)
            about = f"{package.name} {package.version} (line {package.line}) has " if with_source else ""
            for atoms in package.depends:
                line = need_line(universe, draft, universe.any_of(atoms), atoms)
                draft.add(line, about and f"{about}depends: {parts_text(atoms)}")
            for atom in package.conflicts:
                for line in universe.bars(universe.matches(atom), package):
                    draft.add(line, about and f"{about}conflicts: {atom}")
    return draft


def need_line(universe: Universe, draft: Draft, packages: Iterable[Package], atoms: Atoms) -> NeedsLine:
    """One of these packages; where there is none, what was asked for by a SPEC that nothing matches."""
    specs = universe.specs(packages)
    if not specs:
        name, spec = universe.nothing(atoms)
        draft.name(name)
        specs = (spec,)
    return NeedsLine(specs)


# ---- the request


class Asked:
    """Makes the request, and what it adds to the catalogue."""

    def __init__(self, universe: Universe, draft: Draft, document: Document) -> None:
        self.universe, self.draft, self.document = universe, draft, document
        self.lines: list[RequestLine] = []
        self.helpers: set[str] = set()

    def add(self, source: str, lines: Iterable[RequestLine]) -> None:
        """Lines below the text of which they came."""
        self.lines.append(SkippedLine(f"# {source}"))
        self.lines += lines

    def need(self, packages: Iterable[Package], atoms: Atoms) -> NeedsLine:
        """One of these packages."""
        return need_line(self.universe, self.draft, packages, atoms)

    def write(self, wished: Iterable[Package]) -> Request:
        """All lines."""
        asked = self.document.request
        for atom in asked.get("install", ()):
            self.add(f"install: {atom}", [self.need(self.universe.matches(atom), (atom,))])
        for atom in asked.get("remove", ()):
            self.add(f"remove: {atom}", self.universe.bars(self.universe.matches(atom)))
        for atom in asked.get("upgrade", ()):
            self.add(f"upgrade: {atom}", self.upgrade(atom))
        for package in self.document.installed():
            for atoms in kept_atoms(package):
                source = f"keep: {package.keep}, of {package.name} {package.version} (line {package.line})"
                self.add(source, [self.need(kept_packages(self.universe, package, atoms), atoms)])
        self.lines += [WishLine(place) for place in dict.fromkeys(map(self.universe.place, wished))]
        return Request(tuple(self.lines))

    def upgrade(self, atom: Atom) -> Iterator[RequestLine]:
        """The name is there in one version alone, that matches and isn't older than what was there."""
        name, universe = atom.name, self.universe
        before = [version for each in self.document.installed() for version in each.offered(name)]
        if None in before:  # in all versions, so that none is as new
            yield self.need((), (Atom(f"{name}!"),))
            return
        least = max(before, default=0)
        groups: dict[int, list[Package]] = {}
        barred = list[Package]()
        for each in universe.matches(Atom(name)):
            versions = set(each.offered(name))
            version = versions.pop()
            if versions or version is None or version < least or not atom.holds(version):
                barred.append(each)
            elif each in universe.reached:
                groups.setdefault(version, []).append(each)
        allowed = [each for group in groups.values() for each in group]
        names = {each.name for each in allowed}
        if len(names) == 1 and names <= universe.singles:
            barred = [each for each in barred if each.name not in names]
            yield self.need(allowed, (atom,))
        elif len(groups) < 2:
            yield self.need(allowed, (atom,))
        else:
            yield from self.one_group(name, groups)
        yield from universe.bars(barred)

    def one_group(self, name: str, groups: dict[int, list[Package]]) -> Iterator[RequestLine]:
        """Packages of one group alone: a package `NAME!` of the catalogue has a version for each, which needs one of it."""
        helper = escape(f"{name}!")
        spec = lambda at: Spec(helper, (at,))
        order = sorted(groups)
        if helper not in self.helpers:
            self.helpers.add(helper)
            self.draft.name(f"{name}!")
            for at, version in enumerate(order, 1):
                self.draft.version(Version(helper, at), version)
                self.draft.add(self.need(groups[version], ()))
        yield NeedsLine((Spec(helper, None),))
        for at, version in enumerate(order, 1):
            for each in groups[version]:
                for one in self.universe.specs([each]):
                    yield NeedsLine((spec(at),), one)


def kept_atoms(package: Package) -> list[Atoms]:
    """What an installed package's `keep` asks for."""
    if package.keep == "version":
        return [(Atom(package.name, "=", package.version),)]
    if package.keep == "package":
        return [(Atom(package.name),)]
    return [(atom,) for atom in package.provides] if package.keep == "feature" else []


def kept_packages(universe: Universe, package: Package, atoms: Atoms) -> Sequence[Package]:
    """The packages that keep it: for `version` and `package` none but those of its name."""
    if package.keep == "version":
        return [package]
    if package.keep == "package":
        return universe.document.packages[package.name][::-1]
    return universe.any_of(atoms)


# ---- solving


@dataclass
class Texts:
    """A catalogue and a request over it, with what they are made of."""

    universe: Universe
    draft: Draft
    catalogue: Catalogue
    request: Request


class Plan:
    """What is asked of `resolve`: the request, and wishes for what is there."""

    def __init__(self, document: Document, criteria: str = "") -> None:
        changed, newest = criteria.find("changed"), NEWEST.search(criteria)
        self.document = document
        self.universe = Universe(document, newest is not None and (changed < 0 or newest.start() < changed))
        self.gone: set[str] = set()

    def wishes(self) -> list[Package]:
        """A version of each installed package: the one that is there, or the newest; then others, of what went."""
        asked = self.document.request
        removed = {each for atom in asked.get("remove", ()) for each in self.universe.matches(atom)}
        upgraded = {atom.name for atom in asked.get("upgrade", ())}
        found: dict[Package, None] = {}
        for package in self.document.installed():
            others = sorted(reversed(self.document.packages[package.name]), key=lambda each: each.is_avoided)
            is_newest = self.universe.prefers_newest or package.name in upgraded
            order = [*others[:1], package, *others] if is_newest else [package, *others]
            taken = order if package.name in self.gone else order[:1]
            found |= {each: None for each in taken if each not in removed}
        return list(found)

    def roots(self, wished: list[Package]) -> list[Package]:
        """The packages that the request names, or wishes for."""
        asked, universe = self.document.request, self.universe
        found = [each for key in ("install", "upgrade") for atom in asked.get(key, ()) for each in universe.matches(atom)]
        for package in self.document.installed():
            found += [each for atoms in kept_atoms(package) for each in kept_packages(universe, package, atoms)]
        return [*found, *wished]

    def texts(self, with_source: bool, source: str = "-") -> Texts:
        """The catalogue and the request."""
        wished, universe = self.wishes(), self.universe
        universe.extend(self.roots(wished))
        universe.settle()
        draft = draft_of(universe, with_source)
        draft.source = source
        request = Asked(universe, draft, self.document).write(wished)
        if not universe.prefers_newest:
            upgraded = {atom.name for atom in self.document.request.get("upgrade", ())}
            favoured = {each.name: each for each in self.document.installed() if each in universe.reached}
            for name, each in favoured.items():
                if name in universe.singles and name not in upgraded:
                    draft.add(FavourLine(universe.place(each)))
        return Texts(universe, draft, draft.catalogue(), request)


@dataclass
class Solved:
    """The last run: its texts, and the report."""

    texts: Texts
    report: Report

    def chosen(self) -> list[Package]:
        """The packages of an install report, as the document has them."""
        universe = self.texts.universe
        if not isinstance(self.report, Install):
            return []
        entries = {entry.version for entry in self.report.entries}
        return [each for each in universe.reached if universe.place(each) in entries]


def run_texts(texts: Texts, folder: str, program: Optional[str]) -> Solved:
    """Runs `resolve` over texts that stay in the folder, with the report."""
    paths = [os.path.join(folder, name) for name in ("catalogue", "request", "report")]
    data = catalogue_text(texts.catalogue)
    if len(data) > MOST_BYTES:
        raise Failure("the catalogue", None, f"has {len(data)} bytes, and at most {MOST_BYTES} may be")
    write(paths[0], data)
    write(paths[1], request_text(texts.request))
    _, said = run_program(program, "solve", *paths[:2])
    write(paths[2], said)
    with of_file(paths[2]):
        return Solved(texts, read_report(said))


def write(path: str, data: bytes) -> None:
    """Writes a file of the folder."""
    try:
        with open(path, "wb") as out:
            out.write(data)
    except OSError as error:
        raise Failure(path, None, f"can't be written: {error.strerror}") from None


def solve_document(document: Document, criteria: str, folder: str, program: Optional[str]) -> Solved:
    """Solves; where an installed package goes, solves again with wishes for its other versions."""
    plan = Plan(document, criteria)
    while True:
        solved = run_texts(plan.texts(True), folder, program)
        if not isinstance(solved.report, Install):
            return solved
        wished = plan.wishes()
        plan.gone |= plan.universe.installed_names - {each.name for each in solved.chosen()}
        if plan.wishes() == wished:
            return solved


# ---- the answer


def solution_text(packages: Sequence[Package]) -> bytes:
    """A CUDF solution: what is installed then."""
    stanzas = (f"package: {each.name}\nversion: {each.version}\ninstalled: true\n\n" for each in packages)
    return ("".join(stanzas) or "# no package\n").encode()


def reason_lines(solved: Solved) -> list[str]:
    """Why there is no solution: the message, and the properties on which that rests."""
    report, lines = solved.report, solved.texts.catalogue.lines
    if not isinstance(report, Refused):
        return []
    spelling = RealSpelling(solved.texts.draft.dictionary)
    found = ["resolve: no set of packages keeps all rules"]
    found += [NONE.sub(r"\1 (no version)", message_line(line, spelling)) for line in report.message]
    asked = solved.texts.request.lines
    sources = [above_request(asked, number) for number in report.request_lines]
    for number in report.catalogue_lines:
        text = getattr(lines[number - 2], "text", "") if number > 1 else ""
        sources += [text[3:]] if text.startswith("#s ") else []
    sources = list(dict.fromkeys(each for each in sources if each))
    found += [f"- {each}" for each in sources[:MOST_REASONS]]
    return found + ([f"- and {len(sources) - MOST_REASONS} lines more"] if len(sources) > MOST_REASONS else [])


def above_request(lines: Sequence[RequestLine], number: int) -> str:
    """The text of which a line of the request came."""
    while number > 0 and not isinstance(lines[number - 1], SkippedLine):
        number -= 1
    return lines[number - 1].text[2:] if number > 0 else ""


def answer_text(solved: Solved) -> bytes:
    """The solution, or `FAIL` with the reason as comments."""
    if isinstance(solved.report, Install):
        return solution_text(solved.chosen())
    return "".join(f"{line}\n" for line in ("FAIL", *(f"# {line}" for line in reason_lines(solved)))).encode()


def solve(path: str, criteria: str, keep: Optional[str], program: Optional[str]) -> bytes:
    """The solution of the document in a file; with `keep` the texts and the report stay in that folder."""
    with progress("reading the document"):
        document = read_document(path)
    if keep is not None:
        return answer_text(solve_document(document, criteria, keep, program))
    with tempfile.TemporaryDirectory(prefix="resolve-cudf-") as folder:
        return answer_text(solve_document(document, criteria, folder, program))


def convert(path: str, criteria: str, with_source: bool) -> tuple[bytes, bytes]:
    """The catalogue and the request of the document in a file."""
    with progress("reading the document"):
        document = read_document(path)
    texts = Plan(document, criteria).texts(with_source, sum_of(path))
    catalogue = catalogue_text(texts.catalogue)
    if len(catalogue) > MOST_BYTES:
        raise Failure(shown_path(path), None, f"its catalogue has {len(catalogue)} bytes of {MOST_BYTES}")
    return catalogue, request_text(texts.request)


def sum_of(path: str) -> str:
    """The sum of a file; standard input has none."""
    return "-" if path == "-" else f"sha256:{hashlib.sha256(read_again(path)).hexdigest()}"
