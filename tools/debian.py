"""Debian's Packages files as a catalogue with its dictionary (docs/MAPPING.md).

A `Universe` keeps stanzas and reads those alone that are asked for. The versions of a package are numbered 1, 2, .. in
Debian's order; each relation is asked of each listed version, and what matches is written as runs of numbers.
"""
from __future__ import annotations

import bz2
import gzip
import hashlib
import lzma
import re
import subprocess
import zlib
from dataclasses import dataclass, field
from typing import Callable, Iterable, Iterator, NamedTuple, Sequence

from tools.catalogue import MOST_BYTES, Catalogue, CatalogueLine, LimitsLine, NeedsLine, Request, RequestLine
from tools.catalogue import VersionLine, WishLine, catalogue_text, request_text
from tools.deb822 import Fields, Group, Record, Relation, read_groups, read_list, read_relation, split_records
from tools.deb822 import version_key
from tools.dictionary import Dictionary, escape, name_entry
from tools.files import Failure, progress, read_bytes, shown_path
from tools.words import Bad, Spec, Version, quoted

NEEDS = (("Pre-Depends", "pre-depends"), ("Depends", "depends"))
LIMITS = (("Conflicts", "conflicts"), ("Breaks", "breaks"))
PRIORITIES = {"": 0, "required": 1, "important": 2, "standard": 3, "optional": 4, "extra": 5}
UNPACKED: dict[str, Callable[[bytes], bytes]] = {
    ".gz": gzip.decompress,
    ".xz": lambda data: streams(lzma.LZMADecompressor, data), ".lzma": lambda data: streams(lzma.LZMADecompressor, data),
    ".bz2": lambda data: streams(bz2.BZ2Decompressor, data),
}
ARCHITECTURE = re.compile(r"[a-z0-9][a-z0-9-]*\Z")
APT_HELPER = "/usr/lib/apt/apt-helper"
PROVIDED = re.compile(r"(?:\A|,)\s*([^\s,(:]+)")  # the name in each part of Provides
Runs = list[tuple[int, int]]  # from .. to below
Matches = dict[str, list[int]]  # the numbers that match, by package, in the order in which they are tried


@dataclass(slots=True)
class Listed:
    """A listed version of a package."""

    name: str
    number: int
    text: str
    fields: Fields
    provides: tuple[Relation, ...]

    @property
    def rank(self) -> tuple[int, int]:
        """Its rank among the providers of a package: the least is tried first, and one without a priority before all others."""
        return 0 if is_essential(self.fields) else 1, PRIORITIES.get(self.fields.get("priority", ""), 5)


class Line(NamedTuple):
    """A line of a version, the text of which it came, and a package that it limits or that it misses."""

    value: CatalogueLine
    source: str = ""
    limited: str = ""
    missing: str = ""


def is_essential(fields: Fields) -> bool:
    """Whether a package may not be removed."""
    return fields.flag("essential") or fields.flag("protected") or fields.flag("important")


def runs_of(numbers: Iterable[int]) -> Runs:
    """Maximal runs of neighbouring numbers, rising."""
    found: Runs = []
    for number in sorted(set(numbers)):
        if found and found[-1][1] == number:
            found[-1] = found[-1][0], number + 1
        else:
            found.append((number, number + 1))
    return found


def relation_groups(fields: Fields, name: str) -> list[tuple[str, Group]]:
    """The parts of a field that may have alternatives."""
    try:
        return list(read_groups(fields.get(name, "")))
    except Bad as bad:
        fields.fail(name, str(bad))


def relation_list(fields: Fields, name: str) -> list[tuple[str, Relation]]:
    """The parts of a field that has no alternatives."""
    try:
        return list(read_list(fields.get(name, ""), name.title()))
    except Bad as bad:
        fields.fail(name, str(bad))


class Universe:
    """Packages by name, and who provides what, of one architecture (and `all`)."""

    def __init__(self, native: str) -> None:
        self.native, self.architectures = native, (native.encode(), b"all")
        self.records: dict[str, list[Record]] = {}
        self.providers: dict[str, list[str]] = {}
        self.read: dict[str, tuple[Listed, ...]] = {}
        self.matched: dict[Relation, Matches] = {}
        self.preferred: set[tuple[str, int]] = set()

    # -- what is there

    def add(self, record: Record) -> None:
        """A stanza, of which the name and what it provides are looked at."""
        name, architecture = record.head()
        if name is None:
            record.fail("the stanza has no Package")
        if architecture not in self.architectures:
            if name.endswith(b"\r") or record.raw.count(b"\nPackage:") + record.raw.startswith(b"Package:") != 1:
                record.fields()  # finds the carriage return, or the stanza that another end of a line hides
            if architecture is None:
                record.fail(f"the stanza of {name.decode('utf-8', 'replace')} has no Architecture")
            return
        real = name.decode("utf-8", "replace").strip()
        self.records.setdefault(real, []).append(record)
        if record.raw.find(b"\nProvides:") >= 0:
            self.offer(real, PROVIDED.findall(record.value("Provides")))

    def offer(self, name: str, provided: Iterable[str]) -> None:
        """What a package provides."""
        for each in provided:
            if each in self.providers:
                self.providers[each].append(name)
            else:
                self.providers[each] = [name]

    def named(self, name: str) -> Sequence[Record]:
        """The stanzas of a package, in the order in which they were added."""
        return self.records.get(name, ())

    def package(self, name: str) -> tuple[Listed, ...]:
        """The listed versions of a package in Debian's order; of one version listed twice the first stanza."""
        if name not in self.read:
            found: dict[str, Fields] = {}
            for record in self.named(name):
                fields = record.fields()
                found.setdefault(self.version(name, fields), fields)
            texts = sorted(found, key=version_key)
            self.read[name] = tuple(
                Listed(name, number, text, found[text], self.provided(found[text]))
                for number, text in enumerate(texts, 1)
            )
        return self.read[name]

    def version(self, name: str, fields: Fields) -> str:
        """The version of a stanza."""
        try:
            read_relation(name)
        except Bad:
            fields.fail("package", f"`{name}` isn't the name of a package")
        if not fields.get("version"):
            fields.fail("version", f"the stanza of {name} has no Version")
        try:
            version_key(fields["version"])
        except Bad as bad:
            fields.fail("version", str(bad))
        return fields["version"]

    def provided(self, fields: Fields) -> tuple[Relation, ...]:
        """What a stanza provides."""
        found = tuple(relation for _, relation in relation_list(fields, "provides"))
        for relation in found:
            if relation.sign not in ("", "="):
                fields.fail("provides", f"`{relation.name}` is provided with `{relation.sign}`; only `=` can be")
        return found

    # -- what matches

    def matches(self, relation: Relation) -> Matches:
        """The versions that match a relation: of the package itself, then of its providers."""
        if relation not in self.matched:
            self.matched[relation] = self.match(relation)
        return self.matched[relation]

    def match(self, relation: Relation) -> Matches:
        """As `matches`."""
        if relation.qualifier not in ("", "any", "native", self.native):
            return {}
        found = {relation.name: [v.number for v in self.package(relation.name) if relation.holds(v.text)]}
        others: list[tuple[tuple[int, int], str, list[int]]] = []
        for name in dict.fromkeys(self.providers.get(relation.name, ())):
            offering = [v for v in self.package(name) if any(offers(given, relation) for given in v.provides)]
            if name == relation.name:
                found[name] = sorted({*found[name], *(v.number for v in offering)})
            elif offering:
                others.append((offering[-1].rank, name, [v.number for v in offering]))
        found |= {name: numbers for _, name, numbers in sorted(others)}
        return {name: numbers for name, numbers in found.items() if numbers}

    def spec(self, name: str, run: tuple[int, int]) -> Spec:
        """The SPEC of a run."""
        low, high = run
        if low == 1 and high == len(self.package(name)) + 1:
            return Spec(escape(name), None)
        return Spec(escape(name), (low,) if high == low + 1 else run)

    def alternatives(self, group: Group) -> list[tuple[str, tuple[int, int]]]:
        """The runs that match a group in the order in which they are tried: what is preferred comes first."""
        found: dict[tuple[str, tuple[int, int]], None] = {}
        for relation in group:
            for name, numbers in self.matches(relation).items():
                found |= {(name, run): None for run in reversed(runs_of(numbers))}
        is_new = lambda pair: not any((pair[0], number) in self.preferred for number in range(*pair[1]))
        return sorted(found, key=is_new)

    # -- lines

    def needs(self, fields: Fields) -> Iterator[tuple[str, Group]]:
        """What a version needs, with the text of which it came."""
        for title, name in NEEDS:
            if name in fields:
                yield from ((f"{title}: {words}", group) for words, group in relation_groups(fields, name))

    def need_line(self, words: str, group: Group) -> Line:
        """The line of a group; where nothing matches, its first package, by the number 0 if it has other versions."""
        specs = tuple(self.spec(*each) for each in self.alternatives(group))
        if specs:
            return Line(NeedsLine(specs), words)
        name = group[0].name
        return Line(NeedsLine((Spec(escape(name), (0,) if self.package(name) else None),)), words, missing=name)

    def limits(self, fields: Fields) -> Iterator[tuple[str, Relation]]:
        """What a version doesn't bear, with the text of which it came."""
        for title, name in LIMITS:
            if name in fields:
                yield from ((f"{title}: {words}", relation) for words, relation in relation_list(fields, name))

    def limit_lines(self, owner: str, relation: Relation) -> Iterator[tuple[str, CatalogueLine]]:
        """A line for each package that a relation bars, but for the owner itself."""
        for name, numbers in self.matches(relation).items():
            if name != owner:
                allowed = runs_of({v.number for v in self.package(name)} - set(numbers))
                if len(allowed) > 1:
                    specs = tuple(self.spec(name, run) for run in reversed(allowed))
                    yield name, NeedsLine(specs, Spec(escape(name), None))
                else:
                    yield name, LimitsLine(self.spec(name, allowed[0]) if allowed else Spec(escape(name), (0,)))

    def lines(self, listed: Listed) -> Iterator[Line]:
        """The lines of a version."""
        yield Line(VersionLine(Version(escape(listed.name), listed.number)))
        for words, group in self.needs(listed.fields):
            yield self.need_line(words, group)
        for words, relation in self.limits(listed.fields):
            yield from (Line(line, words, limited=name) for name, line in self.limit_lines(listed.name, relation))

    def reach(self, roots: Iterable[str]) -> list[str]:
        """What these packages reach over needs, themselves first."""
        found = dict.fromkeys(name for name in roots if self.package(name))
        waiting = list(found)
        for name in waiting:
            for listed in self.package(name):
                for _, group in self.needs(listed.fields):
                    for relation in group:
                        for other in self.matches(relation):
                            if other not in found:
                                found[other] = None
                                waiting.append(other)
        return list(found)


def offers(given: Relation, wanted: Relation) -> bool:
    """Whether what is provided is what is wanted; without a version it is no version of it."""
    return given.name == wanted.name and (wanted.holds(given.version) if given.version else not wanted.sign)


# ---- catalogues


@dataclass
class Draft:
    """A catalogue that is made line by line."""

    settings: str
    source: str = "-"
    lines: list[CatalogueLine] = field(default_factory=list)
    names: dict[str, str] = field(default_factory=dict)
    versions: dict[Version, str] = field(default_factory=dict)
    sources: dict[int, str] = field(default_factory=dict)

    def name(self, real: str) -> None:
        """A package with the NAME that it has here."""
        self.names |= name_entry(real)

    def add(self, line: Line, with_source: bool) -> None:
        """A line."""
        self.lines.append(line.value)
        if with_source and line.source:
            self.sources[len(self.lines)] = line.source
        if line.missing:
            self.name(line.missing)

    @property
    def dictionary(self) -> Dictionary:
        """Its names and texts; the numbers of sources are those of `lines`."""
        return Dictionary("debian", self.settings, self.source, self.names, self.versions, self.sources)

    def catalogue(self) -> Catalogue:
        """What was made."""
        return Catalogue(self.dictionary.lines(tuple(self.lines)))


def draft_of(universe: Universe, names: Iterable[str], with_source: bool) -> Draft:
    """The packages as a draft; limits of packages that aren't among them are left out."""
    draft, kept = Draft(universe.native), dict.fromkeys(names)
    for name in kept:
        draft.name(name)
        for listed in universe.package(name):
            draft.versions[Version(escape(name), listed.number)] = listed.text
            for line in universe.lines(listed):
                if not line.limited or line.limited in kept:
                    draft.add(line, with_source)
    return draft


def request_of(universe: Universe, roots: list[tuple[str, str]]) -> Request:
    """The roots as needs, and what they recommend as wishes."""
    lines: list[RequestLine] = []
    for name, text in roots:
        run = [v.number for v in universe.package(name) if text in ("", v.text)]
        lines.append(NeedsLine((universe.spec(name, (run[0], run[-1] + 1)),)))
    asked, wished = {name for name, _ in roots}, dict[str, int]()
    for name, text in roots:
        newest = [v for v in universe.package(name) if text in ("", v.text)][-1]
        for _, group in relation_groups(newest.fields, "recommends"):
            found = universe.alternatives(group)
            if found and not any(other in asked or other in wished for other, _ in found):
                wished[found[0][0]] = found[0][1][1] - 1
    return Request((*lines, *(WishLine(Version(escape(name), number)) for name, number in wished.items())))


# ---- files


def unpacked(path: str) -> bytes:
    """The text of a Packages file, plain or compressed."""
    data = read_bytes(path)
    suffix = path[path.rfind("."):] if "." in path else ""
    if suffix not in UNPACKED:
        return apt_text(path) if suffix in (".lz4", ".zst") else data
    try:
        return UNPACKED[suffix](data)
    except (OSError, EOFError, ValueError, lzma.LZMAError, zlib.error) as error:
        raise Failure(shown_path(path), None, f"can't be unpacked: {error}") from None


def streams(unpacker_of: Callable[[], lzma.LZMADecompressor | bz2.BZ2Decompressor], data: bytes) -> bytes:
    """What one packed stream after the other holds. The modules' own calls pass over what follows the last one."""
    parts = []
    while data or not parts:
        unpacker = unpacker_of()
        parts.append(unpacker.decompress(data))
        if not unpacker.eof:
            raise EOFError("Compressed file ended before the end-of-stream marker was reached")
        # (zeros may fill a file up)
        data = unpacker.unused_data.lstrip(b"\0")
    return b"".join(parts)


def apt_text(path: str) -> bytes:
    """The text of one of apt's own lists, which apt unpacks."""
    try:
        done = subprocess.run([APT_HELPER, "cat-file", path], capture_output=True, stdin=subprocess.DEVNULL)
    except OSError as error:
        raise Failure(path, None, f"can't be unpacked: {APT_HELPER}: {error.strerror}") from None
    if done.returncode:
        said = "; ".join(line.strip() for line in done.stderr.decode("utf-8", "replace").splitlines() if line.strip())
        raise Failure(path, None, f"can't be unpacked: {said}")
    return done.stdout


def apt_lists() -> list[str]:
    """The Packages files that apt has."""
    command = ["apt-get", "indextargets", "--format", "$(FILENAME)", "Created-By: Packages"]
    try:
        done = subprocess.run(command, capture_output=True, stdin=subprocess.DEVNULL)
    except OSError as error:
        raise Failure("apt-get", None, f"can't be run: {error.strerror}") from None
    paths = done.stdout.decode("utf-8", "replace").splitlines()
    if done.returncode or not paths:
        raise Failure("apt-get indextargets", None, "names no Packages file; `apt-get update` fetches them")
    return paths


def native_architecture() -> str:
    """The architecture of this machine."""
    try:
        done = subprocess.run(["dpkg", "--print-architecture"], capture_output=True, stdin=subprocess.DEVNULL)
    except OSError as error:
        raise Failure("dpkg", None, f"can't be run: {error.strerror}; --arch says the architecture") from None
    return done.stdout.decode("ascii", "replace").strip()


def load_universe(paths: list[str], native: str) -> tuple[Universe, str]:
    """The packages of some files, each stanza read, and the sum of the files."""
    universe, total = Universe(native), hashlib.sha256()
    for path in paths:
        data = unpacked(path)
        total.update(data)
        for record in split_records([data], path):
            universe.add(record)
    for name in list(universe.records):
        for listed in universe.package(name):
            for field_name in ("pre-depends", "depends", "recommends"):
                relation_groups(listed.fields, field_name)
            for field_name in ("conflicts", "breaks"):
                relation_list(listed.fields, field_name)
    return universe, f"sha256:{total.hexdigest()}"


def read_roots(universe: Universe, words: list[str]) -> list[tuple[str, str]]:
    """`NAME` or `NAME=VERSION` each, as pairs; the version may be empty."""
    found = []
    for word in dict.fromkeys(words):
        name, _, text = word.partition("=")
        if not any(text in ("", listed.text) for listed in universe.package(name)):
            raise Failure("--closure", None, f"no file lists {word}", 1)
        found.append((name, text))
    return found


def import_debian(paths: list[str], native: str, words: list[str], with_source: bool) -> tuple[bytes, bytes]:
    """The catalogue and the request of some files; without roots all packages and an empty request."""
    if not ARCHITECTURE.match(native):
        raise Failure("--arch", None, f"{quoted(native)} isn't the name of an architecture")
    with progress("reading the packages"):
        universe, total = load_universe(paths, native)
    roots = read_roots(universe, words)
    with progress("writing the catalogue"):
        asked = [name for name, _ in roots]
        wished = [name for name, text in roots for name in recommended(universe, name, text)]
        names = universe.reach([*asked, *wished]) if roots else [n for n in universe.records if universe.package(n)]
        draft = draft_of(universe, names, with_source)
        draft.source = total
        catalogue = catalogue_text(draft.catalogue())
    if len(catalogue) > MOST_BYTES:
        reason = f"has {len(catalogue)} bytes, and at most {MOST_BYTES} may be; --closure ROOT.. makes it smaller"
        raise Failure("the catalogue", None, reason)
    return catalogue, request_text(request_of(universe, roots))


def recommended(universe: Universe, name: str, text: str) -> list[str]:
    """The packages that a root recommends, the first of each alternative."""
    newest = [listed for listed in universe.package(name) if text in ("", listed.text)][-1]
    found = [universe.alternatives(group) for _, group in relation_groups(newest.fields, "recommends")]
    return [alternatives[0][0] for alternatives in found if alternatives]
