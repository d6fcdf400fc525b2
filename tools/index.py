"""What importers share: a package index of an ecosystem as a catalogue, and requirements over it as a request.

An importer gives the listed versions of each package in its ecosystem's order, and for each version its rules. They have
the listed versions that fit by the ecosystem's own matcher. Here these become runs of neighbouring versions, lines, a
dictionary.
"""
from __future__ import annotations

import hashlib
import os
from dataclasses import dataclass, replace
from typing import Iterable, Mapping, NamedTuple, NoReturn, Optional, Protocol, Union

from tools.catalogue import MOST_BYTES, Catalogue, CatalogueLine, ExcludeLine, LimitsLine, NeedsLine, Request
from tools.catalogue import RequestLine, SkippedLine, UnknownLine, VersionLine, catalogue_text, request_text
from tools.dictionary import Dictionary, check_word, escape, name_entry
from tools.files import Failure, read_again, read_bytes
from tools.words import Bad, Spec, Version, quoted


class Match(NamedTuple):
    """The versions of a package that fit, by number, rising."""

    package: str
    numbers: tuple[int, ...]


@dataclass(frozen=True, slots=True)
class Needs:
    """One of these versions is needed, the first choice first."""

    source: str
    choices: tuple[Match, ...]


@dataclass(frozen=True, slots=True)
class Limits:
    """Of this package just these versions are borne."""

    source: str
    match: Match


Rule = Union[Needs, Limits]


@dataclass(frozen=True, slots=True)
class Release:
    """One version: its rules; a word is the reason why it is barred, or why its rules aren't known."""

    rules: tuple[Rule, ...] = ()
    barred: Optional[str] = None
    unknown: Optional[str] = None


class Index(Protocol):
    """An importer's side. Packages have real names; what isn't listed has no versions."""

    ecosystem: str
    settings: str
    path: str

    def packages(self) -> Iterable[str]:
        """The packages that a whole import begins with."""

    def listed(self, package: str) -> Mapping[int, str]:
        """The text of each version by number, rising."""

    def release(self, package: str, number: int) -> Release:
        """What one version asks."""

    def source(self) -> str:
        """What the index was, as one word."""


# ---- runs


def runs(numbers: Iterable[int], listed: Iterable[int]) -> list[tuple[int, int]]:
    """The maximal runs of neighbouring listed versions, each from LO to below HI."""
    wanted, found, is_open = set(numbers), list[tuple[int, int]](), False
    for number in listed:
        if number in wanted:
            low = found.pop()[0] if is_open else number
            found.append((low, number + 1))
        is_open = number in wanted
    return found


def specs_of(match: Match, index: Index) -> tuple[Spec, ...]:
    """A SPEC for each run, the newest first; none where nothing fits."""
    name, listed = escape(match.package), index.listed(match.package)
    if listed and len(match.numbers) == len(listed):
        return (Spec(name, None),)
    found = runs(match.numbers, listed)
    return tuple(Spec(name, (low,) if high == low + 1 else (low, high)) for low, high in reversed(found))


def nothing(match: Match, index: Index) -> Spec:
    """A SPEC that no version fits: 0 is never listed."""
    return Spec(escape(match.package), (0,) if index.listed(match.package) else None)


def rule_line(rule: Rule, index: Index) -> Optional[NeedsLine | LimitsLine]:
    """The line of a rule; None where it asks nothing."""
    if isinstance(rule, Needs):
        specs = tuple(spec for match in rule.choices for spec in specs_of(match, index))
        return NeedsLine(specs or (nothing(rule.choices[0], index),))
    listed, specs = index.listed(rule.match.package), specs_of(rule.match, index)
    if len(rule.match.numbers) == len(listed):
        return None
    if len(specs) > 1:
        return NeedsLine(specs, Spec(escape(rule.match.package), None))
    return LimitsLine(specs[0] if specs else nothing(rule.match, index))


def rule_packages(rule: Rule) -> list[str]:
    """The packages that a rule may bring in."""
    return [match.package for match in rule.choices] if isinstance(rule, Needs) else []


# ---- catalogue and request


class Builder:
    """Puts the lines of a catalogue together."""

    def __init__(self, index: Index, with_sources: bool) -> None:
        self.index, self.with_sources = index, with_sources
        self.releases: dict[tuple[str, int], Release] = {}
        self.lines: list[CatalogueLine] = []
        self.made: dict[tuple, Optional[NeedsLine | LimitsLine]] = {}
        self.dictionary = Dictionary(index.ecosystem, index.settings)

    def reach(self, roots: Iterable[str]) -> list[str]:
        """The packages that the roots reach over needs, in the order of their names."""
        due, found = list(roots), set[str](roots)
        while due:
            package = due.pop()
            for number in self.index.listed(package):
                release = self.index.release(package, number)
                self.releases[package, number] = release
                more = {name for rule in release.rules for name in rule_packages(rule)} - found
                found |= more
                due += sorted(more)
        return sorted(package for package in found if self.index.listed(package))

    def package(self, package: str, inside: set[str]) -> None:
        """All lines of a package."""
        name = escape(package)
        self.dictionary.names.update(name_entry(package))
        for number, text in self.index.listed(package).items():
            version, release = Version(name, number), self.releases[package, number]
            self.lines.append(VersionLine(version))
            self.dictionary.versions[version] = text
            if release.unknown:
                self.lines.append(UnknownLine(release.unknown))
            for rule in release.rules:
                self.rule(rule, inside)
            if release.barred:
                self.lines.append(ExcludeLine(version, release.barred))

    def rule(self, rule: Rule, inside: set[str]) -> None:
        """The line of a rule; a limit on a package outside is left out, since nothing brings that in."""
        if isinstance(rule, Limits) and rule.match.package not in inside:
            return
        key = rule.choices if isinstance(rule, Needs) else rule.match
        if key not in self.made:
            self.made[key] = rule_line(rule, self.index)
        line = self.made[key]
        if line is not None:
            self.lines.append(line)
            if self.with_sources:
                self.dictionary.sources[len(self.lines)] = printable(rule.source)


def printable(text: str) -> str:
    """The text for a `#` line."""
    return "".join(c if c.isprintable() else "?" for c in text) or "-"


def index_catalogue(index: Index, roots: Optional[list[str]], with_sources: bool = False) -> bytes:
    """The catalogue of an index, or of what the roots reach in it; raises Failure."""
    for root in roots or ():
        if not index.listed(root):
            raise Failure(index.path, None, f"no package is named `{root}` (--closure)")
    if not index.settings.isprintable() or " " in index.settings or not index.settings:
        raise Failure(index.path, None, f"the settings {quoted(index.settings)} aren't one word of printable signs")
    builder = Builder(index, with_sources)
    packages = builder.reach(sorted(index.packages()) if roots is None else roots)
    for package in packages:
        builder.package(package, set(packages))
    dictionary = replace(builder.dictionary, source=index.source())
    data = catalogue_text(Catalogue(dictionary.lines(tuple(builder.lines))))
    if len(data) > MOST_BYTES:
        raise Failure(index.path, None, f"its catalogue has {len(data)} of {MOST_BYTES} bytes; take --closure ROOT..")
    return data


def index_request(index: Index, rules: Iterable[Rule | str]) -> bytes:
    """The request of these rules, each below its source; a text alone becomes a comment."""
    lines: list[RequestLine] = []
    for rule in rules:
        if isinstance(rule, str):
            lines.append(SkippedLine(f"# {printable(rule)}"))
            continue
        line = rule_line(rule, index)
        lines.append(SkippedLine(f"# {printable(rule.source)}"))
        if line is not None:
            lines.append(line)
    return request_text(Request(tuple(lines)))


# ---- what readers share


def checked_text(text: str, path: str, line: int) -> str:
    """The text of a version, as the dictionary takes it; raises Failure."""
    try:
        check_word(text, "the version")
    except Bad as bad:
        raise Failure(path, line, str(bad)) from None
    return text


def checked_name(name: str, path: str, line: int) -> str:
    """A real name, as the dictionary takes it; raises Failure."""
    try:
        check_word(name, "the name", "=")
    except Bad as bad:
        raise Failure(path, line, str(bad)) from None
    return name


def files_below(folder: str) -> list[str]:
    """All files of a folder and the folders in it, in the order of their names."""
    found = [os.path.join(top, name) for top, _, names in os.walk(folder, onerror=refuse) for name in names]
    if not found and not os.path.isdir(folder):
        raise Failure(folder, None, "isn't a folder")
    return sorted(found)


def refuse(error: OSError) -> NoReturn:
    """A folder that can't be read isn't passed over."""
    raise Failure(str(error.filename), None, f"can't be read: {error.strerror}")


def sum_of_files(paths: Iterable[str], top: str) -> str:
    """One sum for files: that of the file itself, or of all names and sums where there is a folder."""
    if not os.path.isdir(top):
        return "sha256:" + hashlib.sha256(read_again(top)).hexdigest()
    whole = hashlib.sha256()
    for path in paths:
        name = os.path.relpath(path, top).encode("utf-8", "surrogateescape")
        whole.update(hashlib.sha256(name).digest() + hashlib.sha256(read_bytes(path)).digest())
    return "sha256:" + whole.hexdigest()
