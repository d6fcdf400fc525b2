"""Catalogues and requests as values: one value a line, so that line numbers keep their meaning.

`read_catalogue` and `read_request` read what `resolve` reads and raise Fault with the line that it names;
`catalogue_text` and `request_text` write a value's one text.
"""
from __future__ import annotations

from dataclasses import dataclass
from functools import cached_property
from typing import Callable, Iterator, Optional, Union

from tools.words import PLAIN, Bad, Condition, Fault, Spec, Spelling, Version, Words, quoted
from tools.words import condition_text, spec_text, specs_text, version_text

MOST_BYTES = 2**24


@dataclass(frozen=True, slots=True)
class SkippedLine:
    """An empty line, or one that begins with `#`; stray bytes are kept as surrogates."""

    text: str


@dataclass(frozen=True, slots=True)
class ManyLine:
    """`many NAME`: versions of the package may be installed together."""

    package: str


@dataclass(frozen=True, slots=True)
class VersionLine:
    """`version NAME NUM`."""

    version: Version


@dataclass(frozen=True, slots=True)
class NeedsLine:
    """`needs SPEC { | SPEC } [if COND]`."""

    alternatives: tuple[Spec, ...]
    condition: Optional[Condition] = None


@dataclass(frozen=True, slots=True)
class LimitsLine:
    """`limits SPEC`."""

    spec: Spec


@dataclass(frozen=True, slots=True)
class UnknownLine:
    """`unknown REASON`."""

    reason: str


@dataclass(frozen=True, slots=True)
class LockLine:
    """`lock NAME NUM`."""

    version: Version


@dataclass(frozen=True, slots=True)
class FavourLine:
    """`favour NAME NUM`."""

    version: Version


@dataclass(frozen=True, slots=True)
class ExcludeLine:
    """`exclude NAME NUM REASON`."""

    version: Version
    reason: str


@dataclass(frozen=True, slots=True)
class WishLine:
    """`wish NAME NUM`."""

    version: Version


CatalogueLine = Union[
    SkippedLine, ManyLine, VersionLine, NeedsLine, LimitsLine, UnknownLine, LockLine, FavourLine, ExcludeLine
]
RequestLine = Union[SkippedLine, NeedsLine, LimitsLine, WishLine]
Line = Union[CatalogueLine, WishLine]
# The lines that ask something of a set of versions.
RULES = (NeedsLine, LimitsLine, UnknownLine, LockLine, ExcludeLine)


@dataclass(frozen=True, slots=True)
class Placed:
    """A line with its number, and its owner: the nearest `version` line above where the line belongs to one."""

    number: int
    line: Line
    owner: Optional[Version]


@dataclass(frozen=True)
class Catalogue:
    """The lines of a catalogue; line N is `lines[N - 1]`."""

    lines: tuple[CatalogueLine, ...]

    @cached_property
    def placed(self) -> tuple[Placed, ...]:
        """Each line with its number and owner."""
        return tuple(place_lines(self.lines))

    @cached_property
    def listed(self) -> tuple[Version, ...]:
        """The versions in line order."""
        return tuple(line.version for line in self.lines if isinstance(line, VersionLine))

    @cached_property
    def many(self) -> frozenset[str]:
        """The packages of which versions may be installed together."""
        return frozenset(line.package for line in self.lines if isinstance(line, ManyLine))

    @cached_property
    def line_of(self) -> dict[Version, int]:
        """The number of each version's `version` line."""
        return {p.line.version: p.number for p in self.placed if isinstance(p.line, VersionLine)}

    def matches(self, spec: Spec) -> list[Version]:
        """The listed versions that match, in line order."""
        return [version for version in self.by_package.get(spec.package, ()) if spec.matches(version)]

    @cached_property
    def by_package(self) -> dict[str, list[Version]]:
        """The versions of each package, in line order."""
        found: dict[str, list[Version]] = {}
        for version in self.listed:
            found.setdefault(version.package, []).append(version)
        return found


@dataclass(frozen=True)
class Request:
    """The lines of a request; line N is `lines[N - 1]`."""

    lines: tuple[RequestLine, ...]

    @cached_property
    def placed(self) -> tuple[Placed, ...]:
        """Each line with its number; none has an owner."""
        return tuple(Placed(number, line, None) for number, line in enumerate(self.lines, 1))


def place_lines(lines: tuple[CatalogueLine, ...]) -> Iterator[Placed]:
    """Gives each line of a catalogue its number and owner."""
    owner: Optional[Version] = None
    for number, line in enumerate(lines, 1):
        if isinstance(line, VersionLine):
            owner = line.version
            yield Placed(number, line, None)
        else:
            owned = isinstance(line, (NeedsLine, LimitsLine, UnknownLine))
            yield Placed(number, line, owner if owned else None)


# ---- texts of lines


def line_text(line: Line, spelling: Spelling = PLAIN) -> str:
    """The line without its newline."""
    if isinstance(line, SkippedLine):
        return line.text
    if isinstance(line, NeedsLine):
        behind = f" if {condition_text(line.condition, spelling)}" if line.condition is not None else ""
        return f"needs {specs_text(line.alternatives, spelling)}{behind}"
    if isinstance(line, LimitsLine):
        return f"limits {spec_text(line.spec, spelling)}"
    if isinstance(line, UnknownLine):
        return f"unknown {line.reason}"
    if isinstance(line, ManyLine):
        return f"many {spelling.name_text(line.package)}"
    behind = f" {line.reason}" if isinstance(line, ExcludeLine) else ""
    return f"{KEYWORDS[type(line)]} {version_text(line.version, spelling, ' ')}{behind}"


KEYWORDS = {
    VersionLine: "version",
    LockLine: "lock",
    FavourLine: "favour",
    ExcludeLine: "exclude",
    WishLine: "wish",
}


def encoded(text: str) -> bytes:
    """The bytes of a text that was decoded by `decoded`."""
    return text.encode("utf-8", "surrogateescape")


def decoded(data: bytes) -> str:
    """Bytes as a text; what isn't UTF-8 becomes surrogates, so that `encoded` gives the same bytes."""
    return data.decode("utf-8", "surrogateescape")


def catalogue_text(catalogue: Catalogue, spelling: Spelling = PLAIN) -> bytes:
    """The catalogue's one text."""
    return encoded("".join(line_text(line, spelling) + "\n" for line in catalogue.lines))


def request_text(request: Request, spelling: Spelling = PLAIN) -> bytes:
    """The request's one text."""
    return encoded("".join(line_text(line, spelling) + "\n" for line in request.lines))


# ---- reading a line


def read_needs(words: Words) -> NeedsLine:
    """The rest of a line with `needs`."""
    alternatives, condition = words.alternatives(), None
    if words.peek() == "if":
        words.at += 1
        condition = words.condition()
    return NeedsLine(alternatives, condition)


COMMON: dict[str, Callable[[Words], Line]] = {
    "needs": read_needs,
    "limits": lambda words: LimitsLine(words.spec()),
}
CATALOGUE_FORMS: dict[str, Callable[[Words], Line]] = COMMON | {
    "many": lambda words: ManyLine(words.name()),
    "version": lambda words: VersionLine(words.spaced_version()),
    "unknown": lambda words: UnknownLine(words.reason()),
    "lock": lambda words: LockLine(words.spaced_version()),
    "favour": lambda words: FavourLine(words.spaced_version()),
    "exclude": lambda words: ExcludeLine(words.spaced_version(), words.reason()),
}
REQUEST_FORMS: dict[str, Callable[[Words], Line]] = COMMON | {
    "wish": lambda words: WishLine(words.spaced_version()),
}


def read_line(raw: str, forms: dict[str, Callable[[Words], Line]], spelling: Spelling) -> Line:
    """One line; raises Bad."""
    if not raw or raw.startswith("#"):
        return SkippedLine(raw)
    if "\r" in raw:
        raise Bad("a carriage return; lines end with a newline alone")
    words = Words(raw, spelling)
    keyword = words.take("a keyword")
    if keyword not in forms:
        raise Bad(f"a line begins with {', '.join(sorted(forms))} or #, not {quoted(keyword)}")
    line = forms[keyword](words)
    words.end()
    return line


def split_lines(data: bytes) -> list[str]:
    """The lines of a text; the last newline may be absent."""
    lines = decoded(data).split("\n")
    if not lines[-1]:
        lines.pop()
    return lines


# ---- whole texts


class CatalogueReader:
    """Which line may follow which; raises Bad."""

    def __init__(self) -> None:
        self.owner: Optional[Version] = None
        self.listed: set[Version] = set()
        self.packages: set[str] = set()
        self.seen: set[tuple[type, object]] = set()

    def check(self, line: Line) -> None:
        """Checks that the line may follow those before it."""
        if isinstance(line, VersionLine):
            self.once(line, line.version, f"{line.version} is listed already")
            self.listed.add(line.version)
            self.packages.add(line.version.package)
            self.owner = line.version
        elif isinstance(line, ManyLine):
            if line.package in self.packages:
                raise Bad(f"a line above lists a version of {line.package}")
            self.once(line, line.package, f"{line.package} has a `many` line already")
        elif isinstance(line, (NeedsLine, LimitsLine, UnknownLine)):
            if self.owner is None:
                raise Bad("there is no `version` line above it")
            if isinstance(line, UnknownLine):
                self.once(line, self.owner, f"{self.owner} is marked unknown already")
        elif not isinstance(line, SkippedLine):
            self.check_mark(line)

    def check_mark(self, line: Union[LockLine, FavourLine, ExcludeLine]) -> None:
        """Locks, favours and exclusions."""
        version = line.version
        if version not in self.listed:
            raise Bad(f"no line above lists {version}")
        if isinstance(line, ExcludeLine):
            self.once(line, version, f"{version} is excluded already")
        else:
            self.once(line, version.package, f"{version.package} has a `{KEYWORDS[type(line)]}` line already")

    def once(self, line: Line, key: object, reason: str) -> None:
        """No line of this kind had this key."""
        if (type(line), key) in self.seen:
            raise Bad(reason)
        self.seen.add((type(line), key))


class RequestReader:
    """Which wishes a request may have; raises Bad."""

    def __init__(self, catalogue: Catalogue) -> None:
        self.listed, self.wished = catalogue.line_of, set[Version]()

    def check(self, line: Line) -> None:
        """Checks that the line may follow those before it."""
        if isinstance(line, WishLine):
            if line.version not in self.listed:
                raise Bad(f"the catalogue doesn't list {line.version}")
            if line.version in self.wished:
                raise Bad(f"{line.version} is wished for already")
            self.wished.add(line.version)


def read_lines(data: bytes, text: str, forms: dict, check: Callable[[Line], None], spelling: Spelling) -> tuple:
    """The lines of a text, each checked; a text that is too long is faulty where a whole line before its end is."""
    lines = split_lines(data[:MOST_BYTES])
    if len(data) > MOST_BYTES and not data[:MOST_BYTES].endswith(b"\n"):
        lines.pop()
    found = []
    for number, raw in enumerate(lines, 1):
        try:
            line = read_line(raw, forms, spelling)
            check(line)
        except Bad as bad:
            raise Fault(text, number, str(bad)) from None
        found.append(line)
    if len(data) > MOST_BYTES:
        raise Fault(text, None, f"it has more than {MOST_BYTES} bytes")
    return tuple(found)


def read_catalogue(data: bytes, spelling: Spelling = PLAIN) -> Catalogue:
    """A catalogue; raises Fault with the line that `resolve` names."""
    return Catalogue(read_lines(data, "catalogue", CATALOGUE_FORMS, CatalogueReader().check, spelling))


def read_request(data: bytes, catalogue: Catalogue, spelling: Spelling = PLAIN) -> Request:
    """A request over the catalogue; raises Fault with the line that `resolve` names."""
    return Request(read_lines(data, "request", REQUEST_FORMS, RequestReader(catalogue).check, spelling))


def split_input(data: bytes) -> tuple[bytes, bytes]:
    """Standard input of `resolve` alone: the catalogue above the first line `---`, the request below it."""
    lines = data.split(b"\n")
    if b"---" not in lines:
        return data, b""
    at = lines.index(b"---")
    above = b"".join(line + b"\n" for line in lines[:at])
    return above, b"\n".join(lines[at + 1:])
