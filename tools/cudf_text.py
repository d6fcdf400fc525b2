"""CUDF 2.0 documents: packages and a request, read line by line and checked as libcudf does.

A stanza's first property says what it is. Lines that begin with `#` are passed over, a line that begins with a space goes
on with the line above, and empty lines part stanzas. Errors are Failures with the file and the line.
"""
from __future__ import annotations

import codecs
import re
from dataclasses import dataclass, field
from functools import cached_property
from typing import BinaryIO, Callable, Iterator, NamedTuple, NoReturn, Optional

from tools.files import Failure, open_bytes, shown_path
from tools.words import Bad, has_long_number, quoted

PIECE = 2**18
NAME = r"[A-Za-z0-9+./@()%-]+"
ATOM = re.compile(rf"[ \t]*({NAME})[ \t]*(?:(>=|<=|!=|=|>|<)[ \t]*\+?([0-9]+)[ \t]*)?\Z")
PROPERTY = re.compile(r"[a-z][a-z0-9-]*\Z")
IDENT = re.compile(r"[ \t]*([a-z][a-z0-9-]*)[ \t]*\Z")
NUMBER = re.compile(r"[ \t]*(?:\+?([0-9]+)|(-[0-9]+))[ \t]*\Z")
TEXT = re.compile(r'[ \t]*"((?:[^"\\\r\n]|\\["\\])*)"[ \t]*\Z')
DECLARED = re.compile(rf'[ \t]*([a-z][a-z0-9-]*)[ \t]*:[ \t]*([a-z]+[ \t]*(?:\[[^\]]*\])?)[ \t]*(?:=[ \t]*\[((?:"(?:[^"\\]|\\.)*"|[^\]"])*)\][ \t]*)?(?:,|\Z)')
KEEP = ("version", "package", "feature", "none")


class Atom(NamedTuple):
    """`NAME SIGN NUMBER`; without a sign any version."""

    name: str
    sign: str = ""
    number: int = 0

    def holds(self, version: Optional[int]) -> bool:
        """Whether a version is one of these; None is what is provided in all versions."""
        return version is None or not self.sign or SIGNS[self.sign](version, self.number)

    def __str__(self) -> str:
        return f"{self.name} {self.sign} {self.number}" if self.sign else self.name


SIGNS: dict[str, Callable[[int, int], bool]] = {
    "=": lambda a, b: a == b, "!=": lambda a, b: a != b, ">=": lambda a, b: a >= b,
    "<=": lambda a, b: a <= b, ">": lambda a, b: a > b, "<": lambda a, b: a < b,
}
Atoms = tuple[Atom, ...]
Formula = tuple[Atoms, ...]  # one of each part; an empty part is `false!`


@dataclass(slots=True, eq=False)
class Package:
    """One version of a package, and the line at which its stanza begins."""

    name: str
    version: int
    line: int
    depends: Formula = ()
    conflicts: Atoms = ()
    provides: Atoms = ()
    installed: bool = False
    keep: str = "none"
    is_avoided: bool = False

    def offered(self, name: str) -> list[Optional[int]]:
        """The versions of a name that it is or provides; None is all versions."""
        given = [atom.number if atom.sign else None for atom in self.provides if atom.name == name]
        return [self.version, *given] if self.name == name else given


@dataclass
class Document:
    """The packages by name, each package's versions rising; who provides what; the request."""

    path: str
    packages: dict[str, list[Package]] = field(default_factory=dict)
    providers: dict[str, dict[Package, None]] = field(default_factory=dict)
    request: dict[str, Atoms] = field(default_factory=dict)
    request_line: int = 0

    def installed(self) -> list[Package]:
        """What is there before, in the order of names."""
        return [each for listed in self.packages.values() for each in listed if each.installed]


# ---- values


ATOMS: dict[str, Atom] = {}


def read_atom(text: str) -> Atom:
    """A package with its constraint; raises Bad."""
    found = ATOMS.get(text)
    if found is None:
        match = ATOM.match(text)
        if not match or has_long_number(text):
            shown = quoted(text.strip(" \t"))
            raise Bad(f"{shown} isn't a package, or a package with a constraint")
        name, sign, number = match.groups()
        found = ATOMS[text] = Atom(plain_name(name), sign or "", int(number or 0))
    return found


def plain_name(name: str) -> str:
    """A name of digits alone has no sign."""
    return name[1:] if name[0] == "+" and name[1:].isdigit() else name


def read_name(text: str) -> str:
    """A package's name."""
    atom = read_atom(text)
    if atom.sign:
        raise Bad(f"{quoted(text)} isn't the name of a package")
    return atom.name


def read_atoms(text: str) -> Atoms:
    """Packages parted by commas; an empty text has none."""
    return tuple(map(read_atom, text.split(","))) if text.strip(" \t") else ()


def read_provided(text: str) -> Atoms:
    """As `read_atoms`, with `=` alone."""
    found = read_atoms(text)
    for atom in found:
        if atom.sign not in ("", "="):
            raise Bad(f"{quoted(str(atom))} is provided; only `=` can be")
    return found


def read_formula(text: str) -> Formula:
    """Alternatives parted by `|`, and parts parted by commas; `true!` and `false!` are alone."""
    alone = text.strip(" \t")
    if alone in ("true!", "false!"):
        return () if alone == "true!" else ((),)
    return tuple(tuple(map(read_atom, part.split("|"))) for part in text.split(","))


def read_number(text: str) -> int:
    """Any whole number."""
    match = NUMBER.match(text)
    if not match or has_long_number(text):
        raise Bad(f"{quoted(text)} isn't a whole number")
    return int(match[1] or match[2])


def read_positive(text: str) -> int:
    """A whole number of at least 1, as versions are."""
    match = NUMBER.match(text)
    if not match or not match[1] or has_long_number(text) or int(match[1]) < 1:
        raise Bad(f"{quoted(text)} isn't a whole number of at least 1")
    return int(match[1])


def read_natural(text: str) -> int:
    """A whole number of at least 0."""
    number = read_number(text)
    if number < 0:
        raise Bad(f"{quoted(text)} isn't a whole number of at least 0")
    return number


def read_truth(text: str) -> bool:
    """`true` or `false`."""
    if text.strip(" \t") not in ("true", "false"):
        raise Bad(f"{quoted(text)} isn't `true` or `false`")
    return text.strip(" \t") == "true"


def read_ident(text: str) -> str:
    """One word of small letters."""
    match = IDENT.match(text)
    if not match:
        raise Bad(f"{quoted(text)} isn't one word of small letters")
    return match[1]


def read_one(text: str) -> Atom:
    """One package with its constraint."""
    return read_atom(text)


def read_one_provided(text: str) -> Atom:
    """One package, with `=` alone."""
    found = read_provided(text)
    if len(found) != 1:
        raise Bad(f"{quoted(text)} isn't one package")
    return found[0]


def one_of(words: tuple[str, ...]) -> Callable[[str], str]:
    """The reader of a word of these."""

    def read(text: str) -> str:
        word = text.strip(" \t")
        if word not in words:
            raise Bad(f"{quoted(text)} isn't one of {', '.join(words)}")
        return word

    return read


Reader = Callable[[str], object]
TYPES: dict[str, Reader] = {
    "int": read_number, "posint": read_positive, "nat": read_natural, "bool": read_truth, "string": str,
    "pkgname": read_name, "ident": read_ident, "vpkg": read_one, "vpkgformula": read_formula, "vpkglist": read_atoms,
    "veqpkg": read_one_provided, "veqpkglist": read_provided,
}


@dataclass(frozen=True, slots=True)
class Declared:
    """The type of a property, whether a stanza may leave it out, and the values of the texts that were read."""

    read: Reader
    may_be_missing: bool = True
    known: dict[str, object] = field(default_factory=dict)

    def value(self, text: str) -> object:
        """The value of a text; raises Bad."""
        if self.read is str:
            return text
        self.known[text] = value = self.read(text)
        return value


class Kind(dict[str, Declared]):
    """The properties that stanzas of one kind may have."""

    @cached_property
    def due(self) -> tuple[str, ...]:
        """Those that none may leave out."""
        return tuple(name for name, each in self.items() if not each.may_be_missing)


def read_type(text: str) -> Reader:
    """A type's reader."""
    word, bracket, rest = text.strip(" \t").partition("[")
    word = word.strip(" \t")
    if word == "enum" and bracket:
        return one_of(tuple(read_ident(each) for each in rest.rstrip("]").split(",")))
    if word not in TYPES or bracket:
        raise Bad(f"{quoted(text.strip())} isn't a type")
    return TYPES[word]


def read_properties(text: str) -> dict[str, Declared]:
    """What a preamble declares: `NAME: TYPE = [DEFAULT]` each."""
    found: dict[str, Declared] = {}
    at = 0
    while text[at:].strip(" \t"):
        match = DECLARED.match(text, at)
        if not match:
            raise Bad(f"{quoted(text[at:].strip())} isn't the declaration of a property")
        name, kind, default = match.groups()
        read = read_type(kind)
        if default is not None:
            read_default(read, default)
        found[name], at = Declared(read, default is not None), match.end()
    return found


def read_default(read: Reader, text: str) -> None:
    """A default is of its type; texts are in quotes."""
    if read is str:
        if not TEXT.match(text):
            raise Bad(f"{quoted(text)} isn't a text in quotes")
    else:
        read(text)


PREAMBLE = Kind({
    "preamble": Declared(str, False), "property": Declared(read_properties), "univ-checksum": Declared(str),
    "status-checksum": Declared(str), "req-checksum": Declared(str),
})
PACKAGE = Kind({
    "package": Declared(read_name, False), "version": Declared(read_positive, False), "depends": Declared(read_formula),
    "conflicts": Declared(read_atoms), "provides": Declared(read_provided), "installed": Declared(read_truth),
    "was-installed": Declared(read_truth), "keep": Declared(one_of(KEEP)),
})
REQUEST = Kind({
    "request": Declared(str, False), "install": Declared(read_atoms), "remove": Declared(read_atoms),
    "upgrade": Declared(read_atoms),
})
KINDS = {"preamble": PREAMBLE, "package": PACKAGE, "request": REQUEST}


# ---- stanzas


class Stanza(dict[str, str]):
    """The properties of a stanza as texts, and the line of each."""

    def __init__(self, path: str, line: int) -> None:
        super().__init__()
        self.path, self.line, self.lines = path, line, dict[str, int]()

    def fail(self, reason: str, line: Optional[int] = None) -> NoReturn:
        """Raises the Failure of a line of the stanza."""
        raise Failure(shown_path(self.path), line or self.line, reason)

    def values(self, kind: Kind) -> dict[str, object]:
        """The properties as values; each is declared, and none is missing."""
        found: dict[str, object] = {}
        for name, text in self.items():
            declared = kind.get(name)
            if declared is None:
                self.fail(f"no property {quoted(name)} is declared for this stanza", self.lines[name])
            value = declared.known.get(text)
            if value is None:
                try:
                    value = declared.value(text)
                except Bad as bad:
                    self.fail(str(bad), self.lines[name])
            found[name] = value
        for name in kind.due:
            if name not in found:
                self.fail(f"the stanza has no {quoted(name)}")
        return found


def read_lines(source: BinaryIO, path: str) -> Iterator[str]:
    """The lines of a file without their newlines, read piece by piece."""
    decode, rest, line = codecs.getincrementaldecoder("utf-8")().decode, "", 1
    while True:
        piece = source.read(PIECE)
        try:
            text = rest + decode(piece, final=not piece)
        except UnicodeDecodeError as error:
            line += error.object[:error.start].count(b"\n")
            raise Failure(shown_path(path), line, "isn't UTF-8") from None
        lines = text.split("\n")
        rest = lines.pop()
        line += len(lines)
        yield from lines
        if not piece:
            break
    if rest:
        raise Failure(shown_path(path), line, "its last line has no newline: was the file cut off?")


def read_stanzas(lines: Iterator[str], path: str) -> Iterator[Stanza]:
    """The stanzas of a text."""
    stanza, name, names = None, "", set[str]()
    for number, text in enumerate(lines, 1):
        first = text[:1]
        if first == "#":
            continue
        if not text or (first in " \t" and not text.strip(" \t")):
            if stanza is not None:
                yield stanza
                stanza = None
            continue
        if stanza is None:
            stanza, name = Stanza(path, number), ""
        if first == " ":
            if not name:
                stanza.fail("a property is due, not more of one", number)
            stanza[name] += text[1:]
            continue
        name, colon, value = text.partition(": ")
        if not colon or name not in names:
            if not colon or not PROPERTY.match(name):
                stanza.fail(f"{quoted(text)} isn't a property `NAME: VALUE`", number)
            names.add(name)
        if name in stanza:
            stanza.fail(f"the stanza has {quoted(name)} already", number)
        stanza[name], stanza.lines[name] = value, number
    if stanza is not None:
        yield stanza


# ---- documents


class DocumentReader:
    """Takes the stanzas one after the other."""

    def __init__(self, path: str) -> None:
        self.found, self.declared = Document(path), PACKAGE
        self.is_first = True

    def take(self, stanza: Stanza) -> None:
        """The next stanza."""
        kind = next(iter(stanza))
        if kind not in KINDS:
            stanza.fail(f"{quoted(kind)} isn't the first property of a stanza")
        if self.found.request_line:
            stanza.fail(f"a stanza behind the request, which is at line {self.found.request_line}")
        if kind == "preamble":
            self.preamble(stanza)
        elif kind == "package":
            self.package(stanza)
        else:
            values = stanza.values(REQUEST)
            self.found.request = {key: value for key, value in values.items() if key != "request"}
            self.found.request_line = stanza.line
        self.is_first = False

    def preamble(self, stanza: Stanza) -> None:
        """The properties that packages may have beside the known ones."""
        if not self.is_first:
            stanza.fail("the preamble isn't the first stanza")
        self.declared = Kind(PACKAGE | stanza.values(PREAMBLE).get("property", {}))

    def package(self, stanza: Stanza) -> None:
        """A version of a package."""
        values = stanza.values(self.declared)
        get = values.get
        package = Package(
            values["package"], values["version"], stanza.line, get("depends", ()), get("conflicts", ()), get("provides", ()),
            get("installed", False), get("keep", "none"), get("avoid-version", 0) not in (0, False),
        )
        self.found.packages.setdefault(package.name, []).append(package)
        for atom in package.provides:
            self.found.providers.setdefault(atom.name, {})[package] = None

    def end(self) -> Document:
        """The document, if it is one."""
        found = self.found
        if not found.request_line:
            raise Failure(shown_path(found.path), None, "has no request: was the file cut off?")
        for name, listed in found.packages.items():
            listed.sort(key=lambda each: each.version)
            for one, other in zip(listed, listed[1:]):
                if one.version == other.version:
                    reason = f"{name} {one.version} is listed already, in line {min(one.line, other.line)}"
                    raise Failure(shown_path(found.path), max(one.line, other.line), reason)
        return found


def read_document(path: str) -> Document:
    """The document of a file; `-` is standard input."""
    reader = DocumentReader(path)
    try:
        with open_bytes(path) as source:
            for stanza in read_stanzas(read_lines(source, path), path):
                reader.take(stanza)
    except OSError as error:
        raise Failure(shown_path(path), None, f"can't be read: {error.strerror}") from None
    return reader.end()
