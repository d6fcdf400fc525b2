"""Stanzas of Debian's control files, versions in Debian's order, and relations between packages.

`split_records` cuts a text at its empty lines and looks no further; `Record.fields` reads one stanza. Errors are
Failures with the file and the line.
"""
from __future__ import annotations

import re
from dataclasses import dataclass
from functools import lru_cache
from typing import Callable, Iterable, Iterator, NamedTuple, NoReturn, Optional, Union

from tools.files import Failure, shown_path
from tools.words import MOST_DIGITS, Bad, has_long_number, quoted

FIELD = re.compile(r"[!-9;-~]+\Z")
NAME = re.compile(r"[A-Za-z0-9][A-Za-z0-9+.-]*\Z")
WITH_EPOCH = re.compile(r"([0-9]{1,10}):([A-Za-z0-9.+~:-]+?)(?:-([A-Za-z0-9.+~]+))?\Z")
WITHOUT_EPOCH = re.compile(r"([A-Za-z0-9.+~-]+?)(?:-([A-Za-z0-9.+~]+))?\Z")
RELATION = re.compile(r"([^\s:()]+)(?::([a-z0-9-]+))?\s*(?:\(\s*(<<|<=|=|>=|>>|<|>)\s*([^\s()]+)\s*\))?\Z")
PIECE = re.compile("([^0-9]*)([0-9]*)")
# How most stanzas of an index or a scenario begin.
USUAL = re.compile(rb"Package: ([^\n]*)\nArchitecture: ([^\n]*)\n")
# `<` and `>` are old spellings of `<=` and `>=`.
OLD_SIGNS = {"<": "<=", ">": ">="}
LARGEST_EPOCH = 2**31 - 1
EMPTY = (b"", b"\n")  # how a piece between empty lines begins that isn't a stanza alone

Key = tuple  # sorts as Debian sorts


# ---- versions


def sign_order(sign: str) -> int:
    """Where a sign sorts: `~` before the end of the text (0), letters before all others."""
    if sign == "~":
        return -1
    return ord(sign) if sign.isalpha() else ord(sign) + 256


def part_key(text: str) -> Key:
    """The key of an upstream version or a revision: signs and numbers in turn."""
    found: list = []
    for match in PIECE.finditer(text or "0"):
        signs, digits = match.groups()
        if signs or digits:
            found += [(*map(sign_order, signs), 0), int(digits or 0)]
    return (*found, (0,))


@lru_cache(maxsize=None)
def version_key(text: str) -> Key:
    """A key that sorts as `dpkg --compare-versions` does; raises Bad."""
    match = (WITH_EPOCH if ":" in text else WITHOUT_EPOCH).match(text)
    if not match or has_long_number(text):
        raise Bad(f"{quoted(text)} isn't a version" + (f": a number has more than {MOST_DIGITS} digits" if match else ""))
    epoch, upstream, revision = match.groups() if ":" in text else ("0", *match.groups())
    if upstream.startswith("-") or upstream.endswith("-"):
        raise Bad(f"{quoted(text)} isn't a version: a part of it is empty")
    if int(epoch) > LARGEST_EPOCH:
        raise Bad(f"{quoted(text)} isn't a version: its epoch is too large")
    return int(epoch), part_key(upstream), part_key(revision or "")


# ---- relations


class Relation(NamedTuple):
    """`NAME:QUALIFIER (SIGN VERSION)`; an empty sign is any version."""

    name: str
    qualifier: str = ""
    sign: str = ""
    version: str = ""

    def holds(self, version: str) -> bool:
        """Whether a version is one of these."""
        if not self.sign:
            return True
        mine, theirs = version_key(self.version), version_key(version)
        if self.sign in ("=", "<=", ">=") and mine == theirs:
            return True
        return theirs < mine if self.sign in ("<<", "<=") else theirs > mine if self.sign in (">>", ">=") else False


Group = tuple[Relation, ...]  # alternatives


@lru_cache(maxsize=None)
def read_relation(text: str) -> Relation:
    """One relation; raises Bad."""
    match = RELATION.match(text)
    if not match or not NAME.match(match[1]):
        raise Bad(f"{quoted(text)} isn't a relation")
    name, qualifier, sign, version = (part or "" for part in match.groups())
    if sign:
        version_key(version)
    return Relation(name, qualifier, OLD_SIGNS.get(sign, sign), version)


def read_groups(text: str) -> Iterator[tuple[str, Group]]:
    """The parts of a field parted by commas, each with its alternatives; raises Bad."""
    pieces = text.replace("\n", " ").split(",")
    if not pieces[-1].strip():
        pieces.pop()
    for piece in pieces:
        yield " ".join(piece.split()), tuple(read_relation(part.strip()) for part in piece.split("|"))


def read_list(text: str, what: str) -> Iterator[tuple[str, Relation]]:
    """The parts of a field that has no alternatives; raises Bad."""
    for words, group in read_groups(text):
        if len(group) != 1:
            raise Bad(f"{what} has no alternatives, but {quoted(words)} is there")
        yield words, group[0]


# ---- stanzas


@dataclass(slots=True)
class Record:
    """One stanza as bytes, and where it begins: its first line, or a call that counts it."""

    raw: bytes
    path: str
    start: Union[int, Callable[[], int]]

    @property
    def line(self) -> int:
        """Its first line."""
        return self.start if isinstance(self.start, int) else self.start()

    def fail(self, reason: str, offset: int = 0) -> NoReturn:
        """Raises the Failure of a line of the stanza."""
        raise Failure(shown_path(self.path), self.line + offset, reason)

    def place(self, title: bytes) -> Optional[tuple[int, int]]:
        """From where to below where the first line of a field is; None where it isn't there, spelled so."""
        raw, mark = self.raw, title + b": "
        if raw.startswith(mark):
            start = len(mark)
        else:
            at = raw.find(b"\n" + mark)
            if at < 0:
                return None
            start = at + len(mark) + 1
        end = raw.find(b"\n", start)
        return start, len(raw) if end < 0 else end

    def head(self) -> tuple[Optional[bytes], Optional[bytes]]:
        """The first lines of Package and Architecture, without reading the stanza."""
        usual = USUAL.match(self.raw)
        return (usual[1], usual[2]) if usual else (self.quick(b"Package"), self.quick(b"Architecture"))

    def says(self, line: bytes) -> bool:
        """Whether this is a whole line of it."""
        raw, mark = self.raw, b"\n" + line
        at = raw.find(mark)
        return at >= 0 and raw[at + len(mark):at + len(mark) + 1] in (b"", b"\n")

    def quick(self, title: bytes) -> Optional[bytes]:
        """The first line of a field, without reading the stanza."""
        place = self.place(title)
        return self.raw[place[0]:place[1]] if place else None

    def value(self, title: str) -> str:
        """A field; the stanza is read only where the field has a second line."""
        place = self.place(title.encode())
        if place is None or self.raw[place[1] + 1:place[1] + 2] in (b" ", b"\t"):
            return self.fields().get(title.lower(), "")
        return self.raw[place[0]:place[1]].decode("utf-8", "replace")

    def fields(self) -> Fields:
        """All fields; their names in small letters."""
        found, name = Fields(self), ""
        for offset, text in enumerate(self.text().split("\n")):
            if text[:1] in (" ", "\t"):
                if not name:
                    self.fail("a field is due, not more of one", offset)
                found[name] += "\n" + text[1:]
            else:
                name = found.add(text, offset)
        return found

    def text(self) -> str:
        """The stanza, which is UTF-8."""
        try:
            return self.raw.decode("utf-8")
        except UnicodeDecodeError as error:
            self.fail("isn't UTF-8", self.raw.count(b"\n", 0, error.start))


TITLES: dict[str, str] = {}  # the names of fields as they were spelled so far, in small letters


class Fields(dict[str, str]):
    """The fields of a stanza, and the line of each."""

    def __init__(self, record: Record) -> None:
        super().__init__()
        self.record, self.offsets = record, dict[str, int]()

    def add(self, text: str, offset: int) -> str:
        """A line with a field; gives its name."""
        word, colon, value = text.partition(":")
        name = TITLES.get(word)
        if not colon or name is None:
            if not colon or not FIELD.match(word):
                self.record.fail(f"{quoted(text[:60])} isn't a field", offset)
            name = TITLES[word] = word.lower()
        if name in self:
            self.record.fail(f"the stanza has {quoted(word)} already", offset)
        if "\r" in value:
            self.record.fail("a carriage return; lines end with a newline alone", offset)
        self[name], self.offsets[name] = value.strip(), offset
        return name

    def fail(self, name: str, reason: str) -> NoReturn:
        """Raises the Failure of a field."""
        self.record.fail(reason, self.offsets.get(name, 0))

    def flag(self, name: str) -> bool:
        """Whether a field says `yes`."""
        return self.get(name, "") == "yes"


def split_records(chunks: Iterable[bytes], path: str) -> Iterator[Record]:
    """The stanzas of a text that comes in chunks."""
    rest, line = b"", 1
    for chunk in chunks:
        text = rest + chunk
        pieces = text.split(b"\n\n")
        rest = pieces.pop()
        if not text.isascii():
            check_encoding(text[:len(text) - len(rest)], path, line)
        for piece in pieces:
            if piece[:1] in EMPTY:
                yield from one_record(piece, path, line)
            else:
                yield Record(piece, path, line)
            line += piece.count(b"\n") + 2
    if rest.strip(b"\n") and not rest.endswith(b"\n"):
        last = line + rest.count(b"\n")
        raise Failure(shown_path(path), last, "its last line has no newline: was the file cut off?")
    check_encoding(rest, path, line)
    yield from one_record(rest, path, line)


def check_encoding(text: bytes, path: str, line: int) -> None:
    """Refuses what isn't UTF-8, by its line, also in fields that nobody reads."""
    try:
        text.decode("utf-8")
    except UnicodeDecodeError as error:
        raise Failure(shown_path(path), line + text.count(b"\n", 0, error.start), "isn't UTF-8") from None


def one_record(piece: bytes, path: str, line: int) -> Iterator[Record]:
    """The stanza of a piece between empty lines, if it has one."""
    raw = piece.strip(b"\n")
    if raw:
        yield Record(raw, path, line + len(piece) - len(piece.lstrip(b"\n")))
