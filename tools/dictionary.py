"""The dictionary of a catalogue: real names and versions of an ecosystem, in `#` lines that the program skips.

    #@ 1 ECOSYSTEM SETTINGS SOURCE    the first line of the catalogue; `-` where there is none
    #p NAME REAL                      the real name of a package
    #v TEXT                           the text of the version above
    #s TEXT                           the source text of the line below

A catalogue whose first line isn't `#@ 1 ..` has no dictionary, and its other `#` lines are comments.
"""
from __future__ import annotations

import re
from dataclasses import dataclass, field
from functools import lru_cache
from typing import Optional

from tools.catalogue import Catalogue, CatalogueLine, SkippedLine, VersionLine
from tools.words import BEHIND_SPEC, NAME, RESERVED, Bad, Fault, Spelling, Version, number_of, quoted

HEAD = "#@ 1 "
PLAIN_NAME = re.compile(r"[A-Za-z0-9][A-Za-z0-9.-]*\Z")  # its own NAME, if it isn't a word of the grammar
# Signs of the grammar, which are no real names.
SIGNS = ("(",) + BEHIND_SPEC[:-1]


@dataclass(frozen=True)
class Dictionary:
    """Real names by NAME, version texts by version, and the source text of a line by its number."""

    ecosystem: str = "-"
    settings: str = "-"
    source: str = "-"
    names: dict[str, str] = field(default_factory=dict)
    versions: dict[Version, str] = field(default_factory=dict)
    sources: dict[int, str] = field(default_factory=dict)

    def name(self, package: str) -> str:
        """The real name of a package, or its NAME where there is none."""
        return self.names.get(package, package)

    def version(self, version: Version) -> str:
        """The text of a version, or its number where there is none."""
        return self.versions.get(version, str(version.number))

    def lines(self, lines: tuple[CatalogueLine, ...]) -> tuple[CatalogueLine, ...]:
        """Lines of a catalogue with this dictionary in them; the sources' numbers are those of the given lines."""
        found: list[CatalogueLine] = [SkippedLine(f"{HEAD}{self.ecosystem} {self.settings} {self.source}")]
        found += [SkippedLine(f"#p {name} {real}") for name, real in self.names.items()]
        for number, line in enumerate(lines, 1):
            if number in self.sources:
                found.append(SkippedLine(f"#s {self.sources[number]}"))
            found.append(line)
            if isinstance(line, VersionLine) and line.version in self.versions:
                found.append(SkippedLine(f"#v {self.versions[line.version]}"))
        return tuple(found)


@lru_cache(maxsize=None)
def escape(real: str) -> str:
    """A NAME for a real name, another one for each: `_` is `__`, `+` is `_p`, other signs are `_xHEX_`."""
    if real in RESERVED:
        return f"_w{real}"
    if PLAIN_NAME.match(real):
        return real
    plain = {"_": "__", "+": "_p"}
    kept = lambda at, c: c.isascii() and (c.isalnum() or (at > 0 and c in "-."))
    return "".join(c if kept(at, c) else plain.get(c, f"_x{ord(c):x}_") for at, c in enumerate(real))


def name_entry(real: str) -> dict[str, str]:
    """What `names` has of a real name: nothing where that is its own NAME, or a word of the grammar."""
    name = escape(real)
    return {} if name == real or real in RESERVED else {name: real}


def check_word(word: str, what: str, forbidden: str = "") -> None:
    """A real name or the text of a version: one word of printable signs; raises Bad."""
    if not word or not word.isprintable() or " " in word:
        raise Bad(f"{what} {quoted(word)} isn't one word of printable signs")
    if word.startswith("#") or word in SIGNS or any(sign in word for sign in forbidden):
        raise Bad(f"{what} {quoted(word)} can't be distinguished from a sign of the texts")


class DictionaryReader:
    """Reads the `#` lines of a catalogue; raises Bad."""

    def __init__(self) -> None:
        self.found = Dictionary()
        self.reals: set[str] = set()
        self.texts: set[tuple[str, str]] = set()
        self.above: Optional[Version] = None
        self.sources: list[str] = []

    def head(self, text: str) -> None:
        """The first line."""
        words = text[len(HEAD):].split(" ")
        if len(words) != 3 or not all(words) or not text.isprintable():
            raise Bad("the first line of a dictionary is `#@ 1 ECOSYSTEM SETTINGS SOURCE`")
        self.found = Dictionary(*words)

    def line(self, number: int, line: CatalogueLine) -> None:
        """Any line below the first."""
        if isinstance(line, SkippedLine):
            mark, _, text = line.text.partition(" ")
            if mark == "#p":
                self.name(text)
            elif mark == "#v":
                self.version(text)
            elif mark == "#s":
                if not text or not text.isprintable():
                    raise Bad("`#s` is followed by a text of printable signs")
                self.sources.append(text)
            return
        if isinstance(line, VersionLine):
            self.above = line.version
        if self.sources:
            self.found.sources[number] = "; ".join(self.sources)
            self.sources = []

    def name(self, text: str) -> None:
        """`#p NAME REAL`."""
        name, _, real = text.partition(" ")
        if not NAME.match(name) or name in RESERVED:
            raise Bad(f"{quoted(name)} isn't a name")
        check_word(real, "the real name", "=")
        if name in self.found.names:
            raise Bad(f"{name} has a real name already")
        if real in self.reals:
            raise Bad(f"{quoted(real)} is the real name of another package")
        self.reals.add(real)
        self.found.names[name] = real

    def version(self, text: str) -> None:
        """`#v TEXT`."""
        if self.above is None:
            raise Bad("there is no `version` line above `#v`")
        check_word(text, "the version")
        if self.above in self.found.versions:
            raise Bad(f"{self.above} has a text already")
        if (self.above.package, text) in self.texts:
            raise Bad(f"{quoted(text)} is the text of another version of {self.above.package}")
        self.texts.add((self.above.package, text))
        self.found.versions[self.above] = text


def read_dictionary(catalogue: Catalogue) -> Optional[Dictionary]:
    """The catalogue's dictionary, or None where it has none; raises Fault."""
    first = catalogue.lines[0] if catalogue.lines else None
    if not isinstance(first, SkippedLine) or not first.text.startswith(HEAD):
        return None
    reader = DictionaryReader()
    for number, line in enumerate(catalogue.lines, 1):
        try:
            if number == 1:
                reader.head(line.text)
            else:
                reader.line(number, line)
        except Bad as bad:
            raise Fault("catalogue", number, str(bad)) from None
    return reader.found


def is_clear(text: str) -> bool:
    """Whether the text of a version is unambiguous in a SPEC."""
    return ".." not in text and text[0] != "." and text[-1] != "." and text not in ("holds", "*")


class RealSpelling(Spelling):
    """Real names and version texts in place of NAMEs and NUMs; each value has one text still.

    `#NAME` is a NAME without a real name that is the real name of another package. `#NUM` is a number without a text of
    a package that has texts, or one whose text would be unclear in a SPEC.
    """

    def __init__(self, dictionary: Dictionary, any_text: bool = False) -> None:
        """With `any_text` each text is used, which is clear in `NAME=TEXT` but not in a SPEC."""
        self.names = dictionary.names
        self.reals = {real: name for name, real in dictionary.names.items()}
        self.texts: dict[str, dict[int, str]] = {}
        self.numbers: dict[str, dict[str, int]] = {}
        for version, text in dictionary.versions.items():
            self.texts.setdefault(version.package, {})
            if any_text or is_clear(text):
                self.texts[version.package][version.number] = text
                self.numbers.setdefault(version.package, {})[text] = version.number

    def name_text(self, package: str) -> str:
        """The real name, or the NAME where it has none."""
        if package in self.names:
            return self.names[package]
        return f"#{package}" if package in self.reals else package

    def number_text(self, package: str, number: int) -> str:
        """The text of the version, or a number where it has none."""
        table = self.texts.get(package)
        if table is None:
            return str(number)
        return table.get(number, f"#{number}")

    def name(self, word: str) -> str:
        """The NAME of a real name."""
        if word in self.reals:
            return self.reals[word]
        package = super().name(word.removeprefix("#"))
        if self.name_text(package) != word:
            raise Bad(f"{quoted(word)} isn't a name of the dictionary")
        return package

    def number(self, package: str, word: str) -> int:
        """The number of a version's text."""
        table = self.numbers.get(package, {})
        if word in table:
            return table[word]
        sign = "#" if package in self.texts else ""
        if not word.startswith(sign):
            raise Bad(f"{quoted(word)} isn't a version of {self.name_text(package)}")
        number = number_of(word.removeprefix("#") if sign else word)
        if self.number_text(package, number) != word:
            raise Bad(f"{quoted(word)} isn't the text of a version of {self.name_text(package)}")
        return number
