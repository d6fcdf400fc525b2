"""Answers as values: what to install and why, or the lines that can't be obeyed, or the judge's verdict.

The readers take what `resolve` wrote, so they don't check a text: the judge does that.
"""
from __future__ import annotations

from dataclasses import dataclass, field
from typing import Optional, Union


@dataclass(frozen=True)
class Entry:
    """A version to install: for line `line` of `version`, or of the request where that is None; or wished there."""

    package: str
    number: int
    line: int
    version: Optional[str] = None
    wished: bool = False


@dataclass(frozen=True)
class LeftOut:
    """A wish of line `line` of the request that can't be met beside what was installed before it, by step `step`."""

    package: str
    number: int
    line: int
    step: int


@dataclass(frozen=True)
class Installed:
    """A report `install`."""

    text: bytes = field(repr=False)
    entries: tuple[Entry, ...]
    left_out: tuple[LeftOut, ...]
    steps: tuple[str, ...] = field(repr=False)

    @property
    def versions(self) -> dict[str, int]:
        """The number of each package's version. Of a package that is marked `many` there may be several: then ValueError, and `entries`
        has them."""
        found = {entry.package: entry.number for entry in self.entries}
        if len(found) < len(self.entries):
            raise ValueError("a package has several versions: `entries` has them")
        return found


@dataclass(frozen=True)
class Refused:
    """A report `refused`: the lines that no choice of versions obeys, a proof of it, and a message for people."""

    text: bytes = field(repr=False)
    catalogue_lines: tuple[int, ...]
    request_lines: tuple[int, ...]
    steps: tuple[str, ...] = field(repr=False)
    message: str = field(repr=False)


@dataclass(frozen=True)
class Faulty:
    """The first line outside the grammar, of the `catalogue` or else of the `request`."""

    text: bytes = field(repr=False)
    which: str
    line: int


@dataclass(frozen=True)
class Yes:
    """The report holds, so what it claims is true."""

    text: bytes = field(repr=False)


@dataclass(frozen=True)
class No:
    """The report doesn't hold, from this line on."""

    text: bytes = field(repr=False)
    line: int


Answer = Union[Installed, Refused, Faulty]
Verdict = Union[Yes, No, Faulty]


def version_in(text: str) -> tuple[str, int]:
    """`NAME=NUM`."""
    package, number = text.rsplit("=", 1)
    return package, int(number)


def entry_in(line: str) -> Entry:
    """`VER for PLACE line LINE` or `VER wished line LINE`."""
    words = line.split(" ")
    package, number = version_in(words[0])
    if words[1] == "wished":
        return Entry(package, number, int(words[3]), wished=True)
    return Entry(package, number, int(words[4]), None if words[2] == "request" else words[2])


def left_out_in(line: str) -> LeftOut:
    """`left out VER line LINE by LINE`."""
    words = line.split(" ")
    package, number = version_in(words[2])
    return LeftOut(package, number, int(words[4]), int(words[6]))


def installed_in(text: bytes) -> Installed:
    lines = text.decode("ascii").splitlines()[1:]
    steps = tuple(line for line in lines if line.startswith("step "))
    answers = lines[:len(lines) - len(steps)]
    return Installed(
        text,
        tuple(entry_in(line) for line in answers if not line.startswith("left out ")),
        tuple(left_out_in(line) for line in answers if line.startswith("left out ")),
        steps,
    )


def refused_in(text: bytes) -> Refused:
    lines = text.split(b"\n")
    message = b"".join(line[2:] + b"\n" for line in lines if line.startswith(b"| "))
    return Refused(
        text,
        tuple(int(line[len(b"catalogue line "):]) for line in lines if line.startswith(b"catalogue line ")),
        tuple(int(line[len(b"request line "):]) for line in lines if line.startswith(b"request line ")),
        tuple(line.decode("ascii") for line in lines if line.startswith(b"step ")),
        message.decode("utf-8", "replace"),
    )


def faulty_in(text: bytes) -> Faulty:
    """`fault at WHICH line N`."""
    words = text.decode("ascii").split()
    return Faulty(text, words[2], int(words[4]))


def no_in(text: bytes) -> No:
    """`no line N`."""
    return No(text, int(text.split()[2]))
