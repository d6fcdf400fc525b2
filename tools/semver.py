"""Versions and requirements as Cargo has them: the order of versions, and which of them a requirement matches.

A pre-release is matched where a part of the requirement names a pre-release of the same three numbers.
"""
from __future__ import annotations

import re
from dataclasses import dataclass
from typing import NamedTuple, Optional

from tools.words import has_long_number

PRE = r"(?:-([0-9A-Za-z.-]+))?"
BUILD = r"(?:\+([0-9A-Za-z.-]+))?"
NUMBER = r"(0|[1-9][0-9]*)"
VERSION = re.compile(rf"{NUMBER}\.{NUMBER}\.{NUMBER}{PRE}{BUILD}\Z")
PART = rf"(?:\.({NUMBER[1:-1]}|[*xX]))?"
COMPARATOR = re.compile(rf"(=|>=|>|<=|<|~|\^)?\s*{NUMBER}{PART}{PART}{PRE}{BUILD}\Z")
MOST = 2**64 - 1
# Behind every pre-release.
FINAL = ((2, 0, ""),)


class Bad(ValueError):
    """A text that isn't a version or a requirement."""


def read_pre(text: Optional[str]) -> tuple[tuple[int, int, str], ...]:
    """The parts of a pre-release, in their order."""
    if text is None:
        return FINAL
    parts = text.split(".")
    if not all(parts) or any(part.isdigit() and len(part) > 1 and part[0] == "0" for part in parts):
        raise Bad("a part of the pre-release is empty or begins with 0")
    return tuple((0, int(part), "") if part.isdigit() else (1, 0, part) for part in parts)


class Semver(NamedTuple):
    """A version; comparing two gives their order."""

    major: int
    minor: int
    patch: int
    pre: tuple[tuple[int, int, str], ...] = FINAL
    build: str = ""

    @property
    def line(self) -> str:
        """The versions that are compatible have one line."""
        if self.major:
            return str(self.major)
        return f"0.{self.minor}" if self.minor else f"0.0.{self.patch}"


def read_semver(text: str) -> Semver:
    """A version; raises Bad."""
    found = VERSION.match(text)
    if found is None or has_long_number(text) or any(int(found[at]) > MOST for at in (1, 2, 3)):
        raise Bad("isn't a version")
    return Semver(int(found[1]), int(found[2]), int(found[3]), read_pre(found[4]), found[5] or "")


@dataclass(frozen=True)
class Comparator:
    """One part of a requirement; a number that isn't given is None."""

    operator: str
    major: int
    minor: Optional[int]
    patch: Optional[int]
    pre: tuple[tuple[int, int, str], ...]

    @property
    def numbers(self) -> tuple[int, ...]:
        """The numbers that are given."""
        given = (self.major, self.minor, self.patch)
        return tuple(number for number in given if number is not None)

    def is_exact(self, version: Semver) -> bool:
        """The same as far as it is given."""
        given = self.numbers
        return version[:len(given)] == given and (self.pre if len(given) == 3 else FINAL) == version.pre

    def order(self, version: Semver) -> int:
        """Whether the version is above (1), below (-1), or neither, as far as the numbers are given."""
        given = self.numbers
        if version[:len(given)] != given:
            return 1 if version[:len(given)] > given else -1
        if len(given) < 3 or version.pre == self.pre:
            return 0
        return 1 if version.pre > self.pre else -1

    def is_tilde(self, version: Semver) -> bool:
        """`~1.2.3`: the last number may be greater."""
        fixed = self.numbers[:2]
        if version[:len(fixed)] != fixed:
            return False
        if self.patch is not None and version.patch != self.patch:
            return version.patch > self.patch
        return version.pre >= self.pre

    def is_caret(self, version: Semver) -> bool:
        """`^1.2.3`: at least that, and compatible."""
        if version.major != self.major or self.minor is None:
            return version.major == self.major
        if self.patch is None:
            return version.minor >= self.minor if self.major else version.minor == self.minor
        fixed = 1 if self.major else 2 if self.minor else 3
        if version[:fixed] != self.numbers[:fixed]:
            return False
        return (*version[:3], version.pre) >= (*self.numbers, self.pre)

    def matches(self, version: Semver) -> bool:
        """Whether the version is one of these, the rule of pre-releases left aside."""
        exact, order = self.is_exact(version), self.order(version)
        found = {
            "=": exact, "*": exact, ">": order > 0, ">=": exact or order > 0, "<": order < 0, "<=": exact or order < 0,
        }
        if self.operator in found:
            return found[self.operator]
        return self.is_tilde(version) if self.operator == "~" else self.is_caret(version)

    def opens(self, version: Semver) -> bool:
        """Whether it names a pre-release of the same three numbers."""
        return self.pre != FINAL and self.numbers == version[:3]


def read_comparator(text: str) -> Comparator:
    """One part of a requirement; raises Bad."""
    found = COMPARATOR.match(text)
    if found is None or has_long_number(text):
        raise Bad("isn't a requirement")
    operator, major, minor, patch, pre, _ = found.groups()
    wild = [part is not None and part in "*xX" for part in (minor, patch)]
    if (wild[0] and patch is not None and not wild[1]) or (pre is not None and (patch is None or any(wild))):
        raise Bad("isn't a requirement")
    number = lambda part: None if part is None or part in "*xX" else int(part)
    operator = operator or ("*" if any(wild) else "^")
    return Comparator(operator, int(major), number(minor), number(patch), read_pre(pre))


@dataclass(frozen=True)
class Requirement:
    """All parts must match; `*` has none."""

    comparators: tuple[Comparator, ...]

    def matches(self, version: Semver) -> bool:
        """Whether Cargo takes the version."""
        if not all(part.matches(version) for part in self.comparators):
            return False
        return version.pre == FINAL or any(part.opens(version) for part in self.comparators)


def read_req(text: str) -> Requirement:
    """A requirement; raises Bad."""
    if text.strip() in ("*", "x", "X"):
        return Requirement(())
    return Requirement(tuple(read_comparator(part.strip()) for part in text.split(",")))
