"""The parts of which lines are made: versions, SPECs, conditions, and how each is read and spelled.

`Words` reads the words of one line from left to right; `Spelling` defines how a NAME and a NUM are written. The plain
spelling is that of docs/FORMATS.md; real.py has one with the names and versions of an ecosystem.
"""
from __future__ import annotations

import re
from dataclasses import dataclass
from typing import NamedTuple, Optional, Union

NAME = re.compile(r"[A-Za-z0-9_][A-Za-z0-9_.-]*\Z")
NUM = re.compile(r"(0|[1-9][0-9]{0,9})\Z")
RESERVED = ("if", "and", "or")
LARGEST = 2**32 - 1
MOST_DIGITS = 4300  # of a number in a text of an ecosystem: more than that Python doesn't read, since it takes the square
LONG_NUMBER = re.compile(rf"[0-9]{{{MOST_DIGITS + 1}}}")
MOST_SPECS = 16
DEEPEST = 16
# What may follow a package without a span in a SPEC.
BEHIND_SPEC = ("|", "if", "and", "or", ")", "holds")


class Bad(ValueError):
    """A line that isn't of its form, with the reason as text."""


class Fault(Exception):
    """The first faulty line of a text: `text` is catalogue, request or report; `line` is None for a text as a whole."""

    def __init__(self, text: str, line: Optional[int], reason: str) -> None:
        super().__init__(f"{text} line {line}: {reason}" if line else f"{text}: {reason}")
        self.text, self.line, self.reason = text, line, reason


class Version(NamedTuple):
    """One version of a package, written `NAME=NUM` in reports and `NAME NUM` in catalogues."""

    package: str
    number: int

    def __str__(self) -> str:
        return f"{self.package}={self.number}"


Span = Union[None, tuple[int], tuple[int, int]]


class Spec(NamedTuple):
    """Versions of a package: any (span None), one (a number), or those from LO to below HI (two numbers).

    `a 2` and `a 2..3` match the same versions and are two values, since helpers of proofs are named by SPECs as written.
    """

    package: str
    span: Span

    def matches(self, version: Version) -> bool:
        """Whether the version is one of these."""
        if self.package != version.package or self.span is None:
            return self.package == version.package
        low, high = self.bounds()
        return low <= version.number < high

    def bounds(self) -> tuple[int, int]:
        """The numbers from which to below which it matches."""
        if self.span is None:
            return 0, LARGEST + 1
        return (self.span[0], self.span[1]) if len(self.span) == 2 else (self.span[0], self.span[0] + 1)

    def __str__(self) -> str:
        return spec_text(self, PLAIN)


@dataclass(frozen=True, slots=True)
class And:
    """Both sides hold."""

    left: Condition
    right: Condition


@dataclass(frozen=True, slots=True)
class Or:
    """One side holds."""

    left: Condition
    right: Condition


Condition = Union[Spec, And, Or]


def cases(condition: Optional[Condition]) -> list[list[Spec]]:
    """The cases of a condition in the judge's order: one of them is enough, and all SPECs of a case must hold."""
    if condition is None:
        return [[]]
    if isinstance(condition, Spec):
        return [[condition]]
    left, right = cases(condition.left), cases(condition.right)
    if isinstance(condition, Or):
        return left + right
    return [a + b for a in left for b in right]


# ---- spellings


class Spelling:
    """How packages and versions are written: as the grammar has them."""

    def name_text(self, package: str) -> str:
        """The text of a NAME."""
        return package

    def number_text(self, package: str, number: int) -> str:
        """The text of a NUM of this package."""
        return str(number)

    def name(self, word: str) -> str:
        """The NAME that the word spells."""
        if word in RESERVED:
            raise Bad(f"`{word}` is a reserved word")
        if not NAME.match(word):
            raise Bad(f"{quoted(word)} isn't a name")
        return word

    def number(self, package: str, word: str) -> int:
        """The number of this package's version that the word spells."""
        return number_of(word)

    def spec_text(self, spec: Spec) -> str:
        """The text of a SPEC."""
        name = self.name_text(spec.package)
        if spec.span is None:
            return name
        return f"{name} {'..'.join(self.number_text(spec.package, n) for n in spec.span)}"

    def parts(self, word: str) -> list[tuple[str, str]]:
        """The ways to part `LO..HI`."""
        low, dots, high = word.partition("..")
        return [(low, high)] if dots else []


PLAIN = Spelling()


def visible(text: str) -> str:
    """The text without signs that a terminal would act on: those, and stray bytes, are shown by their numbers."""
    if text.isprintable():
        return text
    return "".join(c if c.isprintable() else c.encode("unicode_escape", "replace").decode() for c in text)


def quoted(word: str) -> str:
    """A word of a text for a message: in quotes, cut where it is long."""
    return f"`{visible(word[:60])}`" + (" .." if len(word) > 60 else "")


def has_long_number(text: str) -> bool:
    """Whether the text has a number of too many digits."""
    return len(text) > MOST_DIGITS and LONG_NUMBER.search(text) is not None


def number_of(word: str) -> int:
    """A NUM: from 0 to 4294967295, without leading zeros."""
    if not NUM.match(word) or int(word) > LARGEST:
        raise Bad(f"{quoted(word)} isn't a number from 0 to {LARGEST} without leading zeros")
    return int(word)


def version_text(version: Version, spelling: Spelling, sign: str = "=") -> str:
    """`NAME=NUM`, or with a space between."""
    return f"{spelling.name_text(version.package)}{sign}{spelling.number_text(*version)}"


def spec_text(spec: Spec, spelling: Spelling) -> str:
    """`NAME`, `NAME NUM` or `NAME LO..HI`."""
    return spelling.spec_text(spec)


def specs_text(specs: tuple[Spec, ...], spelling: Spelling) -> str:
    """Alternatives, parted by ` | `."""
    return " | ".join(spec_text(spec, spelling) for spec in specs)


def condition_text(condition: Condition, spelling: Spelling) -> str:
    """The condition with no parentheses but those that it needs: `and` binds tighter, both join from the left."""
    if isinstance(condition, Spec):
        return spec_text(condition, spelling)
    left, right = condition.left, condition.right
    if isinstance(condition, Or):
        return f"{condition_text(left, spelling)} or {grouped(right, isinstance(right, Or), spelling)}"
    first = grouped(left, isinstance(left, Or), spelling)
    return f"{first} and {grouped(right, not isinstance(right, Spec), spelling)}"


def grouped(condition: Condition, in_parentheses: bool, spelling: Spelling) -> str:
    """The text of a side of a condition."""
    text = condition_text(condition, spelling)
    return f"( {text} )" if in_parentheses else text


# ---- the words of a line


class Words:
    """The words of one line, parted by one space, read from left to right; raises Bad where they aren't as asked."""

    def __init__(self, text: str, spelling: Spelling = PLAIN) -> None:
        self.words, self.at, self.spelling = text.split(" "), 0, spelling
        if "" in self.words:
            raise Bad("words are parted by exactly one space, and no space is at an end of the line")
        self.specs = 0

    def peek(self) -> Optional[str]:
        """The next word, if there is one."""
        return self.words[self.at] if self.at < len(self.words) else None

    def take(self, what: str) -> str:
        """The next word."""
        word = self.peek()
        if word is None:
            raise Bad(f"the line ends where {what} is due")
        self.at += 1
        return word

    def expect(self, *words: str) -> None:
        """Takes these words, which must be next."""
        for word in words:
            found = self.take(f"`{word}`")
            if found != word:
                raise Bad(f"`{word}` is due, not {quoted(found)}")

    def end(self) -> None:
        """No word is left."""
        if self.at < len(self.words):
            raise Bad(f"{quoted(self.words[self.at])} is a word too many")

    def name(self) -> str:
        """A NAME."""
        return self.spelling.name(self.take("a name"))

    def reason(self) -> str:
        """A NAME that is a word for people, in no spelling but the plain one."""
        return PLAIN.name(self.take("a reason"))

    def number(self) -> int:
        """A NUM that isn't a version."""
        return number_of(self.take("a number"))

    def line(self) -> int:
        """The number of a line, at least 1."""
        number = self.number()
        if number < 1:
            raise Bad("lines are numbered from 1")
        return number

    def bit(self) -> int:
        """The number of a bit, at most 31."""
        number = self.number()
        if number > 31:
            raise Bad("a bit is at most 31")
        return number

    def spaced_version(self) -> Version:
        """`NAME NUM`."""
        package = self.name()
        return Version(package, self.spelling.number(package, self.take("a version")))

    def version(self) -> Version:
        """`NAME=NUM`, as one word."""
        word = self.take("a version NAME=NUM")
        name, sign, number = word.partition("=")
        if not sign:
            raise Bad(f"{quoted(word)} isn't a version NAME=NUM")
        package = self.spelling.name(name)
        return Version(package, self.spelling.number(package, number))

    def place(self) -> Optional[Version]:
        """`request`, which is None, or a version."""
        if self.peek() == "request":
            self.at += 1
            return None
        return self.version()

    def spec(self) -> Spec:
        """A SPEC."""
        package = self.name()
        word = self.peek()
        if word is None or word in BEHIND_SPEC:
            return Spec(package, None)
        self.at += 1
        return Spec(package, self.span(package, word))

    def span(self, package: str, word: str) -> Span:
        """The rest of a SPEC."""
        parts = self.spelling.parts(word)
        if not parts:
            return (self.spelling.number(package, word),)
        low, high = (self.spelling.number(package, part) for part in parts[0])
        if low >= high:
            raise Bad(f"{quoted(word)} is an empty span")
        return low, high

    def alternatives(self) -> tuple[Spec, ...]:
        """SPECs parted by `|`."""
        found = [self.spec()]
        while self.peek() == "|":
            self.at += 1
            found.append(self.spec())
        return tuple(found)

    # -- conditions

    def condition(self, depth: int = 0) -> Condition:
        """A COND: `and` binds tighter than `or`, both join from the left."""
        tree = self.conjunction(depth)
        while self.peek() == "or":
            self.at += 1
            tree = Or(tree, self.conjunction(depth))
        return tree

    def conjunction(self, depth: int) -> Condition:
        """Members joined by `and`."""
        tree = self.member(depth)
        while self.peek() == "and":
            self.at += 1
            tree = And(tree, self.member(depth))
        return tree

    def member(self, depth: int) -> Condition:
        """A SPEC, or a condition in parentheses."""
        if self.peek() == "(":
            if depth == DEEPEST:
                raise Bad(f"parentheses are at most {DEEPEST} deep")
            self.at += 1
            tree = self.condition(depth + 1)
            self.expect(")")
            return tree
        self.specs += 1
        if self.specs > MOST_SPECS:
            raise Bad(f"a condition holds at most {MOST_SPECS} SPECs")
        return self.spec()
