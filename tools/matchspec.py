"""conda's order of versions, and its specs: which records a text like `numpy >=1.11,<2 py3*` matches."""
from __future__ import annotations

import re
from dataclasses import dataclass
from functools import lru_cache, total_ordering
from itertools import zip_longest
from typing import Callable, Union

from tools.words import MOST_DIGITS, has_long_number

VERSION = re.compile(r"[*.+!_0-9a-z]+\Z")
PIECES = re.compile(r"[0-9]+|[*]+|[^0-9*]+")
RELATION = re.compile(r"(==|!=|<=|>=|~=|<|>|=)(?![=<>!~])(\S+)\Z")
NAME_REST = re.compile(r"([^ =<>!~\[\]|,;:]+)([><!=~ ].*)?\Z")
VERSION_BUILD = re.compile(r"((?:.+?)[^><!,|]?)(?:(?<![=!|,<>~])(?:[ =])([^-=,|<>~]+?))?\Z")
BRACKET = re.compile(r"""([a-z0-9_]+)\s*=\s*(?:"([^"]*)"|'([^']*)'|([^,'"\s]+))\s*(?:,\s*|\Z)""")
Piece = Union[int, float, str]
Part = list[Piece]


class Bad(ValueError):
    """A text that isn't a version or a spec."""


# ---- versions


def read_parts(texts: list[str]) -> list[Part]:
    """The parts between dots, each as numbers and words in turn, a number first."""
    found = []
    for text in texts:
        pieces = PIECES.findall(text)
        if not pieces:
            raise Bad("isn't a version: a part is empty")
        if has_long_number(text):
            raise Bad(f"isn't a version: a number has more than {MOST_DIGITS} digits")
        words = {"post": float("inf"), "dev": "DEV"}
        part: Part = [int(piece) if piece.isdigit() else words.get(piece, piece) for piece in pieces]
        found.append(part if text[0].isdigit() else [0, *part])
    return found


def compare_parts(mine: list[Part], theirs: list[Part]) -> int:
    """Below (-1), the same (0) or above (1): a word is below each number, and what is missing is 0."""
    for left, right in zip_longest(mine, theirs, fillvalue=[]):
        for a, b in zip_longest(left, right, fillvalue=0):
            if a == b:
                continue
            if isinstance(a, str) != isinstance(b, str):
                return -1 if isinstance(a, str) else 1
            return -1 if a < b else 1
    return 0


@total_ordering
class CondaVersion:
    """A version with its epoch in front, and the local part."""

    def __init__(self, text: str) -> None:
        text = text.strip().lower()
        if "-" in text and "_" not in text:
            text = text.replace("-", "_")
        if not VERSION.match(text) or text.count("!") > 1 or text.count("+") > 1:
            raise Bad("isn't a version")
        epoch, mark, rest = text.rpartition("!")
        if mark and not epoch.isdigit():
            raise Bad("isn't a version: its epoch isn't a number")
        public, plus, local = rest.partition("+")
        if not public or (plus and not local):
            raise Bad("isn't a version: a part is empty")
        pieces = public[:-1].replace("_", ".").split(".") if public[-1] == "_" else public.replace("_", ".").split(".")
        if public[-1] == "_":
            pieces[-1] += "_"
        self.public = read_parts([epoch or "0", *pieces])
        self.local = read_parts(local.replace("_", ".").split(".")) if local else []

    def compare(self, other: CondaVersion) -> int:
        """Below, the same, or above."""
        return compare_parts(self.public, other.public) or compare_parts(self.local, other.local)

    def __eq__(self, other: object) -> bool:
        return isinstance(other, CondaVersion) and self.compare(other) == 0

    def __lt__(self, other: CondaVersion) -> bool:
        return self.compare(other) < 0

    def __hash__(self) -> int:
        return 0

    def begins_with(self, other: CondaVersion) -> bool:
        """Whether the other version is how this one begins."""
        if other.local and compare_parts(self.public, other.public):
            return False
        mine, theirs = (self.local, other.local) if other.local else (self.public, other.public)
        last = len(theirs) - 1
        if compare_parts(mine[:last], theirs[:last]):
            return False
        part, wanted = (mine[last] if len(mine) > last else []), theirs[last]
        at = len(wanted) - 1
        if compare_parts([part[:at]], [wanted[:at]]):
            return False
        piece = part[at] if len(part) > at else 0
        if isinstance(wanted[at], str):
            return isinstance(piece, str) and piece.startswith(wanted[at])
        return piece == wanted[at]


@lru_cache(maxsize=2**16)
def read_version(text: str) -> CondaVersion:
    """A version; raises Bad."""
    return CondaVersion(text)


# ---- version specs

Test = Callable[[str], bool]


def pattern_test(pattern: str) -> Test:
    """`^..$` is a regular expression; anything else may have `*` in it."""
    if pattern.startswith("^") or pattern.endswith("$"):
        if not (pattern.startswith("^") and pattern.endswith("$")):
            raise Bad("isn't a regular expression from ^ to $")
        try:
            regular = re.compile(pattern)
        except re.error as error:
            raise Bad(f"isn't a regular expression: {error}") from None
        return lambda text: regular.match(text) is not None
    found = re.compile(".*".join(map(re.escape, pattern.split("*"))) + r"\Z")
    return lambda text: found.match(text) is not None


def relation_test(operator: str, text: str) -> Test:
    """`>=1.2` and the like."""
    if text.endswith(".*"):
        if operator == "~=":
            raise Bad("has `.*` behind `~=`")
        operator, text = {"!=": "!=*", "==": "="}.get(operator, operator), text[:-2]
    wanted = read_version(text)
    if operator == "~=":
        head = read_version(text.rpartition(".")[0]) if "." in text else None
        if head is None:
            raise Bad("has one number behind `~=`")
        return lambda v: read_version(v) >= wanted and read_version(v).begins_with(head)
    tests: dict[str, Test] = {
        "==": lambda v: read_version(v) == wanted, "!=": lambda v: read_version(v) != wanted,
        "<": lambda v: read_version(v) < wanted, "<=": lambda v: read_version(v) <= wanted,
        ">": lambda v: read_version(v) > wanted, ">=": lambda v: read_version(v) >= wanted,
        "=": lambda v: read_version(v).begins_with(wanted), "!=*": lambda v: not read_version(v).begins_with(wanted),
    }
    return tests[operator]


def leaf_test(text: str) -> Test:
    """One part of a version spec."""
    if not text:
        raise Bad("isn't a spec: a part is empty")
    if text[0] == "^" or text[-1] == "$":
        return pattern_test(text)
    if text[0] in "=<>!~":
        found = RELATION.match(text)
        if found is None:
            raise Bad("isn't a spec of versions")
        return relation_test(found[1], found[2])
    if text == "*":
        return lambda v: True
    if "*" in text.rstrip("*"):
        return pattern_test(text)
    if text[-1] == "*":
        return relation_test("=", text.rstrip("*").removesuffix("."))
    return relation_test("==", text)


@lru_cache(maxsize=2**14)
def version_test(text: str) -> Test:
    """A whole version spec: `,` binds tighter than `|`, and parentheses group."""
    tokens = re.findall(r"\^[^$]*\$|[(),|]|[^(),|^]+|.", text.replace(" ", ""))

    def either(at: int) -> tuple[Test, int]:
        """Parts with `|` between them."""
        tests = []
        while True:
            test, at = both(at)
            tests.append(test)
            if at >= len(tokens) or tokens[at] != "|":
                return (lambda v: any(each(v) for each in tests)), at
            at += 1

    def both(at: int) -> tuple[Test, int]:
        """Parts with `,` between them."""
        tests = []
        while True:
            test, at = single(at)
            tests.append(test)
            if at >= len(tokens) or tokens[at] != ",":
                return (lambda v: all(each(v) for each in tests)), at
            at += 1

    def single(at: int) -> tuple[Test, int]:
        """One part, or a group."""
        if at < len(tokens) and tokens[at] == "(":
            test, at = either(at + 1)
            if at >= len(tokens) or tokens[at] != ")":
                raise Bad("isn't a spec: `)` is due")
            return test, at + 1
        return leaf_test(tokens[at] if at < len(tokens) and tokens[at] not in "),|" else ""), at + 1

    found, end = either(0)
    if end != len(tokens):
        raise Bad("isn't a spec: more follows")
    return found


# ---- specs of records


@dataclass(frozen=True)
class MatchSpec:
    """What a record must be; `fields` are compared as texts."""

    name: str
    version: str = "*"
    build: str = "*"
    fields: tuple[tuple[str, str], ...] = ()

    def matches(self, version: str, build: str, fields: dict[str, str]) -> bool:
        """Whether a record of that name matches."""
        if not all(fields.get(key) == wanted for key, wanted in self.fields):
            return False
        return version_test(self.version)(version) and pattern_test(self.build)(build)


# Keys in brackets that a record is asked for.
KEYS = ("build_number", "subdir", "md5", "sha256", "fn")


def read_brackets(text: str) -> dict[str, str]:
    """The keys and values between `[` and `]`."""
    found, at = {}, 0
    while at < len(text):
        part = BRACKET.match(text, at)
        if part is None or part[1] in found:
            raise Bad("isn't a spec: its brackets aren't keys with values")
        found[part[1]] = next(value for value in part.groups()[1:] if value is not None)
        at = part.end()
    return found


def read_matchspec(text: str) -> MatchSpec:
    """A spec: NAME, NAME VERSION, NAME VERSION BUILD, NAME=VERSION=BUILD, or with brackets; raises Bad."""
    body, given = text.split("#")[0].strip(), dict[str, str]()
    if body.endswith("]") and "[" in body:
        body, _, inside = body[:-1].partition("[")
        given = read_brackets(inside)
    found = NAME_REST.match(body.strip())
    if found is None or "::" in body:
        raise Bad("isn't a spec" if "::" not in body else "names a channel")
    version, build = version_and_build((found[2] or "").strip())
    version, build = given.pop("version", version), given.pop("build", build)
    if given.pop("name", found[1]) != found[1] or set(given) - set(KEYS):
        raise Bad(f"has a key other than version, build, {', '.join(KEYS)}")
    version_test(version)
    pattern_test(build)
    return MatchSpec(found[1].lower(), version, build, tuple(sorted(given.items())))


def version_and_build(text: str) -> tuple[str, str]:
    """What follows the name; `=1.2` is `1.2*`."""
    if not text:
        return "*", "*"
    text = re.sub(r"\s*([,|])\s*", r"\1", re.sub(r"([<>=!~])\s+", r"\1", text))
    found = VERSION_BUILD.match(text)
    if found is None:
        raise Bad("isn't a spec")
    version, build = found[1].replace(" ", ""), found[2]
    if version.startswith("=") and version[1:2] not in set("=<>!~") and not set(version[1:]) & set("=,|"):
        version = version[1:]
        if build is None and not version.endswith("*"):
            version += "*"
    return version, build or "*"
