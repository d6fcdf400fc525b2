"""The message of a refusal: its sentences, as docs/MESSAGES.md words them, and the names view of whole reports.

A line that isn't of these sentences stays as it is.
"""
from __future__ import annotations

import re
from dataclasses import dataclass
from typing import Union

from tools.catalogue import decoded, encoded
from tools.reports import Refused, Report, read_report, report_lines
from tools.words import NAME, PLAIN, RESERVED, Bad, Spec, Spelling, Words

INDENT = re.compile("(?:│  |   )*(?:├─ |└─ )?")
HEADING = "The following packages are incompatible"
EXCLUDED = " is excluded because "
# The words before and after a requirement, versions, or the versions that are admitted.
REQUIREMENT = [
    ("No candidates were found for ", "."),
    ("", ", for which no candidates were found."),
    ("", ", which can be installed with any of the following options:"),
    ("", " can be installed with any of the following options:"),
    ("", ", which cannot be installed because there are no viable options:"),
    ("", " cannot be installed because there are no viable options:"),
]
ADMITTED = [
    ("", ", which conflicts with any installable versions previously reported"),
    ("the constraint ", " cannot be fulfilled"),
]
VERSIONS = [
    ("", ", which conflicts with the versions reported above."),
    ("", " would constrain"),
    ("", " would require"),
    ("", " is locked, but another version is required as reported above"),
    ("", ""),
]
# Words of sentences that explain why something can't be installed.
AGAINST = ("No candidates", "no candidates", "cannot", "conflicts", "is locked", EXCLUDED)
# Where a real name would make two lines of the names view alike, the line keeps its bytes behind this sign.
KEPT = "|# "


@dataclass(frozen=True)
class Requirement:
    """Alternatives, each with its span: `NAME *`, `NAME NUM` or `NAME LO..HI`."""

    specs: tuple[Spec, ...]


@dataclass(frozen=True)
class Versions:
    """Versions of one package in one line: `NAME NUM | NUM`."""

    package: str
    numbers: tuple[int, ...]


@dataclass(frozen=True)
class Sentence:
    """One line: its indent, the words before and behind, and what they are about (None for the heading)."""

    indent: str
    before: str
    about: Union[None, Requirement, Versions]
    behind: str

    @property
    def level(self) -> int:
        """Its depth in the tree."""
        return len(self.indent) // 3

    @property
    def is_against(self) -> bool:
        """Whether it explains why something can't be installed."""
        return any(word in self.before + self.behind for word in AGAINST)


# ---- reading and writing a sentence


def read_requirement(text: str, spelling: Spelling) -> Requirement:
    """Alternatives with their spans; raises Bad."""
    specs = []
    for piece in text.split(" | "):
        words = Words(piece, spelling)
        package = words.name()
        span = words.take("a span")
        words.end()
        specs.append(Spec(package, None if span == "*" else words.span(package, span)))
    return Requirement(tuple(specs))


def read_versions(text: str, spelling: Spelling) -> Versions:
    """Versions of one package; raises Bad."""
    first, *others = text.split(" | ")
    words = Words(first, spelling)
    package, number = words.spaced_version()
    words.end()
    return Versions(package, (number, *(spelling.number(package, other) for other in others)))


def read_about(body: str, spelling: Spelling) -> tuple[str, Union[Requirement, Versions], str]:
    """What a sentence is about, with the words before and behind; raises Bad."""
    for table, read in ((REQUIREMENT, read_requirement), (ADMITTED, read_requirement), (VERSIONS, read_versions)):
        for before, behind in table:
            if len(body) > len(before + behind) and body.startswith(before) and body.endswith(behind):
                if EXCLUDED in body and not behind:
                    continue
                return before, read(body[len(before):len(body) - len(behind)], spelling), behind
    versions, words, reason = body.partition(EXCLUDED)
    if not NAME.match(reason) or reason in RESERVED:
        raise Bad("the reason isn't a word")
    return "", read_versions(versions, spelling), words + reason


def read_sentence(line: str, spelling: Spelling = PLAIN) -> Sentence:
    """A line of the message; raises Bad where it isn't worded as in docs/MESSAGES.md."""
    indent = INDENT.match(line).group()
    body = line[len(indent):]
    if body == HEADING:
        return Sentence(indent, "", None, body)
    return Sentence(indent, *read_about(body, spelling))


def about_text(about: Union[None, Requirement, Versions], spelling: Spelling) -> str:
    """What a sentence is about."""
    if about is None:
        return ""
    if isinstance(about, Versions):
        numbers = " | ".join(spelling.number_text(about.package, number) for number in about.numbers)
        return f"{spelling.name_text(about.package)} {numbers}"
    return " | ".join(spec + " *" if s.span is None else spec for s in about.specs for spec in [spelling.spec_text(s)])


def sentence_text(sentence: Sentence, spelling: Spelling) -> str:
    """The line of a sentence."""
    return f"{sentence.indent}{sentence.before}{about_text(sentence.about, spelling)}{sentence.behind}"


def respelled(line: str, old: Spelling, new: Spelling) -> str:
    """The line in another spelling, or as it is where it isn't a sentence."""
    try:
        sentence = read_sentence(line, old)
    except Bad:
        return line
    return sentence_text(sentence, new)


def message_line(line: str, spelling: Spelling) -> str:
    """A line of the message for people: a line that isn't a sentence as it is."""
    return respelled(line, PLAIN, spelling)


# ---- the names view


def real_text(report: Report, spelling: Spelling) -> bytes:
    """The report with real names and versions; `plain_text` gives its bytes back."""
    lines = report_lines(report, spelling)
    if isinstance(report, Refused) and report.message:
        lines = lines[:-len(report.message)]
        lines += [real_line(line, spelling) for line in report.message]
    return encoded("".join(line + "\n" for line in lines))


def real_line(line: str, spelling: Spelling) -> str:
    """A line of the message with real names, with its sign."""
    real = respelled(line, PLAIN, spelling)
    return f"| {real}" if respelled(real, spelling, PLAIN) == line else KEPT + line


def plain_text(data: bytes, spelling: Spelling) -> Report:
    """The report whose names view this is; raises Fault."""
    text = decoded(data)
    head, at, message = split_message(text)
    marked = "".join(f"| {line[len(KEPT):] if line.startswith(KEPT) else line[2:]}\n" for line in message)
    report = read_report(encoded(head + (marked if at else "")), spelling)
    if not isinstance(report, Refused):
        return report
    kept = [line.startswith(KEPT) for line in message]
    plain = tuple(
        line if is_kept else respelled(line, spelling, PLAIN) for line, is_kept in zip(report.message, kept)
    )
    return Refused(report.catalogue_lines, report.request_lines, report.steps, plain)


def split_message(text: str) -> tuple[str, bool, list[str]]:
    """The text above the message, whether the message is well formed lines to the end, and its lines."""
    lines = text.split("\n")
    first = next((at for at, line in enumerate(lines) if line.startswith(("| ", KEPT))), len(lines))
    message = lines[first:-1]
    if not message or lines[-1] or not all(line.startswith(("| ", KEPT)) for line in message):
        return text, False, []
    return "".join(line + "\n" for line in lines[:first]), True, message
