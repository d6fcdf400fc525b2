"""Reports as values: entries, named lines, steps and the message, and their one text.

`ReportReader` reads a report line by line, so that a judge can stop at the line that it refuses; `read_report` reads a
whole one. Faults carry the line at which the text leaves the grammar of docs/FORMATS.md.
"""
from __future__ import annotations

from dataclasses import dataclass
from typing import Callable, Optional, Union

from tools.catalogue import decoded, encoded
from tools.words import PLAIN, Bad, Fault, Spec, Spelling, Version, Words, number_of, quoted
from tools.words import spec_text, specs_text, version_text

MOST_BYTES = 2**30
Place = Optional[Version]  # None is `request`


# ---- literals


@dataclass(frozen=True, slots=True)
class AnyAtom:
    """`any NAME`: some version of the package is in the set."""

    package: str


@dataclass(frozen=True, slots=True)
class SharedAtom:
    """`shared SPEC { | SPEC }`: some member matches one of these."""

    alternatives: tuple[Spec, ...]


@dataclass(frozen=True, slots=True)
class OutsideAtom:
    """`outside SPEC`: a member of the package doesn't match."""

    spec: Spec


@dataclass(frozen=True, slots=True)
class MatchesAtom:
    """`matches SPEC`: some member matches; the SPEC's package is marked `many`."""

    spec: Spec


@dataclass(frozen=True, slots=True)
class BitAtom:
    """`bit NUM of NAME`: that bit of the member's place is 1."""

    bit: int
    package: str


Atom = Union[Version, AnyAtom, SharedAtom, OutsideAtom, MatchesAtom, BitAtom]


@dataclass(frozen=True, slots=True)
class Literal:
    """An atom, or `not` and an atom."""

    atom: Atom
    positive: bool


# ---- steps


@dataclass(frozen=True, slots=True)
class NeedStep:
    """`need PLACE line LINE case NUM`."""

    place: Place
    line: int
    case: int


@dataclass(frozen=True, slots=True)
class GateStep:
    """`gate VER line LINE`."""

    version: Version
    line: int


@dataclass(frozen=True, slots=True)
class SharedStep:
    """`shared SPEC { | SPEC }`."""

    alternatives: tuple[Spec, ...]


@dataclass(frozen=True, slots=True)
class OutsideStep:
    """`outside SPEC holds VER`."""

    spec: Spec
    version: Version


@dataclass(frozen=True, slots=True)
class MatchesStep:
    """`matches SPEC holds VER`."""

    spec: Spec
    version: Version


@dataclass(frozen=True, slots=True)
class LimitStep:
    """`limit PLACE line LINE`."""

    place: Place
    line: int


@dataclass(frozen=True, slots=True)
class BarStep:
    """`limit PLACE line LINE bars VER`."""

    place: Place
    line: int
    version: Version


@dataclass(frozen=True, slots=True)
class LockStep:
    """`lock line LINE bars VER`."""

    line: int
    version: Version


@dataclass(frozen=True, slots=True)
class ExcludeStep:
    """`exclude line LINE`."""

    line: int


@dataclass(frozen=True, slots=True)
class UnknownStep:
    """`unknown line LINE`."""

    line: int


@dataclass(frozen=True, slots=True)
class AnyStep:
    """`any VER`."""

    version: Version


@dataclass(frozen=True, slots=True)
class DigitStep:
    """`digit VER place NUM bit NUM`."""

    version: Version
    place: int
    bit: int


@dataclass(frozen=True, slots=True)
class DeriveStep:
    """`derive [LIT; LIT] by NUM { NUM }`: literals in byte order of their texts, each atom once."""

    literals: tuple[Literal, ...]
    causes: tuple[int, ...]


Step = Union[
    NeedStep, GateStep, SharedStep, OutsideStep, MatchesStep, LimitStep, BarStep, LockStep, ExcludeStep, UnknownStep,
    AnyStep, DigitStep, DeriveStep,
]


# ---- reports


@dataclass(frozen=True, slots=True)
class Entry:
    """`VER for PLACE line LINE`."""

    version: Version
    place: Place
    line: int


@dataclass(frozen=True, slots=True)
class WishedEntry:
    """`VER wished line LINE`."""

    version: Version
    line: int


@dataclass(frozen=True, slots=True)
class LeftOut:
    """`left out VER line LINE by LINE`."""

    version: Version
    line: int
    step: int


Answer = Union[Entry, WishedEntry, LeftOut]


@dataclass(frozen=True, slots=True)
class Install:
    """What is to be installed, and why wishes were left out."""

    answers: tuple[Answer, ...]
    steps: tuple[Step, ...] = ()

    @property
    def entries(self) -> tuple[Union[Entry, WishedEntry], ...]:
        """The answers that are entries."""
        return tuple(answer for answer in self.answers if not isinstance(answer, LeftOut))


@dataclass(frozen=True, slots=True)
class Refused:
    """Named lines that no set obeys, the steps that prove it, and the message without its `| `."""

    catalogue_lines: tuple[int, ...]
    request_lines: tuple[int, ...]
    steps: tuple[Step, ...]
    message: tuple[str, ...] = ()


Report = Union[Install, Refused]


# ---- writing


def place_text(place: Place, spelling: Spelling) -> str:
    """`request` or a version."""
    return "request" if place is None else version_text(place, spelling)


def atom_text(atom: Atom, spelling: Spelling = PLAIN) -> str:
    """The text of an atom."""
    if isinstance(atom, Version):
        return version_text(atom, spelling)
    if isinstance(atom, AnyAtom):
        return f"any {spelling.name_text(atom.package)}"
    if isinstance(atom, SharedAtom):
        return f"shared {specs_text(atom.alternatives, spelling)}"
    if isinstance(atom, OutsideAtom):
        return f"outside {spec_text(atom.spec, spelling)}"
    if isinstance(atom, MatchesAtom):
        return f"matches {spec_text(atom.spec, spelling)}"
    return f"bit {atom.bit} of {spelling.name_text(atom.package)}"


def literal_text(literal: Literal, spelling: Spelling = PLAIN) -> str:
    """The text of a literal."""
    return ("" if literal.positive else "not ") + atom_text(literal.atom, spelling)


def derive_text(step: DeriveStep, spelling: Spelling) -> str:
    """A derived clause with its causes."""
    literals = "; ".join(literal_text(literal, spelling) for literal in step.literals)
    return f"derive [{literals}] by {' '.join(map(str, step.causes))}"


StepWriter = Callable[[Step, Spelling], str]
STEP_TEXTS: dict[type, StepWriter] = {
    NeedStep: lambda s, sp: f"need {place_text(s.place, sp)} line {s.line} case {s.case}",
    GateStep: lambda s, sp: f"gate {version_text(s.version, sp)} line {s.line}",
    SharedStep: lambda s, sp: f"shared {specs_text(s.alternatives, sp)}",
    OutsideStep: lambda s, sp: f"outside {spec_text(s.spec, sp)} holds {version_text(s.version, sp)}",
    MatchesStep: lambda s, sp: f"matches {spec_text(s.spec, sp)} holds {version_text(s.version, sp)}",
    LimitStep: lambda s, sp: f"limit {place_text(s.place, sp)} line {s.line}",
    BarStep: lambda s, sp: f"limit {place_text(s.place, sp)} line {s.line} bars {version_text(s.version, sp)}",
    LockStep: lambda s, sp: f"lock line {s.line} bars {version_text(s.version, sp)}",
    ExcludeStep: lambda s, sp: f"exclude line {s.line}",
    UnknownStep: lambda s, sp: f"unknown line {s.line}",
    AnyStep: lambda s, sp: f"any {version_text(s.version, sp)}",
    DigitStep: lambda s, sp: f"digit {version_text(s.version, sp)} place {s.place} bit {s.bit}",
    DeriveStep: derive_text,
}


def step_text(step: Step, spelling: Spelling = PLAIN) -> str:
    """The step without its number."""
    return STEP_TEXTS[type(step)](step, spelling)


def answer_text(answer: Answer, spelling: Spelling = PLAIN) -> str:
    """The line of an answer."""
    version = version_text(answer.version, spelling)
    if isinstance(answer, LeftOut):
        return f"left out {version} line {answer.line} by {answer.step}"
    if isinstance(answer, WishedEntry):
        return f"{version} wished line {answer.line}"
    return f"{version} for {place_text(answer.place, spelling)} line {answer.line}"


def report_lines(report: Report, spelling: Spelling = PLAIN) -> list[str]:
    """The lines of a report; a message as it is."""
    steps = [f"step {number} {step_text(step, spelling)}" for number, step in enumerate(report.steps, 1)]
    if isinstance(report, Install):
        return ["install", *(answer_text(answer, spelling) for answer in report.answers), *steps]
    named = [f"catalogue line {number}" for number in report.catalogue_lines]
    named += [f"request line {number}" for number in report.request_lines]
    return ["refused", *named, *steps, *(f"| {line}" for line in report.message)]


def report_text(report: Report, spelling: Spelling = PLAIN) -> bytes:
    """The report's one text."""
    return encoded("".join(line + "\n" for line in report_lines(report, spelling)))


# ---- reading a line


def read_atom(text: str, spelling: Spelling) -> Atom:
    """An atom; raises Bad."""
    words = Words(text, spelling)
    kind, atom = words.peek(), None
    if len(words.words) == 1:
        return words.version()
    words.at += 1
    if kind == "any":
        atom = AnyAtom(words.name())
    elif kind == "shared":
        atom = SharedAtom(words.alternatives())
    elif kind == "outside":
        atom = OutsideAtom(words.spec())
    elif kind == "matches":
        atom = MatchesAtom(words.spec())
    elif kind == "bit":
        bit = words.bit()
        words.expect("of")
        atom = BitAtom(bit, words.name())
    else:
        raise Bad(f"{quoted(text)} isn't an atom")
    words.end()
    return atom


def read_literal(text: str, spelling: Spelling) -> Literal:
    """A literal; raises Bad."""
    positive = not text.startswith("not ")
    return Literal(read_atom(text if positive else text[len("not "):], spelling), positive)


def read_derive(text: str, spelling: Spelling) -> DeriveStep:
    """The rest of a line with `derive`."""
    inside, close, behind = text[1:].partition("] by ")
    if not text.startswith("[") or not close:
        raise Bad("`derive` is followed by `[..] by` and numbers of steps")
    literals = tuple(read_literal(piece, spelling) for piece in inside.split("; ")) if inside else ()
    texts = [encoded(literal_text(literal)) for literal in literals]
    if any(first >= second for first, second in zip(texts, texts[1:])):
        raise Bad("the literals of `derive` are in byte order, each once")
    if len({literal.atom for literal in literals}) < len(literals):
        raise Bad("an atom occurs twice in `derive`")
    return DeriveStep(literals, tuple(number_of(word) for word in behind.split(" ")))


def read_limit(words: Words) -> Step:
    """The rest of a line with `limit`."""
    place = words.place()
    words.expect("line")
    line = words.line()
    if words.peek() is None:
        return LimitStep(place, line)
    words.expect("bars")
    return BarStep(place, line, words.version())


def read_need(words: Words) -> Step:
    """The rest of a line with `need`."""
    place = words.place()
    words.expect("line")
    line = words.line()
    words.expect("case")
    return NeedStep(place, line, words.number())


def read_gate(words: Words) -> Step:
    """The rest of a line with `gate`."""
    version = words.version()
    words.expect("line")
    return GateStep(version, words.line())


def read_held(words: Words, kind: Callable[[Spec, Version], Step]) -> Step:
    """The rest of a line with `outside` or `matches`."""
    spec = words.spec()
    words.expect("holds")
    return kind(spec, words.version())


def read_lock(words: Words) -> Step:
    """The rest of a line with `lock`."""
    words.expect("line")
    line = words.line()
    words.expect("bars")
    return LockStep(line, words.version())


def read_barred(words: Words, kind: Callable[[int], Step]) -> Step:
    """The rest of a line with `exclude` or `unknown`."""
    words.expect("line")
    return kind(words.line())


def read_digit(words: Words) -> Step:
    """The rest of a line with `digit`."""
    version = words.version()
    words.expect("place")
    place = words.number()
    words.expect("bit")
    return DigitStep(version, place, words.bit())


STEP_FORMS: dict[str, Callable[[Words], Step]] = {
    "need": read_need,
    "gate": read_gate,
    "shared": lambda words: SharedStep(words.alternatives()),
    "outside": lambda words: read_held(words, OutsideStep),
    "matches": lambda words: read_held(words, MatchesStep),
    "limit": read_limit,
    "lock": read_lock,
    "exclude": lambda words: read_barred(words, ExcludeStep),
    "unknown": lambda words: read_barred(words, UnknownStep),
    "any": lambda words: AnyStep(words.version()),
    "digit": read_digit,
}


def read_step(text: str, spelling: Spelling) -> Step:
    """A step without its number; raises Bad."""
    if text.startswith("derive "):
        return read_derive(text[len("derive "):], spelling)
    words = Words(text, spelling)
    kind = words.take("the kind of the step")
    if kind not in STEP_FORMS:
        raise Bad(f"{quoted(kind)} is no kind of step")
    step = STEP_FORMS[kind](words)
    words.end()
    return step


def read_answer(text: str, spelling: Spelling) -> Answer:
    """A line below `install`; raises Bad."""
    words = Words(text, spelling)
    if words.peek() == "left":
        words.expect("left", "out")
        version = words.version()
        words.expect("line")
        line = words.line()
        words.expect("by")
        answer: Answer = LeftOut(version, line, words.line())
    else:
        version = words.version()
        if words.peek() == "wished":
            words.expect("wished", "line")
            answer = WishedEntry(version, words.line())
        else:
            words.expect("for")
            place = words.place()
            words.expect("line")
            answer = Entry(version, place, words.line())
    words.end()
    return answer


def read_named(text: str) -> tuple[str, int]:
    """`catalogue line LINE` or `request line LINE`; raises Bad."""
    words = Words(text)
    kind = words.take("`catalogue`, `request` or `step`")
    if kind not in ("catalogue", "request"):
        raise Bad(f"a named line, a step or the message is due, not {quoted(text)}")
    words.expect("line")
    line = words.line()
    words.end()
    return kind, line


# ---- whole reports


class ReportReader:
    """Reads a report line by line. `part` is start, answers, install steps, catalogue, request, refused steps or message."""

    def __init__(self, spelling: Spelling = PLAIN) -> None:
        self.spelling, self.part = spelling, "start"
        self.answers: list[Answer] = []
        self.named: dict[str, list[int]] = {"catalogue": [], "request": []}
        self.steps: list[Step] = []
        self.message: list[str] = []

    def read(self, raw: str) -> Union[None, Answer, tuple[str, int], Step, str]:
        """Takes one line and gives its value: a named line as its text and number, a head as None; raises Bad."""
        if self.part == "start":
            if raw not in ("install", "refused"):
                raise Bad(f"a report begins with `install` or `refused`, not {quoted(raw)}")
            self.part = "answers" if raw == "install" else "catalogue"
            return None
        if self.part == "message" or (self.part == "refused steps" and raw.startswith("| ")):
            return self.read_message(raw)
        if "\r" in raw:
            raise Bad("a carriage return; lines end with a newline alone")
        if raw.startswith("step "):
            return self.read_step(raw)
        if self.part == "answers":
            self.answers.append(read_answer(raw, self.spelling))
            return self.answers[-1]
        if self.part in ("catalogue", "request"):
            return self.read_named(raw)
        raise Bad(f"a step is due, not {quoted(raw)}")

    def read_message(self, raw: str) -> str:
        """A line of the message."""
        if not raw.startswith("| "):
            raise Bad("a line of the message begins with `| `, and no other line is below one")
        self.part = "message"
        self.message.append(raw[2:])
        return self.message[-1]

    def read_step(self, raw: str) -> Step:
        """A step with its number."""
        word, space, rest = raw[len("step "):].partition(" ")
        number = number_of(word)
        if not space or number != len(self.steps) + 1:
            raise Bad(f"step {len(self.steps) + 1} is due, not {quoted(raw)}")
        self.steps.append(read_step(rest, self.spelling))
        self.part = "install steps" if self.part in ("answers", "install steps") else "refused steps"
        return self.steps[-1]

    def read_named(self, raw: str) -> tuple[str, int]:
        """A named line; those of the catalogue are first, and both rise."""
        kind, number = read_named(raw)
        if kind == "catalogue" and self.part == "request":
            raise Bad("lines of the catalogue are above those of the request")
        if self.named[kind] and self.named[kind][-1] >= number:
            raise Bad("the numbers of named lines rise")
        self.part = kind
        self.named[kind].append(number)
        return kind, number

    def end(self) -> Report:
        """The report, if it may end here; raises Bad."""
        if self.part in ("answers", "install steps"):
            return Install(tuple(self.answers), tuple(self.steps))
        if self.part not in ("refused steps", "message"):
            raise Bad("the report ends early: " + ("it is empty" if self.part == "start" else "it has no step"))
        named = self.named
        return Refused(tuple(named["catalogue"]), tuple(named["request"]), tuple(self.steps), tuple(self.message))


def read_report(data: bytes, spelling: Spelling = PLAIN) -> Report:
    """A report; raises Fault with the line at which the text leaves the grammar."""
    if len(data) > MOST_BYTES:
        raise Fault("report", None, f"it has more than {MOST_BYTES} bytes")
    reader, number = ReportReader(spelling), 0
    lines = decoded(data).split("\n")
    unfinished = lines.pop()
    for number, raw in enumerate(lines, 1):
        try:
            reader.read(raw)
        except Bad as bad:
            raise Fault("report", number, str(bad)) from None
    if unfinished:
        raise Fault("report", len(lines) + 1, "its last line has no newline")
    try:
        return reader.end()
    except Bad as bad:
        raise Fault("report", len(lines) + 1, str(bad)) from None
