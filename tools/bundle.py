"""One answer with the texts that belong to it, and how its packages are shown to people.

`load` reads the three files and checks that the report is about these texts, so that a view finds each line it names. Whether the
report is right is for `resolve judge` to decide.
"""
from __future__ import annotations

from dataclasses import dataclass
from functools import cached_property
from typing import Iterable, Optional, Union

from tools import texts
from tools.catalogue import Catalogue, Line, Placed, Request, line_text
from tools.dictionary import Dictionary, RealSpelling, read_dictionary
from tools.files import of_file, progress, read_bytes
from tools.reports import Refused, Report, Step
from tools.words import PLAIN, Bad, Fault, Spec, Spelling, Version, quoted, specs_text


@dataclass(frozen=True)
class Bundle:
    """A catalogue, a request over it and a report; `dictionary` is None where the catalogue has none."""

    catalogue: Catalogue
    request: Request
    report: Report
    dictionary: Optional[Dictionary] = None

    @cached_property
    def spelling(self) -> Spelling:
        """Real names where there are any."""
        return RealSpelling(self.dictionary) if self.dictionary else PLAIN

    @cached_property
    def people(self) -> People:
        """How packages are shown."""
        return People(self.catalogue, self.dictionary)

    def line(self, place: Optional[Version], number: int) -> Placed:
        """A line of the request (no place) or of the catalogue."""
        return (self.request if place is None else self.catalogue).placed[number - 1]


class People(Spelling):
    """A spelling for people: real names and versions, and spans by the listed versions that they hold."""

    def __init__(self, catalogue: Catalogue, dictionary: Optional[Dictionary]) -> None:
        self.catalogue, self.dictionary = catalogue, dictionary or Dictionary()
        self.has_texts = {version.package for version in self.dictionary.versions}

    def name_text(self, package: str) -> str:
        """The real name."""
        return self.dictionary.name(package)

    def number_text(self, package: str, number: int) -> str:
        """The text of the version."""
        return self.dictionary.version(Version(package, number))

    def version(self, version: Version) -> str:
        """`NAME VERSION`."""
        return f"{self.name_text(version.package)} {self.number_text(*version)}"

    def versions(self, versions: Iterable[Version]) -> str:
        """Some versions, parted by commas."""
        return ", ".join(self.version(version) for version in versions)

    def span(self, spec: Spec) -> str:
        """What is behind the name; `*` for any version."""
        if spec.span is None:
            return "*"
        if spec.package not in self.has_texts:
            return "..".join(map(str, spec.span))
        listed = sorted(v.number for v in self.catalogue.by_package.get(spec.package, ()))
        low, high = spec.bounds()
        inside = [number for number in listed if low <= number < high]
        if not inside:
            return "(a version that isn't listed)"
        if len(inside) == 1 or len(spec.span) == 1:
            return self.number_text(spec.package, inside[0])
        words = [f">= {self.number_text(spec.package, inside[0])}"] if inside[0] != listed[0] else []
        words += [f"<= {self.number_text(spec.package, inside[-1])}"] if inside[-1] != listed[-1] else []
        return " ".join(words) or "*"

    def spec_text(self, spec: Spec) -> str:
        """A SPEC; a package alone is any version of it."""
        span = self.span(spec)
        return self.name_text(spec.package) + ("" if span == "*" else f" {span}")

    def specs(self, specs: Iterable[Spec]) -> str:
        """Alternatives."""
        return specs_text(tuple(specs), self)

    def line(self, placed: Placed) -> str:
        """A line of a text."""
        return line_text(placed.line, self)


# ---- whether a report speaks of these texts

NAMING = (texts.BarStep, texts.OutsideStep, texts.MatchesStep, texts.LockStep, texts.AnyStep, texts.DigitStep)


class Fit:
    """Checks that the lines and versions that a report names are there; raises Bad."""

    def __init__(self, catalogue: Catalogue, request: Request) -> None:
        self.catalogue, self.request = catalogue, request

    def version(self, version: Version) -> None:
        """The catalogue lists it."""
        if version not in self.catalogue.line_of:
            raise Bad(f"the catalogue doesn't list {version}")

    def line(self, text: str, number: int, *kinds: type) -> Placed:
        """The text has the line, and it is of one of these kinds."""
        placed = (self.catalogue if text == "catalogue" else self.request).placed
        if number > len(placed):
            raise Bad(f"the {text} has no line {number}")
        if not isinstance(placed[number - 1].line, kinds):
            raise Bad(f"line {number} of the {text} says something else: {quoted(line_text(placed[number - 1].line))}")
        return placed[number - 1]

    def place(self, place: Optional[Version], number: int, kind: type) -> Line:
        """The line, which belongs to the place."""
        if place is None:
            return self.line("request", number, kind).line
        self.version(place)
        placed = self.line("catalogue", number, kind)
        if placed.owner != place:
            raise Bad(f"line {number} of the catalogue belongs to {placed.owner}, not to {place}")
        return placed.line

    def answer(self, answer: texts.Answer) -> None:
        """A line below `install`."""
        self.version(answer.version)
        if isinstance(answer, texts.Entry):
            line = self.place(answer.place, answer.line, texts.NeedsLine)
            if not any(spec.matches(answer.version) for spec in line.alternatives):
                raise Bad(f"its line asks for something else than {answer.version}: {quoted(line_text(line))}")
        elif self.line("request", answer.line, texts.WishLine).line.version != answer.version:
            raise Bad(f"line {answer.line} of the request wishes for another version")

    def step(self, step: Step) -> None:
        """A step."""
        if isinstance(step, texts.NeedStep):
            self.place(step.place, step.line, texts.NeedsLine)
        elif isinstance(step, texts.GateStep):
            self.place(step.version, step.line, texts.NeedsLine)
        elif isinstance(step, (texts.LimitStep, texts.BarStep)):
            self.place(step.place, step.line, texts.LimitsLine)
        elif isinstance(step, texts.LockStep):
            self.line("catalogue", step.line, texts.LockLine)
        elif isinstance(step, texts.ExcludeStep):
            self.line("catalogue", step.line, texts.ExcludeLine)
        elif isinstance(step, texts.UnknownStep):
            self.line("catalogue", step.line, texts.UnknownLine)
        elif isinstance(step, texts.DeriveStep):
            for literal in step.literals:
                if isinstance(literal.atom, Version):
                    self.version(literal.atom)
        if isinstance(step, NAMING):
            self.version(step.version)

    def causes(self, number: int, step: Union[Step, texts.Answer]) -> None:
        """Checks that the causes of a step are above it."""
        if isinstance(step, texts.DeriveStep):
            for cause in step.causes:
                if not 1 <= cause < number:
                    raise Bad(f"there is no step {cause} above it")


def check_fit(catalogue: Catalogue, request: Request, report: Report) -> None:
    """Raises Fault at the first line of the report that names what isn't in the texts."""
    fit, number = Fit(catalogue, request), 1
    head: list = []
    if isinstance(report, Refused):
        head = [("catalogue", n) for n in report.catalogue_lines] + [("request", n) for n in report.request_lines]
    else:
        head = list(report.answers)
    try:
        for number, value in enumerate(head, 2):
            fit.line(*value, *texts.RULES) if isinstance(report, Refused) else fit.answer(value)
        for at, step in enumerate(report.steps, 1):
            number = 1 + len(head) + at
            fit.step(step)
            fit.causes(at, step)
        for number, value in enumerate(head, 2):
            if isinstance(value, texts.LeftOut) and value.step > len(report.steps):
                raise Bad(f"the report has no step {value.step}")
    except Bad as bad:
        raise Fault("report", number, str(bad)) from None


@dataclass(frozen=True)
class CatalogueFile:
    """A catalogue with its path, its bytes and its dictionary, if it has one."""

    path: str
    data: bytes
    catalogue: Catalogue
    dictionary: Optional[Dictionary]


def load_catalogue(path: str) -> CatalogueFile:
    """Reads a catalogue; raises Failure with file and line."""
    with progress(f"reading {path}"), of_file(path):
        data = read_bytes(path)
        catalogue = texts.read_catalogue(data)
        return CatalogueFile(path, data, catalogue, read_dictionary(catalogue))


def load_request(path: str, catalogue: Catalogue) -> Request:
    """Reads a request over a catalogue; raises Failure with file and line."""
    with progress(f"reading {path}"), of_file(path):
        return texts.read_request(read_bytes(path), catalogue)


def load(catalogue_path: str, request_path: str, report_path: str) -> Bundle:
    """Reads the three files; raises Failure with file and line."""
    file = load_catalogue(catalogue_path)
    request = load_request(request_path, file.catalogue)
    with progress(f"reading {report_path}"), of_file(report_path):
        report = texts.read_report(read_bytes(report_path))
        check_fit(file.catalogue, request, report)
    return Bundle(file.catalogue, request, report, file.dictionary)
