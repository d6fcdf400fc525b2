"""Reports in words: named lines with their sources, steps as sentences, the tree of an install report, wishes left out.

They have the report's content in other words; whether it is right is for `resolve judge`.
"""
from __future__ import annotations

from dataclasses import dataclass, field
from typing import Iterable, Iterator, Optional, Union

from tools import texts
from tools.bundle import Bundle
from tools.reports import Install, LeftOut, Refused, Step
from tools.words import Version

REFUSED = "The request is refused: no set of versions obeys all of these lines."
INSTALLED = "The request can be met: these versions keep every rule."


# ---- lines


def line_label(bundle: Bundle, place: Optional[Version], number: int, from_catalogue: bool = False) -> str:
    """`request line 2`, or `catalogue line 7, of http 3.2.1`."""
    if place is None and not from_catalogue:
        return f"request line {number}"
    owner = bundle.catalogue.placed[number - 1].owner
    return f"catalogue line {number}" + (f", of {bundle.people.version(owner)}" if owner else "")


@dataclass(frozen=True)
class Named:
    """A line that a report names: where it is, its words, and its source text."""

    label: str
    words: str
    source: Optional[str]

    def __str__(self) -> str:
        return f"{self.label}: {self.words}" + (f"   [{self.source}]" if self.source else "")


def named_line(bundle: Bundle, text: str, number: int) -> Named:
    """A line of the catalogue or of the request."""
    of_catalogue = text == "catalogue"
    placed = (bundle.catalogue if of_catalogue else bundle.request).placed[number - 1]
    source = bundle.dictionary.sources.get(number) if bundle.dictionary and of_catalogue else None
    return Named(line_label(bundle, None, number, of_catalogue), bundle.people.line(placed), source)


def place_line(bundle: Bundle, place: Optional[Version], number: int) -> Named:
    """The line of an entry."""
    return named_line(bundle, "request" if place is None else "catalogue", number)


def named_lines(bundle: Bundle) -> list[Named]:
    """The lines that a refused report names, those of the request first, since people wrote them."""
    report = bundle.report
    found = [named_line(bundle, "request", number) for number in report.request_lines]
    return found + [named_line(bundle, "catalogue", number) for number in report.catalogue_lines]


# ---- steps


class Sentences:
    """Steps as sentences."""

    def __init__(self, bundle: Bundle) -> None:
        self.bundle, self.people = bundle, bundle.people

    def text(self, step: Step) -> str:
        """One sentence for a step."""
        return getattr(self, type(step).__name__)(step)

    def premise(self, place: Optional[Version]) -> str:
        """What the line is asked for."""
        return "" if place is None else f"if {self.people.version(place)} is installed, "

    def needed(self, specs: Iterable[texts.Spec]) -> str:
        """What has to be installed for a match of these."""
        found = [self.people.version(version) for version in self.matches(specs)]
        if not found:
            return "a version is needed that isn't listed"
        return f"{found[0]} is needed" if len(found) == 1 else f"one of {', '.join(found)} is needed"

    def matches(self, specs: Iterable[texts.Spec]) -> list[Version]:
        """The listed versions that match."""
        return list(dict.fromkeys(v for spec in specs for v in self.bundle.catalogue.matches(spec)))

    def line(self, place: Optional[Version], number: int) -> str:
        """The line, with its words."""
        named = place_line(self.bundle, place, number)
        return f"{'request' if place is None else 'catalogue'} line {number} ({named.words})"

    def NeedStep(self, step: texts.NeedStep) -> str:
        line = self.bundle.line(step.place, step.line).line
        all_cases = texts.cases(line.condition)
        case = all_cases[step.case - 1] if 1 <= step.case <= len(all_cases) else []
        there = " and ".join(map(self.people.spec_text, case))
        beside = f" where {there} {'is' if len(case) == 1 else 'are'} there" if case else ""
        needed = self.premise(step.place) + self.needed(line.alternatives)
        return f"By {self.line(step.place, step.line)}: {needed}{beside}."

    def GateStep(self, step: texts.GateStep) -> str:
        specs = self.bundle.line(step.version, step.line).line.alternatives
        needed = f"{self.premise(step.version)}a match of {self.people.specs(specs)} is needed"
        return f"By {self.line(step.version, step.line)}: {needed}."

    def SharedStep(self, step: texts.SharedStep) -> str:
        matches = self.people.versions(self.matches(step.alternatives)) or "nothing that is listed"
        return f"What matches {self.people.specs(step.alternatives)}: {matches}."

    def OutsideStep(self, step: texts.OutsideStep) -> str:
        return f"{self.people.version(step.version)} doesn't match {self.people.spec_text(step.spec)}."

    def MatchesStep(self, step: texts.MatchesStep) -> str:
        return f"{self.people.version(step.version)} matches {self.people.spec_text(step.spec)}."

    def LimitStep(self, step: texts.LimitStep) -> str:
        spec = self.bundle.line(step.place, step.line).line.spec
        kept = f"no version outside {self.people.spec_text(spec)} may be installed"
        return f"By {self.line(step.place, step.line)}: {self.premise(step.place)}{kept}."

    def BarStep(self, step: texts.BarStep) -> str:
        barred = f"{self.people.version(step.version)} can't be installed"
        return f"By {self.line(step.place, step.line)}: {self.premise(step.place)}{barred}."

    def LockStep(self, step: texts.LockStep) -> str:
        line = named_line(self.bundle, "catalogue", step.line)
        return f"By catalogue line {step.line} ({line.words}): {self.people.version(step.version)} can't be installed."

    def barred(self, number: int, why: str) -> str:
        placed = self.bundle.catalogue.placed[number - 1]
        version = self.people.version(placed.owner or placed.line.version)
        return f"By catalogue line {number}: {version} can't be installed, since {why} ({placed.line.reason})."

    def ExcludeStep(self, step: texts.ExcludeStep) -> str:
        return self.barred(step.line, "it is excluded")

    def UnknownStep(self, step: texts.UnknownStep) -> str:
        return self.barred(step.line, "what it needs isn't known")

    def AnyStep(self, step: texts.AnyStep) -> str:
        return f"{self.people.version(step.version)} is a version of {self.people.name_text(step.version.package)}."

    def DigitStep(self, step: texts.DigitStep) -> str:
        name, bit = self.people.name_text(step.version.package), step.place >> step.bit & 1
        version = self.people.version(step.version)
        return f"At most one version of {name}: {version} has place {step.place}, so bit {step.bit} is {bit}."

    def DeriveStep(self, step: texts.DeriveStep) -> str:
        causes = joined([str(cause) for cause in dict.fromkeys(step.causes)])
        return f"From {causes}: {self.clause(step.literals)}"

    def clause(self, literals: tuple[texts.Literal, ...]) -> str:
        """A derived clause."""
        if not literals:
            return "no set of versions obeys all the named lines."
        if all(not each.positive and isinstance(each.atom, Version) for each in literals):
            versions = [self.people.version(each.atom) for each in literals]
            return barred_words(versions)
        return f"{' or '.join(self.literal(each) for each in literals)}."

    def literal(self, literal: texts.Literal) -> str:
        """One literal."""
        atom, sign = literal.atom, "" if literal.positive else "not "
        if isinstance(atom, Version):
            return f"{sign}{self.people.version(atom)}"
        if isinstance(atom, texts.AnyAtom):
            return f"{'a' if literal.positive else 'no'} version of {self.people.name_text(atom.package)}"
        if isinstance(atom, texts.SharedAtom):
            return f"{'a' if literal.positive else 'no'} match of {self.people.specs(atom.alternatives)}"
        if isinstance(atom, texts.OutsideAtom):
            return f"{'a' if literal.positive else 'no'} version outside {self.people.spec_text(atom.spec)}"
        if isinstance(atom, texts.MatchesAtom):
            return f"{'a' if literal.positive else 'no'} match of {self.people.spec_text(atom.spec)}"
        return f"bit {atom.bit} of {self.people.name_text(atom.package)} is {int(literal.positive)}"


def barred_words(versions: list[str]) -> str:
    """That these versions can't be installed together."""
    if len(versions) < 3:
        return f"{joined(versions)} can't {'both ' if len(versions) == 2 else ''}be installed."
    return f"not all of {joined(versions)} can be installed."


def joined(words: list[str]) -> str:
    """Words with commas and `and`."""
    return words[0] if len(words) == 1 else f"{', '.join(words[:-1])} and {words[-1]}"


def step_sentences(bundle: Bundle) -> list[str]:
    """A sentence for each step, numbered."""
    sentences = Sentences(bundle)
    return [f"{number}. {sentences.text(step)}" for number, step in enumerate(bundle.report.steps, 1)]


def explanation(bundle: Bundle, with_steps: bool) -> list[str]:
    """The report in words."""
    report = bundle.report
    if isinstance(report, Refused):
        lines = [REFUSED, "", *(f"  {named}" for named in named_lines(bundle))]
    else:
        lines = [INSTALLED if report.answers else "Nothing is needed.", ""]
        lines += [f"  {answer_words(bundle, answer)}" for answer in report.answers]
    if with_steps and report.steps:
        lines += ["", "The proof:", "", *(f"  {sentence}" for sentence in step_sentences(bundle))]
    return lines


def answer_words(bundle: Bundle, answer: texts.Answer) -> str:
    """An answer with its reason."""
    version = bundle.people.version(answer.version)
    if isinstance(answer, LeftOut):
        return f"{version} is left out, though request line {answer.line} wishes for it (step {answer.step})"
    return f"{version}, {reason_words(bundle, answer)}"


def reason_words(bundle: Bundle, entry: Union[texts.Entry, texts.WishedEntry]) -> str:
    """Why an entry is there."""
    if isinstance(entry, texts.WishedEntry):
        return f"wished for by request line {entry.line}"
    return f"for {place_line(bundle, entry.place, entry.line)}"


# ---- the tree


@dataclass
class Branch:
    """An entry with those that are there for it; the top has none."""

    answer: Union[None, texts.Entry, texts.WishedEntry]
    below: list[Branch] = field(default_factory=list)


def tree_of(report: Install) -> Branch:
    """The entries as a tree: each below the entry that it is there for."""
    top = Branch(None)
    branches: dict[Optional[Version], Branch] = {None: top}
    for entry in report.entries:
        branch = branches[entry.version] = Branch(entry)
        place = entry.place if isinstance(entry, texts.Entry) else None
        branches.get(place, top).below.append(branch)
    return top


def branch_label(bundle: Bundle, answer: Union[texts.Entry, texts.WishedEntry]) -> str:
    """An entry and the line that asks for it."""
    version = bundle.people.version(answer.version)
    if isinstance(answer, texts.WishedEntry):
        return f"{version}   (request line {answer.line}: a wish)"
    text = "request" if answer.place is None else "catalogue"
    return f"{version}   ({text} line {answer.line}: {place_line(bundle, answer.place, answer.line).words})"


def tree_lines(bundle: Bundle) -> list[str]:
    """The tree, with signs; without recursion, since chains of entries may be long."""
    lines, stack = ["request"], [(branch, "", is_last) for branch, is_last in marked(tree_of(bundle.report).below)]
    while stack:
        branch, indent, is_last = stack.pop()
        lines.append(f"{indent}{'└─ ' if is_last else '├─ '}{branch_label(bundle, branch.answer)}")
        deeper = indent + ("   " if is_last else "│  ")
        stack += [(below, deeper, last) for below, last in marked(branch.below)]
    return lines


def marked(branches: list[Branch]) -> Iterator[tuple[Branch, bool]]:
    """Branches from the last to the first, each with whether it is the last."""
    for at in range(len(branches) - 1, -1, -1):
        yield branches[at], at == len(branches) - 1


def why_lines(bundle: Bundle, name: str) -> Optional[list[str]]:
    """Why a package is installed, from it up to the request, or why a wish for it was left out; None of any other."""

    def is_named(version: Version) -> bool:
        return name in (version.package, bundle.people.name_text(version.package))

    entries = {entry.version: entry for entry in bundle.report.entries}
    found = next((entry for version, entry in entries.items() if is_named(version)), None)
    if found is None:
        out = [each for each in left_out(bundle.report) if is_named(each.version)]
        return [line for each in out for line in left_lines(bundle, each)] or None
    lines: list[str] = []
    while found is not None:
        lines.append(answer_words(bundle, found))
        found = entries.get(found.place) if isinstance(found, texts.Entry) and found.place else None
    return lines


# ---- wishes left out


def left_out(report: Install) -> list[LeftOut]:
    """The wishes that were left out."""
    return [answer for answer in report.answers if isinstance(answer, LeftOut)]


def rests_on(steps: tuple[Step, ...], number: int) -> list[int]:
    """The steps that a step rests on, itself with them, rising."""
    found, waiting = set(), [number]
    while waiting:
        at = waiting.pop()
        if at not in found:
            found.add(at)
            step = steps[at - 1]
            waiting += step.causes if isinstance(step, texts.DeriveStep) else ()
    return sorted(found)


def barring_versions(step: Step, wish: Version) -> list[Version]:
    """The entries beside which the wish can't be installed."""
    if isinstance(step, texts.DeriveStep):
        return [each.atom for each in step.literals if isinstance(each.atom, Version) and each.atom != wish]
    return []


def left_lines(bundle: Bundle, out: LeftOut) -> list[str]:
    """Why a wish is left out: what is in its way, and the sentences of the proof that aren't derived."""
    steps, wish = bundle.report.steps, bundle.people.version(out.version)
    beside = [bundle.people.version(version) for version in barring_versions(steps[out.step - 1], out.version)]
    why = f"it can't be installed beside {joined(beside)}" if beside else "no set that keeps the rules holds it"
    lines = [f"{wish}, wished for by request line {out.line}, is left out: {why}."]
    sentences = Sentences(bundle)
    for number in rests_on(steps, out.step):
        if not isinstance(steps[number - 1], (texts.DeriveStep, texts.DigitStep, texts.AnyStep, texts.MatchesStep)):
            lines.append(f"  {sentences.text(steps[number - 1])}")
    return lines
