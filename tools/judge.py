"""A plain judge of reports that gives reasons, written from docs/FORMATS.md and docs/JUDGE.md alone.

    line, reason = refusal(catalogue, request, data)     0 and no reason for a report that holds

The catalogue and the request are values of tools/texts.py, the report is bytes. The line is that of `resolve judge`'s `no line N`. Nothing
here is shared with that program, and nothing is proved: checks/judging.py compares both. It is slow where a report has many steps.
"""
from __future__ import annotations

from typing import Any, Collection, Iterable, Optional

from tools import texts
from tools.texts import Catalogue, Condition, Literal, NeedsLine, Placed, Request, Spec, Step, Version, cases, line_text
from tools.words import quoted

WORDS = {NeedsLine: "needs", texts.LimitsLine: "limits", texts.ExcludeLine: "exclude", texts.UnknownLine: "unknown"}
Clause = list[Literal]


class Refused(Exception):
    """The line doesn't hold, for this reason."""


def shown(value: Any) -> object:
    """A value in a reason; a line is quoted."""
    return value if value is None or isinstance(value, (str, int, Version, Spec)) else quoted(line_text(value))


def need(test: bool, why: str, *values: object) -> None:
    """Refuses the line where the test fails; the values are put into the reason."""
    if not test:
        raise Refused(why.format(*map(shown, values)))


# ---- what lines ask of a set of versions


def holds(condition: Optional[Condition], chosen: Collection[Version]) -> bool:
    """Whether a condition holds among these versions."""
    return any(all(any(spec.matches(v) for v in chosen) for spec in case) for case in cases(condition))


def barred_by(placed: Placed) -> Version:
    """The version that an `exclude` or `unknown` line bars."""
    return placed.owner if isinstance(placed.line, texts.UnknownLine) else placed.line.version


def obeys(placed: Placed, chosen: Collection[Version]) -> bool:
    """Whether the set of these versions obeys the line."""
    line = placed.line
    if placed.owner is not None and placed.owner not in chosen:
        return True
    if isinstance(line, NeedsLine):
        return not holds(line.condition, chosen) or any(s.matches(v) for s in line.alternatives for v in chosen)
    if isinstance(line, texts.LimitsLine):
        return all(v.package != line.spec.package or line.spec.matches(v) for v in chosen)
    if isinstance(line, texts.LockLine):
        return all(v.package != line.version.package or v == line.version for v in chosen)
    if isinstance(line, (texts.ExcludeLine, texts.UnknownLine)):
        return barred_by(placed) not in chosen
    return True


# ---- judging


class Judge:
    """The state of the judge below a line of the report."""

    def __init__(self, catalogue: Catalogue, request: Request) -> None:
        self.catalogue, self.request = catalogue, request
        self.reader = texts.ReportReader()
        self.entries: list[Version] = []
        self.out: list[tuple[Version, int, list[Version]]] = []
        self.wish_line = 0
        self.named: dict[str, set[int]] = {"catalogue": set(), "request": set()}
        self.clauses: list[set[Literal]] = []
        self.places: dict[Version, int] = {}
        self.last: Optional[Step] = None
        self.read = 0

    # -- one line

    def line(self, raw: str) -> None:
        """Takes the next line."""
        try:
            value = self.reader.read(raw)
        except texts.Bad as bad:
            raise Refused(str(bad)) from None
        if isinstance(value, tuple) and type(value) is tuple:
            self.name_line(*value)
        elif isinstance(value, (texts.Entry, texts.WishedEntry, texts.LeftOut)):
            self.answer(value)
        elif isinstance(value, texts.Step):
            self.add_step(value)

    def name_line(self, text: str, n: int) -> None:
        """`catalogue line N`, `request line N`."""
        line = self.rule(text, n).line
        need(isinstance(line, texts.RULES), "line {} of the {} is no rule: {}", n, text, line)
        self.named[text].add(n)

    def answer(self, answer: texts.Answer) -> None:
        """A line below `install`."""
        v = answer.version
        if isinstance(answer, texts.LeftOut):
            self.wish(v, answer.line)
            need(v not in self.entries, "{} is an entry above", v)
            self.out.append((v, answer.step, list(self.entries)))
            return
        self.lists(v)
        need(v not in self.entries, "{} is an entry above", v)
        other = all(w.package != v.package for w in self.entries)
        need(self.is_many(v) or other, "another version of {} is an entry above, and the package isn't marked `many`", v.package)
        need(all(w != v for w, _, _ in self.out), "{} was left out above", v)
        if isinstance(answer, texts.WishedEntry):
            self.wish(v, answer.line)
        else:
            self.reason(v, answer.place, answer.line)
        self.entries.append(v)

    def reason(self, v: Version, place: Optional[Version], n: int) -> None:
        """Whether an entry is there for this line."""
        need(place is None or place in self.entries, "{} is no entry above", place)
        line = self.line_of(place, n, NeedsLine)
        need(any(s.matches(v) for s in line.alternatives), "its line asks for something else than {}: {}", v, line)
        need(holds(line.condition, self.entries), "the condition doesn't hold among the entries above: {}", line)

    def lists(self, v: Version) -> None:
        """The catalogue lists the version."""
        need(v in self.catalogue.line_of, "the catalogue doesn't list {}", v)

    def is_many(self, named: Any) -> bool:
        """Whether the package of a version or SPEC is marked `many`."""
        return named.package in self.catalogue.many

    def wish(self, v: Version, n: int) -> None:
        """The line wishes for the version, and is below those that were named before."""
        need(n > self.wish_line, "a line above names the wish of line {}, and wishes are in the order of their lines", self.wish_line)
        line = self.rule("request", n).line
        need(line == texts.WishLine(v), "line {} of the request doesn't wish for {}: {}", n, v, line)
        self.wish_line = n

    def rule(self, text: str, n: int) -> Placed:
        """A line of a text."""
        lines = self.catalogue.placed if text == "catalogue" else self.request.placed
        need(n <= len(lines), "the {} has no line {}", text, n)
        return lines[n - 1]

    def line_of(self, at: Optional[Version], n: int, kind: type) -> texts.Line:
        """Line n of the request, or of the catalogue where it belongs to the version; it is of this kind."""
        text = "request" if at is None else "catalogue"
        if at is not None:
            self.lists(at)
        placed = self.rule(text, n)
        need(at is None or placed.owner == at, "line {} of the catalogue doesn't belong to {}", n, at)
        need(isinstance(placed.line, kind), "line {} of the {} isn't a `{}` line: {}", n, text, WORDS[kind], placed.line)
        return placed.line

    # -- steps

    def uses(self, text: str, n: int) -> None:
        """In a refusal a step's line is one of the named lines."""
        need(not self.reader.part.startswith("refused") or n in self.named[text], "line {} of the {} isn't among the named lines", n, text)

    def place_line(self, at: Optional[Version], n: int, kind: type) -> tuple[texts.Line, Clause]:
        """The line of a step, and the literal of its place."""
        line = self.line_of(at, n, kind)
        self.uses("request" if at is None else "catalogue", n)
        return line, [] if at is None else [Literal(at, False)]

    def listed_matches(self, specs: Iterable[Spec]) -> Clause:
        """A literal for each listed match."""
        return [Literal(v, True) for s in specs for v in self.catalogue.matches(s)]

    def add_step(self, step: Step) -> None:
        """A step: its clause, if its line states that."""
        self.last = step
        self.clauses.append(set(getattr(self, "step_" + type(step).__name__)(step)))

    def step_NeedStep(self, step: texts.NeedStep) -> Clause:
        line, clause = self.place_line(step.place, step.line, NeedsLine)
        all_cases = cases(line.condition)
        need(1 <= step.case <= len(all_cases), "the line has no case {}; its cases are 1 to {}", step.case, len(all_cases))
        for s in all_cases[step.case - 1]:
            clause += self.unmet(s)
        return clause + self.listed_matches(line.alternatives)

    def unmet(self, s: Spec) -> Clause:
        """What a need's clause has for a SPEC of its case."""
        if self.is_many(s):
            return [Literal(texts.MatchesAtom(s), False)]
        others = [Literal(v, True) for v in self.catalogue.by_package.get(s.package, ()) if not s.matches(v)]
        return [Literal(texts.AnyAtom(s.package), False), *others]

    def step_GateStep(self, step: texts.GateStep) -> Clause:
        line, clause = self.place_line(step.version, step.line, NeedsLine)
        need(line.condition is None, "a line with a condition has no gate: {}", line)
        return clause + [Literal(texts.SharedAtom(line.alternatives), True)]

    def step_SharedStep(self, step: texts.SharedStep) -> Clause:
        return [Literal(texts.SharedAtom(step.alternatives), False)] + self.listed_matches(step.alternatives)

    def barred(self, s: Spec, v: Version) -> Clause:
        """The literal of a version of the SPEC's package that doesn't match."""
        self.lists(v)
        need(v.package == s.package, "{} is no version of {}", v, s.package)
        need(not s.matches(v), "{} matches `{}`", v, s)
        return [Literal(v, False)]

    def step_BarStep(self, step: texts.BarStep) -> Clause:
        line, clause = self.place_line(step.place, step.line, texts.LimitsLine)
        return clause + self.barred(line.spec, step.version)

    def step_LimitStep(self, step: texts.LimitStep) -> Clause:
        line, clause = self.place_line(step.place, step.line, texts.LimitsLine)
        return clause + [Literal(texts.OutsideAtom(line.spec), False)]

    def step_OutsideStep(self, step: texts.OutsideStep) -> Clause:
        return self.barred(step.spec, step.version) + [Literal(texts.OutsideAtom(step.spec), True)]

    def step_MatchesStep(self, step: texts.MatchesStep) -> Clause:
        v, s = step.version, step.spec
        self.marked(s, True)
        self.lists(v)
        need(s.matches(v), "{} doesn't match `{}`", v, s)
        return [Literal(v, False), Literal(texts.MatchesAtom(s), True)]

    def step_LockStep(self, step: texts.LockStep) -> Clause:
        line = self.rule("catalogue", step.line).line
        need(isinstance(line, texts.LockLine), "line {} of the catalogue isn't a `lock` line: {}", step.line, line)
        self.lists(step.version)
        other = line.version.package == step.version.package and line.version != step.version
        need(other, "{} doesn't bar {}", line, step.version)
        self.uses("catalogue", step.line)
        return [Literal(step.version, False)]

    def bar(self, kind: type, n: int) -> Clause:
        """The literal of the version that a line bars."""
        placed = self.rule("catalogue", n)
        need(isinstance(placed.line, kind), "line {} of the catalogue isn't an `{}` line: {}", n, WORDS[kind], placed.line)
        self.uses("catalogue", n)
        return [Literal(barred_by(placed), False)]

    def step_ExcludeStep(self, step: texts.ExcludeStep) -> Clause:
        return self.bar(texts.ExcludeLine, step.line)

    def step_UnknownStep(self, step: texts.UnknownStep) -> Clause:
        return self.bar(texts.UnknownLine, step.line)

    def step_DigitStep(self, step: texts.DigitStep) -> Clause:
        v, k = step.version, step.place
        self.lists(v)
        self.marked(v, False)
        need(self.places.get(v, k) == k, "{} has place {} in a step above", v, self.places.get(v))
        self.places[v] = k
        return [Literal(v, False), Literal(texts.BitAtom(step.bit, v.package), bool(k >> step.bit & 1))]

    def step_AnyStep(self, step: texts.AnyStep) -> Clause:
        self.lists(step.version)
        return [Literal(step.version, False), Literal(texts.AnyAtom(step.version.package), True)]

    def marked(self, named: Any, wanted: bool) -> None:
        """The package is marked `many`, or isn't: only then it has `matches` atoms, or bits."""
        why = "{} isn't marked `many`, so nothing is stated of its matches" if wanted else "{} is marked `many`, so it has no bits"
        need(self.is_many(named) == wanted, why, named.package)

    def atom(self, atom: texts.Atom) -> None:
        """Versions are listed; packages with bits aren't marked `many`, those of `matches` are."""
        if isinstance(atom, Version):
            self.lists(atom)
        elif isinstance(atom, texts.BitAtom):
            self.marked(atom, False)
        elif isinstance(atom, texts.MatchesAtom):
            self.marked(atom.spec, True)

    def step_DeriveStep(self, step: texts.DeriveStep) -> Clause:
        for each in step.literals:
            self.atom(each.atom)
        for n in step.causes:
            need(1 <= n <= len(self.clauses), "there is no step {} above it", n)
        known = {each.atom: not each.positive for each in step.literals}
        refuted = False
        for n in step.causes:
            self.read += 1
            left = [each for each in self.clauses[n - 1] if known.get(each.atom, each.positive) == each.positive]
            if not left:
                refuted = True
            elif len(left) == 1 and left[0].atom not in known:
                known[left[0].atom] = left[0].positive
        need(refuted, "one pass over the clauses of the named steps, in this order, finds none that is false")
        return step.literals

    # -- the end

    def end(self) -> None:
        """What is asked of the whole report."""
        try:
            report = self.reader.end()
        except texts.Bad as bad:
            raise Refused(str(bad)) from None
        if isinstance(report, texts.Refused):
            need(isinstance(self.last, texts.DeriveStep) and not self.last.literals, "the last step isn't `derive []`")
            return
        chosen = dict.fromkeys(self.entries)
        for text, lines in (("catalogue", self.catalogue.placed), ("request", self.request.placed)):
            for placed in lines:
                need(obeys(placed, chosen), "the entries don't obey line {} of the {}: {}", placed.number, text, placed.line)
        told = {v for v, _, _ in self.out} | set(self.entries)
        for placed in self.request.placed:
            if isinstance(placed.line, texts.WishLine):
                v = placed.line.version
                need(v in told, "{} is neither an entry nor left out, and line {} of the request wishes for it", v, placed.number)
        for v, by, above in self.out:
            need(by <= len(self.clauses), "there is no step {}, by which {} is left out", by, v)
            allowed = {Literal(w, False) for w in above + [v]}
            need(self.clauses[by - 1] <= allowed, "step {} doesn't show that {} can't be there beside the entries above it", by, v)


def court_of(catalogue: bytes, request: bytes) -> Judge:
    """A judge over two texts, which must be in the grammar."""
    listed = texts.read_catalogue(catalogue)
    return Judge(listed, texts.read_request(request, listed))


def refusal(catalogue: Catalogue, request: Request, data: bytes) -> tuple[int, str]:
    """The line from which a report doesn't hold, with the reason; 0 where it holds."""
    court = Judge(catalogue, request)
    lines = texts.decoded(data).split("\n")
    unfinished = lines.pop()
    number = 0
    try:
        for number, raw in enumerate(lines, 1):
            court.line(raw)
        number = len(lines) + 1
        need(not unfinished, "its last line has no newline")
        court.end()
    except Refused as refused:
        return number, str(refused)
    return 0, ""


def judge(catalogue: bytes, request: bytes, report: bytes) -> int:
    """The line from which a report doesn't hold, or 0, over three texts as bytes."""
    court = court_of(catalogue, request)
    return refusal(court.catalogue, court.request, report)[0]
