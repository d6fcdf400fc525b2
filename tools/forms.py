"""Reports as JSON, for programs that don't read lines: `report_json` writes, `read_json` gives the same report back.

Each answer, step and atom is an object with a `kind`. A version is `{"name": .., "number": ..}`, with `real` and `text`
beside where the catalogue has a dictionary (they are ignored on reading). Lines of a message that aren't UTF-8 are
`{"hex": ..}`.
"""
from __future__ import annotations

import dataclasses
import json
from typing import Any, Callable, Optional

from tools import reports
from tools.catalogue import decoded, encoded
from tools.dictionary import Dictionary
from tools.files import Failure
from tools.reports import Install, Literal, Refused, Report, read_report, report_text
from tools.words import MOST_DIGITS, Fault, Spec, Version

FORMAT = "resolve report 1"
ANSWERS = {"entry": reports.Entry, "wished": reports.WishedEntry, "left out": reports.LeftOut}
STEPS = {
    "need": reports.NeedStep, "gate": reports.GateStep, "shared": reports.SharedStep, "outside": reports.OutsideStep,
    "matches": reports.MatchesStep,
    "limit": reports.LimitStep, "bar": reports.BarStep, "lock": reports.LockStep, "exclude": reports.ExcludeStep,
    "unknown": reports.UnknownStep, "any": reports.AnyStep, "digit": reports.DigitStep, "derive": reports.DeriveStep,
}
ATOMS = {
    "any": reports.AnyAtom, "shared": reports.SharedAtom, "outside": reports.OutsideAtom, "matches": reports.MatchesAtom,
    "bit": reports.BitAtom, "version": Version,
}
KINDS = {kind: word for table in (ANSWERS, STEPS, ATOMS) for word, kind in table.items()}


class BadForm(ValueError):
    """A value that isn't of its form; the text begins with where it is."""


# ---- writing


class Writer:
    """Values as what json.dumps takes."""

    def __init__(self, dictionary: Optional[Dictionary]) -> None:
        self.dictionary = dictionary

    def form(self, value: Any) -> Any:
        """Any value of a report."""
        if isinstance(value, Version):
            return self.version(value)
        if isinstance(value, Spec):
            return {"name": value.package} | self.real(value.package) | {"span": value.span and list(value.span)}
        if isinstance(value, Literal):
            return {"positive": value.positive, "atom": self.atom(value.atom)}
        if isinstance(value, tuple):
            return [self.form(each) for each in value]
        if dataclasses.is_dataclass(value):
            fields = {field.name: self.form(getattr(value, field.name)) for field in dataclasses.fields(value)}
            return {"kind": KINDS[type(value)]} | fields
        return value

    def real(self, package: str) -> dict[str, str]:
        """The real name, if there is a dictionary."""
        return {"real": self.dictionary.name(package)} if self.dictionary else {}

    def version(self, version: Version) -> dict[str, Any]:
        """A version."""
        text = {"text": self.dictionary.version(version)} if self.dictionary else {}
        return {"name": version.package, "number": version.number} | self.real(version.package) | text

    def atom(self, atom: reports.Atom) -> dict[str, Any]:
        """An atom; that of a version has its kind too."""
        return {"kind": "version"} | self.version(atom) if isinstance(atom, Version) else self.form(atom)


def line_form(line: str) -> Any:
    """A line of the message."""
    try:
        line.encode("utf-8")
        return line
    except UnicodeEncodeError:
        return {"hex": encoded(line).hex()}


def rows_text(key: str, rows: list[Any]) -> str:
    """A list with one item a line."""
    body = ",\n".join("  " + json.dumps(row) for row in rows)
    return f' "{key}": [\n{body}\n ]' if rows else f' "{key}": []'


def report_json(report: Report, dictionary: Optional[Dictionary] = None) -> bytes:
    """The report as JSON, one answer, step or line of the message a line."""
    writer = Writer(dictionary)
    parts = [f' "format": {json.dumps(FORMAT)}']
    if isinstance(report, Install):
        parts += [' "verdict": "install"', rows_text("answers", writer.form(report.answers))]
    else:
        parts += [' "verdict": "refused"', f' "catalogue_lines": {json.dumps(report.catalogue_lines)}']
        parts += [f' "request_lines": {json.dumps(report.request_lines)}']
    parts.append(rows_text("steps", writer.form(report.steps)))
    if isinstance(report, Refused):
        parts.append(rows_text("message", [line_form(line) for line in report.message]))
    return ("{\n" + ",\n".join(parts) + "\n}\n").encode("ascii")


# ---- reading


def member(value: Any, key: str, where: str) -> Any:
    """A member of an object."""
    if not isinstance(value, dict) or key not in value:
        raise BadForm(f"{where}: an object with `{key}` is due")
    return value[key]


def read_number(value: Any, where: str) -> int:
    """A number."""
    if type(value) is not int:
        raise BadForm(f"{where}: a whole number is due")
    return value


def read_word(value: Any, where: str) -> str:
    """A text."""
    if not isinstance(value, str):
        raise BadForm(f"{where}: a text is due")
    return value


def read_list(read: Callable[[Any, str], Any]) -> Callable[[Any, str], tuple]:
    """A list, each item by `read`."""

    def read_items(value: Any, where: str) -> tuple:
        if not isinstance(value, list):
            raise BadForm(f"{where}: a list is due")
        return tuple(read(item, f"{where}[{at}]") for at, item in enumerate(value))

    return read_items


def read_version(value: Any, where: str) -> Version:
    """A version."""
    name = read_word(member(value, "name", where), f"{where}.name")
    return Version(name, read_number(member(value, "number", where), f"{where}.number"))


def read_place(value: Any, where: str) -> reports.Place:
    """null for the request, or a version."""
    return None if value is None else read_version(value, where)


def read_spec(value: Any, where: str) -> Spec:
    """A SPEC."""
    name = read_word(member(value, "name", where), f"{where}.name")
    span = member(value, "span", where)
    return Spec(name, None if span is None else read_list(read_number)(span, f"{where}.span"))


def read_literal(value: Any, where: str) -> Literal:
    """A literal."""
    positive = member(value, "positive", where)
    if not isinstance(positive, bool):
        raise BadForm(f"{where}.positive: true or false is due")
    return Literal(read_kind(ATOMS)(member(value, "atom", where), f"{where}.atom"), positive)


def read_message_line(value: Any, where: str) -> str:
    """A line of the message."""
    if isinstance(value, str):
        return value
    try:
        return decoded(bytes.fromhex(member(value, "hex", where)))
    except (TypeError, ValueError) as error:
        raise BadForm(f"{where}.hex: {error}") from None


def read_kind(table: dict[str, type]) -> Callable[[Any, str], Any]:
    """An object of one of these kinds."""

    def read(value: Any, where: str) -> Any:
        kind = member(value, "kind", where)
        if not isinstance(kind, str) or kind not in table:
            raise BadForm(f"{where}.kind: one of {', '.join(table)} is due")
        if table[kind] is Version:
            return read_version(value, where)
        names = [field.name for field in dataclasses.fields(table[kind])]
        readers = FIELDS | {"place": read_number} if kind == "digit" else FIELDS
        return table[kind](*(readers[name](member(value, name, where), f"{where}.{name}") for name in names))

    return read


FIELDS: dict[str, Callable[[Any, str], Any]] = {
    "version": read_version, "place": read_place, "line": read_number, "step": read_number, "case": read_number,
    "bit": read_number, "package": read_word, "spec": read_spec, "alternatives": read_list(read_spec),
    "literals": read_list(read_literal), "causes": read_list(read_number),
}


def read_report_form(value: Any) -> Report:
    """The report of a parsed JSON value; raises BadForm."""
    if member(value, "format", "the top") != FORMAT:
        raise BadForm(f"format: {json.dumps(FORMAT)} is due")
    verdict = member(value, "verdict", "the top")
    steps = read_list(read_kind(STEPS))(member(value, "steps", "the top"), "steps")
    if verdict == "install":
        answers = read_list(read_kind(ANSWERS))(member(value, "answers", "the top"), "answers")
        return Install(answers, steps)
    if verdict != "refused":
        raise BadForm('verdict: "install" or "refused" is due')
    numbers = read_list(read_number)
    named = [numbers(member(value, key, "the top"), key) for key in ("catalogue_lines", "request_lines")]
    message = read_list(read_message_line)(member(value, "message", "the top"), "message")
    return Refused(*named, steps, message)


def read_json(data: bytes, path: str) -> Report:
    """A report from its JSON; raises Failure with the file, and the line where it isn't JSON."""
    try:
        value = json.loads(data.decode("utf-8"))
        report = read_report_form(value)
        if read_report(report_text(report)) != report:
            raise BadForm("its lines aren't those of a report")
    except UnicodeDecodeError as error:
        raise Failure(path, data[:error.start].count(b"\n") + 1, "isn't UTF-8") from None
    except json.JSONDecodeError as error:
        raise Failure(path, error.lineno, f"isn't JSON: {error.msg}") from None
    except UnicodeEncodeError:
        raise Failure(path, None, "has half a sign of two parts (a surrogate), which no report has") from None
    except BadForm as error:
        raise Failure(path, None, str(error)) from None
    except ValueError:
        raise Failure(path, None, f"has a number of more than {MOST_DIGITS} digits") from None
    except RecursionError:
        raise Failure(path, None, "is nested too deep") from None
    except Fault as fault:
        raise Failure(path, None, f"line {fault.line} of its report: {fault.reason}") from None
    return report
