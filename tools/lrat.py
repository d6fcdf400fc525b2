#!/usr/bin/env python3
"""Exports a refusal as a CNF with a DRAT and an LRAT proof, which checkers of the SAT field verify.

Usage: tools/lrat.py CATALOGUE REQUEST REPORT -o PREFIX [--wish LINE]
Writes PREFIX.cnf, PREFIX.drat and PREFIX.lrat: of a refused report, or of the wish that an install report leaves out
for this line of the request. Nothing is searched for. docs/SECOND.md describes the files.
"""
from __future__ import annotations

import argparse
import os
import sys
from typing import Optional

sys.path.insert(0, os.path.join(os.path.dirname(os.path.abspath(__file__)), ".."))

from tools.cnf import Origin
from tools.files import of_file, progress, read_bytes, status_of, write_bytes
from tools.replay import Replay, rested_on
from tools.texts import Catalogue, DeriveStep, Fault, LeftOut, Refused, Report, Request, Version, WishLine
from tools.texts import read_catalogue, read_report, read_request


class Export(Replay):
    """The CNF of what a report claims, and the proof that it has no model."""

    def refuse(self) -> None:
        """No set obeys the named lines of a refused report."""
        report, last = self.report, len(self.steps)
        for number, line in enumerate(report.catalogue_lines, 2):
            self.add_line(Origin("catalogue", line), number)
        for number, line in enumerate(report.request_lines, 2 + len(report.catalogue_lines)):
            self.add_line(Origin("request", line), number)
        step = self.steps[-1]
        self.fault_unless(isinstance(step, DeriveStep) and not step.literals, last, "the last one isn't `derive []`")
        self.run(last)

    def leave_out(self, place: int) -> None:
        """No rule-keeping set holds a left-out wish and all entries above it, by the lines that its step rests on."""
        wish = self.report.answers[place]
        if wish.line > len(self.request.lines) or self.request.lines[wish.line - 1] != WishLine(wish.version):
            raise Fault("report", place + 2, f"request line {wish.line} isn't a wish for {wish.version}")
        if wish.step > len(self.steps):
            raise Fault("report", place + 2, f"there is no step {wish.step}")
        users = {rested_on(self.steps[number - 1]): number for number in reversed(self.cone(wish.step))}
        for origin in sorted(origin for origin in users if origin):
            self.add_line(origin, self.line_of_step(users[origin]))
        for number, answer in enumerate(self.report.answers[:place], 2):
            if not isinstance(answer, LeftOut):
                self.add_unit("entry", answer.version, number)
        self.add_unit("wish", wish.version, place + 2)
        self.run(wish.step)
        self.derive(wish.step, (), [*self.cnf.units, self.numbers[wish.step]])

    def add_line(self, origin: Origin, number: int) -> None:
        """The clauses of a line, for line `number` of the report."""
        placed = (self.catalogue if origin.text == "catalogue" else self.request).placed
        if origin.line > len(placed) or not self.cnf.add_line(origin.text, placed[origin.line - 1]):
            raise Fault("report", number, f"{origin} doesn't state a rule")

    def add_unit(self, kind: str, version: Version, number: int) -> None:
        """The version is in the set, for line `number` of the report."""
        if version not in self.cnf.variable:
            raise Fault("report", number, f"{version} isn't listed")
        self.cnf.add_unit(version, f"{kind} {version}")


def left_out(report: Report, line: int) -> int:
    """The place among the answers of the wish that is left out for a line of the request."""
    for place, answer in enumerate(() if isinstance(report, Refused) else report.answers):
        if isinstance(answer, LeftOut) and answer.line == line:
            return place
    raise Fault("report", None, f"it leaves out no wish of request line {line}")


def export(
    catalogue: Catalogue, request: Request, report: Report, wish: Optional[int] = None, kind: type[Export] = Export
) -> Export:
    """The CNF and the proof of a refused report, or of the left-out wish of a line of the request."""
    made = kind(catalogue, request, report)
    if wish is not None:
        made.leave_out(left_out(report, wish))
    elif isinstance(report, Refused):
        made.refuse()
    else:
        raise Fault("report", 1, "an install report: name the line of a left-out wish with --wish")
    return made


ABOUT = "a refusal, or a left-out wish, as a CNF with a DRAT and an LRAT proof (docs/SECOND.md)"


def add_arguments(options: argparse.ArgumentParser) -> None:
    """The words of the command line."""
    for name in ("catalogue", "request", "report"):
        options.add_argument(name, metavar=name.upper())
    options.add_argument("-o", dest="prefix", required=True, help="writes PREFIX.cnf, PREFIX.drat and PREFIX.lrat")
    options.add_argument("--wish", type=int, metavar="LINE", help="the line of the request with a left-out wish")


def write_export(given: argparse.Namespace) -> None:
    """Reads the three texts and writes the three files."""
    with of_file(given.catalogue):
        catalogue = read_catalogue(read_bytes(given.catalogue))
    with of_file(given.request):
        request = read_request(read_bytes(given.request), catalogue)
    with of_file(given.report), progress("export"):
        made = export(catalogue, request, read_report(read_bytes(given.report)), given.wish)
    for suffix, text in (("cnf", made.cnf.text()), ("drat", made.proof.drat()), ("lrat", made.proof.lrat())):
        write_bytes(f"{given.prefix}.{suffix}", text.encode())
    clauses, lines = len(made.cnf.clauses), len(made.proof.lines)
    write_bytes(None, f"{len(made.cnf.names)} variables and {clauses} clauses; a proof of {lines} lines\n".encode())


def main() -> int:
    options = argparse.ArgumentParser(description=ABOUT)
    add_arguments(options)
    given = options.parse_args()
    return status_of(lambda: write_export(given))


if __name__ == "__main__":
    sys.exit(main())
