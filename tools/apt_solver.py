#!/usr/bin/env python3
"""A solver for apt's EDSP 0.5: apt writes packages and a request to standard input, and takes what is to change.

A link with the name of the solver in a folder is enough, and nothing is installed (docs/USING.md):

    ln -s PATH/tools/apt_solver.py DIR/resolve
    apt-get -s -o Dir::Bin::solvers::=DIR --solver resolve install gimp

The program `resolve` is that of the checkout or the release, or one on PATH; the variable RESOLVE names another.
"""
from __future__ import annotations

import os
import sys

if __name__ == "__main__":
    sys.path[0] = os.path.dirname(os.path.dirname(os.path.realpath(__file__)))

import gc
import itertools
import re
import shutil
import tempfile
import time
from dataclasses import dataclass, field
from typing import BinaryIO, Iterator, Optional

from tools.apt_scenario import Scenario, read_scenario
from tools.apt_walk import Walk
from tools.catalogue import FavourLine, LimitsLine, LockLine, NeedsLine, Request, RequestLine, WishLine
from tools.catalogue import Catalogue, CatalogueLine, catalogue_text, request_text
from tools.debian import PRIORITIES, Draft, Listed, Universe, is_essential
from tools.dictionary import RealSpelling, escape, name_entry
from tools.files import Failure, of_file, run_program, standard_input, status_of, write_output
from tools.message import message_line
from tools.reports import Install, Refused, Report, read_report
from tools.words import Spec, Version

CHUNK = 2**20
MOST_READ = 40  # the percentage at which the packages are read
MOST_SOURCES = 12
MOST_DEEP = 10**6  # calls, for long chains of packages; Python 3.11 needs no stack of C for them
NONE = re.compile(r"(\S+) #0(?=$|[ ,.])")  # the number 0, which is never listed


# ---- the request


@dataclass
class Plan:
    """What is asked of `resolve`: lines of the request, and marks for the end of the catalogue."""

    scenario: Scenario
    walk: Walk
    lines: list[RequestLine] = field(default_factory=list)
    marks: list[CatalogueLine] = field(default_factory=list)
    wished: dict[Version, None] = field(default_factory=dict)
    missing: dict[str, str] = field(default_factory=dict)

    def wish(self, listed: Optional[Listed]) -> None:
        """A version that is to be there if it can be."""
        if listed:
            self.wished[version_of(listed)] = None

    def takes_newer(self, listed: Listed) -> bool:
        """Whether the candidate of an installed package is preferred to it."""
        return not listed.fields.flag("hold") and (listed.name in self.walk.taken or self.scenario.upgrades())


def version_of(listed: Listed) -> Version:
    """The version as `resolve` has it."""
    return Version(escape(listed.name), listed.number)


def importance(listed: Listed) -> tuple[bool, int, bool, str]:
    """The rank of an installed package: what is held first, then by priority, what was asked for before the rest."""
    fields = listed.fields
    rank = PRIORITIES.get(fields.get("priority", "extra"), 5)
    return not fields.flag("hold"), rank, fields.flag("apt-automatic"), listed.name


def plan_of(scenario: Scenario, walk: Walk, gone: set[str]) -> Plan:
    """The plan of a request; of installed packages that are gone the candidates are wished for too."""
    plan = Plan(scenario, walk)
    adds, drops = scenario.names("install"), scenario.names("remove")
    for name in adds:
        found = scenario.candidate(name)
        plan.lines.append(NeedsLine((Spec(escape(name), (found.number,) if found else None),)))
        if not found:
            plan.missing |= name_entry(name)
    plan.lines += [LimitsLine(Spec(escape(name), (0,))) for name in drops]
    changed = {*adds, *drops}
    keeps_all = scenario.flag("forbid-remove") or scenario.flag("upgrade")
    installed = sorted(scenario.installed.values(), key=lambda listed: (listed.name in walk.taken, *importance(listed)))
    for listed in installed:
        if listed.name not in changed and (keeps_all or is_essential(listed.fields)):
            plan.lines.append(NeedsLine((Spec(escape(listed.name), None),)))
        add_marks(plan, listed, listed.name in adds)
    for listed in installed:
        if listed.name not in changed:
            add_wishes(plan, listed, gone)
    for name in adds:
        if name not in scenario.installed and (found := scenario.candidate(name)):
            plan.marks.append(FavourLine(version_of(found)))
    for listed in walk.taken.values():
        if listed.name not in changed:
            plan.wish(listed)
    return plan


def add_marks(plan: Plan, listed: Listed, is_asked: bool) -> None:
    """The lock or the favour of an installed package."""
    if listed.fields.flag("hold") and not is_asked:
        plan.marks.append(LockLine(version_of(listed)))
    is_newer = is_asked or plan.takes_newer(listed)
    first = plan.scenario.candidate(listed.name) if is_newer else listed
    plan.marks.append(FavourLine(version_of(first or listed)))


def add_wishes(plan: Plan, listed: Listed, gone: set[str]) -> None:
    """The wishes for an installed package: to stay; where that failed, to be the candidate; or the other way round."""
    found = plan.scenario.candidate(listed.name)
    first, second = (found, listed) if plan.takes_newer(listed) else (listed, found)
    plan.wish(first)
    if listed.name in gone:
        plan.wish(second)


# ---- solving


@dataclass
class Solved:
    """A report with the texts of which it is."""

    path: str
    catalogue: Catalogue
    draft: Draft
    report: Report


class Solving:
    """Runs `resolve` in a folder, again where a run couldn't give all to which the walk came."""

    def __init__(self, scenario: Scenario, folder: str) -> None:
        self.scenario, self.universe, self.folder = scenario, scenario.universe, folder
        self.reached: dict[str, None] = {}
        self.barred = {(name, v.number) for name in scenario.names("remove") for v in self.universe.package(name)}
        self.gone: set[str] = set()
        self.seeds: dict[str, Listed] = {}
        self.runs = 0

    def path(self, name: str, data: bytes) -> str:
        """Writes a file of the folder."""
        path = os.path.join(self.folder, name)
        with open(path, "wb") as out:
            out.write(data)
        return path

    def walk(self) -> Walk:
        """From what is asked for, then from what earlier runs chose besides."""
        wants_recommended = "no-recommends" not in self.scenario.asked.get("preferences", "")
        walk = Walk(self.scenario, wants_recommended, self.barred)
        roots = [self.scenario.candidate(name) for name in self.scenario.names("install")]
        if self.scenario.upgrades():
            roots += map(self.scenario.candidate, self.scenario.installed)
        for root in (*roots, *self.seeds.values()):
            if root:
                walk.take(root)
        return walk

    def plan(self, walk: Walk) -> Plan:
        """The plan; the packages to which the walk came are reached, and tried first."""
        adds = self.scenario.names("install")
        names = [*adds, *self.scenario.installed, *walk.taken]
        self.reached |= dict.fromkeys(self.universe.reach([name for name in names if name not in self.reached]))
        changed = {*adds, *self.scenario.names("remove")}
        first = [*(v for v in self.scenario.installed.values() if v.name not in changed), *walk.taken.values()]
        first += filter(None, map(self.scenario.candidate, adds))
        self.universe.preferred = {(listed.name, listed.number) for listed in first}
        return plan_of(self.scenario, walk, self.gone)

    def draft(self, plan: Plan) -> Draft:
        """The catalogue of what is reached."""
        draft = Draft(self.universe.native)
        for name in self.reached:
            draft.name(name)
            for listed in self.universe.package(name):
                draft.versions[version_of(listed)] = listed.text
                for line in self.universe.lines(listed):
                    if not line.limited or line.limited in self.reached:
                        draft.add(line, True)
        draft.names |= plan.missing
        draft.lines += plan.marks
        return draft

    def solve(self, plan: Plan, asks_all: bool) -> Solved:
        """One run, of which apt hears; all that is wished for may be asked for, which is faster by far."""
        self.runs += 1
        percentage = min(MOST_READ + 10 * self.runs, 90)
        say(progress_stanza(percentage, f"resolve solves the request over {len(self.reached)} packages"))
        draft = self.draft(plan)
        catalogue = draft.catalogue()
        wished = [NeedsLine((Spec(v.package, (v.number,)),)) if asks_all else WishLine(v) for v in plan.wished]
        request = Request((*plan.lines, *wished))
        first = self.path("catalogue", catalogue_text(catalogue))
        second = self.path("request", request_text(request))
        _, said = run_program(None, "solve", first, second)
        path = self.path("report", said)
        with of_file(path):
            return Solved(path, catalogue, draft, read_report(said))

    def run(self) -> Solved:
        """The answer: with all that is wished for, or else the first one that has what the walk takes and nothing else."""
        walk = self.walk()
        solved = self.solve(self.plan(walk), True)
        if isinstance(solved.report, Install):
            return solved
        while True:
            solved = self.solve(self.plan(walk), False)
            if not isinstance(solved.report, Install) or not self.learn(walk, solved.report):
                return solved
            walk = self.walk()

    def learn(self, walk: Walk, report: Install) -> bool:
        """Whether another run may give more: what went, what was left out and what was chosen besides are kept for it."""
        chosen = {entry.version for entry in report.entries}
        there = {version.package for version in chosen}
        gone = {name for name in self.scenario.installed if escape(name) not in there} - set(self.scenario.names("remove"))
        new = {v.name: v for v in chosen_of(self.universe, self.reached, chosen) if not v.fields.flag("installed")}
        left = {(v.name, v.number) for v in walk.taken.values() if version_of(v) not in chosen} - self.barred
        besides = {} if left else {name: v for name, v in new.items() if walk.taken.get(name) is not v}
        is_gone, is_other = not gone <= self.gone, bool(left) or besides != self.seeds
        self.gone |= gone
        self.barred |= left
        self.seeds = {} if left else self.seeds | besides
        return is_gone or is_other and self.walk().taken != new


def chosen_of(universe: Universe, names: dict[str, None], chosen: set[Version]) -> Iterator[Listed]:
    """The chosen versions, in the order in which their packages were reached."""
    for name in names:
        yield from (listed for listed in universe.package(name) if version_of(listed) in chosen)


# ---- the answer


def stanza(*fields: tuple[str, str]) -> str:
    """A stanza; further lines of a field are moved in, and empty ones are ` .`."""
    text = ""
    for name, value in fields:
        first, *others = value.split("\n")
        text += f"{name}: {first}\n" + "".join(f" {line or '.'}\n" for line in others)
    return text + "\n"


def change_stanza(kind: str, listed: Listed) -> str:
    """A version that comes or goes."""
    more = [("Package", listed.name), ("Version", listed.text), ("Architecture", listed.fields["architecture"])]
    return stanza((kind, listed.fields.get("apt-id", "")), *more)


def changes(scenario: Scenario, names: dict[str, None], report: Install) -> tuple[list[Listed], list[Listed]]:
    """What comes and what goes."""
    chosen = {entry.version for entry in report.entries}
    kept = list(chosen_of(scenario.universe, names, chosen))
    there = {listed.name for listed in kept}
    comes = [listed for listed in kept if not listed.fields.flag("installed")]
    return comes, [listed for name, listed in scenario.installed.items() if name not in there]


def refusal_text(solved: Solved, report: Refused) -> str:
    """Why a request is refused, with real names, and the lines of the packages on which that rests."""
    spelling = RealSpelling(solved.draft.dictionary)
    lines = ["resolve: no set of packages keeps all rules"]
    lines += [NONE.sub(r"\1 (no version)", message_line(line, spelling)) for line in report.message]
    sources = list(named_sources(solved, report))
    lines += [f"- {source}" for source in sources[:MOST_SOURCES]]
    if len(sources) > MOST_SOURCES:
        lines.append(f"- and {len(sources) - MOST_SOURCES} lines more")
    return "\n".join([*lines, f"The proof is {solved.path}, beside its catalogue and its request"])


def named_sources(solved: Solved, report: Refused) -> Iterator[str]:
    """The fields of packages that a refusal names."""
    dictionary, lines = solved.draft.dictionary, solved.catalogue.lines
    for number in report.catalogue_lines:
        owner, above = solved.catalogue.placed[number - 1].owner, lines[number - 2] if number > 1 else None
        text = getattr(above, "text", "")
        if owner and text.startswith("#s "):
            yield f"{dictionary.name(owner.package)} {dictionary.version(owner)} has {text[3:]}"


def progress_stanza(percentage: int, message: str) -> str:
    """What goes on."""
    now = time.strftime("%a, %d %b %Y %H:%M:%S GMT", time.gmtime())
    return stanza(("Progress", now), ("Percentage", str(percentage)), ("Message", message))


def say(text: str) -> None:
    """To apt."""
    write_output(text.encode("utf-8", "backslashreplace"))


def answer(solving: Solving, solved: Solved) -> bool:
    """Writes the answer; whether the folder is to stay."""
    if isinstance(solved.report, Refused):
        say(stanza(("Error", "resolve-refused"), ("Message", refusal_text(solved, solved.report))))
        return True
    comes, goes = changes(solving.scenario, solving.reached, solved.report)
    asked = set(solving.scenario.names("remove"))
    forced = [listed.name for listed in goes if listed.name not in asked]
    say("".join(change_stanza("Install", v) for v in comes) + "".join(change_stanza("Remove", v) for v in goes))
    if forced:
        print(f"\nresolve: why {', '.join(forced)} can't stay is proved in {solved.path}", file=sys.stderr)
    return bool(forced)


def read_chunks(source: BinaryIO) -> Iterator[bytes]:
    """The scenario piece by piece; apt hears of each eighth piece, since nobody knows how many there are."""
    for count in itertools.count():
        chunk = source.read(CHUNK)
        if not chunk:
            return
        if count % 8 == 0:
            say(progress_stanza(min(count, MOST_READ), "resolve reads the packages"))
        yield chunk


def main() -> int:
    """Answers one scenario; a refusal or a fault is an answer too, so the status is 0."""
    sys.setrecursionlimit(MOST_DEEP)
    folder = tempfile.mkdtemp(prefix="resolve-apt-")
    is_kept = False
    try:
        with standard_input() as source:
            scenario = read_scenario(read_chunks(source))
        solving = Solving(scenario, folder)
        is_kept = answer(solving, solving.run())
    except Failure as failure:
        say(stanza(("Error", "resolve-fault"), ("Message", f"tools: {failure}")))
    finally:
        if not is_kept:
            shutil.rmtree(folder, ignore_errors=True)
    return 0


if __name__ == "__main__":
    gc.disable()  # it ends soon, and nothing that it makes is a cycle worth a search
    sys.exit(status_of(main))
