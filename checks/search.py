#!/usr/bin/env python3
"""Compares what `resolve solve` answers with the plain search of plain_search.py, over generated pairs and kept ones.

Usage: checks/search.py [PAIRS] [--seed N] [--marked] [--program PATH]
       checks/search.py --kept [--program PATH]
       checks/search.py --rows
Defaults: 1000 pairs, seed 1, crates/resolve/out/resolve (which `rt run` leaves).
It counts the pairs whose entries, left-out wishes, named lines, message or steps differ from those of the search by the rules, and
prints the smallest one. Each byte must be equal, else the status is 1. A tenth of the pairs are of the kind whose packages may be
marked `many`; with `--marked` all are. With `--kept` it runs the examples that search/README.md describes. With
`--rows` the plain search answers the rows of the gate, without a program: each as the row expects.
"""
from __future__ import annotations

import argparse
import dataclasses
import os
import random
import sys
import tempfile
from typing import Iterator, Optional

import requests_kept
import rows
from base import CHECKS, PROGRAM, ask
from plain_message import message
from plain_report import report
from plain_search import Facts, Options, Outcome, Turns
from solving import generated_texts
from tools import texts
from tools.texts import Catalogue, Install, LeftOut, Refused, Report, Request

KEPT = os.path.join(CHECKS, "search")
OPTIONS = os.path.join(KEPT, "options")
Pair = tuple[str, str]
PARTS = ("verdict", "entries", "left out", "named", "message", "steps")


# ---- generated pairs


class Dense:
    """Texts with more packages and versions, and more lines for each; some have only needs that exclude each other."""

    def __init__(self, rng: random.Random) -> None:
        self.rng = rng
        self.most = rng.randint(2, 7)
        self.packages = list("abcdefgh"[: rng.randint(2, 8)])
        self.listed: list[tuple[str, int]] = []

    def spec(self) -> str:
        """A SPEC, now and then of a package that isn't listed."""
        package = self.rng.choice(self.packages) if self.rng.random() > 0.03 else "z"
        kind, low = self.rng.random(), self.rng.randint(0, self.most)
        if kind < 0.35:
            return package
        if kind < 0.6:
            return f"{package} {self.rng.randint(1, self.most)}"
        return f"{package} {low}..{self.rng.randint(low + 1, self.most + 2)}"

    def condition(self) -> str:
        """Up to four SPECs joined."""
        parts = [self.spec() for _ in range(self.rng.choice([1, 1, 2, 3, 4]))]
        text = parts[0]
        for part in parts[1:]:
            text = self.rng.choice([f"{text} and {part}", f"{text} or {part}", f"( {text} ) and {part}"])
        return text

    def need(self) -> str:
        """A needs line."""
        text = "needs " + " | ".join(self.spec() for _ in range(self.rng.choice([1, 1, 1, 2, 3])))
        return text + (f" if {self.condition()}" if self.rng.random() < 0.25 else "")

    def version(self, package: str, number: int) -> list[str]:
        """A version's lines."""
        self.listed.append((package, number))
        lines = [f"version {package} {number}"] + [self.need() for _ in range(self.rng.choice([0, 1, 1, 2, 3]))]
        lines += ["limits " + self.spec() for _ in range(self.rng.choice([0, 0, 0, 1, 2]))]
        return lines + ["unknown offline"] * (self.rng.random() < 0.04)

    def marks(self, package: str) -> list[str]:
        """Locks, favours and exclusions of a package."""
        numbers, lines = [number for name, number in self.listed if name == package], []
        for word, chance in (("lock", 0.1), ("favour", 0.2)):
            if self.rng.random() < chance:
                lines.append(f"{word} {package} {self.rng.choice(numbers)}")
        barred = [number for number in numbers if self.rng.random() < 0.08]
        return lines + [f"exclude {package} {number} {self.rng.choice(['old', 'offline'])}" for number in barred]

    def texts(self) -> Pair:
        """Both texts."""
        blocks = [self.version(package, number) for package in self.packages for number in range(1, self.most + 1)
                  if self.rng.random() < 0.8 or number == 1]
        self.rng.shuffle(blocks)
        lines = [line for block in blocks for line in block]
        lines += [line for package in self.packages for line in self.marks(package)]
        request = [self.need() for _ in range(self.rng.randint(1, 5))]
        request += ["limits " + self.spec() for _ in range(self.rng.choice([0, 0, 1, 2]))]
        wishes = self.rng.sample(self.listed, min(len(self.listed), self.rng.choice([0, 0, 1, 2, 4])))
        request += [f"wish {package} {number}" for package, number in wishes]
        self.rng.shuffle(request)
        return "\n".join(lines) + "\n", "\n".join(request) + "\n"


def coloured_texts(rng: random.Random) -> Pair:
    """Packages whose versions are colours: some two may not have the same one. The search has to learn."""
    count, colours = rng.randint(4, 7), rng.randint(2, 4)
    lines = []
    for package in range(count):
        others = [other for other in range(count) if other != package and rng.random() < 0.45]
        for colour in range(1, colours + 1):
            lines.append(f"version v{package} {colour}")
            for other in others:
                spans = [span for span in ((1, colour), (colour + 1, colours + 1)) if span[0] < span[1]]
                lines.append("needs " + " | ".join(f"v{other} {low}..{high}" for low, high in spans))
    request = [f"needs v{package}" for package in rng.sample(range(count), rng.randint(1, count))]
    request += [f"wish v{package} {rng.randint(1, colours)}" for package in range(count) if rng.random() < 0.2]
    return "\n".join(lines) + "\n", "\n".join(request) + "\n"


def marked_texts(rng: random.Random) -> Pair:
    """Some packages are marked `many`. Versions that wishes bring about make several cases of a need hold at once."""
    packages = "abcd"[: rng.randint(2, 4)]
    listed = [(package, number) for package in packages for number in range(1, rng.randint(2, 4))]

    def spec() -> str:
        return rng.choice(packages) + (f" {rng.randint(1, 3)}" if rng.random() < 0.4 else "")

    def condition() -> str:
        return " or ".join(spec() + (f" and {spec()}" if rng.random() < 0.2 else "") for _ in range(rng.choice([1, 2, 2, 3])))

    lines = [f"many {package}" for package in packages if rng.random() < 0.5]
    for package, number in listed:
        lines.append(f"version {package} {number}")
        for _ in range(rng.choice([0, 1, 1, 2])):
            need = f"needs {rng.choice(packages)} {rng.randint(1, 4)}"
            lines.append(need + (f" if {condition()}" if rng.random() < 0.8 else ""))
    request = [f"needs {spec()}"] * rng.randint(0, 1) + [f"needs {spec()} if {condition()}"] * rng.randint(0, 1)
    request += [f"wish {package} {number}" for package, number in rng.sample(listed, rng.randint(1, len(listed)))]
    return "\n".join(lines) + "\n", "\n".join(request) + "\n"


def pairs_of(seed: int, count: int) -> Iterator[tuple[str, Pair]]:
    """Pairs in turn: small, dense, and of colours. Each tenth one has marks."""
    rng, marks = random.Random(seed), random.Random(f"marks {seed}")
    for number in range(count):
        turn = (number - number // 10) % 5
        if number % 10 == 9:
            yield "marked", marked_texts(marks)
        elif turn in (0, 1):
            yield "small", generated_texts(rng)
        elif turn in (2, 3):
            yield "dense", Dense(rng).texts()
        else:
            yield "coloured", coloured_texts(rng)


def marked_pairs(seed: int, count: int) -> Iterator[tuple[str, Pair]]:
    """Pairs that all may have marks."""
    rng = random.Random(f"marks {seed}")
    for _ in range(count):
        yield "marked", marked_texts(rng)


# ---- comparing


def values_of(pair: Pair) -> tuple[Catalogue, Request]:
    """The values of two texts; stray bytes are kept as surrogates."""
    catalogue = texts.read_catalogue(texts.encoded(pair[0]))
    return catalogue, texts.read_request(texts.encoded(pair[1]), catalogue)


def pair_of(row: rows.Row) -> Pair:
    """The two texts of a row."""
    return texts.decoded(row.text("catalogue")), texts.decoded(row.text("request"))


def answered(program: str, pair: Pair, folder: str) -> Report:
    """What the program answers."""
    return texts.read_report(ask(program, folder, pair, timeout=600)[1])


def parts_of(value: Report) -> dict[str, object]:
    """The parts of a report that are compared; the step of a left-out wish is one of the steps."""
    if isinstance(value, Refused):
        named = value.catalogue_lines, value.request_lines
        return {"verdict": "refused", "named": named, "message": value.message, "steps": value.steps}
    left = [(answer.version, answer.line) for answer in value.answers if isinstance(answer, LeftOut)]
    by = [answer.step for answer in value.answers if isinstance(answer, LeftOut)]
    return {"verdict": "install", "entries": value.entries, "left out": left, "steps": (by, value.steps)}


def differing(first: Report, second: Report) -> list[str]:
    """The parts in which two reports differ."""
    one, other = parts_of(first), parts_of(second)
    if one["verdict"] != other["verdict"]:
        return ["verdict"]
    return [part for part in PARTS if one.get(part) != other.get(part)]


class Counts:
    """How many pairs differ in each part, and in any but the steps."""

    def __init__(self) -> None:
        self.parts = dict.fromkeys((*PARTS, "answer"), 0)
        self.smallest: Optional[tuple[int, Pair, list[str]]] = None

    def add(self, pair: Pair, found: list[str]) -> None:
        """Counts a pair. The smallest one is the first of those with the fewest characters; steps alone count last."""
        for part in found:
            self.parts[part] += 1
        if found:
            self.parts["answer"] += found != ["steps"]
            size = len(pair[0]) + len(pair[1]) + (10**9 if found == ["steps"] else 0)
            if self.smallest is None or size < self.smallest[0]:
                self.smallest = size, pair, found

    def row(self, name: str) -> str:
        """A row of the table."""
        return f"{name:24}" + "".join(f"{self.parts[part]:>10}" for part in (*PARTS, "answer"))


def heading() -> str:
    """The heading of the table."""
    return " " * 24 + "".join(f"{part:>10}" for part in (*PARTS, "answer"))


def compare(pairs: list[tuple[str, Pair]], program: str) -> tuple[dict[str, Counts], dict[str, int]]:
    """The counts of the program beside the plain search, by the kind of pair, and the verdicts."""
    found: dict[str, Counts] = {}
    verdicts = {"install": 0, "refused": 0}
    with tempfile.TemporaryDirectory() as folder:
        for kind, pair in pairs:
            answer = answered(program, pair, folder)
            verdicts["install" if isinstance(answer, Install) else "refused"] += 1
            parts = differing(answer, report(*values_of(pair)))
            for name in (kind, "all"):
                found.setdefault(name, Counts()).add(pair, parts)
    return found, verdicts


def print_smallest(counts: Counts, program: str) -> None:
    """The smallest differing pair with both answers."""
    if counts.smallest is None:
        return
    _, pair, parts = counts.smallest
    with tempfile.TemporaryDirectory() as folder:
        answer = texts.report_text(answered(program, pair, folder)).decode()
    plain = texts.report_text(report(*values_of(pair))).decode()
    print(f"\nthe smallest differing pair ({', '.join(parts)})")
    print(f"--- catalogue\n{pair[0]}--- request\n{pair[1]}--- the program\n{answer}--- the plain search\n{plain}", end="")


def run_pairs(arguments: argparse.Namespace) -> int:
    """Compares over generated pairs; the status."""
    pairs = list((marked_pairs if arguments.marked else pairs_of)(arguments.seed, arguments.pairs))
    found, verdicts = compare(pairs, arguments.program)
    print(f"{len(pairs)} pairs, {verdicts['install']} installed, {verdicts['refused']} refused; differing from the search by the rules:")
    print(heading())
    for name, counts in found.items():
        print(counts.row(name))
    print_smallest(found["all"], arguments.program)
    return 1 if any(found["all"].parts.values()) else 0


# ---- kept examples


def changed(options: Options, words: str) -> Options:
    """The options with each of these changed: `name=number`, or a name, which goes the other way."""
    for word in words.split():
        name, sign, number = word.partition("=")
        options = dataclasses.replace(options, **{name: int(number) if sign else not getattr(options, name)})
    return options


def shown(row: rows.Row, value: Report, questions: tuple[str, ...]) -> bool:
    """Whether a report has all that the example says."""
    output = texts.report_text(value)
    status = 0 if isinstance(value, Install) else 1
    for name, wanted in row.sections.items():
        if name == "asks":
            if "".join(f"{question}\n" for question in questions).encode() != wanted:
                return False
        elif name not in ("catalogue", "request", "option", "setting"):
            if rows.came(name, output, status, wanted) != wanted:
                return False
    return True


def plain(row: rows.Row, options: Options) -> bool:
    """Whether the plain search with these options answers as the example says."""
    values = values_of(pair_of(row))
    options = changed(options, row.text("setting").decode())
    return shown(row, report(*values, options), Turns(Facts(*values), options).run().questions)


def faults_of(row: rows.Row, program: str, folder: str) -> list[str]:
    """What is wrong with an example: the rules answer otherwise, an option doesn't matter, the program answers otherwise."""
    option, faults = row.text("option").decode(), []
    if not plain(row, Options()):
        faults.append("the search by the rules answers otherwise")
    if option and plain(row, changed(Options(), option)):
        faults.append(f"{option.strip()} changes nothing")
    if os.path.exists(program) and not {"asks", "setting"} & set(row.sections):
        if not shown(row, answered(program, pair_of(row), folder), ()):
            faults.append("the program answers otherwise")
    return faults


def examples() -> list[rows.Row]:
    """The kept examples, and the rows of the gate whose answer depends on an option, with that option."""
    found = rows.read_all(KEPT)
    with open(OPTIONS, encoding="utf-8") as file:
        for line in file:
            if not line.startswith("#"):
                name, _, option = line.partition(" ")
                (row,) = rows.read(os.path.join(rows.DATA, f"{name}.row"))
                row.sections["option"] = option.encode()
                found.append(row)
    return found


def run_kept(program: str) -> int:
    """Runs the kept examples; the status."""
    faulty, kept = 0, examples()
    if not os.path.exists(program):
        print(f"no program is at {program}; only the plain search is run")
    with tempfile.TemporaryDirectory() as folder:
        for row in kept:
            faults = faults_of(row, program, folder)
            faulty += bool(faults)
            print(f"{row.name}: {'; '.join(faults) or row.about}")
    print(f"{len(kept)} examples, {faulty} faults")
    return 1 if faulty else 0


# ---- rows of the gate


def solved_rows() -> Iterator[rows.Row]:
    """The rows of crates/resolve_rows whose texts are solved, but for long texts."""
    for row in rows.read_all():
        is_short = len(row.text("catalogue")) + len(row.text("request")) < 50_000
        if is_short and not {"report", "reads"} & set(row.sections) and rows.first_fault(row) == "none\n":
            yield row


def unmet(row: rows.Row) -> list[str]:
    """The sections of a row that the plain search doesn't meet."""
    value = report(*values_of(pair_of(row)))
    output, status = texts.report_text(value), 0 if isinstance(value, Install) else 1
    return [f"{row}: {name}" for name, wanted in row.sections.items()
            if name not in rows.PARTS and name != "fault" and rows.came(name, output, status, wanted) != wanted]


def case_answer(turns: Turns, outcome: Outcome, counts_waiting: bool) -> list[str]:
    """What a case's `answer` has: the chosen versions in the order of the trail, left-out wishes, and deferred cases."""
    if outcome.conflict is not None:
        return ["refused"]
    chosen = dict.fromkeys(version for turn in outcome.turns for version in turn.chosen)
    left = [f"left out {turn.wish.package} {turn.wish.number}" for turn in outcome.turns if turn.refused_by]
    count = sum(len(waiting) for _, waiting in turns.encoder.deferred)
    waiting = [f"{count} wait{'s' if count == 1 else ''}"] if counts_waiting else []
    return [f"{version.package} {version.number}" for version in chosen] + left + waiting


def unmet_case(title: str, sections: dict[str, list[str]]) -> list[str]:
    """The sections of a case that the plain search doesn't meet. A wish is barred by its clauses alone."""
    values = values_of(tuple("".join(line + "\n" for line in sections[part]) for part in ("catalogue", "request")))
    found: dict[str, list[str]] = {}
    for name, given in (("asked without hint", changed(Options(), "hinted")), ("asked", Options())):
        turns = Turns(Facts(*values, bars_wishes=False), given)
        outcome = turns.run()
        words = [question.split(" of ")[1].replace("=", " ") for question in outcome.questions]
        found |= {name: words, "answer": case_answer(turns, outcome, any("wait" in line for line in sections["answer"]))}
        if outcome.conflict is not None:
            found["message"] = message(turns.facts, outcome.conflict, outcome.solver)
    return [f"{title}: {name}" for name, wanted in sections.items() if name in found and found[name] != wanted]


def run_rows() -> int:
    """Runs the plain search over the rows of the gate; the status."""
    told = [unmet(row) for row in solved_rows()] + [unmet_case(case.title, case.sections) for case in requests_kept.cases() if "answer" in case.sections]
    faults = [line for lines in told for line in lines]
    print(f"{len(told)} rows, {len(faults)} sections otherwise")
    print("".join(f"    {line}\n" for line in faults), end="")
    return 1 if faults else 0


def main() -> int:
    """Reads the arguments."""
    parser = argparse.ArgumentParser(description=__doc__, formatter_class=argparse.RawDescriptionHelpFormatter)
    parser.add_argument("pairs", nargs="?", type=int, default=1000)
    parser.add_argument("--seed", type=int, default=1)
    parser.add_argument("--marked", action="store_true")
    parser.add_argument("--kept", action="store_true")
    parser.add_argument("--rows", action="store_true")
    parser.add_argument("--program", default=PROGRAM)
    arguments = parser.parse_args()
    if arguments.rows:
        return run_rows()
    return run_kept(arguments.program) if arguments.kept else run_pairs(arguments)


if __name__ == "__main__":
    sys.exit(main())
