#!/usr/bin/env python3
"""The generated pairs of texts among the cases of `crates/resolvo_rows`, with the answers of the plain search.

Usage: checks/request_pairs.py [--write]
The file `crates/resolvo_rows/stdin` has cases that are written by hand, and below them those of 400 seeds. Fails where a generated case
isn't that of its seed, where `stdout` beside it has another count, or where an answer isn't right beside all 64 sets: it keeps the
rules, or no set does. More than a quarter must have a solution, and more than a quarter none. With `--write` the generated cases and
`stdout` are written anew. The answers are those of plain_search.py; every second pair has the one without dependencies at hand too.
"""
import os
import sys

from judging import Prover
from plain_search import Facts, Options, Turns
from requests_kept import FILE, cases, is_of_seed
from search import case_answer, changed, values_of
from tools.texts import Version

STDOUT = os.path.join(os.path.dirname(FILE), "stdout")
SEEDS = 400

VERSIONS = ("a 1", "b 3", "c 2", "a 3", "b 1", "c 1", "a 2", "c 3", "b 2")
# the lines that may follow a version, those that may be below all of them, and those of a request
OWNED = ("needs a", "needs b 1..2 | c 3", "needs c 1", "needs b", "needs a 2..3 | b 1", "needs a | b | c", "needs x | a 1", "needs c 2..3",
         "needs c 1 if a 2", "needs b if c or a 3 and b 2", "needs x if b 1", "needs a | b | c if ( a or b ) and c 2..4",
         "limits a 2", "limits b 1..3", "limits x 4", "unknown lost")
BELOW = ("lock a 2", "lock b 3", "exclude a 1 old", "exclude c 3 broken", "favour a 1", "favour b 2", "lock c 1", "exclude b 2 old")
ASKED = ("needs a", "needs b 2 | c", "needs c", "needs b 1..2", "needs a | c 2", "needs c 1..2", "needs c if a 1", "limits a 1..3",
         "limits b 2", "needs b if a or c 1", "wish a 3", "wish b 1", "wish c 3")


class Drawer:
    """Draws lines by a row of numbers that looks random."""

    def __init__(self, seed):
        self.seed = seed

    def draw(self, lines, rare):
        """Each line where `rare` draws in turn hit once."""
        found = []
        for line in lines:
            self.seed = (self.seed * 1_664_525 + 1_013_904_223) % 2 ** 32
            if (self.seed >> 16) % rare == 0:
                found.append(line)
        return found


def text_of(lines):
    return "".join(f"{line}\n" for line in lines)


def facts_of(catalogue, request, bars_wishes=False):
    return Facts(*values_of((text_of(catalogue), text_of(request))), bars_wishes)


def pair_of_seed(seed):
    """The lines of a catalogue and of a request. A wish that a lock or an exclusion forbids isn't asked for."""
    drawer, catalogue = Drawer(seed), []
    for version in VERSIONS:
        catalogue += [f"version {version}", *drawer.draw(OWNED, 8)]
    catalogue += drawer.draw(BELOW, 4)
    drawer = Drawer(seed)
    drawer.draw(("",), 1)
    request = drawer.draw(ASKED, 4)
    facts = facts_of(catalogue, request, bars_wishes=True)
    barred = [f"wish {wish.package} {wish.number}" for wish in facts.wishes if facts.is_barred(wish)]
    return catalogue, [line for line in request if line not in barred]


def answer(catalogue, request, options):
    """The lines of a case's answer by the plain search."""
    turns = Turns(facts_of(catalogue, request), options)
    return [line for line in case_answer(turns, turns.run(), True) if line != "0 wait"]


def case_of_seed(seed):
    """The case of a seed, as text."""
    catalogue, request = pair_of_seed(seed)
    sections = {"catalogue": catalogue, "request": request, "answer": answer(catalogue, request, Options())}
    if seed % 2 == 1:
        sections["answer without hint"] = answer(catalogue, request, changed(Options(), "hinted"))
    return f"# pair of seed {seed}\n" + "".join(f"== {name}\n{text_of(lines)}" for name, lines in sections.items())


def fault_of(case):
    """What is wrong with an answer, beside all sets; None where nothing is."""
    sets = [set(found) for found in Prover(text_of(case.sections["catalogue"]).encode(), text_of(case.sections["request"]).encode()).sets()]
    for name in ("answer", "answer without hint"):
        lines = case.sections.get(name, case.sections["answer"])
        words = [line.split() for line in lines if not line.endswith(("wait", "waits"))]
        chosen = {Version(name, int(number)) for name, number in (it for it in words if len(it) == 2)}
        if lines == ["refused"] and sets or lines != ["refused"] and chosen not in sets:
            return f"{case.title}: {name}"
    return None


def faults(by_hand, of_seeds):
    """What is wrong with the generated cases, and with the count in `stdout`."""
    if [case.text for case in of_seeds] != [case_of_seed(seed) for seed in range(SEEDS)]:
        yield "the generated cases aren't those of their seeds; run checks/request_pairs.py --write"
    yield from filter(None, map(fault_of, of_seeds))
    solved = sum(case.sections["answer"] != ["refused"] for case in of_seeds)
    if not SEEDS / 4 < solved < SEEDS * 3 / 4:
        yield f"{solved} of {SEEDS} pairs have a solution"
    with open(STDOUT, encoding="utf-8") as file:
        if file.read() != told(by_hand):
            yield "stdout has another count"


def told(by_hand):
    count = sum("answer" in case.sections for case in by_hand) + SEEDS
    return f"{count} cases, of which 0 are answered otherwise\n"


def main(words):
    if words not in ([], ["--write"]):
        print(__doc__, end="")
        return 2
    by_hand = [case for case in cases() if not is_of_seed(case)]
    if words:
        with open(FILE, "w", encoding="utf-8") as file:
            file.write("".join(case.text for case in by_hand) + "".join(map(case_of_seed, range(SEEDS))))
        with open(STDOUT, "w", encoding="utf-8") as file:
            file.write(told(by_hand))
    found = list(faults(by_hand, [case for case in cases() if is_of_seed(case)]))
    print("".join(f"{line}\n" for line in found), end="")
    print(f"{SEEDS} pairs, {len(found)} faults")
    return 1 if found else 0


if __name__ == "__main__":
    sys.exit(main(sys.argv[1:]))
