"""Refusals worked out by hand, faults of reports, and damaged proofs before the strict checker.

Usage: python3 -m unittest tools.tests.test_lrat     (at the top of the repository)
"""
from __future__ import annotations

import subprocess
import sys
import tempfile
import unittest
from pathlib import Path
from typing import Optional

from checks.lrat_checker import Refused, check
from tools.lrat import Export, export
from tools.texts import Fault, read_catalogue, read_report, read_request

TOP = Path(__file__).resolve().parents[2]


def exported(catalogue: str, request: str, report: str, wish: Optional[int] = None) -> Export:
    """The export of three texts."""
    first = read_catalogue(catalogue.encode())
    return export(first, read_request(request.encode(), first), read_report(report.encode()), wish)


def verify(made: Export) -> int:
    """The strict checker's count of lines."""
    return check(made.cnf.text().splitlines(True), made.proof.lrat().splitlines(True))


def refused(named: list[str], steps: list[str]) -> str:
    """A refused report."""
    return "\n".join(["refused", *named, *(f"step {number} {step}" for number, step in enumerate(steps, 1))]) + "\n"


def clauses(made: Export) -> str:
    """The CNF without its comments."""
    return "".join(line for line in made.cnf.text().splitlines(True) if not line.startswith("c "))


# The refusal of docs/JUDGE.md: p=1 needs some c, and bears no version of c but 9, which isn't listed.
LIMITED = ("version p 1\nneeds c\nlimits c 9\nversion c 1\nversion c 2\n", "needs p\n", """\
refused
catalogue line 2
catalogue line 3
request line 1
step 1 need request line 1 case 1
step 2 gate p=1 line 2
step 3 shared c
step 4 limit p=1 line 3
step 5 outside c 9 holds c=1
step 6 outside c 9 holds c=2
step 7 derive [] by 1 2 4 5 6 3
""")
LIMITED_CNF = """\
c var 1 p=1
c var 2 c=1
c var 3 c=2
c clauses 1..1 catalogue line 2: needs c
c clauses 2..3 catalogue line 3: limits c 9
c clauses 4..4 request line 1: needs p
p cnf 3 4
-1 2 3 0
-1 -2 0
-1 -3 0
1 0
"""
# Variable 4 is `shared c`, 5 is `outside c 9`.
LIMITED_LRAT = """\
5 4 -2 0 0
6 4 -3 0 0
7 -4 2 3 0 -5 -6 0
8 -1 4 0 5 6 1 0
9 5 -2 0 0
10 5 -3 0 0
11 -5 2 3 0 -9 -10 0
12 -1 -5 0 2 3 11 0
13 0 4 8 12 9 10 7 0
"""

# A need under a condition, which another need makes true; what is needed is barred. The last two lines aren't named.
CONDITIONAL = ("version a 1\nversion a 2\nversion b 1\nexclude b 1 broken\nexclude a 2 broken\n", """\
needs a 1
needs b if a 1..3 and a
needs a 2
""", """\
refused
catalogue line 4
request line 1
request line 2
step 1 digit a=2 place 1 bit 0
step 2 need request line 1 case 1
step 3 any a=1
step 4 need request line 2 case 1
step 5 derive [b=1; not any a] by 4
step 6 exclude line 4
step 7 derive [] by 2 3 6 5
""")
CONDITIONAL_CNF = """\
c var 1 a=1
c var 2 a=2
c var 3 b=1
c holds 4 a 1..3
c holds 5 a
c clauses 1..1 catalogue line 4: exclude b 1 broken
c clauses 2..2 request line 1: needs a 1
c clauses 3..5 holds a 1..3
c clauses 6..8 holds a
c clauses 9..9 request line 2: needs b if a 1..3 and a
p cnf 5 9
-3 0
1 0
4 -1 0
4 -2 0
-4 1 2 0
5 -1 0
5 -2 0
-5 1 2 0
-4 -5 3 0
"""
# Variable 6 is `any a`. By lines 13 and 14 each SPEC holds where there is some a.
CONDITIONAL_LRAT = """\
10 6 -1 0 0
11 6 -2 0 0
12 -6 1 2 0 -10 -11 0
13 4 -6 0 3 4 12 0
14 5 -6 0 6 7 12 0
15 -6 3 0 13 14 9 0
16 3 -6 0 15 0
17 0 2 10 1 16 0
"""

# A need under a condition on a marked package, of which the request needs two versions; what is needed is barred.
MARKED = ("many c\nversion c 1\nversion c 2\nversion x 1\nexclude x 1 broken\n", """\
needs c 2
needs c 1
needs x if c 1
""", """\
refused
catalogue line 5
request line 2
request line 3
step 1 need request line 2 case 1
step 2 matches c 1 holds c=1
step 3 need request line 3 case 1
step 4 exclude line 5
step 5 derive [not matches c 1] by 4 3
step 6 derive [] by 1 2 5
""")
MARKED_CNF = """\
c var 1 c=1
c var 2 c=2
c var 3 x=1
c holds 4 c 1
c clauses 1..1 catalogue line 5: exclude x 1 broken
c clauses 2..2 request line 2: needs c 1
c clauses 3..4 holds c 1
c clauses 5..5 request line 3: needs x if c 1
p cnf 4 5
-3 0
1 0
4 -1 0
-4 1 0
-4 3 0
"""
# Variable 5 is `matches c 1`. By line 8 the SPEC holds where it is true.
MARKED_LRAT = """\
6 5 -1 0 0
7 -5 1 0 -6 0
8 4 -5 0 3 7 0
9 -5 3 0 8 5 0
10 -5 0 1 9 0
11 0 2 6 10 0
"""

# Two versions of one package, distinguished by a bit of their places.
APART = ("version a 1\nversion a 2\n", "needs a 1\nneeds a 2\n", """\
refused
request line 1
request line 2
step 1 need request line 1 case 1
step 2 need request line 2 case 1
step 3 digit a=1 place 5 bit 2
step 4 digit a=2 place 3 bit 2
step 5 derive [] by 1 2 3 4
| a message
""")
APART_CNF = """\
c var 1 a=1
c var 2 a=2
c clauses 1..1 request line 1: needs a 1
c clauses 2..2 request line 2: needs a 2
c clauses 3..3 at most one of a
p cnf 2 3
1 0
2 0
-1 -2 0
"""
# Variable 3 is `bit 2 of a`.
APART_LRAT = """\
4 3 -1 0 0
5 -3 1 0 -4 0
6 -2 -3 0 3 5 0
7 0 1 2 4 6 0
"""

WISHES = ("version a 1\nversion a 2\nversion b 1\nlimits a 1\nversion c 1\n", "needs a 2\nwish c 1\nwish b 1\n", """\
install
a=2 for request line 1
c=1 wished line 2
left out b=1 line 3 by 1
step 1 limit b=1 line 4 bars a=2
""")
WISHES_CNF = """\
c var 1 a=1
c var 2 a=2
c var 3 b=1
c var 4 c=1
c clauses 1..1 catalogue line 4: limits a 1
c clauses 2..2 entry a=2
c clauses 3..3 entry c=1
c clauses 4..4 wish b=1
p cnf 4 4
-3 -2 0
2 0
4 0
3 0
"""


class Exports(unittest.TestCase):
    """What the exporter writes."""

    def test_by_hand(self) -> None:
        for texts, formula, proof in [
            (LIMITED, LIMITED_CNF, LIMITED_LRAT),
            (CONDITIONAL, CONDITIONAL_CNF, CONDITIONAL_LRAT),
            (MARKED, MARKED_CNF, MARKED_LRAT),
            (APART, APART_CNF, APART_LRAT),
        ]:
            made = exported(*texts)
            self.assertEqual(made.cnf.text(), formula)
            self.assertEqual(made.proof.lrat(), proof)
            self.assertEqual(verify(made), len(proof.splitlines()))

    def test_drat_has_the_same_clauses(self) -> None:
        made = exported(*APART)
        self.assertEqual(made.proof.drat(), "3 -1 0\n-3 1 0\n-2 -3 0\n0\n")

    def test_left_out_wish(self) -> None:
        made = exported(*WISHES, 3)
        self.assertEqual(made.cnf.text(), WISHES_CNF)
        self.assertEqual(made.proof.lrat(), "5 0 2 3 4 1 0\n")
        verify(made)

    def test_only_what_the_last_step_rests_on(self) -> None:
        catalogue, request, report = APART
        more = report.replace("step 5 derive [] by 1 2 3 4", "step 5 any a=1\nstep 6 derive [] by 1 2 3 4")
        self.assertEqual(exported(catalogue, request, more).proof.lrat(), APART_LRAT)

    def test_a_need_that_nothing_matches(self) -> None:
        report = "refused\nrequest line 1\nstep 1 need request line 1 case 1\nstep 2 derive [] by 1\n"
        made = exported("version a 1\n", "needs b\n", report)
        self.assertEqual(clauses(made) + made.proof.lrat(), "p cnf 1 1\n0\n2 0 1 0\n")
        verify(made)

    def test_a_need_of_itself_asks_nothing(self) -> None:
        catalogue = "version a 1\nneeds a | b\nneeds b\n"
        named = ["catalogue line 2", "catalogue line 3", "request line 1"]
        steps = ["need a=1 line 2 case 1", "need a=1 line 3 case 1", "gate a=1 line 2", "need request line 1 case 1"]
        report = refused(named, [*steps, "derive [] by 4 1 3 2"])
        made = exported(catalogue, "needs a\n", report)
        self.assertEqual(clauses(made), "p cnf 1 2\n-1 0\n1 0\n")
        verify(made)

    def test_other_lines(self) -> None:
        catalogue = "version a 1\nversion a 2\nversion a 3\nunknown nometa\nlock a 1\nexclude a 1 old\n"
        named = ["catalogue line 4", "catalogue line 5", "catalogue line 6", "request line 1", "request line 2"]
        steps = ["unknown line 4", "lock line 5 bars a=2", "exclude line 6", "need request line 1 case 1"]
        report = refused(named, [*steps, "derive [] by 1 2 3 4"])
        made = exported(catalogue, "needs a\nlimits a 0..3\n", report)
        self.assertEqual(clauses(made), "p cnf 3 6\n-3 0\n-2 0\n-3 0\n-1 0\n1 2 3 0\n-3 0\n")
        verify(made)

    def test_at_most_one_of_many(self) -> None:
        for texts in (halves, two_of_many):
            for count in (2, 3, 63, 64, 65, 66, 200):
                made = exported(*texts(count))
                self.assertEqual(len(made.cnf.names) > count, count > 64)
                verify(made)

    def test_a_ladder_takes_lines_in_proportion(self) -> None:
        sizes = [len(exported(*halves(count)).proof.lrat()) for count in (500, 1000)]
        self.assertLess(sizes[1], 3 * sizes[0])

    def test_the_command(self) -> None:
        with tempfile.TemporaryDirectory() as name:
            folder = Path(name)
            paths = [folder / part for part in ("catalogue", "request", "report")]
            for path, text in zip(paths, APART):
                path.write_text(text)
            command = [sys.executable, TOP / "tools/lrat.py", *paths, "-o", folder / "out"]
            run = subprocess.run(command, capture_output=True, text=True)
            wanted = "2 variables and 3 clauses; a proof of 4 lines\n"
            self.assertEqual((run.stdout, run.stderr, run.returncode), (wanted, "", 0))
            written = [(folder / f"out.{part}").read_text() for part in ("cnf", "lrat")]
            self.assertEqual(written, [APART_CNF, APART_LRAT])
            paths[2].write_text(APART[2].replace("by 1 2 3 4", "by 1 3 4"))
            run = subprocess.run(command, capture_output=True, text=True)
            wanted = f"tools: {paths[2]}: line 8: step 5: one pass over its clauses doesn't refute it\n"
            self.assertEqual((run.stdout, run.stderr, run.returncode), ("", wanted, 2))


def halves(count: int) -> tuple[str, str, str]:
    """One need of the older half of a package's versions, one of the newer."""
    middle, bit = count // 2, 10
    steps = ["need request line 1 case 1", "need request line 2 case 1"]
    steps += [f"digit x={k} place {k if k < middle else 1024 + k} bit {bit}" for k in range(count)]
    older, newer = (" ".join(str(3 + k) for k in part) for part in (range(middle), range(middle, count)))
    steps.append(f"derive [not bit {bit} of x] by {older} 1")
    steps.append(f"derive [] by {len(steps)} {newer} 2")
    catalogue = "".join(f"version x {k}\n" for k in range(count))
    request = f"needs x 0..{middle}\nneeds x {middle}..{count}\n"
    return catalogue, request, refused(["request line 1", "request line 2"], steps)


def two_of_many(count: int) -> tuple[str, str, str]:
    """Two versions are needed; each bit of the places of all versions is stated, and one pass reads them all."""
    places = [37 * k % 1021 for k in range(count)]
    steps = ["need request line 1 case 1", "need request line 2 case 1"]
    steps += [f"digit x={k} place {place} bit {bit}" for k, place in enumerate(places) for bit in range(11)]
    steps.append(f"derive [] by {' '.join(str(number) for number in range(1, len(steps) + 1))}")
    catalogue = "".join(f"version x {k}\n" for k in range(count))
    request = f"needs x {count // 3}\nneeds x {count - 1}\n"
    return catalogue, request, refused(["request line 1", "request line 2"], steps)


class Faults(unittest.TestCase):
    """Reports that aren't a proof: the fault is at a line."""

    def assert_fault(
        self, texts: tuple[str, str, str], line: Optional[int], why: str, wish: Optional[int] = None
    ) -> None:
        with self.assertRaises(Fault) as raised:
            exported(*texts, wish)
        self.assertEqual((raised.exception.text, raised.exception.line), ("report", line))
        self.assertIn(why, raised.exception.reason)

    def test_steps(self) -> None:
        for old, new, line, reason in [
            ("by 1 2 3 4", "by 1 2 4", 8, "doesn't refute it"),
            ("by 1 2 3 4", "by 1 2 3 4 5", 8, "step 5 isn't above it"),
            ("by 1 2 3 4", "by 0", 8, "step 0 isn't above it"),
            ("derive [] by", "derive [a=1] by", 8, "the last one isn't `derive []`"),
            ("request line 2\n", "", 4, "request line 2 isn't named"),
            ("request line 1\n", "catalogue line 1\nrequest line 1\n", 2, "catalogue line 1 doesn't state a rule"),
            ("request line 1\n", "catalogue line 9\nrequest line 1\n", 2, "catalogue line 9 doesn't state a rule"),
            ("line 2 case 1", "line 2 case 2", 5, "has no case 2"),
            ("digit a=2", "digit a=3", 7, "a=3 isn't listed"),
            ("digit a=2", "digit a=1", 7, "a second place"),
            ("digit a=2 place 3 bit 2", "limit request line 1 bars a=2", 7, "isn't a line for this step"),
            ("digit a=2 place 3 bit 2", "limit request line 1", 7, "isn't a line for this step"),
            ("digit a=2 place 3 bit 2", "gate a=2 line 1", 7, "catalogue line 1 isn't named"),
            ("digit a=2 place 3 bit 2", "outside a 2 holds a=2", 7, "a=2 isn't outside a 2"),
            ("digit a=2 place 3 bit 2", "exclude line 1", 7, "catalogue line 1 isn't named"),
            ("digit a=2 place 3 bit 2", "exclude line 7", 7, "catalogue line 7 isn't named"),
        ]:
            with self.subTest(new):
                catalogue, request, report = APART
                self.assertIn(old, report)
                self.assert_fault((catalogue, request, report.replace(old, new)), line, reason)

    def test_steps_over_marked_packages(self) -> None:
        for old, new, line, reason in [
            ("matches c 1 holds c=1", "matches c 2 holds c=1", 6, "c=1 doesn't match c 2"),
            ("matches c 1 holds c=1", "matches c holds c=3", 6, "c=3 isn't listed"),
            ("matches c 1 holds c=1", "matches x holds x=1", 6, "x isn't marked `many`"),
            ("matches c 1 holds c=1", "digit c=1 place 0 bit 0", 6, "c is marked `many`"),
            ("[not matches c 1]", "[not matches x]", 9, "x isn't marked `many`"),
            ("[not matches c 1]", "[not bit 0 of c]", 9, "c is marked `many`"),
        ]:
            with self.subTest(new):
                catalogue, request, report = MARKED
                self.assertIn(old, report)
                self.assert_fault((catalogue, request, report.replace(old, new)), line, reason)
        self.assert_fault(("many a\n" + APART[0], *APART[1:]), 6, "a is marked `many`")

    def test_wishes(self) -> None:
        catalogue, request, report = WISHES
        self.assert_fault(WISHES, 1, "--wish")
        self.assert_fault(WISHES, None, "it leaves out no wish of request line 2", 2)
        self.assert_fault(APART, None, "it leaves out no wish of request line 1", 1)
        self.assert_fault((catalogue, request, report.replace("out b=1", "out a=1")), 4, "isn't a wish for a=1", 3)
        self.assert_fault((catalogue, request, report.replace("by 1", "by 2")), 4, "no step 2", 3)
        without = report.replace("a=2 for request line 1\n", "")
        self.assert_fault((catalogue, request, without), 4, "doesn't refute it", 3)


FORMULA = "c a comment\np cnf 3 4\n1 2 0\n1 -2 0\n-1 3 0\n-1 -3 0\n"
GOOD = "5 4 -1 0 0\n6 -4 1 0 -5 0\n7 1 0 1 2 0\n8 4 0 7 5 0\n9 0 7 3 4 0\n"
# RAT on 1 over `-1 2` with hints: the resolvent, 2, is refuted by `2 3` and `2 -3`.
RAT = ("p cnf 3 4\n-1 2 0\n2 3 0\n2 -3 0\n-2 0\n", "5 1 0 -1 2 3 0\n6 0 5 1 4 0\n")


class StrictChecker(unittest.TestCase):
    """Each kind of damage once."""

    def refused(self, formula: str, proof: str) -> str:
        with self.assertRaises(Refused) as raised:
            check(formula.splitlines(True), proof.splitlines(True))
        return str(raised.exception)

    def test_verified(self) -> None:
        self.assertEqual(check(FORMULA.splitlines(True), GOOD.splitlines(True)), 5)
        self.assertEqual(check(*(text.splitlines(True) for text in RAT)), 2)

    def test_damaged_proofs(self) -> None:
        for old, new, reason in [
            ("7 1 0 1 2 0", "7 1 0 3 2 0", "line 3 of the proof: clause 3 is neither unit nor false"),
            ("7 1 0 1 2 0", "7 1 0 1 8 0", "there is no clause 8"),
            ("7 1 0 1 2 0", "7 1 0 1 7 0", "there is no clause 7"),
            ("7 1 0 1 2 0", "7 1 0 1 2 3 0", "clause 2 is false, and hints follow it"),
            ("7 1 0 1 2 0", "7 1 0 1 2 -3 0", "hints behind the false clause"),
            ("7 1 0 1 2 0", "7 1 0 1 1 2 0", "clause 1 is neither unit nor false"),
            ("7 1 0 1 2 0", "7 1 0 1 0", "neither RUP nor RAT"),
            ("7 1 0 1 2 0", "7 1 1 0 1 2 0", "a variable twice"),
            ("7 1 0 1 2 0", "7 2 -2 0 1 2 0", "a variable twice"),
            ("7 1 0 1 2 0", "7 1 0 1 2", "no 0 at the end"),
            ("7 1 0 1 2 0", "7 1 0 1 0 2 0", "no 0 at the end, or one before it"),
            ("7 1 0 1 2 0", "7 1 1 2", "no 0 at the end"),
            ("7 1 0 1 2 0", "6 1 0 1 2 0", "its number doesn't rise"),
            ("7 1 0 1 2 0", "-7 1 0 1 2 0", "its number doesn't rise"),
            ("7 1 0 1 2 0", "7 d 1 2 0", "not a line of numbers"),
            ("7 1 0 1 2 0", "c a comment", "not a line of numbers"),
            ("7 1 0 1 2 0", "7  1 0 1 2 0", "not a line of numbers"),
            ("7 1 0 1 2 0", "07 1 0 1 2 0", "not a line of numbers"),
            ("7 1 0 1 2 0", "", "not a line of numbers"),
            ("6 -4 1 0 -5 0", "6 -4 1 0 0", "neither RUP nor RAT"),
            ("6 -4 1 0 -5 0", "6 -4 1 0 -5 -1 0", "neither RUP nor RAT"),
            ("6 -4 1 0 -5 0", "6 -4 1 0 -5 -5 0", "neither RUP nor RAT"),
            ("6 -4 1 0 -5 0", "6 -4 1 0 -5 1 0", "hints for a resolvent that is always true"),
            ("6 -4 1 0 -5 0", "6 -4 2 0 -5 0", "the resolvent with clause 5 isn't refuted"),
            ("9 0 7 3 4 0", "9 0 7 3 0", "no clause is false at the end of the hints"),
            ("9 0 7 3 4 0", "9 0 -7 3 4 0", "no clause is false at the end of the hints"),
            ("9 0 7 3 4 0\n", "", "the proof doesn't end with the empty clause"),
            ("9 0 7 3 4 0\n", "9 0 7 3 4 0\n10 1 0 1 2 0\n", "the proof doesn't end with the empty clause"),
            ("9 0 7 3 4 0\n", "9 0 7 3 4 0", "no newline"),
            (GOOD, "", "the proof doesn't end with the empty clause"),
        ]:
            with self.subTest(new):
                self.assertIn(old, GOOD)
                self.assertIn(reason, self.refused(FORMULA, GOOD.replace(old, new, 1)))

    def test_damaged_formulas(self) -> None:
        for old, new, reason in [
            ("1 -2 0\n", "", "another number of clauses"),
            ("1 -2 0\n", "-1 -2 0\n", "line 3 of the proof: clause 2 is neither unit nor false"),
            ("1 -2 0\n", "1 -4 0\n", "line 4 of the CNF: a variable that the header doesn't have"),
            ("1 -2 0\n-1 3 0\n", "1 -2 0 -1 3 0\n", "line 4 of the CNF: numbers behind the 0"),
            ("1 -2 0\n", "1 -2\n", "no 0 at the end"),
            ("1 -2 0\n", "c within\n1 -2 0\n", "not a line of numbers"),
            ("p cnf 3 4", "p cnf 3 5", "another number of clauses"),
            ("p cnf 3 4", "p wcnf 3 4", "neither a comment nor a header"),
            (FORMULA, "c nothing\n", "another number of clauses"),
        ]:
            with self.subTest(new):
                self.assertIn(old, FORMULA)
                self.assertIn(reason, self.refused(FORMULA.replace(old, new, 1), GOOD))

    def test_damaged_rat_hints(self) -> None:
        formula, proof = RAT
        for new, reason in [
            ("5 1 0 0", "neither RUP nor RAT"), ("5 1 0 -1 0", "isn't refuted"), ("5 1 0 -1 2 0", "isn't refuted"),
            ("5 1 0 -2 2 3 0", "neither RUP nor RAT"), ("5 1 0 -1 3 3 0", "neither unit nor false"),
        ]:
            with self.subTest(new):
                self.assertIn(reason, self.refused(formula, proof.replace("5 1 0 -1 2 3 0", new)))


if __name__ == "__main__":
    unittest.main()
