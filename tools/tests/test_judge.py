"""The plain judge: for each way in which docs/JUDGE.md refuses a line, a report with that line and the reason."""
import unittest

from tools import texts
from tools.judge import court_of, judge, refusal
from tools.tests.base import data_bytes

CATALOGUE = b"""many r
version a 1
version a 2
needs b if c 1
version b 1
limits a 2
version b 2
unknown gone
version c 1
version r 1
version r 2
lock c 1
exclude b 2 old
"""
REQUEST = b"needs a\nneeds r 1 | r 2\nwish b 1\nwish c 1\nlimits a 1..3\n"
INSTALL = "install\na=2 for request line 1\nr=2 for request line 2\nb=1 wished line 3\nc=1 wished line 4\n"
REFUSED = "refused\ncatalogue line 4\ncatalogue line 6\nrequest line 1\n"
NEED = "step 1 need request line 1 case 1\n"

# a report, the line from which it doesn't hold, and the reason
REPORTS = [
    ("install\na=3 for request line 1\n", 2, "the catalogue doesn't list a=3"),
    ("install\na=2 for request line 1\na=2 for request line 1\n", 3, "a=2 is an entry above"),
    ("install\na=2 for request line 1\na=1 for request line 1\n", 3, "another version of a is an entry above, and the package isn't marked `many`"),
    ("install\nleft out c=1 line 4 by 1\nc=1 wished line 4\n", 3, "c=1 was left out above"),
    ("install\nb=1 for request line 1\n", 2, "its line asks for something else than b=1: `needs a`"),
    ("install\na=2 for request line 5\n", 2, "line 5 of the request isn't a `needs` line: `limits a 1..3`"),
    ("install\na=2 for request line 6\n", 2, "the request has no line 6"),
    ("install\nb=1 for a=2 line 4\n", 2, "a=2 is no entry above"),
    ("install\na=2 for request line 1\nb=1 for a=2 line 6\n", 3, "line 6 of the catalogue doesn't belong to a=2"),
    ("install\na=2 for request line 1\nb=1 for a=2 line 4\n", 3, "the condition doesn't hold among the entries above: `needs b if c 1`"),
    ("install\nc=1 wished line 3\n", 2, "line 3 of the request doesn't wish for c=1: `wish b 1`"),
    ("install\nc=1 wished line 4\nb=1 wished line 3\n", 3, "a line above names the wish of line 4, and wishes are in the order of their lines"),
    ("install\nb=1 wished line 3\nleft out c=1 line 4 by 1\n", 4, "the entries don't obey line 1 of the request: `needs a`"),
    ("install\na=2 for request line 1\nr=1 for request line 2\nb=1 wished line 3\n", 5, "c=1 is neither an entry nor left out, and line 4 of the request wishes for it"),
    (INSTALL.replace("c=1 wished line 4", "left out c=1 line 4 by 1"), 6, "there is no step 1, by which c=1 is left out"),
    (INSTALL.replace("c=1 wished line 4", "left out c=1 line 4 by 1") + "step 1 any c=1\n", 7, "step 1 doesn't show that c=1 can't be there beside the entries above it"),
    (INSTALL[:-1], 5, "its last line has no newline"),
    (INSTALL + "| a message\n", 6, "`|` isn't a version NAME=NUM"),
    ("refused\ncatalogue line 2\n", 2, "line 2 of the catalogue is no rule: `version a 1`"),
    ("refused\nrequest line 2\n" + NEED, 3, "line 1 of the request isn't among the named lines"),
    (REFUSED + NEED.replace("case 1", "case 2"), 5, "the line has no case 2; its cases are 1 to 1"),
    (REFUSED + "step 1 gate a=2 line 4\n", 5, "a line with a condition has no gate: `needs b if c 1`"),
    (REFUSED + "step 1 limit b=1 line 6 bars a=2\n", 5, "a=2 matches `a 2`"),
    (REFUSED + "step 1 limit b=1 line 6 bars c=1\n", 5, "c=1 is no version of a"),
    (REFUSED + "step 1 matches a 2 holds a=2\n", 5, "a isn't marked `many`, so nothing is stated of its matches"),
    (REFUSED + "step 1 matches r 2 holds r=1\n", 5, "r=1 doesn't match `r 2`"),
    ("refused\ncatalogue line 12\nstep 1 lock line 12 bars c=1\n", 3, "`lock c 1` doesn't bar c=1"),
    ("refused\ncatalogue line 12\nstep 1 exclude line 12\n", 3, "line 12 of the catalogue isn't an `exclude` line: `lock c 1`"),
    (REFUSED + "step 1 digit r=1 place 0 bit 0\n", 5, "r is marked `many`, so it has no bits"),
    (REFUSED + "step 1 digit a=1 place 0 bit 0\nstep 2 digit a=1 place 1 bit 0\n", 6, "a=1 has place 0 in a step above"),
    (REFUSED + NEED + "step 2 derive [a=3] by 1\n", 6, "the catalogue doesn't list a=3"),
    (REFUSED + NEED + "step 2 derive [] by 2\n", 6, "there is no step 2 above it"),
    (REFUSED + NEED + "step 2 derive [] by 1\n", 6, "one pass over the clauses of the named steps, in this order, finds none that is false"),
    (REFUSED + NEED, 6, "the last step isn't `derive []`"),
]


class Judging(unittest.TestCase):
    def test_reasons(self):
        court = court_of(CATALOGUE, REQUEST)
        for report, line, reason in REPORTS:
            self.assertEqual(refusal(court.catalogue, court.request, report.encode()), (line, reason), report)

    def test_right_reports(self):
        self.assertEqual(judge(CATALOGUE, REQUEST, INSTALL.encode()), 0)
        for catalogue, name in [("app", "app"), ("app", "conflict"), ("locked", "locked"), ("majors", "majors"), ("wishes", "wishes")]:
            report = data_bytes(f"{name}.report")
            self.assertEqual(judge(data_bytes(f"{catalogue}.catalogue"), data_bytes(f"{name}.request"), report), 0, name)

    def test_faults_of_the_texts_are_raised(self):
        with self.assertRaises(texts.Fault):
            judge(b"version a\n", b"", b"install\n")
