"""Reports: one text a value, and the line at which a text leaves the grammar."""
import unittest

from tools import texts
from tools.tests.base import data_bytes

ROWS = """refused
catalogue line 2
catalogue line 3
request line 1
step 1 need request line 1 case 1
step 2 gate p=1 line 2
step 3 shared c | d 2..4
step 4 limit p=1 line 3
step 5 outside c 9 holds c=1
step 6 limit request line 3 bars c=2
step 7 lock line 4 bars c=2
step 8 exclude line 5
step 9 unknown line 6
step 10 any c=1
step 11 digit c=1 place 3 bit 31
step 12 need p=1 line 2 case 0
step 13 derive [any c; bit 0 of c; c=1; not outside c 9; not shared c | d 2..4] by 0 1
step 14 matches d 2..4 holds d=2
step 15 derive [matches d 2..4; not matches d] by 14
step 16 derive [] by 13
| a message, \xff and
| 
"""
# A report and its first faulty line.
FAULTS = [
    ("", 1), ("install", 1), ("Install\n", 1), ("\n", 1), ("refused\n", 2), ("refused\nrequest line 1\n", 3),
    ("refused\n| x\n", 2), ("refused\nrequest line 1\ncatalogue line 1\n", 3), ("refused\ncatalogue line 2\ncatalogue line 2\n", 3),
    ("refused\ncatalogue line 0\n", 2), ("refused\nstep 2 any a=1\n", 2), ("refused\nstep 1 any a=1\nstep 1 any a=1\n", 3),
    ("refused\nstep 1 any a=1\nrequest line 1\n", 3), ("refused\nstep 1 any a=1\n| x\nstep 2 any a=1\n", 4),
    ("refused\nstep 1 any a=1\n|x\n", 3), ("refused\nstep 1 any a=1\n|\n", 3), ("refused\nstep 01 any a=1\n", 2),
    ("install\nstep 1 any a=1\na=1 for request line 1\n", 3), ("install\n| x\n", 2), ("install\na=1 for request line 0\n", 2),
    ("install\na=01 for request line 1\n", 2), ("install\na 1 for request line 1\n", 2), ("install\nleft out a=1 line 1 by 0\n", 2),
    ("install\na=1 wished line 1 2\n", 2), ("install\na=1 for request line 1\r\n", 2), ("install\n\n", 2), ("install\n#\n", 2),
    ("refused\nstep 1 digit a=1 place 0 bit 32\n", 2), ("refused\nstep 1 derive [b=1; a=1] by 1\n", 2),
    ("refused\nstep 1 derive [a=1; a=1] by 1\n", 2), ("refused\nstep 1 derive [a=1; not a=1] by 1\n", 2),
    ("refused\nstep 1 derive [] by\n", 2), ("refused\nstep 1 derive [] by \n", 2), ("refused\nstep 1 derive [] by 1  2\n", 2),
    ("refused\nstep 1 derive [a=1;b=1] by 1\n", 2), ("refused\nstep 1 derive a=1 by 1\n", 2), ("refused\nstep 1 derive [bit 32 of a] by 1\n", 2),
    ("refused\nstep 1 derive [maybe a=1] by 1\n", 2), ("refused\nstep 1 guess\n", 2), ("refused\nstep 1\n", 2), ("refused\nstep 1 \n", 2),
    ("refused\nstep 1 any a=1\nstep 2 any a=1", 3), ("refused\nstep 1 shared a | \n", 2), ("refused\nstep 1 outside a 1 a=1\n", 2),
    ("refused\nstep 1 outside a 2..2 holds a=1\n", 2), ("refused\nstep 1 limit request line 1 bars\n", 2),
    ("refused\nstep 1 matches a 1 a=1\n", 2), ("refused\nstep 1 matches a\n", 2),
    ("refused\nstep 1 matches a 2..2 holds a=2\n", 2), ("refused\nstep 1 matches a | b holds a=1\n", 2),
    ("refused\nstep 1 derive [matches a | b] by 1\n", 2), ("refused\nstep 1 derive [matches a=1] by 1\n", 2),
    ("refused\nstep 1 derive [matches a; matches a] by 1\n", 2), ("refused\nstep 1 derive [shared a; matches a] by 1\n", 2),
]


class Reports(unittest.TestCase):
    def test_all_kinds_of_lines_are_written_as_they_were(self):
        data = ROWS.encode("latin1")
        report = texts.read_report(data)
        self.assertEqual(texts.report_text(report), data)
        self.assertEqual(len({type(step) for step in report.steps}), 13)
        self.assertEqual(report.message[1], "")

    def test_examples_are_written_as_they_were(self):
        for name in ("app", "conflict", "locked", "wishes", "majors", "held", "debian"):
            data = data_bytes(f"{name}.report")
            self.assertEqual(texts.report_text(texts.read_report(data)), data)

    def test_faults(self):
        for text, line in FAULTS:
            with self.assertRaises(texts.Fault, msg=text) as raised:
                texts.read_report(text.encode())
            self.assertEqual((raised.exception.text, raised.exception.line), ("report", line), text)

    def test_a_cut_report_is_never_taken_for_a_whole_refusal(self):
        data = data_bytes("held.report")
        steps = [at + 1 for at, byte in enumerate(data) if byte == 10 and at >= data.index(b"step 1")]
        for end in range(len(data)):
            if end in steps:
                continue
            with self.assertRaises(texts.Fault):
                texts.read_report(data[:end])

    def test_values(self):
        report = texts.read_report(data_bytes("wishes.report"))
        v = texts.Version
        self.assertEqual(report.answers[0], texts.Entry(v("editor", 5), None, 1))
        self.assertEqual(report.answers[2], texts.Entry(v("dict", 9), v("spell", 1), 5))
        self.assertEqual(report.answers[3], texts.LeftOut(v("vim-keys", 3), 3, 2))
        self.assertEqual([e.version.package for e in report.entries], ["editor", "spell", "dict"])
        self.assertEqual(report.steps[1].literals[0], texts.Literal(v("editor", 5), False))
