"""Catalogues and requests: one text a value, and the line of each fault as docs/FORMATS.md has it."""
import unittest

from tools import texts
from tools.catalogue import MOST_BYTES
from tools.tests.base import data_bytes

# Texts whose last line is faulty, as a catalogue and then as a request over `version a 1`, `version a 2`.
CATALOGUE_FAULTS = [
    "needs a", "limits a", "unknown x", "version a 1\nversion a 1", "version a 1\nexclude a 1 x\nexclude a 1 y",
    "version a 1\nunknown x\nunknown y", "version a 1\nversion a 2\nlock a 1\nlock a 2",
    "version a 1\nversion a 2\nfavour a 1\nfavour a 2", "version a 1\nlock a 2", "version a 1\nfavour b 1",
    "version a 1\nexclude a 2 x", "version a 01", "version a +1", "version a 4294967296", "version a 1\nneeds b 3..3",
    "version a 1\nneeds b 4..3", "version  a 1", "version a 1 ", " version a 1", "version a 1\r", "\r",
    "version a 1\nexclude a 1 if", "version if 1", "version -a 1", "version é 1", "version a", "version a 1 2", "version",
    "version a 1\nneeds", "version a 1\nneeds b |", "version a 1\nneeds b 1 2", "version a 1\nneeds b if",
    "version a 1\nneeds b if (c)", "version a 1\nneeds b if c and", "version a 1\nneeds b if ( c",
    "version a 1\nneeds b if c )", "version a 1\nneeds b if ( )", "version a 1\nneeds b holds", "version a 1\nlimits b | c",
    "version a 1\nneeds b if " + " or ".join(["c"] * 17), "version a 1\nneeds b if " + "( " * 17 + "c" + " )" * 17,
    "version a 1\nmany a", "many a\nmany a", "many a\nversion a 1\nmany a", "many", "many a 1", "many if", "many -a", " many a",
    "wish a 1", "Version a 1", "\ufeffversion a 1", "version a 1\nneeds b 1..2..3", "version a 1\nneeds b ..3",
]
REQUEST_FAULTS = [
    "version a 1", "lock a 1", "wish b 1", "wish a 3", "wish a 1\nwish a 1", "wish a 01", "needs a\n needs a",
    "needs a\nunknown x", "many a", "limits a 1..1", "needs a\r", "favour a 1", "exclude a 1 x",
]
GOOD = [
    "", "\n", "#", "# \xff anything\n\nversion a 0\nversion a 4294967295", "version 3d 1\nversion a-b.c 1\nversion _ 1",
    "version a 1\nneeds b 1..4 | c if d and e\nneeds b 1..4 | c if d and e\nlimits b 2..5\nlimits b 2..5",
    "version a 1\nlock a 1\nfavour a 1\nexclude a 1 x\nunknown y", "version a 1\nversion b 1\nlock a 1\nlock b 1",
    "many a\nversion a 1\nversion b 1\nmany many\nversion many 1\nversion a 2", "many a",
    "version a 1\nneeds a if " + " or ".join(["c"] * 16), "version request 1\nneeds any | line if holds",
    "version a 1\nneeds b if a and ( b or c ) and d or ( e or f ) or g and ( h and i )",
]


class Catalogues(unittest.TestCase):
    def fault(self, read, data):
        with self.assertRaises(texts.Fault) as raised:
            read(data.encode("utf-8", "surrogateescape"))
        return raised.exception

    def test_faults_are_at_the_last_line(self):
        for text in CATALOGUE_FAULTS:
            for end in ("", "\n", "\nversion z 1\n"):
                fault = self.fault(texts.read_catalogue, text + end)
                self.assertEqual((fault.text, fault.line), ("catalogue", text.count("\n") + 1), text)

    def test_faults_of_requests(self):
        catalogue = texts.read_catalogue(b"version a 1\nversion a 2\n")
        for text in REQUEST_FAULTS:
            fault = self.fault(lambda data: texts.read_request(data, catalogue), text)
            self.assertEqual((fault.text, fault.line), ("request", text.count("\n") + 1), text)

    def test_good_texts_are_written_as_they_were(self):
        for text in GOOD:
            data = text.encode("latin1")
            catalogue = texts.read_catalogue(data)
            whole = data + b"\n" if data and not data.endswith(b"\n") else data
            self.assertEqual(texts.catalogue_text(catalogue), whole)
            self.assertEqual(texts.read_catalogue(whole), catalogue)

    def test_examples_are_written_as_they_were(self):
        for name, base in (("app", "app"), ("conflict", "app"), ("locked", "locked"), ("wishes", "wishes"), ("majors", "majors")):
            data, request = data_bytes(f"{base}.catalogue"), data_bytes(f"{name}.request")
            catalogue = texts.read_catalogue(data)
            self.assertEqual(texts.catalogue_text(catalogue), data)
            self.assertEqual(texts.request_text(texts.read_request(request, catalogue)), request)

    def test_parentheses_that_say_nothing_are_not_written(self):
        for written, same in [
            ("( a )", "a"), ("( ( a ) )", "a"), ("( a or b ) or c", "a or b or c"), ("( a and b ) or c", "a and b or c"),
            ("a or ( b and c )", "a or b and c"), ("a or ( b or c )", "a or ( b or c )"), ("( a or b ) and c", "( a or b ) and c"),
        ]:
            catalogue = texts.read_catalogue(f"version a 1\nneeds b if {written}\n".encode())
            self.assertEqual(texts.catalogue_text(catalogue), f"version a 1\nneeds b if {same}\n".encode())

    def test_a_text_that_is_too_long(self):
        self.assertEqual(len(texts.read_catalogue(b"#" + b"x" * (MOST_BYTES - 1)).lines), 1)
        for data, line in [(b"#" + b"x" * MOST_BYTES, None), (b"bad\n#" + b"x" * MOST_BYTES, 1)]:
            with self.assertRaises(texts.Fault) as raised:
                texts.read_catalogue(data)
            self.assertEqual(raised.exception.line, line)

    def test_owners_and_matches(self):
        catalogue = texts.read_catalogue(b"version a 1\nneeds b\nversion b 2\nlock a 1\nlimits a\n")
        a, b = texts.Version("a", 1), texts.Version("b", 2)
        self.assertEqual([placed.owner for placed in catalogue.placed], [None, a, None, None, b])
        self.assertEqual(catalogue.matches(texts.Spec("b", (2, 3))), [b])
        self.assertEqual(catalogue.matches(texts.Spec("b", (3,))), [])
        self.assertEqual(catalogue.matches(texts.Spec("none", None)), [])

    def test_marked_packages(self):
        catalogue = texts.read_catalogue(b"version b 1\nmany a\nneeds a\nversion a 1\nversion a 2\nmany none\n")
        self.assertEqual(catalogue.many, {"a", "none"})
        self.assertEqual(catalogue.placed[2].owner, texts.Version("b", 1))
        self.assertEqual(texts.read_catalogue(b"version a 1\n").many, frozenset())

    def test_cases(self):
        line = texts.read_catalogue(b"version a 1\nneeds b if ( c or d ) and ( e or f )\n").lines[1]
        self.assertEqual([[str(s) for s in case] for case in texts.cases(line.condition)], [["c", "e"], ["c", "f"], ["d", "e"], ["d", "f"]])

    def test_standard_input(self):
        self.assertEqual(texts.split_input(b"version a 1\n---\nneeds a\n---\n"), (b"version a 1\n", b"needs a\n---\n"))
        self.assertEqual(texts.split_input(b"version a 1\n"), (b"version a 1\n", b""))
