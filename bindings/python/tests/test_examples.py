"""The repository's examples through whatever backend is there. Run in this folder: python3 -m unittest discover tests"""
import os
import sys
import tempfile
import unittest
from unittest import mock

HERE = os.path.dirname(os.path.abspath(__file__))
sys.path.insert(0, os.path.dirname(HERE))
EXAMPLES = os.path.join(HERE, "../../../examples")

import resolve  # noqa: E402
from resolve import Entry, Faulty, Installed, LeftOut, No, Refused, Yes, judge, solve  # noqa: E402


def example(name: str) -> bytes:
    with open(os.path.join(EXAMPLES, name), "rb") as file:
        return file.read()


class Examples(unittest.TestCase):
    def test_install(self):
        catalogue, request = example("app.catalogue"), example("app.request")
        answer = solve(catalogue, request)
        self.assertIsInstance(answer, Installed)
        self.assertEqual(answer.text, example("app.report"))
        self.assertEqual(answer.versions, {"app": 2, "http": 3, "json": 7})
        self.assertEqual(answer.entries[1], Entry("http", 3, 2))
        self.assertEqual(judge(catalogue, request, answer.text), Yes(b"yes\n"))

    def test_refused(self):
        catalogue, request = example("app.catalogue"), example("conflict.request")
        answer = solve(catalogue, request)
        self.assertIsInstance(answer, Refused)
        self.assertEqual(answer.text, example("conflict.report"))
        self.assertEqual((answer.catalogue_lines, answer.request_lines), ((), (3, 4)))
        self.assertEqual(len(answer.steps), 5)
        self.assertTrue(answer.message.startswith("The following packages are incompatible\n├─ http 1..4 can be installed"))
        self.assertEqual(judge(catalogue, request, answer.text), Yes(b"yes\n"))
        self.assertEqual(judge(catalogue, b"needs app\n", answer.text), No(b"no line 2\n", 2))

    def test_wishes(self):
        answer = solve(example("wishes.catalogue"), example("wishes.request"))
        self.assertIsInstance(answer, Installed)
        self.assertEqual(answer.entries[1:], (Entry("spell", 1, 2, wished=True), Entry("dict", 9, 5, "spell=1")))
        self.assertEqual(answer.left_out, (LeftOut("vim-keys", 3, 3, 2), LeftOut("old-theme", 1, 4, 4)))
        self.assertEqual(len(answer.steps), 4)

    def test_several_versions(self):
        answer = solve(example("majors.catalogue"), example("majors.request"))
        self.assertIsInstance(answer, Installed)
        self.assertEqual([entry.number for entry in answer.entries if entry.package == "rand"], [805, 902])
        self.assertRaises(ValueError, lambda: answer.versions)

    def test_faulty(self):
        self.assertEqual(solve(b"version a 1\nversion a 1\n", b""), Faulty(b"fault at catalogue line 2\n", "catalogue", 2))
        self.assertEqual(judge(b"", b"needs  a\n", b""), Faulty(b"fault at request line 1\n", "request", 1))

    def test_empty(self):
        self.assertEqual(solve(b"", b"").text, b"install\n")

    def test_too_long(self):
        with self.assertRaises(resolve.TooLong):
            solve(b"#" * (2**24 + 1), b"")

    def test_budgets(self):
        catalogue, request = example("wishes.catalogue"), example("wishes.request")
        if not isinstance(resolve.default_backend(), resolve.Library):
            self.assertRaises(resolve.Unavailable, solve, catalogue, request, budget=1)
            self.skipTest("no shared object")
        budget = 0
        while True:
            try:
                answer = solve(catalogue, request, budget=budget)
                break
            except resolve.GivenUp:
                budget += 1
        self.assertGreater(budget, 0)
        for more in (budget, budget + 1, 2**64 - 1):
            self.assertEqual(solve(catalogue, request, budget=more), solve(catalogue, request))
        self.assertEqual(answer, solve(catalogue, request))
        self.assertRaises(ValueError, solve, catalogue, request, budget=2**64)
        self.assertRaises(ValueError, solve, catalogue, request, budget=-1)
        for wrong in (1.5, "3"):
            self.assertRaises(TypeError, solve, catalogue, request, budget=wrong)

    def test_bytes_of_any_kind(self):
        catalogue = bytearray(example("app.catalogue"))
        self.assertEqual(solve(catalogue, memoryview(example("app.request"))).text, example("app.report"))
        doubled = b"".join(bytes([byte, 0]) for byte in catalogue)
        self.assertEqual(solve(memoryview(doubled)[::2], example("app.request")).text, example("app.report"))

    def test_no_shared_object(self):
        """Neither is one: a file of another kind, a library without these calls, and no file."""
        for path in (__file__, "libc.so.6", "/nonexistent.so"):
            with self.assertRaises(resolve.Unavailable, msg=path):
                resolve.Library(path)
        with mock.patch("resolve.backends._default", None), mock.patch.dict(os.environ, {"RESOLVE_LIBRARY": "/nonexistent.so"}):
            os.environ.pop("RESOLVE", None)
            with self.assertRaisesRegex(resolve.Unavailable, "RESOLVE_LIBRARY names /nonexistent.so"):
                resolve.default_backend()

    def test_a_shared_object_beside(self):
        """A path without a slash is a file of this folder, where there is one."""
        backend = resolve.default_backend()
        if not isinstance(backend, resolve.Library):
            self.skipTest("no shared object")
        before, path = os.getcwd(), os.path.abspath(backend.path)
        os.chdir(os.path.dirname(path))
        try:
            self.assertEqual(solve(b"", b"", resolve.Library(os.path.basename(path))).text, b"install\n")
        finally:
            os.chdir(before)

    def test_numbers_and_words_are_no_texts(self):
        for wrong in (5, "version a 1", None, [1]):
            self.assertRaises(TypeError, solve, wrong, b"")

    def test_another_program(self):
        for line in ("", "echo yes", "echo install; exit 1", "echo refused", "echo no line 2", "exit 2", "kill -9 $$"):
            with tempfile.TemporaryDirectory() as folder:
                path = os.path.join(folder, "resolve")
                with open(path, "w") as file:
                    file.write(f"#!/bin/sh\n{line}\n")
                os.chmod(path, 0o755)
                with self.assertRaises(resolve.Unavailable, msg=line):
                    solve(b"", b"", resolve.Program(path))
                if line != "echo yes":
                    with self.assertRaises(resolve.Unavailable, msg=line):
                        judge(b"", b"", b"install\n", resolve.Program(path))

    def test_short_rooms(self):
        backend = resolve.default_backend()
        if not isinstance(backend, resolve.Library):
            self.skipTest("no shared object")
        for room in range(70):
            small = resolve.Library(backend.path, room)
            self.assertEqual(solve(example("app.catalogue"), example("app.request"), small).text, example("app.report"))


if __name__ == "__main__":
    unittest.main()
