"""Files in and out: standard input and pipes, links, devices, closed and full outputs; numbers of too many digits."""
from __future__ import annotations

import gzip
import io
import os
import subprocess
import sys
import threading
import unittest
import zipfile
from unittest import mock

from tools import front
from tools.files import TOP
from tools.tests.base import FolderCase, data_bytes, data_path, run

TREE = ("view", "tree", *map(data_path, ("app.catalogue", "app.request", "app.report")))
LONG = "9" * 4301
METADATA = "Metadata-Version: 2.1\nName: a\nVersion: 1\n\n"


def run_over(data: bytes, *arguments: str) -> tuple[int, bytes, str]:
    """Runs `resolve-tools` with these bytes as standard input."""
    with mock.patch.object(sys, "stdin", io.TextIOWrapper(io.BytesIO(data))):
        return run(*arguments)


def run_shell(words: str) -> tuple[int, bytes, bytes]:
    """Runs `resolve-tools` in a shell, which opens and closes its files."""
    program = os.path.join(TOP, "tools", "resolve-tools")
    done = subprocess.run(f"'{program}' {words}", shell=True, capture_output=True)
    return done.returncode, done.stdout, done.stderr


class OutputTest(FolderCase):
    """Where the output goes."""

    def test_a_full_or_closed_output_is_a_fault(self) -> None:
        words = " ".join(f"'{word}'" for word in TREE)
        self.assertEqual(run_shell(f"{words} > /dev/full"), (2, b"", b"tools: standard output: can't be written: No space left on device\n"))
        self.assertEqual(run_shell(f"{words} >&-"), (2, b"", b"tools: standard output: can't be written: it is closed\n"))
        self.assertEqual(run_shell("check - <&-"), (2, b"", b"tools: standard input: can't be read: it is closed\n"))
        self.assertEqual(run_shell("check /nope 2>&-"), (2, b"", b""))
        self.assertEqual(run_shell("check /nope 2>/dev/full"), (2, b"", b""))

    def test_a_link_stays_and_the_file_behind_it_is_written(self) -> None:
        behind, link = self.write("behind", "old"), self.path("link")
        os.chmod(behind, 0o640)
        os.symlink("behind", link)
        self.assertEqual(run(*TREE, "--out", link), (0, b"", ""))
        self.assertTrue(os.path.islink(link))
        with open(behind, "rb") as source:
            self.assertEqual(source.read(), run(*TREE)[1])
        self.assertEqual(os.stat(behind).st_mode & 0o777, 0o640)

    def test_a_pipe_is_written_as_it_is(self) -> None:
        pipe, found = self.path("pipe"), []
        os.mkfifo(pipe)

        def read() -> None:
            with open(pipe, "rb") as source:
                found.append(source.read())

        reader = threading.Thread(target=read)
        reader.start()
        self.assertEqual(run(*TREE, "--out", pipe), (0, b"", ""))
        reader.join()
        self.assertEqual((found, os.listdir(self.folder)), ([run(*TREE)[1]], ["pipe"]))

    def test_a_minus_is_standard_output(self) -> None:
        self.assertEqual(run(*TREE, "--out", "-"), run(*TREE))

    def test_an_interrupt_ends_it_without_a_word(self) -> None:
        with mock.patch.object(front, "write_bytes", side_effect=KeyboardInterrupt):
            self.assertEqual(run(*TREE), (130, b"", ""))


class InputTest(FolderCase):
    """What is read."""

    def test_standard_input_is_one_file(self) -> None:
        data = data_bytes("app.catalogue")
        self.assertEqual(run_over(data, "check", "-"), (0, b"no fault\n", ""))
        error = "tools: standard input: can be one file alone, and was read already\n"
        self.assertEqual(run_over(data, "check", "-", "-"), (2, b"", error))

    def test_importers_read_standard_input(self) -> None:
        for words, text in (
            (("pypi", "catalogue"), '{"name": "a", "version": "1"}'),
            (("cargo", "catalogue"), '{"name": "a", "vers": "1.0.0", "deps": [], "features": {}}'),
            (("conda", "catalogue"), '{"packages": {}}'),
            (("debian", "--arch", "amd64"), "Package: a\nVersion: 1\nArchitecture: all\n"),
        ):
            as_file = run(*words, self.write("index", text))
            self.assertEqual(as_file[0], 0, as_file)
            self.assertEqual(run_over(text.encode(), *words, "-"), as_file)

    def test_a_pipe_has_the_sum_of_what_was_read(self) -> None:
        for words, text in ((("pypi", "catalogue"), '{"name": "a", "version": "1"}'),
                            (("cudf", "convert"), "package: a\nversion: 1\n\nrequest: \n")):
            as_file, pipe = run(*words, self.write("index", text)), self.path(words[0])
            os.mkfifo(pipe)
            writer = threading.Thread(target=self.write, args=(words[0], text))
            writer.start()
            self.assertEqual(run(*words, pipe), as_file)
            writer.join()

    def test_a_lock_is_checked_over_standard_input(self) -> None:
        catalogue, request, report = map(data_path, ("app.catalogue", "app.request", "app.report"))
        lock, program = self.path("lock"), self.write("program", '#!/bin/sh\ncmp -s "$3" "$WANTED" && echo yes\n')
        os.chmod(program, 0o755)
        self.assertEqual(run("lock", "write", catalogue, report, "--out", lock)[0], 0)
        with mock.patch.dict(os.environ, {"WANTED": request}):
            found = run_over(data_bytes("app.request"), "lock", "check", "--resolve", program, lock, catalogue, "-", report)
        self.assertEqual(found, (0, b"yes: 3 entries, and the report is judged right\n", ""))


class ProgramTest(FolderCase):
    """What is run in the place of `resolve`."""

    def assert_check(self, body: str, wanted: str, status: int = 2) -> None:
        """`lock check` over a program of these bytes."""
        texts = list(map(data_path, ("app.catalogue", "app.request", "app.report")))
        lock, program = self.path("lock"), self.write("program", body)
        os.chmod(program, 0o755)
        self.assertEqual(run("lock", "write", texts[0], texts[2], "--out", lock)[0], 0)
        error = f"tools: {wanted.format(program=program, report=texts[2])}\n"
        self.assertEqual(run("lock", "check", lock, *texts, "--resolve", program), (status, b"", error))

    def test_a_verdict_is_what_resolve_prints(self) -> None:
        prints = "{program}: judge: isn't `resolve`: it prints "
        self.assert_check("#!/bin/sh\n", prints + "`` with status 0")
        self.assert_check("#!/bin/sh\necho yes\nexit 1\n", prints + "`yes\\n` with status 1")
        self.assert_check("#!/bin/sh\necho no line 2\n", prints + "`no line 2\\n` with status 0")
        self.assert_check("#!/bin/sh\necho no line 2\nexit 1\n", "{report}: `resolve judge` says `no line 2`; `resolve-tools check` has the reason", 1)
        self.assert_check("#!/bin/sh\nkill -9 $$\n", "{program}: judge: status -9")

    def test_a_file_that_cannot_be_run(self) -> None:
        self.assert_check("#!/nope\n", "{program}: can't be run: No such file or directory")
        self.assert_check("\x7fELF", "{program}: can't be run: Exec format error")

    def test_the_solver_for_apt_without_its_files(self) -> None:
        error = b"tools: standard output: can't be written: it is closed\n"
        self.assertEqual(run_shell("apt-solver </dev/null >&-"), (2, b"", error))
        self.assertEqual(run_shell("apt-solver <&-"), (0, b"Error: resolve-fault\nMessage: tools: standard input: can't be read: it is closed\n\n", b""))


class CheckTest(FolderCase):
    """The programs of checks/ that README.md names, over files that are none of theirs."""

    def assert_said(self, name: str, texts: tuple[bytes, bytes], status: int, out: bytes, error: bytes) -> None:
        """What checks/NAME prints of two files, which are folders where they have no text."""
        paths = [self.write(name, text) if text else self.folder for name, text in zip("ab", texts)]
        done = subprocess.run([sys.executable, os.path.join(TOP, "checks", name), *paths], capture_output=True)
        self.assertEqual((done.returncode, done.stdout, done.stderr), (status, out, error))

    def test_the_plain_search(self) -> None:
        self.assert_said("plain_report.py", (b"#\n", b""), 2, f"cannot read {self.folder}: Is a directory\n".encode(), b"")

    def test_the_strict_checker(self) -> None:
        good = b"c \xff\np cnf 0 1\n0\n"
        for cnf, proof, reason in (
            (good, b"", f"{self.folder}: Is a directory"), (good, b"\xff 0 1 0\n", "line 1 of the proof: not a line of numbers with one space between them"),
            (good, f"{LONG} 0 1 0\n".encode(), "line 1 of the proof: a number of too many digits"),
            (f"p cnf {LONG} 1\n".encode(), b"x", "line 1 of the CNF: a header that is too long"),
        ):
            self.assert_said("lrat_checker.py", (cnf, proof), 1, b"", f"refused: {reason}\n".encode())
        self.assert_said("lrat_checker.py", (good, b"2 0 1 0\n"), 0, b"verified: 1 lines\n", b"")


class LongNumberTest(FolderCase):
    """Python reads no number of more than 4,300 digits, and each is a fault at its line."""

    def assert_line(self, line: str, text: str | bytes, *arguments: str) -> None:
        """The command over this file names it and the line, and writes nothing."""
        path = self.write("x", text)
        status, out, error = run(*arguments, path)
        self.assertEqual((status, out, error.count("\n")), (2, b"", 1))
        self.assertTrue(error.startswith(f"tools: {path}: {line}"), error[:300])
        self.assertLess(len(error), 400)

    def test_debian(self) -> None:
        for at, text in ((2, f"Package: a\nVersion: {LONG}\nArchitecture: all\n\n"),
                         (4, f"Package: a\nVersion: 1\nArchitecture: all\nDepends: a (>= 1-{LONG})\n\n")):
            self.assert_line(f"line {at}: `", text, "debian", "--arch", "amd64")

    def test_pypi(self) -> None:
        for member in (f'"version": "{LONG}"', f'"version": "1", "x": {LONG}', f'"version": "1", "requires_python": "<{LONG}"',
                       f'"version": "1", "requires_dist": ["a; python_version < \'{LONG}\'"]',
                       f'"version": "1", "requires_dist": ["a <{LONG}"]'):
            self.assert_line("line 2: ", f'\n{{"name": "a", {member}}}\n', "pypi", "catalogue")

    def test_cargo(self) -> None:
        for version, req in ((f"{LONG}.0.0", "1"), (f"1.0.0-{LONG}", "1"), ("1.0.0", LONG), ("1.0.0", f"<1.0.0-{LONG}")):
            entry = f'\n{{"name": "a", "vers": "{version}", "deps": [{{"name": "a", "req": "{req}"}}], "features": {{}}}}\n'
            self.assert_line("line 2: `", entry, "cargo", "catalogue")
        index = self.write("index", '{"name": "a", "vers": "1.0.0", "deps": [], "features": {}}\n')
        for text in (f'[package]\nname = "b"\nversion = "{LONG}.0.0"\n', f"x = {LONG}\n", "x = " + "[" * 100_000):
            self.assert_line("", text, "cargo", "catalogue", index, "--manifest")

    def test_conda(self) -> None:
        for version, number, spec in ((LONG, "0", "a"), (f"{LONG}!1", "0", "a"), ("1", LONG, "a"), ("1", "0", f"a <{LONG}")):
            entry = f'{{"name": "a", "version": "{version}", "build": "0", "build_number": {number}, "depends": ["{spec}"]}}'
            self.assert_line("line 2: ", f'{{"packages": {{\n"a": {entry}}}}}', "conda", "catalogue")

    def test_cudf(self) -> None:
        for at, text in ((2, f"package: a\nversion: {LONG}\n\nrequest: \n"),
                         (3, f"package: a\nversion: 1\ndepends: a > {LONG}\n\nrequest: \n"),
                         (2, f"preamble: \nproperty: x: int = [{LONG}]\n\nrequest: \n")):
            self.assert_line(f"line {at}: `", text, "cudf", "convert")

    def test_json_of_a_report(self) -> None:
        self.assert_line("has a number of more than 4300 digits", f'{{"format": {LONG}}}', "view", "json", "--back")
        self.assert_line("is nested too deep", "[" * 100_000, "view", "json", "--back")
        half = '{"format": "resolve report 1", "verdict": "refused", "catalogue_lines": [], "request_lines": [], "steps": [], "message": ["\\ud800"]}'
        self.assert_line("has half a sign", half, "view", "json", "--back")


class DamageTest(FolderCase):
    """Files that are packed otherwise, or have other ends of lines."""

    def test_wheels_that_cannot_be_unpacked(self) -> None:
        with zipfile.ZipFile(self.path("a.whl"), "w", zipfile.ZIP_DEFLATED) as wheel:
            wheel.writestr("a-1.dist-info/METADATA", METADATA + "x" * 100)
        with open(self.path("a.whl"), "rb") as source:
            good = source.read()
        central = good.find(b"PK\x01\x02")
        body = 30 + len("a-1.dist-info/METADATA")
        for places, byte in (([6, central + 8], 1), ([8, central + 10], 97), ([central + 6], 99), (range(body, body + 20), 0xff)):
            bad = bytearray(good)
            for place in places:
                bad[place] = byte
            path = self.write("a.whl", bytes(bad))
            status, out, error = run("pypi", "catalogue", self.folder)
            self.assertEqual((status, out, error.count("\n")), (2, b"", 1))
            self.assertTrue(error.startswith(f"tools: {path}: isn't a wheel: "), error)

    def test_carriage_returns_are_no_other_architecture(self) -> None:
        text = b"Package: a\r\nVersion: 1\r\nArchitecture: amd64\r\n\r\n"
        for name, data in (("x", text), ("x.gz", gzip.compress(text))):
            path = self.write(name, data)
            self.assert_fault(f"{path}: line 1: a carriage return; lines end with a newline alone", "debian", "--arch", "amd64", path)

    def test_a_line_of_blanks_parts_no_stanzas(self) -> None:
        for blanks in (" ", "\t"):
            path = self.write("x", f"Package: a\nVersion: 1\nArchitecture: i386\n{blanks}\nPackage: b\nVersion: 1\nArchitecture: all\n\n")
            self.assert_fault(f"{path}: line 5: the stanza has `Package` already", "debian", "--arch", "amd64", path)


class NamesTest(FolderCase):
    """Names and words of strangers don't become lines of a catalogue, nor paths."""

    def test_words_of_the_grammar_are_names_of_packages(self) -> None:
        stanzas = "".join(f"Package: {name}\nVersion: 1\nArchitecture: all\n\n" for name in ("if", "and", "or"))
        entries = "".join(f'{{"name": "{name}", "version": "1"}}\n' for name in ("if", "and", "or"))
        for words, text in ((("debian", "--arch", "amd64"), stanzas), (("pypi", "catalogue"), entries)):
            status, out, error = run(*words, self.write("index", text), "--closure", "if", "and", "or")
            self.assertEqual((status, error, out.count(b"version _w")), (0, "", 3))
            self.assertEqual(run("check", self.write("catalogue", out)), (0, b"no fault\n", ""))

    def test_settings_are_one_word(self) -> None:
        path = self.write("index", '{"info": {"subdir": "x\\nversion evil 1"}, "packages": {}}')
        self.assert_fault(f"{path}: the settings `x\\nversion_evil_1` aren't one word of printable signs", "conda", "catalogue", path)
        stanza = self.write("stanza", "Package: a\nVersion: 1\nArchitecture: all\n\n")
        self.assert_fault("--arch: `a b` isn't the name of an architecture", "debian", stanza, "--arch", "a b")

    def test_a_dependency_is_no_path(self) -> None:
        for name in ("", "../../../etc/passwd", "a b", "a\\nversion evil 1"):
            entry = f'{{"name": "a", "vers": "1.0.0", "deps": [{{"name": "b", "req": "1", "package": "{name}"}}], "features": {{}}}}'
            path = self.write("index", entry + "\n")
            self.assert_fault(f"{path}: line 1: `{name}` isn't the name of a crate", "cargo", "catalogue", path)
        self.assert_fault("REQUIREMENT: `..` isn't the name of a crate", "cargo", "request", self.folder, "../a")

    def test_a_manifest_of_other_kinds(self) -> None:
        index = self.write("index", '{"name": "b", "vers": "1.0.0", "deps": [], "features": {}}\n')
        for text, reason in (("target = {x = 1}", "`x` isn't an object"), ("features = {x = 1}", "`x` isn't a list"),
                             ("features = {x = [1]}", "`x` isn't a list of texts"),
                             ('dependencies = {"a b" = "1"}', "`a b` isn't the name of a crate")):
            path = self.write("manifest", f'{text}\n[package]\nname = "a"\n')
            self.assert_fault(f"{path}: {reason}", "cargo", "catalogue", index, "--manifest", path)

    @unittest.skipIf(os.geteuid() == 0, "root reads all folders")
    def test_a_folder_that_cannot_be_read_is_not_passed_over(self) -> None:
        os.mkdir(self.path("shut"), 0)
        self.assert_fault(f"{self.path('shut')}: can't be read: Permission denied", "pypi", "catalogue", self.folder)
        os.chmod(self.path("shut"), 0o700)


if __name__ == "__main__":
    unittest.main()
