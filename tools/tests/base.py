"""What the tests share: texts kept as data, temporary folders, and runs of the command line inside this process."""
from __future__ import annotations

import contextlib
import io
import os
import shutil
import sys
import tempfile
import unittest
from unittest import mock

from tools import front, texts
from tools.bundle import Bundle, check_fit

HERE = os.path.dirname(os.path.abspath(__file__))
DATA = os.path.join(HERE, "data")
EXAMPLES = os.path.join(HERE, "..", "..", "examples")


def data_path(name: str) -> str:
    """A file of the tests' data, or of examples/."""
    path = os.path.join(DATA, name)
    return path if os.path.exists(path) else os.path.join(EXAMPLES, name)


def data_bytes(name: str) -> bytes:
    """The bytes of such a file."""
    with open(data_path(name), "rb") as source:
        return source.read()


def bundle_of(catalogue: bytes, request: bytes, report: bytes) -> Bundle:
    """A bundle of three texts."""
    listed = texts.read_catalogue(catalogue)
    asked, answer = texts.read_request(request, listed), texts.read_report(report)
    check_fit(listed, asked, answer)
    return Bundle(listed, asked, answer, texts.read_dictionary(listed))


class Output(io.TextIOWrapper):
    """Standard output or error that keeps what is written."""

    def __init__(self) -> None:
        super().__init__(io.BytesIO(), encoding="utf-8")

    def taken(self) -> bytes:
        """All that was written."""
        self.flush()
        return self.buffer.getvalue()


def run(*arguments: str, environment: dict[str, str] | None = None) -> tuple[int, bytes, str]:
    """Runs `resolve-tools` here: status, standard output, standard error."""
    out, error = Output(), Output()
    with contextlib.redirect_stdout(out), contextlib.redirect_stderr(error):
        with mock.patch.dict(os.environ, environment or {}):
            try:
                status = front.main(arguments)
            except SystemExit as end:
                status = end.code
    return status, out.taken(), error.taken().decode()


class FolderCase(unittest.TestCase):
    """A test with a folder of its own."""

    maxDiff = None

    def setUp(self) -> None:
        # the progress line after a second, on a busy machine
        self.enterContext(mock.patch("tools.files.SLOW", 600))
        # the solver for apt raises it, and readers in C then go as deep as the stack breaks
        self.addCleanup(sys.setrecursionlimit, sys.getrecursionlimit())
        self.folder = tempfile.mkdtemp()
        self.addCleanup(shutil.rmtree, self.folder)

    def path(self, name: str) -> str:
        """A path in the folder."""
        return os.path.join(self.folder, name)

    def write(self, name: str, data: bytes | str) -> str:
        """Writes a file into the folder and gives its path."""
        with open(self.path(name), "wb") as out:
            out.write(data.encode() if isinstance(data, str) else data)
        return self.path(name)

    def assert_fault(self, wanted: str, *arguments: str, status: int = 2) -> None:
        """The command writes nothing, and this error."""
        before = sorted(os.listdir(self.folder))
        self.assertEqual(run(*arguments), (status, b"", f"tools: {wanted}\n"))
        self.assertEqual(sorted(os.listdir(self.folder)), before)
